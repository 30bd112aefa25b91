#!/usr/bin/env python3
"""What a request costs: instructions of the built program, counted by callgrind (Debian's valgrind), so that a busy machine changes nothing.

    tools/costs.py [PROGRAM]

The first table is of requests of `run` over blobs with pages of five sizes, and the second of lines of `files` where so many names are there
already. A figure is that of a script with a number of these lines at its end, less that of the script without, over their number. What the system
does for the program isn't counted. PROGRAM is crates/blobseer/out/blobseer unless another is named. It takes some five minutes.
"""
import random
import sys

from growth import TOP, instructions

PAGES = (256, 1_024, 4_096, 16_384, 65_536)
NAMES = (10, 1_000, 60_000)


def bytes_in_hex(chance, count):
    return chance.randbytes(count).hex()


def requests():
    """Each kind of request, with the lines before it and the lines that are measured."""
    chance = random.Random(5)
    short = ["create"] + [f"append 1 {bytes_in_hex(chance, 16)}" for _ in range(5_000)]
    whole = ["create"] + [f"append 1 {bytes_in_hex(chance, 4_096)}" for _ in range(500)]
    image = ["create", f"append 1 {bytes_in_hex(chance, 1 << 20)}"]

    def read(count, versions, size):
        version = chance.randrange(1, versions + 1)
        return f"read 1 {version} {chance.randrange(0, version * size - count + 1)} {count}"

    yield "`append` of 16 bytes", short, [f"append 1 {bytes_in_hex(chance, 16)}" for _ in range(5_000)]
    yield "`read` of 16 bytes of such a log", short, [read(16, 5_000, 16) for _ in range(5_000)]
    yield "`append` of 4,096 bytes", whole, [f"append 1 {bytes_in_hex(chance, 4_096)}" for _ in range(500)]
    yield "`read` of 4,096 bytes of such a log", whole, [read(4_096, 500, 4_096) for _ in range(500)]
    yield "`write` of 3,000 bytes anywhere", image, [f"write 1 {chance.randrange(0, (1 << 20) - 3_000)} {bytes_in_hex(chance, 3_000)}" for _ in range(1_000)]
    tickets = [line for n in range(2_000) for line in (f"start-append 1 {bytes_in_hex(chance, 16)}", f"finish {n + 1}")]
    yield "`start-append` or `finish`, 16 bytes", short, tickets
    yield "`create`", [], ["create"] * 5_000


def names(count):
    """Each kind of line about files, in a folder with so many names."""
    made = [f"make /file-{n}" for n in range(count)]
    turns = [n % count for n in range(1_000)]
    yield "`make`", made, [f"make /more-{n}" for n in range(1_000)]
    yield "`mkdir`", made, [f"mkdir /more-{n}" for n in range(1_000)]
    yield "`stat` of a file", made, [f"stat /file-{n}" for n in turns]


# The instructions of scripts without the lines that are measured, since several lines are measured behind the same ones.
ALONE = {}


def each(program, command, before, more):
    """The instructions of each of the lines."""
    key = (*command, *before)
    if key not in ALONE:
        ALONE[key] = instructions(program, command, before)
    return (instructions(program, command, before + more) - ALONE[key]) // len(more)


def told(name, costs):
    print(f"| {name} | " + " | ".join(f"{it:,}" for it in costs) + " |", flush=True)


def main():
    program = sys.argv[1:] or [f"{TOP}/crates/blobseer/out/blobseer"]
    print("| request, and bytes of a page | " + " | ".join(f"{it:,}" for it in PAGES) + " |")
    for name, before, more in requests():
        told(name, [each(program, ("run", "--page", str(it)), before, more) for it in PAGES])
    print("| line | " + " | ".join(f"{it:,} names" for it in NAMES) + " |")
    for rows in zip(*map(names, NAMES)):
        told(rows[0][0], [each(program, ("files",), before, more) for _, before, more in rows])


main()
