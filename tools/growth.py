#!/usr/bin/env python3
"""What an append, a read and a branch cost in small stores and in large ones: instructions of the built program, counted by callgrind (Debian's
valgrind). Prints tables, and draws them as docs/growth.svg.

    tools/growth.py [PROGRAM]

Blobs have pages of 64 bytes and one replica, and each append has 64 bytes, so each version adds one whole page. First the versions of each blob
grow, in stores of 10,000 versions together, or of one blob if it has as many or more. Then the blobs grow, each with one version; the operations
go to ten of them. An operation's instructions are those of a script with 2,000 of them at its end, less those of the script without. What the
system does for the program isn't counted. PROGRAM is crates/blobseer/out/blobseer unless another is named. It takes some five minutes.
"""
import math
import os
import re
import subprocess
import sys
import tempfile

TOP = os.path.dirname(os.path.dirname(os.path.abspath(__file__)))
COMMAND = ("run", "--page", "64", "--replicas", "1")
OPERATIONS = 2_000
VERSIONS = (10, 100, 1_000, 10_000, 100_000)
BLOBS = (10, 100, 1_000, 10_000, 60_000)
KINDS = {"append": "#1b6ca8", "read": "#c2571a", "branch": "#4c8c2b"}


def instructions(program, command, lines):
    """The instructions that the command takes for a script of these lines."""
    with tempfile.TemporaryFile() as script, tempfile.NamedTemporaryFile() as out:
        script.write("".join(f"{line}\n" for line in lines).encode())
        script.seek(0)
        words = ["valgrind", "--tool=callgrind", f"--callgrind-out-file={out.name}", *program, *command]
        run = subprocess.run(words, stdin=script, stdout=subprocess.DEVNULL, stderr=subprocess.PIPE, text=True)
    found = re.search(r"Collected : (\d+)", run.stderr)
    if run.returncode or not found:
        sys.exit(f"growth: the program ended with status {run.returncode}: {run.stderr}")
    return int(found[1])


def chance():
    """Numbers that look like chance, the same ones each time."""
    x = 1
    while True:
        x = x * 48271 % 2147483647
        yield x


def appended(blob, number):
    return f"append {blob} {blob:064x}{number:064x}"


def measured(program, blobs, versions, targets):
    """What one operation of each kind takes where so many blobs have so many versions each; the operations go to the targets by turns."""
    base = ["create"] * blobs + [appended(blob, i) for i in range(versions) for blob in range(1, blobs + 1)]
    turns = [targets[i % len(targets)] for i in range(OPERATIONS)]
    more = {
        "append": [appended(blob, i) for i, blob in enumerate(turns)],
        "read": [f"read {blob} {versions} {x % versions * 64} 64" for blob, x in zip(turns, chance())],
        "branch": [f"branch {blob} {versions}" for blob in turns],
    }
    alone = instructions(program, COMMAND, base)
    return {kind: (instructions(program, COMMAND, base + more[kind]) - alone) // OPERATIONS for kind in KINDS}


def told(name, counts, rows):
    print(f"{name:>10}" + "".join(f" {kind:>8}" for kind in KINDS) + "   instructions each")
    for count, row in zip(counts, rows):
        print(f"{count:>10,}" + "".join(f" {row[kind]:>8,}" for kind in KINDS), flush=True)


def panel(left, title, counts, rows, most):
    """One picture of the two, as lines of SVG: the counts go by tens to the right, the instructions from 0 up."""
    top, bottom, right = 60, 300, left + 300
    low, high = math.log10(counts[0]), math.log10(counts[-1])
    across = lambda count: left + (math.log10(count) - low) / (high - low) * (right - left)
    up = lambda cost: bottom - cost / most * (bottom - top)
    yield f'<text x="{left}" y="{top - 24}" font-weight="bold">{title}</text>'
    for cost in range(0, most + 1, most // 4):
        yield f'<line x1="{left}" y1="{up(cost):.1f}" x2="{right}" y2="{up(cost):.1f}" stroke="#ddd"/>'
        yield f'<text x="{left - 6}" y="{up(cost) + 4:.1f}" text-anchor="end">{cost:,}</text>'
    for count in counts:
        yield f'<text x="{across(count):.1f}" y="{bottom + 18}" text-anchor="middle">{count:,}</text>'
    highest = bottom + 14
    for kind, colour in sorted(KINDS.items(), key=lambda it: rows[-1][it[0]]):
        points = [(across(count), up(row[kind])) for count, row in zip(counts, rows)]
        # The names at the right stand beside their ends, but not over one another.
        highest = min(points[-1][1], highest - 14)
        yield f'<polyline fill="none" stroke="{colour}" stroke-width="2" points="{" ".join(f"{x:.1f},{y:.1f}" for x, y in points)}"/>'
        yield from (f'<circle cx="{x:.1f}" cy="{y:.1f}" r="3" fill="{colour}"/>' for x, y in points)
        yield f'<text x="{right + 8}" y="{highest + 4:.1f}" fill="{colour}">{kind}</text>'


def picture(by_versions, by_blobs):
    highest = max(cost for row in by_versions + by_blobs for cost in row.values())
    most = math.ceil(highest / 4_000) * 4_000
    return "\n".join(
        [
            '<svg xmlns="http://www.w3.org/2000/svg" width="860" height="340" font-family="sans-serif" font-size="12">',
            '<rect width="860" height="340" fill="white"/>',
            *panel(60, "Instructions of one operation, by versions of a blob", VERSIONS, by_versions, most),
            *panel(490, "by blobs of the store", BLOBS, by_blobs, most),
            "</svg>\n",
        ]
    )


def main():
    program = sys.argv[1:] or [f"{TOP}/crates/blobseer/out/blobseer"]
    by_versions = []
    for versions in VERSIONS:
        blobs = max(1, 10_000 // versions)
        by_versions.append(measured(program, blobs, versions, range(1, blobs + 1)))
    told("versions", VERSIONS, by_versions)
    by_blobs = [measured(program, blobs, 1, range(1, blobs + 1, blobs // 10)) for blobs in BLOBS]
    told("blobs", BLOBS, by_blobs)
    with open(f"{TOP}/docs/growth.svg", "w", encoding="utf-8") as it:
        it.write(picture(by_versions, by_blobs))


if __name__ == "__main__":
    main()
