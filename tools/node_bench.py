#!/usr/bin/env python3
"""How many pages of 4,096 bytes a second a page node takes and gives over a pipe, beside `cat` through the same pipes.

    tools/node_bench.py [--pages N] [PROGRAM]

PROGRAM is crates/blobseer/out/blobseer unless another is named, and is called with `node --page 4096`. One thread writes the frames of N
puts (50,000 unless said otherwise) into the node's input while another reads the replies, and then the same with the frames of N gets, of
whole pages. `cat` is given the frames of the puts. Each is done three times, by turns, and the greatest number stands in the table. Let
nothing else run beside it.
"""
import argparse
import os
import subprocess
import sys
import threading
import time

PAGE = 4096
BATCH = 64
PIECE = 1 << 16


def number(n):
    return n.to_bytes(8, "big")


def frame(body):
    return len(body).to_bytes(4, "big") + body


def write_all(out, pieces):
    for piece in pieces:
        view = memoryview(piece)
        while view:
            view = view[os.write(out, view):]


def passed(process, pieces, wanted):
    """Writes the pieces while it reads as many bytes as are wanted; gives the seconds that both took, and the last bytes."""
    writer = threading.Thread(target=write_all, args=(process.stdin.fileno(), pieces))
    begun = time.perf_counter()
    writer.start()
    last = b""
    while wanted:
        last = os.read(process.stdout.fileno(), min(PIECE, wanted))
        if not last:
            sys.exit("node_bench: the program ended early")
        wanted -= len(last)
    writer.join()
    return time.perf_counter() - begun, last


def batches(frames):
    """The frames joined, so many to a write."""
    return [b"".join(frames[i:i + BATCH]) for i in range(0, len(frames), BATCH)]


def start(words):
    return subprocess.Popen(words, stdin=subprocess.PIPE, stdout=subprocess.PIPE, bufsize=0)


def main():
    here = os.path.dirname(os.path.abspath(__file__))
    parser = argparse.ArgumentParser(description=__doc__, formatter_class=argparse.RawDescriptionHelpFormatter)
    parser.add_argument("program", metavar="PROGRAM", nargs="?", default=f"{here}/../crates/blobseer/out/blobseer")
    parser.add_argument("--pages", metavar="N", type=int, default=50_000)
    given = parser.parse_args()
    pages = given.pages
    puts = batches([frame(b"\x20" + number(i) * (PAGE // 8)) for i in range(pages)])
    gets = batches([frame(b"\x21" + number(i) + number(0) + number(PAGE)) for i in range(pages)])
    best = {"cat": 0.0, "put": 0.0, "get": 0.0}

    def note(name, seconds):
        best[name] = max(best[name], pages / seconds)

    for _ in range(3):
        with start(["cat"]) as cat:
            note("cat", passed(cat, puts, pages * (PAGE + 5))[0])
            cat.stdin.close()
        with start([given.program, "node", "--page", str(PAGE)]) as node:
            # Before the clock is asked, the program runs: an empty put is refused.
            passed(node, [frame(b"\x20")], 13)
            seconds, last = passed(node, puts, pages * 13)
            if not last.endswith(number(pages - 1)):
                sys.exit("node_bench: the last reply has another id")
            note("put", seconds)
            seconds, last = passed(node, gets, pages * (PAGE + 5))
            if not last.endswith(number(pages - 1)):
                sys.exit("node_bench: the last page has other bytes")
            note("get", seconds)
            node.stdin.close()
    print(f"pages of {PAGE:,} bytes a second over a pipe, {pages:,} of them")
    for name, rate in best.items():
        print(f"{name:>5} {rate:12,.0f} {rate * PAGE / 2**20:8,.0f} MiB a second")


if __name__ == "__main__":
    main()
