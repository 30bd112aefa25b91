#!/usr/bin/env python3
"""Page nodes behind a TCP port: each connection gets a node of its own, which keeps its pages until the connection ends.

    examples/node.py [--program PATH] [--page P] [HOST:PORT]

A node is a process of `blobseer node --page P`, with the connection in place of its input and its output: frames go in and replies come
out, as docs/FORMATS.md tells. HOST:PORT is 127.0.0.1:7450 unless another is named, P is 4096, and PATH is crates/blobseer/out/blobseer.
It ends by Ctrl-C. In another shell (bash), put the page "abc" and get its bytes 1 and 2:

    exec 3<>/dev/tcp/127.0.0.1/7450
    printf '\\0\\0\\0\\4\\40abc' >&3
    head -c 13 <&3 | od -An -tx1        # 00 00 00 09 a0 and the page's id, 0, in 8 bytes
    printf '\\0\\0\\0\\31\\41\\0\\0\\0\\0\\0\\0\\0\\0\\0\\0\\0\\0\\0\\0\\0\\1\\0\\0\\0\\0\\0\\0\\0\\2' >&3
    head -c 7 <&3 | od -An -tx1         # 00 00 00 03 a1 and "bc"
"""
import argparse
import os
import socket
import subprocess
import sys


def serve(server, words):
    """Starts a node for each connection."""
    nodes = []
    while True:
        connection, _ = server.accept()
        with connection:
            nodes.append(subprocess.Popen(words, stdin=connection, stdout=connection))
        # Those that ended are asked for their status, so that none is left over.
        nodes = [node for node in nodes if node.poll() is None]


def main():
    here = os.path.dirname(os.path.abspath(__file__))
    parser = argparse.ArgumentParser(description=__doc__, formatter_class=argparse.RawDescriptionHelpFormatter)
    parser.add_argument("address", metavar="HOST:PORT", nargs="?", default="127.0.0.1:7450")
    parser.add_argument("--program", metavar="PATH", default=f"{here}/../crates/blobseer/out/blobseer")
    parser.add_argument("--page", metavar="P", default="4096", help="the most bytes of a page, a power of two")
    given = parser.parse_args()
    if not os.access(given.program, os.X_OK):
        sys.exit(f"node: {given.program} is not there: build it by ./blobseer run </dev/null")
    host, _, port = given.address.rpartition(":")
    try:
        with socket.create_server((host, int(port))) as server:
            serve(server, [given.program, "node", "--page", given.page])
    except KeyboardInterrupt:
        sys.exit(130)
    except (OSError, ValueError) as fault:
        sys.exit(f"node: {given.address}: {fault}")


if __name__ == "__main__":
    main()
