#!/usr/bin/env python3
"""Runs the program of the package `blobseer` beside this file, where that isn't installed: `blobseer.py HOST:PORT COMMAND ...`."""
import sys

if __name__ == "__main__":
    if sys.version_info < (3, 8):
        sys.stderr.write("blobseer: it needs Python 3.8 or later, and this is %d.%d\n" % sys.version_info[:2])
        sys.exit(2)
    from blobseer.command import main
    sys.exit(main())
