"""`python3 -m blobseer` is the program."""
import sys

from .command import main

if __name__ == "__main__":
    sys.exit(main())
