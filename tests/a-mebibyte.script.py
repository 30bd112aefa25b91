#!/usr/bin/env python3
"""An update has at most a mebibyte."""

MOST = 1_048_576

print("# run")
print("# An update of a mebibyte is read back.")
print("create\n# blob 1")
print(f"append 1 {'5a' * MOST}\n# version 1 at 0 size {MOST}")
print(f"read 1 1 0 {MOST}\n# data {'5a' * MOST}")
print()
print("# run")
print("# One with a byte more is refused.")
print("create\n# blob 1")
print(f"append 1 {'5a' * (MOST + 1)}\n# error update-too-long {MOST + 1}")
print("status 1\n# status assigned 0 published 0 held 0")
