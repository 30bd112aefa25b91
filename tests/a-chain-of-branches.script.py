#!/usr/bin/env python3
"""A chain of fifty branches, which is read back through every blob at every version."""

BRANCHES = 50


def read(blob, version, content):
    print(f"read {blob} {version} 0 6\n# data {content.hex()}")


print("# run --page 4 --providers 3 --replicas 2")
print("# A chain of fifty branches shares its past.")
print("create\n# blob 1\nappend 1 616263646566\n# version 1 at 0 size 6")
content = bytearray(b"abcdef")
contents = [bytes(content)]
for parent in range(1, BRANCHES + 1):
    branch, offset = parent + 1, parent % 6
    content[offset] = branch
    contents.append(bytes(content))
    print("\n# The blob goes on with a byte that no branch is to see. It is branched at the version before, which then gets a byte of its own.")
    print(f"write {parent} 5 21\n# version {branch} at 5 size 6")
    print(f"branch {parent} {parent}\n# blob {branch}")
    print(f"write {branch} {offset} {branch:02x}\n# version {branch} at {offset} size 6")
print("\n# What each blob shares, and its own version.")
for blob in range(1, BRANCHES + 2):
    for version in range(1, blob + 1):
        read(blob, version, contents[version - 1])
print("\n# What each blob but the last wrote before it was branched.")
for blob in range(1, BRANCHES + 1):
    read(blob, blob + 1, contents[blob - 1][:5] + b"!")
