#!/usr/bin/env python3
"""A session holds sixty-four tickets."""

print("# run --page 4 --providers 3 --replicas 2")
print("# A session holds sixty-four tickets. Its own reasons come in their order, and before those of the store.")
print("create\n# blob 1")
for number in range(1, 65):
    print(f"start-append 1 61\n# ticket {number} version {number} at {number - 1} size {number}")
print("start-append 1 61\n# error too-many-tickets 64")
print("write 9 0 61\n# error too-many-tickets 64")
print("start-write 9 0 -\n# error empty-update")
print("finish 65\n# error no-ticket 65")
print("status 1\n# status assigned 64 published 0 held 1")
for number in range(1, 65):
    print(f"finish {number}\n# published {number}")
print("\n# No number is used again.")
print("finish 64\n# error no-ticket 64")
print("start-append 1 62\n# ticket 65 version 65 at 64 size 65")
print("finish 65\n# published 65")
print("read 1 65 63 2\n# data 6162")
