#!/usr/bin/env python3
"""Prints a run in which two hundred connections, one after another, each make a blob, and then two hundred at once each work in one of these."""
PEERS = 200

print("# serve --workers 16")
print("# Two hundred peers at once get their own replies.")
for blob in range(1, PEERS + 1):
    print(f"maker {blob}: 00000001 01")
    print(f"# 00000009 81 {blob:016x}")
# Each appends the number of its blob, reads it, appends it again and asks how far the blob's updates are.
for blob in range(1, PEERS + 1):
    own = f"{blob:016x}"
    print(f"peer {blob} &: 00000011 02 {own} {own}")
    print(f"# 00000019 82 {1:016x} {0:016x} {8:016x}")
    print(f"peer {blob} &: 00000021 07 {own} {1:016x} {0:016x} {8:016x}")
    print(f"# 00000009 87 {own}")
    print(f"peer {blob} &: 00000011 02 {own} {own}")
    print(f"# 00000019 82 {2:016x} {8:016x} {16:016x}")
    print(f"peer {blob} &: 00000009 0b {own}")
    print(f"# 00000019 8b {2:016x} {2:016x} {0:016x}")
