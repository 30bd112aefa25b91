#!/usr/bin/env python3
"""A path has 16 names of 255 letters each at most; and bytes that stand in no path."""


def ask(path, is_path):
    print(f"stat {path}\n# error {f'no-name {path}' if is_path else 'malformed'}")


print("# files")
print("# A path has 16 names of 255 letters each at most.")
for names, letters, is_path in [
    (1, 255, True), (1, 256, False), (16, 1, True), (17, 1, False), (16, 255, True), (16, 256, False), (17, 255, False), (3, 0, False),
]:
    ask(("/" + "x" * letters) * names, is_path)
print()

print("# files")
print("# Bytes that aren't printed are in no path.")
for path in "/a\x7f", "/a\x01":
    ask(path, False)
