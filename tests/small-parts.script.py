#!/usr/bin/env python3
"""A blob is written in small parts, and every range of every version is read."""

WRITES = 48


class Dice:
    """Draws numbers, the same at each run."""

    def __init__(self):
        self.state = 1

    def below(self, bound):
        self.state = (self.state * 75 + 74) % 65_537
        return self.state % bound


print("# run --page 4 --providers 3 --replicas 2")
print("# A blob that is written in small parts has in each version what was written up to it.")
dice, contents = Dice(), [b"abcdefghij"]
print(f"create\n# blob 1\nwrite 1 0 {contents[0].hex()}\n# version 1 at 0 size 10")
for byte in range(WRITES):
    at = dice.below(10)
    part = bytes([byte]) * (dice.below(3) + 1)
    content = contents[-1][:at] + part + contents[-1][at + len(part) :]
    contents.append(content)
    print(f"write 1 {at} {part.hex()}\n# version {len(contents)} at {at} size {len(content)}")
print("\n# Each range of each version.")
for version, content in enumerate(contents, 1):
    for offset in range(len(content)):
        for end in range(offset, len(content) + 1):
            print(f"read 1 {version} {offset} {end - offset}\n# data {content[offset:end].hex() or '-'}")
