#!/usr/bin/env python3
"""A line has 4,194,304 bytes at most, its end not counted, of `run` and of `files`; a comment may have any length."""

MOST = 4_194_304


def begin(words, title):
    print(f"# {words}\n# {title}")


begin("run", "A line that is too long is malformed, unless it is a comment.")
print("#" * (MOST + 1))
print(f"{'a' * (MOST + 1)}\n# error malformed")
print("create\n# blob 1\n")

begin("files", "A line about files that is too long is malformed, unless it is a comment.")
print("#" * (MOST + 1))
print(f"{'a' * (MOST + 1)}\n# error malformed")
print("stat /\n# folder 0\n")

# The digits of bytes are an even number. A folder takes no bytes.
begin("files", "The longest append to a folder, whose end has a return before its line feed; one more byte makes it malformed.")
print(f"append / {'0' * (MOST - 10)}\r\n# error not-file /")
print(f"append / {'0' * (MOST - 8)}\r\n# error malformed")
print("quit\n# bye")
