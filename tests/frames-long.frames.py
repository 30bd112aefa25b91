#!/usr/bin/env python3
"""Frames that are as long as they may be, and longer, in both versions."""

MOST, MOST_AFTER_HELLO = 2_097_152, 17_825_792


def frame(operation, *fields, length=0):
    body = bytes([operation]) + b"".join(field.to_bytes(8, "big") for field in fields) + bytes(length)
    return (len(body).to_bytes(4, "big") + body).hex()


def ask(name, request, *replies):
    print(f"{name}: {request}", *(f"# {reply}" for reply in replies), sep="\n")


def longest(name, most):
    """An update of the longest frame is heard whole, and too long by itself. A longer frame is answered behind its last byte."""
    ask(name, frame(2, 1, length=most - 9), frame(255, 11, most - 9))
    ask(name, frame(1, length=most), frame(255, 18, most + 1))


print("# serve --workers 1")
print("# A frame has 2,097,152 bytes, and after hello 17,825,792; a longer one is answered behind its last byte, and not before.")
longest("first", MOST)
ask("first", frame(1), frame(129, 1))
longest("second", MOST)
ask("second", frame(1, length=MOST)[:-2])
ask("third", frame(14, 2), frame(142, 2))
longest("third", MOST_AFTER_HELLO)
ask("third", frame(1), frame(129, 2))
longest("fourth", MOST)
