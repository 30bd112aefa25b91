#!/usr/bin/env python3
"""An update has a mebibyte, and after hello sixteen, until the connection ends: the next one, with the same worker, has a mebibyte again."""

LONG, LONGEST = 1_048_577, 16_777_217


def frame(operation, *fields, length=0):
    body = bytes([operation]) + b"".join(field.to_bytes(8, "big") for field in fields) + bytes(length)
    return (len(body).to_bytes(4, "big") + body).hex()


def ask(name, request, reply):
    print(f"{name}: {request}\n# {reply}")


print("# serve --workers 1")
print("# An update has a mebibyte, and after hello sixteen, until the connection ends.")
ask("first", frame(1), frame(129, 1))
ask("first", frame(4, 1, length=LONG), frame(255, 11, LONG))
ask("second", frame(14, 2), frame(142, 2))
ask("second", frame(4, 1, length=LONGEST), frame(255, 11, LONGEST))
ask("second", frame(4, 1, length=LONG), frame(132, 1, 1, 0, LONG))
ask("third", frame(4, 1, length=LONG), frame(255, 11, LONG))
