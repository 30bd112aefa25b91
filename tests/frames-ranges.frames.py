#!/usr/bin/env python3
"""A read has from 1 to 64 ranges: here each is the byte 3 of a blob, and two are the bytes around it."""


def frame(operation, *fields, data=b""):
    body = bytes([operation]) + b"".join(field.to_bytes(8, "big") for field in fields) + data
    return (len(body).to_bytes(4, "big") + body).hex()


def ask(request, reply):
    print(f"{request}\n# {reply}")


print("# serve --page 4")
print("# A read has from 1 to 64 ranges.")
ask(frame(14, 2), frame(142, 2))
ask(frame(1), frame(129, 1))
ask(frame(2, 1, data=b"abcde"), frame(130, 1, 0, 5))
for count in 1, 2, 63, 64:
    ask(frame(15, 1, 1, *[3, 1] * count), frame(143, data=b"d" * count))
for count in 0, 65:
    ask(frame(15, 1, 1, *[3, 1] * count), frame(255, 19))
ask(frame(15, 1, 1, 2, 1, 4, 1), frame(143, data=b"ce"))
