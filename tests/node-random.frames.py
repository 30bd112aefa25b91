#!/usr/bin/env python3
"""Puts and gets that look like chance, the same ones each time, answered as a plain list of pages does."""

MOST = 4
FRAMES = 300


class Dice:
    """Numbers that look like chance, made from the first one."""

    def __init__(self, seed):
        self.last = seed

    def below(self, count):
        self.last = (self.last * 6364136223846793005 + 1442695040888963407) % 2**64
        return (self.last >> 33) % count


def frame(operation, *fields, data=b""):
    """Fields have 8 bytes, but for those that are bytes already."""
    parts = (field if isinstance(field, bytes) else field.to_bytes(8, "big") for field in fields)
    body = bytes([operation]) + b"".join(parts) + data
    return (len(body).to_bytes(4, "big") + body).hex()


def put(pages, dice):
    """A page of at most five bytes, which is one too many."""
    page = bytes(dice.below(256) for _ in range(dice.below(MOST + 2)))
    if not page:
        return frame(32), frame(255, 10)
    if len(page) > MOST:
        return frame(32, data=page), frame(255, 11, len(page))
    pages.append(page)
    return frame(32, data=page), frame(160, len(pages) - 1)


def get(pages, dice):
    """A part of a page, which may lie past its end, or be of the page that comes next."""
    page, first, length = dice.below(len(pages) + 1), dice.below(5), dice.below(5)
    request, end = frame(33, page, first, length), first + length
    if page == len(pages):
        return request, frame(255, 23, page)
    if end > len(pages[page]):
        return request, frame(255, 24, end.to_bytes(16, "big"), len(pages[page]))
    return request, frame(161, data=pages[page][first:end])


for seed in 1, 2, 3:
    print(f"# node --page {MOST}")
    print(f"# Puts and gets that look like chance, from the number {seed} on.")
    pages, dice = [], Dice(seed)
    for _ in range(FRAMES):
        request, reply = (put if dice.below(2) == 0 else get)(pages, dice)
        print(f"{request}\n# {reply}")
    print()
