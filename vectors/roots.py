"""Writes the questions of the list `roots`: radicands at and near both ends of the table's 768 intervals."""
from math import isqrt
from random import Random
from sys import argv

from words import save, word

# the table's radicands, and the width of an interval
FIRST, END, WIDTH = 2**124, 2**126, 2**116

# beyond them, where the first root serves
OUTSIDE = [0, 1, 2, 3, 4, 2**64 - 1, 2**64, FIRST - 1, END, END + 1, 2**128 - 1]


def near(start, end):
    """Both ends, the squares next to them and those less one."""
    up = isqrt(start - 1) + 1
    down = isqrt(end - 1)
    yield from [start, end - 1, up**2, (up + 1) ** 2 - 1, down**2, down**2 - 1]


def radicands():
    yield from OUTSIDE
    for start in range(FIRST, END, WIDTH):
        yield from near(start, start + WIDTH)
    random = Random(0)
    for _ in range(500):
        yield random.randrange(FIRST, END)
        root = random.randrange(isqrt(FIRST) + 1, isqrt(END - 1))
        yield from [root**2 - 1, root**2, root**2 + 2 * root]


def question(radicand):
    return f"root {word(radicand >> 64)} {word(radicand)}"


save(argv[1], "roots", map(question, radicands()))
