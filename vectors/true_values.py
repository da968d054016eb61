"""Writes the bounds `true_*`: inputs over the whole range, and between which two numbers the answer lies.

The true values are mpmath's, at 400 bits. How far an answer may lie from the true one follows from document 02, K14, and from the
floors of document 01's rules; the comment before each function says how. The variable PLACES is the number of places, 60 if it is
not set.
"""

import os
import random
import struct

import bounds
from mpmath import floor, log, mp, mpf, sqrt
from words import pattern, question, word

mp.prec = 400
PLACES = int(os.environ.get("PLACES", 60))
UNIT = 2**PLACES

# mpmath's own errors, and more: relative for powers and roots, absolute for logarithms.
SLACK = mpf(2) ** -300

# Document 01's constants, less than a unit of their last place below the true ones.
LOG2_E, LN_2 = mpf(0x5C551D94AE0BF85D) / 2**62, mpf(0x2C5C85FDF473DE6A) / 2**62
assert 0 < 1 / log(mpf(2)) - LOG2_E < mpf(2) ** -62
assert 0 < log(mpf(2)) - LN_2 < mpf(2) ** -62

INFINITY = float("inf")
SMALLEST, LARGEST_SUBNORMAL = 2.0**-1074, 2.0**-1022 - 2.0**-1074
SMALLEST_NORMAL, LARGEST = 2.0**-1022, (2 - 2.0**-52) * 2.0**1023


def bits(x):
    return struct.unpack("<Q", struct.pack("<d", x))[0]


def double(bits):
    return struct.unpack("<d", struct.pack("<Q", bits))[0]


def nearest(v):
    """The double nearest to an mpf. Python rounds the quotient of two integers once, subnormals too."""
    sign, digits, exponent, _ = v._mpf_
    try:
        size = int(digits) * 2 ** max(exponent, 0) / 2 ** max(-exponent, 0)
    except OverflowError:
        size = INFINITY
    return -size if sign else size


def log_words(p):
    """Its whole part in two's complement, and the remainder."""
    return f"{word(p // UNIT)} {word(p % UNIT)}"


def between(low, high):
    """Rounding keeps the order, so an answer that is rounded once lies between the rounded ends."""
    return pattern(nearest(low)), pattern(nearest(high))


def log2_units(x):
    return log(mpf(x), 2) * UNIT


def two_to(units, lost=0):
    """2 to so many units of the last place, less the part `lost`."""
    return mpf(2) ** (mpf(units) / UNIT) * (1 - lost)


# K14: L <= 2^PLACES log2 x < L + 2.
def log_line(x):
    true = log2_units(x)
    low, high = int(floor(true - SLACK)) - 1, int(floor(true + SLACK))
    return bounds.line(question("log_word", x), 1, log_words(low), log_words(high))


# K14: Y <= 2^(62 + f / 2^PLACES) < Y + 4, and Y is at least 2^62: an antilog is at most 2^-60 of itself too small.
def antilog_ends(low_units, high_units):
    return between(two_to(low_units, SLACK + mpf(2) ** -60), two_to(high_units, -SLACK))


def antilog_line(p):
    return bounds.line(f"antilog {log_words(p)}", 1, *antilog_ends(p, p))


# floor(L q) lies less than 1 below L q, and L q less than 2 |q| from 2^PLACES q log2 x, on the side that q's sign says.
def power_line(number, q, x):
    true = mpf(q) * log2_units(x)
    low, high = true - max(2 * q, 0) - 1, true + max(-2 * q, 0)
    return bounds.line(question(f"power {number}", x), 1, *antilog_ends(low, high))


# W lies less than 1 below 2^PLACES x, and P less than 1 below its product with the constant.
def exp_line(x):
    true = mpf(x) * UNIT
    return bounds.line(question("exp", x), 1, *antilog_ends(LOG2_E * (true - 1) - 1, LOG2_E * true))


# L lies less than 2 below 2^PLACES log2 x, and the whole number that is rounded less than 1 below its product with the constant.
def ln_line(x):
    true = log2_units(x)
    return bounds.line(question("ln", x), 1, *between((LN_2 * (true - 2) - 1 - SLACK) / UNIT, (LN_2 * true + SLACK) / UNIT))


# Correctly rounded. No root lies so near to the middle of two doubles that the slack would matter.
def sqrt_line(x):
    true = sqrt(mpf(x))
    return bounds.line(question("sqrt", x), 1, *between(true * (1 - SLACK), true * (1 + SLACK)))


def exponents():
    """The exponents of src/atmosphere.rs by their expressions there, numbered as in crates/elementary/specs/Exponents.antt."""
    g, r, nws, isa_lapse = 9.80665, 287.0531, 0.190284, 0.0065
    lapses = [-0.0065, 0.001, 0.0028, -0.0028, -0.002]
    pressure = [-g / (lapse * r) for lapse in lapses]
    temperature = [-lapse * r / g for lapse in lapses]
    density = [-g / (r * lapse) - 1.0 for lapse in lapses[1:]]
    troposphere = g / (r * isa_lapse) - 1.0
    return [
        *pressure,
        1.0 / pressure[0],
        *temperature,
        nws,
        1.0 / nws,
        troposphere,
        1.0 / troposphere,
        *density[:3],
        *[1.0 / d for d in density],
        *[1.5, 3.0, 3.5, 4.0, 7.5],
    ]


def evenly(low, high):
    return low + (high - low) * (random.getrandbits(53) / 2**53)


def positive_doubles():
    """Positive finite doubles: the ends of the ranges, powers of two, random patterns, subnormals, and the neighbourhood of 1."""
    yield from [SMALLEST, LARGEST_SUBNORMAL, SMALLEST_NORMAL, LARGEST, 1.0 - 2.0**-53, 1.0, 1.0 + 2.0**-52]
    yield from (2.0**e for e in range(-1074, 1024, 33))
    yield from (double(1 + random.getrandbits(64) % (bits(INFINITY) - 1)) for _ in range(400))
    yield from (double(1 + (random.getrandbits(52) >> random.randrange(52))) for _ in range(80))
    yield from (evenly(0.25, 4.0) for _ in range(250))


def antilog_words():
    yield from (k * UNIT for k in range(-1076, 1026, 33))
    yield from (k * UNIT + f for k in (-1, 0, 1) for f in (1, UNIT // 2, UNIT - 1))
    yield from (random.randrange(-1080 * UNIT, 1026 * UNIT) for _ in range(400))
    yield from (random.randrange(-1078 * UNIT, -1020 * UNIT) for _ in range(150))
    yield from (random.randrange(-UNIT, UNIT) for _ in range(150))


def power_bases(q):
    """Bases over the whole range, and bases whose powers lie over the whole range."""
    yield from [SMALLEST, SMALLEST_NORMAL, LARGEST, 1.0 - 2.0**-53, 1.0, 1.0 + 2.0**-52]
    yield from (double(1 + random.getrandbits(64) % (bits(INFINITY) - 1)) for _ in range(10))
    yield from (evenly(0.0, 2.0) for _ in range(25))
    for _ in range(15):
        x = nearest(two_to(mpf(evenly(-1076, 1025)) / q * UNIT))
        yield min(max(x, SMALLEST), LARGEST)


def exp_arguments():
    yield from [0.0, SMALLEST, -SMALLEST, 2.0**-52, -(2.0**-52), 1.0, -1.0]
    yield from (float(n) for n in range(-1099, 1024, 25))
    yield from (evenly(-1100.0, 1024.0) for _ in range(250))
    yield from (evenly(-745.2, -708.0) for _ in range(100))
    yield from (evenly(-2.0, 2.0) for _ in range(250))
    yield from (random.choice([-1, 1]) * nearest(two_to(evenly(-60, 9) * UNIT)) for _ in range(100))


def lists():
    yield "log", map(log_line, positive_doubles())
    yield "antilog", map(antilog_line, antilog_words())
    yield "power", (power_line(number, q, x) for number, q in enumerate(exponents()) for x in power_bases(q))
    yield "exp", map(exp_line, exp_arguments())
    yield "ln", map(ln_line, positive_doubles())
    yield "sqrt", map(sqrt_line, positive_doubles())


random.seed(0)
for name, lines in lists():
    bounds.write(f"true_{name}", lines)
