"""Measures how far the rules of document 01 lie from the true values, at 60 places and at 52, and the estimate of the antilog from its
root: docs/HOW-NEAR.md has what it prints.

The rules in Python's whole numbers, the true values by mpmath at 400 bits. The only argument is the number of points for each line;
the estimate has twice as many.
"""

import random
import sys
from math import isqrt

from mpmath import exp, floor, log, mp, mpf, power

mp.prec = 400
POINTS = int(sys.argv[1])


def log_word(places, x):
    n, d = x.as_integer_ratio()
    e = n.bit_length() - d.bit_length()
    if n << max(-e, 0) < d << max(e, 0):
        e -= 1
    m = (n << 62 + max(-e, 0)) // (d << max(e, 0))
    bits = 0
    for _ in range(places):
        m = m * m >> 62
        bits = 2 * bits + (m >> 63)
        m >>= m >> 63
    return e * 2**places + bits


def root(places, f):
    y = 2**62
    for i in range(places):
        y = isqrt(y << 62 + (f >> i & 1))
    return y


def antilog(places, p):
    k, f = p >> places, p & 2**places - 1
    y = root(places, f)
    try:
        return (y << k) / 2**62 if k >= 0 else y / 2 ** (62 - k)
    except OverflowError:
        return float("inf")


def raised(places, q, x):
    n, d = q.as_integer_ratio()
    return antilog(places, log_word(places, x) * n // d)


def exp_rule(places, x):
    n, d = x.as_integer_ratio()
    return antilog(places, (n * 2**places // d) * 0x5C551D94AE0BF85D >> 62)


def ln_rule(places, x):
    return (log_word(places, x) * 0x2C5C85FDF473DE6A >> 62) / 2**places


# what 2^(i / 16^(j + 1)) exceeds 1 by, in units of 2^-(64 + 4 j), and 2^(1 / 2^60), in units of 2^-96: crates/antilog/src/estimate
EXCESSES = [[int(floor((power(2, mpf(i) / 16 ** (j + 1)) - 1) * 2 ** (64 + 4 * j))) for i in range(16)] for j in range(8)]
LAST_EXCESS = int(floor((power(2, mpf(1) / 2**60) - 1) * 2**96))


def estimate(f):
    a = 2**63
    for j, row in enumerate(EXCESSES):
        a += a * row[f >> 56 - 4 * j & 15] >> 64 + 4 * j
    return a + (a * (f & 2**28 - 1) * LAST_EXCESS >> 96)


def measure_estimate():
    """How far A lies below 2 T, where Y lies from A / 2, and how often the two ends of the window round apart."""
    draws = random.Random(14)
    fs = [draws.getrandbits(60) for _ in range(2 * POINTS)]
    halves = [estimate(f) // 2 for f in fs]
    above = [root(60, f) - half for f, half in zip(fs, halves)]
    apart = sum(float(half - 3) != float(half + 10) for half in halves)
    print("  estimate of the antilog, %d fractions" % len(fs))
    print("    A too small by: %.2f" % max(power(2, 63 + mpf(f) / 2**60) - estimate(f) for f in fs))
    print("    Y above A / 2: %d to %d" % (min(above), max(above)))
    print("    of 100 the roots decide: %.2f" % (100 * apart / len(fs)))


def off(answer, true):
    return abs(mpf(answer) / true - 1) * 2**53


G, R = 9.80665, 287.0531
LAPSES = {0: -0.0065, 2: 0.001, 3: 0.0028, 5: -0.0028, 6: -0.002}
LAYERS = [(0, 288.15, 101325, -0.0065), (11000, 216.65, 22632.1, 0), (20000, 216.65, 5474.89, 0.001), (32000, 228.65, 868.02, 0.0028)]
LAYERS += [(47000, 270.65, 110.91, 0), (51000, 270.65, 66.94, -0.0028), (71000, 214.65, 3.96, -0.002)]


def exponents():
    p = {i: -G / (lapse * R) for i, lapse in LAPSES.items()}
    t = [-lapse * R / G for lapse in LAPSES.values()]
    rho = {i: -G / (R * lapse) - 1.0 for i, lapse in LAPSES.items()}
    trop = G / (R * 0.0065) - 1.0
    table = [*p.values(), 1.0 / p[0], *t, 0.190284, 1.0 / 0.190284, trop, 1.0 / trop, rho[2], rho[3], rho[5]]
    return table + [1.0 / rho[i] for i in (2, 3, 5, 6)] + [1.5, 3.0, 3.5, 4.0, 7.5]


def pressure(places, altitude, real):
    """The standard pressure: by doubles with our rules, or by real numbers on the same doubles."""
    number = mpf if real else float
    h = number(altitude)
    height = 6356766.0 * h / (6356766.0 + h)
    base, kelvin, pascal, lapse = next(row for row in reversed(LAYERS) if row[0] <= height or row[0] == 0)
    d = height - base
    if lapse == 0:
        x = -G * d / (R * number(kelvin))
        return number(pascal) * (exp(x) if real else exp_rule(places, x))
    t = number(kelvin) + lapse * d
    q = -number(G) / (lapse * number(R))
    return number(pascal) * (power(t / kelvin, q) if real else raised(places, q, t / kelvin))


def any_double():
    return random.uniform(1, 2) * 2.0 ** random.randint(-1022, 1022)


def base_for(q):
    """A base whose power is normal, from all over the range."""
    limit = min(1000.0 / abs(q), 1000.0)
    return 2.0 ** random.uniform(-limit, limit)


for places in (60, 52):
    random.seed(14)
    unit = 2**places
    print(f"{places} places, {POINTS} points a line")
    xs = [any_double() for _ in range(POINTS)]
    print("  log word too small by, units of 2^-places: %.4f" % max(log(mpf(x), 2) * unit - log_word(places, x) for x in xs))
    fs = [random.getrandbits(places) for _ in range(POINTS)]
    print("  Y too small by: %.4f" % max(power(2, 62 + mpf(f) / unit) - root(places, f) for f in fs))
    if places == 60:
        measure_estimate()
    print("  relative distances in units of 2^-53, half a unit of a double's last place at 1:")
    worst = []
    for q in exponents():
        bases = [base_for(q) for _ in range(POINTS // 20)]
        worst.append((max(off(raised(places, q, x), power(mpf(x), mpf(q))) for x in bases), q))
    print("  power, |q| up to 8: %.3f at q = %r" % max(w for w in worst if abs(w[1]) < 8))
    print("  power, every q: %.3f at q = %r" % max(worst))
    print("  exp, -700 to 700: %.3f" % max(off(exp_rule(places, x), exp(mpf(x))) for x in (random.uniform(-700, 700) for _ in range(POINTS))))
    print("  ln, 2 or more and 1/2 or less: %.3f" % max(off(ln_rule(places, x), log(mpf(x))) for x in xs if not 0.5 < x < 2))
    for low, high in ((-500, 5000), (0, 84000)):
        hs = [random.uniform(low, high) for _ in range(POINTS)]
        print("  standard pressure, %d to %d m: %.3f" % (low, high, max(off(pressure(places, h, False), pressure(places, h, True)) for h in hs)))
