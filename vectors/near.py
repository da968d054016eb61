"""Searches how far the figures lie from the documents' formulas in real numbers: docs/HOW-NEAR.md has what it prints.

The figures are the proved library's (library.py), the formulas those of formulas.py on the same doubles. The only argument is the
number of points for each line. A third of them is drawn, evenly or at an end of the range. From the sixteen worst of these, climbs go
on over neighbours, near and far, and keep what is farther off; then from the eight worst of those, and so on.
"""

import random
import sys
from math import log2, nextafter
from struct import pack

from mpmath import mpf

import formulas
import library

POINTS = int(sys.argv[1])
CLIMBS = 16, 8, 4, 2, 1

# document 01's ranges, and the troposphere above its lowest altitude
CELSIUS, HPA, PERCENT, METRES = (-40.0, 50.0), (500.0, 1100.0), (0.0, 100.0), (-500.0, 5000.0)
DRY = (0.0, 0.0)
KELVIN = (233.15, 323.15)
TROPOSPHERE = (-500.0, 11000.0)

# places of a record's answer, after its status
CELSIUS_SHOWN, HPA_SHOWN, DENSITY, SOUND, DENSITY_MATCHED, FRACTION = 2, 3, 4, 5, 7, 8


def figure(place):
    """A figure of the record with the altitude 0, a temperature, a measured pressure and a humidity."""
    return lambda t, p, h: library.judged(t01=0.0, t02=t, t05=h, t07=p)[place]


def standard_figure(place):
    """A figure of the record with an altitude and a humidity alone."""
    return lambda altitude, h=0.0: library.judged(t01=altitude, t05=h)[place]


def hold_saturation_pressure():
    """What follows from it is the library's mole fraction, bit for bit."""
    for _ in range(10000):
        t, p, h = (random.uniform(*of) for of in (CELSIUS, HPA, PERCENT))
        factor = 1.00062 + 3.14e-8 * (p * 100.0) + 5.6e-7 * t * t
        fraction = h / 100.0 * factor * library.saturation_pressure(t + 273.15) * 100.0 / (p * 100.0)
        assert fraction == library.mole_fraction_uncapped(t, p, h)


def standard_celsius(altitude):
    return formulas.standard_temperature(altitude) - formulas.ICE_POINT


def standard_hpa(altitude):
    return formulas.standard_pressure(altitude) / 100


def standard_density(altitude, percent):
    """The density of standard air with a humidity."""
    return formulas.density(standard_celsius(altitude), standard_hpa(altitude), percent)


# figure, unit, ranges of the inputs, library, formula
FIGURES = [
    ("density, dry", "kg/m3", (CELSIUS, HPA, DRY), figure(DENSITY), formulas.density),
    ("density", "kg/m3", (CELSIUS, HPA, PERCENT), figure(DENSITY), formulas.density),
    ("density, altitude alone", "kg/m3", (METRES, PERCENT), standard_figure(DENSITY), standard_density),
    ("mole fraction", "", (CELSIUS, HPA, PERCENT), figure(FRACTION), formulas.mole_fraction),
    ("speed of sound, dry", "m/s", (CELSIUS, HPA, DRY), figure(SOUND), formulas.sound),
    ("speed of sound", "m/s", (CELSIUS, HPA, PERCENT), figure(SOUND), formulas.sound),
    ("saturation pressure", "hPa", (KELVIN,), library.saturation_pressure, formulas.saturation_pressure),
    ("saturation pressure", "of itself", (KELVIN,), library.saturation_pressure, formulas.saturation_pressure),
    ("NWS pressure altitude", "m", (HPA,), library.pressure_altitude_m, formulas.nws_pressure_altitude),
    ("density-matched altitude, dry", "m", (CELSIUS, HPA, DRY), figure(DENSITY_MATCHED), formulas.density_matched_altitude),
    ("density-matched altitude", "m", (CELSIUS, HPA, PERCENT), figure(DENSITY_MATCHED), formulas.density_matched_altitude),
    ("QNH, reduced", "hPa", (HPA, METRES), library.reduced_qnh, formulas.reduced_qnh),
    ("standard temperature", "K", (TROPOSPHERE,), lambda h: library.standard(h)[1], formulas.standard_temperature),
    ("standard pressure", "Pa", (TROPOSPHERE,), lambda h: library.standard(h)[2], formulas.standard_pressure),
    ("standard temperature, shown", "C", (TROPOSPHERE,), standard_figure(CELSIUS_SHOWN), standard_celsius),
    ("standard pressure, shown", "hPa", (TROPOSPHERE,), standard_figure(HPA_SHOWN), standard_hpa),
]


def drawn(low, high):
    return random.choice((low, high)) if random.random() < 0.2 else random.uniform(low, high)


def moved(x, low, high):
    """A double of the range, one last place to the whole range away."""
    step = random.choice((-1, 1)) * (high - low) * 2.0 ** random.uniform(-53, 0)
    y = x + step
    if y == x:
        y = nextafter(x, x + step * 2.0**60)
    return min(max(y, low), high)


def climbed(point, ranges):
    """With one input moved, or all of them."""
    one = random.randrange(-1, len(ranges))
    return tuple(moved(x, *of) if one in (-1, i) else x for i, (x, of) in enumerate(zip(point, ranges)))


def worst(ranges, unit, answer, formula):
    """The greatest distance that is met, and where."""

    def distance(point):
        true = formula(*map(mpf, point))
        off = abs(answer(*point) - true)
        return float(off / true if unit == "of itself" else off), point

    def climb(here, steps):
        for _ in range(steps):
            here = max(here, distance(climbed(here[1], ranges)))
        return here

    found = sorted((distance(tuple(drawn(*of) for of in ranges)) for _ in range(POINTS // 3)), reverse=True)
    for climbs in CLIMBS:
        steps = 2 * POINTS // 3 // len(CLIMBS) // climbs
        found = sorted((climb(start, steps) for start in found[:climbs]), reverse=True)
    return found[0]


def text(ranges):
    return ", ".join("%g" % low if low == high else "%g..%g" % (low, high) for low, high in ranges)


random.seed(37)
hold_saturation_pressure()
print(f"{POINTS} points a line")
for name, unit, ranges, answer, formula in FIGURES:
    distance, point = worst(ranges, unit, answer, formula)
    patterns = " ".join(pack(">d", x).hex().upper() for x in point)
    print(f"{name:30} {text(ranges):28} {distance:.2e} {unit:9} 2^{log2(distance):.2f}  {patterns}  {point}")
