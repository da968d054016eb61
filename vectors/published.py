"""Writes the bounds `published`: values as printed, each as the two ends half a unit of its last digit away."""
from decimal import Decimal

import bounds
from bounds import DENSITY, FAA, HEIGHT, NWS, PRESSURE, SATURATION, SOUND, TEMPERATURE

EARTH_RADIUS_M = 6356766


def geometric(height_m):
    """The altitude whose geopotential height is height_m."""
    return EARTH_RADIUS_M * height_m / (EARTH_RADIUS_M - height_m)


# ICAO Doc 7488 and ISO 2533: geopotential height m, K, Pa or None
BASES = [
    (0, "288.15", "101325"),
    (11000, "216.65", "22632"),
    (20000, "216.65", "5474.9"),
    (32000, "228.65", "868.02"),
    (47000, "270.65", "110.91"),
    (51000, "270.65", None),
    (71000, "214.65", None),
]

# the same documents, read backwards: Pa, geopotential height m
HEIGHTS = [
    (22632, "11000"),
    (5474.9, "20000"),
    (868.02, "32000"),
    (110.91, "47000"),
    (66.939, "51000"),
    (3.9564, "71000"),
]

# ICAO Doc 7488, the heights of the standard pressure levels: Pa, geopotential height m
LEVELS = [
    (85000, "1457"),
    (70000, "3012"),
    (50000, "5574"),
    (40000, "7185"),
    (30000, "9164"),
    (25000, "10363"),
    (20000, "11784"),
    (15000, "13608"),
    (10000, "16180"),
    (7000, "18442"),
    (5000, "20576"),
    (3000, "23849"),
    (2000, "26481"),
    (1000, "31055"),
]

# U.S. Standard Atmosphere 1976, table I: geometric altitude m, K, Pa or None
BETWEEN = [
    (1000, "281.651", "89876"),
    (5000, "255.676", "54048"),
    (15000, "216.650", None),
    (30000, "226.509", "1197.0"),
    (40000, "250.350", "287.14"),
    (60000, "247.021", None),
    (70000, "219.585", None),
    (80000, "198.639", None),
]

# IAPWS SR1-86 (1992): K, hPa
SATURATIONS = [(273.16, "6.11657"), (373.1243, "1013.25"), (647.096, "220640")]


def values():
    """Yields (figure, inputs, the value as printed)."""
    layers = [(geometric(height), *printed) for height, *printed in BASES] + BETWEEN
    for altitude, temperature, pressure in layers:
        yield TEMPERATURE, (altitude,), temperature
        if pressure:
            yield PRESSURE, (altitude,), pressure
    for temperature, pressure in SATURATIONS:
        yield SATURATION, (temperature,), pressure
    # Kaye and Laby: dry air at 0 degrees Celsius and 1013.25 hPa, kg/m3
    yield DENSITY, (0, 1013.25, 0), "1.293"
    # ICAO Doc 7488: the speed of sound at sea level, m/s
    yield SOUND, (288.15, 101325, 0), "340.294"
    for pressure, height in HEIGHTS + LEVELS:
        yield HEIGHT, (pressure,), height
    # the National Weather Service's formula and the FAA's rule at standard pressure, 15 and 25 degrees Celsius, ft
    yield NWS, (1013.25,), "0"
    yield FAA, (1013.25, 59), "0"
    yield FAA, (1013.25, 77), "1200"


def line(figure, inputs, printed):
    value = Decimal(printed)
    half = Decimal((0, (5,), value.as_tuple().exponent - 1))
    return bounds.figure_line(figure, map(float, inputs), float(value - half), float(value + half))


bounds.write("published", (line(*v) for v in values()))
