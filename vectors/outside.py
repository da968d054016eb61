"""Writes the bounds `outside_*`: what two public libraries answer, each figure as two ends. README.md says how far apart and why.

The libraries are Debian's python3-iapws (IAPWS-95, the vapour pressure equation, TEOS-10's humid air) and python3-fluids (U.S.
Standard Atmosphere 1976).
"""

from itertools import product
from math import exp, log

import bounds
from bounds import DENSITY, HEIGHT, PRESSURE, SATURATION, SOUND, TEMPERATURE
from fluids.atmosphere import ATMOSPHERE_1976
from iapws import IAPWS95
from iapws.humidAir import Air, HumidAir

KELVIN = 273.15
MPA_PER_HPA = 1e-4
VAPOUR_LIGHTER = 1 - IAPWS95.M / Air.M

# kJ/(kg K), and it only steers an iteration
R_VAPOUR = 0.4615

# Half a unit of the last digit that the source keeps: of its gas constant, as a part of it, and of its base pressures, Pa, by height m.
R_ROUNDED = 0.00005 / 287.0531
BASE_ROUNDED = {0: 0, 11000: 0.05, 20000: 0.005, 32000: 0.005, 47000: 0.005, 51000: 0.005, 71000: 0.005}

# A dozen operations on doubles, on either side.
ROUNDINGS = 1e-14

ALTITUDES_M = [
    *[-500, 0, 100, 500, 1000, 1500, 2000, 3000, 4000, 5000, 8000, 11000],
    *[15000, 20000, 25000, 30000, 40000, 50000, 60000, 70000, 75000, 80000],
]

# CIPM-2007's own range, and what lies around it: degrees Celsius, hPa, percent
PRESSURES_HPA = [500, 600, 850, 1013.25, 1100]
HUMIDITIES = [0, 25, 50, 75, 100]
AIR = list(product([-20, -10, 0, 10, 15, 18, 21, 24, 27, 30, 35, 40, 45, 50], PRESSURES_HPA, HUMIDITIES))
MOST_VAPOUR_OF_CIPM = 0.06


def newton(x, function):
    """A root near x of a function that gives its value and its slope."""
    for _ in range(50):
        value, slope = function(x)
        step = value / slope
        x -= step
        if abs(step) < 1e-11 * abs(x):
            return x
    raise ArithmeticError("no root")


def density_at(mpa, helmholtz, start):
    """The density at a pressure, by the Helmholtz energy's derivatives."""

    def excess(density):
        f = helmholtz(density)
        slope = 2 * density * f["fird"] + density**2 * f["firdd"]
        return density**2 * f["fird"] / 1000 - mpa, slope / 1000

    return newton(start, excess)


def dry_mass_fraction(mole_fraction):
    return (1 - mole_fraction) / (1 - mole_fraction * VAPOUR_LIGHTER)


def humid_air(kelvin, mpa, mole_fraction):
    """TEOS-10's density, sound speed, and chemical potential of the vapour."""
    air, dry = HumidAir(), dry_mass_fraction(mole_fraction)
    density = density_at(mpa, lambda rho: air._fav(kelvin, rho, dry), mpa * 1e6 / (287 * kelvin))
    f = air._fav(kelvin, density, dry)
    return density, air._prop(kelvin, density, f)["w"], f["fir"] + density * f["fird"] - dry * f["fira"]


def saturated_mole_fraction(kelvin, mpa):
    """Where the vapour's chemical potential is that of liquid water. iapws looks for it from a poor start and misses it at times."""
    water = IAPWS95()
    density = density_at(mpa, lambda rho: water._derivDimensional(rho, kelvin), 1000)
    f = water._derivDimensional(density, kelvin)
    liquid = f["fir"] + density * f["fird"]
    fraction = IAPWS95._Vapor_Pressure(kelvin) / mpa
    for _ in range(50):
        excess = (humid_air(kelvin, mpa, fraction)[2] - liquid) / (R_VAPOUR * kelvin)
        fraction *= exp(-excess)
        if abs(excess) < 1e-11:
            return fraction
    raise ArithmeticError("no saturation")


def saturations():
    for kelvin in [233.15 + 5 * i for i in range(19)] + [KELVIN + 0.01, *range(340, 641, 20), 647]:
        hpa = IAPWS95._Vapor_Pressure(kelvin) / MPA_PER_HPA
        yield SATURATION, (kelvin,), hpa, 5e-14 * hpa


def densities():
    for (celsius, hpa, percent), (density, _, fraction) in zip(AIR, ANSWERS):
        if 15 <= celsius <= 27 and 600 <= hpa <= 1100:
            near = 2.2e-5
        elif fraction <= MOST_VAPOUR_OF_CIPM:
            near = 4.4e-5
        else:
            near = 2e-4
        yield DENSITY, (celsius, hpa, percent), density, near * density


def sounds():
    for (celsius, hpa, percent), (_, sound, fraction) in zip(AIR, ANSWERS):
        near = 5e-4 + (VAPOUR_LIGHTER * fraction) ** 2 / 2
        yield SOUND, (celsius + KELVIN, hpa * 100, percent), sound, near * sound
    for altitude in ALTITUDES_M:
        air = ATMOSPHERE_1976(altitude)
        yield SOUND, (air.T, air.P, 0), air.v_sonic, (R_ROUNDED / 2 + ROUNDINGS) * air.v_sonic


def layers():
    for altitude in ALTITUDES_M:
        air = ATMOSPHERE_1976(altitude)
        yield TEMPERATURE, (altitude,), air.T, 0
        above = R_ROUNDED * abs(log(air.P_layer / air.P))
        base = BASE_ROUNDED[int(air.H_layer)] / air.P_layer
        yield PRESSURE, (altitude,), air.P, (base + above + ROUNDINGS) * air.P
        # The heights start from sea level, where no pressure is rounded. A part of a pressure is as much of the scale height R T / g.
        scale_height = 8314.32 / 28.9644 * air.T / 9.80665
        yield HEIGHT, (air.P,), air.H, scale_height * (R_ROUNDED * abs(log(101325 / air.P)) + ROUNDINGS)


def line(figure, inputs, value, width):
    """The ends lie `width` to either side of the value."""
    return bounds.figure_line(figure, inputs, value - width, value + width)


def air_at(celsius, hpa, percent):
    """Density and sound speed to ten digits, since the roots are found to some eleven; and the mole fraction of vapour."""
    kelvin, mpa = celsius + KELVIN, hpa * MPA_PER_HPA
    fraction = percent / 100 * saturated_mole_fraction(kelvin, mpa) if percent else 0.0
    density, sound, _ = humid_air(kelvin, mpa, fraction)
    return float(f"{density:.9e}"), float(f"{sound:.9e}"), fraction


ANSWERS = [air_at(*air) for air in AIR]
for name, values in ("saturation", saturations()), ("density", densities()), ("sound", sounds()), ("layers", layers()):
    bounds.write(f"outside_{name}", (line(*v) for v in values))
