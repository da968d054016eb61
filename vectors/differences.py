"""Prints the sizes of docs/DIFFERENCES.md, table by table, and some that it leaves out.

Our figures are the proved library's (library.py), or the source's formulas with the source's constants (formulas.py); the others
are the same formulas with a document's constants, or a document's own formula, in real numbers.
"""

from itertools import product
from math import isnan, nextafter
from struct import pack, unpack

from mpmath import diff, exp, log, mpf, nstr, power, sqrt

import bounds
import formulas as f
import library as lib

FEET = 0.3048

# base height m, temperature K, pressure Pa and lapse K/m, as the source has them
LAYERS = [
    (0, "288.15", "101325", "-0.0065"),
    (11000, "216.65", "22632.1", "0"),
    (20000, "216.65", "5474.89", "0.001"),
    (32000, "228.65", "868.02", "0.0028"),
    (47000, "270.65", "110.91", "0"),
    (51000, "270.65", "66.94", "-0.0028"),
    (71000, "214.65", "3.96", "-0.002"),
]

# ICAO Doc 7488, U.S. Standard Atmosphere 1976 and the source
R_ICAO, R_US, R_SOURCE = mpf("287.05287"), mpf("8314.32") / mpf("28.9644"), f.R_AIR


def head(text):
    print(f"\n{text}")


def row(label, *values):
    print(f"  {label}: " + ", ".join(v if isinstance(v, str) else nstr(mpf(v), 9) for v in values))


def part(ours, theirs):
    """How much more ours is, as a part of theirs."""
    return "%+.3e" % float(mpf(ours) / mpf(theirs) - 1)


def doubles(hexes):
    return [unpack(">d", bytes.fromhex(h))[0] for h in hexes.split()]


def layer_ratio(index, height, r):
    """The pressure at a height in a layer, over that at its base."""
    base, kelvin, _, lapse = LAYERS[index]
    kelvin, lapse = mpf(kelvin), mpf(lapse)
    if lapse == 0:
        return exp(-f.G * (height - base) / (r * kelvin))
    return power(1 + lapse * (height - base) / kelvin, -f.G / (lapse * r))


def gas_constant():
    head("R of ICAO, of the U.S. Standard Atmosphere 1976, and the source's")
    for name, r in ("ICAO", R_ICAO), ("U.S.", R_US):
        ratios = [part(layer_ratio(0, mpf(km) * 1000, R_SOURCE), layer_ratio(0, mpf(km) * 1000, r)) for km in (1, 5, 11)]
        row(f"{name} {nstr(r, 9)}, standard pressure at 1, 5 and 11 km", *ratios)
        row(f"{name}, exponent", f.G / (f.LAPSE * r), f.EXPONENT)
        row(f"{name}, R and sound in dry air", part(R_SOURCE, r), part(sqrt(R_SOURCE), sqrt(r)))
    row("R / M_a", f.R / f.M_A, part(R_SOURCE, f.R / f.M_A))
    row("density with R of the SI", part(f.R, mpf("8.314462618")))
    row("density, 30 µmol/mol more CO2", mpf("12.011e-3") * mpf("30e-6") / f.M_A)


def base_pressures():
    head("base pressures against the chain of ICAO's formula, with ICAO's R and with the source's")
    chains = {R_ICAO: f.P_0, R_SOURCE: f.P_0}
    for index in range(1, 7):
        height, _, printed, _ = LAYERS[index]
        for r in chains:
            chains[r] *= layer_ratio(index - 1, height, r)
        row(f"{height} m, {printed} Pa", *[part(printed, chain) for chain in chains.values()])
    head("steps of the source's standard pressure at the bases, Pa, and as a part")
    for index in range(1, 7):
        height, _, printed, _ = LAYERS[index]
        below = mpf(LAYERS[index - 1][2]) * layer_ratio(index - 1, height, R_SOURCE)
        row(f"{height} m", mpf(printed) - below, part(printed, below))


def ends():
    head("the ends of the standard atmosphere")
    row("geopotential height of -5,000 and of 84,000 m", f.geopotential(mpf(-5000)), f.geopotential(mpf(84000)))
    row("altitude of 80 km of geopotential height", f.RADIUS * 80000 / (f.RADIUS - 80000))
    for altitude in (-6000.0, -5000.0, 84000.0, 90000.0):
        row(f"air at {altitude} m, K and Pa", *lib.standard(altitude)[1:])
    row("pressure altitude of 2,000, 0.001 and 0 hPa", *map(lib.pressure_altitude_m, (2000.0, 0.001, 0.0)))
    row("density-matched altitude of 2,000 hPa at 20 C", lib.density_matched_altitude_m(20.0, 2000.0, 0.0))


def cipm_saturation(celsius):
    """hPa, by CIPM-2007's own formula, A.1.1."""
    t = celsius + f.ICE_POINT
    return exp(mpf("1.2378847e-5") * t**2 - mpf("1.9121316e-2") * t + mpf("33.93711047") - mpf("6.3431645e3") / t) / 100


def ice_saturation(celsius):
    """hPa over ice: IAPWS R14-08 (2011)."""
    theta = (celsius + f.ICE_POINT) / mpf("273.16")
    terms = ("-21.2144006", "0.00333333333"), ("27.3203819", "1.20666667"), ("-6.10598130", "1.70333333")
    return mpf("6.11657") * exp(sum(mpf(a) * power(theta, mpf(b)) for a, b in terms) / theta)


def density_with(saturated, celsius, hpa, percent):
    t, p = mpf(celsius), mpf(hpa)
    return f.density_at(t, p, mpf(percent) / 100 * f.enhancement(t, 100 * p) * saturated / p)


def saturation():
    head("the saturation pressure of IAPWS against CIPM-2007's own")
    for t in (15, 27, 50, -40):
        row(f"{t} C", part(f.saturation_pressure(t + f.ICE_POINT), cipm_saturation(mpf(t))))
    for t, p, h in ((15, "1013.25", 50), (27, "600", 100), (50, "500", 100)):
        theirs = density_with(cipm_saturation(mpf(t)), t, p, h)
        row(f"density at {t} C, {p} hPa, {h} %", part(f.density(mpf(t), mpf(p), mpf(h)), theirs))
    head("over liquid water at every temperature")
    water, ice = f.saturation_pressure(mpf("253.15")), ice_saturation(mpf(-20))
    row("-20 C, Pa over water and over ice", 100 * water, 100 * ice, part(water, ice))
    for p in ("1013.25", "500"):
        row(f"saturated density there at {p} hPa", part(density_with(water, -20, p, 100), density_with(ice, -20, p, 100)))
    # x p / f at 100 percent is the saturation pressure
    row("hPa at 123.15 K", lib.mole_fraction_uncapped(-150.0, 10.0, 100.0) * 10 / f.enhancement(mpf(-150), mpf(1000)))
    for kelvin in (273.16, 373.1243, 647.096):
        row(f"check value at {kelvin} K, Pa", 100 * lib.saturation_pressure(kelvin))
    row("humid and dry density at 374 C, 1013.25 hPa", *[lib.air(0.0, 374.0, 1013.25, h)[1] for h in (50.0, 0.0)])


def compressibility():
    head("T floors at 173.15 K in the compressibility factor: dry density at 150 K")
    for hpa in (500.0, 1013.25, 1100.0):
        kelvin = mpf(150)
        true = 100 * mpf(hpa) * f.M_A / (f.compressibility(kelvin - f.ICE_POINT, 100 * mpf(hpa), mpf(0)) * f.R * kelvin)
        row(f"{hpa} hPa", part(lib.air(0.0, 150 - 273.15, hpa, 0.0)[1], true))
    head("0 hPa and less")
    row("density at 20 C of 0 and of -5 hPa", *[repr(lib.air(0.0, 20.0, p, 0.0)[1]) for p in (0.0, -5.0)])


def cramer(celsius, hpa, x):
    """Cramer (1993), equation (15), with 400 µmol/mol of CO2."""
    t, p, c = mpf(celsius), 100 * mpf(hpa), mpf("4e-4")
    a = "331.5024 0.603055 -0.000528 51.471935 0.1495874 -0.000782 -1.82e-7 3.73e-8 -2.93e-10 -85.20931 -0.228525 5.91e-5"
    a = [mpf(v) for v in (a + " -2.835149 -2.15e-13 29.179762 0.000486").split()]
    first = [a[i] + a[i + 1] * t + a[i + 2] * t**2 for i in (0, 3, 6, 9)]
    second = a[12] * x**2 + a[13] * p**2 + a[14] * c**2 + a[15] * x * p * c
    return first[0] + first[1] * x + first[2] * p + first[3] * c + second


def speed_of_sound():
    head("speed of sound, m/s: ours, Cramer's, the difference")
    for t, h in ((0.0, 0.0), (20.0, 50.0), (45.0, 100.0)):
        ours, theirs = lib.air(0.0, t, 1013.25, h)[2], cramer(t, 1013.25, f.mole_fraction(mpf(t), f.HPA_0, mpf(h)))
        row(f"{t} C, 1013.25 hPa, {h} %", ours, theirs, ours - theirs)
    x = f.mole_fraction(mpf(45), f.HPA_0, mpf(100))
    exact = sqrt(f.KAPPA * (1 - f.VAPOUR_GAMMA * x) * R_SOURCE / (1 - x * (1 - f.M_V / f.M_A)) * (45 + f.ICE_POINT))
    row("45 C, 100 %, with the gas constant not cut after x", exact, lib.air(0.0, 45.0, 1013.25, 100.0)[2])
    row("15 C, dry, and ICAO's", lib.air(0.0, 15.0, 1013.25, 0.0)[2], sqrt(f.KAPPA * R_ICAO * f.T_0))


def altitudes():
    head("the National Weather Service's altitude of ICAO's pressures, m")
    for height in (1000, 5000):
        row(f"{height} m", lib.pressure_altitude_m(float(f.P_0 * layer_ratio(0, mpf(height), R_ICAO) / 100)))
    for hpa in (226.1532757995951, 1777.253793645699):
        row(f"of {hpa!r} hPa and its neighbours", *map(lib.pressure_altitude_m, (nextafter(hpa, 0), hpa, nextafter(hpa, 9e9))))
    reference = lib.air(0.0, 15.0, 1013.25, 0.0)[1]
    row("reference density", reference, part(reference, 1.225))
    head("the FAA's rule at a pressure altitude of 10,000 ft and 0 C, ft")
    hpa = float(f.HPA_0 * power(1 - 10000 / f.NWS_FT, 1 / f.NWS_EXPONENT))
    row("ours", lib.faa_density_altitude_ft(hpa, 32.0))
    row("with 2 C a thousand feet, and with ICAO's lapse", *[10000 + 120 * (0 - (15 - cooler)) for cooler in (20, 6.5 * 3.048)])
    row("ICAO's lapse, F a thousand feet", 6.5 * FEET * 1.8)
    head("density altitude at 30 C and 1013.25 hPa, m")
    row("the FAA's", lib.faa_density_altitude_ft(1013.25, 86.0) * FEET)
    row("density-matched, at 0, 50 and 100 %", *[lib.density_matched_altitude_m(30.0, 1013.25, h) for h in (0.0, 50.0, 100.0)])


def nws_station_pressure(qnh, altitude, offset):
    """The National Weather Service's altimeter setting, solved for the station pressure, hPa."""
    n, k = f.NWS_EXPONENT, power(f.HPA_0, f.NWS_EXPONENT) * f.LAPSE / 288
    return power(power(mpf(qnh), n) - k * altitude, 1 / n) + mpf(offset)


def qnh():
    head("station pressure under a QNH: ours less the National Weather Service's, hPa, with its sensor offset and without")
    for setting, altitude in ((1013.25, 0.0), (1013.25, 1500.0), (1013.25, 5000.0)):
        ours = lib.reduced_qnh(setting, altitude)
        row(f"{setting} hPa at {altitude} m", *[ours - nws_station_pressure(setting, altitude, offset) for offset in ("0.3", "0")])
    head("a QNH of 1013.25 hPa above the troposphere, hPa, and the standard pressure")
    for altitude in (11000.0, 20000.0, 30000.0):
        row(f"{altitude} m", lib.reduced_qnh(1013.25, altitude), lib.standard(altitude)[2] / 100)
    low, high = 44000.0, 45000.0
    while high - low > 1e-6:
        middle = (low + high) / 2
        low, high = (low, middle) if isnan(lib.reduced_qnh(1013.25, middle)) else (middle, high)
    row("last altitude with a pressure, m", low)
    head("the station of a density altitude above the troposphere, none given: m, C, hPa, and the standard atmosphere's C and hPa")
    for altitude in (11000.0, 20000.0, 30000.0):
        _, kelvin, pascal = lib.standard(altitude)
        row(f"{altitude} m", *lib.for_density_altitude(altitude, None)[1:], kelvin - 273.15, pascal / 100)


def other_rows():
    head("the least density altitudes that are accepted: status there and at the next below")
    for temperature, least in ((None, -5.376252568408374e62), (15.0, -6.655800679689568e62)):
        row(f"{temperature} C, {least!r} m", *[lib.for_density_altitude(d, temperature)[0] for d in (least, nextafter(least, -1e99))])
    head("negative pressures with an altitude of 145366.45 ft")
    found = [count for count in range(1, 1000) if lib.nws_pressure_altitude_ft(-count * 5e-324) == 145366.45]
    assert found == list(range(1, len(found) + 1))
    row("how many, and the last, hPa", len(found), repr(-found[-1] * 5e-324))
    row("1,014 hPa at 3,310 m over the standard pressure", 101400 / lib.standard(3310.0)[2])


def height_of(pascal):
    """The source's geopotential height of a pressure, m: the layers' formulas from 101325 Pa up, with no printed base pressure."""
    base_pressure = f.P_0
    index = 0
    while index < 6 and pascal < (top := base_pressure * layer_ratio(index, LAYERS[index + 1][0], R_SOURCE)):
        index, base_pressure = index + 1, top
    base, kelvin, _, lapse = LAYERS[index]
    kelvin, lapse, ratio = mpf(kelvin), mpf(lapse), pascal / base_pressure
    if lapse == 0:
        return base - R_SOURCE * kelvin / f.G * log(ratio)
    return base + kelvin / lapse * (power(ratio, -lapse * R_SOURCE / f.G) - 1)


def outside_lines():
    """Each line of bounds/outside_*.txt: figure, three inputs, the library's answer, and how near ours has to be."""
    for path in sorted(bounds.FOLDER.glob("outside_*.txt")):
        for asked, place, low, high in bounds.read(path.stem):
            name, *inputs = asked.split()
            inputs = doubles(" ".join(inputs))
            low, high = doubles(f"{low} {high}")
            middle = (mpf(low) + mpf(high)) / 2
            yield (name, place), [*inputs, *[0.0] * (3 - len(inputs))], middle, mpf(high) - middle


def outside():
    head("beside other libraries, ours against the middle of the two ends in vectors/bounds/outside_*.txt: least and most")
    found = {}
    for figure, (a, b, c), theirs, near in outside_lines():
        if figure == bounds.TEMPERATURE:
            name, ours = "temperature", lib.standard(a)[1]
        elif figure == bounds.PRESSURE:
            name, ours = "pressure", lib.standard(a)[2]
        elif figure == bounds.SATURATION:
            name, ours = "saturation pressure", lib.saturation_pressure(a)
        elif figure == bounds.DENSITY:
            name, ours = "density, allowed %.1e" % (near / theirs), lib.air(0.0, a, b, c)[1]
        elif figure == bounds.SOUND:
            name = "dry sound by fluids" if near < 1e-4 else "sound, humid" if c else "sound, dry"
            ours = f.sound_at(mpf(a), mpf(0)) if near < 1e-4 else lib.air(0.0, a - 273.15, b / 100, c)[2]
        else:
            name, ours = "height", height_of(mpf(a))
        off = ours - theirs if figure == bounds.HEIGHT else ours / theirs - 1
        found.setdefault(name, []).append((float(off), (a, b, c)))
    for name, offs in found.items():
        row(f"{name}, {len(offs)} lines", *["%+.4e at %s" % end for end in (min(offs), max(offs))])
    for name in ("pressure", "height"):
        row(name, *["%+.2e at %.8g" % (off, inputs[0]) for off, inputs in found[name]])


def order():
    head("dry density where its order does not hold, of C and hPa")
    pairs = [
        "C03A5DFB16287558 408604A06C532AD4",
        "C03A5DFB16287550 408604A06C532AD4",
        "401F2792B641C100 408F94A7324B7A9C",
        "401F2792B641C100 408F94A7324B7A9D",
    ]
    for celsius, hpa in map(doubles, pairs):
        row(f"{celsius!r}, {hpa!r}", pack(">d", lib.air(0.0, celsius, hpa, 0.0)[1]).hex().upper())
    air = list(product(range(-40, 51, 5), range(500, 1101, 50)))
    falls = [-diff(f.density, (t, p, 0), (1, 0, 0)) for t, p in air]
    rises = [diff(f.density, (t, p, 0), (0, 1, 0)) for t, p in air]
    least = min(falls), min(rises)
    row("the formula's least slope, kg/m3 for a C and for a hPa", *least)
    row("two distances of 2^-47 kg/m3 are overcome by C and hPa", *[mpf(2) ** -46 / slope for slope in least])


for table in (gas_constant, base_pressures, ends, saturation, compressibility, speed_of_sound, altitudes, qnh, other_rows, outside, order):
    table()
