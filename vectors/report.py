"""The report of a record's readings in the form that docs/PARK.md has, and the list `reports`.

The figures are those of the oracle, bit for bit, and so are the next trim class, the standard pressures and the air as given; a figure's
text is made from the double's exact value in fractions. Nothing of the proved code is called. Run as a program it writes the list's
questions to the folder that is its only argument.
"""

from fractions import Fraction
from math import inf, isfinite, nan, nextafter
from random import Random
from struct import pack, unpack
from sys import argv
from typing import NamedTuple

import oracle
import words

ALTITUDE, TEMPERATURE, STATION, QNH, HUMIDITY, DENSITY_ALTITUDE, MEASURED = range(1, 8)

NAMES = {
    ALTITUDE: "altitude",
    TEMPERATURE: "temperature",
    STATION: "station pressure",
    QNH: "QNH",
    HUMIDITY: "humidity",
    DENSITY_ALTITUDE: "density altitude",
    MEASURED: "measured pressure",
}

# name, decimals, unit
FIGURES = [
    ("altitude", 1, "m"),
    ("temperature", 2, "C"),
    ("station pressure", 3, "hPa"),
    ("density", 4, "kg/m3, the reference for the trim table"),
    ("speed of sound", 1, "m/s"),
    ("pressure altitude", 1, "m"),
    ("density-matched altitude", 1, "m"),
    ("vapour mole fraction", 6, "mol/mol"),
]
DENSITY = 3

# cause, what to do: docs/RECORD.md
REFUSALS = {
    1: ("density altitude not finite", "the sender computed it from a missing reading: mend that"),
    2: ("temperature not finite", "the thermometer is unplugged or broken"),
    3: ("temperature at or below -273.15 C", "wrong unit, or a raw count sent as degrees"),
    4: ("no air has this density altitude", "check the unit: feet sent as metres, or a height far outside the air"),
    5: ("header or data cut", "not sent whole: read it again, check the line"),
    6: ("unknown tag", "the sender speaks a newer form, or the bytes have slipped"),
    7: ("length not 8 (double) or 4 (count)", "the sender speaks a newer form, or the bytes have slipped"),
    8: ("tag repeated, or a reading in both forms", "two sensors answer for one reading: switch one off"),
    9: (
        "two of station pressure, QNH and measured pressure, or a density altitude with an altitude or a pressure",
        "send one pressure; send a density altitude with nothing but temperature and humidity",
    ),
    10: ("neither altitude nor density altitude", "set the mast's altitude"),
    11: ("altitude, a pressure or humidity not finite", "that sensor is unplugged or broken"),
    12: ("a pressure not above 0 hPa", "wrong unit, or a barometer without power"),
    13: ("humidity below 0 or above 100 percent", "calibrate the hygrometer"),
    14: ("more water vapour than there is air", "temperature, humidity and pressure do not belong together: check each"),
    15: ("a figure not finite, or pressure, density or sound speed not above 0", "no such air: check temperature and pressure"),
    17: ("a figure wider than its column", "check altitude and pressure"),
}
OF_A_SHEET = 17
AT_THE_KEYBOARD = {
    3: "type degrees Celsius, as temperature=24, or temperature=75F",
    4: "type metres, as density-altitude=2100, or density-altitude=7000ft",
    9: "give one of pressure=, station-pressure= and qnh=; density-altitude= stands without altitude= and a pressure",
    10: "add altitude=1586 with the altitude of the park",
    11: "check the altitude and the pressure, and their units",
    12: "type the pressure in hPa, as pressure=841.9",
    13: "type percent, as humidity=32",
}
READING_OF = {1: DENSITY_ALTITUDE, 2: TEMPERATURE, 3: TEMPERATURE, 4: DENSITY_ALTITUDE, 13: HUMIDITY}

CLASS_DENSITIES = [1.00, 1.05, 1.10, 1.15, 1.20, 1.25]

# by quantity and direction
CHANGES = {
    ("temperature", "up"): "C warmer",
    ("temperature", "down"): "C colder",
    ("pressure", "up"): "hPa higher",
    ("pressure", "down"): "hPa lower",
}

# of a pressure to the standard one at its altitude
LEAST_RATIO, GREATEST_RATIO = 0.85, 1.08

# in hPa
KILOPASCAL, INCH_OF_MERCURY = 10.0, 33.8639

# refusals of a record that is not read, so that there are no readings to report
NOT_READ = range(5, 9)

PLACES = 16


class Asked(NamedTuple):
    """The readings of a report; whether words were typed for them, and the altitude with a point that may mean thousands."""

    readings: dict
    typed: bool = False
    point: bool = False


# ---- readings: a double, or a count of thousandths as an int, by tag
def record_of(readings):
    """The record as the writer makes it: doubles first, then counts, each by rising tag, and NaN as the one pattern."""
    out = b""
    for tag, value in sorted(readings.items()):
        if isinstance(value, float):
            out += pack(">BHQ", tag, 8, 0x7FF8000000000000) if value != value else pack(">BHd", tag, 8, value)
    for tag, value in sorted(readings.items()):
        if isinstance(value, int):
            out += pack(">BHi", 16 + tag, 4, value)
    return out


def double_of(value):
    return value if isinstance(value, float) else value / 1000


def readings_of(record):
    """The readings of a record that is read."""
    readings = {}
    while record:
        tag, length = unpack(">BH", record[:3])
        data, record = record[3 : 3 + length], record[3 + length :]
        readings[tag % 16] = unpack(">d" if tag < 16 else ">i", data)[0]
    return readings


def judged(answer):
    """Of an answer to `judge`: a refusal's number, or eight doubles and the mark."""
    word, *rest = answer.split()
    if word == "refused":
        return int(rest[0])
    *digits, mark = (digits for digits in rest if digits != "air")
    return list(map(words.double, digits)), mark == "1"


def answers(records):
    """The oracle's answer to each record."""
    return map(judged, oracle.answers(f"judge {words.record(record)}" for record in records))


# ---- the text
def decimal(x, decimals):
    """The exact value to so many decimals, halves away from zero; what rounds to zero has no sign."""
    count = int(abs(Fraction(x)) * 10**decimals + Fraction(1, 2))
    digits = str(count).rjust(decimals + 1, "0")
    whole, part = digits[: len(digits) - decimals], digits[len(digits) - decimals :]
    return ("-" if x < 0 and count else "") + whole + (f".{part}" if part else "")


def shown(x, decimals):
    text = decimal(x, decimals)
    return text if len(text) <= PLACES else "too wide"


def trim_class(density):
    return sum(limit <= density for limit in CLASS_DENSITIES)


def given(readings, *tags):
    """The first of these readings that is there."""
    return next((double_of(readings[tag]) for tag in tags if tag in readings), None)


def air(altitude, celsius, hpa, humidity):
    return {ALTITUDE: altitude, TEMPERATURE: celsius, HUMIDITY: humidity or 0.0, MEASURED: hpa}


def asked_of(readings, figures):
    """The oracle's questions for the next class and the notes, by what they are needed for."""
    altitude, celsius, hpa = figures[:3]
    humidity = given(readings, HUMIDITY)
    t, p = given(readings, TEMPERATURE), given(readings, STATION)
    # no band acts at sea level, and air whose temperature and pressure are given is the same at every altitude
    searched = readings if {TEMPERATURE, MEASURED} <= readings.keys() else air(0.0, celsius, hpa, humidity)
    as_given = air(0.0, celsius if t is None else t, hpa if p is None else p, humidity)
    return {
        "next class": f"class {words.record(record_of(searched))}",
        "as given": f"judge {words.record(record_of(as_given))}",
        "temperature": words.question("resolve_station_temperature", t or 0.0, altitude),
        "pressure": words.question("resolve_station_pressure", p or 1.0, altitude),
        "standard": words.question("calculate_icao_standard_atmosphere", altitude),
        "standard in feet": words.question("calculate_icao_standard_atmosphere", 0.3048 * altitude),
        "reduced": words.question("reduce_qnh_to_station_pressure", given(readings, STATION, MEASURED) or 1.0, altitude),
        "QNH from kPa": words.question("reduce_qnh_to_station_pressure", KILOPASCAL * (given(readings, QNH) or 1.0), altitude),
        "QNH from inHg": words.question("reduce_qnh_to_station_pressure", INCH_OF_MERCURY * (given(readings, QNH) or 1.0), altitude),
    }


def value(answer):
    """The last word of an answer."""
    return nan if answer.split()[-1] == "nan" else words.double(answer.split()[-1])


def next_class(answer):
    match answer.split():
        case ["class", _, "none"]:
            return "no other class within 20 C or 20 hPa"
        case ["class", _, quantity, way, tenths, "class", other]:
            return f"next class {other} at {decimal(Fraction(int(tenths), 10), 1)} {CHANGES[quantity, way]}"


def air_as_given(answer):
    if isinstance(answer, int):
        return f"refused {answer}"
    density = answer[0][DENSITY]
    return f"density {shown(density, 4)} kg/m3, trim class {trim_class(density)}"


def is_plausible(hpa, standard_pa):
    return LEAST_RATIO <= 100 * hpa / standard_pa <= GREATEST_RATIO


def default_notes(readings, figures, said):
    """What stands in for a reading in its default band, or for one that is not given."""
    _, celsius, hpa = figures[:3]
    t, p = given(readings, TEMPERATURE), given(readings, STATION)
    by_density_altitude = DENSITY_ALTITUDE in readings
    as_given = air_as_given(judged(said["as given"]))
    if not by_density_altitude and t is not None and said["temperature"] == "none\n":
        mast = f"temperature {shown(t, 3)} C counts as that of a mast that is not set up, 14.9 to 15.1 C"
        yield f"note: {mast}: the standard atmosphere's {shown(celsius, 3)} C is used; as given: {as_given}"
    if not by_density_altitude and p is not None and said["pressure"] == "none\n":
        mast = f"station pressure {shown(p, 3)} hPa counts as that of a mast that is not set up, 1012.75 to 1013.75 hPa"
        yield f"note: {mast}: the standard atmosphere's {shown(hpa, 3)} hPa is used; as given: {as_given}"
    if t is None:
        yield f"note: no temperature is given: the standard atmosphere's {shown(celsius, 3)} C is used"
    if not by_density_altitude and given(readings, STATION, QNH, MEASURED) is None:
        yield f"note: no pressure is given: the standard atmosphere's {shown(hpa, 3)} hPa is used"
    if HUMIDITY not in readings:
        yield "note: no humidity is given: dry air is used"


def pressure_notes(readings, figures, said):
    """A pressure that does not belong to the altitude, and what it may be."""
    altitude, _, hpa = figures[:3]
    p, q = given(readings, STATION, MEASURED), given(readings, QNH)
    pressure = q if p is None else p
    standard, standard_in_feet = value(said["standard"]), value(said["standard in feet"])
    if pressure is None or is_plausible(hpa, standard):
        return
    ratio = shown(100 * hpa / standard, 3)
    there = f"the standard pressure at {shown(altitude, 1)} m, {shown(standard / 100, 3)} hPa"
    yield f"note: {shown(hpa, 3)} hPa is {ratio} times {there}: weather stays within 0.85 and 1.08"
    if p is not None and is_plausible(value(said["reduced"]), standard):
        yield f"try: qnh={shown(p, 3)} if it is a QNH"
    if q is not None and is_plausible(q, standard):
        yield f"try: pressure={shown(q, 3)} if it was measured at the station"
    if is_plausible(hpa, standard_in_feet):
        yield f"try: altitude={shown(given(readings, ALTITUDE), 3)}ft if the altitude is in feet"
    if is_plausible(KILOPASCAL * p if q is None else value(said["QNH from kPa"]), standard):
        yield f"try: {shown(pressure, 3)}kPa if the pressure is in kPa"
    if is_plausible(INCH_OF_MERCURY * p if q is None else value(said["QNH from inHg"]), standard):
        yield f"try: {shown(pressure, 3)}inHg if the pressure is in inches of mercury"


def range_notes(readings, figures):
    """What lies outside the range over which the figures were compared with the source, and what it may be."""
    altitude, celsius = figures[:2]
    t, x = given(readings, TEMPERATURE), given(readings, ALTITUDE, DENSITY_ALTITUDE)
    if not -40 <= celsius <= 50:
        yield f"note: {shown(celsius, 3)} C is outside -40 to 50 C, over which the figures were compared with the source"
        if t is not None and -40 <= (t - 32) * 5 / 9 <= 50:
            yield f"try: temperature={shown(t, 3)}F if it is in degrees Fahrenheit"
        if t is not None and -40 <= t - 273.15 <= 50:
            yield f"try: temperature={shown(t, 3)}K if it is in kelvins"
    if not -500 <= altitude <= 5000:
        yield f"note: {shown(altitude, 1)} m is outside -500 to 5000 m, over which the figures were compared with the source"
        if -500 <= 0.3048 * x <= 5000:
            yield f"try: {'altitude' if ALTITUDE in readings else 'density-altitude'}={shown(x, 3)}ft if it is in feet"


def other_notes(asked, figures):
    altitude, density, u = figures[0], figures[DENSITY], given(asked.readings, HUMIDITY)
    number = trim_class(density)
    if asked.point:
        yield f"note: the altitude was read as {shown(altitude, 3)} m: the point marks decimals, leave it out if it was meant for thousands"
    if u is not None and 0 < u <= 1:
        yield f"note: humidity {shown(u, 3)} percent is nearly dry air: type humidity={shown(100 * u, 3)} if it was a fraction"
    if number < len(CLASS_DENSITIES) and decimal(density, 4) == decimal(CLASS_DENSITIES[number], 4):
        limit = decimal(CLASS_DENSITIES[number], 4)
        yield f"note: the density is below {limit} kg/m3 by less than four decimals show: its class is {number}"
    if not {TEMPERATURE, MEASURED} <= asked.readings.keys():
        yield "note: the next class is searched from the temperature and the station pressure above"


def reading_of(number, readings):
    if number == 11:
        return next(t for t in (ALTITUDE, STATION, QNH, HUMIDITY, MEASURED) if t in readings and not isfinite(double_of(readings[t])))
    if number == 12:
        return next(t for t in (STATION, QNH, MEASURED) if t in readings and double_of(readings[t]) <= 0)
    return READING_OF.get(number)


def words_on(number, typed):
    """Cause and what to do."""
    cause, to_do = REFUSALS[number]
    return [f"cause: {cause}", f"what to do: {AT_THE_KEYBOARD.get(number, to_do) if typed else to_do}"]


def refusal_lines(asked, number):
    yield f"refused {number}"
    if (tag := reading_of(number, asked.readings)) is not None:
        yield f"reading: {NAMES[tag]}"
    yield from words_on(number, asked.typed)


def figure_lines(asked, answer, said):
    figures, mark = answer
    for (name, decimals, unit), x in zip(FIGURES, figures):
        yield f"{name:<24}{shown(x, decimals):>{PLACES}} {unit}"
    yield f"trim class {trim_class(figures[DENSITY])}"
    yield next_class(said["next class"])
    yield ("in" if mark else "outside") + " the range for which CIPM-2007 states its formula"
    yield from default_notes(asked.readings, figures, said)
    yield from pressure_notes(asked.readings, figures, said)
    yield from range_notes(asked.readings, figures)
    yield from other_notes(asked, figures)


def text_of(lines):
    return "".join(line + "\n" for line in lines)


def record_line(record):
    return "record " + record.hex().upper()


def reports(all_asked):
    """The report of each."""
    all_asked = list(all_asked)
    answered = list(answers(record_of(asked.readings) for asked in all_asked))
    questions = [
        {} if isinstance(answer, int) else asked_of(asked.readings, answer[0]) for asked, answer in zip(all_asked, answered)
    ]
    said = oracle.answers(question for asked in questions for question in asked.values())
    for asked, answer, needed in zip(all_asked, answered, questions):
        if isinstance(answer, int):
            lines = refusal_lines(asked, answer)
        else:
            lines = figure_lines(asked, answer, {name: next(said) for name in needed})
        yield text_of([*lines, record_line(record_of(asked.readings))])


def of_records(records, not_read):
    """The report of each record's readings, or what `not_read` says of the refusal's number and the record where it is not read."""
    answered = list(answers(records))
    texts = reports(Asked(readings_of(record)) for record, answer in zip(records, answered) if answer not in NOT_READ)
    return [not_read(answer, record) if answer in NOT_READ else next(texts) for record, answer in zip(records, answered)]


# ---- the readings of the list
def counts(readings):
    return {tag: round(double_of(value) * 1000) for tag, value in readings.items()}


def parks(random, count):
    """Drawn parks with each kind of pressure, in doubles, counts and both."""
    for i in range(count):
        readings = {ALTITUDE: random.uniform(-400, 3000), TEMPERATURE: random.uniform(-30, 45), HUMIDITY: random.uniform(0, 100)}
        readings[(MEASURED, MEASURED, QNH, STATION)[i % 4]] = random.uniform(700, 1060)
        for tag in (HUMIDITY, TEMPERATURE):
            if random.random() < 0.2:
                del readings[tag]
        whole = counts(readings)
        yield (readings, whole, {tag: random.choice([readings[tag], whole[tag]]) for tag in readings})[i % 3]


def at_limits(random, count):
    """Readings whose density lies about a class limit, so that each change may be the first."""
    for i in range(count):
        density = random.choice(CLASS_DENSITIES) * (1 + random.uniform(-1, 1) * random.choice([1e-5, 1e-3, 0.02]))
        celsius = random.choice([random.uniform(-30, 40), 14.85, 15.15, 16.0, 26.0])
        yield {ALTITUDE: random.choice([0.0, 500.0]), TEMPERATURE: celsius, MEASURED: density * 2.8705 * (celsius + 273.15)}


def pressure_first():
    """Readings about a class limit whose temperature stays in the default band, so that the pressure is the first to turn the class."""
    rows = [
        [{ALTITUDE: 100.0, TEMPERATURE: 15.0, MEASURED: density * 2.8705 * 287.5 * (1 + n * 2e-5)} for n in range(-60, 60)]
        for density in CLASS_DENSITIES
    ]
    answered = answers(record_of(readings) for row in rows for readings in row)
    for row in rows:
        classes = [trim_class(next(answered)[0][DENSITY]) for _ in row]
        turn = next(i for i in range(1, len(row)) if classes[i - 1] != classes[i])
        yield from row[turn - 1 : turn + 1]


def far_off():
    """No other class within reach, and changes that are refused."""
    for celsius, hpa in [(40.0, 500.0), (-40.0, 1200.0), (300.0, 1000.0), (20.0, 30000.0), (-273.1, 1000.0), (-273.0, 0.5), (20.0, 5.0), (90.0, 1000.0)]:
        yield {ALTITUDE: 100.0, TEMPERATURE: celsius, MEASURED: hpa}
        yield {ALTITUDE: 100.0, TEMPERATURE: celsius, MEASURED: hpa, HUMIDITY: 100.0}


def edges():
    """Figures that are halves of a last decimal, round to zero, or fill their column; and the ends of the mark's range."""
    air = {ALTITUDE: 0.0, TEMPERATURE: 20.0, MEASURED: 1000.0}
    wide = [99999999999999.94, 99999999999999.95, 1e15, 1e300, -9999999999999.94, -9999999999999.96, 123456789012345.6]
    for x in [0.25, 0.35, 0.75, -0.25, -0.05, -0.04, -0.0, 5e-324, 12.25, 0.05, 9.95, 9999.96, *wide]:
        yield {**air, ALTITUDE: x}
    for x in [20.125, 20.375, -0.005, -0.004, -0.0, 0.005, -20.125, 99.995, 1.005, 14.9, 15.0, 15.1, 27.0, 27.001, 14.999]:
        yield {**air, TEMPERATURE: x}
        yield {**air, TEMPERATURE: x, ALTITUDE: 300.0}
    for x in [1000.125, 1000.375, 1000.0625, 1000.1875, 1000.0005, 0.125, 599.999, 600.0, 1100.0, 1100.001, 1013.25, 1e-3, 1e5, 1e12, 1e16]:
        yield {**air, MEASURED: x}
        yield {**air, STATION: x} if x < 0 else {ALTITUDE: 5.0, STATION: x}
    for x in [0.0, -0.0, 5e-324, 1.0, 33.3, 99.9, 100.0]:
        yield {**air, HUMIDITY: x}
    yield {ALTITUDE: 0.0}
    yield {ALTITUDE: 0}
    yield {ALTITUDE: 1586000, TEMPERATURE: 24000, QNH: 1019300, HUMIDITY: 32000}
    yield {ALTITUDE: 60.0, TEMPERATURE: 17.6, MEASURED: 1008.3, HUMIDITY: 60.0}
    for n in [2147483647, -2147483648]:
        yield {ALTITUDE: n, TEMPERATURE: 20000, MEASURED: 1000000}


def density_altitudes():
    for d in [0.0, 1000.0, -500.5, 2499.95, 40000.0, 44283.0, 44284.0, nan, inf, -inf, 5280000]:
        yield {DENSITY_ALTITUDE: d}
        for t in [15.0, -40.25, 30500, nan, inf, -273.15, -300.0]:
            yield {DENSITY_ALTITUDE: d, TEMPERATURE: t}
        yield {DENSITY_ALTITUDE: d, HUMIDITY: 45.5}
        yield {DENSITY_ALTITUDE: d, TEMPERATURE: 28.0, HUMIDITY: 100.0}
        for h in [nan, -1.0, 100001]:
            yield {DENSITY_ALTITUDE: d, HUMIDITY: h}


def refused():
    """Each cause of each reading, alone and before another."""
    good = {ALTITUDE: 100.0, TEMPERATURE: 20.0, HUMIDITY: 50.0}
    for tag in (STATION, QNH, MEASURED):
        air = {**good, tag: 1000.0}
        for bad in [nan, inf, -inf]:
            for other in (ALTITUDE, TEMPERATURE, tag, HUMIDITY):
                yield {**air, other: bad}
            yield {**air, ALTITUDE: bad, tag: bad}
            yield {**air, HUMIDITY: bad, tag: bad}
            yield {**air, HUMIDITY: bad, tag: -1.0}
        for bad in [0.0, -0.0, -5e-324, -1000.0, 0, -1]:
            yield {**air, tag: bad}
            yield {**air, tag: bad, HUMIDITY: -1.0}
        for bad in [-273.15, -300.0, -273150, -1e300]:
            yield {**air, TEMPERATURE: bad}
        for bad in [-5e-324, 100.00000000000001, -1, 100001, 1e300]:
            yield {**air, HUMIDITY: bad}
        yield {**air, TEMPERATURE: 95.0, tag: 500.0, HUMIDITY: 100.0}
        yield {**air, TEMPERATURE: 1000.0, tag: 1013.5}
        yield {**air, TEMPERATURE: 1e300}
        yield {**air, tag: 1e308}
    every = {**good, STATION: 1000.0, QNH: 1000.0, MEASURED: 1000.0, DENSITY_ALTITUDE: 100.0}
    for tags in [(STATION, QNH), (STATION, MEASURED), (QNH, MEASURED), (ALTITUDE, DENSITY_ALTITUDE), (DENSITY_ALTITUDE, MEASURED), tuple(every)]:
        yield {tag: every[tag] for tag in tags}
        yield {tag: nan for tag in tags}
        yield counts({tag: every[tag] for tag in tags})
    yield {}
    for tag in (TEMPERATURE, STATION, HUMIDITY):
        yield {tag: every[tag]}


def about(x):
    """The double, and the next below and above."""
    return [nextafter(x, -inf), x, nextafter(x, inf)]


def at_tests():
    """Readings next to the ends of the notes' tests, and far past them."""
    station = {ALTITUDE: 1586.0, TEMPERATURE: 24.0, HUMIDITY: 32.0}
    for celsius in [*about(14.9), *about(15.1), *about(-40.0), *about(50.0), 75.2, *about(122.0), *about(233.15), *about(323.15), 1000.0, -200.0]:
        yield {**station, TEMPERATURE: celsius, MEASURED: 841.897}
        yield {DENSITY_ALTITUDE: 2100.0, TEMPERATURE: celsius}
    for hpa in [*about(1012.75), *about(1013.75), 1013.25]:
        for altitude in [*about(1.0), *about(-1.0), 1586.0]:
            yield {**station, ALTITUDE: altitude, STATION: hpa}
            yield {ALTITUDE: altitude, TEMPERATURE: 15.0, STATION: hpa}
    for x in [*about(-500.0), *about(5000.0), *about(-500 / 0.3048), *about(5000 / 0.3048), -1e4, 3e4]:
        yield {ALTITUDE: x, TEMPERATURE: 20.0}
        yield {DENSITY_ALTITUDE: x, TEMPERATURE: 20.0}
    for percent in [*about(1.0), 5e-324, 0.0005, 0.32, 0.99951]:
        yield {**station, HUMIDITY: percent, MEASURED: 841.897}
    yield {ALTITUDE: 9000.0, TEMPERATURE: 15.0, STATION: 1013.25, HUMIDITY: 100.0}
    # as given it has more water vapour than air
    for altitude in [3000.0, 5000.0]:
        yield {ALTITUDE: altitude, TEMPERATURE: 15.0, MEASURED: 16.0, HUMIDITY: 100.0}
        yield {ALTITUDE: -altitude, TEMPERATURE: 101.0, STATION: 1013.25, HUMIDITY: 100.0}
    yield {ALTITUDE: 1e17, TEMPERATURE: 1e5, MEASURED: 1e16}


def at_ratios():
    """Pressures whose ratio to the standard one lies next to a bound; as they are, by each try, and reduced from a QNH."""
    altitudes = [0.0, 1586.0, 3000.0, 5203.0]
    standards = oracle.answers(words.question("calculate_icao_standard_atmosphere", altitude) for altitude in altitudes)
    for altitude, standard in zip(altitudes, standards):
        for hpa in (value(standard) / 100 * bound for bound in (LEAST_RATIO, GREATEST_RATIO)):
            for factor in [1, 10, 33.8639]:
                yield from ({ALTITUDE: altitude, TEMPERATURE: 24.0, MEASURED: x} for x in about(hpa / factor))
            yield from ({ALTITUDE: altitude / 0.3048, TEMPERATURE: 24.0, MEASURED: x} for x in about(hpa))
            yield from ({ALTITUDE: altitude, TEMPERATURE: 24.0, QNH: x} for x in about(hpa))
    for hpa in [500.0, 700.0, 800.0, 870.0, 1019.3, 1080.0, 1200.0, 30.1, 84.19, 101.9]:
        for tag in (STATION, QNH, MEASURED):
            yield {ALTITUDE: 3310.128, TEMPERATURE: 24.0, tag: hpa}


def below_limits():
    """Densities next to a limit of the trim table, below it and where four decimals begin to show it."""
    for limit in CLASS_DENSITIES:
        rows = [{ALTITUDE: 0.0, TEMPERATURE: 24.0, MEASURED: hpa} for hpa in (limit * 853.0 + n / 100 for n in range(-150, 150))]
        said = [(trim_class(d), decimal(d, 4)) for d in (answer[0][DENSITY] for answer in answers(map(record_of, rows)))]
        turns = [i for i in range(1, len(rows)) if said[i - 1] != said[i] and decimal(limit, 4) in (said[i - 1][1], said[i][1])]
        yield from (rows[i + d] for i in turns for d in (-1, 0))


def unlike_the_writers(random):
    """Records that the writer would not make: not read, with fields in another order, with NaNs of other patterns."""
    good = record_of({ALTITUDE: 60.0, TEMPERATURE: 17.6, MEASURED: 1008300, HUMIDITY: 60000})
    fields = [good[:11], good[11:22], good[22:29], good[29:]]
    faults = [good[:-1], good[:30], good + b"\x08\x00\x08", b"\x01\x00\x04", good + fields[0], good + bytes(300), b"\xff"]
    faults += [good + pack(">BHi", 0x11, 4, 5), pack(">BHd", 0x11, 8, 5.0), good[:256] + bytes(1)]
    faults += [b"\x18\x00\x04", b"\x01\x00\x08" + bytes(8) + b"\x01\x00\x08" + bytes(8), good + b"\x16\x00\x08" + bytes(8)]
    yield from faults
    for _ in range(12):
        random.shuffle(fields)
        yield b"".join(fields)
    for pattern in [0x7FF0000000000001, 0xFFF8000000000000, 0xFFFFFFFFFFFFFFFF]:
        for tag in (ALTITUDE, TEMPERATURE, MEASURED, DENSITY_ALTITUDE):
            yield b"".join([pack(">BHQ", tag, 8, pattern), *(field for field in fields if field[0] % 16 != tag)])


def questions():
    random = Random(28)
    parts = [edges(), parks(random, 120), at_limits(random, 80), pressure_first(), far_off(), density_altitudes(), refused()]
    parts += [at_tests(), at_ratios(), below_limits()]
    records = [record_of(readings) for part in parts for readings in part]
    return [f"report {words.record(record)}" for record in [*records, *unlike_the_writers(random)]]


# of each note and try that a record's report may have
NOTES = [
    *["14.9 to 15.1 C", "1012.75 to 1013.75 hPa", "as given: density", "as given: refused 14"],
    *["no temperature is given", "no pressure is given", "no humidity is given", "weather stays", "if it is a QNH", "if it was measured"],
    *["if the altitude is in feet", "in kPa", "in inches of mercury", "outside -40 to 50 C", "Fahrenheit", "in kelvins", "outside -500 to 5000 m"],
    *["try: altitude=", "try: density-altitude=", "is nearly dry air", "by less than four decimals", "is searched from"],
]


def hold(texts):
    """Everything that a report says is said by three of the list at least."""
    refusals, readings = [f"refused {n}\n" for n in REFUSALS if n != OF_A_SHEET], [f"reading: {n}\n" for n in NAMES.values()]
    for phrase in [*refusals, *readings, *CHANGES.values(), *NOTES, "no other class", "too wide", "outside the range"]:
        assert sum(phrase in text for text in texts) >= 3, phrase


if __name__ == "__main__":
    words.save(argv[1], "reports", questions())
