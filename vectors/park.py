"""What `park` prints for words that are typed, and the list `words`; or holds a program to it.

The words are understood as docs/PARK.md says, and a reading is computed from its typed decimal in fractions. The reports are those of
report.py, the figures of a sheet the oracle's, which also says why a record is not read. Nothing of the proved code is called. Arguments:
the folder to write the list's questions to; or `compare` and a program, which is run on the words of each case, and on each record that it
printed; or `print` and words.
"""

from fractions import Fraction
from itertools import permutations
from math import inf, nextafter
from os import fsencode
from pathlib import Path
from re import fullmatch, match
from struct import pack
from subprocess import run
from sys import argv, stdout
from typing import NamedTuple

import oracle
import report
from report import ALTITUDE, DENSITY, DENSITY_ALTITUDE, HUMIDITY, MEASURED, QNH, STATION, TEMPERATURE, Asked, decimal, text_of, words_on
from words import in_both_cases, question, save

DOCUMENT = Path(__file__).resolve().parent.parent / "docs/PARK.md"

# tag and an example
MEANINGS = {
    "altitude": (ALTITUDE, "1586"),
    "temperature": (TEMPERATURE, "24"),
    "station-pressure": (STATION, "841.9"),
    "qnh": (QNH, "1019.3"),
    "humidity": (HUMIDITY, "32"),
    "density-altitude": (DENSITY_ALTITUDE, "2100"),
    "pressure": (MEASURED, "841.9"),
}

RECORD, RECORD_EXAMPLE = "record=", "11000400183350"
EXAMPLES = {name: example for name, (_, example) in MEANINGS.items()} | {"record": RECORD_EXAMPLE}

# the exact reading by its number; the first unit is SI's, and needs not be written
LENGTHS = {"m": lambda x: x, "ft": lambda x: x * Fraction("0.3048")}
DEGREES = {"C": lambda x: x, "F": lambda x: (x - 32) * Fraction(5, 9), "K": lambda x: x - Fraction("273.15")}
PRESSURES = {"hPa": lambda x: x, "kPa": lambda x: 10 * x, "inHg": lambda x: x * Fraction("33.8639")}
PERCENT = {"percent": lambda x: x, "%": lambda x: x}
UNITS = {ALTITUDE: LENGTHS, TEMPERATURE: DEGREES, STATION: PRESSURES, QNH: PRESSURES, HUMIDITY: PERCENT, DENSITY_ALTITUDE: LENGTHS, MEASURED: PRESSURES}
LEAST, GREATEST = -(2**31), 2**31 - 1

NOT_ALONE = f"record= stands alone, as park record={RECORD_EXAMPLE}"
NOT_A_RECORD = f"not a record, expected an even number of hex digits, as record={RECORD_EXAMPLE}"
TOO_MANY_BYTES = "more than 256 bytes, and no record is as long"
UNKNOWN = (
    "unknown word, expected altitude=, temperature=, pressure=, station-pressure=, qnh=, humidity= or density-altitude= and a number"
)
NOT_A_NUMBER = "not a number, expected digits with up to three decimals, as 1586 or -12.5"
TOO_MANY = {3: "more than three decimals, expected thousandths at most, as 841.897", 4: "more than four decimals, as 30.1025inHg"}
OUT_OF_RANGE = {
    3: "out of range, expected a number from -2147483.648 to 2147483.647",
    4: "out of range, expected a number from -214748.3648 to 214748.3647",
}
REPEATED = "repeated, expected each reading once"
TOO_LONG = "the command line is too long: at most 4,096 bytes, a newline counted for each word\n"
SHEET_ONLY = (
    "a sheet takes altitude=, one pressure and humidity=, and no temperature= or density-altitude=: its rows have the temperatures\n"
)
SHEET_NEEDS = (
    "a sheet needs altitude= and one of pressure=, station-pressure= and qnh=, as park sheet altitude=1586 pressure=841.9 humidity=32\n"
)
HELP = "help", "--help", "-h"
QUOTED, LONGEST, RECORD_BYTES = 64, 4096, 256

# the minus sign U+2212, as the bytes of UTF-8
MINUS = "\u2212".encode().decode("latin-1")


class Typed(NamedTuple):
    """Readings by tag; the lines of the written units; and whether the altitude's point may mean thousands."""

    readings: dict
    lines: list
    point: bool


class Kept(NamedTuple):
    """The bytes of a record that was kept."""

    record: bytes


# ---- words: a character a byte
def escaped(text):
    return "".join(c if 32 <= ord(c) <= 126 else f"\\x{ord(c):02X}" for c in text)


def problem_line(word, problem):
    return f'"{escaped(word[:QUOTED])}": {problem}\n'


def either(names):
    *others, last = names
    return f"{', '.join(others)} or {last}"


def misspelled(word):
    """What is wrong with a word for a reading before its number is looked at, and how it is typed; or nothing."""
    name, mark, typed = word.partition("=")
    start = word[:QUOTED]
    if word.startswith(RECORD):
        return NOT_ALONE
    if not mark and word in EXAMPLES:
        return f"a name without =, type {word}={EXAMPLES[word]}"
    if not mark or name not in MEANINGS:
        return UNKNOWN
    if " " in typed:
        return f"a blank, type {escaped(start.replace(' ', ''))}"
    if "," in typed:
        return f"a comma, type {escaped(start.replace(',', '.'))} for decimals, {escaped(start.replace(',', ''))} for thousands"
    if typed.startswith(MINUS):
        return f"a minus sign that is no hyphen, type {escaped(start.replace(MINUS, '-', 1))}"


def value_of(tag, typed):
    """The exact reading of what is typed behind the `=`, its unit, and whether its point may mean thousands; or what is wrong with it."""
    number = match(r"[0-9+.-]*", typed)[0]
    unit = typed[len(number) :]
    form = fullmatch(r"[+-]?[0-9]+(?:\.([0-9]+))?", number)
    if form is None:
        return NOT_A_NUMBER
    if unit and unit not in UNITS[tag]:
        return f"unknown unit, expected {either(UNITS[tag])}"
    places, decimals = 4 if unit == "inHg" else 3, len(form[1] or "")
    if decimals > places:
        return TOO_MANY[places]
    count = int(Fraction(number) * 10**places)
    if not LEAST <= count <= GREATEST:
        return OUT_OF_RANGE[places]
    return UNITS[tag][unit or next(iter(UNITS[tag]))](Fraction(number)), unit, decimals == 3 and abs(count) < 10000


def stored(exact):
    """A count where it is a whole one, else the nearest double."""
    count = exact * 1000
    return int(count) if count.denominator == 1 and LEAST <= count <= GREATEST else float(exact)


def understood(words):
    """What is typed, or the line on the first word that is not understood."""
    readings, lines, of_thousands = {}, [], False
    for word in words:
        if (problem := misspelled(word)) is not None:
            return problem_line(word, problem)
        name, _, typed = word.partition("=")
        tag, _ = MEANINGS[name]
        value = value_of(tag, typed)
        if isinstance(value, str):
            return problem_line(word, value)
        if tag in readings:
            return problem_line(word, REPEATED)
        exact, unit, point = value
        readings[tag] = stored(exact)
        if unit:
            lines.append(f"{word[:QUOTED]} is {decimal(float(exact), 3)} {next(iter(UNITS[tag]))}")
        of_thousands |= tag == ALTITUDE and point
    return Typed(readings, lines, of_thousands)


# ---- a record that was kept
def kept(word):
    """The record of the only word, or the line on it."""
    digits = word.removeprefix(RECORD)
    if fullmatch(r"([0-9A-Fa-f]{2})+", digits) is None:
        return problem_line(word, NOT_A_RECORD)
    return Kept(bytes.fromhex(digits)) if len(digits) <= 2 * RECORD_BYTES else problem_line(word, TOO_MANY_BYTES)


def not_read(number, record):
    return text_of([f"refused {number}", *words_on(number, typed=False), report.record_line(record)])


# ---- the sheet
ROWS = range(-10, 41)

# of the figures: place, decimals, width
COLUMNS = [(1, 1, 6), (DENSITY, 4, 7), (4, 1, 6), (6, 0, 7)]
TOO_WIDE = 17
PRESSURE_SOURCES = STATION, QNH, MEASURED


def is_no_sheet(readings):
    """What is printed in place of a sheet for these readings, whatever their values."""
    if readings.keys() & {TEMPERATURE, DENSITY_ALTITUDE}:
        return SHEET_ONLY
    if ALTITUDE not in readings or len(readings.keys() & {*PRESSURE_SOURCES}) != 1:
        return SHEET_NEEDS


def resolved(readings, station, standard, reduced):
    """The pressure that a sheet is made for, and its source."""
    if MEASURED in readings:
        return report.given(readings, MEASURED), "measured"
    if QNH in readings:
        return report.value(reduced), f"from the QNH {report.shown(report.given(readings, QNH), 3)} hPa"
    if station == "none\n":
        return report.value(standard) / 100, "the standard atmosphere's, for a mast that is not set up"
    return report.given(readings, STATION), "a mast's"


def resolved_pressures(all_readings):
    asked = []
    for readings in all_readings:
        altitude, hpa = report.given(readings, ALTITUDE), report.given(readings, *PRESSURE_SOURCES)
        asked.append(question("resolve_station_pressure", hpa, altitude))
        asked.append(question("calculate_icao_standard_atmosphere", altitude))
        asked.append(question("reduce_qnh_to_station_pressure", hpa, altitude))
    said = oracle.answers(asked)
    return [resolved(readings, next(said), next(said), next(said)) for readings in all_readings]


def row_of(answer):
    """A row without its class, or the number by which it is refused."""
    if isinstance(answer, int):
        return answer
    texts = [decimal(answer[0][place], decimals).rjust(width) for place, decimals, width in COLUMNS]
    return TOO_WIDE if any(len(text) > width for text, (*_, width) in zip(texts, COLUMNS)) else " ".join(texts)


def heading(readings, hpa, source, standard_pa):
    doubt = "" if report.is_plausible(hpa, standard_pa) else ", implausible at this altitude"

    def line(name, x, unit):
        return f"{name} {report.shown(x, 3):>16} {unit}"

    return [
        "setting sheet for the trim brakes",
        "park ______________________________ date ____________",
        line("altitude", report.given(readings, ALTITUDE), "m"),
        line("pressure", hpa, f"hPa, {source}{doubt}"),
        line("humidity", report.given(readings, HUMIDITY) or 0.0, "percent"),
        f"{'temp':>6} {'density':>7} {'sound':>6} {'matched':>7} {'class':>5}",
        f"{'C':>6} {'kg/m3':>7} {'m/s':>6} {'m':>7}",
    ]


def limit_lines(densities):
    """For each limit the first degree at which the density is below it, three on a line."""
    said = []
    for limit in reversed(report.CLASS_DENSITIES):
        first = next((str(degrees) for degrees, density in zip(ROWS, densities) if density < limit), "-")
        said.append(f"below {decimal(limit, 2)} from{first:>5} C")
    return ["   ".join(said[:3]), "   ".join(said[3:])]


def sheet_text(readings, hpa, source, standard_pa, rows_said, answers):
    """The page, or its refusal."""
    if report.given(readings, *PRESSURE_SOURCES) <= 0:
        rows_said = "refused 12\n"
    rows = list(map(row_of, answers))
    refused = next((i for i, row in enumerate(rows) if isinstance(row, int)), None)
    if rows_said in ("refused 11\n", "refused 12\n", "refused 13\n"):
        return text_of([rows_said.strip(), *words_on(int(rows_said.split()[1]), typed=True)])
    if refused is not None:
        assert rows_said == f"refused {rows[refused]}\n"
        return text_of([f"refused {rows[refused]}", f"row: {decimal(ROWS[refused], 1)} C", *words_on(rows[refused], typed=True)])
    assert rows_said == text_of(rows)
    densities = [answer[0][DENSITY] for answer in answers]
    classed = [f"{row} {report.trim_class(density):>5}" for row, density in zip(rows, densities)]
    return text_of([*heading(readings, hpa, source, standard_pa), *classed, *limit_lines(densities)])


def sheets(all_readings):
    pressures = resolved_pressures(all_readings)
    asked, airs = [], []
    for readings, (hpa, _) in zip(all_readings, pressures):
        humidity = report.given(readings, HUMIDITY) or 0.0
        asked.append(question("sheet", report.given(readings, ALTITUDE), hpa, humidity))
        # no band acts at sea level, and air whose temperature and pressure are given is the same at every altitude
        airs += [report.record_of(report.air(0.0, float(degrees), hpa, humidity)) for degrees in ROWS]
    standards = oracle.answers(question("calculate_icao_standard_atmosphere", report.given(readings, ALTITUDE)) for readings in all_readings)
    answers = report.answers(airs)
    for readings, (hpa, source), standard, rows_said in zip(all_readings, pressures, standards, oracle.answers(asked)):
        yield sheet_text(readings, hpa, source, report.value(standard), rows_said, [next(answers) for _ in ROWS])


# ---- what is printed
class Sheet(NamedTuple):
    readings: dict


def usage():
    """What stands below the command in the document's section."""
    section = DOCUMENT.read_text().split("\n## Usage\n")[1].split("\n## ")[0]
    _, *lines = (line[4:] for line in section.splitlines() if line.startswith("    "))
    return text_of(lines)


def text_or_asked(words):
    """What is printed for the words where no figure is needed; else what is typed, a record, or a sheet's readings."""
    if not words or words[0] in HELP:
        return usage()
    if len(words) == 1 and words[0].startswith(RECORD):
        return kept(words[0])
    if words[0] != "sheet":
        return understood(words)
    said = understood(words[1:])
    return said if isinstance(said, str) else is_no_sheet(said.readings) or Sheet(said.readings)


def printed(cases):
    """What is printed for the words of each case."""
    said = [text_or_asked(words) for words in cases]
    typed = report.reports(Asked(one.readings, True, one.point) for one in said if isinstance(one, Typed))
    again = iter(report.of_records([one.record for one in said if isinstance(one, Kept)], not_read))
    ruled = sheets([one.readings for one in said if isinstance(one, Sheet)])
    for one in said:
        match one:
            case str():
                yield one
            case Typed():
                yield text_of(one.lines) + next(typed)
            case Kept():
                yield next(again)
            case Sheet():
                yield next(ruled)


def of_arguments(all_arguments):
    """What is printed for each command line's arguments, of which one with a newline is as many words."""
    lines = ["".join(argument + "\n" for argument in arguments) for arguments in all_arguments]
    fitting = printed([line.split("\n")[:-1] for line in lines if len(line) <= LONGEST])
    return [next(fitting) if len(line) <= LONGEST else TOO_LONG for line in lines]


# ---- the cases
GOOD = ["altitude=1586", "temperature=24", "qnh=1019.3", "humidity=32"]
PARK = ["altitude=1586", "pressure=841.897", "humidity=32"]

DECIMALS = [
    "2147483.647", "2147483.648", "-2147483.648", "-2147483.649", "-0", "0", "+0", "-0.000", "000.5", "+3", "-3", "0.001", "-0.001",
    "1e3", "", "1.2.3", "..", ".", ".5", "5.", "-", "+", "+-3", "--3", "0x10", " 1", "1 ", "1,5", "12.345", "12.3456", "12.0000", "1.2345x",
    "1.x", "x", "nan", "inf", "NaN", "99999999999999999999", "-99999999999999999999.999", "4294967.296", "4294967296", "0" * 70 + "1",
    "0" * 70 + "1.5", "1" + "0" * 70, "=5", "5=6", "1/2", "1_000", "9" * 300, "1." + "0" * 300,
    "1.000,5", "1,586", "1,5,6", ",", "1 5", "5 m", "-,5", "\t1", MINUS + "5", MINUS + MINUS, MINUS, "5" + MINUS, "\x7f5", "5\xb0C",
]

# units of the other names too, and what is none
WRITTEN = [
    *["m", "ft", "C", "F", "K", "hPa", "kPa", "inHg", "percent", "%", "M", "Ft", "feet", "'", "f", "c", "hpa", "HPA", "Pa", "inhg", "in", "mbar"],
    *["%%", "e3", "e", "x10", "m ", "=6"],
]

# awkward ones, with a half of the third decimal in feet (78.125) and inches of mercury (625), and the ends of the counts
NUMBERS = {
    "m": ["1586", "0.001", "-0", "2147483.647"],
    "ft": ["5203", "1", "0.001", "-0.001", "78.125", "-78.125", "5000", "3.281", "1312.336", "2147483.647", "-2147483.648", "2147483.648"],
    "C": ["24", "-0.001"],
    "F": ["75", "32", "-40", "0", "-459.67", "-459.669", "-459.671", "59", "58.82", "59.18", "58.819", "59.181", "0.001", "122", "2147483.647"],
    "K": ["297.15", "0", "0.001", "273.15", "288.15", "288.05", "288.25", "288.049", "288.251", "-2147483.648"],
    "hPa": ["841.897", "1019.3"],
    "kPa": ["84.19", "101.325", "0.001", "-0.001", "2147483.647", "214748.364", "214748.365"],
    "inHg": [
        *["30.10", "30.1025", "29.9213", "24.8612", "0.0001", "-0.0001", "625", "0.00001", "30.10250"],
        *["214748.3647", "214748.3648", "-214748.3648", "-214748.3649"],
    ],
    "percent": ["32", "100.001"],
    "%": ["32", "0.32", "100", "-1"],
}


BESIDE = {ALTITUDE: "altitude=1586", TEMPERATURE: "temperature=24", MEASURED: "pressure=841.897"}


def with_units():
    """Every name with every unit, and each unit's numbers."""
    for name, (tag, example) in MEANINGS.items():
        for unit in WRITTEN:
            yield [f"{name}={example}{unit}"]
        named = {tag, *(PRESSURE_SOURCES if tag in PRESSURE_SOURCES else ())}
        beside = [] if tag == DENSITY_ALTITUDE else [word for other, word in BESIDE.items() if other not in named]
        for unit in UNITS[tag]:
            yield from ([f"{name}={number}{unit}", *beside] for number in NUMBERS[unit])
    yield ["altitude=5203ft", "temperature=75F", "qnh=30.10inHg", "humidity=32%"]
    yield ["humidity=32percent", "pressure=84.19kPa", "temperature=297.15K", "altitude=1586m"]
    yield ["density-altitude=7000ft", "temperature=75F"]
    yield ["altitude=5203ft", "altitude=5203ft"]
    yield ["altitude=5203ft", "temperature=75f"]
    yield ["temperature=" + "0" * 60 + "75.5F", "altitude=1586"]
    yield ["temperature=75F", "altitude=5203ft", "pressure=-1kPa"]


def mistakes():
    """Those of which docs/PARK.md says what is printed."""
    yield ["altitude=1586", "temperature=15", "pressure=841.897", "humidity=32"]
    yield ["altitude=1586", "temperature=24", "station-pressure=1013.25", "humidity=32"]
    yield ["altitude=1586", "temperature=24", "pressure=1019.3", "humidity=32"]
    yield ["altitude=1586", "temperature=24", "qnh=841.9", "humidity=32"]
    yield ["altitude=5203", "temperature=24", "pressure=841.9", "humidity=32"]
    yield ["altitude=5203", "temperature=24", "qnh=1019.3", "humidity=32"]
    yield ["altitude=1586", "temperature=75", "pressure=841.9", "humidity=32"]
    yield ["altitude=1586", "temperature=297.15", "pressure=841.9", "humidity=32"]
    yield ["altitude=1586", "temperature=24", "pressure=84.19", "humidity=32"]
    yield ["altitude=1586", "temperature=24", "qnh=30.1", "humidity=32"]
    yield ["altitude=1586", "temperature=24", "pressure=24.862", "humidity=32"]
    yield ["altitude=1.586", "temperature=24", "qnh=1019.3", "humidity=32"]
    yield ["altitude=1,586", "temperature=24", "qnh=1019.3", "humidity=32"]
    yield ["altitude=1586", "temperature=24", "qnh=1019.3", "humidity=0.32"]
    yield ["altitude=1586", "temperature=" + MINUS + "5", "qnh=1019.3", "humidity=32"]
    yield ["altitude=1586", "temperature=24", "qnh=1019.3"]
    yield ["density-altitude=7000", "temperature=24"]
    yield ["density-altitude=2100", "temperature=15"]
    for altitude in ["9.999", "10.000", "-9.999", "-10.000", "9.999ft", "10.000ft", "0.000", "1.58", "1.5860", "0001.586m", "-01.586ft", "1586.000"]:
        yield [f"altitude={altitude}", "temperature=24", "qnh=1019.3"]
        yield [f"density-altitude={altitude}", "temperature=24"]


# what is said, words with a place for a number, and two numbers of which one has it said
TURNS = [
    ("14.9 to 15.1 C", "altitude=1586 temperature={} pressure=841.9", "14.899", "14.9"),
    ("14.9 to 15.1 C", "altitude=1586 temperature={} pressure=841.9", "15.1", "15.101"),
    ("14.9 to 15.1 C", "altitude={} temperature=15", "1", "1.001"),
    ("14.9 to 15.1 C", "altitude={} temperature=15 humidity=50", "-1.001", "-1"),
    ("14.9 to 15.1 C", "altitude=1586 temperature={}F qnh=1019.3", "58.819", "58.82"),
    ("1012.75 to 1013.75 hPa", "altitude=300 temperature=24 station-pressure={}", "1012.75", "1012.751"),
    ("1012.75 to 1013.75 hPa", "altitude=300 temperature=15 station-pressure={}", "1013.749", "1013.75"),
    ("1012.75 to 1013.75 hPa", "altitude={} station-pressure=1013.25", "1", "1.001"),
    ("1012.75 to 1013.75 hPa", "altitude={} station-pressure=1013.25", "-1.001", "-1"),
    ("weather stays", "altitude=1586 temperature=24 pressure={}", "711.208", "711.209"),
    ("weather stays", "altitude=1586 temperature=24 pressure={}", "903.652", "903.653"),
    ("weather stays", "altitude=1586 temperature=24 station-pressure={}", "711.208", "711.209"),
    ("weather stays", "altitude=1586 temperature=24 qnh={}", "866.359", "866.36"),
    ("weather stays", "altitude=1586 temperature=24 qnh={}", "1091.322", "1091.323"),
    ("weather stays", "altitude={} temperature=24 pressure=1013.25", "644.465", "644.466"),
    ("if it is a QNH", "altitude=3000 temperature=24 pressure={}", "870.921", "870.922"),
    ("if it is a QNH", "altitude=3000 temperature=24 station-pressure={}", "1088.666", "1088.667"),
    ("if it was measured", "altitude=1586 temperature=24 qnh={}", "711.208", "711.209"),
    ("if it was measured", "altitude=3000 temperature=24 qnh={}", "757.308", "757.309"),
    ("if the altitude is in feet", "altitude=5203 temperature=24 pressure={}", "711.219", "711.22"),
    ("if the altitude is in feet", "altitude=5203 temperature=24 pressure={}", "903.666", "903.667"),
    ("in kPa", "altitude=1586 temperature=24 pressure={}", "71.12", "71.121"),
    ("in kPa", "altitude=1586 temperature=24 station-pressure={}", "90.365", "90.366"),
    ("in kPa", "altitude=1586 temperature=24 qnh={}", "86.635", "86.636"),
    ("in kPa", "altitude=1586 temperature=24 qnh={}", "109.132", "109.133"),
    ("in inches of mercury", "altitude=1586 temperature=24 qnh={}", "25.583", "25.584"),
    ("in inches of mercury", "altitude=1586 temperature=24 qnh={}", "32.226", "32.227"),
    ("in inches of mercury", "altitude=1586 temperature=24 pressure={}", "26.684", "26.685"),
    ("outside -40 to 50 C", "altitude=1586 temperature={} pressure=841.9", "-40.001", "-40"),
    ("outside -40 to 50 C", "altitude=1586 temperature={} pressure=841.9", "50", "50.001"),
    ("outside -40 to 50 C", "altitude={}", "8472.816", "8472.817"),
    ("Fahrenheit", "altitude=1586 temperature={} pressure=841.9", "122", "122.001"),
    ("in kelvins", "altitude=1586 temperature={} pressure=841.9", "233.149", "233.15"),
    ("in kelvins", "altitude=1586 temperature={} pressure=841.9", "323.15", "323.151"),
    ("outside -500 to 5000 m", "altitude={} temperature=24", "-500.001", "-500"),
    ("outside -500 to 5000 m", "altitude={} temperature=24", "5000", "5000.001"),
    ("outside -500 to 5000 m", "density-altitude={} temperature=-20", "4909.84", "4909.841"),
    ("try: altitude=", "altitude={} temperature=24", "16404.199", "16404.2"),
    ("try: altitude=", "altitude={} temperature=24", "-1640.42", "-1640.419"),
    ("try: density-altitude=", "density-altitude={}", "16404.199", "16404.2"),
    ("try: density-altitude=", "density-altitude={}", "-1640.42", "-1640.419"),
    ("is nearly dry air", "altitude=1586 temperature=24 humidity={}", "0", "0.001"),
    ("is nearly dry air", "altitude=1586 temperature=24 humidity={}", "1", "1.001"),
    ("trim class 1", "altitude=0 temperature=24 pressure={}", "852.733", "852.734"),
    ("trim class 2", "altitude=0 temperature=24 pressure={}", "895.358", "895.359"),
    ("trim class 3", "altitude=0 temperature=24 pressure={}", "937.981", "937.982"),
    ("trim class 4", "altitude=0 temperature=24 pressure={}", "980.604", "980.605"),
    ("trim class 5", "altitude=0 temperature=24 pressure={}", "1023.225", "1023.226"),
    ("trim class 6", "altitude=0 temperature=24 pressure={}", "1065.845", "1065.846"),
    ("refused 14", "altitude=1586 temperature=40 pressure={} humidity=100", "73.98", "73.981"),
    ("refused 4\n", "density-altitude={}", "44283.085", "44283.086"),
    ("refused 3\n", "altitude=0 temperature={}", "-273.15", "-273.149"),
    ("refused 13\n", "altitude=0 humidity={}", "100", "100.001"),
    ("refused 15\n", "altitude={} qnh=1013.25", "44642.093", "44642.094"),
    ("by less than four decimals", "altitude=0 temperature=24 pressure={}", "852.69", "852.691"),
    ("by less than four decimals", "altitude=0 temperature=24 pressure={}", "895.315", "895.316"),
    ("by less than four decimals", "altitude=0 temperature=24 pressure={}", "937.939", "937.94"),
    ("by less than four decimals", "altitude=0 temperature=24 pressure={}", "980.561", "980.562"),
    ("by less than four decimals", "altitude=0 temperature=24 pressure={}", "1023.183", "1023.184"),
    ("by less than four decimals", "altitude=0 temperature=24 pressure={}", "1065.803", "1065.804"),
]


def at_turns():
    for _, form, *numbers in TURNS:
        yield from (form.format(number).split(" ") for number in numbers)


def of_sheets():
    yield ["sheet"]
    yield ["sheet", *PARK]
    yield ["sheet", *reversed(PARK)]
    yield ["sheet", *PARK[:2]]
    yield ["sheet", "altitude=1586", "qnh=1019.3", "humidity=32"]
    yield ["sheet", "altitude=5203ft", "qnh=30.10inHg", "humidity=32%"]
    yield ["sheet", "altitude=78.125ft", "pressure=24.8625inHg"]
    yield ["sheet", "altitude=60", "pressure=1008.3", "humidity=60"]
    yield ["sheet", "altitude=60", "pressure=100.83kPa", "humidity=60"]
    for hpa in ["1012.75", "1012.751", "1013.749", "1013.75", "841.897", "1013.25hPa"]:
        yield ["sheet", "altitude=1586", f"station-pressure={hpa}", "humidity=32"]
    for altitude in ["1", "1.001", "-1", "-1.001", "0", "3.281ft", "3.28ft"]:
        yield ["sheet", f"altitude={altitude}", "station-pressure=1013.25"]
    yield ["sheet", "pressure=1065.25", "altitude=-430.5", "humidity=100"]
    yield ["sheet", "altitude=+4300", "humidity=0.001", "pressure=000600"]
    yield ["sheet", "altitude=1.586", "pressure=500"]
    yield ["sheet", "altitude=3000", "pressure=1200"]
    yield ["sheet", *PARK[:1]]
    yield ["sheet", *PARK[1:]]
    yield ["sheet", PARK[2]]
    yield ["sheet", PARK[0], "pressure=841.9", "qnh=1019.3"]
    yield ["sheet", PARK[0], "station-pressure=841.9", "qnh=1019.3"]
    yield ["sheet", PARK[0], "station-pressure=841.9", "qnh=1019.3", "pressure=841.9"]
    for other in ["temperature=24", "density-altitude=1000"]:
        yield ["sheet", *PARK, other]
        yield ["sheet", other]
        yield ["sheet", *PARK, "qnh=1", other]
    yield ["sheet", *PARK, "qnh=1019.3"]
    yield ["sheet", *PARK, PARK[0]]
    yield ["sheet", *PARK, "altitude=x"]
    yield ["sheet", *PARK, "height=1"]
    yield ["sheet", "altitude=1,586"]
    yield ["sheet", "temperature=24", "altitude=5 m"]
    yield ["sheet", "sheet", *PARK]
    yield [*PARK, "sheet"]
    # refused: the pressure, the humidity, both; a row by 14, 15 and 17
    for pressure in ["pressure", "station-pressure", "qnh"]:
        for value in ["0", "-0.001", "-5inHg"]:
            yield ["sheet", PARK[0], f"{pressure}={value}"]
            yield ["sheet", PARK[0], f"{pressure}={value}", "humidity=-1"]
        yield ["sheet", PARK[0], f"{pressure}=841.897", "humidity=100.001"]
        yield ["sheet", PARK[0], f"{pressure}=841.897", "humidity=-0.001"]
        for value in ["2", "7", "20", "50", "73", "75"]:
            yield ["sheet", PARK[0], f"{pressure}={value}", "humidity=100"]
        for value in ["0.001", "1", "2147483.647", "2147483.647kPa", "100000", "79000", "75500"]:
            yield ["sheet", "altitude=0", f"{pressure}={value}"]
    for altitude in ["44000", "45000", "2147483.647", "-2147483.648"]:
        yield ["sheet", f"altitude={altitude}", "qnh=1013.25"]
        yield ["sheet", f"altitude={altitude}", "qnh=1013.25", "humidity=101"]
        yield ["sheet", f"altitude={altitude}", "pressure=1013.25"]


# ---- the cases of records that were kept
AIR = {ALTITUDE: 60.0, TEMPERATURE: 17.6, HUMIDITY: 60.0, MEASURED: 1008.3}
MAST = {ALTITUDE: 1586.0, TEMPERATURE: 24.0, HUMIDITY: 32.0}
EVERY = {ALTITUDE: 100.0, TEMPERATURE: 20.0, STATION: 1000.0, QNH: 1000.0, HUMIDITY: 50.0, DENSITY_ALTITUDE: 100.0, MEASURED: 1000.0}
A_RECORD = RECORD + RECORD_EXAMPLE


def kept_word(record):
    return RECORD + record.hex().upper()


def typed_before():
    """Words whose report prints a record, with what is understood of them: every mistake, and some of the units and of the turns."""
    for words in [GOOD, PARK, *mistakes(), *[*with_units()][::11], *[*at_turns()][::9]]:
        if isinstance(typed := understood(words), Typed):
            yield words, typed


def in_forms(readings):
    """In doubles, in counts, and by turns in both, beginning with either."""
    counts = report.counts(readings)
    return [
        readings,
        counts,
        {tag: (readings, counts)[i % 2][tag] for i, tag in enumerate(readings)},
        {tag: (counts, readings)[i % 2][tag] for i, tag in enumerate(readings)},
    ]


def in_any_order():
    """The four fields of a record in every order, by turns in each form."""
    for i, order in enumerate(permutations(AIR)):
        readings = in_forms(AIR)[i % 4]
        yield b"".join(report.record_of({tag: readings[tag]}) for tag in order)


def readings_of_masts():
    """Next to the ends of the default bands, minus zeros, too wide; and for each number that readings are refused by, but for 1, 2 and 11."""
    for celsius in [*report.about(14.9)[:2], *report.about(15.1)[1:], 15000]:
        yield {**MAST, TEMPERATURE: celsius, MEASURED: 841897}
    for hpa in [*report.about(1012.75)[1:], *report.about(1013.75)[:2], 1013250]:
        yield {**MAST, STATION: hpa}
    for altitude in [1.0, nextafter(1.0, inf)]:
        yield {ALTITUDE: altitude, TEMPERATURE: 15.0, STATION: 1013.25}
    yield from [{ALTITUDE: -0.0, TEMPERATURE: -0.0, HUMIDITY: -0.0, MEASURED: 1013.25}, {ALTITUDE: 1e17, TEMPERATURE: 1e5, MEASURED: 1e16}]
    yield from [{ALTITUDE: 1586}, {DENSITY_ALTITUDE: 2100.0}, {DENSITY_ALTITUDE: 2100000, TEMPERATURE: 75.0, HUMIDITY: 0.32}]
    # 3 and 4
    yield from [{**MAST, TEMPERATURE: -273.15}, {**MAST, TEMPERATURE: -273150}, {DENSITY_ALTITUDE: 44284.0}, {DENSITY_ALTITUDE: 44284000}]
    # 9 and 10
    for tags in [(STATION, QNH), (ALTITUDE, QNH, MEASURED), (ALTITUDE, DENSITY_ALTITUDE), (DENSITY_ALTITUDE, MEASURED), tuple(EVERY)]:
        yield {tag: EVERY[tag] for tag in tags}
    yield from [report.counts(EVERY), {TEMPERATURE: 24000}, {HUMIDITY: -1.0, STATION: 0.0}]
    # 12 and 13
    for tag in PRESSURE_SOURCES:
        yield from [{**MAST, tag: 0}, {**MAST, tag: -5e-324}]
    yield from [{**MAST, HUMIDITY: 100001}, {**MAST, HUMIDITY: -5e-324}, {DENSITY_ALTITUDE: 2100.0, HUMIDITY: -1}]
    # 14 and 15
    yield from [{**MAST, TEMPERATURE: 297.15, MEASURED: 841.9}, {**MAST, TEMPERATURE: 95.0, MEASURED: 500.0, HUMIDITY: 100000}]
    yield from [{**MAST, TEMPERATURE: 1e300}, {**MAST, MEASURED: 1e308}, {ALTITUDE: 45000000, QNH: 1013250}]


def not_finite():
    """Each reading as a NaN of another pattern than the writer's, and as an infinity: 1, 2 and 11."""
    for tag in EVERY:
        beside = {} if tag == DENSITY_ALTITUDE else MAST
        others = report.record_of({other: x for other, x in beside.items() if other != tag})
        for pattern in 0xFFF0000000000001, 0x7FF0000000000000 + tag % 2 * 2**63:
            yield pack(">BHQ", tag, 8, pattern) + others


def unread():
    """Cut, with unknown tags, wrong lengths and readings twice: alone, behind good fields and before another fault; 5 to 8."""
    good = report.record_of(in_forms(AIR)[2])
    every = report.record_of(EVERY)
    assert len(every) == 77
    yield from [good[:1], good[:2], good[:3], good[:10], good[:-1], good + b"\x00", every[:-1]]
    for tag in [0x00, 0x08, 0x10, 0x18, 0xFF]:
        yield good + bytes([tag, 0, 8]) + bytes(8)
    yield from [b"\x08\x00\x08", b"\x18\x00\x03\x01"]
    for tag, length in [(0x01, 4), (0x11, 8), (0x11, 0), (0x04, 0x0800), (0x16, 0xFFFF)]:
        yield good + pack(">BH", tag, length) + bytes(length % 16)
    for twice in [good + good[:11], good + pack(">BHi", 0x11, 4, 5), pack(">BHi", 0x17, 4, 5) * 2, report.record_of({MEASURED: 5}) + every]:
        yield from [twice, twice + b"\x08"]
    # as long as a record may be
    yield from [bytes(RECORD_BYTES), b"\xab" * RECORD_BYTES, (every * 4)[:RECORD_BYTES], (every + bytes(RECORD_BYTES))[:RECORD_BYTES]]
    yield b"\xab" * (RECORD_BYTES - 1)


def kept_records():
    """Of masts, in digits of either case and of both."""
    records = [*map(report.record_of, readings_of_masts()), *in_any_order(), *not_finite(), *unread()]
    for i, record in enumerate(records):
        digits = record.hex().upper()
        yield [RECORD + (digits.lower(), in_both_cases(digits), digits)[i % 3]]


def no_records():
    """Words that are no record's or too long for one, with characters next to the digits, cut when they are shown, and of other names."""
    yield from ([RECORD + digits] for digits in ["", "1", "110", RECORD_EXAMPLE + "0", "-", "=11", "11=00", "0x11", " 1100", "11,00", "+1", "none"])
    yield from ([RECORD + RECORD_EXAMPLE[:-1] + character] for character in ["/", ":", "@", "G", "`", "g", " ", "\x7f", "\xff", MINUS])
    for count in [511, 513, 514, 515, LONGEST - len("park ") - len(RECORD)]:
        yield [RECORD + "0a" * (count // 2) + "F" * (count % 2)]
    for digits in ["00" * 256 + "0G", "0" * 56 + "\xe9" * 4, "\xe9" * 300]:
        yield [RECORD + digits]
    for start in ["record:", "Record=", "RECORD=", "records=", "recor=", "record =", " record=", "-record=", "record", ""]:
        yield [start + RECORD_EXAMPLE]
    yield from [["record"], ["Record"]]


def beside_a_record():
    """A record beside other words, which may not be understood themselves and come first, and after `sheet` and `help`."""
    for other in ["altitude=1586", "altitude=x", "", "sheet", "help", "record", RECORD, RECORD + "00" * 257]:
        yield [A_RECORD, other]
        yield [other, A_RECORD]
    yield from [[A_RECORD, A_RECORD], [RECORD, "altitude=1586"], ["altitude=1586", RECORD + "zz"], [*GOOD, A_RECORD], [A_RECORD, *GOOD]]
    yield from [["altitude=1586", "altitude=1586", A_RECORD], ["record", RECORD_EXAMPLE], ["altitude=1586", "record"]]
    yield from [["sheet", RECORD], ["sheet", "record"], ["sheet", "temperature=24", A_RECORD], ["sheet", *PARK, A_RECORD], ["sheet", A_RECORD, *PARK]]
    yield from [["sheet", "altitude=x", A_RECORD], ["sheet", A_RECORD, "altitude=x"]]


def of_kept_records():
    yield from ([word] for word in dict.fromkeys(kept_word(report.record_of(typed.readings)) for _, typed in typed_before()))
    yield from kept_records()
    yield from no_records()
    yield from beside_a_record()


def cases():
    yield []
    yield GOOD
    yield PARK
    yield from ([word] for word in GOOD)
    yield list(reversed(GOOD))
    for number in DECIMALS:
        yield [f"altitude={number}"]
        yield ["altitude=100", f"temperature={number}", "pressure=1000"]
        yield ["density-altitude=1000", f"humidity={number}"]
    for name in MEANINGS:
        yield [f"{name}=1"]
        yield [f"{name}=1", f"{name}=1"]
        yield [f"{name}=1", "humidity=200000", f"{name}=-5.5"]
        yield [f"{name}=1", f"{name}=x"]
        for word in [name, f"{name}:1", f"{name.capitalize()}=1", f"{name.upper()}=1", f" {name}=1", f"{name} =1", f"-{name}=1", f"{name}s=1", f"{name[:-1]}=1"]:
            yield [word]
            yield ["altitude=100", word]
    words = ["", "=", "=5", "altitude", "Altitude=5", "height=5", "x", "sheet", "sheet=1", *HELP, "-help", '"', "\x80=\xff", "\\"]
    for word in [*words, "a" * 64, "b" * 65, "c" * 300 + "=1"]:
        yield [word]
        yield [word, "altitude=1"]
        yield ["altitude=1", word]
        yield ["sheet", word]
    # a word that is cut when it is shown, with what is mended behind the cut and before it
    ones = "1" * 60
    for typed in [f"{ones},5", f"1,5{ones}", f" {ones}{ones}", f"{ones} 5", MINUS + ones, "1" + "\xe9" * 60 + ",", ", " * 40]:
        yield [f"altitude={typed}"]
    yield ["altitude=x", "height=1"]
    yield ["height=1", "altitude=x"]
    yield ["altitude=1", "altitude=1", "temperature=1.2345"]
    yield ["temperature=1.2345", "altitude=1", "altitude=1"]
    yield ["altitude=9999999", "altitude=x"]
    yield ["altitude=1", "altitude=9999999"]
    yield ["altitude=0", "station-pressure=1000", "qnh=1000"]
    yield ["density-altitude=0", "altitude=0"]
    yield from mistakes()
    yield from with_units()
    yield from at_turns()
    yield from of_sheets()
    yield from of_kept_records()


def arguments():
    """Command lines that are no question to `ask`: about as long as one may be, and with a newline in an argument."""
    for length in [LONGEST - 1, LONGEST, LONGEST + 1, 2 * LONGEST]:
        yield ["x" * (length - 1)]
        yield ["altitude=1586", "x" * (length - 15)]
        yield [RECORD + "0" * (length - len(RECORD) - 1)]
    yield ["altitude=1"] * 400
    for before, after in [("", "\n"), ("\n", ""), ("", "\n00"), ("", f"\n{A_RECORD}"), ("sheet\n", ""), ("altitude=1586\n", "")]:
        yield [before + A_RECORD + after]
    yield ["altitude=1586\ntemperature=24", "qnh=1019.3"]
    yield ["altitude=1586\n"]
    yield ["\n"]
    yield ["help\nx"]


# the note that needs the words as they were typed, and the line that has other words for them
OF_THE_POINT, TO_DO = "note: the altitude was read as ", "what to do: "


def hold_records(said):
    """A report's record gives the report again, without what only typed words can tell; and each refusal and each line is said twice."""
    for words, typed in typed_before():
        first, again = said[tuple(words)].removeprefix(text_of(typed.lines)), said[kept_word(report.record_of(typed.readings)),]
        lines = [line for line in first.splitlines() if not line.startswith((OF_THE_POINT, TO_DO))]
        assert lines == [line for line in again.splitlines() if not line.startswith(TO_DO)], words
    texts = [said[tuple(words)] for words in of_kept_records()]
    refusals = [f"refused {number}\ncause: {cause}" for number, (cause, _) in report.REFUSALS.items() if number in report.NOT_READ]
    refusals += [f"{TO_DO}{to_do}\n" for number, (_, to_do) in report.REFUSALS.items() if number != TOO_WIDE]
    for phrase in [*refusals, NOT_ALONE, NOT_A_RECORD, TOO_MANY_BYTES, f"type {A_RECORD}\n"]:
        assert sum(phrase in text for text in texts) >= 2, phrase


def hold(answers):
    """Each of TURNS is said for one of its two numbers; and what is said of records that were kept."""
    said = dict(zip(map(tuple, cases()), answers))
    for phrase, form, *numbers in TURNS:
        low, high = (phrase in said[tuple(form.format(number).split(" "))] for number in numbers)
        assert low != high, (phrase, form)
    hold_records(said)


def questions():
    """A blank in a word is a tab: the question has blanks between its words."""
    return [" ".join(["park", *(word.replace(" ", "\t") for word in words)]) for words in cases()]


def records_printed(texts):
    """The words for each record that a report ends with."""
    ends = [fullmatch(r"(?s).*\nrecord ([0-9A-F]+)\n", text) for text in texts]
    return [[RECORD + digits] for digits in dict.fromkeys(end[1] for end in ends if end)]


def compare(program):
    """Each case by the program itself, whose arguments are the words, and each record that is printed."""
    first = [*cases(), *arguments()]
    all_cases = first + records_printed(of_arguments(first))
    differ = 0
    for words, said in zip(all_cases, of_arguments(all_cases)):
        got = run([program, *(word.encode("latin-1") for word in words)], capture_output=True, check=True).stdout.decode("latin-1")
        if got != said:
            differ += 1
            print(f"{words}\nexpected:\n{said}got:\n{got}")
    print(f"{len(all_cases)} cases, {differ} differ")


if __name__ == "__main__":
    if argv[1] == "compare":
        compare(argv[2])
    elif argv[1] == "print":
        stdout.write(of_arguments([[fsencode(word).decode("latin-1") for word in argv[2:]]])[0])
    else:
        save(argv[1], "words", questions())
