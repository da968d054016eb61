"""What `park table` writes for words and a table of readings; or holds a program to it.

Lines, cells and names are understood as docs/PARK.md says, words and readings by park.py, the figures are the oracle's and the tests of
the notes report.py's. Nothing of the proved code is called. Arguments: `print` and words, for which it writes all that `park` does, with a
table on standard input; `gate`, which writes the gate's table to crates/park_table; `make` and a folder to write the tables of
table_cases.py to, each with its words and what is written for it; or `compare`, a program and, for a table of drawn readings, a number of
lines.
"""

from collections import Counter
from functools import lru_cache
from itertools import islice
from os import fsencode
from pathlib import Path
from re import fullmatch
from subprocess import run
from sys import argv, stderr, stdin, stdout
from time import perf_counter
from typing import NamedTuple

import oracle
import park
import report
import table_cases
from park import LONGEST, MEANINGS, REPEATED, UNITS, either, problem_line, stored, understood, value_of
from report import DENSITY, FIGURES, HUMIDITY, STATION, TEMPERATURE

GATE = Path(__file__).resolve().parent.parent / "crates/park_table"

MOST_COLUMNS = 16
BYTE_ORDER_MARK = "\xef\xbb\xbf"
FIGURE_NAMES = [
    *["altitude_m", "temperature_c", "pressure_hpa", "density_kg_m3", "speed_of_sound_mps", "pressure_altitude_m"],
    *["density_matched_altitude_m", "vapor_mole_fraction", "in_cipm_range", "trim_class", "refused", "note"],
]

NO_FIRST_LINE = "no first line: it names the columns, as time,temperature,qnh,humidity\n"
FIRST_TOO_LONG = "the first line has more than 4,096 bytes\n"
FIRST_ODD = "the first line has an odd number of quotes\n"
TOO_MANY_COLUMNS = "the first line has more than 16 columns\n"
NO_READING = (
    "no column has a reading's name: expected altitude, temperature, pressure, station-pressure, qnh, humidity or density-altitude,"
    " as temperature [F]\n"
)

# by what park.py says of a word
WHY = {
    park.NOT_A_NUMBER: "not a number",
    **{said: "too many decimals" for said in park.TOO_MANY.values()},
    **{said: "out of range" for said in park.OUT_OF_RANGE.values()},
}

# by the test that a note stands under: of the readings, the figures and the oracle's answers
NOTES = {
    "temperature-default": lambda given, _, said: report.has_default(given, TEMPERATURE, said["temperature"]),
    "pressure-default": lambda given, _, said: report.has_default(given, STATION, said["pressure"]),
    "no-temperature": lambda given, *_: TEMPERATURE not in given,
    "no-pressure": lambda given, *_: report.has_no_pressure(given),
    "no-humidity": lambda given, *_: HUMIDITY not in given,
    "pressure-altitude": lambda given, figures, said: report.is_doubtful(given, figures[2], report.value(said["standard"])),
    "temperature-range": lambda _, figures, __: not report.is_compared_temperature(figures[1]),
    "altitude-range": lambda _, figures, __: not report.is_compared_altitude(figures[0]),
    "humidity-fraction": lambda given, *_: report.is_like_a_fraction(given),
    "at-limit": lambda _, figures, __: report.is_at_limit(figures[DENSITY]),
}

# of a ten-thousandth of a kg/m3; this one and all above it are counted together
TOP_DENSITY = 20000

# lines whose readings are judged at once
AT_ONCE = 50_000


class Column(NamedTuple):
    """A column of readings."""

    name: str
    tag: int
    unit: str


class Table(NamedTuple):
    """The cells of the first line, for each its column of readings or none, and the readings that words give."""

    separator: str
    cells: list
    columns: list
    typed: dict

    @property
    def sign(self):
        return "," if self.separator == ";" else "."

    def carried(self, cells):
        return [cell for cell, column in zip(cells, self.columns) if column is None]


class Read(NamedTuple):
    """The carried cells of a line, and its readings or why it is not read."""

    carried: list
    readings: dict | str


class Answer(NamedTuple):
    """The twelve cells, with a point, that are written for readings; and of those that are answered the class and the density shown."""

    cells: list
    kind: tuple | str


REFUSED, UNREADABLE = "refused", "unreadable"


# ---- lines and cells: a character a byte
def lines_of(text):
    *ended, last = text.split("\n")
    return [line.removesuffix("\r") for line in [*ended, *([last] if last else [])]]


def has_odd_quotes(text):
    return text.count('"') % 2 == 1


def cells_of(line, separator):
    cells = []
    part = None
    for piece in line.split(separator):
        part = piece if part is None else part + separator + piece
        if not has_odd_quotes(part):
            cells.append(part)
            part = None
    return cells


def bare(cell):
    """Without the blanks at both ends, and then without a pair of quotes."""
    cell = cell.strip(" ")
    return cell[1:-1] if len(cell) >= 2 and cell[0] == cell[-1] == '"' else cell


# ---- the first line
def column_of(cell):
    """The column of readings that the cell names, in whatever unit, or none."""
    name, _, unit = bare(cell).partition("[")
    name = name.rstrip(" ")
    return Column(name, MEANINGS[name][0], unit.removesuffix("]")) if name in MEANINGS else None


def table_of(line, typed):
    """What the first line means beside the readings that words give, or the line on what is wrong with it."""
    if len(line) > LONGEST:
        return FIRST_TOO_LONG
    if has_odd_quotes(line):
        return FIRST_ODD
    line = line.removeprefix(BYTE_ORDER_MARK)
    separator = ";" if ";" in line else ","
    cells = cells_of(line, separator)
    if len(cells) > MOST_COLUMNS:
        return TOO_MANY_COLUMNS
    columns = list(map(column_of, cells))
    given = set(typed)
    for cell, column in zip(cells, columns):
        if column is None:
            continue
        if column.unit and column.unit not in UNITS[column.tag]:
            return problem_line(bare(cell), f"unknown unit, expected {either(UNITS[column.tag])}")
        if column.tag in given:
            return problem_line(bare(cell), REPEATED)
        given.add(column.tag)
    return Table(separator, cells, columns, typed) if any(columns) else NO_READING


def opened(arguments, text):
    """The table and its other lines, or the line on what is wrong with the words or the first line."""
    line = "".join(argument + "\n" for argument in ["table", *arguments])
    if len(line) > LONGEST:
        return park.TOO_LONG
    said = understood(line.split("\n")[1:-1])
    if isinstance(said, str):
        return said
    lines = lines_of(text)
    if not lines:
        return NO_FIRST_LINE
    table = table_of(lines[0], said.readings)
    return table if isinstance(table, str) else (table, lines[1:])


# ---- a line's readings
@lru_cache(200_000)
def reading_of(column, text, sign):
    """The reading of a cell that is not empty, or why there is none."""
    if fullmatch(f"[0-9+{sign}-]+", text) is None:
        return WHY[park.NOT_A_NUMBER]
    value = value_of(column.tag, text.replace(sign, ".") + column.unit)
    return WHY[value] if isinstance(value, str) else stored(value[0])


def read(table, line):
    nothing = table.carried([""] * len(table.columns))
    if len(line) > LONGEST:
        return Read(nothing, "line too long")
    if has_odd_quotes(line):
        return Read(nothing, "odd number of quotes")
    cells = cells_of(line, table.separator)
    if len(cells) != len(table.columns):
        return Read(nothing, "wrong number of cells")
    carried, readings = table.carried(cells), dict(table.typed)
    for cell, column in zip(cells, table.columns):
        if column is None or not (text := bare(cell)):
            continue
        reading = reading_of(column, text, table.sign)
        if isinstance(reading, str):
            return Read(carried, f"{column.name}: {reading}")
        readings[column.tag] = reading
    return Read(carried, readings)


# ---- answers
NO_FIGURES = [""] * (len(FIGURES) + 2)


def unreadable(why):
    return Answer([*NO_FIGURES, "", f"{UNREADABLE}: {why}"], UNREADABLE)


def counted(density):
    """In ten-thousandths, as it is shown."""
    return min(int(report.decimal(density, 4).replace(".", "")), TOP_DENSITY)


def answer_of(readings, judged, said):
    if isinstance(judged, int):
        return Answer([*NO_FIGURES, str(judged), ""], REFUSED)
    figures, mark = judged
    number = report.trim_class(figures[DENSITY])
    texts = [report.shown(x, decimals) for x, (_, decimals, _) in zip(figures, FIGURES)]
    notes = " ".join(name for name, holds in NOTES.items() if holds(readings, figures, said))
    return Answer([*texts, str(int(mark)), str(number), "", notes], (number, counted(figures[DENSITY])))


def asked_once(questions):
    """The oracle's answers by question."""
    questions = list(dict.fromkeys(questions))
    return dict(zip(questions, oracle.answers(questions)))


def answers(all_readings):
    """The answer by record."""
    by_record = {report.record_of(readings): readings for readings in all_readings}
    judged = dict(zip(by_record, report.answers(by_record)))
    tests = {
        record: report.asked_of_tests(by_record[record], answer[0][0]) for record, answer in judged.items() if not isinstance(answer, int)
    }
    said = asked_once(question for asked in tests.values() for question in asked.values())
    return {
        record: answer_of(readings, judged[record], {name: said[question] for name, question in tests.get(record, {}).items()})
        for record, readings in by_record.items()
    }


def answered(lines):
    """The carried cells and the answer of each line, which comes with its table."""
    lines = iter(lines)
    while some := [read(table, line) for table, line in islice(lines, AT_ONCE)]:
        by_record = answers(one.readings for one in some if isinstance(one.readings, dict))
        for carried, readings in some:
            yield carried, unreadable(readings) if isinstance(readings, str) else by_record[report.record_of(readings)]


# ---- what is written
def output_line(table, carried, answer):
    figures, others = answer.cells[: len(FIGURES)], answer.cells[len(FIGURES) :]
    return table.separator.join([*carried, *(figure.replace(".", table.sign) for figure in figures), *others]) + "\n"


def share(part, whole):
    """In percent with one decimal, halves up."""
    tenths = (2000 * part + whole) // (2 * whole)
    return f"{tenths // 10}.{tenths % 10} %"


def summary(kinds):
    """Of how many lines there are of each kind."""
    kinds = Counter(kinds)
    refused, unread = kinds.pop(REFUSED, 0), kinds.pop(UNREADABLE, 0)
    of_classes = Counter()
    for (number, _), count in kinds.items():
        of_classes[number] += count
    densities = sorted(density for _, density in kinds.elements())
    yield f"lines {len(densities) + refused + unread}: answered {len(densities)}, refused {refused}, unreadable {unread}\n"
    for number, count in sorted(of_classes.items()):
        yield f"trim class {number}: {share(count, len(densities))}\n"
    if densities:
        middle = densities[(len(densities) - 1) // 2], densities[len(densities) // 2]
        least, median, greatest = (
            "2.0000 or more" if TOP_DENSITY in pair else f"{sum(pair) / 20000:.{decimals}f}"
            for pair, decimals in [(densities[:1] * 2, 4), (middle, 5), (densities[-1:] * 2, 4)]
        )
        yield f"density: least {least}, median {median}, greatest {greatest} kg/m3\n"


def written(cases):
    """Standard output and standard error for each pair of arguments behind `table` and table, bytes."""
    tables = [opened(arguments, data.decode("latin-1")) for arguments, data in cases]
    said = answered((one[0], line) for one in tables if isinstance(one, tuple) for line in one[1])
    for one in tables:
        if one == park.TOO_LONG:
            yield one.encode(), b""
        elif isinstance(one, str):
            yield b"", one.encode("latin-1")
        else:
            table, lines = one
            out, kinds = [table.separator.join([*table.carried(table.cells), *FIGURE_NAMES]) + "\n"], []
            for carried, answer in islice(said, len(lines)):
                out.append(output_line(table, carried, answer))
                kinds.append(answer.kind)
            yield "".join(out).encode("latin-1"), "".join(summary(kinds)).encode("latin-1")


# ---- a program held to it
NOTE_STARTS = {
    "note: temperature ": "temperature-default",
    "note: station pressure ": "pressure-default",
    "note: no temperature ": "no-temperature",
    "note: no pressure ": "no-pressure",
    "note: no humidity ": "no-humidity",
    "note: humidity ": "humidity-fraction",
    "note: the density is below ": "at-limit",
}
NOTE_PARTS = {
    " times the standard pressure at ": "pressure-altitude",
    " is outside -40 to 50 C": "temperature-range",
    " is outside -500 to 5000 m": "altitude-range",
}


def short_name(note):
    """Of a note of a report, or none."""
    starts = (name for start, name in NOTE_STARTS.items() if note.startswith(start))
    parts = (name for part, name in NOTE_PARTS.items() if note.startswith("note: ") and part in note)
    return next(starts, None) or next(parts, None)


def cells_of_report(text):
    """The twelve cells that a report's readings have in a table."""
    lines = text.splitlines()
    if refused := next((line.split()[1] for line in lines if line.startswith("refused ")), None):
        return [*NO_FIGURES, refused, ""]
    figures = [next(line[24:40].strip() for line in lines if line.startswith(f"{name:<24}")) for name, *_ in FIGURES]
    number = next(line.split()[2] for line in lines if line.startswith("trim class "))
    notes = " ".join(name for line in lines if (name := short_name(line)))
    return [*figures, str(int(any(line.startswith("in the range") for line in lines))), number, "", notes]


def report_differs(program, words, first, line, got):
    """Whether a line of a table's output differs from the program's own report of the line's readings; none where it was not read."""
    table = table_of(first, understood(words).readings)
    if isinstance(read(table, line).readings, str):
        return None
    texts = [(column, bare(cell).replace(table.sign, ".")) for cell, column in zip(cells_of(line, table.separator), table.columns) if column]
    typed = [*words, *(f"{column.name}={text}{column.unit}" for column, text in texts if text)]
    if not typed:
        return None
    said = run([program, *typed], capture_output=True, check=True).stdout.decode("latin-1")
    cells = cells_of(got.decode("latin-1"), table.separator)[-len(FIGURE_NAMES) :]
    return [cell.replace(table.sign, ".") for cell in cells[: len(FIGURES)]] + cells[len(FIGURES) :] != cells_of_report(said)


def show(what, expected, got):
    at = next((i for i, (a, b) in enumerate(zip(expected, got)) if a != b), min(len(expected), len(got)))
    near = slice(max(0, at - 100), at + 200)
    print(f"  {what}, byte {at}: expected {expected[near]!r}, got {got[near]!r}")


def differs(program, arguments, data, out, err):
    done = run([program, "table", *(argument.encode("latin-1") for argument in arguments)], input=data, capture_output=True)
    if (done.returncode, done.stdout, done.stderr) == (0, out, err):
        return False
    print(f"{arguments}, {data[:200]!r} of {len(data)} bytes: status {done.returncode}")
    for what, expected, got in [("standard output", out, done.stdout), ("standard error", err, done.stderr)]:
        if expected != got:
            show(what, expected, got)
    return True


def compare(program):
    """Each table, and of some lines the program's report."""
    cases = list(table_cases.cases())
    differ = lines = tried = other = 0
    for i, ((arguments, data), (out, err)) in enumerate(zip(cases, written(cases))):
        differ += differs(program, arguments, data, out, err)
        lines += data.count(b"\n")
        words = [word for argument in arguments for word in argument.split("\n")]
        if out and i % 4 == 0 and not isinstance(understood(words), str):
            first, *others = lines_of(data.decode("latin-1"))
            for line, got in list(zip(others, out.split(b"\n")[1:-1]))[: 40 if len(others) < 200 else 400]:
                found = report_differs(program, words, first, line, got)
                tried += found is not None
                other += bool(found)
                if found:
                    print(f"{arguments}, {line!r}: the report differs from {got!r}")
    print(f"{len(cases)} tables, {lines} lines, {differ} differ; {tried} reports, {other} differ")


def compare_at_random(program, count):
    """One table of many lines, its figures the oracle's, in good time."""
    data = "".join(table_cases.readings_at_random(count)).encode()
    start = perf_counter()
    done = run([program, "table"], input=data, capture_output=True)
    seconds = perf_counter() - start
    print(f"{count} lines, {len(data)} bytes: {seconds:.2f} s by pipes, {count / seconds:.0f} lines a second", flush=True)
    [(out, err)] = written([([], data)])
    expected, got = out.split(b"\n"), done.stdout.split(b"\n")
    differ = sum(a != b for a, b in zip(expected, got)) + abs(len(expected) - len(got))
    same = "as expected" if (done.stderr, done.returncode) == (err, 0) else f"differs: {done.stderr!r}, expected {err!r}"
    print(f"{len(expected) - 1} lines of output, {differ} differ; the summary is {same}")


def hold(out):
    """The gate's table has every note, every reason and every refusal that typed readings can have."""
    cells = [cells_of(line, ",")[-2:] for line in lines_of(out.decode("latin-1"))[1:]]
    said = {number for number, _ in cells} | {word for _, note in cells for word in note.split(" ")} | {note for _, note in cells}
    reasons = ["line too long", "odd number of quotes", "wrong number of cells"]
    reasons += [f"{name}: {why}" for name in MEANINGS for why in WHY.values()]
    assert said >= {*NOTES, *(f"{UNREADABLE}: {why}" for why in reasons), *map(str, [3, 4, 9, 10, 12, 13, 14, 15])}


def write_gate():
    data = table_cases.gate_table().encode("latin-1")
    [(out, _)] = written([([], data)])
    hold(out)
    for name, content in [("args", b"table\n"), ("stdin", data), ("stdout", out)]:
        (GATE / name).write_bytes(content)


def make(folder):
    folder = Path(folder)
    folder.mkdir(parents=True, exist_ok=True)
    cases = list(table_cases.cases())
    for i, ((arguments, data), (out, err)) in enumerate(zip(cases, written(cases))):
        words = "".join(argument + "\n" for argument in ["table", *arguments]).encode("latin-1")
        for name, content in [("args", words), ("stdin", data), ("stdout", out), ("stderr", err)]:
            (folder / f"{i:04}.{name}").write_bytes(content)


def print_as_park(arguments):
    arguments = [fsencode(argument).decode("latin-1") for argument in arguments]
    if arguments[:1] == ["table"]:
        [(out, err)] = written([(arguments[1:], stdin.buffer.read())])
    else:
        out, err = park.of_arguments([arguments])[0].encode("latin-1"), b""
    stdout.buffer.write(out)
    stdout.flush()
    stderr.buffer.write(err)


if __name__ == "__main__":
    match argv[1:]:
        case ["print", *arguments]:
            print_as_park(arguments)
        case ["gate"]:
            write_gate()
        case ["make", folder]:
            make(folder)
        case ["compare", program]:
            compare(program)
        case ["compare", program, count]:
            compare_at_random(program, int(count))
