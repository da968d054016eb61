"""Holds station_air to the gate's lists, crates/ask/stdin and stdout (docs/ASK.md has their form).

    python3 -m unittest discover -s python
"""

import math
import struct
import unittest
from array import array
from pathlib import Path

import station_air
from station_air import Count, Refused, figures_of_columns, judge, judge_strictly, read, read_strictly, report, trim_class, write

UNREADABLE = {f"refused {number}" for number in (5, 6, 7, 8)}
FOLDER = Path(__file__).resolve().parent.parent / "crates" / "ask"


def answers():
    """Questions with their answers' lines, up to those of park, which come after all that the module answers."""
    questions, lines = ((FOLDER / name).read_text("latin-1").split("\n") for name in ("stdin", "stdout"))
    rest = iter(lines)
    for question in questions:
        name, _, argument = question.partition(" ")
        if name == "park":
            return
        answer = [next(rest)]
        while name == "report" and not answer[-1].startswith("record") and answer[0] not in UNREADABLE:
            answer.append(next(rest))
        more = 1 if answer[0].startswith("station") else 50 if name == "sheet" and not answer[0].startswith("refused") else 0
        yield name, argument, answer + [next(rest) for _ in range(more)]


LIST = list(answers())


def asked(*names):
    return ((argument, answer) for name, argument, answer in LIST if name in names)


def record(argument):
    return bytes.fromhex(argument.replace("-", ""))


def value(x):
    return "nan" if math.isnan(x) else struct.pack(">d", x).hex().upper()


def lines(figures):
    *figures, mark = figures
    words = [value(x) for x in figures]
    return [" ".join(["station", *words[:3]]), " ".join(["air", *words[3:], str(int(mark))])]


def answer_of(function, argument):
    try:
        return lines(function(record(argument)))
    except Refused as refused:
        return [" ".join(["refused", str(refused.number), *map(value, refused.values)])]


def doubles(data):
    """The doubles of a record by tag; None where it is not made of doubles, each tag once."""
    fields = {}
    while data:
        if len(data) < 11 or not 1 <= data[0] <= 7 or data[1:3] != b"\0\x08" or data[0] in fields:
            return None
        fields[data[0]] = struct.unpack(">d", data[3:11])[0]
        data = data[11:]
    return fields


class Lists(unittest.TestCase):
    def hold(self, function, name, least):
        questions = list(asked(name))
        self.assertGreater(len(questions), least)
        for argument, answer in questions:
            self.assertEqual(answer_of(function, argument), answer, argument)

    def test_judge(self):
        self.hold(judge, "judge-values", 1000)

    def test_judge_strictly(self):
        self.hold(judge_strictly, "strict-values", 500)

    def test_write(self):
        questions = list(asked("write"))
        self.assertGreater(len(questions), 1000)
        for argument, answer in questions:
            readings = {}
            for tag, data in (item.split("=") for item in argument.split()):
                number = struct.unpack(">d" if tag < "10" else ">i", bytes.fromhex(data))[0]
                readings[station_air.READINGS[int(tag[1]) - 1]] = number if tag < "10" else Count(number)
            written = write(**readings)
            self.assertEqual([f"{len(written)} {written.hex().upper() or '-'}"], answer, argument)
            # as text, where a NaN is like a NaN
            self.assertEqual(sorted(map(repr, read(written).items())), sorted(map(repr, readings.items())), argument)

    def hold_reader(self, function, name, unreadable):
        for argument, answer in asked(name):
            refused = answer[0] if answer[0] in {f"refused {number}" for number in unreadable} else None
            try:
                function(record(argument))
                self.assertIsNone(refused, argument)
            except Refused as error:
                self.assertEqual(f"refused {error.number}", refused, argument)

    def test_read(self):
        self.hold_reader(read, "judge", [5, 6, 7, 8])

    def test_read_strictly(self):
        self.hold_reader(read_strictly, "strict", [5, 6, 7, 8, 19])

    def test_report(self):
        questions = list(asked("report"))
        self.assertGreater(len(questions), 500)
        for argument, answer in questions:
            reported = report(record(argument)).split("\n")
            # `ask` says of an unreadable record no more than that
            self.assertEqual(reported[:1] if reported[0] in UNREADABLE else reported[:-1], answer, argument)

    def test_trim_class(self):
        accepted = [(argument, answer) for argument, answer in asked("class") if answer[0].startswith("class")]
        self.assertGreater(len(accepted), 100)
        for argument, answer in accepted:
            density = judge(record(argument)).density_kg_m3
            self.assertEqual(str(trim_class(density)), answer[0].split()[1], argument)

    def columns(self, column_of):
        """Every record of doubles in the list, those with the same readings as one table."""
        tables = {}
        for argument, answer in asked("judge"):
            fields = doubles(record(argument))
            if fields:
                tables.setdefault(tuple(sorted(fields)), []).append((fields, answer))
        self.assertGreater(sum(map(len, tables.values())), 1000)
        for tags, rows in tables.items():
            readings = {station_air.READINGS[tag - 1]: column_of([fields[tag] for fields, _ in rows]) for tag in tags}
            answered = figures_of_columns(**readings)
            for (status, *figures), (_, answer) in zip(zip(*answered), rows):
                if status:
                    self.assertEqual([f"refused {status}"], answer)
                    self.assertTrue(all(map(math.isnan, figures[:-1])))
                    self.assertEqual(figures[-1], 0)
                else:
                    self.assertEqual(lines(figures), answer)
            self.assertEqual(len(answered.status), len(rows))
        return answered

    def test_columns(self):
        self.assertIsInstance(self.columns(lambda xs: array("d", xs)).density_kg_m3, array)
        self.columns(list)

    def test_columns_of_numpy(self):
        try:
            import numpy
        except ImportError:
            self.skipTest("NumPy is not there")
        self.assertIsInstance(self.columns(numpy.array).density_kg_m3, numpy.ndarray)


class Arguments(unittest.TestCase):
    def test_no_rows(self):
        self.assertEqual(len(figures_of_columns(altitude=[]).status), 0)
        self.assertEqual(len(figures_of_columns().status), 0)

    def test_unequal_columns(self):
        with self.assertRaises(ValueError):
            figures_of_columns(altitude=[0, 1], temperature=[20])

    def test_unknown_name(self):
        with self.assertRaises(TypeError):
            figures_of_columns(height=[0])

    def test_count_out_of_range(self):
        with self.assertRaises(OverflowError):
            write(altitude=Count(2**31))


if __name__ == "__main__":
    unittest.main()
