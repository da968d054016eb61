"""Tables that `park table` is tried on, each with its words: a character a byte, the same at every run. Run as a program it prints a table of
drawn readings, with as many lines as its argument says.
"""

from random import Random
from sys import argv, stdout

from park import HELP, LONGEST, MINUS, RECORD, RECORD_EXAMPLE, TURNS

# starts of phrases of TURNS that are notes of tables, classes or refusals
OF_TABLES = "14.9 to", "1012.75 to", "weather stays", "outside", "is nearly dry air", "by less than", "trim class", "refused"

# no numbers, with a point or with a comma
NOT_NUMBERS = [
    *["x", "24C", "1e3", "+", "-", "--3", "+-3", "3-", "1 5", "\t24", "24\t", "NaN", "N/A", "0x10", "1/2", "=5", "'5", "1_0", MINUS + "5", "5\x00"],
    *['" 24"', '"24 "', '" "', '""24""', '"2"4', '2"4"', '"24""', "\xa024", "\x7f", "24\r"],
]


def with_sign(text, sign):
    return text.replace(".", sign)


# ---- one table of everything
GATE_NAMES = [
    *["time", "altitude", "temperature [C]", '"remark, free"', "pressure", "station-pressure [hPa]", "qnh [inHg]", "humidity [%]"],
    *["density-altitude [ft]", " logger "],
]
GATE_READINGS = {"altitude": 1, "temperature": 2, "pressure": 4, "station-pressure": 5, "qnh": 6, "humidity": 7, "density-altitude": 8}


def gate_line(time, remark, readings, logger="A7"):
    cells = [time, "", "", remark, "", "", "", "", "", logger]
    for name, number in readings.items():
        cells[GATE_READINGS[name]] = number
    return ",".join(cells)


def turn_readings(units):
    """The readings of TURNS that need no other unit than these names have, and nothing else."""
    for phrase, form, *numbers in TURNS:
        words = [word.split("=") for word in form.split(" ")]
        if phrase.startswith(OF_TABLES) and all(name in units and number.strip("{}.-0123456789") == "" for name, number in words):
            for number in numbers:
                yield {name: form.format(number) for name, form in words}


# each number that a table's line may be refused by, alone and before another
REFUSED = [
    *[{"altitude": "0", "temperature": "-273.15"}, {"altitude": "0", "temperature": "-300", "humidity": "101"}],
    *[{"density-altitude": "145285.06"}, {"density-altitude": "2147483.647", "humidity": "101"}],
    *[{"altitude": "5", "pressure": "1000", "qnh": "30"}, {"altitude": "5", "density-altitude": "5"}, {"density-altitude": "5", "pressure": "0"}],
    *[{"pressure": "1", "station-pressure": "1", "qnh": "1"}, {}, {"temperature": "24"}, {"humidity": "-1", "pressure": "0"}],
    *[{"altitude": "5", "pressure": "0"}, {"altitude": "5", "qnh": "0"}, {"altitude": "5", "station-pressure": "-0.001"}],
    *[{"altitude": "5", "pressure": "0", "humidity": "101"}, {"altitude": "5", "humidity": "100.001"}, {"altitude": "5", "humidity": "-0.001"}],
    *[{"altitude": "5", "temperature": "95", "pressure": "500", "humidity": "100"}, {"altitude": "45000", "qnh": "29.9213"}],
    *[{"altitude": "1586", "temperature": "297.15", "pressure": "841.9", "humidity": "32"}],
]

ANSWERED = [
    *[{"altitude": "1586", "temperature": "24", "qnh": "30.1025", "humidity": "32"}, {"altitude": "60", "temperature": "17.6", "pressure": "1008.3"}],
    *[{"density-altitude": "7000", "temperature": "24"}, {"density-altitude": "7000"}, {"altitude": "-0", "temperature": "-0.000", "humidity": "+0"}],
    *[{"altitude": "000.5", "temperature": "+15", "station-pressure": "1013.25"}, {"altitude": "2147483.647", "temperature": "20", "pressure": "1000"}],
    *[{"altitude": "-2147483.648", "temperature": "20", "pressure": "1000"}, {"altitude": "0", "temperature": "20", "pressure": "2147483.647"}],
    *[{"altitude": "0", "temperature": "2147483.647", "pressure": "1000"}, {"altitude": "0", "temperature": "-100", "pressure": "1100"}],
    *[{"altitude": "9000", "temperature": "-45", "pressure": "300", "humidity": "0.5"}, {"altitude": "1.586", "qnh": "30.1"}],
    *[{"altitude": '"1586"', "temperature": ' "24" ', "qnh": "  30.1  ", "humidity": '""'}, {"altitude": " 5 ", "humidity": '  ""  '}],
]

# of a reading of each name: too many decimals, out of range
TOO_FINE = {"altitude": "1586.0000", "temperature": "24.1234", "pressure": "841.0001", "humidity": "32.00000", "density-altitude": "1.2345"}
TOO_FINE |= {"station-pressure": "841.89700", "qnh": "30.10250"}
TOO_FAR = {"altitude": "2147483.648", "temperature": "-2147483.649", "pressure": "99999999999999999999", "humidity": "4294967.296"}
TOO_FAR |= {"station-pressure": "2147484", "qnh": "214748.3648", "density-altitude": "-99999999999999999999.999"}


def gate_lines():
    """Each case of the document's section at least once, of a table with all seven readings."""
    yield from (gate_line("2026-07-01 00:00", "good", readings) for readings in ANSWERED)
    yield from (gate_line("2026-07-01 06:00", "refused", readings) for readings in REFUSED)
    units = [name for name in GATE_READINGS if name not in ("qnh", "density-altitude")]
    yield from (gate_line("2026-07-01 12:00", f"turn {i % 2}", readings) for i, readings in enumerate(turn_readings(units)))
    good = {"altitude": "1586", "temperature": "24", "qnh": "30.10", "humidity": "32"}
    for name in GATE_READINGS:
        for i, text in enumerate(("x", TOO_FINE[name], TOO_FAR[name])):
            yield gate_line("2026-07-02 00:00", f"{name} {i}", {**good, name: text})
    yield from (gate_line("", "", {**good, "temperature": text}) for text in [*NOT_NUMBERS, "1.", ".5", "1.2.3", '"1,5"', "1;5"] if text.count('"') % 2 == 0)
    # the first fault from the left, whichever it is, and before a refusal
    yield gate_line("2026-07-02 01:00", "two", {**good, "humidity": "x", "altitude": "1.2345"})
    yield gate_line("2026-07-02 01:15", "two", {**good, "altitude": "9999999", "temperature": "x"})
    yield gate_line("2026-07-02 01:30", "and 9", {**good, "pressure": "841.9", "station-pressure": "?"})
    # cells
    yield gate_line('"2026-07-02, 02:00"', '"a ""quoted"", word"', good, ' "" ')
    yield gate_line("  ", "\x00\x01\xff\xe2\x88\x92", good, "")
    yield gate_line("a;b", 'in"ner, comma"', good, 'x"y"z')
    yield gate_line('"', "", good)
    yield gate_line("", '"""', good, "A7")
    yield gate_line("", "", {**good, "temperature": '"24'}, "A7")
    line = gate_line("2026-07-02 03:00", "cells", good)
    yield from [line + ",", "," + line, line.removesuffix(",A7"), line.replace(",", ";"), "", " ", ",", "," * 9, "," * 8, "," * 10, "time"]
    yield "2026-07-02 03:15,1586,24,,,,30.10,32,,A7,and,more"
    # lengths
    room = LONGEST - len(gate_line("2026-07-02 04:00", '""', good))
    for remark, length in [("r", room), (",", room), ("r", room + 1), (",", room + 1), ('"', room + room % 2), ("r", 2 * LONGEST)]:
        yield gate_line("2026-07-02 04:00", '"' + remark * length + '"', good)
    yield gate_line("2026-07-02 05:00", "the last, without its end".replace(",", ""), good)


def gate_table():
    """With a byte order mark, some lines ended by a carriage return and a newline, and the last by nothing."""
    lines = [",".join(GATE_NAMES), *gate_lines()]
    ended = (line + ("\r\n" if i % 5 == 0 else "\n") for i, line in enumerate(lines[:-1]))
    return "\xef\xbb\xbf" + "".join(ended) + lines[-1]


# ---- small tables
ALL_NAMES = "altitude,temperature,pressure,station-pressure,qnh,humidity,density-altitude"
LINES = "00:00,24,1019.3,32\n00:15,23.5,1019.4,33\n"
HEADED = "time,temperature,qnh,humidity\n" + LINES
EUROPEAN = "Zeit;temperature;qnh;humidity\n00:00;24;1019,3;32\n00:15;23,5;1019,4;33\n00:30;23.5;1019,4;33\n00:45;1.000,5;;\n01:00;\"1;5\";;\n"


def first_lines():
    """Names, units, quotes and blanks of the first line, right and wrong."""
    for unit in ["m", "ft", "C", "F", "K", "hPa", "kPa", "inHg", "percent", "%", "", "M", "c", "hpa", " F", "F ", "F] x", "F]]", "[F]", "x" * 70, "\xb0C"]:
        for name in ALL_NAMES.split(","):
            yield f"{name} [{unit}]"
            yield f"{name}[{unit}"
    for name in ["temperature", "qnh", "density-altitude"]:
        forms = ["{}  ", "  {}", '"{}"', ' "{}" ', '" {}"', '"{} "', '"{}""', '""{}""', "{}]", "[{}]", "{} [", "{}s", "{}=", "\t{}", "{}\t", "\xef\xbb\xbf{}"]
        yield from (form.format(name) for form in forms)
        yield from [name.capitalize(), name.upper(), name[:-1], f"x{name}", f'"{name} [C]"', f'"{name}" [C]', f"{name} [hPa] ", f'"{name} [x]"']
    yield from ["", '"', '""', '"""', "[", "]", "x", ",", ",,", ";", "temperature;", ";qnh", '"temperature;qnh"', '";",temperature', "a[,]"]
    yield "temperature [\x01" + "\xe9" * 70


def of_first_lines():
    for cell in first_lines():
        for first in [cell, f"{cell},time", f"time,{cell},x", f"time;{cell};x"]:
            yield ["altitude=1586"], f"{first}\n24,1000,1\n24\n1;2;3\n24,5\n24,\n"
    for first in [
        *["temperature,temperature", "temperature,qnh,temperature [F]", "temperature,x,temperature [X]", "temperature [X],temperature,temperature"],
        *["qnh,altitude", "altitude", "altitude [X]", "x,altitude [ft],temperature [X]", "qnh [inHg],temperature,qnh", "x,y", "a;b", "altitude;altitude"],
    ]:
        yield ["altitude=1586"], f"{first}\n1,2,3\n"
        yield [], f"{first}\n1,2,3\n"
    for count in [1, 2, 15, 16, 17, 300]:
        for mark in ",;":
            names = [*(f"c{i}" for i in range(count - 1)), "temperature"]
            yield ["altitude=1586"], mark.join(names) + "\n" + mark.join(["7"] * count) + "\n" + mark * count + "\n" + mark * (count - 1)
            yield ["altitude=1586"], mark.join(names[::-1]) + "\n"
    yield [], ",".join([*ALL_NAMES.split(","), *"abcdefghi"]) + "\n" + ",".join(["", "", "", "", "", "", "2100", *'123456789']) + "\n"


def of_lengths():
    """First lines and others about as long as a line may be, with each end."""
    for length in [LONGEST - 1, LONGEST, LONGEST + 1, LONGEST + 2, 2 * LONGEST, 70_000]:
        for end in ["\n", "\r\n", "", "\r", "\r\r\n"]:
            yield ["altitude=1586"], "temperature," + "x" * (length - 12) + end
            yield ["altitude=1586"], "\xef\xbb\xbftemperature," + "x" * (length - 15) + end
            yield ["altitude=1586"], "temperature,x\n24," + "y" * (length - 3) + end
            yield ["altitude=1586"], "temperature,x\n" + "0" * (length - 1) + "," + end + "24,z\n"
            yield ["altitude=1586"], "temperature,x\n" + '"' * length + end + "24,z\n"
            yield ["altitude=1586"], "temperature,x\n24," + "y" * (length - 3) + end + "25,z" + end + "26,z"


def of_pieces():
    """Lines of many lengths, so that reads end at any place of a line, and some far too long."""
    random = Random(4)
    for end in ["\n", "\r\n"]:
        lines = ["temperature [C],remark,humidity"]
        for i in range(600):
            length = random.choice([0, 1, 2, 40, 4000, random.randrange(LONGEST + 10), *([random.randrange(200_000)] if i % 100 == 0 else [])])
            lines.append(f"{random.randrange(40)},{'r' * length},{random.choice([20, 50, '', 'x'])}")
        yield ["altitude=1586"], end.join(lines)
        yield ["altitude=1586"], end.join(lines) + end + "y" * 200_000


def of_ends():
    for text in ["", "\n", "\r\n", "\r", "\n\n", "\xef\xbb\xbf", "\xef\xbb\xbf\n", "\xef\xbb", "temperature", "temperature\r", "temperature\r\n", "temperature\n"]:
        yield ["altitude=1586"], text
        yield ["altitude=1586"], text + "\n"
        yield [], text
    for text in ["\n", "\n\n\n", "\r\n", "\r", "24", "24\r", "24\n\n25\r\n\r\n26\r\r\n", " ", '""', '"', "\r\r\n"]:
        yield ["altitude=1586"], "temperature\n" + text
        yield ["altitude=1586"], "temperature,\n" + text
        yield ["altitude=1586"], "\xef\xbb\xbftemperature\r\n\xef\xbb\xbf" + text
    for text in [HEADED, EUROPEAN]:
        yield ["altitude=1586"], text
        yield ["altitude=1586"], text.replace("\n", "\r\n")
        yield ["altitude=1586"], "\xef\xbb\xbf" + text
        yield ["altitude=1586"], text.removesuffix("\n")
        yield ["altitude=5203ft", "station-pressure=841.9"], text
        yield [], text


def of_words():
    """Words understood and not, before each problem of the table too."""
    right = [["altitude=5203ft", "pressure=24.8625inHg"], ["density-altitude=7000ft"], ["altitude=1.586", "pressure=84.19kPa"]]
    wrong = ["", "x", "altitude", "altitude=", "altitude=1,586", "altitude=5 m", "altitude=5203feet", "altitude=1.2345", "altitude=99999999", "sheet", "table"]
    for words in [*right, *([word] for word in wrong), *([word] for word in HELP), [RECORD + RECORD_EXAMPLE], ["record"], [f"temperature={MINUS}5"]]:
        for text in [HEADED, "time,humidity\n0,5\n0,\n", "", "x", '"']:
            yield words, text
    yield ["altitude=1", "altitude=1"], HEADED
    yield ["temperature=24", "altitude=1"], HEADED
    yield ["humidity=0.5", "temperature=15", "altitude=1586", "station-pressure=1013.25"], "density-altitude,n\n,1\n5,2\nx,3\n"
    yield ["altitude=1586\nhumidity=5"], "temperature\n24\n"
    yield ["altitude=1586\n"], HEADED
    for length in [LONGEST - 1, LONGEST, LONGEST + 1]:
        yield ["x" * (length - len("table\n") - 1)], HEADED


def of_readings():
    """Every form of number in a column of each unit, in both forms of table."""
    numbers = [*NOT_NUMBERS, *["24", "-0", "+3", "000.5", "12.345", "12.3456", "30.10250", "30.1025", ".5", "5.", "1.2.3", ".", "1.000.5", "1", ""]]
    numbers += ["2147483.647", "2147483.648", "-2147483.648", "-2147483.649", "214748.3647", "214748.3648", "-214748.3648", "-214748.3649"]
    numbers += ["0" * 70 + "1", "1" + "0" * 70, "9" * 300, "1." + "0" * 300, "0" * 4000 + "5", "4294967.296", "4294967296", "18446744073709551616"]
    numbers += ["18446744073709551.621", "9223372036854775.808", "340282366920938463463374607431768211.461", "0.001", "-0.001", "0.0001", "-0.0001"]
    for mark, sign, other in [(",", ".", ","), (";", ",", ".")]:
        for name in ["temperature", "temperature [F]", "temperature [K]", "humidity [%]"]:
            cells = [*(with_sign(number, sign) for number in numbers), f'"1{other}5"', f'"1{other}000{sign}5"']
            yield ["altitude=1586"], f"{name}{mark}n\n" + "".join(f"{cell}{mark}{i}\n" for i, cell in enumerate(cells))
        for name in ["pressure", "station-pressure [kPa]", "qnh [inHg]", "pressure [inHg]"]:
            yield ["altitude=1586"], f"n{mark}{name}\n" + "".join(f"{i}{mark}{with_sign(number, sign)}\n" for i, number in enumerate(numbers))
        for name in ["altitude", "altitude [ft]", "density-altitude [m]", "density-altitude [ft]"]:
            yield ["temperature=24"], f"n{mark}{name}\n" + "".join(f"{i}{mark}{with_sign(number, sign)}\n" for i, number in enumerate(numbers))


def of_turns():
    """Both sides of each note, class and refusal, in one table for each set of names, with a point and with a comma."""
    by_names = {}
    for readings in turn_readings(ALL_NAMES.split(",")):
        by_names.setdefault(tuple(readings), []).append(list(readings.values()))
    for names, rows in by_names.items():
        yield [], ",".join(names) + "\n" + "".join(",".join(row) + "\n" for row in rows)
        yield [], ";".join([*names, "n"]) + "\n" + "".join(with_sign(";".join([*row, "x"]), ",") + "\n" for row in rows)
    yield [], "altitude,temperature [F],qnh,n\n1586,58.819,1019.3,1\n1586,58.82,1019.3,2\n"
    yield [], gate_table()
    yield ["temperature=24"], "altitude [m],humidity\n" + "".join(f"{altitude},{humidity}\n" for altitude in (0, 1586, 9000) for humidity in ("", 0, 0.5, 1, 50))


def of_summaries():
    """Counts even and odd, all equal, shares with halves, every class, and densities of 2 kg/m3 and more."""
    pressures = ["852.733", "852.734", "895.359", "937.982", "980.605", "1023.226", "1065.846", "1700", "1705.4", "1705.5", "1706", "5000"]
    for count in range(len(pressures) + 1):
        for some in [pressures[:count], pressures[-count:], pressures[:count] + ["0"] * count + ["x"]]:
            yield ["altitude=0", "temperature=24"], "pressure\n" + "".join(hpa + "\n" for hpa in some)
    for count, others in [(1, 1999), (1, 999), (1, 2), (3, 1997), (1, 7), (1, 2001), (1, 5000)]:
        yield ["altitude=0", "temperature=24"], "pressure\n" + "852.734\n" * count + "850\n" * others
    # least, median and greatest each at 2.0000, of which four decimals of less are shown too
    for rows in [["1705.4"] * 2, ["850", "1706"], ["850", "850", "1706"], ["1706", "1706", "850"], ["1705.3", "1705.35", "1705.4", "1705.45"]]:
        yield ["altitude=0", "temperature=24"], "pressure\n" + "".join(hpa + "\n" for hpa in rows)


# ---- drawn tables
DRAWN_UNITS = {
    "altitude": [("", -100, 3000), ("m", 0, 2000), ("ft", 0, 9000)],
    "temperature": [("", -30, 60), ("C", 10, 20), ("F", -20, 120), ("K", 250, 320)],
    "pressure": [("", 600, 1100), ("kPa", 60, 110), ("inHg", 18, 33)],
    "station-pressure": [("", 1000, 1030), ("hPa", 700, 1020), ("inHg", 20, 33)],
    "qnh": [("", 950, 1050), ("hPa", 850, 1100), ("inHg", 28, 31)],
    "humidity": [("", 0, 100), ("%", -5, 105), ("percent", 0, 2)],
    "density-altitude": [("", -500, 5000), ("ft", -1000, 20000)],
}
CARRIED = ["", "x", "2026-07-01 12:00", '"a, b; c"', '"say ""so"""', " ", "\xe9", '""', "1586", "a.b", 'x"y"']
SETS = [
    *[("altitude", "temperature", "qnh", "humidity"), ("altitude", "temperature", "pressure", "humidity"), ("temperature", "qnh", "humidity")],
    *[("density-altitude", "temperature", "humidity"), ("temperature", "station-pressure"), ("altitude",), tuple(ALL_NAMES.split(","))],
]


def drawn_number(random, low, high, places):
    return f"{random.uniform(low, high):.{random.randrange(places + 1)}f}"


def drawn_table(random):
    mark = random.choice([",", ",", ";"])
    names = list(random.choice(SETS))
    columns = [(name, *random.choice(DRAWN_UNITS[name])) for name in names] + [None] * random.choice([0, 1, 1, 2, 5])
    random.shuffle(columns)

    def cell(column):
        if column is None:
            return random.choice(CARRIED)
        drawn = random.random()
        if drawn < 0.06:
            return random.choice(["", "", " ", '""'])
        if drawn < 0.08:
            return with_sign(random.choice([*NOT_NUMBERS, "1.23456", "99999999", ".5"]), "," if mark == ";" else ".")
        _, unit, low, high = column
        text = drawn_number(random, low, high, 4 if unit == "inHg" else 3)
        text = with_sign(text, ",") if mark == ";" else text
        return random.choice([text] * 6 + [f" {text} ", f'"{text}"' if mark == "," or "," not in text else text])

    def line():
        made = mark.join(map(cell, columns))
        return random.choice([made] * 30 + [made + mark, made[1:], "", made + '"'])

    first = mark.join(
        random.choice(["time", '"x; y"' if mark == ";" else '"x, y"', " n "]) if column is None else column[0] + (f" [{column[1]}]" if column[1] else "")
        for column in columns
    )
    end = random.choice(["\n", "\r\n"])
    text = end.join([first, *(line() for _ in range(random.randrange(40)))]) + random.choice([end, ""])
    words = [] if {"altitude", "density-altitude"} & {*names} else ["altitude=1586"]
    return words, random.choice(["", "", "\xef\xbb\xbf"]) + text


def damaged(random, text):
    """With some bytes changed, dropped, doubled or put in, cut, or with its pieces in another order."""
    for _ in range(random.choice([1, 1, 2, 5, 20])):
        at = random.randrange(len(text) + 1)
        length = random.choice([0, 1, 1, 2, 30])
        put = random.choice(["", text[at : at + length] * 2, random.choice(',;"\r\n\n []-+.0123456789'), chr(random.randrange(256)), '""', ",,", ";;", "\r\n"])
        text = text[:at] + put + text[at + length :]
    if random.random() < 0.1:
        text = text[: random.randrange(len(text) + 1)]
    if random.random() < 0.05:
        at = random.randrange(len(text) + 1)
        text = text[:at] + random.choice('x" ,;0') * random.randrange(2 * LONGEST) + text[at:]
    return text


def drawn_tables(count, seed=41):
    random = Random(seed)
    for _ in range(count):
        words, text = drawn_table(random)
        yield words, text
        yield words, damaged(random, text)


def readings_at_random(count, seed=41):
    """Four readings a line, drawn from wide ranges: some refused, some in the default bands."""
    random = Random(seed)
    yield "time,altitude,temperature [C],pressure,humidity\n"
    for i in range(count):
        altitude, celsius, humidity = random.uniform(-400, 3000), random.uniform(-30, 48), random.uniform(0, 100.2)
        hpa = 1013.25 * (1 - 0.0000226 * altitude) ** 5.256 * random.uniform(0.84, 1.09)
        yield f"{i},{altitude:.1f},{celsius:.{i % 3 + 1}f},{hpa:.{i % 4}f},{humidity:.1f}\n"


def cases():
    parts = [of_ends(), of_words(), of_first_lines(), of_lengths(), of_pieces(), of_readings(), of_turns(), of_summaries(), drawn_tables(300)]
    for part in parts:
        for words, text in part:
            yield words, text.encode("latin-1")


if __name__ == "__main__":
    stdout.writelines(readings_at_random(int(argv[1])))
