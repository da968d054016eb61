"""Makes examples/season.csv: July 2026 at a park at 1,586 m, a line for each quarter of an hour, as a mast's logger writes it.

The weather is made up, the same at every run: warm afternoons, fronts that move the QNH, dry heat and damp nights. So are the logger's
faults: hours that are missing, a hygrometer that is silent and then starts with dashes, a line that was cut, two lines run into one.
"""

from datetime import datetime, timedelta
from math import cos, pi, sin
from pathlib import Path
from random import Random

FILE = Path(__file__).resolve().parent / "season.csv"
START, DAYS, A_DAY = datetime(2026, 7, 1), 31, 96

# by quarter of an hour
MISSING, SILENT = [range(655, 671), range(2210, 2219)], range(1503, 1520)
CUT, RUN_TOGETHER = 654, 1893


def weather():
    """Temperature, QNH and humidity of each quarter of an hour."""
    random = Random(1586)
    front = cloud = 0.0
    for i in range(DAYS * A_DAY):
        day, hour = i / A_DAY, i % A_DAY / 4
        front = 0.9985 * front + random.gauss(0, 0.12)
        cloud = 0.97 * cloud + random.gauss(0, 0.25)
        celsius = 23.5 + 1.2 * sin(2 * pi * day / 11) + 0.25 * front + cloud - (7.5 - 0.4 * abs(front)) * cos(2 * pi * (hour - 3.5) / 24)
        qnh = 1014.5 - 1.1 * front + 0.9 * cos(2 * pi * (hour - 9.5) / 12) + random.gauss(0, 0.05)
        humidity = min(97, max(8, 42 - 2.6 * (celsius - 22) - 2 * cloud + random.gauss(0, 1)))
        yield celsius, qnh, humidity


def lines():
    yield "time,temperature [C],qnh [hPa],humidity [%]"
    for i, (celsius, qnh, humidity) in enumerate(weather()):
        percent = "" if i in SILENT else "---" if i == SILENT.stop else f"{humidity:.0f}"
        line = f"{START + timedelta(minutes=15 * i):%Y-%m-%d %H:%M},{celsius:.1f},{qnh:.1f},{percent}"
        if i == CUT:
            yield line[:19]
        elif i == RUN_TOGETHER:
            held = line
        elif i == RUN_TOGETHER + 1:
            yield held + line
        elif not any(i in hours for hours in MISSING):
            yield line


FILE.write_text("".join(line + "\n" for line in lines()))
