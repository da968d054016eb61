"""Bounds on answers, the files vectors/bounds/*.txt: their form, for those that write and read them.

A line has a question to `ask`, which word of the answer is meant, 1 the first, and the two ends between which it lies, both included;
a tab between. A double's end is its pattern. A log word is two words, and so are its ends.
"""

from pathlib import Path

from words import pattern, question

FOLDER = Path(__file__).resolve().parent / "bounds"


def line(asked, place, low, high):
    return f"{asked}\t{place}\t{low}\t{high}\n"


def write(name, lines):
    (FOLDER / f"{name}.txt").write_text("".join(lines), newline="")


def read(name):
    """The question, the place, and both ends of each line."""
    for text in (FOLDER / f"{name}.txt").read_text("ascii").splitlines():
        asked, place, low, high = text.split("\t")
        yield asked, int(place), low, high


def questions(name):
    """Each question once, in the list's order."""
    return list(dict.fromkeys(asked for asked, *_ in read(name)))


# ---- the figures of published.py and outside.py: a question, and the place in its answer
TEMPERATURE = "calculate_icao_standard_atmosphere", 1
PRESSURE = "calculate_icao_standard_atmosphere", 2
SATURATION = "enhanced_saturation_vapor_pressure", 1
DENSITY = "calculate_air_density_cimp", 1
SOUND = "moist_speed_of_sound", 1
HEIGHT = "standard_pressure_altitude_m", 1
NWS = "nws_pressure_altitude_ft", 1
FAA = "faa_rule_density_altitude_ft", 1


def figure_line(figure, inputs, low, high):
    name, place = figure
    return line(question(name, *inputs), place, pattern(low), pattern(high))
