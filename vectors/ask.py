"""Answers lines as the program `ask` does, and shares nothing with it: `ask.py <LINES >ANSWERS`.

What is understood, and what is said of the rest, is docs/ASK.md's. The figures are the oracle's, roots Python's, a report is
report.py's and what `park` prints park.py's.
"""

from math import isqrt
from re import fullmatch
from sys import stdin, stdout

import oracle
import park
import report
from words import record_of, word

LONGEST = 4096

# the arguments of each question, as docs/ASK.md writes them
ARGUMENTS = {
    "judge": "RECORD",
    "strict": "RECORD",
    "judge-values": "RECORD",
    "strict-values": "RECORD",
    "vote": "RECORD RECORD RECORD",
    "class": "RECORD",
    "counts": "RECORD",
    "doubles": "RECORD",
    "report": "RECORD",
    "write": "TAG=DATA .., 01 to 07 with 16 hex digits or 11 to 17 with 8, no reading twice",
    "sheet": "DOUBLE DOUBLE DOUBLE",
    "load": "NUMBER",
    "park": "WORD ..",
    "power": "NUMBER DOUBLE",
    "log_word": "DOUBLE",
    "antilog": "WORD WORD",
    "exp": "DOUBLE",
    "ln": "DOUBLE",
    "sqrt": "DOUBLE",
    "root": "WORD WORD",
    "decimal": "NUMBER DOUBLE",
}
OF_THE_SOURCE = {
    "geometric_to_geopotential_height_m": "DOUBLE",
    "calculate_icao_standard_atmosphere": "DOUBLE",
    "enhanced_saturation_vapor_pressure": "DOUBLE",
    "enhanced_enhancement_factor": "DOUBLE DOUBLE",
    "enhanced_compressibility_factor": "DOUBLE DOUBLE DOUBLE",
    "vapor_mole_fraction": "DOUBLE DOUBLE DOUBLE DOUBLE",
    "capped_vapor_mole_fraction": "DOUBLE",
    "water_vapor_mole_fraction_uncapped": "DOUBLE DOUBLE DOUBLE",
    "moist_air_vapor_mole_fraction": "DOUBLE DOUBLE DOUBLE",
    "moist_molar_mass_ratio": "DOUBLE",
    "calculate_air_density_cimp": "DOUBLE DOUBLE DOUBLE",
    "moist_sound_speed_at_mole_fraction": "DOUBLE DOUBLE",
    "moist_speed_of_sound": "DOUBLE DOUBLE DOUBLE",
    "calculate_atmosphere": "DOUBLE DOUBLE|none DOUBLE|none DOUBLE",
    "in_legacy_default_pressure_band": "DOUBLE",
    "in_legacy_default_temperature_band": "DOUBLE",
    "resolve_station_pressure": "DOUBLE DOUBLE",
    "resolve_station_temperature": "DOUBLE DOUBLE",
    "reduce_qnh_to_station_pressure": "DOUBLE DOUBLE",
    "nws_pressure_altitude_ft": "DOUBLE",
    "pressure_altitude_m": "DOUBLE",
    "standard_pressure_altitude_m": "DOUBLE",
    "faa_rule_density_altitude_ft": "DOUBLE DOUBLE",
    "density_matched_altitude_m": "DOUBLE DOUBLE DOUBLE",
    "standard_altitude_above_tropopause_m": "DOUBLE",
    "resolve_atmosphere_for_density_altitude": "DOUBLE DOUBLE|none",
    "station_for_density_altitude": "DOUBLE DOUBLE|none",
    "station_pressure_plausibility": "DOUBLE DOUBLE",
}
EVERY = ARGUMENTS | OF_THE_SOURCE

FORMS = {
    "RECORD": r"-|([0-9A-Fa-f]{2})+",
    "DOUBLE": r"[0-9A-Fa-f]{16}",
    "DOUBLE|none": r"[0-9A-Fa-f]{16}|none",
    "WORD": r"[0-9A-Fa-f]{16}",
    "NUMBER": r"[0-9]+",
}
ITEM = r"0([1-7])=[0-9A-Fa-f]{16}|1([1-7])=[0-9A-Fa-f]{8}"

# two words that are no log word's
NO_LOG_WORD = "antilog WORD WORD, FFFFFFFF00000000 to 00000000FFFFFFFF and below 1000000000000000"

UNKNOWN = "unknown question: expected " + ", ".join(ARGUMENTS) + " or a function of the source\n"
TOO_LONG = f"line too long: expected {LONGEST} bytes at most\n"

# a blank in a word that is typed
BLANK = "\t"


# ---- lines
def lines_of(text):
    """The lines without their ends; what follows the last newline is a line where there is something."""
    lines = text.split("\n")
    if not lines[-1]:
        lines.pop()
    return [line.removesuffix("\r") for line in lines]


def has_form(argument, form):
    return fullmatch(FORMS[form], argument) is not None and (form != "NUMBER" or int(argument) < 2**64)


def are_items(arguments):
    items = [fullmatch(ITEM, argument) for argument in arguments]
    meanings = [item and (item[1] or item[2]) for item in items]
    return all(items) and len(set(meanings)) == len(meanings)


def have_their_forms(name, arguments):
    if name == "write":
        return are_items(arguments)
    forms = EVERY[name].split(" ")
    return name == "park" or len(arguments) == len(forms) and all(map(has_form, arguments, forms))


def are_a_log_word(whole, part):
    return (int(whole, 16) + 2**32) % 2**64 < 2**33 and int(part, 16) < 2**60


def understood(line):
    """The question's name and its arguments, or what is said of the line."""
    name, *arguments = line.split(" ")
    if len(line) > LONGEST:
        return TOO_LONG
    if not line:
        return "\n"
    if name not in EVERY:
        return UNKNOWN
    if not have_their_forms(name, arguments):
        return f"wrong arguments: expected {name} {EVERY[name]}\n"
    if name == "antilog" and not are_a_log_word(*arguments):
        return f"wrong arguments: expected {NO_LOG_WORD}\n"
    return name, arguments


# ---- answers that are not the oracle's, each to a list of arguments
def roots(asked):
    for high, low in asked:
        digits = word(isqrt(int(high, 16) << 64 | int(low, 16)))
        yield f"{digits} {digits}\n"


def reports(asked):
    return report.of_records([record_of(record) for (record,) in asked], lambda number, _: f"refused {number}\n")


def printed(asked):
    return park.printed([[typed.replace(BLANK, " ") for typed in arguments] for arguments in asked])


OTHERS = {"root": roots, "report": reports, "park": printed}


def all_answers(lines):
    """The answer to each line."""
    said = [understood(line) for line in lines]
    asked = {number: question for number, question in enumerate(said) if isinstance(question, tuple)}
    figures = [number for number, (name, _) in asked.items() if name not in OTHERS]
    answered = list(zip(figures, oracle.answers(lines[number] for number in figures)))
    for other, answers in OTHERS.items():
        of_these = {number: arguments for number, (name, arguments) in asked.items() if name == other}
        answered += zip(of_these, answers(of_these.values()))
    for number, answer in answered:
        said[number] = answer
    return said


if __name__ == "__main__":
    stdin.reconfigure(encoding="latin-1", newline="")
    stdout.reconfigure(encoding="latin-1", newline="")
    stdout.write("".join(all_answers(lines_of(stdin.read()))))
