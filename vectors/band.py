"""Prints docs/RECORD.md's table of the jump at 15.1 °C: a measured temperature in the default band is replaced.

The figures are the oracle's: standard pressure as measured (07), 50 percent, first 15.2 °C and then 15.1 °C.
"""

import oracle
from report import ALTITUDE, DENSITY, HUMIDITY, MEASURED, TEMPERATURE, answers, decimal, record_of, trim_class, value
from words import question

ALTITUDES = [500, 1000, 1586, 2000, 3000]
SENT = [15.2, 15.1]


def main():
    standards = oracle.answers(question("calculate_icao_standard_atmosphere", float(altitude)) for altitude in ALTITUDES)
    air = [{ALTITUDE: float(altitude), HUMIDITY: 50.0, MEASURED: value(standard) / 100} for altitude, standard in zip(ALTITUDES, standards)]
    figures = [answer[0] for answer in answers(record_of({**one, TEMPERATURE: celsius}) for one in air for celsius in SENT)]
    for altitude, before, inside in zip(ALTITUDES, figures[::2], figures[1::2]):
        jump = 100 * (inside[DENSITY] / before[DENSITY] - 1)
        densities = f"{decimal(before[DENSITY], 4):>13} {decimal(inside[DENSITY], 4):>13}"
        classes = f"{trim_class(before[DENSITY])} to {trim_class(inside[DENSITY])}"
        print(f"    {altitude:6,} m {densities} {decimal(jump, 1):>6} percent   {classes}")


if __name__ == "__main__":
    main()
