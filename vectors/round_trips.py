"""Writes the questions of the list `round_trips`: a density altitude is turned into a station, and back by the FAA's rule.

The first question of each two is a density altitude's, the second that of the oracle's station for it. within.py has how near the
second answer comes to where it started. The only argument is the folder to write to.
"""

from itertools import chain
from sys import argv

import oracle
from words import double, pattern, question, save

ALTITUDES_M = [-500 + 55 * i for i in range(101)]
TEMPERATURES_C = [-40 + 7.5 * i for i in range(13)]


def there():
    for altitude in ALTITUDES_M:
        station = question("station_for_density_altitude", altitude)
        yield f"{station} none"
        yield from (f"{station} {pattern(temperature)}" for temperature in TEMPERATURES_C)


def back(station):
    """The question that a station's answer leads to."""
    _, _, celsius, hpa = station.split()
    return question("faa_rule_density_altitude_ft", double(hpa), double(celsius) * 9 / 5 + 32)


if __name__ == "__main__":
    stations = list(there())
    returns = map(back, oracle.answers(stations))
    save(argv[1], "round_trips", chain.from_iterable(zip(stations, returns)))
