"""What a user would write in place of `park table`: a table in and a table out by the csv module, the figures by the C library.

It takes complete lines alone, and writes no notes.
"""

import csv
import sys

import station_air

DECIMALS = [1, 2, 3, 4, 1, 1, 1, 6]
NAMES = {"altitude": "altitude", "temperature [C]": "temperature", "pressure": "measured_pressure", "humidity": "humidity"}

first, *lines = csv.reader(sys.stdin)
columns = {name: [float(line[first.index(cell)]) for line in lines] for cell, name in NAMES.items()}
answer = station_air.figures_of_columns(**columns)
writer = csv.writer(sys.stdout)
writer.writerow(["time", *station_air.Figures._fields, "trim_class", "refused"])
for line, status, *figures, mark in zip(lines, *answer):
    if status:
        writer.writerow([line[0], *[""] * 10, status])
    else:
        texts = [f"{x:.{decimals}f}" for x, decimals in zip(figures, DECIMALS)]
        writer.writerow([line[0], *texts, mark, station_air.trim_class(figures[3]), ""])
