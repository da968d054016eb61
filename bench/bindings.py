"""Nanoseconds a call through the module station_air: processor time, the median of 101 runs over the load's first 250 records,
which stand on standard input, a line of hex digits each."""

import statistics
import sys
import time

import station_air

RUNS = 101
TAGS = {0x11: "altitude", 0x12: "temperature", 0x15: "humidity", 0x17: "measured_pressure"}


def row(name, run, calls):
    times = []
    for _ in range(RUNS):
        start = time.thread_time_ns()
        run()
        times.append((time.thread_time_ns() - start) / calls)
    print(f"{name}\t{statistics.median(times):.1f}")


def judge_all(records):
    for record in records:
        station_air.judge(record)


def refuse(times):
    for _ in range(times):
        try:
            station_air.judge(b"")
        except station_air.Refused:
            pass


def columns(records):
    """The readings by column, humidity 0 where a record has none."""
    table = {name: [] for name in TAGS.values()}
    for record in records:
        readings = {"humidity": 0.0}
        for at in range(0, len(record), 7):
            readings[TAGS[record[at]]] = int.from_bytes(record[at + 3 : at + 7], "big", signed=True) / 1000
        for name, column in table.items():
            column.append(readings[name])
    return table


records = [bytes.fromhex(line) for line in sys.stdin]
table = columns(records)
row("judge, a record of the load", lambda: judge_all(records), len(records))
row("judge, an empty record", lambda: refuse(len(records)), len(records))
row("figures_of_columns, a row", lambda: station_air.figures_of_columns(**table), len(records))
