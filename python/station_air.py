"""The air at a station, from the readings of a mast: the proved judge, for data work.

    import station_air
    from array import array

    station_air.judge(bytes.fromhex("1100040000EA60120004000044C01500040000EA60170004000F62AC")).density_kg_m3
    station_air.figures_of_columns(altitude=array("d", [60, 60]), temperature=array("d", [17.6, 18.1])).density_kg_m3

One module over the shared library libstation_air.so.N, which is looked for in the folder that the variable
STATION_AIR_LIB_DIR names, else in the repository's own build (examples/shared.sh), else where the system's loader looks.
"""

import ctypes
import os
import struct
import sys
from array import array
from pathlib import Path
from typing import NamedTuple

# STATION_AIR_VERSION of include/station_air.h
VERSION = 7

# the readings by tag, 01 to 07: m, °C, hPa, hPa, percent, m, hPa
READINGS = ("altitude", "temperature", "station_pressure", "qnh", "humidity", "density_altitude", "measured_pressure")


class Figures(NamedTuple):
    """A station's figures, and whether temperature and pressure lie in the range for which CIPM-2007 states its formula."""

    altitude_m: float
    temperature_c: float
    pressure_hpa: float
    density_kg_m3: float
    speed_of_sound_mps: float
    pressure_altitude_m: float
    density_matched_altitude_m: float
    vapor_mole_fraction: float
    in_cipm_range: bool


class Columns(NamedTuple):
    """Figures by column. Where a status is not 0 the row is refused by that number: its figures are NaN, its mark is 0."""

    status: array
    altitude_m: array
    temperature_c: array
    pressure_hpa: array
    density_kg_m3: array
    speed_of_sound_mps: array
    pressure_altitude_m: array
    density_matched_altitude_m: array
    vapor_mole_fraction: array
    in_cipm_range: array


class Refused(ValueError):
    """A record is refused: the cause's number in docs/RECORD.md, "Refusals", and the values that it hands out."""

    def __init__(self, number, values):
        super().__init__(f"refused {number}")
        self.number = number
        self.values = values


class Count(int):
    """A reading as a count of thousandths."""


FIGURES = 8
BYTES_AT_MOST = 77
# beside two for each byte of the record
REPORT_BYTES_AT_MOST = 2842
VALUES = {1: 1, 2: 1, 3: 1, 4: 2, 11: 1, 12: 1, 13: 1}


def _library():
    name = f"libstation_air.so.{VERSION}"
    folder = os.environ.get("STATION_AIR_LIB_DIR")
    built = Path(__file__).resolve().parent.parent / "target" / "sharedlib" / name
    path = os.path.join(folder, name) if folder else str(built) if built.exists() else name
    try:
        # A call takes about a microsecond and calls nothing back, so the interpreter's lock is kept.
        return ctypes.PyDLL(path)
    except OSError as error:
        raise ImportError(
            f"{error}. Set STATION_AIR_LIB_DIR to the folder that has {name}: the `lib` of the PREFIX that install.sh"
            " was given, or target/sharedlib after examples/shared.sh"
        ) from None


def _function(name, *arguments):
    function = _LIBRARY[name]
    function.argtypes = arguments
    function.restype = ctypes.c_uint32
    return function


_LIBRARY = _library()
_ADDRESS, _SIZE = ctypes.c_void_p, ctypes.c_size_t
_Places = ctypes.c_double * FIGURES
_at = ctypes.addressof
_JUDGE_ARGUMENTS = (ctypes.c_char_p, _SIZE, _ADDRESS, _SIZE, _ADDRESS)
_judge = _function("station_air_judge", *_JUDGE_ARGUMENTS)
_judge_strictly = _function("station_air_judge_strictly", *_JUDGE_ARGUMENTS)
_write = _function("station_air_write", *[_ADDRESS, _SIZE] * 4, _ADDRESS)
_READ_ARGUMENTS = (ctypes.c_char_p, _SIZE, *[_ADDRESS, _SIZE] * 3)
_read = _function("station_air_read", *_READ_ARGUMENTS)
_read_strictly = _function("station_air_read_strictly", *_READ_ARGUMENTS)
_report = _function("station_air_report", ctypes.c_char_p, _SIZE, _ADDRESS, _SIZE, _ADDRESS)
_trim_class = _function("station_air_trim_class", ctypes.c_double)
if _function("station_air_version")() != VERSION:
    raise ImportError(f"{_LIBRARY._name} is another version than {VERSION}")


def _judged(by, record):
    record = bytes(record)
    places, mark = _Places(), ctypes.c_bool()
    status = by(record, len(record), _at(places), FIGURES, _at(mark))
    if status:
        raise Refused(status, tuple(places[: VALUES.get(status, 0)]))
    return Figures(*places, mark.value)


def judge(record):
    """The figures of a mast record, bytes of any length, its tags in any order; raises Refused."""
    return _judged(_judge, record)


def judge_strictly(record):
    """As judge, of a record whose tags rise."""
    return _judged(_judge_strictly, record)


def write(**readings):
    """The record of readings, bytes: each a number, or a Count of thousandths, under its name in READINGS."""
    forms, values = (ctypes.c_uint8 * 7)(), (ctypes.c_double * 7)()
    counts, out, length = (ctypes.c_int32 * 7)(), (ctypes.c_uint8 * BYTES_AT_MOST)(), ctypes.c_size_t()
    for name, reading in readings.items():
        place = _place(name)
        if not isinstance(reading, Count):
            forms[place], values[place] = 1, reading
        elif -(2**31) <= reading < 2**31:
            forms[place], counts[place] = 2, reading
        else:
            raise OverflowError(f"{name}: a count has 32 bits")
    _write(_at(forms), 7, _at(values), 7, _at(counts), 7, _at(out), BYTES_AT_MOST, _at(length))
    return bytes(out[: length.value])


def _read_by(reader, record):
    record = bytes(record)
    forms, values, counts = (ctypes.c_uint8 * 7)(), (ctypes.c_double * 7)(), (ctypes.c_int32 * 7)()
    status = reader(record, len(record), _at(forms), 7, _at(values), 7, _at(counts), 7)
    if status:
        raise Refused(status, ())
    read = zip(READINGS, forms, values, counts)
    return {name: value if form == 1 else Count(count) for name, form, value, count in read if form}


def read(record):
    """The readings of a record, as write takes them, whether judge accepts them or not; raises Refused."""
    return _read_by(_read, record)


def read_strictly(record):
    """As read, of a record whose tags rise."""
    return _read_by(_read_strictly, record)


def report(record):
    """The report of a record, as `park` prints one: figures and notes, or why there are none and what to do."""
    record = bytes(record)
    room = REPORT_BYTES_AT_MOST + 2 * len(record)
    page, length = (ctypes.c_char * room)(), ctypes.c_size_t()
    _report(record, len(record), _at(page), room, _at(length))
    return page[: length.value].decode("ascii")


def trim_class(density_kg_m3):
    """The trim class of a density: how many of 1.00, 1.05, 1.10, 1.15, 1.20 and 1.25 kg/m3 are at or below it."""
    return _trim_class(density_kg_m3)


def _place(name):
    try:
        return READINGS.index(name)
    except ValueError:
        raise TypeError(f"{name}: expected one of {', '.join(READINGS)}") from None


def figures_of_columns(**readings):
    """The figures of many rows: each argument, named as in READINGS, is a column of numbers, all equally long.

    A reading without a column is absent in every row. NaN is no absent reading: it is refused. Columns are arrays of
    the standard library, lists, or NumPy's; with one of NumPy's the answer's columns are NumPy's too.
    """
    numpy = sys.modules.get("numpy")
    in_numpy = numpy is not None and any(isinstance(column, numpy.ndarray) for column in readings.values())
    by_tag = sorted((_place(name) + 1, column) for name, column in readings.items())
    columns = [column.tolist() if hasattr(column, "tolist") else list(column) for _, column in by_tag]
    rows = len(columns[0]) if columns else 0
    if any(len(column) != rows for column in columns):
        raise ValueError("the columns are not equally long")

    # a field: tag, length, double
    form = struct.Struct(">" + "BHd" * len(columns))
    headed = []
    for (tag, _), column in zip(by_tag, columns):
        headed += [[tag] * rows, [8] * rows, column]
    nan = float("nan")
    places, marks = array("d", [nan]) * (FIGURES * rows), array("B", bytes(rows))
    status = array("I", bytes(array("I").itemsize * rows))
    place, mark = places.buffer_info()[0], marks.buffer_info()[0]
    length, pack, judged = form.size, form.pack, _judge
    for row, fields in enumerate(zip(*headed)):
        status[row] = judged(pack(*fields), length, place, FIGURES, mark)
        if status[row]:
            # a refusal's values
            places[FIGURES * row] = places[FIGURES * row + 1] = nan
        place += FIGURES * places.itemsize
        mark += marks.itemsize
    answer = [status, *(places[figure::FIGURES] for figure in range(FIGURES)), marks]
    if in_numpy:
        answer = [numpy.asarray(column) for column in answer]
    return Columns(*answer)
