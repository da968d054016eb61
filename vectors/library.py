"""The proved functions for Python, by the C interface of include/station_air.h.

A shared object is linked from the static library, target/staticlib/libstation_air.a, which `examples/library.sh` builds.
"""

from ctypes import CDLL, byref, c_bool, c_double, c_size_t, c_uint32
from pathlib import Path
from struct import pack
from subprocess import run

FOLDER = Path(__file__).resolve().parent.parent / "target/staticlib"
ARCHIVE, SHARED = FOLDER / "libstation_air.a", FOLDER / "libstation_air.so"

if not SHARED.exists() or SHARED.stat().st_mtime < ARCHIVE.stat().st_mtime:
    run(["cc", "-shared", "-o", SHARED, "-Wl,--whole-archive", ARCHIVE, "-Wl,--no-whole-archive"], check=True)
LIBRARY = CDLL(str(SHARED))


def function_of(name, *types):
    """A function of numbers that answers a double."""
    function = LIBRARY[f"station_air_{name}"]
    function.argtypes, function.restype = types, c_double
    return function


exp = function_of("exp", c_double)
power = function_of("power", c_double, c_size_t)
mole_fraction_uncapped = function_of("water_vapor_mole_fraction_uncapped", *[c_double] * 3)
reduced_qnh = function_of("reduced_qnh", *[c_double] * 2)
nws_pressure_altitude_ft = function_of("nws_pressure_altitude_ft", c_double)
pressure_altitude_m = function_of("pressure_altitude_m", c_double)
faa_density_altitude_ft = function_of("faa_density_altitude_ft", *[c_double] * 2)
density_matched_altitude_m = function_of("density_matched_altitude_m", *[c_double] * 3)


def saturation_pressure(kelvin):
    """hPa. The library exports none: these are the source's operations, in its order, with the library's powers and exp."""
    kelvin = max(kelvin, 173.15)
    tau = 1.0 - kelvin / 647.096
    terms = -7.85951783 * tau
    for factor, number in zip((1.84408259, -11.7866497, 22.6807411, -15.9618719, 1.80122502), range(22, 27)):
        terms += factor * power(tau, number)
    return 220640.0 * exp(647.096 / kelvin * terms)


def placing(name, places, *types):
    """A function that writes so many numbers to a lent array: its status and the array. None is what is not given, where it may be."""
    function = LIBRARY[f"station_air_{name}"]
    function.restype = c_uint32
    lent = (c_double * places)()

    def call(*arguments):
        numbers = []
        for kind, argument in zip(types, arguments, strict=True):
            if kind is OPTION:
                numbers.append(c_bool(argument is not None))
            numbers.append(c_double(0.0 if argument is None else argument))
        status = function(*numbers, lent, c_size_t(places))
        return status, *lent

    return call


OPTION = object()
standard = placing("standard_atmosphere", 2, c_double)
air = placing("calculate_atmosphere", 2, c_double, OPTION, OPTION, c_double)
for_density_altitude = placing("for_density_altitude", 3, c_double, OPTION)

LENT, MARK = (c_double * 8)(), c_bool()
LIBRARY.station_air_judge.restype = c_uint32


def judged(**fields):
    """The status and the eight figures of a record, by its fields: t01=0.0, t02=20.0, …"""
    record = b"".join(pack(">BHd", int(tag[1:], 16), 8, value) for tag, value in fields.items())
    status = LIBRARY.station_air_judge(record, c_size_t(len(record)), LENT, c_size_t(8), byref(MARK))
    return status, *LENT
