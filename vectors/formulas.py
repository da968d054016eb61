"""The documents' formulas in real numbers, by mpmath at 60 digits, with their decimals as the source has them.

Numbers are mpf: a double is taken at its exact value, and nothing is rounded to a double. CIPM-2007 is Picard et al., Metrologia 45
(2008) 149; its saturation pressure is replaced by that of IAPWS SR1-86 (1992), equation (1), as in the source.
"""

from mpmath import exp, mp, mpf, power, sqrt

mp.dps = 60

ICE_POINT = mpf("273.15")
G, R_AIR, RADIUS = mpf("9.80665"), mpf("287.0531"), mpf(6356766)
R, M_A, M_V = mpf("8.314472"), mpf("28.96546e-3"), mpf("18.01528e-3")

# IAPWS: a1 to a6, and twice the power of τ of each
IAPWS = [mpf(a) for a in "-7.85951783 1.84408259 -11.7866497 22.6807411 -15.9618719 1.80122502".split()]
HALVES = [2, 3, 6, 7, 8, 15]
T_CRITICAL, P_CRITICAL = mpf("647.096"), mpf(220640)

A0, A1, A2 = mpf("1.58123e-6"), mpf("-2.9331e-8"), mpf("1.1043e-10")
B0, B1, C0, C1 = mpf("5.707e-6"), mpf("-2.051e-8"), mpf("1.9898e-4"), mpf("-2.376e-6")
D, E = mpf("1.83e-11"), mpf("-0.765e-8")
ALPHA, BETA, GAMMA = mpf("1.00062"), mpf("3.14e-8"), mpf("5.6e-7")

KAPPA, VAPOUR_GAMMA, VAPOUR_R = mpf("1.4"), mpf("0.062"), mpf("0.378")

T_0, P_0, LAPSE = mpf("288.15"), mpf(101325), mpf("0.0065")
EXPONENT = G / (LAPSE * R_AIR)

NWS_FT, NWS_EXPONENT, METRES_PER_FOOT = mpf("145366.45"), mpf("0.190284"), mpf("0.3048")
HPA_0 = mpf("1013.25")


def saturation_pressure(kelvin):
    """hPa, over liquid water at every temperature."""
    root = sqrt(1 - kelvin / T_CRITICAL)
    terms = sum(a * root**half for a, half in zip(IAPWS, HALVES))
    return P_CRITICAL * exp(T_CRITICAL / kelvin * terms)


def enhancement(celsius, pascal):
    return ALPHA + BETA * pascal + GAMMA * celsius**2


def mole_fraction(celsius, hpa, percent):
    if not percent:
        return mpf(0)
    saturated = saturation_pressure(celsius + ICE_POINT)
    return percent / 100 * enhancement(celsius, 100 * hpa) * saturated / hpa


def compressibility(celsius, pascal, x):
    p_t = pascal / (celsius + ICE_POINT)
    t = celsius
    first = A0 + A1 * t + A2 * t**2 + (B0 + B1 * t) * x + (C0 + C1 * t) * x**2
    return 1 - p_t * first + p_t**2 * (D + E * x**2)


def density_at(celsius, hpa, x):
    """kg/m³, with the mole fraction x."""
    pascal = 100 * hpa
    z = compressibility(celsius, pascal, x)
    return pascal * M_A / (z * R * (celsius + ICE_POINT)) * (1 - x * (1 - M_V / M_A))


def density(celsius, hpa, percent):
    return density_at(celsius, hpa, mole_fraction(celsius, hpa, percent))


def sound_at(kelvin, x):
    """m/s: √(γ R T), γ and R to first order in the mole fraction x."""
    return sqrt(KAPPA * (1 - VAPOUR_GAMMA * x) * R_AIR * (1 + VAPOUR_R * x) * kelvin)


def sound(celsius, hpa, percent):
    return sound_at(celsius + ICE_POINT, mole_fraction(celsius, hpa, percent))


def geopotential(altitude):
    return RADIUS * altitude / (RADIUS + altitude)


def standard_temperature(altitude):
    """K, below 11 km."""
    return T_0 - LAPSE * geopotential(altitude)


def standard_pressure(altitude):
    """Pa, below 11 km."""
    return P_0 * power(standard_temperature(altitude) / T_0, EXPONENT)


def reduced_qnh(hpa, altitude):
    term = LAPSE * geopotential(altitude) / T_0 * power(HPA_0 / hpa, 1 / EXPONENT)
    return hpa * power(1 - term, EXPONENT)


def nws_pressure_altitude(hpa):
    """m."""
    return NWS_FT * (1 - power(hpa / HPA_0, NWS_EXPONENT)) * METRES_PER_FOOT


REFERENCE = density_at(mpf(15), HPA_0, mpf(0))


def density_matched_altitude(celsius, hpa, percent):
    """m, below 11 km."""
    ratio = density(celsius, hpa, percent) / REFERENCE
    return T_0 / LAPSE * (1 - power(ratio, 1 / (EXPONENT - 1)))
