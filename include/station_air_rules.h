/* The rules in whole numbers beneath station_air.h, which only tests need: the log word, the antilog,
 * and the power by its exponent's number. What station_air.h says of numbers, of what is needed and
 * of what is given holds here too. */
#ifndef STATION_AIR_RULES_H
#define STATION_AIR_RULES_H

#include <stdbool.h>
#include <stddef.h>
#include <stdint.h>

#ifdef __cplusplus
extern "C" {
#endif

/* x to the power of an exponent of the table, by its number, 0 to 26; any other number gives NaN.
 *
 *    0 to  4  -g / (lapse R), of pressure over temperature, for the layers 0, 2, 3, 5 and 6
 *    5        1 over exponent 0
 *    6 to 10  -lapse R / g, for the same layers
 *   11, 12    0.190284, and 1 over it
 *   13, 14    g / (R 0.0065) - 1, and 1 over it
 *   15 to 17  -g / (R lapse) - 1, for the layers 2, 3 and 5
 *   18 to 21  1 over -g / (R lapse) - 1, for the layers 2, 3, 5 and 6
 *   22 to 26  1.5, 3, 3.5, 4, 7.5
 *
 * 0 and -0 give 0 for a positive exponent and infinity for a negative one; +infinity infinity or 0.
 * A finite negative x gives NaN, except for 3 (minus the power of -x) and 4 (the power of -x);
 * -infinity is as +infinity, negative for 3; -0 gives -0 for 3. 1 gives 1. */
double station_air_power(double x, size_t number);

/* Whether x has a log word: where it is finite and above 0. The word is the logarithm to the base 2
 * times 2^60, read off bit by bit as a whole number: whole 2^60 + part, or where *negative is true
 * -(whole 2^60 + part + 1), with part below 2^60. Where there is none, the three numbers keep what
 * they held. The pointers are not NULL and do not overlap. */
bool station_air_log_word(double x, bool *negative, uint32_t *whole, uint64_t *part);

/* 2 to the power of the word's number / 2^60, rounded once, subnormals, 0 and infinity too. Any three
 * numbers may be passed; a part of 2^60 or more counts into the whole. */
double station_air_antilog(bool negative, uint32_t whole, uint64_t part);

#ifdef __cplusplus
}
#endif

#endif
