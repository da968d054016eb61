/* The air at a station, from the readings of a mast: what `examples/library.sh` builds,
 * target/staticlib/libstation_air.a.
 *
 * Numbers. A double is an IEEE 754 binary64, and every double may be passed, NaN and the infinities
 * too. Each answer is one double, fixed to the last bit; only the sign and the payload of a NaN are
 * left open. In a formula below each operation is rounded once, in the order that is written, as
 * IEEE 754 says, at NaN and the infinities too; powers, exp, ln and square roots are those of the
 * functions here and in station_air_rules.h. Where nothing else is said, a NaN among the numbers
 * gives NaN.
 *
 * Needed: a processor of x86-64-v2 (with SSE4.2 and POPCNT) under the System V calls of Linux, and the
 * floating-point environment that a program starts with: rounding to nearest, subnormals not flushed to
 * 0, exceptions masked. The functions do not set it. A `bool` is true or false, in C 1 or 0.
 *
 * Given: no function allocates, keeps anything from one call to the next, or calls anything but
 * memcpy, memmove and memset, so several threads may call at once, each with lent arrays and numbers of its
 * own. Every call ends.
 *
 * Stack, at most, a quarter above what bench/stack.sh measures: 18 kB for station_air_report; 17 kB for
 * station_air_vote; 15 kB for the two judges, station_air_next_trim_class and station_air_setting_sheet; 3 kB
 * for station_air_refusal_words; 2 kB for what reads, writes or converts a record and for
 * station_air_load_record; 256 bytes for station_air_trim_class,
 * station_air_keeps_pressure, station_air_keeps_temperature, station_air_ln, station_air_log_word,
 * station_air_sqrt and station_air_version; 13 kB for all others.
 *
 * Time, on one core of a server: a judgement takes about a microsecond, a vote some four, a setting sheet
 * some fifty, station_air_next_trim_class and station_air_report up to a millisecond; every other call a
 * microsecond or less. Of a record that is longer than any can be, what comes after the first fault is not read.
 *
 * Arrays. An array goes as a pointer and the number of its elements, and the pointer points to that
 * many elements; with the number 0 it may be NULL. A pointer without a number, `in_range`, `mast`,
 * `length` and `implausible`, points to one element and is never NULL. Arrays and numbers that a call
 * writes overlap nothing else that it takes. An array that is only read is left as it was.
 *
 * A record (docs/RECORD.md has more) is a run of fields, each a tag of one byte, a length of two and
 * the data, the highest byte first:
 *     tag       01  02  03  04  05  06  07   length 00 08, data a double
 *     or        11  12  13  14  15  16  17   length 00 04, data a signed count of thousandths
 * in hex, of altitude m, temperature degrees Celsius, station pressure hPa, QNH hPa, humidity percent,
 * density altitude m and measured station pressure hPa. The two tags of a reading are its two forms;
 * what is said below of 01 to 07 holds of 11 to 17 too. Tags come in any order, each reading once. A
 * record is all the bytes that it is passed as: it has no end of its own, and what follows its last
 * field is read as another. 01 or 06 is there; with 06 only 02 and 05; of 03, 04 and 07 at most one.
 *
 * Names. "Density altitude" is the FAA's: of station_air_for_density_altitude,
 * station_air_resolve_atmosphere_for_density_altitude, station_air_faa_density_altitude_ft and a record's
 * tag 06. The seventh figure is the density-matched altitude, another number: it is no density altitude
 * to ask with. */
#ifndef STATION_AIR_H
#define STATION_AIR_H

#include <stdbool.h>
#include <stddef.h>
#include <stdint.h>

#if !defined(__x86_64__) || defined(__ILP32__) || defined(_WIN32)
#error "libstation_air.a is for x86-64 with the System V calling convention and 64-bit pointers"
#endif

#ifdef __cplusplus
extern "C" {
#endif

/* Grows whenever a function is added, or an answer to some call can differ from before. */
#define STATION_AIR_VERSION 7

/* The version of the archive: where it is not STATION_AIR_VERSION, header and archive are not of one
 * build. */
uint32_t station_air_version(void);

/* ---- several numbers, with a status ---- */

/* A function that hands out several numbers, or bytes, writes them to the first places of a lent
 * array, and returns a status. A status says what the first places hold; those that it does not name,
 * and all others, keep what they held. Test for 0: more refusals may come between 22 and 253. */
enum station_air_status {
    /* the figures */
    STATION_AIR_FIGURES = 0,
    /* the density altitude is not finite; places[STATION_AIR_VALUE] is it */
    STATION_AIR_DENSITY_ALTITUDE_NOT_FINITE = 1,
    /* the temperature is not finite; places[STATION_AIR_VALUE] is it */
    STATION_AIR_TEMPERATURE_NOT_FINITE = 2,
    /* the temperature is at most -273.15 degrees Celsius; places[STATION_AIR_VALUE] is it */
    STATION_AIR_TEMPERATURE_TOO_LOW = 3,
    /* no air has this density altitude: the altitude, pressure or temperature that it resolves to is
     * not finite, the pressure is not above 0, or the temperature is not above -273.15;
     * places[STATION_AIR_VALUE] is the density altitude, places[STATION_AIR_RESOLVED_ALTITUDE_M] the
     * altitude that it resolves to */
    STATION_AIR_NO_AIR = 4,
    /* a field's header or data is cut */
    STATION_AIR_CUT = 5,
    STATION_AIR_UNKNOWN_TAG = 6,
    /* a field's length is not 8 for a double, or not 4 for a count */
    STATION_AIR_WRONG_LENGTH = 7,
    /* a tag comes twice, or a reading in both forms */
    STATION_AIR_REPEATED_TAG = 8,
    /* two of 03, 04 and 07, or 06 with 01, 03, 04 or 07 */
    STATION_AIR_CLASH = 9,
    /* neither 01 nor 06 */
    STATION_AIR_NO_ALTITUDE = 10,
    /* altitude, station pressure, QNH, humidity or measured station pressure is not finite;
     * places[STATION_AIR_VALUE] is it */
    STATION_AIR_NOT_FINITE = 11,
    /* station pressure, QNH or measured station pressure is at most 0; places[STATION_AIR_VALUE] is it */
    STATION_AIR_PRESSURE_NOT_POSITIVE = 12,
    /* the humidity is below 0 or above 100; places[STATION_AIR_VALUE] is it */
    STATION_AIR_HUMIDITY_OUT_OF_RANGE = 13,
    /* more water vapour than there is air */
    STATION_AIR_TOO_MUCH_VAPOR = 14,
    /* a figure is not finite, or pressure, density or speed of sound is not above 0 */
    STATION_AIR_NOT_AIR = 15,
    /* the page has fewer bytes than a setting sheet, or than the longest text that could be asked for */
    STATION_AIR_PAGE_TOO_SHORT = 16,
    /* a figure of the setting sheet is wider than its column */
    STATION_AIR_TOO_WIDE = 17,
    /* the buffer is shorter than the record that is to be written */
    STATION_AIR_BUFFER_TOO_SHORT = 18,
    /* to the strict judge and reader: a tag is below the one before it */
    STATION_AIR_TAG_FALLS = 19,
    /* no count of thousandths in the signed 32-bit range gives exactly this double */
    STATION_AIR_NO_COUNT = 20,
    /* a field is in one or two of three records */
    STATION_AIR_FIELD_NOT_IN_ALL = 21,
    /* an accepted record has no temperature or no measured station pressure */
    STATION_AIR_NO_READING_TO_CHANGE = 22,
    /* no refusal: a number has no words, and nothing is written */
    STATION_AIR_NO_WORDS = 253,
    /* no refusal: a reading's form is unknown, and nothing is written */
    STATION_AIR_UNKNOWN_FORM = 254,
    /* no refusal: an array has fewer places than the function needs, whatever the other arguments;
     * this is tested first, and nothing is computed or written */
    STATION_AIR_TOO_SHORT = 255
};

/* The places of a refusal's values. From 16 on a refusal has none. */
enum station_air_value { STATION_AIR_VALUE = 0, STATION_AIR_RESOLVED_ALTITUDE_M = 1 };

/* The places of station_air_judge, station_air_judge_strictly and station_air_vote;
 * station_air_for_density_altitude and station_air_resolve_atmosphere_for_density_altitude have the first
 * three. */
enum station_air_figure {
    STATION_AIR_ALTITUDE_M = 0,
    STATION_AIR_TEMPERATURE_C = 1,
    STATION_AIR_PRESSURE_HPA = 2,
    STATION_AIR_DENSITY_KG_M3 = 3,
    STATION_AIR_SPEED_OF_SOUND_MPS = 4,
    STATION_AIR_PRESSURE_ALTITUDE_M = 5,
    STATION_AIR_DENSITY_MATCHED_ALTITUDE_M = 6,
    STATION_AIR_VAPOR_MOLE_FRACTION = 7
};

/* The places of station_air_standard_atmosphere. */
enum station_air_standard { STATION_AIR_STANDARD_TEMPERATURE_K = 0, STATION_AIR_STANDARD_PRESSURE_PA = 1 };

/* The places of station_air_station_pressure_plausibility. */
enum station_air_plausibility { STATION_AIR_PLAUSIBLE_STANDARD_PA = 0, STATION_AIR_PLAUSIBLE_RATIO = 1 };

/* The places of station_air_calculate_atmosphere. */
enum station_air_air { STATION_AIR_AIR_DENSITY_KG_M3 = 0, STATION_AIR_AIR_SPEED_OF_SOUND_MPS = 1 };

/* The tags of a record's fields in doubles; the tag of a count has STATION_AIR_TAG_OF_COUNTS more. */
enum station_air_tag {
    STATION_AIR_TAG_ALTITUDE_M = 0x01,
    STATION_AIR_TAG_TEMPERATURE_C = 0x02,
    STATION_AIR_TAG_STATION_PRESSURE_HPA = 0x03,
    STATION_AIR_TAG_QNH_HPA = 0x04,
    STATION_AIR_TAG_HUMIDITY_PERCENT = 0x05,
    STATION_AIR_TAG_DENSITY_ALTITUDE_M = 0x06,
    STATION_AIR_TAG_MEASURED_PRESSURE_HPA = 0x07,
    STATION_AIR_TAG_OF_COUNTS = 0x10
};

/* The places of the readings of station_air_write and station_air_read: a double's tag less 1. */
enum station_air_reading {
    STATION_AIR_READING_ALTITUDE_M = 0,
    STATION_AIR_READING_TEMPERATURE_C = 1,
    STATION_AIR_READING_STATION_PRESSURE_HPA = 2,
    STATION_AIR_READING_QNH_HPA = 3,
    STATION_AIR_READING_HUMIDITY_PERCENT = 4,
    STATION_AIR_READING_DENSITY_ALTITUDE_M = 5,
    STATION_AIR_READING_MEASURED_PRESSURE_HPA = 6
};

/* The form of a reading. */
enum station_air_form { STATION_AIR_FORM_ABSENT = 0, STATION_AIR_FORM_DOUBLE = 1, STATION_AIR_FORM_COUNT = 2 };

/* The places of the answer of station_air_next_trim_class. */
enum station_air_trim {
    STATION_AIR_TRIM_CLASS = 0,
    STATION_AIR_TRIM_TAG = 1,
    STATION_AIR_TRIM_TENTHS = 2,
    STATION_AIR_TRIM_NEW_CLASS = 3
};

/* How many places each function needs. */
enum station_air_places {
    STATION_AIR_JUDGE_PLACES = 8,
    STATION_AIR_FOR_DENSITY_ALTITUDE_PLACES = 3,
    STATION_AIR_RESOLVE_ATMOSPHERE_FOR_DENSITY_ALTITUDE_PLACES = 3,
    STATION_AIR_STANDARD_ATMOSPHERE_PLACES = 2,
    STATION_AIR_STATION_PRESSURE_PLAUSIBILITY_PLACES = 2,
    STATION_AIR_CALCULATE_ATMOSPHERE_PLACES = 2,
    /* of the forms, of the values and of the counts */
    STATION_AIR_WRITE_PLACES = 7,
    STATION_AIR_READ_PLACES = 7,
    STATION_AIR_VOTE_PLACES = 8,
    STATION_AIR_NEXT_TRIM_CLASS_PLACES = 2,
    STATION_AIR_NEXT_TRIM_CLASS_ANSWER_PLACES = 4,
    STATION_AIR_SETTING_SHEET_PLACES = 1
};

/* How many bytes a setting sheet has; how many the words on a refusal have at most, and a report beside two
 * for each byte of its record; and how many a record that is written, and one of the load, has at most. */
enum station_air_bytes {
    STATION_AIR_SETTING_SHEET_BYTES = 1530,
    STATION_AIR_REFUSAL_WORDS_BYTES_AT_MOST = 236,
    STATION_AIR_REPORT_BYTES_AT_MOST = 2842,
    STATION_AIR_RECORD_BYTES_AT_MOST = 77,
    STATION_AIR_LOAD_RECORD_BYTES_AT_MOST = 28
};

/* Judges a mast record. Needs 8 places.
 * 0: altitude m, temperature degrees Celsius, station pressure hPa, density kg/m3, speed of sound
 * m/s, pressure altitude m, density-matched altitude m, and the mole fraction of water vapour that the
 * density uses, at most 1. All are finite; pressure, density and speed of sound are above 0.
 * `in_range` points to a bool that is then set to whether temperature and station pressure lie in the
 * range that CIPM-2007 states, 15 to 27 degrees Celsius and 600 to 1,100 hPa, ends included; every
 * other status leaves it as it was. Else the first check that fails gives 1 to 15, in the order of
 * docs/RECORD.md; an empty record is 10. 255: fewer than 8 places, whatever the record. The record is
 * left as it was.
 * DEFAULTS. More than 1 m from sea level a temperature within 0.1 of 15 degrees (02), and a station
 * pressure within 0.5 of 1013.25 hPa (03), count as not measured, and the standard atmosphere's stand in
 * their place: at 3,000 m a thermometer that passes from 15.2 to 15.1 degrees raises the density by more
 * than 7 percent, at 1,586 m by nearly 4. A sender whose readings are measured sends the pressure as 07
 * and a temperature from 14.9 to 15.1 as 15.2, which moves the density by about a thousandth; or it calls
 * station_air_calculate_atmosphere, which has no such rule. */
uint32_t station_air_judge(const uint8_t *record, size_t record_length, double *places, size_t places_length,
                           bool *in_range);

/* As station_air_judge, of a record whose tags rise, as station_air_write writes them. 19: a tag is below
 * the one before it; in each field it is checked after 8. Every other record has the status, the
 * figures, the values and the mark that station_air_judge gives. */
uint32_t station_air_judge_strictly(const uint8_t *record, size_t record_length, double *places, size_t places_length,
                                    bool *in_range);

/* Judges three masts' records as one. Each field takes the middle of the three values, minus zero
 * before plus zero, and the voted record is judged as station_air_judge does it. Needs 8 places. 0: the
 * figures, and the mark in `in_range`, as station_air_judge has them. 1 to 15: the refusal of the first
 * record that station_air_judge refuses by itself, or that of the voted record. 21: no record is
 * refused, but a field is in one or two of them. `mast` points to a number that is then set to the
 * mast whose record is refused, 1 to 3, and to 0 where none is, with 0 and 21 too. 255: fewer than 8
 * places; it leaves `mast`. Every status but 0 leaves `in_range` as it was. */
uint32_t station_air_vote(const uint8_t *first, size_t first_length, const uint8_t *second, size_t second_length,
                          const uint8_t *third, size_t third_length, double *places, size_t places_length,
                          bool *in_range, uint32_t *mast);

/* The trim class of a density: how many of 1.00, 1.05, 1.10, 1.15, 1.20 and 1.25 kg/m3 are at or below
 * it, each as its double; 0 to 6, and 0 of NaN. */
uint32_t station_air_trim_class(double density_kg_m3);

/* How close the next trim class is: the smallest change of a record's temperature or measured station
 * pressure that gives another class. The class is station_air_trim_class of the record's density. A
 * change is k tenths of a degree or of a hectopascal, k from 1 to 200, up or down: +-k / 10 is added to
 * the value, and the record is judged again; one that is refused does not count. Of equal k temperature
 * comes before pressure, up before down. Needs 2 places and 4 of the answer. 0: the answer is the class,
 * the tag of the reading to change, 2 or 7 also where the record has it as a count, the tenths with their
 * sign, and the class that they give; where none of the changes gives another, the tag and the tenths are
 * 0 and the fourth number is the class again. The places keep what they held. 1 to 15: station_air_judge
 * refuses the record, with these values. 22: it is accepted, but has no temperature or no measured
 * pressure. A refusal leaves the answer. 255: fewer places of the one or the other. */
uint32_t station_air_next_trim_class(const uint8_t *record, size_t record_length, double *places, size_t places_length,
                                     int32_t *answer, size_t answer_length);

/* Writes the record of readings to the start of `out`: the fields that are there, rising by tag. Forms,
 * values and counts have a place for each reading; the form says whether it is absent, 0, a double, 1,
 * whose value counts, or a count of thousandths, 2, whose count counts; the other numbers of the reading
 * count for nothing. Any readings may be written, such as station_air_judge refuses too; NaN is written
 * as 7FF8000000000000. 0: `length` points to a number that is set to how many bytes the record has, 0
 * where all are absent. 18: `out` has fewer. 254: one of the first 7 forms is none of these. 255: fewer
 * than 7 forms, 7 values or 7 counts. Every status but 0 leaves `out` and `length` as they were, and 0 the
 * bytes after the record. */
uint32_t station_air_write(const uint8_t *forms, size_t forms_length, const double *values, size_t values_length,
                           const int32_t *counts, size_t counts_length, uint8_t *out, size_t out_length,
                           size_t *length);

/* Reads a record into three arrays, as station_air_write takes them: the first 7 places of each are
 * written. The form says whether a reading is absent, 0, a double, 1, or a count, 2; the value is its
 * double, whatever the form, NaN for every NaN, and 0 where it is absent; the count is its count of
 * thousandths, and 0 where it is none. 0: the arrays are written. 5 to 8: the record is unreadable. 255:
 * fewer than 7 forms, 7 values or 7 counts, whatever the record. Every status but 0 leaves the arrays as
 * they were, and 0 the places after the first 7. The record is left as it was. A record is read whether
 * station_air_judge accepts it or not.
 * Writing the arrays again gives the record of these readings by rising tag, so the same bytes where the
 * strict reader takes it and it has no NaN; and reading what was written gives the same forms, the
 * values of the doubles and the counts of the counts. */
uint32_t station_air_read(const uint8_t *record, size_t record_length, uint8_t *forms, size_t forms_length,
                          double *values, size_t values_length, int32_t *counts, size_t counts_length);

/* As station_air_read, of a record whose tags rise. 19: a tag is below the one before it; in each field it
 * is checked after 8. */
uint32_t station_air_read_strictly(const uint8_t *record, size_t record_length, uint8_t *forms, size_t forms_length,
                                   double *values, size_t values_length, int32_t *counts, size_t counts_length);

/* Writes a record converted to counts, or to doubles, to the start of `out`, its fields in their old order;
 * a field that is in the asked form stays as it is. 0: `length` points to a number that is set to how many
 * bytes the record has now. 5 to 8: the record is unreadable. 20, to counts only: no count of the signed
 * 32-bit range gives exactly one of its doubles; minus zero, NaN and the infinities have none. Last, 18:
 * `out` has fewer bytes. Every status but 0 leaves `out` and `length` as they were, and 0 the bytes after
 * the record. station_air_judge answers the same before and after. `out` and the record do not overlap. */
uint32_t station_air_to_counts(const uint8_t *record, size_t record_length, uint8_t *out, size_t out_length,
                               size_t *length);
uint32_t station_air_to_doubles(const uint8_t *record, size_t record_length, uint8_t *out, size_t out_length,
                                size_t *length);

/* Writes a record of the acceptance bench's load to the start of `out`: the one with this number, 0 for the
 * first, of the same records on every site. Each is a record of counts, rising by tag, 11, 12, 15 in about
 * half of them, and 17 (hex), that lie in -500 to 3,000 m, -40 to 50 degrees Celsius, 0 to 100 percent and
 * 600 to 1,100 hPa; so station_air_judge and station_air_judge_strictly answer it alike, with none of 1
 * to 13 and not 19. Any number may be asked for; the bench takes the first ten thousand. 0: `length` points
 * to a number that is set to how many bytes the record has, 28, or 21 without humidity. 18: `out` has
 * fewer; it leaves `out` and `length` as they were, and 0 the bytes after the record. */
uint32_t station_air_load_record(uint64_t number, uint8_t *out, size_t out_length, size_t *length);

/* Writes the setting sheet of a station to the first 1,530 bytes of `page`, in ASCII: 51 rows, from -10 to
 * 40 degrees Celsius by whole degrees. A row is 30 bytes: temperature in 6 places with one decimal,
 * density kg/m3 in 7 with four, speed of sound m/s in 6 with one, density-matched altitude in 7 as whole
 * metres, at the right of their places, a blank between two of them and a newline last. Each is the
 * figure's exact value, rounded to nearest, halves away from zero; one that rounds to zero has no sign.
 * The figures are those of station_air_judge, with temperature and pressure as given, no defaults.
 * Needs 1 place. 0: the sheet is written. 16: the page has fewer than 1,530 bytes, whatever the inputs.
 * 11: altitude, pressure or humidity is not finite. 12: the pressure is at most 0. 13: the humidity is
 * below 0 or above 100. Of these the first, input by input, counts, and places[STATION_AIR_VALUE] is the
 * value. 14, 15, 17: by the first row that has one, in this order. Every status but 0 leaves the page as
 * it was, and 0 the bytes after the sheet. 255: no place. */
uint32_t station_air_setting_sheet(double altitude_m, double pressure_hpa, double humidity_percent, uint8_t *page,
                                   size_t page_length, double *places, size_t places_length);

/* Writes the report of a record to the start of `page`, in ASCII, lines that end with a newline and no 0 byte
 * after them, in the form that `park` prints (docs/PARK.md). Of a record that station_air_judge
 * accepts the figures, a line each, the trim class and the next one, whether CIPM-2007's range holds, and
 * notes on readings that were replaced or cannot be; else the refusal's number, the reading that it is about,
 * its cause and what to do. The last line is the record in hex. 0: `length` points to a number that is set to
 * how many bytes the report has, a refused record's too. 16: the page has fewer than 2,842 bytes and two for
 * each of the record's, which is enough for any record of that length; shorter pages are refused even where
 * this report would fit. It leaves page and `length` as they were, and 0 the bytes after the report. The
 * record is left as it was. */
uint32_t station_air_report(const uint8_t *record, size_t record_length, uint8_t *page, size_t page_length,
                            size_t *length);

/* Writes what is said of a refusal to the start of `page`, in the words of a report, by its number: a line
 * `cause: ..` and a line `what to do: ..`, in ASCII, each with a newline and no 0 byte after them. Words have
 * 1 to 15 and 17, which a record or a setting sheet can be refused by. 0: `length` points to a number that is
 * set to how many bytes they have. 16: the page has fewer than 236 bytes, whatever the number. 253: any other
 * number. Every status but 0 leaves page and `length` as they were, and 0 the bytes after the words. */
uint32_t station_air_refusal_words(uint32_t number, uint8_t *page, size_t page_length, size_t *length);

/* The station whose air has a density altitude by the FAA's rule, with the temperature that is given
 * or, where `temperature_given` is false, the standard one; `temperature_c` then counts for nothing.
 * Needs 3 places. 0: altitude m, temperature degrees Celsius (a given one is returned unchanged),
 * station pressure hPa. 1: the density altitude is NaN or an infinity, whatever the temperature.
 * 2: a given temperature is NaN or an infinity. 3, 4: as above. 255: fewer than 3 places. */
uint32_t station_air_for_density_altitude(double density_altitude_m, bool temperature_given, double temperature_c,
                                          double *places, size_t places_length);

/* The same station without its checks: what the formulas give, air or not. Needs 3 places. 0: altitude m,
 * temperature degrees Celsius, station pressure hPa. 255: fewer than 3 places. */
uint32_t station_air_resolve_atmosphere_for_density_altitude(double density_altitude_m, bool temperature_given,
                                                             double temperature_c, double *places,
                                                             size_t places_length);

/* The ICAO standard atmosphere at a geometric altitude. Needs 2 places. 0: temperature K, pressure
 * Pa. An altitude below -5,000 m counts as -5,000 m and one above 84,000 m as 84,000 m, the
 * infinities too. NaN gives two NaNs. 255: fewer than 2 places. */
uint32_t station_air_standard_atmosphere(double altitude_m, double *places, size_t places_length);

/* Whether a station pressure, Pa, can belong to an altitude. Needs 2 places. 0: the standard atmosphere's
 * pressure there, Pa, and the station pressure over it; `implausible` points to a bool that is set to
 * whether that ratio is below 0.85, above 1.08 or NaN. Recorded weather stays inside. 255: fewer than 2
 * places; it leaves `implausible`. */
uint32_t station_air_station_pressure_plausibility(double station_pressure_pa, double altitude_m, double *places,
                                                   size_t places_length, bool *implausible);

/* Density and speed of sound of moist air. Needs 2 places. 0: density kg/m3, speed of sound m/s.
 * A temperature or pressure that is not given is the standard atmosphere's at the altitude, and its
 * number counts for nothing; where both are given the altitude counts for nothing. A humidity below 0
 * counts as 0 and one above 100 as 100. A pressure below 2^-1022 Pa counts as 2^-1022 Pa, except in
 * the enhancement factor of the vapour. At 0 percent the saturation pressure is left out, so dry air
 * above 647.096 K has a density; humid air there is NaN. Nothing is refused: readings of no air, as a
 * temperature below -273.15, give what the formulas give, NaN for the root of a negative number. A
 * NaN that counts gives two NaNs. 255: fewer than 2 places. */
uint32_t station_air_calculate_atmosphere(double altitude_m, bool temperature_given, double temperature_c,
                                          bool pressure_given, double pressure_hpa, double humidity_percent,
                                          double *places, size_t places_length);

/* ---- readings ---- */

/* Whether a station pressure is kept. It is a default, and not kept, within 0.5 hPa of 1013.25 hPa
 * and more than 1 m above or below sea level: the double |p - 1013.25| is below 0.5, and |altitude|
 * above 1. A NaN on either side is kept. */
bool station_air_keeps_pressure(double pressure_hpa, double altitude_m);

/* Whether a temperature is kept. It is a default, and not kept, where the double |t - 15| is below
 * the double 0.1 and |altitude| above 1. A NaN on either side is kept. */
bool station_air_keeps_temperature(double temperature_c, double altitude_m);

/* The station pressure, hPa, at an altitude under a QNH:
 * QNH (1 + -0.0065 H / 288.15 (1013.25 / QNH)^n)^(1/n), with n and 1/n the exponents 5 and 0 of
 * station_air_rules.h, and H the geopotential height of the altitude, kept within -5,000 and 84,000
 * m. NaN where the sum in brackets is finite and below 0: a low QNH at a high altitude. A QNH of 0
 * gives NaN, and so does a finite negative one; but where 1013.25 / QNH is too large for a double, a
 * QNH that is not 0 gives an infinity of its sign, and NaN at the height 0. The infinities give
 * themselves. */
double station_air_reduced_qnh(double qnh_hpa, double altitude_m);

/* The mole fraction of water vapour by CIPM-2007, above 1 where there is more vapour than air. With
 * h the humidity kept within 0 and 100 (-0 stays -0), p = 100 pressure_hpa the pressure in Pa, and
 * f = 1.00062 + 3.14e-8 p + 5.6e-7 t t the enhancement factor, it is h / 100 f psv 100 / p, and h f / p
 * where h is 0; a p to divide by is at least 2^-1022. psv is the saturation pressure in hPa: a
 * temperature below 173.15 K counts as 173.15 K there, and above 647.096 K psv is NaN. */
double station_air_water_vapor_mole_fraction_uncapped(double temperature_c, double pressure_hpa,
                                                      double humidity_percent);

/* The density, kg/m3, of moist air by CIPM-2007, with that mole fraction, at most 1. NaN where a reading is
 * NaN. station_air_calculate_atmosphere is the same of a temperature that went to kelvin and back, so its
 * last bits may differ. */
double station_air_calculate_air_density_cimp(double temperature_c, double pressure_hpa, double humidity_percent);

/* The speed of sound, m/s, in moist air, of kelvin and pascals. */
double station_air_moist_speed_of_sound(double temperature_k, double pressure_pa, double humidity_percent);

/* ---- the four altitudes ---- */

/* The National Weather Service's pressure altitude, ft: 145366.45 (1 - (p / 1013.25)^0.190284).
 * 0 hPa gives 145366.45; a finite negative pressure NaN, but 145366.45 where p / 1013.25 rounds to
 * -0; both infinities -infinity. */
double station_air_nws_pressure_altitude_ft(double pressure_hpa);

/* The pressure altitude, m: the figure above from -5,000 to 11,000 m, both included, and where it is
 * NaN; else the height of the pressure in the standard atmosphere's layers. 0 hPa gives about
 * 178,325 m; a finite negative pressure NaN; both infinities, and a pressure whose hundredfold is too
 * large for a double, -infinity. */
double station_air_pressure_altitude_m(double pressure_hpa);

/* The density altitude, ft, by the FAA's rule: h + 120 5 / 9 (t - (59 - h / 1000 3.57)), with t in
 * degrees Fahrenheit and h the National Weather Service's altitude of the pressure, NaN where that is
 * NaN. */
double station_air_faa_density_altitude_ft(double pressure_hpa, double temperature_f);

/* The density-matched altitude, m: the height in the standard atmosphere of the density that
 * station_air_calculate_atmosphere gives for the three readings, over that of dry air at 15 degrees
 * Celsius and 1013.25 hPa. It is not the FAA's density altitude. NaN where that density is NaN, or
 * finite and negative; about 178,325 m where it is 0 or -0; -infinity where it is infinite. */
double station_air_density_matched_altitude_m(double temperature_c, double pressure_hpa, double humidity_percent);

/* ---- functions of a number, by rules in whole numbers ---- */

/* e to the power of x, rounded once, to infinity or 0 where it is out of range: from 1,024 up it is
 * infinity, from -1,100 down 0. */
double station_air_exp(double x);

/* The natural logarithm. 0 and -0 give -infinity, +infinity itself, what is below 0 NaN. */
double station_air_ln(double x);

/* The square root, the nearest double. 0, -0 and +infinity give themselves, what is below 0 NaN. */
double station_air_sqrt(double x);

#ifdef __cplusplus
}
#endif

#endif
