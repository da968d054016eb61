/* Calls at the interface's edges: NULL with a length of 0, arrays that are too short, and refusals
 * with their values. Prints a line for each call that answers otherwise, and ends with 1 then. */
#include "station_air.h"
#include "station_air_rules.h"

#include <math.h>
#include <stdio.h>
#include <string.h>

#define UNTOUCHED -1.5

static int failures;

static void expect(bool holds, const char *what) {
    if (!holds) {
        printf("not as expected: %s\n", what);
        failures++;
    }
}

static bool untouched(const double *places, size_t from, size_t length) {
    for (size_t i = from; i < length; i++) {
        if (places[i] != UNTOUCHED) {
            return false;
        }
    }
    return true;
}

static void clear(double *places, size_t length) {
    for (size_t i = 0; i < length; i++) {
        places[i] = UNTOUCHED;
    }
}

enum { ROOM = STATION_AIR_JUDGE_PLACES + 1 };

static const uint8_t sea_level[11] = {1, 0, 8};
static const uint8_t unknown_tag[3] = {8, 0, 8};
/* 02 before 01 */
static const uint8_t falling[22] = {2, 0, 8, 0x40, 0x34, 0, 0, 0, 0, 0, 0, 1, 0, 8};
/* 0 m, 20 degrees, 1,000 hPa measured */
static const uint8_t measured[33] = {
    1, 0, 8, 0,    0,    0,    0, 0, 0, 0, 0, /* altitude */
    2, 0, 8, 0x40, 0x34, 0,    0, 0, 0, 0, 0, /* temperature */
    7, 0, 8, 0x40, 0x8F, 0x40, 0, 0, 0, 0, 0, /* measured pressure */
};

static void judge(void) {
    double places[ROOM];
    bool in_range = true;

    clear(places, ROOM);
    expect(station_air_judge(NULL, 0, places, ROOM, &in_range) == STATION_AIR_NO_ALTITUDE, "an empty record at NULL");
    expect(untouched(places, 0, ROOM) && in_range, "a refusal without a value writes nothing");
    in_range = false;
    expect(station_air_judge(sea_level, sizeof sea_level, NULL, 0, &in_range) == STATION_AIR_TOO_SHORT,
           "judge, no places at NULL");
    expect(station_air_judge(NULL, 0, NULL, 0, &in_range) == STATION_AIR_TOO_SHORT, "judge, both at NULL");

    expect(station_air_judge(unknown_tag, sizeof unknown_tag, places, STATION_AIR_JUDGE_PLACES - 1, &in_range)
               == STATION_AIR_TOO_SHORT,
           "a place too few, whatever the record");
    expect(untouched(places, 0, ROOM) && !in_range, "a short array and its mark are left as they were");
    expect(station_air_judge(unknown_tag, sizeof unknown_tag, places, STATION_AIR_JUDGE_PLACES, &in_range)
               == STATION_AIR_UNKNOWN_TAG,
           "an unknown tag");

    expect(station_air_judge(sea_level, sizeof sea_level, places, ROOM, &in_range) == STATION_AIR_FIGURES, "sea level");
    expect(places[STATION_AIR_ALTITUDE_M] == 0 && places[STATION_AIR_TEMPERATURE_C] == 15
               && places[STATION_AIR_PRESSURE_HPA] == 1013.25,
           "the standard atmosphere at sea level");
    expect(places[STATION_AIR_VAPOR_MOLE_FRACTION] == 0 && in_range, "dry air in the range of CIPM-2007");
    expect(untouched(places, STATION_AIR_JUDGE_PLACES, ROOM), "the places past the figures");
}

static void judge_strictly(void) {
    double places[ROOM];
    bool in_range = true;

    clear(places, ROOM);
    expect(station_air_judge_strictly(NULL, 0, places, ROOM, &in_range) == STATION_AIR_NO_ALTITUDE,
           "strictly, an empty record at NULL");
    expect(station_air_judge_strictly(NULL, 0, NULL, 0, &in_range) == STATION_AIR_TOO_SHORT, "strictly, both at NULL");
    expect(station_air_judge_strictly(falling, sizeof falling, places, STATION_AIR_JUDGE_PLACES - 1, &in_range)
               == STATION_AIR_TOO_SHORT,
           "strictly, a place too few");
    expect(station_air_judge_strictly(falling, sizeof falling, places, ROOM, &in_range) == STATION_AIR_TAG_FALLS,
           "a tag that falls");
    expect(untouched(places, 0, ROOM) && in_range, "a tag that falls writes nothing");
    expect(station_air_judge(falling, sizeof falling, places, ROOM, &in_range) == STATION_AIR_FIGURES,
           "a tag that falls, to the first judge");
    clear(places, ROOM);
    in_range = false;
    expect(station_air_judge_strictly(measured, sizeof measured, places, ROOM, &in_range) == STATION_AIR_FIGURES,
           "rising tags");
    expect(places[STATION_AIR_PRESSURE_HPA] == 1000 && in_range, "and their figures");
}

static void write_record(void) {
    uint8_t forms[STATION_AIR_WRITE_PLACES] = {0};
    double values[STATION_AIR_WRITE_PLACES] = {0};
    uint8_t out[STATION_AIR_RECORD_BYTES_AT_MOST + 1];
    const int32_t counts[7] = {0};
    size_t length = 5;

    memset(out, 0xAA, sizeof out);
    expect(station_air_write(NULL, 0, values, 7, counts, 7, out, sizeof out, &length) == STATION_AIR_TOO_SHORT, "forms at NULL");
    expect(station_air_write(forms, 7, NULL, 0, counts, 7, out, sizeof out, &length) == STATION_AIR_TOO_SHORT, "values at NULL");
    expect(station_air_write(forms, 7, values, 6, counts, 7, out, sizeof out, &length) == STATION_AIR_TOO_SHORT,
           "a value too few");
    expect(station_air_write(forms, 7, values, 7, NULL, 0, out, sizeof out, &length) == STATION_AIR_TOO_SHORT,
           "counts at NULL");
    forms[STATION_AIR_READING_MEASURED_PRESSURE_HPA] = 255;
    expect(station_air_write(forms, 7, values, 7, counts, 7, out, sizeof out, &length) == STATION_AIR_UNKNOWN_FORM,
           "an unknown form");
    forms[STATION_AIR_READING_MEASURED_PRESSURE_HPA] = STATION_AIR_FORM_ABSENT;
    forms[STATION_AIR_READING_ALTITUDE_M] = STATION_AIR_FORM_DOUBLE;
    expect(station_air_write(forms, 7, values, 7, counts, 7, NULL, 0, &length) == STATION_AIR_BUFFER_TOO_SHORT,
           "a buffer at NULL");
    expect(station_air_write(forms, 7, values, 7, counts, 7, out, 10, &length) == STATION_AIR_BUFFER_TOO_SHORT, "a byte too few");
    expect(length == 5 && out[0] == 0xAA && out[9] == 0xAA, "buffer and length are left as they were");
    expect(station_air_write(forms, 7, values, 7, counts, 7, out, 11, &length) == STATION_AIR_FIGURES, "a record that just fits");
    expect(length == 11 && memcmp(out, sea_level, 11) == 0 && out[11] == 0xAA, "its bytes, and the byte after them");
    memset(forms, STATION_AIR_FORM_DOUBLE, sizeof forms);
    expect(station_air_write(forms, 7, values, 7, counts, 7, out, sizeof out, &length) == STATION_AIR_FIGURES, "all readings");
    expect(length == STATION_AIR_RECORD_BYTES_AT_MOST && out[66] == 7 && out[77] == 0xAA, "the longest record");
    memset(forms, STATION_AIR_FORM_ABSENT, sizeof forms);
    expect(station_air_write(forms, 7, values, 7, counts, 7, NULL, 0, &length) == STATION_AIR_FIGURES && length == 0,
           "no reading, at NULL");
    forms[STATION_AIR_READING_ALTITUDE_M] = STATION_AIR_FORM_COUNT;
    expect(station_air_write(forms, 7, values, 7, counts, 7, out, 7, &length) == STATION_AIR_FIGURES && length == 7,
           "a count that just fits");
    expect(out[0] == 0x11 && out[2] == 4, "its tag and its length");
}

static void read_record(void) {
    /* 0 m as a double, 20 degrees and 1,000 hPa measured as counts */
    const uint8_t mixed[25] = {1,    0, 8, 0, 0, 0,    0,    0, 0, 0, 0, /* altitude */
                               0x12, 0, 4, 0, 0, 0x4E, 0x20,              /* temperature */
                               0x17, 0, 4, 0, 0x0F, 0x42, 0x40};          /* measured pressure */
    uint8_t forms[8];
    double values[8];
    int32_t counts[8];
    uint8_t out[STATION_AIR_RECORD_BYTES_AT_MOST];
    size_t length = 0;

    memset(forms, 9, sizeof forms);
    clear(values, 8);
    memset(counts, 0xFF, sizeof counts);
    expect(station_air_read(NULL, 0, NULL, 0, NULL, 0, NULL, 0) == STATION_AIR_TOO_SHORT, "read, all at NULL");
    expect(station_air_read(mixed, 25, forms, 6, values, 7, counts, 7) == STATION_AIR_TOO_SHORT, "read, a form too few");
    expect(station_air_read(mixed, 25, forms, 7, values, 6, counts, 7) == STATION_AIR_TOO_SHORT, "read, a value too few");
    expect(station_air_read(unknown_tag, 3, forms, 7, values, 7, counts, 6) == STATION_AIR_TOO_SHORT,
           "read, a count too few, whatever the record");
    expect(station_air_read(mixed, 24, forms, 8, values, 8, counts, 8) == STATION_AIR_CUT, "read, a byte too few");
    expect(station_air_read_strictly(falling, sizeof falling, forms, 8, values, 8, counts, 8) == STATION_AIR_TAG_FALLS,
           "read strictly, a tag that falls");
    expect(forms[0] == 9 && forms[6] == 9 && untouched(values, 0, 8) && counts[0] == -1 && counts[6] == -1,
           "a refusal leaves the three arrays");
    expect(station_air_read(mixed, sizeof mixed, forms, 8, values, 8, counts, 8) == STATION_AIR_FIGURES, "a record of both forms");
    expect(forms[0] == STATION_AIR_FORM_DOUBLE && forms[1] == STATION_AIR_FORM_COUNT && forms[2] == STATION_AIR_FORM_ABSENT
               && forms[6] == STATION_AIR_FORM_COUNT && forms[7] == 9,
           "its forms, and the place after them");
    expect(values[0] == 0 && values[1] == 20 && values[2] == 0 && values[6] == 1000 && values[7] == UNTOUCHED,
           "its values, whatever the form");
    expect(counts[0] == 0 && counts[1] == 20000 && counts[2] == 0 && counts[6] == 1000000 && counts[7] == -1, "its counts");
    expect(station_air_write(forms, 7, values, 7, counts, 7, out, sizeof out, &length) == STATION_AIR_FIGURES
               && length == sizeof mixed && memcmp(out, mixed, sizeof mixed) == 0,
           "and written again, the same bytes");
    expect(station_air_read(falling, sizeof falling, forms, 7, values, 7, counts, 7) == STATION_AIR_FIGURES
               && values[STATION_AIR_READING_TEMPERATURE_C] == 20 && counts[1] == 0,
           "a tag that falls, to the first reader");
    expect(station_air_read_strictly(NULL, 0, forms, 7, values, 7, counts, 7) == STATION_AIR_FIGURES && forms[0] == 0
               && forms[6] == 0,
           "an empty record at NULL has no reading");
    expect(STATION_AIR_TAG_ALTITUDE_M - 1 == STATION_AIR_READING_ALTITUDE_M && mixed[11] == STATION_AIR_TAG_OF_COUNTS + STATION_AIR_TAG_TEMPERATURE_C
               && mixed[18] == STATION_AIR_TAG_OF_COUNTS + STATION_AIR_TAG_MEASURED_PRESSURE_HPA,
           "tags and places");
}

static void trim_class(void) {
    expect(station_air_trim_class(1.0) == 1 && station_air_trim_class(nextafter(1.0, 0)) == 0, "class 1 from 1.00 on");
    expect(station_air_trim_class(1.25) == 6 && station_air_trim_class(INFINITY) == 6, "class 6 from 1.25 on");
    expect(station_air_trim_class(NAN) == 0 && station_air_trim_class(-1) == 0, "class 0 of NaN and of what is below 0");
}

static void plausibility(void) {
    double places[ROOM];
    bool implausible = true;

    clear(places, ROOM);
    expect(station_air_station_pressure_plausibility(101325, 0, NULL, 0, &implausible) == STATION_AIR_TOO_SHORT && implausible,
           "plausibility, NULL");
    expect(station_air_station_pressure_plausibility(101325, 0, places, 1, &implausible) == STATION_AIR_TOO_SHORT && implausible
               && untouched(places, 0, ROOM),
           "plausibility, a place too few");
    expect(station_air_station_pressure_plausibility(86126.25, 0, places, ROOM, &implausible) == STATION_AIR_FIGURES
               && !implausible && places[STATION_AIR_PLAUSIBLE_STANDARD_PA] == 101325
               && places[STATION_AIR_PLAUSIBLE_RATIO] == 0.85 && untouched(places, 2, ROOM),
           "the least plausible ratio");
    expect(station_air_station_pressure_plausibility(109431, 0, places, 2, &implausible) == STATION_AIR_FIGURES
               && !implausible && places[STATION_AIR_PLAUSIBLE_RATIO] == 1.08,
           "the greatest");
    expect(station_air_station_pressure_plausibility(101325, 3310.128, places, 2, &implausible) == STATION_AIR_FIGURES
               && implausible && places[STATION_AIR_PLAUSIBLE_RATIO] > 1.5,
           "sea level's pressure on a mountain");
    implausible = false;
    expect(station_air_station_pressure_plausibility(NAN, 0, places, 2, &implausible) == STATION_AIR_FIGURES && implausible
               && isnan(places[STATION_AIR_PLAUSIBLE_RATIO]),
           "NaN is implausible");
}

static void convert(void) {
    const uint8_t counted[7] = {0x11, 0, 4, 0, 0, 0, 0};
    uint8_t out[11];
    size_t length = 5;

    memset(out, 0xAA, sizeof out);
    expect(station_air_to_counts(NULL, 0, NULL, 0, &length) == STATION_AIR_FIGURES && length == 0,
           "the empty record, at NULL");
    length = 5;
    expect(station_air_to_counts(sea_level, 11, out, 6, &length) == STATION_AIR_BUFFER_TOO_SHORT && length == 5,
           "an output that is a byte short");
    expect(station_air_to_counts(sea_level, 10, out, 11, &length) == STATION_AIR_CUT && out[0] == 0xAA,
           "a record that is cut");
    expect(station_air_to_counts(sea_level, 11, out, 7, &length) == STATION_AIR_FIGURES && length == 7 &&
               memcmp(out, counted, 7) == 0 && out[7] == 0xAA,
           "a record in counts, and the byte after it");
    expect(station_air_to_doubles(counted, 7, out, 11, &length) == STATION_AIR_FIGURES && length == 11 &&
               memcmp(out, sea_level, 11) == 0,
           "and back");
}

static void load_record(void) {
    /* as the program `load` prints it, without humidity */
    const uint8_t first[21] = {
        0x11, 0, 4, 0, 0x04, 0xDC, 0xA5, /* 318.629 m */
        0x12, 0, 4, 0, 0,    0x2E, 0x2E, /* 11.822 degrees */
        0x17, 0, 4, 0, 0x10, 0x21, 0xB1, /* 1,057.201 hPa */
    };
    uint8_t out[STATION_AIR_LOAD_RECORD_BYTES_AT_MOST + 1];
    size_t length = 5;

    memset(out, 0xAA, sizeof out);
    expect(station_air_load_record(0, NULL, 0, &length) == STATION_AIR_BUFFER_TOO_SHORT, "load, a buffer at NULL");
    expect(station_air_load_record(0, out, 20, &length) == STATION_AIR_BUFFER_TOO_SHORT, "load, a byte too few");
    expect(length == 5 && out[0] == 0xAA && out[19] == 0xAA, "load, buffer and length are left as they were");
    expect(station_air_load_record(0, out, 21, &length) == STATION_AIR_FIGURES && length == 21
               && memcmp(out, first, 21) == 0 && out[21] == 0xAA,
           "the load's first record, and the byte after it");
    expect(station_air_load_record(1, out, 28, &length) == STATION_AIR_FIGURES
               && length == STATION_AIR_LOAD_RECORD_BYTES_AT_MOST && out[14] == 0x15 && out[28] == 0xAA,
           "the second, which is humid");
    expect(station_air_load_record(UINT64_MAX, out, sizeof out, &length) == STATION_AIR_FIGURES && out[0] == 0x11,
           "the record with the greatest number");
}

static void vote(void) {
    double places[ROOM];
    bool in_range = false;
    uint32_t mast = 9;

    clear(places, ROOM);
    expect(station_air_vote(NULL, 0, NULL, 0, NULL, 0, NULL, 0, &in_range, &mast) == STATION_AIR_TOO_SHORT,
           "vote, all at NULL");
    expect(station_air_vote(sea_level, 11, sea_level, 11, sea_level, 11, places, 7, &in_range, &mast)
               == STATION_AIR_TOO_SHORT,
           "vote, a place too few");
    expect(mast == 9 && !in_range && untouched(places, 0, ROOM), "and nothing is written");
    expect(station_air_vote(sea_level, 11, unknown_tag, 3, NULL, 0, places, ROOM, &in_range, &mast)
                   == STATION_AIR_UNKNOWN_TAG
               && mast == 2,
           "the first mast that is refused");
    expect(station_air_vote(sea_level, 11, sea_level, 11, NULL, 0, places, ROOM, &in_range, &mast)
                   == STATION_AIR_NO_ALTITUDE
               && mast == 3,
           "the third mast, at NULL");
    expect(station_air_vote(sea_level, 11, sea_level, 11, measured, 33, places, ROOM, &in_range, &mast)
                   == STATION_AIR_FIELD_NOT_IN_ALL
               && mast == 0,
           "fields that are not in all three");
    expect(!in_range && untouched(places, 0, ROOM), "refusals without a value write nothing");
    expect(station_air_vote(sea_level, 11, sea_level, 11, sea_level, 11, places, ROOM, &in_range, &mast)
                   == STATION_AIR_FIGURES
               && mast == 0,
           "three times sea level");
    expect(places[STATION_AIR_PRESSURE_HPA] == 1013.25 && in_range, "and its figures");
    expect(untouched(places, STATION_AIR_VOTE_PLACES, ROOM), "the places past the figures, after a vote");
}

static void next_trim_class(void) {
    double places[ROOM];
    int32_t answer[5] = {9, 9, 9, 9, 9};

    clear(places, ROOM);
    expect(station_air_next_trim_class(NULL, 0, NULL, 0, NULL, 0) == STATION_AIR_TOO_SHORT, "trim class, all at NULL");
    expect(station_air_next_trim_class(measured, sizeof measured, places, 1, answer, 4) == STATION_AIR_TOO_SHORT,
           "trim class, a place too few");
    expect(station_air_next_trim_class(measured, sizeof measured, places, 2, answer, 3) == STATION_AIR_TOO_SHORT,
           "trim class, a number too few");
    expect(station_air_next_trim_class(NULL, 0, places, 2, answer, 4) == STATION_AIR_NO_ALTITUDE,
           "trim class, an empty record at NULL");
    expect(station_air_next_trim_class(sea_level, sizeof sea_level, places, 2, answer, 4)
               == STATION_AIR_NO_READING_TO_CHANGE,
           "nothing to change");
    expect(answer[0] == 9 && answer[3] == 9 && untouched(places, 0, ROOM), "and nothing is written");
    expect(station_air_next_trim_class(measured, sizeof measured, places, 2, answer, 4) == STATION_AIR_FIGURES,
           "a class and the next one");
    expect(answer[STATION_AIR_TRIM_CLASS] == 4 && answer[STATION_AIR_TRIM_TAG] == 2
               && answer[STATION_AIR_TRIM_TENTHS] < 0 && answer[STATION_AIR_TRIM_NEW_CLASS] == 5,
           "colder air is denser");
    expect(answer[4] == 9 && untouched(places, 0, ROOM), "the number past the answer, and the places");
}

static void setting_sheet(void) {
    static uint8_t page[STATION_AIR_SETTING_SHEET_BYTES + 1];
    double place = UNTOUCHED;

    memset(page, 0xAA, sizeof page);
    expect(station_air_setting_sheet(0, 1013.25, 0, page, sizeof page, NULL, 0) == STATION_AIR_TOO_SHORT,
           "sheet, no place at NULL");
    expect(station_air_setting_sheet(NAN, 0, 0, NULL, 0, &place, 1) == STATION_AIR_PAGE_TOO_SHORT,
           "sheet, no page at NULL");
    expect(station_air_setting_sheet(0, 1013.25, 0, page, 1529, &place, 1) == STATION_AIR_PAGE_TOO_SHORT,
           "sheet, a byte too few");
    expect(place == UNTOUCHED, "a refusal without a value");
    expect(station_air_setting_sheet(0, -1, 101, page, 1530, &place, 1) == STATION_AIR_PRESSURE_NOT_POSITIVE,
           "sheet, a pressure below 0");
    expect(place == -1 && page[0] == 0xAA && page[1529] == 0xAA, "its value, and the page as it was");
    expect(station_air_setting_sheet(0, 1013.25, 0, page, 1530, &place, 1) == STATION_AIR_FIGURES, "a good sheet");
    expect(memcmp(page, " -10.0 ", 7) == 0 && page[29] == '\n' && memcmp(page + 1500, "  40.0 ", 7) == 0
               && page[1529] == '\n' && page[1530] == 0xAA,
           "its first and last row, and the byte after them");
}

/* whether a page has the text at its start, and bytes that are left after it */
static bool stands(const uint8_t *page, size_t length, const char *text) {
    return length == strlen(text) && memcmp(page, text, length) == 0 && page[length] == 0xAA;
}

static void report(void) {
    enum { LONGEST = STATION_AIR_REPORT_BYTES_AT_MOST + 2 * 33 };
    static uint8_t page[LONGEST + 1];
    size_t length = 5;

    memset(page, 0xAA, sizeof page);
    expect(station_air_report(NULL, 0, NULL, 0, &length) == STATION_AIR_PAGE_TOO_SHORT, "report, both at NULL");
    expect(station_air_report(measured, 33, page, LONGEST - 1, &length) == STATION_AIR_PAGE_TOO_SHORT,
           "report, a byte too few");
    expect(station_air_report(unknown_tag, 1, page, STATION_AIR_REPORT_BYTES_AT_MOST + 1, &length)
               == STATION_AIR_PAGE_TOO_SHORT,
           "report, a byte too few for a record of one");
    expect(length == 5 && page[0] == 0xAA, "page and length are left as they were");
    expect(station_air_report(NULL, 0, page, STATION_AIR_REPORT_BYTES_AT_MOST, &length) == STATION_AIR_FIGURES
               && stands(page, length,
                         "refused 10\ncause: neither altitude nor density altitude\n"
                         "what to do: set the mast's altitude\nrecord \n"),
           "the report of an empty record at NULL");
    memset(page, 0xAA, sizeof page);
    expect(station_air_report(unknown_tag, 3, page, sizeof page, &length) == STATION_AIR_FIGURES
               && stands(page, length,
                         "refused 6\ncause: unknown tag\n"
                         "what to do: the sender speaks a newer form, or the bytes have slipped\nrecord 080008\n"),
           "the report of an unreadable record");
    memset(page, 0xAA, sizeof page);
    expect(station_air_report(measured, 33, page, LONGEST, &length) == STATION_AIR_FIGURES
               && memcmp(page, "altitude                             0.0 m\n", 43) == 0
               && memcmp(page + length - 67, "010008", 6) == 0 && page[length - 1] == '\n' && page[length] == 0xAA,
           "the report of an accepted record");
}

static void refusal_words(void) {
    uint8_t page[STATION_AIR_REFUSAL_WORDS_BYTES_AT_MOST + 1];
    size_t length = 5;

    memset(page, 0xAA, sizeof page);
    expect(station_air_refusal_words(1, NULL, 0, &length) == STATION_AIR_PAGE_TOO_SHORT, "words, no page at NULL");
    expect(station_air_refusal_words(0, page, STATION_AIR_REFUSAL_WORDS_BYTES_AT_MOST - 1, &length)
               == STATION_AIR_PAGE_TOO_SHORT,
           "words, a byte too few, whatever the number");
    const uint32_t without[] = {0, 16, 18, 19, 20, 21, 22, 23, 253, 254, 255, 257, 273, UINT32_MAX};
    for (size_t i = 0; i < sizeof without / sizeof *without; i++) {
        expect(station_air_refusal_words(without[i], page, sizeof page, &length) == STATION_AIR_NO_WORDS,
               "a number without words");
    }
    expect(length == 5 && page[0] == 0xAA, "page and length are left as they were");
    expect(station_air_refusal_words(STATION_AIR_NO_ALTITUDE, page, STATION_AIR_REFUSAL_WORDS_BYTES_AT_MOST, &length)
                   == STATION_AIR_FIGURES
               && stands(page, length, "cause: neither altitude nor density altitude\nwhat to do: set the mast's altitude\n"),
           "the words of 10");
    for (uint32_t n = 1; n <= 17; n++) {
        memset(page, 0xAA, sizeof page);
        expect(n == 16 || (station_air_refusal_words(n, page, sizeof page, &length) == STATION_AIR_FIGURES
                           && memcmp(page, "cause: ", 7) == 0 && page[length - 1] == '\n' && page[length] == 0xAA),
               "the words of 1 to 15 and 17");
    }
}

static void others(void) {
    double places[ROOM];

    expect(station_air_for_density_altitude(0, false, 0, NULL, 0) == STATION_AIR_TOO_SHORT, "density altitude, NULL");
    expect(station_air_standard_atmosphere(0, NULL, 0) == STATION_AIR_TOO_SHORT, "standard atmosphere, NULL");
    expect(station_air_calculate_atmosphere(0, false, 0, false, 0, 0, NULL, 0) == STATION_AIR_TOO_SHORT, "air, NULL");
    clear(places, ROOM);
    expect(station_air_for_density_altitude(INFINITY, false, 0, places, ROOM)
               == STATION_AIR_DENSITY_ALTITUDE_NOT_FINITE,
           "an infinite density altitude");
    expect(places[STATION_AIR_VALUE] == INFINITY && untouched(places, 1, ROOM), "and its value");
    expect(station_air_for_density_altitude(54853, true, 15, places, ROOM) == STATION_AIR_NO_AIR, "no air");
    expect(places[STATION_AIR_VALUE] == 54853 && places[STATION_AIR_RESOLVED_ALTITUDE_M] > 44000
               && untouched(places, 2, ROOM),
           "and its two values");

    clear(places, ROOM);
    expect(station_air_resolve_atmosphere_for_density_altitude(0, false, 0, NULL, 0) == STATION_AIR_TOO_SHORT,
           "resolved density altitude, NULL");
    expect(station_air_resolve_atmosphere_for_density_altitude(0, true, 15, places, 2) == STATION_AIR_TOO_SHORT
               && untouched(places, 0, ROOM),
           "resolved density altitude, a place too few");
    expect(station_air_resolve_atmosphere_for_density_altitude(0, true, 15, places, ROOM) == STATION_AIR_FIGURES
               && places[STATION_AIR_ALTITUDE_M] == 0 && places[STATION_AIR_TEMPERATURE_C] == 15
               && places[STATION_AIR_PRESSURE_HPA] == 1013.25 && untouched(places, 3, ROOM),
           "the station at sea level");
    expect(station_air_resolve_atmosphere_for_density_altitude(NAN, false, 0, places, 3) == STATION_AIR_FIGURES
               && isnan(places[STATION_AIR_ALTITUDE_M]),
           "no density altitude is refused");

    double air[2];
    expect(station_air_calculate_atmosphere(0, true, 15, true, 1013.25, 0, air, 2) == STATION_AIR_FIGURES
               && station_air_calculate_air_density_cimp(15, 1013.25, 0) == air[STATION_AIR_AIR_DENSITY_KG_M3]
               && station_air_moist_speed_of_sound(288.15, 101325, 0) == air[STATION_AIR_AIR_SPEED_OF_SOUND_MPS],
           "density and speed of sound, each by itself");
    expect(station_air_version() == STATION_AIR_VERSION, "header and archive are of one version");

    expect(station_air_power(1, 26) == 1 && isnan(station_air_power(1, 27)), "exponents by number");
}

int main(void) {
    judge();
    judge_strictly();
    write_record();
    read_record();
    trim_class();
    plausibility();
    convert();
    load_record();
    vote();
    next_trim_class();
    setting_sheet();
    report();
    refusal_words();
    others();
    return failures == 0 ? 0 : 1;
}
