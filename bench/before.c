/* Nanoseconds a call of another commit's functions, whose names have the prefix before_, beside today's: the same
 * inputs in turns, the median of 101 runs. The answers are held to each other first. */
#define _POSIX_C_SOURCE 200809L
#include <stdbool.h>
#include <stddef.h>
#include <stdio.h>
#include <stdlib.h>
#include <string.h>
#include <time.h>

#include "timing.h"

#define DECLARED(prefix) \
    double prefix##station_air_antilog(bool negative, uint32_t whole, uint64_t part); \
    double prefix##station_air_power(double x, size_t number); \
    uint32_t prefix##station_air_judge(const uint8_t *record, size_t n, double *lent, size_t places, bool *in_range); \
    uint32_t prefix##station_air_setting_sheet(double altitude_m, double pressure_hpa, double humidity_percent, \
                                               uint8_t *page, size_t n, double *lent, size_t places); \
    uint32_t prefix##station_air_next_trim_class(const uint8_t *record, size_t n, double *lent, size_t places, \
                                                 int32_t *answer, size_t numbers);
DECLARED()
DECLARED(before_)

enum { INPUTS = 250, RUNS = 101, RECORD_SIZE = 44, JUNK = 3 };

static double between(double low, double high) {
    return low + (high - low) * ((double)(drawn() >> 11) * 0x1p-53);
}

static uint64_t parts[INPUTS];
static double ratios[INPUTS];
static uint8_t records[INPUTS][RECORD_SIZE + JUNK];

/* Altitude, temperature, station pressure and humidity in document 01's ranges, as doubles; then a tag that is none. */
static void fill(void) {
    static const double ends[4][2] = {{-500, 5000}, {-40, 50}, {500, 1100}, {1, 100}};
    static const uint8_t tags[4] = {1, 2, 3, 5};
    for (int i = 0; i < INPUTS; i++) {
        parts[i] = drawn() >> 4;
        ratios[i] = between(0.2, 2);
        for (int field = 0; field < 4; field++) {
            uint8_t *at = records[i] + 11 * field;
            double x = between(ends[field][0], ends[field][1]);
            uint64_t bits;
            memcpy(&bits, &x, 8);
            at[0] = tags[field];
            at[1] = 0;
            at[2] = 8;
            for (int k = 0; k < 8; k++)
                at[3 + k] = (uint8_t)(bits >> (56 - 8 * k));
        }
        memset(records[i] + RECORD_SIZE, 0xFF, JUNK);
    }
}

static double page_of(uint32_t sheet(double, double, double, uint8_t *, size_t, double *, size_t)) {
    uint8_t page[1530];
    double value, sum = 0;
    if (sheet(250, 988, 60, page, sizeof page, &value, 1) != 0)
        return -1;
    for (size_t i = 0; i < sizeof page; i++)
        sum = sum * 0.5 + page[i];
    return sum;
}

/* 20 °C and 700 hPa, from which no change within 200 gives another class. */
static double search_of(uint32_t next(const uint8_t *, size_t, double *, size_t, int32_t *, size_t)) {
    static const uint8_t record[28] = {0x11, 0, 4, 0, 0, 0xEA, 0x60, 0x12, 0, 4, 0, 0, 0x4E, 0x20,
                                       0x15, 0, 4, 0, 0, 0xEA, 0x60, 0x17, 0, 4, 0, 0x0A, 0xAE, 0x60};
    double values[2];
    int32_t answer[4] = {-1, -1, -1, -1};
    uint32_t status = next(record, sizeof record, values, 2, answer, 4);
    return status * 1e9 + answer[0] * 1e6 + answer[1] * 1e4 + answer[2] + answer[3] * 1e3;
}

static double judged(uint32_t judge(const uint8_t *, size_t, double *, size_t, bool *), int i, size_t n) {
    double places[8] = {0};
    bool in_range = false;
    uint32_t status = judge(records[i], n, places, 8, &in_range);
    double sum = status + in_range;
    for (int k = 0; k < 8; k++)
        sum = sum * 0.5 + places[k];
    return sum;
}

#define CALLS(name, call) \
    static double before_##name(int i) { (void)i; return call(before_); } \
    static double today_##name(int i) { (void)i; return call(); }
#define ANTILOG(prefix) prefix##station_air_antilog(false, 3, parts[i])
#define POWER(prefix) prefix##station_air_power(ratios[i], 0)
#define RECORD(prefix) judged(prefix##station_air_judge, i, RECORD_SIZE)
#define REFUSED(prefix) judged(prefix##station_air_judge, i, RECORD_SIZE + JUNK)
#define PAGE(prefix) page_of(prefix##station_air_setting_sheet)
#define SEARCH(prefix) search_of(prefix##station_air_next_trim_class)
CALLS(antilog, ANTILOG)
CALLS(power, POWER)
CALLS(record, RECORD)
CALLS(refused, REFUSED)
CALLS(page, PAGE)
CALLS(search, SEARCH)

/* keeps the compiler from leaving a call out */
volatile double sink;

static double nanoseconds(double call(int), int inputs) {
    struct timespec from, to;
    clock_gettime(CLOCK_THREAD_CPUTIME_ID, &from);
    for (int i = 0; i < inputs; i++)
        sink = call(i);
    clock_gettime(CLOCK_THREAD_CPUTIME_ID, &to);
    return ((to.tv_sec - from.tv_sec) * 1e9 + (to.tv_nsec - from.tv_nsec)) / inputs;
}

static void row(const char *name, double before(int), double today(int), int inputs) {
    double times[2][RUNS];
    for (int i = 0; i < inputs; i++) {
        double x = before(i), y = today(i);
        if (memcmp(&x, &y, 8) != 0) {
            printf("%s: the answers differ at input %d\n", name, i);
            exit(1);
        }
    }
    for (int run = 0; run < RUNS; run++) {
        times[0][run] = nanoseconds(before, inputs);
        times[1][run] = nanoseconds(today, inputs);
    }
    for (int k = 0; k < 2; k++)
        qsort(times[k], RUNS, sizeof(double), by_size);
    printf("%-36s%12.1f%12.1f%10.1f\n", name, times[0][RUNS / 2], times[1][RUNS / 2], times[0][RUNS / 2] / times[1][RUNS / 2]);
}

int main(void) {
    fill();
    printf("%-36s%12s%12s%10s\n", "nanoseconds a call", "before", "today", "quicker");
    row("antilog", before_antilog, today_antilog, INPUTS);
    row("power 0 (5.2559)", before_power, today_power, INPUTS);
    row("record 01 02 03 05, humid", before_record, today_record, INPUTS);
    row("four fields and an unknown tag", before_refused, today_refused, INPUTS);
    row("setting sheet, humid", before_page, today_page, 1);
    row("next trim class, none within 200", before_search, today_search, 1);
    return 0;
}
