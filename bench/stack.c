/* How much stack each function of the interface takes: each runs on a painted stack of its own, over many
 * inputs, and the paint says how deep it was written. Prints a line for each function, with the bytes that
 * a call takes, its return address included. */
#include "station_air.h"
#include "station_air_rules.h"

#include <inttypes.h>
#include <stdio.h>
#include <string.h>
#include <ucontext.h>

enum { STACK = 1 << 18, CALLS = 3000, PAINT = 0xA5 };

static _Alignas(64) uint8_t stack[STACK];
static ucontext_t home, away;

/* SplitMix64 */
static uint64_t state;

static uint64_t word(void) {
    uint64_t z = state += UINT64_C(0x9E3779B97F4A7C15);
    z = (z ^ (z >> 30)) * UINT64_C(0xBF58476D1CE4E5B9);
    z = (z ^ (z >> 27)) * UINT64_C(0x94D049BB133111EB);
    return z ^ (z >> 31);
}

static double between(double low, double high) {
    return low + (high - low) * ((double)(word() >> 11) / 9007199254740992.0);
}

static double altitude(void) { return between(-500, 5000); }
static double celsius(void) { return between(-40, 50); }
static double hectopascals(void) { return between(500, 1100); }
static double percent(void) { return between(0, 100); }

/* what calls are lent, and what they answer: none of it is on the stack that is measured */
static uint8_t records[3][STATION_AIR_RECORD_BYTES_AT_MOST], out[2048], forms[7];
static uint8_t page[STATION_AIR_REPORT_BYTES_AT_MOST + 2 * STATION_AIR_RECORD_BYTES_AT_MOST];
static size_t lengths[3], length;
static double places[8], values[7];
static int32_t counts[7], answer[4];
static bool mark;
static uint32_t mast, whole;
static uint64_t part;
static volatile double number;
static volatile uint32_t status;

/* Readings of every kind: altitude or density altitude, each pressure or none, doubles and counts, now and
 * then one that is refused. */
static void draw_readings(void) {
    uint64_t kind = word();
    memset(forms, 0, sizeof forms);
    const double all[7] = {altitude(), celsius(), hectopascals(), hectopascals(), percent(), altitude(), hectopascals()};
    for (size_t i = 0; i < 7; i++) {
        values[i] = kind % 64 == 0 ? -300 : all[i];
        counts[i] = (int32_t)(all[i] * 1000);
    }
    uint8_t form = 1 + kind / 64 % 2;
    forms[kind / 128 % 4 == 0 ? 5 : 0] = form;
    forms[1] = kind / 512 % 4 == 0 ? 0 : form;
    forms[4] = kind / 2048 % 4 == 0 ? 0 : form;
    if (forms[0] != 0 && kind / 8192 % 4 != 0) {
        const size_t pressures[3] = {2, 3, 6};
        forms[pressures[kind / 8192 % 4 - 1]] = form;
    }
}

static void draw_record(size_t i) {
    draw_readings();
    station_air_write(forms, 7, values, 7, counts, 7, records[i], sizeof records[i], &lengths[i]);
}

/* the same readings at three masts, each a little off */
static void draw_masts(void) {
    draw_readings();
    for (size_t i = 0; i < 3; i++) {
        values[1] += 0.1;
        counts[1] += 100;
        station_air_write(forms, 7, values, 7, counts, 7, records[i], sizeof records[i], &lengths[i]);
    }
}

/* a temperature and a measured pressure, so that the next class is searched */
static void draw_measured(void) {
    draw_readings();
    memset(forms, 0, sizeof forms);
    forms[0] = forms[1] = forms[4] = forms[6] = 1;
    station_air_write(forms, 7, values, 7, counts, 7, records[0], sizeof records[0], &lengths[0]);
}

#define OF_RECORD(i) records[i], lengths[i]
#define ALL_FUNCTIONS                                                                                                          \
    /* name, how often, what is drawn, the call */                                                                             \
    F(judge, CALLS, draw_record(0), status = station_air_judge(OF_RECORD(0), places, 8, &mark))                                \
    F(judge_strictly, CALLS, draw_record(0), status = station_air_judge_strictly(OF_RECORD(0), places, 8, &mark))              \
    F(vote, CALLS, draw_masts(),                                                                                               \
      status = station_air_vote(OF_RECORD(0), OF_RECORD(1), OF_RECORD(2), places, 8, &mark, &mast))                            \
    F(trim_class, CALLS, (void)0, status = station_air_trim_class(between(0.9, 1.4)))                                          \
    F(next_trim_class, 100, draw_measured(), status = station_air_next_trim_class(OF_RECORD(0), places, 8, answer, 4))         \
    F(write, CALLS, draw_readings(),                                                                                           \
      status = station_air_write(forms, 7, values, 7, counts, 7, out, sizeof out, &length))                                    \
    F(read, CALLS, draw_record(0), status = station_air_read(OF_RECORD(0), forms, 7, values, 7, counts, 7))                    \
    F(read_strictly, CALLS, draw_record(0), status = station_air_read_strictly(OF_RECORD(0), forms, 7, values, 7, counts, 7))  \
    F(to_counts, CALLS, draw_record(0), status = station_air_to_counts(OF_RECORD(0), out, sizeof out, &length))                \
    F(to_doubles, CALLS, draw_record(0), status = station_air_to_doubles(OF_RECORD(0), out, sizeof out, &length))              \
    F(load_record, CALLS, (void)0, status = station_air_load_record(word(), out, sizeof out, &length))                         \
    F(setting_sheet, 100, (void)0,                                                                                             \
      status = station_air_setting_sheet(altitude(), hectopascals(), percent(), out, sizeof out, places, 8))                   \
    F(report, 300, draw_record(0), status = station_air_report(OF_RECORD(0), page, sizeof page, &length))                      \
    F(refusal_words, CALLS, (void)0, status = station_air_refusal_words((uint32_t)(word() % 18), page, sizeof page, &length))  \
    F(for_density_altitude, CALLS, (void)0, status = station_air_for_density_altitude(altitude(), word() % 2, celsius(), places, 8)) \
    F(resolve_atmosphere_for_density_altitude, CALLS, (void)0,                                                                 \
      status = station_air_resolve_atmosphere_for_density_altitude(altitude(), word() % 2, celsius(), places, 8))              \
    F(standard_atmosphere, CALLS, (void)0, status = station_air_standard_atmosphere(between(-6000, 90000), places, 8))         \
    F(station_pressure_plausibility, CALLS, (void)0,                                                                           \
      status = station_air_station_pressure_plausibility(100 * hectopascals(), altitude(), places, 8, &mark))                  \
    F(calculate_atmosphere, CALLS, (void)0,                                                                                    \
      status = station_air_calculate_atmosphere(altitude(), word() % 2, celsius(), word() % 2, hectopascals(), percent(), places, 8)) \
    F(keeps_pressure, CALLS, (void)0, mark = station_air_keeps_pressure(hectopascals(), altitude()))                           \
    F(keeps_temperature, CALLS, (void)0, mark = station_air_keeps_temperature(celsius(), altitude()))                          \
    F(reduced_qnh, CALLS, (void)0, number = station_air_reduced_qnh(hectopascals(), altitude()))                               \
    F(water_vapor_mole_fraction_uncapped, CALLS, (void)0,                                                                      \
      number = station_air_water_vapor_mole_fraction_uncapped(celsius(), hectopascals(), percent()))                           \
    F(calculate_air_density_cimp, CALLS, (void)0,                                                                              \
      number = station_air_calculate_air_density_cimp(celsius(), hectopascals(), percent()))                                   \
    F(moist_speed_of_sound, CALLS, (void)0,                                                                                    \
      number = station_air_moist_speed_of_sound(between(233, 323), 100 * hectopascals(), percent()))                           \
    F(nws_pressure_altitude_ft, CALLS, (void)0, number = station_air_nws_pressure_altitude_ft(hectopascals()))                 \
    F(pressure_altitude_m, CALLS, (void)0, number = station_air_pressure_altitude_m(between(0, 2000)))                         \
    F(faa_density_altitude_ft, CALLS, (void)0, number = station_air_faa_density_altitude_ft(hectopascals(), between(-40, 122))) \
    F(density_matched_altitude_m, CALLS, (void)0,                                                                              \
      number = station_air_density_matched_altitude_m(celsius(), hectopascals(), percent()))                                   \
    F(exp, CALLS, (void)0, number = station_air_exp(between(-700, 700)))                                                       \
    F(ln, CALLS, (void)0, number = station_air_ln(between(0, 1e6)))                                                            \
    F(sqrt, CALLS, (void)0, number = station_air_sqrt(between(0, 1e6)))                                                        \
    F(log_word, CALLS, (void)0, mark = station_air_log_word(between(0, 1e6), &mark, &whole, &part))                            \
    F(antilog, CALLS, (void)0, number = station_air_antilog(word() % 2, word() % 1000, word() >> 4))                           \
    F(power, CALLS, (void)0, number = station_air_power(between(0, 2), word() % 27))                                           \
    F(version, 1, (void)0, status = station_air_version())

/* Each draws on the home stack and calls on the other. */
#define F(name, calls, draw, call)                                                                                             \
    static void call_##name(void) { call; }
ALL_FUNCTIONS
#undef F
#define F(name, calls, draw, call)                                                                                             \
    static void draw_for_##name(void) { draw; }
ALL_FUNCTIONS
#undef F

static void nothing(void) {}

static size_t deepest(void (*draw)(void), void (*call)(void), unsigned calls) {
    memset(stack, PAINT, sizeof stack);
    state = 0;
    for (unsigned i = 0; i < calls; i++) {
        draw();
        getcontext(&away);
        away.uc_stack.ss_sp = stack;
        away.uc_stack.ss_size = sizeof stack;
        away.uc_link = &home;
        makecontext(&away, call, 0);
        swapcontext(&home, &away);
    }
    size_t clean = 0;
    while (clean < sizeof stack && stack[clean] == PAINT) {
        clean++;
    }
    return sizeof stack - clean;
}

int main(void) {
    const size_t empty = deepest(nothing, nothing, 1);
    size_t greatest = 0;
#define F(name, calls, draw, call)                                                                                             \
    {                                                                                                                          \
        size_t bytes = deepest(draw_for_##name, call_##name, calls) - empty;                                                   \
        printf("station_air_%-41s %6zu\n", #name, bytes);                                                                      \
        greatest = bytes > greatest ? bytes : greatest;                                                                        \
    }
    ALL_FUNCTIONS
#undef F
    printf("%-53s %6zu\n", "greatest", greatest);
    return 0;
}
