/* The program of a controller that sets trim brakes: it takes the records of three masts, sets the class of
 * the air that they vote for, and says in words why it cannot. Three rounds stand in for the line. */
#include "station_air.h"

#include <inttypes.h>
#include <stdio.h>

struct mast {
    uint8_t record[STATION_AIR_RECORD_BYTES_AT_MOST];
    size_t length;
};

/* What a mast at 1,586 m sends: thousandths, and the pressure as measured. */
static struct mast sent(double temperature_c, int32_t pressure_mhpa) {
    struct mast mast = {{0}, 0};
    uint8_t forms[STATION_AIR_WRITE_PLACES] = {0};
    double values[STATION_AIR_WRITE_PLACES] = {0};
    int32_t counts[STATION_AIR_WRITE_PLACES] = {0};
    forms[STATION_AIR_READING_ALTITUDE_M] = STATION_AIR_FORM_COUNT;
    counts[STATION_AIR_READING_ALTITUDE_M] = 1586000;
    forms[STATION_AIR_READING_TEMPERATURE_C] = STATION_AIR_FORM_DOUBLE;
    values[STATION_AIR_READING_TEMPERATURE_C] = temperature_c;
    forms[STATION_AIR_READING_MEASURED_PRESSURE_HPA] = STATION_AIR_FORM_COUNT;
    counts[STATION_AIR_READING_MEASURED_PRESSURE_HPA] = pressure_mhpa;
    station_air_write(forms, STATION_AIR_WRITE_PLACES, values, STATION_AIR_WRITE_PLACES, counts,
                      STATION_AIR_WRITE_PLACES, mast.record, sizeof mast.record, &mast.length);
    return mast;
}

/* Sets the class of what the masts vote for; a round without one leaves the brakes as they are. */
static void set_trim(const struct mast *a, const struct mast *b, const struct mast *c) {
    double places[STATION_AIR_VOTE_PLACES];
    bool in_range = false;
    uint32_t mast = 0;
    uint32_t status = station_air_vote(a->record, a->length, b->record, b->length, c->record, c->length, places,
                                       STATION_AIR_VOTE_PLACES, &in_range, &mast);
    if (status != STATION_AIR_FIGURES) {
        uint8_t words[STATION_AIR_REFUSAL_WORDS_BYTES_AT_MOST];
        size_t length = 0; /* a number without words leaves it */
        station_air_refusal_words(status, words, sizeof words, &length);
        printf("class kept: mast %" PRIu32 " refused by %" PRIu32 "\n%.*s", mast, status, (int)length, (const char *)words);
        return;
    }
    double density = places[STATION_AIR_DENSITY_KG_M3];
    printf("class %" PRIu32 ": density %.4f kg/m3%s\n", station_air_trim_class(density), density,
           in_range ? "" : ", outside the range of CIPM-2007");
}

int main(void) {
    if (station_air_version() != STATION_AIR_VERSION) {
        printf("header %d, archive %" PRIu32 "\n", STATION_AIR_VERSION, station_air_version());
        return 1;
    }
    struct mast good = sent(24, 841897), warm = sent(24.5, 841897), cold = sent(-11, 842100), broken = sent(-300, 841897);
    set_trim(&good, &warm, &cold);
    set_trim(&cold, &cold, &good);
    set_trim(&good, &broken, &warm);
    return 0;
}
