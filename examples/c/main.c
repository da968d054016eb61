/* Judges the mast record in a file: prints its eight figures and whether they lie in the range of
 * CIPM-2007, or `refused` and the number of the cause. Ends with 0 for figures, 1 for a refusal, 2
 * where there is no file to read. */
#include "station_air.h"

#include <inttypes.h>
#include <stdio.h>

#define RECORD_LENGTH 256

static const struct {
    const char *name;
    const char *unit;
} figures[STATION_AIR_JUDGE_PLACES] = {
    [STATION_AIR_ALTITUDE_M] = {"altitude", "m"},
    [STATION_AIR_TEMPERATURE_C] = {"temperature", "°C"},
    [STATION_AIR_PRESSURE_HPA] = {"station pressure", "hPa"},
    [STATION_AIR_DENSITY_KG_M3] = {"density", "kg/m³"},
    [STATION_AIR_SPEED_OF_SOUND_MPS] = {"speed of sound", "m/s"},
    [STATION_AIR_PRESSURE_ALTITUDE_M] = {"pressure altitude", "m"},
    [STATION_AIR_DENSITY_MATCHED_ALTITUDE_M] = {"density-matched altitude", "m"},
    [STATION_AIR_VAPOR_MOLE_FRACTION] = {"vapour mole fraction", "mol/mol"},
};

int main(int argc, char **argv) {
    if (argc != 2) {
        fprintf(stderr, "usage: %s RECORD\n", argv[0]);
        return 2;
    }
    FILE *file = fopen(argv[1], "rb");
    if (file == NULL) {
        perror(argv[1]);
        return 2;
    }
    uint8_t record[RECORD_LENGTH];
    size_t length = fread(record, 1, sizeof record, file);
    int failed = ferror(file);
    fclose(file);
    if (failed) {
        fprintf(stderr, "%s: cannot be read\n", argv[1]);
        return 2;
    }

    double places[STATION_AIR_JUDGE_PLACES];
    bool in_range = false;
    uint32_t status = station_air_judge(record, length, places, STATION_AIR_JUDGE_PLACES, &in_range);
    if (status != STATION_AIR_FIGURES) {
        printf("refused %" PRIu32 "\n", status);
        return 1;
    }
    for (size_t i = 0; i < STATION_AIR_JUDGE_PLACES; i++) {
        printf("%-25s%14.6f %s\n", figures[i].name, places[i], figures[i].unit);
    }
    printf("%s the range of CIPM-2007\n", in_range ? "in" : "outside");
    return 0;
}
