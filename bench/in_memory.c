/* Judges the file N times in this process, from bytes that are read already, and prints the least processor time of a validation in milliseconds,
 * or `refused`: `in_memory FILE N`. bench/real-modules compiles it over the library for C. */
#include "durskeyl.h"
#include <stdio.h>
#include <stdlib.h>
#include <time.h>

static double milliseconds(void) {
    struct timespec now;
    clock_gettime(CLOCK_PROCESS_CPUTIME_ID, &now);
    return now.tv_sec * 1e3 + now.tv_nsec / 1e6;
}

int main(int count, char **words) {
    FILE *file = count == 3 ? fopen(words[1], "rb") : NULL;
    if (!file || fseek(file, 0, SEEK_END)) return 2;
    size_t length = (size_t)ftell(file);
    uint8_t *bytes = malloc(length + 1);
    rewind(file);
    if (!bytes || fread(bytes, 1, length, file) != length) return 2;
    durskeyl_settings settings;
    durskeyl_settings_default(&settings);
    double least = 0;
    for (int run = atoi(words[2]); run > 0; run--) {
        durskeyl_fault fault;
        double start = milliseconds();
        if (durskeyl_validate(&settings, bytes, length, &fault) != DURSKEYL_VALID) {
            puts("refused");
            return 0;
        }
        double taken = milliseconds() - start;
        if (least == 0 || taken < least) least = taken;
    }
    printf("%.3f\n", least);
    return 0;
}
