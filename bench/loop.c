/* Times find in process: loop SHEET-FILE LEAST-SECONDS prints find's result and the microseconds per call. */
#include "../crates/gateway/c/deodarloo.h"
#include <stdio.h>
#include <stdlib.h>
#include <time.h>

static double now(void)
{
    struct timespec t;
    clock_gettime(CLOCK_MONOTONIC, &t);
    return t.tv_sec + t.tv_nsec / 1e9;
}

int main(int count, char **words)
{
    static uint8_t sheet[4097], codes[128], tables[8 + 64 * 256];
    FILE *file = count == 3 ? fopen(words[1], "rb") : NULL;
    if (!file)
        return 2;
    size_t length = fread(sheet, 1, sizeof sheet, file);
    fclose(file);
    double least = atof(words[2]), started = now(), spent;
    unsigned long calls = 0;
    uint32_t result;
    do {
        result = find(sheet, length, codes, sizeof codes, tables, sizeof tables);
        calls++;
        spent = now() - started;
    } while (spent < least);
    if (result >> 16)
        printf("refused %u %u\n", (unsigned)(result >> 16), (unsigned)(result & 0xffff));
    else
        printf("found %u\n", (unsigned)result);
    printf("%.3f\n", spent / calls * 1e6);
    return 0;
}
