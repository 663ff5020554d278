/* A courier gateway in small: reads a sheet from a file, quotes its sizes, finds the tables at these, judges what it found, and prints.
 * Build: tests/build.sh && cc -o target/courier crates/gateway/c/courier.c target/staticlib/libgateway.a */
#include "deodarloo.h"
#include <stdio.h>

enum { MOST_SHEET = 4097, MOST_FIELDS = 8, MOST_CODES = 128, MOST_TABLES = 8 + 64 * 256 };

/* How many fields and expressions an accepted sheet has, and how long its tables are at the sizes quoted: one walk over the records. */
struct extent {
    size_t fields, expressions, tables;
};

static struct extent extent_of(const uint8_t *sheet, size_t length, const uint8_t *quote)
{
    struct extent e = {0, 0, 0};
    for (size_t at = 0; at + 4 <= length; at += 4 + sheet[at] + 256 * (size_t)sheet[at + 1]) {
        size_t payload = sheet[at] + 256 * (size_t)sheet[at + 1], cells = 1;
        if (sheet[at + 2] == 1) {
            e.fields += 1;
            e.tables += 1;
        }
        if (sheet[at + 2] == 2) {
            for (size_t i = 1; i < payload; i++)
                cells *= quote[sheet[at + 4 + i]];
            e.tables += cells;
        }
        if (sheet[at + 2] == 3)
            e.expressions += 1;
    }
    return e;
}

/* Prints a refusal, and says whether the result is one. */
static int refused(uint32_t result)
{
    if (result >> 16)
        printf("refused %u %u\n", (unsigned)(result >> 16), (unsigned)(result & 0xffff));
    return result >> 16 != 0;
}

static void print_bytes(const char *word, const uint8_t *bytes, size_t length)
{
    printf("%s", word);
    for (size_t i = 0; i < length; i++)
        printf(" %u", bytes[i]);
    printf("\n");
}

int main(int count, char **words)
{
    static uint8_t sheet[MOST_SHEET], quote[MOST_FIELDS], codes[MOST_CODES], tables[MOST_TABLES];
    FILE *file = count == 2 ? fopen(words[1], "rb") : NULL;
    if (!file) {
        fprintf(stderr, "usage: courier SHEET-FILE\n");
        return 2;
    }
    size_t length = fread(sheet, 1, sizeof sheet, file);
    fclose(file);
    if (refused(sizes(sheet, length, quote, sizeof quote)))
        return 0;
    struct extent e = extent_of(sheet, length, quote);
    uint32_t found = find_at(sheet, length, quote, e.fields, codes, sizeof codes, tables, sizeof tables);
    if (refused(found))
        return 0;
    printf("found %u\n", (unsigned)found);
    print_bytes("sizes", quote, e.fields);
    print_bytes("codes", codes, e.expressions);
    print_bytes("tables", tables, e.tables);
    printf("judge %u\n", (unsigned)judge(sheet, length, tables, e.tables));
    return 0;
}
