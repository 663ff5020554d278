/* Calls the exported functions on the sheets named on the command line and on bad calls, with guard bytes around every buffer and two fill patterns, and
 * says where a byte outside an answer changed, a refusal is not the one that docs/FORMAT.md names, or sizes and then find_at at these sizes do not do what
 * find does. */
#include "deodarloo.h"
#include <stdio.h>
#include <string.h>

enum { GUARD = 64, MOST_SHEET = 4097, MOST_FIELDS = 8, MOST_CODES = 128, MOST_TABLES = 8 + 64 * 256 };

/* The three lent buffers with their guards. */
struct rooms {
    uint8_t sizes[GUARD + MOST_FIELDS + GUARD], codes[GUARD + MOST_CODES + GUARD], tables[GUARD + MOST_TABLES + GUARD];
};

static struct rooms room;
static uint8_t *const out = room.sizes + GUARD, *const codes = room.codes + GUARD, *const tables = room.tables + GUARD;
static int faults, calls;

static void expect(int ok, const char *what, const char *where)
{
    calls++;
    if (!ok) {
        faults++;
        printf("guard: %s: %s\n", where, what);
    }
}

static void fill(uint8_t pattern)
{
    memset(&room, pattern, sizeof room);
}

/* every byte from a place to the end of a room still has the pattern, and the guard before it */
static int kept(const uint8_t *bytes, size_t size, size_t from, uint8_t pattern)
{
    for (size_t i = 0; i < size; i++)
        if ((i < GUARD || i >= GUARD + from) && bytes[i] != pattern)
            return 0;
    return 1;
}

static int untouched(uint8_t pattern)
{
    return kept(room.sizes, sizeof room.sizes, 0, pattern) && kept(room.codes, sizeof room.codes, 0, pattern)
        && kept(room.tables, sizeof room.tables, 0, pattern);
}

/* fields and their ceilings, expressions, and the length of the tables at given sizes or, where they are NULL, at the ceilings */
struct extent {
    size_t fields, expressions, tables;
    uint8_t ceilings[MOST_FIELDS + 1];
};

static struct extent extent_of(const uint8_t *sheet, size_t length, const uint8_t *given)
{
    struct extent e = {0};
    for (size_t at = 0; at + 4 <= length; at += 4 + sheet[at]) {
        const uint8_t *payload = sheet + at + 4;
        size_t cells = 1;
        if (sheet[at + 2] == 1) {
            e.ceilings[e.fields++] = payload[1];
            e.tables += 1;
        }
        if (sheet[at + 2] == 2) {
            for (size_t i = 1; i < sheet[at]; i++)
                cells *= (given ? given : e.ceilings)[payload[i]];
            e.tables += cells;
        }
        e.expressions += sheet[at + 2] == 3;
    }
    return e;
}

/* a sheet that is refused for what lies in its bytes: every function refuses it alike, and so with buffers that are too short and with wrong sizes */
static void refused(const char *name, const uint8_t *sheet, size_t length, uint32_t refusal, uint8_t pattern)
{
    fill(pattern);
    expect(find(sheet, length, codes, MOST_CODES, tables, MOST_TABLES) == refusal, "find refuses the sheet again", name);
    expect(find(sheet, length, NULL, 0, NULL, 0) == refusal, "1 to 9 and 16 come before 10", name);
    expect(sizes(sheet, length, out, MOST_FIELDS) == refusal, "sizes refuses the sheet too", name);
    expect(sizes(sheet, length, NULL, 0) == refusal, "1 to 9 and 16 come before 10 in sizes", name);
    expect(find_at(sheet, length, out, MOST_FIELDS, codes, MOST_CODES, tables, MOST_TABLES) == refusal, "1 to 9 and 16 come before 17 in find_at", name);
    expect(find_at(sheet, length, NULL, 0, NULL, 0, NULL, 0) == refusal, "1 to 9 and 16 come before 10 in find_at", name);
    expect(judge(sheet, length, tables, MOST_TABLES) == refusal, "judge refuses the sheet too", name);
    expect(untouched(pattern), "refusals 1 to 9 and 16 leave the buffers", name);
}

/* the numbers of refusals that lie in the sheet's own bytes */
static int in_sheet(uint32_t number)
{
    return (number >= 1 && number <= 9) || number == 16;
}

/* find and find_at with one buffer a byte short, and sizes with its own; find_at is given no good sizes, as 10 comes first */
static void short_buffers(const char *name, const uint8_t *sheet, size_t length, const struct extent *most, uint8_t pattern)
{
    fill(pattern);
    if (most->fields)
        expect(sizes(sheet, length, out, most->fields - 1) == 10u << 16, "short buffer is 10 in sizes", name);
    if (most->expressions) {
        expect(find(sheet, length, codes, most->expressions - 1, tables, most->tables) == 10u << 16, "short code buffer is 10", name);
        expect(find_at(sheet, length, NULL, 0, codes, most->expressions - 1, tables, most->tables) == 10u << 16, "short code buffer is 10 in find_at", name);
    }
    if (most->tables) {
        expect(find(sheet, length, codes, most->expressions, tables, most->tables - 1) == 10u << 16, "short table buffer is 10", name);
        expect(find_at(sheet, length, out, 1, codes, most->expressions, tables, most->tables - 1) == 10u << 16, "short table buffer is 10 in find_at", name);
    }
    expect(untouched(pattern), "refusal 10 leaves the buffers", name);
}

/* find_at with sizes that no candidate has, each wrong in one place of the ceilings */
static void wrong_sizes(const char *name, const uint8_t *sheet, size_t length, const struct extent *most, uint8_t pattern)
{
    uint8_t given[MOST_FIELDS + 1];
    fill(pattern);
    memcpy(given, most->ceilings, sizeof given);
    given[most->fields] = 1;
    expect(find_at(sheet, length, given, most->fields + 1, codes, most->expressions, tables, most->tables) == 17u << 16, "one size more is 17", name);
    if (most->fields)
        expect(find_at(sheet, length, given, most->fields - 1, codes, most->expressions, tables, most->tables) == 17u << 16, "one size less is 17", name);
    for (size_t i = 0; i < most->fields; i++) {
        given[i] = most->ceilings[i] + 1;
        expect(find_at(sheet, length, given, most->fields, codes, most->expressions, tables, most->tables) == 17u << 16, "a size above its ceiling is 17", name);
        given[i] = 0;
        expect(find_at(sheet, length, given, most->fields, codes, most->expressions, tables, most->tables) == 17u << 16, "a size of 0 is 17", name);
        given[i] = most->ceilings[i];
    }
    expect(untouched(pattern), "refusal 17 leaves the buffers", name);
}

/* sizes and then find_at at these sizes do what find did: it gave found, and left its buffers as they are */
static void in_turn(const char *name, const uint8_t *sheet, size_t length, const struct extent *most, uint32_t found, uint8_t pattern)
{
    static struct rooms by_find;
    by_find = room;
    fill(pattern);
    expect(sizes(sheet, length, out, most->fields) == found, "sizes has find's result", name);
    if (found >> 16) {
        uint32_t at_ceilings = find_at(sheet, length, most->ceilings, most->fields, codes, most->expressions, tables, most->tables) >> 16;
        expect(at_ceilings == 11 || at_ceilings == 17, "where find has no answer, none is at the ceilings", name);
        expect(untouched(pattern), "refusals 11 and 17 leave the buffers", name);
        return;
    }
    expect(memcmp(out, by_find.tables + GUARD, most->fields) == 0, "the sizes are those of the tables", name);
    expect(kept(room.sizes, sizeof room.sizes, most->fields, pattern), "bytes behind the sizes stay", name);
    memcpy(by_find.sizes, room.sizes, sizeof room.sizes);
    expect(find_at(sheet, length, out, most->fields, codes, most->expressions, tables, most->tables) == found, "find_at has find's result", name);
    expect(memcmp(&room, &by_find, sizeof room) == 0, "find_at leaves the buffers as find does", name);
}

/* an accepted sheet: the answer or 11, by find and by the two in turn; buffers one byte short, wrong sizes, and the judge on what was found */
static void accepted(const char *name, const uint8_t *sheet, size_t length, uint8_t pattern)
{
    struct extent most = extent_of(sheet, length, NULL);
    short_buffers(name, sheet, length, &most, pattern);
    wrong_sizes(name, sheet, length, &most, pattern);
    fill(pattern);
    uint32_t found = find(sheet, length, codes, most.expressions, tables, most.tables);
    if (found >> 16) {
        expect(found == 11u << 16, "else 11", name);
        expect(untouched(pattern), "refusal 11 leaves the buffers", name);
        in_turn(name, sheet, length, &most, found, pattern);
        return;
    }
    struct extent e = extent_of(sheet, length, tables);
    expect(kept(room.codes, sizeof room.codes, e.expressions, pattern), "bytes behind the codes stay", name);
    expect(kept(room.tables, sizeof room.tables, e.tables, pattern), "bytes behind the tables stay", name);
    in_turn(name, sheet, length, &most, found, pattern);
    expect(judge(sheet, length, tables, e.tables) == 0, "what was found fits", name);
    expect(judge(sheet, length, tables, e.tables + 1) == 12u << 16, "one byte more is 12", name);
    if (e.tables) {
        expect(judge(sheet, length, tables, e.tables - 1) == 12u << 16, "one byte short is 12", name);
        expect(judge(sheet, length, NULL, 0) == 12u << 16, "no tables are 12", name);
    }
}

int main(int count, char **words)
{
    static uint8_t sheet[MOST_SHEET];
    for (int round = 0; round < 2; round++) {
        uint8_t pattern = round ? 0x5a : 0xff;
        fill(pattern);
        expect(find(NULL, 0, codes, MOST_CODES, tables, MOST_TABLES) == 0, "zero bytes have sum 0", "find");
        expect(find(NULL, 0, NULL, 0, NULL, 0) == 0, "zero bytes ask for no buffer", "find");
        expect(find(sheet, 0, codes, 0, tables, 0) == 0, "zero bytes at a pointer have sum 0", "find");
        expect(find(sheet, MOST_SHEET, codes, MOST_CODES, tables, MOST_TABLES) == 1u << 16, "4,097 bytes are 1", "find");
        expect(find(sheet, 3, NULL, 0, NULL, 0) == 2u << 16, "a cut head is 2", "find");
        expect(sizes(NULL, 0, out, MOST_FIELDS) == 0, "zero bytes have sum 0", "sizes");
        expect(sizes(NULL, 0, NULL, 0) == 0, "zero bytes ask for no buffer", "sizes");
        expect(sizes(sheet, MOST_SHEET, out, MOST_FIELDS) == 1u << 16, "4,097 bytes are 1", "sizes");
        expect(sizes(sheet, 3, NULL, 0) == 2u << 16, "a cut head is 2", "sizes");
        expect(find_at(NULL, 0, NULL, 0, codes, MOST_CODES, tables, MOST_TABLES) == 0, "zero bytes have sum 0", "find_at");
        expect(find_at(NULL, 0, NULL, 0, NULL, 0, NULL, 0) == 0, "zero bytes ask for no buffer", "find_at");
        expect(find_at(NULL, 0, out, 1, NULL, 0, NULL, 0) == 17u << 16, "zero bytes have no size", "find_at");
        expect(find_at(sheet, MOST_SHEET, NULL, 0, codes, MOST_CODES, tables, MOST_TABLES) == 1u << 16, "4,097 bytes are 1", "find_at");
        expect(find_at(sheet, 3, out, 1, NULL, 0, NULL, 0) == 2u << 16, "a cut head is 2", "find_at");
        expect(judge(NULL, 0, NULL, 0) == 0, "no tables fit zero bytes", "judge");
        expect(judge(NULL, 0, tables, 1) == 12u << 16, "all others are 12", "judge");
        expect(judge(sheet, MOST_SHEET, NULL, 0) == 1u << 16, "4,097 bytes are 1", "judge");
        expect(untouched(pattern), "refusals and zero bytes leave the buffers", "the calls without a sheet");
        for (int i = 1; i < count; i++) {
            FILE *file = fopen(words[i], "rb");
            expect(file != NULL, "the sheet can be read", words[i]);
            if (!file)
                continue;
            size_t length = fread(sheet, 1, sizeof sheet, file);
            fclose(file);
            uint32_t refusal = find(sheet, length, codes, MOST_CODES, tables, MOST_TABLES);
            if (in_sheet(refusal >> 16))
                refused(words[i], sheet, length, refusal, pattern);
            else
                accepted(words[i], sheet, length, pattern);
            memset(sheet, 0, sizeof sheet);
        }
    }
    printf("guard: %d checks, %d faults\n", calls, faults);
    return faults != 0;
}
