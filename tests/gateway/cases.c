/* Asks the exported functions every find, sizes, findat and judge question of the case files named on the command line (docs/FORMAT.md, "Asking line by
 * line" and "The gateway"), with guard bytes around every buffer and two fill patterns, and says where the answer is another or a byte outside it changed.
 * Every find question is also asked of sizes and then of find_at at these sizes. */
#define _POSIX_C_SOURCE 200809L
#include "deodarloo.h"
#include <stdio.h>
#include <stdlib.h>
#include <string.h>

/* No accepted sheet and no tables are as long as MOST, so that what is longer makes no difference. */
enum { GUARD = 64, MOST = 1 << 15 };

/* A buffer with a guard before and behind it, how much of it is lent, and what must stand in it once an answer is written. */
struct buffer {
    uint8_t room[GUARD + MOST + GUARD], want[GUARD + MOST + GUARD];
    size_t lent;
};

static uint8_t sheet[MOST], offered[MOST];
static struct buffer quote, codes, tables;

static size_t least(size_t a, size_t b)
{
    return a < b ? a : b;
}

static unsigned digit(char c)
{
    return (unsigned)(c <= '9' ? c - '0' : (c | 32) - 'a' + 10);
}

/* Writes the bytes of a hexadecimal word (- is none) and gives how many they are. */
static size_t unhex(const char *word, uint8_t *bytes)
{
    size_t length = least(strspn(word, "0123456789abcdefABCDEF") / 2, MOST);
    for (size_t i = 0; i < length; i++)
        bytes[i] = (uint8_t)(16 * digit(word[2 * i]) + digit(word[2 * i + 1]));
    return length;
}

/* A line from word k on, counted from 0; empty where it has fewer. */
static const char *from_word(const char *line, int k)
{
    while (k-- > 0) {
        line += strcspn(line, " ");
        line += *line == ' ';
    }
    return line;
}

/* The bytes that an answer says were written, its word k; a refusal writes none. */
static const char *written(const char *answer, int k)
{
    return strncmp(answer, "refused ", 8) == 0 ? "-" : from_word(answer, k);
}

static void lend(struct buffer *b, const char *length, const char *bytes, uint8_t pattern)
{
    memset(b->room, pattern, sizeof b->room);
    memset(b->want, pattern, sizeof b->want);
    unhex(bytes, b->want + GUARD);
    b->lent = least(strtoull(length, NULL, 10), MOST);
}

static int as_wanted(const struct buffer *b)
{
    return memcmp(b->room, b->want, sizeof b->room) == 0;
}

/* The number that stands for an answer; no function gives UINT32_MAX. */
static uint32_t number_of(const char *answer)
{
    unsigned a, b;
    if (sscanf(answer, "refused %u %u", &a, &b) == 2)
        return a << 16 | b;
    if (sscanf(answer, "found %u", &a) == 1 || sscanf(answer, "sizes %u", &a) == 1)
        return a;
    if (sscanf(answer, "broken %u", &a) == 1)
        return 2 + a;
    if (strcmp(answer, "out of bounds") == 0)
        return 1;
    return strcmp(answer, "fits") == 0 ? 0 : UINT32_MAX;
}

/* CODELEN TABLELEN = found SUM CODES TABLES, or a refusal */
static void lend_both(const char *lengths, const char *answer, uint8_t pattern)
{
    lend(&codes, lengths, written(answer, 2), pattern);
    lend(&tables, from_word(lengths, 1), written(answer, 3), pattern);
}

/* find_at with the sizes given and the two buffers as they are lent */
static int find_at_agrees(size_t length, const uint8_t *given, size_t many, const char *answer)
{
    uint32_t result = find_at(sheet, length, given, many, codes.room + GUARD, codes.lent, tables.room + GUARD, tables.lent);
    return result == number_of(answer) && as_wanted(&codes) && as_wanted(&tables);
}

/* How many fields an accepted sheet has: their records, of six bytes each, come first. */
static size_t fields_of(size_t length)
{
    size_t fields = 0;
    while (6 * fields + 6 <= length && sheet[6 * fields + 2] == 1)
        fields++;
    return fields;
}

/* Sizes, with a buffer that suffices, and then find_at at these sizes: what find answers. Only where find's own buffers are too short and there is no answer
 * either, find is refused with 10 and sizes with 11. */
static int in_turn(size_t length, const char *lengths, const char *answer, uint8_t pattern)
{
    size_t fields = fields_of(length);
    lend(&quote, "8", "-", pattern);
    lend_both(lengths, answer, pattern);
    uint32_t result = sizes(sheet, length, quote.room + GUARD, quote.lent);
    if (result >> 16)
        return as_wanted(&quote) && (result == number_of(answer) || (result == 11u << 16 && number_of(answer) == 10u << 16));
    memcpy(quote.want + GUARD, quote.room + GUARD, fields);
    return find_at_agrees(length, quote.room + GUARD, fields, answer) && as_wanted(&quote);
}

/* SHEET CODELEN TABLELEN */
static int find_question(const char *question, const char *answer, uint8_t pattern)
{
    size_t length = unhex(question, sheet);
    const char *lengths = from_word(question, 1);
    lend_both(lengths, answer, pattern);
    uint32_t result = find(sheet, length, codes.room + GUARD, codes.lent, tables.room + GUARD, tables.lent);
    return result == number_of(answer) && as_wanted(&codes) && as_wanted(&tables) && in_turn(length, lengths, answer, pattern);
}

/* SHEET BUFLEN = sizes SUM BYTES, or a refusal */
static int sizes_question(const char *question, const char *answer, uint8_t pattern)
{
    lend(&quote, from_word(question, 1), written(answer, 2), pattern);
    return sizes(sheet, unhex(question, sheet), quote.room + GUARD, quote.lent) == number_of(answer) && as_wanted(&quote);
}

/* SHEET SIZES CODELEN TABLELEN */
static int findat_question(const char *question, const char *answer, uint8_t pattern)
{
    size_t many = unhex(from_word(question, 1), offered);
    lend_both(from_word(question, 2), answer, pattern);
    return find_at_agrees(unhex(question, sheet), offered, many, answer);
}

/* SHEET TABLES; what stands behind the tables plays no part */
static int judge_question(const char *question, const char *answer, uint8_t pattern)
{
    memset(offered, pattern, sizeof offered);
    return judge(sheet, unhex(question, sheet), offered, unhex(from_word(question, 1), offered)) == number_of(answer);
}

static const struct {
    const char *verb;
    int (*agrees)(const char *question, const char *answer, uint8_t pattern);
} questions[] = {{"find ", find_question}, {"sizes ", sizes_question}, {"findat ", findat_question}, {"judge ", judge_question}};

/* Splits a line at its last " = ": the answer, or NULL where there is none. */
static char *split(char *line)
{
    char *answer = NULL;
    line[strcspn(line, "\n")] = 0;
    for (char *at = line; (at = strstr(at, " = ")); at += 3)
        answer = at;
    if (answer) {
        *answer = 0;
        answer += 3;
    }
    return answer;
}

/* Whether a line is a question that the functions take; then whether its answer is theirs. */
static int asked(char *line, int *agrees)
{
    for (size_t i = 0; i < sizeof questions / sizeof *questions; i++) {
        size_t verb = strlen(questions[i].verb);
        if (strncmp(line, questions[i].verb, verb) != 0)
            continue;
        const char *answer = split(line);
        if (!answer || answer[0] == '?')
            return 0;
        *agrees = questions[i].agrees(line + verb, answer, 0xff) && questions[i].agrees(line + verb, answer, 0x5a);
        return 1;
    }
    return 0;
}

int main(int count, char **words)
{
    int many = 0, faults = 0, agrees;
    char *line = NULL;
    size_t room = 0;
    for (int i = 1; i < count; i++) {
        FILE *file = fopen(words[i], "r");
        if (!file) {
            printf("gateway cases: %s cannot be read\n", words[i]);
            return 1;
        }
        for (int number = 1; getline(&line, &room, file) > 0; number++) {
            if (!asked(line, &agrees))
                continue;
            many++;
            if (agrees)
                continue;
            faults++;
            printf("gateway cases: %s:%d: another answer, or a byte outside it changed\n", words[i], number);
        }
        fclose(file);
    }
    free(line);
    printf("gateway cases: %d questions, %d faults\n", many, faults);
    return faults || !many;
}
