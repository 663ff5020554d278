// The header from C++: finds the tables of worked sheet 5 (x differs from y, two codes), at once and at the sizes that were quoted first, and judges them.
#include "deodarloo.h"
#include <cstdio>

static bool as_worked(const uint8_t *codes, const uint8_t *tables)
{
    return codes[0] == 0 && codes[1] == 1 && tables[0] == 2 && tables[1] == 0 && tables[2] == 1;
}

int main()
{
    const uint8_t sheet[] = {2, 0, 1, 0, 1, 2, 1, 0, 2, 0, 0, 1, 0, 2, 0, 0, 1, 0, 3, 0, 0, 1, 0, 3, 0, 1, 2, 0, 5, 0, 0, 1, 1, 0, 6, 0, 16};
    uint8_t codes[2] = {9, 9}, tables[3] = {9, 9, 9};
    bool found = find(sheet, sizeof sheet, codes, sizeof codes, tables, sizeof tables) == 2 && as_worked(codes, tables);
    uint8_t quote[1] = {9}, codes_at[2] = {9, 9}, tables_at[3] = {9, 9, 9};
    bool quoted = sizes(sheet, sizeof sheet, quote, sizeof quote) == 2 && quote[0] == 2;
    bool found_at = find_at(sheet, sizeof sheet, quote, sizeof quote, codes_at, sizeof codes_at, tables_at, sizeof tables_at) == 2 && as_worked(codes_at, tables_at);
    bool fits = judge(sheet, sizeof sheet, tables, sizeof tables) == 0;
    bool all = found && quoted && found_at && fits;
    std::printf("header: find, sizes, find_at and judge from C++ %s\n", all ? "answer" : "FAILED");
    return !all;
}
