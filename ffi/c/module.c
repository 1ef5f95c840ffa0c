/* A module's table by the calls of cugbejin.h: two functions put behind one another, and their file. The bytes are by hand, from the file's form. */
#include <stdio.h>
#include <string.h>

#include "cugbejin.h"

enum { BASE = 0x02000000, ROWS = 2 };

static int passed, failed;

static void check(const char *name, int holds)
{
    if (holds) passed++;
    else {
        failed++;
        printf("FAILED: %s\n", name);
    }
}

static const uint8_t code[] = {
    0x00, 0x00, 0x9F, 0xE5, 0x1E, 0xFF, 0x2F, 0xE1, 0x78, 0x56, 0x34, 0x12, /* LDR r0, [pc]; BX lr; a pool word */
    0x3C, 0x00, 0x00, 0xEA, 0x1E, 0xFF, 0x2F, 0xE1,                         /* B 02000104; BX lr */
};

static const uint8_t expected[] = {
    0, 0, 0, 99, 1, 0, 0, 0, 2,
    2, 0, 0, 0, 2, 0, 0, 12, 2, 0, 0, 0, 2, 0, 0, 8, 0, 0, 0, 0, 0, 0, 0, 1, 0, 0, 0, 0, 0, 0, 0, 0, 0, 0, 0, 0,
    2, 0, 0, 8, 0x12, 0x34, 0x56, 0x78, 0,
    2, 0, 0, 12, 2, 0, 0, 20, 2, 0, 0, 12, 2, 0, 0, 20, 0, 0, 0, 0, 0, 0, 0, 0, 0, 0, 0, 0, 0, 0, 0, 0, 0, 0, 0, 1,
    2, 0, 0, 12, 0xEA, 0, 0, 0x3C, 2, 0, 1, 4, 0,
};

static uint32_t walk(uint32_t start, const struct cugbejin_lists *lists, struct cugbejin_answer *answer)
{
    return cugbejin_walk(BASE, BASE, BASE + sizeof code, start, 0, 0, 0, code, sizeof code, NULL, 0, lists, answer);
}

int main(void)
{
    struct cugbejin_pool pools[ROWS], table_pools[ROWS];
    struct cugbejin_call calls[ROWS], table_calls[ROWS];
    struct cugbejin_function functions[ROWS];
    struct cugbejin_lists lists = {.pools = pools, .pool_rows = ROWS, .calls = calls, .call_rows = ROWS};
    struct cugbejin_module table = {.functions = functions, .function_rows = ROWS, .entries = {.pools = table_pools, .pool_rows = ROWS, .calls = table_calls, .call_rows = ROWS}};
    struct cugbejin_answer answer;
    uint8_t out[sizeof expected + 1];
    uint64_t length = 7;

    check("walk of the first", walk(BASE, &lists, &answer) == 0);
    check("the first", cugbejin_put(&table, &answer, &lists) == 0 && table.count == 1);
    check("the first again is 4", cugbejin_put(&table, &answer, &lists) == CUGBEJIN_TABLE_UNORDERED && table.count == 1);
    check("walk of the second", walk(BASE + 12, &lists, &answer) == 0);
    table.function_rows = 1;
    check("no place for the second is 18", cugbejin_put(&table, &answer, &lists) == CUGBEJIN_TABLE_NO_ROOM && table.count == 1);
    table.function_rows = ROWS;
    check("the second", cugbejin_put(&table, &answer, &lists) == 0 && table.count == 2);
    memset(out, 0xEE, sizeof out);
    check("one byte short is 18", cugbejin_table_file(&table, out, sizeof expected - 1, &length) == CUGBEJIN_TABLE_NO_ROOM && length == 0 && out[0] == 0xEE);
    check("the file", cugbejin_table_file(&table, out, sizeof out, &length) == 0 && length == sizeof expected && !memcmp(out, expected, sizeof expected) &&
        out[sizeof expected] == 0xEE);
    table.count = 3;
    check("a count above its list is 4", cugbejin_table_file(&table, out, sizeof out, &length) == CUGBEJIN_TABLE_UNORDERED && length == 0);
    printf("%d passed, %d failed\n", passed, failed);
    return failed != 0;
}
