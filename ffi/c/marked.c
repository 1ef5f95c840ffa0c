/* Walks document 01's marked runs C1 to C12, its examples of the refusals 1 to 4 and 13, and a function that saves registers. What is expected is typed
 * from 01's tables; what is saved is counted in the word. Each run is walked once more with its tag, which is worked out by hand: 100 for each byte of an
 * instruction, divided by the record's length. */
#include <stdbool.h>
#include <stdio.h>
#include <string.h>

#include "cugbejin.h"

enum { PLACES = 4, BASE = 0x02000000, LOW = 0x01FF8000, ANYTHING = 7 };

struct lists {
    uint32_t labels[PLACES];
    struct cugbejin_pool pools[PLACES];
    struct cugbejin_table jump_tables[PLACES], inline_tables[PLACES];
    struct cugbejin_call calls[PLACES];
};

struct run {
    const char *name;
    size_t count;
    uint32_t words[7];
    uint32_t base, module_end, start, known, known_end, check;
    size_t starts_count;
    uint32_t starts[2];
    size_t no_labels;
    struct cugbejin_answer answer;
    struct cugbejin_percent percent;
    uint32_t no_tag; /* what an accepted function without a tag returns */
    bool untouched; /* every list is as it was; else `lists` */
    struct lists lists;
};

#define FUNCTION(e, last) .start = BASE, .end = BASE + (e), .first_instruction = BASE, .last_instruction_end = BASE + (last)

static const struct run runs[] = {
    {"C1", 3, {0xE59F0000, 0xE12FFF1E, 0x12345678}, BASE, BASE + 0x0C, BASE,
     .answer = {FUNCTION(0x0C, 0x08), .pools = 1}, .percent = {66, 8},
     .lists = {.pools = {{BASE + 0x08, 0x12345678, 0}}}},
    {"C2", 3, {0xE59F0000, 0xE12FFF1E, 0x12345678}, BASE, BASE + 0x08, BASE, .answer = {.number = 14}},
    {"C3", 1, {0xE12FFF1E}, BASE, BASE + 0x04, BASE, .answer = {FUNCTION(0x04, 0x04)}, .percent = {100, 0}},
    {"C4", 0, {0}, BASE, BASE, BASE, .answer = {.number = 14}},
    {"C5", 1, {0xEAFFFFFE}, BASE, BASE + 0x04, BASE, .answer = {FUNCTION(0x04, 0x04)}, .percent = {100, 0}},
    {"C6", 1, {0x0AFFFFFD}, LOW, LOW + 0x04, LOW, .answer = {.number = 9, .address = LOW}},
    {"C7", 2, {0xEA00003E, 0xE12FFF1E}, BASE, BASE + 0x08, BASE,
     .answer = {FUNCTION(0x08, 0x08), .calls = 1}, .percent = {100, 0},
     .lists = {.calls = {{BASE, 0xEA00003E, BASE + 0x100, 0}}}},
    {"C8", 7, {0xE3500002, 0x908FF100, 0xEA000002, 0xEA000001, 0xEA000000, 0xEAFFFFFF, 0xE12FFF1E}, BASE, BASE + 0x1C, BASE,
     .answer = {FUNCTION(0x1C, 0x1C), .labels = 1, .jump_tables = 1}, .percent = {100, 0},
     .lists = {.labels = {BASE + 0x18}, .jump_tables = {{BASE + 0x0C, 12}}}},
    {"C9", 3, {0xE59FC000, 0xE12FFF1C, 0x00000000}, BASE, BASE + 0x0C, BASE,
     .answer = {FUNCTION(0x0C, 0x08), .pools = 1}, .percent = {66, 8},
     .lists = {.pools = {{BASE + 0x08, 0, 1}}}},
    {"C10", 4, {0xE3500000, 0xE3500000, 0x908FF100, 0xE12FFF1E}, BASE, BASE + 0x10, BASE,
     .answer = {FUNCTION(0x10, 0x10)}, .percent = {100, 0}},
    {"C11", 1, {0xE12FFF1E}, BASE, BASE + 0x08, BASE, .known = 1, .known_end = BASE + 0x08,
     .answer = {FUNCTION(0x08, 0x04)}, .percent = {50, 0}},
    {"a known end past the start", 1, {0xE12FFF1E}, BASE, BASE + 0x08, BASE, .known = 1, .known_end = BASE + 0x01,
     .answer = {FUNCTION(0x01, 0x04)}, .percent = {400, 0}},
    {"a known end at the start", 1, {0xE12FFF1E}, BASE, BASE + 0x08, BASE, .known = 1, .known_end = BASE,
     .answer = {FUNCTION(0x00, 0x04)}, .no_tag = 17},
    {"a known end below the start", 1, {0xE12FFF1E}, BASE, BASE + 0x08, BASE, .known = 1, .known_end = LOW,
     .answer = {.start = BASE, .end = LOW, .first_instruction = BASE, .last_instruction_end = BASE + 0x04}, .no_tag = 17},
    {"C12, check off", 2, {0xE1A00004, 0xE12FFF1E}, BASE, BASE + 0x08, BASE, .answer = {FUNCTION(0x08, 0x08)}, .percent = {100, 0}},
    {"C12, check on", 2, {0xE1A00004, 0xE12FFF1E}, BASE, BASE + 0x08, BASE, .check = 1,
     .answer = {.number = 11, .address = BASE, .undefined_register = 4}},
    {"refusal 1", 1, {0xE12FFF1E}, LOW - 4, LOW, LOW - 4, .answer = {.number = 1}, .untouched = true},
    {"refusal 2", 1, {0xE12FFF1E}, BASE, BASE + 0x04, BASE + 0x08, .answer = {.number = 2}, .untouched = true},
    {"refusal 3", 1, {0xE12FFF1E}, BASE, BASE + 0x04, BASE + 0x02, .answer = {.number = 3}, .untouched = true},
    {"refusal 4", 1, {0xE12FFF1E}, BASE, BASE + 0x04, BASE, .starts_count = 2, .starts = {5, 5}, .answer = {.number = 4}, .untouched = true},
    /* C8 whose first branch, at 08, finds no place for its label */
    {"refusal 13", 7, {0xE3500002, 0x908FF100, 0xEA000002, 0xEA000001, 0xEA000000, 0xEAFFFFFF, 0xE12FFF1E}, BASE, BASE + 0x1C, BASE,
     .no_labels = 1, .answer = {.number = 13, .address = BASE + 0x08}},
    /* push {r4, r5, r6, lr}; pop {r4, r5, r6, pc} */
    {"saved registers", 2, {0xE92D4070, 0xE8BD8070}, BASE, BASE + 0x08, BASE, .answer = {FUNCTION(0x08, 0x08), .saved_registers = 4}},
};

static void fill(struct lists *lists, uint32_t value)
{
    uint32_t places[sizeof *lists / sizeof value];
    for (size_t i = 0; i < sizeof places / sizeof *places; i++)
        places[i] = value;
    memcpy(lists, places, sizeof *lists);
}

/* with its tag where there is a place for it */
static uint32_t walk(const struct run *r, struct lists *l, struct cugbejin_answer *answer, struct cugbejin_percent *percent)
{
    uint8_t code[sizeof r->words];
    for (size_t i = 0; i < 4 * r->count; i++)
        code[i] = (uint8_t)(r->words[i / 4] >> 8 * (i % 4));
    struct cugbejin_lists lists = {
        l->labels, r->no_labels ? 0 : PLACES, l->pools, PLACES, l->jump_tables, PLACES, l->inline_tables, PLACES, l->calls, PLACES};
    if (percent)
        return cugbejin_walk_tag(
            r->base, r->base, r->module_end, r->start, r->known, r->known_end, r->check, code, 4 * r->count, r->starts, r->starts_count, &lists,
            answer, percent);
    return cugbejin_walk(
        r->base, r->base, r->module_end, r->start, r->known, r->known_end, r->check, code, 4 * r->count, r->starts, r->starts_count, &lists, answer);
}

/* the places past an empty list are not its own */
static struct lists expected(const struct run *r)
{
    struct lists lists = r->lists;
    if (r->untouched)
        fill(&lists, ANYTHING);
    for (size_t i = 0; r->no_labels && i < PLACES; i++)
        lists.labels[i] = ANYTHING;
    return lists;
}

static bool tells(const struct run *r, struct cugbejin_percent *percent, uint32_t number)
{
    struct lists lists, after = expected(r);
    struct cugbejin_answer answer;
    fill(&lists, ANYTHING);
    memset(&answer, 0xFF, sizeof answer);
    return walk(r, &lists, &answer, percent) == number && !memcmp(&answer, &r->answer, sizeof answer) && !memcmp(&lists, &after, sizeof lists);
}

static bool passes(const struct run *r)
{
    uint32_t number = (uint32_t)r->answer.number;
    struct cugbejin_percent percent;
    memset(&percent, 0xFF, sizeof percent);
    return tells(r, NULL, number) && tells(r, &percent, number ? number : r->no_tag) && !memcmp(&percent, &r->percent, sizeof percent);
}

/* C3 and C4, with lists that are not there */
static bool passes_without_lists(void)
{
    static const uint8_t code[] = {0x1E, 0xFF, 0x2F, 0xE1};
    struct cugbejin_lists none = {0};
    struct cugbejin_answer answer, c3 = {FUNCTION(0x04, 0x04)}, c4 = {.number = 14};
    struct cugbejin_percent percent, all = {100, 0}, no = {0, 0};
    uint32_t number = cugbejin_walk(BASE, BASE, BASE + 0x04, BASE, 0, 0, 0, code, sizeof code, NULL, 0, &none, &answer);
    if (number != 0 || memcmp(&answer, &c3, sizeof answer))
        return false;
    number = cugbejin_walk_tag(BASE, BASE, BASE + 0x04, BASE, 0, 0, 0, code, sizeof code, NULL, 0, &none, &answer, &percent);
    if (number != 0 || memcmp(&answer, &c3, sizeof answer) || memcmp(&percent, &all, sizeof percent))
        return false;
    number = cugbejin_walk(BASE, BASE, BASE, BASE, 0, 0, 0, NULL, 0, NULL, 0, &none, &answer);
    if (number != 14 || memcmp(&answer, &c4, sizeof answer))
        return false;
    number = cugbejin_walk_tag(BASE, BASE, BASE, BASE, 0, 0, 0, NULL, 0, NULL, 0, &none, &answer, &percent);
    return number == 14 && !memcmp(&answer, &c4, sizeof answer) && !memcmp(&percent, &no, sizeof percent);
}

int main(void)
{
    size_t count = sizeof runs / sizeof *runs, failed = 0;
    for (size_t i = 0; i < count; i++)
        if (!passes(&runs[i])) {
            printf("%s failed\n", runs[i].name);
            failed++;
        }
    if (!passes_without_lists()) {
        printf("no lists failed\n");
        failed++;
    }
    printf("C: %zu runs, %zu failed\n", count + 2, failed);
    return failed != 0;
}
