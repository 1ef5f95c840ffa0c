/* Cugbejin for C: one function's walk, from an accepted start to its record or a refusal, in one call; and the same with the function's tag.
 * Link crates/cugbejin_c/out/libcugbejin_c.a, which `rt lib` writes there. docs/PROMISES.md says which definition each result equals. */
#ifndef CUGBEJIN_H
#define CUGBEJIN_H

#include <assert.h>
#include <stddef.h>
#include <stdint.h>

#ifdef __cplusplus
extern "C" {
#endif

/* What a call answers, in thirteen numbers. */
struct cugbejin_answer {
    uint64_t number;               /* 0: accepted; else the refusal, see below */
    uint64_t address;              /* of the instruction that is refused; 0 with 0, 1 to 4 and 14 */
    uint64_t undefined_register;   /* with 11 the lowest register that is undefined and used, else 0 */
    uint64_t start;                /* the record: the function's start and end, its first instruction, the end of its last, */
    uint64_t end;                  /* and how many registers its first one saves, 0 if that is no unconditional push of LR; */
    uint64_t first_instruction;    /* all 0 where the function is refused */
    uint64_t last_instruction_end;
    uint64_t saved_registers;
    uint64_t labels;               /* entries in each list; all 0 where the function is refused */
    uint64_t pools;
    uint64_t jump_tables;
    uint64_t inline_tables;
    uint64_t calls;
};

/* A function's tag: its instructions' bytes times 100, divided by the record's length, which is end - start. */
struct cugbejin_percent {
    uint64_t quotient;
    uint64_t remainder; /* below the length; both 0 where there is no tag */
};

/* Refusals; docs/REFUSALS.md has an example of each. After 1 to 4 every list is as it was; after 5 to 14 every place of every list is 0. 17 is of
 * the tag alone: the function is accepted all the same, and the lists hold its entries. */
enum cugbejin_refusal {
    CUGBEJIN_WINDOW = 1,             /* base outside 0x01FF8000 to 0x03000000, code end or module end above 0x03000000, or module start above its
                                        end */
    CUGBEJIN_START_OUTSIDE = 2,      /* start below base or past the code's end */
    CUGBEJIN_START_UNALIGNED = 3,    /* start no multiple of 4 */
    CUGBEJIN_STARTS_UNORDERED = 4,   /* starts not strictly ascending */
    CUGBEJIN_ILLEGAL = 5,            /* illegal opcode */
    CUGBEJIN_SHIFTED_BASE = 6,       /* dereferencing shifted registers */
    CUGBEJIN_OFFSET_BY_ITSELF = 7,   /* register offset by itself */
    CUGBEJIN_PC_INTO_PC = 8,         /* PC read into PC */
    CUGBEJIN_BRANCH_OUTSIDE = 9,     /* branch to outside 0x01FF8000 to 0x02FFFFFF */
    CUGBEJIN_POOL_OUTSIDE = 10,      /* pool word not wholly in the code */
    CUGBEJIN_UNDEFINED_REGISTER = 11, /* a register used before it has a value, where that is checked */
    CUGBEJIN_TABLE_OUTSIDE = 12,     /* a table's size or end above 0xFFFFFFFF, or an inline table's address below 0 */
    CUGBEJIN_LIST_FULL = 13,         /* a new entry where its list is full */
    CUGBEJIN_NO_EPILOGUE = 14,       /* code ran out before the function ended, or its end is above the module's */
    CUGBEJIN_EMPTY_RECORD = 17       /* no tag: the record's end is not above its start, as a known end may have it */
};

/* The lists that a walk fills: a label is an address, and the others have rows. A list's rows stand one after another, ascending by address,
 * with zeros after the last. */
struct cugbejin_pool {
    uint32_t address, value, mark; /* the word there; 1 for one that is called, else 0 */
};

struct cugbejin_table {
    uint32_t address, size; /* in bytes */
};

struct cugbejin_call {
    uint32_t address, word, destination, mode; /* the instruction; 0 ARM, 1 Thumb */
};

/* With how many rows each has room for. A list without room may be NULL. */
struct cugbejin_lists {
    uint32_t *labels;
    size_t label_rows;
    struct cugbejin_pool *pools;
    size_t pool_rows;
    struct cugbejin_table *jump_tables;
    size_t jump_table_rows;
    struct cugbejin_table *inline_tables;
    size_t inline_table_rows;
    struct cugbejin_call *calls;
    size_t call_rows;
};

/* The proved function, which `cugbejin_walk` calls. It takes a list as 32-bit numbers, one row after another, and how many numbers: three for a
 * pool, two for a table, four for a call. No pointer may be NULL, also where the length is 0. */
uint32_t cugbejin_run(
    uint32_t base, uint32_t module_start, uint32_t module_end, uint32_t start,
    uint32_t known, uint32_t known_end, uint32_t check,
    const uint8_t *code, size_t code_length,
    const uint32_t *starts, size_t starts_length,
    uint32_t *labels, size_t labels_length,
    uint32_t *pools, size_t pools_length,
    uint32_t *jump_tables, size_t jump_tables_length,
    uint32_t *inline_tables, size_t inline_tables_length,
    uint32_t *calls, size_t calls_length,
    struct cugbejin_answer *answer);

/* The same with the tag, which `cugbejin_walk_tag` calls. */
uint32_t cugbejin_tag(
    uint32_t base, uint32_t module_start, uint32_t module_end, uint32_t start,
    uint32_t known, uint32_t known_end, uint32_t check,
    const uint8_t *code, size_t code_length,
    const uint32_t *starts, size_t starts_length,
    uint32_t *labels, size_t labels_length,
    uint32_t *pools, size_t pools_length,
    uint32_t *jump_tables, size_t jump_tables_length,
    uint32_t *inline_tables, size_t inline_tables_length,
    uint32_t *calls, size_t calls_length,
    struct cugbejin_answer *answer, struct cugbejin_percent *percent);

static_assert(sizeof(struct cugbejin_pool) == 3 * sizeof(uint32_t), "a pool is three numbers");
static_assert(sizeof(struct cugbejin_table) == 2 * sizeof(uint32_t), "a table is two numbers");
static_assert(sizeof(struct cugbejin_call) == 4 * sizeof(uint32_t), "a call is four numbers");

/* Walks one ARM function. Returns 0 where it is accepted, else the refusal's number, and fills *answer.
 *
 *   base                      address of the code's first byte
 *   module_start, module_end  the module's addresses; its end is past its last byte
 *   start                     where the walk starts
 *   known, known_end          known 0: the end is found; else it is known_end
 *   check                     0: off; else a use of an undefined register is refused
 *   code                      the bytes; a word has its lowest byte first
 *   starts                    starts of other functions, strictly ascending; only read
 *   lists                     filled; what they hold before does not matter
 *
 * A length counts elements. An empty code, starts or list may be NULL. The lists and the answer must not overlap one another, nor code or starts.
 * Nothing is kept after the call. */
static inline uint32_t cugbejin_walk(
    uint32_t base, uint32_t module_start, uint32_t module_end, uint32_t start,
    uint32_t known, uint32_t known_end, uint32_t check,
    const uint8_t *code, size_t code_length,
    const uint32_t *starts, size_t starts_length,
    const struct cugbejin_lists *lists, struct cugbejin_answer *answer)
{
    uint32_t empty = 0; /* where a list without room may point */
    return cugbejin_run(
        base, module_start, module_end, start, known, known_end, check,
        code ? code : (const uint8_t *)&empty, code_length,
        starts ? starts : &empty, starts_length,
        lists->labels ? lists->labels : &empty, lists->label_rows,
        lists->pools ? (uint32_t *)lists->pools : &empty, 3 * lists->pool_rows,
        lists->jump_tables ? (uint32_t *)lists->jump_tables : &empty, 2 * lists->jump_table_rows,
        lists->inline_tables ? (uint32_t *)lists->inline_tables : &empty, 2 * lists->inline_table_rows,
        lists->calls ? (uint32_t *)lists->calls : &empty, 4 * lists->call_rows,
        answer);
}

/* Walks one ARM function as `cugbejin_walk` does, to the same answer and lists, and fills *percent with its tag. Returns 0 where there is one, else
 * the number of the walk's refusal, or 17 where the function is accepted and has no tag: *answer then has number 0, and the record and counts.
 * The percent must not overlap the lists, the answer, code or starts either. */
static inline uint32_t cugbejin_walk_tag(
    uint32_t base, uint32_t module_start, uint32_t module_end, uint32_t start,
    uint32_t known, uint32_t known_end, uint32_t check,
    const uint8_t *code, size_t code_length,
    const uint32_t *starts, size_t starts_length,
    const struct cugbejin_lists *lists, struct cugbejin_answer *answer, struct cugbejin_percent *percent)
{
    uint32_t empty = 0;
    return cugbejin_tag(
        base, module_start, module_end, start, known, known_end, check,
        code ? code : (const uint8_t *)&empty, code_length,
        starts ? starts : &empty, starts_length,
        lists->labels ? lists->labels : &empty, lists->label_rows,
        lists->pools ? (uint32_t *)lists->pools : &empty, 3 * lists->pool_rows,
        lists->jump_tables ? (uint32_t *)lists->jump_tables : &empty, 2 * lists->jump_table_rows,
        lists->inline_tables ? (uint32_t *)lists->inline_tables : &empty, 2 * lists->inline_table_rows,
        lists->calls ? (uint32_t *)lists->calls : &empty, 4 * lists->call_rows,
        answer, percent);
}

/* ---- A module's table, and its file. README.md has the file's form. */

/* A function: its four addresses, how many registers its first instruction saves, and how many entries of each kind are its own. */
struct cugbejin_function {
    uint32_t start, end, first_instruction, last_instruction_end;
    uint32_t saved_registers; /* not in the file */
    uint32_t labels, pools, jump_tables, inline_tables, calls;
};

static_assert(sizeof(struct cugbejin_function) == 10 * sizeof(uint32_t), "a function is ten numbers");

/* A table of `count` functions, in lists with room for so many rows. A function's entries stand in each list after those of the one before. What
 * stands behind them is no part of the table. */
struct cugbejin_module {
    struct cugbejin_function *functions;
    size_t function_rows;
    size_t count;
    struct cugbejin_lists entries;
};

/* What these two refuse, besides 0 for what is done. */
enum cugbejin_table_refusal {
    CUGBEJIN_TABLE_UNORDERED = 4, /* a count above its list, entries or functions that do not ascend strictly, by address and by first instruction */
    CUGBEJIN_TABLE_NO_ROOM = 18   /* no place for the function or for one of its entries; or an output that is too short, or a length above 32 bits */
};

/* The proved functions, which the two below call. */
uint32_t cugbejin_append(
    uint32_t start, uint32_t end, uint32_t first_instruction, uint32_t last_instruction_end, uint32_t saved_registers,
    size_t label_count, size_t pool_count, size_t jump_table_count, size_t inline_table_count, size_t call_count,
    uint32_t *labels, size_t labels_length,
    uint32_t *pools, size_t pools_length,
    uint32_t *jump_tables, size_t jump_tables_length,
    uint32_t *inline_tables, size_t inline_tables_length,
    uint32_t *calls, size_t calls_length,
    uint32_t *functions, size_t functions_length, size_t count,
    uint32_t *table_labels, size_t table_labels_length,
    uint32_t *table_pools, size_t table_pools_length,
    uint32_t *table_jump_tables, size_t table_jump_tables_length,
    uint32_t *table_inline_tables, size_t table_inline_tables_length,
    uint32_t *table_calls, size_t table_calls_length);

uint32_t cugbejin_write(
    const uint32_t *functions, size_t functions_length, size_t count,
    const uint32_t *labels, size_t labels_length,
    const uint32_t *pools, size_t pools_length,
    const uint32_t *jump_tables, size_t jump_tables_length,
    const uint32_t *inline_tables, size_t inline_tables_length,
    const uint32_t *calls, size_t calls_length,
    uint8_t *out, size_t out_length, uint64_t *length);

/* Puts the function of an accepted answer, with the lists that its walk left, behind the table. Returns 0, and the table has one function more; or the
 * refusal's number, and the table is as it was. Functions come by ascending first instruction. The two must not overlap. */
static inline uint32_t cugbejin_put(struct cugbejin_module *table, const struct cugbejin_answer *answer, const struct cugbejin_lists *lists)
{
    uint32_t empty = 0, empty_too = 0; /* where lists without room may point */
    const struct cugbejin_lists *to = &table->entries;
    uint32_t number = cugbejin_append(
        (uint32_t)answer->start, (uint32_t)answer->end, (uint32_t)answer->first_instruction, (uint32_t)answer->last_instruction_end,
        (uint32_t)answer->saved_registers,
        (size_t)answer->labels, (size_t)answer->pools, (size_t)answer->jump_tables, (size_t)answer->inline_tables, (size_t)answer->calls,
        lists->labels ? lists->labels : &empty, lists->label_rows,
        lists->pools ? (uint32_t *)lists->pools : &empty, 3 * lists->pool_rows,
        lists->jump_tables ? (uint32_t *)lists->jump_tables : &empty, 2 * lists->jump_table_rows,
        lists->inline_tables ? (uint32_t *)lists->inline_tables : &empty, 2 * lists->inline_table_rows,
        lists->calls ? (uint32_t *)lists->calls : &empty, 4 * lists->call_rows,
        table->functions ? (uint32_t *)table->functions : &empty_too, 10 * table->function_rows, table->count,
        to->labels ? to->labels : &empty_too, to->label_rows,
        to->pools ? (uint32_t *)to->pools : &empty_too, 3 * to->pool_rows,
        to->jump_tables ? (uint32_t *)to->jump_tables : &empty_too, 2 * to->jump_table_rows,
        to->inline_tables ? (uint32_t *)to->inline_tables : &empty_too, 2 * to->inline_table_rows,
        to->calls ? (uint32_t *)to->calls : &empty_too, 4 * to->call_rows);
    if (number == 0) table->count++;
    return number;
}

/* Writes the table's file to the start of `out`. Returns 0, and *length is how many bytes it has; or the refusal's number, and no byte is written. */
static inline uint32_t cugbejin_table_file(const struct cugbejin_module *table, uint8_t *out, size_t out_length, uint64_t *length)
{
    uint32_t empty = 0;
    const struct cugbejin_lists *from = &table->entries;
    return cugbejin_write(
        table->functions ? (const uint32_t *)table->functions : &empty, 10 * table->function_rows, table->count,
        from->labels ? from->labels : &empty, from->label_rows,
        from->pools ? (const uint32_t *)from->pools : &empty, 3 * from->pool_rows,
        from->jump_tables ? (const uint32_t *)from->jump_tables : &empty, 2 * from->jump_table_rows,
        from->inline_tables ? (const uint32_t *)from->inline_tables : &empty, 2 * from->inline_table_rows,
        from->calls ? (const uint32_t *)from->calls : &empty, 4 * from->call_rows,
        out ? out : (uint8_t *)&empty, out_length, length);
}

#ifdef __cplusplus
}
#endif

#endif
