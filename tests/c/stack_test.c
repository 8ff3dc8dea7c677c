/* SPDX-License-Identifier: BSD-2-Clause OR GPL-2.0-or-later */
/*
 * Measures the stack that sunderwath_read_tables, sunderwath_read_tables_slots,
 * sunderwath_read_flat, sunderwath_read_blob, sunderwath_slot and the calls on
 * lists and plans need. Each board, blob or list is read on a stack of its own,
 * painted before; afterwards the paint that is gone is counted, less what an
 * empty function takes there.
 * Boards are read as ARM boards and then as RISC-V boards. What the C library's
 * memset and memcpy take is counted too.
 * Prints the bytes of each; exit status 1 where one needs more than the header
 * states of its call for this processor, an ordinary board more than
 * ORDINARY_BYTES or, as a blob, more than ORDINARY_BLOB_BYTES, or is not
 * answered as expected; and where the header states more than SLACK bytes
 * beyond what a call needed.
 */
#define _XOPEN_SOURCE 700

#include "blob.h"
#include "plan.h"
#include "sunderwath.h"

#include <stdio.h>
#include <string.h>
#include <ucontext.h>

#define PAINT UINT64_C(0xA5C3A5C3A5C3A5C3)
#define STACK_WORDS (1u << 17) /* of 64 bits: one megabyte */
#define LAST (SUNDERWATH_MAX_NODES - 1)

/* The most that boards without long chains of records have needed. */
#if defined(__aarch64__)
#define ORDINARY_BYTES 16848
#elif defined(__riscv)
#define ORDINARY_BYTES 16840
#else
#define ORDINARY_BYTES 16808
#endif

/* Beside what reading its tables takes, the blob call needs the same stack for
 * each board. */
#define ORDINARY_BLOB_BYTES \
    (SUNDERWATH_BLOB_STACK_BYTES - (SUNDERWATH_STACK_BYTES - ORDINARY_BYTES))

/* About 100, as the header says of sunderwath_list_hash and
 * sunderwath_list_slot. */
#define LIST_BYTES 110

/* What the header may state beyond what a call needs: of read_tables and
 * read_tables_slots one needs a little less, and the header states the same, and
 * what the caller lays down differs by 8 or 16 with the optimizer. */
#define SLACK 72

/* A cpu and its leaf have four properties, the cpus node two. */
#define MOST_BLOB_CPUS ((SUNDERWATH_BLOB_MAX_PROPERTIES - 2) / 4)

/* Of either table, in the largest blob. */
#define MOST_RECORDS 5461

/* Nodes of 12 bytes beside the root, the name `cpus` and the end token; and
 * properties of 12 bytes in half of a blob. */
#define NESTED ((SUNDERWATH_MAX_BLOB - STRUCTURE - 20) / 12)
#define OVERLAPPING (SUNDERWATH_MAX_BLOB / 2 / 12)

static uint32_t nodes[SUNDERWATH_MAX_NODES * SUNDERWATH_NODE_WORDS];
static uint32_t props[SUNDERWATH_MAX_PROPERTIES * SUNDERWATH_PROPERTY_WORDS];
static uint8_t pool[SUNDERWATH_MAX_POOL];
static uint32_t rows[SUNDERWATH_MAX_CPUS * SUNDERWATH_ROW_WORDS];
static uint32_t table[SUNDERWATH_MAX_TABLE];
static uint32_t answer[SUNDERWATH_ANSWER_WORDS];
static size_t n, p, bytes;

static struct blob blob;
static uint32_t flat_nodes[MOST_RECORDS * SUNDERWATH_NODE_WORDS];
static uint32_t flat_props[MOST_RECORDS * SUNDERWATH_PROPERTY_WORDS];

static uint8_t row_bytes[SUNDERWATH_MAX_CPUS * SUNDERWATH_ROW_BYTES];
static uint8_t list[(SUNDERWATH_MAX_CPUS + 1) * SUNDERWATH_MPIDR_BYTES];
static size_t list_n;
static uint64_t asked;
static uint8_t told[SUNDERWATH_BYTES_ANSWER];

static uint64_t mpidrs[SUNDERWATH_MAX_CPUS + 1];
static uint32_t positions[SUNDERWATH_MAX_PLAN];
static size_t mpidrs_n, positions_n;
static uint32_t plan_answer[SUNDERWATH_PLAN_MAKE_ANSWER_WORDS];

static uint64_t stack[STACK_WORDS];
static ucontext_t outside, inside;
static uint32_t width = SUNDERWATH_ARM64;
static void (*reader)(void);
static size_t limit, largest;
static int failures;

/* ---- building a board ---- */

static uint32_t add_bytes(const void *from, size_t length)
{
    uint32_t offset = (uint32_t)bytes;

    memcpy(pool + offset, from, length);
    bytes += length;
    return offset;
}

/* Adds a record, and returns its number. */
static uint32_t add_node(uint32_t parent, const char *name)
{
    nodes[n] = parent;
    nodes[n + 1] = add_bytes(name, strlen(name));
    nodes[n + 2] = (uint32_t)strlen(name);
    n += SUNDERWATH_NODE_WORDS;
    return (uint32_t)(n / SUNDERWATH_NODE_WORDS - 1);
}

static uint32_t add_numbered(uint32_t parent, const char *kind, uint32_t number)
{
    char name[32];

    snprintf(name, sizeof name, "%s%u", kind, (unsigned)number);
    return add_node(parent, name);
}

/* Adds records, each the child of the one before, up to record `last`. */
static void add_chain(uint32_t parent, const char *name, uint32_t last)
{
    while (parent < last)
        parent = add_node(parent, name);
}

static void add_prop(uint32_t node, const char *name, const void *value,
                     size_t length)
{
    props[p] = node;
    props[p + 1] = add_bytes(name, strlen(name));
    props[p + 2] = (uint32_t)strlen(name);
    props[p + 3] = add_bytes(value, length);
    props[p + 4] = (uint32_t)length;
    p += SUNDERWATH_PROPERTY_WORDS;
}

static void add_cell(uint32_t node, const char *name, uint32_t value)
{
    uint8_t cell[4] = {(uint8_t)(value >> 24), (uint8_t)(value >> 16),
                       (uint8_t)(value >> 8), (uint8_t)value};

    add_prop(node, name, cell, sizeof cell);
}

/* A cpu node; its phandle is its MPIDR plus 1. Hart ids fall from the highest
 * one. */
static uint32_t add_cpu(uint32_t mpidr)
{
    uint32_t cpu = add_numbered(0, "cpu@", mpidr);

    add_prop(cpu, "device_type", "cpu", 4);
    add_cell(cpu, "reg", width == SUNDERWATH_RISCV ? ~mpidr : mpidr);
    add_cell(cpu, "phandle", mpidr + 1);
    return cpu;
}

/* A new board with only its cpus node, record 0. */
static void start(void)
{
    n = p = bytes = 0;
    add_node(SUNDERWATH_NONE, "cpus");
    add_cell(0, "#address-cells", 1);
    add_cell(0, "#size-cells", 0);
}

/* Clusters of four cores. */
static void regular_board(uint32_t cpus)
{
    uint32_t map, cluster = 0, at;

    start();
    map = add_node(0, "cpu-map");
    for (at = 0; at < cpus; at++) {
        if (at % 4 == 0)
            cluster = add_numbered(map, "cluster", at / 4);
        add_cell(add_numbered(cluster, "core", at % 4), "cpu", at + 1);
    }
    for (at = 0; at < cpus; at++)
        add_cpu(at);
}

/* One cpu, in a map as deep as the rules allow: a socket, four clusters, a
 * core and a thread. */
static void deepest_map(void)
{
    uint32_t at, depth;

    start();
    at = add_node(add_node(0, "cpu-map"), "socket0");
    for (depth = 0; depth < 4; depth++)
        at = add_node(at, "cluster0");
    add_cell(add_node(add_node(at, "core0"), "thread0"), "cpu", 1);
    add_cpu(0);
}

/* ---- building a blob ---- */

/* A name of the pool, with a zero byte behind it. */
static const char *name_at(uint32_t offset, uint32_t length)
{
    static char name[32];

    memcpy(name, pool + offset, length);
    name[length] = '\0';
    return name;
}

static void put_props_of(uint32_t node)
{
    const uint32_t *prop;

    for (prop = props; prop < props + p; prop += SUNDERWATH_PROPERTY_WORDS) {
        if (prop[0] == node)
            put_prop(&blob, name_at(prop[1], prop[2]), pool + prop[3], prop[4]);
    }
}

/* Closes a record's node and those around it, up to that of another record. */
static void close_up_to(uint32_t record, uint32_t last)
{
    for (; record != last; record = nodes[SUNDERWATH_NODE_WORDS * record])
        put_word(&blob, END_NODE);
}

/* The end of the root and of the blob. */
static void close_root(void)
{
    put_word(&blob, END_NODE);
    put_word(&blob, END);
    finish_blob(&blob);
}

/* The board as a blob. */
static void blob_of_board(void)
{
    uint32_t open = SUNDERWATH_NONE, at;

    start_blob(&blob);
    for (at = 0; at < n / SUNDERWATH_NODE_WORDS; at++) {
        const uint32_t *node = nodes + SUNDERWATH_NODE_WORDS * at;

        close_up_to(open, node[0]);
        put_begin(&blob, name_at(node[1], node[2]));
        put_props_of(at);
        open = at;
    }
    close_up_to(open, SUNDERWATH_NONE);
    close_root();
}

/* `cpus` and NESTED - 1 nodes without a name, each the child of the one before;
 * they fill the blob. */
static void nested_blob(void)
{
    uint32_t at;

    start_blob(&blob);
    put_begin(&blob, "cpus");
    for (at = 1; at < NESTED; at++)
        put_begin(&blob, "");
    for (at = 0; at < NESTED; at++)
        put_word(&blob, END_NODE);
    close_root();
}

/* Properties of `cpus` in one half of the blob. The other half is one name;
 * theirs begin at each of its first bytes. */
static void overlapping_blob(void)
{
    uint32_t at;

    start_blob(&blob);
    put_begin(&blob, "cpus");
    for (at = 0; at < OVERLAPPING; at++) {
        put_word(&blob, PROP);
        put_word(&blob, 0);
        put_word(&blob, at);
    }
    put_word(&blob, END_NODE);
    blob.strings_n = SUNDERWATH_MAX_BLOB - 8 - blob.n;
    memset(blob.strings, 'x', blob.strings_n - 1);
    close_root();
}

/* ---- measuring ---- */

static void read_board(void)
{
    sunderwath_read_tables(width, nodes, n, props, p, pool, bytes, rows,
                           sizeof rows / sizeof *rows, answer,
                           SUNDERWATH_ANSWER_WORDS);
}

static void read_board_slots(void)
{
    sunderwath_read_tables_slots(width, nodes, n, props, p, pool, bytes, rows,
                                 sizeof rows / sizeof *rows, table,
                                 sizeof table / sizeof *table, answer,
                                 SUNDERWATH_ANSWER_WORDS);
}

static void read_flat(void)
{
    sunderwath_read_flat(blob.bytes, blob.n, flat_nodes,
                         sizeof flat_nodes / sizeof *flat_nodes, flat_props,
                         sizeof flat_props / sizeof *flat_props, answer,
                         SUNDERWATH_FLAT_ANSWER_WORDS);
}

static void read_blob(void)
{
    sunderwath_read_blob(width, blob.bytes, blob.n, row_bytes, sizeof row_bytes,
                         told, sizeof told);
}

static void ask_slot(void)
{
    sunderwath_slot(asked, list, list_n, told, sizeof told);
}

static void hash_list(void)
{
    sunderwath_list_hash(mpidrs, mpidrs_n, answer, SUNDERWATH_ANSWER_WORDS);
}

static void ask_list_slot(void)
{
    sunderwath_list_slot(asked, mpidrs, mpidrs_n, answer,
                         SUNDERWATH_ANSWER_WORDS);
}

static void check_plan(void)
{
    sunderwath_plan_check(mpidrs, mpidrs_n, positions, positions_n,
                          plan_answer, SUNDERWATH_PLAN_CHECK_ANSWER_WORDS);
}

static void ask_plan_slot(void)
{
    sunderwath_plan_slot(asked, mpidrs, mpidrs_n, positions, positions_n,
                         plan_answer, SUNDERWATH_PLAN_SLOT_ANSWER_WORDS);
}

static void make_plan(void)
{
    sunderwath_plan_make(mpidrs, mpidrs_n, plan_answer,
                         SUNDERWATH_PLAN_MAKE_ANSWER_WORDS);
}

static void do_nothing(void)
{
}

/* The bytes of the painted stack that a function writes to. It grows down, so
 * what is still painted at its start was not reached. */
static size_t bytes_touched(void (*function)(void))
{
    size_t at;

    for (at = 0; at < STACK_WORDS; at++)
        stack[at] = PAINT;
    getcontext(&inside);
    inside.uc_stack.ss_sp = stack;
    inside.uc_stack.ss_size = sizeof stack;
    inside.uc_link = &outside;
    makecontext(&inside, function, 0);
    swapcontext(&outside, &inside);
    at = 0;
    while (at < STACK_WORDS && stack[at] == PAINT)
        at++;
    return sizeof stack - at * sizeof *stack;
}

static uint32_t told_word(size_t at)
{
    return (uint32_t)told[at] | (uint32_t)told[at + 1] << 8 |
           (uint32_t)told[at + 2] << 16 | (uint32_t)told[at + 3] << 24;
}

/* An answer of bytes, as words of the other answers. */
static void take_told_words(void)
{
    answer[SUNDERWATH_ANSWER_NUMBER] = told_word(SUNDERWATH_BYTES_NUMBER);
    answer[SUNDERWATH_ANSWER_PLACE] = told_word(SUNDERWATH_BYTES_PLACE);
    answer[SUNDERWATH_ANSWER_SECOND] = told_word(SUNDERWATH_BYTES_SECOND);
    answer[SUNDERWATH_ANSWER_COUNT] = told_word(SUNDERWATH_BYTES_COUNT);
}

static int is_of_plans(void)
{
    return reader == check_plan || reader == ask_plan_slot ||
           reader == make_plan;
}

/* The answer of a call on plans has no second place. */
static void take_plan_words(void)
{
    answer[SUNDERWATH_ANSWER_NUMBER] = plan_answer[SUNDERWATH_ANSWER_NUMBER];
    answer[SUNDERWATH_ANSWER_PLACE] = plan_answer[SUNDERWATH_ANSWER_PLACE];
}

/* Reads the board or blob once before: what the dynamic linker does at the
 * first call of a function is not counted. */
static void measure(const char *name, uint32_t number, uint32_t place)
{
    /* none of a board here; the others do not write the word */
    uint32_t second = reader == read_flat || is_of_plans() ? 0xA5A5A5A5
                                                            : SUNDERWATH_NONE;
    size_t need;
    const char *verdict = "ok";

    reader();
    memset(answer, 0xA5, sizeof answer);
    memset(told, 0xA5, sizeof told);
    memset(plan_answer, 0xA5, sizeof plan_answer);
    need = bytes_touched(reader) - bytes_touched(do_nothing);
    if (reader == read_blob || reader == ask_slot)
        take_told_words();
    if (is_of_plans())
        take_plan_words();
    if (need > largest)
        largest = need;
    if (need > limit)
        verdict = "TOO MUCH";
    if (answer[SUNDERWATH_ANSWER_NUMBER] != number ||
        answer[SUNDERWATH_ANSWER_PLACE] != place ||
        answer[SUNDERWATH_ANSWER_SECOND] != second)
        verdict = "DIFFERENT";
    failures += strcmp(verdict, "ok") != 0;
    printf("%-46s number %2u at %5u %6zu bytes %s\n", name,
           (unsigned)answer[SUNDERWATH_ANSWER_NUMBER],
           (unsigned)answer[SUNDERWATH_ANSWER_PLACE], need, verdict);
}

/* The board, as the call that is measured takes it. */
static void measure_board(const char *name, uint32_t number, uint32_t place)
{
    if (reader == read_blob)
        blob_of_board();
    measure(name, number, place);
}

/* ---- the boards ---- */

static void accepted_boards(void)
{
    regular_board(16);
    measure("16 cpus", 0, 0);
    regular_board(256);
    measure("256 cpus", 0, 0);
    deepest_map();
    measure("the deepest map", 0, 0);
}

/* The fifth nested cluster breaks rule 22. Rule 6 is tested before, at all
 * records: where the last one's parent is not the record before it, the
 * ancestor test goes up the whole chain. */
static void nested_in_the_map(void)
{
    start();
    add_cpu(0);
    add_chain(add_node(0, "cpu-map"), "cluster0", LAST);
    measure_board("nested in the map", 22, 7);

    start();
    add_cpu(0);
    add_chain(add_node(0, "cpu-map"), "cluster0", LAST - 1);
    add_node(2, "cluster1");
    measure_board("nested in the map, the last one below the map", 22, 7);

    start();
    add_chain(add_node(0, "cpu-map"), "cluster0", LAST - 1);
    add_cpu(0);
    measure_board("nested in the map, the last one below cpus", 22, 6);
}

/* A map of one core as records 1 to 3, and a chain from record 4, a cpu, to
 * record `last`. */
static void chain_below_a_cpu(uint32_t last)
{
    start();
    add_cell(add_node(add_node(add_node(0, "cpu-map"), "cluster0"), "core0"),
             "cpu", 1);
    add_chain(add_cpu(0), "cache", last);
}

/* No rule forbids records below a cpu. Rule 18 asks of each whether it is
 * below the map, and so goes up the chain too. */
static void nested_below_a_cpu(void)
{
    chain_below_a_cpu(LAST);
    measure_board("nested below a cpu", 0, 0);

    chain_below_a_cpu(LAST - 1);
    add_node(0, "cache");
    measure_board("nested below a cpu, the last one below cpus", 0, 0);

    start();
    add_chain(add_cpu(0), "cache", LAST - 1);
    add_node(0, "cpu-map");
    measure_board("nested below a cpu, the map last", 23, LAST);
}

/* A parent that no blob can give a record. */
static void nested_out_of_order(void)
{
    chain_below_a_cpu(LAST - 1);
    add_node(1, "cache");
    measure("nested below a cpu, the last one below the map", 6, LAST);
}

/* ---- the blobs ---- */

/* The blob is accepted, and has so many records. */
static void measure_blob(const char *name, size_t node_count, size_t prop_count)
{
    measure(name, 0, 0);
    if (answer[SUNDERWATH_FLAT_NODES] != node_count ||
        answer[SUNDERWATH_FLAT_PROPERTIES] != prop_count) {
        printf("%s: DIFFERENT counts\n", name);
        failures++;
    }
}

static void measure_board_as_blob(const char *name)
{
    blob_of_board();
    measure_blob(name, n / SUNDERWATH_NODE_WORDS,
                 p / SUNDERWATH_PROPERTY_WORDS);
}

/* The third has as many properties more, of 14 bytes, as there is room for. */
static void accepted_blobs(void)
{
    size_t room;

    regular_board(16);
    measure_board_as_blob("blob of 16 cpus");
    regular_board(256);
    measure_board_as_blob("blob of 256 cpus");
    for (room = SUNDERWATH_MAX_BLOB - blob.n; room >= 14; room -= 14)
        add_prop(0, "x", "", 0);
    measure_board_as_blob("blob of 256 cpus, full");
    nested_blob();
    measure_blob("blob of nested nodes", NESTED, 0);
    overlapping_blob();
    measure_blob("blob of overlapping names", 1, OVERLAPPING);
}

/* The end token comes last in a blob without properties; without it the tokens
 * run out at the blob's end. */
static void refused_blob(void)
{
    nested_blob();
    set_word(&blob, blob.n - 4, NOP);
    measure("blob of nested nodes, no end token", SUNDERWATH_BLOB_STRUCTURE,
            (uint32_t)blob.n);
}

/* Says the most that was needed, and begins anew. The header states little more
 * than that. */
static void sum_up(const char *name, size_t bytes_said)
{
    if (bytes_said > largest + SLACK) {
        printf("%s: %zu bytes MORE THAN NEEDED\n", name, bytes_said - largest);
        failures++;
    }
    printf("largest %zu bytes, %s %zu, %d failures\n", largest, name,
           bytes_said, failures);
    largest = 0;
}

static void boards(void (*call)(void))
{
    reader = call;
    limit = ORDINARY_BYTES;
    accepted_boards();
    limit = SUNDERWATH_STACK_BYTES;
    nested_in_the_map();
    nested_below_a_cpu();
    nested_out_of_order();
    sum_up("SUNDERWATH_STACK_BYTES", SUNDERWATH_STACK_BYTES);
}

static void flat_blobs(void)
{
    reader = read_flat;
    limit = SUNDERWATH_FLAT_STACK_BYTES;
    accepted_blobs();
    refused_blob();
    sum_up("SUNDERWATH_FLAT_STACK_BYTES", SUNDERWATH_FLAT_STACK_BYTES);
}

/* ---- the calls on bytes ---- */

static void ordinary_blob(const char *name, uint32_t cpus)
{
    measure_board(name, 0, 0);
    if (answer[SUNDERWATH_ANSWER_COUNT] != cpus) {
        printf("%s: DIFFERENT count\n", name);
        failures++;
    }
}

/* Blobs that are refused before their tables are read. */
static void unread_blobs(void)
{
    regular_board(SUNDERWATH_MAX_CPUS);
    measure_board("256 cpus, too many properties", SUNDERWATH_TABLE_SPACE, 0);
    nested_blob();
    measure("blob of nested nodes, too many", SUNDERWATH_TABLE_SPACE, 0);
    overlapping_blob();
    measure("blob of overlapping names, too many", SUNDERWATH_TABLE_SPACE, 0);
    refused_blob();
}

static void blobs_to_rows(void)
{
    reader = read_blob;
    limit = ORDINARY_BLOB_BYTES;
    regular_board(16);
    ordinary_blob("16 cpus", 16);
    regular_board(MOST_BLOB_CPUS);
    ordinary_blob("as many cpus as properties allow", MOST_BLOB_CPUS);
    deepest_map();
    ordinary_blob("the deepest map", 1);
    unread_blobs();
    limit = SUNDERWATH_BLOB_STACK_BYTES;
    nested_in_the_map();
    nested_below_a_cpu();
}

/* A list of MPIDRs in which all affinity bits differ; the last one is asked. */
static void list_of(size_t count)
{
    size_t at, byte;

    for (at = 0; at < count; at++) {
        asked = UINT64_C(0x0100010101) * (at % SUNDERWATH_MAX_CPUS);
        for (byte = 0; byte < SUNDERWATH_MPIDR_BYTES; byte++)
            list[SUNDERWATH_MPIDR_BYTES * at + byte] =
                (uint8_t)(asked >> 8 * byte);
    }
    list_n = SUNDERWATH_MPIDR_BYTES * count;
}

static void slots_of_lists(void)
{
    reader = ask_slot;
    limit = SUNDERWATH_SLOT_STACK_BYTES;
    list_of(1);
    measure("slot, list of 1", 0, 0);
    list_of(SUNDERWATH_MAX_CPUS);
    measure("slot, list of 256", 0, 0);
    asked = 1;
    measure("slot, list of 256, unknown", SUNDERWATH_LIST_UNKNOWN, 0);
    list[list_n - 1] = 1;
    measure("slot, list of 256, bad bit", SUNDERWATH_LIST_MPIDR,
            SUNDERWATH_MAX_CPUS - 1);
    list_n--;
    measure("slot, list that ends inside", SUNDERWATH_LIST_LENGTH, 0);
    list_of(SUNDERWATH_MAX_CPUS + 1);
    measure("slot, list of 257", SUNDERWATH_LIST_LENGTH, 0);
    sum_up("SUNDERWATH_SLOT_STACK_BYTES", SUNDERWATH_SLOT_STACK_BYTES);
}

/* ---- plans ---- */

/* A list with a plan of all 32 positions; the last MPIDR is asked. */
static void list_to_plan(size_t count)
{
    need_all_positions(mpidrs, count, positions);
    mpidrs_n = count;
    positions_n = SUNDERWATH_MAX_PLAN;
    asked = mpidrs[count - 1];
}

/* One call on lists of all sorts; the last one is of 256. */
static void plans_of_lists(void (*call)(void))
{
    reader = call;
    list_to_plan(1);
    measure("plan, list of 1", 0, 0);
    list_to_plan(SUNDERWATH_MAX_CPUS + 1);
    measure("plan, list of 257", SUNDERWATH_LIST_LENGTH, 0);
    list_to_plan(SUNDERWATH_MAX_CPUS);
    mpidrs[SUNDERWATH_MAX_CPUS - 1] = ~UINT64_C(0);
    measure("plan, list of 256, bad bit", SUNDERWATH_LIST_MPIDR,
            SUNDERWATH_MAX_CPUS - 1);
    list_to_plan(SUNDERWATH_MAX_CPUS);
    measure("plan, list of 256", 0, 0);
}

/* The last list, without the last position of its plan. */
static void no_plan(void)
{
    positions_n--;
    measure("plan without a position", SUNDERWATH_PLAN_POSITIONS, 0);
    positions_n++;
}

static void ordinary_slots(void)
{
    limit = LIST_BYTES;
    list_to_plan(SUNDERWATH_MAX_CPUS);
    reader = hash_list;
    measure("hash, list of 256", 0, 0);
    reader = ask_list_slot;
    measure("slot in the hash, list of 256", 0, 0);
}

static void plans(void)
{
    limit = SUNDERWATH_PLAN_STACK_BYTES;
    plans_of_lists(check_plan);
    no_plan();
    plans_of_lists(ask_plan_slot);
    no_plan();
    asked = 7;
    measure("plan, unknown MPIDR", SUNDERWATH_LIST_UNKNOWN, 0);
    plans_of_lists(make_plan);
    make_plan();
    if (plan_answer[SUNDERWATH_PLAN_ANSWER_LENGTH] != SUNDERWATH_MAX_PLAN) {
        puts("plan, list of 256: DIFFERENT length");
        failures++;
    }
    sum_up("SUNDERWATH_PLAN_STACK_BYTES", SUNDERWATH_PLAN_STACK_BYTES);
}

int main(void)
{
    boards(read_board);
    puts("the same boards with a table of slots");
    boards(read_board_slots);

    puts("blobs to tables");
    flat_blobs();
    puts("blobs to rows, and slots, on bytes");
    blobs_to_rows();
    sum_up("SUNDERWATH_BLOB_STACK_BYTES", SUNDERWATH_BLOB_STACK_BYTES);
    slots_of_lists();
    puts("lists: hash, slot; plans: check, slot, make");
    ordinary_slots();
    plans();

    puts("RISC-V boards: tables, tables of slots, blobs to rows");
    width = SUNDERWATH_RISCV;
    boards(read_board);
    boards(read_board_slots);
    blobs_to_rows();
    sum_up("SUNDERWATH_BLOB_STACK_BYTES", SUNDERWATH_BLOB_STACK_BYTES);
    return failures == 0 ? 0 : 1;
}
