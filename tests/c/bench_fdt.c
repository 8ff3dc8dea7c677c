/* SPDX-License-Identifier: BSD-2-Clause OR GPL-2.0-or-later */
/*
 * A plain reader over libfdt that does the job of the library from a blob:
 * walk /cpus and its cpu-map, look up phandles, work out the hash of all
 * MPIDRs, and write one row of twelve words per leaf. It makes only the checks
 * that it needs, not all the rules. For the benchmark.
 */
#include <libfdt.h>
#include <stddef.h>
#include <stdint.h>
#include <stdlib.h>
#include <string.h>

#define GAP 0xFFFFFFFFu
#define MAX_CPUS 256
#define MAX_DEPTH 16
#define ROW_WORDS 12
#define ANSWER_WORDS 11
#define LEVELS 4

struct cpu {
    int offset;
    uint32_t record;
    uint32_t phandle;
    uint64_t mpidr;
};

struct leaf {
    uint32_t record;
    uint32_t phandle;
    uint32_t path[7]; /* words 4 to 10 of the row */
};

struct board {
    const void *blob;
    struct cpu cpus[MAX_CPUS];
    struct leaf leaves[MAX_CPUS];
    uint32_t cpu_count;
    uint32_t leaf_count;
    int cells;
};

static const unsigned level_begin[LEVELS] = {0, 8, 16, 32};

/* The number of a name like core10, or -1. */
static long numbered(const char *name, const char *kind)
{
    size_t length = strlen(kind);
    char *end;
    long number;

    if (strncmp(name, kind, length) != 0 || name[length] < '0' ||
        name[length] > '9')
        return -1;
    number = strtol(name + length, &end, 10);
    return *end == '\0' ? number : -1;
}

static int cell_property(const void *blob, int node, const char *name,
                         uint32_t *value)
{
    int length;
    const fdt32_t *cell = fdt_getprop(blob, node, name, &length);

    if (cell == NULL || length != 4)
        return -1;
    *value = fdt32_to_cpu(*cell);
    return 0;
}

static int add_cpu(struct board *board, int node, uint32_t record)
{
    struct cpu *cpu = &board->cpus[board->cpu_count];
    const fdt32_t *reg;
    const char *type;
    int length;

    if (board->cpu_count == MAX_CPUS)
        return -1;
    type = fdt_getprop(board->blob, node, "device_type", &length);
    if (type == NULL || length != 4 || memcmp(type, "cpu", 4) != 0)
        return -1;
    reg = fdt_getprop(board->blob, node, "reg", &length);
    if (reg == NULL || length != 4 * board->cells)
        return -1;
    cpu->mpidr = fdt32_to_cpu(reg[0]);
    if (board->cells == 2)
        cpu->mpidr = cpu->mpidr << 32 | fdt32_to_cpu(reg[1]);
    if (cell_property(board->blob, node, "phandle", &cpu->phandle) != 0)
        return -1;
    cpu->offset = node;
    cpu->record = record;
    board->cpu_count++;
    return 0;
}

/* One node below the map; `path` holds what its ancestors have set. */
static int add_map_node(struct board *board, int node, uint32_t record,
                        uint32_t path[7], int *clusters)
{
    const char *name = fdt_get_name(board->blob, node, NULL);
    struct leaf *leaf = &board->leaves[board->leaf_count];
    long number;

    if ((number = numbered(name, "socket")) >= 0) {
        path[0] = (uint32_t)number;
    } else if ((number = numbered(name, "cluster")) >= 0) {
        if (*clusters == 4)
            return -1;
        path[1 + (*clusters)++] = (uint32_t)number;
    } else if ((number = numbered(name, "core")) >= 0) {
        path[5] = (uint32_t)number;
    } else if ((number = numbered(name, "thread")) >= 0) {
        path[6] = (uint32_t)number;
    } else {
        return -1;
    }
    if (fdt_first_subnode(board->blob, node) >= 0)
        return 0;
    if (board->leaf_count == MAX_CPUS ||
        cell_property(board->blob, node, "cpu", &leaf->phandle) != 0)
        return -1;
    leaf->record = record;
    memcpy(leaf->path, path, sizeof leaf->path);
    board->leaf_count++;
    return 0;
}

/* Walks the subtree of /cpus in record order. */
static int walk(struct board *board, int cpus)
{
    uint32_t paths[MAX_DEPTH][7];
    int clusters[MAX_DEPTH];
    uint32_t record = 0;
    int node = cpus, depth = 0, in_map = 0;

    while ((node = fdt_next_node(board->blob, node, &depth)) >= 0 &&
           depth > 0) {
        const char *name = fdt_get_name(board->blob, node, NULL);

        record++;
        if (depth >= MAX_DEPTH)
            return -1;
        if (depth == 1) {
            in_map = strcmp(name, "cpu-map") == 0;
            memset(paths[1], 0xFF, sizeof paths[1]);
            clusters[1] = 0;
            if ((strcmp(name, "cpu") == 0 || strncmp(name, "cpu@", 4) == 0) &&
                add_cpu(board, node, record) != 0)
                return -1;
        } else if (in_map) {
            memcpy(paths[depth], paths[depth - 1], sizeof paths[depth]);
            clusters[depth] = clusters[depth - 1];
            if (add_map_node(board, node, record, paths[depth],
                             &clusters[depth]) != 0)
                return -1;
        }
    }
    return 0;
}

static const struct cpu *find_cpu(const struct board *board, uint32_t phandle,
                                  int through_libfdt)
{
    int offset = -1;
    uint32_t i;

    if (through_libfdt)
        offset = fdt_node_offset_by_phandle(board->blob, phandle);
    for (i = 0; i < board->cpu_count; i++) {
        const struct cpu *cpu = &board->cpus[i];

        if (through_libfdt ? cpu->offset == offset : cpu->phandle == phandle)
            return cpu;
    }
    return NULL;
}

static uint32_t hash_layout(uint64_t mask, uint32_t shifts[LEVELS])
{
    uint32_t bits = 0;
    int level;

    for (level = 0; level < LEVELS; level++) {
        uint32_t part = (mask >> level_begin[level]) & 0xFF;
        uint32_t low = part ? (uint32_t)__builtin_ctz(part) : 0;
        uint32_t width = part ? 32u - (uint32_t)__builtin_clz(part) - low : 0;

        shifts[level] = level_begin[level] + low - bits;
        bits += width;
    }
    return bits;
}

static uint32_t slot_of(uint64_t mpidr, uint64_t mask,
                        const uint32_t shifts[LEVELS])
{
    uint64_t slot = 0;
    int level;

    for (level = 0; level < LEVELS; level++)
        slot |= (mpidr & mask & (UINT64_C(0xFF) << level_begin[level])) >>
                shifts[level];
    return (uint32_t)slot;
}

static int write_rows(const struct board *board, int through_libfdt,
                      uint64_t mask, const uint32_t shifts[LEVELS],
                      uint32_t *rows)
{
    uint32_t i;

    for (i = 0; i < board->leaf_count; i++, rows += ROW_WORDS) {
        const struct leaf *leaf = &board->leaves[i];
        const struct cpu *cpu = find_cpu(board, leaf->phandle, through_libfdt);

        if (cpu == NULL)
            return -1;
        rows[0] = leaf->record;
        rows[1] = cpu->record;
        rows[2] = (uint32_t)(cpu->mpidr >> 32);
        rows[3] = (uint32_t)cpu->mpidr;
        memcpy(rows + 4, leaf->path, sizeof leaf->path);
        rows[11] = slot_of(cpu->mpidr, mask, shifts);
    }
    return 0;
}

/*
 * Reads a blob into rows and an answer of eleven words; 0 on success. Phandles
 * are looked up by libfdt, or in the table of cpu nodes.
 */
int bench_fdt_read(const void *blob, int through_libfdt, uint32_t *rows,
                   size_t words, uint32_t *answer)
{
    static struct board board;
    uint64_t mask = 0;
    uint32_t cells, i;
    int cpus;

    board.blob = blob;
    board.cpu_count = 0;
    board.leaf_count = 0;
    if (fdt_check_header(blob) != 0)
        return -1;
    cpus = fdt_path_offset(blob, "/cpus");
    if (cpus < 0 || cell_property(blob, cpus, "#address-cells", &cells) != 0 ||
        cells < 1 || cells > 2)
        return -1;
    board.cells = (int)cells;
    if (walk(&board, cpus) != 0 || board.leaf_count != board.cpu_count ||
        words < ROW_WORDS * (size_t)board.cpu_count)
        return -1;
    for (i = 0; i < board.cpu_count; i++)
        mask |= board.cpus[i].mpidr ^ board.cpus[0].mpidr;
    memset(answer, 0, ANSWER_WORDS * sizeof *answer);
    answer[2] = board.cpu_count;
    answer[3] = (uint32_t)mask;
    answer[4] = (uint32_t)(mask >> 32);
    answer[9] = hash_layout(mask, answer + 5);
    answer[10] = GAP; /* no second place */
    return write_rows(&board, through_libfdt, mask, answer + 5, rows);
}
