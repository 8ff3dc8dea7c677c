/* SPDX-License-Identifier: BSD-2-Clause OR GPL-2.0-or-later */
/*
 * sunderwath.h - read the processor topology of an ARM or RISC-V board
 *
 * The library takes the /cpus subtree of a devicetree as plain tables, checks
 * it against the cpu and cpu-map bindings, and writes one row for each
 * processor: its place in the map, its MPIDR and its slot in a collision-free
 * hash of all MPIDRs; on a RISC-V board its place and its hart id, as there are
 * no MPIDRs and no slots. Beside the rows it can fill a table from slot to row.
 * It fills the tables of a /cpus subtree from a flattened devicetree, too. For
 * a list of MPIDRs it makes and checks plans: bit positions that tell them
 * apart, where it can be in fewer slots than the hash has.
 *
 * A loader that has the blob and a buffer of bytes needs two calls only:
 * sunderwath_read_blob makes rows of a blob, sunderwath_slot tells the slot of
 * an MPIDR; a RISC-V loader needs the first alone. All that they read and write
 * is bytes. examples/loader.c uses them.
 *
 * WHAT A CALLER OWES, for every function below
 *
 *  - Each pointer is followed by a count of ELEMENTS: words of 32 bits, MPIDRs
 *    of 64 bits, or bytes (of a blob or pool; for read_blob and slot of every
 *    part). Words and MPIDRs are never counted in bytes.
 *  - Each pointer is valid for its count of elements, aligned for its type and
 *    not NULL, even where the count is 0. Bytes need no alignment.
 *  - The parts that are written (rows, answer; for read_tables_slots the table
 *    of slots besides; for read_flat the two tables and the answer; for slot
 *    and the calls on lists and plans the answer) overlap no other part that is
 *    lent to the same call. Parts that are only read may overlap each other.
 *  - No other thread changes a lent part during the call. The library keeps no
 *    state and no pointer after it returns.
 *
 * WHAT IS WRITTEN
 *
 *  - The number told is returned, and is word 0 of the answer too.
 *  - With fewer words of answer than stated (SUNDERWATH_ANSWER_WORDS, for
 *    read_flat SUNDERWATH_FLAT_ANSWER_WORDS, for the calls on plans
 *    SUNDERWATH_PLAN_CHECK_ANSWER_WORDS and its kin), nothing is written at all
 *    and SUNDERWATH_ANSWER_SPACE is returned, before any other check. For
 *    read_blob and slot the same holds of bytes (SUNDERWATH_BYTES_ANSWER).
 *  - Otherwise exactly the stated words or bytes of the answer are written.
 *  - Rows are written on acceptance only: 12 words for each processor from
 *    word 0; by read_blob 48 bytes from byte 0. Everything behind the last row
 *    stays as it is. A refusal changes no word and no byte of the rows.
 *  - Bytes are little-endian on every machine: the lowest comes first.
 *  - The table of read_tables_slots is written on acceptance only: each of its
 *    first 2^bits entries, where bits is the answer's SUNDERWATH_ANSWER_BITS.
 *    Everything behind stays as it is. A refusal changes no entry of the table
 *    and no word of the rows.
 *  - The tables of read_flat are written on acceptance only, from word 0: 3
 *    words for each node, 5 for each property. Everything behind stays as it
 *    is. A refusal changes no word of them.
 *
 * WHAT THE LIBRARY NEEDS
 *
 *  - On x86-64 memset, on aarch64 and riscv64 memset and memcpy, and nothing
 *    else: no heap, no other call. Firmware without a C library provides them
 *    itself.
 *  - The archive, libsunderwath.a, is one object without data and without bss.
 *    Its only undefined symbols are these, its global symbols are the calls
 *    below. scripts/symbols.sh checks this. scripts/archive.sh makes an archive
 *    for each processor, all of the same proved code:
 *      x86_64            for Linux, position independent
 *      aarch64           for bare metal and Linux: general registers only (no
 *                        floats, no vectors), and each access aligned, so it
 *                        runs before the MMU and the floating-point unit do
 *      riscv64           rv64gc, ABI lp64d, code model medany
 *      riscv64/rv64imac  rv64imac, ABI lp64, code model medany: for firmware
 *                        that is compiled so, as the linker mixes no ABIs.
 *                        Neither has a floating-point instruction, and each
 *                        access is aligned.
 *    There is none for 32-bit ARM: sizes have 64 bits in the code that is
 *    proved, and pointers there 32. Boards with such processors are read all
 *    the same (SUNDERWATH_ARM32), but on the machine that builds the firmware:
 *    run the command line on the board's devicetree there, let the build fail
 *    where it refuses, and ship the rows that it prints as constants.
 *  - Stack, as stated by SUNDERWATH_STACK_BYTES and its kin below.
 *  - The texts of the numbers (sunderwath_strerror, sunderwath_check_name) are
 *    not in the archive but in sunderwath_text.c, which needs nothing: compile
 *    it with the program, or leave it out.
 */
#ifndef SUNDERWATH_H
#define SUNDERWATH_H

#include <stddef.h>
#include <stdint.h>

#ifdef __cplusplus
extern "C" {
#endif

/*
 * The version. It is stated here: the pkg-config file is made from these lines,
 * and scripts/version.sh compares all else that names it. Before 1.0.0 a new
 * minor number may change calls; the numbers told and their names stay.
 */
#define SUNDERWATH_VERSION_MAJOR 0
#define SUNDERWATH_VERSION_MINOR 9
#define SUNDERWATH_VERSION_PATCH 0
#define SUNDERWATH_VERSION "0.9.0"

/*
 * The board numbers: what `width` may be. No board is told from another by its
 * devicetree; the caller says which one it is.
 */
#define SUNDERWATH_ARM32 32 /* ARM v7 or later, 32 bits: MPIDRs of one cell */
#define SUNDERWATH_ARM64 64 /* ARM v8, 64 bits: MPIDRs of one cell or two */
#define SUNDERWATH_RISCV 5  /* RISC-V: hart ids of one cell, any value */

/*
 * Words of an answer. Words 0 to 9 are what they were in answers of ten words,
 * which had no second place; a caller that still lends ten gets
 * SUNDERWATH_ANSWER_SPACE and nothing written.
 */
#define SUNDERWATH_ANSWER_WORDS 11

/* Positions of the words of an answer. In a refusal all words but number,
 * place and second place are 0. An accepted RISC-V board has no hash: its mask
 * and bits are 0, its shifts 0, 8, 16 and 32. */
#define SUNDERWATH_ANSWER_NUMBER 0    /* 0 or the number of the rule broken */
#define SUNDERWATH_ANSWER_PLACE 1     /* where it is broken: see the numbers */
#define SUNDERWATH_ANSWER_COUNT 2     /* processors; for list_slot the slot */
#define SUNDERWATH_ANSWER_MASK_LOW 3  /* mask, bits 31..0 */
#define SUNDERWATH_ANSWER_MASK_HIGH 4 /* mask, bits 63..32 */
#define SUNDERWATH_ANSWER_SHIFTS 5    /* four shifts, affinity level 0 first */
#define SUNDERWATH_ANSWER_BITS 9      /* bits of a slot */
#define SUNDERWATH_ANSWER_SECOND 10   /* property record or NO_PROPERTY */

/*
 * The second place of an answer. Six numbers speak of one property of the
 * record at the place: 11 of device_type, 12 of reg, 17 of phandle, 24 of cpu,
 * 36 of #address-cells and 37 of #size-cells. Their second place is the number
 * of that property's record, SUNDERWATH_NO_PROPERTY where the record has no
 * such property. A phandle that two cpu nodes have is told of the later one.
 * Every other answer has SUNDERWATH_NO_PROPERTY there: acceptance, 7 and 8,
 * which have a property record as their place, and all the rest.
 */
#define SUNDERWATH_NO_PROPERTY 0xFFFFFFFFu

/* Words of the answer of sunderwath_read_flat, which has no second place. */
#define SUNDERWATH_FLAT_ANSWER_WORDS 4

/* Positions of its words; number and place are those of every answer. In a
 * refusal the other two are 0. */
#define SUNDERWATH_FLAT_NODES 2      /* node records written */
#define SUNDERWATH_FLAT_PROPERTIES 3 /* property records written */

/*
 * Bytes of the answer of sunderwath_read_blob and sunderwath_slot: four words,
 * and the byte at which each begins. In a refusal the last word is 0.
 */
#define SUNDERWATH_BYTES_ANSWER 16
#define SUNDERWATH_BYTES_NUMBER 0 /* 0 or the number of the rule broken */
#define SUNDERWATH_BYTES_PLACE 4  /* where it is broken: see the numbers */
#define SUNDERWATH_BYTES_SECOND 8 /* property record or NO_PROPERTY */
#define SUNDERWATH_BYTES_COUNT 12 /* processors; for slot the slot */

/* Words of the answers of the three calls on plans, which have no second place.
 * Number and place are those of every answer; in a refusal all other words are
 * 0. */
#define SUNDERWATH_PLAN_CHECK_ANSWER_WORDS 2
#define SUNDERWATH_PLAN_SLOT_ANSWER_WORDS 3
#define SUNDERWATH_PLAN_MAKE_ANSWER_WORDS 35

/* Positions of their further words: of plan_slot the slot; of plan_make the
 * number of positions, and the first of 32 words that have the positions,
 * rising, and 0 behind them. */
#define SUNDERWATH_PLAN_ANSWER_SLOT 2
#define SUNDERWATH_PLAN_ANSWER_LENGTH 2
#define SUNDERWATH_PLAN_ANSWER_FIRST 3

/* Words of a row, and the bytes of a row that sunderwath_read_blob writes. */
#define SUNDERWATH_ROW_WORDS 12
#define SUNDERWATH_ROW_BYTES (4 * SUNDERWATH_ROW_WORDS)

/* Bytes of an MPIDR in the list of sunderwath_slot, the lowest first. */
#define SUNDERWATH_MPIDR_BYTES 8

/* Positions of the words of a row. In a row of bytes, word k begins at byte
 * 4 * k. */
#define SUNDERWATH_ROW_LEAF 0        /* node record of the thread or core */
#define SUNDERWATH_ROW_CPU 1         /* node record of its cpu node */
#define SUNDERWATH_ROW_MPIDR_UPPER 2 /* upper cell of reg, 0 for one cell */
#define SUNDERWATH_ROW_MPIDR_LOWER 3 /* lower cell of reg */
#define SUNDERWATH_ROW_SOCKET 4      /* socket number or GAP */
#define SUNDERWATH_ROW_CLUSTERS 5    /* four cluster numbers, outermost first */
#define SUNDERWATH_ROW_CORE 9        /* core number */
#define SUNDERWATH_ROW_THREAD 10     /* thread number or GAP */
#define SUNDERWATH_ROW_SLOT 11       /* slot, 0xFFFFFFFF is one; RISC-V: GAP */

/* On a RISC-V board, the hart id; word 2 is then 0. */
#define SUNDERWATH_ROW_HART SUNDERWATH_ROW_MPIDR_LOWER

/* A number that the map does not have (words 4 to 8 and 10 of a row), and the
 * slot in every row of a RISC-V board; in a table of slots, the entry of a slot
 * that no processor has. */
#define SUNDERWATH_GAP 0xFFFFFFFFu

/* Words of a node record: parent, name offset, name length. */
#define SUNDERWATH_NODE_WORDS 3

/* Words of a property record: node, name offset, name length, value offset,
 * value length. */
#define SUNDERWATH_PROPERTY_WORDS 5

/* Parent word of node record 0; also what find_property returns if there is
 * no such property. */
#define SUNDERWATH_NONE 0xFFFFFFFFu

/* Limits: bytes of a blob, records, bytes of a pool, cpu nodes; bits of a hash
 * that has a table of slots, and the entries of a table with room for each such
 * hash; positions of a plan, one for each affinity bit. */
#define SUNDERWATH_MAX_BLOB 65536
#define SUNDERWATH_MAX_NODES 1024
#define SUNDERWATH_MAX_PROPERTIES 4096
#define SUNDERWATH_MAX_POOL 65536
#define SUNDERWATH_MAX_CPUS 256
#define SUNDERWATH_MAX_TABLE_BITS 12
#define SUNDERWATH_MAX_TABLE (1u << SUNDERWATH_MAX_TABLE_BITS) /* 4,096 */
#define SUNDERWATH_MAX_PLAN 32

/* Records of the /cpus subtree that sunderwath_read_blob has room for: its
 * tables are on the stack. */
#define SUNDERWATH_BLOB_MAX_NODES 1024
#define SUNDERWATH_BLOB_MAX_PROPERTIES 1024

/*
 * The bytes of stack that the calls need at most. Measured for each processor,
 * not proved: the proof is about a machine without a stack. They are up to the
 * compiler that made the archive, and have what the C library's memset and
 * memcpy take in them. tests/c/stack_test.c measures them.
 *
 * SUNDERWATH_STACK_BYTES is for sunderwath_read_tables and
 * sunderwath_read_tables_slots, however deep the records are nested: of the
 * ancestor test of rule 6, which recurses on the parent, the compiler made a
 * loop.
 *
 * SUNDERWATH_FLAT_STACK_BYTES is for sunderwath_read_flat, whatever the blob:
 * nothing recurs, however deep the nodes are nested. 512 of them are a table
 * over the strings block. Measured are blobs of 16 and of 256 cpus, a full one,
 * one as deep as fits and one of names that overlap.
 *
 * SUNDERWATH_BLOB_STACK_BYTES is for sunderwath_read_blob: its two tables,
 * 32,768 bytes, and what reading them needs. The rows are made in the table of
 * the properties.
 *
 * SUNDERWATH_SLOT_STACK_BYTES is for sunderwath_slot. sunderwath_list_hash and
 * sunderwath_list_slot need about 100 bytes.
 *
 * SUNDERWATH_PLAN_STACK_BYTES is for each of the three calls on plans, whatever
 * the list and the plan.
 *
 * Other processors have no archive, and none of these five is defined there.
 *
 * Boards of 16 and of 256 cpus (of a blob as many as 1,024 properties allow)
 * and 1,024 records nested in each other need the same:
 *                                                 x86-64  aarch64  riscv64
 *   read_tables                                   16,808   16,832   16,776
 *   read_tables_slots                             16,792   16,848   16,840
 *   read_blob                                     49,576   49,584   49,680
 */
#if defined(__aarch64__)
#define SUNDERWATH_STACK_BYTES 16848
#define SUNDERWATH_FLAT_STACK_BYTES 760
#define SUNDERWATH_BLOB_STACK_BYTES 49584
#define SUNDERWATH_SLOT_STACK_BYTES 2160
#define SUNDERWATH_PLAN_STACK_BYTES 312
#elif defined(__riscv) && __riscv_xlen == 64
#define SUNDERWATH_STACK_BYTES 16840
#define SUNDERWATH_FLAT_STACK_BYTES 944
#define SUNDERWATH_BLOB_STACK_BYTES 49680
#define SUNDERWATH_SLOT_STACK_BYTES 2152
#define SUNDERWATH_PLAN_STACK_BYTES 352
#elif defined(__x86_64__)
#define SUNDERWATH_STACK_BYTES 16808
#define SUNDERWATH_FLAT_STACK_BYTES 792
#define SUNDERWATH_BLOB_STACK_BYTES 49576
#define SUNDERWATH_SLOT_STACK_BYTES 2192
#define SUNDERWATH_PLAN_STACK_BYTES 288
#endif

/*
 * The numbers, in the order of checking. Each comment says what is wrong and,
 * after the semicolon, what the place of the answer is and, for six of them,
 * the property whose record the second place is. 14 is not used. The place of
 * a record is its number in its table.
 */
enum sunderwath_number {
    SUNDERWATH_ACCEPTED = 0,

    /* ---- the flattened devicetree (told by sunderwath_read_flat and
     * sunderwath_read_blob) ---- */

    /* blob not 40 to 65,536 bytes, or magic, total size or version in its
     * header; 0 */
    SUNDERWATH_BLOB_HEADER = 31,
    /* structure or strings block outside the total size, or the structure
     * block not on multiples of 4; 0 */
    SUNDERWATH_BLOB_BLOCKS = 32,
    /* token stream breaks the specification's structure; the offset from the
     * blob's start of the first token that does, or of the structure block's
     * end where tokens run out */
    SUNDERWATH_BLOB_STRUCTURE = 33,
    /* root without, or with more than one child named cpus; 0 */
    SUNDERWATH_BLOB_CPUS = 34,
    /* node or property table too short: a lent one, or for
     * sunderwath_read_blob more than 1,024 nodes or properties in /cpus; 0 */
    SUNDERWATH_TABLE_SPACE = 35,

    /* ---- the tables ---- */

    /* board number not 32, 64 or 5; 0 */
    SUNDERWATH_BOARD_WIDTH = 1,
    /* node words not whole records, or not 1 to 1,024 of them; 0 */
    SUNDERWATH_NODE_TABLE_SIZE = 2,
    /* property words not whole records, or too many; 0 */
    SUNDERWATH_PROPERTY_TABLE_SIZE = 3,
    /* pool too long; 0 */
    SUNDERWATH_POOL_SIZE = 4,
    /* node name not 1 to 64 bytes of the pool; record */
    SUNDERWATH_NODE_NAME_RANGE = 5,
    /* parent breaks depth-first order; record */
    SUNDERWATH_NODE_PARENT_ORDER = 6,
    /* node, name or value of a property out of range; property */
    SUNDERWATH_PROPERTY_RANGE = 7,
    /* property name repeated on its node; property */
    SUNDERWATH_DUPLICATE_PROPERTY = 8,

    /* ---- the cpus node and its cpu nodes ---- */

    /* record 0 is not named cpus; 0 */
    SUNDERWATH_CPUS_NODE = 9,
    /* #address-cells of record 0 missing, not four bytes, or not 1 or 2
     * (boards 32 and 5: only 1); 0, second place #address-cells */
    SUNDERWATH_CPUS_ADDRESS_CELLS = 36,
    /* #size-cells of record 0 missing or not four zero bytes; 0, second place
     * #size-cells */
    SUNDERWATH_CPUS_SIZE_CELLS = 37,
    /* not 1 to 256 cpu nodes; 0 */
    SUNDERWATH_CPU_COUNT = 10,
    /* device_type is not "cpu"; record, second place device_type */
    SUNDERWATH_CPU_DEVICE_TYPE = 11,
    /* reg missing, not four bytes for each address cell or, on boards 32 and
     * 64, bits outside the affinity bits; record, second place reg */
    SUNDERWATH_CPU_REG = 12,
    /* reg (MPIDR or hart id) of an earlier cpu node; record */
    SUNDERWATH_DUPLICATE_CPU_REG = 13,

    /* ---- the map ---- */

    /* no cpu-map; 0 */
    SUNDERWATH_CPU_MAP_MISSING = 15,
    /* another node named cpu-map; record */
    SUNDERWATH_CPU_MAP_DUPLICATE = 16,
    /* phandle missing, not usable or taken; record, second place phandle */
    SUNDERWATH_CPU_PHANDLE = 17,
    /* topology name outside the map; record */
    SUNDERWATH_TOPOLOGY_OUTSIDE_MAP = 18,
    /* no topology name below the map; record */
    SUNDERWATH_CPU_MAP_NAME = 19,
    /* kind not allowed under its parent; record */
    SUNDERWATH_CPU_MAP_KIND = 20,
    /* number not below the count of siblings, or an earlier sibling's; record */
    SUNDERWATH_CPU_MAP_ORDER = 21,
    /* more than four nested clusters; record */
    SUNDERWATH_CPU_MAP_DEPTH = 22,
    /* map, socket or cluster without children; record */
    SUNDERWATH_CPU_MAP_EMPTY = 23,
    /* leaf does not name a cpu node; record, second place cpu */
    SUNDERWATH_CPU_MAP_PHANDLE = 24,
    /* leaf names a cpu of an earlier leaf; record */
    SUNDERWATH_CPU_MAP_CPU_REPEATED = 25,
    /* cpu node named by no leaf; record */
    SUNDERWATH_CPU_UNMAPPED = 26,
    /* row buffer too short: 12 words, for sunderwath_read_blob 48 bytes, for
     * each cpu node; 0 */
    SUNDERWATH_ROW_SPACE = 27,

    /* ---- the table of slots (told by sunderwath_read_tables_slots) ---- */

    /* hash of more than 12 bits, never on board 5; 0 */
    SUNDERWATH_SLOT_TABLE_BITS = 38,
    /* table of fewer entries than 2^bits, on board 5 of none; 0 */
    SUNDERWATH_SLOT_TABLE_SPACE = 39,

    /* ---- lists of MPIDRs ---- */

    /* empty, more than 256 or, for sunderwath_slot, bytes that are not a
     * multiple of eight; 0 */
    SUNDERWATH_LIST_LENGTH = 28,
    /* bit outside 39..32 and 23..0; index */
    SUNDERWATH_LIST_MPIDR = 29,
    /* positions of a plan that do not rise strictly, that are outside 39..32
     * and 23..0, or at none of which some two different MPIDRs of the list
     * differ (told by sunderwath_plan_check and sunderwath_plan_slot); 0 */
    SUNDERWATH_PLAN_POSITIONS = 40,
    /* asked MPIDR is not in the list; 0 */
    SUNDERWATH_LIST_UNKNOWN = 30,

    /* ---- the call ---- */

    /* answer of fewer words, for sunderwath_read_blob and sunderwath_slot of
     * fewer bytes, than stated; nothing written */
    SUNDERWATH_ANSWER_SPACE = 49
};

/*
 * The hash of a list of 1 to 256 MPIDRs, repeats allowed: mask, shifts and
 * bits. Tells 28 or 29. Word 2 of the answer is 0, its second place is
 * SUNDERWATH_NO_PROPERTY.
 */
uint32_t sunderwath_list_hash(const uint64_t *list, size_t n,
                              uint32_t *answer, size_t a);

/*
 * The slot of one MPIDR in the hash of a list. Tells 28, 29 or 30. Word 2 of
 * the answer is the slot, words 3 to 9 are 0, and the second place is
 * SUNDERWATH_NO_PROPERTY. An MPIDR that is not in the list has no slot, as its
 * bits could fall on the slot of a listed one.
 */
uint32_t sunderwath_list_slot(uint64_t mpidr, const uint64_t *list, size_t n,
                              uint32_t *answer, size_t a);

/*
 * Plans. In each affinity level the hash has room for every bit from the lowest
 * to the highest in which MPIDRs differ, for those between, too: 0x0 and 0x5
 * get three bits and eight slots. A plan names the bits to keep: positions,
 * strictly rising, from 0 to 23 and 32 to 39; there may be none. It is a plan
 * for a list if any two different MPIDRs of the list differ at one of its
 * positions. The slot under a plan is the bits at the positions, the lowest
 * position in bit 0; so different MPIDRs of the list get different slots, each
 * below 2^positions_n. For 0x0 and 0x5 position 2 alone is a plan, with the
 * slots 0 and 1. A list whose MPIDRs are all equal needs no position (the
 * pointer is not NULL even then), and the slot is 0. The slots of list_slot,
 * slot and the rows are those of the hash, whatever plans there are.
 *
 * A plan is all that firmware has to keep beside the list: it can be made by
 * any program, on any machine, and is checked where it is used. A count of
 * positions that comes with it is to be compared with SUNDERWATH_MAX_PLAN
 * first, as the calls believe it. examples/plan_slots.c does all of this.
 */

/*
 * Whether positions are a plan for a list of 1 to 256 MPIDRs, repeats allowed.
 * Tells 28, 29 or 40. Compares each pair of MPIDRs at most once: with 256 of
 * them at most 32,640 comparisons.
 */
uint32_t sunderwath_plan_check(const uint64_t *list, size_t list_n,
                               const uint32_t *positions, size_t positions_n,
                               uint32_t *answer, size_t answer_n);

/*
 * The slot of one MPIDR of a list under a plan for the list, which is checked
 * first, with all comparisons that sunderwath_plan_check makes. Tells 28, 29,
 * 40 or 30. Word 2 of the answer is the slot. `mpidr` has affinity bits only,
 * as the list has: of the register's value those under 0xFF00FFFFFF. With any
 * other bit it is not in the list, and 30 is told.
 */
uint32_t sunderwath_plan_slot(uint64_t mpidr,
                              const uint64_t *list, size_t list_n,
                              const uint32_t *positions, size_t positions_n,
                              uint32_t *answer, size_t answer_n);

/*
 * Makes a plan for a list: of the bits in which any two MPIDRs differ it drops
 * each that it can, from the lowest up. Tells 28 or 29. Word 2 of the answer is
 * the number of positions, and from word 3 on they stand, rising; the words
 * behind them, up to 35 in all, are 0. The plan is one that
 * sunderwath_plan_check accepts, it has no more positions than the hash has
 * bits, and no single position can be dropped from it. There may be a plan with
 * fewer positions, not all of them among these. At most 32 times the
 * comparisons of sunderwath_plan_check are made.
 */
uint32_t sunderwath_plan_make(const uint64_t *list, size_t list_n,
                              uint32_t *answer, size_t answer_n);

/*
 * Reads a flattened devicetree (version 17, at most SUNDERWATH_MAX_BLOB bytes)
 * and fills the tables of its /cpus subtree: each node and each property once,
 * in the order of the blob, node record 0 the cpus node. Tells 31 to 35; the
 * whole token stream is looked at, outside /cpus too. On acceptance words 2
 * and 3 of the answer count the records written. Bytes behind the header's
 * total size are not looked at, but the limit counts them: lend the blob alone.
 *
 * The blob is the pool of these records: their offsets count from its start.
 * Lend the same bytes as `pool` to sunderwath_read_tables, with 3 and 5 times
 * the counts as the words of the tables. A table has room if it has the words
 * of all records; no blob has more than 5,461 of either. Node and property
 * counts above the limits are filled all the same and told by 2 and 3 later.
 */
uint32_t sunderwath_read_flat(const uint8_t *blob, size_t blob_n,
                              uint32_t *nodes, size_t nodes_n,
                              uint32_t *props, size_t props_n,
                              uint32_t *answer, size_t answer_n);

/*
 * Reads a board. `width` is its board number: SUNDERWATH_ARM32,
 * SUNDERWATH_ARM64 or SUNDERWATH_RISCV. Node record 0 is the cpus node; records
 * stand depth first. Tells 1 to 27 and, between 9 and 10, 36 and 37; six of
 * these have a second place. On acceptance the answer's count is the number of
 * processors, and each has its row, in the order of the map. Rows need 12 words
 * for each cpu node.
 *
 * The rules of the map are the same for all boards. On a RISC-V board
 * #address-cells is 1, reg is a hart id of any value, and only equal ones are
 * refused; each row has SUNDERWATH_GAP as its slot.
 */
uint32_t sunderwath_read_tables(uint32_t width,
                                const uint32_t *nodes, size_t n,
                                const uint32_t *props, size_t p,
                                const uint8_t *pool, size_t bytes,
                                uint32_t *rows, size_t words,
                                uint32_t *answer, size_t a);

/*
 * Reads a board exactly as sunderwath_read_tables does and fills, beside the
 * rows, a table from slot to row: entry s is the number of the row whose slot
 * is s, counted from 0, or SUNDERWATH_GAP where no processor has s. 2^bits
 * entries are filled, one for each slot. After 27 it tells 38 and 39. A table
 * of SUNDERWATH_MAX_TABLE entries has room for every board that 38 does not
 * refuse; a board that 38 refuses is still read by sunderwath_read_tables.
 *
 * A processor that wakes makes its slot of its own MPIDR with the answer's mask
 * and shifts: of each affinity level the bits under the mask, moved right by
 * the level's shift, and the four joined by or. The slot of a processor of the
 * board is below 2^bits, and its entry is the row. An MPIDR that is not on the
 * board can fall on a slot that no processor has, or on that of another: before
 * a row is used, its MPIDR is to be compared with the affinity bits (39..32 and
 * 23..0) of the own one. examples/wake_slot.c does all of this.
 *
 * A RISC-V board has no slots: one entry is filled, and it is SUNDERWATH_GAP. A
 * hart finds its row by SUNDERWATH_ROW_HART.
 */
uint32_t sunderwath_read_tables_slots(uint32_t width,
                                      const uint32_t *nodes, size_t nodes_n,
                                      const uint32_t *props, size_t props_n,
                                      const uint8_t *pool, size_t pool_n,
                                      uint32_t *rows, size_t rows_n,
                                      uint32_t *table, size_t table_n,
                                      uint32_t *answer, size_t answer_n);

/*
 * Reads a board from a flattened devicetree, lent as to sunderwath_read_flat,
 * without tables of the caller: bytes in, bytes out. `width` is the board
 * number, as for sunderwath_read_tables. Tells 31 to 35 first, then 1 and all
 * that sunderwath_read_tables tells of the tables of /cpus, with the same
 * places and second places; records have the numbers that sunderwath_read_flat
 * gives them. 2, 3, 4, 6 and 9 never come up, as no such tables are made of a
 * blob. On acceptance the answer's count is the number of processors, and each
 * has its row in `rows`: SUNDERWATH_ROW_BYTES bytes, word after word. 27 is
 * told by bytes: fewer than SUNDERWATH_ROW_BYTES for each cpu node. A buffer
 * for SUNDERWATH_MAX_CPUS rows is never too short.
 *
 * The tables are on the stack, so there is room for SUNDERWATH_BLOB_MAX_NODES
 * nodes and SUNDERWATH_BLOB_MAX_PROPERTIES properties of /cpus, and 35 is told
 * beyond either. A board with more properties is read by sunderwath_read_flat
 * and then sunderwath_read_tables, with tables that the caller lends.
 */
uint32_t sunderwath_read_blob(uint32_t width,
                              const uint8_t *blob, size_t blob_n,
                              uint8_t *rows, size_t rows_n,
                              uint8_t *answer, size_t answer_n);

/*
 * The slot of one MPIDR in the hash of a list, as sunderwath_list_slot answers
 * it. The list is bytes, SUNDERWATH_MPIDR_BYTES for each MPIDR, and `list_n`
 * counts the bytes. Tells 28, here for bytes that are not a multiple of eight
 * too, 29, whose place is the index of the MPIDR and not of a byte, or 30. On
 * acceptance the last word of the answer is the slot. The second place is
 * always SUNDERWATH_NO_PROPERTY.
 */
uint32_t sunderwath_slot(uint64_t mpidr, const uint8_t *list, size_t list_n,
                         uint8_t *answer, size_t answer_n);

/*
 * Texts of the numbers. These two functions are in sunderwath_text.c, not in
 * the archive. They know each number of the enumeration above, 0 too; 14 and
 * every other number get one fixed text. What they return is never NULL: ASCII
 * characters and a zero byte, constant, not to be freed. The command line
 * prints the same texts.
 */

/* A sentence without a full stop, as "more than four clusters are nested" for
 * 22; "unknown number" for a number that the enumeration does not have. */
const char *sunderwath_strerror(uint32_t number);

/* A name that stays the same in later versions, as "cpu_map_depth" for 22: the
 * enumerator in lower case, without the prefix. "unknown_number" for a number
 * that the enumeration does not have. */
const char *sunderwath_check_name(uint32_t number);

/*
 * FOR TESTS ONLY. Programs should call sunderwath_read_tables, which does both
 * of these; they may change or go.
 */

/* Rules 1 to 8 alone. Words 2 to 9 of the answer are 0, and the second place is
 * SUNDERWATH_NO_PROPERTY. */
uint32_t sunderwath_check_tables(uint32_t width,
                                 const uint32_t *nodes, size_t n,
                                 const uint32_t *props, size_t p,
                                 const uint8_t *pool, size_t bytes,
                                 uint32_t *answer, size_t a);

/*
 * The record number of the lowest property of `node` with that name whose name
 * lies inside the pool, or SUNDERWATH_NONE. The search ends at its match: where
 * the records up to the lowest match keep rule 7 that match is answered,
 * whatever later records break.
 */
uint32_t sunderwath_find_property(const uint32_t *props, size_t p,
                                  const uint8_t *pool, size_t bytes,
                                  uint32_t node,
                                  const uint8_t *name, size_t name_len);

#ifdef __cplusplus
}
#endif

#endif /* SUNDERWATH_H */
