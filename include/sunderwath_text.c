/* SPDX-License-Identifier: BSD-2-Clause OR GPL-2.0-or-later */
/*
 * sunderwath_text.c - the numbers of sunderwath.h in words
 *
 * Not in the archive: compile it with the program that prints messages. It needs no C library and has constant data only. The command
 * line is linked with it, too: this is the one table of messages.
 */
#include "sunderwath.h"

/* The texts stand in the table itself: no pointers, so that nothing has to be relocated when firmware is loaded. */
struct message {
    uint32_t number;
    char check[24];    /* a name that stays the same */
    char sentence[96]; /* what is wrong, or what the rule asks for */
};

static const struct message messages[] = {
    { SUNDERWATH_ACCEPTED, "accepted", "the board is accepted" },
    { SUNDERWATH_BOARD_WIDTH, "board_width", "the board number is not 32, 64 or 5" },
    { SUNDERWATH_NODE_TABLE_SIZE, "node_table_size", "the subtree does not have 1 to 1024 nodes" },
    { SUNDERWATH_PROPERTY_TABLE_SIZE, "property_table_size", "the subtree has more than 4096 properties" },
    { SUNDERWATH_POOL_SIZE, "pool_size", "the pool has more than 65536 bytes" },
    { SUNDERWATH_NODE_NAME_RANGE, "node_name_range", "the node name does not have 1 to 64 bytes" },
    { SUNDERWATH_NODE_PARENT_ORDER, "node_parent_order", "the node does not stand in depth-first order" },
    { SUNDERWATH_PROPERTY_RANGE, "property_range", "the property name does not have 1 to 31 bytes, or its node, name or value is out of range" },
    { SUNDERWATH_DUPLICATE_PROPERTY, "duplicate_property", "the node has this property twice" },
    { SUNDERWATH_CPUS_NODE, "cpus_node", "the node must be named cpus" },
    { SUNDERWATH_CPU_COUNT, "cpu_count", "there must be 1 to 256 cpu nodes, named cpu or cpu@..." },
    { SUNDERWATH_CPU_DEVICE_TYPE, "cpu_device_type", "device_type must be \"cpu\"" },
    { SUNDERWATH_CPU_REG, "cpu_reg", "reg must have as many cells as #address-cells says and, on ARM, affinity bits only" },
    { SUNDERWATH_DUPLICATE_CPU_REG, "duplicate_cpu_reg", "reg is the same as that of an earlier cpu node" },
    { SUNDERWATH_CPU_MAP_MISSING, "cpu_map_missing", "no cpu-map" },
    { SUNDERWATH_CPU_MAP_DUPLICATE, "cpu_map_duplicate", "another node is named cpu-map" },
    { SUNDERWATH_CPU_PHANDLE, "cpu_phandle", "a cpu node must have a phandle of its own, one cell, not 0 or 0xffffffff" },
    { SUNDERWATH_TOPOLOGY_OUTSIDE_MAP, "topology_outside_map", "a node outside cpu-map has the name of a socket, cluster, core or thread" },
    { SUNDERWATH_CPU_MAP_NAME, "cpu_map_name", "the name is not socketN, clusterN, coreN or threadN with a number of 0 to 9999" },
    { SUNDERWATH_CPU_MAP_KIND, "cpu_map_kind", "a node of this kind is not allowed here, or differs in kind from the first one beside it" },
    { SUNDERWATH_CPU_MAP_ORDER, "cpu_map_order", "siblings must have the numbers from 0 to one less than their count, each once, in any order" },
    { SUNDERWATH_CPU_MAP_DEPTH, "cpu_map_depth", "more than four clusters are nested" },
    { SUNDERWATH_CPU_MAP_EMPTY, "cpu_map_empty", "a cpu-map, socket or cluster must have children" },
    { SUNDERWATH_CPU_MAP_PHANDLE, "cpu_map_phandle", "cpu must be the phandle of a cpu node" },
    { SUNDERWATH_CPU_MAP_CPU_REPEATED, "cpu_map_cpu_repeated", "cpu names a cpu node that an earlier core or thread names" },
    { SUNDERWATH_CPU_UNMAPPED, "cpu_unmapped", "no core or thread of cpu-map names this cpu node" },
    { SUNDERWATH_ROW_SPACE, "row_space", "the row buffer is too short for the cpu nodes" },
    { SUNDERWATH_LIST_LENGTH, "list_length", "the list does not have 1 to 256 MPIDRs, or ends inside one" },
    { SUNDERWATH_LIST_MPIDR, "list_mpidr", "an MPIDR has bits outside the affinity bits" },
    { SUNDERWATH_LIST_UNKNOWN, "list_unknown", "the MPIDR is not in the list" },
    { SUNDERWATH_BLOB_HEADER, "blob_header", "not a devicetree blob that can be read" },
    { SUNDERWATH_BLOB_BLOCKS, "blob_blocks", "the structure or strings block does not lie as it must" },
    { SUNDERWATH_BLOB_STRUCTURE, "blob_structure", "the token stream breaks the specification's structure" },
    { SUNDERWATH_BLOB_CPUS, "blob_cpus", "the root must have exactly one child named cpus" },
    { SUNDERWATH_TABLE_SPACE, "table_space", "a table is too short for the records of /cpus" },
    { SUNDERWATH_CPUS_ADDRESS_CELLS, "cpus_address_cells", "#address-cells must be one cell, with a value that the board allows" },
    { SUNDERWATH_CPUS_SIZE_CELLS, "cpus_size_cells", "#size-cells must be one cell, with the value 0" },
    { SUNDERWATH_SLOT_TABLE_BITS, "slot_table_bits", "the hash has more than 12 bits, too many for a table of slots" },
    { SUNDERWATH_SLOT_TABLE_SPACE, "slot_table_space", "the table of slots is too short for the hash" },
    { SUNDERWATH_PLAN_POSITIONS, "plan_positions", "the positions must rise within bits 23..0 and 39..32, and tell different MPIDRs apart" },
    { SUNDERWATH_ANSWER_SPACE, "answer_space", "the answer is shorter than stated" }
};

static const struct message unknown = { 0, "unknown_number", "unknown number" };

static const struct message *find(uint32_t number)
{
    size_t k;

    for (k = 0; k < sizeof messages / sizeof messages[0]; k++)
        if (messages[k].number == number)
            return &messages[k];
    return &unknown;
}

const char *sunderwath_strerror(uint32_t number)
{
    return find(number)->sentence;
}

const char *sunderwath_check_name(uint32_t number)
{
    return find(number)->check;
}
