/* SPDX-License-Identifier: BSD-2-Clause OR GPL-2.0-or-later */
/*
 * main.c - firmware that reads the machine's processors and finds its own
 *
 * The devicetree that the machine hands over is read by sunderwath_read_blob. Either all rows and
 * slots are printed and the row of the processor that runs this, or what is wrong and where; then
 * the run ends. There is no layout to fall back to, as none would be known to be true.
 */
#include <stdbool.h>
#include <stddef.h>
#include <stdint.h>

#include "machine.h"
#include "rows.h"
#include "stack.h"
#include "sunderwath.h"
#include "text.h"
#include "tree.h"

/* How a run ends: rows and the own one; a refusal; rows without the own one; otherwise, as with an
 * exception. */
enum status { STATUS_READ, STATUS_REFUSED, STATUS_NO_ROW, STATUS_STOPPED };

/* Room for as many rows as a board can have. */
static uint8_t rows[SUNDERWATH_MAX_CPUS * SUNDERWATH_ROW_BYTES];

/* Called by start-up. */
_Noreturn void firmware(uint64_t handed_over);
_Noreturn void trapped(uint64_t cause, uint64_t pc, uint64_t address);

/* A tree to be read instead of the machine's, for tests: a symbol of the linker, 0 for none. */
extern const uint64_t tree_instead;

/* Whether the run is ending. */
static bool ending;

/* The last line, without which the text is not whole. */
static _Noreturn void end(enum status status)
{
    ending = true;
    put_text("# stack used: ");
    put_number(stack_used());
    put_text(" of ");
    put_number(STACK_BYTES);
    put_text("\nend: status ");
    put_number(status);
    put_text("\n");
    machine_leave(status);
}

/* As the command line says it, but the place by numbers: a record of /cpus or an offset, and the
 * record of a property. */
static enum status refused(const uint8_t *answer)
{
    uint32_t number = word_at(answer + SUNDERWATH_BYTES_NUMBER);
    uint32_t second = word_at(answer + SUNDERWATH_BYTES_SECOND);

    put_text("ERROR ");
    put_number(number);
    put_text(" (");
    put_text(sunderwath_check_name(number));
    put_text("): ");
    put_text(sunderwath_strerror(number));
    put_text("\nat: place ");
    put_number(word_at(answer + SUNDERWATH_BYTES_PLACE));
    put_text(", second place ");
    if (second == SUNDERWATH_NO_PROPERTY)
        put_text("none");
    else
        put_number(second);
    put_text("\n");
    return STATUS_REFUSED;
}

/* The row of the processor that runs this. One that is not on the board has no row and no slot. */
static enum status find_own(uint32_t count)
{
    uint64_t id = machine_own_id();
    uint32_t own = rows_find(rows, count, id);

    put_text("own: ");
    put_text(machine_id_name);
    put_text(" ");
    rows_put_id(id);
    if (own == ROWS_NONE) {
        put_text(", in no row\n");
        return STATUS_NO_ROW;
    }
    put_text(", row ");
    put_number(own);
    rows_put_slot(rows, own, ", slot ");
    put_text("\n");
    return STATUS_READ;
}

static enum status read_tree(struct tree tree)
{
    uint8_t answer[SUNDERWATH_BYTES_ANSWER];
    uint32_t count;
    uint32_t number = sunderwath_read_blob(machine_board, tree.bytes, tree.count, rows, sizeof rows,
                                           answer, sizeof answer);

    if (!stack_sufficed()) {
        put_text("the stack is too short\n");
        return STATUS_STOPPED;
    }
    if (number != SUNDERWATH_ACCEPTED)
        return refused(answer);
    count = word_at(answer + SUNDERWATH_BYTES_COUNT);
    rows_print(rows, count);
    return find_own(count);
}

_Noreturn void firmware(uint64_t handed_over)
{
    const uint8_t *at = machine_tree(handed_over);
    struct tree tree;

    if (!machine_start())
        end(STATUS_STOPPED);
    if (tree_instead)
        at = (const uint8_t *)tree_instead;
    put_text("# tree at ");
    put_hex((uint64_t)at);
    tree = tree_lend(at);
    put_text(", bytes lent: ");
    put_number(tree.count);
    put_text("\n");
    end(read_tree(tree));
}

/* Any exception. Where the machine has no way out, leaving is one, and all has been told. */
_Noreturn void trapped(uint64_t cause, uint64_t pc, uint64_t address)
{
    if (ending)
        machine_stop();
    put_text("\nTRAP: cause ");
    put_hex(cause);
    put_text(", pc ");
    put_hex(pc);
    put_text(", address ");
    put_hex(address);
    put_text("\n");
    end(STATUS_STOPPED);
}
