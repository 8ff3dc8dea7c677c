/* SPDX-License-Identifier: BSD-2-Clause OR GPL-2.0-or-later */
/*
 * machine.h - what the program needs of the machine
 *
 * machine-aarch64.c and machine-riscv64.c define it for QEMU's virt machine. A port to a board
 * is another such file, a linker script, and what start-up has to do before C can run.
 */
#ifndef MACHINE_H
#define MACHINE_H

#include <stdbool.h>
#include <stdint.h>

/* The board number that sunderwath_read_blob takes, and what the board calls a processor's id. */
extern const uint32_t machine_board;
extern const char machine_id_name[];

/* Makes the UART ready. False, with a line that says why, where start-up cannot have done its
 * part. */
bool machine_start(void);

/* Sends one byte. */
void machine_put(char byte);

/* Where the devicetree lies, from what start-up found in the register for it. At least the 40 bytes
 * of a header can be read there, and SUNDERWATH_MAX_BLOB if it has the magic. */
const uint8_t *machine_tree(uint64_t handed_over);

/* The id of the processor that runs this, as `reg` of its cpu node states it. */
uint64_t machine_own_id(void);

/* Ends the run. Where nobody takes the status, the processor stands still. */
_Noreturn void machine_leave(uint32_t status);

/* Stands still. */
_Noreturn void machine_stop(void);

#endif /* MACHINE_H */
