/* SPDX-License-Identifier: BSD-2-Clause OR GPL-2.0-or-later */
/*
 * machine-aarch64.c - QEMU's virt machine with 64-bit ARM processors
 */
#include <stddef.h>

#include "machine.h"
#include "sunderwath.h"
#include "text.h"

/* A PL011: data, flags and control register. */
#define UART_DATA (*(volatile uint32_t *)0x09000000)
#define UART_FLAGS (*(volatile uint32_t *)0x09000018)
#define UART_CONTROL (*(volatile uint32_t *)0x09000030)
#define FLAG_BUSY (1u << 3)
#define FLAG_FULL (1u << 5)
#define CONTROL_ENABLE_AND_SEND 0x101u

/* The affinity bits of MPIDR_EL1; the others are no part of an id. */
#define AFFINITY_BITS 0xFF00FFFFFFu

#define SYS_EXIT_EXTENDED 0x20
#define APPLICATION_EXIT 0x20026
#define PSCI_SYSTEM_OFF 0x84000008u

/* start-aarch64.S */
extern uint8_t ram_start[];
void semihosting(uint64_t operation, const uint64_t *block);
void hypervisor(uint64_t function);

const uint32_t machine_board = SUNDERWATH_ARM64;
const char machine_id_name[] = "mpidr";

/* Start-up sets the registers of EL1: at another level nothing would trap as it should. */
bool machine_start(void)
{
    uint64_t level;

    UART_CONTROL = CONTROL_ENABLE_AND_SEND;
    __asm__ volatile("mrs %0, CurrentEL" : "=r"(level));
    level >>= 2;
    if (level == 1)
        return true;
    put_text("entered at EL");
    put_number(level);
    put_text(", and this start-up is for EL1\n");
    return false;
}

void machine_put(char byte)
{
    while (UART_FLAGS & FLAG_FULL)
        ;
    UART_DATA = (uint8_t)byte;
}

/* An image in ELF form gets 0 in x0, and the tree lies at the start of RAM. A raw image gets the
 * address, as Linux does. */
const uint8_t *machine_tree(uint64_t handed_over)
{
    return handed_over ? (const uint8_t *)handed_over : ram_start;
}

uint64_t machine_own_id(void)
{
    uint64_t mpidr;

    __asm__ volatile("mrs %0, mpidr_el1" : "=r"(mpidr));
    return mpidr & AFFINITY_BITS;
}

/* Semihosting takes a status. Without QEMU's -semihosting it does nothing, and PSCI turns the
 * machine off, with status 0. */
_Noreturn void machine_leave(uint32_t status)
{
    const uint64_t block[2] = { APPLICATION_EXIT, status };

    while (UART_FLAGS & FLAG_BUSY)
        ;
    semihosting(SYS_EXIT_EXTENDED, block);
    hypervisor(PSCI_SYSTEM_OFF);
    machine_stop();
}

_Noreturn void machine_stop(void)
{
    for (;;)
        __asm__ volatile("wfi");
}
