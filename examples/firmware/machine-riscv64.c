/* SPDX-License-Identifier: BSD-2-Clause OR GPL-2.0-or-later */
/*
 * machine-riscv64.c - QEMU's virt machine with 64-bit RISC-V harts
 */
#include <stddef.h>

#include "machine.h"
#include "sunderwath.h"

/* A 16550: data and line status register. */
#define UART_DATA (*(volatile uint8_t *)0x10000000)
#define UART_STATUS (*(volatile uint8_t *)0x10000005)
#define STATUS_ROOM (1u << 5)
#define STATUS_IDLE (1u << 6)

/* The test device ends QEMU. */
#define TEST (*(volatile uint32_t *)0x00100000)
#define TEST_PASS 0x5555u
#define TEST_FAIL 0x3333u

const uint32_t machine_board = SUNDERWATH_RISCV;
const char machine_id_name[] = "hart";

/* QEMU's 16550 sends as it is. */
bool machine_start(void)
{
    return true;
}

void machine_put(char byte)
{
    while (!(UART_STATUS & STATUS_ROOM))
        ;
    UART_DATA = (uint8_t)byte;
}

/* The address stands in a1. */
const uint8_t *machine_tree(uint64_t handed_over)
{
    return (const uint8_t *)handed_over;
}

uint64_t machine_own_id(void)
{
    uint64_t hart;

    __asm__ volatile("csrr %0, mhartid" : "=r"(hart));
    return hart;
}

_Noreturn void machine_leave(uint32_t status)
{
    while (!(UART_STATUS & STATUS_IDLE))
        ;
    TEST = status ? status << 16 | TEST_FAIL : TEST_PASS;
    machine_stop();
}

_Noreturn void machine_stop(void)
{
    for (;;)
        __asm__ volatile("wfi");
}
