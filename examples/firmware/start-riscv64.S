/* SPDX-License-Identifier: BSD-2-Clause OR GPL-2.0-or-later */
/*
 * start-riscv64.S - start-up on QEMU's virt machine, riscv64
 *
 * With -bios none every hart enters here, in M-mode, with its id in a0 and the devicetree's
 * address in a1. One goes on; the others stand still.
 */
        .section .text.start, "ax"
        .globl  _start
_start:
        csrw    mie, zero
        la      t0, exception
        csrw    mtvec, t0
        csrr    t0, mhartid
        ld      t1, boot_hart_id
        bne     t0, t1, stand_still
        li      t0, 0x6000
        csrc    mstatus, t0             # FS: floating point stays off

        la      t0, bss_start
        la      t1, bss_end
        li      t2, 0
        jal     fill
        la      t0, stack
        la      t1, stack_top
        li      t2, 0xa5a5a5a5a5a5a5a5  # a painted stack tells how much of it is used
        jal     fill
        mv      sp, t1
        mv      a0, a1
        call    firmware                # does not return

stand_still:
        wfi
        j       stand_still

# Fills the bytes from t0 to t1, 8 at a time, with t2.
fill:
        bgeu    t0, t1, 1f
        sd      t2, 0(t0)
        addi    t0, t0, 8
        j       fill
1:      ret

# Every exception tells its cause and ends the run.
        .balign 4
exception:
        la      sp, stack_top
        csrr    a0, mcause
        csrr    a1, mepc
        csrr    a2, mtval
        call    trapped                 # does not return

# Symbols that the linker is given: the hart that goes on, and where a tree is to be read instead of
# the machine's, 0 for none.
        .section .rodata
        .balign 8
boot_hart_id:
        .quad   boot_hart
        .globl  tree_instead
tree_instead:
        .quad   tree_override
