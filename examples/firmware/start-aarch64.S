/* SPDX-License-Identifier: BSD-2-Clause OR GPL-2.0-or-later */
/*
 * start-aarch64.S - start-up on QEMU's virt machine, aarch64
 *
 * QEMU enters at EL1 on processor 0 alone, with the MMU off; the others are off until PSCI starts
 * them. One processor goes on, the one whose id is boot_mpidr; where that is not 0, processor 0 has
 * PSCI start it. x0 is kept for C: the devicetree's address, or 0.
 */
        .section .text.start, "ax"
        .globl  _start
_start:
        msr     daifset, #15
        ldr     x1, =vectors
        msr     vbar_el1, x1
        mrs     x1, mpidr_el1
        and     x1, x1, #0xffffffffff   // the affinity bits: 39..32 and 23..0
        and     x1, x1, #0xffffffff00ffffff
        ldr     x2, =boot_mpidr
        cmp     x1, x2
        b.ne    another

        mrs     x1, sctlr_el1
        orr     x1, x1, #2              // A: misaligned accesses trap, as they do on hardware with the MMU off
        msr     sctlr_el1, x1
        msr     cpacr_el1, xzr          // floating point stays off
        isb

        ldr     x1, =bss_start
        ldr     x2, =bss_end
        mov     x3, xzr
        bl      fill
        ldr     x1, =stack
        ldr     x2, =stack_top
        ldr     x3, =0xa5a5a5a5a5a5a5a5 // a painted stack tells how much of it is used
        bl      fill
        mov     sp, x2
        bl      firmware                // does not return

another:
        cbnz    x1, stand_still
        mov     x3, x0                  // what it will have in x0
        mov     x1, x2
        ldr     x2, =_start
        ldr     x0, =0xc4000003         // CPU_ON
        hvc     #0

stand_still:
        wfi
        b       stand_still

// Fills the bytes from x1 to x2, 16 at a time, with x3.
fill:
        cmp     x1, x2
        b.hs    1f
        stp     x3, x3, [x1], #16
        b       fill
1:      ret

// void semihosting(uint64_t operation, const uint64_t *block)
        .globl  semihosting
semihosting:
        hlt     #0xf000
        ret

// void hypervisor(uint64_t function): a PSCI call without arguments
        .globl  hypervisor
hypervisor:
        hvc     #0
        ret

// Every exception tells its cause and ends the run, but one: without QEMU's -semihosting the instruction above is undefined, and
// is left out.
        .balign 2048
vectors:
        .rept   16
        .balign 128
        b       exception
        .endr

exception:
        mrs     x1, elr_el1
        ldr     x2, =semihosting
        cmp     x1, x2
        b.eq    2f
        ldr     x2, =stack_top
        mov     sp, x2
        mrs     x0, esr_el1
        mrs     x2, far_el1
        bl      trapped                 // does not return
2:      add     x1, x1, #4
        msr     elr_el1, x1
        eret

// Where a tree is to be read instead of the machine's: a symbol that the linker is given, 0 for none.
        .section .rodata
        .balign 8
        .globl  tree_instead
tree_instead:
        .quad   tree_override
