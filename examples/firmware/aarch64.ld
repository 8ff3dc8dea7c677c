/* SPDX-License-Identifier: BSD-2-Clause OR GPL-2.0-or-later */
/*
 * aarch64.ld - where the image lies on QEMU's virt machine
 *
 * QEMU puts the devicetree at the start of RAM, and its header says 1 MiB. An image that begins
 * inside that MiB gets no tree, and QEMU does not say so.
 */
ENTRY(_start)
PROVIDE(tree_override = 0);
PROVIDE(boot_mpidr = 0);
ram_start = 0x40000000;
PROVIDE(image_start = ram_start + 0x200000);

PHDRS
{
    code PT_LOAD FLAGS(5);
    data PT_LOAD FLAGS(6);
}

SECTIONS
{
    . = image_start;
    .text : { KEEP(*(.text.start)) *(.text .text.*) } :code
    .rodata : { *(.rodata .rodata.*) } :code
    . = ALIGN(0x1000);
    .data : { *(.data .data.*) } :data
    .bss (NOLOAD) : ALIGN(16) { bss_start = .; *(.bss .bss.* COMMON) . = ALIGN(16); bss_end = .; } :data
    /* A stack that is too short runs into the buffers of .bss, not into the program. */
    .stack (NOLOAD) : ALIGN(16) { KEEP(*(.stack)) stack_top = .; } :data
    /DISCARD/ : { *(.comment) *(.note*) *(.eh_frame*) }
}
ASSERT(SIZEOF(.stack) != 0, "there is no stack")
