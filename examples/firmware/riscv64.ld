/* SPDX-License-Identifier: BSD-2-Clause OR GPL-2.0-or-later */
/*
 * riscv64.ld - where the image lies on QEMU's virt machine
 *
 * With -bios none every hart begins at the start of RAM, whatever the entry of the ELF file says.
 * QEMU puts the devicetree near the end of RAM.
 */
ENTRY(_start)
PROVIDE(tree_override = 0);
PROVIDE(boot_hart = 0);

PHDRS
{
    code PT_LOAD FLAGS(5);
    data PT_LOAD FLAGS(6);
}

SECTIONS
{
    . = 0x80000000;
    .text : { KEEP(*(.text.start)) *(.text .text.*) } :code
    .rodata : { *(.rodata .rodata.* .srodata .srodata.*) } :code
    . = ALIGN(0x1000);
    .data : { *(.data .data.* .sdata .sdata.*) } :data
    .bss (NOLOAD) : ALIGN(16) { bss_start = .; *(.sbss .sbss.* .bss .bss.* COMMON) . = ALIGN(16); bss_end = .; } :data
    /* A stack that is too short runs into the buffers of .bss, not into the program. */
    .stack (NOLOAD) : ALIGN(16) { KEEP(*(.stack)) stack_top = .; } :data
    /DISCARD/ : { *(.comment) *(.note*) *(.eh_frame*) *(.riscv.attributes) }
}
ASSERT(SIZEOF(.stack) != 0, "there is no stack")
