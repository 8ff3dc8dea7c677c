/* SPDX-License-Identifier: BSD-2-Clause OR GPL-2.0-or-later */
/*
 * A program for Linux without a C library, on x86-64, aarch64 and riscv64: its
 * start, the system calls that it needs, and the two functions that an archive
 * may need. To be compiled with -ffreestanding, and without patterns that the
 * compiler makes calls of memset and memcpy of, as these are below
 * (-fno-tree-loop-distribute-patterns).
 */
#ifndef BARE_H
#define BARE_H

#include <stddef.h>
#include <stdint.h>

/* The program; it returns the exit status. */
static int run(void);

/* What _start calls; it does not return. */
void begin(void);

/* What the archive and the compiler call. */
void *memset(void *to, int byte, size_t count);
void *memcpy(void *restrict to, const void *restrict from, size_t count);

#if defined(__x86_64__)

enum { CALL_READ = 0, CALL_WRITE = 1, CALL_PROTECT = 10, CALL_EXIT = 60 };

__asm__(".globl _start\n"
        "_start:\n"
        "    call begin\n");

static long system_call(long number, long a, long b, long c)
{
    long told;

    __asm__ volatile("syscall"
                     : "=a"(told)
                     : "a"(number), "D"(a), "S"(b), "d"(c)
                     : "rcx", "r11", "memory");
    return told;
}

#elif defined(__aarch64__)

enum { CALL_READ = 63, CALL_WRITE = 64, CALL_PROTECT = 226, CALL_EXIT = 93 };

__asm__(".globl _start\n"
        "_start:\n"
        "    bl begin\n");

static long system_call(long number, long a, long b, long c)
{
    register long x8 __asm__("x8") = number;
    register long x0 __asm__("x0") = a;
    register long x1 __asm__("x1") = b;
    register long x2 __asm__("x2") = c;

    __asm__ volatile("svc #0"
                     : "+r"(x0)
                     : "r"(x8), "r"(x1), "r"(x2)
                     : "memory");
    return x0;
}

#elif defined(__riscv) && __riscv_xlen == 64

enum { CALL_READ = 63, CALL_WRITE = 64, CALL_PROTECT = 226, CALL_EXIT = 93 };

/* The linker makes addresses of gp, which is not set yet. */
__asm__(".globl _start\n"
        "_start:\n"
        "    .option push\n"
        "    .option norelax\n"
        "    la gp, __global_pointer$\n"
        "    .option pop\n"
        "    call begin\n");

static long system_call(long number, long a, long b, long c)
{
    register long a7 __asm__("a7") = number;
    register long a0 __asm__("a0") = a;
    register long a1 __asm__("a1") = b;
    register long a2 __asm__("a2") = c;

    __asm__ volatile("ecall"
                     : "+r"(a0)
                     : "r"(a7), "r"(a1), "r"(a2)
                     : "memory");
    return a0;
}

#else
#error "no start for this processor"
#endif

void *memset(void *to, int byte, size_t count)
{
    uint8_t *at = to;

    while (count-- > 0)
        *at++ = (uint8_t)byte;
    return to;
}

static void leave(int status)
{
    for (;;)
        system_call(CALL_EXIT, status, 0, 0);
}

void begin(void)
{
    leave(run());
}

/* Reads all of standard input that the room takes; -1 where it has more, or
 * cannot be read. */
static long read_all(uint8_t *to, size_t room)
{
    size_t count = 0;
    long told = 1;

    while (told > 0 && count < room) {
        told = system_call(CALL_READ, 0, (long)(to + count),
                           (long)(room - count));
        count += told > 0 ? (size_t)told : 0;
    }
    return told != 0 ? -1 : (long)count;
}

/* Writes all bytes; 0 where they cannot be written. */
static int write_all(int file, const uint8_t *from, size_t count)
{
    while (count > 0) {
        long told = system_call(CALL_WRITE, file, (long)from, (long)count);

        if (told <= 0)
            return 0;
        from += told;
        count -= (size_t)told;
    }
    return 1;
}

/* Makes whole pages trap where they are read or written; 0 where that fails. */
static int make_wall(uint8_t *at, size_t count)
{
    return system_call(CALL_PROTECT, (long)at, (long)count, 0) == 0;
}

/* Says on standard error what is wrong, and leaves. */
static void fail(int status, const char *text)
{
    size_t length = 0;

    while (text[length] != '\0')
        length++;
    write_all(2, (const uint8_t *)text, length);
    leave(status);
}

/* Parts that overlap may be copied in any order, so nobody may ask for it; a
 * part onto itself is copied all the same, and compilers ask for that. */
void *memcpy(void *restrict to, const void *restrict from, size_t count)
{
    uint8_t *at = to;
    const uint8_t *next = from;
    uintptr_t a = (uintptr_t)to, b = (uintptr_t)from;

    if (a != b && a < b + count && b < a + count)
        fail(5, "memcpy of parts that overlap\n");
    while (count-- > 0)
        *at++ = *next++;
    return to;
}

#endif /* BARE_H */
