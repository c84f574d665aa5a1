/* What a program has of the machine that refcli runs: its input, and three calls. docs/MACHINE.md has the rules. The input
 * is either in memory or behind a call, as the case's key `version` says: a program uses the one or the other.
 *
 * Compiled freestanding for RISC-V, as `build` does, these are loads and ECALLs. Compiled for a host they are standard
 * input, standard output and exit, so that the same program runs there. A program is one file, which includes this. */
#ifndef MACHINE_H
#define MACHINE_H

#include <stddef.h>
#include <stdint.h>

/* The longest input that a case may have. */
#define MAX_INPUT_BYTES 1048576u

#if defined __riscv && __STDC_HOSTED__ == 0

/* The input's length in bytes, in versions 1 and 2. */
static inline uint32_t input_length(void)
{
    return *(const uint32_t *)0x40000000u;
}

/* The input's bytes, one after another, in versions 1 and 2. */
static inline const uint8_t *input_bytes(void)
{
    return (const uint8_t *)0x40000004u;
}

/* Appends a byte to the output: ECALL 1. */
static inline void put_byte(uint8_t byte)
{
    register uint32_t argument __asm__("a0") = byte;
    register uint32_t call __asm__("a7") = 1;
    __asm__ volatile("ecall" : : "r"(argument), "r"(call));
}

/* The input's byte of a number from 0, or -1 where it has no such byte, in version 3: ECALL 2. */
static inline int32_t read_byte(uint32_t number)
{
    register uint32_t argument __asm__("a0") = number;
    register uint32_t call __asm__("a7") = 2;
    __asm__ volatile("ecall" : "+r"(argument) : "r"(call));
    return (int32_t)argument;
}

/* Ends the run, as a return from main does: ECALL 93. A host keeps the low eight bits of the status and the machine all
 * 32, so that one from 0 to 255 is the same on both. */
_Noreturn static inline void exit_with(int status)
{
    register int argument __asm__("a0") = status;
    register uint32_t call __asm__("a7") = 93;
    __asm__ volatile("ecall" : : "r"(argument), "r"(call));
    __builtin_unreachable();
}

/* There is no C library. These four are in machine.c, since the compiler may call them of itself. */
void *memcpy(void *restrict to, const void *restrict from, size_t count);
void *memmove(void *to, const void *from, size_t count);
void *memset(void *to, int byte, size_t count);
int memcmp(const void *left, const void *right, size_t count);

#else

#include <stdio.h>
#include <stdlib.h>
#include <string.h>

/* One byte more than the longest input, to detect one that is longer. */
static uint8_t host_input[MAX_INPUT_BYTES + 1];
static size_t host_input_length;

_Noreturn static inline void host_fault(const char *text)
{
    fprintf(stderr, "machine.h: %s\n", text);
    abort();
}

/* Reads standard input at the first call. */
static inline const uint8_t *input_bytes(void)
{
    static int was_read;
    if (!was_read) {
        host_input_length = fread(host_input, 1, sizeof host_input, stdin);
        if (ferror(stdin))
            host_fault("standard input can't be read");
        if (host_input_length > MAX_INPUT_BYTES)
            host_fault("the input has more than 1048576 bytes");
        was_read = 1;
    }
    return host_input;
}

static inline uint32_t input_length(void)
{
    input_bytes();
    return (uint32_t)host_input_length;
}

static inline int32_t read_byte(uint32_t number)
{
    return number < input_length() ? input_bytes()[number] : -1;
}

static inline void put_byte(uint8_t byte)
{
    if (putchar(byte) == EOF)
        host_fault("standard output can't be written");
}

_Noreturn static inline void exit_with(int status)
{
    exit(status);
}

#endif
#endif
