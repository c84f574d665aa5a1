/* Standard output and standard error are the output of the run, byte by byte: ECALL 1, or with ON_LINUX its call `write`, 64. Standard
 * input is empty. */
#include <stdio.h>

static int put(char byte, FILE *stream)
{
    (void)stream;
#ifdef ON_LINUX
    register int file __asm__("a0") = 1;
    register const char *from __asm__("a1") = &byte;
    register unsigned count __asm__("a2") = 1;
    register unsigned call __asm__("a7") = 64;
    __asm__ volatile("ecall" : "+r"(file) : "r"(from), "r"(count), "r"(call) : "memory");
#else
    register unsigned argument __asm__("a0") = (unsigned char)byte;
    register unsigned call __asm__("a7") = 1;
    __asm__ volatile("ecall" : : "r"(argument), "r"(call));
#endif
    return (unsigned char)byte;
}

static int get(FILE *stream)
{
    (void)stream;
    return EOF;
}

static FILE written = FDEV_SETUP_STREAM(put, NULL, NULL, _FDEV_SETUP_WRITE);
static FILE read = FDEV_SETUP_STREAM(NULL, get, NULL, _FDEV_SETUP_READ);

FILE *const stdin = &read;
FILE *const stdout = &written;
FILE *const stderr = &written;
