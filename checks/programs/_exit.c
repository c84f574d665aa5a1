/* The end of a run: ECALL 93. */
#include <unistd.h>

void _exit(int status)
{
    register int argument __asm__("a0") = status;
    register int call __asm__("a7") = 93;
    __asm__ volatile("ecall" : : "r"(argument), "r"(call));
    __builtin_unreachable();
}
