# The start of a program in C with picolibc. At its entry every register is 0, and memory is 0 where the image has no bytes, so bss needs
# no clearing. It gets a stack, a global pointer and a thread's own data, then its constructors are run, and then main. With ON_LINUX the
# program is one of Linux, for QEMU: that gives it a stack.
    .section .text.start, "ax"
    .globl _start
_start:
    .option push
    .option norelax
    la   gp, __global_pointer$
    .option pop
#ifndef ON_LINUX
    lui  sp, 0x30000        # The stack grows down from 0x30000000.
#endif
    la   tp, __tls_base
    call __libc_init_array
    li   a0, 0
    li   a1, 0
    li   a2, 0
    call main
    call exit
