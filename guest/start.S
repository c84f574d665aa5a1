# The start of a program. At its entry every register is 0, and so is memory where neither the image nor the input was
# laid: bss needs no clearing. What is left to do is to give it a stack.
    .section .text.start, "ax"
    .globl _start
_start:
    lui  sp, 0x30000        # The stack grows down from 0x30000000, away from the input above it.
    call main
    li   a7, 93             # The exit call. The status is in a0: it is what main returned.
    ecall
