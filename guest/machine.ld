/* The program from 0x00010000 on, in two loads: what is only read, then what is written, with the bss behind it. */
OUTPUT_ARCH(riscv)
ENTRY(_start)

PHDRS
{
    code PT_LOAD FLAGS(5);
    data PT_LOAD FLAGS(6);
}

SECTIONS
{
    . = 0x00010000;
    .text : { KEEP(*(.text.start)) *(.text .text.*) } :code
    .rodata : { *(.rodata .rodata.* .srodata .srodata.*) } :code
    . = ALIGN(0x1000);
    .data : { *(.data .data.* .sdata .sdata.*) } :data
    .bss : { *(.sbss .sbss.*) *(.bss .bss.*) *(COMMON) } :data
    /* start.S sets the stack to 0x30000000. */
    ASSERT(. <= 0x20000000, "the program reaches above 0x20000000, where it leaves the stack less than 256 MiB")
    /DISCARD/ : { *(.comment) *(.note .note.*) *(.eh_frame) *(.riscv.attributes) }
}
