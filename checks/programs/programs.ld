/* A program with picolibc, from 0x00010000 on, in two loads: what is only read, then what is written, with the bss behind it. The heap
 * begins behind that. start.S sets the stack to 0x30000000. */
OUTPUT_ARCH(riscv)
ENTRY(_start)

PHDRS
{
    code PT_LOAD FLAGS(5);
    data PT_LOAD FLAGS(6);
}

SECTIONS
{
    . = 0x00010000;
    .text : { KEEP(*(.text.start)) *(.text .text.*) } :code
    .rodata : { *(.rodata .rodata.*) } :code
    .init : {
        PROVIDE_HIDDEN(__preinit_array_start = .);
        KEEP(*(.preinit_array))
        PROVIDE_HIDDEN(__preinit_array_end = .);
        PROVIDE_HIDDEN(__bothinit_array_start = .);
        PROVIDE_HIDDEN(__init_array_start = .);
        KEEP(*(SORT_BY_INIT_PRIORITY(.init_array.*)))
        KEEP(*(.init_array .ctors))
        PROVIDE_HIDDEN(__init_array_end = .);
        PROVIDE_HIDDEN(__bothinit_array_end = .);
        PROVIDE_HIDDEN(__fini_array_start = .);
        KEEP(*(SORT_BY_INIT_PRIORITY(.fini_array.*)))
        KEEP(*(.fini_array .dtors))
        PROVIDE_HIDDEN(__fini_array_end = .);
    } :code
    . = ALIGN(0x1000);
    .data : {
        *(.data .data.*)
        . = ALIGN(8);
        PROVIDE(__global_pointer$ = . + 0x800);
        *(.srodata .srodata.* .sdata .sdata.*)
    } :data
    .tdata : { PROVIDE(__tls_base = .); *(.tdata .tdata.*) } :data
    .tbss : { *(.tbss .tbss.* .tcommon) } :data
    . = ALIGN(. + SIZEOF(.tbss), 16);
    .bss : { *(.sbss .sbss.*) *(.bss .bss.*) *(COMMON) } :data
    . = ALIGN(16);
    PROVIDE(__heap_start = .);
    PROVIDE(__heap_end = 0x20000000);
    ASSERT(. <= 0x20000000, "the program reaches above 0x20000000, where it leaves the stack less than 256 MiB")
    /DISCARD/ : { *(.comment) *(.note .note.*) *(.eh_frame .eh_frame_hdr) *(.riscv.attributes) }
}
