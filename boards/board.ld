/* A small board: 256 KB of code at code_at, 16 KB of memory at memory_at; the command line sets both. The stack is below the
 * data, so that one that grows too large leaves the memory and does not reach into the data. */
MEMORY {
    code (rx) : ORIGIN = code_at, LENGTH = 256K
    memory (rw) : ORIGIN = memory_at, LENGTH = 16K
}

SECTIONS {
    .text : {
        KEEP(*(.start))
        *(.text .text.* .rodata .rodata.* .srodata .srodata.*)
        . = ALIGN(8);
    } >code
    .ARM.exidx : { *(.ARM.exidx*) } >code

    .stack (NOLOAD) : {
        . += 8K;
        stack_top = .;
    } >memory
    .data : {
        data_start = .;
        *(.data .data.* .sdata .sdata.*)
        . = ALIGN(8);
        data_end = .;
    } >memory AT>code
    data_from = LOADADDR(.data);
    .bss (NOLOAD) : {
        bss_start = .;
        *(.bss .bss.* .sbss .sbss.* COMMON)
        . = ALIGN(8);
        bss_end = .;
    } >memory AT>memory
}
