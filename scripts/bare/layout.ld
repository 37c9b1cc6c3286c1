/* A bare machine: START is where its memory begins, or where its loader puts a kernel. */
ENTRY(_start)
SECTIONS {
    . = START;
    .text : { KEEP(*(.start)) *(.text*) *(.rodata*) }
    .data : { *(.data*) }
    .bss : { . = ALIGN(8); zeros = .; *(.bss*) *(COMMON) . = ALIGN(8); zeros_end = .; }
    /DISCARD/ : { *(.note*) *(.eh_frame*) *(.comment) }
}
