/* The memory of qemu's boards mps2-an385 and mps2-an386: 4 MB where the program stands, 16 MB for the rest. */
ENTRY(_start)
MEMORY {
    CODE (rx) : ORIGIN = 0x00000000, LENGTH = 4M
    DATA (rwx) : ORIGIN = 0x21000000, LENGTH = 16M
}
SECTIONS {
    .text : { KEEP(*(.vectors)) *(.text*) KEEP(*(.init)) KEEP(*(.fini)) *(.rodata*) KEEP(*(.eh_frame*)) } > CODE
    .ARM.extab : { *(.ARM.extab*) } > CODE
    .ARM.exidx : { __exidx_start = .; *(.ARM.exidx*) __exidx_end = .; } > CODE
    .preinit_array : { __preinit_array_start = .; KEEP(*(.preinit_array*)) __preinit_array_end = .; } > CODE
    .init_array : { __init_array_start = .; KEEP(*(SORT(.init_array*))) __init_array_end = .; } > CODE
    .fini_array : { __fini_array_start = .; KEEP(*(.fini_array*)) __fini_array_end = .; } > CODE
    .data : { *(.data*) } > DATA
    .bss : { __bss_start__ = .; *(.bss*) *(COMMON) __bss_end__ = .; end = .; __end__ = .; } > DATA
    stack_top = ORIGIN(DATA) + LENGTH(DATA) - 16;
    __stack = stack_top;
}
