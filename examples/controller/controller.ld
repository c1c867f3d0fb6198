/* The controller: 256 KB of flash and 16 KB of RAM, of which the stack has what is left at the top. */
MEMORY
{
    flash (rx) : ORIGIN = 0, LENGTH = 256K
    ram (rwx) : ORIGIN = 0x20000000, LENGTH = 16K
}
ENTRY(reset)
SECTIONS
{
    .text : { KEEP(*(.vectors)) *(.text .text.*) *(.rodata .rodata.*) . = ALIGN(4); } >flash
    .ARM.exidx : { *(.ARM.exidx .ARM.exidx.*) . = ALIGN(4); } >flash
    .data : { data_begin = .; *(.data .data.*) . = ALIGN(4); data_end = .; } >ram AT>flash
    data_from = LOADADDR(.data);
    .bss (NOLOAD) : { bss_begin = .; *(.bss .bss.* COMMON) . = ALIGN(4); bss_end = .; } >ram
    stack_top = ORIGIN(ram) + LENGTH(ram);
    ASSERT(stack_top - bss_end >= 4K, "less than 4 KB of RAM are left for the stack")
}
