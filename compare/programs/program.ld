/* One place for all programs, low enough for 32-bit addresses (-msym32) and above what Linux keeps free. */
ENTRY(_start)
SECTIONS
{
        . = 0x20000 + SIZEOF_HEADERS;
        .text : { *(.text .text.*) *(.rodata .rodata.*) }
        . = ALIGN(0x1000);
        .data : { *(.data .data.*) }
        .bss : { *(.bss .bss.* COMMON) }
        /DISCARD/ : { *(.MIPS.abiflags) *(.MIPS.options) *(.reginfo) *(.pdr) *(.gnu.attributes) *(.comment) *(.note.*) }
}
