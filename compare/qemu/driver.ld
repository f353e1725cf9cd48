/* The driver's own memory lies below 0x8000, within reach of an offset from register 0. */
ENTRY(_start)
SECTIONS
{
        .low 0x4000 (NOLOAD) : { *(.low) }
        .text 0x20000 : { *(.text) *(.rodata) }
        /DISCARD/ : { *(.MIPS.abiflags) *(.MIPS.options) *(.reginfo) *(.pdr) *(.gnu.attributes) *(.data) *(.bss) }
}
