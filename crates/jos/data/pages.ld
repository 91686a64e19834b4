/* Text and tables, then data and zeros, each from a page's beginning on. */
ENTRY(_start)
PHDRS { text PT_LOAD FLAGS(5); data PT_LOAD FLAGS(6); }
SECTIONS
{
    . = 0x00800020;
    .text : { *(.text .text.* .rodata .rodata.*) } :text
    . = ALIGN(0x1000) + 0x20;
    .data : { *(.data .data.*) } :data
    .bss : { *(.bss .bss.* COMMON) } :data
    /DISCARD/ : { *(*) }
}
