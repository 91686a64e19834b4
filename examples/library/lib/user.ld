/* Text and constants, then data and zeros, each from the beginning of a page on, since a page has one right. No headers
   are mapped, which would lie below 0x00800000, where no segment may. (JOS: user/user.ld) */
OUTPUT_FORMAT("elf32-i386")
ENTRY(_start)
PHDRS { text PT_LOAD FLAGS(5); data PT_LOAD FLAGS(6); }

SECTIONS
{
    . = 0x00800020;
    .text : { *(.text .text.*) } :text
    .rodata : { *(.rodata .rodata.*) } :text
    . = ALIGN(0x1000);
    .data : { *(.data .data.*) } :data
    .bss : { *(.bss .bss.* COMMON) } :data
    /DISCARD/ : { *(.comment .note .note.* .eh_frame .eh_frame.*) }
}
