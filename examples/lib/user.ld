/* Text and constants, then data and zeros, each from the beginning of a page on, since a page has one right. Without a
   script of its own ld would map the headers too, below 0x00800000, where no segment may lie. (JOS: user/user.ld) */
OUTPUT_FORMAT("elf32-i386")
ENTRY(_start)
PHDRS { text PT_LOAD FLAGS(5); data PT_LOAD FLAGS(6); }

/* the windows */
envs = 0xEEC00000;
pages = 0xEF000000;
uvpt = 0xEF400000;
uvpd = uvpt + (uvpt >> 12) * 4;

SECTIONS
{
    . = 0x00800020;
    .text : { *(.text .text.*) } :text
    .rodata : { *(.rodata .rodata.*) } :text
    . = ALIGN(0x1000);
    .data : { *(.data .data.*) } :data
    .bss : { *(.bss .bss.* COMMON) } :data
    /DISCARD/ : { *(.comment .note .note.* .eh_frame .eh_frame.*) }
}
