/* Text and constants, then data and zeros, each from the beginning of a page on, as ../lib/user.ld has them; and beside
   that the functions that are called before main and behind it. */
OUTPUT_FORMAT("elf32-i386")
ENTRY(_start)
PHDRS { text PT_LOAD FLAGS(5); data PT_LOAD FLAGS(6); }

/* the windows of `exo` */
envs = 0xEEC00000;
pages = 0xEF000000;
uvpt = 0xEF400000;
uvpd = uvpt + (uvpt >> 12) * 4;

SECTIONS
{
    . = 0x00800020;
    .text : { *(.text .text.*) } :text
    .rodata : {
        *(.rodata .rodata.*)
        . = ALIGN(4);
        port_init_begin = .;
        KEEP(*(SORT_BY_INIT_PRIORITY(.init_array.*) .init_array))
        port_init_end = .;
        port_fini_begin = .;
        KEEP(*(SORT_BY_INIT_PRIORITY(.fini_array.*) .fini_array))
        port_fini_end = .;
    } :text
    . = ALIGN(0x1000);
    .data : { *(.data .data.*) } :data
    .bss : { *(.bss .bss.* COMMON) } :data
    /DISCARD/ : { *(.comment .note .note.* .eh_frame .eh_frame.*) }
}
