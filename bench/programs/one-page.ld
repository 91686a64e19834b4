/* One segment at 0x00800000, which holds the headers, the code and all data, and may be written. */
ENTRY(_start)
PHDRS { all PT_LOAD FILEHDR PHDRS FLAGS(7); }
SECTIONS
{
    . = 0x00800000 + SIZEOF_HEADERS;
    .all : { *(.text .text.* .rodata .rodata.* .data .data.* .bss .bss.* COMMON) } :all
    /DISCARD/ : { *(*) }
}
