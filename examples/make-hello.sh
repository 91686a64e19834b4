#!/bin/sh
# Writes the image of examples/hello on standard output, byte for byte, in octal. hello.md tells what each byte is.
set -e

# The ELF header, 52 bytes.
printf '\177ELF'                 # the magic
printf '\001\001\001'            # 32-bit words, the lowest byte first, version 1
printf '\000\000\000\000\000\000\000\000\000'
printf '\002\000'                # e_type: an executable
printf '\003\000'                # e_machine: the 80386
printf '\001\000\000\000'        # e_version
printf '\124\000\200\000'        # e_entry: 0x00800054
printf '\064\000\000\000'        # e_phoff: 52, right behind this header
printf '\000\000\000\000'        # e_shoff: no table of sections
printf '\000\000\000\000'        # e_flags
printf '\064\000'                # e_ehsize: 52
printf '\040\000'                # e_phentsize: 32
printf '\001\000'                # e_phnum: 1
printf '\000\000\000\000\000\000' # e_shentsize, e_shnum, e_shstrndx

# The program header, 32 bytes: the whole file is the segment.
printf '\001\000\000\000'        # p_type: to be loaded
printf '\000\000\000\000'        # p_offset: from the file's start
printf '\000\000\200\000'        # p_vaddr: 0x00800000
printf '\000\000\200\000'        # p_paddr: the same; nobody looks at it
printf '\176\000\000\000'        # p_filesz: 126
printf '\176\000\000\000'        # p_memsz: 126
printf '\005\000\000\000'        # p_flags: may be read (4) and run (1)
printf '\000\020\000\000'        # p_align: 4,096

# The program, at 0x00800054.
printf '\270\000\000\000\000'    # MOV EAX,0: the call cputs
printf '\272\161\000\200\000'    # MOV EDX,0x00800071: where the text is
printf '\271\015\000\000\000'    # MOV ECX,13: how long it is
printf '\315\060'                # INT 0x30: the system call
printf '\270\003\000\000\000'    # MOV EAX,3: the call env_destroy
printf '\272\000\000\000\000'    # MOV EDX,0: of the caller itself
printf '\315\060'                # INT 0x30: the system call

# The text, at 0x00800071.
printf 'hello, world\012'
