# How images are built: what the Makefiles of this folder, of library/ and of disk/ have in common. Who includes it has said
#
#     INCLUDES   where the headers are, as gcc takes it
#     HEADERS    the headers
#     SOURCES    the files of the library, which are in lib/, or where vpath finds such names
#
# It takes gcc, as, ld and ar for the 80386 (on Debian: apt-get install gcc make; no gcc-multilib, for nothing of the C
# library is used). The images that stand in bin/ are those of the gcc and the ld named here. With others the images do
# the same, and their bytes, steps and addresses may be others.
GCC_VERSION = 12.2.0
LD_VERSION = 2.40

CC = gcc
ifeq ($(shell command -v $(CC)),)
$(error there is no $(CC); on Debian: apt-get install gcc make)
endif
CFLAGS = -m32 -march=i386 -O1 -std=gnu11 -Wall -Wextra -Wno-unused-parameter -ffreestanding -nostdlib -fno-pic -no-pie \
	-static -fno-asynchronous-unwind-tables -fno-stack-protector -fcf-protection=none $(INCLUDES) $(DEBUG)
LDFLAGS = $(if $(DEBUG),,-s) -Wl,--build-id=none,-z,noexecstack,-z,max-page-size=4

BIN = bin
OBJ = obj
PROGRAMS = $(basename $(notdir $(wildcard programs/*.c)))
LIBRARY = $(SOURCES:%=$(OBJ)/%.o)

all: $(PROGRAMS:%=$(BIN)/%)

# The entry comes first, since ld takes the rest of the library as it is asked for.
$(BIN)/%: $(OBJ)/programs/%.c.o $(OBJ)/lib/entry.S.o $(OBJ)/libuser.a lib/user.ld
	@mkdir -p $(@D)
	$(CC) $(CFLAGS) $(LDFLAGS) -Wl,-T,$(filter %.ld,$^) -o $@ $(OBJ)/lib/entry.S.o $< $(OBJ)/libuser.a

$(OBJ)/libuser.a: $(LIBRARY)
	@rm -f $@
	ar rcsD $@ $^

$(OBJ)/%.o: % $(HEADERS) $(MAKEFILE_LIST)
	@mkdir -p $(@D)
	$(CC) $(CFLAGS) -c -o $@ $<

# whether this gcc and this ld are the stated ones
stated:
	@$(CC) -dumpfullversion | grep -qxF $(GCC_VERSION)
	@ld --version | head -n 1 | grep -qF '$(LD_VERSION)'

clean:
	rm -rf $(OBJ)

.PHONY: all stated clean
.SECONDARY:
