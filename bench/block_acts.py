"""The acts on files as changes of the blocks of a disk: crates/fs_acts/specs/BlockActs.antt as a program, in the same order and words.

A disk is its bytes: `byte[at]` is the byte at a place.

    plan_of(is_open, byte, act)     the changes, the word that is answered, and the bytes that are handed back
    puts_of(is_open, byte, act)     the same, with the changes laid out as puts
    written(puts, byte)             the disk behind so many puts

A put is one store, of a word at a multiple of four or of a byte. A change is a function from a disk to its puts. `blocks.py` compares this
with a model of the tree of files.
"""

BLKSIZE, RECORDSIZE, BLKFILES, BLKBITSIZE = 4096, 256, 16, 32768
MAXNAMELEN, MAXPATHLEN, NDIRECT, NINDIRECT = 128, 1024, 10, 1024
MAXFILESIZE = (NDIRECT + NINDIRECT) * BLKSIZE
SIZE_AT, KIND_AT, DIRECT_AT, INDIRECT_AT = 128, 132, 136, 176
FTYPE_REG, FTYPE_DIR, FS_MAGIC, MINBLOCKS, MAXBLOCKS = 0, 1, 0x4A0530AE, 4, 16384
O_CREAT, O_TRUNC, O_EXCL = 0x100, 0x200, 0x400
E_INVAL, E_NO_DISK, E_NOT_FOUND, E_BAD_PATH, E_FILE_EXISTS = 3, 9, 11, 12, 13

root_place = BLKSIZE + 8


# ---- what stands on a disk (as in the definitions of a disk image)

def word_at(byte, at):
    return int.from_bytes(byte[at:at + 4], 'little')

def block_count(byte):
    return word_at(byte, BLKSIZE + 4)

def blocks_of(size):
    return (size + BLKSIZE - 1) // BLKSIZE

def needs_indirect(size):
    return NDIRECT < blocks_of(size)

def first_data_block(byte):
    return 2 + (block_count(byte) + BLKBITSIZE - 1) // BLKBITSIZE

def is_data_block(byte, block):
    return first_data_block(byte) <= block < block_count(byte)

def size_of(byte, place):
    return word_at(byte, place + SIZE_AT)

def indirect_of(byte, place):
    return word_at(byte, place + INDIRECT_AT)

def name_of(byte, place):
    return bytes(byte[place:place + MAXNAMELEN]).split(b'\0')[0]

def is_empty_record(byte, place):
    return byte[place] == 0

def is_directory(byte, place):
    return word_at(byte, place + KIND_AT) == FTYPE_DIR

def has_indirect(byte, place):
    return indirect_of(byte, place) != 0

def blocks_needed(byte, place):
    return blocks_of(size_of(byte, place))

def slot_count(byte, place):
    return size_of(byte, place) // RECORDSIZE

# where the number of a block stands, of those that are counted from 0: in the record, or in its indirect block
def number_place(byte, place, i):
    if i < NDIRECT:
        return place + DIRECT_AT + 4 * i
    return BLKSIZE * indirect_of(byte, place) + 4 * (i - NDIRECT)

def number_of(byte, place, i):
    return word_at(byte, number_place(byte, place, i))

# where a byte of a file or a directory stands, of those that are counted from 0
def byte_place(byte, place, at):
    return BLKSIZE * number_of(byte, place, at // BLKSIZE) + at % BLKSIZE

def slot_place(byte, place, i):
    return byte_place(byte, place, RECORDSIZE * i)


# ---- the bitmap

def mark_place(block):
    return 2 * BLKSIZE + block // 8

def is_marked_free(byte, block):
    return byte[mark_place(block)] >> block % 8 & 1 == 1

# bits past the number of blocks say nothing
def lowest_free(byte):
    for block in range(first_data_block(byte), block_count(byte)):
        if is_marked_free(byte, block):
            return block
    return None

def free_blocks(byte):
    return sum(is_marked_free(byte, block) for block in range(block_count(byte)))


# ---- puts

def put_byte(place, value):
    return (place, 1, value)

def put_word(place, value):
    return (place, 4, value)

def lay(puts, byte):
    for place, size, value in puts:
        byte[place:place + size] = value.to_bytes(size, 'little')

def written(puts, byte):
    after = bytearray(byte)
    lay(puts, after)
    return after

def mark_used(byte, block):
    return [put_byte(mark_place(block), byte[mark_place(block)] & ~(1 << block % 8))]

def mark_free(byte, block):
    return [put_byte(mark_place(block), byte[mark_place(block)] | 1 << block % 8)]

def zero_block(block):
    return [put_word(BLKSIZE * block + 4 * k, 0) for k in range(BLKSIZE // 4)]

def put_size(place, size):
    return [put_word(place + SIZE_AT, size)]

def put_indirect(place, block):
    return [put_word(place + INDIRECT_AT, block)]

def put_number(byte, place, i, block):
    return [put_word(number_place(byte, place, i), block)]

# bytes of a file, from one on; they lie within its blocks
def put_bytes(byte, place, at, new):
    return [put_byte(byte_place(byte, place, at + k), new[k]) for k in range(len(new))]


# ---- changes

# A change gets the disk as it is, and tells what is put. A block is taken only where one is free, which was counted before.
# Of the record at `place`:

# bytes within the size
def overwrite(place, at, new):
    return lambda byte: put_bytes(byte, place, at, new)

# the size is lowered to `end`, and the blocks stay; where it isn't above it nothing is put
def cut(place, end):
    return lambda byte: put_size(place, end) if end < size_of(byte, place) else []

# the size is raised to `end`, and the blocks stay; zeros come between. Where it isn't below it nothing is put.
def fill(place, end):
    def change(byte):
        size = size_of(byte, place)
        return put_bytes(byte, place, size, bytes(end - size)) + put_size(place, end) if size < end else []
    return change

# an indirect block is taken where ten data blocks stand and there is none yet
def take_indirect(place):
    def change(byte):
        block = lowest_free(byte)
        if blocks_needed(byte, place) < NDIRECT or has_indirect(byte, place) or block is None:
            return []
        return mark_used(byte, block) + zero_block(block) + put_indirect(place, block)
    return change

# One more block of zeros, where the size is that of whole blocks. It is raised by a block, but not past `end`.
def take_block(place, end):
    def change(byte):
        n, block = blocks_needed(byte, place), lowest_free(byte)
        if block is None:
            return []
        return (mark_used(byte, block) + zero_block(block)
                + put_number(byte, place, n, block) + put_size(place, min(end, BLKSIZE * (n + 1))))
    return change

# the last block is given back; what is left is whole blocks
def give_block(place):
    def change(byte):
        last = blocks_needed(byte, place) - 1
        block = number_of(byte, place, last)
        return put_size(place, BLKSIZE * last) + put_number(byte, place, last, 0) + mark_free(byte, block)
    return change

# the indirect block is given back, where there is one; at most ten data blocks are left, so all numbers in it are 0
def give_indirect(place):
    def change(byte):
        block = indirect_of(byte, place)
        return put_indirect(place, 0) + mark_free(byte, block) if has_indirect(byte, place) else []
    return change

# An empty record gets a new file's name, size 0 and no blocks. Its first byte comes last: so far the record is empty.
def make_record(directory, i, name):
    def change(byte):
        place = slot_place(byte, directory, i)
        return ([put_byte(place + k, (name + bytes(MAXNAMELEN))[k]) for k in range(1, MAXNAMELEN)]
                + [put_word(place + at, 0) for at in range(SIZE_AT, RECORDSIZE, 4)] + [put_byte(place, name[0])])
    return change

# a record of a file that has no blocks any more
def empty_it(place):
    return lambda byte: [put_byte(place, 0)]

# changes, each told by the disk that those before it leave
def puts_in_turn(changes, byte):
    now, puts = bytearray(byte), []
    for change in changes:
        more = change(now)
        lay(more, now)
        puts += more
    return puts


# ---- a file or a directory gets another size

# to a greater size; the indirect block stays, and comes where it is needed
def growth(byte, place, end):
    n = blocks_needed(byte, place)
    more = max(blocks_of(end) - n, 0)
    return [fill(place, min(end, BLKSIZE * n))] + [take_indirect(place), take_block(place, end)] * more

# to any size; afterwards there is an indirect block exactly where it is needed
def resizing(byte, place, end):
    fewer = max(blocks_needed(byte, place) - blocks_of(end), 0)
    back = [give_block(place)] * fewer + ([] if needs_indirect(end) else [give_indirect(place)])
    return back + [cut(place, end)] + growth(byte, place, end)

# how many blocks so many bytes take, with the indirect block
def blocks_taken(size, indirect):
    return blocks_of(size) + (1 if indirect else 0)

# whether there is room for the record at a place to hold so many blocks
def fits(byte, place, blocks):
    held = blocks_taken(size_of(byte, place), has_indirect(byte, place))
    return max(blocks - held, 0) <= free_blocks(byte)


# ---- places

# the record at a way, or none; the root has the empty way
def place_at(byte, way):
    place = root_place
    for i in way:
        if not is_directory(byte, place) or slot_count(byte, place) <= i or is_empty_record(byte, slot_place(byte, place, i)):
            return None
        place = slot_place(byte, place, i)
    return place

# the first record of a directory that passes
def first_slot(byte, place, passes):
    for i in range(slot_count(byte, place)):
        if passes(slot_place(byte, place, i)):
            return i
    return None

def slot_named(byte, place, name):
    return first_slot(byte, place, lambda p: not is_empty_record(byte, p) and name_of(byte, p) == name)

def names_in(path):
    return [name for name in path.split(b'/') if name]

def is_good_path(path):
    return len(path) < MAXPATHLEN and all(len(name) < MAXNAMELEN for name in names_in(path))

# where a path leads, as `look_up` of the tree, with the record's place beside its way
def led_to(byte, path):
    if not is_good_path(path):
        return ('too_long',)
    names, way, place = names_in(path), [], root_place
    for k, name in enumerate(names):
        i = slot_named(byte, place, name) if is_directory(byte, place) else None
        if i is None:
            last = k == len(names) - 1 and is_directory(byte, place)
            return ('no_record', place, name) if last else ('astray',)
        way, place = way + [i], slot_place(byte, place, i)
    return ('a_record', place, way)


# ---- acts

def negated(error):
    return 2 ** 32 - error

def planned(changes, answer, handed=b''):
    return (changes, answer, handed)

# nothing is put
def turned_down(error):
    return planned([], negated(error))

def size_plan(byte, place, size):
    if MAXFILESIZE < size or not fits(byte, place, blocks_taken(size, needs_indirect(size))):
        return turned_down(E_NO_DISK)
    return planned(resizing(byte, place, size), 0)

def write_plan(byte, place, at, new):
    end = at + len(new)
    if len(new) == 0:
        return planned([], 0)
    if MAXFILESIZE < end:
        return turned_down(E_NO_DISK)
    if end <= size_of(byte, place):
        return planned([overwrite(place, at, new)], len(new))
    if not fits(byte, place, blocks_taken(end, has_indirect(byte, place) or needs_indirect(end))):
        return turned_down(E_NO_DISK)
    return planned(growth(byte, place, end) + [overwrite(place, at, new)], len(new))

def read_plan(byte, place, at, n):
    end = min(at + min(n, BLKSIZE), size_of(byte, place))
    handed = bytes(byte[byte_place(byte, place, k)] for k in range(at, end))
    return planned([], len(handed), handed)

def stat_plan(byte, place):
    name = name_of(byte, place)
    words = size_of(byte, place).to_bytes(4, 'little') + FTYPE_REG.to_bytes(4, 'little')
    return planned([], 0, name + bytes(MAXNAMELEN - len(name)) + words)

# the first empty record; where none is, the first of a new block
def create_plan(byte, place, name):
    i, n = first_slot(byte, place, lambda p: is_empty_record(byte, p)), slot_count(byte, place)
    if i is not None:
        return planned([make_record(place, i, name)], 0)
    size = size_of(byte, place) + BLKSIZE
    if MAXFILESIZE < size or not fits(byte, place, blocks_taken(size, has_indirect(byte, place) or needs_indirect(size))):
        return turned_down(E_NO_DISK)
    return planned(growth(byte, place, size) + [make_record(place, n, name)], 0)

def open_plan(byte, path, mode):
    found, create = led_to(byte, path), mode & O_CREAT
    if found[0] == 'too_long':
        return turned_down(E_BAD_PATH)
    if found[0] == 'astray' or (found[0] == 'no_record' and not create):
        return turned_down(E_NOT_FOUND)
    if found[0] == 'no_record':
        return create_plan(byte, found[1], found[2])
    if create and mode & O_EXCL:
        return turned_down(E_FILE_EXISTS)
    if is_directory(byte, found[1]):
        return turned_down(E_INVAL)
    return size_plan(byte, found[1], 0) if mode & O_TRUNC else planned([], 0)

# the blocks are given back first, so that the record names none when it is emptied
def remove_plan(is_open, byte, path):
    found = led_to(byte, path)
    if found[0] == 'too_long':
        return turned_down(E_BAD_PATH)
    if found[0] != 'a_record':
        return turned_down(E_NOT_FOUND)
    if is_directory(byte, found[1]) or is_open(found[2]):
        return turned_down(E_INVAL)
    return planned(resizing(byte, found[1], 0) + [empty_it(found[1])], 0)

# a file is named by its way; what leads to no file is refused
def of_file(byte, way, act):
    place = place_at(byte, way)
    return turned_down(E_INVAL) if place is None or is_directory(byte, place) else act(place)

def plan_of(is_open, byte, act):
    kind, *rest = act
    if kind == 'open_path':
        return open_plan(byte, *rest)
    if kind == 'remove_path':
        return remove_plan(is_open, byte, *rest)
    if kind == 'sync_files':
        return planned([], 0)
    plans = {'read_file': read_plan, 'write_file': write_plan, 'set_file_size': size_plan, 'stat_file': stat_plan}
    return of_file(byte, rest[0], lambda place: plans[kind](byte, place, *rest[1:]))

def puts_of(is_open, byte, act):
    changes, answer, handed = plan_of(is_open, byte, act)
    return (puts_in_turn(changes, byte), answer, handed)
