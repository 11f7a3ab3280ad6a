"""Run by other scripts: packs made by hand, for the scripts of check/ and bench/.

A pack file is its sectors in order, 532 bytes each: header (pack number, real address), label and value, words with the high byte
first. docs/formats.md tells the words. A file's full name is its serial, the high word first, and its version. Run as a script, it
writes a small pack with one file of the five bytes `ABCDE`, which no directory names, with --named one with three files that
directories name, or with --damaged one with damage of each kind.
"""
import argparse
import pathlib
import struct

SECTOR = 532
PAGE = 512
# where the label and the value stand in a sector
LABEL_AT, VALUE_AT = 4, 20
ONES = 0xFFFF
# the label and the value of a free sector
FREED = b"\xff" * (SECTOR - LABEL_AT)
SYS_DIR = (0x8000, 1, 1)
DESCRIPTOR = (0, 2, 1)
# the mark of DiskDescriptor
CLEAN, OPEN = 1, 2
SERIAL = 3
LEADER_AT = 5


def word_at(at, word):
    """Where a word of a sector stands in a pack file: of the sector's value below 256, and from there on of its label."""
    return at * SECTOR + (VALUE_AT + 2 * word if word < PAGE // 2 else LABEL_AT + 2 * word - PAGE)


def ordinary(serial):
    """The full name of an ordinary file of version 1."""
    return serial >> 16, serial & 0xFFFF, 1


def directory(serial):
    """The full name of a directory of version 1."""
    return 0x8000 | serial >> 16, serial & 0xFFFF, 1


def real_of(at, cylinders=512):
    """The real address of a sector of a pack of two drives with so many cylinders each, or of one drive, which has fewer than 512."""
    return at % 12 << 12 | at // 24 % cylinders << 3 | at // 12 % 2 << 2 | at // 24 // cylinders << 1


def sector(at, label, value):
    words = struct.pack(">2H8H", 1, real_of(at), *label)
    return words + value


def sectors_of(content):
    """The sectors of a pack file."""
    return [content[at : at + SECTOR] for at in range(0, len(content), SECTOR)]


def free_sectors(cylinders):
    """The sectors of a pack without files."""
    return [sector(at, [ONES] * 8, b"\xff" * PAGE) for at in range(cylinders * 24)]


def counted(text):
    """A name after its length, in whole words."""
    return (bytes([len(text)]) + text).ljust(len(text) // 2 * 2 + 2, b"\0")


def leader(text):
    """The first bytes of a leader page: three dates of 0 and this name. The others are 0."""
    return struct.pack(">6H", 0, 0, 0, 0, 0, 0) + counted(text)


def slot(file, text, leader_at=LEADER_AT):
    """The entry of a file in a directory."""
    words = counted(text)
    return struct.pack(">6H", 0x0400 + 6 + len(words) // 2, *file, 0, leader_at) + words


def free_slot(words):
    return struct.pack(">H", words).ljust(2 * words, b"\0")


def put_page(sectors, at, file, number, value, count=PAGE, following=ONES, previous=ONES):
    """Puts a page of a file on a sector, of whose bytes so many count. The links are real addresses."""
    label = [following, previous, 0, count, number, file[2], file[0], file[1]]
    sectors[at] = sector(at, label, value.ljust(PAGE, b"\0"))


def put_file(sectors, at, file, text, data):
    """Puts a file from a sector on, its leader first, and answers the sector after it. The last data page isn't full."""
    pages = [leader(text)] + [data[place : place + PAGE] for place in range(0, len(data) + 1, PAGE)]
    last = at + len(pages) - 1
    assert 0 <= at and last < len(sectors), "the file fits the pack"
    for number, page in enumerate(pages):
        here = at + number
        following = real_of(here + 1) if here < last else ONES
        previous = real_of(here - 1) if number > 0 else ONES
        put_page(sectors, here, file, number, page, len(page) if number > 0 else PAGE, following, previous)
    return last + 1


def pack(cylinders, data):
    """A pack whose one living file, with the serial 3 and no name, has these bytes. Its leader is on sector 5 and its pages follow."""
    sectors = free_sectors(cylinders)
    put_file(sectors, LEADER_AT, ordinary(SERIAL), b"", data)
    return b"".join(sectors)


def named_pack():
    """A pack of 48 sectors with a file `A.` of five bytes, a directory `D.`, and in it a file `X.` of 512 bytes."""
    sectors = free_sectors(2)
    put_file(sectors, 1, SYS_DIR, b"SysDir.", slot(ordinary(3), b"A.", 5) + slot(directory(4), b"D.", 7))
    put_file(sectors, 5, ordinary(3), b"A.", b"ABCDE")
    put_file(sectors, 7, directory(4), b"D.", slot(ordinary(5), b"X.", 9))
    put_file(sectors, 9, ordinary(5), b"X.", b"X" * PAGE)
    return b"".join(sectors)


def damaged_pack():
    """A pack of 48 sectors with two system files, a directory and two files, a sector of each kind that damage leaves, and false hints."""
    sectors, a, d, x = free_sectors(2), ordinary(3), directory(4), ordinary(5)
    root = slot(SYS_DIR, b"SysDir.", 1) + slot(DESCRIPTOR, b"DiskDescriptor.", 3) + slot(a, b"A.", 5) + slot(d, b"D.", 8)
    put_file(sectors, 1, SYS_DIR, b"SysDir.", root)
    # the bit of sector 30 is 0, though it is bad, and that of sector 40 is 1, though it is free
    put_file(sectors, 3, DESCRIPTOR, b"DiskDescriptor.", struct.pack(">19H", 1, 2, 2, 12, 0, 5, 1, 29, 3, *[0] * 7, 0xFFFC, 0, 0x0080))
    put_file(sectors, 5, a, b"A.", bytes(1_000))
    # the leader page of X is on sector 10
    put_file(sectors, 8, d, b"D.", slot(x, b"X.", 13))
    put_file(sectors, 10, x, b"X.", bytes(1_200))
    # page 1 of A names its second copy, and that one names nothing
    put_page(sectors, 6, a, 1, b"", following=real_of(20), previous=real_of(5))
    put_page(sectors, 20, a, 1, b"")
    put_page(sectors, 12, x, 2, b"", following=real_of(13))
    put_page(sectors, 22, ordinary(9), 1, b"", 100)
    put_page(sectors, 24, a, 5, b"", 100)
    put_page(sectors, 26, ordinary(0), 0, b"")
    sectors[30] = sectors[31]
    return b"".join(sectors)


def file_name(number):
    return f"File{number:03}.".encode()


def full_pack(cylinders, files):
    """A pack with so many files of 10,000 bytes and a SysDir that names them, and the listing that it must have."""
    sectors, data = free_sectors(cylinders), bytes(n * 31 % 251 for n in range(10_000))
    slots = b"".join(slot(ordinary(SERIAL + n), file_name(n)) for n in range(files))
    at = put_file(sectors, 1, SYS_DIR, b"SysDir.", slots)
    for n in range(files):
        at = put_file(sectors, at, ordinary(SERIAL + n), file_name(n), data)
    lines = [b"SysDir>" + file_name(n) + b" length %d\n" % len(data) for n in range(files)]
    return b"".join(sectors), b"".join(lines) + b"%d files\n" % files


def files_of_two(sectors, cylinders):
    """The two files of a pack of two drives with so many cylinders each. Its headers get the addresses of two drives; its links stay."""
    half = cylinders * 24
    files = [it[:2] + struct.pack(">H", real_of(at, cylinders)) + it[4:] for at, it in enumerate(sectors)]
    return b"".join(files[:half]), b"".join(files[half:])


def numbered(file, number):
    """A pack file with this pack number in each header."""
    return b"".join(number.to_bytes(2, "big") + it[2:] for it in sectors_of(file))


def drive_files(sectors, drives, cylinders):
    return files_of_two(sectors, cylinders) if drives == 2 else (b"".join(sectors),)


def put_linked(sectors, cylinders, file, text, data, places):
    """Puts a file on these sectors, its leader on the first, with true links; the last page's address, number and bytes end its leader."""
    pages = [leader(text).ljust(PAGE, b"\0")] + [data[place : place + PAGE] for place in range(0, len(data) + 1, PAGE)]
    assert len(pages) == len(places), "each page has its sector"
    last = len(pages) - 1
    pages[0] = pages[0][:-6] + struct.pack(">3H", places[last], last, len(pages[last]))
    links = [ONES, *[real_of(at, cylinders) for at in places], ONES]
    for number, page in enumerate(pages):
        put_page(sectors, places[number], file, number, page, len(page), links[number + 2], links[number])


def sound(drives, cylinders, files, mark=CLEAN, number=1):
    """The files of a pack, a file a drive, that is sound, with every hint true: one that `format` wrote, and in SysDir these files. Of each
    there are its name, its bytes and its sectors, the leader's first; serials rise from 3 on. The dates are zeros; docs/formats.md tells
    the words."""
    pages = drives * cylinders * 24
    sectors, words = free_sectors(drives * cylinders), -(-pages // 16)
    sectors[0] = sector(0, [0] * 8, bytes(PAGE))
    system = [(SYS_DIR, b"SysDir.", range(1, 3)), (DESCRIPTOR, b"DiskDescriptor.", range(3, 5 + (32 + 2 * words) // PAGE))]
    placed = system + [(ordinary(SERIAL + n), text, places) for n, (text, _, places) in enumerate(files)]
    entries = b"".join(slot(file, text, places[0]) for file, text, places in placed)
    used = {0}.union(*(places for _, _, places in placed))
    busy = sum(1 << 16 * words - 1 - at for at in used).to_bytes(2 * words, "big")
    heading = struct.pack(">16H", drives, cylinders, 2, 12, 0, 2 + len(files), mark, pages - len(used), words, *[0] * 7)
    contents = [entries + free_slot(255 - len(entries) // 2), heading + busy, *[data for _, data, _ in files]]
    for (file, text, places), data in zip(placed, contents):
        put_linked(sectors, cylinders, file, text, data, places)
    return tuple(numbered(it, number) for it in drive_files(sectors, drives, cylinders))


def formatted(drives, cylinders, number):
    """The files of a pack that `format` wrote."""
    return sound(drives, cylinders, [], number=number)


def prepared(cylinders, number):
    """The file of a second drive that `prepare` wrote: each of its sectors is free."""
    return numbered(files_of_two(free_sectors(2 * cylinders), cylinders)[1], number)


def place(offset, leader_at=LEADER_AT):
    """Where a byte of a file stands in the pack file, if its pages follow its leader."""
    return (leader_at + 1 + offset // PAGE) * SECTOR + VALUE_AT + offset % PAGE


def main():
    parser = argparse.ArgumentParser(description=__doc__, formatter_class=argparse.RawDescriptionHelpFormatter)
    parser.add_argument("pack", metavar="PACK", help="the path of the pack file, which is written anew")
    kinds = parser.add_mutually_exclusive_group()
    kinds.add_argument("--named", action="store_true", help="three files that directories name")
    kinds.add_argument("--damaged", action="store_true", help="three files that directories name, with damage of each kind and false hints")
    options = parser.parse_args()
    made = named_pack() if options.named else damaged_pack() if options.damaged else pack(2, b"ABCDE")
    pathlib.Path(options.pack).write_bytes(made)


if __name__ == "__main__":
    main()
