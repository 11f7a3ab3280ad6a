#!/usr/bin/env python3
"""Run by the gate: shows packs made by hand through real pack files, and compares the whole listing of each.

Each pack is named by the sentence that it shows. The listings were worked out by hand from docs/model.md, docs/formats.md and
docs/commands.md, and never taken from a run. Besides, `show` has to end with 0, to say nothing on the standard error, and to leave
the pack file, or both files of two drives, byte for byte as they were, with no other beside them.
"""
import pathlib
import struct
import subprocess
import sys
import tempfile

sys.dont_write_bytecode = True
import arguments
import packs
from packs import DESCRIPTOR, ONES, PAGE, SYS_DIR, directory, free_slot, ordinary, slot

SECONDS = 10
# the words of a sector: its header, its label and then its value
HEADER, NEXT, PREVIOUS, BLANK, VALUE = 1, 2, 3, 4, 10
NO_FILES = ["0 files"]
# names that are cut: before their dot they have 38 characters and fewer
LONG = {length: b"N" * (length - 1) + b"." for length in range(36, 41)}

failures = []


# what is done to the sectors of a pack without files, one after the other


def leader(at, file, text, count=PAGE):
    """A leader page alone, with a count of bytes that nothing asks for."""
    return lambda sectors: packs.put_page(sectors, at, file, 0, packs.leader(text), count)


def data(at, file, number, count, value=b""):
    """A data page alone, of whose bytes so many count."""
    return lambda sectors: packs.put_page(sectors, at, file, number, value, count)


def whole(at, file, text, content):
    """A file from a sector on: its leader and then its data pages. In place of its bytes their number may stand."""
    content = bytes(content) if isinstance(content, int) else content
    return lambda sectors: packs.put_file(sectors, at, file, text, content)


def word(at, index, to):
    """One word of a sector is another."""

    def change(sectors):
        start = 2 * index
        sectors[at] = sectors[at][:start] + struct.pack(">H", to) + sectors[at][start + 2 :]

    return change


def zeros(sectors):
    """Every sector is zeros, its header too."""
    sectors[:] = [bytes(packs.SECTOR)] * len(sectors)


def numbered(*names):
    """Ordinary files of these names from sector 5 on: their serials are 3 and up, and each has as many bytes as its serial says."""
    return [whole(5 + 2 * n, ordinary(3 + n), text, 3 + n) for n, text in enumerate(names)]


def copies(text, count):
    """So many of them, all of one name."""
    return numbered(*[text] * count)


def formatted(*slots):
    """The system files of a formatted pack of 48 sectors, and these slots in SysDir, whose other words are free."""
    entries = slot(SYS_DIR, b"SysDir.", 1) + slot(DESCRIPTOR, b"DiskDescriptor.", 3) + b"".join(slots)
    table = struct.pack(">16H3H", 1, 2, 2, 12, 0, 2, 1, 43, 3, *[0] * 7, 0xF800, 0, 0)
    root = whole(1, SYS_DIR, b"SysDir.", entries + free_slot(255 - len(entries) // 2))
    return [root, whole(3, DESCRIPTOR, b"DiskDescriptor.", table)]


def sys_dir(*slots):
    """A SysDir on sector 1 and the sectors after it, with these slots."""
    return whole(1, SYS_DIR, b"SysDir.", b"".join(slots))


def two_files(slots):
    """SysDir with the first bytes of these slots, and two files whose leaders say X and Y."""
    return [sys_dir(slots), whole(5, ordinary(3), b"X.", 3), whole(8, ordinary(4), b"Y.", 4)]


def changed_slot(file, index, to, text=b"D."):
    """The entry of a file with another word at an index."""
    entry = slot(file, text)
    return entry[: 2 * index] + struct.pack(">H", to) + entry[2 * index + 2 :]


A, B, C = ordinary(3), ordinary(4), ordinary(5)
D, E = directory(6), directory(7)

FILES = [
    ("a pack of free sectors has no files", [], NO_FILES),
    ("a pack of zeros has no files", [zeros], NO_FILES),
    ("a formatted pack shows no system file", formatted(), NO_FILES),
    ("a file without an entry is listed by its leader's name", [whole(5, A, b"A.", 5)], ["SysDir>A. length 5", "1 files"]),
    ("a file without data pages has no bytes", [leader(5, A, b"A.")], ["SysDir>A. length 0", "1 files"]),
    ("data pages without a leader page are no file", [data(6, A, 1, 5)], NO_FILES),
    (
        "pages may stand on any sectors",
        [leader(40, A, b"A."), data(9, A, 1, PAGE), data(3, A, 2, 7)],
        ["SysDir>A. length 519", "1 files"],
    ),
    ("the last sector counts", [leader(47, A, b"A.")], ["SysDir>A. length 0", "1 files"]),
    ("a leader page on sector 0 is none", [leader(0, A, b"A.")], NO_FILES),
    ("a data page on sector 0 is none", [leader(5, A, b"A."), data(0, A, 1, 5)], ["SysDir>A. length 0", "1 files"]),
    (
        "a page on sector 0 is no copy of the one above",
        [leader(5, A, b"A."), data(0, A, 1, 7), data(6, A, 1, 5)],
        ["SysDir>A. length 5", "1 files"],
    ),
    # headers
    ("the restore bit makes a header wrong", [whole(5, A, b"A.", 5), word(5, HEADER, packs.real_of(5) | 1)], NO_FILES),
    ("the disk bit makes a header wrong", [whole(5, A, b"A.", 5), word(5, HEADER, packs.real_of(5) | 2)], NO_FILES),
    ("another sector's address makes a header wrong", [whole(5, A, b"A.", 5), word(5, HEADER, packs.real_of(17))], NO_FILES),
    ("the next sector's address makes a header wrong", [whole(5, A, b"A.", 5), word(5, HEADER, packs.real_of(6))], NO_FILES),
    ("an address of no sector makes a header wrong", [whole(5, A, b"A.", 5), word(5, HEADER, 0xC000)], NO_FILES),
    (
        "a page under a wrong header ends the file",
        [whole(5, A, b"A.", 1_029), word(7, HEADER, packs.real_of(6))],
        ["SysDir>A. length 512", "1 files"],
    ),
    (
        "a page under a wrong header hides no copy above",
        [leader(5, A, b"A."), data(6, A, 1, 5), data(20, A, 1, 9), word(6, HEADER, 0)],
        ["SysDir>A. length 9", "1 files"],
    ),
    ("the pack number isn't compared", [whole(5, A, b"A.", 5), word(5, 0, 0), word(6, 0, ONES)], ["SysDir>A. length 5", "1 files"]),
    # copies
    ("a second copy of a leader above doesn't count", [leader(5, A, b"A."), leader(20, A, b"B.")], ["SysDir>A. length 0", "1 files"]),
    ("a second copy of a leader below counts", [leader(5, A, b"A."), leader(3, A, b"B.")], ["SysDir>B. length 0", "1 files"]),
    (
        "a second copy of a page above doesn't count",
        [leader(5, A, b"A."), data(6, A, 1, 5), data(20, A, 1, PAGE)],
        ["SysDir>A. length 5", "1 files"],
    ),
    (
        "a second copy of a page below counts, and the file goes on after it",
        [leader(5, A, b"A."), data(6, A, 1, 5), data(7, A, 2, 3), data(2, A, 1, PAGE)],
        ["SysDir>A. length 515", "1 files"],
    ),
    # chains of pages
    (
        "a page that is missing in the middle ends the file",
        [leader(5, A, b"A."), data(6, A, 1, PAGE), data(8, A, 3, 5)],
        ["SysDir>A. length 512", "1 files"],
    ),
    (
        "copies below and above, a page after a gap and links that lie change nothing of three full pages",
        [leader(5, A, b"A."), data(6, A, 1, 5), data(20, A, 1, PAGE), leader(21, A, b"B."), data(2, A, 1, PAGE), data(30, A, 3, PAGE)]
        + [data(40, A, 2, PAGE), word(2, NEXT, packs.real_of(30)), word(30, NEXT, packs.real_of(2))],
        ["SysDir>A. length 1536", "1 files"],
    ),
    ("without page 1 there are no bytes", [leader(5, A, b"A."), data(7, A, 2, 5)], ["SysDir>A. length 0", "1 files"]),
    (
        "full pages count where the last page is missing",
        [leader(5, A, b"A."), data(6, A, 1, PAGE), data(7, A, 2, PAGE)],
        ["SysDir>A. length 1024", "1 files"],
    ),
    (
        "a page of 511 bytes ends the file",
        [leader(5, A, b"A."), data(6, A, 1, 511), data(7, A, 2, PAGE)],
        ["SysDir>A. length 511", "1 files"],
    ),
    ("a page of 0 bytes ends the file", [leader(5, A, b"A."), data(6, A, 1, 0), data(7, A, 2, 5)], ["SysDir>A. length 0", "1 files"]),
    # counts
    ("a leader page of 513 bytes is none", [leader(5, A, b"A.", 513), data(6, A, 1, 5)], NO_FILES),
    (
        "a leader page may have any count up to 512",
        [leader(5, A, b"A.", 0), leader(7, B, b"B.", 511)],
        ["SysDir>A. length 0", "SysDir>B. length 0", "2 files"],
    ),
    ("a data page of 513 bytes is none", [leader(5, A, b"A."), data(6, A, 1, 513)], ["SysDir>A. length 0", "1 files"]),
    ("a data page of 65535 bytes is none", [leader(5, A, b"A."), data(6, A, 1, ONES)], ["SysDir>A. length 0", "1 files"]),
    (
        "a data page of 513 bytes hides no copy above",
        [leader(5, A, b"A."), data(6, A, 1, 513), data(20, A, 1, 5)],
        ["SysDir>A. length 5", "1 files"],
    ),
    (
        "a data page of 65535 bytes after a full page ends the file",
        [leader(5, A, b"A."), data(6, A, 1, 513), data(8, A, 1, PAGE), data(7, A, 2, ONES)],
        ["SysDir>A. length 512", "1 files"],
    ),
    (
        "and hides no copy above",
        [leader(5, A, b"A."), data(6, A, 1, 513), data(8, A, 1, PAGE), data(7, A, 2, ONES), data(9, A, 2, 5)],
        ["SysDir>A. length 517", "1 files"],
    ),
    # full names
    ("a label of serial 0 names no file", [leader(5, (0, 0, 1), b"A."), leader(6, (0x8000, 0, 1), b"B.")], NO_FILES),
    ("a label of version 0 names no file", [leader(5, (0, 3, 0), b"A."), leader(6, (0x8000, 3, 0), b"B.")], NO_FILES),
    ("a label of version 65535 names no file", [leader(5, (0, 3, ONES), b"A."), leader(6, (0x8000, 3, ONES), b"B.")], NO_FILES),
    ("a free label is no leader page, whatever its other words", [leader(5, (ONES, ONES, ONES), b"A.")], NO_FILES),
    ("version 65534 is in range", [leader(5, (0, 3, 0xFFFE), b"A.")], ["SysDir>A. length 0", "1 files"]),
    (
        "a serial of ones with a version in range is a directory's",
        [leader(5, (ONES, ONES, 1), b"A.")],
        ["SysDir>A. directory", "1 files"],
    ),
    (
        "files of one serial are told apart by their version and by the directory mark",
        [whole(5, (0, 3, 1), b"A.", 1), whole(7, (0, 3, 2), b"B.", 2), whole(9, (0x8000, 3, 1), b"C.", b"")],
        ["SysDir>A. length 1", "SysDir>B. length 2", "SysDir>C. directory", "3 files"],
    ),
    (
        "a page of another version, or with another mark, isn't the file's",
        [leader(5, (0, 3, 1), b"A."), data(6, (0, 3, 2), 1, 5), data(7, (0x8000, 3, 1), 1, 5)],
        ["SysDir>A. length 0", "1 files"],
    ),
    # hints
    (
        "links that lie aren't followed",
        [whole(5, A, b"A.", 517), whole(9, B, b"B.", 100), word(5, NEXT, packs.real_of(10)), word(6, NEXT, ONES)]
        + [word(7, NEXT, packs.real_of(7)), word(7, PREVIOUS, packs.real_of(9)), word(10, NEXT, packs.real_of(7))],
        ["SysDir>A. length 517", "SysDir>B. length 100", "2 files"],
    ),
    (
        "the blank word of a label isn't read",
        [whole(5, A, b"A.", 5), word(5, BLANK, ONES), word(6, BLANK, 7)],
        ["SysDir>A. length 5", "1 files"],
    ),
    (
        "the hints of a leader page aren't followed",
        [whole(5, A, b"A.", 517), word(5, VALUE + 247, 1), word(5, VALUE + 253, 6), word(5, VALUE + 254, 1), word(5, VALUE + 255, 9)],
        ["SysDir>A. length 517", "1 files"],
    ),
]

LEADER_NAMES = [
    ("a name of no characters is lost", [leader(5, ordinary(9), b"")], ["SysDir>Lost11. length 0", "1 files"]),
    ("a name of one character is lost", [leader(5, ordinary(9), b".")], ["SysDir>Lost11. length 0", "1 files"]),
    ("a name of forty characters is lost", [leader(5, ordinary(9), LONG[40])], ["SysDir>Lost11. length 0", "1 files"]),
    (
        "a name of forty characters is lost, of which the first 39 are a name",
        [leader(5, ordinary(9), b"N" * 38 + b"..")],
        ["SysDir>Lost11. length 0", "1 files"],
    ),
    ("a name that ends in no dot is lost", [leader(5, ordinary(9), b"AB")], ["SysDir>Lost11. length 0", "1 files"]),
    (
        "a name with a character that no stored name has is lost",
        [leader(5, ordinary(9), b"A b."), leader(7, ordinary(15), b"A_."), leader(8, ordinary(17), b"\xc1.")],
        ["SysDir>Lost11. length 0", "SysDir>Lost17. length 0", "SysDir>Lost21. length 0", "3 files"],
    ),
    *(
        (f"a name is lost that spells a version as {text[1:-1].decode()}", [leader(5, ordinary(9), text)], ["SysDir>Lost11. length 0", "1 files"])
        for text in (b"A!02.", b"A!0.", b"A!1.", b"A!65535.", b"A!.", b"A!2!3.", b"A!2..", b"A!+2.")
    ),
    ("a name of a version alone is lost", [leader(5, ordinary(9), b"!2.")], ["SysDir>Lost11. length 0", "1 files"]),
    (
        "a name with a version from 2 to 65534 is read",
        [leader(5, A, b"A!2."), leader(6, B, b"A!65534.")],
        ["SysDir>A!2. length 0", "SysDir>A!65534. length 0", "2 files"],
    ),
    (
        "versions of a name rise by their number, the bare name first",
        [leader(5, A, b"A!10."), leader(6, B, b"A."), leader(7, C, b"A!2.")],
        ["SysDir>A. length 0", "SysDir>A!2. length 0", "SysDir>A!10. length 0", "3 files"],
    ),
    (
        "a name of 39 characters with its version is read, and one of 40 is lost",
        [leader(5, A, b"N" * 36 + b"!2."), leader(6, ordinary(9), b"N" * 37 + b"!2.")],
        ["SysDir>Lost11. length 0", f"SysDir>{'N' * 36}!2. length 0", "2 files"],
    ),
    ("a name of 39 characters is read", [leader(5, A, LONG[39])], [f"SysDir>{'N' * 38}. length 0", "1 files"]),
    (
        "letters, digits and + - . $ are read, a dot alone before the last one too",
        [leader(5, A, b"aZ09+-.$."), leader(6, B, b"..")],
        ["SysDir>.. length 0", "SysDir>aZ09+-.$. length 0", "2 files"],
    ),
    (
        "what stands after the name isn't read",
        [leader(5, A, b"A."), word(5, VALUE + 7, 0x2E21), word(5, VALUE + 8, ONES)],
        ["SysDir>A. length 0", "1 files"],
    ),
    (
        "a lost name has the serial in octal, without the directory mark",
        [leader(5, ordinary(7), b""), leader(6, ordinary(8), b""), leader(7, ordinary(65_536), b""), leader(8, directory(64), b"")]
        + [leader(9, ordinary(2_147_483_647), b"")],
        ["SysDir>Lost10. length 0", "SysDir>Lost100. directory", "SysDir>Lost17777777777. length 0", "SysDir>Lost200000. length 0"]
        + ["SysDir>Lost7. length 0", "5 files"],
    ),
    ("two words are no name", [leader(9, ordinary(8), b"no name")], ["SysDir>Lost10. length 0", "1 files"]),
    (
        "a lost name stands by case among the names that two files share",
        [leader(9, ordinary(8), b"no name"), leader(5, B, b"a."), leader(7, A, b"A.")],
        ["SysDir>A. length 0", "SysDir>a.$1. length 0", "SysDir>Lost10. length 0", "3 files"],
    ),
    (
        "and before the name of SysDir in small letters with its suffix",
        [leader(9, ordinary(8), b"no name"), leader(5, B, b"a."), leader(7, A, b"sysdir.")],
        ["SysDir>a. length 0", "SysDir>Lost10. length 0", "SysDir>sysdir.$1. length 0", "3 files"],
    ),
    (
        "a lost name that is taken has a suffix",
        [whole(5, (0, 3, 1), b"", 1), whole(7, (0, 3, 2), b"", 2), whole(9, (0x8000, 3, 1), b"", b"")],
        ["SysDir>Lost3. length 1", "SysDir>Lost3.$1. length 2", "SysDir>Lost3.$2. directory", "3 files"],
    ),
    (
        "a stored name may spell a lost one, and takes it",
        [whole(5, ordinary(1), b"Lost3.", 1), whole(7, ordinary(3), b"", 3)],
        ["SysDir>Lost3. length 1", "SysDir>Lost3.$1. length 3", "2 files"],
    ),
]

SUFFIXES = [
    (
        "of two nameless files the lower full name takes the name, whichever sector is the lower",
        [whole(9, A, b"A.", 3), whole(5, B, b"A.", 4)],
        ["SysDir>A. length 3", "SysDir>A.$1. length 4", "2 files"],
    ),
    (
        "names that differ by case alone are the same, and each file keeps its own letters",
        numbered(b"a.", b"A.", b"a."),
        ["SysDir>a. length 3", "SysDir>A.$1. length 4", "SysDir>a.$2. length 5", "3 files"],
    ),
    (
        "full names rise by the high word, so that directories come last, then by the low one, then by the version",
        [whole(5, directory(1_000), b"A.", b""), whole(7, ordinary(65_536), b"A.", 6), whole(9, (0, 4, 1), b"A.", 4)]
        + [whole(11, (0, 3, 2), b"A.", 2), whole(13, (0, 3, 1), b"A.", 1)],
        ["SysDir>A. length 1", "SysDir>A.$1. length 2", "SysDir>A.$2. length 4", "SysDir>A.$3. length 6", "SysDir>A.$4. directory"]
        + ["5 files"],
    ),
    (
        "a name that an entry of SysDir has is taken, though its file's full name is the greater",
        [sys_dir(slot(B, b"A.")), whole(5, A, b"A.", 3), whole(7, B, b"Z.", 4)],
        ["SysDir>A. length 4", "SysDir>A.$1. length 3", "2 files"],
    ),
    (
        "a name that stands in another directory isn't taken in SysDir",
        [whole(11, D, b"D.", slot(B, b"A.")), whole(5, A, b"A.", 3), whole(7, B, b"Z.", 4)],
        ["SysDir>A. length 3", "SysDir>D. directory", "D>A. length 4", "3 files"],
    ),
    (
        "the first suffix that is free is given",
        [sys_dir(slot(A, b"A."), slot(B, b"A.$1."), slot(C, b"a.$3.")), *numbered(b"Z.", b"Z.", b"Z.", b"A.", b"A.")],
        ["SysDir>A. length 3", "SysDir>A.$1. length 4", "SysDir>A.$2. length 6", "SysDir>a.$3. length 5", "SysDir>A.$4. length 7"]
        + ["5 files"],
    ),
    (
        "a suffix that is an earlier file's own name is taken",
        numbered(b"A.$1.", b"A.", b"A."),
        ["SysDir>A. length 4", "SysDir>A.$1. length 3", "SysDir>A.$2. length 5", "3 files"],
    ),
    (
        "a file whose own name was given away has a suffix after it",
        numbered(b"A.", b"A.", b"A.$1."),
        ["SysDir>A. length 3", "SysDir>A.$1. length 4", "SysDir>A.$1.$1. length 5", "3 files"],
    ),
    (
        "the names of the system files are taken, where neither lives too",
        numbered(b"SysDir.", b"diskdescriptor."),
        ["SysDir>diskdescriptor.$1. length 4", "SysDir>SysDir.$1. length 3", "2 files"],
    ),
    (
        "the tenth suffix stands after the first one",
        copies(b"A.", 11),
        ["SysDir>A. length 3", "SysDir>A.$1. length 4", "SysDir>A.$10. length 13", "SysDir>A.$2. length 5", "SysDir>A.$3. length 6"]
        + ["SysDir>A.$4. length 7", "SysDir>A.$5. length 8", "SysDir>A.$6. length 9", "SysDir>A.$7. length 10", "SysDir>A.$8. length 11"]
        + ["SysDir>A.$9. length 12", "11 files"],
    ),
    # long names: with a suffix of two characters 36 are kept, and with one of three 35
    *(
        (
            f"of a name of {length} characters 36 are kept before the first suffix",
            copies(LONG[length], 2),
            [f"SysDir>{'N' * 36}$1. length 4", f"SysDir>{'N' * (length - 1)}. length 3", "2 files"],
        )
        for length in (39, 38, 37)
    ),
    (
        "a name of 36 characters is kept whole before the first nine suffixes, and without its dot before the tenth",
        copies(LONG[36], 11),
        [f"SysDir>{'N' * 35}$10. length 13", f"SysDir>{'N' * 35}. length 3"]
        + [f"SysDir>{'N' * 35}.${k}. length {3 + k}" for k in range(1, 10)]
        + ["11 files"],
    ),
    (
        "of a name of 39 characters 36 are kept before the first nine suffixes, and 35 before the tenth",
        copies(LONG[39], 11),
        [f"SysDir>{'N' * 35}$10. length 13"]
        + [f"SysDir>{'N' * 36}${k}. length {3 + k}" for k in range(1, 10)]
        + [f"SysDir>{'N' * 38}. length 3", "11 files"],
    ),
    (
        "a long name may be its own first suffix",
        copies(b"N" * 36 + b"$1.", 2),
        [f"SysDir>{'N' * 36}$1. length 3", f"SysDir>{'N' * 36}$2. length 4", "2 files"],
    ),
    (
        "a suffix stands before the version, and no other version is taken",
        numbered(b"X!2.", b"x!2.", b"X!3.", b"X."),
        ["SysDir>X. length 6", "SysDir>X!2. length 3", "SysDir>X!3. length 5", "SysDir>x.$1!2. length 4", "4 files"],
    ),
    (
        "a suffix and a version leave 34 characters of a long base",
        copies(b"N" * 36 + b"!2.", 2),
        [f"SysDir>{'N' * 34}$1!2. length 4", f"SysDir>{'N' * 36}!2. length 3", "2 files"],
    ),
    (
        "long names that are cut to the same characters share their suffixes",
        numbered(b"N" * 37 + b"A.", b"N" * 37 + b"A.", b"N" * 37 + b"B.", b"n" * 37 + b"b."),
        [f"SysDir>{'N' * 36}$1. length 4", f"SysDir>{'n' * 36}$2. length 6", f"SysDir>{'N' * 37}A. length 3"]
        + [f"SysDir>{'N' * 37}B. length 5", "4 files"],
    ),
]

ENTRIES = [
    (
        "the entry's name is the file's, and not its leader's",
        [sys_dir(slot(A, b"B.")), whole(5, A, b"A.", 3)],
        ["SysDir>B. length 3", "1 files"],
    ),
    (
        "SysDir may stand on any sectors",
        [whole(30, SYS_DIR, b"SysDir.", slot(A, b"B.")), whole(5, A, b"A.", 3)],
        ["SysDir>B. length 3", "1 files"],
    ),
    (
        "SysDir without its leader page names nothing",
        [data(2, SYS_DIR, 1, 16, slot(A, b"B.")), whole(5, A, b"A.", 3)],
        ["SysDir>A. length 3", "1 files"],
    ),
    (
        "the address of an entry isn't followed",
        [sys_dir(slot(A, b"D.", 0), slot(B, b"E.", ONES), slot(C, b"F.", 5)), *numbered(b"A.", b"B.", b"C.")],
        ["SysDir>D. length 3", "SysDir>E. length 4", "SysDir>F. length 5", "3 files"],
    ),
    (
        "of two entries for one file the first is kept, and the other's name isn't taken",
        [sys_dir(slot(A, b"B."), slot(A, b"A.")), *numbered(b"X.", b"A.")],
        ["SysDir>A. length 4", "SysDir>B. length 3", "2 files"],
    ),
    (
        "of two entries for one name the first is kept, whatever the case of the letters",
        [sys_dir(slot(A, b"B."), slot(B, b"b.")), *numbered(b"X.", b"Y.")],
        ["SysDir>B. length 3", "SysDir>Y. length 4", "2 files"],
    ),
    (
        "entries of two versions of a name are both kept, and of two with one version the first",
        [sys_dir(slot(A, b"B."), slot(B, b"b!2."), slot(C, b"B!2.")), *numbered(b"X.", b"Y.", b"Z.")],
        ["SysDir>B. length 3", "SysDir>b!2. length 4", "SysDir>Z. length 5", "3 files"],
    ),
    (
        "a file's second entry is kept where its first has a name that is taken",
        [sys_dir(slot(B, b"B."), slot(A, b"B."), slot(A, b"C.")), *numbered(b"X.", b"Y.")],
        ["SysDir>B. length 4", "SysDir>C. length 3", "2 files"],
    ),
    (
        "an entry of a dead file is left out, and its name isn't taken",
        [sys_dir(slot(ordinary(8), b"A."), slot(A, b"A.")), whole(5, A, b"X.", 3), data(20, ordinary(8), 1, 5)],
        ["SysDir>A. length 3", "1 files"],
    ),
    (
        "of a dead file's entry and two of one that lives the first of these is kept",
        [sys_dir(slot(ordinary(8), b"H."), slot(A, b"B."), slot(A, b"A.")), *numbered(b"X.", b"Y.")],
        ["SysDir>B. length 3", "SysDir>Y. length 4", "2 files"],
    ),
    (
        "an entry's name of 39 characters is its file's, and one of 40 ends the directory",
        [sys_dir(slot(A, LONG[39]), slot(B, LONG[40]), slot(B, b"B.")), *numbered(b"X.", b"Y.")],
        [f"SysDir>{'N' * 38}. length 3", "SysDir>Y. length 4", "2 files"],
    ),
    (
        "an entry's name may fill whole words with its length, and its address be 0",
        [sys_dir(slot(B, b"CD.", 0), slot(A, b"B.")), *numbered(b"X.", b"Y.")],
        ["SysDir>B. length 3", "SysDir>CD. length 4", "2 files"],
    ),
    (
        "an entry may have a version in its name",
        [sys_dir(slot(B, b"C!2."), slot(A, b"B.")), *numbered(b"X.", b"Y.")],
        ["SysDir>B. length 3", "SysDir>C!2. length 4", "2 files"],
    ),
    (
        "an entry gives a name to a file whose leader has none",
        [whole(5, A, b"", 5), whole(11, D, b"D.", slot(A, b"X."))],
        ["SysDir>D. directory", "D>X. length 5", "2 files"],
    ),
    (
        "an entry of another version is of another file",
        [sys_dir(slot((0, 3, 2), b"B."), slot((0x8000, 3, 1), b"C.")), whole(5, A, b"A.", 3)],
        ["SysDir>A. length 3", "1 files"],
    ),
    (
        "an entry of SysDir comes before one of another directory",
        [sys_dir(slot(A, b"B.")), whole(11, D, b"D.", slot(A, b"A.")), whole(5, A, b"X.", 3)],
        ["SysDir>B. length 3", "SysDir>D. directory", "2 files"],
    ),
    (
        "of two directories the lower full name comes first, whichever sector is the lower",
        [whole(11, E, b"A.", slot(A, b"B.")), whole(13, D, b"Z.", slot(A, b"C.")), whole(5, A, b"X.", 3)],
        ["SysDir>A. directory", "SysDir>Z. directory", "Z>C. length 3", "3 files"],
    ),
    (
        "and SysDir before both",
        [sys_dir(slot(A, b"root.")), whole(11, E, b"six.", slot(A, b"in6.")), whole(13, D, b"five.", slot(A, b"in5."))]
        + [whole(5, A, b"X.", 3)],
        ["SysDir>five. directory", "SysDir>root. length 3", "SysDir>six. directory", "3 files"],
    ),
    (
        "one name may stand in each directory",
        [sys_dir(slot(A, b"A.")), whole(11, D, b"D.", slot(B, b"A.")), whole(13, E, b"E.", slot(C, b"A."))]
        + numbered(b"X.", b"Y.", b"Z."),
        ["SysDir>A. length 3", "SysDir>D. directory", "SysDir>E. directory", "D>A. length 4", "E>A. length 5", "5 files"],
    ),
    (
        "a directory in a directory has its place in SysDir, and the entry's name isn't taken",
        [whole(11, D, b"D.", slot(E, b"r.") + slot(A, b"R.")), whole(15, E, b"C.", slot(B, b"s.")), *numbered(b"X.", b"Y.")],
        ["SysDir>C. directory", "SysDir>D. directory", "C>s. length 4", "D>R. length 3", "4 files"],
    ),
    (
        "a directory may name itself, and isn't kept there",
        [whole(11, D, b"D.", slot(D, b"X.") + slot(A, b"X.")), whole(5, A, b"A.", 3)],
        ["SysDir>D. directory", "D>X. length 3", "2 files"],
    ),
    (
        "a directory has the name of its entry in SysDir, before its files too",
        [sys_dir(slot(D, b"d.")), whole(11, D, b"Z.", slot(A, b"A.")), whole(5, A, b"X.", 3)],
        ["SysDir>d. directory", "d>A. length 3", "2 files"],
    ),
    (
        "a directory without its leader page names nothing",
        [data(12, D, 1, 16, slot(A, b"B.")), whole(5, A, b"A.", 3)],
        ["SysDir>A. length 3", "1 files"],
    ),
    (
        "a file without the directory mark names nothing",
        [whole(11, C, b"C.", slot(A, b"B.")), whole(5, A, b"A.", 3)],
        ["SysDir>A. length 3", "SysDir>C. length 16", "2 files"],
    ),
]

SYSTEM_FILES = [
    (
        "DiskDescriptor is kept under its own name alone, and another isn't taken by it",
        [sys_dir(slot(DESCRIPTOR, b"A."), slot(A, b"A.")), whole(5, A, b"X.", 3), whole(7, DESCRIPTOR, b"B.", 38)],
        ["SysDir>A. length 3", "1 files"],
    ),
    (
        "SysDir is kept under its own name alone, and another isn't taken by it",
        [sys_dir(slot(SYS_DIR, b"A."), slot(A, b"A.")), whole(5, A, b"X.", 3)],
        ["SysDir>A. length 3", "1 files"],
    ),
    (
        "no other file is kept under a system file's name in SysDir, whatever the case of the letters",
        [sys_dir(slot(A, b"sysdir."), slot(B, b"DISKDESCRIPTOR."), slot(SYS_DIR, b"DiskDescriptor.")), *numbered(b"X.", b"Y.")],
        ["SysDir>X. length 3", "SysDir>Y. length 4", "2 files"],
    ),
    (
        "nor under the other's where its leader has that name",
        [sys_dir(slot(A, b"SYSDIR.")), leader(3, DESCRIPTOR, b"DiskDescriptor."), whole(5, A, b"diskdescriptor.", 3)],
        ["SysDir>diskdescriptor.$1. length 3", "1 files"],
    ),
    (
        "but it is in another directory, which names no system file",
        [sys_dir(slot(A, b"SYSDIR.")), leader(3, DESCRIPTOR, b"DiskDescriptor."), whole(5, A, b"diskdescriptor.", 3)]
        + [whole(11, D, b"D.", slot(DESCRIPTOR, b"Z.") + slot(A, b"SysDir."))],
        ["SysDir>D. directory", "D>SysDir. length 3", "2 files"],
    ),
    (
        "a version of a system file's name is a name as others are",
        [sys_dir(slot(A, b"SysDir!2.")), *numbered(b"X.", b"DiskDescriptor!3.")],
        ["SysDir>DiskDescriptor!3. length 4", "SysDir>SysDir!2. length 3", "2 files"],
    ),
    (
        "in another directory the names of the system files are names as others are",
        [whole(11, D, b"D.", slot(A, b"SysDir.") + slot(B, b"diskdescriptor.")), *numbered(b"X.", b"Y.")],
        ["SysDir>D. directory", "D>diskdescriptor. length 4", "D>SysDir. length 3", "3 files"],
    ),
    (
        "the system files aren't kept in another directory, under no name",
        [sys_dir(), whole(5, A, b"X.", 3), whole(7, B, b"Y.", 4), whole(9, DESCRIPTOR, b"DiskDescriptor.", 38)]
        + [whole(11, D, b"D.", slot(SYS_DIR, b"SysDir.") + slot(DESCRIPTOR, b"B.") + slot(A, b"SysDir.") + slot(B, b"B."))],
        ["SysDir>D. directory", "D>B. length 4", "D>SysDir. length 3", "3 files"],
    ),
    (
        "the system files aren't listed, whatever their leaders say",
        [whole(1, SYS_DIR, b"A.", b""), whole(5, DESCRIPTOR, b"", 38), whole(7, A, b"A.", 3)],
        ["SysDir>A. length 3", "1 files"],
    ),
    (
        "serial 2 of version 2 is an ordinary file",
        [sys_dir(slot((0, 2, 2), b"B.")), whole(5, (0, 2, 2), b"A.", 5)],
        ["SysDir>B. length 5", "1 files"],
    ),
    (
        "serial 1 of version 2 with the directory mark is a directory, and not SysDir",
        [whole(11, (0x8000, 1, 2), b"D.", slot(A, b"B.")), whole(5, A, b"A.", 3)],
        ["SysDir>D. directory", "D>B. length 3", "2 files"],
    ),
    (
        "serials 1 and 2 with the other mark are files as others are",
        [whole(11, (0x8000, 2, 1), b"D.", slot((0, 1, 1), b"B.")), whole(5, (0, 1, 1), b"A.", 3)],
        ["SysDir>D. directory", "D>B. length 3", "2 files"],
    ),
    (
        "files and a directory of the serials of system files stand beside others, and the directory is the first of two that names a file",
        [leader(5, (0, 1, 1), b"A."), leader(6, (0, 2, 2), b"B."), leader(9, A, b"X.")]
        + [whole(7, (0x8000, 1, 2), b"C.", slot(A, b"in.")), whole(11, D, b"D.", slot(A, b"in."))],
        ["SysDir>A. length 0", "SysDir>B. length 0", "SysDir>C. directory", "SysDir>D. directory", "C>in. length 0", "5 files"],
    ),
]


def bad_slots(file):
    """Slots that end what is read of a directory. What would be an entry otherwise is that of this file."""
    return [
        ("of length 0", b"\0\0"),
        ("of type 1 and length 0", b"\x04\x00"),
        ("of type 1 and length 1", b"\x04\x01"),
        ("of type 2", struct.pack(">H", 0x0800 | 1)),
        ("of type 2 that is an entry otherwise", changed_slot(file, 0, 0x0800 | 8)),
        ("of type 63", struct.pack(">H", 0xFC00 | 1)),
        ("of type 63 that is an entry otherwise", changed_slot(file, 0, 0xFC00 | 8)),
        ("of an entry that is a word longer than its name asks for", changed_slot(file, 0, 0x0400 | 9) + b"\0\0"),
        ("of an entry that is a word shorter than its name asks for", changed_slot(file, 0, 0x0400 | 7)[:-2]),
        ("whose word 4 isn't 0", changed_slot(file, 4, 1)),
        ("whose byte after the name isn't 0", slot(file, b"D.")[:-1] + b"\1"),
        ("with a name of no characters", slot(file, b"")),
        ("with a name of one character", slot(file, b".")),
        ("with a name of forty characters", slot(file, LONG[40])),
        ("with a name that ends in no dot", slot(file, b"DD")),
        ("with a name of a character that no stored name has", slot(file, b"D_.")),
        ("with a version that has a leading zero", slot(file, b"D!02.")),
        ("with the version 1 in its name", slot(file, b"D!1.")),
        ("with the version 65535 in its name", slot(file, b"D!65535.")),
        ("of serial 0", slot((0, 0, 1), b"D.")),
        ("of serial 0 with the directory mark", slot((0x8000, 0, 1), b"D.")),
        ("of version 0", slot((0, 8, 0), b"D.")),
        ("of version 65535", slot((0, 8, ONES), b"D.")),
        ("of free words past the end", free_slot(10)[:2]),
    ]


# slots that don't: the file has no leader page
GOOD_SLOTS = [
    ("of one free word", free_slot(1)),
    ("of one free word and one of three, whatever stands in them,", struct.pack(">4H", 1, 3, ONES, 0)),
    ("of 150 free words that spell entries", struct.pack(">H", 150) + slot(B, b"E.") * 18 + bytes(10)),
    ("of a dead file", slot(ordinary(8), b"D.")),
    ("with a name of 39 characters", slot(ordinary(8), LONG[39])),
    ("with a name of two characters", slot(ordinary(8), b"..")),
    ("with a version in its name", slot(ordinary(8), b"D!2.")),
    ("of version 65534", slot((0, 8, 0xFFFE), b"D.")),
    ("of the greatest serial", slot((ONES, ONES, 1), b"D.")),
    ("of the lowest serial", slot((0, 1, 1), b"D.")),
]

FIRST, SECOND = slot(A, b"B."), slot(B, b"C.")
BY_LEADERS = ["SysDir>X. length 3", "SysDir>Y. length 4", "2 files"]
B_ALONE = ["SysDir>B. length 3", "SysDir>Y. length 4", "2 files"]
B_AND_C = ["SysDir>B. length 3", "SysDir>C. length 4", "2 files"]

DIRECTORIES = [
    ("without another slot both entries are read", two_files(FIRST + SECOND), B_AND_C),
    *((f"a slot {what} ends a directory", two_files(FIRST + bad + SECOND), B_ALONE) for what, bad in bad_slots(ordinary(8))),
    *((f"a slot {what} names no file", two_files(bad + FIRST), BY_LEADERS) for what, bad in bad_slots(B)),
    *((f"a slot {what} doesn't end a directory", two_files(FIRST + good + SECOND), B_AND_C) for what, good in GOOD_SLOTS),
    (
        "a free slot of 1023 words doesn't end a directory",
        [sys_dir(FIRST + free_slot(1_023) + SECOND), whole(20, A, b"X.", 3), whole(22, B, b"Y.", 4)],
        B_AND_C,
    ),
    ("an entry without its last word ends a directory", two_files((FIRST + SECOND)[:-2]), B_ALONE),
    ("an entry without its last byte ends a directory", two_files((FIRST + SECOND)[:-1]), B_ALONE),
    ("an odd byte after the last slot is left out", two_files(FIRST + SECOND + b"\1"), B_AND_C),
    ("an entry of which the first word alone is there ends a directory", two_files(FIRST + SECOND[:2]), B_ALONE),
    # an entry of 8 words over the end of a page of 256 words
    (
        "an entry may lie over the end of a page",
        [sys_dir(free_slot(250), slot(A, b"B.")), whole(5, A, b"A.", 3)],
        ["SysDir>B. length 3", "1 files"],
    ),
    (
        "and after it an entry without its last byte ends the directory",
        two_files((free_slot(250) + FIRST + SECOND)[:-1]),
        B_ALONE,
    ),
    (
        "a directory's pages may stand on any sectors",
        [leader(30, SYS_DIR, b"SysDir."), data(40, SYS_DIR, 1, PAGE, free_slot(250) + slot(A, b"B.")[:12])]
        + [data(20, SYS_DIR, 2, 4, slot(A, b"B.")[12:]), whole(5, A, b"A.", 3)],
        ["SysDir>B. length 3", "1 files"],
    ),
    (
        "an entry over the end of a page isn't read where the next page is missing",
        [leader(1, SYS_DIR, b"SysDir."), data(2, SYS_DIR, 1, PAGE, free_slot(250) + slot(A, b"B.")[:12]), whole(5, A, b"A.", 3)]
        + [data(3, SYS_DIR, 3, 16, slot(A, b"C."))],
        ["SysDir>A. length 3", "1 files"],
    ),
    (
        "a page of a directory after one that isn't full isn't read",
        [leader(1, SYS_DIR, b"SysDir."), data(2, SYS_DIR, 1, 510, free_slot(255)), data(3, SYS_DIR, 2, 16, slot(A, b"B."))]
        + [whole(5, A, b"A.", 3)],
        ["SysDir>A. length 3", "1 files"],
    ),
    (
        "of two copies of a directory's page the lower is read",
        [leader(10, SYS_DIR, b"SysDir."), data(20, SYS_DIR, 1, 16, slot(A, b"B.")), data(2, SYS_DIR, 1, 16, slot(A, b"C."))]
        + [whole(5, A, b"A.", 3)],
        ["SysDir>C. length 3", "1 files"],
    ),
    (
        "words past a directory's count aren't read",
        [leader(1, SYS_DIR, b"SysDir."), data(2, SYS_DIR, 1, 16, slot(A, b"B.") + slot(B, b"C.")), *numbered(b"X.", b"Y.")],
        B_ALONE,
    ),
]


def two_directories():
    """D and E, whose leaders say b and C: D names two files, and E names D and a third file."""
    return [
        whole(5, A, b"X.", 5),
        leader(7, B, b"Y."),
        leader(9, C, b"Z."),
        whole(11, D, b"b.", slot(A, b"a.") + slot(B, b"Q.")),
        whole(13, E, b"C.", slot(D, b"inner.") + slot(C, b"r.")),
    ]


ORDER = [
    (
        "names are ordered without regard to case",
        numbered(b"b.", b"C.", b"A.", b"a0.", b"B0."),
        ["SysDir>A. length 5", "SysDir>a0. length 6", "SysDir>b. length 3", "SysDir>B0. length 7", "SysDir>C. length 4", "5 files"],
    ),
    (
        "names are ordered whole, their last dot among the characters: $ + - . digits letters",
        numbered(b"A.", b"AB.", b"A-.", b"Aa.", b"A$.", b"A0.", b"A+.", b"A.."),
        ["SysDir>A$. length 7", "SysDir>A+. length 9", "SysDir>A-. length 5", "SysDir>A. length 3", "SysDir>A.. length 10"]
        + ["SysDir>A0. length 8", "SysDir>Aa. length 6", "SysDir>AB. length 4", "8 files"],
    ),
    (
        "names of one base are ordered by their versions, before a base that is longer",
        numbered(b"A!10.", b"A.B.", b"A.", b"a!2."),
        ["SysDir>A. length 5", "SysDir>a!2. length 6", "SysDir>A!10. length 3", "SysDir>A.B. length 4", "4 files"],
    ),
    (
        "the digits of a version aren't characters of its base",
        numbered(b"A9.", b"A!2.", b"A!65534.", b"A-."),
        ["SysDir>A-. length 6", "SysDir>A!2. length 4", "SysDir>A!65534. length 5", "SysDir>A9. length 3", "4 files"],
    ),
    (
        "SysDir's lines come first, its directories among them by name",
        [whole(11, D, b"A.", slot(A, b"X.")), whole(13, E, b"Z.", slot(B, b"W.")), *numbered(b"T.", b"T.", b"T.")],
        ["SysDir>A. directory", "SysDir>T. length 5", "SysDir>Z. directory", "A>X. length 3", "Z>W. length 4", "5 files"],
    ),
    (
        "directories are ordered by their names without regard to case, whatever their full names and sectors",
        [whole(11, directory(9), b"B.", slot(A, b"z.")), whole(13, directory(8), b"a.", slot(B, b"y."))]
        + [whole(15, directory(7), b"c.", slot(C, b"x.")), *numbered(b"T.", b"T.", b"T.")],
        ["SysDir>a. directory", "SysDir>B. directory", "SysDir>c. directory"]
        + ["a>y. length 4", "B>z. length 3", "c>x. length 5", "6 files"],
    ),
    (
        "directories are ordered by their whole names, the dot that isn't shown too",
        [whole(11, D, b"D.", slot(A, b"X.")), whole(13, E, b"D-.", slot(B, b"Y.")), whole(15, directory(8), b"D0.", slot(C, b"Z."))]
        + numbered(b"T.", b"T.", b"T."),
        ["SysDir>D-. directory", "SysDir>D. directory", "SysDir>D0. directory"]
        + ["D->Y. length 4", "D>X. length 3", "D0>Z. length 5", "6 files"],
    ),
    (
        "of a directory's name the last dot alone isn't shown before its files",
        [whole(11, D, b"D.", slot(A, b"X.")), whole(13, E, b"D.", slot(B, b"Y.")), whole(15, directory(8), b"D..", slot(C, b"Z."))]
        + numbered(b"T.", b"T.", b"T."),
        ["SysDir>D. directory", "SysDir>D.$1. directory", "SysDir>D.. directory"]
        + ["D>X. length 3", "D.$1>Y. length 4", "D.>Z. length 5", "6 files"],
    ),
    (
        "a directory may have a version in its name, and is listed by it",
        [whole(11, D, b"D!2.", slot(A, b"X.")), whole(5, A, b"A.", 3)],
        ["SysDir>D!2. directory", "D!2>X. length 3", "2 files"],
    ),
    (
        "directories of one base are ordered by their versions",
        [whole(11, D, b"D!10.", slot(A, b"X.")), whole(13, E, b"D.", slot(B, b"Y.")), whole(15, directory(8), b"D!2.", slot(C, b"Z."))]
        + numbered(b"T.", b"T.", b"T."),
        ["SysDir>D. directory", "SysDir>D!2. directory", "SysDir>D!10. directory"]
        + ["D>Y. length 4", "D!2>Z. length 5", "D!10>X. length 3", "6 files"],
    ),
    (
        "files of directories are ordered without regard to case, and a directory among them stands in SysDir",
        two_directories(),
        ["SysDir>b. directory", "SysDir>C. directory", "b>a. length 5", "b>Q. length 0", "C>r. length 0", "5 files"],
    ),
    (
        "directories are ordered by the names of their entries in SysDir, and not of their leaders",
        [sys_dir(slot(D, b"d.")), *two_directories()],
        ["SysDir>C. directory", "SysDir>d. directory", "C>r. length 0", "d>a. length 5", "d>Q. length 0", "5 files"],
    ),
    (
        "a directory without files has its line alone",
        [whole(11, D, b"D.", free_slot(255))],
        ["SysDir>D. directory", "1 files"],
    ),
]


def directories_and_names(lengths, *more):
    """D and E with a freed slot of X each, and three files with that name in their leaders, the last of them in SysDir, and these slots
    after its own."""
    first, second, third = lengths
    freed = free_slot(8) + free_slot(247)
    root = [slot(directory(3), b"D.", 5), slot(directory(5), b"E.", 9), slot(ordinary(7), b"X.", 13)]
    return [
        *formatted(*root, *more),
        whole(5, directory(3), b"D.", freed),
        whole(7, ordinary(4), b"X.", first),
        whole(9, directory(5), b"E.", freed),
        whole(11, ordinary(6), b"X.", second),
        whole(13, ordinary(7), b"X.", third),
    ]


def small_pack(*more, text=b"A."):
    """A formatted pack with a file A of five bytes, whose entry begins at word 24 of SysDir. Its leader may say another name."""
    return [*formatted(slot(A, b"A.", 5)), whole(5, A, text, b"ABCDE"), *more]


SMALL = ["SysDir>A. length 5", "1 files"]

DAMAGES = [
    (
        "nameless files of two directories get their leader's name with suffixes",
        directories_and_names((0, 0, 0)),
        ["SysDir>D. directory", "SysDir>E. directory", "SysDir>X. length 0", "SysDir>X.$1. length 0", "SysDir>X.$2. length 0", "5 files"],
    ),
    (
        "and the first suffix is the file's of the lower serial",
        directories_and_names((4, 6, 7)),
        ["SysDir>D. directory", "SysDir>E. directory", "SysDir>X. length 7", "SysDir>X.$1. length 4", "SysDir>X.$2. length 6", "5 files"],
    ),
    *(
        (
            f"and the same where it has an entry with that suffix already, {sentence}",
            directories_and_names(lengths, slot(ordinary(4), b"X.$1.", 7)),
            ["SysDir>D. directory", "SysDir>E. directory"]
            + [f"SysDir>X. length {lengths[2]}", f"SysDir>X.$1. length {lengths[0]}", f"SysDir>X.$2. length {lengths[1]}", "5 files"],
        )
        for sentence, lengths in [("without bytes", (0, 0, 0)), ("by their lengths", (4, 6, 7))]
    ),
    ("a small pack shows its file", small_pack(), SMALL),
    ("a copy of a page on a free sector shows nothing", small_pack(data(20, A, 1, 5, b"XXXXX")), SMALL),
    ("a copy with another count on a free sector shows nothing", small_pack(data(20, A, 1, 3, b"XXX")), SMALL),
    ("a next link that points at its own sector shows nothing", small_pack(word(5, NEXT, packs.real_of(5))), SMALL),
    ("a next link of a data page that points at its own sector shows nothing", small_pack(word(6, NEXT, packs.real_of(6))), SMALL),
    (
        "nor does it with a slot of no words in place of the entry",
        small_pack(word(6, NEXT, packs.real_of(6)), word(2, VALUE + 24, 0)),
        SMALL,
    ),
    ("a slot of no words in place of an entry leaves the file its leader's name", small_pack(word(2, VALUE + 24, 0)), SMALL),
    (
        "and that name is the leader's own",
        small_pack(word(2, VALUE + 24, 0), text=b"B."),
        ["SysDir>B. length 5", "1 files"],
    ),
    ("an entry's name stands where the leader has another", small_pack(text=b"B."), SMALL),
    ("all links of ones show nothing", small_pack(*(word(at, NEXT, ONES) for at in range(1, 7))), SMALL),
]

# sectors past 255, and numbers past a byte and a word
LARGE = [
    (
        "a file may stand on the last sectors of a drive of model 31",
        [leader(4_871, A, b"A."), data(4_870, A, 1, PAGE), data(4_869, A, 2, 1)],
        ["SysDir>A. length 513", "1 files"],
    ),
    (
        "page numbers and lengths go past a byte and a word of 16 bits",
        [whole(5, A, b"A.", 131_076)],
        ["SysDir>A. length 131076", "1 files"],
    ),
]

# a drive of model 44 has the most sectors, so that cylinder, head and sector of an address are at their greatest
LARGEST = [
    (
        "a file may stand on the last sectors of a drive of model 44",
        [leader(9_743, A, b"A."), data(9_742, A, 1, PAGE), data(9_741, A, 2, 1)],
        ["SysDir>A. length 513", "1 files"],
    ),
]

# the last sector of the first drive, and the first and the last of the second
TWO_SMALL = [
    (
        "a file may stand on the last sectors of both drives",
        [leader(95, A, b"A."), data(47, A, 1, PAGE), data(48, A, 2, 1)],
        ["SysDir>A. length 513", "1 files"],
    ),
    (
        "a file's leader and its pages may stand on two drives, either way round",
        [leader(5, A, b""), data(50, A, 1, 5, b"ABCDE"), leader(70, B, b""), data(7, B, 1, 5, b"ABCDE")],
        ["SysDir>Lost3. length 5", "SysDir>Lost4. length 5", "2 files"],
    ),
]
TWO_LARGEST = [
    (
        "a file may stand on the last sectors of two drives of model 44",
        [leader(19_487, A, b"A."), data(9_743, A, 1, PAGE), data(9_744, A, 2, 1)],
        ["SysDir>A. length 513", "1 files"],
    ),
]

PACKS = [(1, 2, *row) for row in FILES + LEADER_NAMES + SUFFIXES + ENTRIES + SYSTEM_FILES + DIRECTORIES + ORDER + DAMAGES]
PACKS += [(1, 203, *row) for row in LARGE] + [(1, 406, *row) for row in LARGEST]
PACKS += [(2, 2, *row) for row in TWO_SMALL] + [(2, 406, *row) for row in TWO_LARGEST]


def files_of(drives, cylinders, changes):
    """The pack files of so many drives, by their names, after these changes of a pack without files."""
    sectors = packs.free_sectors(drives * cylinders)
    for change in changes:
        change(sectors)
    if drives == 1:
        return {"pack": b"".join(sectors)}
    return dict(zip(("pack", "second"), packs.files_of_two(sectors, cylinders)))


def check(program, folder, drives, cylinders, sentence, changes, lines):
    """Shows this pack in an empty folder, which it leaves empty, and compares all that can be seen from outside."""
    files, listing = files_of(drives, cylinders, changes), "".join(f"{line}\n" for line in lines).encode()
    for name, content in files.items():
        (folder / name).write_bytes(content)
    words = ["pack", "show"] if drives == 1 else ["--second", "second", "pack", "show"]
    try:
        ended = subprocess.run([program, *words], cwd=folder, stdin=subprocess.DEVNULL, capture_output=True, timeout=SECONDS)
        found, wanted = (ended.returncode, ended.stdout, ended.stderr), (0, listing, b"")
        for what, one, other in zip(("exit code", "listing", "standard error"), found, wanted):
            if one != other:
                failures.append(f"{sentence}: {what}: {one!r}, and not {other!r}")
    except subprocess.TimeoutExpired:
        failures.append(f"{sentence}: no end")
    if {it.name: it.read_bytes() for it in folder.iterdir()} != files:
        failures.append(f"{sentence}: the pack files aren't left alone as they were")
    for it in folder.iterdir():
        it.unlink()


def main():
    program = arguments.read(arguments.parser(__doc__)).program
    sentences = [row[2] for row in PACKS]
    assert len(set(sentences)) == len(sentences), "each sentence stands once"
    with tempfile.TemporaryDirectory() as folder:
        for row in PACKS:
            check(program, pathlib.Path(folder), *row)
    arguments.end("listings", failures, f"{len(PACKS)} packs are shown as they should be")


if __name__ == "__main__":
    main()
