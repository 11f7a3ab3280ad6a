#!/usr/bin/env python3
"""Run by the gate: worked rows of typed sessions and of scavenges, through real pack files.

They are of what is shown, how each ends, and what `show` lists then. Each row begins with a pack that is formatted. Each session begins
with `settime 1000`, whose `done` is the first reply. What is wanted was worked out by hand from docs/commands.md, and never taken from a
run. Lines are parted by `|`, and a `$` in the place of the last one's end leaves it out; `x*n` is n times x. A pack that isn't entered or
can't be scavenged, and one over which a session is said to write nothing, stays byte by byte. `show` lists the same before a scavenge and
after it.
"""
import collections
import pathlib
import re
import struct
import subprocess
import sys
import tempfile

sys.dont_write_bytecode = True
import arguments
import packs

SECONDS = 10
FREE_PAGES = {(1, 2): 43, (1, 203): 4866, (2, 2): 91}

Boot = collections.namedtuple("Boot", "typed shown code writes", defaults=[0, True])
Show = collections.namedtuple("Show", "shown")
Scavenge = collections.namedtuple("Scavenge", "shown code", defaults=[0])
# words of a sector that are set by hand: of its value below 256, and from there on of its label
Set = collections.namedtuple("Set", "sector words")
# another pack file in the place of the first, made from its bytes
Change = collections.namedtuple("Change", "made")
# a second drive, of zeros and then prepared
Second = collections.namedtuple("Second", "shown")

MISLED = "hint failed: entry #1 word 29 at 6 wanted #3 v 1 page 0 found 65535 20480 0 0 1 1 0 3"
NEWER = "made #3|length 1|made #4|length 2|A.|A!2.|DiskDescriptor.|SysDir.|4 entries|01|1 bytes|done"
NO_ROOT = "no root: found 65535 65535 65535 65535 65535 65535 65535 65535"
NO_LINK = "hint failed: next of 5 at 65535 wanted #3 v 1 page 1 found none"
# of the entry of a directory, and of its second page
OF_DIRECTORY = f"hint failed: entry #1 word 29 at 7 wanted #3 v 1 page 0 found {packs.real_of(8)} 65535 0 512 0 1 0 4"
NO_SECOND = "hint failed: next of 6 at 65535 wanted #3 v 1 page 2 found none"
SPENT = "serials spent: last 2147483646"
CROWDED = f"#12 length 11776 pages 25 created 0 written 0 read 0 name {'N' * 26}."
DATES, NO_DATES = "created 1000 written 1000 read 1000", "created 0 written 0 read 0"
# texts of packs that aren't entered
NOT_ENTERED = ("pack not clean", "wrong descriptor", "no root")
# the exit code of a pack that can't be scavenged
CANNOT = 7
# the name of each of five files that fill 258 sectors, and how many bytes it has
WORLDS, WORLD = [f"W{n}." for n in range(1, 6)], 131_076
# three files named X. in different directories: the first words of their slots stand in the directories' pages on sectors 6 and 10
THREE_NAMES = [
    Boot("mkdir D|make D>X|mkdir E|make E>X|make X", "made #3|made #4|made #5|made #6|made #7"),
    Set(6, {0: 8}),
    Set(10, {0: 8}),
]
THREE_LISTED = Show("SysDir>D. directory|SysDir>E. directory|SysDir>X. length 0|SysDir>X.$1. length 0|SysDir>X.$2. length 0|5 files")
THREE_TOLD = Boot("stat X.$1|stat X.$2", f"#4 length 0 pages 2 {DATES} name X.|#6 length 0 pages 2 {DATES} name X.")


def report(files, freed=0, bad=0, adopted=0):
    return f"scavenged: files {files}, freed {freed}, bad {bad}, adopted {adopted}"


def zeros(file):
    return bytes(len(file))


def ones(file):
    """Ones in each label and value from sector 1 on."""
    first, *others = packs.sectors_of(file)
    return first + b"".join(it[: packs.LABEL_AT] + packs.FREED for it in others)


def worlds(file):
    """Five files that with the system files have 1,295 sectors: 6 for SysDir and DiskDescriptor with sector 0, and 258 for each."""
    contents = [bytes((n * 7 + at // 512) % 251 for at in range(WORLD)) for n in range(5)]
    placed = [(name.encode(), content, range(6 + 258 * n, 264 + 258 * n)) for n, (name, content) in enumerate(zip(WORLDS, contents))]
    return packs.sound(1, len(file) // 24 // packs.SECTOR, placed)[0]


def crowded(before, after, letters):
    """A full pack that lost DiskDescriptor's leader page. In SysDir free slots of so many words stand before its entry and after it, 20 in
    all, and entries of 211 words fill the page. One more file, whose name has so many letters, has no entry."""

    def change(file):
        sectors, at = packs.sectors_of(file), 5
        slots = [packs.slot(packs.SYS_DIR, b"SysDir.", 1), *map(packs.free_slot, before)]
        slots += [packs.slot(packs.DESCRIPTOR, b"DiskDescriptor.", 3), *map(packs.free_slot, after)]
        # seven entries of 26 words, one of 21 and one of 8
        for serial, length in enumerate([38] * 7 + [28, 1], packs.SERIAL):
            name = b"%c" % (ord("a") + serial) * length + b"."
            slots.append(packs.slot(packs.ordinary(serial), name, at))
            at = packs.put_file(sectors, at, packs.ordinary(serial), name, b"")
        packs.put_file(sectors, at, packs.ordinary(12), b"N" * letters + b".", bytes(23 * packs.PAGE))
        packs.put_file(sectors, 1, packs.SYS_DIR, b"SysDir.", b"".join(slots))
        sectors[3] = sectors[3][: packs.LABEL_AT] + packs.FREED
        return b"".join(sectors)

    return change


def headless(file):
    """No address in the header of sector 1."""
    return file[: packs.SECTOR + 2] + bytes(2) + file[packs.SECTOR + 4 :]


def leaders(count):
    """So many leader pages on the last sectors, each of a file `F.` without a data page or an entry."""

    def change(file):
        sectors = packs.sectors_of(file)
        for at in range(len(sectors) - count, len(sectors)):
            packs.put_page(sectors, at, packs.ordinary(at), 0, packs.leader(b"F."))
        return b"".join(sectors)

    return change


def each_alone(typed, shown):
    """Sessions of one of these lines each, which is answered by a hint that failed and writes nothing."""
    return [Boot(line, shown, 2, writes=False) for line in typed.split("|")]


# the name of a row, the drives and the cylinders of each, and what is done
ROWS = [
    ("a formatted pack", 1, 2, [Boot("free", "43 pages free"), Boot("list", "DiskDescriptor.|SysDir.|2 entries"), Show("0 files")]),
    ("a large pack", 1, 203, [Boot("free", "4866 pages free")]),
    ("a full page forces an empty last page", 1, 2, [Boot("make A|append A 41*512|free", "made #3|length 512|40 pages free")]),
    ("and on two drives", 2, 2, [Boot("make A|append A 41*512|free", "made #3|length 512|88 pages free"), Show("SysDir>A. length 512|1 files")]),
    ("no bytes", 1, 2, [Boot("make A|append A -|type A|free$", "made #3|length 0|0 bytes|41 pages free")]),
    (
        "the address of another page",
        1,
        2,
        [
            Boot("make A", "made #3"),
            Set(2, {29: 6}),
            Boot("type A|free", f"{MISLED}|needs scavenging", 2, writes=False),
            Scavenge(report(3)),
            Boot("type A|free", "0 bytes|41 pages free", writes=False),
        ],
    ),
    (
        "a quit in need",
        1,
        2,
        [
            Boot("make A", "made #3"),
            Set(2, {29: 6}),
            Boot(
                "type A|settime 5|scavenge||make B|quit|free",
                f"{MISLED}|needs scavenging|bad line|bad line|needs scavenging|done",
                2,
                writes=False,
            ),
            Show("SysDir>A. length 0|1 files"),
        ],
    ),
    (
        "no link",
        1,
        2,
        [
            Boot("make A|append A 11*600", "made #3|length 600"),
            Set(5, {256: 65535, 257: 65535}),
            Set(6, {256: 65535, 257: 65535}),
            Set(7, {256: 65535, 257: 65535}),
            Boot("type A", NO_LINK, 2, writes=False),
            Boot("free", "40 pages free", writes=False),
            Scavenge(report(3)),
            Boot("type A|free", "11*32|" * 18 + "11*24|600 bytes|40 pages free", writes=False),
        ],
    ),
    (
        "a drop that breaks off",
        1,
        2,
        [
            Boot("make A", "made #3"),
            Set(5, {256: 65535}),
            Boot("delete A|free|quit", f"{NO_LINK}|needs scavenging|done", 2),
            Boot("free", "pack not clean: mark 2", 2),
            Show("0 files"),
            # page 1 has no leader page any more, and the entry no file
            Scavenge(report(2, freed=1)),
            Boot("free|list", "43 pages free|DiskDescriptor.|SysDir.|2 entries", writes=False),
        ],
    ),
    (
        "the address of a directory is that of another page",
        1,
        2,
        [
            Boot("mkdir D|make D>A|append D>A 41|make B", "made #3|made #4|length 1|made #5"),
            # the leader of A. is on sector 7
            Set(2, {29: 7}),
            *each_alone(
                "list D|type D>A|stat D>A|stat D|make D>C|append D>A 42|patch D>A 0 42|cut D>A 0|copy D>A C|copy B D>C|rename D>A C|rename B D>C"
                "|delete D>A|rmdir D",
                OF_DIRECTORY,
            ),
            Boot("type B|type #4|mkdir D|make D", "0 bytes|41|1 bytes|name taken|name taken", writes=False),
        ],
    ),
    (
        "no link to the last page, which the leader doesn't name",
        1,
        2,
        [
            Boot("make A|append A 41", "made #3|length 1"),
            Set(5, {253: 65535, 256: 65535}),
            *each_alone("type A|stat A|append A 42|patch A 0 42|cut A 0|copy A B|type #3|append #3 42", NO_LINK),
        ],
    ),
    (
        "no link to the second page of a directory",
        1,
        2,
        [
            # of its 256 words each name takes 26; its first page is on sector 6
            Boot("mkdir D|" + "|".join(f"make D>{letter}*38" for letter in "abcdefghij") + "|make B", "|".join(f"made #{n}" for n in range(3, 15))),
            Set(6, {256: 65535}),
            *each_alone(
                "list D|type D>A|stat D>A|make D>A|append D>A 41|patch D>A 0 41|cut D>A 0|copy D>A C|copy B D>A|rename D>A C|rename B D>A"
                "|delete D>A|rmdir D",
                NO_SECOND,
            ),
            Boot("type B|type #4|mkdir D", "0 bytes|0 bytes|name taken", writes=False),
        ],
    ),
    ("all busy", 1, 2, [Set(4, {16: 65535, 17: 65535, 18: 65535}), Boot("make B", "made #3")]),
    ("all free", 1, 2, [Set(4, {16: 0, 17: 0, 18: 0}), Boot("make B", "made #3"), Show("SysDir>B. length 0|1 files")]),
    (
        "a full pack",
        1,
        2,
        [
            Boot(
                "make A" + "|append A 41*2000" * 10 + "|append A 41*480|free|make C",
                "made #3" + "".join(f"|length {2000 * n}" for n in range(1, 11)) + "|length 20480|1 pages free|full: needed 2 free 1",
            ),
            Boot("make C", "full: needed 2 free 1", writes=False),
            Show("SysDir>A. length 20480|1 files"),
        ],
    ),
    (
        "an open mark",
        1,
        2,
        [
            Boot("make A", "made #3"),
            # the mark that a session leaves which is stopped after it wrote
            Set(4, {6: 2}),
            Boot("free", "pack not clean: mark 2", 2),
            Scavenge(report(3)),
            Boot("free", "41 pages free", writes=False),
        ],
    ),
    (
        "a session stays as it is over each line",
        1,
        2,
        [
            Boot(
                "make A|append A 4142|patch A 0 43|cut A 1|copy A B|rename B C|delete C|mkdir D|rmdir D|list|type A|stat A|make A!1|free|make Z|stat Z",
                "made #3|length 2|done|length 1|made #4|done|done|made #5|done|A.|DiskDescriptor.|SysDir.|3 entries|43|1 bytes"
                f"|#3 length 1 pages 2 {DATES} name A.|name taken|41 pages free|made #6|#6 length 0 pages 2 {DATES} name Z.",
            ),
        ],
    ),
    (
        "one serial is left",
        1,
        2,
        [
            Set(4, {4: 0x7FFF, 5: 0xFFFD}),
            Boot("make A|make B", f"made #2147483646|{SPENT}"),
            Boot("make B|mkdir D|copy A B|make A!1", f"{SPENT}|{SPENT}|{SPENT}|name taken", writes=False),
        ],
    ),
    (
        "a file whose bytes are those of an entry is no directory",
        1,
        2,
        [
            Boot(f"make A|append A {packs.slot(packs.ordinary(3), b'B.', 5).hex()}", "made #3|length 16"),
            Boot("type A>B|stat A>B|cut A>B 0|delete A>B|make A>C|list A", "no such name|" * 4 + "not a directory|not a directory", writes=False),
        ],
    ),
    ("a cut past the end", 1, 2, [Boot("make A|append A 41*512", "made #3|length 512"), Boot("cut A 1000", "beyond length 512")]),
    (
        "a patch",
        1,
        2,
        [
            Boot("make A|append A 4142434445", "made #3|length 5"),
            Boot("patch #3 1 4242|type A|patch A 4 4242", "done|4142424445|5 bytes|beyond length 5"),
        ],
    ),
    (
        "refusals",
        1,
        2,
        [
            Boot(
                "make A|append A 0102|stat A|make a|type SysDir|type DiskDescriptor|make Z>Q|list A",
                f"made #3|length 2|#3 length 2 pages 2 {DATES} name A.|made #4|is a directory|system file|no such name|not a directory",
            ),
            Show("SysDir>A. length 2|SysDir>a!2. length 0|2 files"),
            # each line is refused before the mark is opened
            Boot(
                "delete SysDir|delete DiskDescriptor|delete B|delete A>B|delete A!3|rmdir SysDir|rmdir A|rmdir B|type A>A|list A|stat DiskDescriptor",
                "is a directory|system file|no such name|no such name|no such name|system file|not a directory|no such name|no such name"
                "|not a directory|system file",
                writes=False,
            ),
            Boot(
                "copy SysDir B|copy A Z>B|copy A a>B|copy B C|rename SysDir B|rename A Z>B|rename A a>B|rename B C|rename A SysDir|copy A a!2",
                "is a directory|no such name|not a directory|no such name|is a directory|no such name|not a directory|no such name|name taken|name taken",
                writes=False,
            ),
            Boot(
                "append SysDir 41|append B 41|patch A!1 2 41|patch DiskDescriptor 0 41|cut A!1 3|cut B 0|make A!2|make a>B|mkdir A|free|stat A!1|type A!1|list",
                f"is a directory|no such name|beyond length 2|system file|beyond length 2|no such name|name taken|not a directory|name taken|39 pages free"
                f"|#3 length 2 pages 2 {DATES} name A.|0102|2 bytes|A.|a!2.|DiskDescriptor.|SysDir.|4 entries",
                writes=False,
            ),
        ],
    ),
    (
        "a name that only a later version has",
        1,
        2,
        [Boot("make A|make A|delete A!1|mkdir A|make A!2|free|list", "made #3|made #4|done|name taken|name taken|41 pages free|A!2.|DiskDescriptor.|SysDir.|3 entries")],
    ),
    ("bad lines", 1, 2, [Boot("Free||free  |x*4097|scavenge", "bad line|bad line|bad line|bad line|bad line", writes=False)]),
    (
        "versions",
        1,
        2,
        [
            Boot(
                "make A|append A 01|make A|append A 0202|list|type A!1|delete A|stat A|make A!1|make A!0|make A!02|mkdir D!2|make SysDir",
                f"{NEWER}|#3 length 1 pages 2 {DATES} name A.|name taken|bad line|bad line|bad line|name taken",
            ),
        ],
    ),
    ("a quit, and keys after it", 1, 2, [Boot("make A|quit|make B", "made #3|done"), Show("SysDir>A. length 0|1 files")]),
    (
        "directories",
        1,
        2,
        [
            Boot("mkdir D|make D>A|append D>A 01|rmdir D|copy D>A B|rename D>A C", "made #3|made #4|length 1|not empty|made #5|done"),
            Boot("list|rmdir D|delete B", "B.|C.|D.|DiskDescriptor.|SysDir.|5 entries|done|done"),
            Show("SysDir>C. length 1|1 files"),
        ],
    ),
    # the memory: blocks and levels
    (
        "blocks",
        1,
        2,
        [
            # 100 words and a tag are 102, of 39,936
            Boot(
                "block 100|block 40000|store 1025 7|fetch 1025|store 2000 7|unblock 1025|unblock 1025",
                "at 1025|no room: largest 39833|done|7|not a block|done|not a block",
                writes=False,
            ),
        ],
    ),
    (
        "no line reaches the tag of a block",
        1,
        2,
        [
            Boot(
                "block 1|block 1|store 1024 4|store 1026 5|fetch 1026|fetch 1024|store 1025 65535|fetch 1025|fetch 1027|unblock 1027|fetch 1025",
                "at 1025|at 1027|not a block|not a block|not a block|not a block|done|65535|0|done|65535",
                writes=False,
            ),
        ],
    ),
    (
        "a level that goes and comes back",
        1,
        2,
        [
            Boot(
                "junta 2|type A|block 60000|counterjunta|unblock 1025|counterjunta",
                "level 2|needs level 5|at 1025|in use at 1025|done|level 8",
                writes=False,
            ),
        ],
    ),
    (
        "the words of the user, of the whole zone, and of the services",
        1,
        2,
        [
            Boot(
                "block 65535|store 1023 5|fetch 0000001023|fetch 0|store 1024 5|fetch 1024|fetch 1025|fetch 40959|fetch 40960|fetch 65535|store 65535 0",
                "no room: largest 39935|done|5|0" + "|not a block" * 7,
                writes=False,
            ),
            # the next session has another memory
            Boot(
                "fetch 1023|block 39935|fetch 40959|store 40959 65535|fetch 40959|fetch 40960|block 1",
                "0|at 1025|0|done|65535|not a block|no room: largest 0",
                writes=False,
            ),
        ],
    ),
    (
        "a block has an even number of words with its tag, and they begin as 0",
        1,
        2,
        [
            Boot(
                "block 2|store 1027 9|fetch 1027|fetch 1028|block 1|fetch 1029|fetch 1030|unblock 1025|block 3|fetch 1027",
                "at 1025|done|9|not a block|at 1029|0|not a block|done|at 1025|0",
                writes=False,
            ),
        ],
    ),
    (
        "a block that goes back joins free ones on both sides, and the lowest one with room is taken",
        1,
        2,
        [
            # three blocks of 12 words, from 1,024, 1,036 and 1,048 on; what is left begins at 1,060
            Boot(
                "block 10|block 10|block 10|unblock 1037|block 12|unblock 1061|block 11|unblock 1037"
                "|unblock 1025|block 24|unblock 1061|block 23|unblock 1025|unblock 1049|block 39935|block 1|unblock 1025|block 1",
                "at 1025|at 1037|at 1049|done|at 1061|done|at 1037|done"
                "|done|at 1061|done|at 1025|done|done|at 1025|no room: largest 0|done|at 1025",
                writes=False,
            ),
            # of two free blocks the lower one has 22 words, and the other one those that are wanted
            Boot(
                "block 20|block 1|block 10|block 1|unblock 1025|unblock 1049|block 10|block 10|block 10",
                "at 1025|at 1047|at 1049|at 1061|done|done|at 1025|at 1049|at 1063",
                writes=False,
            ),
            # the last of three first
            Boot(
                "block 10|block 10|block 10|unblock 1049|unblock 1025|block 65535|unblock 1037|block 39935",
                "at 1025|at 1037|at 1049|done|done|no room: largest 39911|done|at 1025",
                writes=False,
            ),
        ],
    ),
    (
        "a block goes back by its first usable word alone",
        1,
        2,
        [
            Boot(
                "block 3|unblock 0|unblock 1023|unblock 1024|unblock 1026|unblock 1028|unblock 1029|unblock 65535|unblock 1025",
                "at 1025" + "|not a block" * 7 + "|done",
                writes=False,
            ),
        ],
    ),
    (
        "the largest block at each level",
        1,
        2,
        [
            Boot(
                "block 65535|" + "|".join(f"junta {level}|block 65535" for level in range(7, 1, -1)),
                "no room: largest 39935|level 7|no room: largest 44031|level 6|no room: largest 48127|level 5|no room: largest 52223"
                "|level 4|no room: largest 56319|level 3|no room: largest 60415|level 2|no room: largest 62463",
                writes=False,
            ),
        ],
    ),
    (
        "a level that isn't lower",
        1,
        2,
        [
            Boot(
                "junta 5|junta 7|junta 5|junta 08|junta 4|counterjunta|counterjunta|junta 8",
                "level 5|level 5|level 5|level 5|level 4|level 8|level 8|level 8",
                writes=False,
            ),
        ],
    ),
    (
        "what each level obeys",
        1,
        2,
        [
            Boot(
                "junta 7|mkdir D|rmdir D|junta 6|mkdir D|rmdir D|make A|list",
                "level 7|made #3|done|level 6|needs level 7|needs level 7|made #4|A.|DiskDescriptor.|SysDir.|3 entries",
            ),
            Boot(
                "junta 5|append A 41|patch A 0 42|type A|cut A 0|stat A|copy A B|rename B C|delete C|rmdir D|junta 4|list|type A|stat A|make B|append A 41"
                "|patch A 0 41|cut A 0|copy A B|rename A B|delete A|free",
                f"level 5|length 1|done|42|1 bytes|length 0|#4 length 0 pages 2 {DATES} name A.|made #5|done|done|needs level 7|level 4"
                + "|needs level 5" * 10
                + "|41 pages free",
            ),
            Boot(
                "junta 3|free|junta 2|free|block 1|unblock 1025|junta 1|block 1|unblock 1025|store 0 7|fetch 0|settime 5|counterjunta|free|junta 1|quit|free",
                "level 3|41 pages free|level 2|needs level 3|at 1025|done|level 1|needs level 2|needs level 2|done|7|done|level 8|41 pages free|level 1|done",
                writes=False,
            ),
            Boot("junta 1|settime 5|free|quit", "level 1|done|needs level 3|done", writes=False),
        ],
    ),
    (
        "the words of a service are a block of their own after one that is used, and two services one",
        1,
        2,
        [
            # a used block may end where the services begin
            Boot(
                "block 39935|store 40959 9|junta 7|block 65535|counterjunta|junta 7|block 4095|junta 6|block 4095|counterjunta|unblock 45057|counterjunta"
                "|unblock 40961|block 8191|unblock 40961|fetch 40959|counterjunta|block 1|fetch 40959",
                "at 1025|done|level 7|no room: largest 4095|level 8|level 7|at 40961|level 6|at 45057|in use at 40961|done|in use at 40961"
                "|done|at 40961|done|9|level 8|no room: largest 0|9",
                writes=False,
            ),
            # the two words that are left before them, from 40,958 on, are all that stays of the free block
            Boot(
                "block 35843|block 4089|junta 7|counterjunta|block 1|block 1|unblock 36869|block 4091|junta 1|counterjunta|fetch 1025",
                "at 1025|at 36869|level 7|level 8|at 40959|no room: largest 0|done|no room: largest 4089|level 1|level 8|0",
                writes=False,
            ),
        ],
    ),
    (
        "the lowest block in the way, and at level 1 none goes back",
        1,
        2,
        [
            Boot(
                "junta 2|block 39937|block 10|counterjunta|unblock 1025|counterjunta|junta 1|unblock 40963|counterjunta|store 40963 3|fetch 40963|quit",
                "level 2|at 1025|at 40963|in use at 1025|done|in use at 40963|level 1|needs level 2|in use at 40963|done|3|done",
                writes=False,
            ),
        ],
    ),
    (
        "the level is tested before room and blocks",
        1,
        2,
        [
            Boot(
                "junta 1|block 65535|unblock 7|block 0|unblock 65536|fetch 5000",
                "level 1|needs level 2|needs level 2|bad line|bad line|not a block",
                writes=False,
            ),
        ],
    ),
    (
        "numbers that don't fit",
        1,
        2,
        [
            Boot(
                "block 0|block 65536|junta 0|junta 9|store 65536 0|store 0 65536|fetch 65536|unblock 65536|store 1|counterjunta 8|block|fetch -1|junta 00000000001",
                "|".join(["bad line"] * 13),
                writes=False,
            ),
        ],
    ),
    (
        "levels come back in need of a scavenge, too",
        1,
        2,
        [
            Boot("make A", "made #3"),
            Set(2, {29: 6}),
            Boot(
                "junta 5|type A|mkdir D|junta 9|counterjunta|fetch 0|store 0 1|block 1|unblock 1025|junta 5|counterjunta|quit",
                f"level 5|{MISLED}|needs scavenging|bad line|level 8" + "|needs scavenging" * 5 + "|level 8|done",
                2,
                writes=False,
            ),
            # 50,000 words have room at level 5
            Boot(
                "junta 5|block 50000|type A|counterjunta|unblock 1025|counterjunta",
                f"level 5|at 1025|{MISLED}|in use at 1025|needs scavenging|in use at 1025",
                2,
                writes=False,
            ),
        ],
    ),
    # scavenges
    ("a formatted pack is as it should be", 1, 2, [Scavenge(report(2)), Boot("free", "43 pages free"), Show("0 files")]),
    ("and so on two drives", 2, 2, [Boot("make A", "made #3"), Scavenge(report(3)), Boot("free", "89 pages free")]),
    ("names are taken from two directories", 1, 2, [*THREE_NAMES, Scavenge(report(7, adopted=2)), THREE_LISTED, THREE_TOLD]),
    (
        "and the scavenge was stopped after the first got one in SysDir",
        1,
        2,
        [
            *THREE_NAMES,
            Set(4, {6: 2}),
            Set(2, {48: 0x0409, 49: 0, 50: 4, 51: 1, 52: 0, 53: 7, 54: 0x0558, 55: 0x2E24, 56: 0x312E, 57: 198}),
            Scavenge(report(7, adopted=1)),
            THREE_LISTED,
            THREE_TOLD,
        ],
    ),
    (
        "a second copy of a page",
        1,
        2,
        [
            Boot("make A|append A 4142434445", "made #3|length 5"),
            Set(20, {0: 0x5858, 1: 0x5858, 2: 0x5800, **dict(enumerate([packs.ONES, packs.real_of(5), 0, 5, 1, 1, 0, 3], 256))}),
            Scavenge(report(3, freed=1)),
            Boot("type A|free", "4142434445|5 bytes|41 pages free", writes=False),
        ],
    ),
    (
        "a link that names its own sector",
        1,
        2,
        [
            Boot("make A|append A 4142434445", "made #3|length 5"),
            Set(5, {256: packs.real_of(5)}),
            Scavenge(report(3)),
            Boot("type A", "4142434445|5 bytes", writes=False),
        ],
    ),
    (
        "a slot of no words",
        1,
        2,
        [
            Boot("make A|append A 4142434445", "made #3|length 5"),
            Set(2, {24: 0}),
            Scavenge(report(3, adopted=1)),
            Show("SysDir>A. length 5|1 files"),
            Boot("type A|make B|make SysDir", "4142434445|5 bytes|made #4|name taken"),
        ],
    ),
    ("zeros", 1, 2, [Change(zeros), Scavenge("root bad: 0 0", CANNOT), Boot("free", "no root: found none", 2)]),
    ("ones", 1, 2, [Change(ones), Boot("free", NO_ROOT, 2), Scavenge(report(2)), Boot("free|make A", "43 pages free|made #3")]),
    (
        "another page on sector 1",
        1,
        2,
        [
            Boot("make A", "made #3"),
            Set(1, dict(enumerate([packs.real_of(6), packs.ONES, 0, 512, 0, 1, 0, 3], 256))),
            Scavenge(f"root taken: {packs.real_of(6)} 65535 0 512 0 1 0 3", CANNOT),
        ],
    ),
    (
        "one page too few, and then enough",
        1,
        2,
        [
            # sectors 5 to 25 are free
            Change(leaders(22)),
            Scavenge("pack full: needed 22 free 21", CANNOT),
            Set(47, {261: packs.ONES, 262: packs.ONES, 263: packs.ONES}),
            Scavenge(report(23, adopted=21)),
            Boot("free|stat F.$20|make A", f"1 pages free|#46 length 0 pages 2 {NO_DATES} name F.|full: needed 2 free 1", writes=False),
        ],
    ),
    (
        "the entry of a DiskDescriptor that is lost stays where it is, and leaves room for a name",
        1,
        2,
        [Change(crowded([20], [], 26)), Scavenge(report(12, freed=1, adopted=1)), Boot("free|stat #12", f"0 pages free|{CROWDED}")],
    ),
    (
        "or none, so that SysDir needs a page more",
        1,
        2,
        [Change(crowded([10], [10], 18)), Scavenge("pack full: needed 3 free 2", CANNOT)],
    ),
    (
        "of causes not to scavenge the first is told",
        1,
        2,
        [
            Change(leaders(22)),
            Set(1, dict(enumerate([packs.ONES, packs.ONES, 0, 512, 0, 1, 0, 26], 256))),
            Scavenge("root taken: 65535 65535 0 512 0 1 0 26", CANNOT),
            Change(headless),
            Scavenge("root bad: 1 0", CANNOT),
        ],
    ),
    (
        "files of more than one window",
        1,
        203,
        [
            Change(worlds),
            Set(6, {256: 0}),
            Scavenge(report(7)),
            Show("|".join([f"SysDir>{name} length {WORLD}" for name in WORLDS] + ["5 files"])),
            Boot("free", f"{4872 - 1296} pages free", writes=False),
        ],
    ),
    (
        "more files without an entry than a window has rows",
        1,
        203,
        [
            # their entries have 8 words, 9 times 9, 990 times 10 and 100 times 11: 11,089, of which SysDir has 231 free, and 43 times 256 more
            Change(leaders(1_100)),
            Scavenge(report(1_102, adopted=1_100)),
            Boot("free|stat F.$1099", f"{4866 - 2 * 1_100 - 43} pages free|#4871 length 0 pages 2 {NO_DATES} name F.", writes=False),
            Scavenge(report(1_102)),
        ],
    ),
    (
        "a second drive",
        1,
        203,
        [
            # the serial of B isn't given out again
            Boot("make A|make B|delete B", "made #3|made #4|done"),
            Second("prepared: 4872 pages"),
            Scavenge(report(3)),
            Boot("free|make B", "9735 pages free|made #5"),
        ],
    ),
]


def lines(text):
    """The bytes of lines that are parted by `|`, each with its end, except that of the last one before a `$`."""
    whole = re.sub(r"(\w+)\*(\d+)", lambda found: found[1] * int(found[2]), text)
    return "".join(f"{line}\n" for line in whole.split("|")).replace("$\n", "").encode()


class Pack:
    """Pack files in a folder, a file a drive, and the program over them."""

    def __init__(self, program, folder, drives):
        self.program, self.folder, self.files = program, folder, []
        for _ in range(drives):
            self.add_drive()

    def add_drive(self):
        """One more pack file, which isn't there yet."""
        self.files.append(self.folder / f"drive{len(self.files)}")
        self.command = [self.program, *[word for file in self.files[1:] for word in ("--second", file)], self.files[0]]

    def run(self, words, typed=b""):
        ended = subprocess.run([*self.command, *words], input=typed, capture_output=True, timeout=SECONDS)
        return ended.returncode, ended.stdout, ended.stderr

    def images(self):
        return [file.read_bytes() for file in self.files]

    def do(self, step):
        """What a step gives, and what is wanted; last whether the files stay as they are."""
        before = self.images()
        match step:
            case Set():
                image = bytearray(before[0])
                for word, number in step.words.items():
                    struct.pack_into(">H", image, packs.word_at(step.sector, word), number)
                self.files[0].write_bytes(image)
                return None, None
            case Change():
                self.files[0].write_bytes(step.made(before[0]))
                return None, None
            case Second():
                return self.grow(len(before[0]), step.shown)
            case Show():
                return (*self.run(["show"]), self.images() == before), (0, lines(step.shown), b"", True)
            case Scavenge():
                return self.scavenge(before, step)
        # a pack that isn't entered takes no key, and nothing is written
        refused = step.shown.startswith(NOT_ENTERED)
        said = self.run(["boot"], lines("settime 1000|" + step.typed))
        stays = not step.writes or refused
        return (*said, not stays or self.images() == before), (step.code, (b"" if refused else b"done\n") + lines(step.shown), b"", True)

    def scavenge(self, before, step):
        listed = self.run(["show"])
        said = self.run(["scavenge"])
        stays = self.images() == before or step.code == 0
        return (*said, stays, self.run(["show"])), (step.code, lines(step.shown), b"", True, listed)

    def grow(self, size, shown):
        """Puts a second drive of zeros beside the first, which has so many bytes, so that the pack isn't entered, and prepares it."""
        self.add_drive()
        self.files[1].write_bytes(bytes(size))
        words = -(-size // packs.SECTOR // 16)
        refused = b"wrong descriptor length %d\n" % (32 + 2 * words)
        return [self.run(["boot"]), self.run(["prepare", "1"])], [(2, refused, b""), (0, lines(shown), b"")]


def complaints(program, drives, cylinders, steps):
    """What is wrong in a row."""
    with tempfile.TemporaryDirectory() as folder:
        pack = Pack(program, pathlib.Path(folder), drives)
        for file in pack.files:
            file.write_bytes(bytes(cylinders * 24 * packs.SECTOR))
        free = FREE_PAGES[drives, cylinders]
        if pack.run(["format", "1"]) != (0, b"formatted: %d pages free\n" % free, b""):
            yield "format"
        # nothing is typed: nothing is shown, and nothing is written
        before = pack.images()
        if pack.run(["boot"]) != (0, b"", b"") or pack.images() != before:
            yield "nothing typed"
        for step in steps:
            found, wanted = pack.do(step)
            if found != wanted:
                yield f"{step}: {found}, and not {wanted}"


def main():
    program = arguments.read(arguments.parser(__doc__)).program
    failures = [f"{name}: {it}" for name, drives, cylinders, steps in ROWS for it in complaints(program, drives, cylinders, steps)]
    arguments.end("rows", failures, f"{len(ROWS)} rows are shown as they were worked out")


if __name__ == "__main__":
    main()
