#!/usr/bin/env python3
"""Run by the gate: draws packs by tools/packmap, and compares the pictures with what `show` lists and what was put there by hand.

The rows below name how many sectors of each kind there are, and each false hint; they were worked out by hand from docs/model.md and
docs/formats.md. The packs of check/listings.py have to be drawn with the names and lengths of their listings. Packs that the program
formats, and packs with random damage or random bytes (the seed is fixed), are listed by `show` and have to be drawn with the same
files. Of every picture: each sector stands once, and the legend and the table of `--text` have the numbers of the squares and marks.
"""
import collections
import os
import pathlib
import random
import re
import subprocess
import sys
import tempfile
import xml.etree.ElementTree

sys.dont_write_bytecode = True
import arguments
import listings
import packs
from listings import BLANK, HEADER, NEXT, PREVIOUS, VALUE, A, data, leader, whole, word
from packs import DESCRIPTOR, ONES, PAGE, SYS_DIR, directory, ordinary, real_of

sys.path.append(str(arguments.TOP / "tools"))
from packtools.pack import Pack
from packtools.picture import Picture
from packtools.survey import HINTS, KINDS, Survey
from packtools.table import told

SECONDS = 10
SCRIPT, PICTURE = arguments.TOP / "tools" / "packmap", arguments.TOP / "docs" / "packmap.svg"
SEED, DAMAGED, RANDOM = 33, 60, 10
# the word of a label with the number of bytes
COUNT = 5
NAME = re.compile(r"(\S+>\S+) (\d+) bytes, \d+ pages(, directory)?(?:, no entry)?(?:, \d+ missing)?")
TOLD_KIND, TOLD_FALSE = re.compile(r" *(\d+)  (.+?)(?:  .*)?"), re.compile(r"(.+?)  ([\d -]+)")

failures = []


def require(sentence, what, found, wanted):
    if found != wanted:
        failures.append(f"{sentence}: {what}: {found!r}, and not {wanted!r}")


def true_pack(*more):
    """A formatted pack with a file A of five bytes on sectors 5 and 6, whose hints are all true, and these changes of it."""
    return listings.small_pack(word(4, VALUE + 16, 0xFE00), word(4, VALUE + 7, 41), *more)


# the sectors of `true_pack` by their kinds
USED = {"boot": 1, "leader": 3, "data": 3, "free": 41}
ALONE = {"boot": 1, "leader": 1, "data": 1, "free": 45}
# a slot that can't be read, and bytes of another page after it
UNREAD = bytes(PAGE + 100)


def kinds(**others):
    """The kinds of `true_pack` where so many of its free sectors are others."""
    return {**USED, **others, "free": USED["free"] - sum(others.values())}


def bits(*sectors):
    """These sectors with a false bit of the table each."""
    return {at: ["table"] for at in sectors}


def given(content):
    """The sectors of a pack are those of this file."""

    def change(sectors):
        sectors[:] = packs.sectors_of(content)

    return change


# the sentence, drives, cylinders, changes of a pack of free sectors, the sectors of each kind, false hints by sector, and a remark or a
# line of the legend
ROWS = [
    ("a pack of free sectors is free", 1, 2, [], {"boot": 1, "free": 47}, {}, "no DiskDescriptor that says which sectors are busy"),
    ("a pack of zeros has bad sectors alone", 1, 2, [listings.zeros], {"boot": 1, "bad": 47}, {}, None),
    ("labels of zeros with right headers are stray", 2, 2, [listings.zeros], {"boot": 1, "stray": 95}, {}, None),
    (
        "a formatted pack has two files and no false hint",
        1,
        2,
        listings.formatted(),
        {"boot": 1, "leader": 2, "data": 2, "free": 43},
        {},
        "marked clean",
    ),
    (
        "hints may all be true on a used pack",
        1,
        2,
        true_pack(),
        USED,
        {},
        "48 sectors: 1 drive of 2 cylinders, 2 heads, 12 sectors a track",
    ),
    # links
    ("a next link to its own sector is false", 1, 2, true_pack(word(5, NEXT, real_of(5))), USED, {5: ["next"]}, None),
    ("a next link of the last page is false", 1, 2, true_pack(word(6, NEXT, real_of(7))), USED, {6: ["next"]}, None),
    ("a next link to no sector is false", 1, 2, true_pack(word(5, NEXT, 1)), USED, {5: ["next"]}, None),
    ("a previous link of a leader page is false", 1, 2, true_pack(word(5, PREVIOUS, real_of(6))), USED, {5: ["previous"]}, None),
    ("a previous link of ones of a data page is false", 1, 2, true_pack(word(6, PREVIOUS, ONES)), USED, {6: ["previous"]}, None),
    (
        "both links of a page may be false",
        1,
        2,
        true_pack(word(5, NEXT, ONES), word(5, PREVIOUS, 0)),
        USED,
        {5: ["next", "previous"]},
        None,
    ),
    (
        "next links of ones are true of last pages",
        1,
        2,
        true_pack(*(word(at, NEXT, ONES) for at in range(1, 7))),
        USED,
        {1: ["next"], 3: ["next"], 5: ["next"]},
        None,
    ),
    ("the blank word is no hint that is checked", 1, 2, true_pack(word(5, BLANK, 7)), USED, {}, None),
    (
        "links of a copy, and of a page without a leader page, aren't checked",
        1,
        2,
        true_pack(data(20, A, 1, 5), word(20, NEXT, 0), data(21, ordinary(9), 1, 5), word(21, PREVIOUS, 0)),
        kinds(copy=1, lost=1),
        {},
        "false number of free sectors: 41, and there are 39",
    ),
    # addresses in entries: A's is word 29 of SysDir
    ("an address of another sector is false", 1, 2, true_pack(word(2, VALUE + 29, 6)), USED, {2: ["entry"]}, None),
    (
        "two addresses of one page may be false",
        1,
        2,
        true_pack(word(2, VALUE + 5, 0), word(2, VALUE + 29, 6)),
        USED,
        {2: ["entry", "entry"]},
        None,
    ),
    (
        "an address in an entry that isn't kept isn't checked",
        1,
        2,
        true_pack(word(2, VALUE + 26, 8), word(2, VALUE + 29, 6)),
        USED,
        {},
        None,
    ),
    (
        "the mark of an address over a page's end stands on the page that has it",
        1,
        2,
        [listings.sys_dir(packs.free_slot(252), packs.slot(A, b"A.", 9)), whole(5, A, b"A.", 3)],
        {"boot": 1, "leader": 2, "data": 3, "free": 42},
        {3: ["entry"]},
        None,
    ),
    # the table, and what else DiskDescriptor says
    (
        "a table of ones is false of free sectors",
        1,
        2,
        true_pack(*(word(4, VALUE + 16 + it, ONES) for it in range(3))),
        USED,
        bits(*range(7, 48)),
        None,
    ),
    ("a table of zeros is false of sector 0 and of sectors in use", 1, 2, true_pack(word(4, VALUE + 16, 0)), USED, bits(*range(7)), None),
    ("one bit may be false", 1, 2, true_pack(word(4, VALUE + 17, 1)), USED, bits(31), None),
    (
        "the number of free sectors may be false",
        1,
        2,
        true_pack(word(4, VALUE + 7, 40)),
        USED,
        {},
        "false number of free sectors: 40, and there are 41",
    ),
    ("a pack may be marked open", 1, 2, true_pack(word(4, VALUE + 6, 2)), USED, {}, "marked open"),
    ("a mark may be none", 1, 2, true_pack(word(4, VALUE + 6, 77)), USED, {}, "marked 77"),
    (
        "bits that a table hasn't got aren't judged",
        1,
        2,
        true_pack(word(4, COUNT, 34), word(4, VALUE + 16, 0)),
        USED,
        bits(*range(7)),
        "no bit of the table for 32 sectors",
    ),
    (
        "the table of one drive has no bits for the second",
        2,
        2,
        true_pack(),
        {**USED, "free": 41 + 48},
        {},
        "no bit of the table for 48 sectors",
    ),
    # kinds of sectors
    ("a second copy above", 1, 2, [*listings.numbered(b"A."), data(20, A, 1, 7)], {**ALONE, "copy": 1, "free": 44}, {}, None),
    (
        "a second copy below is the page, and the one above is the copy",
        1,
        2,
        [leader(9, A, b"A."), leader(5, A, b"A."), data(20, A, 1, 5), data(10, A, 1, 5)],
        {**ALONE, "copy": 2, "free": 43},
        {5: ["next"], 10: ["previous"]},
        None,
    ),
    ("a page after the end of its file", 1, 2, true_pack(data(20, A, 2, 5)), kinds(past=1), {}, None),
    (
        "the last page of a file is missing",
        1,
        2,
        [leader(5, A, b"A."), data(6, A, 1, PAGE), word(5, NEXT, real_of(6)), word(6, PREVIOUS, real_of(5))],
        ALONE,
        {},
        "SysDir>A. 512 bytes, 2 pages, no entry, 1 missing",
    ),
    (
        "a page after one that is missing",
        1,
        2,
        [leader(5, A, b"A."), data(6, A, 2, 5)],
        {"boot": 1, "leader": 1, "past": 1, "free": 45},
        {},
        None,
    ),
    (
        "pages without a leader page, and a second copy of one",
        1,
        2,
        true_pack(data(20, ordinary(9), 1, 5), data(21, ordinary(9), 1, 5), data(22, ordinary(9), 5, 5)),
        kinds(lost=2, copy=1),
        {},
        None,
    ),
    (
        "labels that name no page",
        1,
        2,
        true_pack(data(20, A, 1, 513), leader(21, (0, 3, 0), b"A."), leader(22, (0x8000, 0, 1), b"A.")),
        kinds(stray=3),
        {},
        None,
    ),
    ("a free label may have any links and numbers", 1, 2, true_pack(*(word(20, index, 0) for index in range(2, 7))), USED, {}, None),
    ("a bad sector is busy", 1, 2, true_pack(word(20, HEADER, 0)), kinds(bad=1), bits(20), None),
    (
        "a bad sector has no page",
        1,
        2,
        true_pack(word(6, HEADER, real_of(7))),
        {"boot": 1, "leader": 3, "data": 2, "bad": 1, "free": 41},
        {5: ["next"]},
        None,
    ),
    ("a page on sector 0 is none", 1, 2, true_pack(data(0, A, 1, 5)), USED, {}, None),
    (
        "a directory ends at its last slot that can be read",
        1,
        2,
        [whole(10, directory(4), b"D.", UNREAD)],
        {"boot": 1, "leader": 1, "data": 1, "past": 1, "free": 44},
        {},
        None,
    ),
    (
        "DiskDescriptor ends where its format says",
        1,
        2,
        [whole(3, DESCRIPTOR, b"DiskDescriptor.", 600)],
        {"boot": 1, "leader": 1, "data": 1, "past": 1, "free": 44},
        bits(0, 3, 4),
        None,
    ),
    (
        "the pack of docs/packmap.svg has each kind of sector and of false hint",
        1,
        2,
        [given(packs.damaged_pack())],
        {"boot": 1, "leader": 5, "data": 8, "free": 29, "bad": 1, "stray": 1, "copy": 1, "lost": 1, "past": 1},
        {6: ["next"], 9: ["entry"], 12: ["previous"], 30: ["table"], 40: ["table"]},
        "marked clean",
    ),
]


# what a picture says


class Drawn:
    """The squares of sectors with their kinds and hover texts, the marks on them, and the numbers and names of the legend."""

    def __init__(self, svg):
        squares, marks, self.counts, self.hints, self.names, self.remarks = [], [], {}, {}, [], []
        for it in xml.etree.ElementTree.fromstring(svg).iter():
            tag, (kind, *more) = it.tag.rpartition("}")[2], it.get("class", "").split() or [""]
            if tag == "rect" and it.get("id", "").startswith("s"):
                squares.append((int(it.get("id")[1:]), kind, centre(it), it[0].text))
            elif tag == "use" and it.get("href")[1:] in HINTS:
                marks.append((it.get("href")[1:], (float(it.get("x")) + 6, float(it.get("y")) + 6)))
            elif tag == "text" and kind in ("kind", "hint"):
                (self.counts if kind == "kind" else self.hints)[more[0]] = int(it.text.rpartition(": ")[2])
            elif tag == "text" and kind == "name":
                self.names.append(it.text)
            elif tag == "text" and kind in ("remark", "false"):
                self.remarks.append(it.text)
        self.sectors, places = [at for at, *_ in squares], {place: at for at, _, place, _ in squares}
        self.kinds = collections.Counter(kind for _, kind, _, _ in squares)
        self.hover = {at: text for at, _, _, text in squares}
        # the marks of the legend stand on no sector
        self.marks = collections.defaultdict(set)
        for hint, place in marks:
            if place in places:
                self.marks[places[place]].add(hint)

    def lines(self):
        """The files, as `show` lists them."""
        found = [NAME.fullmatch(text) for text in self.names]
        lines = [f"{it[1]} directory" if it[3] else f"{it[1]} length {it[2]}" for it in found if it]
        return [*lines, f"{len(lines)} files"]


def centre(rect):
    return tuple(float(rect.get(corner)) + float(rect.get(side)) / 2 for corner, side in (("x", "width"), ("y", "height")))


def drawn(sentence, files):
    """The survey of a pack and its picture, which is compared with itself and with the table of text."""
    survey = Survey(Pack(len(files), b"".join(files)))
    found = Drawn("".join(Picture(survey, sentence).drawn()))
    sectors = sum(map(len, files)) // packs.SECTOR
    require(sentence, "each sector stands once", sorted(found.sectors), list(range(sectors)))
    require(sentence, "the legend of kinds", {kind: count for kind, count in found.counts.items() if count}, dict(found.kinds))
    false = {at: [hint for hint, _ in hints] for at, hints in survey.false.items()}
    require(sentence, "marks", dict(found.marks), {at: set(hints) for at, hints in false.items()})
    numbers = collections.Counter(hint for hints in false.values() for hint in hints)
    require(sentence, "the legend of hints", found.hints, {hint: numbers[hint] for hint in HINTS})
    for at, hints in survey.false.items():
        require(sentence, f"hover text of sector {at}", found.hover[at].splitlines()[-len(hints) :], [f"false {text}" for _, text in hints])
    check_table(sentence, found, numbers, list(told(survey, sentence)))
    return found, false


def check_table(sentence, found, numbers, lines):
    """The table has the numbers of the picture, and its files in the same order."""
    title, *remarks = lines[: lines.index("")]
    require(sentence, "the table's remarks", [title, *remarks], [sentence, *found.remarks])
    _, kinds, files, hints = "\n".join(lines).split("\n\n")
    rows = [TOLD_KIND.fullmatch(line) for line in kinds.splitlines()[1:]]
    wanted = {text: found.counts[kind] for kind, text in KINDS.items()}
    require(sentence, "the table's kinds", {row[2]: int(row[1]) for row in rows}, wanted)
    require(sentence, "the table's files", len(files.splitlines()) - 1, len(found.names))
    for line, name in zip(files.splitlines()[1:], found.names):
        require(sentence, "the table's names", name.split()[0] in line.split(), True)
    sectors = collections.Counter()
    for line in hints.splitlines()[1:]:
        text, which = TOLD_FALSE.fullmatch(line).groups()
        hint = next(it for it in HINTS if text.startswith(("bit" if it == "table" else "address" if it == "entry" else it) + " "))
        sectors[hint] += sum(int(last or first) - int(first) + 1 for first, last in re.findall(r"(\d+)(?:-(\d+))?", which))
    require(sentence, "the table's false hints", dict(sectors), dict(numbers))


# the checks


def files_of(drives, cylinders, changes):
    return list(listings.files_of(drives, cylinders, changes).values())


def check_rows():
    for sentence, drives, cylinders, changes, wanted, false, remark in ROWS:
        found, found_false = drawn(sentence, files_of(drives, cylinders, changes))
        require(sentence, "kinds of sectors", dict(found.kinds), wanted)
        require(sentence, "false hints", dict(sorted(found_false.items())), false)
        if remark is not None:
            require(sentence, f"remark {remark}", remark in [*found.remarks, *found.names], True)


def check_listings():
    for drives, cylinders, sentence, changes, lines in listings.PACKS:
        found, _ = drawn(sentence, files_of(drives, cylinders, changes))
        require(sentence, "files", found.lines(), lines)


def check_document():
    """The picture of docs/tools.md is that of its pack today."""
    picture = "".join(Picture(Survey(Pack(1, packs.damaged_pack())), "pack").drawn())
    is_same = PICTURE.read_text() == picture
    require("docs/packmap.svg", "is what packs.py --damaged and packmap make", is_same, True)


def listed(program, folder, files):
    """The lines that `show` prints of these pack files."""
    paths = [folder / name for name in ("pack", "second")[: len(files)]]
    for path, content in zip(paths, files):
        path.write_bytes(content)
    words = ["--second", paths[1], paths[0]] if len(paths) == 2 else paths
    ended = subprocess.run([program, *words, "show"], stdin=subprocess.DEVNULL, capture_output=True, text=True, timeout=SECONDS, check=True)
    return ended.stdout.splitlines()


def damaged(chance):
    """The file of one of the packs of check/listings.py with some words changed to others that mean something."""
    _, _, _, changes, _ = chance.choice([row for row in listings.PACKS if row[:2] == (1, 2)])
    sectors = packs.free_sectors(2)
    for change in [*listings.formatted(), *changes]:
        change(sectors)
    for _ in range(chance.randrange(1, 12)):
        at, index = chance.randrange(48), chance.choice([1, *range(2, 10), *range(2, 10), *range(VALUE, VALUE + 40)])
        value = chance.choice([0, 1, 2, 3, 4, 5, 6, PAGE, ONES, 0x8000, 0x408, real_of(chance.randrange(48)), chance.randrange(ONES)])
        word(at, index, value)(sectors)
    return b"".join(sectors)


def check_damages(program, folder):
    chance = random.Random(SEED)
    contents = [damaged(chance) for _ in range(DAMAGED)] + [chance.randbytes(packs.SECTOR * 48) for _ in range(RANDOM)]
    for number, content in enumerate(contents):
        sentence = f"random pack {number} of seed {SEED}"
        require(sentence, "files", drawn(sentence, [content])[0].lines(), listed(program, folder, [content]))


def check_formatted(program, folder):
    """Packs that the program formats, of one and two drives."""
    for number, (drives, cylinders, free) in enumerate([(1, 2, 43), (1, 203, 4866), (2, 3, 139)]):
        paths = [folder / f"{name}{number}" for name in ("new", "other")[:drives]]
        words = ["--cylinders", str(cylinders), *(["--second", paths[1]] if drives == 2 else []), paths[0]]
        subprocess.run([program, *words, "format", "1"], stdin=subprocess.DEVNULL, capture_output=True, timeout=SECONDS, check=True)
        sentence, files = f"a formatted pack of {drives} times {cylinders} cylinders", [path.read_bytes() for path in paths]
        found, false = drawn(sentence, files)
        require(sentence, "free sectors", found.kinds["free"], free)
        require(sentence, "false hints", false, {})
        require(sentence, "files", found.lines(), listed(program, folder, files))
        require(sentence, "system files", sorted(name.split()[0] for name in found.names), ["DiskDescriptor", "SysDir"])


def run(folder, words, code, out=None, error=b"", output=subprocess.PIPE):
    """Runs the script without the libraries that are installed beside the standard one, and answers what it prints. The last line of
    its complaints has to have these bytes in it."""
    command = [sys.executable, "-S", "-B", SCRIPT, *words]
    ended = subprocess.run(command, cwd=folder, stdin=subprocess.DEVNULL, stdout=output, stderr=subprocess.PIPE, timeout=SECONDS)
    last = ended.stderr.splitlines()[-1] if ended.stderr else b""
    require(words, "exit code", ended.returncode, code)
    require(words, "standard error", error in last and bool(last) == bool(error), True)
    if out is not None:
        require(words, "standard output", ended.stdout, out)
    return ended.stdout


def check_words(folder):
    """What a shell sees: words, outputs, and files that aren't packs."""
    (pack,), (one, two) = files_of(1, 2, true_pack()), files_of(2, 2, true_pack())
    odd = os.fsdecode(b"a<&'\"\xff\n")
    contents = {"pack": pack, "one": one, "two": two, "short": pack[:1000], "longer": pack + pack[:12_768], odd: pack}
    for name, content in contents.items():
        (folder / name).write_bytes(content)
    picture, table = ("".join(Picture(Survey(Pack(1, pack)), "pack").drawn()), "\n".join(told(Survey(Pack(1, pack)), "pack")) + "\n")
    run(folder, ["pack"], 0, picture.encode())
    run(folder, ["--text", "pack"], 0, table.encode())
    run(folder, ["pack", "-o", "map.svg"], 0, b"")
    require("-o", "the picture in the file", (folder / "map.svg").read_text(), picture)
    require("a pack on two drives", "squares", Drawn(run(folder, ["one", "--second", "two"], 0)).kinds["free"], 89)
    require("an odd path", "squares", Drawn(run(folder, [odd], 0)).kinds["free"], 41)
    require("--help", "names --second", b"--second PACK2" in run(folder, ["--help"], 0), True)
    run(folder, [], 2, b"", b"PACK")
    run(folder, ["pack", "more"], 2, b"", b"more")
    run(folder, ["pack", "-o", "pack"], 2, b"", b"pack is a pack file, which is never written")
    run(folder, ["one", "--second", "two", "-o", "two"], 2, b"", b"two is a pack file")
    run(folder, ["one", "--second", "one"], 2, b"", b"PACK and PACK2 are one file")
    run(folder, ["nowhere"], 1, b"", b"packmap: nowhere: No such file or directory")
    run(folder, ["."], 1, b"", b"packmap: .: Is a directory")
    run(folder, ["short"], 1, b"", b"packmap: short: bad length: 1000 bytes")
    run(folder, ["/dev/null"], 1, b"", b"bad length: 0 bytes")
    run(folder, ["/dev/zero"], 1, b"", b"bad length: more than 5183808 bytes")
    run(folder, ["pack", "--second", "longer"], 1, b"", b"packmap: pack and longer: unlike packs: 25536 and 38304 bytes")
    run(folder, ["pack", "-o", "nowhere/map.svg"], 1, b"", b"packmap: nowhere/map.svg: No such file or directory")
    with open("/dev/full", "wb") as full:
        run(folder, ["pack"], 1, error=b"packmap: the standard output: No space left on device", output=full)
    require("packs", "are left as they were", {name: (folder / name).read_bytes() for name in contents}, contents)


def main():
    program = arguments.read(arguments.parser(__doc__)).program
    with tempfile.TemporaryDirectory() as folder:
        check_rows()
        check_listings()
        check_document()
        check_damages(program, pathlib.Path(folder))
        check_formatted(program, pathlib.Path(folder))
        check_words(pathlib.Path(folder))
    arguments.end("packmaps", failures, f"{len(ROWS) + len(listings.PACKS) + DAMAGED + RANDOM} packs are drawn as they should be")


if __name__ == "__main__":
    main()
