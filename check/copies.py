#!/usr/bin/env python3
"""Run by the gate: copies files into packs and out of them by tools/altocp, and compares bytes, names, what is said and the exit code.

60 files of 0 to 20,480 bytes go into a formatted pack of 203 cylinders and come out again, under names with versions and in a directory
too; `show` has to list them, and no hint may be false. Then come full packs, names that are taken or can't be, files that aren't there,
packs that aren't entered, a hint that fails, and what a shell sees. What is wanted was worked out by hand from docs/commands.md and
docs/tools.md. Bytes are random, by a fixed seed.
"""
import pathlib
import random
import signal
import subprocess
import sys
import tempfile

sys.dont_write_bytecode = True
import arguments

sys.path.append(str(arguments.TOP / "tools"))
from packtools.pack import read_pack
from packtools.session import Session
from packtools.survey import Survey

SECONDS = 20
SCRIPT, SPOIL = arguments.TOP / "tools" / "altocp", arguments.TOP / "check" / "spoil.py"
SEED = 33
LENGTHS = [0, 1, 2, 511, 512, 513, 1_023, 1_024, 1_999, 2_000, 2_001, 3_999, 4_000, 4_001, 20_478, 20_479, 20_480]
# of the files: their folder on the host and their names there, where they go, and their names on the pack, as typed and as `show` has them
LONG = "Long-" * 7 + "{:02}"
GROUPS = [
    ("old", "File{:02}", "pack:", "File{:02}!1", "SysDir>File{:02}."),
    ("new", "File{:02}", "pack:SysDir>", "SysDir>File{:02}!2", "SysDir>File{:02}!2."),
    ("mail", LONG, "pack:Mail", f"Mail>{LONG}", f"Mail>{LONG}."),
]
EACH = 20
# the bytes of a file that fills a formatted pack of two cylinders, whose 43 free pages are 2 and one for each whole 512 bytes
FILLS = 42 * 512 - 1
# of a session that the program stopped in
STOPPED = 130
# programs in the place of alto: one that types ^C, as it were, before the first bytes are written, one that shows other bytes than `ABCDE`,
# and one that ends as if the pack couldn't be closed
STOPS = """#!{python}
import os, signal, subprocess, sys
with subprocess.Popen(["{alto}", *sys.argv[1:]], stdin=subprocess.PIPE) as alto:
    for line in sys.stdin.buffer:
        if line.startswith(b"append"):
            os.killpg(os.getppid(), signal.SIGINT)
        alto.stdin.write(line)
        alto.stdin.flush()
"""
ALTERS = """#!/bin/sh
{alto} "$@" | sed -u s/4142434445/4142434446/
"""
FAILS = """#!/bin/sh
{alto} "$@"
exit 3
"""

failures = []


class Place:
    """A folder with a formatted pack, `pack`, whose second drive, if it has one, is `second`, and what altocp does there."""

    def __init__(self, program, sentence, folder, cylinders=2, drives=1):
        self.program, self.sentence, self.folder = program, sentence, pathlib.Path(folder)
        self.packs, self.drives = ["pack", "second"][:drives], ["--second", "second"][: 2 * drives - 2]
        self.alto(["--cylinders", str(cylinders), *self.drives, "pack", "format", "1"])

    def require(self, what, found, wanted):
        if found != wanted:
            failures.append(f"{self.sentence}: {what}: {found!r}, and not {wanted!r}")

    def file(self, name, content=b"ABCDE"):
        path = self.folder / name
        path.parent.mkdir(exist_ok=True)
        path.write_bytes(content)

    def alto(self, words, typed=""):
        """The lines that the program shows."""
        words = [self.program, *words]
        ended = subprocess.run(words, cwd=self.folder, input=typed.encode(), stdout=subprocess.PIPE, timeout=SECONDS, check=True)
        return ended.stdout.decode().splitlines()

    def type(self, *lines):
        """The replies to typed lines."""
        return self.alto([*self.drives, "pack", "boot"], "".join(f"{line}\n" for line in lines))

    def spoil(self, sector, word, number):
        """Puts another word on the pack by hand."""
        numbers = map(str, (sector, word, number))
        subprocess.run([sys.executable, "-B", SPOIL, self.folder / "pack", *numbers], timeout=SECONDS, check=True)

    def copy(self, *words, said="", told="", code=None, given=b"", program=None):
        """Runs altocp, at the head of a process group, which has to end with 0, or with 1 if it complains. What it says are lines parted
        by `|`, or bytes; so are its last complaints, and what one says after `..` isn't compared."""
        command = [sys.executable, "-S", "-B", SCRIPT, "--program", program or self.program, *self.drives, *words]
        ended = subprocess.run(command, cwd=self.folder, input=given, capture_output=True, timeout=SECONDS, start_new_session=True)
        self.require(f"{words}: exit code", ended.returncode, code if code is not None else 1 if told else 0)
        self.require(f"{words}: is said", ended.stdout, said if isinstance(said, bytes) else text_of(said))
        complaints = [line.removeprefix("altocp: ") for line in ended.stderr.decode().splitlines()]
        wanted = told.split("|") if told else []
        self.require(f"{words}: complaints", list(map(shortened, complaints[-len(wanted) :], wanted)), wanted)
        self.require(f"{words}: complains", bool(complaints), bool(wanted))

    def shows(self, *lines):
        """The pack is clean, with every hint true, and shows these files."""
        self.require("listing", self.alto([*self.drives, "pack", "show"]), [*lines, f"{len(lines)} files"])
        survey = Survey(read_pack(*(self.folder / name for name in self.packs)))
        _, *remarks = survey.remarks()
        self.require("hints", (survey.false, remarks), ({}, ["marked clean"]))

    def holds(self, folder, **contents):
        """These files stand in a folder, and no others but the pack files."""
        found = {path.name: path.read_bytes() for path in (self.folder / folder).iterdir() if path.is_file()}
        self.require(f"files in {folder}", {name: it for name, it in found.items() if name not in self.packs}, contents)


def text_of(lines):
    return "".join(f"{line}\n" for line in lines.split("|") if lines).encode()


def shortened(line, wanted):
    """A line as far as the one that is wanted goes, if that ends with `..`."""
    return line[: len(wanted) - 2] + ".." if wanted.endswith("..") else line


# what is checked, each in a place of its own


def check_sixty(place):
    chance = random.Random(SEED)
    contents = [chance.randbytes(length) for length in LENGTHS + [chance.randrange(20_481) for _ in range(3 * EACH - len(LENGTHS))]]
    place.type("mkdir Mail")
    lines, back = [], {}
    for group, (folder, name, target, typed, shown) in enumerate(GROUPS):
        names, mine = [f"{folder}/{name.format(n)}" for n in range(EACH)], contents[group::3]
        for path, content in zip(names, mine):
            place.file(path, content)
        copies = {f"pack:{typed.format(n)}": content for n, content in enumerate(mine)}
        said = [f"{path} -> {copy.replace('!1', '')}, {len(content)} bytes" for path, (copy, content) in zip(names, copies.items())]
        place.copy(*names, target, "--verify", said="|".join(said))
        lines.append([f"{shown.format(n)} length {len(content)}" for n, content in enumerate(mine)])
        back |= copies
    old, new, mail = lines
    place.shows(*[line for both in zip(old, new) for line in both], "SysDir>Mail. directory", *mail)
    (place.folder / "back").mkdir()
    paths = {copy: copy.rpartition(":")[2].rpartition(">")[2] for copy in back}
    said = [f"{copy.replace('!1', '')} -> back/{paths[copy]}, {len(content)} bytes" for copy, content in back.items()]
    place.copy(*back, "back", "--verify", said="|".join(said))
    place.holds("back", **{paths[copy]: content for copy, content in back.items()})


def check_versions(place):
    place.file("A", b"1")
    place.copy("A", "pack:", said="A -> pack:A, 1 bytes")
    place.file("A", b"22")
    place.copy("A", "pack:", said="A -> pack:A!2, 2 bytes")
    place.copy("A", "pack:a!9", said="A -> pack:a!9, 2 bytes")
    place.copy("A", "pack:A!1", told="A: pack:A!1: name taken")
    place.file("A", b"333")
    place.copy("-f", "A", "pack:A!1", said="A -> pack:A, 3 bytes")
    place.copy("A", "pack:A", "-f", said="A -> pack:A!3, 3 bytes")
    place.copy("--force", "A", "pack:B", said="A -> pack:B, 3 bytes")
    place.shows("SysDir>A. length 3", "SysDir>A!2. length 2", "SysDir>A!3. length 3", "SysDir>B. length 3")
    (place.folder / "out").mkdir()
    said = "pack:A!3 -> out/A, 3 bytes|pack:A!2 -> out/a.!2., 2 bytes|pack:SysDir>B -> out/b, 3 bytes"
    place.copy("pack:A", "pack:a.!2.", "pack:SysDir>b", "out", said=said)
    place.holds("out", **{"A": b"333", "a.!2.": b"22", "b": b"333"})
    place.copy("A", "A", "pack:C..", told="pack:C..: no such name: several files go into a directory")
    place.copy("A", "pack:C..", said="A -> pack:C.., 3 bytes")
    place.copy("A", "pack:C..", said="A -> pack:C..!2, 3 bytes")
    place.copy("pack:C..!2", "-", said=b"333")


def check_names(place):
    place.type("mkdir D", "make D>E")
    for name in ("A", "under_score", "Gr\u00fc\u00dfe", "a" * 38, "a" * 39, "A!02", "-"):
        place.file(f"in/{name}")
    bad = "is no name on a pack: "
    place.copy(
        *("in/A", "in/under_score", "in/Gr\u00fc\u00dfe", f"in/{'a' * 38}", f"in/{'a' * 39}", "in/A!02", "in/-", "pack:"),
        said=f"in/A -> pack:A, 5 bytes|in/{'a' * 38} -> pack:{'a' * 38}, 5 bytes|in/- -> pack:-, 5 bytes",
        told=f"in/under_score: 'under_score' {bad}it has '_', and may have ASCII letters, digits and + - . $|in/Gr..|"
        f"in/{'a' * 39}: '{'a' * 39}' {bad}it has more than 38 characters|in/A!02: 'A!02' {bad}..|3 of 7 files were copied",
    )
    place.copy("in/A", f"pack:{'a' * 38}", told=f"in/A: pack:{'a' * 38}: name taken")
    place.copy("in/A", "pack:D", said="in/A -> pack:D>A, 5 bytes")
    place.copy("in/A", "pack:d>A", said="in/A -> pack:d>A!2, 5 bytes")
    place.copy("in/A", "pack:D!1", told="in/A: pack:D!1: name taken")
    place.copy("-f", "in/A", "pack:D!1", told="in/A: pack:D!1: is a directory")
    place.copy("-f", "in/A", "pack:DiskDescriptor", told="in/A: pack:DiskDescriptor: system file")
    place.copy("in/A", "pack:D/", told=f"pack:D/: 'D/' {bad}> and not / stands after a directory")
    place.copy("in/A", "pack:A>", told="pack:A>: not a directory")
    place.copy("in/A", "pack:Z>", told="pack:Z>: no such name")
    place.copy("in/A", "pack:Z>A", told="in/A: pack:Z>A: no such name")
    place.copy("in/A", "in/A", "pack:Z", told="pack:Z: no such name: several files go into a directory")
    place.copy("in/A", "in/A", "pack:A", told="pack:A: not a directory: several files go into a directory")
    place.copy("in/A", "in/A", "pack:D>Z", told="pack:D>Z: names one file: several go into a directory")
    place.copy("in/A", "pack:D>E>A", told="pack:D>E>A: 'D>E' is no name..")
    place.copy("in/A", "pack:>A", told="pack:>A: '' is no name..")
    place.copy("in/A", "pack:A!0", told="pack:A!0: 'A!0' is no name..")
    place.copy("in/A", "pack:D!2>A", told="pack:D!2>A: 'D!2' is no directory: their names have no versions")
    for source, reason in (("Z", "no such name"), ("D>Z", "no such name"), ("D", "is a directory"), ("DiskDescriptor", "system file")):
        place.copy(f"pack:{source}", "out", told=f"pack:{source}: {reason}")
    for source in ("", "D>"):
        place.copy(f"pack:{source}", "out", told=f"pack:{source}: is a directory: files are copied by their names")
    place.shows(
        *("SysDir>-. length 5", "SysDir>A. length 5", f"SysDir>{'a' * 38}. length 5", "SysDir>D. directory"),
        *("D>A. length 5", "D>A!2. length 5", "D>E. length 0"),
    )
    place.holds(".")


def check_one_name(place):
    for path, content in (("A", b"1"), ("in/A", b"22"), ("in/a", b"333")):
        place.file(path, content)
    place.copy("A", "in/A", "pack:", said="A -> pack:A, 1 bytes|in/A -> pack:A!2, 2 bytes")
    told = "in/A: pack:A: A was just copied there|1 of 2 files were copied"
    place.copy("-f", "A", "in/A", "pack:", said="A -> pack:A!2, 1 bytes", told=told)
    told = "in/a: A has the same name except for the case of letters, which a pack doesn't tell apart|1 of 2 files were copied"
    place.copy("-f", "A", "in/a", "pack:", said="A -> pack:A!2, 1 bytes", told=told)
    place.type("mkdir D", "make D>A")
    (place.folder / "out").mkdir()
    told = "pack:D>A: out/A is there: -f overwrites it|1 of 2 files were copied"
    place.copy("pack:A", "pack:D>A", "out", said="pack:A!2 -> out/A, 1 bytes", told=told)
    told = "pack:D>A: out/A was just written|1 of 2 files were copied"
    place.copy("-f", "pack:A", "pack:D>A", "out", said="pack:A!2 -> out/A, 1 bytes", told=told)
    place.holds("out", A=b"1")


def check_hosts(place):
    place.file("A")
    place.file("empty", b"")
    place.file("a:b", b"colon")
    place.file("in/A")
    place.file("x:y/A")
    said, folder = "A -> pack:A, 5 bytes|empty -> pack:empty, 0 bytes", "is a folder, and files alone are copied"
    told = f"nowhere: No such file or directory|in: {folder}|in/: {folder}|A/: Not a directory|2 of 6 files were copied"
    place.copy("A", "nowhere", "in", "in/", "A/", "empty", "pack:", said=said, told=told)
    place.copy("/dev/zero", "pack:Z", told="/dev/zero: has 9977856 bytes or more, and no pack holds them")
    place.copy("a:b", "pack:B", said="a:b -> pack:B, 5 bytes")
    place.copy("x:y/A", "pack:X", said="x:y/A -> pack:X, 5 bytes")
    place.copy("pack:X", "x:y/B", said="pack:X -> x:y/B, 5 bytes")
    place.holds("x:y", A=b"ABCDE", B=b"ABCDE")
    place.copy("pack:B", "A", told="pack:B: A is there: -f overwrites it")
    place.copy("pack:B", "-f", "A", said="pack:B -> A, 5 bytes")
    place.copy("pack:B", "pack:empty", "none", told="none: is no folder")
    place.copy("pack:B", "none/", told="none/: is no folder")
    place.copy("pack:B", "none/B", told="pack:B: none/B: No such file or directory")
    place.copy("pack:B", "/dev/full", "-f", told="pack:B: /dev/full: No space left on device")
    place.copy("pack:B", "-f", "pack", told="pack:B: pack is a pack file, which alto alone writes")
    place.copy("A", "pack:pack", said="A -> pack:pack, 5 bytes")
    (place.folder / "link").symlink_to("nothing")
    place.copy("pack:B", "link", told="pack:B: link is there: -f overwrites it")
    place.copy("pack:pack", ".", "-f", told="pack:pack: ./pack is a pack file, which alto alone writes")
    place.copy("pack:B", "--verify", "-f", "/dev/null", said="pack:B -> /dev/null, 5 bytes", told="/dev/null: has other bytes")
    place.copy("-", "pack:S", given=b"\0\n\xff", said="- -> pack:S, 3 bytes")
    place.copy("-", "pack:", told="-: the standard input has no name: PACK:NAME states one")
    place.copy("pack:S", "pack:A", "pack:empty", "-", said=b"\0\n\xffABCDE")
    place.holds(".", **{"A": b"colon", "empty": b"", "a:b": b"colon"})


def check_full(place):
    for name, length in (("small", 0), ("fills", FILLS), ("over", FILLS + 1)):
        place.file(name, bytes(length))
    told = "over: pack:over: full: needed 44 free 43|1 of 2 files were copied"
    place.copy("over", "fills", "pack:", said=f"fills -> pack:fills, {FILLS} bytes", told=told)
    place.copy("small", "pack:", told="small: pack:small: full: needed 2 free 0")
    place.copy("-f", "over", "pack:fills", told="over: pack:fills: full: needed 44 free 43")
    place.copy("-f", "fills", "pack:", said=f"fills -> pack:fills, {FILLS} bytes")
    place.shows(f"SysDir>fills. length {FILLS}")


def check_full_directory(place):
    # each entry has 8 of the 231 words that are free in SysDir: after 26 of them, and without the last but one, no 26 are left in a row
    letters = [chr(ord("A") + n) for n in range(26)]
    for name in letters:
        place.file(name, b"")
    place.copy(*letters, "pack:", said="|".join(f"{it} -> pack:{it}, 0 bytes" for it in letters))
    # 67 pages less 52 are left, and two of the file that is deleted; SysDir gets one, and the bytes have to leave two for the rest
    place.file("large", bytes(15 * 512))
    place.copy("-f", "large", "pack:Y", told="large: pack:Y: full: needed 4 free 3; Y was deleted before")
    place.shows(*[f"SysDir>{it}. length 0" for it in letters if it != "Y"])


def check_not_entered(place):
    place.file("A")
    place.file("short", bytes(1_000))
    before = (place.folder / "pack").read_bytes()
    # a word of the label of SysDir's leader page, the address in DiskDescriptor's entry, and the mark
    rows = [
        (1, 256 + 4, 9, "no root: found .."),
        (2, 15, 6, "hint failed: entry #1 word 15 at 6 wanted #2 v 1 page 0 found .."),
        (4, 6, 2, "pack not clean: mark 2: a session that wrote to it was stopped, or hasn't ended"),
    ]
    for sector, word, number, reason in rows:
        place.spoil(sector, word, number)
        for words in (["A", "pack:"], ["pack:A", "-"]):
            place.copy(*words, told=f"pack: {reason}")
        (place.folder / "pack").write_bytes(before)
    with Session(place.program, str(place.folder / "pack")):
        for words in (["A", "pack:"], ["pack:A", "-"], ["-r", "A", "pack:"]):
            place.copy(*words, told="pack: another session has it open")
    place.copy("A", "nowhere:", told="nowhere: no pack")
    place.copy("A", "short:", told="short: bad length 1000")
    place.copy("A", ".:", told=".: no pack")
    place.copy("A", "pack:", program="nowhere", told="nowhere: No such file or directory; --program names the program alto")
    place.require("the pack stays", (place.folder / "pack").read_bytes() == before, True)


def check_hint(place):
    for name in ("A", "B", "C"):
        place.file(name)
    place.copy("A", "B", "pack:", said="A -> pack:A, 5 bytes|B -> pack:B, 5 bytes")
    # the address in A's entry
    place.spoil(2, 29, 6)
    failed = "hint failed: entry #1 word 29 at 6 wanted #3 v 1 page 0 found .."
    (place.folder / "out").mkdir()
    place.copy("pack:B", "pack:A", "pack:B", "out", said="pack:B -> out/B, 5 bytes", told=f"pack:A: {failed}|1 of 3 files were copied")
    place.copy("-f", "C", "A", "B", "pack:", said="C -> pack:C, 5 bytes", told=f"A: pack:A: {failed}|1 of 3 files were copied")
    place.copy("C", "pack:", told="pack: pack not clean: mark 2: a session that wrote to it was stopped, or hasn't ended")


def check_words(place):
    place.file("A")
    place.file("other", (place.folder / "pack").read_bytes())
    rows = [
        (["A"], "error: the following arguments are required: .."),
        (["A", "pack"], "error: neither all of SRC nor DST is on a pack, as PACK:NAME or PACK:"),
        (["pack:A", "A", "."], "error: neither all of SRC nor DST is on a pack, as PACK:NAME or PACK:"),
        (["pack:A", "pack:B"], "error: SRC and DST are both on packs: copy by way of the host"),
        (["A", "pack:A", "pack:B"], "error: SRC and DST are both on packs: copy by way of the host"),
        (["pack:A", "other:A", "."], "error: SRC are on different packs"),
        (["A", "pack:", "--second", "pack"], "error: PACK and PACK2 are one file"),
        (["-x", "A", "pack:"], "error: .."),
    ]
    for words, told in rows:
        place.copy(*words, told=told, code=2)
    place.shows()


def check_two_drives(place):
    place.file("A", bytes(30_000))
    place.copy("A", "pack:", "--verify", said="A -> pack:A, 30000 bytes")
    place.copy("pack:A", "B", said="pack:A -> B, 30000 bytes")
    place.copy("-f", "pack:A", "second", told="pack:A: second is a pack file, which alto alone writes")
    place.shows("SysDir>A. length 30000")
    place.holds(".", A=bytes(30_000), B=bytes(30_000))
    place.drives = []
    place.copy("pack:A", "-", told="pack: wrong descriptor length 44")


def check_programs(place):
    place.file("A")
    place.file("B", bytes(5_000))
    for name, text in (("stops", STOPS), ("alters", ALTERS), ("fails", FAILS)):
        place.file(name, text.format(python=sys.executable, alto=place.program).encode())
        (place.folder / name).chmod(0o755)
    place.copy("B", "A", "pack:", program="./stops", code=STOPPED, said="B -> pack:B, 5000 bytes", told="stopped")
    place.shows("SysDir>B. length 5000")
    said = "A -> pack:A, 5 bytes|B -> pack:B!2, 5000 bytes"
    place.copy("A", "B", "pack:", "--verify", program="./alters", said=said, told="A: its copy has other bytes")
    said = "A -> pack:A!2, 5 bytes"
    place.copy("A", "pack:", program="./fails", said=said, told="pack: the pack file can't be read or written")
    place.shows(*("SysDir>A. length 5", "SysDir>A!2. length 5", "SysDir>B. length 5000", "SysDir>B!2. length 5000"))


# each check with what it shows, and the pack of its place
CHECKS = [
    (check_sixty, "60 files go in and come out", {"cylinders": 203}),
    (check_versions, "a name that is there gets its next version, and -f deletes the newest", {}),
    (check_names, "names that are taken, that can't be, and those of directories", {}),
    (check_one_name, "two sources with one name", {}),
    (check_hosts, "host files, folders and the standard streams", {}),
    (check_full, "a full pack", {}),
    (check_full_directory, "a pack that is full once SysDir has grown", {"cylinders": 3}),
    (check_not_entered, "packs that aren't entered", {}),
    (check_hint, "a spoilt hint", {}),
    (check_words, "words", {}),
    (check_two_drives, "a pack on two drives", {"drives": 2}),
    (check_programs, "^C, bytes that are altered, and a pack that isn't closed", {}),
]


def main():
    # what a shell starts in the background ignores ^C, and so would its children
    signal.signal(signal.SIGINT, signal.default_int_handler)
    program = arguments.read(arguments.parser(__doc__)).program
    for check, sentence, pack in CHECKS:
        with tempfile.TemporaryDirectory() as folder:
            check(Place(program, sentence, folder, **pack))
    arguments.end("copies", failures, f"{3 * EACH} files go in and out as they should, and {len(CHECKS) - 1} other places are as docs/tools.md says")


if __name__ == "__main__":
    main()
