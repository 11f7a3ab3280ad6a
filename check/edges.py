#!/usr/bin/env python3
"""Run by the gate: runs the program as it is called from a shell, and compares exit code, both outputs and the files left.

Each run has a folder of its own and at most 10 seconds. What is wanted stands in docs/commands.md, and was never taken from a run.
"""
import fcntl
import os
import pathlib
import re
import resource
import select
import shutil
import signal
import socket
import subprocess
import sys
import tempfile
import time

sys.dont_write_bytecode = True
import arguments
import packs

SECONDS = 10
DONE, USAGE, IN_NEED, DISK_FAILED, KEYS_FAILED, DISPLAY_FAILED, NO_MEMORY, CANNOT_SCAVENGE, NO_SESSION = range(9)
SMALL = 25_536
# where the last sector of such a file begins, which is held back with others as all sectors were written
LAST = 25_004
THREE = 38_304
LARGEST = 5_183_808
# dates are in seconds since the start of 1901, and stand after a sector's header and label
SECONDS_BEFORE_1970 = 2_177_452_800
MIB = 2**20
# limits on memory, each greater than the one before it by half a MiB
STEP = MIB // 2
# a user whom permissions bind
NOBODY = 65_534
HELP_STARTS = b"The operating system of the Xerox Alto"
HELP_ENDS = b"Prints this help, where it is the only word\n"
# a session, and a line alone: neither changes a date
PATCHES = b"settime 1000\npatch #3 1 4242\npatch A 4 4242\n"
REPLIES = b"done\ndone\nbeyond length 5\n"
PATCH = b"patch A 1 4242\n"
# what a pack of zeros is answered
NO_ROOT = b"no root: found none\n"
# of the pack with the file `A.`, whose bytes are `ABCDE`, and of a new pack
LISTING = b"SysDir>A. length 5\n1 files\n"
LISTING_OF_TWO = b"SysDir>A. length 5\nSysDir>B. length 5\n2 files\n"
NO_FILES = b"0 files\n"
FORMATTED = b"formatted: 43 pages free\n"
PREPARED = b"prepared: 48 pages\n"
SCAVENGED = b"scavenged: files 3, freed 0, bad 0, adopted 0\n"
SCAVENGED_TWO = b"scavenged: files 4, freed 0, bad 0, adopted 0\n"
ROOT_BAD = b"root bad: 0 0\n"

failures = []


def abcde(letters=b"ABCDE", mark=packs.CLEAN, cylinders=2, at=5):
    """A formatted pack in which a file `A.` with these bytes was made. Its mark is open where a session didn't end."""
    (pack,) = packs.sound(1, cylinders, [(b"A.", letters, range(at, at + 2 + len(letters) // packs.PAGE))], mark)
    return pack


class Run:
    """One run of the program in a folder of its own, in which some files stand."""

    def __init__(self, program, words, files=None, typed=b"", redirect="", before=None):
        self.name = f"{words} {redirect}"
        with tempfile.TemporaryDirectory() as folder:
            folder = pathlib.Path(folder)
            folder.chmod(0o755)
            for name, content in (files or {}).items():
                if callable(content):
                    content(folder / name)
                else:
                    (folder / name).write_bytes(content)
            command = ["sh", "-c", f'exec "$@" {redirect}', "sh", program, *words]
            try:
                ended = subprocess.run(command, cwd=folder, input=typed, capture_output=True, timeout=SECONDS, preexec_fn=before)
            except subprocess.TimeoutExpired:
                self.code, self.out, self.err, self.left = "no end", b"", b"", {}
                return
            self.code, self.out, self.err = ended.returncode, ended.stdout, ended.stderr
            self.left = {it.name: it.read_bytes() for it in folder.iterdir() if it.is_file() and not it.is_symlink()}

    def gives(self, code, out=b"", err=b"", left=None):
        found = (self.code, self.out, self.err, self.left)
        wanted = (code, out, err, left or {})
        for what, one, other in zip(("exit code", "standard output", "standard error"), found, wanted):
            if one != other:
                failures.append(f"{self.name}: {what}: {one!r}, and not {other!r}")
        if self.left != wanted[3]:
            sizes = [{name: len(content) for name, content in files.items()} for files in (self.left, wanted[3])]
            failures.append(f"{self.name}: other files are left: {sizes[0]}, and not {sizes[1]}, by their lengths")


# no command lines; the last five have a word that isn't UTF-8
FAULTY = [
    [],
    ["--cylinders"],
    ["--cylinders", "2"],
    ["--cylinders", "1", "new", "boot"],
    ["--cylinders", "407", "new", "boot"],
    ["--cylinders", "65538", "new", "boot"],
    ["--cylinders", "-2", "new", "boot"],
    ["--cylinders", "x", "new", "boot"],
    ["--cylinders", "new", "boot"],
    ["--second"],
    ["--second", "pack"],
    ["--cylinders", "2", "--second"],
    ["--cylinders", "2", "--second", "new"],
    ["--cylinders", "407", "--second", "other", "new", "boot"],
    [b"\xff", "boot"],
    ["pack", b"\xff"],
    ["pack", "boot", b"bo\xfft"],
    ["--help", b"\xff"],
    ["--cylinders", b"\xff", "new", "boot"],
]


def check_words(program):
    pack, made = abcde(), bytes(SMALL)
    for words in FAULTY:
        Run(program, words, {"pack": pack}, PATCHES).gives(USAGE, err=b"usage\n", left={"pack": pack})
    # a PACK with words that ask for nothing
    after_pack = [["--cylinders", "2"], ["--second", "pack"], ["--second", "pack", "boot"]]
    for words in [["pack"], ["pack", "Boot"], ["pack", "boot", "boot"], ["pack", "--help"], *[["pack", *words] for words in after_pack]]:
        Run(program, words, {"pack": pack}, PATCHES).gives(USAGE, b"usage\n", left={"pack": pack})
    for words in [["--cylinders", "2", "new"], ["--cylinders", "2", "new", "halt"]]:
        Run(program, words).gives(USAGE, b"usage\n", left={"new": made})
    # `--help` with another word is the path of a pack file
    Run(program, ["--help", "boot"]).gives(NO_SESSION, err=b"no pack\n")
    # and so is each option where another word is wanted
    Run(program, ["--cylinders", "2", "--cylinders"]).gives(USAGE, b"usage\n", left={"--cylinders": made})
    Run(program, ["--cylinders", "2", "new", "--second", "pack"]).gives(USAGE, b"usage\n", left={"new": made})
    (one, two), twice = crossed().values(), ["--second", "--second", "--second"]
    Run(program, ["--second", "two", "one"], {"one": one, "two": two}).gives(USAGE, b"usage\n", left={"one": one, "two": two})
    after = {"--cylinders": one, "two": two}
    Run(program, ["--second", "two", "--cylinders", "2", "new"], after).gives(USAGE, b"usage\n", left=after)
    Run(program, twice, {"--second": one}).gives(NO_SESSION, err=b"no pack\n", left={"--second": one})


def check_help(program):
    run = Run(program, ["--help"])
    if not run.out.startswith(HELP_STARTS) or run.out.count(HELP_STARTS) != 1 or not run.out.endswith(HELP_ENDS):
        failures.append(f"{run.name}: the help isn't shown once and whole")
    run.gives(DONE, run.out)
    for redirect in [">&-", ">/dev/full"]:
        Run(program, ["--help"], redirect=redirect).gives(DISPLAY_FAILED)
    Run(program, ["--help"], redirect="2>&-").gives(DONE, run.out)


def check_pack_files(program):
    pack = abcde()
    for words in [["missing", "boot"], [".", "boot"], ["", "boot"], ["missing/new", "boot"], ["--cylinders", "2", "missing/new", "boot"]]:
        Run(program, words).gives(NO_SESSION, err=b"no pack\n")
    Run(program, ["--cylinders", "2", "pack", "boot"], {"pack": pack}, PATCHES).gives(NO_SESSION, err=b"no pack\n", left={"pack": pack})
    for length in [0, 532, 25_535, 25_537, 12_768, 26_068, LARGEST + 12_768]:
        file = bytes(length)
        Run(program, ["pack", "boot"], {"pack": file}).gives(NO_SESSION, err=b"bad length %d\n" % length, left={"pack": file})
    # a pipe with a name, and devices: nobody writes to the pipe, and nothing is waited for
    Run(program, ["pipe", "boot"], {"pipe": os.mkfifo}, PATCHES).gives(NO_SESSION, err=b"bad length 0\n")
    for device in ["/dev/null", "/dev/zero"]:
        Run(program, [device, "boot"], typed=PATCHES).gives(NO_SESSION, err=b"bad length 0\n")
    # what is opened for reading alone has to be a file
    for word in ["show", "halt"]:
        Run(program, ["pipe", word], {"pipe": os.mkfifo}).gives(NO_SESSION, err=b"no pack\n")
        for path in ["/dev/null", "/dev/zero", "."]:
            Run(program, [path, word]).gives(NO_SESSION, err=b"no pack\n")
    # the complaint can't be said: the exit code says it
    for redirect in ["2>&-", "2>/dev/full"]:
        Run(program, ["missing", "boot"], redirect=redirect).gives(NO_SESSION)


def check_cylinders(program):
    """New files of three cylinders, and of as many as a drive can have, of one drive and of two: they are zeros."""
    for cylinders, length in [("3", THREE), ("406", LARGEST), ("0406", LARGEST)]:
        Run(program, ["--cylinders", cylinders, "new", "show"]).gives(DONE, NO_FILES, left={"new": bytes(length)})
        both = {"one": bytes(length), "two": bytes(length)}
        Run(program, ["--cylinders", cylinders, "--second", "two", "one", "show"]).gives(DONE, NO_FILES, left=both)


def linked(target):
    """A second name of the file with this one, which stands there already."""
    return lambda path: os.link(path.parent / target, path)


def pointing(target):
    """A symbolic link to the file with this name."""
    return lambda path: path.symlink_to(target)


def crossed(third=b"ABCDE", fourth=b"ABCDE", mark=packs.CLEAN):
    """The two files of a formatted pack of two drives of two cylinders, with files `A.` and `B.` of these bytes. The leader of the one is on
    the first drive and its page on the second, and of the other it is the other way round."""
    return dict(zip(("one", "two"), packs.sound(2, 2, [(b"A.", third, [5, 50]), (b"B.", fourth, [70, 7])], mark)))


def check_second(program):
    """Packs of two drives: a session, files that are refused, and files that are made."""
    both, three = crossed(), bytes(THREE)
    one, two = both.values()
    boot = ["--second", "two", "one", "boot"]
    Run(program, boot, both, PATCHES).gives(DONE, REPLIES, left=crossed(third=b"ABBDE"))
    Run(program, boot, both, PATCH, ">/dev/full").gives(DISPLAY_FAILED, left=crossed(third=b"ABBDE", mark=packs.OPEN))
    Run(program, boot, both, redirect="<&- >&- 2>&-").gives(KEYS_FAILED, left=both)
    Run(program, ["--second", "two", "one", "show"], both, PATCHES).gives(DONE, LISTING_OF_TWO, left=both)
    Run(program, ["--second", "two", "one", "halt"], both, PATCHES).gives(USAGE, b"usage\n", left=both)
    # a patch stands in the file of its page's drive
    for line, left in [(b"patch #3 0 565758595A\n", crossed(third=b"VWXYZ")), (b"patch #4 0 565758595A\n", crossed(fourth=b"VWXYZ"))]:
        Run(program, boot, crossed(), line).gives(DONE, b"done\n", left=left)
    # each file is that of its drive: the other way round all headers are wrong
    Run(program, ["--second", "one", "two", "boot"], both, PATCHES).gives(IN_NEED, NO_ROOT, left=both)
    # one that isn't there, or no file
    for words in [["--second", "two", "missing"], ["--second", "missing", "one"], ["--second", ".", "one"], ["--second", "", "one"]]:
        Run(program, [*words, "boot"], both, PATCHES).gives(NO_SESSION, err=b"no pack\n", left=both)
    # lengths: the first one that is bad, and then two that are unlike
    short, long = bytes(25_535), bytes(25_537)
    rows = [
        (short, long, b"bad length 25535\n"),
        (short, short, b"bad length 25535\n"),
        (one, short, b"bad length 25535\n"),
        (b"", long, b"bad length 0\n"),
        (bytes(12_768), two, b"bad length 12768\n"),
        (one, long, b"bad length 25537\n"),
        (short, three, b"bad length 25535\n"),
        (one, three, b"unlike packs 25536 38304\n"),
        (three, two, b"unlike packs 38304 25536\n"),
    ]
    for first, second, err in rows:
        for word in ["boot", "show", "halt"]:
            files = {"one": first, "two": second}
            Run(program, ["--second", "two", "one", word], files, PATCHES).gives(NO_SESSION, err=err, left=files)
    Run(program, ["--second", "missing", "one", "boot"], {"one": short}).gives(NO_SESSION, err=b"no pack\n", left={"one": short})
    # one file, by one path, by two, and by two names; also where its length is bad
    for path in ["one", "./one"]:
        for file in [one, short]:
            Run(program, ["--second", path, "one", "boot"], {"one": file}, PATCHES).gives(NO_SESSION, err=b"no pack\n", left={"one": file})
    for words in [boot, ["--second", "one", "two", "boot"]]:
        files = {"one": one, "two": linked("one")}
        Run(program, words, files, PATCHES).gives(NO_SESSION, err=b"no pack\n", left={"one": one, "two": one})
    Run(program, boot, {"one": one, "two": pointing("one")}, PATCHES).gives(NO_SESSION, err=b"no pack\n", left={"one": one})
    # new files: both, or none
    made = bytes(SMALL)
    new = ["--cylinders", "2", "--second", "two", "one"]
    Run(program, [*new, "show"]).gives(DONE, NO_FILES, left={"one": made, "two": made})
    Run(program, [*new, "boot"], typed=PATCHES).gives(IN_NEED, NO_ROOT, left={"one": made, "two": made})
    Run(program, new).gives(USAGE, b"usage\n", left={"one": made, "two": made})
    for files in [{"one": one}, {"two": two}, both]:
        Run(program, [*new, "show"], files).gives(NO_SESSION, err=b"no pack\n", left=files)
    for second in ["one", "./one", ".", "missing/two"]:
        Run(program, ["--cylinders", "2", "--second", second, "one", "show"]).gives(NO_SESSION, err=b"no pack\n")


def check_sessions(program):
    pack, patched, stopped = abcde(), abcde(b"ABBDE"), abcde(b"ABBDE", packs.OPEN)
    boot = ["pack", "boot"]
    Run(program, boot, {"pack": pack}, PATCHES).gives(DONE, REPLIES, left={"pack": patched})
    Run(program, boot, {"pack": pack}, PATCHES + b"quit\npatch A 0 58\n").gives(DONE, REPLIES + b"done\n", left={"pack": patched})
    Run(program, boot, {"pack": pack}).gives(DONE, left={"pack": pack})
    # packs that aren't entered: no key is taken, and nothing is written
    for redirect in ["", "<&-"]:
        Run(program, boot, {"pack": stopped}, PATCHES, redirect).gives(IN_NEED, b"pack not clean: mark 2\n", left={"pack": stopped})
    Run(program, ["--cylinders", "2", "new", "boot"], typed=PATCHES).gives(IN_NEED, NO_ROOT, left={"new": bytes(SMALL)})
    Run(program, boot, {"pack": stopped}, PATCHES, ">/dev/full").gives(DISPLAY_FAILED, left={"pack": stopped})
    # a standard stream that is closed or fails; no pack file takes its place
    Run(program, boot, {"pack": pack}, redirect="<&-").gives(KEYS_FAILED, left={"pack": pack})
    Run(program, boot, {"pack": pack}, redirect="</").gives(KEYS_FAILED, left={"pack": pack})
    for redirect in [">&-", ">/dev/full"]:
        Run(program, boot, {"pack": pack}, PATCH, redirect).gives(DISPLAY_FAILED, left={"pack": stopped})
        # a `quit` that is typed ahead doesn't close the pack either
        Run(program, boot, {"pack": pack}, PATCH + b"quit\n", redirect).gives(DISPLAY_FAILED, left={"pack": stopped})
    Run(program, boot, {"pack": pack}, PATCHES, "2>&-").gives(DONE, REPLIES, left={"pack": patched})
    Run(program, boot, {"pack": pack}, redirect="<&- >&- 2>&-").gives(KEYS_FAILED, left={"pack": pack})
    made = {"new": bytes(SMALL)}
    Run(program, ["--cylinders", "2", "new", "boot"], typed=PATCHES, redirect=">&-").gives(DISPLAY_FAILED, left=made)


# lines on the memory in one session, and what each is answered: numbers at their bounds, past them and otherwise typed
ON_MEMORY = [
    *((f"junta {number}", "bad line") for number in ("0", "9", "00000000008", "-1", "+1", "1.0", "0x1", "4294967297", "", " 1", "1 ", "1 1", "1\r")),
    *((line, "bad line") for line in ("junta", "Junta 1", "counterjunta 8", "counterjunta ", "counterJunta", "counter junta", "CounterJunta")),
    *((f"block {number}", "bad line") for number in ("0", "0000000000", "65536", "4294967296", "-", "1 1", "")),
    *((line, "bad line") for line in ("unblock 65536", "fetch 65536", "store 65536 0", "store 0 65536", "store 0", "store 0 -", "fetch #0", "unblock")),
    *((line, "not a block") for line in ("unblock 0", "unblock 65535", "fetch 65535", "fetch 1024", "store 1024 0", "store 65535 65535")),
    *(("store 0 0000065535", "done"), ("fetch 0000000000", "65535"), ("fetch 1023", "0"), ("counterjunta", "level 8"), ("junta 0000000008", "level 8")),
    *(("block 65535", "no room: largest 39935"), ("block 0000039935", "at 1025"), ("block 1", "no room: largest 0"), ("unblock 0000001025", "done")),
    *(("junta 07", "level 7"), ("block 44031", "at 1025"), ("counterjunta", "in use at 1025"), ("unblock 1025", "done"), ("counterjunta", "level 8")),
    *(("junta 1", "level 1"), ("junta 8", "level 1"), ("block 65535", "needs level 2"), ("free", "needs level 3"), ("counterjunta", "level 8")),
]


def check_memory_lines(program):
    """Lines on the memory, of which each writes nothing: the pack stays as it was, also where the last line has no end, the display fails, or
    the session ends at level 1. One in which a hint failed ends so after `counterjunta`, too."""
    pack, boot = abcde(), ["pack", "boot"]
    typed, shown = ("\n".join(column).encode() for column in zip(*ON_MEMORY))
    for end in (b"", b"\n"):
        Run(program, boot, {"pack": pack}, typed + end).gives(DONE, shown + b"\n", left={"pack": pack})
    for line, reply in (("junta 1", "level 1"), ("junta 1\nquit", "level 1\ndone"), ("block 1", "at 1025")):
        Run(program, boot, {"pack": pack}, line.encode()).gives(DONE, f"{reply}\n".encode(), left={"pack": pack})
    Run(program, boot, {"pack": pack}, b"store 0 1\n", ">/dev/full").gives(DISPLAY_FAILED, left={"pack": pack})
    # the address in the entry of A
    false = bytearray(pack)
    false[packs.word_at(2, 29) : packs.word_at(2, 29) + 2] = bytes(2)
    misled = b"hint failed: entry #1 word 29 at 0 wanted #3 v 1 page 0 found none\n"
    lines = b"junta 6\ntype A\njunta 5\ncounterjunta\ncounterjunta 8\n"
    replies = b"level 6\n" + misled + b"needs scavenging\nlevel 8\nbad line\n"
    Run(program, boot, {"pack": bytes(false)}, lines).gives(IN_NEED, replies, left={"pack": bytes(false)})


def check_show(program):
    pack, made = abcde(), bytes(SMALL)
    show = ["pack", "show"]
    # what is typed isn't obeyed, and the pack file stays as it was
    Run(program, show, {"pack": pack}, PATCHES).gives(DONE, LISTING, left={"pack": pack})
    Run(program, ["--cylinders", "2", "new", "show"], typed=PATCHES).gives(DONE, NO_FILES, left={"new": made})
    Run(program, show, {"pack": made}).gives(DONE, NO_FILES, left={"pack": made})
    patched = abcde(b"A" * packs.PAGE + b"B")
    Run(program, show, {"pack": patched}).gives(DONE, b"SysDir>A. length 513\n1 files\n", left={"pack": patched})
    for words in [["pack", "show", "extra"], ["pack", "Show"], ["pack", "show", "show"], ["pack", "boot", "show"]]:
        Run(program, words, {"pack": pack}, PATCHES).gives(USAGE, b"usage\n", left={"pack": pack})
    # a closed keyboard is never asked; a display that fails ends it, and nothing is said of that
    for redirect in ["<&-", "</", "2>&-", "<&- 2>&-"]:
        Run(program, show, {"pack": pack}, redirect=redirect).gives(DONE, LISTING, left={"pack": pack})
    for redirect in [">&-", ">/dev/full", ">/dev/full 2>&-", "<&- >&- 2>&-"]:
        Run(program, show, {"pack": pack}, redirect=redirect).gives(DISPLAY_FAILED, left={"pack": pack})
        Run(program, ["pack", "show", "extra"], {"pack": pack}, redirect=redirect).gives(DISPLAY_FAILED, left={"pack": pack})
    Run(program, ["--cylinders", "2", "new", "show"], redirect=">&-").gives(DISPLAY_FAILED, left={"new": made})
    # no session
    for length in [0, 532, 25_535, 25_537, 12_768]:
        file = bytes(length)
        Run(program, show, {"pack": file}).gives(NO_SESSION, err=b"bad length %d\n" % length, left={"pack": file})
    for words in [[".", "show"], ["missing", "show"], ["", "show"], ["--cylinders", "2", "missing/new", "show"]]:
        Run(program, words).gives(NO_SESSION, err=b"no pack\n")
    Run(program, ["--cylinders", "2", "pack", "show"], {"pack": pack}).gives(NO_SESSION, err=b"no pack\n", left={"pack": pack})


def without_dates(run):
    """The run, in which a pack was formatted, with zeros for the three dates of both leaders in the files left, except in `two`. Before, they
    are one moment of the run, or else that is a failure: the clock is read now, and may have gone on for all of the run."""
    now = int(time.time()) + SECONDS_BEFORE_1970
    for name, content in run.left.items():
        for at in () if name == "two" else (1, 3):
            first = at * packs.SECTOR + packs.VALUE_AT
            dates = content[first : first + 12]
            moment = int.from_bytes(dates[:4], "big")
            if dates != 3 * dates[:4] or not now - SECONDS - 2 <= moment <= now:
                failures.append(f"{run.name}: {name}: the dates in sector {at} are {dates.hex(' ', 4)}, and not one moment of the run")
            content = content[:first] + bytes(12) + content[first + 12 :]
        run.left[name] = content
    return run


def check_format(program):
    pack, made, new = abcde(), bytes(SMALL), ["--cylinders", "2", "new", "format", "1"]
    (formatted,) = packs.formatted(1, 2, 1)
    without_dates(Run(program, new)).gives(DONE, FORMATTED, left={"new": formatted})
    without_dates(Run(program, new, typed=PATCHES)).gives(DONE, FORMATTED, left={"new": formatted})
    # whatever stood there
    format_1 = ["pack", "format", "1"]
    without_dates(Run(program, format_1, {"pack": pack}, PATCHES)).gives(DONE, FORMATTED, left={"pack": formatted})
    without_dates(Run(program, ["pack", "format", "00001"], {"pack": made})).gives(DONE, FORMATTED, left={"pack": formatted})
    Run(program, ["pack", "show"], {"pack": formatted}).gives(DONE, NO_FILES, left={"pack": formatted})
    # numbers that aren't one, and other words
    for words in [["0"], ["65536"], ["-1"], ["+1"], ["1.0"], ["x"], [""], ["4294967297"], ["00000000001"], [], ["1", "1"]]:
        Run(program, ["pack", "format", *words], {"pack": pack}).gives(USAGE, b"usage\n", left={"pack": pack})
    Run(program, ["pack", "Format", "1"], {"pack": pack}).gives(USAGE, b"usage\n", left={"pack": pack})
    # the display fails after the last record write; a closed keyboard is never asked
    for redirect in [">&-", ">/dev/full"]:
        without_dates(Run(program, format_1, {"pack": pack}, redirect=redirect)).gives(DISPLAY_FAILED, left={"pack": formatted})
    without_dates(Run(program, format_1, {"pack": pack}, redirect="<&-")).gives(DONE, FORMATTED, left={"pack": formatted})
    # the disk fails: a limit on the size of files stops the process, and the pack is formatted again
    stopped = Run(program, format_1, {"pack": pack}, before=limited(1_000))
    stopped.gives(-signal.SIGXFSZ, left=stopped.left)
    without_dates(Run(program, format_1, stopped.left)).gives(DONE, FORMATTED, left={"pack": formatted})
    # it fails as the last sectors, which are held back until then, are handed on, of which the very last one doesn't fit: nothing is told
    refused = without_dates(Run(program, format_1, {"pack": pack}, before=refused_past(LAST)))
    refused.gives(DISK_FAILED, left={"pack": formatted[:LAST] + pack[LAST:]})
    # larger ones, and two drives, each drive whole: headers, labels and values
    for cylinders, free in [(160, 3834), (203, 4866), (406, 9737)]:
        run = without_dates(Run(program, ["--cylinders", str(cylinders), "new", "format", "4660"]))
        run.gives(DONE, b"formatted: %d pages free\n" % free, left={"new": packs.formatted(1, cylinders, 4660)[0]})
    for cylinders, free in [(2, 91), (203, 9737), (406, 19479)]:
        both = ["--second", "two", "one"]
        left = dict(zip(("one", "two"), packs.formatted(2, cylinders, 4660)))
        run = without_dates(Run(program, ["--cylinders", str(cylinders), *both, "format", "4660"]))
        run.gives(DONE, b"formatted: %d pages free\n" % free, left=left)
        Run(program, [*both, "show"], run.left).gives(DONE, NO_FILES, left=left)
    # two drives on which something stood
    left = dict(zip(("one", "two"), packs.formatted(2, 2, 65_535)))
    run = without_dates(Run(program, ["--second", "two", "one", "format", "65535"], crossed()))
    run.gives(DONE, b"formatted: 91 pages free\n", left=left)


def check_prepare(program):
    pack = abcde()
    twice = {"one": pack, "two": pack}
    both = ["--second", "two", "one"]
    # the first drive doesn't change; of the second each label and value has ones, and each header the pack's number and the drive's bit
    prepared = {"one": pack, "two": packs.prepared(2, 1)}
    Run(program, [*both, "prepare", "1"], {"one": pack, "two": bytes(SMALL)}).gives(DONE, PREPARED, left=prepared)
    Run(program, [*both, "show"], prepared).gives(DONE, LISTING, left=prepared)
    # what stood there is gone
    Run(program, [*both, "prepare", "1"], twice, PATCHES).gives(DONE, PREPARED, left=prepared)
    Run(program, [*both, "prepare", "00001"], prepared).gives(DONE, PREPARED, left=prepared)
    # on one drive, with other numbers and other words
    Run(program, ["one", "prepare", "1"], {"one": pack}).gives(USAGE, b"usage\n", left={"one": pack})
    for words in [["0"], ["65536"], ["-1"], [""], [], ["1", "1"]]:
        Run(program, [*both, "prepare", *words], twice).gives(USAGE, b"usage\n", left=twice)
    # the display fails after the last record write; the disk fails, and the drive is prepared again
    Run(program, [*both, "prepare", "1"], twice, redirect=">&-").gives(DISPLAY_FAILED, left=prepared)
    stopped = Run(program, [*both, "prepare", "1"], twice, before=limited(1_000))
    stopped.gives(-signal.SIGXFSZ, left=stopped.left)
    Run(program, [*both, "prepare", "1"], stopped.left).gives(DONE, PREPARED, left=prepared)
    refused = Run(program, [*both, "prepare", "1"], twice, before=refused_past(LAST))
    refused.gives(DISK_FAILED, left={"one": pack, "two": prepared["two"][:LAST] + pack[LAST:]})
    # an old pack of one drive, of each size, and another number
    for cylinders, pages in [(203, 4872), (406, 9744)]:
        (one,) = packs.formatted(1, cylinders, 1)
        files, left = {"one": one, "two": bytes(cylinders * 12_768)}, {"one": one, "two": packs.prepared(cylinders, 4660)}
        Run(program, [*both, "prepare", "4660"], files).gives(DONE, b"prepared: %d pages\n" % pages, left=left)
        Run(program, [*both, "show"], left).gives(DONE, NO_FILES, left=left)


def strayed(mark):
    """The pack of `abcde` with zeros for the label of sector 20, which is released."""
    file, label_at = bytearray(abcde(mark=mark)), packs.word_at(20, packs.PAGE // 2)
    file[label_at : label_at + 16] = bytes(16)
    return bytes(file)


def check_scavenge(program):
    pack, opened, made = abcde(), abcde(mark=packs.OPEN), bytes(SMALL)
    scavenge, both = ["pack", "scavenge"], ["--second", "two", "one", "scavenge"]
    # a pack that was left open becomes clean, and nothing else changes on it; a sound one stays as it is; what is typed isn't obeyed
    Run(program, scavenge, {"pack": opened}, PATCHES).gives(DONE, SCAVENGED, left={"pack": pack})
    Run(program, scavenge, {"pack": pack}).gives(DONE, SCAVENGED, left={"pack": pack})
    Run(program, both, crossed(mark=packs.OPEN), PATCHES).gives(DONE, SCAVENGED_TWO, left=crossed())
    for words in [["scavenge", "extra"], ["Scavenge"], ["scavenge", "scavenge"], ["scavenge", "1"], ["boot", "scavenge"]]:
        Run(program, ["pack", *words], {"pack": opened}, PATCHES).gives(USAGE, b"usage\n", left={"pack": opened})
    # packs that can't be scavenged: the files of the drives are in each other's place, too
    Run(program, ["--cylinders", "2", "new", "scavenge"]).gives(CANNOT_SCAVENGE, ROOT_BAD, left={"new": made})
    crosswise = ["--second", "one", "two", "scavenge"]
    Run(program, crosswise, crossed()).gives(CANNOT_SCAVENGE, b"root bad: 1 %d\n" % packs.real_of(49, 2), left=crossed())
    # a closed keyboard is never asked; a display that fails ends it, after the last record write
    for redirect in ["<&-", "</", "2>&-", "<&- 2>&-"]:
        Run(program, scavenge, {"pack": opened}, redirect=redirect).gives(DONE, SCAVENGED, left={"pack": pack})
    for redirect in [">&-", ">/dev/full", ">/dev/full 2>&-", "<&- >&- 2>&-"]:
        Run(program, scavenge, {"pack": opened}, redirect=redirect).gives(DISPLAY_FAILED, left={"pack": pack})
        Run(program, scavenge, {"pack": made}, redirect=redirect).gives(DISPLAY_FAILED, left={"pack": made})
        Run(program, [*scavenge, "extra"], {"pack": opened}, redirect=redirect).gives(DISPLAY_FAILED, left={"pack": opened})
    # the disk fails: as the clean mark, which is held back until then, is handed on; nothing is told
    Run(program, scavenge, {"pack": opened}, before=refused_past(1_000)).gives(DISK_FAILED, left={"pack": opened})
    # at the first write, which is that of the mark on sector 4, before byte 3,000, or at the release of sector 20
    Run(program, scavenge, {"pack": pack}, before=refused_past(1_000)).gives(DISK_FAILED, left={"pack": pack})
    stray, halfway, freed = ({"pack": strayed(packs.CLEAN)}, {"pack": strayed(packs.OPEN)}, SCAVENGED.replace(b"freed 0", b"freed 1"))
    Run(program, scavenge, stray, before=refused_past(3_000)).gives(DISK_FAILED, left=halfway)
    Run(program, scavenge, stray, before=limited(3_000)).gives(-signal.SIGXFSZ, left=halfway)
    Run(program, ["pack", "boot"], halfway, PATCHES).gives(IN_NEED, b"pack not clean: mark 2\n", left=halfway)
    Run(program, scavenge, halfway).gives(DONE, freed, left={"pack": pack})
    # no session
    for length in [0, 532, 25_535, 25_537, 12_768]:
        file = bytes(length)
        Run(program, scavenge, {"pack": file}).gives(NO_SESSION, err=b"bad length %d\n" % length, left={"pack": file})
    Run(program, ["missing", "scavenge"]).gives(NO_SESSION, err=b"no pack\n")


def may(act):
    """Whether a process may do this here."""
    try:
        return subprocess.run(["true"], preexec_fn=act).returncode == 0
    except subprocess.SubprocessError:
        return False


def with_mode(mode, content):
    """A file with this content and these permissions."""

    def make(path):
        path.write_bytes(content)
        path.chmod(mode)

    return make


def check_file_for_reading(program):
    """A pack file that may only be read: it is listed, and the words that write have no pack. No permission binds root, so another user runs
    a copy of the program there."""
    before = (lambda: os.setuid(NOBODY)) if os.geteuid() == 0 else None
    if not may(before):
        print("edges: left out, for no other user can be taken: a pack file that may only be read")
        return
    pack = abcde()
    with tempfile.TemporaryDirectory() as folder:
        os.chmod(folder, 0o755)
        copied = shutil.copy(program, folder)
        os.chmod(copied, 0o755)
        Run(copied, ["pack", "show"], {"pack": with_mode(0o666, pack)}, before=before).gives(DONE, LISTING, left={"pack": pack})
        for words in [["boot"], ["scavenge"], ["format", "1"], ["prepare", "1"]]:
            run = Run(copied, ["pack", *words], {"pack": with_mode(0o444, pack)}, PATCHES, before=before)
            run.gives(NO_SESSION, err=b"no pack\n", left={"pack": pack})
        for word, code, out in [("show", DONE, LISTING), ("halt", USAGE, b"usage\n")]:
            Run(copied, ["pack", word], {"pack": with_mode(0o444, pack)}, before=before).gives(code, out, left={"pack": pack})
        both = crossed()
        files = {name: with_mode(0o444, content) for name, content in both.items()}
        Run(copied, ["--second", "two", "one", "show"], files, before=before).gives(DONE, LISTING_OF_TWO, left=both)


def asked(program, folder, words):
    """What a run with these words answers in a folder: exit code, standard output, standard error."""
    ended = subprocess.run([program, *words], cwd=folder, input=PATCHES, capture_output=True, timeout=SECONDS)
    return ended.returncode, ended.stdout, ended.stderr


class Session:
    """A session on pack files in a folder, which has replied to the line PATCH and waits for the next one."""

    def __init__(self, program, folder, words):
        streams = {"stdin": subprocess.PIPE, "stdout": subprocess.PIPE}
        self.process = subprocess.Popen([program, *words, "boot"], cwd=folder, **streams)
        self.process.stdin.write(PATCH)
        self.process.stdin.flush()
        if self.process.stdout.readline() != b"done\n":
            failures.append(f"{words}: a session doesn't begin")

    def kill(self):
        """Ends it where it stands."""
        with self.process:
            self.process.kill()


def check_in_use(program):
    """Runs on a pack file that a session has open, which is one of two drives too: the pack is in use, and nothing is read or written. Once
    the session was killed, it isn't."""
    patched, other = abcde(b"ABBDE", packs.OPEN), abcde()
    with tempfile.TemporaryDirectory() as folder:
        folder = pathlib.Path(folder)
        (folder / "pack").write_bytes(other)
        (folder / "other").write_bytes(other)
        (folder / "link").symlink_to("pack")
        session = Session(program, folder, ["pack"])
        for paths in [["pack"], ["link"], ["--second", "other", "pack"], ["--second", "pack", "other"]]:
            for words in [["boot"], ["show"], ["scavenge"], ["format", "1"], ["prepare", "1"], ["halt"]]:
                found = asked(program, folder, [*paths, *words])
                if found != (NO_SESSION, b"", b"pack in use\n"):
                    failures.append(f"{[*paths, *words]} on a pack in use: {found}")
        # what is refused before the lock is asked for
        for words in [["--cylinders", "2", "pack", "boot"], ["--second", "link", "pack", "boot"]]:
            found = asked(program, folder, words)
            if found != (NO_SESSION, b"", b"no pack\n"):
                failures.append(f"{words} on a pack in use: {found}")
        if ((folder / "pack").read_bytes(), (folder / "other").read_bytes()) != (patched, other):
            failures.append("a pack in use is changed by others")
        session.kill()
        rows = [
            ("show", (DONE, LISTING, b"")),
            ("boot", (IN_NEED, b"pack not clean: mark 2\n", b"")),
            ("scavenge", (DONE, SCAVENGED, b"")),
            ("boot", (DONE, REPLIES, b"")),
        ]
        for word, wanted in rows:
            found = asked(program, folder, ["pack", word])
            if found != wanted:
                failures.append(f"{word} after a session was killed: {found}, and not {wanted}")


def check_two_in_use(program):
    """Each file of a session on two drives."""
    with tempfile.TemporaryDirectory() as folder:
        folder = pathlib.Path(folder)
        for name, content in crossed().items():
            (folder / name).write_bytes(content)
        session = Session(program, folder, ["--second", "two", "one"])
        for paths in [["one"], ["two"], ["--second", "two", "one"], ["--second", "one", "two"]]:
            for word in ["boot", "show"]:
                found = asked(program, folder, [*paths, word])
                if found != (NO_SESSION, b"", b"pack in use\n"):
                    failures.append(f"{[*paths, word]} on two drives in use: {found}")
        session.kill()


def check_listed_at_once(program):
    """A pack is listed while another process lists it, and isn't written meanwhile. The first listing is longer than what its pipe has."""
    pack, listing = packs.full_pack(203, 200)
    with tempfile.TemporaryDirectory() as folder:
        folder = pathlib.Path(folder)
        (folder / "pack").write_bytes(pack)
        reader, writer = os.pipe()
        fcntl.fcntl(writer, fcntl.F_SETPIPE_SZ, resource.getpagesize())
        with open(reader, "rb", buffering=0) as pipe, subprocess.Popen([program, "pack", "show"], cwd=folder, stdout=writer) as process:
            os.close(writer)
            shown = pipe.read(1)
            for word, wanted in [("show", (DONE, listing, b"")), ("boot", (NO_SESSION, b"", b"pack in use\n"))]:
                found = asked(program, folder, ["pack", word])
                if found != wanted:
                    failures.append(f"{word} while a pack is listed: {found[0]}, {found[2]!r}")
            shown += pipe.read()
        if (process.returncode, shown, (folder / "pack").read_bytes()) != (DONE, listing, pack):
            failures.append("a pack that is listed twice at once isn't listed whole")


def check_without_null_device(program):
    """A root folder without /dev/null, and a closed standard output: the pack file doesn't take its place."""
    if not may(lambda: os.chroot("/")):
        print("edges: left out, for no other root folder can be taken: one without /dev/null")
        return
    libraries = subprocess.run(["ldd", program], capture_output=True, text=True, check=True).stdout
    with tempfile.TemporaryDirectory() as folder:
        folder = pathlib.Path(folder)
        for file in [str(program), *re.findall(r"(/\S+) \(0x", libraries)]:
            (folder / file[1:]).parent.mkdir(parents=True, exist_ok=True)
            shutil.copy(file, folder / file[1:])

        def enter():
            os.chroot(folder)
            os.chdir("/")
            os.close(1)

        pack, new, device = folder / "pack", ["--cylinders", "2", "new", "show"], folder / "dev" / "null"
        ended = subprocess.run([program, *new], input=b"", capture_output=True, timeout=SECONDS, preexec_fn=enter)
        if (ended.returncode, ended.stderr, (folder / "new").exists()) != (NO_SESSION, b"no pack\n", False):
            failures.append(f"/dev/null: a new file: exit code {ended.returncode}, {ended.stderr!r}, or it is made")
        # at last a file stands there, and holds the place of a stream as well
        rows = [(False, "boot", NO_SESSION, b"no pack\n", abcde()), (False, "show", NO_SESSION, b"no pack\n", abcde())]
        for is_there, word, code, err, left in [*rows, (True, "boot", DISPLAY_FAILED, b"", abcde(b"ABBDE", packs.OPEN))]:
            if is_there:
                device.parent.mkdir()
                device.touch()
            pack.write_bytes(abcde())
            ended = subprocess.run([program, "pack", word], input=PATCH, capture_output=True, timeout=SECONDS, preexec_fn=enter)
            if (ended.returncode, ended.stderr) != (code, err):
                failures.append(f"/dev/null: {is_there}, {word}: exit code {ended.returncode}, {ended.stderr!r}")
            if pack.read_bytes() != left:
                failures.append(f"/dev/null: {is_there}, {word}: the file isn't left as it should be")


def limited(size):
    """Sets a limit on the size of files, and leaves no picture of a process that it stops."""

    def limit():
        resource.setrlimit(resource.RLIMIT_CORE, (0, 0))
        resource.setrlimit(resource.RLIMIT_FSIZE, (size, size))

    return limit


def refused_past(size):
    """Sets a limit on the size of files, past which a write is refused and doesn't stop the process."""

    def limit():
        signal.signal(signal.SIGXFSZ, signal.SIG_IGN)
        resource.setrlimit(resource.RLIMIT_FSIZE, (size, size))

    return limit


def check_refused_writes(program):
    """Writes that fail. A new file that can't be filled is removed, and a line whose write fails ends the session without a reply."""
    new, two = ["--cylinders", "2", "new", "show"], ["--cylinders", "2", "--second", "two", "one", "show"]
    # the first call that fills the file fails, and later ones
    for size in [0, 12_768, 20_480, SMALL - 1]:
        for words in [new, two]:
            Run(program, words, before=refused_past(size)).gives(NO_SESSION, err=b"no pack\n")
    Run(program, new, before=refused_past(SMALL)).gives(DONE, NO_FILES, left={"new": bytes(SMALL)})
    Run(program, two, before=refused_past(SMALL)).gives(DONE, NO_FILES, left={"one": bytes(SMALL), "two": bytes(SMALL)})
    pack = {"pack": abcde()}
    Run(program, ["pack", "boot"], pack, PATCHES, before=refused_past(1_000)).gives(DISK_FAILED, b"done\n", left=pack)
    # the mark stands on sector 4, before byte 3,000, and the page after it
    boot, opened = ["--second", "two", "one", "boot"], crossed(mark=packs.OPEN)
    Run(program, boot, crossed(), b"patch #4 0 56\n", before=refused_past(3_000)).gives(DISK_FAILED, left=opened)


def open_files(number):
    """Sets a limit on the number of files that are open at once, standard streams among them."""
    return lambda: resource.setrlimit(resource.RLIMIT_NOFILE, (number, number))


def check_openings(program):
    """Files that can't be opened. Each pack file is opened above three others, which hold the places of the standard streams and are closed
    then; if any of these can't be opened there is no session, no file is made, and none is changed."""
    pack, made, both = {"pack": abcde()}, {"new": bytes(SMALL)}, crossed()
    zeros = {"one": bytes(SMALL), "two": bytes(SMALL)}
    rows = [
        (7, ["pack", "boot"], pack, {"pack": abcde(b"ABBDE")}, REPLIES),
        (7, ["--cylinders", "2", "new", "show"], {}, made, NO_FILES),
        (8, ["--second", "two", "one", "boot"], both, crossed(third=b"ABBDE"), REPLIES),
        (8, ["--cylinders", "2", "--second", "two", "one", "show"], {}, zeros, NO_FILES),
    ]
    for enough, words, files, left, out in rows:
        for number in range(4, enough):
            run = Run(program, words, files, PATCHES, before=open_files(number))
            run.name += f"with {number} open files"
            run.gives(NO_SESSION, err=b"no pack\n", left=files)
        Run(program, words, files, PATCHES, before=open_files(enough)).gives(DONE, out, left=left)


def check_size_limit(program):
    """A write past a limit on the size of files stops the process: a shorter file stays, and later it is refused."""
    new, size = ["--cylinders", "2", "new", "show"], 20_480
    short = {"new": bytes(size)}
    Run(program, new, before=limited(size)).gives(-signal.SIGXFSZ, left=short)
    Run(program, new, before=limited(SMALL)).gives(DONE, NO_FILES, left={"new": bytes(SMALL)})
    Run(program, ["new", "boot"], short).gives(NO_SESSION, err=b"bad length %d\n" % size, left=short)
    Run(program, new, short).gives(NO_SESSION, err=b"no pack\n", left=short)
    # a line's write, which makes no file longer, is stopped too: neither its reply is shown nor that to the line ahead, which is held back
    pack = {"pack": abcde()}
    Run(program, ["pack", "boot"], pack, PATCHES, before=limited(1_000)).gives(-signal.SIGXFSZ, left=pack)
    # one within a record, whose value begins at byte 3,212: the first 372 of its bytes are new
    line, old = b"patch #3 0 " + b"42" * packs.PAGE + b"\n", {"pack": abcde(b"A" * 600)}
    torn = {"pack": abcde(b"B" * 372 + b"A" * 228, packs.OPEN)}
    Run(program, ["pack", "boot"], old, line, before=limited(3_584)).gives(-signal.SIGXFSZ, left=torn)


def within(size):
    """Sets a limit on the memory of a process, in bytes of its addresses."""
    return lambda: resource.setrlimit(resource.RLIMIT_AS, (size, size))


def check_memory_limit(program):
    """Limits on memory from the least under which a small pack is shown, and a step more, up to 16 MiB more, by quarters of a step: a full
    pack is shown whole, or the program ends with 6 and says nothing. Some limit is too small, where memory to keep what is read leaves too
    little for the listing, and the last one isn't. Under the first, which leaves no memory to keep what is read of a large pack, a session
    is the same."""
    show, (full, listing) = ["pack", "show"], packs.full_pack(203, 200)
    small = {"pack": abcde()}
    least = next((limit for limit in range(STEP, 64 * MIB, STEP) if Run(program, show, small, before=within(limit)).code == DONE), None)
    if least is None:
        failures.append("limits on memory: the program starts under none")
        return
    large, patched = abcde(cylinders=406, at=7), abcde(b"ABBDE", cylinders=406, at=7)
    for before in [None, within(least + STEP)]:
        Run(program, ["pack", "boot"], {"pack": large}, PATCHES, before=before).gives(DONE, REPLIES, left={"pack": patched})
    codes = []
    for limit in range(least + STEP, least + 16 * MIB, STEP // 4):
        run = Run(program, show, {"pack": full}, before=within(limit))
        run.name += f"under a limit of {limit} bytes on memory"
        run.gives(run.code if run.code == DONE else NO_MEMORY, listing if run.code == DONE else b"", left={"pack": full})
        codes.append(run.code)
    if NO_MEMORY not in codes or codes[-1] != DONE:
        failures.append(f"limits on memory: the exit codes are {codes}, and not 6 among them and 0 at last")


# lines that read no sector, the file's, all labels; and one that writes the mark, on sector 4, and then the page, on sector 6
READS_NOTHING = (b"bad\n", b"bad line\n")
READS = (b"type A\n", b"4142434445\n5 bytes\n")
READS_ALL = (b"free\n", b"41 pages free\n")
WRITES = (PATCH, b"done\n")


def shrunk(program, words, files, name, length, first, lines, second):
    """A session in which the file with this name becomes so short after the first line, whose reply has so many lines: its exit code, what
    was shown of the first line and what of the second, what was said on standard error, and the files left."""
    with tempfile.TemporaryDirectory() as folder:
        folder = pathlib.Path(folder)
        for path, content in files.items():
            (folder / path).write_bytes(content)
        streams = {"stdin": subprocess.PIPE, "stdout": subprocess.PIPE, "stderr": subprocess.PIPE}
        with subprocess.Popen([program, *words], cwd=folder, **streams) as process:
            process.stdin.write(first)
            process.stdin.flush()
            reply = b"".join(process.stdout.readline() for _ in range(lines))
            os.truncate(folder / name, length)
            out, err = process.communicate(second, timeout=SECONDS)
        return process.returncode, reply, out, err, {path: (folder / path).read_bytes() for path in files}


def check_shrinking_file(program):
    """The pack file becomes shorter during a session, after the first line. The opening has read the first of its two cylinders, where the
    system files and `A.` stand: it is read from memory. The second can't be read any more, and nothing is written past the file's end. The
    file stays as short."""
    patched, opened = abcde(b"ABBDE"), abcde(mark=packs.OPEN)
    rows = [
        *((length, READS, DONE, abcde()) for length in (25_535, 3_300, 0)),
        *((length, READS_ALL, DISK_FAILED, abcde()) for length in (25_535, 12_768)),
        # sector 4 ends at byte 2,660 and sector 6 at byte 3,724
        *((length, WRITES, DISK_FAILED, abcde()) for length in (2_659, 0)),
        *((length, WRITES, DISK_FAILED, opened) for length in (3_723, 2_660)),
        *((length, WRITES, DONE, patched) for length in (25_535, 3_724)),
    ]
    first, shown = READS_NOTHING
    for length, (second, reply), code, left in rows:
        found = shrunk(program, ["pack", "boot"], {"pack": abcde()}, "pack", length, first, 1, second)
        if found != (code, shown, reply if code == DONE else b"", b"", {"pack": left[:length]}):
            failures.append(f"a file that shrinks to {length} bytes, {second!r}: {found[:4]}, or it is left otherwise")


def check_shrinking_while_shown(program):
    """The pack file becomes shorter while the display makes the program wait, between lines whose keys were typed ahead together. The first
    ones are in the file by then. What the last one writes is refused by the file's new length, and the file stays as short."""
    content = b"ABCDE" + b"A" * 4000
    typed = b"".join(b"append A " + content[at : at + 2000].hex().encode() + b"\n" for at in (5, 2005)) + b"type A\n" + PATCH
    replies = b"length 2005\nlength 4005\n"
    text = b"".join(content[at : at + 32].hex().encode() + b"\n" for at in range(0, len(content), 32)) + b"4005 bytes\n"
    with tempfile.TemporaryDirectory() as folder:
        file = pathlib.Path(folder) / "pack"
        file.write_bytes(abcde())
        streams = {"stdin": subprocess.PIPE, "stdout": subprocess.PIPE, "stderr": subprocess.PIPE}
        with subprocess.Popen([program, file, "boot"], bufsize=0, **streams) as process:
            # less than the text has, which is shown by one call: that call waits until more of it is read than its first byte
            fcntl.fcntl(process.stdout.fileno(), fcntl.F_SETPIPE_SZ, resource.getpagesize())
            process.stdin.write(typed)
            shown = b""
            while len(shown) <= len(replies) and select.select([process.stdout], [], [], SECONDS)[0]:
                byte = process.stdout.read(1)
                if not byte:
                    break
                shown += byte
            os.truncate(file, 100)
            out, err = process.communicate(timeout=SECONDS)
        found = (process.returncode, shown + out, err, file.stat().st_size)
    if found != (DISK_FAILED, replies + text, b"", 100):
        code, _, said, length = found
        failures.append(f"a file that shrinks while the display waits: {code}, {said}, {length} bytes are left, or otherwise shown")


def check_shrinking_second(program):
    """And the second of two, on which `A.` has its page. One that was read is read from memory, and can't be written."""
    both = crossed()
    for (first, shown), (line, _), left in [(READS_NOTHING, READS, both), (READS, WRITES, crossed(mark=packs.OPEN))]:
        found = shrunk(program, ["--second", "two", "one", "boot"], both, "two", 100, first, shown.count(b"\n"), line)
        if found != (DISK_FAILED, shown, b"", b"", {"one": left["one"], "two": both["two"][:100]}):
            failures.append(f"a second file that shrinks, {line!r}: {found[:4]}, or the files are left otherwise")


def check_whole_writes(program):
    """A listing and each other text is shown by one write call, and so are few replies to lines that are typed ahead: a socket of packets
    keeps calls apart."""
    second = ["--second", "second"]
    rows = [
        ([], ["boot"], REPLIES),
        ([], ["show"], LISTING),
        ([], ["format", "1"], FORMATTED),
        ([], ["prepare", "1"], b"usage\n"),
        (second, ["prepare", "1"], PREPARED),
        ([], ["scavenge"], SCAVENGED),
        ([], ["halt"], b"usage\n"),
    ]
    for options, words, text in rows:
        with tempfile.TemporaryDirectory() as folder:
            for name in ("pack", "second"):
                (pathlib.Path(folder) / name).write_bytes(abcde())
            reader, writer = socket.socketpair(socket.AF_UNIX, socket.SOCK_SEQPACKET)
            with reader:
                command = [program, *options, "pack", *words]
                subprocess.run(command, cwd=folder, input=PATCHES, stdout=writer, timeout=SECONDS)
                writer.close()
                shown = list(iter(lambda: reader.recv(MIB), b""))
            if shown != [text]:
                failures.append(f"{[*options, *words]}: the write calls show {shown}, and not {[text]}")


def check_replies_before_keys(program):
    """A reply is shown before keys are waited for: those of the next line, and the rest of one of which a part was typed ahead. The text of
    `type`, which is longer than what is held back, comes after the replies ahead of it."""
    lines, replies = PATCHES.splitlines(keepends=True), REPLIES.splitlines(keepends=True)
    with tempfile.TemporaryDirectory() as folder:
        (pathlib.Path(folder) / "pack").write_bytes(abcde())
        streams = {"stdin": subprocess.PIPE, "stdout": subprocess.PIPE}
        with subprocess.Popen([program, "pack", "boot"], cwd=folder, bufsize=0, **streams) as process:
            for typed, reply in [(lines[0] + lines[1][:3], replies[0]), (lines[1][3:], replies[1]), (lines[2], replies[2])]:
                process.stdin.write(typed)
                ready, _, _ = select.select([process.stdout], [], [], SECONDS)
                shown = os.read(process.stdout.fileno(), MIB) if ready else None
                if shown != reply:
                    failures.append(f"{typed} typed alone: {shown} is shown, and not {reply}")
                    process.kill()
                    break
    long = b"".join(b"append A " + b"41" * 2000 + b"\n" for _ in range(2))
    typed = b"type A\n" + long + b"type A\ntype A\n"
    bytes_of = b"ABCDE" + b"A" * 4000
    first = b"4142434445\n5 bytes\n"
    hex_lines = b"".join(bytes_of[at : at + 32].hex().encode() + b"\n" for at in range(0, len(bytes_of), 32))
    shown = first + b"length 2005\nlength 4005\n" + (hex_lines + b"4005 bytes\n") * 2
    run = Run(program, ["pack", "boot"], {"pack": abcde()}, typed)
    # the appends date the file, so what is left isn't compared
    run.gives(DONE, shown, left=run.left)


def check_closed_pipe(program):
    """The reader of what is shown goes away before the first of it: the display has failed. The write ahead of the reply stays."""
    for word, left in [("boot", abcde(b"ABBDE", packs.OPEN)), ("show", abcde()), ("scavenge", abcde())]:
        with tempfile.TemporaryDirectory() as folder:
            file = pathlib.Path(folder) / "pack"
            file.write_bytes(abcde())
            reader, writer = os.pipe()
            os.close(reader)
            ended = subprocess.run([program, file, word], input=PATCH, stdout=writer, stderr=subprocess.PIPE, timeout=SECONDS)
            os.close(writer)
            if ended.returncode != DISPLAY_FAILED or ended.stderr:
                failures.append(f"a closed pipe at {word}: exit code {ended.returncode}, {ended.stderr!r}")
            if file.read_bytes() != left:
                failures.append(f"a closed pipe at {word}: the file isn't left as it should be")


CHECKS = [
    check_words,
    check_help,
    check_pack_files,
    check_cylinders,
    check_second,
    check_sessions,
    check_memory_lines,
    check_show,
    check_format,
    check_prepare,
    check_scavenge,
    check_file_for_reading,
    check_in_use,
    check_two_in_use,
    check_listed_at_once,
    check_without_null_device,
    check_size_limit,
    check_refused_writes,
    check_openings,
    check_memory_limit,
    check_shrinking_file,
    check_shrinking_while_shown,
    check_shrinking_second,
    check_whole_writes,
    check_replies_before_keys,
    check_closed_pipe,
]


def main():
    program = arguments.read(arguments.parser(__doc__)).program
    for check in CHECKS:
        check(program)
    for failure in failures:
        print(f"edges: {failure}")
    if not failures:
        print("edges: the program ends as docs/commands.md says")
    sys.exit(1 if failures else 0)


main()
