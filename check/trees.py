#!/usr/bin/env python3
"""Run by the gate: copies folders into packs and out of them by `tools/altocp -r -p --names`, and compares names, bytes and dates.

Random trees with any names, of folders within folders, go into a pack and come out again: `diff -r` finds nothing, and dates agree to the
second. Then come what is refused before anything is copied, names without spelling, wildcards, versions and dates; the pack stays as it was
where anything is wrong. What is wanted was worked out by hand from docs/tools.md.
"""
import os
import random
import subprocess
import sys
import tempfile

sys.dont_write_bytecode = True
import arguments
from copies import FILLS, Place, failures

sys.path.append(str(arguments.TOP / "tools"))
from packtools import names

SECONDS = 20
CYLINDERS, MOST_FILES, MOST_BYTES = 20, 16, 3_000
# what names are made of, and the depths of folders
PIECES = ["a", "B", "File", "under_score", " ", "+", "..", ".", "!", "!2", "$1", ":", ">", "-", "\u00e4", "\u6f22", "\n", "'"]
PIECES += ["*", "?", "#", "\x7f", "\udcff"]
DEPTHS = [0, 0, 0, 1, 1, 2]
# moments of host files: 1970 to 2037
LATEST = 2_117_000_000
CASE = "has the same name except for the case of letters, which a pack doesn't tell apart"


class Tree:
    """A random tree in a folder: files by their paths."""

    def __init__(self, chance, folder):
        self.chance, self.folder, self.files, self.spelled = chance, folder, {}, set()
        (folder / "src").mkdir()
        for _ in range(chance.randint(1, MOST_FILES)):
            self.add()

    def name(self):
        """Any name of the host."""
        text = ""
        while text in ("", ".", ".."):
            text = "".join(self.chance.choices(PIECES, k=self.chance.randint(1, 3)))
        return text

    def add(self):
        """One more file, if its path can be spelled and no other has its name, whatever the case of its letters."""
        path = "/".join(self.name() for _ in range(1 + self.chance.choice(DEPTHS)))
        # a folder's name stands for a file of it in the names of deeper ones
        spelled = names.spell(path).lower()
        heads = {path[:at] for at, it in enumerate(path) if it == "/"}
        is_taken = any(path == it or it.startswith(f"{path}/") or it in heads for it in self.files)
        place = self.folder / "src" / path
        if len(spelled) > 38 or spelled in self.spelled or is_taken:
            return
        place.parent.mkdir(parents=True, exist_ok=True)
        place.write_bytes(self.chance.randbytes(self.chance.randrange(MOST_BYTES)))
        moment = self.chance.randrange(LATEST)
        os.utime(place, (moment, moment + self.chance.random()))
        self.files[path] = moment
        self.spelled.add(spelled)


def check_random(program, seed, count):
    """So many trees go in and come out."""
    for number in range(count):
        with tempfile.TemporaryDirectory() as folder:
            what = f"seed {seed}, tree {number}"
            place = Place(program, what, folder, cylinders=CYLINDERS)
            tree = Tree(random.Random(f"{seed} {number}"), place.folder)
            for words in (["src", "pack:"], ["pack:src>", "back"]):
                ended = run(place, "-r", "-p", "--names", "--verify", *words)
                place.require(f"{words}", (ended.returncode, ended.stderr), (0, b""))
            compared = subprocess.run(["diff", "-r", "src", "back/src"], cwd=folder, capture_output=True, timeout=SECONDS)
            place.require("diff -r", (compared.returncode, compared.stdout), (0, b""))
            for path, moment in tree.files.items():
                back = place.folder / "back" / "src" / path
                place.require(f"the date of {path!r}", int(back.stat().st_mtime) if back.exists() else None, moment)


def run(place, *words):
    command = [sys.executable, "-S", "-B", arguments.TOP / "tools" / "altocp", "--program", place.program, *words]
    return subprocess.run(command, cwd=place.folder, capture_output=True, timeout=SECONDS)


def refused(place, *words, told):
    """Nothing is copied: what is wrong is told, and the pack stays as it was."""
    before = (place.folder / "pack").read_bytes()
    place.copy(*words, told=f"{told}|nothing was copied")
    place.require(f"{words}: the pack", (place.folder / "pack").read_bytes() == before, True)


def check_refusals(place):
    place.file("src/under_score")
    place.file("src/sub/deep")
    bad = "'under_score' is no name on a pack: it has '_', and may have ASCII letters, digits and + - . $"
    refused(place, "-r", "src", "pack:", told=f"src/under_score: {bad}|src/sub/deep: is in a folder within a folder: --names spells its path")
    place.file("two/Makefile")
    place.file("two/makefile")
    refused(place, "-r", "-n", "two", "pack:", told=f"two/Makefile: two/makefile {CASE}")
    refused(place, "-r", "--names", "two", "pack:", told=f"two/Makefile: two/makefile {CASE}")
    for name in ("Src/A", "x_39/" + "a" * 36 + "_", "x_38/" + "a" * 35 + "_"):
        place.file(name)
    refused(place, "-r", "--names", "src", "Src", "pack:", told=f"src: Src {CASE}")
    refused(place, "-r", "--names", "x_39", "pack:", told=f"x_39/{'a' * 36}_: spelled '{'a' * 36}+5F' it has 39 characters, and may have 38")
    place.copy("-r", "-n", "--names", "x_38", "pack:", said=f"would be copied: x_38/{'a' * 35}_ -> pack:x+5F38>{'a' * 35}+5F, 5 bytes")
    (place.folder / "src" / "link").symlink_to("sub")
    refused(place, "-r", "--names", "src", "pack:", told="src/link: is a link to a folder, and only files and folders are copied")
    (place.folder / "src" / "link").unlink()
    refused(place, "-r", "src/sub", "nowhere", "pack:", told="nowhere: No such file or directory")
    for name, length in (("full/fits", FILLS - 3 * 512), ("full/more", 1)):
        place.file(name, bytes(length))
    refused(place, "-r", "full", "pack:", told="pack: full: needed 45 free 43")
    os.utime(place.folder / "src" / "under_score", (2**32, 2**32))
    late = "src/under_score: its date, in about 2106, can't be kept: dates on a pack are of 1901 to 2037"
    refused(place, "-r", "-p", "--names", "src", "pack:", told=late)
    place.copy("-p", "src/under_score", "pack:A", told=f"src/under_score: pack:A: {late.partition(': ')[2]}")
    place.type("make sub", "mkdir D", "make D>A")
    refused(place, "-r", "src/sub", "pack:", told="pack: sub: not a directory")
    place.file("D")
    refused(place, "-r", "D", "src/sub", "pack:", told="pack: sub: not a directory|D: pack:D: is a directory")
    place.shows("SysDir>D. directory", "SysDir>sub. length 0", "D>A. length 0")


def check_folders(place):
    """Names that can stand without spelling, empty folders, and what is there already."""
    for name in ("src/A", "src/B.c", "other"):
        place.file(name)
    (place.folder / "empty").mkdir()
    said = "src/A -> pack:src>A, 5 bytes|src/B.c -> pack:src>B.c, 5 bytes|other -> pack:other, 5 bytes"
    place.copy("-r", "src", "empty", "other", "pack:", said=said)
    place.copy("-r", "src/.", "pack:src>", said="src/./A -> pack:src>A!2, 5 bytes|src/./B.c -> pack:src>B.c!2, 5 bytes")
    place.copy("-r", "-f", "src", "pack:", said="src/A -> pack:src>A!2, 5 bytes|src/B.c -> pack:src>B.c!2, 5 bytes")
    place.copy("-r", "src", "pack:New", said="src/A -> pack:New>A, 5 bytes|src/B.c -> pack:New>B.c, 5 bytes")
    place.type("settime 2177452800", "append src>A 46")
    said = "pack:src>A!2 -> out/src/A, 6 bytes|pack:src>B.c!2 -> out/src/B.c, 5 bytes"
    place.copy("-r", "-p", "pack:src>", "out", said=said)
    place.require("the date", (place.folder / "out" / "src" / "A").stat().st_mtime, 0)
    told = "pack:src>A: out/src/A is there: -f overwrites it|pack:src>B.c: out/src/B.c is there: -f overwrites it"
    refused(place, "-r", "pack:src>", "out", told=told)
    said = "pack:New>A -> all/New/A, 5 bytes|pack:New>B.c -> all/New/B.c, 5 bytes|pack:other -> all/other, 5 bytes|"
    place.copy("-r", "pack:", "all", said=said + said_of("all"))
    place.require("an empty folder", (place.folder / "all" / "empty").is_dir(), True)


def said_of(folder):
    return f"pack:src>A!2 -> {folder}/src/A, 6 bytes|pack:src>B.c!2 -> {folder}/src/B.c, 5 bytes"


def check_wildcards(place):
    place.type("mkdir D", "make A1", "make A1", "append A1 41", "make A2", "make B", "make D>A3", "make D>x")
    (place.folder / "out").mkdir()
    place.copy("pack:a*", "out", said="pack:A1!2 -> out/A1, 1 bytes|pack:A2 -> out/A2, 0 bytes")
    place.copy("pack:D>?", "pack:B", "out", said="pack:D>x -> out/x, 0 bytes|pack:B -> out/B, 0 bytes")
    copies = ("A1 -> new/A1, 1 bytes", "A2 -> new/A2, 0 bytes", "B -> new/B, 0 bytes")
    place.copy("-n", "pack:*", "new", said="|".join(f"would be copied: pack:{it}" for it in copies))
    refused(place, "-n", "out", "pack:", told="out: is a folder: -r copies it")
    refused(place, "-n", "pack:D>", "out", told="pack:D>: is a directory: -r copies its files")
    place.copy("-r", "pack:D>", "-", told="-: is no folder")
    place.copy("pack:Z*", "out", told="pack:Z*: no file matches")
    place.copy("pack:E>*", "out", told="no such name")
    place.type("make C++")
    place.type("make +2E+2E+2Fout")
    refused(place, "-r", "--names", "pack:+2E+2E+2Fout", "new", told="pack:+2E+2E+2Fout: spells '../out', which is no path in a folder")
    place.copy("--names", "pack:C++", "out", said="pack:C++ -> out/C++, 0 bytes")


CHECKS = [
    (check_refusals, "what is refused before anything is copied"),
    (check_folders, "folders and directories"),
    (check_wildcards, "wildcards, and names that lead out of a folder"),
]


def main():
    options = arguments.seeded(arguments.parser(__doc__))
    options.add_argument("--trees", type=arguments.positive, default=30, metavar="N", help="how many (default: 30)")
    options = arguments.read(options)
    for check, sentence in CHECKS:
        with tempfile.TemporaryDirectory() as folder:
            check(Place(options.program, sentence, folder))
    check_random(options.program, options.seed, options.trees)
    passed = f"{options.trees} random trees go in and out as they were (seed {options.seed})"
    arguments.end("trees", failures, f"{passed}, and {len(CHECKS)} places are as docs/tools.md says")


if __name__ == "__main__":
    main()
