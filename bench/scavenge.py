#!/usr/bin/env python3
"""Times `scavenge` of large packs, beside `e2fsck -fy` of ext2 images with the same files, and counts the calls of the system.

The packs: that of an office (bench/office.py), 60 files of 8,000 bytes, every other one deleted; one of model 31 and one of two drives of
406 cylinders, each full of files of 100 bytes that no directory names: one more, and the pack is refused, since SysDir couldn't get an
entry for each; and one of model 31 whose SysDir fills half of it with free slots of one word, with 1,216 such files, which has to be
scavenged in less than a second. The images have half as many KiB
more, and the same files; where the pack has no entry for them, `debugfs` took their names away, so that they get one in lost+found.

A time is the median of the runs, of whole processes from their start to their end, the two programs in turn, each over a fresh copy of its
image, after one run that doesn't count. What the scavenge answers is compared with what was worked out by hand; afterwards `show` lists
what it listed before, and by the labels no hint is false (tools/packtools). The images stand in memory where there is /dev/shm.
"""
import collections
import os
import pathlib
import statistics
import subprocess
import sys
import tempfile
from functools import partial

sys.dont_write_bytecode = True
sys.path.append(str(pathlib.Path(__file__).resolve().parent.parent / "check"))
import arguments
import office
import packs
from scavenging import CLEAN_REMARK, surveyed
from timing import calls, machine, timed

CONTENT = bytes(range(100))
LIMIT = 1.0
# how many names of calls are told
TOLD = 4
# exit codes of e2fsck: nothing was wrong, and all is mended; and of a scavenge that is refused
MENDED, REFUSED = (0, 1), 7

# what is scavenged, its files, the report, the names and bytes of the files of its image, if there is one, and whether these lost their
# entries there
Case = collections.namedtuple("Case", "name files report contents is_lost")
HALF_ROOT = "model 31, half SysDir, 1,216 files without an entry"


def report(files, adopted=0):
    return b"scavenged: files %d, freed 0, bad 0, adopted %d\n" % (files, adopted)


def office_case(program, folder):
    """The pack of an office, as its session leaves it."""
    path, lines = folder / "office", office.made(packs.SERIAL) + office.deleted(office.NAMES[::2])
    path.write_bytes(packs.formatted(1, office.CYLINDERS, 1)[0])
    typed = office.text_of(line for line, _ in lines)
    subprocess.run([program, path, "boot"], input=typed, stdout=subprocess.DEVNULL, check=True)
    contents = dict(zip(office.NAMES[1::2], office.CONTENTS[1::2]))
    return Case("an office", [path.read_bytes()], report(2 + len(contents)), contents, False)


def nameless_case(name, drives, cylinders, count, root_pages=1, has_image=True):
    """A pack with so many files without an entry, and SysDir with so many pages: where it has more than one, of free slots of one word."""
    files = packs.formatted(drives, cylinders, 1)
    sectors, at = packs.sectors_of(b"".join(files)), surveyed(files).kinds.index("free")
    if root_pages > 1:
        entries = packs.slot(packs.SYS_DIR, b"SysDir.", 1) + packs.slot(packs.DESCRIPTOR, b"DiskDescriptor.", 3)
        slots = packs.free_slot(1) * (root_pages * packs.PAGE // 2 - 1 - len(entries) // 2)
        packs.put_linked(sectors, cylinders, packs.SYS_DIR, b"SysDir.", entries + slots, [1, 2, *range(at, at + root_pages - 1)])
        at += root_pages - 1
    names = [packs.file_name(n) for n in range(count)]
    for n, text in enumerate(names):
        packs.put_linked(sectors, cylinders, packs.ordinary(packs.SERIAL + n), text, CONTENT, [at + 2 * n, at + 2 * n + 1])
    contents = {text.decode()[:-1]: CONTENT for text in names} if has_image else {}
    return Case(name, packs.drive_files(sectors, drives, cylinders), report(2 + count, count), contents, True)


def full_case(program, folder, name, drives, cylinders, count):
    """A pack that is full of files without an entry: with one more it is refused, and can be scavenged with so many."""
    more = Alto(folder, program, nameless_case(name, drives, cylinders, count + 1, has_image=False))
    more.write_files()
    refused = subprocess.run(more.command(), stdout=subprocess.PIPE)
    assert refused.returncode == REFUSED and refused.stdout.startswith(b"pack full: "), "one more file is refused"
    return nameless_case(name, drives, cylinders, count)


class Mender:
    """A program that mends an image, each time a fresh copy of it."""

    def __init__(self, folder, name, contents):
        self.paths, self.contents = [folder / f"{name}{number}" for number in range(len(contents))], contents
        self.counts = folder / "counts"

    def write_files(self):
        for path, content in zip(self.paths, self.contents):
            with open(path, "wb") as file:
                file.write(content)
                file.flush()
                os.fsync(file.fileno())

    def run(self, ahead=()):
        """The time of a run, of which nothing is left to be synced before."""
        self.write_files()
        streams = {"stdin": subprocess.DEVNULL, "stdout": subprocess.PIPE, "stderr": subprocess.DEVNULL}
        time, shown = timed([*ahead, *self.command()], self.codes, **streams)
        self.compare(shown)
        return time

    def calls(self):
        """How many system calls of each name it makes."""
        return calls(self.run, self.counts)


class Alto(Mender):
    codes = (0,)

    def __init__(self, folder, program, case):
        super().__init__(folder, "drive", case.files)
        self.program, self.report = program, case.report

    def command(self, word="scavenge"):
        second = [word for path in self.paths[1:] for word in ("--second", path)]
        return [self.program, *second, self.paths[0], word]

    def compare(self, shown):
        assert shown == self.report, f"{shown}, and not {self.report}"

    def listed(self):
        return subprocess.run(self.command("show"), check=True, stdout=subprocess.PIPE).stdout

    def compare_left(self):
        """After a run `show` lists what it listed before, and by the labels no hint is false."""
        after = self.listed()
        survey = surveyed([path.read_bytes() for path in self.paths])
        for path, content in zip(self.paths, self.contents):
            path.write_bytes(content)
        assert self.listed() == after, "the same files are listed"
        assert not survey.false and list(survey.remarks())[1:] == [CLEAN_REMARK], "no hint is false"


class Fsck(Mender):
    codes = MENDED

    def __init__(self, folder, case):
        image, files, told = folder / "image", folder / "files", folder / "told"
        files.mkdir()
        for name, content in case.contents.items():
            (files / name).write_bytes(content)
        size = sum(map(len, case.files)) * 3 // 2 // 1024
        inodes = str(len(case.contents) + 64)
        options = ["-q", "-t", "ext2", "-b", "1024", "-I", "128", "-m", "0", "-N", inodes, "-d", files]
        subprocess.run(["mke2fs", *options, image, str(size)], check=True, stdout=subprocess.DEVNULL)
        if case.is_lost:
            told.write_text("".join(f"unlink {name}\n" for name in case.contents))
            subprocess.run(["debugfs", "-w", "-f", told, image], check=True, stdout=subprocess.DEVNULL, stderr=subprocess.DEVNULL)
        super().__init__(folder, "mended", [image.read_bytes()])
        self.found = b"Unattached inode" if case.is_lost else b""

    def command(self):
        return ["e2fsck", "-fy", *self.paths]

    def compare(self, shown):
        assert self.found in shown, "the files are found"

    def compare_left(self):
        subprocess.run(["e2fsck", "-fn", *self.paths], check=True, stdout=subprocess.DEVNULL, stderr=subprocess.DEVNULL)


def measured(menders, runs):
    """The median times of each program, and how many system calls of each name it makes."""
    times = [[mender.run() for mender in menders] for _ in range(runs + 1)][1:]
    for mender, column in zip(menders, zip(*times)):
        mender.compare_left()
        yield *(statistics.median(values) for values in zip(*column)), mender.calls()


def told(name, seconds, processor, counts):
    """A row: a program, the milliseconds of its runs and of the processor, and its system calls, in all and by the most frequent names."""
    names = "" if counts is None else ", ".join(f"{count:,} {call}" for call, count in counts.most_common(TOLD))
    return f"  {name:<8}{seconds * 1000:>10.1f} ms{processor * 1000:>10.1f} ms{'' if counts is None else f'{counts.total():>10,}'}  {names}"


def measure(program, folder, case, runs):
    """Prints the rows of a case."""
    menders = {"alto": Alto(folder, program, case)}
    if case.contents:
        menders["e2fsck"] = Fsck(folder, case)
    rows = list(measured(list(menders.values()), runs))
    print(f"{case.name}, {sum(map(len, case.files)):,} bytes: time, processor, calls of the system")
    for name, row in zip(menders, rows):
        print(told(name, *row), flush=True)
    if len(rows) == 2:
        print(f"  alto to e2fsck: {rows[0][0] / rows[1][0]:.2f}")
    assert case.name != HALF_ROOT or rows[0][0] < LIMIT, "a SysDir of free slots of one word takes too long"


def main():
    options = arguments.parser(__doc__)
    options.add_argument("--runs", type=arguments.positive, default=11, metavar="N", help="how many runs of each pack (default: 11)")
    options.add_argument("--folder", metavar="PATH", help=f"where the images stand (default: {office.IN_MEMORY}, if it is there)")
    options = arguments.read(options)
    where = options.folder or (office.IN_MEMORY if office.IN_MEMORY.is_dir() else None)
    print(machine())
    cases = [
        partial(office_case, options.program),
        lambda folder: full_case(options.program, folder, "model 31, full: 2,382 files without an entry", 1, 203, 2_382),
        lambda folder: full_case(options.program, folder, "two drives of 406 cylinders, full: 9,535 files without an entry", 2, 406, 9_535),
        lambda _: nameless_case(HALF_ROOT, 1, 203, 1_216, 2_430, has_image=False),
    ]
    for make in cases:
        with tempfile.TemporaryDirectory(dir=where) as folder:
            measure(options.program, pathlib.Path(folder), make(pathlib.Path(folder)), options.runs)
    print(f"the load was {os.getloadavg()[0]:.1f}")


if __name__ == "__main__":
    main()
