#!/usr/bin/env python3
"""Times `show` over four kinds of packs of 2, 20 and 203 cylinders, and `cp` of the same files in the same run.

The kinds, by the files that they have at 203 cylinders, and at the others in proportion:
- 200 files of 10,000 bytes, and a SysDir with an entry of each;
- 2,000 files without an entry whose leaders have one name;
- 200 such files beside a SysDir that fills the other sectors with free slots of one word;
- 4,870 files without an entry whose leaders have 200 names of 38 characters in turn. Of these, 40 at a time share their suffixes from
  10 on, and all of them those from 100 on.

Each listing is compared with the one that these files must have. A time is the median of the runs, of whole processes from their
start to their end. Of the processor's time that of `show` over a pack of 2 cylinders without files, in the same run, is taken off: it
is the start's, and most of the time at 2 cylinders. What is left mustn't grow from 20 to 203 cylinders by more than 2.5 times as much
as n log n of the sectors does. n log n grows 14 times there, and so has slack, but n squared 103 times.
"""
import fcntl
import math
import os
import pathlib
import select
import statistics
import subprocess
import sys
import tempfile

sys.dont_write_bytecode = True
sys.path.append(str(pathlib.Path(__file__).resolve().parent.parent / "check"))
import arguments
import packs
from packs import SERIAL, SYS_DIR, ordinary
from timing import most_memory, timed

SMALLEST, MIDDLE, MODEL_31 = 2, 20, 203
SLACK = 2.5
PIPE = 4_096
NAME_CHARACTERS = b"abcdefghijklmnopqrstuvwxyz0123456789+-.$"


def free_slots(cylinders, files):
    """Free slots of one word, as many as SysDir can have beside its leader and so many others."""
    pages = cylinders * 24 - 2 - files
    return packs.free_slot(1) * (pages * packs.PAGE // 2 - 1)


def suffixed(text, number):
    """The name with a number in it, of at most 39 characters."""
    suffix = b"$%d." % number
    return text[: 39 - len(suffix)] + suffix


def given_names(leaders):
    """The names that nameless files get, whose leaders have these: each suffix of each is asked for, from the first one on."""
    taken = set()
    for text in leaders:
        number, given = 0, text
        while given.lower() in taken:
            number += 1
            given = suffixed(text, number)
        taken.add(given.lower())
        yield given


def nameless_pack(cylinders, leaders, given, slots=b""):
    """A pack with leader pages of such names, a SysDir where slots are given, and the listing of its files by the names given to them."""
    sectors = packs.free_sectors(cylinders)
    first = packs.put_file(sectors, 1, SYS_DIR, b"SysDir.", slots) if slots else 1
    for n, text in enumerate(leaders):
        packs.put_page(sectors, first + n, ordinary(SERIAL + n), 0, packs.leader(text))
    lines = [b"SysDir>" + text + b" length 0\n" for text in sorted(given, key=bytes.lower)]
    return b"".join(sectors), b"".join(lines) + b"%d files\n" % len(leaders)


def one_name(cylinders, files, slots=b""):
    """A pack of files of the name `File.` without an entry."""
    given = [b"File."] + [suffixed(b"File.", k) for k in range(1, files)]
    return nameless_pack(cylinders, [b"File."] * files, given, slots)


def one_name_and_free_slots(cylinders, files):
    return one_name(cylinders, files, free_slots(cylinders, files))


def names_alike(cylinders, files):
    """A pack of files without an entry: their names differ in their characters 35 and 36 alone, and are as many as cylinders, 200 at
    most."""
    names = [b"N" * 34 + bytes([first, second]) + b"N." for first in NAME_CHARACTERS[:5] for second in NAME_CHARACTERS][:cylinders]
    leaders = [names[n % len(names)] for n in range(files)]
    return nameless_pack(cylinders, leaders, given_names(leaders))


# how a pack is made, what its files are, and their number for each number of cylinders
KINDS = [
    (packs.full_pack, "files of 10,000 bytes", {SMALLEST: 1, MIDDLE: 19, MODEL_31: 200}),
    (one_name, "files of one name without an entry", {SMALLEST: 20, MIDDLE: 200, MODEL_31: 2_000}),
    (one_name_and_free_slots, "such files and free slots of one word", {SMALLEST: 2, MIDDLE: 20, MODEL_31: 200}),
    (names_alike, "files of names alike without an entry", {SMALLEST: 46, MIDDLE: 478, MODEL_31: 4_870}),
]


def listed(command, listing):
    """The time of a whole process. It has to print this listing."""
    time, shown = timed(command, stdin=subprocess.DEVNULL, stdout=subprocess.PIPE)
    assert shown == listing, "the listing is that of the files"
    return time


def memory_of(command, listing):
    """The most memory in bytes that a process had until its first byte was printed. None where it can't be measured.

    The pipe holds no more than 4,096 bytes, so the process waits in its write call while its status is read, if its listing is longer.
    """
    if len(listing) <= PIPE:
        return None
    reading, writing = os.pipe()
    fcntl.fcntl(writing, fcntl.F_SETPIPE_SZ, PIPE)
    with subprocess.Popen(command, stdin=subprocess.DEVNULL, stdout=writing) as process, open(reading, "rb") as output:
        os.close(writing)
        select.select([output], [], [])
        most = most_memory(process)
        output.read()
    return None if most is None else most * 1024


def measure(program, folder, runs, what, content, listing, bounded=False):
    """Prints the times of `show` over this pack, and of `cp` of it, and answers the seconds of the processor without those of the
    start. Where they are bounded `show` takes less than 5 times as long, and memory of 3 times the pack at most."""
    file, empty, copy_to = (pathlib.Path(folder) / name for name in ("pack", "empty", "copy"))
    file.write_bytes(content)
    empty.write_bytes(b"".join(packs.free_sectors(SMALLEST)))
    starts, shows, copies = [], [], []
    for _ in range(runs):
        starts.append(listed([program, empty, "show"], b"0 files\n"))
        shows.append(listed([program, file, "show"], listing))
        copies.append(timed(["cp", file, copy_to])[0])
    assert file.read_bytes() == content, "nothing is written"
    show, copy = (statistics.median(time.seconds for time in times) for times in (shows, copies))
    used, start = (statistics.median(time.processor for time in times) for times in (shows, starts))
    print(f"{what}, {len(content):,} bytes: show {show * 1000:.1f} ms, cp {copy * 1000:.1f} ms, {show / copy:.1f} times")
    assert not bounded or show < 5 * copy, "show is slower than 5 times cp"
    memory = memory_of([program, file, "show"], listing)
    if memory is not None:
        print(f"  most memory {memory:,} bytes, {memory / len(content):.2f} times the pack")
    assert not bounded or memory is not None, "the memory of show can be measured"
    assert not bounded or memory <= 3 * len(content), "show takes more memory than 3 times the pack"
    return used - start


def steps(cylinders):
    """n log n to the base 2, with n the sectors."""
    sectors = cylinders * 24
    return sectors * math.log2(sectors)


def main():
    options = arguments.parser(__doc__)
    options.add_argument("--runs", type=arguments.positive, default=21, metavar="N", help="how many runs of each pack (default: 21)")
    options = arguments.read(options)
    growth = steps(MODEL_31) / steps(MIDDLE)
    with tempfile.TemporaryDirectory() as folder:
        for make, kind, sizes in KINDS:
            used = {}
            for cylinders, files in sizes.items():
                what, bounded = f"{cylinders} cylinders, {files:,} {kind}", make is packs.full_pack and cylinders == MODEL_31
                used[cylinders] = measure(options.program, folder, options.runs, what, *make(cylinders, files), bounded)
                each = used[cylinders] / steps(cylinders)
                print(f"  of the processor {used[cylinders] * 1000:.2f} ms beyond the start, {each * 1e9:.0f} ns for each of n log n")
            assert used[MIDDLE] > 0, "the time of 20 cylinders can be told from the start's"
            grown = used[MODEL_31] / used[MIDDLE]
            print(f"  from 20 to 203 cylinders {grown:.1f} times as much, where n log n is {growth:.1f} times as much")
            assert grown < SLACK * growth, "show grows faster than n log n"


if __name__ == "__main__":
    main()
