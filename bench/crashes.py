"""Sessions over a pack and scavenges of it that stop midway: what they may leave, by what they showed, and what they left."""
import copy
import pathlib
import struct
import subprocess
import sys
import time

sys.path.append(str(pathlib.Path(__file__).resolve().parent.parent / "check"))
import arguments
import packs
import scavenging
import sessions
from scavenging import Mending, surveyed

sys.path.append(str(arguments.TOP / "tools"))
from packtools.pack import DESCRIPTOR, SYS_DIR, read_pack

NOT_CLEAN = (2, b"pack not clean: mark 2\n", b"")


def make_library(folder, source):
    """Makes a library of this C text, which the program loads before the C library, and answers its path."""
    made = folder / "before.so"
    subprocess.run(["cc", "-shared", "-fPIC", "-O2", "-x", "c", "-", "-o", made], input=source.encode(), check=True)
    return made


def state_of(plain):
    return plain.listing(), plain.contents(), plain.free()


def states(plain, lines, replies, shown):
    """The states that a pack may have when so much was shown: after each prefix of the operations of the lines that aren't acknowledged.
    All lines are typed ahead, so replies may be held back while further ones are obeyed."""
    plain, acknowledged = copy.deepcopy(plain), acknowledged_lines(replies, shown)
    plain.begin()
    for line in lines[:acknowledged]:
        plain.obey(line)
    found = [state_of(plain)]
    for number in range(acknowledged, len(replies)):
        for operation in plain.answer(lines[number])[1]:
            operation()
            found.append(state_of(plain))
        # a reply is shown after its line's operations
        if number == acknowledged and shown != b"".join(replies[:acknowledged]):
            found = found[-1:]
    return found


def acknowledged_lines(replies, shown):
    count = 0
    while count < len(replies) and shown.startswith(b"".join(replies[: count + 1])):
        count += 1
    return count


def contents(files):
    """What `Plain.contents` tells, by the labels of a pack."""
    pack, told = read_pack(*files), {}
    for file, number in pack.places:
        if number == 0 and file not in (SYS_DIR, DESCRIPTOR):
            leader = pack.value(pack.places[file, number])
            name = leader[13 : 13 + leader[12]].decode()
            data = b"".join(pack.value(at, pack.labels[at].count) for at in pack.data_pages(file))
            told[file.serial()] = (name, *struct.unpack(">3I", leader[:12]), None if file.is_directory() else data)
    return told


class Work:
    """What the program does to a pack, which was done whole once: the pack files before it and after it."""

    def __init__(self, pack, words, keys=b""):
        self.pack, self.words, self.keys = pack, words, keys
        self.before = self.read()
        begun = time.perf_counter()
        self.ended = pack.run(words, keys)
        self.seconds = time.perf_counter() - begun
        self.after = self.read()

    def read(self):
        return [file.read_bytes() for file in self.pack.files]

    def write(self, contents):
        """Writes the files sector by sector: memory of a file that is written at once may come in larger pieces than pages."""
        for file, content in zip(self.pack.files, contents):
            with open(file, "wb", buffering=0) as out:
                for at in range(0, len(content), packs.SECTOR):
                    out.write(content[at : at + packs.SECTOR])


class Session(Work):
    """A session of typed lines."""

    def __init__(self, pack, plain, lines, replies, keys):
        super().__init__(pack, ["boot"], keys)
        self.plain, self.lines, self.replies = plain, lines, replies
        assert self.ended == (0, b"".join(replies), b""), sessions.difference(lines, replies, self.ended[1]) or self.ended

    def check(self, shown):
        """What a session left that stopped after it showed this: how many operations of lines that aren't acknowledged, in a word."""
        assert b"".join(self.replies).startswith(shown), f"shown is {shown!r}"
        wanted = states(self.plain, self.lines, self.replies, shown)
        code, listed, error = self.pack.run(["show"])
        assert (code, error) == (0, b""), f"show: {code}, {error!r}"
        found = listed, contents(self.pack.files)
        prefixes = [number for number, state in enumerate(wanted) if state[:2] == found]
        if not prefixes:
            others = {serial: it for serial, it in found[1].items() if all(state[1].get(serial) != it for state in wanted)}
            told = f"{listed!r}, and not one of {[state[0] for state in wanted]}; of none of them are {others}"
            return self.otherwise(acknowledged_lines(self.replies, shown), told)
        entered = self.pack.run(["boot"], b"free\n")
        clean = [(0, b"%d pages free\n" % wanted[number][2], b"") for number in prefixes]
        assert entered == NOT_CLEAN or entered in clean, f"boot: {entered}, and not one of {clean}"
        return "none" if prefixes[0] == 0 else "all" if prefixes[-1] == len(wanted) - 1 else "some"

    def otherwise(self, acknowledged, told):
        """The pack is as after none of the prefixes."""
        raise AssertionError(f"stopped after {acknowledged} lines: {told}")


class Scavenge(Work):
    """A scavenge of a damaged pack, which may be refused."""

    def __init__(self, pack):
        self.listed = pack.run(["show"])
        super().__init__(pack, ["scavenge"])
        self.mending = Mending(surveyed(self.before))
        wanted = (*self.mending.answer(), b"")
        assert self.ended == wanted, f"scavenge: {self.ended}, and not {wanted}"

    def check(self):
        """How far a scavenge came that stopped, in a word. What it left shows the same, and is scavenged as any pack is; it isn't entered,
        unless it carries a page twice."""
        left = self.read()
        listed, entered = self.pack.run(["show"]), self.pack.run(["boot"])
        assert listed == self.listed, f"show: {listed}, and {self.listed} before"
        if left in (self.before, self.after):
            return "none" if left == self.before else "all"
        assert self.read() == left, "boot writes, though nothing is typed"
        mending = Mending(surveyed(left))
        assert entered[0] == NOT_CLEAN[0] or mending.counts["copy"], f"boot: {entered}"
        wanted, ended = (*mending.answer(), b""), self.pack.run(["scavenge"])
        assert ended == wanted, f"scavenged again: {ended}, and not {wanted}"
        free = mending.free(), self.mending.free()
        assert free[0] == free[1], f"scavenged again: {free[0]} free sectors, and not {free[1]}"
        before, after = (scavenging.contents(it.survey) for it in (self.mending, mending))
        assert before == after, "other files, names, dates or bytes"
        wrong = next(scavenging.faults(mending, surveyed(self.read())), None)
        assert wrong is None, f"scavenged again: {wrong}"
        return "some"
