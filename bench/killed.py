#!/usr/bin/env python3
"""Kills the program at random moments of random typed sessions, and compares the pack with what was acknowledged; and scavenges.

The sessions are those of check/sessions.py. Each is obeyed whole once, and then killed several times from the same pack. What was shown
by then has to be a prefix of its replies. The pack, read as a scavenge would mend it, has to have the names, dates and bytes after all
operations of the acknowledged lines and a prefix of those of the next one, by check/plain.py: `show` lists the names, and labels tell the
rest (tools/packtools). Either the pack isn't entered, as its mark is open, or it has the free pages of that prefix.

After each session the pack is damaged as by check/damaged.py, and scavenges of it are killed. What is left shows what it showed before, and
isn't entered, unless it carries a page twice: then a hint may lead to a copy of DiskDescriptor's page whose mark is clean. Scavenged again it
is as any pack then is (check/scavenging.py), with the same files and as many free pages. Besides, each scavenge is stopped ahead of 40 of its
write calls, or of each, by a library that is loaded before the C library, made by `cc`.

Linux looks for a signal that kills between the pages of memory that a write call fills. So a record that lies over a multiple of 4,096
bytes of a pack file may be torn there, its front new and its rest old. If a pack is as after none of these prefixes, the session is run
again up to the line that was killed, and through it. Where there is such a record whose front is as that line leaves it, and whose rest
isn't, the kill is counted apart; it is trusted that there is no other. So it is of a scavenge, by what the whole one leaves. The seed
makes the same sessions and damage again, and not the same kills.
"""
import collections
import copy
import os
import pathlib
import random
import subprocess
import sys
import tempfile
import time

sys.dont_write_bytecode = True
from crashes import Scavenge, Session, acknowledged_lines, arguments, make_library, packs, sessions
from damaged import damaged

MEMORY_PAGE = 4_096
# where the header, the label and the value of a sector begin, and the sector ends
RECORDS = [0, 4, packs.VALUE_AT, packs.SECTOR]
KILLED = -9
# of one session, and of one scavenge
KILLS, STOPS = 5, 40
# what is killed, and what is told of it
WORKS = {"sessions": "the next line's operations", "scavenges": "the record writes", "stopped scavenges": "the record writes"}
# kills a process ahead of the write call to a file of its own with the number STOPPED, counted from 1, and tells how many there were at the
# end of one that isn't killed
LIBRARY = r"""
#define _GNU_SOURCE
#include <fcntl.h>
#include <signal.h>
#include <stdio.h>
#include <stdlib.h>
#include <sys/syscall.h>
#include <unistd.h>

static long calls;

ssize_t pwrite(int file, const void *bytes, size_t count, off_t place) {
    if (++calls == atol(getenv("STOPPED"))) kill(getpid(), SIGKILL);
    return syscall(SYS_pwrite64, file, bytes, count, place);
}

__attribute__((destructor)) static void tell(void) {
    int told = open(getenv("STOPPED_TOLD"), O_CREAT | O_WRONLY | O_TRUNC, 0644);
    dprintf(told, "%ld", calls);
}
"""


def records_over_pages(file):
    """The records of a pack file that lie over a multiple of 4,096 bytes: where each begins, that multiple, and where it ends."""
    for middle in range(MEMORY_PAGE, len(file), MEMORY_PAGE):
        sector = middle // packs.SECTOR * packs.SECTOR
        start, end = next((sector + one, sector + two) for one, two in zip(RECORDS, RECORDS[1:]) if middle < sector + two)
        if start < middle:
            yield start, middle, end


def kills(work):
    """What was shown each time that the work was begun anew and killed after some time, and hadn't ended before."""
    for _ in range(KILLS):
        work.write(work.before)
        with tempfile.TemporaryFile() as typed, tempfile.TemporaryFile() as shown:
            typed.write(work.keys)
            typed.seek(0)
            process = subprocess.Popen([*work.pack.command, *work.words], stdin=typed, stdout=shown)
            time.sleep(random.uniform(0, work.seconds))
            process.kill()
            if process.wait() == KILLED:
                shown.seek(0)
                yield shown.read()


class Stopper:
    """The library, and the file by which it tells how many write calls there were."""

    def __init__(self, folder):
        self.library, self.told = make_library(folder, LIBRARY), folder / "told"

    def code(self, work, number):
        """How the work ends over the pack before it, where it is stopped ahead of this write call: its code."""
        work.write(work.before)
        variables = {**os.environ, "LD_PRELOAD": self.library, "STOPPED": str(number), "STOPPED_TOLD": self.told}
        return subprocess.run([*work.pack.command, *work.words], input=work.keys, capture_output=True, env=variables).returncode

    def stops(self, work, chance):
        """Each time the work stands stopped ahead of another write call."""
        assert self.code(work, 0) == work.ended[0], "the work ends as without the library"
        calls = range(1, int(self.told.read_text()) + 1)
        for number in chance.sample(calls, min(len(calls), STOPS)):
            assert self.code(work, number) == KILLED, f"there is a write call {number}"
            yield number


def is_torn(before, after, left):
    """Whether the front of a record over a multiple of 4,096 bytes is as the work leaves it, and its rest isn't."""
    for old, new, found in zip(before, after, left):
        for start, middle, end in records_over_pages(found):
            is_front_new = old[start:middle] != new[start:middle] == found[start:middle]
            if is_front_new and found[middle:end] != new[middle:end]:
                return True
    return False


class KilledSession(Session):
    """A session that is killed."""

    def otherwise(self, acknowledged, told):
        """No prefix, unless a line after the acknowledged ones tore a record. DiskDescriptor, which a session's end writes, lies over no
        multiple of 4,096."""
        left = self.read()
        for number in range(acknowledged, len(self.lines)):
            if is_torn(self.image(number), self.image(number + 1), left):
                return "torn"
        raise AssertionError(f"killed after {acknowledged} lines: {told}")

    def image(self, count):
        """The files after a session of so many lines."""
        self.write(self.before)
        self.pack.run(["boot"], b"".join(line + b"\n" for line in self.lines[:count]))
        return self.read()


class KilledScavenge(Scavenge):
    """A scavenge that is killed."""

    def check(self):
        left = self.read()
        try:
            return super().check()
        except AssertionError:
            if not is_torn(self.before, self.after, left):
                raise
            return "torn"


def killed(stopper, history, pack):
    """The sessions of a history, each killed several times, and a scavenge after each: for each kill what was killed, how many lines were
    acknowledged, and what was left."""
    plain, chance = copy.deepcopy(history.plain), random.Random(history.title)
    for lines, replies in history.sessions():
        session = KilledSession(pack, plain, lines, replies, history.keys(lines))
        for shown in kills(session):
            yield "sessions", acknowledged_lines(replies, shown), session.check(shown)
        damage = damaged(chance, session.after)
        history.typed += [f"damage {it}" for it in damage.done]
        session.write(damage.files())
        scavenge = KilledScavenge(pack)
        for shown in kills(scavenge):
            assert scavenge.ended[1].startswith(shown), f"shown is {shown!r}"
            yield "scavenges", 0, scavenge.check()
        for _ in stopper.stops(scavenge, chance):
            yield "stopped scavenges", 0, scavenge.check()
        session.write(session.after)
        plain = copy.deepcopy(history.plain)


def told_if_wrong(program, stopper, history):
    """The same in a folder of its own. What is wrong is printed with all that was typed, and ends the script."""
    with tempfile.TemporaryDirectory() as folder:
        try:
            yield from killed(stopper, history, history.pack(program, pathlib.Path(folder)))
        except AssertionError as wrong:
            history.tell(wrong)
            sys.exit(1)


def main():
    options = arguments.seeded(arguments.parser(__doc__))
    options.add_argument("--runs", type=arguments.positive, default=500, metavar="N", help="how many kills at least (default: 500)")
    options = arguments.read(options)
    print(f"seed {options.seed}", flush=True)
    counts, number, acknowledged = {work: collections.Counter() for work in WORKS}, 0, []
    with tempfile.TemporaryDirectory() as folder:
        stopper = Stopper(pathlib.Path(folder))
        while counts["sessions"].total() < options.runs:
            number += 1
            for work, lines, state in told_if_wrong(options.program, stopper, sessions.History(options.seed, number)):
                counts[work][state] += 1
                acknowledged.append(lines)
    for work, of in WORKS.items():
        found = counts[work]
        print(f"{work} killed {found.total()} times, with a record torn at a multiple of 4,096 {found['torn']} times")
        print(f"  of {of} {found['none']} times none, {found['some']} times some and {found['all']} times all were done")
    print(f"acknowledged were {sum(acknowledged)} lines, at most {max(acknowledged)} in a session")


main()
