#!/usr/bin/env python3
"""Refuses the program one allocation after another of random typed sessions, and compares the pack with what was acknowledged; and of
scavenges.

The sessions are those of check/sessions.py. Each is obeyed whole once, and then again and again from the same pack: the first time the
first allocation is refused, then the second one, and so on until none is left to refuse. Either the session does what it did before,
as one of a hint that isn't noted does, or it ends with 6 after whole replies, and says nothing more; then the pack has what it has to
have after a session that was killed there (bench/killed.py). `show` of that pack is refused each of its allocations too: it lists all or
nothing. So is a scavenge of that pack once it was damaged as by check/damaged.py: it does what it did before, or ends with 6, says nothing,
and leaves what one leaves that was killed there.

A library that is loaded before the C library stands between, made by `cc`. The seed makes the same sessions again.
"""
import collections
import copy
import os
import pathlib
import random
import subprocess
import sys
import tempfile

sys.dont_write_bytecode = True
from crashes import Scavenge, Session, Work, acknowledged_lines, arguments, make_library, sessions
from damaged import damaged

NO_MEMORY = 6
# refuses the allocation with the number REFUSED, counted from 1, and then makes the file REFUSED_TOLD
LIBRARY = r"""
#include <errno.h>
#include <fcntl.h>
#include <stdlib.h>
#include <unistd.h>

extern void *__libc_malloc(size_t);
extern void *__libc_realloc(void *, size_t);
static long left = -1;

static int refused(void) {
    if (left == -1) left = getenv("REFUSED") ? atol(getenv("REFUSED")) : 0;
    if (left == 0 || --left > 0) return 0;
    close(open(getenv("REFUSED_TOLD"), O_CREAT | O_WRONLY, 0644));
    errno = ENOMEM;
    return 1;
}

void *malloc(size_t bytes) { return refused() ? NULL : __libc_malloc(bytes); }
void *realloc(void *old, size_t bytes) { return refused() ? NULL : __libc_realloc(old, bytes); }
"""


class Refuser:
    """The library, and the file by which it tells that it refused."""

    def __init__(self, folder):
        self.library, self.told = make_library(folder, LIBRARY), folder / "told"

    def refuse(self, work, number):
        """How the work ends over the pack before it, where this allocation is refused: its code and what it shows. None if it asks for
        fewer."""
        work.write(work.before)
        self.told.unlink(missing_ok=True)
        variables = {**os.environ, "LD_PRELOAD": self.library, "REFUSED": str(number), "REFUSED_TOLD": self.told}
        ended = subprocess.run([*work.pack.command, *work.words], input=work.keys, capture_output=True, env=variables)
        assert ended.stderr == b"", f"allocation {number}: {ended.stderr!r}"
        return (ended.returncode, ended.stdout) if self.told.exists() else None

    def each(self, work):
        """How the work ends for each allocation that it asks for."""
        number = 1
        while (ended := self.refuse(work, number)) is not None:
            yield number, *ended
            number += 1

    def sessions(self, session):
        """For each allocation what came of the session that was refused it, in a word."""
        for number, code, shown in self.each(session):
            if code == 0:
                assert (shown, session.read()) == (session.ended[1], session.after), f"allocation {number}: {shown!r}"
                yield "passed over"
            else:
                acknowledged = acknowledged_lines(session.replies, shown)
                replies = b"".join(session.replies[:acknowledged])
                assert (code, shown) == (NO_MEMORY, replies), f"allocation {number}: {code}, {shown!r}"
                yield session.check(shown)

    def listings(self, listing):
        for number, code, shown in self.each(listing):
            assert (code, shown, b"") in (listing.ended, (NO_MEMORY, b"", b"")), f"allocation {number} of show: {code}, {shown!r}"
            yield "listed" if code == 0 else "not listed"

    def scavenges(self, scavenge):
        for number, code, shown in self.each(scavenge):
            if code == NO_MEMORY:
                assert shown == b"", f"allocation {number} of scavenge: {shown!r}"
                yield f"scavenged {scavenge.check()}"
            else:
                found = (code, shown, b""), scavenge.read()
                assert found == (scavenge.ended, scavenge.after), f"allocation {number} of scavenge: {found[0]}, or other bytes"
                yield "scavenged all"


def refused(refuser, history, pack):
    """The sessions of a history, each with one allocation refused at a time, then `show`, and then scavenges: what came of each run."""
    plain, chance = copy.deepcopy(history.plain), random.Random(history.title)
    for lines, replies in history.sessions():
        session = Session(pack, plain, lines, replies, history.keys(lines))
        yield from refuser.sessions(session)
        session.write(session.before)
        yield from refuser.listings(Work(pack, ["show"]))
        damage = damaged(chance, session.before)
        history.typed += [f"damage {it}" for it in damage.done]
        session.write(damage.files())
        yield from refuser.scavenges(Scavenge(pack))
        session.write(session.after)
        plain = copy.deepcopy(history.plain)


def main():
    options = arguments.seeded(arguments.parser(__doc__))
    options.add_argument("--runs", type=arguments.positive, default=2_000, metavar="N", help="how many runs at least (default: 2,000)")
    options = arguments.read(options)
    print(f"seed {options.seed}", flush=True)
    counts, number = collections.Counter(), 0
    with tempfile.TemporaryDirectory() as folder:
        refuser = Refuser(pathlib.Path(folder))
        while counts.total() < options.runs:
            number += 1
            history = sessions.History(options.seed, number)
            with tempfile.TemporaryDirectory() as room:
                try:
                    for word in refused(refuser, history, history.pack(options.program, pathlib.Path(room))):
                        counts[word] += 1
                except AssertionError as wrong:
                    history.tell(wrong)
                    sys.exit(1)
    print(f"{counts.total()} runs over {number} packs, each with one allocation refused")
    print(", ".join(f"{word}: {count}" for word, count in sorted(counts.items())))


main()
