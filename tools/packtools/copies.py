"""Files copied between a pack and the host, one after another. packtools.trees says which, where folders are copied."""
from __future__ import annotations

import contextlib
import os
import re
import signal
import sys
import time
import typing

from packtools import names
from packtools.dates import moment_of, seconds_of
from packtools.pack import CYLINDER, MOST, PAGE, Faulty, is_same_file
from packtools.session import APPENDED, NO_SUCH_NAME, Ended, Refused

# the host path that stands for the standard input or output
STANDARD = "-"
# the bytes of all sectors of the largest pack: no file has as many
TOO_MANY = 2 * MOST * CYLINDER * PAGE
ODD = re.compile(r"[^A-Za-z0-9+\-.$!]")
ENDING = {signal.SIGINT, signal.SIGTERM, signal.SIGHUP}
SECONDS_OF_YEAR = 31_556_952
# seconds until progress is shown, and from one time to the next
PAUSE = 0.2
CLEARED = "\r\033[K"


class Manner(typing.NamedTuple):
    """How files are copied: whether older ones are deleted or overwritten, dates are kept, and host names spelled."""

    is_forced: bool = False
    keeps_dates: bool = False
    are_spelled: bool = False

    def name_of(self, host):
        """The name on a pack for a host name."""
        return names.spell(host) if self.are_spelled else host

    def host_of(self, name):
        """The host name, or the path in a folder, for a name on a pack. Raises `Faulty` if it would lead out of the folder."""
        path = names.unspell(name) if self.are_spelled else name
        if "\0" in path or any(part in ("", ".", "..") for part in path.split("/")):
            raise Faulty(f"spells {path!r}, which is no path in a folder")
        return path


# names on packs


class Spot(typing.NamedTuple):
    """A file on a pack by names as they are typed: in SysDir if no directory is named. Without a name it is the directory."""

    directory: str | None
    name: str | None

    def typed(self, name):
        """How a name in this directory is typed."""
        return name if self.directory is None else f"{self.directory}>{name}"


def read_spot(text):
    """The file or the directory that a text means. Raises `Faulty` if it can mean none."""
    if "/" in text:
        raise Faulty(f"{text!r} is no name on a pack: > and not / stands after a directory")
    directory, sign, name = text.rpartition(">")
    if sign:
        check_name(directory)
    if "!" in directory:
        raise Faulty(f"{directory!r} is no directory: their names have no versions")
    if name:
        check_name(name)
    return Spot(directory or None, name or None)


def check_name(text):
    """Raises `Faulty`, which says why, if no name is typed so."""
    odd, longest = sorted({repr(it) for it in ODD.findall(text)}), names.LONGEST - 1
    if odd:
        raise Faulty(f"{text!r} is no name on a pack: it has {' '.join(odd)}, and may have ASCII letters, digits and + - . $")
    if len(text.removesuffix(".")) > longest:
        raise Faulty(f"{text!r} is no name on a pack: it has more than {longest} characters")
    if names.typed(text) is None:
        raise Faulty(f"{text!r} is no name on a pack: names are TEXT or TEXT!n, and n is 1 to {names.LAST_VERSION}")


# into a pack


def destination(session, spot, is_several):
    """Where host files go on a pack: a name that is a directory's means this directory, as one that ends with `>` does."""
    if spot.name is None:
        if spot.directory is not None:
            session.list(spot.directory)
        return spot
    if spot.directory is None and "!" not in spot.name:
        try:
            session.list(spot.name)
            return Spot(spot.name, None)
        except Refused as reply:
            if is_several:
                raise Faulty(f"{reply}: several files go into a directory") from None
    if is_several:
        raise Faulty("names one file: several go into a directory")
    return spot


def same_but_for_case(known, source, spot):
    """The source of another name that differs from this one in the case of letters alone, or None. `known` has the sources and the names so
    far."""
    directory, base = spot.directory or "", spot.name and names.typed(spot.name)[0]
    other, text = known.setdefault((directory.lower(), base and base.lower()), (source, (directory, base)))
    return None if text == (directory, base) else other


CASE = "has the same name except for the case of letters, which a pack doesn't tell apart"


class Into:
    """Copies host files into a pack: each becomes the next version of its name."""

    def __init__(self, session, spot, manner=Manner()):
        self.session, self.spot, self.manner = session, spot, manner
        self.count = 0
        # of each copy its source and its bytes, by its serial
        self.copies = {}
        self.known = {}

    def copy(self, source, spot=None):
        """Copies a file, to its own name or to this place, and says so. Raises `Faulty` if it can't be copied, of which then nothing stays;
        `Ended` if no other can either."""
        if self.spot.name is None and spot is None and source == STANDARD:
            raise Faulty("the standard input has no name: PACK:NAME states one")
        data = read(source)
        spot = spot or Spot(self.spot.directory, self.spot.name or self.manner.name_of(os.path.basename(source)))
        check_name(spot.name)
        other = same_but_for_case(self.known, source, spot)
        if other is not None:
            raise Faulty(f"{other} {CASE}")
        path = spot.typed(spot.name)
        try:
            older = self.older(path) if self.manner.is_forced else None
            self.check_room(2 + len(data) // PAGE, older)
            moment = date_of(source) if self.manner.keeps_dates and source != STANDARD else None
            with signals_held():
                if moment is not None:
                    self.session.settime(moment)
                copy = self.put(path, data, older, Progress(source, len(data)))
                self.count, self.copies[copy.serial] = self.count + 1, (source, data)
                say(f"{source} -> {self.session.path}:{spot.typed(names.spelled(copy.name))}, {len(data)} bytes")
        except Faulty as error:
            raise type(error)(f"{self.session.path}:{path}: {error}") from error

    def older(self, path):
        """The newest file of a name, or None. Raises `Faulty` if it was copied in this run."""
        try:
            found = self.session.stat(path)
        except Refused as reply:
            if str(reply) != NO_SUCH_NAME:
                raise
            return None
        if found.serial in self.copies:
            raise Faulty(f"{self.copies[found.serial][0]} was just copied there")
        return found

    def check_room(self, needed, older):
        """Raises `Refused` if there aren't so many free pages after the older file is deleted."""
        free = self.session.free() + (older.pages if older else 0)
        if needed > free:
            raise Refused(f"full: needed {needed} free {free}")

    def put(self, path, data, older, progress):
        """Makes a file with these bytes, after an older one is deleted if there is one to be, and answers what `stat` tells of it."""
        if older is not None:
            self.session.delete(path)
        try:
            copy = self.session.stat(f"#{self.session.make(path)}")
            self.fill(copy, path, data, progress)
            return copy
        except Faulty as error:
            if older is None:
                raise
            raise type(error)(f"{error}; {names.spelled(older.name)} was deleted before") from error
        finally:
            progress.end()

    def fill(self, copy, path, data, progress):
        """Puts bytes into an empty file, which is deleted if that is refused."""
        try:
            for start in range(0, len(data), APPENDED):
                self.session.append(copy.serial, data[start : start + APPENDED])
                progress(start + APPENDED)
        except Refused:
            directory, sign, _ = path.rpartition(">")
            self.session.delete(f"{directory}{sign}{names.spelled(copy.name)}")
            raise

    def complaints(self, session):
        """Of the copies, as another session reads them, each that has other bytes."""
        for serial, (source, data) in self.copies.items():
            if session.type(serial) != data:
                yield f"{source}: its copy has other bytes"


# out of a pack


class Out:
    """Copies files of a pack to the host: into a folder under their names as they are typed, to a file, or to the standard output."""

    def __init__(self, session, target, packs, manner=Manner()):
        self.session, self.target, self.packs, self.manner, self.count = session, target, packs, manner, 0
        # of each copy its path and the serial of the file, by what tells host files apart
        self.copies = {}

    def copy(self, source, path=None):
        """Copies a file, to its place or to this path, and says so, unless it goes to the standard output. Raises `Faulty` if it can't be
        copied; `Ended` if no other can either."""
        spot = read_spot(source.rpartition(":")[2])
        if spot.name is None:
            raise Faulty("is a directory: files are copied by their names")
        if path is None:
            path = os.path.join(self.target, self.manner.host_of(spot.name)) if os.path.isdir(self.target) else self.target
        if path != STANDARD:
            self.check(path)
        found = self.session.stat(spot.typed(spot.name))
        progress = Progress(source, found.length)
        try:
            data = self.session.type(found.serial, progress)
        finally:
            progress.end()
        if path == STANDARD:
            write_out(data)
            self.count += 1
            return
        with signals_held():
            self.copies[write(path, data)] = path, found.serial
            if self.manner.keeps_dates:
                date(path, found.written)
            self.count += 1
            say(f"{self.session.path}:{spot.typed(names.spelled(found.name))} -> {path}, {len(data)} bytes")

    def check(self, path):
        """Raises `Faulty` if this host file may not be written."""
        if any(is_same_file(path, pack) for pack in self.packs):
            raise Faulty(f"{path} is a pack file, which alto alone writes")
        if os.path.lexists(path) and not self.manner.is_forced:
            raise Faulty(f"{path} is there: -f overwrites it")
        with contextlib.suppress(OSError):
            if key_of(os.stat(path)) in self.copies:
                raise Faulty(f"{path} was just written")

    def complaints(self, session):
        """Of the copies, read back, each that has other bytes than another session reads."""
        for path, serial in self.copies.values():
            if session.type(serial) != read(path):
                yield f"{path}: has other bytes"


# on the host


def read(path):
    """The bytes of a host file, or of the standard input. No more are read than would be too many."""
    try:
        if path == STANDARD:
            data = sys.stdin.buffer.read(TOO_MANY)
        else:
            with open(path, "rb") as file:
                data = file.read(TOO_MANY)
    except IsADirectoryError:
        raise Faulty("is a folder, and files alone are copied") from None
    except OSError as error:
        raise Faulty(error.strerror) from error
    if len(data) == TOO_MANY:
        raise Faulty(f"has {TOO_MANY} bytes or more, and no pack holds them")
    return data


def write(path, data):
    """Writes a host file, and answers what tells it apart. A new one that can't be written whole is removed."""
    is_new, key = not os.path.lexists(path), None
    try:
        with open(path, "xb" if is_new else "wb") as file:
            key = key_of(os.fstat(file.fileno()))
            file.write(data)
    except OSError as error:
        if is_new and key is not None:
            os.unlink(path)
        raise Faulty(f"{path}: {error.strerror}") from error
    return key


def date_of(path):
    """When a host file was changed, as a date on a pack. Raises `Faulty` if a pack can't tell it."""
    try:
        seconds = os.stat(path).st_mtime
    except OSError as error:
        raise Faulty(error.strerror) from error
    moment = moment_of(seconds)
    if moment is None:
        years = 1970 + seconds / SECONDS_OF_YEAR
        raise Faulty(f"its date, in about {years:.0f}, can't be kept: dates on a pack are of 1901 to 2037")
    return moment


def date(path, moment):
    """Gives a host file a date on a pack."""
    try:
        os.utime(path, (seconds_of(moment), seconds_of(moment)))
    except OSError as error:
        raise Faulty(f"{path}: {error.strerror}") from error


def key_of(status):
    """What tells a host file apart, by its status."""
    return status.st_dev, status.st_ino


def write_out(data):
    """Writes bytes to the standard output."""
    left = memoryview(data)
    try:
        while left:
            left = left[os.write(sys.stdout.fileno(), left) :]
    except OSError as error:
        raise Ended(f"the standard output: {error.strerror}") from error


def say(text):
    write_out(f"{text}\n".encode(errors="surrogateescape"))


@contextlib.contextmanager
def signals_held():
    """Signals that would end the script wait until the file is copied: stopped within it, a session would leave half of it."""
    signal.pthread_sigmask(signal.SIG_BLOCK, ENDING)
    try:
        yield
    finally:
        signal.pthread_sigmask(signal.SIG_UNBLOCK, ENDING)


class Progress:
    """How many bytes of a file are copied, shown on a terminal once that takes long."""

    def __init__(self, what, length):
        self.what, self.length = what, length
        self.is_on, self.is_shown, self.due = sys.stderr.isatty(), False, time.monotonic() + PAUSE

    def __call__(self, done):
        now = time.monotonic()
        if self.is_on and now >= self.due:
            self.is_shown, self.due = True, now + PAUSE
            print(f"{CLEARED}{self.what}: {min(done, self.length):,} of {self.length:,} bytes", end="", file=sys.stderr, flush=True)

    def end(self):
        """Takes away what is shown."""
        if self.is_shown:
            print(CLEARED, end="", file=sys.stderr, flush=True)
