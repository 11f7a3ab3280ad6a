"""A session with a pack by lines that the program is typed (docs/commands.md). Each is typed once the one before it was replied to."""
from __future__ import annotations

import contextlib
import re
import subprocess
import typing

from packtools.pack import Faulty, InUse

# the most bytes that a line of `append` brings, and those in a line of the reply to `type`
APPENDED, SHOWN = 2_000, 32
MADE, LENGTH, DONE = (re.compile(form) for form in (r"made #(\d+)", r"length (\d+)", "done"))
BYTES, ENTRIES, FREE = (re.compile(form) for form in (r"(\d+) bytes", r"(\d+) entries", r"(\d+) pages free"))
STATED = re.compile(r"#(\d+) length (\d+) pages (\d+) created (\d+) written (\d+) read (\d+) name (\S+)")
# the lines of a reply ahead of its last one, by the verbs whose replies may have them
AHEAD = {
    "list": re.compile(rb"\S+\."),
    "type": re.compile(rb"[0-9a-f]+"),
    "find": re.compile(rb"\d+"),
    "blocks": re.compile(rb"at \d+ words \d+"),
}
NO_OTHER = re.compile(rb"(?!)")
# replies that mean more than that a line is refused
NO_SUCH_NAME, HINT_FAILED = "no such name", "hint failed: "
OPEN, IN_USE = "pack not clean: mark 2", "pack in use"
# exit codes of the program: those of a hint that failed, and of devices; of others it says why on the standard error
DONE_CODES = (0, 2)
ENDS = {3: "the pack file can't be read or written", 4: "no line can be read", 5: "no reply can be shown", 6: "no memory was left"}


class Refused(Faulty):
    """A line that was refused, by its reply. Other lines may follow."""


class Ended(Faulty):
    """A session that obeys no more lines, and why."""


class NotEntered(Ended):
    """A pack that a session doesn't enter, and the program's text why."""

    def __init__(self, path, text):
        note = ": a session that wrote to it was stopped, or hasn't ended" if text == OPEN else ""
        super().__init__(f"{path}: {text}{note}")
        self.text = text


class Stat(typing.NamedTuple):
    """What `stat` tells of a file: its serial, its length in bytes, the number of its pages, three dates in seconds since the start of 1901,
    and its stored name."""

    serial: int
    length: int
    pages: int
    created: int
    written: int
    read: int
    name: str


class Session:
    """The program over a pack, from the opening to the closing. It is used by `with`."""

    def __init__(self, program, path, second=None):
        """Opens the pack, whose second drive has the file `second`. Raises `InUse` if another process has it open, `NotEntered` if it isn't
        entered otherwise, and `Ended` if there is no program."""
        self.path = path
        drives = drive_words(second)
        streams = {"stdin": subprocess.PIPE, "stdout": subprocess.PIPE, "stderr": subprocess.PIPE}
        try:
            # it stands alone: ^C on the terminal would stop it with the pack open
            self.process = subprocess.Popen([program, *drives, path, "boot"], start_new_session=True, **streams)
        except OSError as error:
            raise Ended(f"{program}: {error.strerror}; --program names the program alto") from error
        try:
            self.free()
        except Faulty as reply:
            self.end()
            raise (InUse(path) if str(reply) == IN_USE else NotEntered(path, str(reply))) from None

    def __enter__(self):
        return self

    def __exit__(self, kind, *_):
        is_told = self.process.returncode is not None
        why = self.end()
        if why and kind is None and not is_told:
            raise Ended(f"{self.path}: {why}")

    def end(self):
        """Ends the lines, so that the pack is closed, and answers why the program failed, or None."""
        with contextlib.suppress(BrokenPipeError):
            self.process.stdin.close()
        _, said = self.process.stdout.read(), self.process.stderr.read().decode(errors="backslashreplace").strip()
        code = self.process.wait()
        if code in DONE_CODES:
            return None
        return said or ENDS.get(code) or (f"signal {-code} stopped the program" if code < 0 else f"the program ended with {code}")

    def ask(self, line, progress=None):
        """Types a line, and answers the lines of its reply: one, unless the verb is one of `AHEAD`."""
        # where the program has ended, it has shown less than a reply
        with contextlib.suppress(BrokenPipeError):
            self.process.stdin.write(line.encode(errors="surrogateescape") + b"\n")
            self.process.stdin.flush()
        ahead, reply = AHEAD.get(line.partition(" ")[0], NO_OTHER), []
        for shown in self.process.stdout:
            if not shown.endswith(b"\n"):
                break
            reply.append(shown[:-1])
            if ahead.fullmatch(reply[-1]) is None:
                return [it.decode() for it in reply]
            if progress is not None:
                progress(len(reply) * SHOWN)
        raise Ended(self.end() or "the session ended")

    def obeyed(self, line, form, progress=None):
        """The lines of the reply but the last, and what the form finds in that one. Raises `Refused` if it has another form, or `Ended`
        if a hint failed."""
        *lines, last = self.ask(line, progress)
        found = form.fullmatch(last)
        if found is None:
            raise (Ended if last.startswith(HINT_FAILED) else Refused)(last)
        return lines, found

    def number(self, line, form):
        return int(self.obeyed(line, form)[1][1])

    def free(self):
        """The number of free pages."""
        return self.number("free", FREE)

    def make(self, name):
        """Makes a file of no bytes, and answers its serial."""
        return self.number(f"make {name}", MADE)

    def append(self, serial, data):
        """Puts at most `APPENDED` bytes after the last one of a file, and answers its length."""
        return self.number(f"append #{serial} {data.hex()}", LENGTH)

    def delete(self, name):
        self.obeyed(f"delete {name}", DONE)

    def stat(self, file):
        _, found = self.obeyed(f"stat {file}", STATED)
        return Stat(*map(int, found.groups()[:-1]), found[7])

    def settime(self, moment):
        """From now on dates are this moment, in seconds since the start of 1901."""
        self.obeyed(f"settime {moment}", DONE)

    def list(self, directory):
        """The stored names in a directory."""
        return self.obeyed(f"list {directory}", ENTRIES)[0]

    def is_directory(self, name):
        """Whether a name in SysDir, as it is typed, is that of a directory."""
        if "!" in name:
            return False
        try:
            self.list(name)
            return True
        except Refused:
            return False

    def mkdir(self, name):
        """Makes a directory, and answers its serial."""
        return self.number(f"mkdir {name}", MADE)

    def type(self, serial, progress=None):
        """The bytes of a file."""
        lines, found = self.obeyed(f"type #{serial}", BYTES, progress)
        data = bytes.fromhex("".join(lines))
        if len(data) != int(found[1]):
            raise Ended(f"{len(data)} bytes of {found[1]} were shown")
        return data


def drive_words(second):
    """The words before PACK that name the file of a second drive, if there is one."""
    return [] if second is None else ["--second", second]
