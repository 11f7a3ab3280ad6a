"""How a pack stands, and what a scavenge would change, which is found by scavenging a copy of it."""
import difflib
import os
import shlex
import subprocess
import tempfile

from packtools import changes
from packtools.pack import Faulty, pack_of, read_files
from packtools.session import ENDS, drive_words
from packtools.survey import Survey
from packtools.table import rows_of, runs

# what is found of a pack, as exit codes
SOUND, FALSE, NOT_ENTERED, HOPELESS, NO_PACK = 0, 1, 2, 7, 8
CANNOT = 7


class Check:
    """What was found of a pack: `code`, `refusal`, why `boot` doesn't enter it, or None, `report`, what its scavenge says, `rows`, what that
    does with the sectors of each, and `is_same`, whether it lists the same files then."""

    def __init__(self, program, path, second=None):
        """Checks a pack, of which only the copy is given to the program. Raises `Faulty` if it can't be checked."""
        self.program, self.path, self.second = program, path, second
        files = read_files(path, second)
        self.before = Survey(pack_of(files))
        with tempfile.TemporaryDirectory() as folder:
            copies = [os.path.join(folder, name) for name in ("pack", "second")[: len(files)]]
            for copy, content in zip(copies, files):
                with open(copy, "wb") as file:
                    file.write(content)
            self.scavenge(copies)
        self.code = self.judge()

    def scavenge(self, copies):
        """Asks `boot` and `show` of a copy, scavenges it, and asks `show` again."""
        code, said = self.run(copies, "boot", "free\n")
        self.refusal = said if code else None
        _, listed = self.run(copies, "show")
        code, self.report = self.run(copies, "scavenge")
        self.after = Survey(pack_of(read_files(*copies))) if code != CANNOT else None
        self.rows = changes.mended(self.before, self.after) if self.after else {}
        _, relisted = self.run(copies, "show")
        self.is_same = listed == relisted
        self.listings = listed.splitlines(), relisted.splitlines()

    def run(self, copies, word, typed=""):
        """The exit code of a run of the program over a copy, and what it says. Raises `Faulty` if it fails."""
        command = [self.program, *drive_words(*copies[1:] or [None]), copies[0], word]
        # keys come from a file: a program that ends without reading them would end the writer of a pipe, too
        try:
            with tempfile.TemporaryFile() as keys:
                keys.write(typed.encode())
                keys.seek(0)
                ended = subprocess.run(command, stdin=keys, capture_output=True, text=True)
        except OSError as error:
            raise Faulty(f"{self.program}: {error.strerror}; --program names the program alto") from error
        said = (ended.stdout or ended.stderr).strip()
        allowed = {"boot": (0, 2), "scavenge": (0, CANNOT)}.get(word, (0,))
        if ended.returncode not in allowed:
            said = said or ENDS.get(ended.returncode) or f"nothing, and ends with {ended.returncode}"
            raise Faulty(f"{self.path}: of a copy {word} says: {said}")
        return ended.returncode, said

    def judge(self):
        if self.after is None:
            return HOPELESS
        if self.refusal is not None:
            return NOT_ENTERED
        return FALSE if self.rows else SOUND

    def state(self):
        """The pack in numbers."""
        kinds = self.before.kinds
        bad = f", {kinds.count('bad')} bad" if "bad" in kinds else ""
        return f"{len(self.before.files)} files, {kinds.count('free')} free of {len(kinds)} sectors{bad}"

    def told(self):
        """What is said of the pack, in lines."""
        if self.code == SOUND:
            yield f"{self.path}: sound, clean, all hints true; {self.state()}"
            return
        entered = "boot enters it" if self.refusal is None else f"boot doesn't enter it: {self.refusal}"
        yield f"{self.path}: {self.state()}; {entered}"
        if self.code == HOPELESS:
            yield f"  it can't be scavenged: {self.report}"
            return
        for line in rows_of(["a scavenge would", "in sectors"], [[text, runs(found)] for text, found in self.rows.items()]):
            yield f"  {line}"
        yield f"  so it says: {self.report}; it lists {'the same' if self.is_same else 'OTHER'} files then"
        if not self.is_same:
            yield "  that is a defect of the program, which has to list the same:"
            yield from (f"  {line}" for line in difflib.unified_diff(*self.listings, "before", "after", lineterm=""))
        yield f"  to do it: {self.cure()}"

    def cure(self):
        """How the pack is scavenged by hand, once it was copied."""
        paths = [it for it in (self.path, self.second) if it is not None]
        copies = [shlex.join(["cp", it, f"{it}.before"]) for it in paths]
        return " && ".join([*copies, shlex.join([self.program, *drive_words(self.second), self.path, "scavenge"])])

    def as_json(self):
        """What was found, for other programs."""
        return {
            "pack": self.path,
            "code": self.code,
            "sectors": self.before.pack.sectors,
            "files": len(self.before.files),
            "free": self.before.kinds.count("free"),
            "bad": self.before.kinds.count("bad"),
            "refusal": self.refusal,
            "scavenge": self.report,
            "changes": [{"what": text, "sectors": found} for text, found in self.rows.items()],
            "lists_the_same": self.is_same,
        }
