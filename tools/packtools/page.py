"""States of a pack as one page that a browser shows from a file: all that is judged of them, in one blob.

The blob is JSON, deflated, in base64: `title`, `drives`, `cylinders`, how sectors are drawn (`definitions`, `fills`, `colours` of files, and
that of `nobody`), the texts of `kinds` and of `hints`, and the `steps`. Each of these has its `title`, the sectors that were `written` since
the one before, `moves` with what changed in them, `changes`, and the whole pack's `remarks`, `counts`, `false` and `files`. A change is, by the
sector's number, its kind, its file, its false hints, the lines that it says of itself, its words, and its value in hexadecimal if that was
written.
"""
import base64
import json
import os
import zlib

from packtools import changes, sector
from packtools.pack import Label, pack_of
from packtools.picture import DEFINITIONS, FILLS, NO_FILE, colour_of
from packtools.survey import HINTS, KINDS, Survey

TEMPLATE = os.path.join(os.path.dirname(os.path.abspath(__file__)), "packview.html")
PLACE = "@BLOB@"


def key_of(file):
    """A file's full name as a key."""
    return f"{file.serial()}{'d' if file.is_directory() else ''}.{file.version}"


def told(survey, at):
    """All that a sector tells but its value."""
    label = survey.pack.labels[at]
    file = key_of(label.file) if isinstance(label, Label) else ""
    hints = sorted({hint for hint, _ in survey.false.get(at, ())})
    return [survey.kinds[at], file, hints, survey.hover(at).split("\n"), [list(it) for it in sector.words(survey, at)]]


class Page:
    """The states so far."""

    def __init__(self, title):
        self.title, self.steps, self.colours = title, [], {}
        self.survey, self.told = None, []

    def add(self, title, files):
        """Adds the state of a pack whose drives have these files."""
        before, known = self.survey, self.told
        if before is not None and before.pack.data == b"".join(files):
            self.steps.append({**self.steps[-1], "title": title, "written": [], "moves": [], "changes": {}})
            return
        self.survey = survey = Survey(pack_of(files))
        written = changes.changed(before, survey) if before else []
        self.told = [told(survey, at) for at in range(survey.pack.sectors)]
        fresh = set(written) if before else range(survey.pack.sectors)
        changed = {
            at: it + [survey.pack.value(at).hex()] if at in fresh else it
            for at, it in enumerate(self.told)
            if at in fresh or not known or it != known[at]
        }
        moves = [[at, changes.told(before, at), changes.told(survey, at), changes.between(before, survey, at)] for at in written]
        whole = {"remarks": list(survey.remarks()), "counts": survey.counts(), "false": survey.false_counts(), "files": self.files()}
        self.steps.append({"title": title, "written": written, "moves": moves, "changes": changed, **whole})

    def files(self):
        """The files in the order of `show`: key, path, bytes, pages, remark and the leader's sector."""
        listed = self.survey.listed()
        for file in listed:
            self.colours.setdefault(key_of(file.full_name), colour_of(len(self.colours)))
        return [[key_of(it.full_name), self.survey.path(it), it.length, len(it.pages), it.remark(), it.leader_at] for it in listed]

    def made(self):
        """The page."""
        pack = self.survey.pack
        shape = {"drives": pack.drives, "cylinders": pack.cylinders}
        drawn = {"definitions": DEFINITIONS, "fills": FILLS, "nobody": NO_FILE, "colours": self.colours}
        blob = {"title": self.title, **shape, **drawn, "kinds": KINDS, "hints": HINTS, "steps": self.steps}
        data = zlib.compress(json.dumps(blob, separators=(",", ":")).encode())
        with open(TEMPLATE, encoding="utf-8") as file:
            return file.read().replace(PLACE, base64.b64encode(data).decode())
