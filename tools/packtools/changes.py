"""What differs between two states of a pack of one shape: sectors by their records, pages by their kinds, files by what they show."""
from __future__ import annotations

import itertools
import struct
import typing

from packtools.pack import BLANK, BYTES, DESCRIPTOR, NEXT, PAGE, PREVIOUS, SECTOR, Label
from packtools.survey import KINDS, LEADER_NAME, MARK, MARKS

RECORDS = struct.Struct(f">2H8H{PAGE // 2}H")
LABEL_AT, VALUE_AT, LABEL_WORDS = 2, 10, 8
# what the words of a label are called
LABEL = ("next", "previous", "blank", "bytes", "page", "version", "file", "file")
# bytes of a leader page: where its name ends, and where its hints begin
NAME_ENDS, HINTS_AT = 52, 492
FREED = {
    "copy": "free a second copy of a page",
    "stray": "free a sector whose label names no page",
    "lost": "free a page without a leader page",
    "past": "free a page after the end of its file",
    "leader": "free a leader page that moves to another sector",
}
LABEL_MENDINGS = {
    NEXT: "make a next link true",
    PREVIOUS: "make a previous link true",
    BLANK: "clear the blank word of a label",
    BYTES: "set how many bytes of a page count",
}
# the kinds of sectors whose page no file has in use
RELEASED = {"copy", "stray", "lost", "past"}


def sector(survey, at):
    """The bytes of a sector."""
    return survey.pack.data[at * SECTOR : (at + 1) * SECTOR]


def changed(before, after):
    """The sectors that differ."""
    old, new = before.pack.data, after.pack.data
    return [at for at in range(before.pack.sectors) if old[at * SECTOR : (at + 1) * SECTOR] != new[at * SECTOR : (at + 1) * SECTOR]]


def differing(one, other):
    """Which records of two sectors differ, and in what, in words."""
    old, new = RECORDS.unpack(one), RECORDS.unpack(other)
    parts = ["header"] if old[:LABEL_AT] != new[:LABEL_AT] else []
    label = [name for name, was, now in zip(LABEL, old[LABEL_AT:VALUE_AT], new[LABEL_AT:VALUE_AT]) if was != now]
    if label:
        names = ", ".join(dict.fromkeys(label))
        parts.append("label" if len(label) > LABEL_WORDS // 2 else f"label: {names}")
    count = sum(was != now for was, now in zip(old[VALUE_AT:], new[VALUE_AT:]))
    if count:
        parts.append("value" if count == PAGE // 2 else f"{count} word{'s' * (count > 1)} of the value")
    return "; ".join(parts)


def between(before, after, at):
    """What differs in a sector from one state to the other."""
    return differing(sector(before, at), sector(after, at))


def places(one, other):
    """Which words of two sectors differ: of the header 0 and 1, and the others by the numbers that check/spoil.py takes."""
    found = [at for at, (was, now) in enumerate(zip(RECORDS.unpack(one), RECORDS.unpack(other))) if was != now]
    words = [at - VALUE_AT if at >= VALUE_AT else at - LABEL_AT + PAGE // 2 for at in found if at >= LABEL_AT]
    return [at for at in found if at < LABEL_AT], sorted(words)


def told(survey, at):
    """What a sector is, and which of the hints on it are false."""
    label, kind = survey.pack.labels[at], survey.kinds[at]
    text = survey.page_text(label, kind) if isinstance(label, Label) else KINDS[kind]
    wrong = [text.partition(":")[0] for hint, text in survey.false.get(at, ()) if hint != "table"]
    return text + "".join(f", {it} false" for it in wrong)


def mark(survey):
    """The mark of DiskDescriptor in words."""
    words = survey.descriptor
    return str(MARKS.get(words[MARK], words[MARK])) if len(words) > MARK else "none"


def summary(before, after):
    """The mark, the free sectors and the false hints of both states."""
    free = [it.kinds.count("free") for it in (before, after)]
    false = [sum(it.false_counts().values()) for it in (before, after)]
    return f"mark: {mark(before)} -> {mark(after)}; free sectors: {free[0]} -> {free[1]}; false hints: {false[0]} -> {false[1]}"


# files


class Change(typing.NamedTuple):
    """A file that differs: its serial, its path before and after, None where it isn't there, and its bytes, None of a directory."""

    serial: int
    old_path: str | None
    new_path: str | None
    old: bytes | None
    new: bytes | None

    def places(self):
        """Where the bytes differ; those that only one has differ too."""
        both = itertools.zip_longest(self.old or b"", self.new or b"")
        return [at for at, (was, now) in enumerate(both) if was != now] if self.old_path and self.new_path else []

    def told(self):
        """What differs, in lines."""
        if self.new_path is None:
            yield f"gone     {self.old_path} #{self.serial}, {size(self.old)}"
        elif self.old_path is None:
            yield f"new      {self.new_path} #{self.serial}, {size(self.new)}"
        else:
            if self.old_path != self.new_path:
                yield f"renamed  {self.old_path} -> {self.new_path}"
            if self.old != self.new:
                yield f"changed  {self.new_path} #{self.serial}, {len(self.old)} -> {len(self.new)} bytes, from byte {self.places()[0]} on"

    def as_json(self):
        lengths = [None if it is None else len(it) for it in (self.old, self.new)]
        return {"serial": self.serial, "was": self.old_path, "is": self.new_path, "bytes": lengths, "places": self.places()}


def size(content):
    """The length of a file, of which a directory has none."""
    return "directory" if content is None else f"{len(content)} bytes"


def contents(survey):
    """Of each file but the system files its path and its bytes, None of a directory, by its full name."""
    pack, found = survey.pack, {}
    for name, file in survey.files.items():
        if not file.is_system():
            data = b"".join(pack.value(at, pack.labels[at].count) for at in pack.data_pages(name))
            found[name] = survey.path(file), None if name.is_directory() else data
    return found


def files(before, after):
    """How many files other than directories are the same, and the changes of the others, by full names."""
    was, now = contents(before), contents(after)
    same = sum(it in was and was[it] == now[it] for it in now if not it.is_directory())
    found = [name for name in sorted({*was, *now}) if was.get(name) != now.get(name)]
    none = None, None
    rows = [(name.serial(), *was.get(name, none), *now.get(name, none)) for name in found]
    return same, [Change(serial, old_path, new_path, old, new) for serial, old_path, old, new_path, new in rows]


# what a scavenge did


def mended(before, after):
    """What a scavenge did, in words, each with its sectors, in the order of the first one."""
    found = {}
    for at in changed(before, after):
        for text in mendings(before, after, at):
            found.setdefault(text, []).append(at)
    return found


def mendings(before, after, at):
    """What a scavenge did to a sector that it changed."""
    was, now = before.kinds[at], after.kinds[at]
    old, new = before.pack.labels[at], after.pack.labels[at]
    if now == "free":
        yield FREED.get(was, "free a sector")
    elif not isinstance(new, Label):
        yield "write a sector that has no page"
    elif not isinstance(old, Label) or old[:2] != new[:2] or was in RELEASED:
        yield f"claim a sector for {after.page_text(new, now)}"
    else:
        yield from label_mendings(before.pack.words[at], after.pack.words[at])
        yield from value_mendings(before.pack.value(at), after.pack.value(at), new)


def label_mendings(old, new):
    """What was mended of the label of a page that stays."""
    found = [at for at in range(LABEL_WORDS) if old[at] != new[at]]
    yield from (LABEL_MENDINGS[at] for at in found if at in LABEL_MENDINGS)
    if any(at not in LABEL_MENDINGS for at in found):
        yield "write a label"


def value_mendings(old, new, label):
    """What was mended of the value of a page that stays."""
    if old == new:
        return
    if label.number == 0:
        if old[LEADER_NAME:NAME_ENDS] != new[LEADER_NAME:NAME_ENDS]:
            yield "give a leader page a name that can be read"
        if old[HINTS_AT:] != new[HINTS_AT:]:
            yield "make the hints of a leader page true"
        if old[:LEADER_NAME] + old[NAME_ENDS:HINTS_AT] != new[:LEADER_NAME] + new[NAME_ENDS:HINTS_AT]:
            yield "write a leader page"
    elif label.file == DESCRIPTOR:
        yield "write the descriptor: its mark, its table, its free count"
    else:
        yield "mend entries of a directory" if label.file.is_directory() else "write a page of a file"
