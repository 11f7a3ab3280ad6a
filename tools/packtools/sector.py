"""What the words of a sector mean: the list of lines that packdump and packview tell of it (docs/formats.md)."""
from __future__ import annotations

import struct
import typing

from packtools import names
from packtools.dates import day
from packtools.directories import ADDRESS
from packtools.pack import DESCRIPTOR, HEADS, HIGH, LOW, NEXT, NUMBER, PAGE, PREVIOUS, SECTOR, TRACK, VERSION, Label
from packtools.survey import FREE_COUNT, LEADER_NAME, MARK, MARKS, TABLE, table_words

RECORDS = struct.Struct(f">2H8H{PAGE // 2}H")
# where the label's words begin in the records, and in the numbers that check/spoil.py takes
LABEL_AT, VALUE_AT, LABEL_NUMBER = 2, 10, 256
HEADER_NAMES = ("pack", "address")
LABEL_NAMES = ("next", "previous", "blank", "bytes", "page", "version", "file, high", "file, low")
# the words of a leader page: dates, the hint of the home directory, and that of the last page
CREATED, WRITTEN, READ, HOME_AT, LAST_AT = 0, 2, 4, 252, 253
# words of a line of the value
ROW = 8


class Word(typing.NamedTuple):
    """A word of a sector: its record, its number there, as check/spoil.py takes it if it isn't the header's, its name, what it is, what it
    says, whether that is a hint and true, and the sector that it names. Of a field of a value that has several words it is the first."""

    record: str
    number: int
    name: str
    word: int
    said: str = ""
    is_true: bool | None = None
    link: int | None = None
    meant: int | None = None

    def told(self):
        """What it says, with what is true of it."""
        if self.is_true is None:
            return self.said
        return self.said + (" true" if self.is_true else f" false: {'none' if self.meant is None else self.meant} is meant")


def records(survey, at):
    """All words of a sector: 2 of the header, 8 of the label, 256 of the value."""
    return RECORDS.unpack_from(survey.pack.data, at * SECTOR)


def words(survey, at):
    """The words of the header and of the label, and what the value says: the fields of a leader page, entries, or DiskDescriptor's."""
    found = records(survey, at)
    return [*header_words(survey, at, found), *label_words(survey, at, found), *value_words(survey, at, found[VALUE_AT:])]


def header_words(survey, at, found):
    real = survey.pack.reals[at]
    said = "this sector" if found[1] == real else f"wrong: {real} is right"
    return [Word("header", 0, HEADER_NAMES[0], found[0]), Word("header", 1, HEADER_NAMES[1], found[1], said)]


def label_words(survey, at, found):
    label, said = survey.pack.labels[at], {}
    if isinstance(label, Label):
        directory = ", a directory" if label.file.is_directory() else ""
        said = {NUMBER: "" if label.number else "leader page", LOW: f"#{label.file.serial()}{directory}"}
    elif label == "free":
        said = dict.fromkeys((VERSION, HIGH, LOW), "free")
    for place, name in enumerate(LABEL_NAMES):
        word = found[LABEL_AT + place]
        if place in (NEXT, PREVIOUS) and isinstance(label, Label):
            yield link_word(survey, at, place, name, word)
        else:
            yield Word("label", LABEL_NUMBER + place, name, word, said.get(place, ""))


def link_word(survey, at, place, name, word):
    """A link, which is judged if a file has the page in use."""
    said, number = survey.link_text(word), LABEL_NUMBER + place
    link = survey.pack.virtuals.get(word)
    if at not in survey.owners:
        return Word("label", number, name, word, said, link=link)
    label = survey.pack.labels[at]
    is_last = label.number > 0 and label.count < PAGE
    beside = {NEXT: None if is_last else label.number + 1, PREVIOUS: label.number - 1}[place]
    meant = survey.pack.places.get((label.file, beside))
    is_false = any(hint == name for hint, _ in survey.false.get(at, ()))
    return Word("label", number, name, word, said, not is_false, link, meant)


def value_words(survey, at, value):
    """What the value says, of a leader page, a directory's page and DiskDescriptor's first page in use."""
    label, file = survey.pack.labels[at], survey.owners.get(at)
    if file is None:
        return
    if label.number == 0:
        yield from leader_words(survey, file, value)
    elif label.file.is_directory():
        yield from entry_words(survey, file, label.number)
    elif label.file == DESCRIPTOR and label.number == 1:
        yield from descriptor_words(survey, value)


def leader_words(survey, file, value):
    for at, name in ((CREATED, "created"), (WRITTEN, "written"), (READ, "read")):
        moment = value[at] << 16 | value[at + 1]
        yield Word("leader", at, name, moment, day(moment))
    text = survey.pack.value(file.leader_at)[LEADER_NAME:]
    name = names.stored(text[1 : text[0] + 1])
    yield Word("leader", LEADER_NAME // 2, "name", value[LEADER_NAME // 2], name or "none that can be read")
    yield Word("leader", HOME_AT, "home", value[HOME_AT], f"sector {value[HOME_AT]}", link=value[HOME_AT])
    last = f"sector {value[LAST_AT]}: page {value[LAST_AT + 1]} with {value[LAST_AT + 2]} bytes"
    yield Word("leader", LAST_AT, "last page", value[LAST_AT], last, link=value[LAST_AT])


def entry_words(survey, file, page):
    """The entries whose address stands on this page of a directory."""
    for entry in file.entries:
        if entry.word * 2 // PAGE + 1 == page:
            yield entry_word(survey, entry)


def entry_word(survey, entry):
    """The address of an entry, by its word on its page."""
    there = survey.files.get(entry.file)
    is_true = None if there is None else there.leader_at == entry.address
    said = f"#{entry.file.serial()} sector {entry.address}" + ("" if there else ", no such file")
    meant = there.leader_at if there else None
    return Word("entry", entry.word % (PAGE // 2), entry.name, entry.address, said, is_true, entry.address, meant)


def descriptor_words(survey, value):
    pack, free = survey.pack, survey.kinds.count("free")
    size = table_words(pack)
    wanted = ((0, "disks", pack.drives), (1, "cylinders", pack.cylinders), (2, "heads", HEADS), (3, "sectors", TRACK), (8, "map", size))
    for at, name, number in wanted:
        yield Word("system", at, name, value[at], "" if value[at] == number else f"wrong: {number} is right")
    yield Word("system", 4, "serial", value[4] << 16 | value[5], "the last that was given out")
    yield Word("system", MARK, "mark", value[MARK], str(MARKS.get(value[MARK], "neither clean nor open")))
    yield Word("system", FREE_COUNT, "free", value[FREE_COUNT], "sectors", value[FREE_COUNT] == free, meant=free)
    wrong = sum(hint == "table" for hints in survey.false.values() for hint, _ in hints)
    yield Word("system", TABLE, "table", value[TABLE], "all bits are true" if not wrong else f"{wrong} bits are false")


def entry_slot(entry):
    """The first word of the slot of an entry, in its directory."""
    return entry.word - ADDRESS


# text


def told(survey, at):
    """A sector in lines: where it is and what it has, its words, and the words of its value."""
    what = survey.hover(at).split("\n")[0]
    yield f"{survey.where(at)}: {what}"
    record = None
    for it in words(survey, at):
        yield f"{it.record if it.record != record else '':<9}  {it.number:>3}  {it.name:<10}  {it.word:<6} {it.told()}".rstrip()
        record = it.record
    yield from value_lines(records(survey, at)[VALUE_AT:])


def value_lines(value):
    """The words of a value, eight to a line; a star stands for lines that are as the one before."""
    before = None
    is_same = False
    for at in range(0, len(value), ROW):
        row = value[at : at + ROW]
        if row == before:
            if not is_same:
                yield "           *"
            is_same = True
            continue
        before, is_same = row, False
        text = "".join(chr(it) if 32 <= it < 127 else "." for it in struct.pack(f">{ROW}H", *row))
        yield f"{'value' if at == 0 else '':<9}  {at:>3}  {' '.join(f'{it:04x}' for it in row)}  {text}"
