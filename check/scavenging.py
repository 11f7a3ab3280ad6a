"""Run by other scripts: what a scavenge answers over a pack, and what it has to leave.

Both are worked out from labels by the rules of docs/model.md (Scavenger). A `Mending` counts over a survey of the pack before
(tools/packtools). How often SysDir gets a page for names is counted by the slots of check/plain.py. `faults` tells what is wrong with the
pack that a scavenge left.
"""
import struct
import sys

import arguments
import packs
import plain
from packs import ONES, PAGE, SECTOR

sys.path.append(str(arguments.TOP / "tools"))
from packtools import names
from packtools.directories import ADDRESS, SYSTEM_FILES, keep_entries, read_slots
from packtools.pack import DESCRIPTOR, NUMBER, SYS_DIR, Pack
from packtools.survey import LEADER_NAME, MARKS, TABLE, Survey, table_words

DONE, CANNOT = 0, 7
# the kinds of sectors that a scavenge releases
RELEASED = {"stray", "copy", "lost", "past"}
# the slot of a SysDir that is made
NEW_ROOT = [255]
# where the name in a leader page ends, and where its hints begin
NAME_ENDS, HINTS_AT = 52, 492
CLEAN_REMARK = f"marked {MARKS[packs.CLEAN]}"


def surveyed(files):
    """The survey of a pack whose drives have these files."""
    return Survey(Pack(len(files), b"".join(files)))


class Mending:
    """What a scavenge of a pack needs and finds, does and says, by a survey of the pack before it."""

    def __init__(self, survey):
        self.survey, self.pack = survey, survey.pack
        self.counts = survey.counts()
        self.freed = sum(self.counts[kind] for kind in RELEASED)
        self.available = self.freed + self.counts["free"]
        nameless = [it for it in survey.files.values() if not it.has_entry and not it.is_system()]
        self.adopted, self.given = len(nameless), [it.name for it in nameless]
        self.needed = self.missing() + self.widenings()

    def missing(self):
        """The pages that are claimed before names are entered: last pages, and those that the system files lack."""
        count = sum(file.missing for file in self.survey.files.values())
        if SYS_DIR not in self.survey.files:
            count += 2
        if DESCRIPTOR not in self.survey.files:
            count += 2 + 2 * (TABLE + table_words(self.pack)) // PAGE
        return count

    def widenings(self):
        """How often SysDir gets a page, for the system files' entries and those of adopted files. Both system files live by then."""
        slots = {it: file.entries for it, file in self.survey.files.items()}
        kept = keep_entries({**slots, DESCRIPTOR: slots.get(DESCRIPTOR, [])})
        root = plain.File(1, "SysDir.", 0, self.root_slots(kept))
        lacking = [f"{name}." for file, name in SYSTEM_FILES.items() if file not in kept]
        count = 0
        for name in lacking + self.given:
            if root.largest_run() < plain.entry_words(name):
                root.slots.append(plain.WIDER)
                count += 1
            root.place(plain.Entry(name, None))
        return count

    def root_slots(self, kept):
        """The slots of SysDir up to the first that can't be read, of which those that aren't kept are free."""
        if SYS_DIR not in self.survey.files:
            return NEW_ROOT[:]
        words = self.pack.words_of(SYS_DIR)
        entries = {entry.word - ADDRESS: entry for directory, entry in kept.values() if directory == SYS_DIR}
        (_, end), slots, at = read_slots(words), [], 0
        while at < end:
            length = words[at] % 1_024
            slots.append(plain.Entry(entries[at].name, None) if at in entries else length)
            at += length
        return slots

    def refusal(self):
        """Why the pack can't be scavenged, or None: the first cause that holds."""
        words, file = self.pack.words[1], self.survey.owners.get(1)
        if self.survey.kinds[1] == "bad":
            return "root bad: %d %d" % struct.unpack_from(">2H", self.pack.data, SECTOR)
        if file is not None and (file.full_name, words[NUMBER]) != (SYS_DIR, 0):
            return "root taken: " + " ".join(map(str, words))
        return f"pack full: needed {self.needed} free {self.available}" if self.needed > self.available else None

    def files(self):
        """How many files live afterwards, with the system files."""
        return len(self.survey.files.keys() | {SYS_DIR, DESCRIPTOR})

    def answer(self):
        """The exit code, and what is shown."""
        report = f"scavenged: files {self.files()}, freed {self.freed}, bad {self.counts['bad']}, adopted {self.adopted}"
        refusal = self.refusal()
        return (CANNOT if refusal else DONE), f"{refusal or report}\n".encode()

    def free(self):
        """How many sectors are free afterwards."""
        return self.available - self.needed

    def last_serial(self):
        """The greatest serial of a living file, or DiskDescriptor's, which needn't live, if its bytes say this shape or one drive."""
        words, cylinders = self.pack.words_of(DESCRIPTOR), self.pack.cylinders
        last = max(file.serial() for file in [*self.survey.files, DESCRIPTOR])
        for drives in (self.pack.drives, 1):
            size = -(-drives * cylinders * 24 // 16)
            has_length = self.pack.length(DESCRIPTOR) == 2 * (TABLE + size)
            if has_length and (*words[:4], words[8]) == (drives, cylinders, 2, 12, size):
                last = max(last, words[4] << 16 | words[5])
        return last

    def name_bytes(self, file):
        """The bytes of a file's name in its leader page afterwards: those that spell one now, or those of the name that it gets."""
        if file in self.survey.files:
            text = self.pack.value(self.survey.files[file].leader_at)[LEADER_NAME:]
            if names.stored(text[1 : text[0] + 1]):
                return text[: NAME_ENDS - LEADER_NAME]
        name = f"{SYSTEM_FILES[file]}." if file in SYSTEM_FILES else names.lost(file.serial())
        return packs.counted(name.encode()).ljust(NAME_ENDS - LEADER_NAME, b"\0")


def contents(survey):
    """What a pack shows: of each file except the system files its path, its dates and properties, its leader's name, and an ordinary one's
    bytes."""
    told, pack = {}, survey.pack
    for name, file in survey.files.items():
        if not file.is_system():
            leader = pack.value(file.leader_at)
            data = b"".join(pack.value(at, pack.labels[at].count) for at in pack.data_pages(name))
            properties = leader[:LEADER_NAME], file.leader_name, leader[NAME_ENDS:HINTS_AT]
            told[name] = survey.path(file), *properties, None if name.is_directory() else data
    return told


def faults(mending, survey):
    """What is wrong with the pack of this survey, which a scavenge left."""
    pack, counts = survey.pack, survey.counts()
    _, *remarks = survey.remarks()
    if survey.false or remarks != [CLEAN_REMARK]:
        yield f"hints: {survey.false}, {remarks}"
    wanted = {kind: 0 for kind in RELEASED} | {kind: mending.counts[kind] for kind in ("boot", "bad")} | {"free": mending.free()}
    if {kind: counts[kind] for kind in wanted} != wanted:
        yield f"sectors: {counts}, and not {wanted}"
    if contents(survey) != contents(mending.survey):
        yield "other files, names, dates or bytes"
    for file in survey.files.values():
        if file.missing or not file.has_entry or file.full_name.is_directory() and pack.length(file.full_name) != file.length:
            yield f"{survey.path(file)}: {file.remark()}"
        if pack.value(file.leader_at)[LEADER_NAME:NAME_ENDS] != mending.name_bytes(file.full_name):
            yield f"{survey.path(file)}: another name in its leader page"
    if survey.files[SYS_DIR].leader_at != 1:
        yield f"SysDir's leader page on sector {survey.files[SYS_DIR].leader_at}"
    last, size = mending.last_serial(), table_words(pack)
    heading = (pack.drives, pack.cylinders, 2, 12, last >> 16, last & ONES, packs.CLEAN, mending.free(), size, *[0] * 7)
    if survey.descriptor[:TABLE] != heading or len(survey.descriptor) != TABLE + size:
        yield f"DiskDescriptor: {survey.descriptor[:TABLE]} and {len(survey.descriptor)} words, and not {heading}"
    yield from wrong_sectors(mending.survey, survey)


def wrong_sectors(before, after):
    """Sectors that a scavenge changed otherwise than it may: headers, sector 0, bad and free ones stay; what is released has ones."""
    for at, (old, new) in enumerate(zip(*(packs.sectors_of(it.pack.data) for it in (before, after)))):
        if old[: packs.LABEL_AT] != new[: packs.LABEL_AT]:
            yield f"sector {at}: another header"
        if after.kinds[at] in ("boot", "bad") and old != new:
            yield f"sector {at}, which no page is on: other words"
        if after.kinds[at] == "free":
            wanted = old[packs.LABEL_AT :] if before.kinds[at] == "free" else packs.FREED
            if new[packs.LABEL_AT :] != wanted:
                yield f"sector {at}, which is free: other words"
