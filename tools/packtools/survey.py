"""What is drawn of a pack: its files under the names that `alto PACK show` lists, the kind of each sector, and false hints."""
from packtools import names
from packtools.directories import SYSTEM_FILES, keep_entries, read_slots, settle
from packtools.pack import BYTES, CYLINDER, DESCRIPTOR, HEADS, NEXT, ONES, PAGE, PREVIOUS, SYS_DIR, TRACK, Label

# the kinds of sectors, and the hints that are checked
KINDS = {
    "leader": "leader pages",
    "data": "data pages",
    "free": "free",
    "boot": "sector 0, which has no page",
    "bad": "bad, by a wrong header",
    "stray": "stray, by a label that names no page",
    "copy": "second copies of a page",
    "lost": "pages without a leader page",
    "past": "pages after the end of their file",
}
HINTS = {"next": "next links", "previous": "previous links", "entry": "addresses in entries", "table": "bits of the table"}
# kinds of sectors that a true table says are busy
BUSY = {"leader", "data", "boot", "bad"}
# where the name begins in a leader page
LEADER_NAME = 12
# words of DiskDescriptor: the mark, the number of free sectors, and the first one of the table
MARK, FREE_COUNT, TABLE = 6, 7, 16
MARKS = {1: "clean", 2: "open"}


class File:
    """A living file: the sectors of its pages in use, its length in bytes, the entries in its slots, and its name in its directory."""

    def __init__(self, pack, full_name):
        self.full_name = full_name
        self.leader_at = pack.places[full_name, 0]
        self.length = end = pack.length(full_name)
        self.entries = []
        if full_name.is_directory():
            self.entries, words = read_slots(pack.words_of(full_name))
            self.length = end = 2 * words
        elif full_name == DESCRIPTOR:
            end = 2 * (TABLE + table_words(pack))
        places = [pack.places.get((full_name, number)) for number in range(end // PAGE + 2)]
        self.pages = [at for at in places if at is not None]
        self.missing = len(places) - len(self.pages)
        text = pack.value(self.leader_at)[LEADER_NAME:]
        self.leader_name = names.stored(text[1 : text[0] + 1]) or names.lost(full_name.serial())
        self.directory, self.name, self.has_entry = SYS_DIR, self.leader_name, False

    def is_system(self):
        return self.full_name in SYSTEM_FILES

    def remark(self):
        """What is said of it beside its name and its numbers."""
        said = {"directory": self.full_name.is_directory(), "no entry": not self.has_entry, f"{self.missing} missing": self.missing}
        return ", ".join(text for text, is_so in said.items() if is_so)


class Survey:
    """A pack with its files by rising full name, the kind of each sector, and of sectors with false hints which and how."""

    def __init__(self, pack):
        self.pack = pack
        living = sorted(file for file, number in pack.places if number == 0)
        self.files = {full_name: File(pack, full_name) for full_name in living}
        self.kept = keep_entries({full_name: file.entries for full_name, file in self.files.items()})
        self.give_names()
        self.titles = {full_name: self.title(full_name) for full_name in self.files}
        self.owners = {at: file for file in self.files.values() for at in file.pages}
        self.kinds = [self.kind_of(at, label) for at, label in enumerate(pack.labels)]
        self.descriptor = pack.words_of(DESCRIPTOR) if DESCRIPTOR in self.files else ()
        self.bits = "".join(f"{word:016b}" for word in self.descriptor[TABLE : TABLE + table_words(pack)])
        self.false = {}
        self.check_links()
        self.check_entries()
        self.check_table()

    def give_names(self):
        """Gives each file the name of its kept entry, or one that the files without an entry get."""
        for full_name, (directory, entry) in self.kept.items():
            file = self.files[full_name]
            file.directory, file.name, file.has_entry = directory, entry.name, True
        taken = [entry.name for directory, entry in self.kept.values() if directory == SYS_DIR]
        nameless = {it: file.leader_name for it, file in self.files.items() if not file.has_entry and not file.is_system()}
        for full_name, name in settle(nameless, taken).items():
            self.files[full_name].name = name

    def kind_of(self, at, label):
        """The kind of a sector: pages in use, second copies and pages that no file in use has are told apart."""
        if not isinstance(label, Label):
            return label
        if at in self.owners:
            return "leader" if label.number == 0 else "data"
        if self.pack.places[label[:2]] != at:
            return "copy"
        return "past" if label.file in self.files else "lost"

    def path(self, file):
        """A file as `show` lists it, and the two system files by their names alone."""
        if file.is_system():
            return SYSTEM_FILES[file.full_name]
        directory = "SysDir" if file.directory == SYS_DIR else self.files[file.directory].name[:-1]
        return f"{directory}>{file.name}"

    def title(self, full_name):
        """A file by its path and its full name."""
        path = self.path(self.files[full_name]) if full_name in self.files else "no living file"
        return f"{path} (#{full_name.serial()} v {full_name.version})"

    def listed(self):
        """The files in the order of `show`, after the system files: those of SysDir, then those of each directory by its name."""

        def order(file):
            directory = () if file.directory == SYS_DIR else names.folded(self.files[file.directory].name)
            return not file.is_system(), directory, names.folded(file.name), file.full_name

        return sorted(self.files.values(), key=order)

    def add_false(self, at, hint, text):
        self.false.setdefault(at, []).append((hint, text))

    def check_links(self):
        """Each link of a page in use names the page beside it, or is ones at the end of its file."""
        for at, file in self.owners.items():
            label, words = self.pack.labels[at], self.pack.words[at]
            is_last = label.number > 0 and label.count < PAGE
            for hint, word, number in (("next", NEXT, None if is_last else label.number + 1), ("previous", PREVIOUS, label.number - 1)):
                place = self.pack.places.get((file.full_name, number))
                if words[word] != (ONES if place is None else self.pack.reals[place]):
                    meant = "there is none" if place is None else f"sector {place} is meant"
                    self.add_false(at, hint, f"{hint} link: {self.link_text(words[word])}, and {meant}")

    def link_text(self, real):
        """What a link names, in words."""
        if real == ONES:
            return "none"
        at = self.pack.virtuals.get(real)
        return f"no sector ({real})" if at is None else f"sector {at}"

    def check_entries(self):
        """The address of each kept entry is that of its file's leader. The mark stands on the directory's page that has the address."""
        for full_name, (directory, entry) in self.kept.items():
            leader_at = self.files[full_name].leader_at
            if entry.address != leader_at:
                at = self.pack.places[directory, entry.word * 2 // PAGE + 1]
                self.add_false(at, "entry", f"address in entry {entry.name}: sector {entry.address}, and sector {leader_at} is meant")

    def check_table(self):
        """The table is busy at sector 0, at bad sectors and at those in use, and at no other. Bits that it hasn't got aren't judged."""
        for at, (bit, kind) in enumerate(zip(self.bits, self.kinds)):
            if (bit == "1") != (kind in BUSY):
                text = "free in place of busy" if kind in BUSY else "busy in place of free"
                self.add_false(at, "table", f"bit of the table: {text}")

    def counts(self):
        """How many sectors are of each kind."""
        return {kind: self.kinds.count(kind) for kind in KINDS}

    def false_counts(self):
        """How many hints of each sort are false."""
        found = [hint for hints in self.false.values() for hint, _ in hints]
        return {hint: found.count(hint) for hint in HINTS}

    def remarks(self):
        """What is said of the whole pack, in lines. Those of false hints begin with `false`."""
        pack, words, free = self.pack, self.descriptor, self.kinds.count("free")
        drives = "1 drive" if pack.drives == 1 else "2 drives"
        yield f"{pack.sectors} sectors: {drives} of {pack.cylinders} cylinders, {HEADS} heads, {TRACK} sectors a track"
        if len(words) <= FREE_COUNT:
            yield "no DiskDescriptor that says which sectors are busy"
            return
        yield f"marked {MARKS.get(words[MARK], words[MARK])}"
        if words[FREE_COUNT] != free:
            yield f"false number of free sectors: {words[FREE_COUNT]}, and there are {free}"
        if len(self.bits) < pack.sectors:
            yield f"no bit of the table for {pack.sectors - len(self.bits)} sectors"
        if "1" in self.bits[pack.sectors :]:
            yield "false bits of the table after the last sector: busy"

    def hover(self, at):
        """What a sector says of itself: what it is, where, its label, and which of its hints are false."""
        label, kind = self.pack.labels[at], self.kinds[at]
        lines = [KINDS[kind], self.where(at)]
        if isinstance(label, Label):
            words = self.pack.words[at]
            lines[0] = self.page_text(label, kind)
            lines.append(f"{words[BYTES]} bytes, next {self.link_text(words[NEXT])}, previous {self.link_text(words[PREVIOUS])}")
        if kind == "bad":
            lines.append(f"its header has the address {self.pack.headers[at]}, and not {self.pack.reals[at]}")
        if kind != "free":
            lines.append("label %d %d %d %d %d %d %d %d" % self.pack.words[at])
        lines += [f"false {text}" for _, text in self.false.get(at, ())]
        return "\n".join(lines)

    def where(self, at):
        """The drive, cylinder, head and sector of a sector, each from 0."""
        drive, cylinder = divmod(at // CYLINDER, self.pack.cylinders)
        on = f", drive {drive}" if self.pack.drives == 2 else ""
        return f"sector {at}: cylinder {cylinder}, head {at // TRACK % HEADS}, sector {at % TRACK}{on}"

    def page_text(self, label, kind):
        """Which page of which file a sector has."""
        page = f"page {label.number}" if label.number else "leader page"
        note = {"copy": ", a second copy", "past": ", after its end"}.get(kind, "")
        return f"{self.titles.get(label.file) or self.title(label.file)} {page}{note}"


def table_words(pack):
    """How many words the table of busy bits has."""
    return -(-pack.sectors // 16)
