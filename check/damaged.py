#!/usr/bin/env python3
"""Run by the gate: scavenges random damaged pack files, and compares report, listings and what is left with what labels say.

Sound packs come from the typed sessions of check/sessions.py, of one drive and two; some of one drive get a second one. Each is damaged
in several ways: words of labels, links, counts, versions, leaders, directories, DiskDescriptor and headers; pages that are copied, moved,
lost, zeros or garbage; free sectors that bear pages. What a scavenge has to answer is worked out from labels (check/scavenging.py).

`show` lists the same before and after. The report has the numbers that follow, and the pack it leaves is sound and clean with every hint
true, has the same files, dates and bytes, and is entered with as many free pages as follow. Scavenged again it frees and adopts nothing,
and no byte is another. A pack that can't be scavenged is refused by the text that follows, with exit code 7, and no byte is written.
The first difference is printed, with the seed and the damage.
"""
import collections
import pathlib
import struct
import sys
import tempfile

sys.dont_write_bytecode = True
import arguments
import packs
import plain
import sessions
from listings import BLANK, HEADER, NEXT, PREVIOUS, VALUE
from packs import FREED, ONES, PAGE, SECTOR
from rows import Pack
from scavenging import DONE, Mending, faults, surveyed

sys.path.append(str(arguments.TOP / "tools"))
from packtools.directories import ADDRESS
from packtools.pack import DESCRIPTOR

# of one sound pack
DAMAGED = 10
# how many pieces of damage one pack gets, and how many leader pages at most one piece brings
PIECES, MOST_FOUND = [1, 1, 2, 3, 5, 8, 20], 200
# the words of a label, by their places in a sector
COUNT, NUMBER, VERSION, HIGH, LOW, LABEL_ENDS = 5, 6, 7, 8, 9, 10
# where the name and the hints of a leader page begin, in words of its value
NAME_AT, HINTS_AT = 6, 246
NAMES = [b"A.", b"a.", b"SysDir.", b"diskdescriptor.", b"B!2.", b"X.$1.", b"N" * 38 + b".", b"A", b"", b"A!1.", b".", b"A_."]
SLOT_HEADS = [0, 1, 7, 8, 26, 255, 1_023, 0x0400, 0x0408, 0x041A, 0x07FF, 0x0800, ONES]


class Damage:
    """A sound pack, of which words and sectors are changed by chance."""

    def __init__(self, chance, files):
        self.chance, self.image, self.drives, self.done = chance, bytearray(b"".join(files)), len(files), []
        self.survey = surveyed(files)
        self.sectors, self.reals = self.survey.pack.sectors, self.survey.pack.reals
        self.used = sorted(self.survey.owners)
        self.free = [at for at, kind in enumerate(self.survey.kinds) if kind == "free"]
        self.leaders = [file.leader_at for file in self.survey.files.values()]
        self.slots = [at for file in self.survey.files.values() if file.full_name.is_directory() for at in file.pages[1:]]

    def files(self):
        size = len(self.image) // self.drives
        return [bytes(self.image[at : at + size]) for at in range(0, len(self.image), size)]

    def add(self):
        """One more piece of damage."""
        kind = self.chance.choices(list(KINDS), KINDS.values())[0]
        self.done.append((kind, *getattr(self, kind)()))

    # places and words

    def any_used(self):
        return self.chance.choice(self.used)

    def any_sector(self):
        """Mostly one in use."""
        return self.chance.choice([self.any_used(), self.any_used(), self.chance.randrange(self.sectors)])

    def any_page(self):
        """Words of a label that name a page: the file's serial is that of a living one, mostly, and the number is small."""
        living = self.chance.choice(list(self.survey.files))
        file = self.chance.choice([living, living, (self.chance.choice([0, 0x8000, 0x7FFF]), self.chance.randrange(1, 40), 1)])
        return file, self.chance.choice([0, 0, 1, 1, 2, 3, 4, 6])

    def any_real(self):
        return self.chance.choice([0, 1, ONES, self.chance.randrange(ONES), *self.chance.choices(self.reals, k=4)])

    def any_word(self):
        return self.chance.choice([0, 1, 2, 3, 5, PAGE, PAGE + 1, 0x8000, ONES, ONES - 1, self.any_real(), self.chance.randrange(ONES)])

    def put(self, at, index, *words):
        """Other words from this place in a sector on."""
        struct.pack_into(f">{len(words)}H", self.image, at * SECTOR + 2 * index, *words)
        return at, index, *words

    def write(self, at, content):
        """Another label and value of a sector."""
        self.image[at * SECTOR + packs.LABEL_AT : (at + 1) * SECTOR] = content
        return (at,)

    def read(self, at):
        return bytes(self.image[at * SECTOR + packs.LABEL_AT : (at + 1) * SECTOR])

    # pieces of damage: each answers what it did, for who reads it

    def label(self):
        return self.put(self.any_sector(), self.chance.randrange(NEXT, LABEL_ENDS), self.any_word())

    def link(self):
        return self.put(self.any_used(), self.chance.choice([NEXT, PREVIOUS, BLANK]), self.any_real())

    def all_links(self):
        """One file's links, or those of all."""
        file = self.chance.choice(list(self.survey.files.values()))
        for at in self.chance.choice([file.pages, self.used]):
            self.put(at, NEXT, self.any_real(), self.any_real())
        return (file.full_name,)

    def own_link(self):
        at = self.any_used()
        return self.put(at, self.chance.choice([NEXT, PREVIOUS]), self.reals[at])

    def count(self):
        return self.put(self.any_used(), COUNT, self.chance.choice([0, 1, 100, 509, 511, PAGE, PAGE + 1, ONES]))

    def number(self):
        return self.put(self.any_used(), NUMBER, self.chance.choice([0, 1, 2, 3, 40, ONES]))

    def version(self):
        return self.put(self.any_used(), VERSION, self.chance.choice([0, 2, 3, ONES - 1, ONES]))

    def serial(self):
        return self.put(self.any_used(), self.chance.choice([HIGH, LOW]), self.chance.choice([0, 0x8000, 1, 2, 3, 4, 5, 9, ONES]))

    def leader_name(self):
        at, text = self.chance.choice(self.leaders), self.chance.choice(NAMES)
        words = bytes([self.chance.choice([len(text), len(text), 0, 1, 40, 255])]) + text
        return self.put(at, VALUE + NAME_AT, *struct.unpack(f">{len(words) // 2}H", words[: len(words) // 2 * 2]))

    def leader_word(self):
        """A date, a name's character, a property or a hint."""
        word = self.chance.choice([0, 3, NAME_AT, NAME_AT + 1, 30, HINTS_AT - 1, HINTS_AT + 1, 253, 255])
        return self.put(self.chance.choice(self.leaders), VALUE + word, self.any_word())

    def slot(self):
        """A word of a directory."""
        word = self.chance.randrange(PAGE // 2)
        return self.put(self.chance.choice(self.slots), VALUE + word, self.chance.choice([self.any_word(), *SLOT_HEADS]))

    def put_slot(self, directory, word, to):
        """Another word of a directory."""
        return self.put(self.survey.pack.places[directory, 2 * word // PAGE + 1], VALUE + word % (PAGE // 2), to)

    def entry(self):
        """A word of an entry: of its slot's head, its file, its address or its name."""
        directory, entry = self.chance.choice(list(self.survey.kept.values()))
        word = entry.word + self.chance.choice([-ADDRESS, -ADDRESS, -4, -3, -2, -1, 0, 0, 1, 2])
        return self.put_slot(directory, word, self.chance.choice([self.any_word(), *SLOT_HEADS]))

    def lost_entry(self):
        """An entry becomes a free slot, as by hand."""
        directory, entry = self.chance.choice(list(self.survey.kept.values()))
        return self.put_slot(directory, entry.word - ADDRESS, plain.entry_words(entry.name))

    def lost_directory(self):
        """All entries of a directory are gone: its first slots are free, and its other words are whatever they were."""
        return self.put(self.chance.choice(self.slots), VALUE, 255)

    def descriptor(self):
        """A word of DiskDescriptor: of its head, or of the table."""
        at = self.chance.choice(self.survey.files[DESCRIPTOR].pages)
        return self.put(at, VALUE + self.chance.choice([*range(9), *range(20)]), self.any_word())

    def mark(self):
        return self.put(self.survey.files[DESCRIPTOR].pages[1], VALUE + 6, self.chance.choice([0, 2, 2, 2, 3, ONES]))

    def header(self):
        return self.put(self.any_sector(), self.chance.choice([0, HEADER, HEADER]), self.any_word())

    def copied_label(self):
        """A label once more, over another value."""
        one, other = self.any_used(), self.chance.choice([self.any_sector(), *self.free[:3], *self.free[-3:]])
        return self.put(other, NEXT, *struct.unpack(">8H", self.read(one)[:16]))

    def copied_sector(self):
        one, other = self.any_used(), self.any_sector()
        self.write(other, self.read(one))
        return one, other

    def doubled_page(self):
        """A page of a directory once more above it, and fewer bytes or another first word in the lower one: its slots end otherwise."""
        one = self.chance.choice(self.slots)
        other = self.chance.choice([*filter(one.__lt__, self.free), self.sectors - 1])
        self.write(other, self.read(one))
        return one, other, *self.put(one, *self.chance.choice([(COUNT, self.chance.choice([0, 0, 2, 100])), (VALUE, self.any_word())]))

    def swapped(self):
        """Two sectors in each other's place."""
        one, other = self.any_used(), self.any_sector()
        first, second = self.read(one), self.read(other)
        self.write(one, second)
        self.write(other, first)
        return one, other

    def lost_leader(self):
        return self.write(self.chance.choice(self.leaders), FREED)

    def lost_page(self):
        return self.write(self.any_used(), FREED)

    def zeros(self):
        return self.write(self.any_sector(), bytes(len(FREED)))

    def zero_sectors(self):
        """A row of sectors, the headers too."""
        at, count = self.any_sector(), self.chance.choice([1, 2, 12])
        end = min(at + count, self.sectors)
        self.image[at * SECTOR : end * SECTOR] = bytes((end - at) * SECTOR)
        return at, end

    def garbage(self):
        return self.write(self.any_sector(), self.chance.randbytes(len(FREED)))

    def found_page(self):
        """A page on any sector, of a file that lives or doesn't."""
        (high, low, version), number = self.any_page()
        label = self.any_real(), self.any_real(), 0, self.chance.choice([0, 7, PAGE]), number, version, high, low
        return self.put(self.any_sector(), NEXT, *label)

    def found_files(self):
        """Leader pages on free sectors, of files without an entry: on all, on nearly all, or on some."""
        text, free = self.chance.choice([*NAMES, *NAMES, None]), self.free[:MOST_FOUND]
        count = self.chance.choice([len(free), len(free) - 1, len(free) // 2, len(free) // 2 - 1, 5, 12])
        for n, at in enumerate(self.chance.sample(free, max(0, min(count, len(free))))):
            name = NAMES[n % len(NAMES)] if text is None else text
            label = struct.pack(">8H", ONES, ONES, 0, PAGE, 0, 1, self.chance.choice([0, 0, 0, 0x8000]), 1_000 + n)
            self.write(at, label + packs.leader(name).ljust(PAGE, b"\0"))
        return count, text

    def lost_serials(self):
        """Data pages without a leader page on free sectors."""
        for at in self.free[: self.chance.choice([1, 3, 30])]:
            self.put(at, NEXT, ONES, ONES, 0, PAGE, self.chance.randrange(1, 9), 1, 0, 2_000)
        return ()

    def root_header(self):
        return self.put(1, self.chance.choice([0, HEADER]), self.any_word())

    def root_taken(self):
        """Another page on sector 1."""
        return self.write(1, self.read(self.any_used()))

    def root_moved(self):
        """SysDir's leader page on a free sector, and any page, or none, on sector 1."""
        other = self.chance.choice([*self.free[:2], *self.free[-2:], self.any_used()])
        first, second = self.read(1), self.read(other)
        self.write(other, first)
        self.write(1, self.chance.choice([first, second, FREED, self.chance.randbytes(len(FREED))]))
        return (other,)


# how often each kind comes
KINDS = {
    **dict.fromkeys(["label", "link", "entry", "slot", "count", "header", "copied_label", "copied_sector"], 6),
    **dict.fromkeys(["number", "version", "serial", "leader_name", "leader_word", "lost_leader", "lost_page", "lost_entry"], 5),
    **dict.fromkeys(["descriptor", "mark", "swapped", "zeros", "garbage", "found_page", "own_link", "all_links"], 4),
    **dict.fromkeys(["found_files", "lost_serials", "lost_directory", "zero_sectors", "doubled_page"], 2),
    **dict.fromkeys(["root_header", "root_taken", "root_moved"], 1),
}


def damaged(chance, files):
    """These files of a sound pack, with one or more pieces of damage."""
    damage = Damage(chance, files)
    for _ in range(chance.choice(PIECES)):
        damage.add()
    return damage


def sound_pack(program, folder, history):
    """The files of a pack after typed sessions, or of one that has just got a second drive."""
    pack = history.pack(program, folder)
    for lines, _ in history.sessions():
        pack.run(["boot"], history.keys(lines))
    files = pack.images()
    if len(files) == 1 and history.chance.randrange(5) == 0:
        files.append(packs.prepared(history.cylinders, 1))
    return files


def complaint(pack, mending):
    """What is wrong with a scavenge of a pack, or None."""
    files, listed = pack.images(), pack.run(["show"])
    ended, left, wanted = pack.run(["scavenge"]), pack.images(), (*mending.answer(), b"")
    if ended != wanted:
        return f"scavenge: {ended}, and not {wanted}"
    if mending.refusal():
        return None if left == files else "a pack that can't be scavenged is written"
    found = pack.run(["show"])
    if found != listed:
        return f"show: {found}, and {listed} before"
    wrong = next(faults(mending, surveyed(left)), None)
    if wrong:
        return wrong
    entered, wanted = pack.run(["boot"], b"free\n"), (DONE, b"%d pages free\n" % mending.free(), b"")
    if entered != wanted:
        return f"boot: {entered}, and not {wanted}"
    report = b"scavenged: files %d, freed 0, bad %d, adopted 0\n" % (mending.files(), mending.counts["bad"])
    again = pack.run(["scavenge"])
    if again != (DONE, report, b""):
        return f"scavenged again: {again}, and not {report}"
    return None if pack.images() == left else "scavenged again: other bytes"


def kind_of(refusal):
    """A scavenge in two words at most."""
    return " ".join(refusal.split()[:2]).rstrip(":") if refusal else "scavenged"


def scavenges(program, seed, number):
    """What came of the damaged packs from one sound one: of each why it is refused, if it is. The first difference ends the script."""
    with tempfile.TemporaryDirectory() as folder:
        history, folder = sessions.History(seed, number), pathlib.Path(folder)
        files = sound_pack(program, folder, history)
        pack = Pack(program, folder, len(files))
        for _ in range(DAMAGED):
            damage = damaged(history.chance, files)
            for path, content in zip(pack.files, damage.files()):
                path.write_bytes(content)
            mending = Mending(surveyed(damage.files()))
            wrong = complaint(pack, mending)
            if wrong:
                print("\n".join(f"damaged: {it}" for it in [history.title, f"files of drives: {len(files)}", *damage.done, wrong]))
                sys.exit(1)
            yield mending.refusal()


def main():
    options = arguments.seeded(arguments.parser(__doc__))
    options.add_argument("--packs", type=arguments.positive, default=1_000, metavar="N", help="how many at least (default: 1000)")
    options = arguments.read(options)
    print(f"damaged: seed {options.seed}", flush=True)
    counts, number = collections.Counter(), 0
    while counts.total() < options.packs:
        number += 1
        counts.update(map(kind_of, scavenges(options.program, options.seed, number)))
    told = ", ".join(f"{count} {kind}" for kind, count in sorted(counts.items()))
    print(f"damaged: {counts.total()} packs from {number} sound ones are answered and left as follows from their labels: {told}")


if __name__ == "__main__":
    main()
