"""Run by other scripts: a plain program that answers typed lines by names, bytes and blocks alone.

No sector, label, link, address of a page or table stands in it. A pack is its files by their serials, each with its name, its dates and its
bytes; a directory has slots in place of bytes. The memory of a session is the user's words and a list of blocks. What a line is answered, and which operations it makes in which order, was written from
docs/commands.md, docs/formats.md and docs/model.md, and never from what the proved program answered. An operation is a call without
arguments, so a line may be left in the middle.
"""
import itertools
import sys
import typing
from functools import partial

import arguments
import grammar

sys.path.append(str(arguments.TOP / "tools"))
from packtools import directories, names

PAGE = 512
LAST_VERSION, LAST_SERIAL = 65_534, 2**31 - 2
# words: of the longest entry and the longest free slot, and those that making a directory and widening one give it
LONGEST_ENTRY, LONGEST_SLOT, FIRST_SLOT, WIDER = 26, 1_023, 255, 256
# how many words are the user's, and the word from which on each level of service stands
USERS = 1_024
BASES = {1: 64_512, 2: 63_488, 3: 61_440, 4: 57_344, 5: 53_248, 6: 49_152, 7: 45_056, 8: 40_960}
ALL_LEVELS = grammar.LEVELS
# the level that a line needs, where it isn't that of files
FILES = 5
NEEDED = {"mkdir": 7, "rmdir": 7, "free": 3, "block": 2, "unblock": 2}
NEEDED.update(dict.fromkeys(["settime", "store", "fetch", "junta", "counterjunta", "quit"], 1))
OBEYED_IN_NEED = ("counterjunta", "quit")
# what an operand has to be
ANY, ORDINARY, DIRECTORY, NEW = "any file", "an ordinary file", "a directory", "a new name"


class Refused(Exception):
    """A line that is refused: its text."""


class Misled(Refused):
    """One that is answered by a hint that failed."""


class Entry(typing.NamedTuple):
    """A slot of a directory that isn't free. A free one is the number of its words."""

    name: str
    file: "File"

    def words(self):
        return entry_words(self.name)


def entry_words(name):
    return 6 + (len(name) + 2) // 2


def words_of(slot):
    return slot.words() if isinstance(slot, Entry) else slot


def is_free(slot):
    return not isinstance(slot, Entry)


class File:
    """An ordinary file, or a directory, which has slots and no bytes. The name is that in its leader page."""

    def __init__(self, serial, name, moment, slots=None):
        self.serial, self.name, self.content, self.slots = serial, name, b"", slots
        self.created = self.written = self.read = moment

    def is_directory(self):
        return self.slots is not None

    def length(self):
        return 2 * sum(map(words_of, self.slots)) if self.is_directory() else len(self.content)

    def pages(self):
        return 2 + self.length() // PAGE

    def told(self):
        """The name, the dates, and the bytes of an ordinary file."""
        return self.name, self.created, self.written, self.read, None if self.is_directory() else self.content

    def entries(self):
        return [slot for slot in self.slots or [] if not is_free(slot)]

    def entry(self, name):
        return next((it for it in self.entries() if names.folded(it.name) == names.folded(name)), None)

    def versions(self, base):
        """The entries with this base by their versions."""
        found = [it for it in self.entries() if names.folded(it.name)[0] == base.lower()]
        return {names.parts(it.name)[1]: it for it in found}

    def largest_run(self):
        """The most free words that stand in a row."""
        return max((sum(run) for free, run in itertools.groupby(self.slots, is_free) if free), default=0)

    def place(self, entry):
        """Puts an entry into the first room: the fewest free slots in a row that have its words, and few enough for one slot."""
        for first in range(len(self.slots)):
            row = itertools.takewhile(is_free, self.slots[first:])
            sums = list(itertools.accumulate(row))
            count, words = next(((n, it) for n, it in enumerate(sums, 1) if it >= entry.words()), (0, 0))
            if 0 < words <= LONGEST_SLOT:
                left = words - entry.words()
                self.slots[first : first + count] = [entry, left] if left else [entry]
                return
        raise AssertionError("the directory has room")


class Found(typing.NamedTuple):
    """What an operand means: its path and the directory in which it is sought, of a serial none, and the entry and the file if there."""

    path: grammar.Path | None
    directory: File | None
    entry: Entry | None
    file: File | None


class Block:
    """A block of the zone: how many words it has, its tag among them, and the others if it is used, or None."""

    def __init__(self, size, words=None):
        self.size, self.words = size, words


class Memory:
    """The memory of a session: the user's words, and the blocks of the zone from the lowest on. At the start one free block is all of it."""

    def __init__(self):
        self.user, self.level = [0] * USERS, ALL_LEVELS
        self.blocks = [Block(BASES[ALL_LEVELS] - USERS)]

    def placed(self):
        """Each block with the address of its tag."""
        return list(zip(itertools.accumulate((it.size for it in self.blocks), initial=USERS), self.blocks))

    def used(self):
        return [(at, block) for at, block in self.placed() if block.words is not None]

    def place(self, address):
        """The words among which the one at this address may be stored to, and its place there; or a refusal."""
        if address < USERS:
            return self.user, address
        for at, block in self.used():
            if at < address < at + block.size:
                return block.words, address - at - 1
        raise Refused("not a block")

    def join(self):
        """Makes free blocks beside each other one."""
        joined = []
        for block in self.blocks:
            if joined and joined[-1].words is None and block.words is None:
                block = Block(joined.pop().size + block.size)
            joined.append(block)
        self.blocks = joined

    def room_for(self, count):
        """Which block is the lowest free one that has so many usable words, and the words of a block that has them."""
        # with the tag, and one more where that is odd
        size = count + 1 + (count + 1) % 2
        free = [(number, it.size) for number, it in enumerate(self.blocks) if it.words is None]
        for number, most in free:
            if most >= size:
                return number, size
        raise Refused(f"no room: largest {max((most - 1 for _, most in free), default=0)}")

    def take(self, number, size):
        """Makes the first words of a free block a used one of zeros; the rest of it stays free."""
        left = self.blocks[number].size - size
        self.blocks[number : number + 1] = [Block(size, [0] * (size - 1)), *([Block(left)] if left else [])]

    def block_at(self, address):
        """The used block whose first usable word this is."""
        for at, block in self.used():
            if at + 1 == address:
                return block
        raise Refused("not a block")

    def give_back(self, block):
        block.words = None
        self.join()

    def lower(self, level):
        """The words of the services above this level, which isn't a higher one, join the zone."""
        if level < self.level:
            self.blocks.append(Block(BASES[level] - BASES[self.level]))
            self.level = level
            self.join()

    def may_restore(self):
        """Refuses if a used block has a word where a service is to stand."""
        for at, block in self.used():
            if at + block.size > BASES[ALL_LEVELS]:
                raise Refused(f"in use at {at + 1}")

    def restore(self):
        """All services come back: what the zone has from their base on, which is free, leaves it."""
        base = BASES[ALL_LEVELS]
        self.blocks = [Block(min(block.size, base - at), block.words) for at, block in self.placed() if at < base]
        self.level = ALL_LEVELS


class Plain:
    """A pack that was formatted at moment 0, with the last serial that was given out, and a session over it."""

    def __init__(self, drives, cylinders, last=2):
        self.sectors, self.last, self.moment = drives * cylinders * 24, last, 0
        self.root, self.descriptor = File(1, "SysDir.", 0, []), File(2, "DiskDescriptor.", 0)
        # a table of a bit a sector stands in whole words after 16 others
        self.descriptor.content = bytes(2 * (16 + -(-self.sectors // 16)))
        self.system = [self.root, self.descriptor]
        entries = [Entry(file.name, file) for file in self.system]
        self.root.slots = [*entries, FIRST_SLOT - sum(map(words_of, entries))]
        self.files = {file.serial: file for file in self.system}
        # the entry in SysDir whose address was spoilt by hand, so that it says 0, or None
        self.mislaid = None
        self.begin()

    # a session

    def begin(self):
        """Begins a session: its memory is a new one, and no hint has failed."""
        self.memory, self.in_need = Memory(), False

    def answer(self, line):
        """The reply to a line, and its operations, of which none is done yet."""
        try:
            read = grammar.read_line(line)
            if read is None:
                raise Refused("bad line")
            verb, operands = read
            if self.in_need and verb not in OBEYED_IN_NEED:
                raise Refused("needs scavenging")
            needed = NEEDED.get(verb, FILES)
            if needed > self.memory.level:
                raise Refused(f"needs level {needed}")
            text, operations = getattr(self, f"on_{verb}")(*operands)
        except Refused as refusal:
            text, operations = str(refusal), []
            self.in_need = self.in_need or isinstance(refusal, Misled)
        return f"{text}\n".encode(), operations

    def obey(self, line):
        reply, operations = self.answer(line)
        for operation in operations:
            operation()
        return reply

    # what operands mean

    def find(self, operand, role):
        if isinstance(operand, int):
            found = Found(None, None, None, self.files.get(operand))
        else:
            named = self.root.entry(operand.directory) if operand.directory else Entry(self.root.name, self.root)
            if named is None:
                raise Refused("no such name")
            versions = named.file.versions(operand.base)
            entry = versions.get(operand.version or max(versions, default=None))
            found = Found(operand, named.file, entry, entry and entry.file)
        if found.file is None and role != NEW:
            raise Refused("no such name")
        return found

    def mean(self, *operands):
        """What operands mean, each of which is given with what it has to be. One refusal is tested of all of them before the next one."""
        found = [(self.find(operand, role), role) for operand, role in operands]
        for it, role in found:
            if it.directory and not it.directory.is_directory() or role == DIRECTORY and not it.file.is_directory():
                raise Refused("not a directory")
            if role == ORDINARY and it.file.is_directory():
                raise Refused("is a directory")
        if any(it.file is self.descriptor for it, role in found if role != NEW):
            raise Refused("system file")
        if any(it.entry is self.mislaid for it, _ in found if it.entry):
            serial, word = self.mislaid.file.serial, self.address_word(self.mislaid)
            raise Misled(f"hint failed: entry #{self.root.serial} word {word} at 0 wanted #{serial} v 1 page 0 found none")
        return [it for it, _ in found]

    def new_name(self, found):
        """The name that a new file gets."""
        versions, version = found.directory.versions(found.path.base), found.path.version
        bare = versions.get(1)
        name = names.numbered(found.path.base, version or max(versions, default=0) + 1)
        if version in versions or not grammar.is_stored(name) or bare and (bare.file.is_directory() or bare.file in self.system):
            raise Refused("name taken")
        return name

    def address_word(self, entry):
        """Which word of SysDir is the address in an entry there."""
        return sum(map(words_of, self.root.slots[: self.root.slots.index(entry)])) + 5

    # free pages

    def free(self):
        """Sector 0 has no page."""
        return self.sectors - 1 - sum(file.pages() for file in self.files.values())

    def need(self, pages):
        if pages > self.free():
            raise Refused(f"full: needed {pages} free {self.free()}")

    def too_narrow(self, directory, name):
        """The directories that get a page first: SysDir without room for the longest entry, another one without room for this name."""
        root = [self.root] if self.root.largest_run() < LONGEST_ENTRY else []
        return root + ([directory] if directory is not self.root and directory.largest_run() < entry_words(name) else [])

    def new_file(self, directory, name, slots=None, more=0):
        """A new file, which will have so many pages more than one without bytes, and the operations that make it."""
        if self.last >= LAST_SERIAL:
            raise Refused(f"serials spent: last {self.last}")
        narrow, file = self.too_narrow(directory, name), File(self.last + 1, name, self.moment, slots)
        self.need(len(narrow) + 2 + more)
        return file, [*map(self.widening, narrow), partial(self.make, file), partial(directory.place, Entry(name, file))]

    # operations

    def widening(self, directory):
        return partial(directory.slots.append, WIDER)

    def make(self, file):
        self.files[file.serial] = file
        self.last = file.serial

    def leave(self, directory, entry):
        directory.slots[directory.slots.index(entry)] = entry.words()

    def drop(self, directory, entry):
        del self.files[entry.file.serial]
        self.leave(directory, entry)

    def put(self, file, offset, piece):
        file.content = file.content[:offset] + piece + file.content[offset + len(piece) :]

    def stamping(self, file):
        return partial(setattr, file, "written", self.moment)

    # lines: each gives its text and its operations, or is refused

    def on_list(self, name=None):
        """`list`: the names in SysDir or in this directory, by their order, and how many they are."""
        (found,) = self.mean((grammar.Path(None, name or self.root.name, 1), DIRECTORY))
        told = sorted((it.name for it in found.file.entries()), key=names.folded)
        return "\n".join([*told, f"{len(told)} entries"]), []

    def on_type(self, operand):
        """`type`: a file's bytes in hexadecimal, 32 to a line, and how many they are."""
        (found,) = self.mean((operand, ORDINARY))
        data = found.file.content
        lines = [data[at : at + 32].hex() for at in range(0, len(data), 32)]
        return "\n".join([*lines, f"{len(data)} bytes"]), []

    def on_stat(self, operand):
        """`stat`: a file's serial, length, pages, dates and the name in its leader page."""
        file = self.mean((operand, ANY))[0].file
        dates = f"created {file.created} written {file.written} read {file.read}"
        return f"#{file.serial} length {file.length()} pages {file.pages()} {dates} name {file.name}", []

    def on_make(self, path):
        """`make`: a new file of no bytes, entered under the name that it gets."""
        (found,) = self.mean((path, NEW))
        file, making = self.new_file(found.directory, self.new_name(found))
        return f"made #{file.serial}", making

    def on_append(self, operand, data):
        """`append`: these bytes after a file's last one; it is dated as written, also by none."""
        file = self.mean((operand, ORDINARY))[0].file
        whole = file.content + data
        self.need(len(whole) // PAGE - len(file.content) // PAGE)
        growing = [partial(setattr, file, "content", whole)] if data else []
        return f"length {len(whole)}", [*growing, self.stamping(file)]

    def on_patch(self, operand, offset, data):
        """`patch`: these bytes in the place of others from an offset on, a put for each page that they touch."""
        file, end = self.mean((operand, ORDINARY))[0].file, offset + len(data)
        if end > len(file.content):
            raise Refused(f"beyond length {len(file.content)}")
        places = sorted({offset, *range(offset // PAGE * PAGE + PAGE, end, PAGE), end})
        return "done", [partial(self.put, file, at, data[at - offset : to - offset]) for at, to in itertools.pairwise(places)]

    def on_cut(self, operand, length):
        """`cut`: the first bytes of a file alone stay, and it is dated as written."""
        file = self.mean((operand, ORDINARY))[0].file
        if length > len(file.content):
            raise Refused(f"beyond length {len(file.content)}")
        cutting = [partial(setattr, file, "content", file.content[:length])] if length < len(file.content) else []
        return f"length {length}", [*cutting, self.stamping(file)]

    def on_copy(self, operand, path):
        """`copy`: a new file with the bytes of another; it is dated as written if there are any."""
        old, new = self.mean((operand, ORDINARY), (path, NEW))
        data = old.file.content
        file, making = self.new_file(new.directory, self.new_name(new), more=len(data) // PAGE)
        filling = [partial(setattr, file, "content", data), self.stamping(file)] if data else []
        return f"made #{file.serial}", making + filling

    def on_rename(self, old_path, new_path):
        """`rename`: a file gets another name: in its leader page, then the old entry leaves, and then the new one comes."""
        old, new = self.mean((old_path, ORDINARY), (new_path, NEW))
        name = self.new_name(new)
        narrow = self.too_narrow(new.directory, name)
        self.need(len(narrow))
        leaving = partial(self.leave, old.directory, old.entry)
        entering = partial(new.directory.place, Entry(name, old.file))
        return "done", [*map(self.widening, narrow), partial(setattr, old.file, "name", name), leaving, entering]

    def on_delete(self, path):
        """`delete`: a file goes, and its entry becomes a free slot."""
        (found,) = self.mean((path, ORDINARY))
        return "done", [partial(self.drop, found.directory, found.entry)]

    def on_mkdir(self, name):
        """`mkdir`: a new directory in SysDir; no entry there may have this name as its base."""
        if self.root.versions(name):
            raise Refused("name taken")
        file, making = self.new_file(self.root, name, [FIRST_SLOT])
        return f"made #{file.serial}", making

    def on_rmdir(self, name):
        """`rmdir`: a directory without entries goes."""
        (found,) = self.mean((grammar.Path(None, name, 1), DIRECTORY))
        if found.file is self.root:
            raise Refused("system file")
        if found.file.entries():
            raise Refused("not empty")
        return "done", [partial(self.drop, self.root, found.entry)]

    def on_free(self):
        """`free`: how many pages are free."""
        return f"{self.free()} pages free", []

    def on_settime(self, moment):
        """`settime`: the moment of later dates."""
        return "done", [partial(setattr, self, "moment", moment)]

    def on_store(self, address, word):
        """`store`: a word into the memory, the user's or a usable one of a used block."""
        words, place = self.memory.place(address)
        return "done", [partial(words.__setitem__, place, word)]

    def on_fetch(self, address):
        """`fetch`: the word there."""
        words, place = self.memory.place(address)
        return str(words[place]), []

    def on_block(self, count):
        """`block`: so many words of the zone, which begin as 0; its text tells the address of the first."""
        number, size = self.memory.room_for(count)
        at, _ = self.memory.placed()[number]
        return f"at {at + 1}", [partial(self.memory.take, number, size)]

    def on_unblock(self, address):
        """`unblock`: the block whose first usable word this is goes back to the zone."""
        return "done", [partial(self.memory.give_back, self.memory.block_at(address))]

    def on_junta(self, level):
        """`junta`: the services above this level go; none comes back."""
        level = min(level, self.memory.level)
        return f"level {level}", [partial(self.memory.lower, level)]

    def on_counterjunta(self):
        """`counterjunta`: all services come back."""
        self.memory.may_restore()
        return f"level {ALL_LEVELS}", [self.memory.restore]

    def on_quit(self):
        """`quit`: the session is over once this is answered."""
        return "done", []

    # what the pack shows

    def settled(self):
        """The entries of SysDir except the system files', and one more for each file that no directory names."""
        named = [it.file for file in self.files.values() for it in file.entries()]
        nameless = [file for file in self.files.values() if file not in named]
        nameless.sort(key=lambda file: (file.is_directory(), file.serial))
        given = directories.settle({file: file.name for file in nameless}, [it.name for it in self.root.entries()])
        return [it for it in self.root.entries() if it.file not in self.system] + [Entry(name, file) for file, name in given.items()]

    def listing(self):
        """What `show` prints."""
        in_root, lines = in_order(self.settled()), []
        others = [(it.name[:-1], in_order(it.file.entries())) for it in in_root if it.file.is_directory()]
        for directory, entries in [("SysDir", in_root), *others]:
            for name, file in entries:
                lines.append(f"{directory}>{name} {'directory' if file.is_directory() else f'length {file.length()}'}\n")
        return "".join([*lines, f"{len(lines)} files\n"]).encode()

    def contents(self):
        """What each file is, by its serial, except the system files."""
        return {file.serial: file.told() for file in self.files.values() if file not in self.system}


def in_order(entries):
    return sorted(entries, key=lambda it: names.folded(it.name))
