#!/usr/bin/env python3
"""Run by the gate: random typed sessions over real pack files give the replies of a plain program, and leave what it lists.

check/plain.py is that program. Each pack begins as `format` leaves it, with dates of 0; some have given out most serials. Several
sessions come one after another on each, in different moods, so that packs become full and empty again; each session begins with
`settime 1000`, and the last one on a pack tells all its names, bytes and dates. What is compared is each reply, how the program ends,
and what `show` lists after each session; then the pack is marked clean, and no hint on it is false (tools/packtools). Some packs have one session
more, in which an address that was spoilt by hand is found out, so that it is in need: it writes nothing. The first difference is printed,
with the seed and all that was typed on that pack.
"""
import collections
import pathlib
import random
import sys
import tempfile

sys.dont_write_bytecode = True
import arguments
import grammar
import packs
from plain import ALL_LEVELS, BASES, FILES, PAGE, USERS, Plain
from rows import Pack, Set

sys.path.append(str(arguments.TOP / "tools"))
from packtools import names
from packtools.pack import read_pack
from packtools.survey import Survey

MOST_SESSIONS = 7
# the exit code of a session in which a hint failed
IN_NEED = 2
# of a session
LINES = [5, 25, 60, 120]
SHAPES = [(1, 2)] * 12 + [(2, 2)] * 4 + [(1, 3), (1, 5), (2, 3), (1, 203)]
# the last serial that was given out: the first, some before the high word counts, and some before none is left
LAST_SERIALS = [2] * 8 + [65_530, 2**31 - 10]
# how often verbs come beside once each
MOODS = [
    {"make": 3, "append": 9, "patch": 9, "cut": 6, "type": 4, "stat": 3, "copy": 2},
    {"make": 8, "mkdir": 5, "rename": 8, "copy": 3, "delete": 4, "rmdir": 3, "list": 4},
    {"make": 50},
    {"append": 14, "copy": 4, "make": 3, "mkdir": 1, "rename": 2, "free": 2},
    {"delete": 12, "cut": 5, "rmdir": 4, "rename": 3},
    {"odd": 20},
    # zones that become full, and levels that are low
    {"block": 30, "unblock": 16, "store": 12, "fetch": 12, "junta": 2, "counterjunta": 1},
    {"junta": 10, "counterjunta": 10, "block": 12, "unblock": 6, "store": 4, "fetch": 4},
]
ON_MEMORY = ["block", "counterjunta", "fetch", "junta", "store", "unblock"]
# the most blocks of which the ends are told
MOST_BLOCKS = 40
SHORT = ["A", "B", "a", "b", "C", "c.d", "X+1", "D", "E", "$-.", "SysDir", "diskdescriptor"]
# of 35 and 36 letters version 2 is the longest name or one less, of 37 it is too long, and of 38 version 1 is the longest
LONG = [letter * length for letter in "jklmn" for length in (35, 36, 37, 38)]
VERSIONS = [0, 1, 2, 3, 9, 10, 65_533, 65_534, 65_535]
MOMENTS = [0, 1_000, 999_999_999, 2**32 - 1]
# a line of 4,097 bytes, which is bad, and one of 4,096
FULL = [f"patch {'d' * 38}.>{'n' * 38}{dot} 0000000000 {'00' * 2000}" for dot in (".", "")]
# lines that are bad, most of them
ODD = (
    "| |make|make A B|make >A|make A>|make A>B>C|make A!2>B|make A!01|make A!2!3|make !2|make .|make #3|delete #3|rename #3 A|copy A #3"
    "|stat #|stat #x|stat #3!1|stat A>#3|stat #4294967296|stat #00000000003|list D!2|list D>E|list #1|mkdir D!2|mkdir D>E|rmdir D!1|free A"
    "|quit now|settime -1|settime 4294967296|append A|append A 4|append A 0x|patch A 0|patch A - 00|cut A 0a|type \u00c1|scavenge"
    "|open A|get 0 1|putb 0 00|seek 0 0|close 0|outload A|inload A -|store 1|store 1 2 3|store 65536 0|store 0 65536|store -1 0|fetch|fetch 65536"
    "|fetch A|fetch 00000000001|block|block 0|block 65536|block -|unblock 65536|unblock|junta 0|junta 9|junta|junta 5 5|counterjunta 8|Junta 8"
).split("|")
ODD += [f"append A {'00' * 2001}", f"make {'a' * 39}", f"make {'a' * 37}!2", *("x" * length for length in (4_096, 4_097, 5_120, 5_121, 5_122, 9_000)), *FULL]
# what spoils a line, mostly
FAULTS = [" {}", "{} ", "{} A", "{}\t", "{}\r", "{}\0", "{}\u00ff"]


class Typist:
    """Types random lines, most of them about files that are there. The plain program obeys each at once."""

    def __init__(self, chance, plain):
        self.chance, self.choose, self.plain = chance, chance.choice, plain
        self.bases, self.home, self.at_memory, self.lines, self.replies = SHORT, None, False, [], []
        # the addresses that were last stored to
        self.stored = [0]

    def session(self, count, is_last):
        """So many lines in some mood, and the replies to them, after the line that every session begins with."""
        self.begin()
        if self.rarely(3):
            self.type("mkdir D")
        self.bases = self.choose([SHORT, SHORT, LONG, SHORT + LONG])
        self.home = self.choose([*self.directories(), *self.directories()[-1:] * 3])
        mood = self.choose(MOODS)
        self.at_memory = "block" in mood
        weights = collections.Counter(grammar.GRAMMAR.keys() - {"quit"} | {"odd"}) + collections.Counter(mood)
        verbs = sorted(weights)
        for verb in self.chance.choices(verbs, [weights[verb] for verb in verbs], k=count):
            if not self.at_memory and self.rarely(3):
                self.restore()
            self.type(self.line(verb))
        if is_last:
            self.everything()
        if self.rarely(5):
            self.type("quit")
            self.lines += [b"make A", b"quit"]
        return self.lines, self.replies

    def in_need(self, count):
        """A session that is told by a line that an address is false, after some on the memory and before so many of any verb."""
        self.begin()
        self.at_memory = True
        for _ in range(self.chance.randrange(count)):
            self.type(self.line(self.choose(ON_MEMORY)))
        self.restore(FILES)
        base, version = names.parts(self.plain.mislaid.name)
        self.type(f"{self.choose(['type', 'stat'])} {self.spelled(base)}!{version}")
        for verb in self.chance.choices([*grammar.GRAMMAR, "odd", "counterjunta", "counterjunta"], k=count):
            self.type(self.line(verb if verb != "quit" else "counterjunta"))
        return self.lines, self.replies

    def begin(self):
        self.plain.begin()
        self.lines, self.replies = [], []
        self.type("settime 1000")

    def type(self, text):
        self.lines.append(text.encode("latin-1"))
        self.replies.append(self.plain.obey(self.lines[-1]))

    def everything(self):
        """Types lines that tell all that is there."""
        for address in [0, USERS - 1, USERS, *(it for at, block in self.plain.memory.placed()[:MOST_BLOCKS] for it in ends(at, block))]:
            self.type(f"fetch {address}")
        self.restore()
        self.type("list")
        for file in self.plain.files.values():
            if file not in self.plain.system:
                self.type(f"stat #{file.serial}")
                self.type(f"list {file.name}" if file.is_directory() else f"type #{file.serial}")

    def restore(self, least=ALL_LEVELS):
        """Types what brings all services back, unless this level is there. At level 1 no block goes back, so one that is used may be in the
        way."""
        if self.plain.memory.level < least:
            for at, block in self.plain.memory.used():
                if at + block.size > BASES[ALL_LEVELS]:
                    self.type(f"unblock {at + 1}")
            self.type("counterjunta")

    def rarely(self, times):
        """Once in so many times."""
        return self.chance.randrange(times) == 0

    # operands

    def spelled(self, base):
        text = base[:-1] if not base.endswith("..") and not self.rarely(6) else base
        return text.swapcase() if self.rarely(8) else text

    def directories(self):
        return [it for it in self.plain.root.entries() if it.file.is_directory()]

    def name(self):
        """The name of a directory that is there, or any."""
        return self.choose(self.bases) if self.rarely(3) else self.spelled(self.choose(self.directories()).name)

    def within(self, directory):
        """What is typed before a name in a directory."""
        return "" if directory is self.plain.root and not self.rarely(9) else f"{self.spelled(directory.name)}>"

    def old(self):
        """The path of an ordinary file, mostly, and the file. A path without a version may mean another one."""
        entries = [(it.file, entry) for it in self.plain.root.entries() for entry in it.file.entries()]
        ordinary = [(directory, it) for directory, it in entries if it.file not in self.plain.system and not it.file.is_directory()]
        directory, entry = self.choose(entries if self.rarely(12) or not ordinary else ordinary)
        base, version = names.parts(entry.name)
        return self.within(directory) + self.spelled(base) + self.choose(["", "", f"!{version}", f"!{version}."]), entry.file

    def new(self):
        before = self.choose(["", *[self.within(it.file) for it in (self.home, self.home, self.choose(self.directories()))]])
        before = f"{self.choose(self.bases)}>" if self.rarely(15) else before
        return before + self.choose(self.bases) + (f"!{self.choose(VERSIONS)}" if self.rarely(4) else "")

    def file(self):
        path, file = self.old()
        serials = [f"#{file.serial}", f"#{file.serial:010}", f"#{self.choose([0, self.plain.last + 1, 2**32 - 1])}"]
        path = self.chance.choices([path, *serials, self.new()], [40, 10, 2, 1, 2])[0]
        return path, file

    def number(self, length):
        """A place in a file, at its end or a page's, beside one, or anywhere."""
        near = self.choose([0, length, length // PAGE * PAGE, length // PAGE * PAGE - PAGE]) + self.choose([-1, 0, 0, 0, 1])
        return max(0, self.choose([near, near, self.chance.randrange(length + 1)]))

    def hex(self, gap):
        """Bytes up to the end of such a gap, beside it, or any other number."""
        sizes = [0, 1, gap - 1, gap, gap, gap + 1, 511, 512, 513, 1_024, 2_000, self.chance.randrange(600)]
        digits = self.chance.randbytes(min(max(0, self.choose(sizes)), 2_000)).hex() or "-"
        return digits.upper() if self.rarely(5) else digits

    def address(self):
        """The address of a word at an end of a block, of one beside it, of one within, or any."""
        at, block = self.choose(self.plain.memory.placed())
        places = [*ends(at, block), at + 1, at + self.chance.randrange(block.size), self.chance.randrange(USERS), self.chance.randrange(65_536)]
        places += [0, USERS - 1, USERS, BASES[self.plain.memory.level] - 1, BASES[self.plain.memory.level], 65_535]
        return min(self.choose(places), 65_535)

    def words(self):
        """How many words a block is to have: few, those of a free one, or one more or less."""
        sizes = [block.size for _, block in self.plain.memory.placed() if block.words is None] or [0]
        near = self.choose([self.choose(sizes), max(sizes)]) - self.choose([0, 1, 1, 2, 3])
        few = self.choose([1, 2, 3, self.chance.randrange(1, 60), self.chance.randrange(1, 9_000)])
        return min(max(1, self.choose([few, few, few, near, near, self.chance.randrange(max(sizes) + 1), 65_535])), 65_535)

    def taken(self):
        """The first usable word of a used block, mostly."""
        used = self.plain.memory.used()
        return self.choose(used)[0] + 1 if used and not self.rarely(5) else self.address()

    def level(self):
        """A level: in a session on the memory any, or the next lower one; in another mostly one at which files are there."""
        if self.at_memory:
            return self.choose([max(1, self.plain.memory.level - 1), self.chance.randint(1, ALL_LEVELS)])
        return self.chance.randint(1 if self.rarely(4) else FILES, ALL_LEVELS)

    # lines

    def line(self, verb):
        if verb == "odd" and self.rarely(2):
            return self.choose(FAULTS).format(self.line(self.choose(list(grammar.GRAMMAR))))
        if verb == "odd":
            return self.choose(ODD)
        (path, _), (operand, file) = self.old(), self.file()
        length = file.length()
        place = self.number(length)
        match verb:
            case "append":
                operands = [operand, self.hex(-length % PAGE)]
            case "patch":
                operands = [operand, str(place), self.hex(length - place)]
            case "cut":
                operands = [operand, f"{place:0{self.choose([1, 1, 10])}}"]
            case "settime":
                operands = [str(self.choose(MOMENTS))]
            case "store":
                self.stored = [self.address(), *self.stored[:9]]
                operands = [str(self.stored[0]), f"{self.choose([0, 1, 65_535, self.chance.randrange(65_536)]):0{self.choose([1, 1, 10])}}"]
            case "fetch":
                operands = [str(self.choose([self.address(), self.address(), *self.stored[:3]]))]
            case "block":
                operands = [f"{self.words():0{self.choose([1, 1, 1, 10])}}"]
            case "unblock":
                operands = [str(self.taken())]
            case "junta":
                operands = [f"{self.level():0{self.choose([1, 1, 1, 2])}}"]
            case "make":
                operands = [self.new()]
            case "copy":
                operands = [operand, self.new()]
            case "rename":
                operands = [path, self.new()]
            case "delete":
                operands = [path]
            case "mkdir":
                operands = [self.choose(self.bases)]
            case "list":
                operands = [] if self.rarely(3) else [self.name()]
            case "rmdir":
                operands = [self.name()]
            case "type" | "stat":
                operands = [operand]
            case _:
                operands = []
        return " ".join([verb, *operands])


def ends(at, block):
    """Addresses about the ends of a block: its tag, its first word and its last, and the one after it."""
    return at, at + 1, at + block.size - 1, at + block.size


class History:
    """All sessions on one pack. Those of one seed and number are the same at each run."""

    def __init__(self, seed, number):
        self.chance = random.Random(f"{seed} {number}")
        self.drives, self.cylinders = self.chance.choice(SHAPES)
        self.last = self.chance.choice(LAST_SERIALS)
        self.plain = Plain(self.drives, self.cylinders, self.last)
        self.typist = Typist(self.chance, self.plain)
        self.title = f"seed {seed}, pack {number}: {self.drives} drives of {self.cylinders} cylinders, last serial {self.last}"
        self.typed = []

    def pack(self, program, folder):
        """The files of the pack before the first session."""
        pack = Pack(program, folder, self.drives)
        for file, content in zip(pack.files, packs.formatted(self.drives, self.cylinders, 1)):
            file.write_bytes(content)
        pack.do(Set(4, {4: self.last >> 16, 5: self.last & packs.ONES}))
        return pack

    def sessions(self):
        """The lines of each session and the replies to them."""
        count = self.chance.randint(1, MOST_SESSIONS)
        for number in range(count):
            lines, replies = self.typist.session(self.chance.choice(LINES), number == count - 1)
            self.typed += [f"session {number + 1}", *map(repr, lines)]
            yield lines, replies

    def in_need(self, pack):
        """Once in some times spoils the address in an entry of the first page of SysDir, and answers the lines of a session that is then in
        need, and the replies to them; or None."""
        entries = [it for it in self.plain.root.entries() if it.file not in self.plain.system and not it.file.is_directory()]
        entries = [it for it in entries if self.plain.address_word(it) < PAGE // 2]
        if not entries or self.chance.randrange(4) > 0:
            return None
        self.plain.mislaid = self.chance.choice(entries)
        word = self.plain.address_word(self.plain.mislaid)
        pack.do(Set(2, {word: 0}))
        lines, replies = self.typist.in_need(self.chance.choice(LINES))
        self.typed += [f"word {word} of SysDir, an address, becomes 0; one more session", *map(repr, lines)]
        return lines, replies

    def tell(self, wrong):
        """Prints all that was typed, and what is wrong after it."""
        for text in [*self.typed, self.title, wrong]:
            print(f"sessions: {text}")

    def keys(self, lines):
        """The typed bytes of these lines. The last one may end with the input, unless it is empty."""
        return b"\n".join(lines) + (b"" if lines[-1] and self.chance.randrange(3) == 0 else b"\n")


def difference(lines, replies, shown):
    """The first line that isn't replied to as wanted, or None."""
    at = 0
    for line, reply in zip(lines, replies):
        if shown[at : at + len(reply)] != reply:
            return f"{line!r}: {shown[at : at + len(reply) + 80]!r}, and not {reply!r}"
        at += len(reply)
    return f"after the last line: {shown[at:]!r}" if shown[at:] else None


def complaint(history, pack, lines, replies):
    """What is wrong in a session, or None."""
    before, plain = pack.images(), history.plain
    code, shown, error = pack.run(["boot"], history.keys(lines))
    wrong = difference(lines, replies, shown)
    if wrong or (code, error) != (IN_NEED if plain.in_need else 0, b""):
        return wrong or f"the end: exit code {code}, {error!r}"
    if plain.mislaid and pack.images() != before:
        return "a session that obeyed no line on files wrote to the pack"
    listed, wanted = pack.run(["show"]), (0, plain.listing(), b"")
    if listed != wanted:
        return f"show: {listed}, and not {wanted}"
    if plain.mislaid:
        return None
    survey = Survey(read_pack(*pack.files))
    _, *remarks = survey.remarks()
    return f"hints: {survey.false}, {remarks}" if survey.false or remarks != ["marked clean"] else None


def with_last(history, pack):
    """The sessions on a pack, and the one that is in need, if there is one."""
    yield from history.sessions()
    last = history.in_need(pack)
    if last:
        yield last


def main():
    options = arguments.seeded(arguments.parser(__doc__))
    options.add_argument("--sessions", type=arguments.positive, default=1_000, metavar="N", help="how many at least (default: 1000)")
    options = arguments.read(options)
    print(f"sessions: seed {options.seed}", flush=True)
    count = number = typed = 0
    while count < options.sessions:
        number += 1
        history = History(options.seed, number)
        with tempfile.TemporaryDirectory() as folder:
            pack = history.pack(options.program, pathlib.Path(folder))
            for lines, replies in with_last(history, pack):
                count, typed = count + 1, typed + len(replies)
                wrong = complaint(history, pack, lines, replies)
                if wrong:
                    history.tell(wrong)
                    sys.exit(1)
    print(f"sessions: {count} sessions of {typed} lines on {number} packs are replied to as by check/plain.py")


if __name__ == "__main__":
    main()
