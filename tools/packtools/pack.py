"""Pack files, and what headers and labels say of each sector (docs/formats.md, Sectors and Pack files). No link is followed."""
import contextlib
import fcntl
import os
import struct
import typing

SECTOR, PAGE = 532, 512
HEADS, TRACK = 2, 12
CYLINDER = HEADS * TRACK
FEWEST, MOST = 2, 406
ONES = 0xFFFF
# the words of a label, and where a sector's value begins
NEXT, PREVIOUS, BLANK, BYTES, NUMBER, VERSION, HIGH, LOW = range(8)
VALUE = 20


class Faulty(Exception):
    """A file that can't be read or written, or isn't a pack file, in words for the user."""


class InUse(Faulty):
    """A pack file that another process has open."""

    def __init__(self, path):
        super().__init__(f"{path}: another session has it open")


class FullName(typing.NamedTuple):
    """What a label says of its file: the serial in two words, with the directory mark in the high one, and the version."""

    high: int
    low: int
    version: int

    def is_directory(self):
        return self.high >= 0x8000

    def serial(self):
        return (self.high & 0x7FFF) << 16 | self.low

    def is_in_range(self):
        return self.serial() > 0 and 1 <= self.version < ONES


SYS_DIR, DESCRIPTOR = FullName(0x8000, 1, 1), FullName(0, 2, 1)


class Label(typing.NamedTuple):
    """What counts of the label of a sector that carries a page: the file, the page's number, and how many of its bytes count."""

    file: FullName
    number: int
    count: int


class Pack:
    """The sectors of a pack: the addresses in their headers, their labels, what each is by its own, and the lowest with each page."""

    def __init__(self, drives, data):
        self.drives, self.data = drives, data
        self.cylinders = len(data) // (SECTOR * CYLINDER) // drives
        self.sectors = len(data) // SECTOR
        self.reals = [real_of(at, self.cylinders) for at in range(self.sectors)]
        self.virtuals = {real: at for at, real in enumerate(self.reals)}
        records = list(struct.iter_unpack(f">2H8H{PAGE}x", data))
        self.headers, self.words = [record[1] for record in records], [record[2:] for record in records]
        # the files that labels name, or None for words that name none
        self.named = {}
        # where no page is carried there is a word in its place: boot, bad, free or stray
        self.labels = [self.read_label(at) for at in range(self.sectors)]
        self.places = {}
        for at, label in enumerate(self.labels):
            if isinstance(label, Label):
                self.places.setdefault(label[:2], at)

    def read_label(self, at):
        """What a sector is by its own header and label."""
        if at == 0:
            return "boot"
        if self.headers[at] != self.reals[at]:
            return "bad"
        words = self.words[at]
        name = words[VERSION:]
        if name == (ONES, ONES, ONES):
            return "free"
        if name not in self.named:
            version, high, low = name
            file = FullName(high, low, version)
            self.named[name] = file if file.is_in_range() else None
        file = self.named[name]
        return Label(file, words[NUMBER], words[BYTES]) if file is not None and words[BYTES] <= PAGE else "stray"

    def value(self, at, count=PAGE):
        """The first bytes of a sector's value."""
        start = at * SECTOR + VALUE
        return self.data[start : start + count]

    def data_pages(self, file):
        """The sectors of a file's bytes: pages 1, 2 and so on, up to the first that is missing or not full."""
        number, found = 1, []
        while (file, number) in self.places:
            found.append(self.places[file, number])
            if self.labels[found[-1]].count < PAGE:
                break
            number += 1
        return found

    def length(self, file):
        return sum(self.labels[at].count for at in self.data_pages(file))

    def words_of(self, file):
        """The bytes of a file in pairs; a last odd byte is left out."""
        content = b"".join(self.value(at, self.labels[at].count) for at in self.data_pages(file))
        return struct.unpack(f">{len(content) // 2}H", content[: len(content) // 2 * 2])


def real_of(at, cylinders):
    """The real address of a sector of a pack with so many cylinders on each drive."""
    drive, cylinder = divmod(at // CYLINDER, cylinders)
    return at % TRACK << 12 | cylinder << 3 | at // TRACK % HEADS << 2 | drive << 1


def is_same_file(one, other):
    """Whether two paths lead to one file."""
    try:
        return os.path.samefile(one, other)
    except OSError:
        return False


def read_files(path, second=None, is_lent=False):
    """The bytes of a pack's one file, or of two of one length, under a shared lock on all of them. Raises `InUse` if a program that may
    write one has it open; `is_lent` says that it is a program of ours, which writes nothing while it waits for a line."""
    paths = [path] if second is None else [path, second]
    with contextlib.ExitStack() as opened:
        files = [opened.enter_context(open_file(it, is_lent)) for it in paths]
        contents = [read_file(*it) for it in zip(files, paths)]
    if len({len(it) for it in contents}) > 1:
        raise Faulty(f"{path} and {second}: unlike packs: {len(contents[0])} and {len(contents[1])} bytes")
    return contents


def open_file(path, is_lent):
    """A pack file that is open for reading, with a shared lock unless it is lent."""
    try:
        file = open(path, "rb")
    except OSError as error:
        raise Faulty(f"{path}: {error.strerror}") from error
    try:
        if not is_lent:
            fcntl.flock(file, fcntl.LOCK_SH | fcntl.LOCK_NB)
        return file
    except OSError as error:
        file.close()
        raise (InUse(path) if isinstance(error, BlockingIOError) else Faulty(f"{path}: {error.strerror}")) from None


def read_file(file, path):
    """The bytes of an open pack file. No more are read than the largest has, and one."""
    largest = MOST * CYLINDER * SECTOR
    try:
        data = file.read(min(largest, os.fstat(file.fileno()).st_size or largest) + 1)
    except OSError as error:
        raise Faulty(f"{path}: {error.strerror}") from error
    cylinders, rest = divmod(len(data), CYLINDER * SECTOR)
    if rest or not FEWEST <= cylinders <= MOST:
        length = len(data) if len(data) <= largest else f"more than {largest}"
        raise Faulty(f"{path}: bad length: {length} bytes, and not {FEWEST} to {MOST} cylinders of {CYLINDER * SECTOR} bytes")
    return data


def pack_of(files):
    """The pack whose drives have these files."""
    return Pack(len(files), b"".join(files))


def read_pack(path, second=None, is_lent=False):
    """The pack of one file, or that of two of one length."""
    return pack_of(read_files(path, second, is_lent))
