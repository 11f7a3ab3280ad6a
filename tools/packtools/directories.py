"""The slots of directories (docs/formats.md, Directories), and which entries are kept (docs/model.md, Namings)."""
import struct
import typing

from packtools import names
from packtools.pack import DESCRIPTOR, SYS_DIR, FullName

# the words of an entry before its name, and which of them is the address
HEAD, ADDRESS = 6, 5
SYSTEM_FILES = {SYS_DIR: "SysDir", DESCRIPTOR: "DiskDescriptor"}
SYSTEM_NAMES = {file: names.folded(name + ".") for file, name in SYSTEM_FILES.items()}


class Entry(typing.NamedTuple):
    """A slot that names a file: the address of the file's leader page, and which word of the directory this address is."""

    file: FullName
    name: str
    address: int
    word: int


def read_slots(words):
    """The entries of a directory up to the first slot that can't be read, and the number of words up to there."""
    entries, at = [], 0
    while at < len(words):
        kind, length = divmod(words[at], 1_024)
        if kind > 1 or length == 0 or at + length > len(words):
            break
        if kind == 1:
            entry = read_entry(words[at : at + length], at)
            if entry is None:
                break
            entries.append(entry)
        at += length
    return entries, at


def read_entry(slot, at):
    """The entry in a slot that begins with this word of the directory, or None if it can't be read."""
    if len(slot) <= HEAD or slot[4] != 0:
        return None
    spelled = struct.pack(f">{len(slot) - HEAD}H", *slot[HEAD:])
    count = spelled[0]
    file, name = FullName(*slot[1:4]), names.stored(spelled[1 : count + 1])
    if name is None or len(slot) != HEAD + (count + 2) // 2 or any(spelled[count + 1 :]) or not file.is_in_range():
        return None
    return Entry(file, name, slot[ADDRESS], at + ADDRESS)


def keep_entries(slots):
    """Of each file that has one the entry that counts, with its directory. `slots` has for each living file, by rising full name, the
    entries in its slots, none if it is no directory. All directories are scanned once, SysDir first: no directory has a lesser name."""
    kept = {}
    for directory in slots:
        taken = set()
        for entry in slots[directory]:
            is_new = entry.file in slots and entry.file not in kept and names.folded(entry.name) not in taken
            if is_new and may_stand(directory, entry):
                taken.add(names.folded(entry.name))
                kept[entry.file] = directory, entry
    return kept


def may_stand(directory, entry):
    """Directories stand in SysDir; so do the system files, under their own names, which no other file has there."""
    in_root, name = directory == SYS_DIR, names.folded(entry.name)
    if entry.file in SYSTEM_NAMES:
        return in_root and name == SYSTEM_NAMES[entry.file]
    return name not in SYSTEM_NAMES.values() if in_root else not entry.file.is_directory()


def settle(leader_names, taken):
    """A name in SysDir for each file that no kept entry names: its leader's, or the first suffix of it that isn't taken. `leader_names`
    are by rising full name, and `taken` are the names of SysDir's kept entries."""
    taken = {*SYSTEM_NAMES.values(), *map(names.folded, taken)}
    # of files with one name each goes on where the search for the one before ended: what was taken then is taken still
    given, numbers = {}, {}
    for file, leader_name in leader_names.items():
        name, number = leader_name, numbers.get(names.folded(leader_name), 0)
        if number > 0:
            name = names.suffixed(leader_name, number)
        while names.folded(name) in taken:
            number += 1
            name = names.suffixed(leader_name, number)
        numbers[names.folded(leader_name)] = number
        taken.add(names.folded(name))
        given[file] = name
    return given
