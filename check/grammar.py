"""Run by other scripts: typed lines, read as docs/formats.md has them, for the plain program of check/plain.py."""
import re
import sys
import typing

import arguments

sys.path.append(str(arguments.TOP / "tools"))
from packtools import names

LONGEST_LINE = 4_096
# the greatest number that a word holds, and how many levels of service there are
LAST_WORD, LEVELS = 65_535, 8
NUMBER = re.compile("[0-9]{1,10}")
HEX = re.compile("-|(?:[0-9A-Fa-f]{2}){1,2000}")
# the operands of each verb that is built
GRAMMAR = {
    "list": ["", "NAME"],
    "type": ["F"],
    "stat": ["F"],
    "make": ["T"],
    "append": ["F HEX"],
    "patch": ["F NUM HEX"],
    "cut": ["F NUM"],
    "copy": ["F T"],
    "rename": ["T T"],
    "delete": ["T"],
    "mkdir": ["NAME"],
    "rmdir": ["NAME"],
    "free": [""],
    "settime": ["NUM"],
    "store": ["WORD WORD"],
    "fetch": ["WORD"],
    "block": ["SIZE"],
    "unblock": ["WORD"],
    "junta": ["LEVEL"],
    "counterjunta": [""],
    "quit": [""],
}


class Path(typing.NamedTuple):
    """A file by its name: the name of its directory, or None where none is typed, its base, and the version that is stated, or None."""

    directory: str | None
    base: str
    version: int | None


def is_stored(name):
    return names.stored(name.encode()) is not None


def read_name(text):
    """A name that is typed, or None."""
    found = names.typed(text)
    return Path(None, *found) if found else None


def read_bare(text):
    path = read_name(text)
    return path.base if path is not None and path.version is None else None


def read_path(text):
    before, sign, after = text.rpartition(">")
    directory, path = read_bare(before), read_name(after)
    if path is None or sign and directory is None:
        return None
    return path._replace(directory=directory)


def read_number(text):
    return int(text) if NUMBER.fullmatch(text) and int(text) < 2**32 else None


def read_hex(text):
    return bytes.fromhex(text.strip("-")) if HEX.fullmatch(text) else None


def read_file(text):
    return read_number(text[1:]) if text.startswith("#") else read_path(text)


def read_within(first, last):
    """A reader of the numbers from the first to the last."""

    def read(text):
        number = read_number(text)
        return number if number is not None and first <= number <= last else None

    return read


# SIZE and LEVEL are the operands of `block` and `junta`
READERS = {
    **{"NAME": read_bare, "T": read_path, "F": read_file, "NUM": read_number, "HEX": read_hex},
    **{"WORD": read_within(0, LAST_WORD), "SIZE": read_within(1, LAST_WORD), "LEVEL": read_within(1, LEVELS)},
}


def read_line(line):
    """The verb and the operands of a line, or None for a bad one. A serial is a number."""
    verb, *texts = line.decode("latin-1").split(" ") if len(line) <= LONGEST_LINE else [""]
    for form in GRAMMAR.get(verb, []):
        kinds = form.split()
        operands = [READERS[kind](text) for kind, text in zip(kinds, texts)]
        if len(texts) == len(kinds) and None not in operands:
            return verb, operands
    return None


def lines_of(keys):
    """The lines of typed bytes. What comes after the last end of a line is one too, unless it is empty."""
    *lines, rest = keys.split(b"\n")
    return [*lines, rest] if rest else lines
