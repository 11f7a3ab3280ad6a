"""The lines that a session obeys (docs/commands.md, Lines): how each is typed, what it does, and which word of a bad one is wrong."""
import re
import typing

from packtools.copies import check_name
from packtools.pack import Faulty


class Verb(typing.NamedTuple):
    """The operands of a line, and what it does."""

    operands: str
    does: str


# the lines that are built
VERBS = {
    "list": Verb("[NAME]", "tells the names in SysDir, or in a directory"),
    "type": Verb("F", "tells a file's bytes, in hexadecimal"),
    "stat": Verb("F", "tells a file's length, pages, dates and its leader's name"),
    "make": Verb("T", "makes a file of no bytes"),
    "append": Verb("F HEX", "puts bytes after a file's last one"),
    "patch": Verb("F NUM HEX", "puts bytes in the place of others, from this offset on"),
    "cut": Verb("F NUM", "keeps the first NUM bytes of a file"),
    "copy": Verb("F T", "makes a file with the bytes of another"),
    "rename": Verb("T T", "gives a file another name, in another directory too"),
    "delete": Verb("T", "takes a file away"),
    "mkdir": Verb("NAME", "makes a directory"),
    "rmdir": Verb("NAME", "takes an empty directory away"),
    "free": Verb("", "counts the free pages"),
    "settime": Verb("NUM", "from now on dates are this moment, in seconds since the start of 1901"),
    "store": Verb("WORD WORD", "puts a word into the memory, at this address"),
    "fetch": Verb("WORD", "tells the word at this address of the memory"),
    "block": Verb("NUM", "takes a block of so many words"),
    "unblock": Verb("WORD", "gives the block at this address back"),
    "junta": Verb("NUM", "takes the services above this level away; their words join the zone"),
    "counterjunta": Verb("", "brings all services back"),
    "quit": Verb("", "ends the session"),
}
LONGEST = 4_096
# the least and the greatest number that an operand of a kind may be, and that of a verb
NUMBERS = {"NUM": (0, 2**32 - 1), "WORD": (0, 65_535)}
OF_VERBS = {"block": (1, 65_535), "junta": (1, 8)}
NUMBER, HEX = re.compile("[0-9]{1,10}"), re.compile("-|(?:[0-9A-Fa-f]{2}){1,2000}")


def usage(verb):
    """How a line is typed."""
    return f"{verb} {VERBS[verb].operands}".rstrip()


def faults(line):
    """Why a line is a bad one, as far as that can be said: which word is wrong, and last how its verb is typed."""
    length = len(line.encode(errors="surrogateescape"))
    verb, *operands = line.split(" ")
    small = verb.lower()
    if length > LONGEST:
        yield f"the line has {length} bytes, and may have {LONGEST}"
    elif verb in VERBS:
        yield from operand_faults(verb, operands)
        yield f"it is typed: {usage(verb)}"
    elif small in VERBS:
        yield f"verbs are small: {small}"
    elif not verb or small.strip() in VERBS:
        yield "words are parted by one space, and none stands before the first or after the last"
    else:
        yield f"there is no word {verb!r}: help tells them"


def operand_faults(verb, operands):
    """What is wrong with the operands of a verb."""
    kinds = VERBS[verb].operands.strip("[]").split()
    if "" in operands:
        yield "words are parted by one space, and none stands after the last"
    elif verb == "append" and len(operands) > 1 and (len(operands) > 2 or not HEX.fullmatch(operands[1])):
        text = " ".join(operands[1:])
        yield f"{text[:40]!r} isn't HEX, pairs of digits and a-f. As text: say {operands[0]} {text}"
    elif len(operands) == len(kinds):
        yield from filter(None, (operand_fault(kind, text, OF_VERBS.get(verb)) for kind, text in zip(kinds, operands)))


def operand_fault(kind, text, bounds=None):
    """What is wrong with an operand, or None. A number has the bounds of its kind, unless others are named."""
    if kind in NUMBERS:
        least, most = bounds or NUMBERS[kind]
        told = f"a number from {least} to {most}" if bounds else f"digits below {most + 1}"
        return None if NUMBER.fullmatch(text) and least <= int(text) <= most else f"{text!r} isn't {kind}, {told}"
    if kind == "HEX":
        return None if HEX.fullmatch(text) else f"{text[:40]!r} isn't HEX, pairs of digits and a-f, at most 2000 bytes"
    if text.startswith("#"):
        is_number = operand_fault("NUM", text[1:]) is None
        return None if kind == "F" and is_number else f"{text!r} isn't a {'serial' if kind == 'F' else 'name'}"
    directory, sign, name = text.rpartition(">")
    if kind == "NAME" and (sign or "!" in text):
        return f"{text!r} isn't NAME, the name of a directory without a version"
    try:
        for part in [directory, name] if sign else [name]:
            check_name(part)
    except Faulty as error:
        return str(error)
    return f"{directory!r} is no directory: their names have no versions" if "!" in directory else None
