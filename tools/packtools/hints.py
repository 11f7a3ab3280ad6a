"""A hint that failed, in words: where it stands, what it says, and what stands in the sector that it names."""
import re

from packtools.pack import HIGH, LOW, NUMBER, ONES, VERSION
from packtools.survey import Survey

PLACE = r"(?:root|entry #(\d+) word (\d+)|next of (\d+)|held (\d+))"
FAILED = re.compile(rf"hint failed: {PLACE} at (\d+) wanted #(\d+) v \d+ page (\d+) found (.*)")
CURE = "'scavenge' makes all hints true from what the labels say. Until then only quit and counterjunta are obeyed."


def explained(reply, pack):
    """The lines that say what failed, by the pack as it stands, or None if that isn't to be had."""
    found = FAILED.fullmatch(reply)
    if not found:
        return
    directory, word, after, held, at, serial, page, label = found.groups()
    wanted = f"{page_name(int(page))} of #{serial}"
    if directory:
        yield f"word {word} of {entry_place(pack, int(directory), int(word))}, says that sector {at} has {wanted};"
    elif after:
        yield f"the next link in sector {after} says that {real_name(pack, int(at))} has {wanted};"
    elif held:
        yield f"the address {held}, which was kept in memory, was that of {wanted};"
    else:
        yield f"sector {at} has to have {wanted};"
    yield f"{label_told(label)}. A hint was false; no file is lost, and nothing was read from a wrong page."
    yield CURE


def page_name(number):
    return f"page {number}" if number else "the leader page"


def entry_place(pack, serial, word):
    """The directory and the entry to which a word belongs, as far as they are known."""
    if pack is None:
        return f"#{serial}, an address in its entries"
    survey = Survey(pack)
    for file in survey.files.values():
        if file.full_name.is_directory() and file.full_name.serial() == serial:
            name = survey.path(file).removeprefix("SysDir>")
            entry = next((it.name for it in file.entries if it.word == word), None)
            return f"{name}, the address in the entry {entry}" if entry else f"{name}, an address in its entries"
    return f"#{serial}, an address in its entries"


def real_name(pack, real):
    """The sector of a real address."""
    at = None if pack is None else pack.virtuals.get(real)
    return f"the real address {real}" if at is None else f"sector {at}"


def label_told(label):
    """What stands in a sector, by the words of its label, or `none`."""
    if label == "none":
        return "there is no such sector, or its header is wrong"
    words = list(map(int, label.split()))
    if words[VERSION:] == [ONES] * 3:
        return "that sector is free"
    return f"that sector has {page_name(words[NUMBER])} of #{(words[HIGH] & 0x7FFF) << 16 | words[LOW]}"
