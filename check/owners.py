"""Run by check/documents.py: each constant, type and module has one owner and a name of its own.

Tests and crates of tests are left out. What stood when these checks came is listed below, and goes as its crates are proved for another
reason: a name that is listed and needn't be is complained of, too.
"""
import collections
import re

import names

TOP = names.TOP
CONSTANT = re.compile(r"^ *const ([A-Z_0-9]+): \w+ = ([^;]+);", re.M)
TYPE = re.compile(r"^ *pub(?:\(crate\))? (?:struct|enum|trait) (\w+)", re.M)
STANDING_CONSTANTS = {
    "ENTRY_TYPE", "LAST_AT", "LAST_NUMBER", "LEADER_AT", "MAX_VERSION", "NAME", "NO_LINK", "OPEN", "PAGE_WORDS", "REST", "ROOT_BYTES",
    "WORD_BITS", "WRITTEN",
}  # fmt: skip
STANDING_TYPES = {"Counts", "Entry", "Found", "Place", "Reading", "Row", "Runs", "Session", "Stop", "Swept", "Visit"}
# modules whose names differ by an ending, by the shorter one
STANDING_MODULES = {
    "label_sweep::sector", "directory::place", "scav_pages::directory", "scav_names::enter", "scav_names::widen", "scavenger::counts",
}  # fmt: skip


def sources():
    for crate in names.crates():
        if not crate.startswith("test_"):
            for path in sorted((TOP / "crates" / crate / "src").rglob("*.rt")):
                if path.stem != "tests":
                    yield crate, path


def twice(kind, places, standing, said=str):
    """What has two owners and isn't listed, and what is listed and has one."""
    found = {key for key, crates in places.items() if len(crates) > 1}
    for key in sorted(found):
        if (key[0] if isinstance(key, tuple) else key) not in standing:
            yield f"crates: {', '.join(sorted(places[key]))} each have the {kind} {said(key)}"
    for name in sorted(standing - {key[0] if isinstance(key, tuple) else key for key in found}):
        yield f"check/owners.py: lists the {kind} {name}, which has one owner"


def check_constants():
    """No two crates have a private constant of one name and value."""
    places = collections.defaultdict(set)
    for crate, path in sources():
        for name, value in CONSTANT.findall(path.read_text()):
            places[name, value.replace("_", "")].add(crate)
    yield from twice("constant", places, STANDING_CONSTANTS, " = ".join)


def check_types():
    """No two crates have a type of one name."""
    places = collections.defaultdict(set)
    for crate, path in sources():
        for name in TYPE.findall(path.read_text()):
            places[name].add(crate)
    yield from twice("type", places, STANDING_TYPES)


def others(stem):
    """The names that differ from this one by an ending."""
    return {stem + "ing", stem + "ning", stem[:-1] + "ing", stem + "s", stem[:-1] + "ies", re.sub("s$", "", stem) + "ing"} - {stem}


def check_modules():
    """No two modules of a crate have names that differ by an ending."""
    found = set()
    for crate, path in sources():
        for other in sorted(others(path.stem)):
            if path.with_name(f"{other}.rt").exists():
                found.add(f"{crate}::{path.stem}")
                if f"{crate}::{path.stem}" not in STANDING_MODULES:
                    yield f"{path.relative_to(TOP)}: its name differs from {other}.rt by an ending"
    for name in sorted(STANDING_MODULES - found):
        yield f"check/owners.py: lists the module {name}, whose name is its own"


def complaints():
    return [*check_constants(), *check_types(), *check_modules()]
