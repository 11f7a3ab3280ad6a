"""Stored names, as `A.` and `A!2.`, and how they are typed (docs/formats.md, Names)."""
import fnmatch
import os
import re

SHORTEST, LONGEST, LAST_VERSION = 2, 39, 65_534
STORED = re.compile(r"([A-Za-z0-9+\-.$]+)(?:!([2-9]|[1-9][0-9]{1,4}))?\.")
TYPED = re.compile(r"([^!]+)(?:!([1-9][0-9]{0,4})\.?)?")
WILD = re.compile(r"[*?\[]")
# what is spelled of a host name: bytes that can't stand, the sign itself, and a last dot
SPELLED = re.compile(rb"[^A-Za-z0-9\-.$]|\.\Z")
SIGNED = re.compile(rb"\+([0-9A-Fa-f]{2})")


def stored(text):
    """A stored name that these bytes spell, or None."""
    if not SHORTEST <= len(text) <= LONGEST or not text.isascii():
        return None
    name = text.decode()
    found = STORED.fullmatch(name)
    return name if found and int(found[2] or 1) <= LAST_VERSION else None


def parts(name):
    """The base of a stored name with its last dot, and its version."""
    base, _, version = name[:-1].partition("!")
    return base + ".", int(version or 1)


def numbered(base, version):
    """A version of a base, which may be too long to be stored."""
    return base if version == 1 else f"{base[:-1]}!{version}."


def typed(text):
    """The base of a name that is typed, with its last dot, and the version that it states, or None; None if it is no name."""
    found = TYPED.fullmatch(text)
    if found is None or not text.isascii():
        return None
    base = found[1] if found[1].endswith(".") else found[1] + "."
    version = int(found[2]) if found[2] else None
    return None if stored(numbered(base, version or 1).encode()) is None else (base, version)


def spelled(name):
    """How a stored name is typed, with its version unless that is 1. The last dot of its base is left out where it can be."""
    base, version = parts(name)
    text = base if base.endswith("..") else base[:-1]
    return text if version == 1 else f"{text}!{version}"


def folded(name):
    """What two stored names have in common if they are the same; it also orders them."""
    base, version = parts(name)
    return base.lower(), version


def newest(listed):
    """How the names of a listing are typed without a version, which means the newest one: each base once."""
    found = {}
    for name in listed:
        base, _ = parts(name)
        found[base.lower()] = spelled(base)
    return list(found.values())


def is_wild(text):
    """Whether a text has wildcards."""
    return WILD.search(text) is not None


def matching(pattern, listed):
    """The newest names of a listing that a pattern matches as they are typed, without regard to case."""
    return [name for name in newest(listed) if fnmatch.fnmatchcase(name.lower(), pattern.lower())]


def spell(host):
    """A host name, or a path in a folder, as a name on a pack: `+` and two digits for each byte that can't stand there."""
    return SPELLED.sub(lambda it: b"+%02X" % it[0][0], os.fsencode(host)).decode()


def unspell(text):
    """The host name, or the path in a folder, that a name on a pack spells."""
    return os.fsdecode(SIGNED.sub(lambda it: bytes([int(it[1], 16)]), text.encode()))


def suffixed(name, number):
    """The name with this number for another one."""
    base, version = parts(name)
    suffix, stated = f"${number}", f"!{version}" if version > 1 else ""
    return base[: LONGEST - 1 - len(suffix) - len(stated)] + suffix + stated + "."


def lost(serial):
    """The name of a file whose leader page has none."""
    return f"Lost{serial:o}."
