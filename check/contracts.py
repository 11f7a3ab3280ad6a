"""Run by other scripts: what they know of functions: their clauses, the must-fail edits that change them, and the crates that name them.

A function is told apart by its file and line, its key, and is named by the shortest path that the code has for it.
"""
import collections
import functools
import pathlib
import re
import typing

import names

CLAUSE = re.compile(r" +(requires|ensures)\*? (?:(\w+) )?\{")
GHOST = re.compile(r"^    ghost (\w+):", re.M)
USE = re.compile(r"^ *(?:pub(?:\(\w+\))? )?use ([^;]+);", re.M)
NO_CODE = re.compile(r"^ *//.*$|^ghost use .*$|^ +(?:requires|ensures)\b.*$", re.M)
CALL = re.compile(r"(?<!fn )((?:\b\w+::)*)\b([a-z_]\w*)\(")
WORD = re.compile(r"(?<!fn )\b\w+")
EDIT = re.compile(r"^(file|old): ?(.*)$", re.M)


class Function(typing.NamedTuple):
    """A function: its shortest path, where it stands, its clauses and the comments over them, and whether other crates can call it."""

    path: tuple
    file: pathlib.Path
    at: int
    end: int
    requires: tuple
    ensures: tuple
    comments: tuple
    public: bool
    name: names.Name

    def key(self):
        return self.file, self.at

    def full_name(self):
        return "::".join(self.path)

    def has_contract(self):
        return bool(self.requires or self.ensures)

    def has(self, clause):
        return clause in self.requires + self.ensures

    def is_law(self):
        """Whether it is a law: a function with an empty body and one clause."""
        return self.name.lines[self.end] == "{}" and self.ensures == ("",) and not self.requires


@functools.cache
def index():
    """What src/ of the crates has, by each path."""
    return names.index(("src",))


@functools.cache
def shortest():
    """The shortest path of what stands at a line of a file."""
    found = {}
    for path, items in index().items():
        for item in items:
            found[item.file, item.at] = min(found.get((item.file, item.at), path), path, key=lambda it: (len(it), it))
    return found


def head_of(lines, at):
    """The clauses of a function whose head begins at a line, `requires` and `ensures`, and the line where the head ends."""
    found = {"requires": [], "ensures": []}
    for end in range(at, len(lines)):
        clause = CLAUSE.match(lines[end])
        if clause:
            found[clause[1]].append(clause[2] or "")
        if lines[end].endswith(";") or not clause and lines[end].endswith(("{", "{}")):
            break
    return tuple(found["requires"]), tuple(found["ensures"]), end


def comments_in(lines):
    """The comments over the clauses in the lines of a head, each with the clauses below it, up to an empty line or the next comment."""
    found, is_open = [], False
    for before, line in zip(["", *lines], lines):
        clause = CLAUSE.match(line)
        if line.lstrip().startswith("//"):
            words = line.strip().lstrip("/").strip()
            if is_open and before.lstrip().startswith("//"):
                found[-1][1].append(words)
            else:
                found.append(([], [words]))
            is_open = True
        elif clause and is_open:
            found[-1][0].append(clause[2] or "")
        else:
            is_open = False
    return tuple((tuple(filter(None, clauses)), " ".join(words)) for clauses, words in found if clauses)


def trait_of(name):
    """The trait in whose impl it stands, by which others call it; None where it stands in none."""
    holders = (line for line in reversed(name.lines[: name.at]) if line.startswith(("impl", "pub trait", "trait", "}")))
    found = re.match(r"impl(?:<.*?>)? (\w+)(?:<.*?>)? for ", next(holders, ""))
    return found[1] if found else None


def is_open(path):
    """Whether the crates above can name what has this path. Of a program its own modules are above."""
    crate, *modules = path[:-2] if path[-2][0].isupper() else path[:-1]
    root = names.TOP / "crates" / crate / "src/lib.rt"
    if not root.exists() or (crate, path[-2]) in index():
        return True
    return all(re.search(rf"^pub mod {module};", root.read_text(), re.M) for module in modules)


@functools.cache
def functions(crate):
    """The functions of a crate in the order of its files, except those of its own tests."""
    found = []
    for name in names.names_of(crate, ("src",)):
        item = names.ITEM.match(name.lines[name.at])
        if item and item[3] == "fn" and "tests" not in name.path:
            path = shortest()[name.file, name.at]
            requires, ensures, head = head_of(name.lines, name.at)
            has_body = name.lines[head].endswith("{")
            end = name.lines.index(item[1] + "}", head) if has_body else head
            comments = comments_in(name.lines[name.at : head])
            public = (name.public or bool(trait_of(name))) and is_open(path)
            found.append(Function(path, name.file, name.at, end, requires, ensures, comments, public, name))
    return tuple(found)


@functools.cache
def by_key():
    """The functions of all crates by their keys."""
    return {function.key(): function for crate in names.crates() for function in functions(crate)}


@functools.cache
def changed_by(crate):
    """The must-fail edits of a crate, each with the keys of what it changes: functions, other items, or None where its text isn't there."""
    found = []
    for path in sorted((names.TOP / "crates" / crate / "must-fail").glob("*.edit")):
        file, keys = None, []
        for word, text in EDIT.findall(path.read_text()):
            if word == "file":
                file = path.parent.parent / text.strip()
            else:
                keys.append(place_of(crate, file, text))
        found.append((path.stem, tuple(dict.fromkeys(keys)) or (None,)))
    return tuple(found)


def place_of(crate, file, text):
    """The key of the function, or else of the item, in which a text stands in a file; None if it doesn't stand there once."""
    source = file.read_text() if file and file.exists() else ""
    if source.count(text) != 1:
        return None
    line = source.count("\n", 0, source.index(text))
    holders = [it.key() for it in functions(crate) if it.at <= line <= it.end and it.file == file]
    return holders[-1] if holders else max((key for key in shortest() if key[1] <= line and key[0] == file), default=None)


def flattened(tree):
    """The paths of a `use`, each with the name that it gets, if it gets another."""
    head, brace, rest = tree.partition("{")
    if not brace:
        path, _, alias = tree.strip().partition(" as ")
        yield path, alias
        return
    depth, part = 0, ""
    for sign in rest[: rest.rindex("}")] + ",":
        depth += (sign == "{") - (sign == "}")
        if sign == "," and not depth:
            yield from ((head.strip() + path, alias) for path, alias in flattened(part) if path)
            part = ""
        else:
            part += sign


@functools.cache
def passes(crate):
    """What a root file passes on from other crates: each name with its path there."""
    return {name: (*module[1:], name) for name, module in names.shorter_paths(crate) if module[1] in names.crates()}


def followed(path):
    """The path of what root files pass on, in the crate where it stands."""
    while path not in index() and len(path) > 1 and path[1] in passes(path[0]):
        path = (*passes(path[0])[path[1]], *path[2:])
    return path


def known_in(file, crate):
    """What a file of a crate can name without a path: what it imports, and its own functions, each with its path."""
    known = {it.path[-1]: it.path for it in functions(crate) if it.file == file and not it.path[-2][0].isupper()}
    for tree in USE.findall(file.read_text()):
        for path, alias in flattened(" ".join(tree.split())):
            first, *rest = path.split("::")
            known[alias or path.split("::")[-1]] = followed((crate if first == "crate" else first, *rest))
    return known


def named_by(crate, files):
    """The keys of the functions that files of a crate name: those that they call, import or write by a path, and methods that they call, of
    types of crates that they know."""
    found, methods, crates = set(), set(), {crate}
    for file in files:
        known = known_in(file, crate)
        text = USE.sub("", NO_CODE.sub("", file.read_text()))
        words = set(WORD.findall(text))
        paths = {path for name, path in known.items() if name in words}
        crates.update(path[0] for path in known.values())
        for before, name in CALL.findall(text):
            parts = (*before.split("::")[:-1], name)
            paths.add(followed((*known.get(parts[0], parts[:1]), *parts[1:])))
            methods.add(parts[-2:] if before else parts)
        found.update((item.file, item.at) for path in paths for item in index().get(path, []))
    for other in crates.intersection(names.crates()):
        found.update(it.key() for it in functions(other) if it.path[-2][0].isupper() and methods & {it.path[-1:], it.path[-2:]})
    return found


def is_of_tests(crate):
    return crate.startswith("test_")


@functools.cache
def callers():
    """The crates that name each function: those of tests, which is also a crate with tests of its own, and those of the code."""
    tests, code = collections.defaultdict(list), collections.defaultdict(list)
    for crate in names.crates():
        files = sorted((names.TOP / "crates" / crate / "src").rglob("*.rt"))
        own_tests = [file for file in files if is_of_tests(crate) or file.stem == "tests"]
        for found, some in [(tests, own_tests), (code, [file for file in files if file not in own_tests])]:
            for key in named_by(crate, some):
                found[key].append(crate)
    return tests, code
