#!/usr/bin/env python3
"""Run by check/documents.py, and by hand: makes docs/promises.md, which tells what each function promises, and what else shows it.

Prints the page; --write puts it into docs/promises.md, and --count tells how much stands in it. It is made of the sources and of
check/sentences.txt, whose keys --follow changes where functions moved. check/documents.py compares the page with both, and finds
sentences whose function or clause is gone.
"""
import argparse
import collections
import functools
import re
import sys
import typing

sys.dont_write_bytecode = True
import contracts
import names

PAGE = names.TOP / "docs/promises.md"
SENTENCES = names.TOP / "check/sentences.txt"
SENTENCE_WORDS = 40
# `crate::function (clause, clause), crate::other (clause)`, or a crate alone
KEY = re.compile(r"([a-z]\w*(?:::\w+)*)(?: \((\w+(?:, \w+)*)\))?")
KEYS = re.compile(rf"{KEY.pattern}(?:, {KEY.pattern})*")
NOTE = re.compile(r" \[.*\]$")
UNSHOWN = "neither edit nor test: "
READING = "how to read it: "
PROMISE = re.compile(r"\d+\. ")
# crates of laws, of small cases and of tests have rows of what a sentence or an edit speaks of alone
NO_CODE = re.compile(r"(test|laws)_\w+|pack_laws|\w+_vectors")
ROW = re.compile(r"^\| (?:inside: )?`([\w:]+)` \|", re.M)
HEAD = "| Function | Clauses | What it promises | Must-fail edits | Tests |\n|---|---|---|---|---|\n"
ANEW = "which ./do docs --write makes anew"

PREFACE = """\
# Promises

What the contracts promise, and what else shows it. `./do docs --write` makes this page from the sources, by check/promises.py; no row of it is written by hand. Each crate has a section, in the order of docs/map.md: the promises of its head comment, and a row for each public function that has a contract. Private functions stand in it, after "inside", if a sentence or an edit speaks of them: no caller of the crate sees their contracts. The laws stand in docs/laws.md; docs/proved.md tells the whole for a reviewer.

A row names the clauses of the function: those that it requires, and those that it ensures. Then come sentences, each after the clauses that it tells of: those of check/sentences.txt, or where that has none the docstring, and the comments over the clauses. In brackets is what says it in the definitions. A sentence that ends with *Modelled* holds on each machine that is modelled (`told`, docs/glossary.md), for whatever stands on its pack. A count *rose* if it is greater after the call, or stands at its type's end. A fault is answered if and only if one *came*, where its count rose, and is as it was at each other answer.

A must-fail edit NAME of a crate is its file must-fail/NAME.edit, which the prover has to refuse; it stands in the row of what it changes. Tests are the crates of tests whose code names the function, and its own crate if tests there do. Of a function that has neither, the last cell says what else shows it: it is a law, which its own proof shows; or crates call it, so that their proofs rest on its contract; or a line says why, `as said`. Besides, check/ has scripts that the gate runs over the built program (docs/working.md). The stored run is crates/alto/args with its stdin and stdout.
"""


class Line(typing.NamedTuple):
    """A line of check/sentences.txt: where it stands, its keys as a path and clauses each, and its text."""

    place: str
    keys: tuple
    text: str

    def is_promise(self):
        return not self.text.startswith((UNSHOWN, READING))


def lines():
    """The lines of check/sentences.txt, except empty ones and comments."""
    for number, line in enumerate(SENTENCES.read_text().splitlines(), 1):
        if line and not line.startswith("#"):
            keys, _, text = line.partition(": ")
            found = [(path, tuple(clauses.split(", ")) if clauses else ()) for path, clauses in KEY.findall(keys)]
            yield Line(f"check/sentences.txt:{number}", tuple(found) if KEYS.fullmatch(keys) else (), text)


@functools.cache
def named(path, clauses):
    """The keys of what a path names, each with those of the clauses that it has: of a trait its ghost items, of its functions others."""
    items, found = contracts.index().get(tuple(path.split("::")), []), {}
    for item in items:
        key = (item.file, item.at)
        function = contracts.by_key().get(key)
        mine = tuple(it for it in clauses if (function.has(it) if function else it in contracts.GHOST.findall(item.text())))
        if function or mine or not clauses and item is items[0]:
            found[key] = mine
    if clauses and not any(key in contracts.by_key() for key in found):
        inside = [it for it in contracts.functions(path.split("::")[0]) if it.full_name() == f"{path}::{it.path[-1]}"]
        found |= {it.key(): mine for it in inside if (mine := tuple(clause for clause in clauses if it.has(clause)))}
    return tuple(found.items())


@functools.cache
def said():
    """What check/sentences.txt says of each item, by its key, and of each crate: pairs of clauses and text."""
    found = collections.defaultdict(list)
    for line in lines():
        for path, clauses in line.keys:
            if path in names.crates():
                found[path].append(((), line.text))
            for key, mine in named(path, clauses):
                found[key].append((mine, line.text))
    return found


@functools.cache
def edits():
    """The must-fail edits that change each item, by its key."""
    found = collections.defaultdict(list)
    for crate in names.crates():
        for edit, keys in contracts.changed_by(crate):
            for key in keys:
                found[key].append(edit)
    return found


def map_order():
    """The crates in the order of docs/map.md, and then those that it doesn't name."""
    rows = re.findall(r"^\| `(\w+)` \|", (names.TOP / "docs/map.md").read_text(), re.M)
    return list(dict.fromkeys([crate for crate in rows if crate in names.crates()] + names.crates()))


@functools.cache
def rows_of(crate):
    """The functions of a crate that have a row, the public ones first."""
    found = [it for it in contracts.functions(crate) if has_to_have_row(it) or said()[it.key()] or edits()[it.key()]]
    return sorted(found, key=lambda function: not function.public)


def has_to_have_row(function):
    """Whether it is public, has a contract and isn't of a crate of laws, of small cases or of tests."""
    return function.public and function.has_contract() and not NO_CODE.fullmatch(function.path[0])


def reason(function):
    """What shows a function that has neither edit nor test; None where nothing does, and a sentence has to say it."""
    if any(text.startswith(UNSHOWN) for _, text in said()[function.key()]):
        return "as said"
    if function.is_law():
        return "a law"
    users = contracts.callers()[1][function.key()]
    if others := [crate for crate in users if crate != function.path[0]]:
        return "called by " + ", ".join(others)
    if trait := contracts.trait_of(function.name):
        return f"called as {trait}"
    return "called in its crate" if users else None


def clauses_cell(function):
    """The names of a function's clauses."""
    kinds = [("requires", function.requires), ("ensures", function.ensures)]
    return "; ".join(f"{word} {', '.join(it or 'one without a name' for it in some)}" for word, some in kinds if some)


def says_cell(key, name, comments=()):
    """The sentences of an item after their clauses: those of check/sentences.txt or else its docstring, and the comments over clauses."""
    found = list(said()[key])
    if all(text.startswith(UNSHOWN) for _, text in found):
        found.insert(0, ((), name.comment()))
    found += comments
    return "<br>".join((f"{', '.join(clauses)}: " if clauses else "") + text for clauses, text in found if text)


def row(function):
    """The row of a function."""
    changed, tests = edits()[function.key()], contracts.callers()[0][function.key()]
    name = f"{'' if function.public else 'inside: '}`{function.full_name()}`"
    shown = ", ".join(tests) or (f"none: {reason(function)}" if function.public and not changed else "none")
    return [name, clauses_cell(function), says_cell(function.key(), function.name, function.comments), ", ".join(changed) or "none", shown]


def other_rows(crate):
    """The rows of traits, types and constants that a sentence or an edit speaks of."""
    for key, path in contracts.shortest().items():
        if path[0] == crate and key not in contracts.by_key() and (said()[key] or edits()[key]):
            [item] = [it for it in contracts.index()[path] if (it.file, it.at) == key]
            name = f"{'' if item.public else 'inside: '}`{'::'.join(path)}`"
            yield [name, ", ".join(contracts.GHOST.findall(item.text())), says_cell(key, item), ", ".join(edits()[key]) or "none", "none"]


def paragraphs(comment):
    """The paragraphs and numbered promises of a head comment, a line each."""
    found, is_open = [], False
    for line in comment:
        begins = PROMISE.match(line) or line.startswith(("And ", "Not promised")) and line[0] != " "
        goes_on = is_open and not begins and line.startswith(" ") >= bool(PROMISE.match(found[-1]))
        if line and goes_on:
            found[-1] += " " + line.strip()
        elif line:
            found.append(line.strip())
        is_open = bool(line)
    return found


def promises_of(crate):
    """The promises of a crate's head comment: the numbered ones with what leads to them and follows, or all of it after its first line."""
    root = next(path for path in [names.TOP / "crates" / crate / "src" / f"{it}.rt" for it in ("lib", "main")] if path.exists())
    found = paragraphs([re.sub(r"^//! ?", "", line) for line in root.read_text().splitlines() if line.startswith("//!")])
    first = next((at for at, text in enumerate(found) if PROMISE.match(text)), 2)
    return found[max(first - 1, 1) :]


def is_of_list(text):
    return text.startswith("- ") or bool(PROMISE.match(text))


def section(crate):
    """The section of a crate, empty where there is nothing to be said."""
    rows = [*map(row, rows_of(crate)), *other_rows(crate)]
    if not rows and not said()[crate]:
        return ""
    own = [text[0].upper() + text[1:] if text.startswith(READING) else f"- {text}" for _, text in said()[crate]]
    head = [f"## {crate}", *promises_of(crate), *own]
    blocks = [("\n" if is_of_list(text) and is_of_list(before) else "\n\n") + text for before, text in zip(["", *head], head)]
    table = "".join("| " + " | ".join(cell.replace("|", "\\|") for cell in cells) + " |\n" for cells in rows)
    return "".join(blocks) + "\n" + (f"\n{HEAD}{table}" if table else "")


def page():
    """The whole page."""
    return PREFACE + "".join(section(crate).removeprefix("\n") for crate in map_order())


def check_page():
    """docs/promises.md is the page as it is made, and has a row for each function that is to have one."""
    made, there = page(), PAGE.read_text()
    rows, has = ROW.findall(made), ROW.findall(there)
    for name in dict.fromkeys(rows):
        if name not in has:
            yield f"docs/promises.md: has no row for {name}, {ANEW}"
    for name in dict.fromkeys(has):
        if name not in rows:
            yield f"docs/promises.md: has a row for {name}, which isn't there or has nothing to say, {ANEW}"
    if made != there and set(rows) == set(has):
        pairs = zip([*made.splitlines(), ""], [*there.splitlines(), ""])
        number = next((number for number, (new, old) in enumerate(pairs, 1) if new != old), 1)
        yield f"docs/promises.md:{number}: isn't what the sources and check/sentences.txt say, {ANEW}"


def check_sentences():
    """Each line of check/sentences.txt names functions and clauses that are there, and says one thing of them in few words."""
    seen = set()
    for line in lines():
        if not line.keys or not line.text:
            yield f"{line.place}: isn't `crate::function (clause, clause): sentence`, or of a crate alone `crate: sentence`"
        if (line.keys, line.text) in seen:
            yield f"{line.place}: says again what a line above says"
        seen.add((line.keys, line.text))
        words = len(NOTE.sub("", line.text).split())
        if words > SENTENCE_WORDS and line.is_promise():
            yield f"{line.place}: has {words} words, and may have {SENTENCE_WORDS}"
        for path, clauses in line.keys:
            yield from gone(line.place, path, clauses)


def gone(place, path, clauses):
    """What of a key isn't there any more."""
    if path in names.crates():
        return
    if tuple(path.split("::")) not in contracts.index():
        yield f"{place}: names {path}, which isn't there{likely(path)}"
        return
    has = {clause for _, mine in named(path, clauses) for clause in mine}
    yield from (f"{place}: names the clause {clause} of {path}, which isn't there" for clause in clauses if clause not in has)


def homes(path):
    """The functions of code that have the last name of a path, those of its own crate alone if there are any."""
    crate, *_, last = path.split("::")
    found = [it.full_name() for it in contracts.by_key().values() if it.path[-1] == last and not NO_CODE.fullmatch(it.path[0])]
    return [name for name in found if name.startswith(f"{crate}::")] or found


def likely(path):
    """Where the last part of a path stands now."""
    found = homes(path)
    return f", as {min(found)} is" if found else ""


def follow():
    """Gives the keys of functions that moved their new paths, where one function alone has the name; the others are for a hand."""
    moved = {}
    for path in {path for line in lines() for path, _ in line.keys}:
        found = homes(path) if "::" in path and tuple(path.split("::")) not in contracts.index() else []
        moved |= {path: found[0]} if len(found) == 1 else {}
    followed = []
    for line in SENTENCES.read_text().splitlines(keepends=True):
        keys, colon, text = line.partition(": ")
        keys = keys if line.startswith("#") else re.sub(r"[\w:]+", lambda path: moved.get(path[0], path[0]), keys)
        followed.append(keys + colon + text)
    SENTENCES.write_text("".join(followed))


def check_shown():
    """Each public function with a contract is told of; and an edit or a test shows it, or it is a law, or called, or a line says why."""
    for function in filter(has_to_have_row, contracts.by_key().values()):
        key = function.key()
        if not says_cell(key, function.name):
            yield f"{function.name.place()}: {function.full_name()} has a contract, and neither docstring nor sentence"
        if not edits()[key] and not contracts.callers()[0][key] and not reason(function):
            yield (
                f"check/sentences.txt: {function.full_name()} has neither edit nor test, and nothing calls it;"
                f" a line `{function.full_name()}: {UNSHOWN}..` has to say why"
            )


def check_edits():
    """The text that each must-fail edit changes stands in its file, once."""
    for crate in names.crates():
        for edit, keys in contracts.changed_by(crate):
            if None in keys:
                yield f"crates/{crate}/must-fail/{edit}.edit: the text that it changes doesn't stand once in its file"


def check_all():
    """What check/documents.py is to complain of."""
    yield from (*check_sentences(), *check_edits(), *check_shown(), *check_page())


def count():
    """Tells how many promises, reasons and rows there are."""
    whole = list(lines())
    rows = [function for crate in names.crates() for function in rows_of(crate)]
    print(f"{sum(line.is_promise() for line in whole)} promises in sentences")
    print(f"{sum(line.text.startswith(UNSHOWN) for line in whole)} reasons why one has neither edit nor test")
    print(f"{len(rows)} functions with a row, {sum(function.public for function in rows)} of them public")


def write():
    """Puts the page into docs/promises.md."""
    PAGE.write_text(page())


def main():
    parser = argparse.ArgumentParser(description=__doc__, formatter_class=argparse.RawDescriptionHelpFormatter)
    parser.add_argument("--write", action="store_true", help="puts the page into docs/promises.md")
    parser.add_argument("--count", action="store_true", help="tells how many sentences, reasons and rows there are")
    parser.add_argument("--follow", action="store_true", help="gives the sentences of functions that moved their new paths")
    given = parser.parse_args()
    if given.count:
        count()
    elif given.follow:
        follow()
    elif given.write:
        write()
    else:
        print(page(), end="")


if __name__ == "__main__":
    main()
