#!/usr/bin/env python3
"""Run by check/documents.py, and by hand: prints the laws of a crate by module, each with its sentence, which is its docstring.

Without a crate it prints what it makes of docs/laws.md: the table that says which law answers which question about which operation, and the
list of the laws that no proof cites. --write puts both into it. check/documents.py compares them, and reads the sentences.
"""
# A law that is named OPERATION_ANSWER, as grow_keeps_links, is found by its name; those of several operations stand in SHARED.
import argparse
import collections
import functools
import re
import sys
import textwrap

sys.dont_write_bytecode = True
import contracts
import names

DOCUMENT = names.TOP / "docs/laws.md"
SENTENCES = names.TOP / "check/laws-sentences.txt"
SENTENCE_WORDS = 45
LINE_WIDTH = 140
# what a proof cites of a crate: its lemmas in braces, or the alias of a file
CITED = re.compile(r"(\w+)\.proofs\.[\w.]+(?:\.\{([^}]*)\}| as (\w+))")
# the law crate whose laws are packs that meet premises, so that nothing is to cite them
SHOWN = "laws_met"
OPERATIONS = "put grow cut title stamp make drop release slot enter leave widen open serial close".split()
# the module of an operation's laws, where it has another name
MODULES = {"release": "drop", "slot": "drop", "open": "descriptor", "serial": "descriptor", "close": "descriptor"}
BY_OPERATION = "laws_operation"
# Each question: its heading; the module of its laws, or the crate that has a module for each operation; how a law's name goes on after
# that of its operation.
QUESTIONS = [
    ("one record", "laws_record::steps", "is_the_step"),
    ("words fit", BY_OPERATION, "words_fit|past_words_fit"),
    ("carries out", BY_OPERATION, "carries_out"),
    ("links", BY_OPERATION, "keeps_links"),
    ("page once", BY_OPERATION, "carries_once"),
    ("free sectors", BY_OPERATION, "keeps_unclaimed_free|takes_no_sector|frees_its_pages|leaves_free_sectors"),
    ("names, places", BY_OPERATION, "leaves_no_name|places_its_pages|takes_the_only_entry|keeps_places"),
    ("other files", "laws_lookup::others", "leaves_others"),
    ("misled before", "laws_lookup::before", "misled_before"),
    ("system", "laws_line::system", "leaves_the_system"),
    ("map", "laws_hint::changes", "marks_the_map|leaves_the_map"),
    ("room", "laws_line::lines", "leaves_room"),
]
# Laws of several operations, or with another home: the question, the law, the operations. A law of another crate has its whole path.
SHARED = [
    ("one record", "entry_is_the_step", "enter"),
    ("one record", "drop_is_the_step", "release"),
    ("one record", "slot_that_is_not_kept", "slot"),
    ("one record", "descriptor_pages_views_same", "open serial close"),
    ("page once", "values_carry_once", "put title stamp slot leave serial"),
    ("free sectors", "values_leave_free_sectors", "put title stamp slot leave open serial close"),
    ("free sectors", "grow_keeps_unclaimed_free", "widen"),
    ("names, places", "values_keep_places", "put title stamp slot enter leave open close"),
    ("names, places", "bytes_leaders_and_widenings_keep_entries", "put grow cut title stamp widen"),
    ("names, places", "free_name_is_apart_after_make", "make"),
    ("names, places", "free_name_is_apart_after_leave", "leave"),
    ("names, places", "free_name_is_apart_for_a_nameless_file", "enter"),
    ("names, places", "new_serial_names_no_living_file", "serial"),
    ("other files", "values_leave_others", "put title stamp slot enter leave open serial close"),
    ("other files", "laws_midway::dropped::drop_leaves_others", "drop"),
    ("misled before", "values_misled_before", "put title stamp open serial close"),
    ("misled before", "leave_misled_before", "slot"),
    ("system", "leader_leaves_the_system", "title stamp"),
    ("system", "slot_leaves_the_system", "leave"),
    ("map", "claims_mark_the_map", "make grow widen"),
    ("map", "releases_mark_the_map", "cut drop release"),
    ("map", "values_leave_the_map", "put title stamp enter leave"),
    ("map", "descriptor_writes_leave_the_map", "open serial close"),
    ("room", "changes_leave_room", "put grow cut title stamp widen"),
    ("room", "new_file_leaves_room", "make enter"),
    ("room", "rename_leaves_room", "leave enter"),
]


def all_laws():
    """The path of each law function: its crate, its module, its name."""
    crates = [crate for crate in names.crates() if crate == "pack_laws" or crate.startswith("laws_")]
    found = [name for crate in crates for name in names.names_of(crate, ("src",))]
    return [name.path for name in found if name.public and len(name.path) == 3 and " fn " in name.lines[name.at]]


def module_of(home, operation):
    """The module that a law of this question and operation stands in where nothing else is said."""
    return MODULES.get(operation, operation) if home == BY_OPERATION else home.split("::")[1]


def laws_for(question, operation, laws):
    """The laws that answer a question about an operation, as paths."""
    heading, home, endings = question
    known = {path[2]: path for path in laws if path[0] == home.split("::")[0]}
    own = [path for name, path in known.items() if re.fullmatch(f"{operation}_({endings})", name)]
    shared = [law for it, law, operations in SHARED if it == heading and operation in operations.split()]
    known |= {"::".join(path): path for path in laws}
    return [*own, *(known[name] for name in shared if name in known)]


def cell(question, operation, laws):
    """The same as a cell of the table: without crate and module where they are those to be expected."""
    expected = (question[1].split("::")[0], module_of(question[1], operation))
    found = []
    for path in laws_for(question, operation, laws):
        same = 2 if path[:2] == expected else 1 if path[0] == expected[0] else 0
        found.append("`" + "::".join(path[same:]) + "`")
    return ", ".join(found) or "-"


def table():
    """The table, a row for each operation."""
    laws = all_laws()
    head = ["operation", *(f"{heading} (`{home}`)" for heading, home, _ in QUESTIONS)]
    rows = [[operation, *(cell(question, operation, laws) for question in QUESTIONS)] for operation in OPERATIONS]
    lines = ["| " + " | ".join(row) + " |\n" for row in [head, *rows]]
    return "".join([lines[0], "|---" * len(head) + "|\n", *lines[1:]])


@functools.cache
def proofs_of(crate):
    """The texts of a crate's proofs and definitions by the parts of their paths."""
    top = names.TOP / "crates" / crate
    files = [file for folder in ("proofs", "specs") for file in sorted((top / folder).rglob("*.antt"))]
    return {file.relative_to(top).with_suffix("").parts: file.read_text() for file in files}


@functools.cache
def cited_elsewhere():
    """The lemmas that crates cite from others: the crate where each stands, and its name."""
    found = set()
    for crate in names.crates():
        for text in proofs_of(crate).values():
            for home, listed, alias in CITED.findall(text):
                cited = re.findall(rf"\b{alias}\.(\w+)", text) if alias else re.findall(r"(\w+)(?: as \w+)?", listed)
                found.update((home, name) for name in cited if home != crate)
    return found


def is_cited(law):
    """Whether a proof cites a law: one of another crate, or one of its own beside its lemma, its door and the answers of its function."""
    crate, module, name = law
    beside = re.compile(rf"^(?!(?:(?:pub|abbrev) )*{name}\b)(?:(?!--).)*\b{name}\b", re.M)
    own = [parts for parts in proofs_of(crate) if parts != ("proofs", module, "Laws") and parts[-3:-1] != (module, name)]
    return (crate, name) in cited_elsewhere() or any(name in text and beside.search(text) for text in map(proofs_of(crate).get, own))


def ahead():
    """The list of the laws that no proof cites, a row for each crate."""
    found = collections.defaultdict(lambda: collections.defaultdict(list))
    for crate, module, name in all_laws():
        if crate != SHOWN and not is_cited((crate, module, name)):
            found[crate][module].append(name)
    lines = ["| Crate | Laws that no proof cites |\n", "|---|---|\n"]
    for crate, modules in found.items():
        lines.append(f"| `{crate}` | " + "; ".join(f"`{module}`: {', '.join(found)}" for module, found in modules.items()) + " |\n")
    return "".join(lines)


# what is made of docs/laws.md, by the name that stands in the lines around it
MADE = {"laws": table, "ahead of code": ahead}


def made_part(name, text):
    """What stands in a text between the two lines of this name; None if they aren't there."""
    found = re.search(rf"<!-- {name} -->\n(.*?)<!-- end of {name} -->\n", text, re.S)
    return found and found[1]


def write():
    """Puts the table and the list into docs/laws.md."""
    text = DOCUMENT.read_text()
    for name, make in MADE.items():
        text = text.replace(f"<!-- {name} -->\n{made_part(name, text)}<!--", f"<!-- {name} -->\n{make()}<!--")
    DOCUMENT.write_text(text)


def with_sentences(crate):
    """The laws of a crate, also of one of code: each function with its docstring."""
    return [(law, law.name.comment()) for law in contracts.functions(crate) if law.public and law.is_law()]


@functools.cache
def written_sentences():
    """The sentences of check/laws-sentences.txt by the paths of their laws, each with its place."""
    found = {}
    for number, line in enumerate(SENTENCES.read_text().splitlines(), 1):
        if line and not line.startswith("#"):
            path, _, sentence = line.partition(": ")
            found[tuple(path.split("::"))] = (f"check/laws-sentences.txt:{number}", sentence)
    return found


def told(crate):
    """The laws of a crate as ./do laws prints them: by module, each with its sentence."""
    modules = collections.defaultdict(list)
    for law, docstring in with_sentences(crate):
        _, sentence = written_sentences().get(law.name.path, ("", docstring))
        modules[law.file].append(f"    {law.name.path[-1]}\n        {sentence}\n")
    for file, laws in modules.items():
        module = "::".join(names.module_of(crate, names.TOP / "crates" / crate / "src", file))
        head = re.match(r"//!? ?(.*)|", file.read_text())[1] or ""
        yield f"{module}  {head}\n" + "".join(laws)


def adopt(crate):
    """Makes the sentences of check/laws-sentences.txt docstrings of a crate, which is to be proved anew then, and takes their lines."""
    laws = [law for law, _ in with_sentences(crate) if law.name.path in written_sentences()]
    for law in sorted(laws, key=lambda law: law.at, reverse=True):
        lines = law.file.read_text().splitlines(keepends=True)
        first = law.at
        while lines[first - 1].startswith("///"):
            first -= 1
        sentence = textwrap.wrap(written_sentences()[law.name.path][1], LINE_WIDTH - len("/// "))
        law.file.write_text("".join([*lines[:first], *(f"/// {line}\n" for line in sentence), *lines[law.at :]]))
    gone = tuple(f"{'::'.join(law.name.path)}: " for law in laws)
    kept = [line for line in SENTENCES.read_text().splitlines(keepends=True) if not line.startswith(gone)]
    SENTENCES.write_text(re.sub(r"\n{3,}", "\n\n", "".join(kept)).rstrip("\n") + "\n")


def check_sentences():
    """Each law has a sentence of few words: its docstring, or a line of check/laws-sentences.txt until its crate is proved anew."""
    there = {law.name.path: (law, docstring) for crate in names.crates() for law, docstring in with_sentences(crate)}
    for path, (law, docstring) in there.items():
        words = len(docstring.split())
        if path not in written_sentences() and not 0 < words <= SENTENCE_WORDS:
            yield f"{law.name.place()}: the docstring of {'::'.join(path)} has {words} words, and may have from 1 to {SENTENCE_WORDS}"
    for path, (place, sentence) in written_sentences().items():
        words = len(sentence.split())
        if path not in there:
            yield f"{place}: names the law {'::'.join(path)}, which isn't there"
        elif there[path][1] == sentence:
            yield f"{place}: is what the docstring of {'::'.join(path)} says, so that its line can go"
        if not 0 < words <= SENTENCE_WORDS:
            yield f"{place}: has {words} words, and may have from 1 to {SENTENCE_WORDS}"


def check_page():
    """docs/laws.md has the table and the list as they are made, and a section for each crate of laws."""
    text = DOCUMENT.read_text()
    for name, make in MADE.items():
        if made_part(name, text) != make():
            yield f"docs/laws.md: what stands below the line `<!-- {name} -->` isn't what the laws say, which ./do docs --write makes anew"
    for crate in dict.fromkeys(path[0] for path in all_laws()):
        if not re.search(rf"^## {crate}$", text, re.M):
            yield f"docs/laws.md: has no section for the crate {crate}"


def check_shared():
    """Each law that this script names is there."""
    there = all_laws()
    for name in sorted({law for _, law, _ in SHARED} - {path[-1] for path in there} - {"::".join(path) for path in there}):
        yield f"check/laws.py: names the law {name}, which isn't there"


def check_all():
    """What check/documents.py is to complain of."""
    yield from (*check_shared(), *check_page(), *check_sentences())


def main():
    parser = argparse.ArgumentParser(description=__doc__, formatter_class=argparse.RawDescriptionHelpFormatter)
    parser.add_argument("crate", nargs="?", help="a crate that has laws")
    parser.add_argument("--write", action="store_true", help="puts the table and the list into docs/laws.md")
    parser.add_argument("--adopt", action="store_true", help="makes the sentences of check/laws-sentences.txt the docstrings of the crate")
    given = parser.parse_args()
    if given.write:
        write()
    elif given.crate and (given.crate not in names.crates() or not with_sentences(given.crate)):
        sys.exit(f"{given.crate} is no crate that has laws")
    elif given.crate and given.adopt:
        adopt(given.crate)
    elif given.crate:
        print("\n".join(told(given.crate)), end="")
    else:
        print("\n".join(make() for make in MADE.values()), end="")


if __name__ == "__main__":
    main()
