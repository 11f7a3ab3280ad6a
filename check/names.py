#!/usr/bin/env python3
"""Run by hand, as `./do find`, and by check/documents.py: finds laws, functions, types and definitions.

They are found by words of their name or of the first sentence of their comment. All of the words have to be there. Law functions come
first, then what has the words in its name: code before definitions, and in each what they are the whole name of. Functions that are private
to their crate come last, after 'inside'. Each is shown with its place and that sentence.
"""
# A path is as the code imports it, with `::` between its parts: a crate, modules, a type and an item or a variant of src/; or a crate,
# `specs` or `proofs`, folders, a file and what it defines. What a root file passes on by `pub use` has the shorter path too.
import argparse
import collections
import functools
import pathlib
import re
import signal
import sys
import typing

TOP = pathlib.Path(__file__).resolve().parent.parent
ITEM = re.compile(r"( *)(pub(?:\([a-z]+\))? )?(?:const )?(fn|struct|enum|trait|const|type) (\w+)")
GHOST = re.compile(r"    ghost (\w+):")
VARIANT = re.compile(r"    ([A-Z]\w*)(?=[ ({,]|$)")
IMPL = re.compile(r"impl\b(?:<[^>]*>)?(?:[^{]* for)? (\w+)")
DEFINITION = re.compile(r"((?:(?:pub|abbrev|unfoldable|opaque|data|record) )*)(?!(?:use|mod) )([^\s:(){}]+)(?= :| [({][^=]* : )")
CONSTRUCTOR = re.compile(r"  ([^\s:(){}]+) :")
PASSED_ON = re.compile(r"^pub use ([\w:.]+?)(?:::|\.)(?:\{([^}]*)\}|(\w+));?$", re.M)
ATTRIBUTE = re.compile(r" *#\[")
COMMENT = re.compile(r" *(?:///|//|--) ?(?P<heading>---- )?(?P<words>.*)")
SENTENCE = re.compile(r"(.*?[.!?])(?:\s|$)")


class Name(typing.NamedTuple):
    """What stands at a line of a file: its path, and whether other crates can name it."""

    path: tuple
    file: pathlib.Path
    at: int
    public: bool
    lines: list

    def place(self):
        return f"{self.file.relative_to(TOP)}:{self.at + 1}"

    def comment(self):
        """The comment above it, or the heading where there is none."""
        words = []
        for line in reversed(self.lines[: self.at]):
            comment = COMMENT.match(line)
            if not comment and not ATTRIBUTE.match(line) or comment and comment["heading"] and words:
                break
            if comment:
                words.insert(0, comment["words"])
            if comment and comment["heading"]:
                break
        return " ".join(words)

    def sentence(self):
        """The first sentence of that comment."""
        whole = self.comment()
        first = SENTENCE.match(whole)
        return first[1] if first else whole

    def text(self):
        """The item itself: a trait or an impl up to its closing brace, any other up to its body or the next item."""
        indent = re.match(r" *", self.lines[self.at])[0]
        whole = re.match(r" *(pub(\([a-z]+\))? )?(trait|impl)\b", self.lines[self.at])
        end = self.at + 1
        while end < len(self.lines):
            line = self.lines[end]
            is_last = line == indent + "}" if whole else line.strip() in ("{", "{}") or line.endswith(";") or ITEM.match(line)
            if is_last:
                break
            end += 1
        return "\n".join(self.lines[self.at : end + 1])


@functools.cache
def crates():
    """The crates of crates.txt, lowest first as they stand there."""
    lines = [re.match(r"\w*", line)[0] for line in (TOP / "crates.txt").read_text().splitlines()]
    return [name for name in lines if name]


def module_of(crate, folder, file):
    """The path of what stands in a file of src/, specs/ or proofs/."""
    parts = file.relative_to(folder).with_suffix("").parts
    if folder.name != "src":
        return (crate, folder.name, *parts)
    return (crate, *(part for part in parts if part not in ("lib", "main", "mod")))


def items_of(file, module):
    """The items of a source file. What a trait, an impl or an enum has stands under its name, and so does the impl itself."""
    lines, holder, is_shared, has_variants = file.read_text().splitlines(), None, False, False
    for at, line in enumerate(lines):
        if line.startswith("}"):
            holder = None
        elif line.startswith("impl"):
            holder, is_shared, has_variants = IMPL.match(" ".join(lines[at : at + 9]))[1], False, False
            yield Name((*module, holder), file, at, False, lines)
        elif item := ITEM.match(line):
            indent, public, kind, name = item.groups()
            if not indent:
                yield Name((*module, name), file, at, public == "pub ", lines)
                if kind in ("trait", "enum"):
                    holder, is_shared, has_variants = name, public == "pub ", kind == "enum"
            elif len(indent) == 4 and holder:
                yield Name((*module, holder, name), file, at, public == "pub " or is_shared, lines)
        elif holder and has_variants and (variant := VARIANT.match(line)):
            yield Name((*module, holder, variant[1]), file, at, is_shared, lines)
        elif holder and (ghost := GHOST.match(line)):
            yield Name((*module, holder, ghost[1]), file, at, is_shared, lines)


def definitions_of(file, module):
    """The definitions of a file of specs/, with their constructors, or the lemmas of one of proofs/, and what it passes on."""
    text = file.read_text()
    lines, data = text.splitlines(), None
    for at, line in enumerate(lines):
        if found := DEFINITION.match(line):
            yield Name((*module, found[2]), file, at, "pub " in found[1], lines)
            data = found[2] if "data " in found[1] else None
        elif data and (constructor := CONSTRUCTOR.match(line)):
            yield Name((*module, data, constructor[1]), file, at, True, lines)
    for passed in PASSED_ON.finditer(text):
        for name in re.split(r"[,\s]+", passed[2] or passed[3]):
            yield Name((*module, name), file, text.count("\n", 0, passed.start()), False, lines)


def names_of(crate, folders=("src", "specs")):
    for name in folders:
        folder = TOP / "crates" / crate / name
        for file in sorted([*folder.rglob("*.rt"), *folder.rglob("*.antt")]):
            module = module_of(crate, folder, file)
            yield from items_of(file, module) if name == "src" else definitions_of(file, module)


def shorter_paths(crate):
    """What the root file of a crate passes on from its modules: the name, and the module where it stands."""
    root = TOP / "crates" / crate / "src" / "lib.rt"
    for passed in PASSED_ON.finditer(root.read_text()) if root.exists() else ():
        for name in re.findall(r"\w+", passed[2] or passed[3]):
            yield name, (crate, *passed[1].split("::"))


def index(folders=("src", "specs", "proofs")):
    """All names of all crates by their paths, the shorter ones too."""
    found = collections.defaultdict(list)
    for crate in crates():
        shorter = dict(shorter_paths(crate))
        for name in names_of(crate, folders):
            found[name.path].append(name)
            for length in range(2, len(name.path)):
                if shorter.get(name.path[length]) == name.path[:length]:
                    found[(crate, *name.path[length:])].append(name)
    return found


def is_law(name):
    """Whether it is a function of a crate of laws."""
    return (name.path[0] == "pack_laws" or name.path[0].startswith("laws_")) and name.path[1] != "specs"


def is_inside(name):
    """Whether it is a function that no other crate can name."""
    item = ITEM.match(name.lines[name.at])
    return not name.public and name.path[1] != "specs" and bool(item) and item[3] == "fn"


def found_by(words):
    """The public names that have these words in their name or sentence, and the private functions that have."""
    words = [word.lower() for word in words]

    def has_all(text):
        return all(word in text.lower() for word in words)

    def rank(name):
        last = name.path[-1]
        return not is_law(name), not has_all(last), name.path[1] == "specs", "_".join(words) != last.lower()

    found = [name for crate in crates() for name in names_of(crate) if has_all(f"{name.path[-1]} {name.sentence()}")]
    return sorted((name for name in found if name.public), key=rank), [name for name in found if is_inside(name)]


def main():
    # a reader of the lines may go away before the last of them
    signal.signal(signal.SIGPIPE, signal.SIG_DFL)
    parser = argparse.ArgumentParser(prog="./do find", description=__doc__, formatter_class=argparse.RawDescriptionHelpFormatter)
    parser.add_argument("word", nargs="+", help="a part of the name or of the sentence, in letters of either case")
    public, inside = found_by(parser.parse_args().word)
    for where, names in [("", public), ("inside ", inside)]:
        for name in names:
            print(f"{where}{'::'.join(name.path)}  {name.place()}  {name.sentence()}")
    if not public and not inside:
        sys.exit("nothing has this in its name or its sentence; git grep looks through all texts")


if __name__ == "__main__":
    main()
