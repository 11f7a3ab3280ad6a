#!/usr/bin/env python3
"""Run by check/documents.py, and by hand with --write: makes the manual pages of docs/.

The page alto.1 is made of docs/commands.md and of the names, typed lines and replies of docs/formats.md, that of a script of tools/ of its
--help. No text of theirs is written by hand.

Without --write each page that is another one than would be made is named, and the script ends with 1.
"""
import argparse
import pathlib
import re
import runpy
import sys

sys.dont_write_bytecode = True

TOP = pathlib.Path(__file__).resolve().parent.parent
SCRIPTS = ["altosh", "altocp", "packcheck", "packdump", "packdiff", "packmap", "packview"]
# how the paragraph of a help begins that tells the exit codes
EXIT = "The exit code is"
SPAN = re.compile(r"`([^`]+)`|\*\*([^*]+)\*\*|!\[[^]]*\]\([^)]*\)")


# roff


def escaped(text):
    """A text as roff has it."""
    return text.replace("\\", "\\e").replace("-", "\\-").replace("'", "\\(aq")


def line_of(text):
    """A line of running text, with bold spans for quoted ones."""
    parts, at = [], 0
    for span in SPAN.finditer(text):
        parts.append(escaped(text[at : span.start()]))
        said = span[1] or span[2]
        parts.append(f"\\fB{escaped(said)}\\fR" if said else "")
        at = span.end()
    made = "".join([*parts, escaped(text[at:])])
    return f"\\&{made}" if made.startswith(".") else made


def cells_of(line):
    return [it.strip() for it in line.strip().strip("|").split("|")]


def table(rows):
    """A table: a paragraph for each row, whose first cell is its head."""
    heading, _, *rows = map(cells_of, rows)
    for first, *rest in rows:
        yield ".TP"
        yield line_of(first) if first else "\\&"
        told = [f"{name}: {cell}" if len(rest) > 1 and name else cell for name, cell in zip(heading[1:], rest) if cell]
        yield line_of("; ".join(told)) or "\\&"


def block(lines):
    """Lines that stay as they are."""
    yield ".PP"
    yield ".nf"
    yield from (f"\\&{escaped(it)}" if it[:1] in (".", "'") else escaped(it) for it in lines)
    yield ".fi"


def roff(markdown):
    """The roff of a document."""
    for kind, lines in pieces(markdown.splitlines()):
        if kind == "heading":
            level, _, title = lines[0].partition(" ")
            yield f".SH {escaped(title.replace('`', '')).upper()}" if len(level) == 2 else f".SS {escaped(title.replace('`', ''))}"
        elif kind == "table":
            yield from table(lines)
        elif kind == "block":
            yield from block(lines)
        elif kind == "items":
            for text in lines:
                yield ".IP \\(bu 2"
                yield line_of(text[2:])
        else:
            yield ".PP"
            yield from map(line_of, lines)


def pieces(lines):
    """The pieces of a document: headings, tables, blocks, items and paragraphs."""
    at = 0
    while at < len(lines):
        line, start = lines[at], at
        at += 1
        if line.startswith("#"):
            yield "heading", [line]
        elif line.startswith("```"):
            while not lines[at].startswith("```"):
                at += 1
            yield "block", lines[start + 1 : at]
            at += 1
        elif line.startswith("<!--") or not line:
            continue
        else:
            kind = "table" if line.startswith("|") else "block" if line.startswith("    ") else "items" if line.startswith("- ") else "text"
            while at < len(lines) and lines[at] and lines[at][0] not in "#`" and not lines[at].startswith("<!--"):
                at += 1
            yield kind, [it[4:] for it in lines[start:at]] if kind == "block" else lines[start:at]


def head(name, told):
    yield f".TH {name.upper()} 1"
    yield ".SH NAME"
    yield f"{name} \\- {escaped(told.replace('`', ''))}"


# pages


def section(document, title):
    """A section of a document, with its heading."""
    text = (TOP / "docs" / document).read_text()
    start = text.index(f"## {title}\n")
    end = text.find("\n## ", start)
    return text[start : end + 1 if end > 0 else None]


def alto_page():
    commands = (TOP / "docs" / "commands.md").read_text()
    yield from head("alto", "the operating system of the Xerox Alto over disk pack files")
    yield from roff(commands[commands.index("## ") :])
    for title in ("Names", "Typed lines", "Replies"):
        yield from roff(section("formats.md", title))
    yield ".SH SEE ALSO"
    yield ", ".join(f"\\fB{it}\\fR(1)" for it in SCRIPTS)


def options_of(parser):
    """The words and options of a parser, and what each is."""
    for action in parser._actions:
        metavar = " ".join(action.metavar) if isinstance(action.metavar, tuple) else action.metavar or ""
        names = ", ".join(f"`{it}`" for it in action.option_strings)
        yield f"{names} {metavar}".strip(), (action.help or "").replace("%(default)s", str(action.default))


def synopsis(parser):
    """How a script is typed: its options, then its words."""
    words = []
    for action in parser._actions:
        metavar = " ".join(action.metavar) if isinstance(action.metavar, tuple) else action.metavar or ""
        if action.option_strings:
            text = f"{action.option_strings[0]} {metavar}".strip()
            words.append(text if action.required else f"[{text}]")
        else:
            words.append(f"{metavar} .." if action.nargs == "+" else metavar)
    return " ".join([parser.prog, *words])


def script_page(name):
    parser = runpy.run_path(str(TOP / "tools" / name))["command_line"]()
    first, *paragraphs = [it.replace("\n", " ") for it in parser.description.strip().split("\n\n")]
    sentence, _, rest = first.partition(". ")
    ends = [it for it in paragraphs if it.startswith(EXIT)]
    yield from head(name, sentence.rstrip("."))
    yield ".SH SYNOPSIS"
    yield line_of(f"`{synopsis(parser)}`")
    yield ".SH DESCRIPTION"
    yield from roff("\n\n".join(it for it in [rest, *paragraphs] if it and it not in ends))
    yield ".SH OPTIONS"
    for told, said in options_of(parser):
        yield from (".TP", line_of(told), line_of(said))
    yield ".SH EXIT STATUS"
    yield from roff("\n\n".join(ends))
    yield ".SH SEE ALSO"
    yield ", ".join(f"\\fB{it}\\fR(1)" for it in ["alto", *SCRIPTS] if it != name)


def pages():
    """Each page by its path."""
    sys.path.insert(0, str(TOP / "tools"))
    yield TOP / "docs" / "alto.1", alto_page()
    for name in SCRIPTS:
        yield TOP / "docs" / f"{name}.1", script_page(name)


def complaints():
    """The pages that are others than would be made."""
    for path, lines in pages():
        made = "".join(f"{it}\n" for it in lines)
        if not path.exists() or path.read_text() != made:
            yield f"{path.relative_to(TOP)}: isn't the page that check/manual.py --write makes"


def main():
    parser = argparse.ArgumentParser(description=__doc__, formatter_class=argparse.RawDescriptionHelpFormatter)
    parser.add_argument("--write", action="store_true", help="write the pages")
    if parser.parse_args().write:
        for path, lines in pages():
            path.write_text("".join(f"{it}\n" for it in lines))
    found = list(complaints())
    for text in found:
        print(f"manual: {text}")
    sys.exit(1 if found else 0)


if __name__ == "__main__":
    main()
