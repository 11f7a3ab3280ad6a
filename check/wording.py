"""Run by check/documents.py: how long documents, sentences and cells are, and which words no text has.

Words by hand are counted: of a document neither its transcripts nor what stands between a line `<!-- NAME -->` and one `<!-- end of NAME -->`,
and nothing of docs/promises.md, which a script makes.
"""
import pathlib
import re
import subprocess

import names

TOP = names.TOP
# words by hand that a document may have, and all of them together: those of tools.md for seven scripts, those of commands with
# what to do after a text and with six lines on the memory, those of working with streams and the memory, those of formats, glossary,
# model and laws with the memory, and those of DECISIONS with all of these
CAPS = {
    "README.md": 900,
    "CONTRIBUTING.md": 100,
    "docs/commands.md": 5_130,
    "docs/formats.md": 2_835,
    "docs/tools.md": 2_300,
    "docs/tour.md": 2_000,
    "docs/map.md": 1_600,
    "docs/working.md": 3_050,
    "docs/glossary.md": 2_415,
    "docs/model.md": 6_615,
    "docs/laws.md": 3_675,
    "docs/proved.md": 3_000,
    "docs/trials.md": 5_500,
    "docs/speed.md": 1_500,
    "docs/DECISIONS.md": 7_875,
}
ALL_WORDS = 46_000
MADE = ["docs/promises.md"]
# words that a sentence may have, where it isn't as many as elsewhere; that a cell of a table may have; and a bullet
SENTENCE = 50
SENTENCES = {"README.md": 30, "docs/commands.md": 40, "docs/map.md": 40, "docs/working.md": 40, "docs/proved.md": 40}
CELLS = {"docs/map.md": 12, "docs/glossary.md": 25, "docs/trials.md": 25}
BULLETS = {"docs/DECISIONS.md": 60}
# the words in place of which others are written (docs/working.md, Words)
UNWRITTEN = re.compile(r"\b(behind|for want of|want of memory|want(?:s|ed) (?:some|memory)|but for|some first|exactly where)\b", re.I)
WORDS_SECTION = re.compile(r"^## Words$.*?(?=^## )", re.M | re.S)
# the crates whose comments are changed as they are proved for another reason: until then they are passed over
WAITING = {
    "alto_words", "directory", "disk_descriptor", "disk_image", "exec_writing", "laws_call", "laws_contents", "laws_hint",
    "laws_met", "laws_operation", "pack_laws", "page_alloc", "scav_names", "scav_pages", "scavenger",
    "session_boot", "test_descriptor", "test_scavenge", "test_seeking",
}  # fmt: skip
COMMIT = re.compile(r"\b(?=\w*[a-f])(?=\w*\d)[0-9a-f]{8}\b")
MEASURED = "Measured on"
BY_SCRIPT = re.compile(r"<!-- ([a-z ]+) -->\n.*?<!-- end of \1 -->|```.*?```", re.S)
# how the first line of a script of check/ says who runs it
RUN_BY = re.compile(r"(?:# |\"\"\")Run by (the gate|other scripts|check/\w+\.py|\./do|hand|git)\b")
# a verb of the plain program, and whether a docstring follows
VERB = re.compile(r"^    def on_(\w+)\(.*\):\n( +\"\"\")?", re.M)


def documents():
    """The documents that are written by hand, each with its name."""
    paths = [TOP / "README.md", TOP / "CONTRIBUTING.md", *sorted((TOP / "docs").glob("*.md"))]
    return [(name, path) for path in paths if path.exists() and (name := str(path.relative_to(TOP))) not in MADE]


def by_hand(path):
    """What a hand wrote of a document; its lines keep their numbers."""
    return BY_SCRIPT.sub(lambda found: "\n" * found[0].count("\n"), path.read_text())


def cells(line):
    return line.strip().strip("|").split("|") if line.startswith("|") else []


def sentences(text):
    """The sentences of a line: of a row of a table those of each cell. A colon and a semicolon end one, too."""
    for piece in cells(text) or [text]:
        yield from (it for it in re.split(r"(?<=[.:;!?])\s+", piece.strip()) if it)


def blocks(path):
    """The comments of a source file, lines one after another joined, each with the number of its first line."""
    sign, block, start = "--" if path.suffix == ".antt" else "//", [], 0
    for number, line in enumerate([*path.read_text().splitlines(), ""], 1):
        text = line.strip()
        if text.startswith(sign):
            start = start if block else number
            block.append(re.sub(r"^(?://[/!]?|--) ?", "", text))
        elif block:
            yield start, " ".join(block)
            block = []


def check_caps():
    """No document has more words by hand than it may have, nor all of them together."""
    together = 0
    for name, path in documents():
        number = len(by_hand(path).split())
        together += number
        if name not in CAPS:
            yield f"{name}: has no cap in check/wording.py"
        elif number > CAPS[name]:
            yield f"{name}: has {number:,} words by hand, and may have {CAPS[name]:,}"
    if together > ALL_WORDS:
        yield f"the documents have {together:,} words by hand, and may have {ALL_WORDS:,}"


def check_lines():
    """Each sentence, cell and bullet of a document is short enough, no hash of a commit stands in it, and none of the unwritten words."""
    for name, path in documents():
        text = by_hand(path)
        words_section = WORDS_SECTION.search(text) if name == "docs/working.md" else None
        spared = range(words_section.start(), words_section.end()) if words_section else range(0)
        at = 0
        for number, line in enumerate(text.splitlines(), 1):
            place = f"{name}:{number}"
            yield from line_complaints(name, place, line)
            if at not in spared:
                yield from (f"{place}: has the words {it[0]!r}, in place of which docs/working.md has others" for it in UNWRITTEN.finditer(line))
            at += len(line) + 1


def line_complaints(name, place, line):
    limit = SENTENCES.get(name, SENTENCE)
    for it in sentences(line):
        if len(it.split()) > limit:
            yield f"{place}: the sentence has {len(it.split())} words, and may have {limit}: {it[:60]} .."
    for it in cells(line):
        if len(it.split()) > CELLS.get(name, 10**6):
            yield f"{place}: the cell has {len(it.split())} words, and may have {CELLS[name]}: {it.strip()[:60]} .."
    if line.startswith("- ") and len(line.split()) > BULLETS.get(name, 10**6):
        yield f"{place}: the bullet has {len(line.split())} words, and may have {BULLETS[name]}: {line[:60]} .."
    if not (name == "docs/speed.md" and line.startswith(MEASURED)):
        yield from (f"{place}: names the commit {it}, which docs/speed.md alone does, after '{MEASURED}'" for it in COMMIT.findall(line))


def check_measured():
    """docs/speed.md names commits in one line."""
    found = [line for line in (TOP / "docs/speed.md").read_text().splitlines() if line.startswith(MEASURED)]
    if len(found) != 1:
        yield f"docs/speed.md: has {len(found)} lines that begin with '{MEASURED}', and is to have one"


def comment_complaints(path):
    for number, block in blocks(path):
        place = f"{path.relative_to(TOP)}:{number}"
        yield from (f"{place}: the comment has the words {it[0]!r}" for it in UNWRITTEN.finditer(block))
        for it in sentences(block):
            if len(it.split()) > SENTENCE:
                yield f"{place}: the comment's sentence has {len(it.split())} words, and may have {SENTENCE}: {it[:60]} .."


def check_comments():
    """So it is in the comments of a crate, unless it is passed over; and one that is has a comment to be changed."""
    for crate in names.crates():
        folder = TOP / "crates" / crate
        files = [path for kind in ("src", "specs", "proofs") for end in ("rt", "antt") for path in sorted((folder / kind).rglob(f"*.{end}"))]
        found = [it for path in files for it in comment_complaints(path)]
        if crate not in WAITING:
            yield from found
        elif not found:
            yield f"check/wording.py: passes over the comments of {crate}, in which nothing is to be changed"


def check_scripts():
    """The words stand in no script either, and each script of check/ says in its first line who runs it."""
    files = subprocess.run(["git", "ls-files", "--", "do", ".ci", "bench", "check", "tools"], cwd=TOP, capture_output=True, text=True, check=True)
    for name in files.stdout.split():
        path = TOP / name
        if not path.exists() or path.suffix not in ("", ".py") or path == pathlib.Path(__file__).resolve():
            continue
        lines = path.read_text().splitlines()
        for number, line in enumerate(lines, 1):
            yield from (f"{name}:{number}: has the words {it[0]!r}" for it in UNWRITTEN.finditer(line))
        first = next((line for line in lines if not line.startswith("#!")), "")
        if name.startswith("check/") and not RUN_BY.match(first):
            yield f"{name}: its first line doesn't say who runs it: 'Run by the gate', 'by other scripts', 'by check/NAME.py', 'by hand' or 'by git'"
    for verb in VERB.finditer((TOP / "check/plain.py").read_text()):
        if not verb[2]:
            yield f"check/plain.py: the verb {verb[1]} has no docstring"


def complaints():
    return [*check_caps(), *check_lines(), *check_measured(), *check_comments(), *check_scripts()]
