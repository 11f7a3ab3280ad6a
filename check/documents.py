#!/usr/bin/env python3
"""Run by the gate: compares the documents with the code. Nothing has to be built, and it takes some seconds.

Prints each difference with its place, and ends with 1 where there is one. With --write it first makes anew what is made in docs/:
promises.md, and the tables of laws.md.
"""
# Each check is a function that yields what it complains of.
import argparse
import collections
import pathlib
import re
import subprocess
import sys

sys.dont_write_bytecode = True
import advised
import laws
import manual
import names
import owners
import promises
import wording

TOP = names.TOP
DOCUMENTS = [path for path in [TOP / "README.md", TOP / "CONTRIBUTING.md", *sorted((TOP / "docs").glob("*.md"))] if path.exists()]
README_LINES = 80
CRATE_EDITS = 6
# edits that show what a user would lose most by: names, bytes, a pack that opens, the speed of a lookup, an answer that is true
NAMED = (
    "label_check/claim_label_before_value",
    "label_check/claim_trusts_caller",
    "label_check/leader_matches_any_page",
    "page_alloc/full_by_the_table",
    "page_seeking/file_ends_with_its_links",
    "page_seeking/found_not_noted",
    "directory/look_up_by_sweep",
    "kept_names/suffixes_from_above",
    "scav_names/nameless_file_freed",
    "scav_pages/highest_copy_kept",
    "scav_pages/links_left",
    "exec_steps/mark_not_opened",
    "exec_writing/entered_before_the_old_entry_leaves",
    "exec_writing/entry_freed_first",
    "executive/another_page_wanted",
    "executive/true_link_failed",
    "session_boot/always_a_fault",
    "session_boot/always_needs_scavenge",
    "session_boot/reply_before_write",
    "alto_top/boot_always_a_display_fault",
    "alto_top/boot_always_a_key_fault",
    "alto_top/scavenge_always_refused",
    "alto/always_a_fault",
)
PATH = re.compile(r"`((?:\w+::)+\w+)`")
FILE = re.compile(r"(?<![\w./-])(?:\.ci|bench|check|crates|demo|docs|tools)/[\w./-]*\w")
# what stands for any name, and what is built
NO_FILE = re.compile(r"\b(CRATE|MODULE|NAME|out)\b")
CRATE_ROW = re.compile(r"\| `(\w+)` \|")
NUMBER = re.compile(r"\b(\d[\d,]*) (crates|must-fail edits|edits)\b(?! a crate)")
DEMO_BLOCK = re.compile(r"^<!-- (demo/\S+) -->\n(?:```\w*\n(.*?)^```$)?", re.M | re.S)
# a paper, a definition or an issue named by its number, and an address on the network
CITATION = (
    r"\b(paper|document|demand|issue) #?0?[0-9]|\b0[1-4](-scope|-theorems|-requests|-formats|, (section )?[A-N0-9])"
    r"|\b[DTWR][0-9]{1,2}[a-i]?\b"
)
ADDRESS = r"[a-z]+://[^ )]*|[a-z0-9.-]+\.(com|dev|io|net|org)\b"
# the name that every SVG has is spelled as an address, and isn't one
NAMESPACE = "/2000/svg"


def lines_of(path):
    """The lines of a file, each with its place."""
    for number, line in enumerate(path.read_text().splitlines(), 1):
        yield f"{path.relative_to(TOP)}:{number}", line


def tracked(*patterns):
    """The files that git knows by these patterns."""
    return subprocess.run(["git", "ls-files", "--", *patterns], cwd=TOP, capture_output=True, text=True, check=True).stdout.split()


def all_edits():
    """Each must-fail edit as crate/name."""
    return [f"{path.split('/')[1]}/{pathlib.Path(path).stem}" for path in tracked("crates/*/must-fail/*.edit")]


def map_rows():
    """The crates of docs/map.md in their order."""
    rows = [CRATE_ROW.match(line) for _, line in lines_of(TOP / "docs/map.md")]
    return [row[1] for row in rows if row]


def check_map():
    """docs/map.md has a row for each crate of crates.txt, and for no other."""
    yield from differences("docs/map.md", "crate", map_rows(), names.crates())


def check_few_edits():
    """No crate has more must-fail edits than a gate has time for, beside those of NAMED, which are there, and those by which a word always
    answers a fault or a refusal."""
    edits = all_edits()
    for edit in NAMED:
        if edit not in edits:
            crate, name = edit.split("/")
            yield f"crates/{crate}/must-fail/{name}.edit: isn't there, and shows what a user would lose most by"
    counts = collections.Counter(edit.split("/")[0] for edit in edits if "_always_" not in edit and edit not in NAMED)
    for crate, number in sorted(counts.items()):
        if number > CRATE_EDITS:
            yield f"crates/{crate}/must-fail: has {number} edits, and may have {CRATE_EDITS}"


def differences(document, kind, named, there):
    """What a document is to name once each, and doesn't; and what it names that isn't there."""
    counts = collections.Counter(named)
    for name in sorted({*counts, *there}):
        if name not in there:
            yield f"{document}: names the {kind} {name}, which isn't there"
        elif not counts[name]:
            yield f"{document}: doesn't name the {kind} {name}"
        elif counts[name] > 1:
            yield f"{document}: names the {kind} {name} {counts[name]} times"


def check_paths(found):
    """Each name with `::` that a document has in backquotes is there: from its crate on, or as the end of such a path. Modules are, too."""
    paths = {path[:length] for path in found for length in range(2, len(path) + 1)}
    ends = {path[start:] for path in paths for start in range(len(path) - 1)}
    for document in DOCUMENTS:
        for place, line in lines_of(document):
            for path in PATH.findall(line):
                parts = tuple(path.split("::"))
                if parts not in (paths if parts[0] in names.crates() else ends):
                    yield f"{place}: names {path}, which isn't there"


def check_files():
    """Each file of the repository that a document names is there."""
    for document in DOCUMENTS:
        for place, line in lines_of(document):
            for path in FILE.findall(line):
                if not NO_FILE.search(path) and not (TOP / path).exists():
                    yield f"{place}: names {path}, which isn't there"


def check_readme():
    """README.md is short, its transcripts aside."""
    lines = len([line for line in wording.by_hand(TOP / "README.md").splitlines() if line])
    if lines > README_LINES:
        yield f"README.md: has {lines} lines, and may have {README_LINES}"


def check_numbers():
    """Where a document tells how many crates or must-fail edits there are, they are as many."""
    for document in DOCUMENTS:
        for place, line in lines_of(document):
            for number, kind in NUMBER.findall(line):
                there = len(names.crates() if kind == "crates" else all_edits())
                if int(number.replace(",", "")) != there:
                    yield f"{place}: tells of {number} {kind}, and there are {there}"


def check_demos():
    """A block after a line `<!-- demo/NAME.txt -->` is that transcript."""
    for document in DOCUMENTS:
        text = document.read_text()
        for block in DEMO_BLOCK.finditer(text):
            place = f"{document.relative_to(TOP)}:{text.count(chr(10), 0, block.start()) + 1}"
            transcript = TOP / block[1]
            if not transcript.exists():
                yield f"{place}: names {block[1]}, which isn't there"
            elif block[2] != transcript.read_text():
                yield f"{place}: the block after this line isn't {block[1]}"


def check_citations():
    """The repository stands alone: no paper, definition or issue is cited by its number, and no address on the network is named."""
    for what, pattern, files in [
        ("looks like a citation by number", CITATION, ["*.md", "*.rt", "*.antt", "*.edit", "*.sh"]),
        ("looks like an address on the network", ADDRESS, ["*.md", "*.py", "*.sh", "*.txt"]),
    ]:
        run = subprocess.run(["git", "grep", "-nIoE", pattern, "--", *files], cwd=TOP, capture_output=True, text=True)
        for line in run.stdout.splitlines():
            path, number, text = line.split(":", 2)
            if not text.rstrip('"').endswith(NAMESPACE):
                yield f"{path}:{number}: {text!r} {what}"


def main():
    parser = argparse.ArgumentParser(description=__doc__, formatter_class=argparse.RawDescriptionHelpFormatter)
    parser.add_argument("--write", action="store_true", help="first makes anew what is made in docs/")
    if parser.parse_args().write:
        promises.write()
        laws.write()
    found = names.index()
    complaints = [
        *check_map(),
        *promises.check_all(),
        *check_few_edits(),
        *check_paths(found),
        *laws.check_all(),
        *check_files(),
        *check_readme(),
        *check_numbers(),
        *check_demos(),
        *check_citations(),
        *wording.complaints(),
        *owners.complaints(),
        *advised.complaints(),
        *manual.complaints(),
    ]
    for complaint in complaints:
        print(f"docs: {complaint}")
    if not complaints:
        print("docs: the documents name what is there")
    sys.exit(1 if complaints else 0)


if __name__ == "__main__":
    main()
