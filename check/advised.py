"""Run by check/documents.py: the table of docs/commands.md, It says, do, against that of tools/packtools/advice.py, and against the texts
that the documents tell of."""
import re
import sys

import names

sys.path.append(str(names.TOP / "tools"))
from packtools import advice

COMMANDS, FORMATS = names.TOP / "docs/commands.md", names.TOP / "docs/formats.md"
TITLE = "It says, do"
# texts that a refusal has without a row: those of lines that aren't built
NOT_BUILT = (
    *("no stream", "too many streams", "streams open"),
    *("not a world", "not whole", "spoilt world"),
)


def rows_after(document, heading, columns):
    """The cells of the first table with so many columns after a heading or a line, without the two rows at its top."""
    text = document.read_text()
    found = []
    for line in text[text.index(heading) :].splitlines():
        cells = [cell.strip() for cell in re.split(r"(?<!\\)\|", line)[1:-1]]
        if len(cells) == columns:
            found.append(cells)
        elif found:
            break
    return found[2:]


def told_texts():
    """Each text of a table that a user may read, with its place."""
    for document, heading, columns in [
        (COMMANDS, "### A pack that isn't entered", 2),
        (COMMANDS, "### Refusals", 2),
        (COMMANDS, "A pack can't be scavenged for one of these reasons", 2),
        (COMMANDS, "The causes of 8", 2),
        (FORMATS, "| Text of a refusal |", 2),
    ]:
        for first, _ in rows_after(document, heading, columns):
            for text in advice.QUOTED.findall(first):
                yield f"{document.relative_to(names.TOP)}: {text!r}", text


def complaints():
    """What differs."""
    there = rows_after(COMMANDS, f"## {TITLE}", 3) if f"## {TITLE}" in COMMANDS.read_text() else []
    for row in advice.ROWS:
        if list(row) not in there:
            yield f"docs/commands.md: {TITLE}: has no row {' | '.join(row)}"
    if len(there) != len(advice.ROWS):
        yield f"docs/commands.md: {TITLE}: has {len(there)} rows, and tools/packtools/advice.py {len(advice.ROWS)}"
    for place, text in told_texts():
        example = re.sub(r"\b[A-Z]+\b", "1", text)
        if advice.row_for(example) is None and not text.startswith(NOT_BUILT):
            yield f"{place}: tools/packtools/advice.py has no row for it"
    for cells in rows_after(FORMATS, "| Text of a refusal |", 2):
        for text in advice.QUOTED.findall(cells[0]):
            if not advice.is_refusal(re.sub(r"\b[A-Z]+\b", "1", text)):
                yield f"docs/formats.md: {text!r}: tools/packtools/advice.py doesn't take it for a refusal"
