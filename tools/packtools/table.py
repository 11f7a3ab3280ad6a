"""A survey as a table of text."""
from packtools.survey import KINDS


def told(survey, title):
    """The lines: of the whole pack, of each kind of sector, of each file, and of false hints."""
    yield title
    yield from survey.remarks()
    by_kind = {kind: [] for kind in KINDS}
    for at, kind in enumerate(survey.kinds):
        by_kind[kind].append(at)
    yield ""
    yield from rows_of(["sectors", "kind", "which"], [[len(found), KINDS[kind], runs(found)] for kind, found in by_kind.items()])
    yield ""
    yield from rows_of(["serial", "version", "bytes", "pages", "which", "file", ""], [row_of(survey, file) for file in survey.listed()])
    by_text = {}
    for at, hints in sorted(survey.false.items()):
        for _, text in hints:
            by_text.setdefault(text, []).append(at)
    yield ""
    yield from rows_of(["false hints", "in sectors"], [[text, runs(found)] for text, found in by_text.items()])


def row_of(survey, file):
    name = file.full_name
    return [name.serial(), name.version, file.length, len(file.pages), runs(file.pages), survey.path(file), file.remark()]


def runs(sectors):
    """Sectors in their order, those that follow each other as one run: `5-7 20`."""
    found = []
    for at in sectors:
        if found and found[-1][1] + 1 == at:
            found[-1][1] = at
        else:
            found.append([at, at])
    return " ".join(f"{first}-{last}" if last > first else str(first) for first, last in found)


def rows_of(heading, rows):
    """The lines of a table: columns of numbers are set to the right, the others to the left."""
    is_number = [bool(rows) and all(isinstance(row[column], int) for row in rows) for column in range(len(heading))]
    rows = [heading, *([str(cell) for cell in row] for row in rows)]
    widths = [max(len(row[column]) for row in rows) for column in range(len(heading))]
    for row in rows:
        cells = [cell.rjust(width) if right else cell.ljust(width) for cell, width, right in zip(row, widths, is_number)]
        yield "  ".join(cells).rstrip()
