#!/usr/bin/env python3
"""Run by the gate: checks packs by tools/packcheck, and compares with what follows from labels, and what the program does to a copy.

Packs are damaged as by check/damaged.py, of one drive and two. Of each the exit code has to be that of the rows of docs/tools.md: whether it
can be scavenged is worked out from labels (check/scavenging.py), and whether `boot` enters it and which sectors a scavenge changes is asked
of the program. Each of these sectors, and no other, has to stand in a row; `show` tells the same before and after; and no byte of the pack
is another. Then come packs that a session has open, that can't be read or scavenged, several at once, and what is told as JSON.
"""
import json
import pathlib
import subprocess
import sys
import tempfile

sys.dont_write_bytecode = True
import arguments
import packs
import sessions
from damaged import DAMAGED, damaged, sound_pack
from rows import Pack
from scavenging import Mending, surveyed

sys.path.append(str(arguments.TOP / "tools"))
from packtools.checking import Check
from packtools.session import Session

SECONDS = 60
SCRIPT = arguments.TOP / "tools" / "packcheck"
CLEAN_REMARK = "marked clean"
failures = []


def require(what, found, wanted):
    if found != wanted:
        failures.append(f"{what}: {found!r}, and not {wanted!r}")


def wanted_code(mending, entered, changed):
    """The exit code by the rows of docs/tools.md."""
    if mending.refusal():
        return 7
    if not entered:
        return 2
    return 1 if changed else 0


def compare(what, pack, program, files):
    """Checks a pack whose drives have these files, and compares; answers the code."""
    for path, content in zip(pack.files, files):
        path.write_bytes(content)
    found = Check(program, *map(str, pack.files))
    require(f"{what}: the pack", pack.images(), files)
    entered, _, _ = pack.run(["boot"], b"free\n")
    pack.run(["scavenge"])
    both = [b"".join(it) for it in (files, pack.images())]
    changed = [at for at in range(len(both[0]) // packs.SECTOR) if len({it[at * packs.SECTOR : (at + 1) * packs.SECTOR] for it in both}) > 1]
    mending = Mending(surveyed(files))
    code = wanted_code(mending, entered == 0, changed)
    require(f"{what}: exit code", found.code, code)
    if code != 7:
        require(f"{what}: sectors in rows", sorted({at for it in found.rows.values() for at in it}), changed)
        require(f"{what}: listings", found.is_same, True)
        require(f"{what}: what the scavenge says", (0, f"{found.report}\n".encode()), mending.answer())
    _, *remarks = mending.survey.remarks()
    if code == 0:
        require(f"{what}: hints of a pack that is well", (mending.survey.false, remarks), ({}, [CLEAN_REMARK]))
    vague = [text for text in found.rows if text.startswith(("write a ", "free a sector")) and text != "free a sector whose label names no page"]
    require(f"{what}: rows that say little", vague, [])
    return code


def check_damaged(program, seed, count):
    """Packs of the generator, so many at least. Answers how many there were."""
    checked = number = 0
    while checked < count:
        number += 1
        with tempfile.TemporaryDirectory() as folder:
            history, folder = sessions.History(seed, number), pathlib.Path(folder)
            files = sound_pack(program, folder, history)
            pack = Pack(program, folder, len(files))
            for content in [files, *(damaged(history.chance, files).files() for _ in range(DAMAGED))]:
                compare(f"seed {seed}, pack {number}, {checked}", pack, program, list(content))
                checked += 1
    return checked


def run(program, folder, *words):
    ended = subprocess.run(
        [sys.executable, "-B", SCRIPT, "--program", program, *words], cwd=folder, capture_output=True, text=True, timeout=SECONDS
    )
    return ended.returncode, ended.stdout, ended.stderr


def check_words(program, folder):
    """What the script says and how it ends."""
    sound, second = packs.formatted(2, 2, 1)
    content = {"well": packs.formatted(1, 2, 1)[0], "dam": packs.damaged_pack(), "zeros": bytes(2 * 12_768), "left": sound, "right": second, "short": bytes(9)}
    for name, data in content.items():
        (folder / name).write_bytes(data)
    well = "well: sound, clean, all hints true; 2 files, 43 free of 48 sectors\n"
    require("a pack that is well", run(program, folder, "well"), (0, well, ""))
    require("quiet", run(program, folder, "-q", "well"), (0, "", ""))
    code, said, _ = run(program, folder, "well", "dam")
    require("two packs", (code, said.startswith(well + "dam: 5 files")), (1, True))
    told = "zeros: 0 files, 0 free of 48 sectors, 47 bad; boot doesn't enter it: no root: found none\n  it can't be scavenged: root bad: 0 0\n"
    require("zeros", run(program, folder, "zeros"), (7, told, ""))
    two = "left: sound, clean, all hints true; 2 files, 91 free of 96 sectors\n"
    require("two drives", run(program, folder, "--second", "right", "left"), (0, two, ""))
    length = "packcheck: short: bad length: 9 bytes, and not 2 to 406 cylinders of 12768 bytes\n"
    require("no pack file", run(program, folder, "short", "zeros"), (8, told, length))
    require("no file", run(program, folder, "nowhere"), (8, "", "packcheck: nowhere: No such file or directory\n"))
    code, said, noted = run("./nowhere", folder, "well")
    require("no program", (code, said, noted), (8, "", "packcheck: ./nowhere: No such file or directory; --program names the program alto\n"))
    require("one file twice", run(program, folder, "--second", "well", "well")[0], 2)
    code, said, _ = run(program, folder, "--json", "dam", "short")
    found = json.loads(said)
    require("JSON", (code, [it["code"] for it in found], found[0]["changes"][1]), (8, [1, 8], {"what": "make a next link true", "sectors": [6]}))
    with Session(program, str(folder / "well")) as session:
        session.make("A")
        require("an open pack", run(program, folder, "well"), (8, "", "packcheck: well: another session has it open\n"))
    require("a pack that was closed", run(program, folder, "well")[0], 0)


def main():
    options = arguments.seeded(arguments.parser(__doc__))
    options.add_argument("--packs", type=arguments.positive, default=200, metavar="N", help="how many at least (default: 200)")
    options = arguments.read(options)
    print(f"packchecks: seed {options.seed}", flush=True)
    with tempfile.TemporaryDirectory() as folder:
        check_words(options.program, pathlib.Path(folder))
    count = check_damaged(options.program, options.seed, options.packs)
    arguments.end("packchecks", failures, f"{count} packs are judged as follows from labels and as the program mends them")


if __name__ == "__main__":
    main()
