#!/usr/bin/env python3
"""Run by the gate: makes pages of packs by tools/packview, and compares what they have with surveys of the packs, state by state.

Of packs of check/packs.py, formatted, damaged, of zeros, of two drives, and of several states, each page says of every sector its kind, its
words and its bytes, and the same of the whole pack as the survey; where a state changes something it names the sectors that differ in the
files. A film of a scavenge and of a session ends with the pack that the program leaves, where `strace` is there. No page names an address of
the network.
"""
import base64
import json
import os
import pathlib
import re
import shutil
import struct
import subprocess
import sys
import tempfile
import zlib

sys.dont_write_bytecode = True
import arguments
import packs
from scavenging import surveyed

sys.path.append(str(arguments.TOP / "tools"))
from packtools import sector
from packtools.session import Session

SECONDS = 60
SCRIPT = arguments.TOP / "tools" / "packview"
BLOB = re.compile(r'<script id="blob" type="text/plain">([^<]*)</script>')
# what leads to an address
ADDRESS = re.compile(r"[a-z]+://|\b(?:src|href)\s*=\s*.(?!#)|@import|url\((?!#)|\bfetch\(|XMLHttpRequest")
NO_PROGRAM = "packview: ./none: there is no such program; --program names the program alto\n"
failures = []


def require(what, found, wanted):
    if found != wanted:
        failures.append(f"{what}: {str(found)[:300]}, and not {str(wanted)[:300]}")


def run(folder, *words, typed="", path=None):
    environment = os.environ if path is None else {**os.environ, "PATH": path}
    ended = subprocess.run(
        [sys.executable, "-B", SCRIPT, *words], cwd=folder, env=environment, input=typed, capture_output=True, text=True, timeout=SECONDS
    )
    return ended.returncode, ended.stdout, ended.stderr


def read(path):
    """What the page of this path has."""
    text = path.read_text()
    require(f"{path.name}: addresses", ADDRESS.findall(BLOB.sub("", text)), [])
    return json.loads(zlib.decompress(base64.b64decode(BLOB.search(text)[1])))


def states_of(blob):
    """The sectors of each state, each with all that the page has of it, as it steps through them."""
    found = {}
    for step in blob["steps"]:
        for at, it in step["changes"].items():
            found[int(at)] = it if len(it) > 5 else [*it, found[int(at)][5]]
        yield step, {at: list(it) for at, it in found.items()}


def check_state(what, step, sectors, files, before):
    """A state is that of a pack whose drives have these files."""
    survey, image = surveyed(files), b"".join(files)
    whole = {"remarks": list(survey.remarks()), "counts": survey.counts(), "false": survey.false_counts()}
    require(f"{what}: the whole pack", {key: step[key] for key in whole}, whole)
    require(f"{what}: files", [it[1:4] for it in step["files"]], [[survey.path(it), it.length, len(it.pages)] for it in survey.listed()])
    for at, (kind, _, hints, lines, words, value) in sectors.items():
        record = struct.unpack_from(">266H", image, at * packs.SECTOR)
        found = kind, hints, lines, [it[3] for it in words[:10]], value
        wanted = survey.kinds[at], sorted({hint for hint, _ in survey.false.get(at, ())}), survey.hover(at).split("\n"), list(record[:10])
        require(f"{what}: sector {at}", found, (*wanted, survey.pack.value(at).hex()))
        require(f"{what}: words of sector {at}", words, [list(it) for it in sector.words(survey, at)])
    require(f"{what}: number of sectors", len(sectors), survey.pack.sectors)
    changed = [] if before is None else [at for at in range(survey.pack.sectors) if piece(image, at) != piece(before, at)]
    require(f"{what}: written", (step["written"], [it[0] for it in step["moves"]]), (changed, changed))
    return image


def piece(image, at):
    return image[at * packs.SECTOR : (at + 1) * packs.SECTOR]


def check_pages(folder, program):
    """Pages of one state and of several. Answers how many states there are."""
    damaged = packs.damaged_pack()
    (folder / "mended").write_bytes(damaged)
    subprocess.run([program, folder / "mended", "scavenge"], stdout=subprocess.DEVNULL, timeout=SECONDS, check=True)
    rows = {
        "one": [[packs.pack(2, b"ABCDE")]],
        "damaged": [[damaged]],
        "zeros": [[bytes(2 * 12_768)]],
        "two": [list(packs.formatted(2, 2, 1))],
        "states": [[packs.formatted(1, 2, 1)[0]], [damaged], [(folder / "mended").read_bytes()], [(folder / "mended").read_bytes()]],
    }
    count = 0
    for name, states in rows.items():
        words = []
        for n, files in enumerate(states):
            for drive, content in enumerate(files):
                (folder / f"{name}{n}{drive}").write_bytes(content)
            words += [f"{name}{n}0"] + (["--second", f"{name}{n}1"] if len(files) > 1 else [])
        code, said, noted = run(folder, "-o", f"{name}.html", *words)
        require(f"{name}: is made", (code, noted, said), (0, "", f"{name}.html: {len(states)} state{'s' * (len(states) > 1)}\n"))
        before = None
        for files, (step, sectors) in zip(states, states_of(read(folder / f"{name}.html"))):
            before = check_state(f"{name}, {step['title']}", step, sectors, files, before)
            count += 1
    return count


def check_films(folder, program):
    """Films of a scavenge and of a session, which end as the program leaves the pack."""
    lines = "settime 1000\nmake A\nappend A 4142\n"
    for words, typed, content in (("scavenge", "", packs.damaged_pack()), ("boot", lines, packs.formatted(1, 2, 1)[0])):
        (folder / "film").write_bytes(content)
        code, said, noted = run(folder, "--program", program, "-o", "film.html", "--film", words, "film", typed=typed)
        require(f"a film of {words}", (code, noted, (folder / "film").read_bytes() == content), (0, "", True))
        states = list(states_of(read(folder / "film.html")))
        ended = subprocess.run([program, folder / "film", words], input=typed.encode(), stdout=subprocess.PIPE, timeout=SECONDS, check=True)
        image = (folder / "film").read_bytes()
        require(f"a film of {words}: its end", [states[-1][1][at][5] for at in range(48)], [piece(image, at)[20:].hex() for at in range(48)])
        shown = [step["title"] for step, _ in states if step["title"].startswith("shown: ")]
        require(f"a film of {words}: what is shown", "\n".join(it[7:] for it in shown), ended.stdout.decode().strip())
        written = [step for step, _ in states if step["title"].startswith("write ")]
        require(f"a film of {words}: its writes", (len(written) > 3, len(states)), (True, len(written) + len(shown) + 1))


def check_words(folder, program):
    (folder / "pack").write_bytes(packs.formatted(1, 2, 1)[0])
    (folder / "large").write_bytes(packs.formatted(1, 3, 1)[0])
    (folder / "empty").mkdir()
    rows = [
        (["-o", "p.html", "nowhere"], 1, "packview: nowhere: No such file or directory\n"),
        (["-o", "p.html", "pack", "large"], 1, "packview: large: the states have 25536 and 38304 bytes\n"),
        (["-o", "none/p.html", "pack"], 1, "packview: none/p.html: No such file or directory\n"),
        (["-o", "p.html", "--film", "scavenge", "--program", "./none", "pack"], 1, NO_PROGRAM),
    ]
    for words, code, told in rows if shutil.which("strace") else rows[:-1]:
        require(f"{words}", run(folder, *words), (code, "", told))
    require("no strace", run(folder, "-o", "p.html", "--film", "scavenge", "pack", path=str(folder / "empty")), (1, "", "packview: --film needs strace\n"))
    page = ["-o", "p.html"]
    for words in (["-o", "pack", "pack"], [*page, "pack", "large", "--second", "pack"], [*page, "--film", "x", "pack", "large"], ["pack"]):
        require(f"{words}", run(folder, *words)[0], 2)
    with Session(program, str(folder / "pack")) as session:
        session.make("A")
        require("an open pack", run(folder, "-o", "p.html", "pack"), (1, "", "packview: pack: another session has it open\n"))


def main():
    program = arguments.read(arguments.parser(__doc__)).program
    with tempfile.TemporaryDirectory() as folder:
        folder = pathlib.Path(folder)
        count = check_pages(folder, program)
        filmed = "and two films end as the program does"
        if shutil.which("strace"):
            check_films(folder, program)
        else:
            filmed = "and no film was made, since strace isn't there"
        check_words(folder, program)
    arguments.end("packviews", failures, f"{count} states are shown as surveys have them, {filmed}")


if __name__ == "__main__":
    main()
