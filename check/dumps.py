#!/usr/bin/env python3
"""Run by the gate: tells sectors, files and differences of packs by tools/packdump and tools/packdiff, and compares with their bytes.

Of the packs of check/packs.py each word of each sector is found again in what packdump tells as JSON, and each file is told by its serial.
A pack doesn't differ from itself; of one with a word spoilt, packdiff names that word of that sector alone; and of packs that were damaged
or scavenged it names the words that differ in the two files. Then come names, refusals, and packs that a session has open.
"""
import json
import pathlib
import random
import runpy
import struct
import subprocess
import sys
import tempfile

sys.dont_write_bytecode = True
import arguments
import packs
from scavenging import surveyed

sys.path.append(str(arguments.TOP / "tools"))
from packtools import changes
from packtools.session import Session

SECONDS = 60
TOOLS = arguments.TOP / "tools"
WORDS, LABEL_AT, VALUE_AT = packs.SECTOR // 2, 2, 10
SPOILT = 300
failures = []


def require(what, found, wanted):
    if found != wanted:
        failures.append(f"{what}: {found!r}, and not {wanted!r}")


def run(folder, script, *words):
    ended = subprocess.run([sys.executable, "-B", TOOLS / script, *words], cwd=folder, capture_output=True, text=True, timeout=SECONDS)
    return ended.returncode, ended.stdout, ended.stderr


def check_bytes(folder, content):
    """Each sector that is told as JSON is the pack's, and each file is told. Answers how many sectors there are."""
    count = 0
    for name, files in content.items():
        second = ["--second", f"{name}2"][: 2 * len(files) - 2]
        for path, data in zip((name, f"{name}2"), files):
            (folder / path).write_bytes(data)
        survey, image = surveyed(files), b"".join(files)
        sectors = [str(at) for at in range(len(image) // packs.SECTOR)]
        code, said, _ = run(folder, "packdump", *second, "--json", name, *sectors)
        told = b"".join(struct.pack(f">{WORDS}H", *it["header"], *it["label"], *it["value"]) for it in json.loads(said))
        require(f"{name}: the bytes of all sectors", (code, told == image), (0, True))
        serials = [f"#{it.serial()}" for it in survey.files]
        code, said, noted = run(folder, "packdump", *second, name, *sectors, *serials, "@free")
        require(f"{name}: all is told", (code, noted), (0, ""))
        heads = sum(line.startswith("sector ") for line in said.splitlines())
        require(f"{name}: sectors that are told", heads, len(sectors))
        for file in survey.files.values():
            head = f"{survey.path(file)} #{file.full_name.serial()} v {file.full_name.version}, {file.length} bytes, {len(file.pages)} pages"
            require(f"{name}: {head}", head in said, True)
        count += len(sectors)
    return count


def check_spoilt(chance, files):
    """Of a pack with one word spoilt that word alone is named, and the pack doesn't differ from itself."""
    told = runpy.run_path(str(TOOLS / "packdiff"))["as_json"]
    before, image = surveyed(files), b"".join(files)
    require("a pack and itself", (changes.changed(before, before), changes.files(before, before)[1]), ([], []))
    for _ in range(SPOILT):
        at, word = chance.randrange(len(image) // packs.SECTOR), chance.randrange(WORDS)
        spoilt, place = bytearray(image), at * packs.SECTOR + 2 * word
        spoilt[place + chance.randrange(2)] ^= 1 << chance.randrange(8)
        size = len(files[0])
        after = surveyed([bytes(spoilt[start : start + size]) for start in range(0, len(spoilt), size)])
        found = told(before, after, changes.changed(before, after))["sectors"]
        number = word - VALUE_AT if word >= VALUE_AT else word + 254
        wanted = [(at, [word] if word < LABEL_AT else [], [number] if word >= LABEL_AT else [])]
        require(f"word {word} of sector {at}", [(it["sector"], it["header"], it["words"]) for it in found], wanted)


def check_scavenged(folder, program):
    """Of a scavenge each word that differs in the two files is named, and no other."""
    for name, content in (("old", packs.damaged_pack()), ("new", packs.damaged_pack())):
        (folder / name).write_bytes(content)
    subprocess.run([program, folder / "new", "scavenge"], stdout=subprocess.DEVNULL, timeout=SECONDS, check=True)
    both = [struct.unpack(f">{48 * WORDS}H", (folder / name).read_bytes()) for name in ("old", "new")]
    wanted = {(at // WORDS, at % WORDS) for at, (was, now) in enumerate(zip(*both)) if was != now}
    code, said, _ = run(folder, "packdiff", "--json", "old", "new")
    rows = [(it["sector"], number) for it in json.loads(said)["sectors"] for number in [*it["header"], *(place_of(word) for word in it["words"])]]
    require("a scavenge", (code, set(rows), len(rows)), (1, wanted, len(wanted)))
    require("a pack and itself", run(folder, "packdiff", "old", "old"), (0, "", ""))


def place_of(number):
    """Where a word stands in a sector, by the number that check/spoil.py takes."""
    return number + VALUE_AT if number < 256 else number - 254


def check_words(folder, program):
    """Names, refusals and locks."""
    contents = {"dam": packs.damaged_pack(), "large": packs.formatted(1, 3, 1)[0], "short": bytes(9), "pack": packs.formatted(1, 2, 1)[0]}
    for name, content in contents.items():
        (folder / name).write_bytes(content)
    with Session(program, str(folder / "pack")) as session:
        for line in ("make A", "make A", "make a!9", "mkdir D", "make D>A", "make B..", "make B..!2"):
            session.ask(line)
        for script, words, code in (("packdump", ["1"], 1), ("packmap", [], 1), ("packdiff", ["dam"], 8)):
            told = f"{script}: pack: another session has it open\n"
            require(f"{script} of an open pack", run(folder, script, "pack", *words), (code, "", told))
    rows = {"A": "A!9. #5", "a!1": "A. #3", "A!2": "A!2. #4", "a!9.": "A!9. #5", "sysdir>A": "A!9. #5", "B..": "B.!2. #9", "B..!1": "B.. #8"}
    rows |= {"D>a": "D>A. #7", "#7": "D>A. #7", "d": "D. #6", "@root": "SysDir #1", "SysDir": "SysDir #1", "@descriptor": "DiskDescriptor #2"}
    for what, path in rows.items():
        code, said, noted = run(folder, "packdump", "pack", what)
        head = said.split(" v ")[0].removeprefix("SysDir>")
        require(f"packdump {what}", (code, head.lower(), noted), (0, path.lower(), ""))
    for what in ("E", "A!3", "E>A", "#99", "@roots", "A_b", "D>B", "A>A"):
        require(f"packdump {what}", run(folder, "packdump", "pack", what), (1, "", f"packdump: pack: no such name: {what}\n"))
    require("no sector", run(folder, "packdump", "pack", "48"), (1, "", "packdump: pack: no such sector: 48; the last is 47\n"))
    length = "short: bad length: 9 bytes, and not 2 to 406 cylinders of 12768 bytes\n"
    require("no pack file", run(folder, "packdump", "short", "1"), (1, "", f"packdump: {length}"))
    require("no pack file", run(folder, "packdiff", "short", "dam"), (8, "", f"packdiff: {length}"))
    require("no file", run(folder, "packdiff", "dam", "nowhere"), (8, "", "packdiff: nowhere: No such file or directory\n"))
    require("other shapes", run(folder, "packdiff", "dam", "large"), (1, "", "packdiff: one has 48 sectors and the other 72\n"))
    require("one file twice", run(folder, "packdump", "--second", "pack", "pack", "1")[0], 2)


def main():
    options = arguments.read(arguments.seeded(arguments.parser(__doc__)))
    content = {
        "one": [packs.pack(2, b"ABCDE")],
        "named": [packs.named_pack()],
        "damaged": [packs.damaged_pack()],
        "formatted": list(packs.formatted(1, 2, 1)),
        "two": list(packs.formatted(2, 2, 1)),
        "zeros": [bytes(2 * 12_768)],
    }
    with tempfile.TemporaryDirectory() as folder:
        folder = pathlib.Path(folder)
        count = check_bytes(folder, content)
        for name in ("damaged", "two"):
            check_spoilt(random.Random(options.seed), content[name])
        check_scavenged(folder, options.program)
        check_words(folder, options.program)
    arguments.end("dumps", failures, f"{count} sectors are told word by word, and {2 * SPOILT} spoilt words are named alone (seed {options.seed})")


if __name__ == "__main__":
    main()
