#!/usr/bin/env python3
"""Run by ./do, and by other scripts: proves and builds the program, and tells how far that is, crate by crate. Its path is printed.

What is left to do is told first, with the minutes of one processor that docs/speed.md has for it. Crates whose libraries are there may still
be proved again, if they changed. What the toolchain prints is shown where it fails.
"""
import argparse
import pathlib
import re
import shutil
import subprocess
import sys
import tempfile
import time

TOP = pathlib.Path(__file__).resolve().parent.parent
PROGRAM = TOP / "crates" / "alto" / "out" / "alto"
# seconds from one look at what is built to the next, and how many lines of the toolchain are shown
PAUSE, SHOWN = 0.5, 40
TIME = re.compile(r"^\| `(\w+)` \| (\d+(?:\.\d+)?) (min|s) \|", re.M)


def needed():
    """The crates of which the program is made, the lowest first."""
    below = {}
    for line in (TOP / "crates.txt").read_text().splitlines():
        name, sign, rest = line.partition(":")
        if sign:
            below[name.split()[0]] = [it for it in rest.split() if it in below]
    found = []

    def visit(crate):
        for it in below[crate]:
            visit(it)
        if crate not in found:
            found.append(crate)

    visit("alto")
    return found


def result(crate):
    """What is there once a crate is proved and built."""
    return PROGRAM if crate == "alto" else TOP / "crates" / crate / "out" / "rlib" / f"{crate}.rlib"


def made(crate):
    """When that was made, or None."""
    try:
        return result(crate).stat().st_mtime_ns
    except OSError:
        return None


def minutes(crates):
    """About how many minutes of one processor the proofs of these crates take."""
    times = {name: float(number) / (1 if unit == "min" else 60) for name, number, unit in TIME.findall((TOP / "docs" / "speed.md").read_text())}
    return sum(times.get(it, 0) for it in crates)


def say(text):
    print(f"build: {text}", file=sys.stderr, flush=True)


def build():
    """Builds the program, and answers its path. Ends the script where it can't be built."""
    if shutil.which("rt") is None:
        sys.exit("build: there is no rt on the path: it comes with the toolchain of Rattle, which proves and builds the program")
    crates = needed()
    lacking = [it for it in crates if made(it) is None]
    count = f"{len(lacking)} of {len(crates)} crates are to be proved, about {minutes(lacking):.0f} minutes of one processor"
    say(count if lacking else "what changed is proved")
    with tempfile.TemporaryFile() as log:
        process = subprocess.Popen(["rt", "run", "--", "--help"], cwd=TOP / "crates" / "alto", stdout=subprocess.DEVNULL, stderr=log)
        follow(process, crates)
        if process.returncode != 0:
            log.seek(0)
            said = log.read().decode(errors="replace").splitlines()
            sys.exit("\n".join([*said[-SHOWN:], "build: the program can't be built"]))
    return PROGRAM


def follow(process, crates):
    """Tells of each crate that is proved, until the process ends."""
    before, count = {it: made(it) for it in crates}, 0
    begun = time.monotonic()
    while process.poll() is None:
        time.sleep(PAUSE)
        for crate in crates:
            now = made(crate)
            if now is not None and now != before[crate]:
                before[crate], count = now, count + 1
                say(f"{crate} is proved, {count} so far, after {(time.monotonic() - begun) / 60:.1f} minutes")


def main():
    argparse.ArgumentParser(description=__doc__, formatter_class=argparse.RawDescriptionHelpFormatter).parse_args()
    print(build().relative_to(TOP))


if __name__ == "__main__":
    main()
