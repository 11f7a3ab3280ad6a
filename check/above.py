#!/usr/bin/env python3
"""Run by hand, as `./do above CRATE`: the crates that are proved anew with a crate, lowest first, and the minutes that they take.

They are those that stand on it, by crates.txt, and itself. The minutes are those of one processor that docs/speed.md has: of a check from
nothing, of the tests, and of the must-fail edits. A crate that isn't measured there yet has none.
"""
import argparse
import graphlib
import re
import sys

sys.dont_write_bytecode = True
import names

ROW = re.compile(r"^\| ((?:`\w+`(?:, )?)+) \| ([\d.]+) \| ([\d.]+|-) \| ([\d.]+|-) \|$", re.M)


def stands_on():
    """The crates that each crate's line of crates.txt names, in its order."""
    lines = (names.TOP / "crates.txt").read_text().splitlines()
    return {crate: set(below.split()) for crate, below in (line.split(":") for line in lines if ":" in line)}


def minutes():
    """What a check, the tests and the edits of each crate take."""
    found = {}
    for crates, *figures in ROW.findall((names.TOP / "docs/speed.md").read_text()):
        for crate in re.findall(r"\w+", crates):
            found[crate] = [0.0 if it == "-" else float(it) for it in figures]
    return found


def above(crate):
    """This crate and all that stand on it, each after those that it stands on."""
    neighbours, found = stands_on(), {crate}
    order = [name for name in graphlib.TopologicalSorter(neighbours).static_order() if name in neighbours]
    for name in order:
        if neighbours[name] & found:
            found.add(name)
    return [name for name in order if name in found]


def main():
    parser = argparse.ArgumentParser(description=__doc__, formatter_class=argparse.RawDescriptionHelpFormatter)
    parser.add_argument("crate", metavar="CRATE")
    crate = parser.parse_args().crate
    if crate not in stands_on():
        sys.exit(f"do: there is no crate {crate}")
    crates, measured, total = above(crate), minutes(), [0.0] * 3
    print(f"{'':20} check  tests  edits")
    for name in crates:
        figures = measured.get(name, [0.0] * 3)
        total = [a + b for a, b in zip(total, figures)]
        print(f"{name:20} " + "  ".join(f"{it:5.1f}" if it else "    -" for it in figures))
    print(f"{f'{len(crates)} crates, {sum(total):.0f} min':20} " + "  ".join(f"{it:5.1f}" for it in total))


if __name__ == "__main__":
    main()
