#!/usr/bin/env python3
"""Times lines over a pack file of model 31, and `cp` of the same file in the same run.

The pack has 203 cylinders, 4,872 sectors, and one file of 40,000 bytes. Each line patches two bytes of it, which it finds by its name, up
to 20,000 lines each at another place. Two more lines come ahead of them: a bad one, so that the start of the program is left out, and one
that marks the pack as open and reads the cylinders of the file, which is timed by itself; the others find it in memory. In a second session
each line is `free`, which reads all labels. The clock starts before the first byte of each part is written. Afterwards the file's bytes are
compared with those wanted. A third session has 8 MB of bad lines: its memory mustn't grow with the input.
"""
import os
import pathlib
import subprocess
import sys
import tempfile

sys.dont_write_bytecode = True
sys.path.append(str(pathlib.Path(__file__).resolve().parent.parent / "check"))
import arguments
import packs
from timing import PAGE_KIB, answered, machine, most_memory, timed, used

CYLINDERS = 203
LENGTH = 40_000
# DiskDescriptor has two data pages ahead of it
LEADER_AT = 6
PAGES = 2 + LENGTH // packs.PAGE
FREE = (b"free\n", b"%d pages free\n" % (CYLINDERS * 24 - LEADER_AT - PAGES))
BAD_LINES = 2_000
BAD_LINE = b"x" * 4_095 + b"\n"


class Session:
    """The seconds of the first line and of all others, after a bad one, those of the processor in all, and the most memory in KiB after
    the first line and the last."""

    def __init__(self, program, file, lines, reply=b"done\n"):
        before = used()
        with subprocess.Popen([program, file, "boot"], stdin=subprocess.PIPE, stdout=subprocess.PIPE) as process:
            answered(process, b"\n", b"bad line\n")
            self.first_line = answered(process, lines[0], reply)
            self.first_memory = most_memory(process)
            self.seconds = answered(process, b"".join(lines[1:]), reply * (len(lines) - 1))
            self.last_memory = most_memory(process)
            process.stdin.close()
            assert process.wait() == 0, "the input was obeyed to its end"
        self.used = used() - before


def main():
    options = arguments.parser(__doc__)
    options.add_argument("--lines", type=arguments.positive, default=200, metavar="N", help="how many lines are timed (default: 200)")
    options = arguments.read(options)
    count, program = options.lines, options.program
    image = bytearray(packs.sound(1, CYLINDERS, [(b"A.", bytes(LENGTH), range(LEADER_AT, LEADER_AT + PAGES))])[0])
    offsets = [line * 997 % (LENGTH // 2) * 2 for line in range(count + 1)]
    lines = [f"patch A {at} {line % 65536:04x}\n".encode() for line, at in enumerate(offsets)]
    with tempfile.TemporaryDirectory() as folder:
        file = pathlib.Path(folder) / "pack"
        file.write_bytes(image)
        patched = Session(program, file, lines)
        copy = min(timed(["cp", file, file.with_name("copy")])[0].seconds for _ in range(5))
        for line, at in enumerate(offsets):
            place = packs.place(at, LEADER_AT)
            image[place : place + 2] = (line % 65536).to_bytes(2, "big")
        assert file.read_bytes() == image, "these bytes changed, and no other"
        swept = Session(program, file, [FREE[0]] * (count + 1), FREE[1])
        bad = Session(program, file, [BAD_LINE] * BAD_LINES, b"bad line\n")
        assert file.read_bytes() == image, "`free` and bad lines write nothing"
    line, first = patched.seconds / count * 1000, patched.first_line * 1000
    print(machine())
    print(f"a patch of a file by its name: {line:.3f} ms; the first one: {first:.2f} ms")
    sweep, first_sweep = swept.seconds / count * 1000, swept.first_line * 1000
    print(f"`free`, a sweep of {CYLINDERS * 24 - 1} sectors: {sweep:.2f} ms; the first one, which reads the pack file: {first_sweep:.2f} ms")
    print(f"of the processor: {patched.used / (count + 1) * 1000:.2f} ms a line; the load was {os.getloadavg()[0]:.1f}")
    print(f"cp of the pack file: {copy * 1000:.2f} ms")
    print(f"most memory after the first line: {patched.first_memory} KiB, after the last: {patched.last_memory} KiB")
    size = BAD_LINES * len(BAD_LINE) / 1e6
    print(f"with {size:.0f} MB of bad lines, after the first line: {bad.first_memory} KiB, after the last: {bad.last_memory} KiB")
    assert bad.last_memory - bad.first_memory <= 16 * PAGE_KIB, "memory doesn't grow with the input"


main()
