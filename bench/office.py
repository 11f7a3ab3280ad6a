#!/usr/bin/env python3
"""Times office work by typed lines, beside `debugfs` with the same work on an ext2 image, and shows that memory doesn't grow with it.

The work: 60 files of 8,000 bytes are made, their names listed, their bytes typed, and every other one is deleted. `boot` obeys it as 391
lines, from a file, over a formatted pack of model 31: a line brings at most 2,000 bytes, so five make a file. For `debugfs -w -f` it is 151
commands over an image of as many KiB, as mke2fs makes it: `write` from 60 files, `ls`, `cat` and `rm`.

Each part of the work is also timed by itself. A time is the median of the runs, of whole processes from their start to their end, the two
programs in turn, each over a fresh copy of its image, after one run that doesn't count. What they print is compared with what is wanted,
and so is what they leave. The images stand in memory where there is /dev/shm: both programs sync their images, and there a sync takes no time.
With another build of `alto`, as one that syncs nothing, all of the work is timed once more, with both builds in turn.

In one more session the work is done 20 times, each time with the other files deleted too: its memory mustn't grow from the second time on.
"""
import collections
import os
import pathlib
import statistics
import subprocess
import sys
import tempfile
from functools import partial

sys.dont_write_bytecode = True
sys.path.append(str(pathlib.Path(__file__).resolve().parent.parent / "check"))
import arguments
import packs
from timing import PAGE_KIB, answered, calls, machine, most_memory, timed

CYLINDERS = 203
IN_MEMORY = pathlib.Path("/dev/shm")
# bytes of a file, of one `append`, and of a line of `type`
LENGTH, APPENDED, SHOWN = 8_000, 2_000, 32
TIMES = 20
NAMES = [f"File{n:02}" for n in range(60)]
CONTENTS = [bytes((n * 131 + at * 7 + at // 251) % 251 for at in range(LENGTH)) for n in range(len(NAMES))]

# a part of the work: typed lines with their replies, commands of debugfs with what they print among other things, and whether it begins
# with the files made
Part = collections.namedtuple("Part", "name lines commands printed filled", defaults=[False])


def made(serial):
    """The lines that make the files, the first with this serial, and their replies."""
    lines = []
    for number, (name, content) in enumerate(zip(NAMES, CONTENTS)):
        lines.append((f"make {name}", f"made #{serial + number}"))
        for at in range(0, LENGTH, APPENDED):
            lines.append((f"append {name} {content[at : at + APPENDED].hex()}", f"length {at + APPENDED}"))
    return lines


def listed():
    names = ["DiskDescriptor.", *(f"{name}." for name in NAMES), "SysDir."]
    return [("list", "\n".join([*names, f"{len(names)} entries"]))]


def typed():
    lines = []
    for name, content in zip(NAMES, CONTENTS):
        shown = [content[at : at + SHOWN].hex() for at in range(0, LENGTH, SHOWN)]
        lines.append((f"type {name}", "\n".join([*shown, f"{LENGTH} bytes"])))
    return lines


def deleted(names):
    return [(f"delete {name}", "done") for name in names]


def text_of(lines):
    return "".join(f"{line}\n" for line in lines).encode()


def parts(folder):
    """Nothing, each part of the work, and all of it. The files that debugfs copies stand in this folder."""
    names = [name.encode() for name in NAMES]
    each = [
        Part("made", made(packs.SERIAL), [f"write {folder / name} {name}" for name in NAMES], []),
        Part("listed", listed(), ["ls"], names, True),
        Part("typed", typed(), [f"cat {name}" for name in NAMES], CONTENTS, True),
        Part("half deleted", deleted(NAMES[::2]), [f"rm {name}" for name in NAMES[::2]], [], True),
    ]
    whole = Part("all of it", sum((it.lines for it in each), []), sum((it.commands for it in each), []), names + CONTENTS)
    return [Part("nothing", [], [], []), *each, whole]


class Program:
    """A program that works on an image, told by a file, which is its standard input too."""

    def __init__(self, folder, name):
        self.image, self.told, self.output, self.counts = (folder / f"{name}.{what}" for what in ("image", "told", "output", "counts"))
        self.make_image()
        # without files, and with them
        self.images = {False: self.image.read_bytes()}

    def run(self, part, ahead=()):
        """The time of a run over a fresh copy of the image, of which nothing is left to be synced."""
        self.told.write_bytes(text_of(self.lines(part)))
        with open(self.image, "wb") as file:
            file.write(self.images[part.filled])
            file.flush()
            os.fsync(file.fileno())
        with open(self.told) as told, open(self.output, "wb") as output:
            time, _ = timed([*ahead, *self.command()], stdin=told, stdout=output, stderr=subprocess.DEVNULL)
        self.compare(part, self.output.read_bytes())
        return time

    def calls(self, part):
        """The number of system calls of a run. None where there is no strace."""
        found = calls(partial(self.run, part), self.counts)
        return None if found is None else found.total()


class Alto(Program):
    def __init__(self, folder, program):
        self.program = program
        super().__init__(folder, program.name)

    def make_image(self):
        subprocess.run([self.program, "--cylinders", str(CYLINDERS), self.image, "format", "1"], check=True, stdout=subprocess.DEVNULL)

    def command(self):
        return [self.program, self.image, "boot"]

    def lines(self, part):
        return [line for line, _ in part.lines]

    def compare(self, part, printed):
        assert printed == text_of(reply for _, reply in part.lines), "each line is answered"

    def compare_left(self, names):
        shown = subprocess.run([self.program, self.image, "show"], check=True, stdout=subprocess.PIPE).stdout
        assert shown == text_of([*(f"SysDir>{name}. length {LENGTH}" for name in names), f"{len(names)} files"]), "these files are left"


class Debugfs(Program):
    def __init__(self, folder, length):
        self.size = length // 1024
        super().__init__(folder, "debugfs")

    def make_image(self):
        subprocess.run(["mke2fs", "-q", "-t", "ext2", self.image, str(self.size)], check=True, stdout=subprocess.DEVNULL)

    def command(self):
        return ["debugfs", "-w", "-f", self.told, self.image]

    def lines(self, part):
        return part.commands

    def compare(self, part, printed):
        assert all(it in printed for it in part.printed), "names are listed, and bytes typed"

    def compare_left(self, names):
        subprocess.run(["e2fsck", "-fn", self.image], check=True, stdout=subprocess.DEVNULL, stderr=subprocess.DEVNULL)
        shown = subprocess.run(["debugfs", "-R", "ls -p", self.image], check=True, capture_output=True).stdout.decode()
        assert [name for name in NAMES if f"/{name}/" in shown] == names, "these files are left"


def measured(part, programs, runs):
    """The row of a part: of each program the median time, and that of the processor, and how many system calls it makes."""
    times = [[program.run(part) for program in programs] for _ in range(runs + 1)][1:]
    of_each = list(zip(*times))
    alto, other = (statistics.median(time.seconds for time in column) for column in of_each)
    used = [statistics.median(time.processor for time in column) for column in of_each]
    calls = [program.calls(part) for program in programs]
    return [part.name, *map(in_ms, (alto, other)), f"{alto / other:.2f}", *map(in_ms, used), *map(counted, calls)]


def in_ms(seconds):
    return f"{seconds * 1000:.1f} ms"


def counted(number):
    return "" if number is None else f"{number:,}"


def print_row(cells):
    print(f"{cells[0]:<14}" + "".join(f"{cell:>10}" for cell in cells[1:]), flush=True)


def memory_of(program, image):
    """The most memory of a session in KiB, each time after all of the work was done once more."""
    most = []
    with subprocess.Popen([program, image, "boot"], stdin=subprocess.PIPE, stdout=subprocess.PIPE) as process:
        for time in range(TIMES):
            lines = made(packs.SERIAL + time * len(NAMES)) + listed() + typed() + deleted(NAMES[::2]) + deleted(NAMES[1::2])
            answered(process, text_of(line for line, _ in lines), text_of(reply for _, reply in lines))
            most.append(most_memory(process))
        process.stdin.close()
        assert process.wait() == 0, "the input was obeyed to its end"
    return most


def main():
    options = arguments.parser(__doc__)
    options.add_argument("--runs", type=arguments.positive, default=21, metavar="N", help="how many runs of each part (default: 21)")
    options.add_argument("--beside", type=arguments.built, metavar="PATH", help="another build of `alto`, over all of the work")
    options.add_argument("--folder", metavar="PATH", help=f"where the images stand (default: {IN_MEMORY}, if it is there)")
    options = arguments.read(options)
    where = options.folder or (IN_MEMORY if IN_MEMORY.is_dir() else None)
    print(machine())
    with tempfile.TemporaryDirectory(dir=where) as folder:
        folder = pathlib.Path(folder)
        for name, content in zip(NAMES, CONTENTS):
            (folder / name).write_bytes(content)
        alto = Alto(folder, options.program)
        debugfs = Debugfs(folder, len(alto.images[False]))
        print_row(["", "time", "", "", "processor", "", "calls", ""])
        print_row(["", "alto", "debugfs", "ratio", "alto", "debugfs", "alto", "debugfs"])
        for part in parts(folder):
            print_row(measured(part, [alto, debugfs], options.runs))
            if part.name == "made":
                for program in (alto, debugfs):
                    program.images[True] = program.image.read_bytes()
        for program in (alto, debugfs):
            program.compare_left(NAMES[1::2])
        if options.beside:
            beside = Alto(folder, options.beside)
            print_row(["", "alto", "beside", "ratio", "alto", "beside", "alto", "beside"])
            print_row(measured(part, [alto, beside], options.runs))
        alto.image.write_bytes(alto.images[False])
        most = memory_of(options.program, alto.image)
    print(f"the load was {os.getloadavg()[0]:.1f}")
    print(f"most memory after all of the work: {most[0]} KiB; after twice: {most[1]} KiB; after {TIMES} times: {most[-1]} KiB")
    assert most[-1] - most[1] <= 16 * PAGE_KIB, "memory doesn't grow with lines"


if __name__ == "__main__":
    main()
