#!/usr/bin/env python3
"""Times the scripts of tools/ on a pack of model 31 that is full, each against a limit of its own, less the program's own time.

231 files of 10,000 bytes, and then one of 2,480,000, are copied into a formatted pack of 203 cylinders and out of it again by `altocp`, and
500 of 512 bytes in a folder by `altocp -r`; `packmap` draws the first of these packs, as a picture and as a table. On that pack `altosh` opens
and closes a session, `packcheck` checks it, `packdump` tells a file, `packdiff` compares it with the formatted one, and `packview` makes a page
of it and one of ten states. What counts is the time of the processor, user and system, that the script's own process takes, from the start of
Python on; that of `alto`, which the script starts, stands beside it. Each is the median of the runs. What comes out of a pack is compared with
what went in.
"""
import os
import pathlib
import re
import shutil
import statistics
import subprocess
import sys
import tempfile

sys.dont_write_bytecode = True
sys.path.append(str(pathlib.Path(__file__).resolve().parent.parent / "check"))
import arguments
from timing import machine

CYLINDERS, STATES = 203, 10
# seconds for each work, and for all others
LIMITS = {"500 files of a folder in": 1.5, "a prompt": 0.4, "a check": 0.5, "a dump": 0.4, "a difference": 0.6, "a page": 1.0, "ten states": 1.0 * STATES}
LIMIT = 0.3
TOOLS = arguments.TOP / "tools"
FILES = {f"File{n:03}": bytes((n * 131 + at * 7 + at // 251) % 251 for at in range(10_000)) for n in range(231)}
SMALL = {f"small/File{n:03}": bytes(512) for n in range(500)}
LARGE = {"Large": bytes((at * 7 + at // 251) % 251 for at in range(2_480_000))}
# runs a script, and says at its end what its process and those that it started took
RUNNER = """
import atexit, resource, runpy, sys

def tell():
    own, other = resource.getrusage(resource.RUSAGE_SELF), resource.getrusage(resource.RUSAGE_CHILDREN)
    print("took", own.ru_utime + own.ru_stime, other.ru_utime + other.ru_stime, file=sys.stderr)

atexit.register(tell)
sys.argv = sys.argv[1:]
sys.path.insert(0, sys.argv[0].rpartition("/")[0])
runpy.run_path(sys.argv[0], run_name="__main__")
"""


def took(folder, script, words, code=0):
    """The time of the script, which has to end with this code, and of the programs that it starts."""
    command = [sys.executable, "-B", "-c", RUNNER, TOOLS / script, *words]
    ended = subprocess.run(command, cwd=folder, stdout=subprocess.DEVNULL, stderr=subprocess.PIPE, text=True)
    assert ended.returncode == code, ended.stderr
    return tuple(map(float, re.search(r"took (\S+) (\S+)$", ended.stderr).groups()))


def copies(folder, program, pack, contents):
    """The times of copying these files into a formatted pack, and out of it again."""
    shutil.copy(folder / "formatted", folder / pack)
    words = ["--program", program, "-f"]
    into = took(folder, "altocp", [*words, *[f"in/{name}" for name in contents], f"{pack}:"])
    out = took(folder, "altocp", [*words, *[f"{pack}:{name}" for name in contents], "out"])
    assert all((folder / "out" / name).read_bytes() == content for name, content in contents.items()), "what went in comes out"
    return into, out


def run(folder, program):
    """The times of each work, by its name."""
    found = {}
    found["231 files in"], found["231 files out"] = copies(folder, program, "full", FILES)
    found["a large file in"], found["a large file out"] = copies(folder, program, "large", LARGE)
    found["a picture"] = took(folder, "packmap", ["full", "-o", "map.svg"])
    found["a table"] = took(folder, "packmap", ["full", "--text", "-o", "map.txt"])
    shutil.copy(folder / "formatted", folder / "small")
    found["500 files of a folder in"] = took(folder, "altocp", ["--program", program, "-r", "in/small", "small:"])
    found["a prompt"] = took(folder, "altosh", ["--program", program, "-c", "free", "full"])
    found["a check"] = took(folder, "packcheck", ["--program", program, "full"])
    found["a dump"] = took(folder, "packdump", ["full", "File100"])
    found["a difference"] = took(folder, "packdiff", ["full", "formatted"], 1)
    found["a page"] = took(folder, "packview", ["-o", "page.html", "full"])
    found["ten states"] = took(folder, "packview", ["-o", "pages.html", *["full", "formatted"] * (STATES // 2)])
    return found


def main():
    options = arguments.parser(__doc__)
    options.add_argument("--runs", type=arguments.positive, default=15, metavar="N", help="how many (default: 15)")
    options = arguments.read(options)
    print(f"{machine()}, Python {sys.version.split()[0]}")
    with tempfile.TemporaryDirectory() as folder:
        folder = pathlib.Path(folder)
        for name in ("in", "out"):
            (folder / name).mkdir()
        (folder / "in" / "small").mkdir()
        for name, content in {**FILES, **LARGE, **SMALL}.items():
            (folder / "in" / name).write_bytes(content)
        words = [options.program, "--cylinders", str(CYLINDERS), folder / "formatted", "format", "1"]
        subprocess.run(words, stdout=subprocess.DEVNULL, check=True)
        runs = [run(folder, options.program) for _ in range(options.runs)]
    slow = []
    for name in runs[0]:
        script, alto = (statistics.median(times) for times in zip(*(it[name] for it in runs)))
        limit = LIMITS.get(name, LIMIT)
        print(f"{name:<26}{script:>8.2f} s of {limit:>4.1f}{alto:>8.2f} s of alto")
        if script >= limit:
            slow.append(name)
    print(f"the load was {os.getloadavg()[0]:.1f}")
    sys.exit(f"tools: over the limit: {', '.join(slow)}" if slow else 0)


main()
