#!/usr/bin/env python3
"""Run by the gate: runs `./do install` and `./do start`, and what they lead to.

Into a fresh folder come the program, each script, its manual page and the completion of bash; each script runs from its link, and a pack is
formatted, used and checked by what was installed. `./do start`, with an `rt` that has nothing to build, formats a pack that isn't there and
obeys what is typed. Without `rt` the scripts of the repository say where it comes from. The program has to be built.
"""
import os
import pathlib
import shutil
import subprocess
import sys
import tempfile

sys.dont_write_bytecode = True
import arguments
import building
import manual

SECONDS = 60
DO = arguments.TOP / "do"
failures = []


def require(what, found, wanted):
    if found != wanted:
        failures.append(f"{what}: {found!r}, and not {wanted!r}")


def run(folder, command, path, typed=""):
    environment = {**os.environ, "PATH": path, "PYTHONDONTWRITEBYTECODE": "1"}
    ended = subprocess.run(command, cwd=folder, env=environment, input=typed, capture_output=True, text=True, timeout=SECONDS)
    return ended.returncode, ended.stdout, ended.stderr


def check_install(folder):
    """What is installed, and that it runs."""
    path = os.environ["PATH"]
    code, said, noted = run(folder, [DO, "install", "local"], path)
    told = [pathlib.Path(it) for it in said.splitlines()]
    there = {it for it in (folder / "local").rglob("*") if not it.is_dir()}
    require("install", (code, noted, set(told), len(told)), (0, "", there, len(there)))
    for name in ["alto", *manual.SCRIPTS]:
        for file in (f"bin/{name}", f"share/man/man1/{name}.1", f"share/bash-completion/completions/{name}"):
            require(file, (folder / "local" / file).is_file(), True)
        code, said, _ = run(folder, [f"local/bin/{name}", "--help"], path)
        require(f"{name} --help", (code, "sage: " in said), (0, True))
    path = f"{folder}/local/bin:{path}"
    rows = [
        (["alto", "--cylinders", "2", "pack", "format", "1"], "formatted: 43 pages free\n"),
        (["altosh", "-c", "make A", "pack"], "made #3\n"),
        (["altocp", "file", "pack:"], "file -> pack:file, 5 bytes\n"),
        (["packcheck", "pack"], "pack: sound, clean, all hints true; 4 files, 39 free of 48 sectors\n"),
        (["packdiff", "pack", "pack"], ""),
        (["packview", "-o", "page.html", "pack"], "page.html: 1 state\n"),
    ]
    (folder / "file").write_bytes(b"ABCDE")
    for command, wanted in rows:
        require(f"{command}", run(folder, command, path), (0, wanted, ""))
    require("installed once more", run(folder, [DO, "install", folder / "local"], path)[0], 0)
    completed = run(folder, ["bash", "-c", COMPLETES], path)
    require("completion", completed, (0, "scavenge show\n--second\n", ""))


COMPLETES = """. local/share/bash-completion/completions/alto
COMP_WORDS=(alto pack s) COMP_CWORD=2; _alto; echo "$(echo ${COMPREPLY[@]} | tr ' ' '\\n' | sort | xargs)"
COMP_WORDS=(packdump --se) COMP_CWORD=1; _alto; echo "${COMPREPLY[@]}"
"""


def check_start(folder):
    """`./do start` from another folder and from the top, with what the toolchain says where a build fails, and without `rt`."""
    tools = folder / "tools"
    tools.mkdir()
    for name, text in (("rt", "#!/bin/sh\nexit 0\n"), ("failing/rt", "#!/bin/sh\necho refused >&2\nexit 1\n")):
        (tools / name).parent.mkdir(exist_ok=True)
        (tools / name).write_text(text)
        (tools / name).chmod(0o755)
    path = os.environ["PATH"]
    code, said, noted = run(folder, [DO, "start", "new"], f"{tools}:{path}", "make A\nfree\n")
    require("start", (code, said, noted.startswith("build: ")), (0, "formatted: 4866 pages free\nmade #3\n4864 pages free\n", True))
    code, said, _ = run(folder, [DO, "start", folder / "new"], f"{tools}:{path}", "ls A\nx\n")
    require("start again", (code, said), (1, "A\nbad line\n"))
    require("start: the pack", (folder / "new").stat().st_size, 203 * 12_768)
    code, _, noted = run(folder, [DO, "start", "other"], f"{tools}/failing:{path}")
    require("a build that fails", (code, noted.splitlines()[-2:]), (1, ["refused", "build: the program can't be built"]))
    require("a build that fails: no pack", (folder / "other").exists(), False)
    bare = folder / "bare"
    bare.mkdir()
    for name in ("bash", "env", "dirname"):
        (bare / name).symlink_to(shutil.which(name))
    (bare / "python3").symlink_to(sys.executable)
    told = "build: there is no rt on the path: it comes with the toolchain of Rattle, which proves and builds the program\n"
    for command in ([DO, "build"], [DO, "start"], [DO, "demo"], [sys.executable, arguments.TOP / "check" / "rows.py"]):
        require(f"{command}: without rt", run(folder, command, str(bare)), (1, "", told))


def main():
    arguments.read(arguments.parser(__doc__))
    if not building.PROGRAM.is_file():
        sys.exit("installs: the program isn't built: ./do build")
    for check in (check_install, check_start):
        with tempfile.TemporaryDirectory() as folder:
            check(pathlib.Path(folder).resolve())
    arguments.end("installs", failures, f"{len(manual.SCRIPTS) + 1} commands run from where they were installed, and ./do start leads to a shell")


if __name__ == "__main__":
    main()
