#!/usr/bin/env python3
"""Run by the gate: replays the transcripts of demo/, and compares what is printed, line by line.

In a transcript a line that begins with `$ ` is a command for sh. Where it has a here-document (`<<`), the lines after it that begin
with `> ` belong to it. Then comes all that it prints, on the standard error too, and `[exit code N]` on a line of its own where it
doesn't end with 0. Each transcript runs in a fresh folder, command by command, with the built program on the path as `alto` and the
folders check/ and tools/.
"""
import difflib
import os
import pathlib
import subprocess
import sys
import tempfile

sys.dont_write_bytecode = True
import arguments

SECONDS = 10
COMMAND, MORE, HERE = "$ ", "> ", "<<"


def commands_of(transcript):
    """Each command of a transcript: its lines as they stand there, and what the shell is given."""
    lines = transcript.splitlines()
    for at, line in enumerate(lines):
        if line.startswith(COMMAND):
            end = at + 1
            while HERE in line and end < len(lines) and lines[end].startswith(MORE):
                end += 1
            yield lines[at:end], "\n".join(it[len(COMMAND) :] for it in lines[at:end]) + "\n"


def replayed(transcript, program):
    """The transcript as its commands make it now."""
    made = []
    with tempfile.TemporaryDirectory() as folder:
        folder, tools = pathlib.Path(folder, "work"), pathlib.Path(folder, "tools")
        folder.mkdir()
        tools.mkdir()
        (tools / "alto").symlink_to(program)
        for name in ("check", "tools"):
            (folder / name).symlink_to(arguments.TOP / name)
        environment = {**os.environ, "PATH": f"{tools}:{os.environ['PATH']}", "LC_ALL": "C", "PYTHONDONTWRITEBYTECODE": "1"}
        for lines, command in commands_of(transcript):
            made += lines + printed(command, folder, environment)
    return "".join(f"{line}\n" for line in made)


def printed(command, folder, environment):
    """The lines that a command prints, and the one that tells how it ended."""
    try:
        ended = subprocess.run(
            ["sh", "-c", command],
            cwd=folder,
            env=environment,
            stdin=subprocess.DEVNULL,
            stdout=subprocess.PIPE,
            stderr=subprocess.STDOUT,
            timeout=SECONDS,
        )
    except subprocess.TimeoutExpired:
        return ["[no end]"]
    status = [f"[exit code {ended.returncode}]"] if ended.returncode != 0 else []
    return ended.stdout.decode(errors="backslashreplace").splitlines() + status


def main():
    program = arguments.read(arguments.parser(__doc__)).program
    transcripts = sorted((arguments.TOP / "demo").glob("*.txt"))
    same = 0
    for path in transcripts:
        wanted = path.read_text()
        found = replayed(wanted, program)
        same += found == wanted
        name = str(path.relative_to(arguments.TOP))
        for line in difflib.unified_diff(wanted.splitlines(), found.splitlines(), name, "as replayed", lineterm=""):
            print(f"demos: {line}")
    print(f"demos: {same} of {len(transcripts)} transcripts are replayed as they stand")
    sys.exit(0 if 0 < same == len(transcripts) else 1)


main()
