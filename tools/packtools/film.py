"""The states of a pack after each write call of the program, which `strace` tells."""
import os
import re
import shutil
import subprocess
import tempfile

from packtools.pack import SECTOR, Faulty, read_files
from packtools.session import drive_words

# a call that writes to a pack file, or shows a text; with -xx all bytes of it, and with -y the file's path, are hexadecimal
WRITE = re.compile(r'pwrite64\(\d+<([^>]*)>, "([^"]*)", \d+, (\d+)\)')
SHOWN = re.compile(r'write\(1<[^>]*>, "([^"]*)"')
LONGEST = 70_000


def bytes_of(text):
    return bytes.fromhex(text.replace("\\x", ""))


def path_of(text):
    return os.fsdecode(bytes_of(text)) if text.startswith("\\x") else text


def traced(program, copies, words, typed, folder):
    """The lines that strace tells of a run of the program over the copies. Raises `Faulty` if it can't be run."""
    if shutil.which("strace") is None:
        raise Faulty("--film needs strace")
    if shutil.which(program) is None:
        raise Faulty(f"{program}: there is no such program; --program names the program alto")
    trace = os.path.join(folder, "trace")
    second = copies[1] if len(copies) > 1 else None
    tracer = ["strace", "-f", "-y", "-xx", "-s", str(LONGEST), "-e", "trace=pwrite64,write", "-o", trace]
    command = [*tracer, program, *drive_words(second), copies[0], *words]
    ended = subprocess.run(command, input=typed, capture_output=True)
    if not os.path.exists(trace):
        raise Faulty(f"--film: {ended.stderr.decode(errors='replace').strip()}")
    with open(trace, encoding="ascii", errors="replace") as file:
        return file.readlines()


def states(program, paths, words, typed):
    """Titles and files of the states of a copy of a pack, before the program runs with these words and after each of its write calls; a text
    that is shown is a state without a write. Raises `Faulty` if there can be none."""
    files = [bytearray(it) for it in read_files(*paths)]
    yield "before", [bytes(it) for it in files]
    with tempfile.TemporaryDirectory() as folder:
        copies = [os.path.join(folder, f"drive{n}") for n in range(len(files))]
        for path, content in zip(copies, files):
            with open(path, "wb") as file:
                file.write(content)
        count = 0
        for line in traced(program, copies, words, typed, folder):
            write, text = WRITE.search(line), SHOWN.search(line)
            if write and path_of(write[1]) in copies:
                count += 1
                drive, content, at = copies.index(path_of(write[1])), bytes_of(write[2]), int(write[3])
                files[drive][at : at + len(content)] = content
                yield f"write {count}: {sectors_of(at, len(content), drive * len(files[0]))}", [bytes(it) for it in files]
            elif text:
                yield f"shown: {bytes_of(text[1]).decode(errors='replace').strip()}", [bytes(it) for it in files]


def sectors_of(at, count, before):
    """The sectors to which so many bytes belong, from this byte of a drive on, ahead of which the pack has so many."""
    first, last = (before + at) // SECTOR, (before + at + count - 1) // SECTOR
    return f"sector {first}" if first == last else f"sectors {first} to {last}"
