#!/usr/bin/env python3
"""Run by the gate: types lines to tools/altosh, on a terminal and without one, and compares replies, advice, exit codes and packs.

On a terminal of the system: the prompt, completion, the lines before, ^C within a line and while 2,000,000 bytes are told, ^D, SIGTERM, and
a pack that is scavenged on asking; each leaves the pack clean. Without one: the words of the shell, each row of the table of advice once,
from a program that answers as it says, and how a script ends. Of two sessions the second is refused while the first is open. Random lines,
made as by check/sessions.py, give the same replies and leave the same pack, byte by byte, through the shell and through `alto`.
"""
import os
import pathlib
import pty
import random
import select
import signal
import subprocess
import sys
import tempfile
import time

sys.dont_write_bytecode = True
import arguments
import packs
import sessions
from plain import Plain

sys.path.append(str(arguments.TOP / "tools"))
from packtools import advice
from packtools import lines as lines_module
from packtools.pack import read_pack
from packtools.shell import WORDS
from packtools.survey import Survey

SECONDS = 60
SCRIPT = arguments.TOP / "tools" / "altosh"
ENVIRONMENT = {**os.environ, "TERM": "dumb", "TZ": "UTC", "LC_ALL": "C.UTF-8", "PYTHONDONTWRITEBYTECODE": "1"}
LARGE = 2_000_000
# seconds before ^C is typed
PAUSE = 0.5
END_OF_INPUT, BREAK, TAB, UP = b"\x04", b"\x03", b"\t", b"\x1b[A"
RANDOM_LINES, MOST_RANDOM = 200, 9
# a program that refuses the pack with a text, or each line but `free`
REFUSES_PACK = "#!/bin/sh\necho '{text}'\nexit {code}\n"
REFUSES_LINES = "#!/bin/sh\nwhile read -r line; do [ \"$line\" = free ] && echo '1 pages free' || echo '{text}'; done\n"
FAILS = "#!/bin/sh\nread -r line\necho '1 pages free'\nread -r line\nexit 3\n"
# a program that obeys lines that aren't built
STREAMS = """#!/bin/sh
while read -r line; do
    case "$line" in
        free) echo '1 pages free' ;;
        get*) echo 6869 ;;
        fetch*) echo 7 ;;
        open*) echo stream 0 ;;
        list) printf 'A.\\n1 entries\\n' ;;
        find*) printf '1025\\n2000\\n2 found\\n' ;;
        blocks) printf 'at 1025 words 101\\nat 1127 words 9\\n2 blocks\\n' ;;
        inload*) echo not written 00 ;;
        *) echo done ;;
    esac
done
"""
# texts that a session shows, and not the program as it opens the pack or scavenges it
OPENING = ("usage", "no pack", "pack in use", "bad length", "unlike", "no root", "no descriptor", "bad descriptor", "wrong", "pack not clean")
failures = []


class Place:
    """A folder with a formatted pack of two cylinders, `pack`, and a shell over it."""

    def __init__(self, program, sentence, folder):
        self.program, self.sentence, self.folder = program, sentence, pathlib.Path(folder)
        (self.folder / "alto").symlink_to(program)
        self.put(packs.formatted(1, 2, 1)[0])
        self.environment = {**ENVIRONMENT, "PATH": f"{folder}:{os.environ['PATH']}", "XDG_STATE_HOME": f"{folder}/state"}

    def put(self, content):
        """Writes the pack anew."""
        (self.folder / "pack").write_bytes(content)

    def require(self, what, found, wanted):
        if found != wanted:
            failures.append(f"{self.sentence}: {what}: {found!r}, and not {wanted!r}")

    def require_in(self, what, wanted, found):
        if wanted not in found:
            failures.append(f"{self.sentence}: {what}: {wanted!r} isn't in {found!r}")

    def stub(self, text):
        """A program in the place of alto."""
        path = self.folder / "stub"
        path.write_text(text)
        path.chmod(0o755)
        return "./stub"

    def spoil(self, *numbers):
        """Puts another word on the pack by hand."""
        command = [sys.executable, "-B", arguments.TOP / "check" / "spoil.py", "pack", *map(str, numbers)]
        subprocess.run(command, cwd=self.folder, timeout=SECONDS, check=True)

    def start(self, *words, **streams):
        return subprocess.Popen([sys.executable, "-B", SCRIPT, *words, "pack"], cwd=self.folder, env=self.environment, **streams)

    def run(self, *words, typed=b""):
        command = [sys.executable, "-B", SCRIPT, *words, "pack"]
        return subprocess.run(command, cwd=self.folder, env=self.environment, input=typed, capture_output=True, timeout=SECONDS)

    def script(self, typed, shown="", noted="", code=0, words=()):
        """Obeys lines parted by `|`: what is shown, the lines on the standard error, and the exit code."""
        ended = self.run(*words, typed=lines(typed))
        wanted = lines(shown), lines(noted), code
        self.require(f"{typed!r} {words}", (ended.stdout, ended.stderr, ended.returncode), wanted)

    def is_clean(self, what):
        """The pack is clean, and no hint is false."""
        survey = Survey(read_pack(self.folder / "pack"))
        _, *remarks = survey.remarks()
        self.require(f"{what}: the pack", (survey.false, remarks), ({}, ["marked clean"]))


def lines(text):
    return "".join(f"{line}\n" for line in text.split("|") if text).encode()


class Terminal:
    """A shell on a terminal of its own."""

    def __init__(self, place, *words):
        self.place, self.seen = place, b""
        self.process, self.end = pty.fork()
        if self.process == 0:
            os.chdir(place.folder)
            os.execve(sys.executable, [sys.executable, "-B", str(SCRIPT), *words, "pack"], place.environment)

    def wait(self, text):
        """Reads up to a text, and answers what was read with it."""
        wanted, limit = text.encode(), time.monotonic() + SECONDS
        while wanted not in self.seen:
            ready, _, _ = select.select([self.end], [], [], max(0, limit - time.monotonic()))
            more = self.read() if ready else b""
            if not more:
                failures.append(f"{self.place.sentence}: {text!r} isn't shown, but {self.seen[-300:]!r}")
                return b""
            self.seen += more
        before, _, self.seen = self.seen.partition(wanted)
        return before + wanted

    def read(self):
        """What is shown next; nothing at the end."""
        try:
            return os.read(self.end, 65_536)
        except OSError:
            return b""

    def type(self, keys):
        os.write(self.end, keys if isinstance(keys, bytes) else keys.encode())

    def ended(self):
        """The exit code. What is still shown is read."""
        more = self.read()
        while more:
            self.seen += more
            more = self.read()
        os.close(self.end)
        _, status = os.waitpid(self.process, 0)
        return os.waitstatus_to_exitcode(status)


# what is checked, each in a place of its own


def check_words(place):
    place.script("mkdir Mail|make Mail>A|say Mail>A Hi there|cat Mail>A", "made #3|made #4|length 9|Hi there")
    place.script("make mail>B|say Mail>B  two", "made #5|length 5")
    place.script("cat Mail>*", "Hi there| two")
    place.script("hex Mail>a", "000000  4869 2074 6865 7265 0a                   Hi there.")
    place.script("ls|ls mail|ls Mail>|ls m*|ls Mail>b", "DiskDescriptor  Mail>           SysDir>|A  B|A  B|Mail>|b")
    place.script("settime 2177452800|append Mail>A -", "done|length 9")
    told = "#    4         9 bytes     2 pages  1970-01-01 00:00  Mail>A|37 pages free, 18,944 bytes".replace("Mail>A", "A")
    place.script("ls -l Mail>A", told)
    place.script("# a note||free", "37 pages free")
    (place.folder / "host file").write_bytes(b"ABCDE")
    place.script("import 'host file'", noted=HOST_NAME.format("import 'host file'"), code=1)
    (place.folder / "host").write_bytes(b"AB\0DE")
    noted = "# Mail>host: isn't text: hex Mail>host|altosh: line 2: cat Mail>host"
    place.script("import host Mail>|cat Mail>host", "host -> pack:Mail>host, 5 bytes", noted, 1)
    (place.folder / "out").mkdir()
    copied = "pack:Mail>A -> out/A, 9 bytes|pack:Mail>B -> out/B, 5 bytes|pack:Mail>host -> out/host, 5 bytes"
    place.script("ls Mail|export Mail>* out", f"A     B     host|{copied}")
    place.script("rm Mail>? mail>host|ls Mail|rmdir Mail", "Mail>A deleted|Mail>B deleted|mail>host deleted|done")
    place.script("rm *", noted="# no file is named|altosh: line 1: rm *", code=1)
    place.script("ls Z>", "", "# Z>: no such name|altosh: line 1: ls Z>", 1)
    place.script("ls A|cat Q*", "", "# A: no such name|altosh: line 1: ls A|# Q*: no name matches|altosh: line 2: cat Q*", 1, ["-k"])
    noted = "# it is typed: say F TEXT|altosh: line 1: say|# it is typed: import HOST .. [DIR>]|altosh: line 2: import"
    place.script("say|import", "", noted, 1, ["-k"])
    long = f"say B {'x' * 2_000}"
    place.script(long, "", f"# the line of text has 2001 bytes, and may have 2000|altosh: line 1: {long[:80]}", 1)
    place.script("make Letter|cat Lettr", "made #7", "# Lettr: no such name|# there are: Letter|altosh: line 2: cat Lettr", 1)
    place.script("scavenge|free|scavenge now", "scavenged: files 3, freed 0, bad 0, adopted 0|41 pages free|bad line", BAD_SCAVENGE, 1)
    place.is_clean("the words of the shell")


HOST_NAME = "# host file: 'host file' is no name on a pack: it has ' ', and may have ASCII letters, digits and + - . $|altosh: line 1: {}"
BAD_SCAVENGE = "# there is no word 'scavenge': help tells them|altosh: line 3: scavenge now"


def check_bad_lines(place):
    name = "is no name on a pack: it has '_', and may have ASCII letters, digits and + - . $"
    rows = [
        ("dir", "there is no word 'dir': help tells them"),
        ("Make A", "verbs are small: make"),
        (" free", "words are parted by one space, and none stands before the first or after the last"),
        ("free ", "words are parted by one space, and none stands after the last|it is typed: free"),
        ("make  A", "words are parted by one space, and none stands after the last|it is typed: make T"),
        ("make A_b", f"'A_b' {name}|it is typed: make T"),
        ("make #3", "'#3' isn't a name|it is typed: make T"),
        ("type #x", "'#x' isn't a serial|it is typed: type F"),
        ("make D!2>A", "'D!2' is no directory: their names have no versions|it is typed: make T"),
        ("list D>A", "'D>A' isn't NAME, the name of a directory without a version|it is typed: list [NAME]"),
        ("append A Hello you", "'Hello you' isn't HEX, pairs of digits and a-f. As text: say A Hello you|it is typed: append F HEX"),
        ("patch A x 00", "'x' isn't NUM, digits below 4294967296|it is typed: patch F NUM HEX"),
        ("patch A 0 0", "'0' isn't HEX, pairs of digits and a-f, at most 2000 bytes|it is typed: patch F NUM HEX"),
        ("cut A", "it is typed: cut F NUM"),
        ("store 65536 0", "'65536' isn't WORD, digits below 65536|it is typed: store WORD WORD"),
        ("fetch", "it is typed: fetch WORD"),
        ("block 0", "'0' isn't NUM, a number from 1 to 65535|it is typed: block NUM"),
        ("junta 9", "'9' isn't NUM, a number from 1 to 8|it is typed: junta NUM"),
        ("counterjunta 8", "it is typed: counterjunta"),
        (f"make {'a' * 4_096}", "the line has 4101 bytes, and may have 4096"),
    ]
    for line, noted in rows:
        noted = "|".join(f"# {it}" for it in noted.split("|")) + f"|altosh: line 1: {line[:80]}"
        place.script(line, "bad line", noted, 1)


def check_advice(place):
    for row in advice.ROWS[:-1]:
        for text in advice.QUOTED.findall(row.says):
            example = "".join({"..": "1 2 3"}.get(it, "17" if advice.LETTER.fullmatch(it) else it) + " " for it in text.split(" ")).strip()
            is_opening = example.startswith(OPENING)
            stub = place.stub(REFUSES_PACK.format(text=example, code=2) if is_opening else REFUSES_LINES.format(text=example))
            ended = place.run("--program", stub, typed=b"cut A 1\n")
            said, noted = ended.stdout.decode(), ended.stderr.decode()
            if example == "pack in use":
                place.require(text, (said, noted, ended.returncode), ("", "altosh: pack: another session has it open\n", 1))
                continue
            place.require(f"{text}: exit code", ended.returncode, 2 if is_opening or text.startswith("hint failed") else 1)
            if is_opening:
                place.require_in(text, f"altosh: pack: {example}", noted)
            else:
                place.require(f"{text}: shown", said, f"{example}\n")
            if text not in ("bad line", "hint failed: ..", "pack not clean: mark M"):
                place.require_in(text, "# " + row.means.replace("`", "").replace("N", "17").replace("M ", "17 ").replace("L ", "17 ")[:20], noted)
    ended = place.run("--program", place.stub(FAILS), typed=b"make A\n")
    told = b"altosh: pack: the pack file can't be read or written\n# the disk, the display, memory, or a limit on the size of files: docs/commands.md"
    place.require("a fault", (ended.returncode, ended.stderr[: len(told)]), (1, told))


def check_ends(place):
    first = "bad line|made #3"
    place.script("x|make A", "bad line", "# there is no word 'x': help tells them|altosh: line 1: x", 1)
    place.script("x|make A", first, "# there is no word 'x': help tells them|altosh: line 1: x", 1, ["-k"])
    place.script("free|quit|make B", "41 pages free|done")
    ended = place.run("-c", "make B", "-c", "free", typed=b"make C\n")
    place.require("-c", (ended.stdout, ended.returncode), (b"made #4\n39 pages free\n", 0))
    ended = place.run("--program", "nowhere")
    told = b"altosh: nowhere: No such file or directory; --program names the program alto"
    place.require("no program", (ended.returncode, ended.stderr.splitlines()[0]), (1, told))
    ended = place.run("--second", "pack")
    place.require("one file twice", ended.returncode, 2)
    place.is_clean("the ends of scripts")


def check_replies(place):
    """The verb says how many lines a reply has."""
    typed = "open A|get 0 2|fetch 0|list|find 7|blocks|inload A -|quit"
    shown = "stream 0|6869|7|A.|1 entries|1025|2000|2 found|at 1025 words 101|at 1127 words 9|2 blocks|not written 00|done"
    place.script(typed, shown, words=["--program", place.stub(STREAMS)])


def check_help(place):
    rows = [("cat F ..", "a file's bytes as text"), ("make T", "makes a file of no bytes"), ("x", "there is no such word")]
    place.script("help cat make x", "|".join(f"  {usage:<26}{does}" for usage, does in rows))
    said = place.run("-c", "help").stdout.decode()
    for word in [*WORDS, *lines_module.VERBS]:
        place.require_in("help", f"\n  {word}", said)
    command = ["sh", "-c", f"yes free | {sys.executable} -B {SCRIPT} pack | head -1"]
    ended = subprocess.run(command, cwd=place.folder, env=place.environment, capture_output=True, timeout=SECONDS)
    place.require("a reader that goes away", (ended.stdout, ended.stderr), (b"43 pages free\n", b"altosh: the standard output: Broken pipe\n"))
    place.is_clean("a reader that goes away")


def check_two_sessions(place):
    first = place.start(stdin=subprocess.PIPE, stdout=subprocess.PIPE, start_new_session=True)
    first.stdin.write(b"make A\n")
    first.stdin.flush()
    place.require("the first session", first.stdout.readline(), b"made #3\n")
    for words in ([], ["-c", "free"]):
        ended = place.run(*words, typed=b"free\n")
        place.require("a second session", (ended.returncode, ended.stdout, ended.stderr), (1, b"", b"altosh: pack: another session has it open\n"))
    programs = subprocess.run(["ps", "-o", "pid=", "--ppid", str(first.pid)], capture_output=True, text=True, check=True).stdout.split()
    for process in [first.pid, *map(int, programs)]:
        os.kill(process, signal.SIGKILL)
    first.communicate()
    place.script("free", "", f"{NOT_CLEAN}|# by hand: alto pack scavenge", 2)
    subprocess.run([place.program, "pack", "scavenge"], cwd=place.folder, stdout=subprocess.DEVNULL, timeout=SECONDS, check=True)
    place.script("ls A", "A")


NOT_CLEAN = (
    "altosh: pack: pack not clean: mark 2: a session that wrote to it was stopped, or hasn't ended"
    "|# its files are all there, as labels say: 1 files. A scavenge makes it ready again"
)


def check_terminal(place):
    (place.folder / "host").write_bytes(b"ABCDE")
    shell = Terminal(place)
    place.require_in("the greeting", b"pack: 2 names in SysDir, 43 pages free. help tells the words", shell.wait("pack> "))
    shell.type(b"make X")
    shell.wait("make X")
    # Python sees ^C once it waits for the next key
    time.sleep(PAUSE)
    shell.type(BREAK)
    shell.wait("pack> ")
    # what is typed, and a text that has to be shown before the next prompt
    rows = [
        (b"mkd" + TAB + b"Mail\r", "made #3"),
        (b"make Ma" + TAB + b"Letter\r", "made #4"),
        (b"say Mail>L" + TAB + b" Hi\r", "length 3"),
        (UP + b"\r", "length 6"),
        (b"dir\r", "# there is no word 'dir': help tells them"),
        (b"import ho" + TAB + b" Mail>\r", "host -> pack:Mail>host, 5 bytes"),
        (b"help ca" + TAB + b"\r", "cat F .."),
        (b"cat Mail>Letter\r", "Hi\r\nHi"),
        (b"\r", ""),
    ]
    for keys, shown in rows:
        shell.type(keys)
        place.require_in(f"{keys!r}", shown.encode(), shell.wait("pack> "))
    shell.type(END_OF_INPUT)
    place.require("^D", shell.ended(), 0)
    place.is_clean("^D")
    shell = Terminal(place)
    shell.wait("pack> ")
    shell.type(UP + b"\r")
    place.require_in("the history", b"cat Mail>Letter", shell.wait("Hi\r\nHi"))
    shell.wait("pack> ")
    shell.type("quit\r")
    place.require("quit", shell.ended(), 0)
    place.is_clean("quit")


def check_signals(place):
    place.put(packs.sound(1, 203, [(b"Large.", bytes(LARGE), range(10, 10 + 2 + LARGE // packs.PAGE))])[0])
    shell = Terminal(place)
    shell.wait("pack> ")
    shell.type("make A\r")
    shell.wait("made #4")
    shell.wait("pack> ")
    shell.type("type Large\r")
    time.sleep(PAUSE)
    shell.type(BREAK)
    shell.wait(f"{LARGE} bytes")
    shell.wait("pack> ")
    shell.type("free\r")
    shell.wait("pages free")
    shell.wait("pack> ")
    os.kill(shell.process, signal.SIGTERM)
    place.require("SIGTERM", shell.ended(), 128 + signal.SIGTERM)
    place.is_clean("SIGTERM")


def check_cure(place):
    survey = Survey(read_pack(place.folder / "pack"))
    place.require("the pack", survey.false, {})
    for answer, code in (("n\r", 2), ("\x04", 2), ("y\r", 0)):
        place.spoil(4, 6, 2)
        shell = Terminal(place)
        shell.wait("# scavenge it now? [y/N] ")
        shell.type(answer)
        if answer == "y\r":
            shell.wait("scavenged: files 2, freed 0, bad 0, adopted 0")
            shell.wait("pack> ")
            shell.type(END_OF_INPUT)
        place.require(f"the answer {answer!r}", (shell.ended(), b"Traceback" in shell.seen), (code, False))
    place.is_clean("scavenged on asking")


def check_two_drives(place):
    for name, content in zip(("pack", "right"), packs.formatted(2, 2, 1)):
        (place.folder / name).write_bytes(content)
    second = ["--second", "right"]
    place.script("make A|say A ABCDE|cat A|free", "made #3|length 6|ABCDE|89 pages free", words=second)
    told = "# --second is left out, or too much: the other way round; a pack that moves to two drives: prepare, then scavenge"
    place.script("free", "", f"altosh: pack: wrong descriptor length 44|{told}", 2)
    # the address in A's entry
    place.spoil(2, 29, 50)
    failed = "hint failed: entry #1 word 29 at 50 wanted #3 v 1 page 0 found 65535 65535 65535 65535 65535 65535 65535 65535"
    said = "# word 29 of SysDir, the address in the entry A., says that sector 50 has the leader page of #3;|# that sector is free. "
    ended = place.run(*second, "-k", typed=b"cat A\nscavenge\ncat A\n")
    shown = lines(f"{failed}|scavenged: files 3, freed 0, bad 0, adopted 0|ABCDE")
    place.require("a hint on two drives", (ended.stdout, ended.stderr.startswith(lines(said)[:-1]), ended.returncode), (shown, True, 1))
    place.script("free", "89 pages free", words=second)


def check_random(place):
    seed = random.randrange(2**32)
    for number in range(MOST_RANDOM):
        chance = random.Random(f"{seed} {number}")
        typist = sessions.Typist(chance, Plain(1, 2, 2))
        found, _ = typist.session(RANDOM_LINES, True)
        typed = [it for it in found if it and it.split(b" ")[0].decode("latin-1") not in {*WORDS, "quit", "#"}][:RANDOM_LINES]
        content, keys = packs.formatted(1, 2, 1)[0], b"".join(it + b"\n" for it in typed)
        place.put(content)
        ended = subprocess.run([place.program, "pack", "boot"], cwd=place.folder, input=keys, capture_output=True, timeout=SECONDS)
        wanted = ended.stdout, (place.folder / "pack").read_bytes()
        place.put(content)
        found = place.run("-k", typed=keys).stdout, (place.folder / "pack").read_bytes()
        if found != wanted:
            failures.append(f"{place.sentence}: seed {seed}, {number}: other {'replies' if found[0] != wanted[0] else 'bytes'}")
        if len(typed) == RANDOM_LINES:
            return
    failures.append(f"{place.sentence}: seed {seed}: too few lines")


CHECKS = [
    (check_words, "words of the shell"),
    (check_bad_lines, "bad lines"),
    (check_advice, "advice"),
    (check_ends, "how a script ends"),
    (check_replies, "replies of one line and of more"),
    (check_help, "help"),
    (check_two_sessions, "two sessions"),
    (check_terminal, "a terminal"),
    (check_signals, "signals"),
    (check_cure, "a pack that was left open"),
    (check_two_drives, "a pack on two drives"),
    (check_random, "random lines"),
]


def main():
    program = arguments.read(arguments.parser(__doc__)).program
    for check, sentence in CHECKS:
        with tempfile.TemporaryDirectory() as folder:
            check(Place(program, sentence, folder))
    arguments.end("shells", failures, f"{len(CHECKS)} places are as docs/tools.md says, with {RANDOM_LINES} random lines as through alto")


if __name__ == "__main__":
    main()
