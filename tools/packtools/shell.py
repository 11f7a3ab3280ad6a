"""The shell of tools/altosh: lines of its own words, and lines that are typed to a session as they are."""
from __future__ import annotations

import cmd
import contextlib
import difflib
import glob
import os
import shlex
import subprocess
import sys

from packtools import advice, hints, lines, names
from packtools.copies import Into, Out, destination, read_spot, signals_held
from packtools.dates import day
from packtools.pack import PAGE, Faulty, read_pack
from packtools.session import APPENDED, HINT_FAILED, OPEN, Ended, NotEntered, Refused, Session, drive_words

# the words of the shell: how each is typed, and what it does
WORDS = {
    "ls": ("ls [-l] [NAME ..]", "names as they are typed, > after a directory; -l with lengths and dates"),
    "cat": ("cat F ..", "a file's bytes as text"),
    "hex": ("hex F ..", "a file's bytes in hexadecimal and as text"),
    "info": ("info F ..", "what stat tells, with days"),
    "say": ("say F TEXT", "puts a line of text after a file's last byte"),
    "import": ("import HOST .. [DIR>]", "copies host files into the pack, as altocp does"),
    "export": ("export NAME .. [FOLDER]", "copies files to the host"),
    "rm": ("rm NAME ..", "deletes the newest versions"),
    "scavenge": ("scavenge", "mends the pack, and goes on with a new memory"),
    "help": ("help [WORD]", "tells the words, or one"),
}
OPERANDS = (
    "T is a file by its name: NAME, DIR>NAME, or with !n its version n. F is T, or # and a serial. * ? [..] match newest names in the words",
    "of the shell. HEX is pairs of hexadecimal digits, NUM a decimal number, WORD one of at most 65535.",
)
NOT_BUILT = "bad line"
# characters of a line on a terminal, and bytes of one of `hex`
WIDTH, ROW = 80, 16
SYSTEM = ("sysdir", "diskdescriptor")


class Shell(cmd.Cmd):
    """Obeys lines over a pack: a word of the shell by its method `do_WORD`, which gets the rest of the line and answers whether all of it
    was done, and any other line by the session, whose reply is shown as it is."""

    def __init__(self, program, path, second, is_terminal):
        super().__init__()
        self.program, self.path, self.second, self.is_terminal = program, path, second, is_terminal
        self.prompt = f"{os.path.basename(path)}> "
        # a hint has failed in this session; no other line follows
        self.is_stuck = self.is_over = False
        self.session = None

    def __enter__(self):
        return self

    def __exit__(self, *_):
        if self.session is not None:
            self.session.end()

    def close(self):
        """Ends the session. Raises `Ended` if the program failed."""
        session, self.session = self.session, None
        why = session.end() if session is not None and session.process.returncode is None else None
        if why:
            raise Ended(f"{self.path}: {why}")

    def note(self, text):
        """Says something of the shell's own."""
        sys.stdout.flush()
        print(f"# {text}", file=sys.stdout if self.is_terminal else sys.stderr, flush=True)

    def command(self):
        """How `alto PACK` is typed for this pack."""
        return shlex.join([self.program, *drive_words(self.second), self.path])

    # the beginning

    def open(self):
        """Opens the pack. Where it isn't entered, it says why and what to do, and on a terminal asks whether it is to be scavenged. Raises
        `NotEntered` if it stays so."""
        try:
            self.session = Session(self.program, self.path, self.second)
        except NotEntered as error:
            sys.stdout.flush()
            print(f"altosh: {error}", file=sys.stderr, flush=True)
            if not self.cured(error.text):
                raise
            self.open()

    def cured(self, text):
        """Says what can be done about a pack that isn't entered, and answers whether it was scavenged."""
        if text == OPEN or text.startswith(HINT_FAILED):
            self.note(f"its files are all there, as labels say: {self.count()}. A scavenge makes it ready again")
            if self.is_terminal and answered("# scavenge it now? [y/N] ") in ("y", "yes"):
                return self.scavenge()
            self.note(f"by hand: {self.command()} scavenge")
        else:
            self.advise(text)
        return False

    def count(self):
        """How many files `show` lists, as it says it."""
        *_, last = self.run("show").stdout.splitlines() or ["?"]
        return last

    def run(self, word):
        return subprocess.run([self.program, *drive_words(self.second), self.path, word], capture_output=True, text=True)

    def scavenge(self):
        """Scavenges the pack without a session, and answers whether that was done."""
        ended = self.run("scavenge")
        print(ended.stdout, end="", flush=True)
        if ended.returncode != 0:
            self.advise(ended.stdout.strip() or ended.stderr.strip())
        return ended.returncode == 0

    def greeting(self):
        named, free = len(self.session.list("SysDir")), self.session.free()
        return f"{self.path}: {named} names in SysDir, {free} pages free. help tells the words, Tab completes, ^D ends"

    # lines

    def obey(self, line):
        """Obeys a line, and answers whether all of it was done. Raises `Ended` if no other line can follow."""
        word, _, rest = line.partition(" ")
        if not line or line.startswith("# "):
            return True
        try:
            return getattr(self, f"do_{word}")(rest) if word in WORDS else self.typed(line)
        except NotEntered:
            raise
        except Ended as error:
            if not str(error).startswith(HINT_FAILED):
                raise Ended(f"{self.path}: {error}") from error
            return self.shown([str(error)], line)
        except Faulty as error:
            if self.session is None:
                raise
            self.note(error)
            return False
        finally:
            # copies are told past what is held
            sys.stdout.flush()

    def typed(self, line):
        """Types a line to the session and shows the reply."""
        is_done = self.shown(self.session.ask(line), line)
        if line == "quit" and is_done:
            self.is_over = True
        return is_done

    def shown(self, reply, line):
        """Shows a reply as it is, then advice if it refuses the line, and answers whether it doesn't."""
        print("\n".join(reply), flush=True)
        last = reply[-1]
        if not advice.is_refusal(last):
            return True
        if last.startswith(HINT_FAILED):
            self.is_stuck = True
            for text in hints.explained(last, self.pack()):
                self.note(text)
        elif last == NOT_BUILT:
            for text in lines.faults(line):
                self.note(text)
        else:
            _, operand, *_ = [*line.split(" "), None, None]
            self.advise(last, operand)
        return False

    def advise(self, text, operand=None):
        """Says what a text of the program means, and what to do."""
        said = list(advice.told(text, self.command(), self.path, operand))
        if said:
            self.note(": ".join(said))

    def pack(self):
        """The pack as it stands between two lines, or None."""
        with contextlib.suppress(Faulty):
            return read_pack(self.path, self.second, is_lent=True)

    # names

    def listed(self, directory):
        """The stored names in a directory, by how it is typed; none stands for SysDir."""
        return self.session.list(directory or "SysDir")

    def is_directory(self, name):
        """Whether a name in SysDir is that of a directory."""
        return name.lower() == "sysdir" or self.session.is_directory(name)

    def matched(self, word):
        """The names that a word with wildcards matches, as they are typed."""
        directory, sign, pattern = word.rpartition(">")
        found = names.matching(pattern, self.listed(directory))
        if not found:
            raise Refused("no name matches")
        return [f"{directory}{sign}{it}" for it in found]

    def files(self, words):
        """These files: wildcards leave out directories and the system files."""
        found = []
        for word in words:
            if names.is_wild(word):
                with named(word):
                    found += [it for it in self.matched(word) if it.lower() not in SYSTEM and (">" in it or not self.is_directory(it))]
            else:
                found.append(word)
        if not found:
            raise Refused("no file is named")
        return found

    def each(self, action, words):
        """Does this with each file, and says of those that are refused why. Answers whether all were done."""
        is_done = True
        for name in words:
            try:
                action(name)
            except Refused as reply:
                self.note(f"{name}: {reply}")
                self.near(name, str(reply))
                is_done = False
        return is_done

    def near(self, name, reply):
        """Names that are much like one that isn't there."""
        directory, _, text = name.rpartition(">")
        with contextlib.suppress(Refused):
            found = difflib.get_close_matches(text, names.newest(self.listed(directory))) if reply == "no such name" else []
            if found:
                self.note(f"there are: {' '.join(found)}")

    # words of the shell

    def do_ls(self, rest):
        words = rest.split()
        is_long, found = words[:1] == ["-l"], []
        for word in words[is_long:] or ["SysDir>"]:
            with named(word):
                found += self.entries(word)
        if is_long:
            is_done = self.each(self.told_long, found)
            free = self.session.free()
            print(f"{free} pages free, {free * PAGE:,} bytes")
            return is_done
        # names without their directory, in columns
        shown = [self.marked(it) for it in found]
        width = max(map(len, shown), default=0) + 2
        rows = -(-len(shown) // max(1, WIDTH // width))
        for row in range(rows):
            print("".join(it.ljust(width) for it in shown[row::rows]).rstrip())
        return True

    def entries(self, word):
        """The names that `ls` tells of a word: those in a directory, those that match, or the file itself."""
        directory, sign, name = word.rpartition(">")
        if names.is_wild(name):
            return self.matched(word)
        if not name or not sign and self.is_directory(name):
            inside = directory or name
            before = "" if inside.lower() == "sysdir" else f"{inside}>"
            return [before + names.spelled(it) for it in self.listed(inside)]
        self.session.stat(word)
        return [word]

    def marked(self, name):
        """A name as `ls` shows it."""
        return f"{name}>" if ">" not in name and self.is_directory(name) else name.rpartition(">")[2]

    def told_long(self, name):
        """A line of `ls -l`. Of DiskDescriptor nothing is told but its name."""
        if name.lower() == SYSTEM[1]:
            print(f"{'system file':>51}  {name}")
            return
        it = self.session.stat(name)
        print(f"#{it.serial:>5} {it.length:>9,} bytes {it.pages:>5} pages  {day(it.written)[:16]:<16}  {self.marked(name)}")

    def do_cat(self, rest):
        return self.each(self.show_text, self.files(rest.split()))

    def show_text(self, name):
        data = self.session.type(self.session.stat(name).serial)
        if not all(it in b"\n\r\t\x0c" or 32 <= it < 127 for it in data):
            raise Refused(f"isn't text: hex {name}")
        text = data.replace(b"\r\n", b"\n").replace(b"\r", b"\n").decode("ascii")
        print(text, end="" if not text or text.endswith("\n") else "\n", flush=True)

    def do_hex(self, rest):
        return self.each(self.show_hex, self.files(rest.split()))

    def show_hex(self, name):
        data = self.session.type(self.session.stat(name).serial)
        for at in range(0, len(data), ROW):
            row = data[at : at + ROW]
            print(f"{at:06x}  {row.hex(' ', -2):<39}  {''.join(chr(it) if 32 <= it < 127 else '.' for it in row)}")

    def do_info(self, rest):
        return self.each(self.show_info, self.files(rest.split()))

    def show_info(self, name):
        it = self.session.stat(name)
        print(f"{name}: file #{it.serial}, {it.length:,} bytes, {it.pages} pages, leader's name {it.name}")
        for what, moment in (("created", it.created), ("written", it.written), ("read", it.read)):
            print(f"  {what:<8} {day(moment)}  ({moment})")

    def do_say(self, rest):
        name, _, text = rest.partition(" ")
        if not name:
            raise Refused(f"it is typed: {WORDS['say'][0]}")
        data = f"{text}\n".encode(errors="surrogateescape")
        if len(data) > APPENDED:
            raise Refused(f"the line of text has {len(data)} bytes, and may have {APPENDED}")
        return self.typed(f"append {name} {data.hex()}")

    def do_rm(self, rest):
        return self.each(self.delete, self.files(rest.split()))

    def delete(self, name):
        self.session.delete(name)
        print(f"{name} deleted", flush=True)

    def do_import(self, rest):
        words = split(rest)
        target = words.pop() if len(words) > 1 and words[-1].endswith(">") else ""
        if not words:
            raise Refused(f"it is typed: {WORDS['import'][0]}")
        with named(target):
            spot = destination(self.session, read_spot(target), len(words) > 1)
        return self.copied(Into(self.session, spot), words)

    def do_export(self, rest):
        words = split(rest)
        folder = words.pop() if len(words) > 1 and os.path.isdir(words[-1]) else "."
        packs = [it for it in (self.path, self.second) if it is not None]
        return self.copied(Out(self.session, folder, packs), [f"{self.path}:{it}" for it in self.files(words)])

    def copied(self, copier, sources):
        """Copies files, and says which can't be."""
        is_done = True
        for source in sources:
            try:
                copier.copy(source)
            except Ended as error:
                # what the session said stands after the place
                text = str(error)
                raise Ended(text[text.find(HINT_FAILED) :] if HINT_FAILED in text else text) from error
            except Faulty as error:
                self.note(f"{source}: {error}")
                is_done = False
        return is_done

    def do_scavenge(self, rest):
        if rest:
            return self.typed(f"scavenge {rest}")
        reply = self.session.ask("scavenge")
        if reply[-1] != NOT_BUILT:
            self.is_stuck = self.is_stuck and advice.is_refusal(reply[-1])
            return self.shown(reply, "scavenge")
        self.close()
        is_done = self.scavenge()
        self.open()
        self.is_stuck = False
        return is_done

    def do_help(self, rest):
        found = rest.split()
        built = {verb: (lines.usage(verb), does) for verb, (_, does) in lines.VERBS.items()}
        for word in found:
            tell(WORDS.get(word) or built.get(word) or (word, "there is no such word"))
        if not found:
            print("words of the shell:")
            for row in WORDS.values():
                tell(row)
            print("lines of the Alto, whose replies are shown as they are:")
            for row in built.values():
                tell(row)
            print("\n".join(OPERANDS))
        return True

    # completion

    def completenames(self, text, *_):
        return [f"{it} " for it in sorted({*WORDS, *lines.VERBS}) if it.startswith(text)]

    def completedefault(self, text, *_):
        """Names on the pack; after a directory's its sign stands."""
        directory, sign, part = text.rpartition(">")
        with contextlib.suppress(Faulty):
            found = [it for it in names.newest(self.listed(directory)) if it.lower().startswith(part.lower())]
            if len(found) == 1 and not sign and self.is_directory(found[0]):
                return [f"{found[0]}>"]
            return [f"{directory}{sign}{it}" for it in found]
        return []

    def complete_import(self, text, *_):
        """Host paths."""
        return [it + "/" if os.path.isdir(it) else it for it in sorted(glob.glob(glob.escape(text) + "*"))]

    def complete_help(self, text, *_):
        return [it.strip() for it in self.completenames(text)]

    # whole sessions

    def terminal(self, history):
        """Obeys what is typed on the terminal, up to ^D or `quit`. ^C gives up the line that is typed; one that is obeyed comes to its end
        first."""
        with edited(self, history):
            print(self.greeting())
            while not self.is_over:
                try:
                    line = input(self.prompt)
                    with signals_held():
                        self.obey(line)
                except KeyboardInterrupt:
                    print()
                except EOFError:
                    print()
                    break

    def script(self, typed, is_kept_going):
        """Obeys lines without a terminal, up to the first that isn't done unless it goes on then. Answers whether all were done."""
        is_done = True
        for number, line in enumerate(typed, 1):
            with signals_held():
                is_good = self.obey(line)
            if not is_good:
                is_done = False
                sys.stdout.flush()
                print(f"altosh: line {number}: {line[:WIDTH]}", file=sys.stderr, flush=True)
            if self.is_over or not is_good and not is_kept_going:
                break
        return is_done


def answered(question):
    """What is typed to a question, in small letters; nothing at the end of the input."""
    try:
        return input(question).strip().lower()
    except EOFError:
        print()
        return ""


@contextlib.contextmanager
def named(word):
    """What is refused is told with the word that asked for it."""
    try:
        yield
    except Refused as reply:
        raise Refused(f"{word}: {reply}") from reply


def tell(row):
    """Tells how a word is typed, and what it does."""
    usage, does = row
    print(f"  {usage:<26}{does}")


def split(text):
    """The words of a line as a shell parts them."""
    try:
        return shlex.split(text)
    except ValueError as error:
        raise Refused(str(error)) from error


@contextlib.contextmanager
def edited(shell, history):
    """Lines are typed with corrections, completion and the history of earlier runs, where Python has readline."""
    try:
        import readline
    except ImportError:
        yield
        return
    readline.set_completer_delims(" ")
    readline.set_completer(shell.complete)
    readline.parse_and_bind("tab: complete")
    with contextlib.suppress(OSError):
        readline.read_history_file(history)
    try:
        yield
    finally:
        with contextlib.suppress(OSError):
            os.makedirs(os.path.dirname(history), exist_ok=True)
            readline.write_history_file(history)
