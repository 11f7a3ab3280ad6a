"""What a text of the program means, and what to do: the table of docs/commands.md, It says, do, whose rows these are."""
import re
import typing


class Row(typing.NamedTuple):
    """The texts that are meant, in backquotes, in which a single capital letter stands for a word and `..` for any; what they mean; what
    to do, or `-`."""

    says: str
    means: str
    do: str

    def forms(self):
        """A pattern for each of the texts; a letter names what it finds."""
        for text in QUOTED.findall(self.says):
            words = text.split()
            yield re.compile(" ".join(form_of(words, n) for n in range(len(words))))


QUOTED, LETTER = re.compile("`([^`]+)`"), re.compile("[A-Z]")
# an operand of the line that was refused, as a text of what to do names it
OPERAND = re.compile(r"\b(NAME|F)\b")

ROWS = [
    Row("`usage`", "the words after PACK aren't of the program; files that `--cylinders` asked for are there all the same", "`alto --help`"),
    Row(
        "`no pack`",
        "the file isn't there, may not be written, or is there already where `--cylinders` makes it; or the first word is no option in its place, "
        "as `-h`",
        "`ls -l PACK`; a new one of a model 31 drive: `alto --cylinders 203 PACK format 1`",
    ),
    Row("`pack in use`", "another process has the pack open", "let it end; `fuser PACK` tells its number"),
    Row("`bad length B`", "no pack file, or one that was half made", "remove a half-made one, and make it again"),
    Row("`unlike packs F S`", "the files of the two drives have different lengths", "name both drives of one pack"),
    Row(
        "`no root: found none`",
        "nothing was ever formatted there, or it is the file of a second drive",
        "`alto PACK format 1`, which makes an **empty** pack; or both drives, in their order",
    ),
    Row("`no root: found ..`", "sector 1 has something else than SysDir's leader page", "`alto PACK scavenge`"),
    Row(
        "`no descriptor`, `bad descriptor: word W is V`",
        "DiskDescriptor has no entry, or a word of it isn't this pack's",
        "`alto PACK scavenge`",
    ),
    Row(
        "`wrong descriptor length L`",
        "`--second` is left out, or too much",
        "the other way round; a pack that moves to two drives: `prepare`, then `scavenge`",
    ),
    Row("`pack not clean: mark M`", "a session or a scavenge wrote and was stopped", "`alto PACK scavenge`: all names and bytes stay"),
    Row(
        "`hint failed: ..`",
        "a hint was false and was found out; nothing was read from a wrong page, and no file is lost",
        "`alto PACK scavenge`",
    ),
    Row(
        "`needs scavenging`",
        "a hint failed earlier in this session",
        "`quit`, then `alto PACK scavenge`; in `tools/altosh` the line `scavenge`",
    ),
    Row("`needs level K`", "`junta` took the service of level K away", "`counterjunta` brings all back"),
    Row(
        "`bad line`",
        "not in the grammar: verbs are small, words are parted by one space, bytes are hexadecimal",
        "docs/formats.md, Typed lines; `tools/altosh` says which word is wrong",
    ),
    Row(
        "`no such name`",
        "no file has that name there, or no living file that serial",
        "`list` tells the names in SysDir, `list DIR` those in a directory",
    ),
    Row("`not a directory`", "an ordinary file stands where a directory has to", "`list` tells the names in SysDir"),
    Row("`is a directory`", "a directory stands where an ordinary file has to", "`list NAME` tells the names in it"),
    Row("`system file`", "SysDir and DiskDescriptor stay as they are", "-"),
    Row(
        "`name taken`",
        "that version is there, or the name is that of a directory or of a system file",
        "without `!n` the next version is made",
    ),
    Row("`not empty`", "the directory has entries", "`list NAME`, then `delete` or `rename` each"),
    Row("`beyond length L`", "the file has L bytes, and the line goes past them", "`stat F` tells its length"),
    Row("`no room: largest N`", "no free block has so many words; the largest one has N", "`unblock` a block, or `junta` for more words"),
    Row(
        "`not a block`",
        "no used block has a word at this address; or, for `unblock`, none begins there",
        "a used block begins where the reply to its `block` said",
    ),
    Row("`in use at A`", "a used block, that at A, has a word where a service is to stand", "`unblock A`; at level 1, where that isn't obeyed, a new session"),
    Row("`serials spent: last N`", "no serial is left for a new file", "a new pack, into which `tools/altocp` copies the files"),
    Row("`full: needed N free M`", "N pages of 512 bytes are needed, and M are free", "delete old versions, or give the pack a second drive"),
    Row(
        "`pack full: needed N free M`",
        "a scavenge needs N pages for its mending, and M are there",
        "a second drive: `prepare`, then `scavenge` with `--second`",
    ),
    Row("`root bad: H H`, `root taken: ..`", "sector 1 can't bear SysDir", "a copy from before; `tools/packmap PACK` shows what is left"),
    Row(
        "nothing, with code 3, 5, 6 or 153",
        "the disk, the display, memory, or a limit on the size of files",
        "Exit codes; then `tools/packcheck PACK`",
    ),
]
FAULT = ROWS[-1]
# the first words of each reply that refuses a line, of those that are built and of the others (docs/formats.md, Replies)
REFUSALS = (
    *("bad line", "needs scavenging", "needs level ", "no such name", "not a directory", "is a directory", "system file", "name taken"),
    *("not empty", "beyond length ", "no stream", "too many streams", "streams open", "no room: ", "not a block", "in use at "),
    *("not a world: ", "not whole: ", "spoilt world: ", "serials spent: ", "full: ", "hint failed: "),
    *("pack full: ", "root bad: ", "root taken: "),
)


def form_of(words, n):
    """The pattern of a word of a text. The first of each letter is named by it."""
    if LETTER.fullmatch(words[n]):
        return f"(?P<{words[n]}>\\S+)" if words.index(words[n]) == n else r"\S+"
    return ".*" if words[n] == ".." else re.escape(words[n])


def is_refusal(reply):
    """Whether the last line of a reply refuses the line that was typed."""
    return reply.startswith(REFUSALS)


def row_for(text):
    """The row of a text and what its letters stand for there, or None."""
    for row in ROWS:
        for form in row.forms():
            found = form.fullmatch(text)
            if found:
                return row, found.groupdict()
    return None


def told(text, command, path, operand=None):
    """What a text means and what to do, each as a plain line, with the numbers of the text; `command` is how `alto PACK` is typed. A refused
    line's first operand may be named. Nothing for a text without a row."""
    found = row_for(text)
    for line in (found[0].means, for_pack(found[0].do, command, path, operand)) if found else ():
        if line != "-":
            for letter, word in found[1].items():
                line = re.sub(rf"\b{letter}\b", lambda _, word=word: word, line)
            yield line.replace("`", "").replace("**", "")


def for_pack(do, command, path, operand):
    """What to do with this pack."""
    if operand:
        do = OPERAND.sub(lambda _: operand, do)
    return do.replace("alto PACK ", "\0 ").replace("PACK", path).replace("\0", command)
