"""Which files are copied where, if folders are: everything is looked at before the first byte is copied."""
from __future__ import annotations

import os
import typing

from packtools import names
from packtools.copies import CASE, STANDARD, Spot, check_name, date_of, read_spot, same_but_for_case
from packtools.pack import PAGE, Faulty
from packtools.session import NO_SUCH_NAME, Refused

# words of a page of a directory, and the most words that an entry has: so many free ones in a row are wanted, and may be wasted
PAGE_WORDS, ENTRY_WORDS = PAGE // 2, 26
# pages of a file without its bytes: the leader page, and the last one, which isn't full
NO_BYTES = 2


class Item(typing.NamedTuple):
    """A file that is copied: its source, as it is told, its place, which is a `Spot` or a host path, and its length in bytes."""

    source: str
    place: object
    length: int


class Plan:
    """What is copied, the directories or folders that are made first, and what is wrong: if anything is, nothing is copied."""

    def __init__(self, session, manner, has_folders):
        self.session, self.manner, self.has_folders = session, manner, has_folders
        self.items, self.folders, self.complaints = [], {}, []

    def complain(self, source, text):
        self.complaints.append(f"{source}: {text}")


# into a pack


class PlanInto(Plan):
    """Host files and folders that become files of SysDir and of directories, or of one directory."""

    def __init__(self, session, manner, has_folders, spot, sources):
        super().__init__(session, manner, has_folders)
        self.spot, self.known = spot, {}
        for source in sources:
            self.look(source)
        self.check_pack()

    def look(self, source):
        """Looks at a host file, or at all files of a folder."""
        if not os.path.isdir(source) or source == STANDARD:
            self.add(source, [self.spot.name or os.path.basename(source)])
            return
        if not self.has_folders:
            self.complain(source, "is a folder: -r copies it")
            return
        name = os.path.basename(os.path.normpath(source)) if os.path.basename(source) != "." else ""
        head = [self.spot.name or name] if name not in ("", ".", "..") else []
        if head and self.spot.directory is None:
            self.add_folder(source, head[0])
        for path, folders, files in os.walk(source, onerror=self.unread):
            folders.sort()
            relative = os.path.relpath(path, source)
            parts = head + ([] if relative == "." else relative.split("/"))
            for folder in folders:
                self.look_at_folder(os.path.join(path, folder), [*parts, folder])
            for file in sorted(files):
                self.add(os.path.join(path, file), [*parts, file])

    def unread(self, error):
        self.complain(error.filename, error.strerror)

    def look_at_folder(self, path, parts):
        """A folder that becomes a directory, even if no file is in it."""
        if os.path.islink(path):
            self.complain(path, "is a link to a folder, and only files and folders are copied")
        elif len(parts) == 1 and self.spot.directory is None:
            self.add_folder(path, parts[0])

    def add_folder(self, path, name):
        """A directory that has to be there."""
        try:
            name = self.checked(self.manner.name_of(name))
            if "!" in name:
                raise Faulty(f"{name!r} is no directory: their names have no versions")
            self.check_case(path, Spot(name, None))
            self.folders.setdefault(name.lower(), name)
        except Faulty as error:
            self.complain(path, error)

    def add(self, path, parts):
        """A file whose place is told by its path in the folder that is copied."""
        try:
            spot = self.place(parts)
            self.check_case(path, spot)
            length = self.length(path)
            if self.manner.keeps_dates:
                date_of(path)
            self.items.append(Item(path, spot, length))
        except Faulty as error:
            self.complain(path, error)

    def place(self, parts):
        """Where a file goes, by the parts of its path. Raises `Faulty` if no name on a pack stands for it."""
        directory = self.spot.directory
        if directory is None and len(parts) > 1:
            directory, *parts = parts
            directory = self.manner.name_of(directory)
        if len(parts) > 1 and not self.manner.are_spelled:
            raise Faulty("is in a folder within a folder: --names spells its path")
        return Spot(directory, self.checked(self.manner.name_of("/".join(parts))))

    def checked(self, name):
        """A name that can stand on a pack. Raises `Faulty` if it can't."""
        if self.manner.are_spelled and len(name) > names.LONGEST - 1:
            raise Faulty(f"spelled {name!r} it has {len(name)} characters, and may have {names.LONGEST - 1}")
        check_name(name)
        return name

    def check_case(self, path, spot):
        """Complains of an earlier file or folder whose name differs from this one in the case of letters alone."""
        other = same_but_for_case(self.known, path, spot)
        if other is not None:
            self.complain(other, f"{path} {CASE}")

    def length(self, path):
        """The bytes of a host file that can be read."""
        if not os.path.isfile(path):
            raise Faulty("is neither a file nor a folder" if os.path.lexists(path) else "No such file or directory")
        if not os.access(path, os.R_OK):
            raise Faulty("Permission denied")
        return os.path.getsize(path)

    # the pack

    def check_pack(self):
        """Compares with what is on the pack: names that are taken, and the room."""
        there = {key for key, name in self.folders.items() if self.is_there(name)}
        free = self.session.free() - NO_BYTES * (len(self.folders) - len(there))
        lacks = -min(0, free)
        for item in self.items:
            older = self.older(item, there)
            free += older.pages if older is not None and self.manner.is_forced else 0
            free -= NO_BYTES + item.length // PAGE
            lacks = max(lacks, -free)
        lacks = max(lacks, self.widenings(there) - free)
        if lacks > 0 and not self.complaints:
            now = self.session.free()
            self.complaints.append(f"{self.session.path}: full: needed {now + lacks} free {now}")

    def is_there(self, name):
        """Whether a directory is there. A file of its name is told."""
        if self.session.is_directory(name):
            return True
        if self.older(Item(name, Spot(None, name), 0), set()) is not None:
            self.complain(self.session.path, f"{name}: not a directory")
        return False

    def older(self, item, there):
        """What the pack has under the name of a file, or None. What can't be is told."""
        spot = item.place
        if spot.directory is not None and spot.directory.lower() in self.folders and spot.directory.lower() not in there:
            return None
        path = spot.typed(spot.name)
        try:
            found = self.session.stat(path)
        except Refused as reply:
            if str(reply) != NO_SUCH_NAME:
                self.complain(item.source, f"{self.session.path}:{path}: {reply}")
            return None
        if spot.directory is None and self.session.is_directory(spot.name):
            self.complain(item.source, f"{self.session.path}:{path}: is a directory")
        elif "!" in spot.name and not self.manner.is_forced:
            self.complain(item.source, f"{self.session.path}:{path}: name taken")
        return found

    def widenings(self, there):
        """At most so many pages come to directories for the new entries."""
        words = {}
        for spot in [Spot(None, it) for it in self.folders.values()] + [item.place for item in self.items]:
            key = (spot.directory or "").lower()
            words[key] = words.get(key, 0) + entry_words(spot.name)
        return sum(pages_for(count, key in self.folders and key not in there) for key, count in words.items())

    def make_folders(self):
        """Makes the directories that aren't there."""
        for name in self.folders.values():
            if not self.session.is_directory(name):
                self.session.mkdir(name)


def entry_words(name):
    """The most words that the entry of a name has, whatever version it gets."""
    return min(ENTRY_WORDS, 6 + (len(name) + len(".!65534") + 2) // 2)


def pages_for(words, is_new):
    """How many pages a directory gets at most for entries of so many words: a new one has room on the page that it is made with."""
    room = PAGE_WORDS - ENTRY_WORDS
    return -(-max(0, words - room) // room) if is_new else -(-words // room)


# out of a pack


class PlanOut(Plan):
    """Files of a pack that become host files in a folder: each newest one of all, of a directory, or by its name."""

    def __init__(self, session, manner, has_folders, target, sources):
        super().__init__(session, manner, has_folders)
        self.target, self.paths = target, {}
        for source in sources:
            self.look(source)

    def look(self, source):
        """Looks at a file, or at all files of a directory."""
        spot = read_spot(source.rpartition(":")[2])
        try:
            if spot.name is not None:
                self.add(source, spot, "")
            elif not self.has_folders:
                self.complain(source, "is a directory: -r copies its files")
            elif spot.directory is not None and spot.directory.lower() != "sysdir":
                self.add_directory(spot.directory)
            else:
                self.add_all()
        except Faulty as error:
            self.complain(source, error)

    def add_all(self):
        for name in names.newest(self.session.list("SysDir")):
            if name.lower() in ("sysdir", "diskdescriptor"):
                continue
            if self.session.is_directory(name):
                self.add_directory(name)
            else:
                self.add(self.told(name), Spot(None, name), "")

    def add_directory(self, directory):
        folder = os.path.join(self.target, self.manner.host_of(directory))
        self.folders.setdefault(folder, folder)
        for name in names.newest(self.session.list(directory)):
            self.add(self.told(f"{directory}>{name}"), Spot(directory, name), self.manner.host_of(directory))

    def told(self, name):
        return f"{self.session.path}:{name}"

    def add(self, source, spot, folder):
        """A file of the pack, into a folder of the target."""
        try:
            path = os.path.join(self.target, folder, self.manner.host_of(spot.name))
            length = self.session.stat(spot.typed(spot.name)).length
        except Refused as reply:
            self.complain(source, reply)
            return
        except Faulty as error:
            self.complain(source, error)
            return
        if path in self.paths:
            self.complain(source, f"{self.paths[path]} becomes {path}, too")
        elif os.path.lexists(path) and not self.manner.is_forced:
            self.complain(source, f"{path} is there: -f overwrites it")
        self.paths[path] = source
        self.folders.setdefault(os.path.dirname(path), os.path.dirname(path))
        self.items.append(Item(source, path, length))

    def make_folders(self):
        """Makes the folders that aren't there."""
        for folder in self.folders:
            try:
                os.makedirs(folder or ".", exist_ok=True)
            except OSError as error:
                raise Faulty(f"{folder}: {error.strerror}") from error


def matched(session, source):
    """The files that a word on a pack matches, if it has wildcards: newest versions, without directories and system files. Raises `Refused` if
    there is none."""
    pack, _, text = source.rpartition(":")
    directory, sign, pattern = text.rpartition(">")
    if not names.is_wild(pattern):
        return [source]
    found = names.matching(pattern, session.list(directory or "SysDir"))
    if (directory or "sysdir").lower() == "sysdir":
        found = [it for it in found if it.lower() not in ("sysdir", "diskdescriptor") and not session.is_directory(it)]
    if not found:
        raise Refused(f"{source}: no file matches")
    return [f"{pack}:{directory}{sign}{it}" for it in found]
