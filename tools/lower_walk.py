"""The walk over a lower tree, or over a plain folder, and where its entries come in the target.

Nothing here writes to the tree, and nothing follows a link in it: each directory is opened from the root on, part by part.
"""
import os
import stat
from dataclasses import dataclass, field
from enum import Enum, auto
from typing import Callable, NamedTuple

from keys import Seals
from metadata import METADATA_ROOM, MOST_BODY, MOST_CONTENT, attribute_of, metadata_of
from texts import MOST_ENTRIES

DIRECTORY_ONLY = os.O_RDONLY | os.O_DIRECTORY | os.O_NOFOLLOW
FILE_ONLY = os.O_RDONLY | os.O_NOFOLLOW | os.O_NONBLOCK | os.O_NOCTTY
CHANGED = "changed while it was read"
FOREIGN, BELOW_FOREIGN = "foreign", "below a foreign directory"


class Kind(Enum):
    DIRECTORY = auto()
    FILE = auto()
    OTHER = auto()


class Found(NamedTuple):
    """What is kept of a file's status, under the names that it has there."""

    st_ino: int
    st_size: int
    st_mtime_ns: int
    st_ctime_ns: int
    st_atime_ns: int
    st_mode: int
    st_uid: int
    st_gid: int

    @classmethod
    def of(cls, status):
        return cls(*(getattr(status, name) for name in cls._fields))


@dataclass(slots=True, eq=False)
class Entry:
    """One name in the tree, as the walk found it."""

    path: bytes
    parent: "Entry | None"
    kind: Kind
    found: Found | None
    why: str | None = None  # why its octets aren't read
    first: "Entry | None" = None  # where a file has several names, the one under which it is read
    attribute: int | None = None  # the octets of its attribute
    size: int = 0  # the octets of its content, as its metadata tells them
    is_encrypted: bool = False  # whether it has metadata
    name: bytes | None = None  # its upper name, where that isn't its lower one
    no_name: str | None = None  # why it has no upper name
    target_path: bytes | None = None  # its path in the target, once that is known
    ours: bool = False  # whether it stands in the target, written by this program

    @property
    def source_name(self):
        """The last part of its path."""
        return os.path.basename(self.path)

    @property
    def target_name(self):
        """The last part of its path in the target; where it has no upper name, as a show text tells it."""
        return self.source_name if self.no_name else self.name or self.source_name

    @property
    def cause(self):
        """Why it is left out, as far as that is known before its octets are read."""
        return self.no_name or self.why

    @property
    def is_read(self):
        """Whether its octets go into a job."""
        return self.kind is Kind.FILE and self.cause is None and self.first is None

    @property
    def body(self):
        """The octets of its body that go into a job."""
        return min(self.found.st_size, MOST_BODY) if self.is_read else 0

    @property
    def octets(self):
        """The octets that it has in a job."""
        return self.body + (self.attribute or 0)

    @property
    def level(self):
        """Its level in an image."""
        return self.path.count(b"/") + 1

    def is_changed(self, now):
        """Whether the file that is there now is another than the walk found."""
        seen = lambda status: (status.st_ino, status.st_size, status.st_mtime_ns, status.st_ctime_ns)
        return seen(now) != seen(self.found)


class Folders:
    """The directories below one, each opened part by part and never over a link; the last one stays open."""

    def __init__(self, root):
        self.root, self.path, self.last = root, b"", os.dup(root)

    def at(self, path):
        """The open directory at this path, until the next call."""
        if path != self.path:
            opened = os.dup(self.root)
            for part in path.split(b"/") if path else []:
                above = opened
                try:
                    opened = os.open(part, DIRECTORY_ONLY, dir_fd=above)
                finally:
                    os.close(above)
            os.close(self.last)
            self.path, self.last = path, opened
        return self.last

    def above(self, path):
        """The open directory in which this path ends, and the last part of the path."""
        parent, _, name = path.rpartition(b"/")
        return self.at(parent), name

    def close(self):
        """Closes the last directory."""
        os.close(self.last)


# ---- the walk ----


def unreadable(error):
    """The cause of an entry that can't be read."""
    return f"unreadable: {error.strerror}"


@dataclass
class LowerTree:
    """The entries in preorder, those of a directory in octet order; what they are sealed with; where each file is read."""

    look: Callable
    entries: list = field(default_factory=list)
    seals: Seals = field(default_factory=Seals)
    firsts: dict = field(default_factory=dict)


def what_else(mode):
    """What stands there, where it is neither a file nor a directory."""
    names = {stat.S_ISLNK: "symbolic link", stat.S_ISSOCK: "socket", stat.S_ISFIFO: "pipe"}
    return next((name for holds, name in names.items() if holds(mode)), "device")


def look_into(tree, entry, folder, name):
    """Reads the metadata of a file."""
    file = os.open(name, FILE_ONLY, dir_fd=folder)
    try:
        if entry.is_changed(os.fstat(file)):
            entry.why = CHANGED
            return
        attribute = attribute_of(file)
        metadata = metadata_of(os.pread(file, METADATA_ROOM, 0) if attribute is None else attribute)
    finally:
        os.close(file)
    entry.attribute = None if attribute is None else len(attribute)
    if metadata is None:
        return
    entry.is_encrypted = True
    tree.seals.add_file(metadata)
    set_size(entry, metadata.size)


def set_size(entry, size):
    """Sets how many octets the content of a file has, or that it is too large."""
    if size > MOST_CONTENT:
        entry.why = f"too large: {size} octets"
    else:
        entry.size = size


def take_size(tree, entry, folder, name):
    """As `look_into`, of a file that is its own content."""
    set_size(entry, entry.found.st_size)


def entry_at(tree, parent, folder, name, device):
    """The entry with this name in an open directory."""
    path = os.path.join(parent.path, name) if parent else name
    try:
        status = os.stat(name, dir_fd=folder, follow_symlinks=False)
    except OSError as error:
        return Entry(path, parent, Kind.OTHER, None, unreadable(error))
    found, mode = Found.of(status), status.st_mode
    kind = Kind.DIRECTORY if stat.S_ISDIR(mode) else Kind.FILE if stat.S_ISREG(mode) else Kind.OTHER
    if status.st_dev != device:
        return Entry(path, parent, kind, found, "on another file system")
    if kind is Kind.DIRECTORY:
        return Entry(path, parent, kind, found)
    if kind is Kind.OTHER:
        return Entry(path, parent, kind, found, what_else(mode))
    entry = Entry(path, parent, kind, found)
    if status.st_nlink > 1:
        first = tree.firsts.setdefault(found.st_ino, entry)
        entry.first = None if first is entry else first
    if entry.first is None:
        try:
            tree.look(tree, entry, folder, name)
        except OSError as error:
            entry.why = unreadable(error)
    return entry


def entries_in(tree, parent, folders, device):
    """The entries of a directory in octet order; one that can't be read has none."""
    try:
        folder = folders.at(parent.path if parent else b"")
        names = sorted(os.fsencode(name) for name in os.listdir(folder))
    except OSError as error:
        if parent is None:
            raise
        parent.why = unreadable(error)
        return []
    return [entry_at(tree, parent, folder, name, device) for name in names]


def walk(root, tell=lambda count: None, look=look_into):
    """The tree below the open directory `root`, whose files `look` reads; `tell` gets the number of entries now and then."""
    tree, folders, device = LowerTree(look), Folders(root), os.fstat(root).st_dev
    waiting = entries_in(tree, None, folders, device)[::-1]
    while waiting:
        entry = waiting.pop()
        tree.entries.append(entry)
        tree.seals.add_name(entry.source_name)
        if len(tree.entries) % 1000 == 0:
            tell(len(tree.entries))
        if entry.kind is Kind.DIRECTORY and entry.level == MOST_ENTRIES:
            entry.why = "its entries are deeper than a job can hold"
        if entry.kind is Kind.DIRECTORY and entry.why is None:
            waiting += entries_in(tree, entry, folders, device)[::-1]
    folders.close()
    return tree


# ---- paths in the target ----


def hand_over(tree, entry):
    """Reads a file of several names under this one, where the one that was met first has no place in the target."""
    first = tree.firsts[entry.found.st_ino]
    if first.no_name is None or entry.no_name is not None:
        entry.first = first
        return
    for name in ("why", "attribute", "size", "is_encrypted"):
        setattr(entry, name, getattr(first, name))
    entry.first, tree.firsts[entry.found.st_ino] = None, entry


def set_paths(tree):
    """Gives each entry its path in the target, from the upper names; of several equal ones in a directory the first has it."""
    taken = set()
    for entry in tree.entries:
        front = entry.parent.target_path + b"/" if entry.parent else b""
        if entry.parent is not None and entry.parent.no_name:
            entry.no_name = BELOW_FOREIGN
        elif front + entry.target_name in taken:
            entry.no_name = FOREIGN
        entry.target_path = front + entry.target_name
        if entry.no_name is None:
            taken.add(entry.target_path)
    for entry in tree.entries:
        if entry.first is not None:
            hand_over(tree, entry)
