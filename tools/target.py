"""The folder that is written to, and the record of what stands in it."""
import fcntl
import os
import re
import stat
from dataclasses import dataclass

from lower_walk import Folders, Kind
from program_jobs import TargetFull, refusal
from texts import Refused, path_of, spelled_path

RECORDED = re.compile(rb"(?:d|f (?P<size>[0-9]{1,20}) (?P<time>-?[0-9]{1,30})) (?P<source>/[^ ]+) (?P<target>/[^ ]+)")
ROOT_LINE = b"d / /"
THERE = "in the way in the target"
NO_SET_ID = 0o7777 & ~(stat.S_ISUID | stat.S_ISGID)


@dataclass(frozen=True)
class Recorded:
    """What the record has of a path in the source: its size and time where it is a file, and the path in the target."""

    size: int | None
    time: int | None
    target_path: bytes


class Record:
    """The file that tells what a tool wrote into a target, so that a second start goes on from there.

    `about` is what else its first line tells: under another one nothing goes on.
    """

    def __init__(self, path, tool, about=""):
        self.path, self.tool, self.about = path, tool.encode(), about.encode()
        self.known, self.room, self.has_root, self.length, self.file = {}, None, False, 0, None
        try:
            self.file = os.open(path, os.O_RDWR | os.O_APPEND | os.O_NOFOLLOW)
        except FileNotFoundError:
            return
        self.lock()
        with open(path, "rb") as opened:
            # (a last line that is cut was never acted on)
            lines = opened.read().rpartition(b"\n")[0].split(b"\n")
        self.length = sum(len(line) + 1 for line in lines)
        self.read_head(lines[0])
        for line in lines[1:]:
            self.read_line(line)

    def read_head(self, line):
        """Takes the first line."""
        found = re.fullmatch(rb"%b-record 1 (?P<room>\.%b-[0-9a-f]{8})(?: (?P<about>.*))?" % (self.tool, self.tool), line)
        if found is None:
            raise Refused(f"{spelled_path(self.path)}: it is no record of this program")
        about = found["about"] or b""
        if about != self.about:
            raise Refused(f"{spelled_path(self.path)}: it is the record of a tree with {about.decode()}, not {self.about.decode()}")
        self.room = found["room"]

    def lock(self):
        """Keeps other starts away from the record."""
        try:
            fcntl.flock(self.file, fcntl.LOCK_EX | fcntl.LOCK_NB)
        except BlockingIOError:
            raise Refused(f"{spelled_path(self.path)}: another start of this program is at work") from None

    def read_line(self, line):
        """Takes a line behind the first."""
        found = RECORDED.fullmatch(line)
        if line == ROOT_LINE:
            self.has_root = True
        elif found is None:
            raise Refused(f"{spelled_path(self.path)}: it is no record of this program")
        else:
            number = lambda name: None if found[name] is None else int(found[name])
            self.known[path_of(found["source"])] = Recorded(number("size"), number("time"), path_of(found["target"]))

    def begin(self):
        """Makes the file where there was none, and cuts off a last line that isn't whole."""
        if self.file is None:
            self.file = os.open(self.path, os.O_RDWR | os.O_APPEND | os.O_CREAT | os.O_EXCL | os.O_NOFOLLOW, 0o600)
            self.lock()
            self.room = b".%b-%b" % (self.tool, os.urandom(4).hex().encode())
            self.write(b" ".join([self.tool + b"-record", b"1", self.room, *filter(None, [self.about])]))
        os.truncate(self.file, self.length)

    def remove_new(self):
        """Removes the record of a target that couldn't be made."""
        if not self.known:
            os.unlink(self.path)

    def write(self, line):
        """Adds a line, or nothing of it where it can't be written."""
        try:
            if os.write(self.file, line + b"\n") != len(line) + 1:
                raise OSError(0, "the record can't be written")
        except OSError as error:
            os.truncate(self.file, self.length)
            raise TargetFull(f"{spelled_path(self.path)}: {error.strerror}") from None
        self.length += len(line) + 1

    def add(self, entry):
        """Adds what is about to stand in the target."""
        paths = f"/{spelled_path(entry.path)} /{spelled_path(entry.target_path)}".encode()
        is_directory = entry.kind is Kind.DIRECTORY
        self.write(b"d " + paths if is_directory else b"f %d %d " % (entry.found.st_size, entry.found.st_mtime_ns) + paths)


class Target:
    """The folder, reached part by part and over no link."""

    def __init__(self, path, record):
        self.path, self.record, self.is_made, self.refused_marks = path, record, False, 0
        self.root = self.room = self.folders = None
        if os.path.lexists(path):
            self.open()

    def open(self):
        """Opens the folder, from which everything in it is reached."""
        self.root = os.open(self.path, os.O_RDONLY | os.O_DIRECTORY)
        self.folders = Folders(self.root)

    def standing(self, path):
        """The status of what stands at a path, None where nothing does or it can't be reached."""
        if self.root is None:
            return None
        try:
            folder, name = self.folders.above(path)
            return os.stat(name, dir_fd=folder, follow_symlinks=False)
        except OSError:
            return None

    def is_done(self, entry):
        """Whether the record has the entry as it is now, and it stands there."""
        known = self.record.known.get(entry.path)
        if known is None or known.target_path != entry.target_path or entry.found is None or entry.why and entry.kind is Kind.DIRECTORY:
            return False
        now = (None, None) if entry.kind is Kind.DIRECTORY else (entry.found.st_size, entry.found.st_mtime_ns)
        standing = self.standing(known.target_path) if now == (known.size, known.time) else None
        entry.ours = standing is not None and stat.S_IFMT(standing.st_mode) == stat.S_IFMT(entry.found.st_mode)
        return entry.ours

    def begin(self):
        """Makes the folder where it isn't there, and in it the one for files that aren't whole."""
        self.record.begin()
        if self.root is None:
            self.make_root()
        if self.record.has_root:
            os.chmod(self.root, os.stat(self.root).st_mode & NO_SET_ID | 0o700)
        try:
            os.mkdir(self.record.room, 0o700, dir_fd=self.root)
        except FileExistsError:
            pass
        self.room = os.open(self.record.room, os.O_RDONLY | os.O_DIRECTORY | os.O_NOFOLLOW, dir_fd=self.root)
        self.clear_room()

    def make_root(self):
        """Makes the folder itself."""
        self.record.write(ROOT_LINE)
        try:
            os.mkdir(self.path, 0o700)
        except OSError:
            self.record.remove_new()
            raise
        self.record.has_root = True
        self.open()

    def clear_room(self):
        """Removes the files that aren't whole."""
        for name in os.listdir(self.room):
            if name.isdigit():
                os.unlink(name, dir_fd=self.room)

    def end(self):
        """Removes the folder for files that aren't whole."""
        self.clear_room()
        os.rmdir(self.record.room, dir_fd=self.root)

    # ---- files and directories ----

    def change(self, entry, work):
        """Does `work` with the open directory above an entry's path and the last part of the path."""
        folder, name = self.folders.above(entry.target_path)
        try:
            work(folder, name)
        except PermissionError:
            # (an earlier start has given the directory its own mode already; it gets it again at the end)
            if not (entry.parent.ours if entry.parent else self.record.has_root):
                raise
            os.chmod(folder, os.stat(folder).st_mode & NO_SET_ID | 0o700)
            work(folder, name)

    def is_known(self, entry):
        """Whether an earlier start put the entry at its path."""
        known = self.record.known.get(entry.path)
        return known is not None and known.target_path == entry.target_path

    def make_directory(self, entry):
        """Makes a directory; gives why it isn't made."""
        standing = self.standing(entry.target_path)
        if standing is not None and not (self.is_known(entry) and stat.S_ISDIR(standing.st_mode)):
            return THERE
        if standing is None:
            try:
                self.record.add(entry)
                self.change(entry, lambda folder, name: os.mkdir(name, 0o700, dir_fd=folder))
            except OSError as error:
                return refusal(error)
        entry.ours = True
        return None

    def is_own_file(self, entry, standing):
        """Whether what stands there is what an earlier start wrote for the entry, untouched since."""
        return self.is_known(entry) and stat.S_ISREG(standing.st_mode) and standing.st_mtime_ns == self.record.known[entry.path].time

    def place(self, entry, put):
        """Puts a file at its path by `put`, which gets the open directory and the name; gives why it isn't put."""
        standing = self.standing(entry.target_path)
        if standing is not None and not self.is_own_file(entry, standing):
            return THERE
        try:
            self.record.add(entry)
            self.change(entry, put)
        except OSError as error:
            return refusal(error)
        entry.ours = True
        return None

    def place_file(self, entry, number):
        """Gives the file under this number its marks and its name; gives why it doesn't stand there."""
        written = b"%d" % number
        self.mark(written, self.room, entry.found)
        why = self.place(entry, lambda folder, name: os.rename(written, name, src_dir_fd=self.room, dst_dir_fd=folder))
        if why:
            os.unlink(written, dir_fd=self.room)
        return why

    def place_link(self, entry):
        """Makes a further name of a file that stands there; gives why it isn't made."""
        if not entry.first.ours:
            return "another name of a file that was left out"
        first = Folders(self.root)
        try:
            above, old = first.above(entry.first.target_path)
            return self.place(entry, lambda folder, name: link_over(old, above, name, folder))
        finally:
            first.close()

    # ---- mode, owner and times ----

    def mark(self, name, folder, found):
        """Gives a file or directory the owner, mode and times of its lower one; what is refused is counted."""
        marks = [
            lambda file: os.geteuid() == 0 and os.chown(file, found.st_uid, found.st_gid),
            lambda file: os.chmod(file, found.st_mode & NO_SET_ID),
            lambda file: os.utime(file, ns=(found.st_atime_ns, found.st_mtime_ns)),
        ]
        is_refused = False
        try:
            file = os.open(name, os.O_RDONLY | os.O_NOFOLLOW | os.O_NONBLOCK, dir_fd=folder)
        except OSError:
            self.refused_marks += 1
            return
        for mark in marks:
            try:
                mark(file)
            except OSError:
                is_refused = True
        self.refused_marks += is_refused
        os.close(file)

    def mark_directories(self, entries, root_found):
        """Marks the directories that this program made, the lowest first."""
        for entry in reversed(entries):
            if entry.kind is Kind.DIRECTORY and entry.ours:
                try:
                    folder, name = self.folders.above(entry.target_path)
                    self.mark(name, folder, entry.found)
                except OSError:
                    self.refused_marks += 1
        if self.record.has_root:
            self.mark(b".", self.root, root_found)


def link_over(old, above, name, folder):
    """A further name of a file, in place of what stands there."""
    try:
        os.unlink(name, dir_fd=folder)
    except FileNotFoundError:
        pass
    os.link(old, name, src_dir_fd=above, dst_dir_fd=folder, follow_symlinks=False)
