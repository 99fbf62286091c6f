"""Plain files through the program, in batches: each is written by a script, and its lower file comes under a number into one folder.

A job makes the directories above its files again. Its random octets are its own: node numbers, from which keys come, repeat in each.
"""
import os
from binascii import hexlify
from copy import copy

from content_jobs import Batch, Unread, file_pieces
from lower_walk import CHANGED, Folders, Kind
from program_jobs import Failed, ProgramJobs
from replay_jobs import read_entries, read_replies, reader_of, replay_pieces, script_path
from room import Room, Written

# The octets that one line of a script writes.
WRITE_ROOM = 65_536
# The octets that the paths of a script may have: with the digits of the largest file they fit into a job.
MOST_PATHS = 1 << 26


# ---- batches ----


def path_room(entry):
    """The most octets that the path of an entry, with its word, takes in a script."""
    return 3 * len(entry.path) + 32


def is_too_deep(entry):
    """Whether the paths of an entry and of the directories above it may be too long for a script."""
    return entry.level * path_room(entry) > MOST_PATHS


class SealBatch(Batch):
    """Files that go through the program in one job, within what a script can hold."""

    most_octets = 16_777_216

    def __init__(self, own=()):
        self.paths = 0
        super().__init__(own)

    def has_room(self, entry):
        """Whether the entry fits into the batch; one entry alone always does."""
        return super().has_room(entry) and self.paths + sum(map(path_room, self.missing(entry))) <= MOST_PATHS

    def add(self, entry):
        """Adds an entry that stands behind the others in preorder."""
        self.paths += sum(map(path_room, self.missing(entry)))
        super().add(entry)


# ---- the script of a batch ----


def read_exactly(file, length):
    """So many octets of an open file; Unread where it ends before."""
    octets = os.read(file, length)
    while len(octets) < length:
        more = os.read(file, length - len(octets))
        if not more:
            raise Unread(CHANGED)
        octets += more
    return octets


def starts_of(entry):
    """Where the pieces of a file begin, which are written by one line each."""
    return range(0, entry.body, WRITE_ROOM)


def plain_pieces(entry, file):
    """The content of an open plain file, in pieces of one line each."""
    for start in starts_of(entry):
        yield read_exactly(file, min(WRITE_ROOM, entry.body - start))


def lines_of(entry):
    """How many lines the script has for an entry."""
    return 1 if entry.kind is Kind.DIRECTORY else 2 + len(starts_of(entry))


def file_lines(entry, folders, faults):
    """The lines that write a file; where it can't be read `faults` tells why, and zeros stand for its octets."""
    path, pieces = script_path(entry.path), file_pieces(entry, folders, plain_pieces)
    yield b"create 0 %b\n" % path
    for start in starts_of(entry):
        piece = None
        if entry not in faults:
            try:
                piece = next(pieces)
            except Unread as why:
                faults[entry] = str(why)
        yield b"write 0 %d " % start
        yield hexlify(piece or bytes(min(WRITE_ROOM, entry.body - start)))
        yield b"\n"
    try:
        # (what is left of it is that the file is still the same)
        next(pieces, None)
    except Unread as why:
        faults[entry] = str(why)
    yield b"close 0\n"


class SealJobs(ProgramJobs):
    """Runs batches of files, whose lower files come into the open folder `room`."""

    def __init__(self, program, key, form, folder, room):
        super().__init__(program, key)
        self.form, self.folder, self.room = form, folder, Room(room)

    def of_worker(self, place, count):
        """These jobs, for one of so many workers."""
        ours = copy(self)
        ours.room = Room(self.room.folder, place, count)
        return ours

    def without(self, entry, why):
        """What is told of a file on which the program fails."""
        return Written(entry, why)

    def run_whole(self, batch):
        """What became of the files of a batch; Failed where the program doesn't do it."""
        told, faults = [], {}
        try:
            self.exchange("replay", self.job_pieces(batch, faults), lambda stream: self.read_report(stream, batch, told))
        except Failed:
            self.room.discard(told)
            raise
        return self.room.settle(told, faults)

    def script(self, batch, faults):
        """The lines of the script of a batch."""
        folders = Folders(self.folder)
        try:
            for entry in batch.nodes:
                if entry.kind is Kind.DIRECTORY:
                    yield b"mkdir %b\n" % script_path(entry.path)
                else:
                    yield from file_lines(entry, folders, faults)
        finally:
            folders.close()

    def job_pieces(self, batch, faults):
        """The job of a batch, in pieces."""
        return replay_pieces(self.key, self.form, sum(map(lines_of, batch.nodes)), self.script(batch, faults))

    def read_report(self, stream, batch, told):
        """Takes what became of each file into `told`; Failed where the lower tree isn't that of the batch."""
        reader = reader_of(stream)
        words = read_replies(reader, [*map(lines_of, batch.nodes)])
        waiting = {entry.target_path: (entry, why) for entry, why in zip(batch.nodes, words)}
        read_entries(reader, lambda head, pieces: self.take(head, pieces, waiting, told))
        for entry, why in waiting.values():
            if why is None:
                raise Failed
            if entry.kind is Kind.FILE:
                told.append(Written(entry, why))

    def take(self, head, pieces, waiting, told):
        """Writes the lower file of one entry of the image, which is taken from those that wait."""
        self.check_going()
        entry, why = waiting.pop(head.path, (None, None))
        if entry is None or head.is_file != (entry.kind is Kind.FILE):
            raise Failed
        if not head.is_file:
            return
        if (head.attribute is None) != (self.form.meta == "header"):
            raise Failed
        written = Written(entry)
        told.append(written)
        self.room.write(written, pieces, head.attribute)
        written.why = why or written.why
