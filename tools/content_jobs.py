"""Files through the program, in batches: their contents are written under numbers into one folder.

Their lower names stand in the jobs as they are, as plain names: what a file decodes to doesn't depend on its name.
"""
import os
from binascii import unhexlify
from copy import copy

from lower_walk import CHANGED, FILE_ONLY, Folders, Kind, unreadable
from metadata import attribute_of
from program_jobs import PIECE, Failed
from room import Room, Written
from show_jobs import ShowJobs
from texts import MOST_ENTRIES, attribute_field, body_length, entry_head, image_head, job_end, job_head, path_of

# ---- batches ----


class Batch:
    """Entries that go through the program in one job, with the directories above them, in preorder."""

    most_octets = 67_108_864

    def __init__(self, own=()):
        self.own, self.nodes, self.members, self.octets = [], [], set(), 0
        for entry in own:
            self.add(entry)

    def missing(self, entry):
        """The entry and the directories above it, as far as they aren't here yet, from above."""
        missing = []
        while entry is not None and entry not in self.members:
            missing.append(entry)
            entry = entry.parent
        return missing[::-1]

    def has_room(self, entry):
        """Whether the entry fits into the batch; one entry alone always does."""
        fits = not self.own or self.octets + entry.octets <= self.most_octets
        return fits and len(self.nodes) + len(self.missing(entry)) <= MOST_ENTRIES

    def add(self, entry):
        """Adds an entry that stands behind the others in preorder."""
        missing = self.missing(entry)
        self.own.append(entry)
        self.nodes += missing
        self.members.update(missing)
        self.octets += entry.octets

    def halves(self):
        """Two batches with the same entries."""
        middle = len(self.own) // 2
        return type(self)(self.own[:middle]), type(self)(self.own[middle:])


def batches_of(entries, kind=Batch):
    """The batches of these entries, which stand in preorder."""
    batch = kind()
    for entry in entries:
        if batch.own and not batch.has_room(entry):
            yield batch
            batch = kind()
        batch.add(entry)
    if batch.own:
        yield batch


# ---- the job of a batch ----


def head_of(entry):
    """The fields of an entry in front of its attribute."""
    return entry_head(entry.level, entry.kind is not Kind.DIRECTORY, entry.source_name)


def length_of(entry):
    """The octets of an entry in an image."""
    if entry.kind is Kind.DIRECTORY:
        return len(head_of(entry))
    attribute = 5 + entry.attribute if entry.is_read and entry.attribute is not None else 1
    return len(head_of(entry)) + attribute + 4 + entry.body


class Unread(Exception):
    """Why a file can't be read as the walk found it."""


def check_unchanged(entry, file):
    """Unread where the open file is another than the walk found."""
    if entry.is_changed(os.fstat(file)):
        raise Unread(CHANGED)


def body_pieces(entry, file):
    """The body of an open file, in pieces."""
    left = entry.body
    while left:
        piece = os.read(file, min(left, PIECE))
        if not piece:
            raise Unread(CHANGED)
        left -= len(piece)
        yield piece


def lower_pieces(entry, file):
    """The attribute of an open lower file and then the pieces of its body."""
    attribute = attribute_of(file)
    if (None if attribute is None else len(attribute)) != entry.attribute:
        raise Unread(CHANGED)
    yield attribute
    yield from body_pieces(entry, file)


def file_pieces(entry, folders, pieces_of=lower_pieces):
    """What `pieces_of` reads of a file; Unread where it isn't as the walk found it."""
    file = None
    try:
        folder, name = folders.above(entry.path)
        file = os.open(name, FILE_ONLY, dir_fd=folder)
        check_unchanged(entry, file)
        yield from pieces_of(entry, file)
        check_unchanged(entry, file)
    except OSError as error:
        raise Unread(unreadable(error)) from None
    finally:
        if file is not None:
            os.close(file)


def file_fields(entry, folders, faults):
    """The fields of a file behind its head; where it can't be read `faults` tells why, and zeros stand for its octets."""
    pieces, attribute, left = file_pieces(entry, folders), None if entry.attribute is None else bytes(entry.attribute), entry.body
    try:
        attribute = next(pieces)
    except Unread as why:
        faults[entry] = str(why)
    yield attribute_field(attribute) + body_length(entry.body)
    try:
        for piece in pieces:
            left -= len(piece)
            yield piece
    except Unread as why:
        faults[entry] = str(why)
    while left:
        zeros = min(left, PIECE)
        left -= zeros
        yield bytes(zeros)


def job_pieces(batch, key, folders, faults):
    """The job of a batch, in pieces; a file that can't be read comes into `faults`."""
    length = len(image_head(0)) + sum(length_of(entry) for entry in batch.nodes)
    yield job_head(key, "plain", length) + image_head(len(batch.nodes))
    for entry in batch.nodes:
        yield head_of(entry)
        if entry.is_read:
            yield from file_fields(entry, folders, faults)
        elif entry.kind is not Kind.DIRECTORY:
            yield attribute_field(None) + body_length(0)
    yield job_end()


# ---- what the program tells ----


def content_pieces(stream, digits, size):
    """The content of a good line, of whose digits these stand there already; the whole line is read."""
    if digits[-1:] == b"\n":
        digits = digits[:-1] if size else digits[1:-1]
        if len(digits) != 2 * size:
            raise Failed
        yield unhexlify(digits)
        return
    if len(digits) % 2:
        digits = bytes(digits) + stream.read(1)
    left = 2 * size - len(digits)
    yield unhexlify(digits)
    while left > 0:
        digits = stream.read(min(left, PIECE))
        if not digits:
            break
        left -= len(digits)
        yield unhexlify(digits)
    if left or stream.read(1) != b"\n":
        raise Failed


class ContentJobs(ShowJobs):
    """Runs batches of files, whose contents come into the open folder `room`."""

    def __init__(self, program, key, lower, room):
        super().__init__(program, key)
        self.lower, self.room = lower, Room(room)

    def of_worker(self, place, count):
        """These jobs, for one of so many workers."""
        ours = copy(self)
        ours.room = Room(self.room.folder, place, count)
        return ours

    def without(self, entry, why):
        """What is told of a file on which the program fails."""
        return Written(entry, why)

    def job_pieces(self, batch, faults):
        """The job of a batch, in pieces."""
        folders = Folders(self.lower)
        try:
            yield from job_pieces(batch, self.key, folders, faults)
        finally:
            folders.close()

    def take(self, batch, line, digits, stream):
        """What became of the file of a line, whose content is written; None where the line tells a directory."""
        entry = batch.nodes[int(line["node"]) - 1]
        if line["kind"] != (b"d" if entry.kind is Kind.DIRECTORY else b"f") or path_of(line["path"]) != entry.path:
            raise Failed
        if entry.kind is Kind.DIRECTORY:
            return None
        written = Written(entry)
        if line["size"] is not None:
            self.room.write(written, content_pieces(stream, digits, int(line["size"])))
            written.is_good = written.why is None
        elif line["word"] == b"empty\n":
            self.room.write(written, [])
        else:
            written.why = line["word"][:-1].decode()
        return written

    def settle(self, told, faults):
        """What was told, where the files that couldn't be read are left out."""
        return self.room.settle(told, faults)

    def discard(self, told):
        """Removes what was written for these files."""
        self.room.discard(told)
