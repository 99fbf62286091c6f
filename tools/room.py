"""The folder for files that aren't whole, which are written there under numbers."""
import itertools
import os
from dataclasses import dataclass

from lower_walk import Entry
from metadata import ATTRIBUTE
from program_jobs import refusal


@dataclass(slots=True)
class Written:
    """What became of a file: the number under which it was written, or why it wasn't."""

    entry: Entry
    why: str | None = None
    number: int | None = None
    is_good: bool = False


def write_piece(file, piece):
    """Writes a piece; gives why the target refuses it."""
    try:
        while piece:
            piece = piece[os.write(file, piece) :]
    except OSError as error:
        return refusal(error)
    return None


class Room:
    """An open folder, in which each file gets the next number; of so many workers each has numbers of its own."""

    def __init__(self, folder, place=0, count=1):
        self.folder, self.numbers = folder, itertools.count(1 + place, count)

    def write(self, written, pieces, attribute=None):
        """Writes a file under a number; where the target refuses it, the pieces are taken all the same."""
        written.number, file = next(self.numbers), None
        try:
            file = os.open(b"%d" % written.number, os.O_WRONLY | os.O_CREAT | os.O_EXCL, 0o600, dir_fd=self.folder)
            if attribute is not None:
                os.setxattr(file, ATTRIBUTE, attribute)
        except OSError as error:
            written.why = refusal(error)
        for piece in pieces:
            if written.why is None:
                written.why = write_piece(file, memoryview(piece))
        if file is not None:
            os.close(file)

    def settle(self, told, faults):
        """What was told, where the files that couldn't be read are left out."""
        for written in told:
            written.why = faults.get(written.entry, written.why)
        self.discard(written for written in told if written.why)
        return told

    def discard(self, told):
        """Removes what was written for these files."""
        for written in told:
            if written.number is not None:
                try:
                    os.unlink(b"%d" % written.number, dir_fd=self.folder)
                except FileNotFoundError:
                    pass
