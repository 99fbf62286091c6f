"""Reports, and the images in them, as the tools read them (docs/TEXTS.md): line by line and entry by entry."""
import os
import re
from dataclasses import dataclass

from texts import Refused, check_name

PIECE = 1_048_576
# The head of a part of a report, whose last field is the number of the lines that follow.
PART = re.compile(rb"[a-z]+(?: [0-9]+)? (?P<lines>0|[1-9][0-9]{0,9})")
IMAGE = re.compile(rb"image (?P<size>0|[1-9][0-9]{0,9})")
# The last line of a report of a run in which a lower part failed.
STUCK = re.compile(rb"stuck [0-9]( [0-9]+){2}")


class Reader:
    """A stream, from which lines, pieces and big-endian numbers are taken one behind another."""

    def __init__(self, stream, what):
        self.stream = stream
        self.what = what
        self.lines = 0

    def whole_line(self):
        """The next line, with its end."""
        self.lines += 1
        line = self.stream.readline()
        if not line.endswith(b"\n"):
            raise Refused(f"{self.what} is cut")
        return line

    def line(self):
        """The next line."""
        return self.whole_line()[:-1]

    def piece(self, count):
        """The next octets, so many of them."""
        piece = self.stream.read(count)
        if len(piece) != count:
            raise Refused(f"{self.what} is cut")
        return piece

    def pieces(self, count):
        """The same in pieces."""
        while count:
            piece = self.piece(min(count, PIECE))
            count -= len(piece)
            yield piece

    def number(self, count):
        """The number that the next octets are."""
        return int.from_bytes(self.piece(count), "big")


def pass_to_image(reader, take_part=lambda head, lines: None):
    """Reads the lines up to the image, and gives its length; `take_part` gets the head of each part, and its whole lines to take some of."""
    if reader.line() != b"ecryptfs-report 1":
        raise Refused("it is no report")
    while not (image := IMAGE.fullmatch(line := reader.line())):
        if STUCK.fullmatch(line):
            raise Refused("the run was stuck, and its report has no lower tree")
        part = PART.fullmatch(line)
        if part is None:
            raise Refused(f"line {reader.lines}: it begins no part of a report")
        lines = (reader.whole_line() for _ in range(int(part["lines"])))
        take_part(line, lines)
        for _ in lines:
            pass
    return int(image["size"])


def pass_end(reader):
    """Reads what stands behind the image."""
    if reader.stream.read() != b"\nend\n":
        raise Refused("the report is cut, or something follows it")


@dataclass
class Head:
    """What an image has of an entry in front of its body: the path, and of a file its attribute and the length of its body."""

    path: bytes
    is_file: bool
    attribute: bytes | None = None
    length: int = 0


def entries_of_image(reader):
    """How many entries an image has, from its front."""
    if reader.piece(8) != b"ECRYIMG1":
        raise Refused("the image doesn't begin as one")
    return reader.number(4)


def take_head(reader, above):
    """Takes one entry but for its body; `above` has the directories that are open, from the root on, and is brought up to date."""
    level, kind, length = reader.number(2), reader.number(1), reader.number(1)
    if not 1 <= level <= len(above):
        raise Refused("no directory is open at its level")
    name = reader.piece(length)
    check_name(name)
    path = os.path.join(above[level - 1], name)
    del above[level:]
    if kind == 0:
        above.append(path)
        return Head(path, False)
    flag = reader.number(1)
    if kind != 1 or flag > 1:
        raise Refused("it is neither a directory nor a file")
    attribute = reader.piece(reader.number(4)) if flag else None
    return Head(path, True, attribute, reader.number(4))
