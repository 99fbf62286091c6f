"""Scripts through `replay`, over an empty lower tree: the job of a script, and what its report tells."""
import re
from dataclasses import dataclass

from reports import Reader, entries_of_image, pass_end, pass_to_image, take_head
from texts import SCRIPT_END, Refused, image_head, job_head, script_head, spelled_path

ERROR = re.compile(rb"err (?P<why>[0-9a-z ]+)")
DONE = re.compile(rb"ok(?: [0-9]+)?")


@dataclass(frozen=True)
class Form:
    """How names are written, and where metadata is kept."""

    names: str
    meta: str


def script_path(path):
    """A path as a script has it."""
    return b"/" + spelled_path(path).encode()


def replay_pieces(key, form, count, lines):
    """The job of a script of so many lines, in pieces."""
    image = image_head(0)
    yield job_head(key, form.names, len(image), form.meta) + image + script_head(count)
    yield from lines
    yield SCRIPT_END


def first_word(replies, count):
    """Why the first of so many lines that wasn't done wasn't, by their replies; None where all were."""
    first = None
    for _ in range(count):
        reply = next(replies, b"")[:-1]
        refused = ERROR.fullmatch(reply)
        if refused is None and not DONE.fullmatch(reply):
            raise Refused("a reply is missing, or is none of such a line")
        if refused and first is None:
            first = refused["why"].decode()
    return first


def read_replies(reader, counts):
    """Reads a report up to its image: for each of these counts of lines in turn, why one of them wasn't done, or None."""
    words = []

    def take_part(head, lines):
        if head.startswith(b"session 0 "):
            words.extend(first_word(lines, count) for count in counts)

    pass_to_image(reader, take_part)
    if len(words) != len(counts):
        raise Refused("it tells no replies")
    return words


def read_entries(reader, take):
    """Reads the image of a report, and its end; `take` gets the head of each entry and the pieces of its body, which it takes."""
    above = [b""]
    for _ in range(entries_of_image(reader)):
        head = take_head(reader, above)
        take(head, reader.pieces(head.length))
    pass_end(reader)


def reader_of(stream):
    """A reader of a report."""
    return Reader(stream, "the report")
