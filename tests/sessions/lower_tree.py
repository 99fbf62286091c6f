"""A job and the image in it, as docs/TEXTS.md has them; the octets are those of a job that is one."""
import io
import re
from dataclasses import dataclass

from lower_files import LowerFile, passphrase_key
from lower_names import CodedNames, PlainNames
from reports import Reader, entries_of_image, take_head


@dataclass
class LowerNode:
    """An entry of a lower tree: the node of its directory, its lower name, and its file or None."""

    parent: int
    name: bytes
    file: LowerFile | None


def nodes_of(image):
    """The nodes of an image from number 1 on."""
    reader = Reader(io.BytesIO(image), "the image")
    nodes, above, numbers = [], [b""], {b"": 0}
    for number in range(1, entries_of_image(reader) + 1):
        head = take_head(reader, above)
        folder, _, name = head.path.rpartition(b"/")
        numbers[head.path] = number
        file = LowerFile(head.attribute, reader.piece(head.length)) if head.is_file else None
        nodes.append(LowerNode(numbers[folder], name, file))
    assert not reader.stream.read(1), "something follows the image"
    return nodes


@dataclass
class Job:
    """The settings of a job, its image, the lines of its scripts and the items of its schedule."""

    passphrase: bytes
    salt: bytes
    name_salt: bytes
    names: str
    image: bytes
    scripts: list
    schedule: list

    def key(self):
        return passphrase_key(self.passphrase, self.salt)

    def form(self):
        """The form of names."""
        return CodedNames(passphrase_key(self.passphrase, self.name_salt)) if self.names == "tag70" else PlainNames()


def setting(head, word):
    """What stands behind a word on a line of its own."""
    return re.search(rb"^%s (.*)$" % word, head, re.MULTILINE)[1].decode()


def job_of(octets):
    """The job with these octets."""
    line = re.search(rb"^image ([0-9]+)\n", octets, re.MULTILINE)
    head, end = octets[: line.start()], line.end() + int(line[1])
    lines = octets[end:].decode().split("\n")[1:]
    scripts = []
    at = 1
    for _ in range(int(lines[0].split()[1])):
        count = int(lines[at].split()[1])
        scripts.append(lines[at + 1 : at + 1 + count])
        at += 1 + count
    schedule = [int(item) for item in lines[at].split()[1:]]
    assert lines[at + 1 :] == ["end", ""], "something follows the job"
    salts = (bytes.fromhex(setting(head, word)) for word in (b"passphrase", b"salt", b"namesalt"))
    return Job(*salts, setting(head, b"names"), octets[line.end() : end], scripts, schedule)
