"""The upper names of a lower tree: coded names go through the program in jobs of their own, with empty bodies."""
from collections import defaultdict
from dataclasses import dataclass

from lower_walk import FOREIGN, Entry
from names import is_coded
from program_jobs import Failed
from show_jobs import ShowJobs
from texts import MOST_ENTRIES, attribute_field, body_length, entry_head, image_head, job_end, job_head, path_of


class NameBatch:
    """Names that go through the program in one job: each directory as one with a number, what is in it as empty files."""

    octets = most_octets = 0

    def __init__(self, own):
        self.own, self.nodes, self.groups = own, [], 0
        last = None
        for entry in own:
            if last is None or entry.parent is not last.parent:
                self.groups += 1
                self.nodes.append((self.groups, None))
            self.nodes.append((self.groups, entry))
            last = entry

    def halves(self):
        """Two batches with the same entries."""
        middle = len(self.own) // 2
        return NameBatch(self.own[:middle]), NameBatch(self.own[middle:])


def by_directories(entries):
    """The entries of each directory that has a coded name, directory by directory, in octet order in each."""
    directories = defaultdict(list)
    for entry in entries:
        directories[entry.parent].append(entry)
    return [group for group in directories.values() if any(is_coded(entry.source_name) for entry in group)]


def name_batches_of(entries):
    """The batches of the names that have to be asked for, of entries in preorder."""
    own, nodes = [], 0
    for group in by_directories(entries):
        for entry in group:
            if nodes + 2 > MOST_ENTRIES:
                yield NameBatch(own)
                own, nodes = [], 0
            nodes += 1 + (not own or own[-1].parent is not entry.parent)
            own.append(entry)
    if own:
        yield NameBatch(own)


def group_name(number):
    """The name of a directory in the job, in clear; a later one stands behind it."""
    return b"%04d" % number


@dataclass(slots=True)
class Named:
    """The upper name of an entry, or why it has none."""

    entry: Entry
    name: bytes | None = None
    why: str | None = None


class NameJobs(ShowJobs):
    """Runs batches of names."""

    def without(self, entry, why):
        """What is told of a name on which the program fails."""
        return Named(entry, why=why)

    def job_pieces(self, batch, faults):
        """The job of a batch."""
        empty = attribute_field(None) + body_length(0)
        image = [image_head(len(batch.nodes))]
        for group, entry in batch.nodes:
            image.append(entry_head(1, False, group_name(group)) if entry is None else entry_head(2, True, entry.source_name) + empty)
        yield job_head(self.key, "tag70", sum(map(len, image))) + b"".join(image) + job_end()

    def take(self, batch, line, digits, stream):
        """What a line tells of a name; None where it tells a directory of the job."""
        group, entry = batch.nodes[int(line["node"]) - 1]
        above, _, name = path_of(line["path"]).rpartition(b"/")
        if (above or name) != group_name(group) or line["word"] not in (None, b"empty\n") or (line["kind"] == b"d") != (entry is None):
            raise Failed
        if entry is None:
            return None
        return Named(entry, name) if line["kind"] == b"f" else Named(entry, why=FOREIGN)

    def settle(self, told, faults):
        """What was told; no file is read."""
        return told

    def discard(self, told):
        """Nothing was written."""
