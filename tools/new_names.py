"""The lower names that are written for names: directories are made in jobs, and `show` tells whose lower name is whose.

A written name is a function of the key and the name, so one answer serves wherever the name stands, of a file too.
"""
from name_jobs import Named
from program_jobs import Failed
from replay_jobs import read_entries, read_replies, reader_of, replay_pieces, script_path
from show_jobs import ShowJobs
from texts import MOST_ENTRIES, entry_head, image_head, job_end, job_head, path_of


class NewNames:
    """Entries of different names, whose names go through the program in one job."""

    octets = most_octets = 0

    def __init__(self, own):
        self.own, self.lower = own, []
        self.by_name = {entry.source_name: entry for entry in own}

    def halves(self):
        """Two batches with the same entries."""
        middle = len(self.own) // 2
        return NewNames(self.own[:middle]), NewNames(self.own[middle:])


def new_names_of(entries):
    """The batches of the names of these entries, each name once."""
    own = [*{entry.source_name: entry for entry in entries}.values()]
    for start in range(0, len(own), MOST_ENTRIES):
        yield NewNames(own[start : start + MOST_ENTRIES])


class NewNameJobs(ShowJobs):
    """Runs batches of names: first `replay`, then `show` on the lower tree of the report."""

    def __init__(self, program, key, form):
        super().__init__(program, key)
        self.form = form

    def without(self, entry, why):
        """What is told of a name on which the program fails."""
        return Named(entry, why=why)

    def run_whole(self, batch):
        """What is told of the names of a batch; Failed where the program doesn't do it."""
        told, lines = [], [b"mkdir %b\n" % script_path(entry.source_name) for entry in batch.own]
        job = replay_pieces(self.key, self.form, len(lines), lines)
        self.exchange("replay", job, lambda stream: self.read_report(stream, batch, told))
        self.exchange("show", self.job_pieces(batch), lambda stream: self.read_text(stream, batch, told))
        return told

    def read_report(self, stream, batch, told):
        """Takes the refused names into `told`, and the lower names into the batch, in their order."""
        reader = reader_of(stream)
        words = read_replies(reader, [1] * len(batch.own))
        told += [Named(entry, why=why) for entry, why in zip(batch.own, words) if why]
        read_entries(reader, lambda head, pieces: batch.lower.append(head.path))

    def job_pieces(self, batch):
        """The job of `show`: directories with the lower names."""
        image = image_head(len(batch.lower)) + b"".join(entry_head(1, False, name) for name in batch.lower)
        yield job_head(self.key, self.form.names, len(image), self.form.meta) + image + job_end()

    def take(self, batch, line, digits, stream):
        """What a line tells of a lower name."""
        entry = batch.by_name.get(path_of(line["path"]))
        if line["kind"] != b"d" or entry is None:
            raise Failed
        return Named(entry, batch.lower[int(line["node"]) - 1])
