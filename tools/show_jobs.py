"""Batches through `show`: each becomes a job, and what its show text tells is taken line by line."""
import re

from program_jobs import PIECE, Failed, ProgramJobs

# The front of a line that is read at once: longer than any path.
LINE_FRONT = 4 * PIECE
LINE = re.compile(
    rb"(?P<kind>[dfx]) (?P<node>[1-9][0-9]{0,3}) (?P<path>/[^ \n]+)"
    rb"(?:\n| (?P<word>empty\n|bad [0-9a-z]+(?: [0-9a-z]+)*\n|good (?P<size>0|[1-9][0-9]{0,7}) ))"
)


class ShowJobs(ProgramJobs):
    """What the job of a batch is and what its lines tell is said by the classes below: `job_pieces`, `take`, `settle`, `discard`."""

    def run_whole(self, batch):
        """What is told of the entries of a batch; Failed where the program doesn't do it."""
        told, faults = [], {}
        try:
            self.exchange("show", self.job_pieces(batch, faults), lambda stream: self.read_text(stream, batch, told))
        except Failed:
            self.discard(told)
            raise
        return self.settle(told, faults)

    def read_text(self, stream, batch, told):
        """Takes what the show text tells into `told`; Failed where it isn't one of this batch."""
        if stream.readline(LINE_FRONT) != b"ecryptfs-show 1\n":
            raise Failed
        while (line := stream.readline(LINE_FRONT)) != b"end\n":
            self.read_line(line, stream, batch, told)
        if stream.read(1) or sorted(id(each.entry) for each in told) != sorted(map(id, batch.own)):
            raise Failed

    def read_line(self, line, stream, batch, told):
        """Takes what one line between the first and the last tells."""
        self.check_going()
        found = LINE.match(line)
        if found is None or (found["kind"] == b"f") != (found["word"] is not None):
            raise Failed
        one = self.take(batch, found, memoryview(line)[found.end() :], stream)
        if one is not None:
            told.append(one)
