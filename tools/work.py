"""The work of tools/recover and tools/seal: what the program makes of the files comes into the target, and what is left out is listed."""
import argparse
import os
import signal
import sys
import time
from collections import Counter
from contextlib import closing

from checks import PROGRAM
from lower_walk import Kind
from program_jobs import Stopped, TargetFull
from texts import Refused, spelled_path
from workers import told_by

LEFT_OUT, SIGNALLED = 3, 128
BELOW = "below a directory that was left out"


class Progress:
    """A line on the terminal."""

    def __init__(self, octets):
        self.whole, self.files, self.octets, self.start, self.last = octets, 0, 0, time.monotonic(), 0
        self.is_shown = sys.stderr.isatty()

    def show(self, line):
        """Shows a line in place of the last, twice a second at most."""
        now = time.monotonic()
        if self.is_shown and now - self.last > 0.5:
            self.last = now
            print(f"\r\x1b[K{line}", end="", file=sys.stderr, flush=True)

    def show_rate(self):
        """Shows what is done, how fast, and how long the rest will take."""
        rate = self.octets / max(time.monotonic() - self.start, 0.001)
        left = f", {(self.whole - self.octets) / rate:.0f} s left" if rate else ""
        self.show(f"{self.files} files, {self.octets / 1e6:.0f} of {self.whole / 1e6:.0f} MB, {rate / 1e6:.0f} MB/s{left}")

    def clear(self):
        """Takes the line away."""
        if self.is_shown:
            print("\r\x1b[K", end="", file=sys.stderr, flush=True)


class Stop:
    """The signal that ends the work, once there was one."""

    def __init__(self):
        self.number = None
        for number in (signal.SIGINT, signal.SIGTERM, signal.SIGHUP):
            signal.signal(number, self.note)

    def note(self, number, frame):
        """Notes a signal: the work ends behind the batch that is settled."""
        self.number = number


def told_of_names(jobs, batches, count, stop):
    """What is told of the names in these batches, while a line of progress is shown."""
    batches, progress, read = [*batches], Progress(0), 0
    whole = sum(len(batch.own) for batch in batches)
    with closing(told_by(jobs, batches, count, stop, lambda: progress.show(f"{read} of {whole} names read"))) as all_told:
        for told in all_told:
            yield told
            read += 1
    progress.clear()


class Work:
    """The work on one tree: batches go to the program, and what it tells is put into the target."""

    def __init__(self, tree, target, todo, stop):
        self.tree, self.target, self.todo, self.stop = tree, target, todo, stop
        self.left_out, self.directories, self.files, self.good, self.fault = [], 0, 0, 0, None
        self.progress = Progress(sum(entry.size for entry in todo if entry.is_read))

    @property
    def done(self):
        """How many entries stood there from an earlier start."""
        return len(self.tree.entries) - len(self.todo)

    def leave_out(self, entry, why):
        """Notes an entry for the list."""
        self.left_out.append((why, entry.target_path))

    def make_directory(self, entry):
        """Makes a directory, or leaves it out."""
        why = self.target.make_directory(entry)
        self.directories += why is None
        if why:
            self.leave_out(entry, why)

    def files_to_read(self):
        """The files to read, in preorder; what else there is to do but further names is done meanwhile."""
        files = []
        for entry in self.todo:
            if entry.cause:
                self.leave_out(entry, entry.cause)
            elif entry.parent is not None and not entry.parent.ours:
                self.leave_out(entry, BELOW)
            elif entry.kind is Kind.DIRECTORY:
                self.make_directory(entry)
            elif entry.first is None:
                files.append(entry)
        return files

    def settle(self, written):
        """Puts one file into the target."""
        entry = written.entry
        why = written.why or self.target.place_file(entry, written.number)
        self.files += why is None
        self.good += written.is_good
        if why:
            self.leave_out(entry, why)
        self.progress.files += 1
        self.progress.octets += entry.size

    def make_links(self):
        """Makes the further names of files, once the first ones stand there."""
        for entry in self.todo:
            if entry.first is not None and not entry.cause and (entry.parent is None or entry.parent.ours):
                why = self.target.place_link(entry)
                self.files += why is None
                if why:
                    self.leave_out(entry, why)

    def do_all(self, jobs, batches_of, count):
        """Does all, in these batches of the files; where it is stopped `fault` tells why."""
        try:
            batches = batches_of(self.files_to_read())
            with closing(told_by(jobs, batches, count, self.stop, self.progress.show_rate)) as all_written:
                for written in all_written:
                    self.settle(written)
            self.make_links()
        except Stopped as stopped:
            self.fault = str(stopped) or "stopped"
        # (workers end in any order)
        self.left_out.sort(key=lambda each: each[1].split(b"/"))
        self.progress.clear()

    def run(self, jobs_in, batches_of, count, root):
        """Does all by the jobs that `jobs_in` gives for the folder of files that aren't whole; directories are marked last."""
        self.target.begin()
        try:
            self.do_all(jobs_in(self.target.room), batches_of, count)
        finally:
            self.target.end()
        self.target.mark_directories(self.tree.entries, os.fstat(root))


# ---- what is told of it ----


def list_head(tool):
    """The first line of a list."""
    return f"left out by tools/{tool}:\n".encode()


def check_list(path, tool):
    """Refuses to write the list over a file that is none."""
    if os.path.lexists(path):
        with open(path, "rb") as opened:
            if opened.readline() != list_head(tool):
                raise Refused(f"{spelled_path(path)}: it is no list of this program")


def write_list(path, left_out, tool):
    """Writes the list of what was left out; none where nothing was. Where it can't be written, that is told."""
    try:
        if os.path.lexists(path):
            os.unlink(path)
        if left_out:
            with open(os.open(path, os.O_WRONLY | os.O_CREAT | os.O_EXCL, 0o600), "wb") as out:
                out.write(list_head(tool))
                out.writelines(f"{why}: /{spelled_path(listed)}\n".encode() for why, listed in left_out)
    except OSError as error:
        print(f"{tool}: {spelled_path(path)}: the list isn't whole: {error.strerror}", file=sys.stderr)


def kind_of(why):
    """What causes are counted by: their words without what they tell of the one file."""
    words = why.partition(":")[0].split()
    return " ".join(words[:2]) if words[0] == "bad" else " ".join(words)


def nearest(path):
    """The path as seen from the working folder, where it stands there."""
    here = os.path.relpath(path, os.getcwdb())
    return path if here.startswith(b"..") else here


def tell(work, list_path):
    """Tells what was done."""
    octets = sum(entry.size for entry in work.todo if entry.ours and entry.is_read)
    print(f"{work.files} files and {work.directories} directories written, {octets} octets")
    if work.done:
        print(f"{work.done} entries stood there from an earlier start")
    if work.target.refused_marks:
        print(f"{work.target.refused_marks} times the target refused an owner, a mode or times")
    if work.left_out:
        print(f"{len(work.left_out)} of {len(work.tree.entries)} entries left out, listed in {spelled_path(nearest(list_path))}:")
    for kind, count in Counter(kind_of(why) for why, _ in work.left_out).most_common():
        print(f"{count:8} {kind}")


def status_of(work, tool):
    """The exit status; where the work was stopped, that is told."""
    if work.fault is not None:
        print(f"{tool}: {work.fault}; the same command goes on from here", file=sys.stderr)
        return SIGNALLED + work.stop.number if work.stop.number else LEFT_OUT
    return LEFT_OUT if work.left_out else 0


# ---- words and the end ----


def words_parser(tool, text, beside):
    """A parser of a command line, with the words that both tools have; the record stands beside the folder of this name."""
    parser = argparse.ArgumentParser(prog=tool, description=text, formatter_class=argparse.RawDescriptionHelpFormatter)
    parser.add_argument("--passphrase-file", metavar="FILE", help="a file with the passphrase, else it is asked for")
    parser.add_argument("--record", metavar="FILE", help=f"where the record is, else {beside}.{tool}; the list stands beside it")
    parser.add_argument("--jobs", metavar="N", type=int, choices=range(1, 65), help="how many programs run at once, each with a process of its own")
    parser.add_argument("--program", metavar="PROGRAM", default=PROGRAM, help="the built program mount_prog")
    return parser


def end_with(tool, do, words, target):
    """Ends with the status that `do` gives for these words, and with one line where nothing was done."""
    try:
        sys.exit(do(words))
    except (Refused, TargetFull) as refused:
        sys.exit(f"{tool}: {refused}")
    except OSError as error:
        sys.exit(f"{tool}: {spelled_path(os.fsencode(error.filename or target))}: {error.strerror or error}")
    except KeyboardInterrupt:
        sys.exit(SIGNALLED + signal.SIGINT)
