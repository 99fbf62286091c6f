"""A batch through the program: it becomes one or more jobs, and what the program writes is taken meanwhile."""
import errno
import fcntl
import os
import signal
import subprocess
import threading

from texts import Refused

PIECE = 1_048_576
# Errors that say that nothing more can be written to a file system, and not that it refuses this file.
FULL = {errno.ENOSPC, errno.EDQUOT, errno.EROFS, errno.EIO}
TEXTS = {"show": "show text", "replay": "report"}


class Stopped(Exception):
    """The work ends before all is done."""


class TargetFull(Stopped):
    """The target takes nothing more."""


class Failed(Exception):
    """Why the program gave no show text, or no report."""


def refusal(error):
    """Why the target refuses a file; TargetFull where it takes nothing more."""
    if error.errno in FULL:
        raise TargetFull(f"the target can't be written: {error.strerror}") from None
    return f"refused by the target: {error.strerror}"


def kill_group(process):
    """Kills a program that leads a group of its own, and the group."""
    if process.poll() is None:
        try:
            os.killpg(process.pid, signal.SIGKILL)
        except ProcessLookupError:
            pass


def feed(pipe, pieces):
    """Writes a job in pieces, as far as the program reads it."""
    try:
        with pipe:
            for piece in pieces:
                pipe.write(piece)
    except BrokenPipeError:
        pass


class ProgramJobs:
    """Runs batches; `end`, from another thread, stops them.

    A batch has entries of its own (`own`) and two halves (`halves`). What its jobs are and what is told of its entries is said
    by the calls of the classes below this one: `without` and `run_whole`.
    """

    def __init__(self, program, key):
        self.program, self.key = program, key
        self.running, self.lock, self.is_ended = set(), threading.Lock(), False

    def of_worker(self, place, count):
        """These jobs, for one of so many workers."""
        return self

    def run(self, batch):
        """What is told of the entries; where the program fails, of each half, down to one entry."""
        try:
            return self.run_whole(batch)
        except Failed as failed:
            if len(batch.own) == 1:
                return [self.without(batch.own[0], f"the program failed: {failed}")]
        first, second = batch.halves()
        return self.run(first) + self.run(second)

    def end(self):
        """Ends the programs that run, with all that they started; each `run` ends with Stopped."""
        with self.lock:
            self.is_ended = True
            for process in self.running:
                kill_group(process)

    def check_going(self):
        """Stopped where the programs were ended."""
        if self.is_ended:
            raise Stopped

    def start(self, command):
        """Starts the program, with pipes that take a whole piece."""
        with self.lock:
            self.check_going()
            # (a session of its own, so that a signal from the terminal comes to this program alone)
            streams = {"stdin": subprocess.PIPE, "stdout": subprocess.PIPE, "stderr": subprocess.DEVNULL}
            try:
                process = subprocess.Popen([self.program, command], bufsize=PIECE, start_new_session=True, **streams)
            except OSError as error:
                raise Failed(f"it can't be started: {error.strerror}") from None
            self.running.add(process)
        for pipe in (process.stdin, process.stdout):
            try:
                fcntl.fcntl(pipe, fcntl.F_SETPIPE_SZ, PIECE)
            except OSError:
                break
        return process

    def exchange(self, command, pieces, take):
        """Gives the program a job, and its output to `take`; Failed where it doesn't do the job, or `take` can't read that."""
        process, fault = self.start(command), None
        feeder = threading.Thread(target=feed, args=(process.stdin, pieces))
        feeder.start()
        try:
            take(process.stdout)
        except (Failed, Refused, ValueError, IndexError):
            fault = f"its {TEXTS[command]} can't be read"
        except BaseException:
            kill_group(process)
            raise
        finally:
            process.stdout.close()
            status = process.wait()
            feeder.join()
            with self.lock:
                self.running.discard(process)
        self.check_going()
        if status or fault:
            raise Failed(fault if not status else f"status {status}" if status > 0 else f"signal {-status}")
