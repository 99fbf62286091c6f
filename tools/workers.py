"""Batches in several processes at once: what runs where.

The first process has the target, the record and the list. It starts the workers, tells each one the place of a batch, and takes
what the worker tells of it. A worker has one program at a time: it reads the files, writes the job, checks what the program
tells, and writes the new files under numbers. It is a copy of the first process (`fork`), so it has all batches already; only
places, and what is told, go between them. With one worker all of this is done in the first process, by `told_here`.
"""
import multiprocessing
import os
from concurrent.futures import ThreadPoolExecutor, wait
from dataclasses import dataclass, replace
from multiprocessing.connection import Connection
from multiprocessing.connection import wait as wait_for

from program_jobs import Stopped

# How often a signal is looked for, and the line of progress is written anew, in seconds.
TURN = 0.2
ENDED = "a process of this program has ended before its work was done"
# (a worker has what the first process has; that one has no other thread when it starts them)
FORK = multiprocessing.get_context("fork")


def told_here(jobs, batches, is_stopped, tell=lambda: None):
    """What is told of the entries of all batches, one behind another in this process; Stopped once `is_stopped` says so."""
    with ThreadPoolExecutor(1) as pool:
        try:
            for batch in batches:
                # (signals come to the first thread, so the work is done in another one)
                running = pool.submit(jobs.run, batch)
                while not wait([running], TURN).done:
                    tell()
                    if is_stopped():
                        raise Stopped
                yield from running.result()
                if is_stopped():
                    raise Stopped
        except BaseException:
            jobs.end()
            raise


# ---- in a worker ----


@dataclass(frozen=True)
class Answer:
    """What is told of a batch, each entry by its place there, or why there is nothing; and the signal that came to the worker."""

    told: tuple = ()
    why: Exception | None = None
    signal: int | None = None


def answer_to(jobs, batch, stop, is_stopped):
    """What a worker answers for one batch."""
    places = {entry: place for place, entry in enumerate(batch.own)}
    try:
        told = [*told_here(jobs, [batch], is_stopped)]
    except Exception as why:
        return Answer(why=why, signal=stop.number)
    return Answer(tuple(replace(each, entry=places[each.entry]) for each in told))


def work(jobs, batches, stop, connection):
    """The life of a worker: it does the batches whose places come over the connection, until that or the first process ends."""
    first = os.getppid()
    is_stopped = lambda: stop.number is not None or os.getppid() != first
    try:
        while not is_stopped():
            if connection.poll(TURN):
                connection.send(answer_to(jobs, batches[connection.recv()], stop, is_stopped))
    except (EOFError, ConnectionError):
        pass


# ---- in the first process ----


@dataclass(eq=False)
class Worker:
    """A worker, as the first process sees it, and the batch that it has."""

    process: multiprocessing.Process
    connection: Connection
    batch: object = None

    @classmethod
    def start(cls, jobs, batches, stop):
        """Starts a worker."""
        ours, theirs = FORK.Pipe()
        process = FORK.Process(target=work, args=(jobs, batches, stop, theirs), daemon=True)
        process.start()
        theirs.close()
        return cls(process, ours)

    def give(self, place, batch):
        """Gives the worker a batch; Stopped where it has ended."""
        self.batch = batch
        try:
            self.connection.send(place)
        except ConnectionError:
            raise Stopped(ENDED) from None

    def take(self, stop):
        """What the worker tells of its batch, which it has no more; Stopped where the worker was stopped, or has ended."""
        try:
            answer = self.connection.recv()
        except (EOFError, ConnectionError):
            raise Stopped(ENDED) from None
        batch, self.batch = self.batch, None
        if answer.signal:
            stop.number = answer.signal
        if answer.why is not None:
            raise answer.why
        return [replace(each, entry=batch.own[each.entry]) for each in answer.told]


class Workers:
    """All workers, and the batches that wait for them."""

    def __init__(self, jobs, batches, count, stop):
        self.stop, self.waiting = stop, [*enumerate(batches)][::-1]
        # (as much may be under way as so many whole batches have; a batch that has more goes alone)
        self.room = max((count * batch.most_octets for batch in batches), default=0)
        count = min(count, len(batches))
        self.all = [Worker.start(jobs.of_worker(place, count), batches, stop) for place in range(count)]

    @property
    def busy(self):
        """The workers that have a batch."""
        return [worker for worker in self.all if worker.batch]

    def has_room(self, batch):
        """Whether a batch may be under way beside the others; one alone always may."""
        return not self.busy or sum(worker.batch.octets for worker in self.busy) + batch.octets <= self.room

    def hand_out(self):
        """Gives each worker without a batch the next one, in their order, as far as there is room."""
        for worker in self.all:
            if not worker.batch and self.waiting and self.has_room(self.waiting[-1][1]):
                worker.give(*self.waiting.pop())

    def told(self):
        """What is told of the batches that end within a turn; the next ones are under way by then."""
        ready = wait_for([worker.connection for worker in self.busy], TURN)
        for worker in self.all:
            if worker.connection in ready:
                told = worker.take(self.stop)
                self.hand_out()
                yield from told

    def end(self):
        """Ends all workers, with the programs that they run."""
        for worker in self.all:
            worker.connection.close()
            worker.process.terminate()
        for worker in self.all:
            worker.process.join()


def told_by_workers(jobs, batches, count, stop, tell):
    """As `told_by`, in so many workers."""
    workers = Workers(jobs, batches, count, stop)
    try:
        workers.hand_out()
        while workers.busy:
            yield from workers.told()
            tell()
            if stop.number:
                raise Stopped
    finally:
        workers.end()


def told_by(jobs, batches, count, stop, tell):
    """What is told of the entries of all batches, so many of which run at once; Stopped behind a signal.

    `tell` is called now and then. Where the one who takes what is told ends, so do the programs.
    """
    if count == 1:
        return told_here(jobs, batches, lambda: stop.number is not None, tell)
    return told_by_workers(jobs, [*batches], count, stop, tell)
