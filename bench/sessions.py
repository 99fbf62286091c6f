#!/usr/bin/env python3
"""Times jobs of several sessions beside `show`, with and without a schedule, and as they get longer; and `make`.

    bench/sessions.py PROGRAM        PROGRAM is the built program, crates/mount_prog/out/mount_prog

Processor seconds are the least of several runs. Memory is counted beyond what the program has for its words alone.
"""
import os
import sys

from files import MEGABYTE, PIECE, octets
from make_show_job import DIRECTORIES, FILES, image, sizes
from tree import EMPTY_IMAGE, Bench

MOST_SESSIONS, MOST_LINES, MOST_ITEMS = 16, 65_536, 1_048_576
RUNS = 5


def least(bench, *jobs):
    """Seconds, octets written and most memory of the quickest of several runs of each job, given with its words; the jobs take turns."""
    rounds = [[bench.run(*job) for job in jobs] for _ in range(RUNS)]
    return map(min, zip(*rounds))


def in_turn(sessions, items):
    return [item % sessions for item in range(items)]


# ---- 300 files of 40 MB ----


def pieces(length):
    """Offsets and lengths of the pieces of a file."""
    return [(at, min(PIECE, length - at)) for at in range(0, length, PIECE)]


def lines_of_file(file, size, text):
    """Opens a file, reads it whole, writes a quarter of it and closes it."""
    lines = [f"open 0 /directory{file % DIRECTORIES:02}/file{file:03}"]
    lines += [f"read 0 {at} {length}" for at, length in pieces(size)]
    lines += [f"write 0 {at} {text[: 2 * length]}" for at, length in pieces(size // 4)]
    return lines + ["close 0"]


def four_sessions(bench):
    """The sessions go in turn, and each has every fourth file; beside `show` on the same tree."""
    tree, text = image(), octets(PIECE, 3)
    scripts = [[line for file in range(session, FILES, 4) for line in lines_of_file(file, sizes()[file], text)] for session in range(4)]
    job = bench.job(tree, *scripts, schedule=in_turn(4, 2 * sum(map(len, scripts))))
    (seconds, size, peak), (shown, text_size, _) = least(bench, (job,), (bench.job(tree, []), "show"))
    print(f"four sessions on {FILES} files of 40 MB, each file opened, read, a quarter of it written, and closed: job {len(job) / MEGABYTE:.0f} MB, "
          f"report {size / MEGABYTE:.0f} MB, {seconds:.2f} s, memory {(peak - bench.own_memory) / (len(job) + size):.2f} times input plus output", flush=True)
    print(f"show on that tree: text {text_size / MEGABYTE:.0f} MB, {shown:.2f} s; ratio {seconds / shown:.2f}", flush=True)


# ---- schedules ----


def schedule(bench, name, lines):
    """The longest schedule, beside none, of 16 sessions with these lines each."""
    scripts, items = [lines] * MOST_SESSIONS, in_turn(MOST_SESSIONS, MOST_ITEMS)
    (without, _, _), (seconds, _, _) = least(bench, (bench.job(EMPTY_IMAGE, *scripts),), (bench.job(EMPTY_IMAGE, *scripts, schedule=items),))
    print(f"{MOST_ITEMS} items, {name}: {seconds:.3f} s, without a schedule {without:.3f} s, {seconds - without:.3f} s more", flush=True)


# ---- long jobs ----


def reading(bench, name, line_of):
    """`show` of 16 sessions on an empty tree reads the whole job: half the lines of each, and all of them."""
    lines = [line_of(number) for number in range(MOST_LINES)]
    half, whole = (bench.job(EMPTY_IMAGE, *[lines[:count]] * MOST_SESSIONS) for count in (MOST_LINES // 2, MOST_LINES))
    (first, _, _), (seconds, _, peak) = least(bench, (half, "show"), (whole, "show"))
    print(f"read, 16 sessions of {MOST_LINES} lines {name}: half {len(half) / MEGABYTE:.1f} MB {first:.3f} s, all {len(whole) / MEGABYTE:.1f} MB {seconds:.3f} s, "
          f"ratio {seconds / first:.2f}, memory {(peak - bench.own_memory) / len(whole):.1f} times the job", flush=True)


def make(bench, number):
    """`make` of a number."""
    ((seconds, _, peak),) = least(bench, (b"", "make", str(number)))
    print(f"make {number}: {seconds:.3f} s, memory {(peak - bench.own_memory) / MEGABYTE:.0f} MB", flush=True)


def main():
    bench = Bench(os.path.realpath(sys.argv[1]), "plain")
    four_sessions(bench)
    make(bench, 1000)
    schedule(bench, "of sessions that have ended", [])
    schedule(bench, "of 16 sessions with as many lines `stat /`", ["stat /"] * MOST_LINES)
    reading(bench, "`sync 0`", lambda number: "sync 0")
    reading(bench, "`stat` of 60 octets", lambda number: f"stat /{number:060}")
    reading(bench, "`write` of 32 octets", lambda number: f"write 0 {number} {number:064x}")


if __name__ == "__main__":
    main()
