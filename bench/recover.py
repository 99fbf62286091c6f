#!/usr/bin/env python3
"""Times tools/recover on one processor: 256 files of 1 MB beside `show` alone on the same jobs, and 50,000 and 100,000 small files.

    bench/recover.py [PROGRAM [coded]]        PROGRAM is the built program, by default crates/mount_prog/out/mount_prog

With the word `coded` the small files have coded names. A time is processor time, of Python and of the programs that it starts.
It takes some 4 GB in the folder for temporary files.
"""
import os
import subprocess
import sys
import tempfile

HERE = os.path.dirname(os.path.abspath(__file__))
TOOLS = os.path.join(os.path.dirname(HERE), "tools")
sys.path.insert(0, TOOLS)

from coded_tests import lower_names
from content_jobs import batches_of, job_pieces
from keys import Key
from lower_walk import Folders, walk
from recover_tests import body
from testing import PROGRAM, SALT
from timing import MEBIBYTE, on_one_processor, run, write


def recover(room, lower, target):
    words = ["--jobs", "1", "--program", PROGRAM, "--passphrase-file", f"{room}/passphrase"]
    return run([sys.executable, f"{TOOLS}/recover", *words, lower, target], stdout=subprocess.DEVNULL)


def show(room, lower):
    """The seconds of `show` on the same batches, each from a file into a file, and its most memory."""
    root, seconds, most = os.open(lower, os.O_RDONLY), 0, 0
    for batch in batches_of(walk(root).entries):
        with open(f"{room}/job", "wb") as job:
            job.writelines(job_pieces(batch, Key(b"test", SALT, SALT), Folders(root), {}))
        with open(f"{room}/job", "rb") as job, open(f"{room}/show", "wb") as text:
            used, memory = run([PROGRAM, "show"], stdin=job, stdout=text)
        seconds, most = seconds + used, max(most, memory)
    return seconds, most


def large_files(room):
    lower = f"{room}/large"
    os.mkdir(lower)
    for number in range(256):
        write(f"{lower}/{number:03}", body(1_000_000))
    alone, memory = min(show(room, lower) for _ in range(3))
    whole, most = min(recover(room, lower, f"{room}/home{turn}") for turn in range(3))
    print(f"256 files of 1 MB: show {alone:.2f} s ({256 / alone:.0f} MB/s), tools/recover with it {whole:.2f} s ({256 / whole:.0f} MB/s)")
    print(f"rate {alone / whole:.2f} of show's")
    print(f"most memory of show {memory / MEBIBYTE:.0f} MiB, of a process of tools/recover {most / MEBIBYTE:.0f} MiB")


def small_files(room, is_coded):
    lower, octets, times = f"{room}/small", body(100), []
    names = [b"%05d" % number for number in range(100_000)]
    written = {name: name for name in names} if not is_coded else lower_names(names)
    for number, name in enumerate(names):
        # (a directory has the name of its first file)
        folder = os.path.join(os.fsencode(lower), written[names[number // 1000 * 1000]])
        os.makedirs(folder, exist_ok=True)
        write(os.path.join(folder, written[name]), octets)
        if number + 1 in (50_000, 100_000):
            seconds, most = recover(room, lower, f"{room}/home_{number + 1}")
            times.append(seconds)
            what = "files of 100 octets with coded names" if is_coded else "files of 100 octets"
            print(f"{number + 1} {what}: {seconds:.1f} s, most memory of a process {most / MEBIBYTE:.0f} MiB")
    again, _ = recover(room, lower, f"{room}/home_100000")
    print(f"ratio {times[1] / times[0]:.2f}; a second start {again:.1f} s")


on_one_processor()
with tempfile.TemporaryDirectory() as place:
    write(f"{place}/passphrase", b"test")
    large_files(place)
    small_files(place, sys.argv[2:] == ["coded"])
