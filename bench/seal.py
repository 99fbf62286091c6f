#!/usr/bin/env python3
"""Times tools/seal on one processor: 256 files of 1 MB beside the cipher alone, and 50,000 small files.

    bench/seal.py [PROGRAM [CIPHERS]]        PROGRAM is the built program, by default crates/mount_prog/out/mount_prog,
                                             CIPHERS by default crates/cipher_bench/out/cipher_bench

A time is processor time, of Python and of the programs that it starts. The aim is a quarter of the rate of `cipher_bench encrypt`.
It takes some 3 GB in the folder for temporary files.
"""
import os
import subprocess
import sys
import tempfile

HERE = os.path.dirname(os.path.abspath(__file__))
TOP = os.path.dirname(HERE)
TOOLS = os.path.join(TOP, "tools")
sys.path.insert(0, TOOLS)

from testing import PROGRAM, drawn
from timing import MEBIBYTE, on_one_processor, run, write

CIPHERS = sys.argv[2] if sys.argv[2:] else os.path.join(TOP, "crates", "cipher_bench", "out", "cipher_bench")
FILES, LENGTH, MEGABYTE, TURNS = 256, 1_000_000, 1_000_000, 3


def seal(room, folder, lower, *more):
    """The seconds and the most memory of one run."""
    words = ["--jobs", "1", "--program", PROGRAM, "--passphrase-file", f"{room}/passphrase", *more]
    return run([sys.executable, f"{TOOLS}/seal", *words, folder, lower], stdout=subprocess.DEVNULL)


def encrypting():
    """The seconds in which the cipher alone encrypts as much, without its start."""
    seconds = lambda mebibytes: min(run([CIPHERS, "encrypt", str(mebibytes)], stdout=subprocess.DEVNULL)[0] for _ in range(TURNS))
    return (seconds(256) - seconds(0)) * FILES * LENGTH / (256 * MEBIBYTE)


def large_files(room):
    folder, octets = f"{room}/large", FILES * LENGTH / MEGABYTE
    os.mkdir(folder)
    for number in range(FILES):
        write(f"{folder}/{number:03}", drawn(f"file {number}", LENGTH))
    alone = encrypting()
    whole, most = min(seal(room, folder, f"{room}/lower{turn}") for turn in range(TURNS))
    print(f"{FILES} files of 1 MB: cipher alone {alone:.2f} s ({octets / alone:.0f} MB/s), tools/seal {whole:.2f} s ({octets / whole:.0f} MB/s)")
    print(f"rate {alone / whole:.2f} of the cipher's (at least 0.25 is the aim), most memory of a process {most / MEBIBYTE:.0f} MiB", flush=True)


def largest_file(room):
    folder = f"{room}/largest"
    os.mkdir(folder)
    write(f"{folder}/one", bytes(64 * MEBIBYTE))
    seconds, most = seal(room, folder, f"{room}/lower_largest")
    print(f"one file of 64 MiB: {seconds:.2f} s, most memory of a process {most / MEBIBYTE:.0f} MiB", flush=True)


def small_files(room):
    folder, count = f"{room}/small", 50_000
    for number in range(count):
        os.makedirs(f"{folder}/{number // 1000:02}", exist_ok=True)
        write(f"{folder}/{number // 1000:02}/{number:05}", b"%d" % number * 20)
    for words in ([], ["--names", "plain"]):
        lower = f"{room}/small_{len(words)}"
        seconds, most = seal(room, folder, lower, *words)
        print(f"{count} files of 20 to 100 octets {words}: {seconds:.1f} s, most memory of a process {most / MEBIBYTE:.0f} MiB", flush=True)
        print(f"a second start {seal(room, folder, lower, *words)[0]:.1f} s", flush=True)


on_one_processor()
with tempfile.TemporaryDirectory() as place:
    write(f"{place}/passphrase", b"test")
    large_files(place)
    largest_file(place)
    small_files(place)
