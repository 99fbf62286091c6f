#!/usr/bin/env python3
"""Times `replay` on scripts that open, write and read files: how processor time and memory grow with the work.

    bench/files.py PROGRAM [CIPHERS]     PROGRAM is the built program, crates/mount_prog/out/mount_prog; CIPHERS is crates/cipher_bench/out/cipher_bench,
                                         by which the seconds of a job that writes 60 MB are told in those of encrypting as much

Each job is run with half the work and with all of it. Memory is counted beyond what the program has for its words alone.
"""
import os
import random
import subprocess
import sys

from timing import MEBIBYTE, run
from tree import EMPTY_IMAGE, Bench

PIECE = 65_536
MEGABYTE = 1_000_000


def octets(count, seed):
    """So many octets in hexadecimal, the same in each run."""
    return random.Random(seed).randbytes(count).hex()


def small_files(count):
    """Files of 10,000 octets that are created, written and closed, in directories of up to 2,000."""
    text = octets(10_000, 0)
    lines = ["mkdir /a", "mkdir /b"]
    for n in range(count):
        lines += [f"create 0 /{'ab'[n % 2]}/f{n:04}", f"write 0 0 {text}", "close 0"]
    return lines


def pieces(length, size):
    """One file of so many octets, written in pieces of this size, and closed."""
    text = octets(size, 1)
    lines = ["create 0 /f"]
    for at in range(0, length, size):
        lines.append(f"write 0 {at} {text[: 2 * min(size, length - at)]}")
    return lines + ["close 0"]


def read_back(length):
    """A file of so many octets, all zeros, made by a truncation, and read in pieces of 65,536."""
    return ["create 0 /f", f"truncate 0 {length}"] + [f"read 0 {at} {PIECE}" for at in range(0, length, PIECE)] + ["close 0"]


def random_places(count):
    """Writes of one octet at random places of a file of 4 MB, with a `sync` behind every hundredth."""
    places = random.Random(2)
    lines = ["create 0 /f", "truncate 0 4194304"]
    for n in range(count):
        lines.append(f"write 0 {places.randrange(4_194_304)} {n % 256:02x}")
        if n % 100 == 99:
            lines.append("sync 0")
    return lines + ["close 0"]


def encrypting_seconds(ciphers, length):
    """Processor seconds that `cipher_bench` takes to encrypt so many octets, without its start; the least of several runs."""
    seconds = lambda mebibytes: min(run([ciphers, "encrypt", str(mebibytes)], stdout=subprocess.DEVNULL)[0] for _ in range(3))
    return (seconds(64) - seconds(0)) * length / (64 * MEBIBYTE)


def compare(bench, name, make, work):
    """Runs half the work and all of it, and prints seconds, their ratio and memory."""
    half, whole = bench.job(EMPTY_IMAGE, make(work // 2)), bench.job(EMPTY_IMAGE, make(work))
    first = min(bench.run(half)[0] for _ in range(3))
    seconds, size, _ = min(bench.run(whole) for _ in range(3))
    peak = bench.run(whole)[2] - bench.own_memory
    print(f"{name}: half {first:.3f} s, all {seconds:.3f} s, ratio {seconds / first:.2f}, memory {peak / (len(whole) + size):.2f} times "
          f"input plus output ({peak / MEGABYTE:.0f} MB)", flush=True)
    return seconds


def main():
    program = os.path.realpath(sys.argv[1])
    bench = Bench(program, "plain")
    compare(bench, "4,000 files of 10,000 octets created, written and closed", small_files, 4_000)
    seconds = compare(bench, "60 MB written in pieces of 65,536, and closed", lambda length: pieces(length, PIECE), 60 * MEGABYTE)
    compare(bench, "60 MB written in pieces of 1,000, and closed", lambda length: pieces(length, 1_000), 60 * MEGABYTE)
    compare(bench, "60 MB read back in pieces of 65,536", read_back, 60 * MEGABYTE)
    compare(bench, "64,000 writes of one octet at random places of 4 MB, with 640 syncs", random_places, 64_000)
    if len(sys.argv) > 2:
        encrypting = encrypting_seconds(os.path.realpath(sys.argv[2]), 60 * MEGABYTE)
        print(f"60 MB written in pieces of 65,536: {seconds / encrypting:.1f} times the seconds of encrypting as much ({encrypting:.3f} s)")


if __name__ == "__main__":
    main()
