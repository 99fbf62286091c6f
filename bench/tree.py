#!/usr/bin/env python3
"""Times `replay` on large scripts: how processor time and memory grow with the lines.

    bench/tree.py PROGRAM          PROGRAM is the built program, crates/mount_prog/out/mount_prog
    bench/tree.py PROGRAM coded    the same under coded names, whose key takes some 0.02 s of each run, and `show` of 4,000 of them

Memory is counted beyond what the program has for a job without entries and lines.
"""
import os
import resource
import struct
import subprocess
import sys
import tempfile
import time

ZEROS = "0" * 64
EMPTY_IMAGE = b"ECRYIMG1\0\0\0\0"
WIDE = 4000
CHAINS, DEPTH = 65, 62


def plain_image(entries):
    """The image of directories, given as (level, name) in preorder, under plain names."""
    body = b"".join(struct.pack(">HBB", level, 0, len(name)) + name.encode() for level, name in entries)
    return b"ECRYIMG1" + struct.pack(">I", len(entries)) + body


def paths_of(entries):
    """The paths of directories, given as (level, name) in preorder."""
    above = []
    for level, name in entries:
        above[level - 1:] = [name]
        yield "/" + "/".join(above)


def peak_of(process):
    """The most memory that the process has had, as the system tells it while it runs."""
    try:
        with open(f"/proc/{process.pid}/status") as status:
            for line in status:
                if line.startswith("VmHWM:"):
                    return int(line.split()[1]) * 1024
    except OSError:
        pass
    return 0


def processor_seconds():
    """The processor time of the programs that have ended."""
    used = resource.getrusage(resource.RUSAGE_CHILDREN)
    return used.ru_utime + used.ru_stime


class Bench:
    """Runs of a program under one form of names."""

    def __init__(self, program, names):
        self.program = program
        self.names = names
        self.own_memory = resting_memory(program)

    def job(self, image, *scripts, schedule=()):
        """A job with a session for each of these lists of lines, and the items of a schedule."""
        head = (
            "ecryptfs-job 1\npassphrase 74657374\nsalt 0011223344556677\nnamesalt 0011223344556677\n"
            f"names {self.names}\nmeta header\nrandom {ZEROS}\nimage {len(image)}\n"
        ).encode()
        texts = [f"script {len(lines)}\n" + "".join(line + "\n" for line in lines) for lines in scripts]
        end = f"\nsessions {len(scripts)}\n" + "".join(texts) + " ".join(["schedule", *map(str, schedule)]) + "\nend\n"
        return head + image + end.encode()

    def run(self, octets, *words):
        """Processor seconds, octets written and most memory of one run with these words, else of a `replay`."""
        with tempfile.TemporaryFile() as job_file, tempfile.TemporaryFile() as report:
            job_file.write(octets)
            job_file.seek(0)
            start = processor_seconds()
            process = subprocess.Popen([self.program, *(words or ["replay"])], stdin=job_file, stdout=report)
            peak = 0
            while process.poll() is None:
                peak = max(peak, peak_of(process))
                time.sleep(0.0005)
            seconds = processor_seconds() - start
            if process.returncode != 0:
                sys.exit(f"status {process.returncode}")
            return seconds, report.seek(0, 2), peak

    def image(self, entries):
        """The image of directories; under coded names the program itself writes it, by `mkdir`s."""
        if self.names == "plain":
            return plain_image(entries)
        made = self.job(EMPTY_IMAGE, [f"mkdir {path}" for path in paths_of(entries)])
        report = subprocess.run([self.program, "replay"], input=made, stdout=subprocess.PIPE, check=True).stdout
        place = report.rindex(b"\nimage ") + 7
        end = report.index(b"\n", place)
        return report[end + 1:end + 1 + int(report[place:end])]

    def compare(self, name, make, count):
        entries, half_lines = make(count // 2)
        image = self.image(entries)
        half, whole = self.job(image, half_lines), self.job(image, make(count)[1])
        first = min(self.run(half)[0] for _ in range(3))
        second, size, _ = min(self.run(whole) for _ in range(3))
        peak = max(self.run(whole)[2] for _ in range(2)) - self.own_memory
        print(f"{name}: {count // 2} lines {first:.3f} s, {count} lines {second:.3f} s, ratio {second / first:.2f}, "
              f"memory {peak / (len(whole) + size):.1f} times input plus output", flush=True)

    def show(self, name, entries):
        """`show` of these directories, beside that of none."""
        empty, whole = self.job(EMPTY_IMAGE, []), self.job(self.image(entries), [])
        nothing = min(self.run(empty, "show")[0] for _ in range(5))
        seconds = min(self.run(whole, "show")[0] for _ in range(5))
        print(f"{name}: {seconds - nothing:.3f} s beyond the keys", flush=True)


def resting_memory(program):
    """The most memory that the program has for its words alone."""
    process = subprocess.Popen([program, "replay"], stdin=subprocess.PIPE, stdout=subprocess.DEVNULL, stderr=subprocess.DEVNULL)
    time.sleep(0.1)
    peak = peak_of(process)
    process.stdin.close()
    process.wait()
    return peak


def wide(line_of):
    """Lines over 4,000 directories `dNNNN` of the root, in turn."""
    entries = [(1, f"d{n:04}") for n in range(WIDE)]
    return lambda count: (entries, [line_of(f"d{n % WIDE:04}", n) for n in range(count)])


def chains(line_of):
    """Lines at the lowest level of 65 chains of 62 directories, in turn."""
    entries = [(level, f"c{k:02}" if level == 1 else "d") for k in range(CHAINS) for level in range(1, DEPTH + 1)]
    tops = [f"c{k:02}" + "/d" * (DEPTH - 2) for k in range(CHAINS)]
    return lambda count: (entries, [line_of(tops[n % CHAINS] + "/d", n) for n in range(count)])


def there_and_back(name, n):
    """A rename to a name that is free, and, with the names in turn for the second time, back."""
    away = name[:-1] + "x" if "/" in name else "x" + name
    return f"rename /{name} /{away}" if n // (CHAINS if "/" in name else WIDE) % 2 == 0 else f"rename /{away} /{name}"


LINES = {
    "mkdir that is exists": lambda name, n: f"mkdir /{name}",
    "unlink that is isdir": lambda name, n: f"unlink /{name}",
    "rename there and back": there_and_back,
    "stat": lambda name, n: f"stat /{name}",
}


def full_of_many(count):
    """`rmdir` that is notempty, in a directory of 4,000. Every 43rd has an entry, since there are at most 4,095 nodes."""
    taken = range(0, WIDE, 43)
    entries = []
    for n in range(WIDE):
        entries.append((1, f"d{n:04}"))
        if n in taken:
            entries.append((2, "e"))
    return entries, [f"rmdir /d{taken[n % len(taken)]:04}" for n in range(count)]


def full(count):
    """`rmdir` that is notempty: 2,000 directories with one entry each."""
    entries = [entry for n in range(2000) for entry in ((1, f"d{n:04}"), (2, "e"))]
    return entries, [f"rmdir /d{n % 2000:04}" for n in range(count)]


def full_chains(count):
    """`rmdir` that is notempty, of the last directory but one of each chain."""
    entries, _ = chains(None)(0)
    tops = [f"c{k:02}" + "/d" * (DEPTH - 2) for k in range(CHAINS)]
    return entries, [f"rmdir /{tops[n % CHAINS]}" for n in range(count)]


def lists(count):
    """`list` of a directory of 4,000 names."""
    return [(1, f"d{n:04}") for n in range(WIDE)], ["list /"] * count


def changes(count):
    """`mkdir`, `rename` and `rmdir` that succeed, of up to 4,000 names in the root."""
    names = [f"d{n * 7919 % count:04}" for n in range(count)]
    return [], [f"mkdir /{name}" for name in names] + [f"rename /{name} /x{name}" for name in names] + [f"rmdir /x{name}" for name in names]


def deep(count):
    """Lists at paths of up to 4,000 parts, in a chain of 4,000 directories."""
    chain = [(level, "d") for level in range(1, 4001)]
    return chain, ["list " + "/d" * (2000 + n % 2000) for n in range(count)]


def main():
    program = os.path.realpath(sys.argv[1])
    bench = Bench(program, "tag70" if sys.argv[2:] == ["coded"] else "plain")
    for name, line_of in LINES.items():
        bench.compare(f"{name}, 4,000 names", wide(line_of), 65536)
        bench.compare(f"{name}, 65 chains", chains(line_of), 65536)
    bench.compare("rmdir that is notempty, 4,000 names", full_of_many, 65536)
    bench.compare("rmdir that is notempty, 2,000 names", full, 65536)
    bench.compare("rmdir that is notempty, 65 chains", full_chains, 65536)
    bench.compare("list of 4,000 names", lists, 500)
    bench.compare("mkdir, rename, rmdir that succeed", changes, 4000)
    bench.compare("deep paths", deep, 4000)
    if bench.names == "tag70":
        bench.show("show of 4,000 names of 20 octets", [(1, f"name-of-20-octet{n:04}") for n in range(WIDE)])


if __name__ == "__main__":
    main()
