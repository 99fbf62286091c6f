"""What the benches of the tools share: files to work on, and the processor time and memory of a command."""
import os
import subprocess
import sys

MEBIBYTE = 1 << 20


def write(path, octets):
    """Writes a file."""
    with open(path, "wb") as file:
        file.write(octets)


def run(command, **streams):
    """The processor seconds of a command and of what it started, and the most memory that one of them had."""
    process = subprocess.Popen(command, **streams)
    _, status, usage = os.wait4(process.pid, 0)
    if status:
        sys.exit(f"{command} ended with status {os.waitstatus_to_exitcode(status)}")
    return usage.ru_utime + usage.ru_stime, usage.ru_maxrss * 1024


def on_one_processor():
    """Keeps what follows to one processor."""
    os.sched_setaffinity(0, {min(os.sched_getaffinity(0))})
