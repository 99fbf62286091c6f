"""What tools/recover and tools/seal check before anything is written, and how many programs they run at once."""
import os
import subprocess

from keys import Key
from texts import Refused, image_head, job_end, job_head, spelled_path

PROGRAM = os.path.join(os.path.dirname(os.path.dirname(os.path.abspath(__file__))), "crates", "mount_prog", "out", "mount_prog")
MOUNTS = "/proc/self/mountinfo"
MOST_WORKERS = 8


# ---- folders ----


def identity(path):
    """What tells one folder from another."""
    found = os.stat(path)
    return found.st_dev, found.st_ino


def existing_above(path):
    """The path and those above it, as far as they are there, from below."""
    while True:
        if os.path.lexists(path):
            yield path
        if path == os.path.dirname(path):
            return
        path = os.path.dirname(path)


def check_apart(source, target, what):
    """Refuses a target that is the source (`what` is its name), or stands above or below it."""
    name, places = spelled_path(target), list(existing_above(target))
    if identity(source) in map(identity, places):
        raise Refused(f"{name}: it is {what} or stands in it")
    if places[0] == target and not os.path.isdir(target):
        raise Refused(f"{name}: it is no folder")
    if places[0] == target and identity(target) in map(identity, existing_above(source)):
        raise Refused(f"{name}: {what} stands in it")


def ecryptfs_devices(mounts):
    """The device numbers of the mounted eCryptfs, from lines as /proc/self/mountinfo has them."""
    rows = [line.split() for line in mounts]
    return {row[2] for row in rows if row[row.index("-") + 1] == "ecryptfs"}


def check_mount(target):
    """Refuses a target on a mounted eCryptfs."""
    device = os.stat(next(existing_above(target))).st_dev
    with open(MOUNTS) as mounts:
        if f"{os.major(device)}:{os.minor(device)}" in ecryptfs_devices(mounts):
            raise Refused(f"{spelled_path(target)}: it is on a mounted eCryptfs")


def check_outside(folder, path, what):
    """Refuses a record or a list that would stand in a folder (`what` is its name)."""
    if identity(folder) in map(identity, existing_above(os.path.dirname(os.path.realpath(path)))):
        raise Refused(f"{spelled_path(path)}: it would stand in {what}")


def check_room(target, need):
    """Refuses a target without room for so many octets."""
    room = os.statvfs(next(existing_above(target)))
    free = room.f_bavail * room.f_frsize
    if need > free:
        raise Refused(f"{spelled_path(target)}: the files have {need} octets, and {free} are free there")


# ---- the program ----


def run_program(program, command, job):
    """The status and the output of the program; refused where it can't be started."""
    try:
        ran = subprocess.run([program, command], input=job, capture_output=True)
    except OSError as error:
        raise Refused(f"the program {program}: {error.strerror} (README, Try it, says how to build it)") from None
    return ran.returncode, ran.stdout


def check_program(program, names):
    """Refuses a program that doesn't do an empty job with names of this form."""
    image = image_head(0)
    job = job_head(Key(b"x", bytes(8), bytes(8)), names, len(image)) + image + job_end()
    status, shown = run_program(program, "show", job)
    if (status, shown) != (0, b"ecryptfs-show 1\nend\n"):
        raise Refused(f"the program {program} doesn't do an empty job with {names} names (status {status})")


def jobs_for(words, job_memory):
    """How many programs run at once: at most eight, within the processors and half of the memory, where a job takes so much."""
    memory = os.sysconf("SC_PAGE_SIZE") * os.sysconf("SC_PHYS_PAGES")
    return words.jobs or max(1, min(len(os.sched_getaffinity(0)), MOST_WORKERS, memory // 2 // job_memory))
