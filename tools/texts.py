"""The texts of docs/TEXTS.md as the tools write and read them: names, image, job and the paths of show texts."""
import getpass
import os
import re
import struct
from binascii import unhexlify

MOST_ENTRIES = 4095
MOST_NAME = 255
MOST_ATTRIBUTE = 65_536
MOST_JOB = 268_435_456
MOST_PASSPHRASE = 64
MOST_SESSIONS = 16
MOST_ITEMS = 1_048_576
USUAL_SALT = b"0011223344556677"
SCRIPT_END = b"schedule\nend\n"
NODE = re.compile(rb"[1-9][0-9]{0,3}")
# The octets that don't stand for themselves in a name.
NO_SIGN = re.compile(rb"[^!-~]|[%/]", re.DOTALL)
BAD = re.compile(rb"bad [0-9a-z]+(?: [0-9a-z]+)*")


class Refused(Exception):
    """The line that tells why nothing is written."""


# ---- names and paths ----


def spelled(name):
    """A name as the texts spell it."""
    return NO_SIGN.sub(lambda found: b"%%%02x" % found[0][0], name)


def spelled_path(path):
    """The path on one line, whatever octets its names have."""
    return b"/".join(spelled(name) for name in path.split(b"/")).decode()


def check_name(name):
    """Refuses what is no name, so that no path leads out of its folder."""
    if name in (b"", b".", b"..") or b"/" in name or b"\0" in name:
        raise Refused("the path would leave the folder")
    if len(name) > MOST_NAME:
        raise Refused(f"a name has more than {MOST_NAME} octets")


def name_of(part):
    """The name that is spelled so."""
    name = re.sub(rb"%([0-9a-f]{2})", lambda found: unhexlify(found[1]), part)
    if spelled(name) != part:
        raise Refused("the path isn't spelled as one")
    check_name(name)
    return name


def path_of(text):
    """The path from the folder on, as octets."""
    if not text.startswith(b"/"):
        raise Refused("the path doesn't begin at the root")
    return b"/".join(name_of(part) for part in text[1:].split(b"/"))


# ---- image and job ----


def image_head(entries):
    """The front of an image with so many entries."""
    return b"ECRYIMG1" + struct.pack(">I", entries)


def entry_head(level, is_file, name):
    """The fields that each entry of an image has; behind them a file has its attribute's and its body's."""
    return struct.pack(">HBB", level, is_file, len(name)) + name


def attribute_field(attribute):
    """The attribute of a file, or that it has none."""
    return b"\0" if attribute is None else b"\1" + struct.pack(">I", len(attribute)) + attribute


def body_length(length):
    """The field in front of a body of so many octets."""
    return struct.pack(">I", length)


def job_head(key, names, image_length, meta="header"):
    """The lines of a job that stand in front of its image; its random octets are its own."""
    lines = [
        "ecryptfs-job 1",
        f"passphrase {key.passphrase.hex()}",
        f"salt {key.salt.hex()}",
        f"namesalt {key.name_salt.hex()}",
        f"names {names}",
        f"meta {meta}",
        f"random {os.urandom(32).hex()}",
        f"image {image_length}",
    ]
    return "".join(line + "\n" for line in lines).encode()


def script_head(lines):
    """What stands between the image and a script of so many lines, in a job of one session."""
    return b"\nsessions 1\nscript %d\n" % lines


def job_end(scripts=(b"",), schedule=()):
    """What stands behind the image, in a job of a session for each of these scripts, with the items of a schedule."""
    texts = [b"script %d\n" % script.count(b"\n") + script for script in scripts]
    return b"\nsessions %d\n" % len(scripts) + b"".join(texts) + b" ".join([b"schedule", *schedule]) + b"\nend\n"


# ---- passphrase and salt ----


def asked(question):
    """The answer of who sits at the terminal, which isn't shown there."""
    try:
        return os.fsencode(getpass.getpass(question))
    except EOFError:
        raise Refused("no answer was given") from None


def held_by(file):
    """What a file holds, without the line end behind it."""
    with open(file, "rb") as opened:
        return opened.read().removesuffix(b"\n")


def read_passphrase(file, is_asked_twice=False):
    """The passphrase in this file, or asked for where there is none."""
    passphrase = held_by(file) if file else asked("passphrase: ")
    if is_asked_twice and not file and asked("passphrase again: ") != passphrase:
        raise Refused("the two passphrases differ")
    if not 1 <= len(passphrase) <= MOST_PASSPHRASE:
        raise Refused(f"a passphrase has 1 to {MOST_PASSPHRASE} octets")
    return passphrase


def salt_of(digits):
    """The salt with these digits."""
    if not re.fullmatch(rb"[0-9A-Fa-f]{16}", digits):
        raise Refused("a salt has 16 hexadecimal digits")
    return bytes.fromhex(digits.decode())
