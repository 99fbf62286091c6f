"""Coded names as the tools look into them (docs/FORMAT.md): whose key a name is sealed with.

What name it stands for, or that it stands for none, the program alone says.
"""
import re
from base64 import b64decode
from dataclasses import dataclass

CODED_PREFIX = b"ECRYPTFS_FNEK_ENCRYPTED."
TAG_70 = 0x46
# The letters that stand for the packet's octets up to its cipher, and one more.
FRONT = re.compile(rb"[-.0-9A-Za-z]{16}")
# The 64 letters of coded names in their order, and those of base64 in theirs.
IN_BASE64 = bytes.maketrans(
    b"-.0123456789ABCDEFGHIJKLMNOPQRSTUVWXYZabcdefghijklmnopqrstuvwxyz",
    b"ABCDEFGHIJKLMNOPQRSTUVWXYZabcdefghijklmnopqrstuvwxyz0123456789+/",
)


@dataclass(frozen=True)
class NameSeal:
    """What a coded name says of the key that it is encrypted with."""

    cipher: int
    signature: bytes


def is_coded(name):
    """Whether a lower name is written as a coded one."""
    return name.startswith(CODED_PREFIX)


def seal_of(name):
    """What a coded name is sealed with; None where that can't be read."""
    letters = FRONT.match(name, len(CODED_PREFIX))
    if letters is None:
        return None
    octets = b64decode(letters[0].translate(IN_BASE64))
    # (a length of two octets is longer than any name)
    return NameSeal(octets[10], octets[2:10]) if octets[0] == TAG_70 and octets[1] < 192 else None
