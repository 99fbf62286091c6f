"""The metadata of a lower file as the tools look into it (docs/FORMAT.md): its size and whose key it is sealed with.

What a file decodes to, or why it doesn't, the program alone says.
"""
import errno
import hashlib
import os
import struct
from dataclasses import dataclass
from functools import cache

ATTRIBUTE = "user.ecryptfs"
METADATA_ROOM = 4096
MOST_CONTENT = 67_108_864
MOST_HEADER = 1_048_576
# No octet of a body behind these is ever read.
MOST_BODY = MOST_HEADER + MOST_CONTENT
AES_256 = 9


@dataclass(frozen=True)
class Pair:
    """A tag 3 packet and the tag 11 packet behind it."""

    salt: bytes
    cipher: int
    signature: bytes


@dataclass(frozen=True)
class Metadata:
    size: int
    pairs: tuple


def attribute_of(file):
    """The attribute of a file that is open or stands at this path, None where it has none."""
    try:
        return os.getxattr(file, ATTRIBUTE, **({} if isinstance(file, int) else {"follow_symlinks": False}))
    except OSError as error:
        if error.errno in (errno.ENODATA, errno.ENOTSUP):
            return None
        raise


def packet_at(octets, offset, tag):
    """The body of the packet with this tag at the offset, and the offset behind it; None where there is none."""
    front = octets[offset : offset + 3]
    if len(front) < 3 or front[0] != tag or front[1] > 223:
        return None
    long = front[1] > 191
    length = (front[1] - 192) * 256 + front[2] + 192 if long else front[1]
    begin = offset + 2 + long
    return (octets[begin : begin + length], begin + length) if begin + length <= len(octets) else None


def pairs_of(octets):
    """The pairs in the metadata, up to the first that can't be read."""
    pairs, offset = [], 26
    while sealed := packet_at(octets, offset, 0x8C):
        named = packet_at(octets, sealed[1], 0xED)
        if named is None or len(sealed[0]) < 13 or len(named[0]) < 14:
            break
        pairs.append(Pair(sealed[0][4:12], sealed[0][1], named[0][-8:]))
        offset = named[1]
    return tuple(pairs)


def metadata_of(octets):
    """What an attribute, or the head of a body, tells; None where it is no metadata."""
    if len(octets) < 26:
        return None
    size, mark, sealed_mark = struct.unpack(">QII", octets[:16])
    if mark ^ sealed_mark != 0x3C81B7F5:
        return None
    return Metadata(size, pairs_of(octets[:METADATA_ROOM]))


@cache
def signature_of(passphrase, salt):
    """The signature of the key that the passphrase makes with this salt."""
    key = salt + passphrase
    for _ in range(65_536):
        key = hashlib.sha512(key).digest()
    return hashlib.sha512(key).digest()[:8]
