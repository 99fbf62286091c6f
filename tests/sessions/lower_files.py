"""What a lower file decodes to, or the first cause why it doesn't, as docs/FORMAT.md has it."""
import hashlib
import struct
from dataclasses import dataclass

import aes

EXTENT = 4096
METADATA_ROOM = 4096
PACKETS_AT = 26
MOST_SIZE = 67_108_864
HEADER_SIZES = range(8192, 1_048_577, 4096)
AES_128 = 7
TAG_1, TAG_3, TAG_11 = 0x01, 0x8C, 0xED
HMAC, ENCRYPTED = 0x1, 0x2


class Bad(Exception):
    """Why a file can't be decoded."""


@dataclass(frozen=True)
class SignedKey:
    """The key that a passphrase makes with a salt, and its signature."""

    key: bytes
    signature: bytes


@dataclass(frozen=True)
class Pair:
    """What a tag 3 packet and the tag 11 packet behind it tell."""

    cipher: int
    wrapped: bytes
    signature: bytes


def passphrase_key(passphrase, salt):
    """The key of a passphrase: 65,536 times SHA-512; one more gives the signature."""
    key = salt + passphrase
    for _ in range(65_536):
        key = hashlib.sha512(key).digest()
    return SignedKey(key, hashlib.sha512(key).digest()[:8])


# ---- metadata ----


def packet_at(octets, place, tag):
    """The content of the packet with this tag, and the place behind it."""
    front = octets[place : place + 3]
    long = front[1:2] >= b"\xc0"
    if front[:1] != bytes([tag]) or len(front) < 2 + long or front[1] > 223:
        raise Bad(f"packet {place}")
    length = (front[1] - 192) * 256 + front[2] + 192 if long else front[1]
    begin = place + 2 + long
    if begin + length > len(octets):
        raise Bad(f"packet {place}")
    return octets[begin : begin + length], begin + length


def pair_at(octets, place):
    """The pair that begins at this place, and the place behind it."""
    sealed, middle = packet_at(octets, place, TAG_3)
    if not 13 <= len(sealed) <= 525 or (sealed[0], sealed[2], sealed[3]) != (4, 3, 1):
        raise Bad(f"packet {place}")
    named, end = packet_at(octets, middle, TAG_11)
    if len(named) < 14 or len(named) != 14 + named[1]:
        raise Bad(f"packet {middle}")
    return Pair(sealed[1], sealed[13:], named[-8:]), end


def pairs_of(octets):
    """The pairs of a set of packets, which ends where it ends or where none begins."""
    pairs, place = [], PACKETS_AT
    while octets[place : place + 1] in (bytes([tag]) for tag in (TAG_1, TAG_3, TAG_11)):
        if octets[place] == TAG_1:
            raise Bad(f"tag1 {place}")
        pair, place = pair_at(octets, place)
        pairs.append(pair)
    if not pairs:
        raise Bad("nopacket")
    return pairs


def wrapped_key(pairs, ours):
    """The wrapped file key of the first pair with our signature."""
    pair = next((pair for pair in pairs if pair.signature == ours.signature), None)
    if pair is None:
        raise Bad(f"wrongkey {pairs[0].signature.hex()} {ours.signature.hex()}")
    if pair.cipher != AES_128 or len(pair.wrapped) != 16:
        raise Bad(f"cipher {pair.cipher}")
    return pair.wrapped


def header_size(octets):
    """The size that the metadata says that the header has."""
    extent, count = struct.unpack(">IH", octets[20:26])
    if extent * count not in HEADER_SIZES:
        raise Bad(f"headersize {extent * count}")
    return extent * count


def check_fixed(octets):
    """Marker, version and flags."""
    if len(octets) < PACKETS_AT:
        raise Bad(f"short {len(octets)}")
    mark, sealed_mark, word = struct.unpack(">III", octets[8:20])
    if mark ^ sealed_mark != 0x3C81B7F5:
        raise Bad(f"marker {mark:08x} {sealed_mark:08x}")
    if word >> 24 != 3:
        raise Bad(f"version {word >> 24}")
    if word & HMAC:
        raise Bad("hmac")
    if not word & ENCRYPTED:
        raise Bad("notencrypted")


# ---- content ----


@dataclass
class LowerFile:
    """A lower file: its attribute or None, and its body."""

    attribute: bytes | None
    body: bytes

    @property
    def is_empty(self):
        return self.attribute is None and not self.body

    def metadata(self, ours):
        """The size of the file, where its data starts, and its wrapped key."""
        octets = self.body if self.attribute is None else self.attribute
        check_fixed(octets)
        start = header_size(octets) if self.attribute is None else 0
        wrapped = wrapped_key(pairs_of(octets[:METADATA_ROOM]), ours)
        size = int.from_bytes(octets[:8], "big")
        if size > MOST_SIZE:
            raise Bad(f"toolarge {size}")
        need = start + data_length(size)
        if len(self.body) < need:
            raise Bad(f"shortdata {len(self.body)} {need}")
        return size, start, wrapped

    def kept_octets(self, start):
        """What a write-out leaves of metadata whose data starts here: all but the size."""
        return (None, self.body[8:start]) if self.attribute is None else (self.attribute[8:], b"")

    def plain_text(self, ours):
        """The octets of the file, and those that stand behind them in its last extent."""
        size, start, wrapped = self.metadata(ours)
        key = aes.decrypt(ours.key[:16], wrapped)
        octets = decrypted(key, self.body[start : start + data_length(size)])
        return octets[:size], octets[size:]

    def last_extent(self, size, start):
        """The last extent of a file of this size as it lies there."""
        end = start + data_length(size)
        return self.body[max(start, end - EXTENT) : end]

    def content(self, ours):
        """The octets of the file."""
        return b"" if self.is_empty else self.plain_text(ours)[0]


def data_length(size):
    """How many octets the extents of a file of this size have."""
    return -(-size // EXTENT) * EXTENT


def initial_vector(root, extent):
    return hashlib.md5(root + (b"%d" % extent).ljust(16, b"\0")).digest()


def decrypted(key, extents):
    """The plain text of extents, each by itself in CBC under the IV of its number."""
    if not extents:
        return b""
    root = hashlib.md5(key).digest()
    before = b"".join(
        initial_vector(root, at // EXTENT) + extents[at : at + EXTENT - 16] for at in range(0, len(extents), EXTENT)
    )
    return aes.xored(aes.decrypt(key, extents), before)
