"""Which upper name a lower name stands for, and as which lower name an upper name is written, as docs/FORMAT.md has it."""
import hashlib

import aes

PREFIX = b"ECRYPTFS_FNEK_ENCRYPTED."
LETTERS = b"-.0123456789ABCDEFGHIJKLMNOPQRSTUVWXYZabcdefghijklmnopqrstuvwxyz"
TAG_70 = 0x46
AES_128 = 7
LEAD = 16


def is_name(octets):
    return 1 <= len(octets) <= 255 and not set(octets) & set(b"\0/") and octets not in (b".", b"..")


class PlainNames:
    """Each name stands for itself."""

    longest = 255

    def upper_name(self, lower):
        return lower

    def written(self, upper):
        return upper


class CodedNames:
    """Names that are encrypted under a name key."""

    longest = 143

    def __init__(self, signed_key):
        self.key, self.signature = signed_key.key[:16], signed_key.signature
        self.lead = hash_chain(signed_key.key)

    def upper_name(self, lower):
        """The upper name; None where the lower name stands for none."""
        if not lower.startswith(PREFIX):
            return lower
        packet = letters_read(lower[len(PREFIX) :])
        sealed = packet and self.sealed_in(packet)
        if not sealed:
            return None
        lead, zero, name = aes.decrypt(self.key, sealed).partition(b"\0")
        return name if zero and len(lead) >= LEAD and is_name(name) else None

    def sealed_in(self, packet):
        """The encrypted name in a packet, behind which at most two zeros stand; None where it is no packet of ours."""
        length = packet[1] if len(packet) > 1 else 0
        rest = packet[2 + length :]
        front = packet[:1] == bytes([TAG_70]) and packet[2:11] == self.signature + bytes([AES_128])
        fits = 9 + 32 <= length < 192 and length % 16 == 9 and len(packet) >= 2 + length and rest in (b"", b"\0", b"\0\0")
        return packet[11 : 2 + length] if front and fits else None

    def written(self, upper):
        """The lower name; None of a name that is longer than any that is written."""
        if len(upper) > self.longest:
            return None
        sealed = aes.encrypt(self.key, self.lead[: LEAD + -(LEAD + 1 + len(upper)) % 16] + b"\0" + upper)
        packet = bytes([TAG_70, 9 + len(sealed)]) + self.signature + bytes([AES_128]) + sealed
        return PREFIX + letters_of(packet)


def hash_chain(key):
    """The octets of a lead: MD5 of the name key and then of each digest, without a zero."""
    digest = hashlib.md5(key).digest()
    return (digest + hashlib.md5(digest).digest()).replace(b"\0", b"\x42")


def letters_of(octets):
    """Octets as letters of six bits each, with zeros behind them up to a multiple of three."""
    octets += bytes(-len(octets) % 3)
    number, count = int.from_bytes(octets, "big"), len(octets) // 3 * 4
    return bytes(LETTERS[number >> 6 * place & 63] for place in reversed(range(count)))


def letters_read(letters):
    """The octets that letters stand for; None where they stand for none."""
    if len(letters) % 4 or not set(letters) <= set(LETTERS):
        return None
    number = 0
    for letter in letters:
        number = number << 6 | LETTERS.index(letter)
    return number.to_bytes(len(letters) // 4 * 3, "big")
