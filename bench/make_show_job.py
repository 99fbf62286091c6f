#!/usr/bin/env python3
"""Writes a job whose image holds 300 encrypted files, with 40,000,000 octets of content in all; the same octets each time.

    bench/make_show_job.py > JOB

Half of the files have their metadata at the head of the body, half in the attribute. Wrapped keys, marks and extents are
drawn: any octets are the cipher text of some content, so nothing has to be encrypted here, and the content is known only
once it is decrypted.
"""
import hashlib
import struct
import sys

FILES, DIRECTORIES, CONTENT, EXTENT, HEADER = 300, 20, 40_000_000, 4096, 8192
PASSPHRASE = b"test"
SALT = bytes.fromhex("0011223344556677")


def drawn(what, length):
    """Octets that look random, and are the same in each run."""
    return hashlib.shake_256(what.encode()).digest(length)


def signature():
    key = hashlib.sha512(SALT + PASSPHRASE).digest()
    for _ in range(65_535):
        key = hashlib.sha512(key).digest()
    return hashlib.sha512(key).digest()[:8]


def sizes():
    """Each size is about a twentieth above the one before; the last takes what is left of the content."""
    rising = [2099**step // 2000**step for step in range(FILES)]
    rising[0] = 0
    rising[-1] += CONTENT - sum(rising)
    return rising


def metadata(file, size, flags, ours):
    mark = drawn(f"mark {file}", 4)
    second = struct.pack(">I", struct.unpack(">I", mark)[0] ^ 0x3C81B7F5)
    fixed = struct.pack(">Q", size) + mark + second + bytes([3, 0, 0, flags]) + struct.pack(">IH", EXTENT, HEADER // EXTENT)
    tag3 = bytes.fromhex("8c1d04070301") + SALT + b"\x60" + drawn(f"wrapped key {file}", 16)
    tag11 = bytes.fromhex("ed166208") + b"_CONSOLE" + bytes(4) + ours
    return fixed + tag3 + tag11


def entry(level, kind, name, rest=b""):
    return struct.pack(">HBB", level, kind, len(name)) + name.encode() + rest


def file_entry(file, size, ours):
    extents = drawn(f"extents {file}", -(-size // EXTENT) * EXTENT)
    if file % 2:
        attribute = metadata(file, size, 0x2 | 0x4, ours)
        rest = b"\1" + struct.pack(">I", len(attribute)) + attribute + struct.pack(">I", len(extents)) + extents
    else:
        body = metadata(file, size, 0x2, ours).ljust(HEADER, b"\0") + extents
        rest = b"\0" + struct.pack(">I", len(body)) + body
    return entry(2, 1, f"file{file:03}", rest)


def image():
    ours, parts = signature(), []
    by_file = list(enumerate(sizes()))
    for directory in range(DIRECTORIES):
        parts.append(entry(1, 0, f"directory{directory:02}"))
        parts += [file_entry(file, size, ours) for file, size in by_file[directory::DIRECTORIES]]
    return b"ECRYIMG1" + struct.pack(">I", len(parts)) + b"".join(parts)


def main():
    tree = image()
    lines = [
        "ecryptfs-job 1",
        f"passphrase {PASSPHRASE.hex()}",
        f"salt {SALT.hex()}",
        f"namesalt {SALT.hex()}",
        "names plain",
        "meta header",
        f"random {bytes(32).hex()}",
        f"image {len(tree)}",
    ]
    out = sys.stdout.buffer
    out.write("".join(line + "\n" for line in lines).encode())
    out.write(tree)
    out.write(b"\nsessions 1\nscript 0\nschedule\nend\n")


if __name__ == "__main__":
    main()
