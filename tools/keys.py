"""The passphrase of a tree with its salts, tested by the signatures that stand in the tree's files and names."""
from collections import Counter
from dataclasses import dataclass, field

from metadata import AES_256, signature_of
from names import is_coded, seal_of
from texts import USUAL_SALT, salt_of

# That of ecryptfs-utils, which takes the first eight letters of 9988776655443322 as they stand.
UTILS_NAME_SALT = b"99887766"
MOST_SALTS = 4
MOST_SIGNATURES = 3
HINT = "the passphrase of the mount isn't that of the login"
HINTS = {"file": HINT, "name": HINT + "; --namesalt names another salt"}


@dataclass(frozen=True)
class Key:
    """A passphrase, and the salts with which it makes the key of files and that of names."""

    passphrase: bytes
    salt: bytes
    name_salt: bytes


@dataclass
class Seals:
    """What the files and the names of a tree are sealed with, and how many of them; and whether names are coded."""

    files: Counter = field(default_factory=Counter)
    names: Counter = field(default_factory=Counter)
    has_coded_names: bool = False

    def add_file(self, metadata):
        """Adds what a file's metadata tells."""
        self.files.update(metadata.pairs)

    def add_name(self, name):
        """Adds what a lower name tells."""
        if is_coded(name):
            self.has_coded_names = True
            if seal := seal_of(name):
                self.names[seal] += 1


@dataclass(frozen=True)
class Fault:
    """Why files, or names, don't open; whether none of them does."""

    what: str
    line: str
    is_whole: bool


def fault_of(what, seals, passphrase, salts):
    """Why not all files, or names, with these seals open; None where nothing speaks against it."""
    ours = [signature_of(passphrase, salt) for salt in salts]
    opened = Counter({seal: count for seal, count in seals.items() if seal.signature in ours})
    looked_at = opened or seals
    longer = sum(count for seal, count in looked_at.items() if seal.cipher == AES_256)
    if longer and longer == looked_at.total():
        return Fault(what, f"the {what}s are encrypted by AES-256, which isn't read yet", True)
    if not opened:
        theirs = dict.fromkeys(seal.signature.hex() for seal, _ in seals.most_common())
        told = f"its signature is {' or '.join(each.hex() for each in ours)}, that of the {what}s {', '.join([*theirs][:MOST_SIGNATURES])}"
        return Fault(what, f"no {what} opens with this passphrase: {told} ({HINTS[what]})", True)
    if longer:
        return Fault(what, f"some {what}s are encrypted by AES-256, which isn't read yet: {longer} of {looked_at.total()}", False)
    return None


def fitting(passphrase, salts, seals):
    """The first of the salts with which the passphrase has the signature of a seal; else the first of all."""
    theirs = {seal.signature for seal in seals}
    return next((salt for salt in salts if theirs and signature_of(passphrase, salt) in theirs), salts[0])


def salts_of(salt, seals):
    """The salts of the key of files that are tried: the given one, else the usual one and those that stand in the files."""
    if salt:
        return [salt]
    there = Counter(pair.salt for pair in seals.files.elements()).most_common(MOST_SALTS)
    return [*dict.fromkeys([salt_of(USUAL_SALT), *(each for each, _ in there)])]


def find_key(passphrase, salt, name_salt, seals):
    """The key of a tree, with the first salts that fit where none are given, and the faults of its files and names."""
    salts = salts_of(salt, seals)
    salt = fitting(passphrase, salts, seals.files)
    name_salts = [name_salt] if name_salt else [UTILS_NAME_SALT, salt] if seals.names else [salt]
    key = Key(passphrase, salt, fitting(passphrase, name_salts, seals.names))
    faults = [
        fault_of("file", seals.files, passphrase, salts) if seals.files else None,
        fault_of("name", seals.names, passphrase, [*dict.fromkeys(name_salts)]) if seals.names else None,
    ]
    return key, [fault for fault in faults if fault]
