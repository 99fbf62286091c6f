"""Where octets that are no job are bad: a reader of the grammar in docs/TEXTS.md, from the left to the first line that isn't good."""
import re

MOST_ENTRIES = 4_095
LONGEST_NAME = 255
LONGEST_ATTRIBUTE = 65_536
LONGEST_PASSPHRASE = 64
MOST_SESSIONS = 16
MOST_OPERATIONS = 65_536
MOST_ITEMS = 1_048_576
LAST_SLOT = 15
LAST_OFFSET = 2**40 - 1
LONGEST_TRANSFER = 65_536
# An `image N` has no bound, and Python's `int` takes no more than some thousand digits: a number with more digits than this is as good as any.
MOST_DIGITS = 30


class Bad(Exception):
    """Something isn't good where it stands; its first octet is at this place."""

    def __init__(self, place):
        super().__init__(place)
        self.place = place


# ---- fields ----


def number_of(text):
    """The number that is spelled so; None where none is."""
    return int(text[:MOST_DIGITS]) if re.fullmatch(rb"0|[1-9][0-9]*", text) else None


def numbers(least, most):
    """Whether a text spells a number from least to most."""
    return lambda text: number_of(text) is not None and least <= number_of(text) <= most


def octets(least, most):
    """Whether a text is HEX of so many octets."""
    return lambda text: re.fullmatch(rb"(?:[0-9a-f]{2})+", text) is not None and least <= len(text) // 2 <= most


def words(*choice):
    """Whether a text is one of these."""
    return lambda text: text in choice


def is_name(name):
    return 1 <= len(name) <= LONGEST_NAME and not set(name) & set(b"\0/") and name not in (b".", b"..")


def spelled(name):
    stands_for_itself = lambda octet: 0x21 <= octet <= 0x7E and octet not in b"%/"
    return b"".join(b"%c" % octet if stands_for_itself(octet) else b"%%%02x" % octet for octet in name)


def is_spelled_name(text):
    name = re.sub(rb"%([0-9a-f]{2})", lambda digits: bytes.fromhex(digits[1].decode()), text)
    return is_name(name) and spelled(name) == text


def is_path(text):
    return text == b"/" or text[:1] == b"/" and all(map(is_spelled_name, text[1:].split(b"/")))


# ---- lines ----


def fields(text, word, *forms):
    """Whether a line without its end is this word and fields of these forms."""
    first, *others = text.split(b" ")
    return first == word and len(others) == len(forms) and all(form(other) for form, other in zip(forms, others))


SETTINGS = (
    (b"ecryptfs-job", words(b"1")),
    (b"passphrase", octets(1, LONGEST_PASSPHRASE)),
    (b"salt", octets(8, 8)),
    (b"namesalt", octets(8, 8)),
    (b"names", words(b"plain", b"tag70")),
    (b"meta", words(b"header", b"attribute")),
    (b"random", octets(32, 32)),
)
is_slot, is_offset, is_length = numbers(0, LAST_SLOT), numbers(0, LAST_OFFSET), numbers(1, LONGEST_TRANSFER)
OPERATIONS = {
    b"mkdir": (is_path,),
    b"rmdir": (is_path,),
    b"unlink": (is_path,),
    b"rename": (is_path, is_path),
    b"list": (is_path,),
    b"stat": (is_path,),
    b"open": (is_slot, is_path),
    b"create": (is_slot, is_path),
    b"read": (is_slot, is_offset, is_length),
    b"write": (is_slot, is_offset, octets(1, LONGEST_TRANSFER)),
    b"truncate": (is_slot, is_offset),
    b"size": (is_slot,),
    b"sync": (is_slot,),
    b"close": (is_slot,),
}


def is_operation(text):
    word = text.split(b" ")[0]
    return word in OPERATIONS and fields(text, word, *OPERATIONS[word])


def is_schedule(text, sessions):
    word, *items = text.split(b" ")
    return word == b"schedule" and len(items) <= MOST_ITEMS and all(map(numbers(0, sessions - 1), set(items)))


class Text:
    """Octets that are taken from the left."""

    def __init__(self, octets):
        self.octets, self.at = octets, 0

    def line(self, is_good):
        """The next line without its end."""
        begin, end = self.at, self.octets.find(b"\n", self.at)
        if end < 0 or not is_good(self.octets[begin:end]):
            raise Bad(begin)
        self.at = end + 1
        return self.octets[begin:end]

    def number(self, word, least, most):
        """The number of a line of a word and a number."""
        return number_of(self.line(lambda text: fields(text, word, numbers(least, most))).split(b" ")[1])

    def image(self, count):
        """The image of so many octets, and the line end behind it."""
        begin = self.at
        if len(self.octets) - begin < count:
            raise Bad(begin)
        try:
            check_image(self.octets[begin : begin + count])
        except Bad as bad:
            raise Bad(begin + bad.place) from None
        self.at += count
        self.line(lambda text: text == b"")


# ---- the image ----


class Fields:
    """Octets that are taken from the left, field by field."""

    def __init__(self, octets):
        self.octets, self.at = octets, 0

    def piece(self, length, is_good=lambda piece: True):
        begin, end = self.at, self.at + length
        if end > len(self.octets) or not is_good(self.octets[begin:end]):
            raise Bad(begin)
        self.at = end
        return self.octets[begin:end]

    def number(self, length, least, most):
        return int.from_bytes(self.piece(length, lambda piece: least <= int.from_bytes(piece, "big") <= most), "big")


def check_image(octets):
    image = Fields(octets)
    image.piece(8, lambda piece: piece == b"ECRYIMG1")
    # the last name in each open directory, of which the root is the first
    last = [b""]
    for _ in range(image.number(4, 0, MOST_ENTRIES)):
        level = image.number(2, 1, len(last))
        is_file = image.number(1, 0, 1)
        name = image.piece(image.number(1, 1, LONGEST_NAME), lambda name: is_name(name) and name > last[level - 1])
        last[level - 1 :] = [name] if is_file else [name, b""]
        if is_file and image.number(1, 0, 1):
            image.piece(image.number(4, 0, LONGEST_ATTRIBUTE))
        if is_file:
            image.piece(image.number(4, 0, 2**32))
    if image.at < len(octets):
        raise Bad(image.at)


# ---- the job ----


def check_job(octets):
    text = Text(octets)
    for setting in SETTINGS:
        text.line(lambda line: fields(line, *setting))
    text.image(text.number(b"image", 0, float("inf")))
    sessions = text.number(b"sessions", 1, MOST_SESSIONS)
    for _ in range(sessions):
        for _ in range(text.number(b"script", 0, MOST_OPERATIONS)):
            text.line(is_operation)
    text.line(lambda line: is_schedule(line, sessions))
    text.line(words(b"end"))
    if text.at < len(octets):
        raise Bad(text.at)


def place_of(octets):
    """The place at which octets are bad; None of a job."""
    try:
        check_job(octets)
    except Bad as bad:
        return bad.place
    return None
