"""AES-128 on many blocks at once, by the formulas of FIPS 197: the octets at one place of all blocks stand one behind another."""


def times(a, b):
    """The product in the field of 256 (FIPS 197, 4.2)."""
    product = 0
    while b:
        product ^= a if b & 1 else 0
        a, b = (a << 1) ^ (0x11B if a & 0x80 else 0), b >> 1
    return product


def boxed(octet):
    """The S-box's value: the inverse in the field, and the affine map (FIPS 197, 5.1.1)."""
    inverse = next((other for other in range(256) if times(octet, other) == 1), 0)
    turned = inverse * 0x0101
    return 0x63 ^ inverse ^ (turned >> 4 ^ turned >> 5 ^ turned >> 6 ^ turned >> 7) & 0xFF


BOX = bytes(map(boxed, range(256)))
INVERSE_BOX = bytes(map(BOX.index, range(256)))
TIMES = {factor: bytes(times(factor, octet) for octet in range(256)) for factor in (1, 2, 3, 9, 11, 13, 14)}
MIX, INVERSE_MIX = (2, 3, 1, 1), (14, 11, 13, 9)
ROUNDS = 10
ALL = range(16)


def xored(*planes):
    """The exclusive or of lists of octets of one length."""
    total = 0
    for plane in planes:
        total ^= int.from_bytes(plane, "big")
    return total.to_bytes(len(planes[0]), "big")


def round_keys(key):
    """The round keys of a key, each as 16 octets (FIPS 197, 5.2)."""
    words, constant = [key[at : at + 4] for at in range(0, 16, 4)], 1
    for number in range(4, 4 * (ROUNDS + 1)):
        word = words[-1]
        if number % 4 == 0:
            word = xored((word[1:] + word[:1]).translate(BOX), bytes([constant, 0, 0, 0]))
            constant = times(constant, 2)
        words.append(xored(words[-4], word))
    return [b"".join(words[at : at + 4]) for at in range(0, len(words), 4)]


def keyed(planes, key):
    return [xored(plane, bytes([octet]) * len(plane)) for plane, octet in zip(planes, key)]


def shifted(planes, by):
    """Row r comes from the column that stands `by * r` further on."""
    return [planes[(place + 4 * by * (place % 4)) % 16] for place in ALL]


def mixed(planes, factors):
    """Each octet of a column becomes the sum of the products of the column with these factors, turned by its row."""
    column = lambda place: [planes[place - place % 4 + (place + more) % 4] for more in range(4)]
    return [xored(*(plane.translate(TIMES[factor]) for plane, factor in zip(column(place), factors))) for place in ALL]


def planes_of(octets):
    return [octets[place::16] for place in ALL]


def octets_of(planes):
    return b"".join(map(bytes, zip(*planes)))


def encrypt(key, octets):
    """Each block of 16 octets encrypted by itself (FIPS 197, 5.1)."""
    keys = round_keys(key)
    planes = keyed(planes_of(octets), keys[0])
    for number in range(1, ROUNDS + 1):
        planes = shifted([plane.translate(BOX) for plane in planes], 1)
        planes = keyed(planes if number == ROUNDS else mixed(planes, MIX), keys[number])
    return octets_of(planes)


def decrypt(key, octets):
    """Each block of 16 octets decrypted by itself (FIPS 197, 5.3)."""
    keys = round_keys(key)
    planes = keyed(planes_of(octets), keys[ROUNDS])
    for number in range(ROUNDS - 1, -1, -1):
        planes = keyed([plane.translate(INVERSE_BOX) for plane in shifted(planes, -1)], keys[number])
        planes = planes if number == 0 else mixed(planes, INVERSE_MIX)
    return octets_of(planes)
