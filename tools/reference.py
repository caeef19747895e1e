#!/usr/bin/env python3
"""Packages and records made a second time, by the rules of docs/FORMATS.md and with no code of the crates.

    reference.py          the packages that crates/vectors prints, in the same lines but without the verdicts
    reference.py table    the table docs/vectors/records.txt

so that the two can be compared by diff. AES-128 is that of the Python package `cryptography`; all else is written out
here. Ends with status 2 where `cryptography` is not installed.
"""

import sys

try:
    from cryptography.hazmat.primitives.ciphers import Cipher, algorithms, modes
except ImportError:
    print("reference.py: the Python package cryptography is not installed", file=sys.stderr)
    sys.exit(2)

CANARY = b"BAYMAP+SIGNTABLE"
FIRST_KEY = bytes(range(16))
LONGEST_FILE = 4092
WORD = (1 << 64) - 1


def aes128(key, block):
    encryptor = Cipher(algorithms.AES(key), modes.ECB()).encryptor()
    return encryptor.update(block) + encryptor.finalize()


def rotated_right(word, by):
    return (word >> by | word << (64 - by)) & WORD


def rotated_left(word, by):
    return (word << by | word >> (64 - by)) & WORD


def speck128(key, block):
    y, x = int.from_bytes(block[:8], "little"), int.from_bytes(block[8:], "little")
    k, l = int.from_bytes(key[:8], "little"), int.from_bytes(key[8:], "little")
    for i in range(32):
        x = (rotated_right(x, 8) + y & WORD) ^ k
        y = rotated_left(y, 3) ^ x
        l = (k + rotated_right(l, 8) & WORD) ^ i
        k = rotated_left(k, 3) ^ l
    return y.to_bytes(8, "little") + x.to_bytes(8, "little")


CIPHERS = {11: ("AES-128", aes128), 12: ("Speck128/128", speck128)}


def xor(a, b):
    return bytes(p ^ q for p, q in zip(a, b))


def number_block(i):
    return i.to_bytes(16, "little")


def blocks(data):
    """The blocks of 16 bytes with their numbers, from 1."""
    return [(at // 16 + 1, data[at:at + 16]) for at in range(0, len(data), 16)]


def frame(number, file):
    head = len(file).to_bytes(2, "little") + number.to_bytes(2, "little") + file
    return head + bytes(-len(head) % 16)


def masked(encrypt, key, data):
    return b"".join(xor(block, encrypt(key, number_block(i))) for i, block in blocks(data))


def bound(encrypt, key, data):
    for i, block in blocks(data):
        key = xor(key, encrypt(FIRST_KEY, xor(block, number_block(i))))
    return key


def seal(number, key, file):
    assert len(file) <= LONGEST_FILE and len(key) == 16
    _, encrypt = CIPHERS[number]
    body = masked(encrypt, key, frame(number, file) + CANARY)
    return body + bound(encrypt, key, body)


def unseal(number, package):
    _, encrypt = CIPHERS[number]
    body, last = package[:-16], package[-16:]
    message = masked(encrypt, bound(encrypt, last, body), body)
    assert message[-16:] == CANARY
    file = message[4:4 + int.from_bytes(message[:2], "little")]
    assert frame(number, file) == message[:-16]
    return file


def gf256_product(a, b):
    product = 0
    for i in range(8):
        if b >> i & 1:
            product ^= a << i
    for j in reversed(range(8)):
        if product >> 8 + j & 1:
            product ^= 0x11D << j
    return product


class Gf256:
    number, size, width, stored = 1, 256, 1, 1
    add = subtract = staticmethod(lambda a, b: a ^ b)
    multiply = staticmethod(gf256_product)


class Gf65537:
    number, size, width, stored = 2, 65537, 2, 3
    add = staticmethod(lambda a, b: (a + b) % 65537)
    subtract = staticmethod(lambda a, b: (a - b) % 65537)
    multiply = staticmethod(lambda a, b: a * b % 65537)


FIELDS = [Gf256, Gf65537]


def inverse(field, a):
    """The power of a whose exponent is the size less 2."""
    power = 1
    for bit in bin(field.size - 2)[2:]:
        power = field.multiply(power, power)
        if bit == "1":
            power = field.multiply(power, a)
    return power


def coefficients(field, points, values):
    """The polynomial through the points, its constant coefficient first: the equations solved by elimination."""
    rows = []
    for x, y in zip(points, values):
        row = [1]
        while len(row) < len(points):
            row.append(field.multiply(row[-1], x))
        rows.append(row + [y])
    for i in range(len(rows)):
        at = next(r for r in range(i, len(rows)) if rows[r][i])
        rows[i], rows[at] = rows[at], rows[i]
        scale = inverse(field, rows[i][i])
        rows[i] = [field.multiply(scale, e) for e in rows[i]]
        for r in range(len(rows)):
            if r != i:
                factor = rows[r][i]
                rows[r] = [field.subtract(e, field.multiply(factor, p)) for e, p in zip(rows[r], rows[i])]
    return [row[-1] for row in rows]


def value(field, polynomial, x):
    result = 0
    for coefficient in reversed(polynomial):
        result = field.add(coefficient, field.multiply(x, result))
    return result


def numbers(data, width):
    return [int.from_bytes(data[at:at + width], "little") for at in range(0, len(data), width)]


def cut(field, k, n, issue, package):
    """The records of all cabinets."""
    symbols = numbers(package, field.width)
    symbols += [0] * (-len(symbols) % k)
    columns = [symbols[at:at + k] for at in range(0, len(symbols), k)]
    polynomials = [coefficients(field, range(k), column) for column in columns]
    head = [6 + field.stored * len(columns), field.number, issue]
    start = b"".join(number.to_bytes(2, "little") for number in head)
    return [
        start + b"".join(value(field, p, cabinet).to_bytes(field.stored, "little") for p in polynomials)
        for cabinet in range(n)
    ]


def join(field, k, length, positions, records):
    """The package of that length, from the records of the cabinets at the positions."""
    stored = [numbers(record[6:], field.stored) for record in records]
    symbols = []
    for column in zip(*stored):
        polynomial = coefficients(field, positions, column)
        symbols += [value(field, polynomial, i) for i in range(k)]
    used = length // field.width
    assert not any(symbols[used:])
    return b"".join(symbol.to_bytes(field.width, "little") for symbol in symbols[:used])


def counted_file(length):
    """The file of so many bytes that begins 0, 7, 14: byte i is 7 i modulo 256."""
    return bytes(7 * i % 256 for i in range(length))


# key and file of each package that is printed in full
SMALL = [
    ("000102030405060708090a0b0c0d0e0f", b""),
    ("2b7e151628aed2a6abf7158809cf4f3c", b"bay 7: signs"),
    ("ffeeddccbbaa99887766554433221100", b"bay 12: ramps"),
]

# and of the one whose last block alone is printed, which depends on all the others
LARGE = ("2b7e151628aed2a6abf7158809cf4f3c", counted_file(LONGEST_FILE))


def print_package(number, key, file, shown):
    package = seal(number, bytes.fromhex(key), file)
    assert unseal(number, package) == file
    print(f"{CIPHERS[number][0]}: {len(file)} bytes sealed to {len(package)} under {key}")
    for i, block in blocks(package)[-shown:]:
        print(f"  block {i:3}  {block.hex()}")


def print_packages():
    for number in CIPHERS:
        for key, file in SMALL:
            print_package(number, key, file, shown=4)
        print_package(number, *LARGE, shown=1)


# k, n, issue, key, how many bytes of the counted file, and the cabinets that are joined, for each entry of the table
ENTRIES = [
    (1, 1, 1, bytes(range(16)), 0, [0]),
    (1, 3, 65535, bytes(range(255, -1, -17)), 12, [2]),
    (3, 5, 258, b"a key drawn once", 13, [4, 0, 3]),
    (4, 4, 1, bytes(16), 1, [3, 1, 0, 2]),
    (16, 16, 65535, bytes([255] * 16), 0, list(range(15, -1, -1))),
    (2, 16, 2, b"third byte132115", 12, [12, 2]),
    (7, 9, 40000, b"a key drawn once", 257, [8, 7, 6, 5, 4, 3, 2]),
]

# and of the longest one
LONGEST_ENTRY = (1, 1, 1, b"a key drawn once", LONGEST_FILE, [0])


def print_entry(entry, number, field, k, n, issue, key, length, joined):
    file = counted_file(length)
    package = seal(number, key, file)
    records = cut(field, k, n, issue, package)
    assert join(field, k, len(package), joined, [records[c] for c in joined]) == package
    assert unseal(number, package) == file
    print(f"entry {entry}")
    print(f"cipher {number}\nfield {field.number}\nk {k}\nn {n}\nissue {issue}")
    print(f"key {key.hex()}")
    print(f"file {file.hex()}".rstrip())
    print(f"package {package.hex()}")
    for cabinet, record in enumerate(records):
        print(f"record {cabinet} {record.hex()}")
    print("join", *joined, end="\n\n")


def print_table():
    entries = [(number, field, *e) for number in CIPHERS for field in FIELDS for e in ENTRIES]
    entries.append((12, Gf65537, *LONGEST_ENTRY))
    for i, entry in enumerate(entries, start=1):
        print_entry(i, *entry)


if __name__ == "__main__":
    if sys.argv[1:] == ["table"]:
        print_table()
    else:
        print_packages()
