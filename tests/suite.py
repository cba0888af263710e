"""What examples/suite.s works out, worked out by Python: by its libraries where they have it, and else as plainly as can be."""

import hashlib
import itertools
import math
import struct
import zlib

MASK = 0xFFFFFFFF
TEXT = b"The quick brown fox jumps over the lazy dog"
# the key and the two words of XTEA, and three rows of Life
KEY, PLAIN = bytes(range(16)), b"ABCDEFGH"
ROWS = {7: 0x18000, 8: 0x30000, 9: 0x10000}
PRODUCTS = [(math.pi, math.e), (-1.5, 1.1), (0.1, 0.1)]


def words_of(data):
    """The words of bytes, the first byte on top."""
    return list(struct.unpack(f">{len(data) // 4}I", data))


def parted(value, count):
    """A number as so many words, the highest first."""
    return words_of(value.to_bytes(4 * count, "big"))


def hashed(words):
    value = 0
    for word in words:
        value = 31 * value + word & MASK
    return value


def drawn(count):
    """Random words: each from the one before by shifts of 13, 17 and 5 bits."""
    value, words = 0x92D68CA2, []
    for _ in range(count):
        value ^= value << 13 & MASK
        value ^= value >> 17
        value ^= value << 5 & MASK
        words.append(value)
    return words


def crc_word(byte):
    """The word of a byte in the table of CRC-32, by its definition."""
    for _ in range(8):
        byte = byte >> 1 ^ (0xEDB88320 if byte & 1 else 0)
    return byte


def xtea(words, key):
    """The two words that XTEA makes of two, in 32 rounds."""
    first, second, total = *words, 0
    for _ in range(32):
        first = first + ((second << 4 ^ second >> 5) + second ^ total + key[total & 3]) & MASK
        total = total + 0x9E3779B9 & MASK
        second = second + ((first << 4 ^ first >> 5) + first ^ total + key[total >> 11 & 3]) & MASK
    return [first, second]


def product(first, second):
    """The product of two matrices of 8 by 8 words, row by row."""
    return [sum(first[8 * row + k] * second[8 * k + column] for k in range(8)) & MASK for row in range(8) for column in range(8)]


def queens(count):
    return sum(len({i + at for i, at in enumerate(places)}) == count == len({i - at for i, at in enumerate(places)})
               for places in itertools.permutations(range(count)))


def fibonacci(number):
    first, second = 0, 1
    for _ in range(number):
        first, second = second, first + second
    return first


def life(rows, generations):
    """The 16 rows of 32 cells, whose ends meet, after so many generations."""
    alive = {(y, x) for y, row in rows.items() for x in range(32) if row >> x & 1}
    for _ in range(generations):
        beside = {}
        for (y, x), dy, dx in itertools.product(alive, (-1, 0, 1), (-1, 0, 1)):
            place = (y + dy) % 16, (x + dx) % 32
            beside[place] = beside.get(place, 0) + (dy != 0 or dx != 0)
        alive = {it for it, count in beside.items() if count == 3 or count == 2 and it in alive}
    return [sum(1 << x for x in range(32) if (y, x) in alive) for y in range(16)]


def float_word(value):
    """The word of the nearest number of 32 bits with a floating point."""
    return words_of(struct.pack(">f", value))[0]


def float_product(first, second):
    """By numbers of 64 bits, in which the product of two of 32 is exact."""
    cut = lambda value: struct.unpack(">f", struct.pack(">f", value))[0]
    return float_word(cut(first) * cut(second))


def steps(value):
    """How many lead to 1."""
    count = 0
    while value != 1:
        value, count = (3 * value + 1 if value % 2 else value // 2), count + 1
    return count


def results():
    """The parts of the program in their order, each with its words."""
    random, primes = drawn(256), [n for n in range(2, 500) if all(n % d for d in range(2, n))]
    square, board = product(random[:64], random[64:128]), life(ROWS, 6)
    return [
        ("CRC-32", [hashed(map(crc_word, range(256))), zlib.crc32(b"123456789"), zlib.crc32(TEXT)]),
        ("Adler-32", [zlib.adler32(TEXT)]),
        ("MD5", words_of(hashlib.md5(TEXT, usedforsecurity=False).digest())),
        ("SHA-1", words_of(hashlib.sha1(TEXT, usedforsecurity=False).digest())),
        ("XTEA", xtea(words_of(PLAIN), words_of(KEY)) + words_of(PLAIN)),
        ("quicksort", [sum(random) & MASK] * 2 + [0, hashed(sorted(random, key=lambda it: it ^ 0x80000000))]),
        ("heapsort", [hashed(sorted(random[:64]))]),
        ("matrices", [sum(square[::9]) & MASK, hashed(square)]),
        ("primes", [len(primes), sum(primes)]),
        ("queens", [queens(4), queens(5), queens(6)]),
        ("divisors", [math.lcm(*range(1, 13)), math.gcd(102334155, 832040)]),
        ("roots", [math.isqrt(2000000000), math.isqrt(MASK)]),
        ("20!", parted(math.factorial(20), 2)),
        ("digits", words_of(b"%12d" % MASK)),
        ("Fibonacci", parted(fibonacci(100), 3)),
        ("Life", [sum(bin(row).count("1") for row in board), hashed(board)]),
        ("10!", [math.factorial(10)]),
        ("products", [float_product(*pair) for pair in PRODUCTS]),
        ("sine, cosine", [math.floor(65536 * it(math.radians(-60))) & MASK for it in (math.sin, math.cos)]),
        ("letters", [sum({1 << byte - 97 for byte in TEXT.lower() if 97 <= byte < 123})]),
        ("place", [TEXT.index(b"lazy")]),
        ("steps", [steps(27)]),
    ]
