#!/usr/bin/env python3
"""Prints what the program `vectors` must print, in the same order, one subject after the other.

The examples of FIPS 180-4 and RFC 8439 stand here as those documents give them. Every other digest is from hashlib and every
other block from OpenSSL's command; both are also held to the documents' values. Nothing here was made by the proved code.

    tools/expected-vectors.py > crates/vectors/stdout
"""
import functools
import hashlib
import subprocess

OLD = 165  # what every output holds before the call


def refused(code, place, room):
    return "%d at %d %s" % (code, place, bytes([OLD] * room).hex())


# Subject: the hash and the cipher's block.

FIPS = [
    ("abc", b"abc", "ba7816bf8f01cfea414140de5dae2223b00361a396177a9cb410ff61f20015ad"),
    ("two blocks", b"abcdbcdecdefdefgefghfghighijhijkijkljklmklmnlmnomnopnopq",
     "248d6a61d20638b8e5c026930c3e6039a33ce45964ff2167f6ecedd419db06c1"),
    ("empty", b"", "e3b0c44298fc1c149afbf4c8996fb92427ae41e4649b934ca495991b7852b855"),
]
LENGTHS = [1, 55, 56, 63, 64, 65, 119, 120, 127, 128, 1000, 4096, 65535]

COUNTED = bytes(range(32))
NONCE = bytes([0, 0, 0, 9, 0, 0, 0, 74, 0, 0, 0, 0])
RFC = [
    ("2.3.2", COUNTED, NONCE, 1,
     "10f1e7e4d13b5915500fdd1fa32071c4c7d1f4c733c068030422aa9ac3d46c4e"
     "d2826446079faa0914c2d705d98b02a2b5129cd1de164eb9cbd083e8a2503c4e"),
    ("A.1 1", bytes(32), bytes(12), 0,
     "76b8e0ada0f13d90405d6ae55386bd28bdd219b8a08ded1aa836efcc8b770dc7"
     "da41597c5157488d7724e03fb8d84a376a43b8f41518a11cc387b669b2ee6586"),
    ("A.1 2", bytes(32), bytes(12), 1,
     "9f07e7be5551387a98ba977c732d080dcb0f29a048e3656912c6533e32ee7aed"
     "29b721769ce64e43d57133b074d839d531ed1f28510afb45ace10a1f4b794d6f"),
    ("A.1 3", bytes(31) + b"\1", bytes(12), 1,
     "3aeb5224ecf849929b9d828db1ced4dd832025e8018b8160b82284f3c949aa5a"
     "8eca00bbb4a73bdad192b5c42f73f2fd4e273644c8b36125a64addeb006c13a0"),
    ("A.1 4", b"\0\xff" + bytes(30), bytes(12), 2,
     "72d54dfbf12ec44b362692df94137f328fea8da73990265ec1bbbea1ae9af0ca"
     "13b25aa26cb4a648cb9b9d1be65b2c0924a66c54d545ec1b7374f4872e99f096"),
    ("A.1 5", bytes(32), bytes(11) + b"\2", 0,
     "c2c64d378cd536374ae204b9ef933fcd1a8b2288b3dfa49672ab765b54ee27c7"
     "8a970e0e955c14f3a88e741b97c286f75f8fc299e8148362fa198a39531bed6d"),
]


def generated(n):
    return bytes((7 * i + n) % 251 for i in range(n))


def block(key, nonce, counter):
    iv = counter.to_bytes(4, "little") + nonce
    run = subprocess.run(["openssl", "enc", "-chacha20", "-K", key.hex(), "-iv", iv.hex()], input=bytes(64), capture_output=True, check=True)
    return run.stdout.hex()


def symmetric():
    for name, message, digest in FIPS:
        assert hashlib.sha256(message).hexdigest() == digest, name
        yield "hash %s 0 at 0 %s" % (name, digest)
    for n in LENGTHS:
        yield "hash of %d into 32 0 at 0 %s" % (n, hashlib.sha256(generated(n)).hexdigest())
    for n, room, code in [(65536, 32, 6), (65536, 31, 6), (3, 31, 7), (3, 33, 7)]:
        yield "hash of %d into %d %s" % (n, room, refused(code, 1, room))
    for name, key, nonce, counter, out in RFC:
        assert block(key, nonce, counter) == out, name
        yield "block %s 0 at 0 %s" % (name, out)
    for counter in [0, 1, 2**31, 2**32 - 1]:
        yield "block counter %d 0 at 0 %s" % (counter, block(COUNTED, NONCE, counter))
    for name, code, place, room in [
        ("key of 31", 6, 1, 64), ("key of 33", 6, 1, 64), ("nonce of 11", 6, 2, 64), ("nonce of 13", 6, 2, 64),
        ("into 63", 7, 1, 63), ("into 65", 7, 1, 65),
        ("key of 0, nonce of 0, into 1", 6, 1, 1), ("nonce of 0, into 1", 6, 2, 1),
    ]:
        yield "block %s %s" % (name, refused(code, place, room))


# Subject: the code words, from section 3's sentence alone: place x of word r is the parity of the ones in (r AND x).

def place(mode, r, x):
    if mode == 1:
        return min(r, 1) if x < 128 else 0
    return bin(r & x).count("1") % 2 if x < 256 else 0


def word_byte(mode, r, p):
    return sum(place(mode, r, 8 * p + e) << e for e in range(8))


def words():
    for mode, r in [(1, 0), (1, 1), (2, 0), (2, 1), (2, 2), (2, 3), (2, 5), (2, 128), (2, 255)]:
        yield "word %d of mode %d %s" % (r, mode, bytes(word_byte(mode, r, p) for p in range(32)).hex())
    for mode, r, x in [(1, 0, 0), (1, 1, 0), (1, 1, 127), (1, 1, 128), (2, 255, 0), (2, 255, 254), (2, 255, 255), (2, 255, 256)]:
        byte = word_byte(mode, r, x // 8)
        yield "word %d of mode %d at place %d %s" % (r, mode, x, bytes([place(mode, r, x), byte, byte]).hex())
    every = hashlib.sha256(bytes(word_byte(2, r, p) for r in range(256) for p in range(32))).hexdigest()
    for way in ["by the table", "byte by byte", "from the bits of r", "by halving"]:
        yield "words %s 0 at 0 %s" % (way, every)


# Subject: messages, from sections 6 to 8 alone. A message here is a shape, a tag and a block of zeros; `cut` gives it another length and
# `set_byte` another byte.

SESSION = bytes(range(12))


def columns_of(mode):
    return 256 if mode == 2 else 128


def block_length(shape, tag):
    mode, m, n, l = shape
    return columns_of(mode) * -(-m // 8) if tag == 3 else m * n * l


def whole(shape, tag):
    mode, m, n, l = shape
    length = block_length(shape, tag)
    value = bytes([mode]) + m.to_bytes(2, "big") + n.to_bytes(2, "big") + bytes([l])
    return b"\1\0\6" + value + b"\2\0\x0c" + SESSION + bytes([tag]) + length.to_bytes(2, "big") + bytes(length)


def cut(message, total):
    return (message + bytes(total))[:total]


def set_byte(message, at, value):
    return message[:at] + bytes([value]) + message[at + 1:]


def take_field(message, at, tag, length):
    """The value of the field at byte `at`, or None where the field is malformed."""
    value = message[at + 3:at + 3 + length]
    fits = message[at:at + 3] == bytes([tag]) + length.to_bytes(2, "big") and len(value) == length
    return value if fits else None


def shape_of(value):
    return value[0], int.from_bytes(value[1:3], "big"), int.from_bytes(value[3:5], "big"), value[5]


def shape_refusal(shape):
    mode, m, n, l = shape
    tests = [mode in (1, 2), 1 <= m <= 1024, n == 2 if mode == 1 else 2 <= n <= 256, 1 <= l <= 32, m * n * l <= 32768]
    return ([number + 1 for number, ok in enumerate(tests) if not ok] + [0])[0]


def end_refusal(message, shape, tag):
    length = block_length(shape, tag)
    if len(message) > 27 + length:
        return 10, 27 + length
    if tag == 3:
        c = -(-shape[1] // 8)
        for i in range(columns_of(shape[0])):
            column = int.from_bytes(message[27 + i * c:27 + (i + 1) * c], "little")
            if column >> shape[1]:
                return 13, i
    return 0, 0


def listing(message):
    value = take_field(message, 0, 1, 6)
    if value is None:
        return "refused 10 at 0"
    shape = shape_of(value)
    if shape_refusal(shape):
        return "refused %d at 0" % shape_refusal(shape)
    session = take_field(message, 9, 2, 12)
    if session is None:
        return "refused 10 at 9"
    tag = message[24] if len(message) > 24 else 0
    length = block_length(shape, tag)
    if tag not in (3, 4) or take_field(message, 24, tag, length) is None:
        return "refused 10 at 24"
    code, place = end_refusal(message, shape, tag)
    if code:
        return "refused %d at %d" % (code, place)
    first = "%s mode %d rows %d places %d bytes %d" % (("columns" if tag == 3 else "answers",) + shape)
    return "%s\nsession %s\nblock %d" % (first, session.hex(), length)


def received(own, tag, message):
    value = take_field(message, 0, 1, 6)
    if value is None:
        return 10, 0
    mine = bytes([own[0]]) + own[1].to_bytes(2, "big") + own[2].to_bytes(2, "big") + bytes([own[3]])
    if value != mine:
        return 11, [a == b for a, b in zip(value, mine)].index(False)
    session = take_field(message, 9, 2, 12)
    if session is None:
        return 10, 9
    if session != SESSION:
        return 12, [a == b for a, b in zip(session, SESSION)].index(False)
    if take_field(message, 24, tag, block_length(own, tag)) is None:
        return 10, 24
    return end_refusal(message, own, tag)


PAIR = whole((1, 1, 2, 1), 4)
NINE = whole((1, 9, 2, 1), 3)
LISTED = [
    ("example", set_byte(PAIR, 27, 170)),
    ("columns of pairs", NINE),
    ("columns of choices", whole((2, 8, 40, 5), 3)),
    ("longest answers of pairs", whole((1, 1024, 2, 16), 4)),
    ("longest answers of choices", whole((2, 4, 256, 32), 4)),
    ("longest columns", whole((2, 1024, 2, 1), 3)),
    ("mode 0", whole((0, 1, 2, 1), 4)),
    ("mode 3", whole((3, 1, 2, 1), 4)),
    ("rows 0", whole((1, 0, 2, 1), 4)),
    ("rows 1025", whole((1, 1025, 2, 1), 4)),
    ("pairs with 3 places", whole((1, 1, 3, 1), 4)),
    ("choices with 1 place", whole((2, 1, 1, 1), 4)),
    ("choices with 257 places", whole((2, 1, 257, 1), 4)),
    ("bytes 0", whole((1, 1, 2, 0), 4)),
    ("bytes 33", whole((1, 1, 2, 33), 4)),
    ("5 rows of 256 places of 32 bytes", cut(whole((2, 5, 256, 32), 4), 27)),
    ("1024 rows of 2 places of 17 bytes", cut(whole((1, 1024, 2, 17), 4), 27)),
    ("mode 3 and rows 0", whole((3, 0, 2, 1), 4)),
    ("nothing", cut(PAIR, 0)),
    ("2 bytes", cut(PAIR, 2)),
    ("field 1 with tag 2", set_byte(PAIR, 0, 2)),
    ("field 1 of length 7", set_byte(PAIR, 2, 7)),
    ("field 1 of length 262", set_byte(PAIR, 1, 1)),
    ("8 bytes", cut(PAIR, 8)),
    ("9 bytes", cut(PAIR, 9)),
    ("field 2 with tag 3", set_byte(PAIR, 9, 3)),
    ("field 2 of length 11", set_byte(PAIR, 11, 11)),
    ("23 bytes", cut(PAIR, 23)),
    ("24 bytes", cut(PAIR, 24)),
    ("block with tag 5", set_byte(PAIR, 24, 5)),
    ("answers as columns", set_byte(PAIR, 24, 3)),
    ("block of length 3", set_byte(PAIR, 26, 3)),
    ("block of length 258", set_byte(PAIR, 25, 1)),
    ("one byte short", cut(PAIR, 28)),
    ("one byte more", cut(PAIR, 30)),
    ("one byte more than the longest", cut(whole((1, 1024, 2, 16), 4), 32796)),
    ("columns, one byte more", cut(NINE, 284)),
    ("padding in column 0", set_byte(NINE, 28, 2)),
    ("padding in column 127", set_byte(NINE, 282, 128)),
    ("padding, and one byte more", cut(set_byte(NINE, 28, 2), 284)),
    ("row 8, and no padding", set_byte(NINE, 28, 1)),
]
OWN = (2, 9, 41, 3)
COLUMNS = whole(OWN, 3)
RECEIVED = [
    ("columns", 3, COLUMNS),
    ("answers", 4, whole(OWN, 4)),
    ("answers for columns", 3, whole(OWN, 4)),
    ("columns for answers", 4, COLUMNS),
    ("40 places for 41", 3, whole((2, 9, 40, 3), 3)),
    ("pairs for choices", 3, whole((1, 9, 2, 3), 3)),
    ("265 rows for 9", 3, whole((2, 265, 41, 3), 3)),
    ("10 rows for 9", 3, whole((2, 10, 41, 3), 3)),
    ("4 bytes for 3", 3, whole((2, 9, 41, 4), 3)),
    ("session, first byte", 3, set_byte(COLUMNS, 12, 1)),
    ("session, last byte", 3, set_byte(COLUMNS, 23, 12)),
    ("nothing", 3, cut(COLUMNS, 0)),
    ("field 1 alone", 3, cut(COLUMNS, 9)),
    ("no block", 3, cut(COLUMNS, 24)),
    ("one byte short", 3, cut(COLUMNS, 538)),
    ("one byte more", 3, cut(COLUMNS, 540)),
    ("padding in column 255", 3, set_byte(COLUMNS, 538, 4)),
]


def messages():
    example = bytes.fromhex("01000601000100020102000C000102030405060708090A0B040002AABB")
    assert listing(example) == "answers mode 1 rows 1 places 2 bytes 1\nsession 000102030405060708090a0b\nblock 2"
    assert listing(b"") == "refused 10 at 0"
    for name, message in LISTED:
        yield "list %s\n%s" % (name, listing(message))
    for name, tag, message in RECEIVED:
        yield "received %s %d at %d" % ((name,) + received(OWN, tag, message))


# Subject: prepare, from sections 2 to 7 alone: words by parity, columns by xor, kept rows by transposition. A seed's keystream is
# OpenSSL's.

def by_rule(start, modulus, length):
    return bytes((7 * (i % 251) + start) % modulus for i in range(length))


@functools.lru_cache(maxsize=None)
def keystream(seed):
    return bytes.fromhex(block(seed, SESSION, 0) + block(seed, SESSION, 1))


def expanded(shape, seeds):
    mode, m, n, l = shape
    streams = [int.from_bytes(keystream(seeds[32 * i:32 * i + 32]), "little") for i in range(columns_of(mode))]
    return [stream % 2**m for stream in streams]


def handed_in(shape, lent):
    mode, m, n, l = shape
    c = -(-m // 8)
    columns = [int.from_bytes(lent[c * i:c * i + c], "little") for i in range(columns_of(mode))]
    assert all(column < 2**m for column in columns), "padding"
    return columns


def columns_by_rule(shape, form, start):
    """A set's columns as numbers of m bits: from seeds and on the seeds' columns they are the same; a number is a modulus."""
    k = columns_of(shape[0])
    if form in ("seeds", "the seeds' columns"):
        return expanded(shape, by_rule(start, 251, 32 * k))
    return handed_in(shape, by_rule(start, form, block_length(shape, 3)))


def prepare_refusal(shape, selections):
    if shape_refusal(shape):
        return shape_refusal(shape), 0
    for row, selection in enumerate(selections):
        if selection >= shape[2]:
            return 8, row
    return 0, 0


def prepared(shape, first, second, selections):
    mode, m, n, l = shape
    k, c = columns_of(mode), -(-m // 8)
    of_words = [sum(place(mode, selections[j], i) << j for j in range(m)) for i in range(k)]
    sent = b"".join((u ^ v ^ d).to_bytes(c, "little") for u, v, d in zip(first, second, of_words))
    of_kept = [v ^ d for v, d in zip(second, of_words)]
    rows = [sum((of_kept[i] >> j) % 2 << i for i in range(k)) for j in range(m)]
    return whole(shape, 3)[:27] + sent, b"".join(row.to_bytes(k // 8, "little") for row in rows)


def prepare_outcome(shape, form, changed):
    mode, m, n, l = shape
    selections = bytearray(by_rule(4, n, m))
    for row, selection in changed:
        selections[row] = selection
    code, at = prepare_refusal(shape, selections)
    if code:
        return code, at, bytes([OLD] * (27 + block_length(shape, 3))), bytes([OLD] * (m * columns_of(mode) // 8))
    sets = [columns_by_rule(shape, form, start) for start in (11, 29)]
    return (0, 0) + prepared(shape, sets[0], sets[1], selections)


def prepare_line(shape, form, changed=()):
    code, at, message, kept = prepare_outcome(shape, form, changed)
    where = "with %d in rows %d and %d, " % (changed[0][1], changed[0][0], changed[-1][0]) if changed else ""
    source = form if isinstance(form, str) else "columns"
    digests = hashlib.sha256(message).hexdigest(), hashlib.sha256(kept).hexdigest()
    return "prepare %smode %d rows %d places %d bytes %d from %s %d at %d %s %s" % ((where,) + shape + (source, code, at) + digests)


# A shape, and what the bytes of its columns are below.
BOUNDS = [
    ((2, 4, 256, 32), 16), ((1, 1024, 2, 16), 256), ((2, 5, 256, 32), 32), ((1, 1024, 2, 17), 256),
    ((1, 0, 2, 1), 2), ((1, 1025, 2, 1), 2), ((2, 0, 40, 1), 2), ((2, 1025, 40, 1), 2),
]


def prepare():
    for shape, modulus in BOUNDS:
        for form in ["seeds", modulus]:
            yield prepare_line(shape, form)
    for m, modulus in [(8, 256), (9, 2)]:
        for form in ["seeds", modulus, "the seeds' columns"]:
            yield prepare_line((2, m, 40, 3), form)
    for shape, form, selection in [
        ((1, 9, 2, 3), "seeds", 1), ((1, 9, 2, 3), 2, 2), ((2, 9, 40, 3), 2, 39), ((2, 9, 40, 3), "seeds", 40),
    ]:
        for rows in [(0, 0), (4, 4), (8, 8), (3, 6)]:
            yield prepare_line(shape, form, [(row, selection) for row in rows])
    marked, sent, kept = (2, 1, 8, 1), bytes.fromhex("0001010000010100") * 32, bytes([0x66] * 32)
    assert prepare_outcome(marked, 1, [(0, 3)]) == (0, 0, whole(marked, 3)[:27] + sent, kept), "P8 and P9"
    yield "prepare P8 0 at 0 %s" % sent.hex()
    yield "prepare P9 0 at 0 %s" % kept.hex()


for subject in [symmetric, words, messages, prepare]:
    for line in subject():
        print(line)
