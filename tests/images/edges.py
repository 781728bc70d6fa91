# Image cases at the limits: every refusal of an image, and the accepted image on the other side of each limit.
# Called: imported by tests/images/cases.py; it does nothing when run.
# Reads: tests/images/image.py. The expected output is written here by hand, from the paper and docs/DECISIONS.md.
import sys

sys.dont_write_bytecode = True
from image import clocks, data, held, number, program, record, run, words

NEVER = 0x3BC00
P = program(NEVER)                        # 10 bytes: the record after it is at 10
D = data(5)                               # 10 bytes
H = held(1)                               # 15 bytes: after P and H the next is at 25

# The listing of an accepted image with no clock, one held clock, or one unheld clock of the word 3BC00H.
NOTHING = 'clock at word took\nend 0 held 0 refills 0 writebacks 0\n'
HELD_1 = 'clock at word took\nend 1 held 1 refills 0 writebacks 0\n'
ONCE = 'clock at word took\n1 000 3BC00 1\nend 1 held 0 refills 0 writebacks 0\n'


def lengths():
    """The image's own length, and headers cut at each byte."""
    yield 'S3.4-S4.9-empty', b'', 'refused 2 0\n'
    for size in range(1, 6):
        yield f'S3.3-bytes-{size}', bytes(size), 'refused 1 0\n'
        yield f'S3.3-header-of-kind-1-{size}', P[:size], 'refused 1 0\n'
    yield 'S3.4-bytes-6', bytes(6), 'refused 2 0\n'
    yield 'S3.4-zeros-65536', bytes(65536), 'refused 2 0\n'
    yield 'S3.3-S4.9-zeros-65537', bytes(65537), 'refused 1 0\n'
    many = held(65536) * 4368             # 10 + 6 + 15 * 4,368 = 65,536 bytes, and 286,261,248 clocks
    most = P + data() + many
    yield 'S4.4-most-records', most, 'clock at word took\nend 286261248 held 286261248 refills 0 writebacks 0\n'
    yield 'S3.3-S4.9-most-records-and-a-byte', most + b'\0', 'refused 1 0\n'
    yield 'S3.3-most-records-cut', most[:65535], 'refused 1 65521\n'
    yield 'S3.8-most-records-line-8', most[:65531] + b'\x08' + most[65532:], 'refused 6 65521\n'
    full = program(*[NEVER] * 4096) + data(*range(2040)) + H * 2731 + run(1)  # 16,390 + 8,166 + 15 * 2,732 = 65,536
    yield 'S3.3-full-65536', full, 'clock at word took\n2732 000 3BC00 1\nend 2732 held 2731 refills 0 writebacks 0\n'
    yield 'S3.3-S4.9-too-long-and-word-too-large', program(0x40000) + H * 4369, 'refused 1 0\n'   # 65,545 bytes
    for size in range(1, 6):
        yield f'S3.3-trailing-{size}', P + H + held(9)[:size], 'refused 1 25\n'
        yield f'S3.3-trailing-zeros-{size}', P + H + bytes(size), 'refused 1 25\n'
    yield 'S3.4-trailing-zeros-6', P + H + bytes(6), 'refused 2 25\n'


def cut_short():
    for kind, whole in ((1, P), (4, record(4, b'abcd'))):
        yield f'S3.3-kind-{kind}-one-byte-short', whole[:-1], 'refused 1 0\n'
        yield f'S3.3-kind-{kind}-no-payload', whole[:6], 'refused 1 0\n'
    for kind, whole in ((1, P), (2, D), (3, H), (0, record(0, b'a'))):
        yield f'S3.3-second-kind-{kind}-one-byte-short', P + whole[:-1], 'refused 1 10\n'
        yield f'S3.3-second-kind-{kind}-no-payload', P + whole[:6], 'refused 1 10\n'
    # Lengths that exceed 32 bits when the header's six bytes, or the offset, are added.
    for kind in (1, 2, 3, 4):
        for length in (0xFFFFFFFF, 0xFFFFFFFA, 0xFFFFFFFC, 0xFFFFFFF0, 0x80000000):
            yield f'S3.3-kind-{kind}-length-{length:x}', record(kind, words([NEVER]), length), 'refused 1 0\n'
    for kind in (2, 3, 4):
        for length in (0xFFFFFFFF, 0xFFFFFFFA, 0xFFFFFFF0):
            yield f'S3.3-second-kind-{kind}-length-{length:x}', P + record(kind, clocks(1), length), 'refused 1 10\n'
    # A length whose low bytes alone would be right.
    yield 'S3.3-S4.1-kind-1-length-10004', record(1, words([NEVER]), 0x10004), 'refused 1 0\n'
    yield 'S3.3-S4.1-kind-3-length-1000009', P + record(3, clocks(1), 0x1000009), 'refused 1 10\n'


def lengths_by(kind, size):
    """The sentence that says whether so many bytes are a payload of kind 1 or 2."""
    return 'S4.5' if size % 4 else {1: 'S4.2', 2: 'S4.3'}[kind]


def lengths_of_kinds():
    for size in (0, 1, 2, 3, 5, 6, 7, 9):
        yield f'S3.3-{lengths_by(1, size)}-kind-1-of-{size}', record(1, (words([NEVER]) * 3)[:size]), 'refused 1 0\n'
    for size in (4, 8):
        yield f'S4.2-kind-1-of-{size}', record(1, words([NEVER]) * (size // 4)), NOTHING
    for size in (16380, 16384):
        yield f'S4.2-kind-1-of-{size}', record(1, words([NEVER]) * (size // 4)) + run(1), ONCE
    for size in (16383, 16385, 16386, 16388):
        yield f'S3.3-{lengths_by(1, size)}-kind-1-of-{size}', record(1, (words([NEVER]) * 4097)[:size]), 'refused 1 0\n'
    for size in (0, 4, 8188, 8192):
        yield f'S4.3-kind-2-of-{size}', P + record(2, b'\xFF' * size) + run(1), ONCE
    for size in (1, 2, 3, 5, 6, 7, 8191, 8193, 8194, 8196):
        yield f'S3.3-{lengths_by(2, size)}-kind-2-of-{size}', P + record(2, bytes(size)), 'refused 1 10\n'
    for size in (0, 1, 4, 8, 10, 18):
        yield f'S3.3-S4.4-kind-3-of-{size}', P + record(3, (clocks(1) * 2)[:size]), 'refused 1 10\n'
    yield 'S4.4-kind-3-of-9', P + record(3, clocks(1)), ONCE
    yield 'S3.3-S4.3-kind-2-of-8196-behind-4096-words', program(*[NEVER] * 4096) + record(2, bytes(8196)), 'refused 1 16390\n'
    yield 'S3.3-S4.9-far-fault', program(*[NEVER] * 4096) + record(2, bytes(8192)) + run(1) + run(0), 'refused 1 24603\n'


def counts_and_line_bytes():
    for count, text in ((1, 'end 1 held 1'), (65535, 'end 65535 held 65535'), (65536, 'end 65536 held 65536')):
        yield f'S4.4-count-{count}', P + held(count), f'clock at word took\n{text} refills 0 writebacks 0\n'
    for count in (0, 65537, 65792, 0x20000, 0x1000001, 0x80000001, 0xFFFFFFFF):
        yield f'S3.3-S4.4-count-{count}', P + held(count), 'refused 1 10\n'
        yield f'S3.3-S4.9-count-{count}-of-a-later-record', P + D + H + held(count), 'refused 1 35\n'
    for line in (4, 5, 6, 7):
        yield f'S3.8-line-{line}', P + run(1, line), HELD_1
    for line in (0, 1, 2, 3):
        yield f'S3.8-line-{line}', P + run(1, line, 0xFFFFFFFF), ONCE
    for line in (8, 9, 12, 16, 128, 132, 255):
        yield f'S3.8-line-{line}', P + run(1, line), 'refused 6 10\n'
    yield 'S3.8-S4.9-line-8-of-a-later-record', P + D + H + run(1, 8), 'refused 6 35\n'
    yield 'S3.8-line-8-then-good', P + run(1, 8) + H, 'refused 6 10\n'


def kinds():
    """Kinds unknown, repeated, out of order; 257 to 259 have the low byte of a known kind, 256 is 1 with its bytes swapped."""
    for kind in (0, 4, 5, 256, 257, 258, 259, 768, 32769, 65535):
        ids = 'S3.4-S4.5' if kind > 255 else 'S3.4'
        yield f'{ids}-kind-{kind}', record(kind, words([NEVER])), 'refused 2 0\n'
        yield f'{ids}-kind-{kind}-after-kind-1', P + record(kind, clocks(1)), 'refused 2 10\n'
        yield f'S4.8-kind-{kind}-cut-short', P + record(kind, clocks(1), 10), 'refused 1 10\n'
    yield 'S3.4-kind-4-of-0', P + record(4, b''), 'refused 2 10\n'
    yield 'S3.4-kind-4-of-20000', P + record(4, bytes(20000)), 'refused 2 10\n'
    yield 'S3.4-kind-4-last', P + D + H + record(4, b''), 'refused 2 35\n'
    yield 'S3.4-kind-1-twice', P + P, 'refused 2 10\n'
    yield 'S3.4-kind-1-after-kind-2', P + D + P, 'refused 2 20\n'
    yield 'S3.4-kind-1-after-kind-3', P + H + P, 'refused 2 25\n'
    yield 'S4.8-kind-1-twice-length-5', P + record(1, bytes(5)), 'refused 1 10\n'
    yield 'S4.8-kind-1-twice-length-0', P + record(1, b''), 'refused 1 10\n'
    yield 'S4.8-kind-1-twice-word-too-large', P + program(0x40000), 'refused 2 10\n'
    yield 'S3.4-kind-2-first', D + P, 'refused 2 0\n'
    yield 'S3.4-kind-2-alone', D, 'refused 2 0\n'
    yield 'S3.4-kind-2-of-0-alone', data(), 'refused 2 0\n'
    yield 'S4.8-kind-2-first-length-6', record(2, bytes(6)), 'refused 1 0\n'
    yield 'S3.4-kind-2-twice', P + D + D, 'refused 2 20\n'
    yield 'S3.4-kind-2-of-0-twice', P + data() + data(), 'refused 2 16\n'
    yield 'S4.8-kind-2-twice-length-6', P + D + record(2, bytes(6)), 'refused 1 20\n'
    yield 'S3.4-kind-2-after-kind-3', P + H + D, 'refused 2 25\n'
    yield 'S4.8-kind-2-after-kind-3-length-8196', P + H + record(2, bytes(8196)), 'refused 1 25\n'
    yield 'S3.4-kind-3-first', H + P, 'refused 2 0\n'
    yield 'S3.4-kind-3-alone', H, 'refused 2 0\n'
    yield 'S4.8-kind-3-first-count-0', held(0) + P, 'refused 1 0\n'
    yield 'S4.8-kind-3-first-line-8', run(1, 8) + P, 'refused 2 0\n'
    yield 'S4.8-kind-3-first-length-8', record(3, bytes(8)), 'refused 1 0\n'


def program_words():
    for word in (0x40000, 0x80000000, 0x1000005, 0x100005, 0xFFFFFFFF):
        yield f'S3.5-first-word-{word:x}', program(word, 5, 5) + run(1), 'refused 3 0\n'
        yield f'S3.5-last-word-{word:x}', program(5, 5, word) + run(1), 'refused 3 0\n'
    yield 'S3.5-lone-word-40000', program(0x40000), 'refused 3 0\n'
    yield 'S3.5-word-4096-is-40000', program(*[NEVER] * 4095, 0x40000), 'refused 3 0\n'
    yield 'S3.5-word-4096-is-3ffff', program(*[NEVER] * 4095, 0x3FFFF) + run(1), ONCE
    yield 'S3.5-first-word-3ffff', program(0x3FFFF, 5, 5), NOTHING
    yield 'S3.5-last-word-3ffff', program(5, 5, 0x3FFFF), NOTHING
    yield 'S4.3-data-words-of-all-ones', P + data(0xFFFFFFFF, 0x40000) + run(1), ONCE


def two_faults():
    """In one record the first row counts, of two records the first one."""
    large = words([0x40000])
    yield 'S4.8-length-and-word', record(1, large + b'\0\0'), 'refused 1 0\n'
    yield 'S4.8-cut-short-and-word', record(1, large, 8), 'refused 1 0\n'
    yield 'S4.8-too-many-words-and-word', program(*[0x40000] * 4097), 'refused 1 0\n'
    yield 'S4.8-count-and-line', P + run(0, 8), 'refused 1 10\n'
    yield 'S4.8-count-65537-and-line-255', P + run(65537, 255), 'refused 1 10\n'
    yield 'S4.8-length-10-and-line', P + record(3, clocks(1, 8) + b'\0'), 'refused 1 10\n'
    yield 'S4.8-cut-short-and-line', P + run(1, 8)[:-1], 'refused 1 10\n'
    yield 'S4.8-order-count-and-line', run(0, 8), 'refused 1 0\n'
    yield 'S4.8-repeated-length-and-word', P + record(1, large + b'\0'), 'refused 1 10\n'
    yield 'S4.8-word-then-count', program(0x40000) + run(0), 'refused 3 0\n'
    yield 'S4.8-word-then-cut-short', program(0x40000) + b'\0', 'refused 3 0\n'
    yield 'S4.8-word-then-unknown', program(0x40000) + record(9, b''), 'refused 3 0\n'
    yield 'S4.8-line-then-cut-short', P + run(1, 8) + number(9, 4), 'refused 6 10\n'
    yield 'S4.8-line-then-count', P + run(1, 8) + run(0), 'refused 6 10\n'
    yield 'S4.8-line-then-unknown', P + run(1, 8) + record(0, b''), 'refused 6 10\n'
    yield 'S4.8-unknown-then-count', P + record(7, b'1234567') + run(0), 'refused 2 10\n'
    yield 'S4.8-unknown-then-cut-short', P + record(7, b'1234567') + b'\0', 'refused 2 10\n'
    yield 'S4.8-count-then-unknown', P + run(0) + record(7, b''), 'refused 1 10\n'
    yield 'S4.8-count-then-line', P + run(65537) + run(1, 8), 'refused 1 10\n'
    yield 'S4.8-kind-2-twice-then-line', P + D + D + run(1, 8), 'refused 2 20\n'
    yield 'S4.8-line-then-kind-2', P + D + run(1, 8) + D, 'refused 6 20\n'


PARTS = [lengths, cut_short, lengths_of_kinds, counts_and_line_bytes, kinds, program_words, two_faults]
