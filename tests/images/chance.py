# Random images: good ones with all kinds of words and clocks, and good ones with some bytes spoiled.
# Called: imported by tests/images/long.py and run; it does nothing when run.
# Reads: tests/images/image.py, tests/machine/machine.py for the words. Its random numbers are the same on every machine.
import sys
from pathlib import Path

sys.dont_write_bytecode = True
sys.path.insert(0, str(Path(__file__).resolve().parents[1] / 'machine'))
import machine as m
from image import data, number, program, run

NUMBERS = [0, 1, 2, 4, 7, 8, 255, 0x3FF, 0x8000, 0xFFC0, 0x3FFFF, 0x40000, 0x7FFFFFFF, 0x80000000, 0xFFFFFFC0, 0xFFFFFFFF]


class Dice:
    """A congruential generator of 64 bits; a number is the upper half of its state."""

    def __init__(self, seed):
        self.state = seed * 0x9E3779B97F4A7C15 % (1 << 64)
        self.below(2)

    def below(self, limit):
        self.state = (self.state * 6364136223846793005 + 1442695040888963407) % (1 << 64)
        return (self.state >> 32) % limit

    def among(self, low, high):
        return low + self.below(high - low + 1)

    def one_of(self, things):
        return things[self.below(len(things))]

    def chance(self, percent):
        return self.below(100) < percent


# ---- good images

def transfer(dice):
    """LD or ST: mostly base zero, few blocks of few cache lines, so that hits and dirty misses occur; R1 is often the devices' base."""
    kind, d = dice.one_of((m.ld, m.st)), dice.among(0, 6)
    if dice.chance(25):
        return kind(d, 1, dice.below(64))
    if dice.chance(20):
        return kind(d, dice.below(8), dice.below(256))
    return kind(d, 7, dice.one_of((0, 128)) + 8 * dice.below(3) + dice.below(8))


def short(dice):
    op = dice.one_of((0, 1, 2, 2, 3, 3, 4, 5, 6, 7, 10))
    if dice.chance(40):
        return m.reg(op, dice.below(8), dice.below(8)) | dice.one_of((0, 8))
    return m.imm(op, dice.below(8), dice.one_of((0, 1, 2, 5, 31, 64, 128, 1023)))


def control(dice):
    return dice.one_of((m.status(dice.below(16)), m.status(8 + dice.below(4)), m.status(dice.below(4)), m.jump(dice.below(8)),
                        m.jump_link(dice.below(8), dice.below(8)), m.rti(7), m.rti(dice.below(8))))


def word(dice):
    by = dice.below(100)
    if by < 30:
        return transfer(dice)
    if by < 55:
        return short(dice)
    if by < 60:
        return m.imm(dice.one_of((m.MUL, m.DIV)), dice.below(8), dice.below(1024))
    if by < 70:
        return control(dice)
    if by < 85:
        return m.branch(dice.below(16), dice.among(-6, 4))
    if by < 88:
        return m.call(dice.below(6))
    if by < 92:
        return m.BRANCH_NEVER
    return dice.below(1 << 18)


def records(dice):
    """The records of a good image, in order."""
    first = [m.imm(m.SUB, 1, 64), m.status(dice.one_of((0, 3, 8, 8, 11, 11)))] if dice.chance(70) else []
    yield program(*first, *(word(dice) for _ in range(dice.among(1, 30))))
    if dice.chance(60):
        yield data(*(dice.one_of(NUMBERS) for _ in range(dice.one_of((0, 1, 20, 150)))))
    for _ in range(dice.below(16)):
        line_byte = dice.one_of((0, 0, 0, 0, 0, 1, 2, 3, 4, 4, 5, 7))
        yield run(dice.one_of((1, 1, dice.among(1, 12), 1 if line_byte else dice.among(10, 60))), line_byte, dice.one_of(NUMBERS))


def good(dice):
    return b''.join(records(dice))


# ---- spoiled images

def spoiled_field(dice, image):
    """Replaces four bytes somewhere, or the length of a record, or a count by a number of the list."""
    at = dice.below(max(1, len(image) - 3))
    return image[:at] + number(dice.one_of(NUMBERS), 4) + image[at + 4:]


def cut(dice, image):
    return image[:dice.below(len(image) + 1)]


def flipped(dice, image):
    at = dice.below(len(image))
    return image[:at] + bytes([image[at] ^ 1 << dice.below(8)]) + image[at + 1:]


def put_in(dice, image):
    at = dice.below(len(image) + 1)
    return image[:at] + bytes(dice.one_of((0, 1, 3, 4, 9, 255)) for _ in range(dice.among(1, 6))) + image[at:]


def taken_out(dice, image):
    at = dice.below(len(image))
    return image[:at] + image[at + dice.among(1, 4):]


def odd_run(dice, image):
    """Appends a run, held if it is good; its count and its line byte are at a limit or beyond."""
    return image + run(dice.one_of((0, 1, 1, 65536, 65537)), dice.one_of((4, 7, 8, 255)), dice.one_of(NUMBERS))


def shuffled(dice, _):
    """Records of two images, one of them twice or moved."""
    parts = [*records(dice), *records(dice)]
    at, to = dice.below(len(parts)), dice.below(len(parts))
    return b''.join(parts[:to] + [parts[at]] + parts[to:])


def spoiled(dice):
    image = good(dice)
    for _ in range(dice.among(1, 2)):
        if image:
            image = dice.one_of((spoiled_field, cut, flipped, flipped, put_in, taken_out, odd_run, odd_run, shuffled))(dice, image)
    return image
