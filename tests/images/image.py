# Builds images byte by byte: records of kinds 1, 2 and 3, and records with wrong headers.
# Called: imported by the cases, by tests/images/run and by examples/make; it does nothing when run.
# Reads: nothing. The layout is that of the paper, "Images and the listing program".
import sys

sys.dont_write_bytecode = True


def number(value, size):
    """A number in little-endian bytes."""
    return value.to_bytes(size, 'little')


def words(values):
    return b''.join(number(value, 4) for value in values)


def record(kind, payload, length=None):
    """A record of any kind; `length`, if given, replaces the payload's own length and may be wrong."""
    return number(len(payload) if length is None else length, 4) + number(kind, 2) + payload


def program(*values):
    return record(1, words(values))


def data(*values):
    return record(2, words(values))


def clocks(count, line_byte=0, inp=0):
    """The payload of a kind 3 record."""
    return number(count, 4) + bytes([line_byte]) + number(inp, 4)


def run(count, line_byte=0, inp=0):
    return record(3, clocks(count, line_byte, inp))


def held(count):
    return run(count, 4)


def row(name, image, text):
    """A case of cases.py; its text begins after a line break."""
    return name, image, text.removeprefix('\n')
