#!/usr/bin/env python3
# A second implementation from the paper: what the listing program prints for an image, refused or run.
# Called: python3 tests/images/listing.py prints the listing of its standard input; the other scripts here import it.
# Reads: tests/machine/machine.py, whose clock it runs. It shares nothing with crates/.
import sys
from pathlib import Path

sys.dont_write_bytecode = True
sys.path.insert(0, str(Path(__file__).resolve().parents[1] / 'machine'))
import machine as m

LONGEST = 65536                           # bytes of an image, and clocks of a kind 3 record
PROGRAM, DATA, RUN = 1, 2, 3
STORE = 2048                              # words
HEADER = 6


def number(part):
    return int.from_bytes(part, 'little')


def words(payload):
    return [number(payload[at:at + 4]) for at in range(0, len(payload), 4)]


# ---- "Where calls are turned down": the rows for a record, in the table's order

def length_wrong(kind, length):
    if kind == PROGRAM:
        return length % 4 != 0 or not 4 <= length <= 16384
    if kind == DATA:
        return length % 4 != 0 or length > 4 * STORE
    return kind == RUN and length != 9


def out_of_place(kind, before):
    """Whether a kind is unknown, repeated or out of order; `before` has the kinds of the records before it."""
    if kind == PROGRAM:
        return before != []
    if kind == DATA:
        return before != [PROGRAM]
    return kind != RUN or before == []


def fault(image, at, before):
    """The refusal number of the record at an offset, 0 for none."""
    header = image[at:at + HEADER]
    if len(header) < HEADER:
        return 1
    length, kind = number(header[:4]), number(header[4:])
    payload = image[at + HEADER:at + HEADER + length]
    if len(payload) < length or length_wrong(kind, length):
        return 1
    if kind == RUN and not 1 <= number(payload[:4]) <= LONGEST:
        return 1
    if out_of_place(kind, before):
        return 2
    if kind == PROGRAM and any(word > 0x3FFFF for word in words(payload)):
        return 3
    if kind == RUN and payload[4] > 7:
        return 6
    return 0


def refusal(image):
    """(number, offset) of the first fault, or None."""
    if len(image) > LONGEST:
        return 1, 0
    if not image:
        return 2, 0
    at, before = 0, []
    while at < len(image):
        if bad := fault(image, at, before):
            return bad, at
        length, kind = number(image[at:at + 4]), number(image[at + 4:at + HEADER])
        before.append(kind)
        at += HEADER + length
    return None


# ---- the listing of an image that is not refused

def records(image):
    """(kind, payload) of each record."""
    at = 0
    while at < len(image):
        end = at + HEADER + number(image[at:at + 4])
        yield number(image[at + 4:at + HEADER]), image[at + HEADER:end]
        at = end


def run_rows(program, machine, store, runs):
    """A line for each instruction finished and each interrupt taken."""
    took = 0
    for count, line_byte, inp in runs:
        if line_byte & 4:                      # held clocks add to the two counts and do nothing else
            machine.clocks += count
            machine.held += count
            continue
        for _ in range(count):
            at = machine.pc
            _, _, done = m.clock(program, machine, store, line_byte, inp)
            took += 1
            if done:
                yield f'{machine.clocks} {at:03X} {m.word_at(program, at):05X} {took}'
                took = 0
            elif machine.phase == m.READY:  # ready, and nothing was executed: an interrupt, PC 2 or 3
                yield f'{machine.clocks} {at:03X} irq{machine.pc - 2} {took}'
                took = 0


def rows(image):
    if found := refusal(image):
        yield 'refused {} {}'.format(*found)
        return
    program, store, runs = [], [0] * STORE, []
    for kind, payload in records(image):
        if kind == PROGRAM:
            program = words(payload)
        elif kind == DATA:
            given = words(payload)
            store[:len(given)] = given
        else:
            runs.append((number(payload[:4]), payload[4], number(payload[5:])))
    machine = m.reset(store)
    yield 'clock at word took'
    yield from run_rows(program, machine, store, runs)
    yield f'end {machine.clocks} held {machine.held} refills {machine.refills} writebacks {machine.writebacks}'


def listing(image):
    """All that the program prints; each line ends in one line feed."""
    return ''.join(f'{row}\n' for row in rows(image))


if __name__ == '__main__':
    sys.stdout.write(listing(sys.stdin.buffer.read()))
