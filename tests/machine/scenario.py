# The scenario of crates/trm_core/specs/Scenario.antt on the machine of machine.py: what the clocks of both machines must give.
# Called: python3 tests/machine/scenario.py prints the expected numbers; with --trace a line for each clock; tests/machine/run imports it.
# Reads: nothing. The words, line bytes and digests are written here as in that file, from the paper.
import sys

sys.dont_write_bytecode = True
import machine as m
from machine import branch, call, imm, jump, ld, mov_h, reg, rti, st, status

# each word and what it is
PROGRAM = [
    (status(11), 'cache on, both interrupts enabled'),
    (branch(14, 2), 'branch always to 4'),
    (branch(14, 23), 'interrupt 0: branch always to 26'),
    (rti(7), 'interrupt 1: RTI'),
    (imm(m.NOT, 1, 63), 'R1 := FFFFFFC0H, the base of the devices'),
    (ld(2, 1, 5), 'LD R2 from device 5'),
    (st(2, 7, 0), 'ST R2 to 0: a clean miss on line 0'),
    (imm(m.SUB, 3, 7), 'R3 := -7'),
    (st(3, 7, 1), 'ST R3 to 1: a hit'),
    (ld(4, 7, 128), 'LD R4 from 128: a dirty miss on line 0'),
    (reg(m.MUL, 3, 4), 'MUL R3 by R4'),
    (branch(0, 5), 'branch on Z, not taken'),
    (imm(m.DIV, 3, 10), 'DIV R3 by 10'),
    (call(10), 'call 24'),
    (st(5, 7, 137), 'ST R5 to 137: a clean miss on line 1'),
    (st(3, 7, 130), 'ST R3 to 130: a hit on line 0'),
    (status(3), 'cache off: lines 0 and 1 are dirty'),
    (ld(6, 7, 137), 'LD R6 from 137, uncached'),
    (st(4, 7, 2), 'ST R4 to 2, uncached'),
    (status(11), 'cache on'),
    (ld(6, 7, 1), 'LD R6 from 1: block 0 refills again'),
    (ld(0, 7, 130), 'LD R0 from 130: a clean miss on line 0, which is full'),
    (st(6, 1, 9), 'ST R6 to device 9'),
    (branch(14, 4), 'branch always to 28'),
    (mov_h(5), 'the call: R5 := H'),
    (jump(7), 'and back'),
    (imm(m.ADD, 1, 1), 'interrupt 0: R1 of bank 1 one up'),
    (rti(7), 'RTI'),
    (st(4, 7, 130), 'ST R4 to 130: a hit on line 0'),
    (ld(2, 7, 130), 'LD R2 from 130: a hit on a dirty line'),
    (st(2, 7, 9), 'ST R2 to 9: a clean miss on line 1'),
    (ld(5, 7, 137), 'LD R5 from 137: a dirty miss on line 1, while line 0 is dirty too'),
    (branch(14, -1), 'branch always to itself'),
]

# how many clocks have a line byte: 4 is the stall, 1 and 2 the interrupts
LINE_BYTES = [
    (5, 0), (1, 4), (7, 0), (1, 4), (11, 0), (1, 1), (1, 0), (1, 4), (31, 0), (18, 1), (1, 5), (1, 1), (4, 3), (2, 2), (64, 0),
    (10, 2), (4, 0), (1, 4), (76, 0),
]

WORDS = 256


def words():
    return [word for word, _ in PROGRAM]


def line_bytes():
    return [byte for clocks, byte in LINE_BYTES for _ in range(clocks)]


def first_store():
    return [address * 3 + 1 for address in range(WORDS)]


def mixed(numbers):
    """The digest of a list, from its end: 0, then for each number times 31 plus the number, mod 1,000,003."""
    digest = 0
    for number in reversed(numbers):
        digest = (digest * 31 + number) % 1000003
    return digest


def seen(x):
    return [x.pc, x.h, x.n, x.z, x.c, x.v, x.status]


def counts(x):
    return [x.clocks, x.held, x.refills, x.writebacks]


def record_numbers(record, store, answer):
    """What goes into the digest of the record, its store and the answer after a clock."""
    running = [record.phase, record.count, record.product, record.remainder, record.quotient]
    cache = record.full + record.dirty + record.block + record.words[:16]
    return [*seen(record), *running, record.store_len, *counts(record), *record.regs, *cache,
            *store[:16], *store[128:144], *answer]


def plain_numbers(plain, answer):
    """What goes into the digest of the plain machine and the answer after a clock."""
    return [*seen(plain), *plain.regs, plain.left, *counts(plain), *plain.memory[:16], *plain.memory[128:144], *answer]


def spans(values):
    """How often in succession each value comes."""
    out = []
    for value in values:
        if out and out[-1][1] == value:
            out[-1] = (out[-1][0] + 1, value)
        else:
            out.append((1, value))
    return out


def clocks():
    """After each clock: the record, its store, the plain machine, and the answer of both; later clocks change the same objects."""
    program, store = words(), first_store()
    record, plain = m.reset(store), m.Plain(store)
    for number, line_byte in enumerate(line_bytes(), 1):
        answer = m.clock(program, record, store, line_byte, 1000 + number)
        other = m.plain_clock(program, plain, line_byte, 1000 + number)
        m.compare(record, store, plain, (answer, other), f'clock {number}')
        m.phase_rule(program, record, store)
        yield record, store, plain, answer


def expected():
    """The expected numbers of Scenario.antt by their names there."""
    records, plains, finishes, phases = [], [], [], []
    for record, store, plain, answer in clocks():
        records.append(mixed(record_numbers(record, store, answer)))
        plains.append(mixed(plain_numbers(plain, answer)))
        finishes += [record.clocks] * answer[2]
        phases.append(record.phase)
    return {'expected_record_digest': mixed(records), 'expected_reference_digest': mixed(plains),
            'expected_finishes': finishes, 'expected_phases': spans(phases)}


def trace():
    """A line for each clock: its number, line byte, the word's address and text, then phase, count, status and answer after it."""
    at = 0
    for (record, _, _, answer), line_byte in zip(clocks(), line_bytes()):
        print(record.clocks, line_byte, at, PROGRAM[at][1], '->', record.phase, record.count, record.status, *answer)
        at = record.pc


if __name__ == '__main__':
    if sys.argv[1:] == ['--trace']:
        trace()
    else:
        for name, value in expected().items():
            print(name, '=', value)
