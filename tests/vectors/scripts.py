# Scripts for the program trm_test_vectors: the paper's bench cases on machines, branches by the C of A2, and every limit of its
# refusals 3 to 9.
# Called: imported by tests/vectors/make; it does nothing when run.
# Reads: tests/vectors/, tests/machine/. Figures and refusal numbers of the paper are written below as numbers.
import sys

sys.dont_write_bytecode = True
import clauses
from bench import Script, begin, m
from clauses import DEVICES, LOADS, NEVER, ONES, STORES, WIDE
from machine import branch, call, imm, jump, jump_link, ld, mov_h, reg, rti, st, status

MOST = 4294967295


# ---- "Bench cases"

def fresh(s, *words, length=256, **fields):
    """Sets up a program, a store, a reset, and fields of the record."""
    s.program(*words, length=length)
    s.reset(0)
    s.set(**fields)


def takes(s, clocks, inp=0):
    """The word at PC must finish in the last of these clocks, and in none before."""
    if clocks > 1:
        s.run(0, clocks - 1, inp=inp, finished=0)
    s.clock(0, inp=inp, finished=1)


def starred_arithmetic(s, starred):
    """starred: rows of ids, operation, B, A, and R.d, H, N, Z, C, V as far as the paper gives them."""
    for ids, op, b, a, (result, *given) in starred:
        s.head(ids, f'starred: {b:X}H {op} {a:X}H')
        fresh(s, reg(op, 1, 2), regs={1: b, 2: a})
        takes(s, 33 if op in (m.MUL, m.DIV) else 1)
        s.show('regs', 1, given=result)
        for name, value in zip(('h', 'n', 'z', 'c', 'v'), given):
            s.show(name, given=value)


def branches(s, ids, op, b, a, conditions):
    """B op A, then a branch to 5 for each (condition, whether it holds), from a reset each: 2 clocks if it is taken, else 1."""
    for condition, taken in conditions:
        s.head(ids, f'{b:X}H {"-" if op == m.SUB else "+"} {a:X}H, branch on {condition}')
        fresh(s, reg(op, 1, 2), branch(condition, 3), regs={1: b, 2: a})
        takes(s, 1)
        takes(s, 1 + taken)
        s.show('pc', given=5 if taken else 2)


def compared_addresses(s):
    """Conditions 8 and 9, higher and lower or same, after SUB of two addresses; then 2 and 3, C and not C, after ADD and SUB."""
    for b, a, higher in m.ADDRESSES:
        branches(s, 'A2.3', m.SUB, b, a, ((8, higher), (9, 1 - higher)))
    for b, a, c in ((0x80000001, 0x7FFFFFFF, 1), (0x7FFFFFFF, 0x80000001, 0), (0x1234, 0x1234, 1)):
        branches(s, 'A2.2', m.SUB, b, a, ((2, c), (3, 1 - c)))
    for b, a, c in ((ONES, 1, 1), (ONES, 0, 0), (0x7FFFFFFF, 0x80000000, 0)):
        branches(s, 'A2.1', m.ADD, b, a, ((2, c), (3, 1 - c)))


def saved_carry(s):
    """The interrupt saves the C of the SUB before it, and RTI gives it back."""
    for b, a, saved in ((5, 3, 0x20000001), (3, 5, 0x80000001), (5, 5, 0x60000001)):
        s.head('A2.2 S2.3 S1.21', f'{b}-{a}, an interrupt, RTI')
        fresh(s, reg(m.SUB, 1, 2), NEVER, rti(7), status=1, regs={1: b, 2: a})
        takes(s, 1)
        s.clock(0, line_byte=1, finished=0)
        s.show('regs', 15, given=saved)
        s.set(c=1 - (saved >> 29 & 1))
        takes(s, 2)
        s.show('c', given=saved >> 29 & 1)
        s.show('pc', given=1)


def starred_addresses(s):
    s.head('S5.10 S1.22', 'starred: R1 = FFFFH, offset 1')
    fresh(s, ld(3, 1, 1), regs={1: 0xFFFF})
    s.run(0, 6, inp=0x77, finished=1)
    s.show('regs', 3, given=0x1000)           # address 0
    s.head('S5.11 S1.24', 'starred: FFBFH is memory')
    fresh(s, ld(3, 1, 0), regs={1: 0xFFBF})
    s.fill(1, 0xFFBF % 256, 1, 0x2000)
    s.run(0, 6, inp=0x77, finished=1)
    s.show('regs', 3, given=0x2000)
    s.head('S5.11 S1.24', 'starred: FFC0H is device 0')
    fresh(s, ld(3, 1, 0), st(1, 1, 63), regs={1: 0xFFC0})
    s.run(0, 2, at=1, inp=0x77, finished=1)   # its answer is 01, a read of device 0
    s.show('regs', 3, given=0x77)
    s.head('S1.24', 'FFFFH is device 63')
    s.run(0, 1, device=63, finished=1)
    s.fill(1, 0xFFBF % 256, 1, 0x0BADCAFE)


def starred_cache(s):
    s.head('S5.12 S2.10 S2.35', 'starred: ST to 0, LD from 128')
    fresh(s, st(1, 7, 0), ld(2, 7, 128), length=2048, status=8, regs={1: 0x55})
    takes(s, 12)
    s.show_word(0, given=0x1000)              # the store keeps its word until the write-back
    s.look(0, 0, given=0x55)
    s.copy(0, 2048)
    takes(s, 22)
    s.show_word(0, given=0x55)
    s.show('regs', 2, given=0x1080)
    s.show('refills', given=2)
    s.show('writebacks', given=1)
    s.show('clocks', given=34)
    s.fill(1, 0, 1, 0x1000)


def lengths(s):
    s.head('S5.13 S5.14', '4,096 program words, 3FFFFH')
    s.fill(0, 0, 4097, 0x3FFFF)
    s.lend(4096, 64)
    s.reset(0)
    s.clock(0)
    s.head('S5.19 S3.5', '4,097 program words')
    s.lend(4097, 64)
    s.clock(3)
    s.head('S5.20 S3.5', '40000H')
    s.fill(0, 4095, 1, 0x40000)
    s.lend(4096, 64)
    s.clock(3)
    for ids, length, number in (('S5.21', 63, 4), ('S5.15', 64, 0), ('S5.16', 32768, 0), ('S5.22', 65536, 4)):
        s.head(f'{ids} S3.6', f'a store of {length:,} words')
        s.program(NEVER, length=length)
        s.reset(number)
    s.head('S5.17 S5.18 S2.33', 'runs of 0 and of 65,536 clocks')
    fresh(s, branch(14, -1))
    s.run(0, 0, finished=0)
    s.run(0, 65536, at=65535, odd=4, finished=32767)
    s.show('clocks', given=65536)
    s.show('held', given=1)
    s.head('S5.23 S3.8', 'a run of 65,537 clocks')
    s.run(6, 65537, at=65535)


def listing(s):
    s.head('S4.11', "the listing's example, 40 clocks")
    fresh(s, 0x00005, 0x20003, 0x3BBFF)
    for clocks in (1, 33, 2, 2, 2):
        takes(s, clocks)
    s.show('clocks', given=40)
    s.show('regs', 0, given=15)


# ---- the clock table, and misreadings of the source that a machine shows: ids, what it is, a word, fields of the record, its clocks

SHORT = {0: 'S1.6', 1: 'S1.7', 2: 'S1.8', 3: 'S1.9', 4: 'S1.10', 5: 'S1.11', 6: 'S1.12', 7: 'S1.13', 10: 'S1.14'}
DIRTY_0 = dict(status=8, full={0: 1}, dirty={0: 1})
DIRTY_3 = dict(status=8, full={0: 1, 3: 1, 9: 1, 15: 1}, dirty={0: 1, 3: 1, 15: 1}, block={3: 3, 9: 9, 15: 31})
CLOCKS = [
    *((f'S2.6 {ids}', f'operation {op}', imm(op, 1, 5), {}, 1) for op, ids in SHORT.items()),
    ('S2.6 S1.6', 'MOV H', mov_h(1), dict(h=9), 1),
    ('S2.6 S1.20', '11 setting the status', status(8), {}, 1),
    ('S2.6 S1.25', '14 not taken', branch(0, 5), {}, 1),
    ('S2.7 S1.25', '14 taken', branch(0, 5), dict(z=1), 2),
    ('S2.7 S1.27', '15', call(5), {}, 2),
    ('S2.7 S1.21', '11, a jump', jump(1), {}, 2),
    ('S2.7 S1.21', '11, a jump with link', jump_link(2, 1), {}, 2),
    ('S2.7 S1.21', '11, RTI', rti(1), {}, 2),
    ('S2.8 S6.1', 'MUL', imm(m.MUL, 1, 5), dict(regs={1: 3}), 33),
    ('S2.8', 'DIV', imm(m.DIV, 1, 5), dict(regs={1: 33}), 33),
    ('S2.8', 'DIV by 0', imm(m.DIV, 1, 0), dict(regs={1: 33}), 33),
    ('S2.9', 'LD from a device', ld(2, 1, 0), dict(regs=DEVICES), 2),
    ('S2.9', 'ST to a device', st(2, 1, 0), dict(regs=DEVICES), 1),
    ('S2.9', 'LD from a device, cache on', ld(2, 1, 0), dict(status=8, regs=DEVICES), 2),
    ('S2.9', 'ST to a device, cache on', st(2, 1, 0), dict(status=8, regs=DEVICES), 1),
    ('S2.9', 'LD, a hit', ld(2, 7, 0), DIRTY_0, 2),
    ('S2.9', 'ST, a hit', st(2, 7, 0), DIRTY_0, 1),
    ('S2.10 S2.18', 'LD, a miss', LOADS, dict(status=8), 12),
    ('S2.10 S2.18', 'ST, a miss', STORES, dict(status=8), 12),
    ('S2.10 S2.18', 'LD, a miss, the line full', LOADS, dict(status=8, full={0: 1}), 12),
    ('S2.10 S2.18', 'LD, a miss, the line dirty', LOADS, DIRTY_0, 22),
    ('S2.10 S2.18', 'ST, a miss, the line dirty', STORES, DIRTY_0, 22),
    ('S2.11', 'LD, cache off', LOADS, {}, 6),
    ('S2.11', 'ST, cache off', STORES, {}, 5),
    ('S2.12 S2.22', '11 clearing bit 3, none dirty', status(0), dict(status=8, full={0: 1}), 1),
    ('S2.12 S2.22', '11 clearing bit 3, 3 dirty', status(0), DIRTY_3, 31),
    ('S2.6 S1.20', '11 with bit 3 set, 3 dirty', status(8), DIRTY_3, 1),
    ('S2.6 S1.20', '11 with cache off', status(0), {}, 1),
]



def clock_table(s):
    for ids, what, word, fields, clocks in CLOCKS:
        s.head(ids, f'{what}: {clocks}')
        fresh(s, word, **fields)
        takes(s, clocks, inp=0x77)


def misreadings(s):
    s.head('S6.4 S2.2', 'a stall in clock 33 of MUL')
    fresh(s, imm(m.MUL, 1, 5), regs={1: 3})
    s.run(0, 32, finished=0)
    s.clock(0, line_byte=4, finished=0)
    s.clock(0, finished=1)
    s.show('regs', 1, given=15)
    s.show('clocks', given=34)
    s.show('held', given=1)
    s.head('S6.7 S2.3', 'an interrupt at 3BC00H')
    fresh(s, NEVER, status=1, n=1)
    s.clock(0, line_byte=1, finished=0)
    s.show('regs', 15, given=0x80000000)
    s.show('pc', given=2)
    s.show('status', given=5)
    s.head('S6.5 S1.23', 'R7 as a base is zero')
    fresh(s, ld(2, 7, 3), regs={7: 5})
    s.fill(1, 3, 1, 0x1003)
    s.run(0, 6, finished=1)
    s.show('regs', 2, given=0x1003)


# ---- "Where calls are turned down": for each limit the last accepted value and the first refused one, in the table's order

def calls(s, number, clocks=3):
    """Clock, run, look and copy, each with everything else legal."""
    s.clock(number)
    s.run(number, clocks)
    s.look(number, 5)
    s.copy(number, s.lent[1], at=5)


def row_3(s):
    s.head('S3.5', 'row 3: no word')
    fresh(s, NEVER)
    s.lend(0, 256)
    calls(s, 3)
    s.head('S3.5', 'row 3: 4,096 words')
    s.fill(0, 0, 4097, NEVER)
    s.lend(4096, 256)
    calls(s, 0)
    s.head('S3.5', 'row 3: 4,097 words')
    s.lend(4097, 256)
    calls(s, 3)
    for at, word, number in ((0, 0x3FFFF, 0), (4095, 0x3FFFF, 0), (0, 0x40000, 3), (4095, 0x40000, 3), (2000, 0x40000, 3), (1, ONES, 3)):
        s.head('S3.5', f'row 3: word {at:,} is {word:X}H')
        s.fill(0, at, 1, word)
        s.lend(4096, 256)
        calls(s, number)
        s.fill(0, at, 1, NEVER)


def row_4(s):
    for length, number in ((0, 4), (1, 4), (32, 4), (63, 4), (64, 0), (65, 4), (127, 4), (128, 0), (129, 4), (192, 4), (256, 0),
                           (512, 0), (1024, 0), (2048, 0), (4096, 0), (8192, 0), (16384, 0), (32767, 4), (32768, 0), (32769, 4),
                           (49152, 4), (65535, 4), (65536, 4)):
        s.head('S3.6', f'row 4: reset with {length:,} words')
        s.program(NEVER, length=length)
        s.reset(number)
    for length, number in ((256, 0), (128, 4), (512, 4), (255, 4), (257, 4), (0, 4), (64, 4), (32768, 4), (65536, 4)):
        s.head('S3.6', f'row 4: {length:,} words, 256 at reset')
        fresh(s, NEVER)
        s.lend(1, length)
        calls(s, number)
    for size, number in ((63, 4), (64, 0), (32768, 0), (65536, 4), (0, 4)):
        s.head('S3.6', f'row 4: {size:,} words, size the same')
        fresh(s, NEVER, store_len=size)
        s.lend(1, size)
        calls(s, number)


def row_5(s):
    for ids, what, number, word, fields in clauses.ROWS:
        s.head(ids, what)
        fresh(s, word, **fields)
        s.look(number, 5)
        s.clock(number, inp=0x77)
    s.head('S3.7', 'clocks 4,294,967,295')
    fresh(s, NEVER, clocks=MOST, held=MOST, refills=MOST, writebacks=MOST)
    s.look(0, 5)
    for what, number, word, fields in (('phase 0, count 1', 5, NEVER, dict(count=1)),
                                       ('phase 3, count 9', 0, LOADS, dict(status=8, phase=3, count=9))):
        s.head('S3.7 S2.30', f'each call: {what}')
        fresh(s, word, **fields)
        s.copy(number, 256, at=5)
        calls(s, number)
    s.head('S3.7 S2.17', 'blocks of a store of 32,768 words')
    for line, block, number in ((15, 4095, 0), (0, 4096, 5), (15, 4111, 5)):
        fresh(s, NEVER, length=32768, status=8, full={line: 1}, block={line: block})
        s.clock(number)


def row_6(s):
    for line_byte, number in ((7, 0), (8, 6), (255, 6)):
        s.head('S3.8', f'row 6: clock, line byte {line_byte}')
        fresh(s, NEVER)
        s.clock(number, line_byte=line_byte)
    s.head('S3.8', 'row 6: as many input words')
    fresh(s, NEVER)
    s.run(0, 3)
    s.head('S3.8', 'row 6: an input word more, or fewer')
    s.run(6, 3, more=(1, 0, 0))
    s.run(6, 3, more=(-1, 0, 0))
    s.run(6, 0, more=(1, 0, 0))
    s.head('S3.8', 'row 6: 65,536 clocks, and one more')
    s.run(0, 65536, at=65535)
    s.run(6, 65537, at=65535)
    s.run(6, 65536, more=(1, 0, 0))
    s.run(6, 65536, more=(-1, 0, 0))
    for at in (0, 1, 2):
        s.head('S3.8', f'row 6: line byte {at} of 3 is 7, and 8')
        s.run(0, 3, at=at, odd=7)
        s.run(6, 3, at=at, odd=8)
    s.head('S3.8', 'row 6: 8 behind the last line byte')
    s.run(0, 3, at=3, odd=8)
    s.head('S3.8', 'row 6: the last of 65,536 is 8')
    s.run(6, 65536, at=65535, odd=8)


def row_7(s):
    s.head('S3.9', 'row 7: an answer byte more or fewer')
    fresh(s, NEVER)
    s.run(0, 3)
    s.run(7, 3, more=(0, 1, 0))
    s.run(7, 3, more=(0, -1, 0))
    s.head('S3.9', 'row 7: an answer word more or fewer')
    s.run(7, 3, more=(0, 0, 1))
    s.run(7, 3, more=(0, 0, -1))
    s.head('S3.9', 'row 7: both more, both fewer')
    s.run(7, 3, more=(0, 1, 1))
    s.run(7, 3, more=(0, -1, -1))
    s.head('S3.9', 'row 7: a run of 0')
    s.run(0, 0)
    s.run(7, 0, more=(0, 1, 0))
    s.run(7, 0, more=(0, 0, 1))
    s.head('S3.9', 'row 7: a run of 65,536')
    s.run(7, 65536, more=(0, 1, 0), at=65535)
    s.run(7, 65536, more=(0, 0, -1), at=65535)
    for length, number in ((256, 0), (255, 7), (257, 7), (0, 7), (65537, 7)):
        s.head('S3.9', f'row 7: copy of 256 into {length:,}')
        s.copy(number, length, at=5)
    s.head('S3.9', 'row 7: copy of 32,768')
    fresh(s, NEVER, length=32768)
    s.copy(0, 32768, at=32767)
    s.copy(7, 32767)
    s.copy(7, 32769)


def row_8(s):
    for before, number in ((MOST - 1, 0), (MOST, 8)):
        s.head('S3.10', f'row 8: clock after {before:,}')
        fresh(s, NEVER, clocks=before)
        s.clock(number)
        fresh(s, NEVER, clocks=before)
        s.clock(number, line_byte=4)
    for clocks in (1, 3, 65536):
        for before, number in ((MOST - clocks, 0), (MOST - clocks + 1, 8), (MOST, 8)):
            s.head('S3.10', f'row 8: {clocks:,} after {before:,}')
            fresh(s, NEVER, clocks=before)
            s.run(number, clocks, line_byte=4, at=clocks - 1)
    s.head('S3.10', 'row 8: no clock after 4,294,967,295')
    fresh(s, NEVER, clocks=MOST)
    s.run(0, 0)


def row_9(s):
    s.head('S3.11 S2.35', 'row 9: look at FFBFH, at FFC0H')
    fresh(s, NEVER, status=8, full={7: 1}, block={7: 23}, words={63: 0x77})
    s.look(0, 0)
    s.look(0, 0xFFBF, given=0x77)             # reduced to the store: BFH, in block 23
    for address in (0xFFC0, 0xFFFF, 0x10000, 0x10005, ONES):
        s.look(9, address)
    s.head('S3.11 S2.37 S8.3', 'row 9: watch, devices 63 and 64')
    s.watch(0, 4, 63, odd=63 << 2 | 2, at=3)
    s.watch(0, 3, 63, odd=63 << 2 | 2, at=3)  # it is after the last byte
    s.watch(0, 4, 62, odd=63 << 2 | 2, at=3)
    s.watch(0, 4, 63, odd=63 << 2 | 1, at=3)  # a read
    s.watch(0, 4, 0, odd=2)
    s.watch(0, 0, 0)
    s.watch(0, 65537, 5, odd=5 << 2 | 2, at=65535)
    for device in (64, 65, 127, 256, WIDE // 2, ONES):
        s.watch(9, 4, device, byte=2)
    s.head('S3.11 S2.37 S8.3', 'row 9: watch over a run')
    fresh(s, st(1, 1, 5), branch(14, -1), regs=DEVICES)
    s.run(0, 1, device=5, finished=1)
    s.run(0, 9, device=5)
    fresh(s, st(1, 1, 63), branch(14, -1), regs=DEVICES)
    s.run(0, 9, device=63)
    fresh(s, st(1, 1, 63), branch(14, -1), regs=DEVICES)
    s.run(0, 9, device=64)                    # the run is accepted, the watch is not


# ---- "Checks go down the table": two faults at once give the upper row's number

# The fault of row 3 is a program of no word; of 4 a store of 128 words, 256 at reset; of 5 count 1 in phase 0; of 6 a line byte of 8;
# of 7 one answer byte or buffer word too many; of 8 a clock count of 4,294,967,295; of 9 the address FFC0H.
TAKES = {'clock': (3, 4, 5, 6, 8), 'run': (3, 4, 5, 6, 7, 8), 'look': (3, 4, 5, 9), 'copy': (3, 4, 5, 7)}


def faulty(s, name, rows):
    """A call with a fault in each of these rows; the number is that of the upper row."""
    number = min(rows)
    fresh(s, NEVER)
    if 5 in rows:
        s.set(count=1)
    if 8 in rows:
        s.set(clocks=MOST)
    s.lend(0 if 3 in rows else 1, 128 if 4 in rows else 256)
    line_byte = 8 if 6 in rows else 0
    if name == 'clock':
        s.clock(number, line_byte=line_byte)
    elif name == 'run':
        s.run(number, 3, more=(0, 1 if 7 in rows else 0, 0), at=2, odd=line_byte)
    elif name == 'look':
        s.look(number, 0xFFC0 if 9 in rows else 5)
    else:
        s.copy(number, s.lent[1] + (1 if 7 in rows else 0), at=5)


def order(s):
    for name, rows in TAKES.items():
        for upper in rows:
            for lower in rows:
                if upper < lower:
                    s.head('S3.1', f'{name}: rows {upper} and {lower}')
                    faulty(s, name, (upper, lower))
        s.head('S3.1', f'{name}: every row')
        faulty(s, name, rows)
    s.head('S3.1', 'run: row 6 by length, 7 and 8')
    fresh(s, NEVER, clocks=MOST)
    s.run(6, 65537, more=(0, -1, -1), at=65535)


# ---- cases that name what does not exist: nothing is printed, and nothing changes

def nowhere(s):
    s.head('S2.14', 'a step more than 32, A not above 0')
    s.case('D', 33, 5, 0, answer='00000000 00000000')  # "for A at or below 0 both hold zero"
    s.head('S7.7', 'no operation 16')
    s.case('T', 16)
    s.head('S8.8', 'no field 209')
    fresh(s, NEVER, pc=7)
    s.case('F', 209, 0, 1)
    s.case('V', 209, answer='0')
    s.clock(0)                                # its digest covers all of the record
    s.head('S8.8', 'no word 65,536 of the store')
    s.fill(1, 65534, 2, 0x1234)
    s.case('J', 1, 65535, 3, 0x5678)
    s.store[65535] = 0x5678
    s.lend(1, 65536)
    for at in (65533, 65534, 65535):
        s.show_word(at)
    s.case('H', 65536)


PARTS = [compared_addresses, saved_carry, starred_addresses, starred_cache, lengths, listing, clock_table, misreadings, begin,
         row_3, row_4, row_5, row_6, row_7, row_8, row_9, order, nowhere]


def script(starred):
    s = Script()
    begin(s)
    starred_arithmetic(s, starred)
    for part in PARTS:
        part(s)
    return s
