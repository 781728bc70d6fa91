# The refusals of the paper and the cases of crates/trm_core/specs/Refused.antt: what each call must return.
# Called: python3 tests/machine/refused.py prints the cases; tests/machine/run imports it.
# Reads: nothing. Rows 3 to 9 of "Where calls are turned down", written from the paper over the record of machine.py.
import sys

sys.dont_write_bytecode = True
import machine as m
import scenario
from machine import branch, imm, ld, st, status

MOST_CLOCKS = 4294967295


# ---- the rows of the table

def length_ok(length):
    return length in [2**k for k in range(6, 16)]


def widths_ok(record):
    flags = [record.n, record.z, record.c, record.v, *record.full, *record.dirty]
    return record.pc < 4096 and record.status < 16 and max(flags) < 2 and record.clocks <= MOST_CLOCKS


def registers_ok(word, record):
    """Whether the registers of multiplier and divider are as the paper states."""
    stated = m.Record(record.store_len)
    stated.regs, stated.status = record.regs, record.status
    if record.phase == m.ARITHMETIC and m.operation(word) in (m.MUL, m.DIV):
        m.set_arithmetic_registers(word, stated, record.count)
    return all(getattr(record, name) == getattr(stated, name) for name in ('product', 'remainder', 'quotient'))


def phase_ok(word, record, store):
    op, cached, clears = m.operation(word), bool(record.status & 8), bool(m.clears_cache(word, record))
    moves = op in (m.LD, m.ST)
    device = moves and m.is_device(m.address(word, record))
    memory = moves and not device
    block = m.block_at_pc(word, record, store) if memory else 0
    full, dirty, held = record.full[block % 16], record.dirty[block % 16], record.block[block % 16]
    if record.phase == 0:
        return record.count == 0
    if record.phase == 1:
        return 1 <= record.count <= 32 and op in (8, 9)
    if record.phase == 2:
        return record.count <= 9 and (bool(memory and full and dirty and held != block) or clears and 1 in record.dirty)
    if record.phase == 3:
        return record.count <= 9 and memory and cached and not full
    if record.phase == 4:
        return 1 <= record.count <= (5 if op == m.LD else 4) and memory and not cached
    taken = op == 14 and m.condition(word >> 10 & 15, record)
    two = taken or op == 15 or op == 11 and m.bit10(word) or op == m.LD and device
    last = two or clears and 1 not in record.dirty or memory and full and held == block
    return record.phase == 5 and record.count == 0 and bool(last)


def line_ok(record, store, line):
    if not record.full[line]:
        return record.dirty[line] == 0 and record.block[line] == 0
    block = record.block[line]
    return block % 16 == line and block * 8 + 8 <= len(store) and bool(record.status & 8)


def record_ok(program, record, store):
    word = m.word_at(program, record.pc)
    counts_ok = max(record.held, record.refills, record.writebacks) <= record.clocks
    return (widths_ok(record) and phase_ok(word, record, store) and registers_ok(word, record) and counts_ok
            and all(line_ok(record, store, line) for line in range(16)))


def record_rows(program, record, store):
    if not 1 <= len(program) <= 4096 or max(program) > 0x3FFFF:
        return 3
    if not length_ok(len(store)) or len(store) != record.store_len:
        return 4
    return 0 if record_ok(program, record, store) else 5


def reset(store):
    return 0 if length_ok(len(store)) else 4


def clock(program, record, store, line_byte):
    number = record_rows(program, record, store)
    return number or (6 if line_byte > 7 else 8 if record.clocks + 1 > MOST_CLOCKS else 0)


def run(program, record, store, line_bytes, inputs, answer_bytes, answer_words):
    number = record_rows(program, record, store)
    if number:
        return number
    if len(line_bytes) != len(inputs) or len(line_bytes) > 65536 or any(line_byte > 7 for line_byte in line_bytes):
        return 6
    if len(answer_bytes) != len(line_bytes) or len(answer_words) != len(line_bytes):
        return 7
    return 8 if record.clocks + len(line_bytes) > MOST_CLOCKS else 0


def look(program, record, store, address):
    return record_rows(program, record, store) or (9 if address > 0xFFBF else 0)


def copy(program, record, store, buffer):
    return record_rows(program, record, store) or (0 if len(buffer) == len(store) else 7)


def watch(device):
    return 9 if device > 63 else 0


# ---- the cases: a call and what it shows

RAM = [0] * 256
NEVER = [0x3BC00]


def record_with(**fields):
    record = m.Record(256)
    for name, value in fields.items():
        assert name in record.__dict__, name
        setattr(record, name, value)
    return record


def flying(bits, phase, count, line=(0, 0, 0), registers=(0, 0, 0), at=0):
    """Status, phase and count; full, dirty and block of a cache line; product, remainder, quotient. R0 is 3 and R1 FFC0H."""
    full, dirty, block = ([0] * at + [x] + [0] * (15 - at) for x in line)
    product, remainder, quotient = registers
    return record_with(status=bits, phase=phase, count=count, full=full, dirty=dirty, block=block, product=product,
                       remainder=remainder, quotient=quotient, regs=[3, 0xFFC0] + [0] * 14)


def counted(clocks, held=0, refills=0, writebacks=0):
    return record_with(clocks=clocks, held=held, refills=refills, writebacks=writebacks)


def clocked(word, record):
    return clock([word], record, RAM, 0)


def reset_cases():
    yield reset([0] * 63), 'reset: a store of 63 words'
    yield reset([0] * 64), 'reset: a store of 64 words'


def clock_cases():
    yield clock([], record_with(), RAM, 0), 'clock: no word'
    yield clock([0] * 4097, record_with(), RAM, 0), 'clock: 4,097 words'
    yield clock([0x40000], record_with(), RAM, 0), 'clock: the word 40000H'
    yield clock([0] * 4096, record_with(), RAM, 0), 'clock: 4,096 words'
    yield clock([0x3FFFF], record_with(), RAM, 0), 'clock: the word 3FFFFH'
    yield clock(NEVER, record_with(store_len=63), [0] * 63, 0), 'clock: a store of 63 words, as at reset'
    yield clock(NEVER, record_with(), [0] * 128, 0), 'clock: a store of 128 words, 256 at reset'


def width_cases():
    yield clocked(0x3BC00, record_with(pc=4096)), 'PC 4,096'
    yield clocked(0x3BC00, record_with(pc=4095)), 'PC 4,095'
    yield clocked(0x3BC00, record_with(n=2)), 'N is 2'
    yield clocked(0x3BC00, record_with(z=2)), 'Z is 2'
    yield clocked(0x3BC00, record_with(c=2)), 'C is 2'
    yield clocked(0x3BC00, record_with(v=2)), 'V is 2'
    yield clocked(0x3BC00, record_with(status=16)), 'status 16'
    yield clocked(0x3BC00, record_with(n=1, z=1, c=1, v=1, status=15)), 'every flag 1, status 15'


def phase_cases():
    off = status(0)
    yield clocked(branch(14, 0), flying(0, 6, 0)), 'phase 6, 14 taken'
    yield clocked(0x3BC00, flying(0, 0, 1)), 'phase 0, count 1'
    yield clocked(0x3BC00, flying(0, 1, 1)), 'phase 1, no MUL or DIV'
    yield clocked(imm(m.MUL, 0, 0), flying(0, 1, 0)), 'phase 1, count 0'
    yield clocked(imm(m.MUL, 0, 0), flying(0, 1, 33)), 'phase 1, count 33'
    yield clocked(imm(m.MUL, 0, 0), flying(0, 1, 1)), 'phase 1, count 1'
    yield clocked(ld(0, 7, 128), flying(8, 2, 0, (1, 0, 0))), 'phase 2, the line clean'
    yield clocked(ld(0, 7, 128), flying(8, 2, 0, (1, 1, 16))), 'phase 2, its own block in the line'
    yield clocked(ld(0, 7, 128), flying(8, 2, 10, (1, 1, 0))), 'phase 2, count 10'
    yield clocked(ld(0, 7, 128), flying(8, 2, 0)), 'phase 2, the line empty'
    yield clocked(ld(0, 1, 0), flying(8, 2, 0, (1, 1, 16))), 'phase 2, LD from device 0, line 0 dirty'
    yield clocked(ld(0, 1, 63), flying(8, 2, 0, (1, 1, 15), at=15)), 'phase 2, LD from device 63, line 15 dirty'
    yield clocked(st(0, 7, 128), flying(8, 2, 0, (1, 1, 16))), 'phase 2, ST, its own block in the line'
    yield clocked(off, flying(8, 2, 0, (1, 0, 0))), 'phase 2, clearing bit 3 with no line dirty'
    yield clocked(status(8), flying(8, 2, 0, (1, 1, 0))), 'phase 2, bit 3 not cleared'
    yield clocked(ld(0, 7, 128), flying(8, 2, 9, (1, 1, 0))), 'phase 2, count 9, LD'
    yield clocked(st(0, 7, 128), flying(8, 2, 9, (1, 1, 0))), 'phase 2, count 9, ST'
    yield clocked(off, flying(8, 2, 9, (1, 1, 0))), 'phase 2, count 9, clearing bit 3'
    yield clocked(off, flying(8, 2, 9, (1, 1, 15), at=15)), 'phase 2, count 9, clearing bit 3 with line 15 dirty'
    yield clocked(ld(0, 7, 128), flying(8, 3, 0, (1, 0, 0))), 'phase 3, the line full'
    yield clocked(ld(0, 7, 128), flying(0, 3, 0)), 'phase 3, cache off'
    yield clocked(ld(0, 1, 0), flying(8, 3, 0)), 'phase 3, LD from a device'
    yield clocked(ld(0, 7, 128), flying(8, 3, 10)), 'phase 3, count 10'
    yield clocked(ld(0, 7, 128), flying(8, 3, 9)), 'phase 3, count 9'
    yield clocked(ld(0, 7, 0), flying(8, 4, 1)), 'phase 4, cache on'
    yield clocked(ld(0, 7, 0), flying(0, 4, 0)), 'phase 4, count 0'
    yield clocked(ld(0, 7, 0), flying(0, 4, 6)), 'phase 4, LD, count 6'
    yield clocked(st(0, 7, 0), flying(0, 4, 5)), 'phase 4, ST, count 5'
    yield clocked(imm(m.MOV, 0, 1), flying(0, 4, 1)), 'phase 4, MOV'
    yield clocked(ld(0, 1, 0), flying(0, 4, 1)), 'phase 4, LD from a device'
    yield clocked(st(0, 1, 0), flying(0, 4, 1)), 'phase 4, ST to a device'
    yield clocked(ld(0, 7, 0), flying(0, 4, 5)), 'phase 4, LD, count 5'
    yield clocked(st(0, 7, 0), flying(0, 4, 4)), 'phase 4, ST, count 4'
    yield clocked(imm(m.MOV, 0, 1), flying(0, 5, 0)), 'phase 5, MOV'
    yield clocked(0x3BC00, flying(0, 5, 0)), 'phase 5, 14 not taken'
    yield clocked(st(0, 1, 0), flying(0, 5, 0)), 'phase 5, ST to a device'
    yield clocked(ld(0, 7, 128), flying(8, 5, 0, (1, 0, 0))), 'phase 5, LD, another block in the line'
    yield clocked(off, flying(8, 5, 0, (1, 1, 0))), 'phase 5, clearing bit 3 with a line dirty'
    yield clocked(off, flying(8, 5, 0, (1, 1, 15), at=15)), 'phase 5, clearing bit 3 with line 15 dirty'
    yield clocked(off, flying(0, 5, 0)), 'phase 5, bit 3 clear already'
    yield clocked(branch(14, 0), flying(0, 5, 1)), 'phase 5, count 1'
    yield clocked(branch(14, 0), flying(0, 5, 0)), 'phase 5, 14 taken'
    yield clocked(0x3C000, flying(0, 5, 0)), 'phase 5, 15'
    yield clocked(m.jump(7), flying(0, 5, 0)), 'phase 5, 11 with bit 10 set'
    yield clocked(off, flying(8, 5, 0, (1, 0, 0))), 'phase 5, clearing bit 3 with no line dirty'
    yield clocked(ld(0, 1, 0), flying(0, 5, 0)), 'phase 5, LD from a device'
    yield clocked(ld(0, 7, 128), flying(8, 5, 0, (1, 0, 16))), 'phase 5, LD, its block in the line'
    yield clocked(st(0, 7, 128), flying(8, 5, 0, (1, 1, 16))), 'phase 5, ST, its block in the line'


def register_cases():
    mul, div = imm(m.MUL, 0, 5), imm(m.DIV, 0, 2)
    yield clocked(0x3BC00, flying(0, 0, 0, registers=(1, 0, 0))), 'phase 0, product 1'
    yield clocked(0x3BC00, flying(0, 0, 0, registers=(0, 1, 0))), 'phase 0, remainder 1'
    yield clocked(0x3BC00, flying(0, 0, 0, registers=(0, 0, 1))), 'phase 0, quotient 1'
    yield clocked(mul, flying(0, 1, 1, registers=(0x1_8000_0003, 0, 0))), '3 MUL 5 after 1 step, product one too high'
    yield clocked(mul, flying(0, 1, 1, registers=(15, 0, 0))), '3 MUL 5 after 1 step, the whole product'
    yield clocked(mul, flying(0, 1, 1, registers=(0x1_8000_0002, 1, 0))), '3 MUL 5 after 1 step, remainder 1'
    yield clocked(mul, flying(0, 1, 1, registers=(0x1_8000_0002, 0, 1))), '3 MUL 5 after 1 step, quotient 1'
    yield clocked(mul, flying(0, 1, 1, registers=(0x1_8000_0002, 0, 0))), '3 MUL 5 after 1 step'
    yield clocked(mul, flying(0, 1, 32, registers=(15, 0, 0))), '3 MUL 5 after 32 steps'
    yield clocked(div, flying(0, 1, 31, registers=(0, 0, 1 << 31))), '3 DIV 2 after 31 steps, remainder 0'
    yield clocked(div, flying(0, 1, 31, registers=(0, 1, 0))), '3 DIV 2 after 31 steps, quotient 0'
    yield clocked(div, flying(0, 1, 31, registers=(1, 1, 1 << 31))), '3 DIV 2 after 31 steps, product 1'
    yield clocked(div, flying(0, 1, 31, registers=(0, 1, 1 << 31))), '3 DIV 2 after 31 steps'


def count_cases():
    yield clocked(0x3BC00, counted(1 << 32)), 'a clock count of 33 bits'
    yield clocked(0x3BC00, counted(4, 5, 4, 4)), 'held clocks above the clocks'
    yield clocked(0x3BC00, counted(4, 4, 5, 4)), 'refills above the clocks'
    yield clocked(0x3BC00, counted(4, 4, 4, 5)), 'write-backs above the clocks'
    yield clocked(0x3BC00, counted(4, 4, 4, 4)), 'each count as high as the clocks'


def line_cases():
    yield clocked(0x3BC00, flying(8, 0, 0, (2, 0, 0))), 'full is 2'
    yield clocked(0x3BC00, flying(8, 0, 0, (1, 2, 0))), 'dirty is 2'
    yield clocked(0x3BC00, flying(0, 0, 0, (1, 0, 0))), 'a full line, cache off'
    yield clocked(0x3BC00, flying(8, 0, 0, (1, 0, 32))), 'a full line, its block outside the store'
    yield clocked(0x3BC00, flying(8, 0, 0, (1, 0, 1))), "a full line, another line's block"
    yield clocked(0x3BC00, flying(8, 0, 0, (0, 1, 0))), 'an empty line, dirty'
    yield clocked(0x3BC00, flying(8, 0, 0, (0, 0, 1))), 'an empty line with block 1'
    yield clocked(0x3BC00, flying(8, 0, 0, (0, 0, 16))), 'an empty line with block 16'
    yield clocked(0x3BC00, flying(8, 0, 0, (1, 1, 16))), 'a full line, dirty, with the last block of its own'
    yield clocked(0x3BC00, flying(8, 0, 0, (2, 0, 15), at=15)), 'line 15: full is 2'
    yield clocked(0x3BC00, flying(8, 0, 0, (1, 2, 15), at=15)), 'line 15: dirty is 2'
    yield clocked(0x3BC00, flying(0, 0, 0, (1, 0, 15), at=15)), 'line 15: full, cache off'
    yield clocked(0x3BC00, flying(8, 0, 0, (1, 0, 47), at=15)), 'line 15: full, its block outside the store'
    yield clocked(0x3BC00, flying(8, 0, 0, (1, 0, 14), at=15)), "line 15: full, another line's block"
    yield clocked(0x3BC00, flying(8, 0, 0, (0, 1, 0), at=15)), 'line 15: empty, dirty'
    yield clocked(0x3BC00, flying(8, 0, 0, (0, 0, 15), at=15)), 'line 15: empty with block 15'
    yield clocked(0x3BC00, flying(8, 0, 0, (1, 1, 31), at=15)), 'line 15: full, dirty, with the last block of the store'


def byte_cases():
    yield clock(NEVER, record_with(), RAM, 8), 'clock: line byte 8'
    yield clock(NEVER, record_with(), RAM, 7), 'clock: line byte 7'
    yield clocked(0x3BC00, counted(MOST_CLOCKS)), 'clock: 4,294,967,295 clocks before'
    yield clocked(0x3BC00, counted(MOST_CLOCKS - 1)), 'clock: 4,294,967,294 clocks before'


def scenario_cases():
    """The scenario's record after a given clock, in all six phases, and after every clock."""
    program, numbers = scenario.words(), []
    for record, store, _, _ in scenario.clocks():
        numbers.append((record.phase, clock(program, record, store, 0)))
    for phase, at in enumerate((45, 77, 33, 43, 167, 157)):
        assert numbers[at - 1][0] == phase
        yield numbers[at - 1][1], f'phase {phase}: the scenario after clock {at}'
    yield sum(number for _, number in numbers), 'the scenario after every clock, the numbers summed'


def run_cases():
    ready, last, three = record_with(), counted(MOST_CLOCKS), [0] * 3
    yield run([], ready, RAM, three, three, three, three), 'run: no word'
    yield run(NEVER, ready, [0] * 128, three, three, three, three), 'run: a store of 128 words, 256 at reset'
    yield run(NEVER, flying(0, 0, 1), RAM, three, three, three, three), 'run: phase 0, count 1'
    yield run(NEVER, ready, RAM, three, [0] * 4, three, three), 'run: an input word too many'
    yield run(NEVER, ready, RAM, [0, 0, 8], three, three, three), 'run: the last line byte 8'
    yield run(NEVER, ready, RAM, three, three, [0] * 4, three), 'run: an answer byte too many'
    yield run(NEVER, ready, RAM, three, three, three, [0] * 2), 'run: an answer word too few'
    yield run(NEVER, counted(MOST_CLOCKS - 2), RAM, three, three, three, three), 'run: 3 clocks after 4,294,967,293'
    yield run(NEVER, counted(MOST_CLOCKS - 3), RAM, three, three, three, three), 'run: 3 clocks after 4,294,967,292'
    yield run(NEVER, ready, RAM, [0, 3, 7], three, three, three), 'run: 3 clocks'
    yield run(NEVER, last, RAM, [], [], [], []), 'run: no clock, after 4,294,967,295'


def look_cases():
    ready = record_with()
    yield look([], ready, RAM, 0), 'look: no word'
    yield look(NEVER, ready, [0] * 128, 0), 'look: a store of 128 words, 256 at reset'
    yield look(NEVER, flying(0, 0, 1), RAM, 0), 'look: phase 0, count 1'
    yield look(NEVER, ready, RAM, 0xFFC0), 'look: FFC0H'
    yield look(NEVER, ready, RAM, 0xFFBF), 'look: FFBFH'


def copy_cases():
    ready = record_with()
    yield copy([], ready, RAM, RAM), 'copy: no word'
    yield copy(NEVER, ready, [0] * 128, [0] * 128), 'copy: a store of 128 words, 256 at reset'
    yield copy(NEVER, flying(0, 0, 1), RAM, RAM), 'copy: phase 0, count 1'
    yield copy(NEVER, ready, RAM, [0] * 255), 'copy: a buffer of 255 words'
    yield copy(NEVER, ready, RAM, RAM), 'copy: a buffer of 256 words'


def watch_cases():
    yield watch(64), 'watch: device 64'
    yield watch(63), 'watch: device 63'


def order_cases():
    bad, full, two, three = flying(0, 0, 1), counted(MOST_CLOCKS), [0] * 2, [0] * 3
    yield clock([], record_with(), [0] * 128, 0), 'rows 3 and 4'
    yield clock(NEVER, bad, [0] * 128, 0), 'rows 4 and 5'
    yield clock(NEVER, bad, RAM, 8), 'rows 5 and 6'
    yield clock(NEVER, full, RAM, 8), 'rows 6 and 8'
    yield run(NEVER, full, RAM, three, two, two, three), 'rows 6, 7 and 8'
    yield run(NEVER, full, RAM, three, three, two, three), 'rows 7 and 8'
    yield look(NEVER, bad, RAM, 0xFFC0), 'rows 5 and 9'
    yield copy(NEVER, bad, RAM, [0] * 255), 'rows 5 and 7'


# Ids of sentences in docs/CLAIMS.md: by refusal number, and by part; a part without ids has those of its numbers.
ROWS = {3: 'S3.5', 4: 'S3.6', 5: 'S3.7', 6: 'S3.8', 7: 'S3.9', 8: 'S3.10', 9: 'S3.11'}
PARTS = {reset_cases: 'S3.6', clock_cases: '', width_cases: 'S3.7 S1.1', phase_cases: 'S3.7 S2.25 S2.27',
         register_cases: 'S3.7 S2.13 S2.14 S2.15', count_cases: 'S3.7 S2.29', line_cases: 'S3.7 S2.21', byte_cases: '',
         scenario_cases: 'S2.45', run_cases: '', look_cases: '', copy_cases: '', watch_cases: 'S3.11', order_cases: 'S3.1'}
ACCEPTED = {clock_cases: 'S3.5', byte_cases: 'S3.8 S3.10', run_cases: 'S3.8 S3.10', look_cases: 'S3.11', copy_cases: 'S3.9'}


def cases():
    """(number, what, ids of its sentences)"""
    for part, ids in PARTS.items():
        for number, what in part():
            yield number, what, ids or ROWS.get(number) or ACCEPTED[part]


if __name__ == '__main__':
    for case in cases():
        print(*case)
