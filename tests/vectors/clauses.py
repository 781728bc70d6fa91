# Row 5 of the paper's refusals, clause by clause: ids of the sentences, a name, the number, the word at PC, and fields of the record.
# Called: imported by tests/vectors/scripts.py; it does nothing when run.
# Reads: tests/machine/machine.py, for words by their fields. The record is that of a reset with 256 words of store: 32 blocks.
import sys
from pathlib import Path

sys.dont_write_bytecode = True
sys.path.insert(0, str(Path(__file__).resolve().parents[1] / 'machine'))
import machine as m
from machine import branch, call, imm, jump, ld, reg, rti, st, status

NEVER, LOADS, STORES = 0x3BC00, ld(0, 7, 128), st(0, 7, 128)     # LD and ST at address 128: block 16, line 0
JUMP, CLEARS = jump(1), status(0)
ONES, LEAST, WIDE = 0xFFFFFFFF, 1 << 31, 1 << 32
DEVICES = {1: 0xFFC0}
LINE_0 = dict(full={0: 1}, dirty={0: 1})                         # full, dirty, with block 0
OWN_BLOCK = dict(full={0: 1}, block={0: 16})                     # full, clean, with block 16

WIDTHS = [
    ('PC 4,095', 0, NEVER, dict(pc=4095)),
    ('PC 4,096', 5, NEVER, dict(pc=4096)),
    ('PC 2^32', 5, NEVER, dict(pc=WIDE)),
    *((f'{name} {value}', number, NEVER, {name.lower(): value})
      for name in 'NZCV' for value, number in ((1, 0), (2, 5), (WIDE, 5))),
    ('status 15', 0, NEVER, dict(status=15)),
    ('status 16', 5, NEVER, dict(status=16)),
    ('status 2^32', 5, NEVER, dict(status=WIDE)),
    ('H and registers of 32 bits', 0, NEVER, dict(h=ONES, regs={0: ONES, 15: ONES})),
    ('line 0: full is 1', 0, NEVER, dict(status=8, full={0: 1})),
    ('line 0: full is 2', 5, NEVER, dict(status=8, full={0: 2})),
    ('line 15: full is 2', 5, NEVER, dict(status=8, full={15: 2}, block={15: 15})),
    ('line 0: dirty is 1', 0, NEVER, dict(status=8, full={0: 1}, dirty={0: 1})),
    ('line 0: dirty is 2', 5, NEVER, dict(status=8, full={0: 1}, dirty={0: 2})),
    ('line 15: dirty is 2', 5, NEVER, dict(status=8, full={15: 1}, dirty={15: 2}, block={15: 15})),
]

PHASES = [
    ('phase 0, count 0', 0, NEVER, {}),
    ('phase 0, count 1', 5, NEVER, dict(count=1)),
    ('phase 0, count 2^32', 5, NEVER, dict(count=WIDE)),
    ('phase 2^32', 5, NEVER, dict(phase=WIDE)),
    ('phase 6, 14 taken', 5, branch(14, 0), dict(phase=6)),
    ('phase 1, MUL, count 0', 5, imm(m.MUL, 0, 0), dict(phase=1)),
    ('phase 1, MUL, count 1', 0, imm(m.MUL, 0, 0), dict(phase=1, count=1)),
    ('phase 1, MUL, count 32', 0, imm(m.MUL, 0, 0), dict(phase=1, count=32)),
    ('phase 1, MUL, count 33', 5, imm(m.MUL, 0, 0), dict(phase=1, count=33)),
    ('phase 1, DIV, count 0', 5, imm(m.DIV, 0, 0), dict(phase=1)),
    ('phase 1, DIV, count 1', 0, imm(m.DIV, 0, 0), dict(phase=1, count=1)),
    ('phase 1, DIV, count 32', 0, imm(m.DIV, 0, 0), dict(phase=1, count=32)),
    ('phase 1, DIV, count 33', 5, imm(m.DIV, 0, 0), dict(phase=1, count=33)),
    ('phase 1, XOR', 5, imm(m.XOR, 0, 0), dict(phase=1, count=1)),
    ('phase 1, ROR', 5, imm(m.ROR, 0, 0), dict(phase=1, count=1)),
    ('phase 1, beyond the program', 5, imm(m.MUL, 0, 0), dict(pc=1, phase=1, count=1)),
    ('phase 2, LD, count 0', 0, LOADS, dict(status=8, phase=2, **LINE_0)),
    ('phase 2, LD, count 9', 0, LOADS, dict(status=8, phase=2, count=9, **LINE_0)),
    ('phase 2, LD, count 10', 5, LOADS, dict(status=8, phase=2, count=10, **LINE_0)),
    ('phase 2, ST, count 9', 0, STORES, dict(status=8, phase=2, count=9, **LINE_0)),
    ('phase 2, ST, count 10', 5, STORES, dict(status=8, phase=2, count=10, **LINE_0)),
    ('phase 2, LD, the line clean', 5, LOADS, dict(status=8, phase=2, full={0: 1})),
    ('phase 2, LD, the line empty', 5, LOADS, dict(status=8, phase=2)),
    ('phase 2, LD, its own block', 5, LOADS, dict(status=8, phase=2, full={0: 1}, dirty={0: 1}, block={0: 16})),
    ('phase 2, LD, another line dirty', 5, LOADS, dict(status=8, phase=2, full={1: 1}, dirty={1: 1}, block={1: 1})),
    ('phase 2, LD from a device', 5, ld(0, 1, 0), dict(status=8, phase=2, regs=DEVICES, full={8: 1}, dirty={8: 1}, block={8: 8})),
    ('phase 2, MOV', 5, imm(m.MOV, 0, 1), dict(status=8, phase=2, **LINE_0)),
    ('phase 2, 11 clearing, count 0', 0, CLEARS, dict(status=8, phase=2, **LINE_0)),
    ('phase 2, 11 clearing, count 9', 0, CLEARS, dict(status=8, phase=2, count=9, **LINE_0)),
    ('phase 2, 11 clearing, count 10', 5, CLEARS, dict(status=8, phase=2, count=10, **LINE_0)),
    ('phase 2, 11 clearing, line 15', 0, CLEARS, dict(status=8, phase=2, full={15: 1}, dirty={15: 1}, block={15: 31})),
    ('phase 2, 11 clearing, none dirty', 5, CLEARS, dict(status=8, phase=2, full={0: 1})),
    ('phase 2, 11 not clearing bit 3', 5, status(8), dict(status=8, phase=2, **LINE_0)),
    ('phase 2, 11 with bit 10 set', 5, JUMP, dict(status=8, phase=2, **LINE_0)),
    ('phase 3, LD, count 0', 0, LOADS, dict(status=8, phase=3)),
    ('phase 3, LD, count 9', 0, LOADS, dict(status=8, phase=3, count=9)),
    ('phase 3, LD, count 10', 5, LOADS, dict(status=8, phase=3, count=10)),
    ('phase 3, ST, count 9', 0, STORES, dict(status=8, phase=3, count=9)),
    ('phase 3, ST, count 10', 5, STORES, dict(status=8, phase=3, count=10)),
    ('phase 3, LD, the line full', 5, LOADS, dict(status=8, phase=3, full={0: 1})),
    ('phase 3, LD, another line full', 0, LOADS, dict(status=8, phase=3, full={1: 1}, block={1: 1})),
    ('phase 3, LD, cache off', 5, LOADS, dict(phase=3)),
    ('phase 3, LD from a device', 5, ld(0, 1, 0), dict(status=8, phase=3, regs=DEVICES)),
    ('phase 3, MOV', 5, imm(m.MOV, 0, 1), dict(status=8, phase=3)),
    ('phase 4, LD, count 0', 5, LOADS, dict(phase=4)),
    ('phase 4, LD, count 1', 0, LOADS, dict(phase=4, count=1)),
    ('phase 4, LD, count 5', 0, LOADS, dict(phase=4, count=5)),
    ('phase 4, LD, count 6', 5, LOADS, dict(phase=4, count=6)),
    ('phase 4, ST, count 0', 5, STORES, dict(phase=4)),
    ('phase 4, ST, count 1', 0, STORES, dict(phase=4, count=1)),
    ('phase 4, ST, count 4', 0, STORES, dict(phase=4, count=4)),
    ('phase 4, ST, count 5', 5, STORES, dict(phase=4, count=5)),
    ('phase 4, LD, cache on', 5, LOADS, dict(status=8, phase=4, count=1)),
    ('phase 4, LD from a device', 5, ld(0, 1, 0), dict(phase=4, count=1, regs=DEVICES)),
    ('phase 4, MOV', 5, imm(m.MOV, 0, 1), dict(phase=4, count=1)),
    ('phase 5, 14 always', 0, branch(14, 0), dict(phase=5)),
    ('phase 5, 14 always, count 1', 5, branch(14, 0), dict(phase=5, count=1)),
    ('phase 5, 14 if Z, Z 1', 0, branch(0, 3), dict(phase=5, z=1)),
    ('phase 5, 14 if Z, Z 0', 5, branch(0, 3), dict(phase=5)),
    ('phase 5, 14 never', 5, NEVER, dict(phase=5)),
    ('phase 5, beyond the program', 5, branch(14, 0), dict(phase=5, pc=1)),
    ('phase 5, 15', 0, call(3), dict(phase=5)),
    ('phase 5, 11 with bit 10 set', 0, JUMP, dict(phase=5)),
    ('phase 5, 11, RTI', 0, rti(1), dict(phase=5)),
    ('phase 5, 11 clearing, none dirty', 0, CLEARS, dict(status=8, phase=5, full={0: 1})),
    ('phase 5, 11 clearing, one dirty', 5, CLEARS, dict(status=8, phase=5, **LINE_0)),
    ('phase 5, 11, bit 3 clear already', 5, CLEARS, dict(phase=5)),
    ('phase 5, 11 not clearing bit 3', 5, status(8), dict(status=8, phase=5)),
    ('phase 5, LD from a device', 0, ld(0, 1, 0), dict(phase=5, regs=DEVICES)),
    ('phase 5, ST to a device', 5, st(0, 1, 0), dict(phase=5, regs=DEVICES)),
    ('phase 5, LD, its block there', 0, LOADS, dict(status=8, phase=5, **OWN_BLOCK)),
    ('phase 5, ST, its block there', 0, STORES, dict(status=8, phase=5, **OWN_BLOCK)),
    ('phase 5, LD, another block there', 5, LOADS, dict(status=8, phase=5, full={0: 1})),
    ('phase 5, ST, another block there', 5, STORES, dict(status=8, phase=5, full={0: 1})),
    ('phase 5, LD, the line empty', 5, LOADS, dict(status=8, phase=5)),
    ('phase 5, LD from 0, line empty', 5, ld(0, 7, 0), dict(status=8, phase=5)),
    ('phase 5, LD, cache off', 5, LOADS, dict(phase=5)),
    ('phase 5, MOV', 5, imm(m.MOV, 0, 1), dict(phase=5)),
    ('phase 5, MUL', 5, imm(m.MUL, 0, 1), dict(phase=5)),
]

# 3 MUL 5: after 1 step 3 × 1 × 2^31 + 2, after 32 the product. 3 DIV 2: after 31 steps t = 1, so remainder 1, and the quotient
# register has the last bit of 3 in bit 31. 7 DIV 0 and 7 DIV -1 hold zeros.
THREE = {1: 3}
MUL_5, DIV_2 = imm(m.MUL, 1, 5), imm(m.DIV, 1, 2)
IDLE = [
    ('phase 0, product 1', 5, NEVER, dict(product=1)),
    ('phase 0, product 2^32', 5, NEVER, dict(product=WIDE)),
    ('phase 0, remainder 1', 5, NEVER, dict(remainder=1)),
    ('phase 0, remainder 2^32', 5, NEVER, dict(remainder=WIDE)),
    ('phase 0, quotient 1', 5, NEVER, dict(quotient=1)),
    ('phase 0, quotient 2^32', 5, NEVER, dict(quotient=WIDE)),
    ('phase 2, product 1', 5, LOADS, dict(status=8, phase=2, product=1, **LINE_0)),
    ('phase 3, remainder 1', 5, LOADS, dict(status=8, phase=3, remainder=1)),
    ('phase 4, quotient 1', 5, LOADS, dict(phase=4, count=1, quotient=1)),
    ('phase 5, product 1', 5, branch(14, 0), dict(phase=5, product=1)),
]

MULTIPLIER = [
    ('MUL, 1 step', 0, MUL_5, dict(regs=THREE, phase=1, count=1, product=0x1_8000_0002)),
    ('MUL, 1 step, one more', 5, MUL_5, dict(regs=THREE, phase=1, count=1, product=0x1_8000_0003)),
    ('MUL, 1 step, another high word', 5, MUL_5, dict(regs=THREE, phase=1, count=1, product=0x8000_0002)),
    ('MUL, 1 step, the whole product', 5, MUL_5, dict(regs=THREE, phase=1, count=1, product=15)),
    ('MUL, 1 step, remainder 1', 5, MUL_5, dict(regs=THREE, phase=1, count=1, product=0x1_8000_0002, remainder=1)),
    ('MUL, 1 step, quotient 1', 5, MUL_5, dict(regs=THREE, phase=1, count=1, product=0x1_8000_0002, quotient=1)),
    ('MUL, 32 steps', 0, MUL_5, dict(regs=THREE, phase=1, count=32, product=15)),
    ('MUL, 32 steps, one less', 5, MUL_5, dict(regs=THREE, phase=1, count=32, product=14)),
    ('-1 MUL -1, 32 steps', 0, reg(m.MUL, 1, 1), dict(regs={1: ONES}, phase=1, count=32, product=1)),
    ('-1 MUL -1, A without sign', 5, reg(m.MUL, 1, 1), dict(regs={1: ONES}, phase=1, count=32, product=(1 << 64) - ONES)),
]

DIVIDER = [
    ('DIV, 31 steps', 0, DIV_2, dict(regs=THREE, phase=1, count=31, remainder=1, quotient=LEAST)),
    ('DIV, 31 steps, remainder 0', 5, DIV_2, dict(regs=THREE, phase=1, count=31, quotient=LEAST)),
    ('DIV, 31 steps, quotient 0', 5, DIV_2, dict(regs=THREE, phase=1, count=31, remainder=1)),
    ('DIV, 31 steps, product 1', 5, DIV_2, dict(regs=THREE, phase=1, count=31, remainder=1, quotient=LEAST, product=1)),
    ('DIV, 31 steps, remainder 33 bits', 5, DIV_2, dict(regs=THREE, phase=1, count=31, remainder=WIDE + 1, quotient=LEAST)),
    ('DIV, 31 steps, quotient 33 bits', 5, DIV_2, dict(regs=THREE, phase=1, count=31, remainder=1, quotient=WIDE + LEAST)),
    ('DIV, 32 steps', 0, DIV_2, dict(regs=THREE, phase=1, count=32, remainder=1, quotient=1)),
    ('DIV, 32 steps, quotient 2', 5, DIV_2, dict(regs=THREE, phase=1, count=32, remainder=1, quotient=2)),
    ('DIV by 0, zeros', 0, imm(m.DIV, 1, 0), dict(regs={1: 7}, phase=1, count=1)),
    ('DIV by 0, quotient 14', 5, imm(m.DIV, 1, 0), dict(regs={1: 7}, phase=1, count=1, quotient=14)),
    ('DIV by -1, zeros', 0, reg(m.DIV, 1, 2), dict(regs={1: 7, 2: ONES}, phase=1, count=1)),
    ('DIV by -1, quotient 14', 5, reg(m.DIV, 1, 2), dict(regs={1: 7, 2: ONES}, phase=1, count=1, quotient=14)),
]

COUNTS = [
    ('each count as high as the clocks', 0, NEVER, dict(clocks=4, held=4, refills=4, writebacks=4)),
    ('held above the clocks', 5, NEVER, dict(clocks=4, held=5)),
    ('refills above the clocks', 5, NEVER, dict(clocks=4, refills=5)),
    ('write-backs above the clocks', 5, NEVER, dict(clocks=4, writebacks=5)),
    ('held 2^32', 5, NEVER, dict(clocks=4, held=WIDE)),
    ('refills 2^32', 5, NEVER, dict(clocks=4, refills=WIDE)),
    ('write-backs 2^32', 5, NEVER, dict(clocks=4, writebacks=WIDE)),
    ('clocks 2^32', 5, NEVER, dict(clocks=WIDE)),
]

BLOCKS = [
    ('line 0: block 0', 0, NEVER, dict(status=8, full={0: 1})),
    ('line 0: block 16', 0, NEVER, dict(status=8, full={0: 1}, block={0: 16})),
    ('line 0: block 32, outside', 5, NEVER, dict(status=8, full={0: 1}, block={0: 32})),
    ('line 15: block 31, the last', 0, NEVER, dict(status=8, full={15: 1}, block={15: 31})),
    ('line 15: block 47, outside', 5, NEVER, dict(status=8, full={15: 1}, block={15: 47})),
    ('line 0: block 65,520, outside', 5, NEVER, dict(status=8, full={0: 1}, block={0: 65520})),
    ("line 0: block 1, line 1's", 5, NEVER, dict(status=8, full={0: 1}, block={0: 1})),
    ("line 15: block 30, line 14's", 5, NEVER, dict(status=8, full={15: 1}, block={15: 30})),
    ('line 7: full, cache off', 5, NEVER, dict(full={7: 1}, block={7: 7})),
    ('line 7: full, cache on', 0, NEVER, dict(status=8, full={7: 1}, block={7: 7})),
    ('line 7: empty, cache off', 0, NEVER, {}),
    ('line 7: empty, dirty', 5, NEVER, dict(status=8, dirty={7: 1})),
    ('line 7: empty, block 7', 5, NEVER, dict(status=8, block={7: 7})),
    ('line 7: empty, block 0', 0, NEVER, dict(status=8)),
    ('line 15: empty, dirty', 5, NEVER, dict(status=8, dirty={15: 1})),
    ('line 0: empty, block 16', 5, NEVER, dict(status=8, block={0: 16})),
    ('line 0: empty, with old words', 0, NEVER, dict(status=8, words={0: 5, 127: 6})),
]

PARTS = [('S3.7 S1.1', WIDTHS), ('S3.7 S2.25 S2.27', PHASES), ('S3.7 S2.15', IDLE), ('S3.7 S2.13 S2.15', MULTIPLIER),
         ('S3.7 S2.14 S2.15', DIVIDER), ('S3.7 S2.29', COUNTS), ('S3.7 S2.17 S2.21', BLOCKS)]
ROWS = [(ids, *row) for ids, part in PARTS for row in part]
