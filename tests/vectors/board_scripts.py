# Scripts on the serial board for the program trm_test_board: its refusals, its devices, and one byte over a line joined to itself.
# Called: imported by tests/vectors/make; it does nothing when run.
# Reads: tests/vectors/bench.py, board_bench.py and clauses.py, tests/machine/. Figures and refusal numbers of request A1 are written as
# numbers.
import sys

sys.dont_write_bytecode = True
from bench import begin
from board_bench import HIGH, INTERRUPT_1, NAMES, STALL, WIDE, BoardScript, board
from clauses import DEVICES, NEVER, ONES
from machine import MOV, NOT, branch, imm, ld, rti, st, status

MOST = 4294967295
LIMITS = dict(left=10120, sent=255, passed=9613, bits=255, byte=255, ready=1, tick=1, lamps=1023)
STAY = [branch(14, -1)]


def fresh(s, *words, length=256, **fields):
    """A program, a store, a reset of the board, and fields of the board and of its core's record; R1 is the base of the devices."""
    s.program(*words, length=length)
    s.board_reset(0)
    s.set(regs={**DEVICES, **fields.pop('regs', {})})
    for name, value in fields.items():
        (s.set_board if name in NAMES else s.set)(**{name: value})


# ---- the refusals: for each limit the last accepted value and the first refused one, given and joined

def calls(s, number, given=HIGH, **fields):
    """Clock and run, given and joined, each with everything else legal; before each these fields of the board are set."""
    for joined in (0, 1):
        s.set_board(**fields)
        s.board_clock(number, given=given, joined=joined)
        s.set_board(**fields)
        s.board_run(number, 3, given=given, joined=joined)


def row_3(s):
    s.head('A1.20 S3.5', 'board, row 3: no word')
    fresh(s, NEVER)
    s.lend(0, 256)
    calls(s, 3)
    s.fill(0, 0, 4097, NEVER)
    for words, number in ((4096, 0), (4097, 3)):
        s.head('A1.20 S3.5', f'board, row 3: {words:,} words')
        s.lend(words, 256)
        calls(s, number)
    s.head('A1.20 S3.5', 'board, row 3: word 4,095 is 40000H')
    s.fill(0, 4095, 1, 0x40000)
    s.lend(4096, 256)
    calls(s, 3)


def row_4(s):
    for length, number in ((63, 4), (64, 0), (65, 4), (32768, 0), (65536, 4)):
        s.head('A1.20 S3.6', f'board, row 4: reset with {length:,}')
        s.program(NEVER, length=length)
        s.board_reset(number)
    for length in (128, 255, 512):
        s.head('A1.20 S3.6', f'board, row 4: {length}, 256 at reset')
        fresh(s, NEVER)
        s.lend(1, length)
        calls(s, 4)


def row_5(s):
    for what, fields in (('PC 4,096', dict(pc=4096)), ('count 1', dict(count=1)), ('an empty line dirty', dict(dirty={15: 1}))):
        s.head('A1.20 S3.7', f'board, row 5: {what}')
        fresh(s, NEVER, **fields)
        calls(s, 5)
    for name, most in LIMITS.items():
        for value, number in ((most, 0), (most + 1, 5), (WIDE, 5)):
            s.head('A1.13 A1.20 S3.7', f'board, row 5: {name} {value:,}')
            fresh(s, *STAY)
            calls(s, number, **{name: value})
    s.head('A1.13 A1.20 S3.7', 'board, row 5: every field')
    fresh(s, *STAY, **{name: most + 1 for name, most in LIMITS.items()})
    calls(s, 5)
    s.clock(0)                                # the core's own calls do not look at the board's fields
    s.head('A1.13', 'every field at its limit')
    fresh(s, *STAY)
    calls(s, 0, **LIMITS)


def row_6(s):
    for given, number in ((7, 0), (8, 6), (255, 6)):
        s.head('A1.20 A1.2 S3.8', f'board, row 6: given {given}')
        fresh(s, NEVER)
        calls(s, number, given=given)
    for joined in (0, 1):
        s.head('A1.20 S3.8', 'board, row 6: switches')
        fresh(s, NEVER)
        for more in (1, -1):
            s.board_run(6, 3, more=(more, 0, 0, 0), joined=joined)
        s.head('A1.20 S3.8', 'board, row 6: one of 3 is 7, is 8')
        for at in (0, 1, 2):
            s.board_run(0, 3, at=at, odd=(7, 0), joined=joined)
            s.board_run(6, 3, at=at, odd=(8, 0), joined=joined)
        s.board_run(0, 3, at=3, odd=(8, 0), joined=joined)       # behind the last
        s.head('A1.20 S3.8', 'board, row 6: 65,537 clocks')
        s.board_run(6, 65537, joined=joined)
        s.head('A1.20 S3.8', 'board, row 6: 65,536, last is 8')
        s.board_run(6, 65536, at=65535, odd=(8, 0), joined=joined)


def row_7(s):
    for place, what in ((1, 'levels'), (2, 'answer bytes'), (3, 'answer words')):
        s.head('A1.20 S3.9', f'board, row 7: {what}')
        fresh(s, NEVER)
        for joined in (0, 1):
            for clocks, n in ((3, 1), (3, -1), (0, 1), (65536, -1)):
                s.board_run(7, clocks, more=tuple(n if at == place else 0 for at in range(4)), joined=joined)
    s.head('A1.20 S3.9', 'board, row 7: a run of 0')
    s.board_run(0, 0)
    s.board_run(0, 0, joined=1)


def row_8(s):
    for joined in (0, 1):
        for clocks in (1, 3, 65536):
            for before, number in ((MOST - clocks, 0), (MOST - clocks + 1, 8)):
                s.head('A1.20 S3.10', f'board: {clocks:,} after {before:,}')
                fresh(s, NEVER, clocks=before)
                s.board_run(number, clocks, given=STALL, joined=joined)
                if clocks == 1:
                    s.set(clocks=before)
                    s.board_clock(number, joined=joined)
        s.head('A1.20 S3.10', 'board, row 8: no clock')
        fresh(s, NEVER, clocks=MOST)
        s.board_run(0, 0, joined=joined)


def faulty(s, row_numbers, joined):
    """A clock, if it has these rows, and a run with a fault in each; the number is the upper row's. The fault of row 5 is the board's."""
    number = min(row_numbers)
    fresh(s, NEVER, **(dict(lamps=1024) if 5 in row_numbers else {}), **(dict(clocks=MOST) if 8 in row_numbers else {}))
    s.lend(0 if 3 in row_numbers else 1, 128 if 4 in row_numbers else 256)
    given = 8 if 6 in row_numbers else HIGH
    if 7 not in row_numbers:
        s.board_clock(number, given=given, joined=joined)
    s.board_run(number, 3, more=(0, 0, 1 if 7 in row_numbers else 0, 0), at=2, odd=(given, 0), joined=joined)


def order(s):
    table = (3, 4, 5, 6, 7, 8)
    for upper in table:
        for lower in table:
            if upper < lower:
                s.head('A1.20 S3.1', f'board: rows {upper} and {lower}')
                faulty(s, (upper, lower), joined=(upper + lower) % 2)
    s.head('A1.20 S3.1', 'board: every row')
    faulty(s, table, joined=1)


# ---- what a clock takes

def inputs(s):
    s.head('A1.2', 'the line: low begins a frame')
    fresh(s, *STAY)
    s.board_clock(0, given=HIGH, said=(1, 0, 0, 0))
    s.show_board('passed', given=0)
    s.board_clock(0, given=0)
    s.show_board('passed', given=1)
    s.head('A1.2', 'interrupt 1')
    fresh(s, NEVER, status=3)
    s.board_clock(0, given=HIGH + INTERRUPT_1, said=(1, 0, 0, 0))
    s.show('pc', given=3)
    s.head('A1.2', 'stall')
    fresh(s, NEVER, status=3, tick=1)
    s.board_clock(0, given=HIGH + INTERRUPT_1 + STALL, said=(1, 0, 0, 0))
    s.show('pc', given=0)
    s.show('held', given=1)
    s.head('A1.19', 'joined: the level is the line')
    fresh(s, *STAY, left=10120, sent=0xFF)
    s.board_clock(0, given=HIGH, said=(0, 0, 0, 0))
    s.show_board('passed', given=0)
    s.set_board(left=10120)
    s.board_clock(0, given=HIGH, joined=1, said=(0, 0, 0, 1))
    s.show_board('passed', given=1)
    fresh(s, *STAY)
    s.board_run(0, 9, given=0, joined=1, at=8, level=1)
    s.show_board('passed', given=0)


# ---- the devices

def tick(s):
    s.head('A1.4 A1.5', 'tick: at 116,600, seen after it')
    fresh(s, NEVER, NEVER, NEVER, NEVER, status=1, clocks=116598)
    s.show_board('tick', given=0)
    s.board_clock(0, said=(1, 0, 0, 1))
    s.show_board('tick', given=0)
    s.board_clock(0, said=(1, 0, 0, 1))
    s.show('clocks', given=116600)
    s.show_board('tick', given=1)
    s.show('pc', given=2)                     # two words executed, no interrupt
    s.board_clock(0, said=(1, 0, 0, 0))
    s.show('status', given=5)
    s.show('regs', 15, given=2)
    s.head('A1.4', 'tick: no rise at a lent multiple')
    fresh(s, *STAY, clocks=233200)
    s.board_run(0, 1000)
    s.show_board('tick', given=0)
    for clocks, what, given, before, after in ((116599, 'a rise beats it', HIGH, 1, 1), (116599, 'a rise beats it', HIGH, 0, 1),
                                               (116598, 'a clock before', HIGH, 1, 0), (116600, 'a clock after', HIGH, 1, 0),
                                               (349799, 'a rise beats it', HIGH, 1, 1), (5, 'held: no write', HIGH + STALL, 1, 1)):
        s.head('A1.4 A1.14', f'tick: a write to 6, {what}')
        fresh(s, st(0, 1, 6), clocks=clocks, tick=before)
        s.board_clock(0, given=given)
        s.show_board('tick', given=after)
    s.head('A1.4 A1.9', 'tick: rises in a held clock')
    fresh(s, *STAY, clocks=116599, held=116599)
    s.board_clock(0, given=HIGH + STALL)
    s.show_board('tick', given=1)
    s.head('A1.4', 'tick: from reset')
    fresh(s, *STAY)
    s.board_run(0, 65536)
    s.board_run(0, 51063, joined=1)
    s.show_board('tick', given=0)
    s.board_clock(0)
    s.show_board('tick', given=1)


def reads(s, number, clocks, word, ids, what, switches=0, **fields):
    """An LD of a device: the read is in its second clock, with this word."""
    s.head(ids, what)
    fresh(s, ld(2, 1, number), clocks=clocks, **fields)
    s.board_clock(0, switches=switches ^ 255, said=(1 if fields.get('left', 0) < 1013 else 0, 0, 0, 0))
    s.board_clock(0, switches=switches)
    s.show('regs', 2, given=word)


def milliseconds(s):
    for clocks, word in ((0, 0), (116598, 0), (116599, 1), (233198, 1), (233199, 2), (MOST - 2, 36835)):
        reads(s, 6, clocks, word, 'A1.14 A1.5', f'milliseconds in clock {clocks + 2:,}')


def statuses(s):
    for ready, left, word in ((0, 0, 2), (1, 0, 3), (0, 10, 0), (1, 10, 1)):
        reads(s, 5, 0, word, 'A1.3', f'status: ready {ready}, left {left}', ready=ready, left=left)
        s.show_board('ready', given=ready)    # reading 5 leaves the bit
    reads(s, 5, 0, 0, 'A1.5 A1.12', 'status: in the last busy clock', left=2)
    reads(s, 5, 0, 2, 'A1.5 A1.12', 'status: in the clock after it', left=1)
    reads(s, 5, 0, 2, 'A1.5 A1.10', 'status: in the stop sample', passed=9612, bits=0x3C)
    s.show_board('ready', given=1)
    reads(s, 5, 0, 3, 'A1.5 A1.10', 'status: after the stop sample', passed=9613, bits=0x3C)


def data(s):
    s.head('A1.8 A1.18', 'read of 4, in one clock only')
    fresh(s, ld(2, 1, 4), byte=0x5A, ready=1)
    s.board_clock(0, said=(1, 0, 0, 0))
    s.show_board('ready', given=1)
    s.board_clock(0, given=HIGH + STALL, said=(1, 0, 0, 0))
    s.show_board('ready', given=1)
    s.board_clock(0, said=(1, 0x11, 0x5A, 1))
    s.show_board('ready', given=0)
    s.show_board('byte', given=0x5A)
    s.head('A1.10', 'read of 4 before the stop sample')
    fresh(s, ld(2, 1, 4), passed=9611, bits=0x3C, byte=0x5A, ready=1)
    s.board_run(0, 2, at=1)
    s.show_board('ready', given=0)
    s.board_clock(0)
    s.show_board('ready', given=1)
    s.head('A1.10', 'read of 4 in the stop sample')
    fresh(s, ld(2, 1, 4), passed=9612, bits=0x3C, byte=0x5A, ready=1)
    s.board_clock(0)
    s.board_clock(0, said=(1, 0x11, 0x5A, 1))
    s.show_board('ready', given=1)
    s.show_board('byte', given=0x3C)
    s.show_board('passed', given=0)
    s.head('A1.16', 'a later byte replaces it unread')
    fresh(s, *STAY, passed=9613, bits=0x3C, byte=0x5A, ready=1)
    s.board_clock(0)
    s.show_board('byte', given=0x3C)
    s.show_board('ready', given=1)


def panel(s):
    for switches in (0, 0x80, 0xA5, 255):
        reads(s, 7, 0, switches, 'A1.15 A1.3', f'switches {switches}', switches=switches)
    for device in (0, 3, 8, 12, 63):
        reads(s, device, 5 * 116600, 0, 'A1.8', f'device {device} reads zero', switches=255, byte=1, ready=1)
        s.show_board('ready', given=1)
    s.head('A1.8', 'device 8 after the switches')
    fresh(s, ld(2, 1, 7), ld(3, 1, 8), regs={3: 9})
    s.board_run(0, 4, switches=0xA5, at=3)
    s.show('regs', 2, given=0xA5)
    s.show('regs', 3, given=0)
    for word, lamps in ((0x3FF, 1023), (0x400, 0), (0x5FF, 511), (ONES, 1023), (0x12345678, 0x278)):
        s.head('A1.15', f'lamps by {word:X}H')
        fresh(s, st(0, 1, 7), regs={0: word}, lamps=0x155)
        s.board_clock(0, said=(1, 0x1E, word, 1))
        s.show_board('lamps', given=lamps)

def writes(s):
    """A write to 4, 6 or 7 leaves what is not its own, and one to another device leaves all."""
    for device in (0, 4, 5, 6, 7, 8, 12, 13, 14, 15, 63):
        s.head('A1.3 A1.4 A1.15', f'what a write to {device} leaves')
        fresh(s, st(0, 1, device), regs={0: 7}, byte=0x5A, ready=1, tick=1, lamps=0x155)
        s.board_clock(0, said=(1, 4 * device + 2, 7, 1))
        for name, value, own in (('left', 0, 4), ('ready', 1, None), ('tick', 1, 6), ('lamps', 0x155, 7)):
            if device != own:
                s.show_board(name, given=value)


# ---- the serial line

def sends(s):
    for left, what, after in ((0, 'free', (10120, 0x41)), (5000, 'busy: dropped', (4999, 0x55)), (10120, 'first busy clock', (10119, 0x55)),
                              (1, 'last busy clock: dropped', (0, 0x55)), (2, 'last busy but one', (1, 0x55))):
        for joined in (0, 1):
            s.head('A1.12 A1.17', f'a write, {what}')
            fresh(s, st(0, 1, 4), regs={0: 0x141}, left=left, sent=0x55)
            s.board_clock(0, joined=joined)
            s.show_board('left', given=after[0])
            s.show_board('sent', given=after[1])
    s.head('A1.12 A1.17', 'last busy clock, and the next')
    fresh(s, st(0, 1, 4), st(2, 1, 4), regs={0: 0x141, 2: 0x142}, left=1, sent=0x55)
    s.board_clock(0, said=(1, 0x12, 0x141, 1))
    s.board_clock(0, said=(1, 0x12, 0x142, 1))
    s.show_board('sent', given=0x42)
    s.show_board('left', given=10120)
    s.head('A1.6', 'levels of a frame, 41H')
    for left, level in ((10120, 0), (9109, 0), (9108, 1), (8097, 1), (8096, 0), (3037, 0), (3036, 1), (2025, 1), (2024, 0), (1013, 0),
                        (1012, 1), (1, 1), (0, 1)):
        fresh(s, NEVER, left=left, sent=0x41)
        s.board_clock(0, said=(level, 0, 0, 1))


def receives(s):
    for at, byte in ((1516, 0), (1517, 1), (1518, 0), (8600, 0), (8601, 0x80), (8602, 0), (9613, 0)):
        s.head('A1.6 A1.7', f'low, but for clock {at + 1:,}')
        fresh(s, *STAY)
        s.board_run(0, 9613, given=0, at=at, odd=(HIGH, 0), level=1 if at < 9613 else None)
        s.show_board('ready', given=0)
        s.board_clock(0, given=0)
        s.show_board('byte', given=byte)
        s.show_board('ready', given=1)
        s.board_clock(0, given=0)
        s.show_board('passed', given=1)       # the clock after a stop sample may be a frame's first
    s.head('A1.7', 'high, but for clock 4')
    fresh(s, *STAY)
    s.board_run(0, 9617, at=3, odd=(0, 0))
    s.show_board('byte', given=0xFF)
    s.show_board('ready', given=1)
    s.show_board('passed', given=0)
    s.head('A1.9 A1.19', 'a frame in held clocks')
    fresh(s, *STAY, left=10120, sent=0x96)
    s.board_run(0, 9613, given=STALL, joined=1, at=9107, level=1)
    s.show_board('ready', given=0)
    s.board_clock(0, given=STALL, joined=1)
    s.show_board('byte', given=0x96)
    s.show_board('left', given=506)


def frame(s):
    """The byte 41H over the joined line from reset: written in clock 3, its frame is clocks 4 to 10,123."""
    s.head('A1.6 A1.11 A1.19', 'joined: write and start bit')
    s.program(imm(NOT, 1, 63), imm(MOV, 0, 0x141), st(0, 1, 4), *STAY, length=64)
    s.board_reset(0)
    s.board_run(0, 3, joined=1, at=2, level=1)
    s.show_board('left', given=10120)
    s.board_run(0, 1012, joined=1, at=1011, level=0)
    for bit, level in enumerate((1, 0, 0, 0, 0, 0, 1, 0)):
        s.head('A1.6 A1.11 A1.19', f'joined: data bit {bit}')
        s.board_run(0, 505, joined=1, at=0, level=level)
        s.show_board('bits')
        s.board_clock(0, joined=1)
        s.show_board('bits')
        s.board_run(0, 506, joined=1, at=505, level=level)
    s.head('A1.10 A1.11 A1.12', 'joined: the stop bit')
    s.board_run(0, 505, joined=1, at=0, level=1)
    s.show_board('passed', given=9613)
    s.show_board('ready', given=0)
    s.board_clock(0, joined=1)
    s.show('clocks', given=3 + 9614)
    s.show_board('byte', given=0x41)
    s.show_board('ready', given=1)
    s.show_board('passed', given=0)
    s.board_run(0, 505, joined=1, at=504, level=1)
    s.show_board('left', given=1)
    s.board_clock(0, joined=1)
    s.show('clocks', given=3 + 10120)
    s.show_board('left', given=0)


# ---- longer runs: every level, answer and field is in a digest

WORKS = [
    imm(NOT, 1, 63),            # 0: R1 := the base of the devices
    branch(14, 5),              # 1: to 7
    branch(14, 1),              # 2: interrupt 0, to 4
    rti(7),                     # 3: interrupt 1
    imm(NOT, 1, 63),            # 4: the base, in the interrupt's own R1
    st(0, 1, 6),                # 5: clears the tick
    rti(7),                     # 6: back
    status(3),                  # 7: both interrupts on
    ld(2, 1, 6),                # 8: milliseconds
    st(2, 1, 7),                # 9: to the lamps
    ld(3, 1, 7),                # 10: the switches
    st(3, 1, 4),                # 11: are sent
    ld(4, 1, 5),                # 12: status
    ld(5, 1, 4),                # 13: serial data
    branch(14, -7),             # 14: to 8
]


def long_runs(s):
    for joined in (1, 0):
        s.head('A1.11 A1.21 A1.22', 'bytes sent, received and handed')
        s.program(*board.LOOP_BACK, length=64)
        s.board_reset(0)
        s.board_run(0, 65536, joined=joined, given=HIGH * (1 - joined), at=40000, odd=(STALL, 0))
        s.board_run(0, 65536, joined=joined, given=0, at=65535)
        s.head('A1.21 A1.22', 'interrupts, switches and lamps')
        fresh(s, *WORKS, clocks=116600 - 1000)
        s.board_run(0, 65536, joined=joined, switches=0xC3, at=900, odd=(HIGH + INTERRUPT_1, 0x3C))
        s.board_run(0, 65536, joined=joined, given=0, switches=0x5A, at=65535, odd=(STALL, 1))
        s.show_board('lamps', given=2)


def nowhere(s):
    s.head('A1.13', 'no field 8 of the board')
    fresh(s, NEVER)
    s.case('f', 8, 0, 1)
    s.case('v', 8, answer='0')
    s.board_clock(0)                          # its digest covers all of the board


PARTS = [row_3, row_4, row_5, row_6, row_7, row_8, order, inputs, tick, milliseconds, statuses, data, panel, writes, sends, receives, frame,
         long_runs, nowhere]


def script():
    """All parts, from the store that the scripts of trm_test_vectors leave: the digests are those of one script that went on."""
    s = BoardScript()
    begin(s)
    for at, word in ((7, 0), (128, 0), (65534, 0x1234), (65535, 0x5678)):
        s.fill(1, at, 1, word)
    for part in PARTS:
        part(s)
    return s
