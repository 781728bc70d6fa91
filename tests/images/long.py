# Image cases too long for a listing by hand: sixteen dirty lines, whose listing is computed here, and random programs.
# Called: imported by tests/images/cases.py; it does nothing when run.
# Reads: tests/images/image.py and chance.py. Where the text is None the expected listing comes from listing.py.
import sys

sys.dont_write_bytecode = True
from chance import Dice, good
from image import held, program, run

ON, OFF = 0x2C008, 0x2C000


def sixteen_lines():
    """ST to word 0 of each of sixteen blocks, 12 clocks each; then the cache is turned off in 1 + 160."""
    stores = [0x34007 + 0x40 * line for line in range(16)]
    lines = ['1 000 2C008 1'] + [f'{13 + 12 * line} {line + 1:03X} {word:05X} 12' for line, word in enumerate(stores)]
    whole = [*lines, '354 011 2C000 161', 'end 354 held 0 refills 16 writebacks 16']
    yield 'S2.12-emptying-16', program(ON, *stores, OFF) + run(354), ''.join(f'{line}\n' for line in ['clock at word took', *whole])
    cut = [*lines, 'end 362 held 9 refills 16 writebacks 16']         # 193 clocks, 160 of the emptying, 9 held
    yield 'S2.12-emptying-16-not-over', program(ON, *stores, OFF) + run(200) + held(9) + run(153), \
        ''.join(f'{line}\n' for line in ['clock at word took', *cut])


def table():
    """Words of every row of the clock table with their clocks; every fourth clock is held."""
    rows = [(0x00005, 1), (OFF, 1), (0x383FF, 1), (0x38400, 2), (0x3C000, 2), (0x01007, 1), (0x2C402, 2),   # MOV, 11, BEQ, BNE, BL, MOV, BR
            (0x20003, 33), (0x24003, 33), (0x0C840, 1), (0x30001, 2), (0x34001, 1), (0x30007, 6), (0x34007, 5),  # MUL, DIV, devices, memory
            (ON, 1), (0x34007, 12), (0x30007, 2), (0x34007, 1), (0x00880, 1),                                # a miss, hits; R1 := 128
            (0x31001, 22), (0x31807, 12), (0x35001, 12), (0x3400F, 22), (OFF, 11)]                           # dirty, clean, clean, dirty
    listed, unheld = ['clock at word took'], 0
    for at, (word, clocks) in enumerate(rows):
        unheld += clocks
        listed.append(f'{unheld + (unheld - 1) // 3} {at:03X} {word:05X} {clocks}')
    assert unheld == 187
    listed += ['250 018 3BC00 1', '251 019 3BC00 1', 'end 252 held 63 refills 5 writebacks 3']
    yield 'S2.6-S2.7-S2.8-S2.9-S2.10-S2.11-S2.12-clock-table', program(*(word for word, _ in rows)) + (run(3) + held(1)) * 63, \
        ''.join(f'{row}\n' for row in listed)


# Random programs that print some tens of rows; by document 01 each took an interrupt and refilled a cache line. The seeds are written
# down, so that the images stay when a request changes what some of them print.
SEEDS = (16, 57, 63, 73, 87, 101, 128, 221, 263, 281, 324, 364, 405, 488, 498, 528)


def by_chance():
    for seed in SEEDS:
        yield f'S4.7-chance-{seed}', good(Dice(seed)), None


PARTS = [sixteen_lines, table, by_chance]
