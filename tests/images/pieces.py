# Image cases with a long listing, computed here and not stored: texts about as long as one piece of output, and counts of eight digits.
# Called: imported by tests/images/run; it does nothing when run.
# Reads: tests/images/image.py. Paper: the fields of a row; "Program words beyond the lent ones are 3BC00H (branch never)".
import sys

sys.dont_write_bytecode = True
from image import held, program, row, run

PIECE = 65536  # the most bytes that trmlist writes at once; the text does not depend on it


def never(clocks):
    """A branch never in each clock, from word 0 on: the program has one, and the words beyond it are no others."""
    rows = [f'{clock} {(clock - 1) % 4096:03X} 3BC00 1' for clock in range(1, clocks + 1)]
    return ''.join(f'{row}\n' for row in ['clock at word took', *rows, f'end {clocks} held 0 refills 0 writebacks 0'])


def about_a_piece():
    """From some rows less than a piece has room for to some more; in one run, and with the last clock in a separate run."""
    clocks = 1
    while len(never(clocks)) < PIECE:
        clocks += 1
    for count in range(clocks - 6, clocks + 6):
        yield f'S4.12-{count}-lines', program(0x3BC00) + run(count), never(count)
        yield f'S4.12-{count}-lines-and-one', program(0x3BC00) + run(count) + run(1), never(count + 1)
    yield 'S4.12-three-pieces', program(0x3BC00) + run(3 * clocks), never(3 * clocks)


def eight_digits():
    yield row('S4.12-eight-digits', program(0x00005, 0x3BBFF) + held(65536) * 160 + run(3), '''
clock at word took
10485761 000 00005 1
10485763 001 3BBFF 2
end 10485763 held 10485760 refills 0 writebacks 0
''')


def cases():
    """(name, image, text)"""
    yield from about_a_piece()
    yield from eight_digits()
