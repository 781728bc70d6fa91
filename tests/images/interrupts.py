# Image cases with both interrupts: what is saved, lost and masked, with listings written by hand.
# Called: imported by tests/images/cases.py; it does nothing when run.
# Reads: tests/images/image.py. 2C003H enables both interrupts, 2C507H is RTI with R7, 3B800H + n branches always.
import sys

sys.dont_write_bytecode = True
from image import held, program, row, run

LOOP = program(0x2C003, 0x3B802, 0x2C507, 0x2C507, 0x08001, 0x3BBFE)   # handlers at 2 and 3; 4 and 5 are the loop


def taken():
    # Interrupt line 0, line 1, then both at once: line 0 has priority.
    yield row('S2.3-S4.12-irq-of-each-line', LOOP + run(3) + run(1, 1) + run(2) + run(1, 2) + run(2) + run(1, 3) + run(3), '''
clock at word took
1 000 2C003 1
3 001 3B802 2
4 004 irq0 1
6 002 2C507 2
7 004 irq1 1
9 003 2C507 2
10 004 irq0 1
12 002 2C507 2
13 004 08001 1
end 13 held 0 refills 0 writebacks 0
''')
    # The saved PC is that of the word that would have begun: 5 after ADD, 4 after the branch.
    yield row('S2.3-irq-between-words', LOOP + run(4) + run(1, 2) + run(2) + run(2) + run(1, 1) + run(2) + run(1), '''
clock at word took
1 000 2C003 1
3 001 3B802 2
4 004 08001 1
5 005 irq1 1
7 003 2C507 2
9 005 3BBFE 2
10 004 irq0 1
12 002 2C507 2
13 004 08001 1
end 13 held 0 refills 0 writebacks 0
''')
    # The interrupt line stays high: after each RTI the next clock interrupts again, and the loop does not advance.
    yield row('S2.3-irq-line-stays-high', program(0x2C001, 0x3BC00, 0x2C507) + run(10, 1), '''
clock at word took
1 000 2C001 1
2 001 irq0 1
4 002 2C507 2
5 001 irq0 1
7 002 2C507 2
8 001 irq0 1
10 002 2C507 2
end 10 held 0 refills 0 writebacks 0
''')
    # Z is set before the interrupt and clear in the handler; RTI restores it, so BEQ at 5 is taken. R0 is of bank 1 in the handler.
    flags = program(0x2C001, 0x3B802, 0x3B803, 0x3BC00, 0x0C000, 0x383FE, 0x00001, 0x2C507)
    yield row('S2.3-S1.21-irq-keeps-flags-and-bank', flags + run(4) + run(1, 1) + run(10), '''
clock at word took
1 000 2C001 1
3 001 3B802 2
4 004 0C000 1
5 005 irq0 1
7 002 3B803 2
8 006 00001 1
10 007 2C507 2
12 005 383FE 2
13 004 0C000 1
15 005 383FE 2
end 15 held 0 refills 0 writebacks 0
''')
    # At FFFH, beyond the program.
    yield row('S2.3-irq-at-fff', program(0x2C002, 0x3BBFD, 0, 0x2C507) + run(3) + run(1, 2) + run(3), '''
clock at word took
1 000 2C002 1
3 001 3BBFD 2
4 FFF irq1 1
6 003 2C507 2
7 FFF 3BC00 1
end 7 held 0 refills 0 writebacks 0
''')


def not_taken():
    # High only while a word is in flight: lost. High in the next ready clock: taken. In mode 1: masked.
    yield row('S2.3-irq-in-flight-is-lost', program(0x2C001, 0x20003) + run(2) + run(32, 1) + run(1) + run(1, 1) + run(1, 1), '''
clock at word took
1 000 2C001 1
34 001 20003 33
35 002 3BC00 1
36 003 irq0 1
37 002 3BC00 1
end 37 held 0 refills 0 writebacks 0
''')
    yield row('S2.2-S2.3-irq-in-held-clocks-is-lost', program(0x2C003) + run(1) + run(3, 7) + run(2), '''
clock at word took
1 000 2C003 1
5 001 3BC00 1
6 002 3BC00 1
end 6 held 3 refills 0 writebacks 0
''')
    yield row('S2.2-S2.3-irq-after-held-clocks', program(0x2C003) + run(1) + run(3, 6) + run(1, 2) + held(2) + run(1), '''
clock at word took
1 000 2C003 1
5 001 irq1 1
8 003 3BC00 1
end 8 held 5 refills 0 writebacks 0
''')
    yield row('S2.3-irq-not-enabled', program(0x2C002) + run(1) + run(2, 1) + run(1, 3) + run(1, 3), '''
clock at word took
1 000 2C002 1
2 001 3BC00 1
3 002 3BC00 1
4 003 irq1 1
5 003 3BC00 1
end 5 held 0 refills 0 writebacks 0
''')
    # 11 sets the mode with the enables; the next one clears it, and the clock after that is interrupted.
    yield row('S2.3-irq-shut-out-by-mode', program(0x2C007, 0x3BC00, 0x2C003) + run(5, 3), '''
clock at word took
1 000 2C007 1
2 001 3BC00 1
3 002 2C003 1
4 003 irq0 1
5 002 2C003 1
end 5 held 0 refills 0 writebacks 0
''')
    # The word 3BC00H, in the program or beyond it, can be interrupted like any other.
    yield row('S6.7-irq-beside-branch-never', program(0x2C001, 0x3BC00) + run(1) + run(1, 1) + run(1), '''
clock at word took
1 000 2C001 1
2 001 irq0 1
3 002 3BC00 1
end 3 held 0 refills 0 writebacks 0
''')


PARTS = [taken, not_taken]
