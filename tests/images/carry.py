# Image cases for the C of ADD and SUB: branches on C, on higher and on lower or same, and interrupts that save it; listings by hand.
# Called: imported by tests/images/cases.py; it does nothing when run.
# Reads: tests/images/image.py. Paper: A2 of the change requests. A branch is 38000H + condition * 400H + offset; 3FFH is one to itself.
import sys

sys.dont_write_bytecode = True
from image import data, program, row, run


def sums():
    # R0 := FFFFFFFFH; + 0 clears C, + 1 gives 0 and sets it, + 1 clears it. 80000000H doubled sets C and V, 7FFFFFFFH + 1 only V.
    words = program(0x04000, 0x08000, 0x38BFF, 0x08001, 0x38800, 0x3A3FF, 0x08001, 0x38C00, 0x28001, 0x08400, 0x38800, 0x39800,
                    0x00801, 0x28801, 0x04C01, 0x08801, 0x38BFF, 0x39800)
    yield row('A2.1-A2.5-A2.6-branches-after-add', words + run(23), '''
clock at word took
1 000 04000 1
2 001 08000 1
3 002 38BFF 1
4 003 08001 1
6 004 38800 2
7 005 3A3FF 1
8 006 08001 1
10 007 38C00 2
11 008 28001 1
12 009 08400 1
14 00A 38800 2
16 00B 39800 2
17 00C 00801 1
18 00D 28801 1
19 00E 04C01 1
20 00F 08801 1
21 010 38BFF 1
23 011 39800 2
end 23 held 0 refills 0 writebacks 0
''')


def differences():
    # 5 - 3 sets C, 2 - 3 clears it; R0 - R0 sets C and Z, so that 8 fails and 9 holds. Then 0 - 1 clears C.
    words = program(0x00005, 0x0C003, 0x38801, 0x3BBFF, 0x0C003, 0x38BFF, 0x38C00, 0x0C400, 0x38800, 0x3A3FF, 0x3A400, 0x0C001, 0x38BFF)
    yield row('A2.2-A2.4-branches-after-sub', words + run(16), '''
clock at word took
1 000 00005 1
2 001 0C003 1
4 002 38801 2
5 004 0C003 1
6 005 38BFF 1
8 006 38C00 2
9 007 0C400 1
11 008 38800 2
12 009 3A3FF 1
14 00A 3A400 2
15 00B 0C001 1
16 00C 38BFF 1
end 16 held 0 refills 0 writebacks 0
''')


HIGHER = '''
clock at word took
6 000 30007 6
12 001 3080F 6
13 002 0C401 1
15 003 3A001 2
16 005 3BC00 1
17 006 3BC00 1
end 17 held 0 refills 0 writebacks 0
'''
LOWER_OR_SAME = '''
clock at word took
6 000 30007 6
12 001 3080F 6
13 002 0C401 1
14 003 3A001 1
16 004 3A401 2
17 006 3BC00 1
end 17 held 0 refills 0 writebacks 0
'''


def addresses():
    """R0 and R1 from the first data words, R0 - R1, a branch to 5 on higher, a branch to 6 on lower or same."""
    words = program(0x30007, 0x3080F, 0x0C401, 0x3A001, 0x3A401, 0x3BC00, 0x3BC00)
    for b, a, text in ((0x80000001, 0x7FFFFFFF, HIGHER), (0x7FFFFFFF, 0x80000001, LOWER_OR_SAME), (0x1234, 0x1234, LOWER_OR_SAME),
                       (0x80000001, 0x80000001, LOWER_OR_SAME), (0xFFC0, 0xFFBF, HIGHER), (0xFFBF, 0xFFC0, LOWER_OR_SAME),
                       (0, 0xFFFFFFFF, LOWER_OR_SAME), (0xFFFFFFFF, 0, HIGHER), (5, 3, HIGHER),
                       (0xFFFFFFFF, 0x80000001, HIGHER), (0x80000001, 0xFFFFFFFF, LOWER_OR_SAME)):
        yield row(f'A2.3-{b:x}-and-{a:x}', words + data(b, a) + run(17), text)


def interrupts():
    # 5 - 5 sets C and is interrupted, 0 - 1 clears it and is interrupted; SUB in the handler leaves the opposite C, and RTI restores it.
    words = program(0x2C001, 0x3B802, 0x0C001, 0x2C507, 0x00005, 0x0C005, 0x38800, 0x0C001, 0x38BFF, 0x38C00)
    yield row('A2.2-S1.21-S2.3-irq-keeps-c', words + run(5) + run(1, 1) + run(6) + run(1, 1) + run(6), '''
clock at word took
1 000 2C001 1
3 001 3B802 2
4 004 00005 1
5 005 0C005 1
6 006 irq0 1
7 002 0C001 1
9 003 2C507 2
11 006 38800 2
12 007 0C001 1
13 008 irq0 1
14 002 0C001 1
16 003 2C507 2
17 008 38BFF 1
19 009 38C00 2
end 19 held 0 refills 0 writebacks 0
''')
    # 5 - 3 sets C and is interrupted; the handler rotates bit 29 of R7 into C, and the branch on it is taken.
    words = program(0x2C001, 0x3B801, 0x3B803, 0x00005, 0x0C003, 0x3BBFF, 0x00C07, 0x2881D, 0x38800, 0x2C507)
    yield row('A2.2-S2.3-irq-saves-c', words + run(5) + run(1, 1) + run(10), '''
clock at word took
1 000 2C001 1
3 001 3B801 2
4 003 00005 1
5 004 0C003 1
6 005 irq0 1
8 002 3B803 2
9 006 00C07 1
10 007 2881D 1
12 008 38800 2
14 009 2C507 2
16 005 3BBFF 2
end 16 held 0 refills 0 writebacks 0
''')


PARTS = [sums, differences, addresses, interrupts]
