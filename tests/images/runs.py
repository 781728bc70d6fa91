# Image cases that run: each row of the clock table, interrupts, held clocks, with their listings written by hand.
# Called: imported by tests/images/cases.py; it does nothing when run.
# Reads: tests/images/image.py. Words are written as numbers: operation * 4000H + d * 800H, then 400H + s or a literal.
import sys

sys.dont_write_bytecode = True
from image import held, program, row, run

# The paper's example.
EXAMPLE = bytes.fromhex('0C000000 0100 05000000 03000200 FFBB0300 09000000 0300 28000000 00 00000000')


def basic():
    yield row('S4.11-paper-example', EXAMPLE, '''
clock at word took
1 000 00005 1
34 001 20003 33
36 002 3BBFF 2
38 002 3BBFF 2
40 002 3BBFF 2
end 40 held 0 refills 0 writebacks 0
''')
    yield row('S4.4-kind-1-alone', program(0x00005, 0x20003), '''
clock at word took
end 0 held 0 refills 0 writebacks 0
''')
    # MOV NOT ADD SUB AND BIC OR XOR ROR, and MOV from H.
    yield row('S2.6-one-clock-each', program(
        0x00005, 0x04C00, 0x08001, 0x0CC00, 0x10003, 0x14002, 0x18008, 0x1C401, 0x28804, 0x01408) + run(10), '''
clock at word took
1 000 00005 1
2 001 04C00 1
3 002 08001 1
4 003 0CC00 1
5 004 10003 1
6 005 14002 1
7 006 18008 1
8 007 1C401 1
9 008 28804 1
10 009 01408 1
end 10 held 0 refills 0 writebacks 0
''')
    # R0 := 7; DIV by 0 gives 0, so BEQ +1 is taken, and H 7, so that after MOV R1,H BEQ -1 is not.
    yield row('S1.17-div-by-0', program(0x00007, 0x24000, 0x38001, 0x3BBFF, 0x00C08, 0x383FF) + run(39), '''
clock at word took
1 000 00007 1
34 001 24000 33
36 002 38001 2
37 004 00C08 1
38 005 383FF 1
39 006 3BC00 1
end 39 held 0 refills 0 writebacks 0
''')
    # R0 := 0 - 8; R0 DIV 3 is -3 and H 1: ADD 3 and SUB 1 from H give zero each time.
    yield row('S1.16-div-rounds-down', program(0x0C008, 0x24003, 0x08003, 0x38000, 0x00C08, 0x0C801, 0x38000) + run(41), '''
clock at word took
1 000 0C008 1
34 001 24003 33
35 002 08003 1
37 003 38000 2
38 004 00C08 1
39 005 0C801 1
41 006 38000 2
end 41 held 0 refills 0 writebacks 0
''')
    # R1 := 4; BR R1 with link in R2 (2); BR R2; BL +2 at 2 puts 3 in R7; BR R7.
    yield row('S1.21-S1.27-jumps-and-links', program(0x00804, 0x2D601, 0x3C002, 0x3BC00, 0x2C402, 0x2C407) + run(11), '''
clock at word took
1 000 00804 1
3 001 2D601 2
5 004 2C402 2
7 002 3C002 2
9 005 2C407 2
10 003 3BC00 1
end 11 held 0 refills 0 writebacks 0
''')
    yield row('S4.12-unfinished-branch', program(0x00005, 0x20003, 0x3BBFF) + run(39), '''
clock at word took
1 000 00005 1
34 001 20003 33
36 002 3BBFF 2
38 002 3BBFF 2
end 39 held 0 refills 0 writebacks 0
''')
    yield row('S4.12-unfinished-mul', program(0x00005, 0x20003) + run(33), '''
clock at word took
1 000 00005 1
end 33 held 0 refills 0 writebacks 0
''')


def unused_bits():
    """The word is printed as it is in the program."""
    # ADD with bits 9-3 set; 11 with bits 13-11 and 9-4; 15 with 13-12; BR with d and 7-3; MOV H with s.
    yield row('S1.4-S4.12-unused-bits', program(0x08FFA, 0x2FBF0, 0x3F001, 0x007FF, 0x2FCFF) + run(9), '''
clock at word took
1 000 08FFA 1
2 001 2FBF0 1
4 002 3F001 2
6 004 2FCFF 2
7 003 007FF 1
9 004 2FCFF 2
end 9 held 0 refills 0 writebacks 0
''')
    # Branch never with offset -1; RTI as 11 with d = 7, which is not written: R7 stays 0.
    yield row('S1.21-rti-as-11', program(0x3BFFF, 0x2FFFF) + run(7), '''
clock at word took
1 000 3BFFF 1
3 001 2FFFF 2
4 000 3BFFF 1
6 001 2FFFF 2
7 000 3BFFF 1
end 7 held 0 refills 0 writebacks 0
''')


def ends_of_the_program():
    yield row('S1.29-beyond-the-program', program(0x00005) + run(3), '''
clock at word took
1 000 00005 1
2 001 3BC00 1
3 002 3BC00 1
end 3 held 0 refills 0 writebacks 0
''')
    yield row('S1.28-call-to-ffe', program(0x3CFFD) + run(6), '''
clock at word took
2 000 3CFFD 2
3 FFE 3BC00 1
4 FFF 3BC00 1
6 000 3CFFD 2
end 6 held 0 refills 0 writebacks 0
''')
    yield row('S1.28-branch-to-fff', program(0x3BBFE) + run(6), '''
clock at word took
2 000 3BBFE 2
3 FFF 3BC00 1
5 000 3BBFE 2
6 FFF 3BC00 1
end 6 held 0 refills 0 writebacks 0
''')
    # The 4,096th word is BL +4: R7 := 0 and PC := 4, which is BR R7.
    yield row('S1.28-call-at-fff', program(0x3CFFE, 0, 0, 0, 0x2C407, *[0x3BC00] * 4090, 0x3C004) + run(8), '''
clock at word took
2 000 3CFFE 2
4 FFF 3C004 2
6 004 2C407 2
8 000 3CFFE 2
end 8 held 0 refills 0 writebacks 0
''')


def held_clocks():
    yield row('S2.2-held-before-within-after', program(0x00005, 0x20003) + held(3) + run(10) + held(5) + run(30) + held(2), '''
clock at word took
4 000 00005 1
42 001 20003 33
43 002 3BC00 1
44 003 3BC00 1
45 004 3BC00 1
46 005 3BC00 1
47 006 3BC00 1
48 007 3BC00 1
end 50 held 10 refills 0 writebacks 0
''')
    yield row('S6.4-held-in-clock-33', program(0x00005, 0x20003) + run(33) + held(1) + run(1), '''
clock at word took
1 000 00005 1
35 001 20003 33
end 35 held 1 refills 0 writebacks 0
''')
    yield row('S4.4-mul-over-ten-records', program(0x00005, 0x20003) + run(1) + (run(6) + held(1)) * 5 + run(3), '''
clock at word took
1 000 00005 1
39 001 20003 33
end 39 held 5 refills 0 writebacks 0
''')
    yield row('S4.4-a-record-for-each-clock', program(0x00005, 0x20003, 0x3BBFF) + run(1) * 36, '''
clock at word took
1 000 00005 1
34 001 20003 33
36 002 3BBFF 2
end 36 held 0 refills 0 writebacks 0
''')
    yield row('S2.2-held-between-two-clocks', program(0x3BBFF) + (run(1) + held(2)) * 4, '''
clock at word took
4 000 3BBFF 2
10 000 3BBFF 2
end 12 held 8 refills 0 writebacks 0
''')
    yield row('S4.12-seven-digits', program(0x00005, 0x3BBFF) + held(65536) * 16 + run(3), '''
clock at word took
1048577 000 00005 1
1048579 001 3BBFF 2
end 1048579 held 1048576 refills 0 writebacks 0
''')
    yield row('S4.12-nine-then-ten', program(0x3BC00) + held(8) + run(2) + held(88) + run(2) + held(65436) + held(34463) + run(2), '''
clock at word took
9 000 3BC00 1
10 001 3BC00 1
99 002 3BC00 1
100 003 3BC00 1
100000 004 3BC00 1
100001 005 3BC00 1
end 100001 held 99995 refills 0 writebacks 0
''')


PARTS = [basic, unused_bits, ends_of_the_program, held_clocks]
