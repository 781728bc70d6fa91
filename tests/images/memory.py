# Image cases with LD and ST: uncached, hits, misses, dirty misses, emptying, devices, first data words; listings by hand.
# Called: imported by tests/images/cases.py; it does nothing when run.
# Reads: tests/images/image.py. LD is 30000H, ST 34000H, + d * 800H + offset * 8 + s; s = 7 is a base of zero.
import sys

sys.dont_write_bytecode = True
from image import data, held, program, row, run

ON, OFF = 0x2C008, 0x2C000


def past_the_cache():
    yield row('S2.11-cache-off', program(0x30007, 0x08001, 0x3400F, 0x3080F) + run(18), '''
clock at word took
6 000 30007 6
7 001 08001 1
12 002 3400F 5
18 003 3080F 6
end 18 held 0 refills 0 writebacks 0
''')
    yield row('S2.2-S2.11-cache-off-held', program(0x3400F, 0x3080F) + run(4) + held(7) + run(3) + held(1) + run(3) + run(1), '''
clock at word took
12 000 3400F 5
19 001 3080F 6
end 19 held 8 refills 0 writebacks 0
''')
    # LD 1 is 5, LD 2 is FFFFFFFFH, LD 3 is zero: each time the word after it gives zero and BEQ is taken.
    words = program(0x3000F, 0x0C005, 0x38001, 0x3BBFF, 0x30017, 0x08001, 0x38000, 0x3001F, 0x18000, 0x38000)
    yield row('S4.3-first-data-words', words + data(9, 5, 0xFFFFFFFF) + run(27), '''
clock at word took
6 000 3000F 6
7 001 0C005 1
9 002 38001 2
15 004 30017 6
16 005 08001 1
18 006 38000 2
24 007 3001F 6
25 008 18000 1
27 009 38000 2
end 27 held 0 refills 0 writebacks 0
''')
    # R1 := 2046; LD R1+1 is the last word of 2,048, R1+2 is the first.
    words = program(0x00BFF, 0x08BFF, 0x30009, 0x0C005, 0x38000, 0x30011, 0x0C007, 0x38000)
    yield row('S4.3-last-data-word', words + data(7, *[0] * 2046, 5) + run(20), '''
clock at word took
1 000 00BFF 1
2 001 08BFF 1
8 002 30009 6
9 003 0C005 1
11 004 38000 2
17 005 30011 6
18 006 0C007 1
20 007 38000 2
end 20 held 0 refills 0 writebacks 0
''')


def devices():
    # R1 := -64, address FFC0H: LD from device 3 and ST to device 63, cache off, then LD and ST of device 0, cache on.
    yield row('S2.9-devices', program(0x0C840, 0x30019, 0x341F9, ON, 0x30001, 0x34001) + run(8), '''
clock at word took
1 000 0C840 1
3 001 30019 2
4 002 341F9 1
5 003 2C008 1
7 004 30001 2
8 005 34001 1
end 8 held 0 refills 0 writebacks 0
''')
    # R1 := -65: FFBFH is memory, FFC0H and FFFFH are devices 0 and 63, one more is address 0.
    yield row('S1.24-addresses', program(0x0C841, 0x30001, 0x30009, 0x30201, 0x30209) + run(17), '''
clock at word took
1 000 0C841 1
7 001 30001 6
9 002 30009 2
11 003 30201 2
17 004 30209 6
end 17 held 0 refills 0 writebacks 0
''')
    # LD gets the input word of its last clock: 1 there and 0 before, so BEQ -3 is not taken.
    polling = program(0x0C840, 0x30001, 0x08000, 0x383FD)
    yield row('S2.5-input-in-the-last-clock', polling + run(2) + run(1, 0, 1) + run(3), '''
clock at word took
1 000 0C840 1
3 001 30001 2
4 002 08000 1
5 003 383FD 1
6 004 3BC00 1
end 6 held 0 refills 0 writebacks 0
''')
    yield row('S2.5-input-in-the-first-clock', polling + run(2, 0, 0x80000000) + run(1) + run(5, 0, 1) + run(2), '''
clock at word took
1 000 0C840 1
3 001 30001 2
4 002 08000 1
6 003 383FD 2
8 001 30001 2
9 002 08000 1
10 003 383FD 1
end 10 held 0 refills 0 writebacks 0
''')
    # The input word 12345678H rotated by 24: its top byte, 18, is now the lowest; SUB gives zero and BEQ is taken.
    yield row('S4.4-input-of-four-bytes', program(0x0C840, 0x30001, 0x28018, 0x100FF, 0x0C012, 0x38000) + run(8, 0, 0x12345678), '''
clock at word took
1 000 0C840 1
3 001 30001 2
4 002 28018 1
5 003 100FF 1
6 004 0C012 1
8 005 38000 2
end 8 held 0 refills 0 writebacks 0
''')
    # A held clock between the two: its input word does not count.
    yield row('S2.2-input-of-a-held-clock', polling + run(2) + run(2, 4, 1) + run(4), '''
clock at word took
1 000 0C840 1
5 001 30001 2
6 002 08000 1
8 003 383FD 2
end 8 held 2 refills 0 writebacks 0
''')


def cached():
    # ST 0 misses; R1 := 128, of the same cache line: LD R1+0 finds it dirty, R1+7 hits, ST R1+1 hits and makes it dirty; LD 0 finds that,
    # LD R1 a clean line; the cache is turned off with no line dirty.
    words = program(ON, 0x34007, 0x00880, 0x31001, 0x31039, 0x35009, 0x31807, 0x31801, OFF)
    yield row('S2.10-cache-on', words + run(74), '''
clock at word took
1 000 2C008 1
13 001 34007 12
14 002 00880 1
36 003 31001 22
38 004 31039 2
39 005 35009 1
61 006 31807 22
73 007 31801 12
74 008 2C000 1
end 74 held 0 refills 4 writebacks 2
''')
    # The first data words are read through the cache, and what was stored is read after the write-back: 5, then 6.
    words = program(ON, 0x30007, 0x08001, 0x34007, 0x31807, OFF, 0x31007, 0x0D006, 0x38000)
    yield row('S2.16-cached-data-words', words + data(5) + run(38), '''
clock at word took
1 000 2C008 1
13 001 30007 12
14 002 08001 1
15 003 34007 1
17 004 31807 2
28 005 2C000 11
34 006 31007 6
35 007 0D006 1
37 008 38000 2
38 009 3BC00 1
end 38 held 0 refills 1 writebacks 1
''')
    yield row('S2.2-S2.10-miss-held', program(ON, 0x34007, 0x30007) + run(5) + held(9) + run(8) + held(1) + run(2), '''
clock at word took
1 000 2C008 1
22 001 34007 12
25 002 30007 2
end 25 held 10 refills 1 writebacks 0
''')
    # Three dirty lines, one stored to twice: 1 + 30 clocks. The cache is on again at 74, with all lines empty.
    yield row('S2.12-emptying-3', program(ON, 0x34007, 0x34047, 0x34087, 0x3408F, OFF, ON, 0x30007) + run(82), '''
clock at word took
1 000 2C008 1
13 001 34007 12
25 002 34047 12
37 003 34087 12
38 004 3408F 1
69 005 2C000 31
70 006 2C008 1
82 007 30007 12
end 82 held 0 refills 4 writebacks 3
''')
    # 11 with bit 3 set does not change the lines.
    yield row('S2.22-cache-on-again', program(ON, 0x34007, ON, 0x30007, 0x2C001) + run(27), '''
clock at word took
1 000 2C008 1
13 001 34007 12
14 002 2C008 1
16 003 30007 2
27 004 2C001 11
end 27 held 0 refills 1 writebacks 1
''')


def tens():
    """The counts in the last row change when a burst is over: the clock before, and that clock."""
    miss = program(ON, 0x34007, 0x00880, 0x31001)          # the miss at 3 begins in clock 15
    emptying = program(ON, 0x34007, 0x34047, OFF)          # the emptying begins in clock 26
    for name, words, clocks, counts in (
            ('refill', miss, 11, 'refills 0 writebacks 0'), ('refill', miss, 12, 'refills 1 writebacks 0'),
            ('write-back', miss, 24, 'refills 1 writebacks 0'), ('write-back', miss, 25, 'refills 1 writebacks 1'),
            ('second-refill', miss, 34, 'refills 1 writebacks 1'), ('second-refill', miss, 35, 'refills 2 writebacks 1'),
            ('first-line', emptying, 34, 'refills 2 writebacks 0'), ('first-line', emptying, 35, 'refills 2 writebacks 1'),
            ('second-line', emptying, 44, 'refills 2 writebacks 1'), ('second-line', emptying, 45, 'refills 2 writebacks 2')):
        done = [(1, '1 000 2C008 1'), (13, '13 001 34007 12')]
        done += [(14, '14 002 00880 1')] if words is miss else [(25, '25 002 34047 12')]
        shown = ['clock at word took', *(line for clock, line in done if clock <= clocks), f'end {clocks} held 0 {counts}']
        yield f'S2.44-{name}-after-{clocks}', words + run(clocks), ''.join(f'{line}\n' for line in shown)


PARTS = [past_the_cache, devices, cached, tens]
