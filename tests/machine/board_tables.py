# The rows of crates/trm_serial/specs/Cases.antt and crates/trm_board/specs/Cases.antt: what clocks are given, and what they must show.
# Called: python3 tests/machine/board_tables.py serial|board prints the list after `rows =` of one of them; tests/machine/run imports it.
# Reads: board.py; the expected numbers come from its second reading, `Past`. Its random numbers are the same on every machine.
import sys
from collections import namedtuple

sys.dont_write_bytecode = True
import machine as m
from board import (DATA, MILLISECONDS, OTHERS, PANEL, READS, STATUS, Clock, Past, Take, Timing, filled, joined, read_byte, write_byte)

SerialRow = namedtuple('SerialRow', 'period sample given expected')
BoardRow = namedtuple('BoardRow', 'timing script takes expected')
NO_TICK = 1 << 40                         # serial rows have no tick


class Chance:
    """Random numbers by a rule of its own (Knuth's constants), from a seed."""

    def __init__(self, seed):
        self.state = seed
        for _ in range(4):
            self.below(1)

    def below(self, bound):
        self.state = (self.state * 6364136223846793005 + 1442695040888963407) % 2**64
        return (self.state >> 33) % bound

    def one_of(self, choices):
        return choices[self.below(len(choices))]


# ------------------------------------------------------------------ serial rows

def packed(shown):
    level, ready, free, byte = shown
    return level + 2 * ready + 4 * free + 8 * byte


def serial_clocks(given):
    """The clocks of a board that is given these lines and accesses to serial data."""
    answers = {OTHERS: (0, 0), READS: (read_byte(DATA), 0)}
    return [Clock(line, 0, 0, 0, *(answers.get(access) or (write_byte(DATA), access))) for line, access in given]


def serial_expected(past, clocks):
    return [packed((past.level(n), past.ready(n), past.free(n), past.byte(n))) for n in range(1, clocks + 2)]


def serial_row(timing, lines, accesses):
    given = list(zip(lines, accesses))
    past = Past(timing, serial_clocks(given))
    return SerialRow(timing.period, timing.sample, given, serial_expected(past, len(given)))


def word(chance):
    return chance.one_of((chance.below(256), 256 + chance.below(768), 256 + chance.below(3840), 2**32 - 1 - chance.below(2**20)))


def plan_writes(chance, timing, clocks, gap):
    """Accesses with a write, others while it is busy, one in its last busy clock or not, and the next up to `gap` clocks after."""
    accesses, write = [OTHERS] * clocks, 1 + chance.below(3)
    while write < clocks:
        accesses[write] = word(chance)
        last = write + 10 * timing.period
        for busy in (write + 1, write + 1 + chance.below(10 * timing.period), last)[chance.below(2):]:
            if busy < clocks and chance.below(4):
                accesses[busy] = word(chance)
        write = last + 1 + chance.below(gap)
    return accesses


def plan_reads(chance, accesses, stops):
    """Adds reads about the clocks in `stops`: in that clock, just before or after it, twice, or none."""
    for at, stop in enumerate(stops):
        for off in ((0,), (1, 3), (1,), (), (0, 2), (-1, 1, 4), (0, 1), ())[at % 8]:
            if stop - 1 + off < len(accesses) and accesses[stop - 1 + off] == OTHERS:
                accesses[stop - 1 + off] = READS
    if len(accesses) > 5 and accesses[4] == OTHERS:
        accesses[4] = READS
    return accesses


def stops_of(timing, lines):
    return Past(timing, [Clock(line, 0, 0, 0, 0, 0) for line in lines]).stops()


def joined_row(seed, period, sample, clocks, gap):
    chance, timing = Chance(seed), Timing(period, sample, NO_TICK)
    accesses = plan_writes(chance, timing, clocks, gap)
    past = Past(timing, serial_clocks([(1, access) for access in accesses]))
    lines = [past.level(n) for n in range(1, clocks + 1)]
    stops = stops_of(timing, lines)
    return serial_row(timing, lines, plan_reads(chance, accesses, stops[seed % 2:]))


def noise(chance, timing, clocks):
    return [int(chance.below(5) > 1) for _ in range(clocks)]


def slipping(chance, timing, clocks):
    """Frames whose bits are a clock short or long, with a glitch now and then."""
    lines = [1] * (1 + chance.below(3))
    while len(lines) < clocks:
        for bit in [0] + [chance.below(2) for _ in range(8)] + [1]:
            lines += [bit] * max(timing.period + chance.below(3) - 1, 1)
    return [line ^ (chance.below(9) == 0) for line in lines[:clocks]]


def short_stops(chance, timing, clocks):
    """Frames whose stop bit ends with its sample, and some that have a low one."""
    lines = [1] * chance.below(4)
    while len(lines) < clocks:
        for bit in [0] + [chance.below(2) for _ in range(8)]:
            lines += [bit] * timing.period
        lines += [int(chance.below(4) > 0)] * timing.sample
    return lines[:clocks]


def held_low(chance, timing, clocks):
    """Low for two frames and a half, then noise of a bit's length."""
    lines = [1] * 2 + [0] * (25 * timing.period)
    while len(lines) < clocks:
        lines += [chance.below(2)] * (1 + chance.below(timing.period + 1))
    return lines[:clocks]


def line_row(seed, period, sample, clocks, gap, lines_of):
    chance, timing = Chance(seed), Timing(period, sample, NO_TICK)
    lines = lines_of(chance, timing, clocks)
    return serial_row(timing, lines, plan_reads(chance, plan_writes(chance, timing, clocks, gap), stops_of(timing, lines)))


def serial_rows():
    return [joined_row(1, 1, 1, 90, 2), joined_row(2, 2, 1, 110, 3), joined_row(3, 3, 2, 130, 1), joined_row(4, 5, 3, 128, 6),
            line_row(5, 1, 1, 80, 3, noise), line_row(6, 2, 2, 110, 2, slipping), line_row(7, 3, 1, 120, 9, short_stops),
            line_row(8, 4, 2, 130, 5, held_low), line_row(9, 3, 3, 110, 4, slipping), line_row(10, 5, 2, 130, 3, short_stops)]


# ------------------------------------------------------------------- board rows

OTHER_DEVICES = [0, 1, 2, 3, 8, 9, 12, 13, 14, 15, 24, 31, 36, 40, 52, 60, 62, 63]
NONE = (0, 0)


def reads(device):
    return read_byte(device), 0


def writes(device, value):
    return write_byte(device), value


def board_row(timing, takes, accesses, is_joined=False):
    """A row from an access for each clock; those in held clocks are left out of the script."""
    script = [access for take, access in zip(takes, accesses) if not take.stall]
    takes = joined(timing, script, takes) if is_joined else takes
    past, clocks = Past(timing, filled(script, takes)), range(1, len(takes) + 1)
    expected = [number for n in clocks for number in (past.line_byte(n), past.moved(n), past.tick(n + 1), past.lamps(n + 1))]
    return BoardRow(timing, script, takes, expected)


def random_takes(chance, lines, held):
    """Switches that change in each clock, interrupt 1 now and then, and one clock in `held` held."""
    return [Take(line, 1 + chance.below(255), int(chance.below(4) == 0), int(chance.below(held) == 0)) for line in lines]


def with_holds(takes, held):
    """The takes with just these clocks (from 1) held."""
    return [take._replace(stall=int(n in held)) for n, take in enumerate(takes, 1)]


def with_plan(chance, clocks, plan, choices):
    """The planned access of a clock (from 1), else one of the choices, each a function of the random numbers."""
    return [plan.get(n) or chance.one_of(choices)(chance) for n in range(1, clocks + 1)]


def none(chance):
    return NONE


def status(chance):
    return reads(STATUS)


def data(chance):
    return reads(DATA)


def send(chance):
    return writes(DATA, word(chance))


def panel(chance):
    return chance.one_of((reads(PANEL), reads(PANEL), writes(PANEL, chance.below(1024)), writes(PANEL, 1024 + chance.below(60000))))


def time(chance):
    return chance.one_of((reads(MILLISECONDS), reads(MILLISECONDS), writes(MILLISECONDS, chance.below(9))))


def other(chance):
    """A read of a device not named, or a write to it, or to status."""
    device, value = chance.one_of(OTHER_DEVICES), chance.below(1 << 16)
    return chance.one_of((reads(device), reads(device), writes(device, value), writes(STATUS, value), writes(8, value)))


def tick_row():
    """Rises in clocks 6, 12, ...: read and cleared about them; 12 clears a tick that stands, 18 one that does not, 24 and 36 are held."""
    chance = Chance(21)
    clear, see = writes(MILLISECONDS, 5), reads(MILLISECONDS)
    plan = {5: see, 6: see, 7: see, 11: see, 12: clear, 13: see, 15: clear, 16: NONE, 17: reads(8), 18: clear, 19: see, 20: clear,
            21: writes(8, 0), 25: see, 26: writes(8, 7), 27: clear, 28: writes(14, 3), 29: see, 30: see, 31: see, 32: writes(14, 1),
            33: reads(6), 34: clear, 35: NONE, 37: see, 38: writes(PANEL, 1), 39: see, 40: clear, 41: see, 42: clear, 43: see, 44: see}
    takes = with_holds(random_takes(chance, [1] * 44, 2), {10, 24, 36})
    return board_row(Timing(2, 1, 6), takes, with_plan(chance, 44, plan, (none,)))


def panel_row():
    """Lamps and switches, devices not named, and words over the lamps' width."""
    chance = Chance(22)
    plan = {2: writes(PANEL, 0x2A5), 3: reads(PANEL), 4: writes(8, 0x3FF), 5: reads(8), 6: writes(PANEL, 0x17FF), 7: reads(0),
            8: writes(15, 1), 9: reads(15), 10: writes(PANEL, 0xFFFFFC00), 11: reads(PANEL), 12: reads(63), 13: writes(PANEL, 256)}
    takes = with_holds(random_takes(chance, [1] * 40, 2), {14, 15, 20, 29})
    return board_row(Timing(3, 2, 11), takes, with_plan(chance, 40, plan, (panel, panel, other, other, time, none)))


def joined_board_row(seed, timing, clocks, held, choices):
    """The line joined to itself, the first word sent in clock 1."""
    chance = Chance(seed)
    takes = random_takes(chance, [1] * clocks, held)
    takes[0] = takes[0]._replace(stall=0)
    return board_row(timing, takes, with_plan(chance, clocks, {1: writes(DATA, 0x1A6)}, choices), True)


def line_board_row(seed, timing, clocks, held, lines_of, choices):
    chance = Chance(seed)
    return board_row(timing, random_takes(chance, lines_of(chance, timing, clocks), held), with_plan(chance, clocks, {}, choices))


def board_rows():
    usual = (status, status, data, send, other, none)
    return [tick_row(), panel_row(),
            joined_board_row(23, Timing(1, 1, 13), 50, 5, (status, status, status, data, send, send, other)),
            line_board_row(24, Timing(1, 1, 9), 60, 4, noise, (status, status, status, data, data, other, time)),
            joined_board_row(25, Timing(2, 1, 17), 60, 3, (status, status, data, send, other)),
            line_board_row(26, Timing(2, 2, 10), 60, 6, slipping, usual + (panel,)),
            line_board_row(27, Timing(3, 2, 25), 60, 4, short_stops, (status, status, status, data, other)),
            line_board_row(28, Timing(1, 1, 1), 36, 5, noise, usual + (time, time, panel))]


# ------------------------------------------------------ what the rows must have

def serial_events(row, past, n):
    """What is asked of the serial rows, and whether clock n of a row has it."""
    line, access = row.given[n - 1]
    sent, read = isinstance(access, int), access == READS
    busy = not past.free(n)
    return {
        'a word above 255': sent and not busy and access > 255,
        'a write while busy': sent and busy,
        'a write in the last busy clock': sent and past.left(n) == 1,
        'a write in the first free clock': sent and n > 1 and past.left(n - 1) == 1,
        'a read in the clock of a stop sample': read and n in past.stops(),
        'a byte read again': read and past.byte(n) and not past.ready(n),
        'a byte replaced unread': n in past.stops() and past.ready(n) and not read,
        'a line other than the level sent': line != past.level(n),
        'a high start sample': past.passed(n) + 1 == row.sample > 1 and line,
        'a low stop sample': n in past.stops() and not line,
        'a first clock just after a stop sample': n in past.firsts and n - 1 in past.stops() and row.sample < row.period,
        '60 to 130 clocks': 60 <= len(row.given) <= 130,
    }


def board_events(row, past, n):
    """What is asked of the board rows, and whether clock n of a row has it."""
    clock, before = past.at(n), past.at(max(n - 1, 1))
    byte, device, multiple = clock.byte, clock.byte // 4, n % row.timing.tick == 0
    clears, stop = byte == write_byte(MILLISECONDS), n in past.stops()
    return {
        'a rise in a held clock': clock.stall and multiple and not past.tick(n),
        'a write to device 8': byte == 34,
        'a clearing write in the clock of a multiple, the tick high': multiple and clears and past.tick(n),
        'a clearing write in the clock of a rise': multiple and clears and not past.tick(n),
        'a byte read again': byte == read_byte(DATA) and past.byte(n) and not past.ready(n),
        'a word above 255 to device 4': byte == write_byte(DATA) and clock.word > 255 and past.free(n),
        'a write while busy': byte == write_byte(DATA) and not past.free(n),
        'a word above 1023 to device 7': byte == write_byte(PANEL) and clock.word > 1023,
        'milliseconds read in the clock of a multiple and the next':
            byte == before.byte == read_byte(MILLISECONDS) and (n - 1) % row.timing.tick == 0 < n - 1,
        'a read of device 0 to 3': byte % 4 == 1 and device < 4 and clock.switches,
        'a read of device 8 to 63': byte % 4 == 1 and device > 7 and clock.switches,
        'switches other than before': byte == read_byte(PANEL) and clock.switches != before.switches,
        'a byte received in a held clock': clock.stall and stop,
        'device 4 read in the clock of a stop sample': byte == read_byte(DATA) and stop,
        'status read in the clock of a stop sample': byte == read_byte(STATUS) and stop and not past.ready(n),
        '30 to 60 clocks': 30 <= len(row.takes) <= 60,
        **{f'status {value}': byte == read_byte(STATUS) and past.moved(n) == value for value in range(4)},
    }


def serial_has(row):
    past = Past(Timing(row.period, row.sample, NO_TICK), serial_clocks(row.given))
    return [serial_events(row, past, n) for n in range(1, len(row.given) + 1)]


def board_has(row):
    past = Past(row.timing, filled(row.script, row.takes))
    return [board_events(row, past, n) for n in range(1, len(row.takes) + 1)]


def missing():
    """What is asked of the rows and is in no clock of any."""
    out = []
    for kind, rows in (('serial', map(serial_has, serial_rows())), ('board', map(board_has, board_rows()))):
        clocks = [events for row in rows for events in row]
        out += [f'{kind}: {name}' for name in clocks[0] if not any(events[name] for events in clocks)]
    return out


# ------------------------------------------------------------------- the output

def wrapped(first, items, last, columns=130):
    """A list in the checker's syntax after `first`, broken at its elements; later lines are indented by 6."""
    lines, line = [], first
    for item in [f'{item} ∷' for item in items] + ['[]' + last]:
        if len(line) + 1 + len(item) > columns:
            lines.append(line)
            line = ' ' * 5
        line += ' ' + item
    return lines + [line]


def access_text(access):
    return f'(writes {access})' if isinstance(access, int) else access


def serial_text(row):
    given = [f'on {line} {access_text(access)}' for line, access in row.given]
    return [f'record {{ period = {row.period}; sample = {row.sample};', *wrapped('      given =', given, ';'),
            *wrapped('      expected =', row.expected, ' }')]


def board_text(row):
    period, sample, tick = row.timing
    return [f'record {{ timing = record {{ period = {period}; sample = {sample}; tick = {tick} }};',
            *wrapped('      script =', [f'd {byte} {value}' for byte, value in row.script], ';'),
            *wrapped('      takes =', ['t ' + ' '.join(map(str, take)) for take in row.takes], ';'),
            *wrapped('      expected =', row.expected, ' }')]


def listed(texts):
    """The rows as one list."""
    lines = []
    for text in texts:
        lines += [('    ∷ ' if lines else '    ') + text[0], *text[1:]]
    return '\n'.join([*lines, '    ∷ []']) + '\n'


TABLES = {'serial': lambda: listed(map(serial_text, serial_rows())), 'board': lambda: listed(map(board_text, board_rows()))}


if __name__ == '__main__':
    if len(sys.argv) != 2 or sys.argv[1] not in TABLES:
        sys.exit('usage: board_tables.py serial|board')
    m.check('not in the rows', missing(), [])
    sys.stdout.write(TABLES[sys.argv[1]]())
