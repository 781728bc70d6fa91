# The serial board above the machine, written from the paper: with a record (`Serial`, `Board`) and read off a list of clocks (`Past`).
# Called: python3 tests/machine/board.py selftest [runs] compares the two on random runs; tests/machine/ imports it.
# Reads: machine.py, for the core. The two readings share only the timing, the devices' numbers and what a clock was given and accessed.
"""Clocks are numbered from 1: clock n takes the clock count from n - 1 to n. `Past` says what stood when clock n began."""
import random
import sys
from bisect import bisect_left
from collections import namedtuple

sys.dont_write_bytecode = True
import machine as m

Timing = namedtuple('Timing', 'period sample tick')
PAPER = Timing(1012, 506, 116600)
DATA, STATUS, MILLISECONDS, PANEL = 4, 5, 6, 7                          # devices
OTHERS, READS = 'others', 'reads'                                       # accesses to serial data; a write is its word
Take = namedtuple('Take', 'line switches interrupt1 stall')             # what a clock of the board is given
Clock = namedtuple('Clock', 'line switches interrupt1 stall byte word')  # and what the core answered in it
Said = namedtuple('Said', 'level line_byte byte word finished')         # what a clock of the board gives back


def read_byte(device):
    return 4 * device + 1


def write_byte(device):
    return 4 * device + 2


# ------------------------------------------------------ the board with a record

class Serial:
    """The serial line: the transmitter (`left`, `sent`) and the receiver (`passed`, `bits`, `byte`, `ready`)."""

    def __init__(self, timing):
        self.period, self.sample = timing.period, timing.sample
        self.left = self.sent = self.passed = self.bits = self.byte = self.ready = 0

    def free(self):
        return int(self.left == 0)

    def bit_sent(self, number):
        return self.sent >> number & 1

    def level(self):
        """The level sent in the coming clock."""
        if self.left == 0:
            return 1
        place = (10 * self.period - self.left) // self.period
        return 0 if place == 0 else 1 if place == 9 else self.bit_sent(place - 1)

    def shown(self, line, access):
        """Level, received bit, free and byte in a clock. They stood when it began, so its own line and access do not matter."""
        return self.level(), self.ready, self.free(), self.byte

    def transmit(self, access):
        if self.left:
            self.left -= 1
        elif isinstance(access, int):
            self.left, self.sent = 10 * self.period, access % 256

    def data_samples(self):
        """The clocks of a frame that sample its data bits."""
        return range(self.period + self.sample, 9 * self.period + self.sample, self.period)

    def stop_sample(self):
        return 9 * self.period + self.sample

    def shift(self, line):
        self.bits = self.bits // 2 + 128 * line

    def receive(self, line):
        if self.passed == 0 and line == 1:
            return
        self.passed += 1
        if self.passed in self.data_samples():
            self.shift(line)
        elif self.passed == self.stop_sample():
            self.byte, self.ready, self.passed = self.bits, 1, 0

    def read(self):
        self.ready = 0

    def clock(self, line, access):
        self.transmit(access)
        if access == READS:
            self.read()
        self.receive(line)


class Board:
    """The board over a core with clock(line byte, input) -> byte, word, finished; count; next_read(stall) -> device or None."""

    def __init__(self, timing, core, serial=Serial):
        self.timing, self.core, self.serial = timing, core, serial(timing)
        self.tick = self.lamps = 0

    def count(self):
        return self.core.count

    def line_byte(self, take):
        return self.tick + 2 * take.interrupt1 + 4 * take.stall

    def reply(self, device, take):
        """The word that the core reads from a device in this clock."""
        _, ready, free, byte = self.serial.shown(take.line, READS if device == DATA else OTHERS)
        if device == DATA:
            return byte
        if device == STATUS:
            return ready + 2 * free
        if device == MILLISECONDS:
            return self.count() // self.timing.tick
        return take.switches if device == PANEL else 0

    def access(self, byte, word):
        """What an answer of the core is to the serial line."""
        return {read_byte(DATA): READS, write_byte(DATA): word}.get(byte, OTHERS)

    def step_serial(self, take, byte, word):
        self.serial.clock(take.line, self.access(byte, word))

    def step_tick(self, take, byte):
        if self.count() % self.timing.tick == 0:
            self.tick = 1
        elif byte == write_byte(MILLISECONDS):
            self.tick = 0

    def step_lamps(self, byte, word):
        if byte == write_byte(PANEL):
            self.lamps = word % 1024

    def clock(self, take):
        level, line_byte = self.serial.level(), self.line_byte(take)
        device = self.core.next_read(take.stall)
        byte, word, finished = self.core.clock(line_byte, self.reply(device, take))
        self.step_serial(take, byte, word)
        self.step_tick(take, byte)
        self.step_lamps(byte, word)
        return Said(level, line_byte, byte, word, finished)


def fields(board):
    serial = board.serial
    return (serial.left, serial.sent, serial.passed, serial.bits, serial.byte, serial.ready, board.tick, board.lamps)


def highest(timing):
    """The greatest value of each of `fields`; the least is 0."""
    return (10 * timing.period, 255, 9 * timing.period + timing.sample - 1, 255, 255, 1, 1, 1023)


def refusal(board):
    """5 for a board field outside its range; the core's record is judged by refused.py."""
    return 0 if all(0 <= value <= most for value, most in zip(fields(board), highest(board.timing))) else 5


# ------------------------------------------------------------------- the cores

class MachineCore:
    """The machine of machine.py with its program and store."""

    def __init__(self, program, store):
        self.program, self.store, self.record = program, store, m.reset(store)

    @property
    def count(self):
        return self.record.clocks

    def device_loaded(self):
        """The device of the LD at PC, or None."""
        word = m.word_at(self.program, self.record.pc)
        at = m.address(word, self.record)
        return at - m.FIRST_DEVICE_ADDRESS if m.operation(word) == m.LD and m.is_device(at) else None

    def next_read(self, stall):
        return None if stall or self.record.phase != m.LAST else self.device_loaded()

    def clock(self, line_byte, inp):
        return m.clock(self.program, self.record, self.store, line_byte, inp)


class ScriptCore:
    """A core that makes the accesses of a list, (byte, word) for each unheld clock, and none after it."""

    def __init__(self, script):
        self.script, self.at, self.count = script, 0, 0

    def coming(self):
        return self.script[self.at] if self.at < len(self.script) else (0, 0)

    def next_read(self, stall):
        byte, _ = self.coming()
        return None if stall or byte % 4 != 1 else byte // 4

    def clock(self, line_byte, inp):
        self.count += 1
        if line_byte & 4:
            return m.NO_ACCESS
        byte, word = self.coming()
        self.at += 1
        return byte, inp if byte % 4 == 1 else word, int(byte > 0)


# --------------------------------------- the board read off the list of clocks

def spaced(numbers, length):
    """Of rising numbers those that are at least `length` after the last one taken; the first is taken."""
    taken = []
    for n in numbers:
        if not taken or n >= taken[-1] + length:
            taken.append(n)
    return taken


def latest(numbers, n):
    """The greatest of the rising numbers below n, 0 if there is none."""
    at = bisect_left(numbers, n)
    return numbers[at - 1] if at else 0


class Past:
    """What stood when clock n began, by looking back from n through the clocks before it; the word of a read is not looked at."""

    def __init__(self, timing, clocks):
        self.timing, self.clocks = timing, clocks
        self.whole, self.to_stop = 10 * timing.period, 9 * timing.period + timing.sample - 1
        self.accepted = spaced(self.with_byte(write_byte(DATA)), self.whole + 1)
        self.firsts = spaced([n for n, clock in enumerate(clocks, 1) if not clock.line], self.to_stop + 1)
        self.sampled = [n for first in self.firsts for n in self.samples(first) if n <= len(clocks)]
        self.digits = [str(clocks[n - 1].line) for n in self.sampled]
        self.reads, self.clears, self.lamp_writes = map(self.with_byte, (read_byte(DATA), write_byte(MILLISECONDS), write_byte(PANEL)))

    def with_byte(self, byte):
        return [n for n, clock in enumerate(self.clocks, 1) if clock.byte == byte]

    def at(self, n):
        return self.clocks[n - 1]

    def frame(self, n):
        """The accepted write whose frame clock n is in, 0 if none."""
        write = latest(self.accepted, n)
        return write if write and n - write <= self.whole else 0

    def level(self, n):
        write = self.frame(n)
        bits = '0' + format(self.at(write).word % 256, '08b')[::-1] + '1'
        return int(bits[(n - write - 1) // self.timing.period]) if write else 1

    def free(self, n):
        return int(not self.frame(n))

    def left(self, n):
        write = self.frame(n)
        return write + self.whole - (n - 1) if write else 0

    def sent(self, n):
        write = latest(self.accepted, n)
        return self.at(write).word % 256 if write else 0

    def samples(self, first):
        """The clocks that sample the data bits of the frame that begins in clock `first`, lowest bit first."""
        return [first - 1 + bit * self.timing.period + self.timing.sample for bit in range(1, 9)]

    def stop(self, n):
        """The last clock before n that sampled a stop bit, 0 if none."""
        first = latest(self.firsts, n - self.to_stop)
        return first + self.to_stop if first else 0

    def byte(self, n):
        stop = self.stop(n)
        digits = [str(self.at(clock).line) for clock in reversed(self.samples(stop - self.to_stop))] if stop else '0'
        return int(''.join(digits), 2)

    def ready(self, n):
        stop = self.stop(n)
        return int(stop > 0 and latest(self.reads, n) <= stop)

    def passed(self, n):
        first = latest(self.firsts, n)
        return n - first if first and n <= first + self.to_stop else 0

    def bits(self, n):
        """The last eight data samples, the last one highest."""
        at = bisect_left(self.sampled, n)
        return int(''.join(self.digits[max(at - 8, 0):at][::-1]).ljust(8, '0'), 2)

    def milliseconds(self, n):
        return (n - 1) // self.timing.tick

    def tick(self, n):
        risen = self.milliseconds(n) * self.timing.tick
        return int(risen > 0 and latest(self.clears, n) <= risen)

    def lamps(self, n):
        write = latest(self.lamp_writes, n)
        return self.at(write).word % 1024 if write else 0

    def fields(self, n):
        """Those of the record, in the order of `fields`."""
        return (self.left(n), self.sent(n), self.passed(n), self.bits(n), self.byte(n), self.ready(n), self.tick(n), self.lamps(n))

    def line_byte(self, n):
        return int(f'{self.at(n).stall}{self.at(n).interrupt1}{self.tick(n)}', 2)

    def moved(self, n):
        """The word moved in clock n."""
        clock = self.at(n)
        if clock.byte % 4 != 1:
            return clock.word
        replies = {DATA: self.byte, STATUS: lambda n: 2 * self.free(n) + self.ready(n), MILLISECONDS: self.milliseconds,
                   PANEL: lambda n: clock.switches}
        return replies.get(clock.byte // 4, lambda n: 0)(n)

    # the promise on a line joined to itself

    def stops(self):
        return [first + self.to_stop for first in self.firsts if first + self.to_stop <= len(self.clocks)]

    def proviso(self):
        """Whether each byte is read before the next is received; a read in the clock that receives the next counts."""
        stops = self.stops()
        return all(latest(self.reads, after + 1) > before for before, after in zip(stops, stops[1:]))

    def handed(self):
        """The bytes of the reads that find the bit set."""
        return [self.byte(n) for n in self.reads if self.ready(n)]

    def accepted_bytes(self):
        return [self.at(n).word % 256 for n in self.accepted]


def filled(script, takes):
    """The clocks of a core that follows a script: what each was given and accessed."""
    unheld, clocks = iter(script), []
    for take in takes:
        byte, word = (0, 0) if take.stall else next(unheld, (0, 0))
        clocks.append(Clock(*take, byte, word))
    return clocks


def joined(timing, script, takes):
    """The takes with the line joined to itself: the level depends on the writes alone."""
    past = Past(timing, filled(script, [take._replace(line=1) for take in takes]))
    return [take._replace(line=past.level(n)) for n, take in enumerate(takes, 1)]


# ------------------------------------------------------------- the comparison

def same(what, given, wanted):
    for n, value in enumerate(given, 1):
        if value != wanted(n):
            m.check(f'{what} in clock {n}', value, wanted(n))


def compare(timing, clocks, states, says):
    """The records before each clock and after the last, and what the clocks gave back, against the list of clocks."""
    past = Past(timing, clocks)
    same(f'{timing} record', states, past.fields)
    same(f'{timing} answer', [said[:4] for said in says],
         lambda n: (past.level(n), past.line_byte(n), past.at(n).byte, past.moved(n)))
    return past


def board_run(board, takes):
    """The clocks, records and answers of a run; a take without a line has the level sent."""
    clocks, states, says = [], [fields(board)], []
    for take in takes:
        if take.line is None:
            take = take._replace(line=board.serial.level())
        said = board.clock(take)
        clocks.append(Clock(*take, said.byte, said.word))
        states.append(fields(board))
        says.append(said)
        m.check('range', refusal(board), 0)
    return clocks, states, says


def random_timing(rng):
    period = rng.randrange(1, 6)
    return Timing(period, rng.randrange(1, period + 1), rng.choice((1, 2, 7, 20, 33)))


def random_lines(rng, timing, clocks):
    """Noise, or runs of about a bit's length, often of one frame after the other, or held low, or joined to itself (None)."""
    kind = rng.randrange(5)
    if kind == 0:
        return [None] * clocks
    if kind == 1:
        return [0] * clocks
    if kind == 2:
        return [int(rng.random() < 0.6) for _ in range(clocks)]
    lines, slip = [], rng.choice((0, 0, 1, 2))
    while len(lines) < clocks:
        frame = [0] + [rng.randrange(2) for _ in range(8)] + [1]
        for bit in frame if kind == 3 else frame[:-1]:
            lines += [bit] * max(timing.period + rng.randrange(-slip, slip + 1), 1)
        lines += [1] * rng.randrange(timing.period * 2)
    return lines[:clocks]


def random_access(rng, density):
    if rng.random() >= density:
        return 0, 0
    device = rng.choice((DATA, DATA, DATA, STATUS, MILLISECONDS, PANEL, rng.randrange(64)))
    word = rng.choice((rng.randrange(256), rng.randrange(4096), rng.getrandbits(32)))
    return (read_byte(device), 0) if rng.random() < 0.5 else (write_byte(device), word)


def random_takes(rng, timing, clocks):
    stalls = rng.choice((0, 0.1, 0.5))
    return [Take(line, rng.randrange(256), rng.randrange(2), int(rng.random() < stalls)) for line in random_lines(rng, timing, clocks)]


def note(seen, past, takes):
    """Counts what random runs reached."""
    seen['clocks'] = seen.get('clocks', 0) + len(takes)
    for name, many in (('accepted', past.accepted), ('received', past.stops()), ('handed', past.handed())):
        seen[name] = seen.get(name, 0) + len(many)
    if takes and takes[0].line is None and past.proviso():
        promise(past)
        seen['joined with proviso'] = seen.get('joined with proviso', 0) + 1


def promise(past):
    """On a line joined to itself, under the proviso: the bytes handed over are those accepted but for at most one unread and one on it."""
    accepted, handed = past.accepted_bytes(), past.handed()
    on_line = len(past.accepted) - len(past.stops())
    unread = past.ready(len(past.clocks) + 1)
    m.check('handed over', handed, accepted[:len(accepted) - on_line - unread])
    m.check('on the line', on_line in (0, 1), True)
    return handed


def random_script_run(rng, timing, clocks, seen):
    takes, density = random_takes(rng, timing, clocks), rng.choice((0.1, 0.4, 0.9))
    script = [random_access(rng, density) for _ in takes]
    given, states, says = board_run(Board(timing, ScriptCore(script)), takes)
    if takes[0].line is None:
        m.check('joined', [clock[:4] for clock in given], [tuple(take) for take in joined(timing, script, takes)])
    note(seen, compare(timing, given, states, says), takes)


REACHED = ('clocks', 'accepted', 'received', 'handed', 'joined with proviso')


def scripted_runs(runs=1500, clocks=120):
    """Random accesses at small timings."""
    rng, seen = random.Random(1), {}
    for _ in range(runs):
        random_script_run(rng, random_timing(rng), clocks, seen)
    m.check('not reached', [name for name in REACHED if not seen.get(name)], [])
    return seen


def paper_runs(clocks=32000):
    """Random accesses at the paper's timing, one run past the tick."""
    rng, seen = random.Random(2), {}
    for length in (clocks, clocks, clocks, PAPER.tick + clocks):
        random_script_run(rng, PAPER, length, seen)
    return seen


# ------------------------------------------------------- runs over the machine

def random_program(rng):
    """R1 is the devices' base, R2 to R6 change; the handlers at 2 and 3 return, at once or after a write to device 6."""
    body = []
    for _ in range(rng.randrange(4, 24)):
        device, d = rng.choice((DATA, DATA, STATUS, MILLISECONDS, PANEL, rng.randrange(64))), rng.randrange(2, 7)
        body.append(rng.choice((m.ld(d, 1, device), m.ld(d, 1, device), m.st(d, 1, device), m.imm(m.ADD, d, rng.randrange(1024)),
                                m.branch(rng.randrange(16), rng.randrange(0, 3)), m.st(d, 7, rng.randrange(64)),
                                m.status(rng.choice((0, 3, 3, 8, 11))))))
    start = [m.imm(m.NOT, 1, 63), m.branch(14, 5), m.branch(14, 1), m.rti(7)]
    handler = [m.imm(m.NOT, 1, 63), m.st(0, 1, MILLISECONDS), m.rti(7)]
    return start + handler + body + [m.branch(14, -len(body) - 1)]


def machine_run(board, takes):
    given, states, says = board_run(board, takes)
    return compare(board.timing, given, states, says)


def machine_runs(runs=250, clocks=200, board=Board, core=MachineCore):
    """Random programs over the machine at small timings."""
    rng, seen = random.Random(3), {}
    for _ in range(runs):
        timing = random_timing(rng)
        takes = random_takes(rng, timing, clocks)
        note(seen, machine_run(board(timing, core(random_program(rng), [0] * 64)), takes), takes)
    m.check('not reached', [name for name in REACHED if not seen.get(name)], [])
    return seen


LOOP_BACK = [
    m.imm(m.NOT, 1, 63),        # 0: R1 := FFFFFFC0H, the base of the devices
    m.ld(3, 1, STATUS),         # 1: R3 := status
    m.imm(m.AND, 3, 1),         # 2: a byte received?
    m.branch(0, 1),             # 3: if not, to 5
    m.ld(4, 1, DATA),           # 4: R4 := the byte
    m.ld(3, 1, STATUS),         # 5: R3 := status
    m.imm(m.AND, 3, 2),         # 6: the transmitter free?
    m.branch(0, -7),            # 7: if not, to 1
    m.imm(m.ADD, 2, 309),       # 8: the next word, 309 higher: above 255
    m.st(2, 1, DATA),           # 9: sends its byte
    m.branch(14, -10),          # 10: to 1
]


def loop_back(bytes_accepted=12):
    """The line joined to itself at the paper's timing, each 11th clock held, up to the middle of the last byte's frame."""
    core = MachineCore(LOOP_BACK, [0] * 64)
    takes = [Take(None, 0, 0, int(n % 11 == 5)) for n in range(10121 * bytes_accepted - 5000)]
    past = machine_run(Board(PAPER, core), takes)
    m.check('accepted', past.accepted_bytes(), [309 * (i + 1) % 256 for i in range(bytes_accepted)])
    m.check('proviso', past.proviso(), True)
    m.check('handed over', promise(past), past.accepted_bytes()[:-1])
    return past


def ranges():
    """Each field is refused with 5 just above its range and below it, and accepted at both ends."""
    for timing in (PAPER, Timing(1, 1, 1), Timing(5, 2, 9)):
        for at, most in enumerate(highest(timing)):
            for value, number in ((-1, 5), (0, 0), (most, 0), (most + 1, 5)):
                board = Board(timing, ScriptCore([]))
                owner, name = FIELDS[at]
                setattr(board.serial if owner == 'serial' else board, name, value)
                m.check(f'{name} {value}', (fields(board)[at], refusal(board)), (value, number))
    m.check("the paper's ranges", highest(PAPER), (10120, 255, 9613, 255, 255, 1, 1, 1023))
    m.check('reset', fields(Board(PAPER, ScriptCore([]))), (0,) * 8)


FIELDS = [('serial', name) for name in ('left', 'sent', 'passed', 'bits', 'byte', 'ready')] + [('board', 'tick'), ('board', 'lamps')]


def starred():
    """Single clocks of the paper's timing, by their numbers."""
    write = [(0, 0)] * 4 + [(write_byte(DATA), 0x141)]
    takes = [Take(None, 0, 0, 0)] * 10130
    given, states, _ = board_run(Board(PAPER, ScriptCore(write)), takes)
    past = Past(PAPER, given)
    m.check('busy', [n for n in range(1, 10131) if not past.free(n)], list(range(6, 10126)))
    m.check('level', [past.level(n) for n in (5, 6, 1017, 1018, 2029, 2030, 9114, 10125)], [1, 0, 0, 1, 1, 0, 1, 1])
    m.check('received', [(past.byte(n), past.ready(n)) for n in (5 + 9614, 5 + 9615)], [(0, 0), (0x41, 1)])
    m.check('records', [states[n - 1] for n in (1, 6, 9619, 9620)], [past.fields(n) for n in (1, 6, 9619, 9620)])
    still = Past(PAPER, [Clock(1, 0, 0, 0, 0, 0)] * 116601)
    m.check('tick', [(still.tick(n), still.milliseconds(n)) for n in (1, 116600, 116601)], [(0, 0), (0, 0), (1, 1)])
    low = Past(PAPER, [Clock(0, 0, 0, 0, 0, 0)] * 30000)
    m.check('held low', low.stops(), [9614, 19228, 28842])


# without the runs of many clocks
SELFTESTS = [ranges, starred]
RUNS = [scripted_runs, paper_runs, machine_runs]


def selftest(runs=5000):
    for test in SELFTESTS:
        test()
    print('loop-back:', len(loop_back().handed()), 'bytes')
    for seen in (scripted_runs(runs), paper_runs(), machine_runs(runs // 5)):
        print(', '.join(f'{seen.get(name, 0)} {name}' for name in REACHED))


if __name__ == '__main__':
    if sys.argv[1:2] != ['selftest']:
        sys.exit('usage: board.py selftest [runs]')
    selftest(*map(int, sys.argv[2:3]))
