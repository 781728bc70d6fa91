# A second TRM written from the paper: as a clocked machine (`Record`, `clock`) and as the plain machine (`Plain`, `plain_clock`).
# C of ADD and SUB is that of A2 of the change requests.
# Called: python3 tests/machine/machine.py selftest [programs] compares the two on random programs; tests/machine/ imports it.
# Reads: nothing; it shares nothing with crates/. The two machines share only the decoding of a word, `execute` and the interrupt rule.
"""Words are 32-bit patterns (0 to 2^32-1) unless named signed. The clock refuses nothing: programs, stores and records are legal."""
import random
import sys

sys.dont_write_bytecode = True

MASK32 = 0xFFFFFFFF
MASK64 = (1 << 64) - 1
BRANCH_NEVER = 0x3BC00
MOV, NOT, ADD, SUB, AND, BIC, OR, XOR, MUL, DIV, ROR = range(11)
CONTROL, LD, ST, BRANCH, CALL = range(11, 16)
READY, ARITHMETIC, WRITE_BACK, REFILL, UNCACHED, LAST = range(6)
MODE, CACHE_ON = 4, 8                     # status bits 2 and 3
LINES, LINE_WORDS, TEN = 16, 8, 10
FIRST_DEVICE_ADDRESS = 0xFFC0
EMPTYING = "emptying"                     # a history entry, like (block, is_store)
NO_ACCESS = (0, 0, 0)                     # byte, word, done


# ---------------------------------------------------------------- assembling

def field(value, bits):
    assert 0 <= value < 1 << bits, f"{value} does not fit {bits} bits"
    return value

def imm(op, d, literal):
    return field(op, 4) << 14 | field(d, 3) << 11 | field(literal, 10)

def reg(op, d, s):
    return field(op, 4) << 14 | field(d, 3) << 11 | 1 << 10 | field(s, 3)

def mov_h(d):
    return reg(MOV, d, 0) | 1 << 3

def status(bits):
    return CONTROL << 14 | field(bits, 4)

def jump(s):
    return reg(CONTROL, 0, s)

def jump_link(d, s):
    return reg(CONTROL, d, s) | 2 << 8

def rti(s):
    return reg(CONTROL, 0, s) | 1 << 8

def ld(d, s, off):
    return LD << 14 | field(d, 3) << 11 | field(off, 8) << 3 | field(s, 3)

def st(d, s, off):
    return ST << 14 | field(d, 3) << 11 | field(off, 8) << 3 | field(s, 3)

def branch(cond, offset):
    return BRANCH << 14 | field(cond, 4) << 10 | field(offset + 512, 10) ^ 0x200

def call(offset):
    return CALL << 14 | offset % 4096


# ------------------------------------------------- shared: decoding of a word

def word_at(program, pc):
    return program[pc] if pc < len(program) else BRANCH_NEVER

def operation(word):
    return word >> 14

def d_field(word):
    return word >> 11 & 7

def s_field(word):
    return word & 7

def bit10(word):
    return word >> 10 & 1

def offset_field(word):
    return word >> 3 & 0xFF

def branch_offset(word):
    return ((word & 0x3FF) ^ 0x200) - 0x200

def signed(pattern):
    return (pattern ^ 1 << 31) - (1 << 31)


# ------------- shared: what a word does to what a programmer sees (`execute`)

def bank(m):
    return 8 if m.status & MODE else 0

def get(m, number):
    return m.regs[bank(m) + number]

def put(m, number, value):
    m.regs[bank(m) + number] = value & MASK32

def operand_a(word, m):
    return get(m, s_field(word)) if bit10(word) else word & 0x3FF

def address(word, m):
    """The 16-bit data address of LD and ST, not yet reduced to the store."""
    base = 0 if s_field(word) == 7 else get(m, s_field(word))
    return (base + offset_field(word)) % 65536

def is_device(addr):
    return addr >= FIRST_DEVICE_ADDRESS

def condition(number, m):
    n, z, c, v = m.n, m.z, m.c, m.v
    positive = (z, c, n, v, c and not z, n == v, n == v and not z, True)[number >> 1]
    return bool(positive) != bool(number & 1)

def divide(a, b):
    """(quotient, H) for signed a and the dividend's pattern b."""
    return divmod(signed(b), a) if a > 0 else (0, b)

def arithmetic(word, m):
    """Operations 0 to 10: sets R.d, H and the flags; not PC."""
    op, a, b = operation(word), operand_a(word, m), get(m, d_field(word))
    if op == MOV:
        result = m.h if bit10(word) and word >> 3 & 1 else a
    elif op == NOT:
        result = ~a
    elif op in (ADD, SUB):
        result = signed(b) + signed(a) if op == ADD else signed(b) - signed(a)
        m.c = (b + a) >> 32 if op == ADD else int(b >= a)      # b and a are without sign; V is of the signed result
        m.v = int(not -(1 << 31) <= result < 1 << 31)
    elif op == AND:
        result = b & a
    elif op == BIC:
        result = b & ~a
    elif op == OR:
        result = b | a
    elif op == XOR:
        result = b ^ a
    elif op == MUL:
        result = signed(b) * signed(a)
        m.h = result >> 32 & MASK32
    elif op == DIV:
        result, m.h = divide(signed(a), b)
    else:
        turn = a % 32
        result = b >> turn | b << (32 - turn) & MASK32
        m.c = result & 1
    result &= MASK32
    m.n, m.z = result >> 31, int(result == 0)
    put(m, d_field(word), result)

def control(word, m):
    """Operation 11."""
    following = (m.pc + 1) % 4096
    if not bit10(word):
        m.status = word & 15
        m.pc = following
        return
    target, kind = get(m, s_field(word)), word >> 8 & 3
    m.pc = target & 0xFFF
    if kind == 2:
        put(m, d_field(word), following)
    elif kind in (1, 3):
        m.n, m.z, m.c, m.v = (target >> i & 1 for i in (31, 30, 29, 28))
        m.status &= ~MODE

def transfer(word, m, load, save, inp):
    """LD and ST, without PC; returns the answer byte and word."""
    addr, d = address(word, m), d_field(word)
    storing = operation(word) == ST
    if is_device(addr):
        moved = get(m, d) if storing else inp
        if not storing:
            put(m, d, inp)
        return (addr - FIRST_DEVICE_ADDRESS) << 2 | (2 if storing else 1), moved
    if storing:
        save(addr, get(m, d))
    else:
        put(m, d, load(addr))
    return 0, 0

def execute(word, m, load, save, inp):
    """Execute the word on pc, h, n z c v, status and regs of m; memory is
    accessed through load(address) and save(address, value).  Returns byte, word."""
    op, following, answer = operation(word), (m.pc + 1) % 4096, (0, 0)
    if op == CONTROL:
        control(word, m)
        return answer
    if op <= ROR:
        arithmetic(word, m)
    elif op in (LD, ST):
        answer = transfer(word, m, load, save, inp)
    elif op == BRANCH:
        if condition(word >> 10 & 15, m):
            following += branch_offset(word)
    else:
        put(m, 7, following)
        following += word & 0xFFF
    m.pc = following % 4096
    return answer


# ----------------------------------------------- shared: the interrupt rule

def take_interrupt(m, line_byte):
    """Take an interrupt if one is due with nothing in flight; say whether."""
    due = line_byte & m.status & 3
    if m.status & MODE or not due:
        return False
    m.regs[15] = m.n << 31 | m.z << 30 | m.c << 29 | m.v << 28 | m.pc
    m.status |= MODE
    m.pc = 2 if due & 1 else 3
    return True


# --------------------------------------------------------- the clocked machine

class Record:
    def __init__(self, store_len):
        self.pc = self.h = self.n = self.z = self.c = self.v = self.status = 0
        self.phase = self.count = self.product = self.remainder = self.quotient = 0
        self.store_len = store_len
        self.clocks = self.held = self.refills = self.writebacks = 0
        self.regs = [0] * 16
        self.full, self.dirty, self.block = [0] * LINES, [0] * LINES, [0] * LINES
        self.words = [0] * (LINES * LINE_WORDS)

def reset(store):
    return Record(len(store))

def holds(record, block):
    line = block % LINES
    return bool(record.full[line]) and record.block[line] == block

def empty_line(record, line):
    record.full[line] = record.dirty[line] = record.block[line] = 0

def clears_cache(word, record):
    return (operation(word) == CONTROL and not bit10(word)
            and record.status & CACHE_ON and not word & CACHE_ON)

def block_at_pc(word, record, store):
    return address(word, record) % len(store) // LINE_WORDS

def enter(record, phase, count=0):
    """Enter a phase; returns that this is not the instruction's last clock."""
    record.phase, record.count = phase, count
    return False

def set_arithmetic_registers(word, record, k):
    """The multiplier or divider after k steps, by the closed formulas."""
    a, b = operand_a(word, record), signed(get(record, d_field(word)))
    if operation(word) == MUL:
        if k == 32:
            value = b * signed(a)
        else:
            value = b * (a % (1 << k)) * (1 << (32 - k)) + (a >> k)
        record.product = value & MASK64
    elif signed(a) > 0:
        t, rest = divmod(abs(b), 1 << (32 - k))
        record.remainder = t % a
        record.quotient = (rest << k) + t // a

def step_arithmetic(word, record):
    set_arithmetic_registers(word, record, record.count + 1)
    return enter(record, ARITHMETIC, record.count + 1)

def lowest_dirty(record):
    return record.dirty.index(1) if 1 in record.dirty else None

def write_back_clock(word, record, store):
    """One clock of a write-back burst: the first two wait, the others write a word each."""
    clearing = operation(word) == CONTROL
    line = lowest_dirty(record) if clearing else block_at_pc(word, record, store) % LINES
    i = record.count - 2
    if i >= 0:
        store[record.block[line] * LINE_WORDS + i] = record.words[line * LINE_WORDS + i]
    if record.count < TEN - 1:
        return enter(record, WRITE_BACK, record.count + 1)
    record.writebacks += 1
    record.dirty[line] = 0
    if not clearing:
        empty_line(record, line)
        return enter(record, REFILL)
    return enter(record, LAST if lowest_dirty(record) is None else WRITE_BACK)

def refill_clock(word, record, store):
    block = block_at_pc(word, record, store)
    line, i = block % LINES, record.count - 2
    if i >= 0:
        record.words[line * LINE_WORDS + i] = store[block * LINE_WORDS + i]
    if record.count < TEN - 1:
        return enter(record, REFILL, record.count + 1)
    record.refills += 1
    record.full[line], record.dirty[line], record.block[line] = 1, 0, block
    return enter(record, LAST)

def begin_transfer(word, record, store):
    """First clock of LD or ST; returns whether it is also the last."""
    loading = operation(word) == LD
    block = block_at_pc(word, record, store)
    device = is_device(address(word, record))
    if not device and not record.status & CACHE_ON:
        return enter(record, UNCACHED, 1)
    if device or holds(record, block):
        return enter(record, LAST) if loading else True
    if record.dirty[block % LINES]:
        return enter(record, WRITE_BACK)
    empty_line(record, block % LINES)
    return enter(record, REFILL)

def begin(word, record, store):
    """First clock of an instruction; returns whether it is also the last."""
    op = operation(word)
    if op in (MUL, DIV):
        return step_arithmetic(word, record)
    if op in (LD, ST):
        return begin_transfer(word, record, store)
    if clears_cache(word, record) and lowest_dirty(record) is not None:
        return enter(record, WRITE_BACK, 1)
    two = (op == CALL or op == CONTROL and bit10(word)
           or op == BRANCH and condition(word >> 10 & 15, record))
    return enter(record, LAST) if two else True

def advance(word, record, store):
    """One unheld clock without the execution; returns whether it is the last."""
    if record.phase == READY:
        return begin(word, record, store)
    if record.phase == ARITHMETIC:
        return True if record.count == 32 else step_arithmetic(word, record)
    if record.phase == WRITE_BACK:
        return write_back_clock(word, record, store)
    if record.phase == REFILL:
        return refill_clock(word, record, store)
    if record.phase == UNCACHED:
        last = record.count == (5 if operation(word) == LD else 4)
        return True if last else enter(record, UNCACHED, record.count + 1)
    return True

def finish(word, record, store, inp):
    """The last clock: the word is executed, the machine is ready again."""
    cached, clearing = record.status & CACHE_ON, clears_cache(word, record)

    def in_line(addr):
        return addr % len(store) % (LINES * LINE_WORDS)

    def load(addr):
        return record.words[in_line(addr)] if cached else store[addr % len(store)]

    def save(addr, value):
        if cached:
            record.words[in_line(addr)] = value
            record.dirty[in_line(addr) // LINE_WORDS] = 1
        else:
            store[addr % len(store)] = value

    byte, moved = execute(word, record, load, save, inp)
    if clearing:
        for line in range(LINES):
            empty_line(record, line)
    record.product = record.remainder = record.quotient = 0
    enter(record, READY)
    return byte, moved, 1

def clock(program, record, store, line_byte, inp):
    """One clock; changes record and store, gives (byte, word, done)."""
    record.clocks += 1
    if line_byte & 4:
        record.held += 1
        return NO_ACCESS
    if record.phase == READY and take_interrupt(record, line_byte):
        return NO_ACCESS
    word = word_at(program, record.pc)
    if advance(word, record, store):
        return finish(word, record, store, inp)
    return NO_ACCESS

def view(record, store, addr):
    """A look: the word of a full cache line, else that of the store."""
    block, i = divmod(addr % len(store), LINE_WORDS)
    if holds(record, block):
        return record.words[block % LINES * LINE_WORDS + i]
    return store[block * LINE_WORDS + i]

def copy(record, store):
    """All of memory, as `view` shows it."""
    memory = list(store)
    for line in range(LINES):
        if record.full[line]:
            first, at = record.block[line] * LINE_WORDS, line * LINE_WORDS
            memory[first:first + LINE_WORDS] = record.words[at:at + LINE_WORDS]
    return memory


# ------------------------------------------------ the plain machine of demand 3

class Plain:
    def __init__(self, store):
        self.pc = self.h = self.n = self.z = self.c = self.v = self.status = 0
        self.regs = [0] * 16
        self.memory, self.history, self.left = list(store), [], 0
        self.clocks = self.held = self.refills = self.writebacks = 0

def since_emptying(history):
    for i in range(len(history) - 1, -1, -1):
        if history[i] == EMPTYING:
            return history[i + 1:]
    return history

def line_by_history(history, line):
    """(block, dirty) of the cache line, or (None, False) if empty."""
    held, dirty = None, False
    for block, is_store in since_emptying(history):
        if block % 16 == line:
            dirty = is_store or (dirty and block == held)
            held = block
    return held, dirty

def dirty_lines(history):
    return sum(line_by_history(history, line)[1] for line in range(16))

def plain_block(word, plain):
    """Block of an LD or ST through the cache; None for any other word."""
    if operation(word) not in (LD, ST) or not plain.status >> 3 & 1:
        return None
    addr = address(word, plain)
    return None if addr >= 0xFFC0 else addr % len(plain.memory) // 8

def is_emptying(word, plain):
    return word >> 14 == 11 and not word >> 10 & 1 and plain.status >> 3 & 1 > word >> 3 & 1

def tens(word, plain):
    """[(clock of the instruction in which a burst is over, its count's name)]."""
    if is_emptying(word, plain):
        return [(10 * (i + 1), "writebacks") for i in range(dirty_lines(plain.history))]
    block = plain_block(word, plain)
    if block is None:
        return []
    held, dirty = line_by_history(plain.history, block % 16)
    if held == block:
        return []
    return [(11, "writebacks"), (21, "refills")] if dirty else [(11, "refills")]

def charge(word, plain):
    """Clocks of the word, by the clock table, the state and the history."""
    op = word >> 14
    over = tens(word, plain)
    if over:
        return over[-1][0] + 1
    if op in (8, 9):
        return 33
    if op in (12, 13):
        base = 2 if op == 12 else 1
        waits = not plain.status >> 3 & 1 and address(word, plain) < 0xFFC0
        return base + 4 if waits else base
    if op == 14:
        return 2 if condition(word >> 10 & 15, plain) else 1
    return 2 if op == 15 or op == 11 and word >> 10 & 1 else 1

def finish_word(word, plain, inp):
    block, emptying = plain_block(word, plain), is_emptying(word, plain)

    def load(addr):
        return plain.memory[addr % len(plain.memory)]

    def save(addr, value):
        plain.memory[addr % len(plain.memory)] = value

    byte, moved = execute(word, plain, load, save, inp)
    if block is not None:
        plain.history.append((block, word >> 14 == 13))
    if emptying:
        plain.history.append(EMPTYING)
    return byte, moved, 1

def plain_clock(program, plain, line_byte, inp):
    """One clock of the plain machine; gives (byte, word, done)."""
    plain.clocks += 1
    if line_byte & 4:
        plain.held += 1
        return NO_ACCESS
    if plain.left == 0 and take_interrupt(plain, line_byte):
        return NO_ACCESS
    word = word_at(program, plain.pc)
    whole = charge(word, plain)           # the state is that of the first clock
    if plain.left == 0:
        plain.left = whole
    plain.left -= 1
    for over, name in tens(word, plain):
        if over == whole - plain.left:
            setattr(plain, name, getattr(plain, name) + 1)
    return NO_ACCESS if plain.left else finish_word(word, plain, inp)


# -------------------------------------------------------------------- selftest

SEEN = ("pc", "h", "n", "z", "c", "v", "status", "regs")
COUNTS = ("clocks", "held", "refills", "writebacks")

def check(what, got, wanted):
    assert got == wanted, f"{what}: got {got}, wanted {wanted}"

def compare(record, store, plain, answers, where):
    check(f"{where} answers", answers[0], answers[1])
    for name in SEEN + COUNTS:
        check(f"{where} {name}", getattr(record, name), getattr(plain, name))
    check(f"{where} memory", copy(record, store), plain.memory)

def phase_rule(program, record, store):
    """The rules of refusal 5 that every reached record must keep."""
    word = word_at(program, record.pc)
    op, k, phase, clearing = operation(word), record.count, record.phase, clears_cache(word, record)
    memory = op in (LD, ST) and not is_device(address(word, record))
    block = block_at_pc(word, record, store) if memory else 0
    line, cached = block % LINES, bool(record.status & CACHE_ON)
    if phase == WRITE_BACK:
        on_line = memory and record.full[line] and record.dirty[line] and record.block[line] != block
        good = 0 <= k <= 9 and (on_line or clearing and 1 in record.dirty)
    else:
        last = (op == BRANCH and condition(word >> 10 & 15, record) or op == CALL
                or op == CONTROL and bit10(word) or clearing and 1 not in record.dirty
                or op == LD and not memory or memory and holds(record, block))
        good = {READY: k == 0, ARITHMETIC: op in (MUL, DIV) and 1 <= k <= 32,
                REFILL: memory and cached and not record.full[line] and 0 <= k <= 9,
                UNCACHED: memory and not cached and 1 <= k <= (5 if op == LD else 4),
                LAST: last and k == 0}[phase]
    lines = all(record.block[i] % LINES == i and record.block[i] * 8 < len(store) and cached
                if record.full[i] else record.dirty[i] == record.block[i] == 0
                for i in range(LINES))
    registers = phase == ARITHMETIC or not (record.product or record.remainder or record.quotient)
    check("record rules", (bool(good), lines, registers), (True, True, True))

def both(program, regs=(), words=(), length=2048, status_bits=0):
    """The two machines after reset, with these registers, store words and status."""
    store = [0] * length
    for addr, value in words:
        store[addr] = value
    record, plain = reset(store), Plain(store)
    for m in (record, plain):
        m.status = status_bits
        for number, value in regs:
            m.regs[number] = value & MASK32
    return record, store, plain

def run(program, machines, clocks, inp=0):
    """Run both unheld; returns the clocks (from 1) at which words finished and
    the answers (byte, word) of those clocks."""
    record, store, plain = machines
    finished, answers = [], []
    for _ in range(clocks):
        got = clock(program, record, store, 0, inp)
        compare(record, store, plain, (got, plain_clock(program, plain, 0, inp)), "run")
        phase_rule(program, record, store)
        if got[2]:
            finished.append(record.clocks)
            answers.append(got[:2])
    return finished, answers

def starred_arithmetic():
    low = 1 << 31                         # op, B, A, result, then what the paper states
    rows = [(SUB, 0, 1, MASK32, dict(n=1, z=0, c=0, v=0)),
            (ADD, low - 1, 1, low, dict(n=1, z=0, c=0, v=1)),
            (ADD, low, low, 0, dict(n=0, z=1, c=1, v=1)),
            (ROR, 1, 1, low, dict(c=0)),
            (MUL, -1, -1, 1, dict(h=0)), (MUL, low, low, 0, dict(h=0x40000000)),
            (DIV, -7, 2, -4 & MASK32, dict(h=1)), (DIV, low, 1, low, dict(h=0)),
            (DIV, 7, 0, 0, dict(h=7)),
            (DIV, -8, 3, -3 & MASK32, dict(h=1))]           # distinguishes a remainder from its complement
    for op, b, a, result, stated in rows:
        program = [reg(op, 1, 2)]
        machines = both(program, regs=((1, b), (2, a)))
        took = 33 if op in (MUL, DIV) else 1
        check("finished", run(program, machines, took)[0], [took])
        check(f"{op} {b} {a}", machines[0].regs[1], result)
        for name, value in stated.items():
            check(f"{op} {b} {a} {name}", getattr(machines[0], name), value)

def ripple(b, a, carry):
    """The carry out of bit 31 of b + a + carry, bit by bit."""
    for i in range(32):
        carry = ((b >> i & 1) + (a >> i & 1) + carry) >> 1
    return carry

# op, B, A, C by A2, and V, which stays that of the signed result
CARRIES = [(ADD, MASK32, 1, 1, 0), (ADD, MASK32, 0, 0, 0), (ADD, MASK32, MASK32, 1, 0), (ADD, 1, MASK32, 1, 0),
           (ADD, 0x7FFFFFFF, 0x80000000, 0, 0), (ADD, 0x80000001, 0x7FFFFFFF, 1, 0), (ADD, 0x7FFFFFFF, 1, 0, 1),
           (ADD, 0x80000000, 0x80000000, 1, 1), (ADD, 5, 3, 0, 0),
           (SUB, 5, 3, 1, 0), (SUB, 3, 5, 0, 0), (SUB, 0x1234, 0x1234, 1, 0), (SUB, 0, 0, 1, 0), (SUB, 0, 1, 0, 0),
           (SUB, MASK32, MASK32, 1, 0), (SUB, 0x80000000, 1, 1, 1), (SUB, 0, 0x80000000, 0, 1), (SUB, 0x7FFFFFFF, MASK32, 0, 1),
           (SUB, MASK32, 0x7FFFFFFF, 1, 0), (SUB, 0xFFC0, 0xFFBF, 1, 0), (SUB, 0, MASK32, 0, 0)]

def carry():
    """C of ADD and SUB: rows by hand, and on edge words and random ones a sum bit by bit, that of B, not A and 1 for SUB."""
    for op, b, a, c, v in CARRIES:
        for before in (0, 1):
            machines = both([reg(op, 1, 2)], regs=((1, b), (2, a)))
            for m in (machines[0], machines[2]):
                m.c, m.v = before, 1 - v
            run([reg(op, 1, 2)], machines, 1)
            check(f"C and V of {op} {b:X} {a:X}", (machines[0].c, machines[0].v), (c, v))
    rng = random.Random(2)
    edge = [0, 1, 2, 0xFFBF, 0xFFC0, 0x7FFFFFFF, 0x80000000, 0x80000001, MASK32 - 1, MASK32]
    for b, a in [(b, a) for b in edge for a in edge] + [(rng.getrandbits(32), rng.getrandbits(32)) for _ in range(1000)]:
        for op, wanted in ((ADD, ripple(b, a, 0)), (SUB, ripple(b, ~a & MASK32, 1))):
            m = Record(64)
            m.regs[1], m.regs[2] = b, a
            execute(reg(op, 1, 2), m, None, None, 0)
            check(f"C of {op} {b:X} {a:X}", m.c, wanted)

# B, A, and which of two addresses is higher without sign: B is higher, or lower or the same
ADDRESSES = [(0x80000001, 0x7FFFFFFF, 1), (0x7FFFFFFF, 0x80000001, 0), (0x1234, 0x1234, 0), (0x80000001, 0x80000001, 0),
             (0xFFC0, 0xFFBF, 1), (0xFFBF, 0xFFC0, 0), (0, MASK32, 0), (MASK32, 0, 1), (0, 0, 0), (5, 3, 1),
             (MASK32, 0x80000001, 1), (0x80000001, MASK32, 0)]

def addresses_compared():
    """SUB and a branch on higher (8) or lower or same (9): taken in 2 clocks, or passed in 1, on both machines."""
    for b, a, higher in ADDRESSES:
        for number, taken in ((8, higher), (9, 1 - higher)):
            program = [reg(SUB, 1, 2), branch(number, 2)]
            machines = both(program, regs=((1, b), (2, a)))
            check(f"condition {number} after {b:X} - {a:X}", run(program, machines, 2 + taken)[0], [1, 2 + taken])
            check("PC after it", machines[2].pc, 4 if taken else 2)

def starred_addresses():
    program = [ld(3, 1, 1), ld(4, 2, 0), ld(5, 2, 1), st(1, 2, 1)]
    machines = both(program, regs=((1, 0xFFFF), (2, 0xFFBF)),
                    words=((0, 11), (0xFFBF % 2048, 22)))
    finished, answers = run(program, machines, 15, inp=33)
    check("addresses", (finished, machines[0].regs[3:6]), ([6, 12, 14, 15], [11, 22, 33]))
    check("answers", answers, [(0, 0), (0, 0), (1, 33), (2, 0xFFFF)])

def starred_cache():
    program = [status(8), st(0, 7, 0), imm(MOV, 1, 128), ld(2, 1, 0)]
    machines = both(program, regs=((0, 5),), words=((128, 9),))
    check("ST 0, LD 128", run(program, machines, 36)[0], [1, 1 + 12, 14, 14 + 22])
    check("memory", (machines[1][0], machines[0].regs[2]), (5, 9))

def listing_example():
    program = [0x00005, 0x20003, 0x3BBFF]
    check("words", program, [imm(MOV, 0, 5), imm(MUL, 0, 3), branch(14, -1)])
    check("listing", run(program, both(program), 40)[0], [1, 34, 36, 38, 40])

def shared_execute():
    """Cases of `execute` worked out by hand, which the comparison cannot check."""
    def after(word, *names, **fields):
        m = Record(64)
        m.regs = [0x100 + i for i in range(16)]
        m.regs[6] = 0xA0000FFF
        m.__dict__.update(fields)
        execute(word, m, None, None, 0)
        return [m.regs[name] if isinstance(name, int) else getattr(m, name) for name in names]
    check("jump", after(jump(6), "pc", 6, "n", "c"), [0xFFF, 0xA0000FFF, 0, 0])
    check("link, d = s", after(jump_link(6, 6), "pc", 6, pc=0xFFF), [0xFFF, 0])
    for both_bits in (0, 1 << 9):
        word = rti(6) | 3 << 11 | both_bits
        check("RTI", after(word, "pc", 3, "n", "z", "c", "v", "status", z=1, v=1, status=11),
              [0xFFF, 0x103, 1, 0, 1, 0, 11])
    check("RTI, mode 1", after(rti(7), "pc", "status", "n", status=15, n=1), [0x10F, 11, 0])
    check("call", after(call(0xFFE), "pc", 7, 15, pc=5), [4, 6, 0x10F])
    check("call, bank 1", after(call(1), "pc", 7, 15, pc=0xFFF, status=4), [1, 0x107, 0])
    check("branch", after(branch(14, -512), "pc", pc=0), [4096 - 511])
    check("MOV H", after(mov_h(1), 1, "n", "z", "c", "v", h=MASK32, c=1), [MASK32, 1, 0, 1, 0])
    check("ROR 32", after(imm(ROR, 1, 32), 1, "c", "v", v=1), [0x101, 1, 1])
    check("SUB", after(imm(SUB, 0, 0x101), 0, "n", "z", "c", "v", c=1), [MASK32, 1, 0, 0, 0])
    check("DIV by below 0", after(imm(DIV, 6, 0), 6, "h", "z", c=1), [0, 0xA0000FFF, 1])
    for number, flags in enumerate(("z", "", "c", "", "n", "", "v", "", "c", "cz", "nv", "n",
                                    "nv", "nvz", "", None)):
        if flags is not None:
            raised = dict.fromkeys(flags, 1)
            check(f"condition {number}", after(branch(number, 9), "pc", **raised), [10])
            if number < 14:
                check(f"not {number ^ 1}", after(branch(number ^ 1, 9), "pc", **raised), [1])
    check("never", after(branch(15, 9), "pc"), [1])

def schedule_of_tens():
    """In which clock of its instruction each word is stored or refilled."""
    def moves(program, record, store):
        for _ in range(40):
            old, words = list(store), list(record.words)
            spent.append(0)
            done = clock(program, record, store, 0, 0)[2]
            stored.extend((len(spent), i) for i in range(len(store)) if store[i] != old[i])
            filled.extend((len(spent), i) for i in range(128) if words[i] != record.words[i])
            if done:
                return len(spent)
    def dirty_record(lines):
        store = [1000 + i for i in range(256)]
        record = reset(store)
        record.status = CACHE_ON
        for line in lines:
            record.full[line], record.dirty[line], record.block[line] = 1, 1, line
            record.words[line * 8:line * 8 + 8] = range(line * 8 + 1, line * 8 + 9)
        return record, store
    spent, stored, filled = [], [], []
    check("emptying", moves([status(0)], *dirty_record((3, 9))), 21)
    check("stored", stored, [(10 * n + 3 + i, line * 8 + i)
                             for n, line in enumerate((3, 9)) for i in range(8)])
    spent, stored, filled = [], [], []
    check("dirty miss", moves([ld(1, 7, 128)], *dirty_record((0,))), 22)
    check("stored", stored, [(4 + i, i) for i in range(8)])
    check("filled", filled, [(14 + i, i) for i in range(8)])
    spent, stored, filled = [], [], []
    check("clean miss", moves([ld(1, 7, 128)], *dirty_record(())), 12)
    check("filled", (stored, filled), ([], [(4 + i, i) for i in range(8)]))

def stepping_circuits(rng, pairs=400):
    """The closed formulas against add-and-shift and restoring division."""
    for _ in range(pairs):
        a, b = (rng.choice((0, 1, 2, MASK32, 1 << 31, (1 << 31) - 1, rng.getrandbits(32),
                            rng.getrandbits(10))) for _ in "ab")
        p, r, q = a, 0, abs(signed(b))
        multiplier, divider = Record(64), Record(64)
        for m in (multiplier, divider):
            m.regs[1], m.regs[2] = b, a
        for k in range(1, 33):
            high, lowword = p >> 32, p & MASK32
            if lowword & 1:
                high += -signed(b) if k == 32 else signed(b)
            p = (high << 32 | lowword) >> 1
            set_arithmetic_registers(reg(MUL, 1, 2), multiplier, k)
            check(f"multiplier {a} {b} {k}", multiplier.product, p & MASK64)
            r, q = r << 1 | q >> 31, q << 1 & MASK32
            if signed(a) > 0 and r >= a:
                r, q = r - a, q | 1
            set_arithmetic_registers(reg(DIV, 1, 2), divider, k)
            wanted = (r, q) if signed(a) > 0 else (0, 0)
            check(f"divider {a} {b} {k}", (divider.remainder, divider.quotient), wanted)

def random_words(rng, regs_used, size):
    """One word or two, biased towards conflicts on cache lines and changes of status."""
    d, s = rng.randrange(regs_used), rng.choice((7, rng.randrange(regs_used)))
    off = rng.choice((0, 1, 7, 8, 9, 16, 128, 129, 135, 136, 144, 255, rng.randrange(256)))
    kind = rng.random()
    if kind < 0.45:
        return rng.choice((ld, st, st))(d, s, off)
    if kind < 0.57:
        return status(rng.choice((8, 8, 9, 10, 11, 11, 12, 0, 3, 7, rng.randrange(16))))
    if kind < 0.63:                       # a base: memory, or near the devices
        return rng.choice((imm(MOV, d, rng.choice((0, 128, 256, 384, 512, 640))),
                           imm(NOT, d, rng.randrange(40, 72)), imm(NOT, d, 319)))
    if kind < 0.67:
        return rng.choice((imm(MUL, d, rng.randrange(8)), reg(MUL, d, s),
                           imm(DIV, d, rng.randrange(8)), reg(DIV, d, s)))
    if kind < 0.82:
        op = rng.choice((MOV, NOT, ADD, SUB, AND, BIC, OR, XOR, ROR))
        return rng.choice((imm(op, d, rng.randrange(1024)), reg(op, d, s), mov_h(d)))
    if kind < 0.90:
        return branch(rng.randrange(16), rng.randrange(-size // 2, size // 2))
    if kind < 0.93:
        return call(rng.choice((0, 1, 2, -2, -size // 2)))
    if kind < 0.98:
        leap = rng.choice((jump(s), jump_link(d, s), rti(7), rti(7), rti(s), rti(s) | 1 << 9))
        return [imm(BIC, leap & 7, 0x3F0), leap] if rng.random() < 0.9 else leap
    return rng.getrandbits(18)

def random_start(rng):
    length = rng.choice((64, 128, 256, 512, 1024))
    size, regs_used = rng.randrange(6, 40), rng.choice((2, 3, 4, 8))
    program = []
    while len(program) < size:
        words = random_words(rng, regs_used, size)
        program += words if isinstance(words, list) else [words]
    size = len(program)
    if rng.random() < 0.7:
        program[0] = status(rng.choice((8, 8, 11, 11, 9, 10)))
    if rng.random() < 0.5 and size > 6:   # a short handler at 2 and 3
        program[1], program[3] = branch(14, 2), rti(7)
    program.append(branch(14, -size))
    words = [(i, rng.getrandbits(32)) for i in range(length)]
    regs = []
    if rng.random() < 0.7:
        regs = [(i, rng.choice((rng.randrange(size), 0, 128, 256, 0xFFB8, 0xFFC0, 0xFF40,
                                1 << 31, MASK32, rng.getrandbits(32),
                                rng.getrandbits(32) & 0xF000000F))) for i in range(16)]
    return program, both(program, regs, words, length)

def random_line_bytes(rng, clocks):
    stalls, calls = rng.choice((0, 0.1, 0.3)), rng.choice((0, 0.05, 0.3))
    return [4 * (rng.random() < stalls) + 2 * (rng.random() < calls) + (rng.random() < calls)
            for _ in range(clocks)]

def note(seen, before, record, line_byte, got, word):
    """Count what the random programs reached, so that silence means something."""
    phase, count, status_before = before
    what = ["clocks"]
    if not line_byte & 4 and phase == READY and record.phase == READY and not got[2]:
        what.append("interrupts")
    if got[2]:
        what.append("words")
        what.append(f"op {operation(word)}")
        if got[0]:
            what.append("device accesses")
    if record.phase == WRITE_BACK and record.count == 0:
        what.append("second or later tens of an emptying" if operation(word) == CONTROL
                    else "dirty misses")
    if line_byte & 4:
        what.append("held")
        if phase == ARITHMETIC and count == 32:
            what.append("held before clock 33")
    if status_before & CACHE_ON and not record.status & CACHE_ON:
        what.append("emptyings")
    for name in what:
        seen[name] = seen.get(name, 0) + 1

def random_program(seed, clocks, seen):
    rng = random.Random(seed)
    program, (record, store, plain) = random_start(rng)
    for line_byte in random_line_bytes(rng, clocks):
        inp, word = rng.getrandbits(32), word_at(program, record.pc)
        before = record.phase, record.count, record.status
        got = clock(program, record, store, line_byte, inp)
        wanted = plain_clock(program, plain, line_byte, inp)
        compare(record, store, plain, (got, wanted), f"seed {seed} clock {record.clocks}")
        phase_rule(program, record, store)
        note(seen, before, record, line_byte, got, word)
    check("view", [view(record, store, a) for a in range(len(store))], plain.memory)
    for name in ("refills", "writebacks"):
        seen[name] = seen.get(name, 0) + getattr(record, name)

REACHED = ["clocks", "words", "held", "held before clock 33", "interrupts", "device accesses", "dirty misses", "emptyings",
           "second or later tens of an emptying", "refills", "writebacks"] + [f"op {op}" for op in range(16)]

def random_programs(programs=150, clocks=300):
    """Returns how often each event of REACHED occurred; each must occur."""
    seen = {}
    for seed in range(programs):
        random_program(seed, clocks, seen)
    check("not reached", [name for name in REACHED if name not in seen], [])
    return seen

def circuits():
    stepping_circuits(random.Random(1))

# without the random programs
SELFTESTS = [starred_arithmetic, carry, addresses_compared, starred_addresses, starred_cache, listing_example, shared_execute,
             schedule_of_tens, circuits]

def selftest(programs=4000):
    for test in SELFTESTS:
        test()
    seen = random_programs(programs)
    for name in REACHED:
        print(f"{seen[name]:>9} {name}")
    print(f"selftest passed: {programs} random programs, {seen['clocks']} clocks compared")

if __name__ == "__main__":
    if sys.argv[1:2] != ["selftest"]:
        sys.exit("usage: machine.py selftest [programs]")
    selftest(*map(int, sys.argv[2:3]))
