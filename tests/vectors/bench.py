# The machine of a script of trm_test_vectors or trm_test_board: the input lines, the answers, and the state after them.
# Called: imported by tests/vectors/scripts.py and board_bench.py; it does nothing when run.
# Reads: tests/machine/. machine.py there computes what clocks do; a script gives each call's refusal number, 0 for none.
import sys
from pathlib import Path

sys.dont_write_bytecode = True
sys.path.insert(0, str(Path(__file__).resolve().parents[1] / 'machine'))
import machine as m
import refused

FIELDS = ['pc', 'h', 'n', 'z', 'c', 'v', 'status', 'phase', 'count', 'product', 'remainder', 'quotient', 'store_len', 'clocks',
          'held', 'refills', 'writebacks']
ARRAYS = {'regs': (17, 16), 'full': (33, 16), 'dirty': (49, 16), 'block': (65, 16), 'words': (81, 128)}
WIDE = 1 << 32


def case_text(kind, *words):
    return ' '.join([kind] + [f'{w:08X}' for w in (list(words) + [0] * 4)[:4]])


# ---- digests, as in crates/trm_test_cases/src/inner/digest.rt

def mixed(digest, half):
    return (digest * 31 + half) % 4294967291


def of_list(values):
    digest = 0
    for value in values:
        digest = mixed(digest, value)
    return f'{digest:08x}'


def of_record(record):
    values = [getattr(record, name) for name in FIELDS] + [x for name in ARRAYS for x in getattr(record, name)]
    return of_list(half for value in values for half in (value % WIDE, value // WIDE))


# ---- the machine of a script, as in crates/trm_test_cases/src/inner/script.rt and crates/trm_test_vectors/src/machine_cases.rt

class Script:
    """Input lines and answers so far, and the state after them: a record, a program and a store, of which a part is lent."""

    def __init__(self):
        self.rows, self.figures, self.ids = [], [], ''    # rows are (line, ids of its sentences, answer)
        self.record, self.words, self.store, self.lent = m.Record(64), [0] * 4097, [0] * 65536, (0, 0)
        self.edges = {}                       # how many calls have each number

    def case(self, kind, *words, answer=''):
        self.rows.append((case_text(kind, *words), self.ids, answer))

    def head(self, ids, text):
        """A heading; the lines from here on test the sentences of these ids."""
        assert len(text) <= 35, text
        self.ids = ids
        self.rows.append((f'# {text:<35}', ids, ''))

    def hold(self, what, found, given):
        """Compares a figure of the paper, if there is one, with the computed one."""
        if given is not None:
            self.figures.append((f'{self.ids}: {what}: {found}, given {given}', found == given))

    def number(self, what, number, by_rows):
        """Compares a refusal number, written here from the table, with tests/machine/refused.py."""
        self.edges[number] = self.edges.get(number, 0) + 1
        self.hold(f'line {len(self.rows) + 1}, {what}', by_rows, number)

    def calls(self):
        return sum(self.edges.values())

    def refused(self):
        return self.calls() - self.edges[0]

    # -- what is lent, and the record

    def lend(self, program, store):
        self.lent = program, store
        self.case('L', program, store)

    def fill(self, which, at, count, word):
        (self.store if which else self.words)[at:at + count] = [word] * count
        self.case('J', which, at, count, word)

    def program(self, *words, length):
        """Sets the program; lends it and the first words of the store."""
        for at, word in enumerate(words):
            self.fill(0, at, 1, word)
        self.lend(len(words), length)

    def set(self, **fields):
        """Sets fields of the record; those of an array as {index: value}."""
        for name, value in fields.items():
            if name in ARRAYS:
                for at, element in value.items():
                    getattr(self.record, name)[at] = element
                    self.case('F', ARRAYS[name][0] + at, 0, element)
            else:
                setattr(self.record, name, value)
                self.case('F', FIELDS.index(name), value // WIDE, value % WIDE)

    def show(self, name, at=0, given=None):
        found = getattr(self.record, name)[at] if name in ARRAYS else getattr(self.record, name)
        self.hold(f'{name} {at}', found, given)
        self.case('V', ARRAYS[name][0] + at if name in ARRAYS else FIELDS.index(name), answer=f'{found:x}')

    def show_word(self, at, given=None):
        self.hold(f'store {at}', self.store[at], given)
        self.case('H', at, answer=f'{self.store[at]:08x}')

    def lists(self):
        return self.words[:self.lent[0]], self.store[:self.lent[1]]

    def all(self):
        return f'{of_record(self.record)} {of_list(self.store[:self.lent[1]])}'

    # -- the calls; number is what the paper gives, 0 for an accepted call

    def reset(self, number):
        store = self.lists()[1]
        self.number('reset', number, refused.reset(store))
        if number == 0:
            self.record = m.reset(store)
        self.case('R', answer=f'{number} {self.all()}')

    def clock(self, number, line_byte=0, inp=0, finished=None):
        program, store = self.lists()
        self.number('clock', number, refused.clock(program, self.record, store, line_byte))
        byte, word, done = m.clock(program, self.record, store, line_byte, inp) if number == 0 else (0, 0, 0)
        self.store[:len(store)] = store
        self.hold('finished', done, finished)
        self.case('K', line_byte, inp, answer=f'{number} {byte:02x} {word:08x} {done} {self.all()}')

    def run(self, number, clocks, more=(0, 0, 0), device=0, line_byte=0, odd=None, at=0, inp=0, finished=None):
        """A run of so many clocks, with more input words, answer bytes and answer words than that; at one clock the line byte is
        odd. It shows the answer of that clock, and the watch for a device, which is written in at most one clock."""
        odd, (program, store) = line_byte if odd is None else odd, self.lists()
        inputs, count_bytes, count_words = (clocks + n for n in more)
        line_bytes = [line_byte] * clocks
        if at < clocks:
            line_bytes[at] = odd
        answer_bytes, answer_words = [0xA5] * 65537, [0xA5A5A5A5] * 65537
        lent_bytes, lent_words = answer_bytes[:count_bytes], answer_words[:count_words]
        self.number('run', number, refused.run(program, self.record, store, line_bytes, [inp] * inputs, lent_bytes, lent_words))
        used = done = 0
        for used, byte in enumerate(line_bytes if number == 0 else [], 1):
            answer_bytes[used - 1], answer_words[used - 1], last = m.clock(program, self.record, store, byte, inp)
            done += last
        self.store[:len(store)] = store
        self.hold('instructions finished', done, finished)
        lent_bytes, lent_words = answer_bytes[:count_bytes], answer_words[:count_words]
        packed = sum((n + 1) << 4 * i for i, n in enumerate(more)) | device << 12
        shown = f'{number} {used} {done} {self.all()} {of_list(lent_bytes)} {of_list(lent_words)} {sighting(lent_bytes, device)}'
        self.case('Z', clocks, packed, at << 16 | odd << 8 | line_byte, inp,
                  answer=f'{shown} {answer_bytes[at]:02x} {answer_words[at]:08x}')

    def look(self, number, address, given=None):
        program, store = self.lists()
        self.number('look', number, refused.look(program, self.record, store, address))
        found = m.view(self.record, store, address) if number == 0 else 0
        self.hold(f'look {address}', found, given)
        self.case('O', address, answer=f'{number} {found:08x}')

    def copy(self, number, length, at=0):
        program, store = self.lists()
        buffer = [0xA5A5A5A5] * 65537
        self.number('copy', number, refused.copy(program, self.record, store, buffer[:length]))
        if number == 0:
            buffer[:length] = m.copy(self.record, store)
        self.case('Y', length, at, answer=f'{number} {of_list(buffer[:length])} {buffer[at]:08x}')

    def watch(self, number, length, device, byte=0, odd=None, at=0):
        self.number('watch', number, refused.watch(device))
        answers = [byte] * 65537
        answers[at] = byte if odd is None else odd
        self.case('U', length, device, at << 16 | answers[at] << 8 | byte, answer=sighting(answers[:length], device))


def begin(s):
    """A store whose words at 0-15, 64-71 and 120-159 differ from each other."""
    s.head('S1.2', 'the store')
    s.fill(1, 0, 65536, 0x0BADCAFE)
    for at in (*range(0, 16), *range(64, 72), *range(120, 160)):
        s.fill(1, at, 1, 0x1000 + at)


def sighting(answers, device):
    """The watch's number and clock; no case has a device that is written in several clocks, because the choice among them is free."""
    if device > 63:
        return '9 none'
    found = [at for at, byte in enumerate(answers) if byte & 2 and byte >> 2 == device]
    assert len(found) < 2
    return f'0 {found[0]}' if found else '0 none'
