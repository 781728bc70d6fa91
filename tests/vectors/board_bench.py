# The serial board of a script of trm_test_board: the input lines of its cases, the answers, and the state after them.
# Called: imported by tests/vectors/board_scripts.py; it does nothing when run.
# Reads: tests/vectors/bench.py, tests/machine/. board.py there computes what clocks do; a script gives each call's refusal number.
import sys

sys.dont_write_bytecode = True
from bench import WIDE, Script, m, of_list, refused
import board

NAMES = [name for _, name in board.FIELDS]                       # in the order of crates/trm_test_board/src/board_cases.rt
HIGH, INTERRUPT_1, STALL = 1, 2, 4                               # bits of a given byte; HIGH is the line


def rows(of, program, record, store):
    """Rows 3, 4 and 5; a field of the board is judged in row 5."""
    return refused.record_rows(program, record, store) or board.refusal(of)


def rows_from_6(record, given, switches, buffers=()):
    """Rows 6, 7 and 8 of so many given bytes, switches and buffers."""
    if len(given) != switches or len(given) > 65536 or any(byte > 7 for byte in given):
        return 6
    if any(length != len(given) for length in buffers):
        return 7
    return 8 if record.clocks + len(given) > refused.MOST_CLOCKS else 0


class BoardScript(Script):
    """A script with a board: its core's record is the script's record, and its own fields live beside it."""

    def __init__(self):
        super().__init__()
        self.board = self.board_from([0] * 64)

    def board_from(self, store):
        return board.Board(board.PAPER, board.MachineCore([], store))

    def owner(self, name):
        return self.board if hasattr(self.board, name) else self.board.serial

    def set_board(self, **fields):
        for name, value in fields.items():
            setattr(self.owner(name), name, value)
            self.case('f', NAMES.index(name), value // WIDE, value % WIDE)

    def show_board(self, name, given=None):
        found = getattr(self.owner(name), name)
        self.hold(name, found, given)
        self.case('v', NAMES.index(name), answer=f'{found:x}')

    def all_of_board(self):
        return f'{of_list(half for value in board.fields(self.board) for half in (value % WIDE, value // WIDE))} {self.all()}'

    def step(self, given, switches, joined):
        """One clock of the board with what is lent: level, byte, word, finished."""
        take = board.Take(self.board.serial.level() if joined else given & HIGH, switches, given >> 1 & 1, given >> 2)
        said = self.board.clock(take)
        return said.level, said.byte, said.word, said.finished

    def lend_to_board(self):
        program, store = self.lists()
        self.board.core.program, self.board.core.store, self.board.core.record = program, store, self.record
        return program, store

    # -- the calls; number is what the paper gives, 0 for an accepted call

    def board_reset(self, number):
        store = self.lists()[1]
        self.number('board reset', number, refused.reset(store))
        if number == 0:
            self.record, self.board = m.reset(store), self.board_from(store)
        self.case('r', answer=f'{number} {self.all_of_board()}')

    def board_clock(self, number, given=HIGH, switches=0, joined=0, said=None):
        """One clock; said is what the paper gives as level, answer byte, word and finished."""
        program, store = self.lend_to_board()
        by_rows = rows(self.board, program, self.record, store) or rows_from_6(self.record, [given], 1)
        self.number('board clock', number, by_rows)
        found = self.step(given, switches, joined) if number == 0 else (0, 0, 0, 0)
        self.store[:len(store)] = store
        self.hold('level, byte, word, finished', found, said)
        level, byte, word, done = found
        self.case('k', given, switches, joined, answer=f'{number} {level} {byte:02x} {word:08x} {done} {self.all_of_board()}')

    def board_run(self, number, clocks, more=(0, 0, 0, 0), given=HIGH, switches=0, joined=0, at=0, odd=None, level=None):
        """A run of so many clocks, with more switches, levels, answer bytes and answer words than that; at one clock given byte and
        switches are odd, if they are set. It shows level and answer of that clock; level is what the paper gives there."""
        program, store = self.lend_to_board()
        lists = [[given] * 65537, [switches] * 65537]
        if odd is not None:
            lists[0][at], lists[1][at] = odd
        buffers = [[0xA5] * 65537, [0xA5] * 65537, [0xA5A5A5A5] * 65537]
        lengths = [clocks + n for n in more]
        by_rows = rows(self.board, program, self.record, store) or rows_from_6(self.record, lists[0][:clocks], lengths[0], lengths[1:])
        self.number('board run', number, by_rows)
        used = done = 0
        for used in range(1, clocks + 1) if number == 0 else []:
            *answer, last = self.step(lists[0][used - 1], lists[1][used - 1], joined)
            for buffer, value in zip(buffers, answer):
                buffer[used - 1] = value
            done += last
        self.store[:len(store)] = store
        levels, answer_bytes, words = buffers
        self.hold(f'level of clock {at}', levels[at], level)
        digests = ' '.join(of_list(buffer[:length]) for buffer, length in zip(buffers, lengths[1:]))
        packed = sum((n + 1) << 4 * i for i, n in enumerate(more)) | joined << 16
        self.case('z', clocks, packed, *(at << 16 | list_[at] << 8 | value for list_, value in zip(lists, (given, switches))),
                  answer=f'{number} {used} {done} {self.all_of_board()} {digests} {levels[at]} {answer_bytes[at]:02x} {words[at]:08x}')
