# Wrong versions of the board of board.py: each has one thing otherwise than the paper, and a row of board_tables.py must detect each.
# Called: python3 tests/machine/board_wrong.py prints which rows detect which; tests/machine/run imports it.
# Reads: board.py and board_tables.py. The versions are those of the readings of the paper, and others near them.
import sys

sys.dont_write_bytecode = True
import board as b
import board_tables as tables
import machine as m
from board import DATA, MILLISECONDS, OTHERS, PANEL, READS, STATUS, Board, Serial, read_byte, write_byte


# ------------------------------------------------------------- the serial line

class SampleEarly(Serial):
    """every sample a clock early"""
    def __init__(self, timing):
        super().__init__(timing)
        self.sample -= 1


class SampleLate(Serial):
    """every sample a clock late, as if the first low clock were number 0"""
    def __init__(self, timing):
        super().__init__(timing)
        self.sample += 1


class DataEarly(Serial):
    """the data samples a clock early"""
    def data_samples(self):
        return [clock - 1 for clock in super().data_samples()]


class DataLate(Serial):
    """the data samples a clock late"""
    def data_samples(self):
        return [clock + 1 for clock in super().data_samples() if clock + 1 < self.stop_sample()]


class StopEarly(Serial):
    """the stop sample a clock early"""
    def stop_sample(self):
        return super().stop_sample() - (self.period > 1)


class StopLate(Serial):
    """the stop sample a clock late"""
    def stop_sample(self):
        return super().stop_sample() + 1


class PeriodLong(Serial):
    """a bit of period + 1 clocks"""
    def __init__(self, timing):
        super().__init__(timing)
        self.period += 1


class WholeStop(Serial):
    """the next frame only after the whole stop bit"""
    def receive(self, line):
        if self.passed == 0 and line == 1:
            return
        self.passed += 1
        if self.passed in self.data_samples():
            self.shift(line)
        if self.passed == self.stop_sample():
            self.byte, self.ready = self.bits, 1
        if self.passed == 10 * self.period:
            self.passed = 0


class StartJudged(Serial):
    """a high start sample drops the frame"""
    def receive(self, line):
        super().receive(line)
        if self.passed == self.sample and line == 1:
            self.passed = 0


class StopJudged(Serial):
    """a low stop sample drops the byte"""
    def receive(self, line):
        if self.passed + 1 == self.stop_sample() and line == 0:
            self.passed = 0
        else:
            super().receive(line)


class Edge(Serial):
    """a frame begins with a fall of the line, not with its level"""
    before = 1
    def receive(self, line):
        if self.passed or line == 1 or self.before == 1:
            super().receive(line)
        self.before = line


class StopIsFirst(Serial):
    """a low stop sample is the next frame's first clock"""
    def receive(self, line):
        stop = self.passed + 1 == self.stop_sample()
        super().receive(line)
        if stop and line == 0:
            self.passed = 1


class HighestOut(Serial):
    """highest bit sent first"""
    def bit_sent(self, number):
        return super().bit_sent(7 - number)


class HighestIn(Serial):
    """highest bit received first"""
    def shift(self, line):
        self.bits = self.bits * 2 % 256 + line


class HighestBoth(HighestOut, HighestIn):
    """highest bit first in both directions"""


class ReceivedInOwnClock(Serial):
    """the received bit shown in the stop sample's own clock"""
    def shown(self, line, access):
        level, ready, free, byte = super().shown(line, access)
        return level, int(ready or self.passed + 1 == self.stop_sample()), free, byte


class ByteInOwnClock(Serial):
    """the byte shown in the stop sample's own clock"""
    def shown(self, line, access):
        level, ready, free, byte = super().shown(line, access)
        return level, ready, free, self.bits if self.passed + 1 == self.stop_sample() else byte


class ReadClearsNew(Serial):
    """the read in the stop sample's clock clears the new bit"""
    def clock(self, line, access):
        self.transmit(access)
        self.receive(line)
        if access == READS:
            self.read()


class UnreadKept(Serial):
    """an unread byte is kept, the new one lost"""
    def receive(self, line):
        byte, ready = self.byte, self.ready
        super().receive(line)
        if ready:
            self.byte = byte


class ReadShownInOwnClock(Serial):
    """the received bit cleared in the reading clock itself"""
    def shown(self, line, access):
        level, ready, free, byte = super().shown(line, access)
        return level, 0 if access == READS else ready, free, byte


class ReadClearsByte(Serial):
    """a byte is gone after its read"""
    def read(self):
        self.ready = self.byte = 0


class NoClear(Serial):
    """a read does not clear the received bit"""
    def read(self):
        pass


class WriteClears(Serial):
    """a write clears the received bit"""
    def transmit(self, access):
        super().transmit(access)
        if isinstance(access, int):
            self.ready = 0


class ByteUnderWay(Serial):
    """the byte shown is the shift register"""
    def shown(self, line, access):
        level, ready, free, _ = super().shown(line, access)
        return level, ready, free, self.bits


class LongFrame(Serial):
    """free a clock late"""
    extra = 1
    def transmit(self, access):
        starts = self.left == 0 and isinstance(access, int)
        super().transmit(access)
        if starts:
            self.left += self.extra

    def level(self):
        self.left -= self.extra
        level = super().level() if 0 < self.left else 1
        self.left += self.extra
        return level


class ShortFrame(LongFrame):
    """free a clock early"""
    extra = -1
    def level(self):
        if self.left == 0:
            return 1
        return super().level()


class FreeShownEarly(Serial):
    """free shown in the last busy clock"""
    def free(self):
        return int(self.left <= 1)


class TakenLast(Serial):
    """a write in the last busy clock is taken"""
    def transmit(self, access):
        if self.left == 1 and isinstance(access, int):
            self.left = 0
        super().transmit(access)


class StartsOver(Serial):
    """a write while busy starts over"""
    def transmit(self, access):
        if isinstance(access, int):
            self.left = 0
        super().transmit(access)


class BusyWriteMixed(Serial):
    """a write while busy changes the byte being sent"""
    def transmit(self, access):
        if isinstance(access, int):
            self.sent = access % 256
        super().transmit(access)


class BusyWriteKept(Serial):
    """a write while busy is sent later"""
    kept = OTHERS
    def transmit(self, access):
        if self.left and isinstance(access, int):
            self.kept = access
        if self.left == 0 and self.kept != OTHERS:
            access, self.kept = self.kept, OTHERS
        super().transmit(access)


class OwnClock(Serial):
    """the frame begins in the write's own clock"""
    def shown(self, line, access):
        level, ready, free, byte = super().shown(line, access)
        return 0 if self.left == 0 and isinstance(access, int) else level, ready, free, byte

    def transmit(self, access):
        if self.left == 0 and isinstance(access, int):
            super().transmit(access)
        super().transmit(OTHERS)


class WordAdded(Serial):
    """the word not reduced: its bit 8 is added to the stop bit"""
    def transmit(self, access):
        starts = self.left == 0 and isinstance(access, int)
        super().transmit(access)
        if starts:
            self.sent = access

    def level(self):
        last = 0 < self.left <= self.period
        return super().level() ^ self.bit_sent(8) if last else super().level()


class WordClipped(Serial):
    """words above 255 sent as 255"""
    def transmit(self, access):
        super().transmit(min(access, 255) if isinstance(access, int) else access)


class WordDropped(Serial):
    """words above 255 not sent"""
    def transmit(self, access):
        super().transmit(OTHERS if isinstance(access, int) and access > 255 else access)


class IdleLow(Serial):
    """low when free"""
    def level(self):
        return super().level() if self.left else 0


SERIAL = [SampleEarly, SampleLate, DataEarly, DataLate, StopEarly, StopLate, PeriodLong, WholeStop, StartJudged, StopJudged, Edge,
          StopIsFirst, HighestOut, HighestIn, HighestBoth, ReceivedInOwnClock, ByteInOwnClock, ReadClearsNew, UnreadKept,
          ReadShownInOwnClock, ReadClearsByte, NoClear, WriteClears, ByteUnderWay, LongFrame, ShortFrame, FreeShownEarly, TakenLast,
          StartsOver, BusyWriteMixed, BusyWriteKept, OwnClock, WordAdded, WordClipped, WordDropped, IdleLow]


def in_both_clocks(given):
    """Device 4 read in both clocks of an LD: in the clock before a read too, if there is no other access in it."""
    after = [access for _, access in given[1:]] + [OTHERS]
    return [(line, READS if access == OTHERS and coming == READS else access) for (line, access), coming in zip(given, after)]


# -------------------------------------------------------------------- the board

class MillisecondsAfter(Board):
    """milliseconds of the count after the clock"""
    def reply(self, device, take):
        return (self.count() + 1) // self.timing.tick if device == MILLISECONDS else super().reply(device, take)


class MillisecondsRounded(Board):
    """milliseconds to the nearest"""
    def reply(self, device, take):
        half = self.timing.tick // 2
        return (self.count() + half) // self.timing.tick if device == MILLISECONDS else super().reply(device, take)


class TickInOwnClock(Board):
    """the tick seen in its own clock"""
    def line_byte(self, take):
        return super().line_byte(take) | ((self.count() + 1) % self.timing.tick == 0)


class TickLate(Board):
    """the tick a clock late"""
    def step_tick(self, take, byte):
        if byte == write_byte(MILLISECONDS):
            self.tick = 0
        if self.count() > 1 and (self.count() - 1) % self.timing.tick == 0:
            self.tick = 1


class TickAtReset(Board):
    """the tick stands after reset, as the count 0 is a multiple"""
    def __init__(self, *given):
        super().__init__(*given)
        self.tick = 1


class TickForAClock(Board):
    """the tick stands for one clock only"""
    def step_tick(self, take, byte):
        self.tick = 0
        super().step_tick(take, byte)


class ClearWins(Board):
    """a clearing write beats the rise"""
    def step_tick(self, take, byte):
        super().step_tick(take, byte)
        if byte == write_byte(MILLISECONDS):
            self.tick = 0


class ClearWinsOverHigh(Board):
    """a clearing write beats a multiple if the tick stands already"""
    def step_tick(self, take, byte):
        before = self.tick
        super().step_tick(take, byte)
        if before and byte == write_byte(MILLISECONDS):
            self.tick = 0


class HighStaysAway(Board):
    """a clearing write beats a multiple if the tick is clear"""
    def step_tick(self, take, byte):
        before = self.tick
        super().step_tick(take, byte)
        if not before and byte == write_byte(MILLISECONDS):
            self.tick = 0


class NoClearing(Board):
    """a write to device 6 does not clear"""
    def step_tick(self, take, byte):
        super().step_tick(take, 0)


class ReadingClears(Board):
    """reading device 6 clears the tick"""
    def step_tick(self, take, byte):
        super().step_tick(take, write_byte(MILLISECONDS) if byte == read_byte(MILLISECONDS) else byte)


class NoTickHeld(Board):
    """no rise in a held clock"""
    def step_tick(self, take, byte):
        if not take.stall:
            super().step_tick(take, byte)


class OwnCount(Board):
    """a count of its own"""
    own = 0
    def count(self):
        return self.own

    def counts(self, take, byte):
        return True

    def step_tick(self, take, byte):
        self.own += bool(self.counts(take, byte))
        super().step_tick(take, byte)


class CountsUnheld(OwnCount):
    """milliseconds and tick count unheld clocks only"""
    def counts(self, take, byte):
        return not take.stall


class LampSkips(OwnCount):
    """a write to the lamps skips a count"""
    def counts(self, take, byte):
        return byte != write_byte(PANEL)


class ClearRestarts(OwnCount):
    """a clearing write restarts the count"""
    def step_tick(self, take, byte):
        super().step_tick(take, byte)
        if byte == write_byte(MILLISECONDS):
            self.own = 0


class TickLong(Board):
    """a tick each tick + 1 clocks"""
    def __init__(self, timing, *given):
        super().__init__(timing._replace(tick=timing.tick + 1), *given)


class NoReceiverHeld(Board):
    """no receiver in held clocks"""
    def step_serial(self, take, byte, word):
        if take.stall:
            self.serial.transmit(OTHERS)
        else:
            super().step_serial(take, byte, word)


class NoTransmitterHeld(Board):
    """no transmitter in held clocks"""
    def step_serial(self, take, byte, word):
        if take.stall:
            self.serial.receive(take.line)
        else:
            super().step_serial(take, byte, word)


class EightLamps(Board):
    """eight lamps"""
    def step_lamps(self, byte, word):
        super().step_lamps(byte, word % 256)


class LampsWhole(Board):
    """the lamps' word not reduced"""
    def step_lamps(self, byte, word):
        self.lamps = word if byte == write_byte(PANEL) else self.lamps


class LampsClipped(Board):
    """a lamps' word above 1023 as 1023"""
    def step_lamps(self, byte, word):
        super().step_lamps(byte, min(word, 1023))


class SwitchesShowLamps(Board):
    """device 7 reads the lamps"""
    def reply(self, device, take):
        return self.lamps if device == PANEL else super().reply(device, take)


class SwitchesBefore(Board):
    """the switches of the clock before"""
    before = 0
    def reply(self, device, take):
        switches, self.before = self.before, take.switches
        return super().reply(device, take._replace(switches=switches))


class StatusSwapped(Board):
    """status bits swapped"""
    def reply(self, device, take):
        word = super().reply(device, take)
        return word % 2 * 2 + word // 2 if device == STATUS else word


class StatusReadClears(Board):
    """reading device 5 clears the received bit"""
    def access(self, byte, word):
        return READS if byte == read_byte(STATUS) else super().access(byte, word)


class StatusWriteSends(Board):
    """a write to device 5 sends"""
    def access(self, byte, word):
        return word if byte == write_byte(STATUS) else super().access(byte, word)


class StatusWriteClears(Board):
    """a write to device 5 clears the received bit"""
    def access(self, byte, word):
        return READS if byte == write_byte(STATUS) else super().access(byte, word)


class LowReadSwitches(Board):
    """devices 0 to 3 read the switches"""
    def reply(self, device, take):
        return take.switches if device in range(4) else super().reply(device, take)


class HighReadSwitches(Board):
    """devices 8 to 63 read the switches"""
    def reply(self, device, take):
        return take.switches if device in range(8, 64) else super().reply(device, take)


class Reads8As7(Board):
    """device 8 reads the switches"""
    def reply(self, device, take):
        return take.switches if device == 8 else super().reply(device, take)


class OthersKeep(Board):
    """devices not named read the word last read"""
    last = 0
    def reply(self, device, take):
        if device in range(4, 8):
            self.last = super().reply(device, take)
        return 0 if device is None else self.last


def taken_mod(device, modulus):
    """A device of 4 to 7 in place of this one, if only its lowest bits are looked at."""
    return 4 + device % 4 if modulus == 4 or device % 8 > 3 else device


class ReadsMod8(Board):
    """reads look at the device number's three lowest bits"""
    modulus = 8
    def reply(self, device, take):
        return super().reply(None if device is None else taken_mod(device, self.modulus), take)


class ReadsMod4(ReadsMod8):
    """reads look at the device number's two lowest bits"""
    modulus = 4


class ReadsClearMod8(Board):
    """a read of a device like 4 in its three lowest bits clears the received bit"""
    def access(self, byte, word):
        return READS if byte % 4 == 1 and byte // 4 % 8 == 4 else super().access(byte, word)


class OtherReadsClear(Board):
    """a read of a device not named clears the received bit"""
    def access(self, byte, word):
        return READS if byte % 4 == 1 and byte // 4 not in range(4, 8) else super().access(byte, word)


class WritesMod8(Board):
    """writes look at the device number's three lowest bits"""
    modulus = 8
    def meant(self, byte):
        return write_byte(taken_mod(byte // 4, self.modulus)) if byte % 4 == 2 else byte

    def step_tick(self, take, byte):
        super().step_tick(take, self.meant(byte))

    def step_lamps(self, byte, word):
        super().step_lamps(self.meant(byte), word)

    def access(self, byte, word):
        return super().access(self.meant(byte), word)


class WritesMod4(WritesMod8):
    """writes look at the device number's two lowest bits"""
    modulus = 4


class Writes8As4(WritesMod8):
    """a write to device 8 sends"""
    device = DATA
    def meant(self, byte):
        return write_byte(self.device) if byte == 34 else byte


class Writes8As6(Writes8As4):
    """a write to device 8 clears the tick"""
    device = MILLISECONDS


class Writes8As7(Writes8As4):
    """a write to device 8 sets the lamps"""
    device = PANEL


class HeldByteBare(Board):
    """the line byte of a held clock has the stall only"""
    def line_byte(self, take):
        return 4 if take.stall else super().line_byte(take)


class LinesSwapped(Board):
    """the tick is interrupt 1"""
    def line_byte(self, take):
        return 2 * self.tick + take.interrupt1 + 4 * take.stall


class NoInterrupt1(Board):
    """interrupt 1 is not passed on"""
    def line_byte(self, take):
        return super().line_byte(take._replace(interrupt1=0))


BOARD = [MillisecondsAfter, MillisecondsRounded, TickInOwnClock, TickLate, TickAtReset, TickForAClock, ClearWins, ClearWinsOverHigh,
         HighStaysAway, NoClearing, ReadingClears, NoTickHeld, CountsUnheld, LampSkips, ClearRestarts, TickLong, NoReceiverHeld,
         NoTransmitterHeld, EightLamps, LampsWhole, LampsClipped, SwitchesShowLamps, SwitchesBefore, StatusSwapped, StatusReadClears,
         StatusWriteSends, StatusWriteClears, LowReadSwitches, HighReadSwitches, Reads8As7, OthersKeep, ReadsMod8, ReadsMod4,
         ReadsClearMod8, OtherReadsClear, WritesMod8, WritesMod4, Writes8As4, Writes8As6, Writes8As7, HeldByteBare, LinesSwapped,
         NoInterrupt1]


# ------------------------------------------------------- wrong over the machine

class EagerCore(b.MachineCore):
    """device 4 read in both clocks of an LD"""
    def next_read(self, stall):
        due = self.record.phase in (m.READY, m.LAST) and not stall
        return self.device_loaded() if due else None


class HeldCore(b.MachineCore):
    """device 4 read in held clocks before the read"""
    def next_read(self, stall):
        return super().next_read(0)


class ByQuestion(Board):
    """A board that takes a read from the question, not from the answer byte."""
    asked = None
    def reply(self, device, take):
        self.asked = device
        return super().reply(device, take)

    def access(self, byte, word):
        return READS if self.asked == DATA else super().access(byte, word)


MACHINE = [EagerCore, HeldCore]


# -------------------------------------------------------------- which row detects

def serial_numbers(serial, given):
    """What a serial line shows in these clocks and after them, as `expected` of a row has it."""
    out = []
    for line, access in given:
        out.append(tables.packed(serial.shown(line, access)))
        serial.clock(line, access)
    return out + [tables.packed(serial.shown(1, OTHERS))]


def board_numbers(board, takes):
    out = []
    for take in takes:
        said = board.clock(take)
        out += [said.line_byte, said.word, board.tick, board.lamps]
    return out


def detecting(rows, numbers):
    """The numbers, from 1, of the rows whose expected numbers differ from those given."""
    return [at for at, row in enumerate(rows, 1) if numbers(row) != row.expected]


def serial_detects(rows, version):
    return detecting(rows, lambda row: serial_numbers(version(row), row.given))


def both_clocks_detects(rows):
    return detecting(rows, lambda row: serial_numbers(Serial(row), in_both_clocks(row.given)))


def board_detects(rows, version=Board, serial=Serial):
    return detecting(rows, lambda row: board_numbers(version(row.timing, b.ScriptCore(row.script), serial), row.takes))


def machine_detects(core):
    """Whether random programs over the machine detect a core that answers the question wrongly."""
    try:
        b.machine_runs(40, 200, ByQuestion, core)
        return False
    except AssertionError:
        return True


def reports():
    """(what is wrong, the rows that detect it) for each version; none detects the right ones."""
    serial, board = tables.serial_rows(), tables.board_rows()
    m.check('the right serial line', serial_detects(serial, Serial), [])
    m.check('the right board', board_detects(board), [])
    m.check('the right core', machine_detects(b.MachineCore), False)
    for version in SERIAL:
        yield f'serial rows: {version.__doc__}', serial_detects(serial, version)
    yield 'serial rows: device 4 read in both clocks of an LD', both_clocks_detects(serial)
    for version in BOARD:
        yield f'board rows: {version.__doc__}', board_detects(board, version)
    for core in MACHINE:
        yield f'random programs: {core.__doc__}', ['detected'] if machine_detects(core) else []


def main():
    for what, found in reports():
        print(f'{what}: {" ".join(map(str, found)) or "NOT DETECTED"}')
    board = tables.board_rows()
    for version in SERIAL:
        print(f'(board rows: {version.__doc__}: {" ".join(map(str, board_detects(board, serial=version))) or "not detected"})')


if __name__ == '__main__':
    main()
