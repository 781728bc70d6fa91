/*
 * The tick, milliseconds, the status, switches and lamps, and devices not named, clock by clock.
 * Request A1: "The tick and reads of 4 to 6 show what stood when the clock began"; "Devices run in held clocks too".
 * Called: by edges.c. Clock n takes the clock count from n - 1 to n.
 */
#include <string.h>

#include "board.h"

/* ---- Tick and milliseconds */

/* From reset, each instruction one clock: the tick stands after clock 116,600, and clock 116,601 takes the interrupt. */
static void test_first_tick(void)
{
    const uint32_t program[] = {word_status(1)};
    scene s;
    scene_begin(&s, program, 1);
    scene_idle(&s, TICK - 1);
    hold(s.board.devices.tick == 0, A1_TICK "no tick after clock 116,599", 0);
    scene_idle(&s, 1);
    hold(s.board.devices.tick == 1 && s.answer.finished == 1, A1_TICK "it rises in clock 116,600, which does not see it", 0);
    scene_idle(&s, 1);
    hold(s.answer.finished == 0 && s.board.machine.pc == 2 && s.board.machine.status == 5, A1_TICK "clock 116,601 takes interrupt 0", 0);
    hold(s.board.devices.tick == 1, A1_TICK "the tick stays until it is cleared", 0);
}

/* A write to device 6 in the clock that brings the count to this: the tick after it. */
static uint64_t cleared(uint64_t count, uint64_t tick)
{
    const uint32_t program[] = {word_write(0, TRM_DEVICE_MILLISECONDS)};
    scene s;
    scene_begin(&s, program, 1);
    s.board.machine.clocks = count - 1;
    s.board.devices.tick = tick;
    scene_idle(&s, 1);
    return s.board.devices.tick;
}

static void test_clearing(void)
{
    for (uint64_t tick = 0; tick <= 1; tick++) {
        hold(!cleared(1, tick) && !cleared(TICK - 1, tick) && !cleared(TICK + 1, tick), A1_TICK "a write clears the tick, from", tick);
        hold(cleared(TICK, tick) && cleared(2 * TICK, tick) && cleared(36835ull * TICK, tick), A1_TICK "a rise wins, from", tick);
    }
}

/* What an LD from a device reads if it begins now. */
static uint32_t read_now(scene *s)
{
    scene_idle(s, 2);
    return s->answer.word;
}

/* Milliseconds read in clock n, by an LD whose second clock it is. */
static uint32_t milliseconds(uint64_t n)
{
    const uint32_t program[] = {word_read(0, TRM_DEVICE_MILLISECONDS)};
    scene s;
    scene_begin(&s, program, 1);
    s.board.machine.clocks = n - 2;
    return read_now(&s);
}

static void test_milliseconds(void)
{
    hold(milliseconds(2) == 0 && milliseconds(TICK) == 0, A1_BEGAN "clock 116,600 still reads 0 milliseconds", milliseconds(TICK));
    hold(milliseconds(TICK + 1) == 1 && milliseconds(2 * TICK) == 1, A1_BEGAN "clock 116,601 reads 1", milliseconds(TICK + 1));
    hold(milliseconds(2 * TICK + 1) == 2 && milliseconds(0xFFFFFFFF) == 36835, A1_BEGAN "the last clock reads", milliseconds(0xFFFFFFFF));
}

/* ---- Status, switches, lamps */

static void test_status(void)
{
    const uint32_t program[] = {word_read(0, TRM_DEVICE_STATUS)};
    static const uint64_t lefts[] = {0, 1, 2, 10120}; /* one less in the clock that reads */
    for (size_t i = 0; i < 4; i++)
        for (uint64_t ready = 0; ready <= 1; ready++) {
            scene s;
            scene_begin(&s, program, 1);
            s.board.devices.serial.left = lefts[i];
            s.board.devices.serial.ready = ready;
            uint32_t expected = (i < 2 ? TRM_SERIAL_FREE : 0) | (ready ? TRM_SERIAL_RECEIVED : 0);
            hold(read_now(&s) == expected, A1_DEVICES "the status, left", lefts[i]);
            hold(s.board.devices.serial.ready == ready, A1_READ "reading the status leaves the received bit, left", lefts[i]);
        }
}

static void test_data(void)
{
    const uint32_t program[] = {word_read(0, TRM_DEVICE_SERIAL), word_read(0, TRM_DEVICE_SERIAL)};
    scene s;
    scene_begin(&s, program, 2);
    s.board.devices.serial.byte = 0x5A;
    s.board.devices.serial.ready = 1;
    scene_idle(&s, 1);
    hold(s.board.devices.serial.ready == 1, A1_READ "the first clock of an LD reads nothing", 0);
    scene_idle(&s, 1);
    hold(s.answer.word == 0x5A && s.board.devices.serial.ready == 0, A1_READ "reading device 4 clears the received bit", 0);
    hold(read_now(&s) == 0x5A && s.board.devices.serial.ready == 0, A1_DEVICES "the byte can be read again", 0);
}

static void test_panel(void)
{
    const uint32_t program[] = {word_read(0, TRM_DEVICE_PANEL), word_write(0, TRM_DEVICE_PANEL)};
    static const uint32_t words[] = {0x3FF, 0x400, 0xFFFFFFFF, 0xABCDEF12};
    size_t right = 0;
    scene s;
    for (unsigned switches = 0; switches < 256; switches++) {
        scene_begin(&s, program, 2);
        s.board.devices.lamps = 1023;
        scene_clock(&s, 0, TRM_BOARD_LINE, (uint8_t)~switches);
        scene_clock(&s, 0, TRM_BOARD_LINE, (uint8_t)switches); /* this one reads */
        int read = s.answer.word == switches && s.board.devices.lamps == 1023;
        scene_clock(&s, 0, TRM_BOARD_LINE, (uint8_t)~switches);
        right += read && s.board.devices.lamps == switches;
    }
    hold(right == 256, A1_DEVICES "switches in their own clock, and lamps", right);
    for (size_t i = 0; i < 4; i++) {
        scene_begin(&s, program + 1, 1);
        s.board.machine.regs[0] = words[i];
        scene_idle(&s, 1);
        hold(s.board.devices.lamps == words[i] % 1024, A1_DEVICES "ten lamps, word", i);
    }
}

/* ---- Devices not named, held clocks, interrupt 1 */

/* Every board field other than zero. */
static void fill(scene *s)
{
    s->board.machine.clocks = 3 * TICK;
    s->board.machine.regs[0] = 0x3F2;
    trm_serial serial = {700, 0xA5, 300, 0x3C, 0x5A, 1};
    s->board.devices.serial = serial;
    s->board.devices.tick = 1;
    s->board.devices.lamps = 0x155;
}

/* An access to a device beside a clock or two without one: the fields must be the same, and a read gives 0. */
static void test_others(void)
{
    size_t reads = 0, writes = 0;
    for (uint32_t device = 0; device < 64; device++)
        for (size_t write = 0; write < 2; write++) {
            const uint32_t nothing[] = {WORD_NOP}, program[] = {write ? word_write(0, device) : word_read(0, device)};
            scene s, quiet;
            scene_begin(&quiet, nothing, 1);
            fill(&quiet);
            scene_idle(&quiet, 2 - write);
            scene_begin(&s, program, 1);
            fill(&s);
            for (size_t i = write; i < 2; i++)
                scene_clock(&s, 0, TRM_BOARD_LINE, 255);
            int same = memcmp(&s.board.devices, &quiet.board.devices, sizeof quiet.board.devices) == 0;
            int answered = s.answer.byte == 4 * device + (write ? TRM_ANSWER_WRITE : TRM_ANSWER_READ);
            reads += !write && same && answered && s.answer.word == 0;
            writes += write && same && answered && s.answer.word == 0x3F2;
        }
    hold(reads == 60, A1_READ "devices that read zero and change nothing", reads);
    hold(writes == 62, A1_DEVICES "devices that a write leaves: all but 6 and 7, and 4 while it is busy", writes);
}

/* The same line with all clocks held: the devices are the same, the machine stands. */
static void test_held(void)
{
    const uint32_t program[] = {WORD_STAY};
    scene free, held;
    scene_begin(&free, program, 1);
    free.board.devices.serial.left = 5000;
    held = free;
    int same = 1;
    for (size_t clock = 0; clock < TICK + 100; clock++) {
        uint8_t line = clock / 700 % 3 > 0;
        scene_clock(&free, 0, line, 0);
        scene_clock(&held, 0, line | TRM_BOARD_STALL, 0);
        same = same && free.answer.level == held.answer.level &&
               memcmp(&free.board.devices, &held.board.devices, sizeof free.board.devices) == 0;
    }
    hold(same && held.board.devices.tick && held.board.devices.serial.byte, A1_HELD "a tick, a frame sent and frames received", 0);
    hold(held.board.machine.held == TICK + 100 && held.board.machine.phase == 0, A1_HELD "the machine stands", 0);
}

/* The tick goes to 2, interrupt 1 to 3; of both the tick is taken. */
static void test_interrupts(void)
{
    const uint32_t program[] = {word_status(3)};
    for (uint64_t tick = 0; tick <= 1; tick++) {
        scene s;
        scene_begin(&s, program, 1);
        s.board.devices.tick = tick;
        scene_idle(&s, 1);
        scene_clock(&s, 0, TRM_BOARD_LINE | TRM_BOARD_INTERRUPT_1, 0);
        hold(s.board.machine.pc == 3 - tick && s.board.machine.status == 7, A1_CLOCK "interrupt 1 is given, with tick", tick);
    }
}

void test_board_devices(void)
{
    test_first_tick();
    test_clearing();
    test_milliseconds();
    test_status();
    test_data();
    test_panel();
    test_others();
    test_held();
    test_interrupts();
}
