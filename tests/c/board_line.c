/*
 * The serial line at the paper's own timing: frames sent, frames received, a busy transmitter.
 * Request A1: "A frame is a low start bit, eight data bits lowest first and a high stop bit, 1,012 clocks each, sampled in the 506th".
 * Called: by edges.c.
 */
#include "board.h"

/* The level of bit 0 to 9 of a frame. */
static uint8_t bit_of(uint32_t byte, uint32_t place)
{
    return (0x200 | (byte & 255) << 1) >> place & 1;
}

static void test_sent(void)
{
    const uint32_t program[] = {word_write(0, TRM_DEVICE_SERIAL), WORD_STAY};
    static const uint32_t words[] = {0xA5, 0x100, 0xFFFFFFFF, 0x12345601};
    for (size_t i = 0; i < 4; i++) {
        scene s;
        scene_begin(&s, program, 2);
        s.board.machine.regs[0] = words[i];
        scene_idle(&s, 1);
        size_t right = s.answer.level == 1; /* the write's own clock is not of the frame */
        for (uint32_t clock = 0; clock < TRM_FRAME_CLOCKS; clock++) {
            scene_idle(&s, 1);
            right += s.answer.level == bit_of(words[i], clock / BIT);
        }
        scene_idle(&s, 1);
        hold(right == TRM_FRAME_CLOCKS + 1 && s.answer.level == 1, A1_FRAME "the frame after a write, word", i);
    }
}

/* A line that is right only in the clocks that sample a data bit: the start and the stop bit are wrong even there. The shift register
 * takes the data samples and no others. */
static void test_sampled(void)
{
    static const uint32_t bytes[] = {0x00, 0xFF, 0x4B, 0x80, 0x01};
    const uint32_t program[] = {WORD_STAY};
    for (size_t i = 0; i < 5; i++) {
        scene s;
        scene_begin(&s, program, 1);
        scene_idle(&s, 17);
        int early = 0, shifted = 1;
        uint32_t bits = 0;
        for (uint32_t clock = 1; clock <= STOP; clock++) {
            uint32_t place = (clock - 1) / BIT;
            int sampled = (clock - 1) % BIT + 1 == 506 && place > 0 && place < 9;
            early = early || s.board.devices.serial.ready;
            scene_clock(&s, 0, clock == 1 ? 0 : sampled ? bit_of(bytes[i], place) : !bit_of(bytes[i], place), 0);
            bits = sampled ? bits / 2 + 128 * bit_of(bytes[i], place) : bits;
            shifted = shifted && s.board.devices.serial.bits == bits;
        }
        trm_serial r = s.board.devices.serial;
        hold(!early, A1_RECEIVED "not before the stop sample, byte", i);
        hold(shifted, A1_FRAME "the shift register, byte", i);
        hold(r.ready == 1 && r.byte == bytes[i] && r.passed == 0, A1_FRAME "sampled in the 506th clock of each bit, byte", i);
    }
}

/* A line held low: the clock after a stop sample is a frame's first. */
static void test_low(void)
{
    const uint32_t program[] = {WORD_STAY};
    size_t right = 0;
    scene s;
    scene_begin(&s, program, 1);
    for (uint32_t clock = 1; clock <= 3 * STOP; clock++) {
        scene_clock(&s, 0, 0, 0);
        right += s.board.devices.serial.passed == clock % STOP && s.board.devices.serial.ready == (clock >= STOP);
    }
    hold(right == 3 * STOP, A1_FIRST "a line held low gives a byte every 9,614 clocks", right);
    scene_idle(&s, 1000);
    hold(s.board.devices.serial.passed == 0, A1_FIRST "a high line begins no frame", 0);
}

/* The read of an LD in the clock of the stop sample, the clock before it, and the clock after it. */
static void test_read_and_stop(void)
{
    const uint32_t program[] = {word_read(0, TRM_DEVICE_SERIAL), WORD_STAY};
    static const uint32_t passed[] = {STOP - 2, STOP - 3, STOP - 1}, words[] = {0x11, 0x11, 0x22}, ready[] = {1, 0, 0};
    for (size_t i = 0; i < 3; i++) {
        trm_serial before = {0, 0, passed[i], 0x22, 0x11, 1};
        scene s;
        scene_begin(&s, program, 2);
        s.board.devices.serial = before;
        scene_idle(&s, 2);
        hold(s.answer.byte == READ_4 && s.answer.word == words[i], A1_BEGAN "a read shows what stood, case", i);
        hold(s.board.devices.serial.ready == ready[i], A1_RECEIVED "received after any read in that clock, case", i);
    }
}

/* The status read, and the word written, so many clocks after an accepted write. */
static void test_busy(void)
{
    static const uint32_t afters[] = {1, 2, 5000, 10119, 10120, 10121, 10122};
    const uint32_t read[] = {word_read(0, TRM_DEVICE_STATUS)}, write[] = {word_write(0, TRM_DEVICE_SERIAL)};
    for (size_t i = 0; i < 7; i++) {
        uint64_t left = afters[i] > TRM_FRAME_CLOCKS ? 0 : TRM_FRAME_CLOCKS + 1 - afters[i]; /* when that clock begins */
        scene s;
        scene_begin(&s, write, 1);
        s.board.machine.regs[0] = 0x133;
        scene_idle(&s, afters[i]);
        hold(s.board.devices.serial.left == left && s.board.devices.serial.sent == 0x33, A1_BUSY "clocks left", afters[i]);
        trm_devices devices = s.board.devices;
        scene_begin(&s, write, 1);
        s.board.devices = devices;
        s.board.machine.regs[0] = 0x55;
        scene_idle(&s, 1);
        hold(s.board.devices.serial.sent == (left ? 0x33 : 0x55), A1_BUSY "a write so many clocks after", afters[i]);
        hold(s.board.devices.serial.left == (left ? left - 1 : TRM_FRAME_CLOCKS), A1_BUSY "left, so many clocks after", afters[i]);
        scene_begin(&s, read, 1);
        s.board.devices = devices;
        s.board.devices.serial.left += left > 0; /* one clock earlier, since an LD reads in its second */
        if (left < TRM_FRAME_CLOCKS) {
            scene_idle(&s, 2);
            hold(s.answer.word == (left ? 0 : TRM_SERIAL_FREE), A1_BUSY "the status so many clocks after", afters[i]);
        }
    }
}

void test_board_line(void)
{
    test_sent();
    test_sampled();
    test_low();
    test_read_and_stop();
    test_busy();
}
