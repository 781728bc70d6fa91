/*
 * The clock and the run of the board side by side, with the line given and joined to itself; joined against the same levels given.
 * Request A1: "Each of its clocks takes the serial line, the switches, interrupt 1 and stall"; "a line joined to itself".
 * Called: by edges.c. That each clock is right is checked by the other board files, by proof and by tests/rust.
 */
#include <stdio.h>
#include <string.h>

#include "board.h"

enum { WORDS = 20, BIG = 256, CLOCKS = 4000, ROUNDS = 12 };

typedef struct met {
    unsigned accepted, received, handed, rises, clears, lamps, held;
} met;

/* Every device read and written in turn, the cache on, a handler for each interrupt. */
static void write_program(uint32_t *p)
{
    const uint32_t words[WORDS] = {
        word_status(11),
        word_branch(TRM_ALWAYS, 1, 6),
        word_branch(TRM_ALWAYS, 2, 4), /* interrupt 0 */
        WORD_RTI,                      /* interrupt 1 */
        word_write(0, TRM_DEVICE_MILLISECONDS),
        WORD_RTI,
        word_literal(TRM_ADD, 2, 77), /* 6: the loop */
        word_write(2, TRM_DEVICE_SERIAL),
        word_read(3, TRM_DEVICE_STATUS),
        word_read(4, TRM_DEVICE_SERIAL),
        word_read(5, TRM_DEVICE_PANEL),
        word_write(2, TRM_DEVICE_PANEL),
        word_read(6, TRM_DEVICE_MILLISECONDS),
        word_store(4, 7, 9),
        word_store(2, 7, 9 + 128),
        word_read(0, 40),
        word_write(0, TRM_DEVICE_STATUS),
        word_literal(TRM_MUL, 5, 3),
        word_branch(TRM_ALWAYS, 18, 6),
        WORD_NOP,
    };
    memcpy(p, words, sizeof words);
}

/* A board near a stop sample, a free transmitter and a tick, the rest by chance; its inputs by chance, some clocks held. */
static void draw(desk *d, size_t round)
{
    trm_devices *v = &d->board.devices;
    if (round == 0)
        write_program(d->program);
    else
        for (size_t i = 0; i < WORDS; i++)
            d->program[i] = chance() % 4 ? word_of(chance() % 2 ? TRM_FORM_LOAD : TRM_FORM_STORE, 0, 0, chance() % 8, 1, chance() % 10)
                                         : chance() & 0x3FFFF;
    d->board.machine.regs[1] = d->board.machine.regs[9] = 0xFFC0;
    d->board.machine.clocks = chance() % 30 * TICK + TICK - chance() % CLOCKS;
    v->serial.left = round % 3 == 0 ? 0 : chance() % CLOCKS;
    v->serial.passed = 9613 - chance() % CLOCKS;
    v->serial.sent = chance() % 256;
    v->serial.bits = chance() % 256;
    v->serial.byte = chance() % 256;
    v->serial.ready = chance() % 2;
    v->tick = chance() % 2;
    v->lamps = chance() % 1024;
    for (size_t i = 0; i < CLOCKS; i++) {
        uint32_t dice = chance();
        d->given[i] = (uint8_t)((dice % 4 == 0) << 2 | (dice / 4 % 32 == 0) << 1 | (dice / 128 % 2));
        d->switches[i] = (uint8_t)(dice >> 24);
    }
}

static void note(met *m, const trm_devices *before, const trm_devices *after, uint8_t given, uint8_t byte)
{
    m->accepted += before->serial.left == 0 && byte == WRITE_4;
    m->received += before->serial.passed == 9613;
    m->handed += before->serial.ready && byte == READ_4;
    m->rises += after->tick > before->tick;
    m->clears += after->tick < before->tick;
    m->lamps += after->lamps != before->lamps;
    m->held += given >> 2;
}

static trm_board_clock_answer clock_of(int joined, trm_board board, const desk *d, uint32_t *store, size_t at)
{
    return joined ? trm_board_clock_joined(board, d->program, WORDS, store, BIG, d->given[at], d->switches[at])
                  : trm_board_clock(board, d->program, WORDS, store, BIG, d->given[at], d->switches[at]);
}

static trm_board_run_answer run_of(int joined, desk *d, uint32_t *store, uint8_t *levels, uint8_t *bytes, uint32_t *words)
{
    return joined ? trm_board_run_joined(d->board, d->program, WORDS, store, BIG, d->given, CLOCKS, d->switches, CLOCKS, levels, CLOCKS,
                                         bytes, CLOCKS, words, CLOCKS)
                  : trm_board_run(d->board, d->program, WORDS, store, BIG, d->given, CLOCKS, d->switches, CLOCKS, levels, CLOCKS, bytes,
                                  CLOCKS, words, CLOCKS);
}

/* Clock by clock into d's buffers and store: the board at the end. */
static trm_board by_clocks(int joined, desk *d, met *m, uint64_t *finished)
{
    trm_board board = d->board;
    for (size_t at = 0; at < CLOCKS; at++) {
        trm_board_clock_answer a = clock_of(joined, board, d, d->store, at);
        note(m, &board.devices, &a.board.devices, d->given[at], a.byte);
        if (a.number) {
            hold(0, A1_CLOCK "a clock of a round was refused with", a.number);
            break;
        }
        board = a.board;
        d->levels[at] = a.level;
        d->bytes[at] = a.byte;
        d->words[at] = a.word;
        *finished += a.finished;
    }
    return board;
}

/* Whether a run writes what the clocks wrote, and ends with this board and d's store. */
static int same_run(int joined, desk *d, uint32_t *store, const trm_board *end, uint64_t finished)
{
    static uint8_t levels[CLOCKS + 1], bytes[CLOCKS + 1];
    static uint32_t words[CLOCKS + 1];
    levels[CLOCKS] = bytes[CLOCKS] = 0xA5;
    words[CLOCKS] = 0xA5;
    trm_board_run_answer r = run_of(joined, d, store, levels, bytes, words);
    return r.number == 0 && r.used == CLOCKS && r.finished == finished && same_board(&r.board, end) &&
           memcmp(levels, d->levels, CLOCKS) == 0 && memcmp(bytes, d->bytes, CLOCKS) == 0 && memcmp(words, d->words, 4 * CLOCKS) == 0 &&
           levels[CLOCKS] == 0xA5 && bytes[CLOCKS] == 0xA5 && words[CLOCKS] == 0xA5 && memcmp(store, d->store, 4 * BIG) == 0;
}

/* Bit 0 of the given bytes: the level of the clock, or turned over. */
static void set_lines(desk *d, int levels)
{
    for (size_t i = 0; i < CLOCKS; i++)
        d->given[i] = levels ? (uint8_t)((d->given[i] & 6) | d->levels[i]) : d->given[i] ^ TRM_BOARD_LINE;
}

static void test_round(size_t round, met *m)
{
    static uint32_t start[BIG], beside[BIG];
    desk d = desk_carved(WORDS, BIG, CLOCKS);
    desk_begin(&d, WORDS, BIG, CLOCKS);
    draw(&d, round);
    memcpy(start, d.store, sizeof start);
    for (int joined = 0; joined < 2; joined++) {
        uint64_t finished = 0;
        memcpy(d.store, start, sizeof start);
        trm_board end = by_clocks(joined, &d, m, &finished);
        memcpy(beside, start, sizeof start);
        hold(same_run(joined, &d, beside, &end, finished), A1_CLOCK "a run is its clocks, round", round);
        if (!joined)
            continue;
        set_lines(&d, 0);
        memcpy(beside, start, sizeof start);
        hold(same_run(1, &d, beside, &end, finished), A1_JOINED "joined, the line of the given bytes turned over, round", round);
        set_lines(&d, 1);
        memcpy(beside, start, sizeof start);
        hold(same_run(0, &d, beside, &end, finished), A1_JOINED "the levels given as lines, round", round);
    }
    desk_let_go(&d);
}

void test_board_clocks(void)
{
    met m = {0, 0, 0, 0, 0, 0, 0};
    for (size_t round = 0; round < ROUNDS; round++)
        test_round(round, &m);
    hold(m.accepted && m.received && m.handed && m.rises && m.clears && m.lamps && m.held, A1_CLOCK "everything is met", m.accepted);
    printf(A1_CLOCK "side by side: %d clocks, %u held; bytes: %u accepted, %u received, %u handed over; tick: %u rises, %u clears\n",
           2 * ROUNDS * CLOCKS, m.held, m.accepted, m.received, m.handed, m.rises, m.clears);
}
