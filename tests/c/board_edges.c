/*
 * The refusals of the board's calls: lengths of 0, any bytes as a board, every set of faults.
 * Request A1: "A board field outside its range is refused with 5"; paper: "Where calls are turned down".
 * Called: by edges.c.
 */
#include <string.h>

#include "board.h"

/* ---- Lengths of 0, with NULL */

static void test_empty_calls(void)
{
    desk d = desk_carved(4, 64, 3);
    desk_begin(&d, 0, 64, 3);
    expect_boards(&d, TRM_REFUSED_PROGRAM, "S3.5 a board without a program", 0);
    desk_begin(&d, 4, 64, 3);
    d.store_words = 0;
    expect_boards(&d, TRM_REFUSED_STORE, "S3.6 a board without a store", 0);
    desk_begin(&d, 0, 64, 0);
    d.store_words = 0;
    expect_boards(&d, TRM_REFUSED_PROGRAM, "S3.1 nothing at all", 0);
    desk_let_go(&d);
}

static void test_empty_runs(void)
{
    desk d = desk_carved(4, 64, 3);
    for (int which = BOARD_RUN; which <= BOARD_RUN_JOINED; which++) {
        desk_begin(&d, 4, 64, 0);
        expect_board(which, &d, TRM_ACCEPTED, A1_CLOCK "a run of 0", 0);
        hold(memcmp(d.copy, d.piece, d.bytes_of_piece) == 0, A1_CLOCK "a run of 0 leaves everything", 0);
        d.switches_length = 1;
        expect_board(which, &d, TRM_REFUSED_LINE_BYTES, "S3.8 a run of 0 with a switch byte", 0);
        desk_begin(&d, 4, 64, 3);
        d.given_length = 0;
        expect_board(which, &d, TRM_REFUSED_LINE_BYTES, "S3.8 no given bytes", 0);
        size_t *const buffers[] = {&d.levels_length, &d.bytes_length, &d.words_length};
        for (size_t i = 0; i < 3; i++)
            for (size_t length = 0; length < 3; length++) {
                desk_begin(&d, 4, 64, length ? 2 : 3);
                *buffers[i] = length ? 2 * length - 1 : 0; /* 0 for 3 clocks; 1 and 3 for 2 */
                expect_board(which, &d, TRM_REFUSED_BUFFERS, "S3.9 a buffer of another length, the buffer", i);
            }
    }
    desk_let_go(&d);
}

/* A refused reset: the board is zero, and no call takes it with any store. */
static void test_refused_reset(void)
{
    desk d = desk_carved(4, 32768, 3);
    trm_board_reset_answer a = trm_board_reset(NULL, 0);
    hold(a.number == TRM_REFUSED_STORE && all_zero(&a.board, sizeof a.board), "S3.6 a reset of a board without a store", 0);
    for (size_t words = 64; words <= 32768; words *= 2) {
        desk_begin(&d, 4, words, 3);
        d.board = a.board;
        expect_boards(&d, TRM_REFUSED_STORE, "S3.6 the board of a refused reset", words);
        d.program_words = 0;
        expect_boards(&d, TRM_REFUSED_PROGRAM, "S3.6 the board of a refused reset, no program", words);
    }
    desk_let_go(&d);
}

/* The machine as trm_reset gives it, and every board field 0. */
static void test_reset(void)
{
    desk d = desk_carved(1, 65536, 0);
    size_t right = 0;
    for (size_t words = 0; words <= 65536; words++) {
        trm_board_reset_answer a = trm_board_reset(d.store, words);
        trm_reset_answer machine = trm_reset(d.store, words);
        right += a.number == machine.number && memcmp(&a.board.machine, &machine.machine, sizeof machine.machine) == 0 &&
                 all_zero(&a.board.devices, sizeof a.board.devices);
    }
    hold(right == 65537, A1_FIRST "a reset for stores of 0 to 65,536 words", right);
    desk_let_go(&d);
}

/* ---- Any bytes as a board */

static void test_any_bytes(void)
{
    desk d = desk_carved(4, 64, 3);
    for (size_t round = 0; round < 500; round++) {
        desk_begin(&d, 4, 64, 3);
        if (round == 0)
            memset(&d.board, 0xFF, sizeof d.board);
        else
            chance_bytes(&d.board, sizeof d.board);
        expect_boards(&d, TRM_REFUSED_STORE, "S3.6 a board of bytes by chance", round);
        d.board.machine.size = 64;
        expect_boards(&d, TRM_REFUSED_RECORD, "S3.7 a board of bytes by chance, the size right", round);
        trm_machine machine = trm_board_reset(d.store, 64).board.machine;
        d.board.machine = machine;
        expect_boards(&d, TRM_REFUSED_RECORD, A1_RANGES "board fields by chance, the machine right", round);
    }
    desk_let_go(&d);
}

/* A byte of FFH in a board field: the low byte is within some ranges. */
static void test_each_byte(void)
{
    desk d = desk_carved(4, 64, 3);
    for (size_t at = 0; at < sizeof(trm_devices); at++) {
        int wide = at != offsetof(trm_serial, ready) && at != offsetof(trm_devices, tick);
        desk_begin(&d, 4, 64, 3);
        ((uint8_t *)&d.board.devices)[at] = 0xFF;
        expect_boards(&d, at % 8 == 0 && wide ? TRM_ACCEPTED : TRM_REFUSED_RECORD, A1_RANGES "a byte of FFH in the devices", at);
    }
    desk_let_go(&d);
}

/* ---- Every set of faults at once: the first row counts */

/* The faults: rows 3 to 8, and as bit 9 a board field, which is of row 5 too. */
static void make_faults(desk *d, unsigned faults)
{
    desk_begin(d, 4, 64, 3);
    if (faults & 1u << TRM_REFUSED_PROGRAM)
        d->program[3] = 0x40000;
    if (faults & 1u << TRM_REFUSED_STORE)
        d->store_words = 63;
    if (faults & 1u << TRM_REFUSED_RECORD)
        d->board.machine.z = 2;
    if (faults & 1u << TRM_REFUSED_LINE_BYTES)
        d->given_byte = d->given[2] = 8;
    if (faults & 1u << TRM_REFUSED_BUFFERS)
        d->words_length = 2;
    if (faults & 1u << TRM_REFUSED_CLOCKS)
        d->board.machine.clocks = 0xFFFFFFFF;
    if (faults & 1u << 9)
        d->board.devices.lamps = 1024;
}

static void test_rows(void)
{
    desk d = desk_carved(4, 64, 3);
    for (int which = 0; which < BOARD_CALLS; which++)
        for (unsigned faults = 0; faults < 1u << 10; faults += 8) {
            unsigned rows = faults | (faults >> 9 & 1) << TRM_REFUSED_RECORD;
            uint32_t first = 3;
            if (which < BOARD_RUN)
                rows &= ~(1u << TRM_REFUSED_BUFFERS);
            while (first < 9 && !(rows & 1u << first))
                first++;
            make_faults(&d, faults);
            expect_board(which, &d, first < 9 ? first : 0, "S3.1 faults of a board", faults);
        }
    desk_let_go(&d);
}

void test_board_edges(void)
{
    test_empty_calls();
    test_empty_runs();
    test_refused_reset();
    test_reset();
    test_any_bytes();
    test_each_byte();
    test_rows();
}
