/*
 * Every limit of the board's calls on both sides: board fields, given bytes, lengths, the clock count.
 * Request A1: "A board field outside its range is refused with 5"; paper: rows 3 to 8 of the refusals.
 * Called: by edges.c.
 */
#include "board.h"

/* The board fields as an array, with their greatest values. */
enum { FIELDS = sizeof(trm_devices) / 8 };
static const uint64_t most[FIELDS] = {10120, 255, 9613, 255, 255, 1, 1, 1023};

static void test_fields(void)
{
    desk d = desk_carved(1, 64, 3);
    for (size_t field = 0; field < FIELDS; field++) {
        const uint64_t above[] = {most[field] + 1, most[field] + 65536, most[field] | 1ull << 32, most[field] | 1ull << 63, UINT64_MAX};
        desk_begin(&d, 1, 64, 3);
        uint64_t *value = (uint64_t *)&d.board.devices + field;
        *value = most[field];
        expect_boards(&d, TRM_ACCEPTED, A1_RANGES "the greatest value of field", field);
        for (size_t i = 0; i < sizeof above / sizeof *above; i++) {
            *value = above[i];
            expect_boards(&d, TRM_REFUSED_RECORD, A1_RANGES "a value above, field", field);
        }
    }
    desk_begin(&d, 1, 64, 3);
    for (size_t field = 0; field < FIELDS; field++)
        ((uint64_t *)&d.board.devices)[field] = most[field];
    expect_boards(&d, TRM_ACCEPTED, A1_RANGES "all fields at their greatest values", 0);
    desk_let_go(&d);
}

static void test_given_bytes(void)
{
    desk d = desk_carved(1, 64, 300);
    for (unsigned byte = 0; byte < 256; byte++) {
        desk_begin(&d, 1, 64, 300);
        d.given_byte = d.given[byte] = (uint8_t)byte;
        expect_boards(&d, byte > 7 ? TRM_REFUSED_LINE_BYTES : TRM_ACCEPTED, "S3.8 a given byte", byte);
    }
    for (unsigned byte = 0; byte < 256; byte++) {
        desk_begin(&d, 1, 64, 300);
        d.switches[byte] = (uint8_t)byte;
        expect_boards(&d, TRM_ACCEPTED, A1_CLOCK "a switch byte", byte);
    }
    desk_let_go(&d);
}

static void test_lengths(void)
{
    desk d = desk_carved(4097, 64, 65537);
    desk_begin(&d, 1, 64, 65536);
    expect_boards(&d, TRM_ACCEPTED, "S3.8 a run of 65,536", 0);
    for (int which = BOARD_RUN; which <= BOARD_RUN_JOINED; which++) {
        desk_begin(&d, 1, 64, 65537);
        expect_board(which, &d, TRM_REFUSED_LINE_BYTES, "S3.8 a run of 65,537", 0);
        for (size_t other = 1; other <= 3; other += 2) {
            desk_begin(&d, 1, 64, 2);
            d.switches_length = other;
            expect_board(which, &d, TRM_REFUSED_LINE_BYTES, "S3.8 2 given bytes, and switches", other);
        }
    }
    desk_begin(&d, 4096, 64, 3);
    d.program[4095] = 0x3FFFF;
    expect_boards(&d, TRM_ACCEPTED, "S3.5 4,096 words, 3FFFFH", 0);
    desk_begin(&d, 4097, 64, 3);
    expect_boards(&d, TRM_REFUSED_PROGRAM, "S3.5 4,097 words", 0);
    desk_let_go(&d);
}

static void test_clock_count(void)
{
    desk d = desk_carved(1, 64, 3);
    for (size_t clocks = 0; clocks <= 3; clocks++)
        for (uint64_t left = 0; left <= 3; left++)
            for (int which = 0; which < BOARD_CALLS; which++) {
                uint64_t asked = which < BOARD_RUN ? 1 : clocks;
                desk_begin(&d, 1, 64, clocks);
                d.board.machine.clocks = 0xFFFFFFFF - left;
                expect_board(which, &d, asked > left ? TRM_REFUSED_CLOCKS : TRM_ACCEPTED, "S3.10 a board, clocks left", left);
            }
    desk_let_go(&d);
}

/* Look and copy take the machine of a board. */
static void test_memory(void)
{
    const uint32_t program[] = {word_literal(TRM_MOV, 0, 5), word_status(8), word_store(0, 7, 9), WORD_STAY};
    uint32_t buffer[SCENE_STORE];
    scene s;
    scene_begin(&s, program, 4);
    scene_idle(&s, 14);
    trm_look_answer look = trm_look(s.board.machine, s.program, SCENE_WORDS, s.store, SCENE_STORE, 9);
    uint32_t copy = trm_copy(s.board.machine, s.program, SCENE_WORDS, s.store, SCENE_STORE, buffer, SCENE_STORE);
    hold(look.number == 0 && look.word == 5, "S2.35 a look at a board's memory", look.word);
    hold(copy == 0 && buffer[9] == 5 && s.store[9] == 0, "S2.35 a copy of a board's memory", buffer[9]);
}

void test_board_limits(void)
{
    test_fields();
    test_given_bytes();
    test_lengths();
    test_clock_count();
    test_memory();
}
