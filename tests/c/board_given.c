/*
 * The arguments of the board's calls, the calls with the checks of a refused one, a board that is clocked, program words.
 * Request A1: "Each of its clocks takes the serial line, the switches, interrupt 1 and stall".
 * Called: by the other board files of tests/c.
 */
#include <stdio.h>
#include <stdlib.h>
#include <string.h>

#include "board.h"

/* ---- The arguments */

desk desk_carved(size_t program, size_t store, size_t clocks)
{
    desk d;
    memset(&d, 0, sizeof d);
    d.bytes_of_piece = 4 * (program + store + clocks) + 4 * clocks;
    d.piece = room(d.bytes_of_piece);
    d.copy = room(d.bytes_of_piece);
    d.program = d.piece;
    d.store = d.program + program;
    d.words = d.store + store;
    d.given = (uint8_t *)(d.words + clocks);
    d.switches = d.given + clocks;
    d.levels = d.switches + clocks;
    d.bytes = d.levels + clocks;
    return d;
}

void desk_let_go(desk *d)
{
    free(d->piece);
    free(d->copy);
}

void desk_begin(desk *d, size_t program, size_t store, size_t clocks)
{
    memset(d->piece, 0, d->bytes_of_piece);
    d->program_words = program;
    d->store_words = store;
    d->given_length = d->switches_length = d->levels_length = d->bytes_length = d->words_length = clocks;
    d->given_byte = 0;
    chance_bytes(d->store, 4 * store);
    memset(d->words, 0xA5, 4 * clocks);
    memset(d->levels, 0xA5, clocks);
    memset(d->bytes, 0xA5, clocks);
    d->board = trm_board_reset(d->store, store).board;
}

int same_board(const trm_board *a, const trm_board *b)
{
    return memcmp(a, b, sizeof *a) == 0;
}

/* ---- The calls */

/* Not a refusal number: the rest of the answer is not as the header says. */
enum { ODD = 99 };

static uint32_t judged_clock(const desk *d, trm_board_clock_answer a)
{
    return a.number && (a.level || a.byte || a.word || a.finished || !same_board(&a.board, &d->board)) ? ODD : a.number;
}

static uint32_t judged_run(const desk *d, trm_board_run_answer a)
{
    if (a.number)
        return a.used || a.finished || !same_board(&a.board, &d->board) ? ODD : a.number;
    return a.used == d->given_length ? a.number : ODD;
}

static uint32_t call(int which, desk *d)
{
    switch (which) {
    case BOARD_CLOCK:
        return judged_clock(d, trm_board_clock(d->board, LENT_PROGRAM(d), LENT_STORE(d), d->given_byte, 7));
    case BOARD_CLOCK_JOINED:
        return judged_clock(d, trm_board_clock_joined(d->board, LENT_PROGRAM(d), LENT_STORE(d), d->given_byte, 7));
    case BOARD_RUN:
        return judged_run(d, trm_board_run(d->board, LENT_PROGRAM(d), LENT_STORE(d), LENT(d->given, d->given_length),
                                           LENT(d->switches, d->switches_length), LENT(d->levels, d->levels_length),
                                           LENT(d->bytes, d->bytes_length), LENT(d->words, d->words_length)));
    default:
        return judged_run(d, trm_board_run_joined(d->board, LENT_PROGRAM(d), LENT_STORE(d), LENT(d->given, d->given_length),
                                                  LENT(d->switches, d->switches_length), LENT(d->levels, d->levels_length),
                                                  LENT(d->bytes, d->bytes_length), LENT(d->words, d->words_length)));
    }
}

void expect_board(int which, desk *d, uint32_t number, const char *what, size_t at)
{
    memcpy(d->copy, d->piece, d->bytes_of_piece);
    uint32_t got = call(which, d);
    int kept = memcmp(d->copy, d->piece, d->bytes_of_piece) == 0;
    hold(got == number && (kept || number == 0), what, at);
    if (got != number)
        printf("  board call %d gave %u, not %u\n", which, (unsigned)got, (unsigned)number);
    else if (!kept && number != 0)
        printf("  S3.2 board call %d was refused and yet changed what it was lent\n", which);
}

void expect_boards(desk *d, uint32_t number, const char *what, size_t at)
{
    for (int which = 0; which < BOARD_CALLS; which++)
        expect_board(which, d, number, what, at);
}

/* ---- A board that is clocked */

void scene_begin(scene *s, const uint32_t *program, size_t words)
{
    memset(s, 0, sizeof *s);
    for (size_t i = 0; i < SCENE_WORDS; i++)
        s->program[i] = i < words ? program[i] : WORD_NOP;
    s->board = trm_board_reset(s->store, SCENE_STORE).board;
    s->board.machine.regs[1] = s->board.machine.regs[9] = 0xFFC0;
}

void scene_clock(scene *s, int joined, uint8_t given, uint8_t switches)
{
    if (s->answer.number)
        return;
    if (joined)
        s->answer = trm_board_clock_joined(s->board, s->program, SCENE_WORDS, s->store, SCENE_STORE, given, switches);
    else
        s->answer = trm_board_clock(s->board, s->program, SCENE_WORDS, s->store, SCENE_STORE, given, switches);
    s->board = s->answer.board;
    if (s->answer.number)
        hold(0, A1_CLOCK "a clock was refused with", s->answer.number);
}

void scene_idle(scene *s, size_t clocks)
{
    while (clocks-- > 0)
        scene_clock(s, 0, TRM_BOARD_LINE, 0);
}

/* ---- Program words */

uint32_t word_status(uint32_t value)
{
    return word_of(TRM_FORM_STATUS, 0, 0, 0, 0, value);
}

uint32_t word_literal(uint32_t operation, uint32_t d, uint32_t value)
{
    return word_of(TRM_FORM_LITERAL, operation, 0, d, 0, value);
}

uint32_t word_load(uint32_t d, uint32_t s, uint32_t offset)
{
    return word_of(TRM_FORM_LOAD, 0, 0, d, s, offset);
}

uint32_t word_store(uint32_t d, uint32_t s, uint32_t offset)
{
    return word_of(TRM_FORM_STORE, 0, 0, d, s, offset);
}

uint32_t word_branch(uint32_t condition, uint32_t at, uint32_t to)
{
    return word_of(TRM_FORM_BRANCH, 0, condition, 0, 0, (to - at - 1) & 0x3FF);
}

uint32_t word_read(uint32_t d, uint32_t device)
{
    return word_load(d, 1, device);
}

uint32_t word_write(uint32_t d, uint32_t device)
{
    return word_store(d, 1, device);
}
