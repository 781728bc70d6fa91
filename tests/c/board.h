/*
 * What the tests of the board share: the ids of their labels, the arguments of a call, a board that is clocked, program words.
 * Request A1: "A serial board above the core".
 * Included by the board files of tests/c.
 */
#ifndef BOARD_H
#define BOARD_H

#include "edges.h"

/* The ids that the labels carry: the sentences of request A1, in its order. */
#define A1_CLOCK "A1.2 "     /* each clock takes the serial line, the switches, interrupt 1 and stall */
#define A1_DEVICES "A1.3 "   /* devices 4 to 7 */
#define A1_TICK "A1.4 "      /* the tick is interrupt 0; its rises; a rise wins over a clearing write */
#define A1_BEGAN "A1.5 "     /* the tick and reads of 4 to 6 show what stood when the clock began */
#define A1_FRAME "A1.6 "     /* a frame; each bit is sampled in its 506th clock */
#define A1_FIRST "A1.7 "     /* the first clock of a frame; start and stop samples are not judged */
#define A1_READ "A1.8 "      /* reading device 4 clears the received bit; devices not named read zero */
#define A1_HELD "A1.9 "      /* devices run in held clocks too */
#define A1_RECEIVED "A1.10 " /* a byte is received in the clock of its stop sample, after any read */
#define A1_JOINED "A1.11 "   /* a line joined to itself; a byte replaced; a write dropped */
#define A1_BUSY "A1.12 "     /* busy in the 10,120 clocks after an accepted write */
#define A1_RANGES "A1.13 "   /* a board field outside its range is refused with 5 */

enum { BIT = TRM_BIT_CLOCKS, STOP = 9 * TRM_BIT_CLOCKS + 506, TICK = TRM_TICK_CLOCKS };
enum { READ_4 = 4 * TRM_DEVICE_SERIAL + TRM_ANSWER_READ, WRITE_4 = 4 * TRM_DEVICE_SERIAL + TRM_ANSWER_WRITE };

/* ---- The arguments of the calls, all that is lent in `piece`; `copy` has room for a copy of it */

typedef struct desk {
    void *piece, *copy;
    size_t bytes_of_piece;
    trm_board board;
    uint32_t *program, *store, *words;
    uint8_t *given, *switches, *levels, *bytes;
    size_t program_words, store_words, given_length, switches_length, levels_length, bytes_length, words_length;
    uint8_t given_byte;
} desk;

/* Allocates room for these numbers of program words, store words and clocks; desk_let_go frees it. */
desk desk_carved(size_t program, size_t store, size_t clocks);
void desk_let_go(desk *d);

/* Arguments that are accepted: a program of zeros (MOV R0, 0), a random store, a board from a reset, given bytes of 0. */
void desk_begin(desk *d, size_t program, size_t store, size_t clocks);

enum { BOARD_CLOCK, BOARD_CLOCK_JOINED, BOARD_RUN, BOARD_RUN_JOINED, BOARD_CALLS };

/* One call: expects this number, and if refused that the rest of the answer is as the header says and nothing lent has changed. */
void expect_board(int which, desk *d, uint32_t number, const char *what, size_t at);

/* The same for all four calls. */
void expect_boards(desk *d, uint32_t number, const char *what, size_t at);

int same_board(const trm_board *a, const trm_board *b);

/* ---- A board that is clocked */

enum { SCENE_WORDS = 24, SCENE_STORE = 256 };

typedef struct scene {
    trm_board board;
    uint32_t program[SCENE_WORDS], store[SCENE_STORE];
    trm_board_clock_answer answer; /* of the last clock */
} scene;

/* A board after reset, but for R1 of both banks, which is the address of device 0. */
void scene_begin(scene *s, const uint32_t *program, size_t words);

/* One clock, which must be accepted; after one that was refused it does nothing. */
void scene_clock(scene *s, int joined, uint8_t given, uint8_t switches);

/* Clocks with the line high. */
void scene_idle(scene *s, size_t clocks);

/* ---- Program words */

#define WORD_STAY 0x3BBFFu /* B .: two clocks each */
#define WORD_NOP 0x3BC00u  /* branch never: one clock each */
#define WORD_RTI 0x2C507u  /* RTI R7 */
uint32_t word_status(uint32_t value);
uint32_t word_literal(uint32_t operation, uint32_t d, uint32_t value);
uint32_t word_load(uint32_t d, uint32_t s, uint32_t offset);
uint32_t word_store(uint32_t d, uint32_t s, uint32_t offset);
uint32_t word_branch(uint32_t condition, uint32_t at, uint32_t to);
/* A load from a device and a store to it, by R1. */
uint32_t word_read(uint32_t d, uint32_t device);
uint32_t word_write(uint32_t d, uint32_t device);

#endif
