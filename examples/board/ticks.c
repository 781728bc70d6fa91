/*
 * Ticks: a program that counts the ticks, which are interrupt 0, in a word of its memory.
 * Request A1: the tick rises whenever the clock count comes to a multiple of 116,600. README.md in this folder has the figures.
 * Build: cc -std=c99 examples/board/ticks.c -I include target/staticlib/libtrm.a; C++ compilers take it too.
 */
#include <string.h>

#include "words.h"

enum { WORDS = 64, COUNT = 32 };    /* of the store; where the ticks are counted */
enum { CLOCKS = 50000, RUNS = 10 }; /* of a run, which has at most 65,536; and runs */

int main(void)
{
    const uint32_t program[] = {
        status(1),                            /* 000 interrupt 0 enabled */
        branch(TRM_ALWAYS, 1, 3),             /* 001 */
        branch(TRM_ALWAYS, 2, 4),             /* 002 where interrupt 0 goes */
        branch(TRM_ALWAYS, 3, 3),             /* 003 the program itself has nothing to do */
        literal(TRM_NOT, 1, 63),              /* 004 the handler, in bank 1. R1: the address of device 0 */
        load(0, 7, COUNT),                    /* 005 */
        literal(TRM_ADD, 0, 1),               /* 006 */
        store(0, 7, COUNT),                   /* 007 */
        store(0, 1, TRM_DEVICE_MILLISECONDS), /* 008 clears the tick */
        rti(),                                /* 009 */
    };
    static uint8_t given[CLOCKS], switches[CLOCKS], levels[CLOCKS], bytes[CLOCKS];
    static uint32_t words[CLOCKS];
    uint32_t memory[WORDS] = {0};
    trm_board board = reset(memory, WORDS);
    memset(given, TRM_BOARD_LINE, sizeof given); /* nothing is sent to the board: the line is high */
    for (int run = 1; run <= RUNS; run++) {
        trm_board_run_answer answer = trm_board_run(board, program, sizeof program / sizeof *program, memory, WORDS, given, CLOCKS,
                                                    switches, CLOCKS, levels, CLOCKS, bytes, CLOCKS, words, CLOCKS);
        must(answer.number, "run");
        board = answer.board;
        trm_look_answer count = trm_look(board.machine, program, sizeof program / sizeof *program, memory, WORDS, COUNT);
        must(count.number, "look");
        uint64_t ticks = board.machine.clocks / TRM_TICK_CLOCKS;
        printf("%" PRIu64 " clocks: %" PRIu32 " ticks counted, %" PRIu64 " have risen\n", board.machine.clocks, count.word, ticks);
        if (count.word != ticks)
            return 1;
    }
    return 0;
}
