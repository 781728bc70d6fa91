/*
 * Lamps: a program that lights lamps 0 to 7 by the eight switches, and lamp 9 always.
 * Request A1: device 7 is eight switches in and ten lamps out. README.md in this folder has the clocks of a turn.
 * Build: cc -std=c99 examples/board/lamps.c -I include target/staticlib/libtrm.a; C++ compilers take it too.
 */
#include <string.h>

#include "words.h"

enum { WORDS = 64, CLOCKS = 12 }; /* of the store; of a run: two turns of the loop */

static void print_bits(const char *what, uint64_t bits, int count)
{
    printf("%s ", what);
    while (count-- > 0)
        printf("%c", bits >> count & 1 ? '1' : '0');
}

int main(void)
{
    const uint32_t program[] = {
        literal(TRM_NOT, 1, 63),       /* 000 R1: the address of device 0 */
        load(0, 1, TRM_DEVICE_PANEL),  /* 001 the switches */
        literal(TRM_OR, 0, 512),       /* 002 and lamp 9 */
        store(0, 1, TRM_DEVICE_PANEL), /* 003 the lamps */
        branch(TRM_ALWAYS, 4, 1),      /* 004 */
    };
    static const uint8_t settings[] = {0x00, 0x01, 0x81, 0xFF, 0x5A};
    uint32_t memory[WORDS] = {0}, words[CLOCKS];
    uint8_t given[CLOCKS], switches[CLOCKS], levels[CLOCKS], bytes[CLOCKS];
    trm_board board = reset(memory, WORDS);
    memset(given, TRM_BOARD_LINE, sizeof given);
    for (size_t i = 0; i < sizeof settings; i++) {
        memset(switches, settings[i], sizeof switches);
        trm_board_run_answer answer = trm_board_run(board, program, sizeof program / sizeof *program, memory, WORDS, given, CLOCKS,
                                                    switches, CLOCKS, levels, CLOCKS, bytes, CLOCKS, words, CLOCKS);
        must(answer.number, "run");
        board = answer.board;
        print_bits("switches", settings[i], 8);
        print_bits(", lamps", board.devices.lamps, 10);
        printf("\n");
    }
    return 0;
}
