/*
 * Echo: the serial line is joined to itself, and a program sends a text and reads each byte back.
 * Request A1: a line joined to itself; README.md in this folder works out every clock that is printed.
 * Build: cc -std=c99 examples/board/echo.c -I include target/staticlib/libtrm.a; C++ compilers take it too.
 */
#include "words.h"

enum { WORDS = 64, TEXT = 16, BACK = 24 }; /* of the store; where the text begins, and how far behind it the bytes are kept */

int main(void)
{
    static const char text[] = "Hello, board"; /* with the 0 at its end */
    const uint32_t program[] = {
        literal(TRM_NOT, 1, 63),                  /* 000 R1: the address of device 0 */
        literal(TRM_MOV, 2, TEXT),                /* 001 R2: the address of the next character */
        load(0, 2, 0),                            /* 002 */
        literal(TRM_AND, 0, 255),                 /* 003 is it the end? */
        branch(TRM_IF_Z, 4, 16),                  /* 004 */
        store(0, 1, TRM_DEVICE_SERIAL),           /* 005 sends it */
        load(3, 1, TRM_DEVICE_STATUS),            /* 006 waits until it is back */
        literal(TRM_AND, 3, TRM_SERIAL_RECEIVED), /* 007 */
        branch(TRM_IF_Z, 8, 6),                   /* 008 */
        load(3, 1, TRM_DEVICE_SERIAL),            /* 009 reads it */
        store(3, 2, BACK),                        /* 00A keeps it */
        load(3, 1, TRM_DEVICE_STATUS),            /* 00B waits until the transmitter is free */
        literal(TRM_AND, 3, TRM_SERIAL_FREE),     /* 00C */
        branch(TRM_IF_Z, 13, 11),                 /* 00D */
        literal(TRM_ADD, 2, 1),                   /* 00E */
        branch(TRM_ALWAYS, 15, 2),                /* 00F */
        literal(TRM_MOV, 0, 1),                   /* 010 the end: lights lamp 0 */
        store(0, 1, TRM_DEVICE_PANEL),            /* 011 */
        branch(TRM_ALWAYS, 18, 18),               /* 012 */
    };
    uint32_t memory[WORDS] = {0};
    for (size_t i = 0; i < sizeof text; i++)
        memory[TEXT + i] = (uint8_t)text[i];
    trm_board board = reset(memory, WORDS);
    printf("byte, accepted in clock, read back in clock\n");
    while (board.devices.lamps == 0) {
        trm_serial before = board.devices.serial;
        trm_board_clock_answer answer = trm_board_clock_joined(board, program, sizeof program / sizeof *program, memory, WORDS, 0, 0);
        must(answer.number, "clock");
        board = answer.board;
        /* A write is accepted if the transmitter was free, a byte handed over if the read found the received bit set. */
        if (answer.byte == TRM_DEVICE_SERIAL * 4 + TRM_ANSWER_WRITE && before.left == 0)
            printf("'%c' %" PRIu64, (char)answer.word, board.machine.clocks);
        if (answer.byte == TRM_DEVICE_SERIAL * 4 + TRM_ANSWER_READ && before.ready == 1)
            printf(" %" PRIu64 "\n", board.machine.clocks);
    }
    printf("sent: %s\nread: ", text);
    for (size_t i = 0; i < sizeof text - 1; i++)
        printf("%c", (char)memory[TEXT + BACK + i]);
    printf("\nlamp 0 is lit in clock %" PRIu64 "\n", board.machine.clocks);
    return 0;
}
