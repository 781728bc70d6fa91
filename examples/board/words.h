/*
 * What the examples of the board share: program words, and an end for a call that should not have been refused.
 * Paper: "What a programmer sees", the formats; request A1 for the devices.
 * Included by the C files of examples/board.
 */
#ifndef WORDS_H
#define WORDS_H

#include <inttypes.h>
#include <stdio.h>
#include <stdlib.h>

#include "trm.h"

static inline void must(uint32_t number, const char *what)
{
    if (number != TRM_ACCEPTED) {
        printf("%s: refused %" PRIu32 "\n", what, number);
        exit(1);
    }
}

static inline uint32_t word_of(uint32_t form, uint32_t operation, uint32_t condition, uint32_t d, uint32_t s, uint32_t value)
{
    trm_instruction instruction = {form, operation, condition, d, s, value};
    trm_encode_answer answer = trm_encode(instruction);
    must(answer.number, "encode");
    return answer.word;
}

static inline uint32_t literal(uint32_t operation, uint32_t d, uint32_t value)
{
    return word_of(TRM_FORM_LITERAL, operation, 0, d, 0, value);
}

/* A load and a store, by a register as the base; by R7 the base is zero. */
static inline uint32_t load(uint32_t d, uint32_t s, uint32_t offset)
{
    return word_of(TRM_FORM_LOAD, 0, 0, d, s, offset);
}

static inline uint32_t store(uint32_t d, uint32_t s, uint32_t offset)
{
    return word_of(TRM_FORM_STORE, 0, 0, d, s, offset);
}

/* A branch at one address to another. */
static inline uint32_t branch(uint32_t condition, uint32_t at, uint32_t to)
{
    return word_of(TRM_FORM_BRANCH, 0, condition, 0, 0, (to - at - 1) & 0x3FF);
}

static inline uint32_t status(uint32_t value)
{
    return word_of(TRM_FORM_STATUS, 0, 0, 0, 0, value);
}

/* Return from interrupt by R7. */
static inline uint32_t rti(void)
{
    return word_of(TRM_FORM_RTI, 0, 0, 0, 7, 0);
}

/* The board after a reset, for this store. */
static inline trm_board reset(const uint32_t *memory, size_t words)
{
    trm_board_reset_answer answer = trm_board_reset(memory, words);
    must(answer.number, "reset");
    return answer.board;
}

#endif
