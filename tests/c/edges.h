/*
 * What the tests of the C interface share: the counts, random bytes, and all arguments of a call in one block of memory.
 * Paper: "It returns the number only and writes nothing".
 * Included by every file of tests/c.
 */
#ifndef EDGES_H
#define EDGES_H

#include "trm.h"

/* One test: counted, and reported if it fails, with a number that says where. The text begins with the id of its sentence in
 * docs/CLAIMS.md. */
extern unsigned passed, failed;
void hold(int good, const char *what, size_t at);

/* Random bytes, the same in every run of the tests. */
uint32_t chance(void);
void chance_bytes(void *to, size_t bytes);

int all_zero(const void *p, size_t bytes);

/* Memory; the tests end without it. */
void *room(size_t bytes);

/* A program word, by the fields of its instruction. */
uint32_t word_of(uint32_t form, uint32_t operation, uint32_t condition, uint32_t d, uint32_t s, uint32_t value);

/* The arguments of the calls that take a record. All that is lent is in `piece`; `copy` has room for a copy of it. */
typedef struct given {
    void *piece, *copy;
    size_t bytes_of_piece;
    trm_machine *machine;
    uint32_t *program, *store, *inputs, *words, *buffer;
    uint8_t *line_bytes, *bytes;
    size_t program_words, store_words, line_bytes_length, inputs_length, bytes_length, words_length, buffer_words;
    uint8_t line_byte;
    uint32_t address;
} given;

/* A pointer and its length; with length 0 the pointer is NULL. */
#define LENT(pointer, length) ((length) ? (pointer) : NULL), (length)
#define LENT_PROGRAM(g) LENT((g)->program, (g)->program_words)
#define LENT_STORE(g) LENT((g)->store, (g)->store_words)

/* Allocates room for these numbers of program words, store words and clocks; let_go frees it. */
given carved(size_t program, size_t store, size_t clocks);
void let_go(given *g);

/* Arguments that are accepted: a program of zeros (MOV R0, 0), a random store, a record from a reset, line bytes of 0. */
void begin(given *g, size_t program, size_t store, size_t clocks);

/* The calls that take a record. */
enum { CLOCK, VALUE, RUN, LOOK, COPY, CALLS };

/* One call: expects this number, and if refused that the rest of the answer is as the header says and nothing lent has changed. */
void expect(int which, given *g, uint32_t number, const char *what, size_t at);

/* The same for all five calls, each with the same record. */
void expect_all(given *g, uint32_t number, const char *what, size_t at);

void test_layout(void);
void test_words(void);
void test_images(void);
void test_clocks(void);
void test_board_edges(void);
void test_board_limits(void);
void test_board_clocks(void);
void test_board_devices(void);
void test_board_line(void);
void test_board_joined(void);

#endif
