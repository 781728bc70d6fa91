/*
 * The counts of the tests, random bytes, the arguments of the calls, and the calls with the checks of a refused one.
 * Paper: "It returns the number only and writes nothing".
 * Called: by the other files of tests/c.
 */
#include <stdio.h>
#include <stdlib.h>
#include <string.h>

#include "edges.h"

unsigned passed, failed;

void hold(int good, const char *what, size_t at)
{
    passed += good != 0;
    failed += good == 0;
    if (!good)
        printf("differs: %s (%zu)\n", what, at);
}

static uint64_t seed = 1;

uint32_t chance(void)
{
    seed = seed * 6364136223846793005u + 1442695040888963407u;
    return (uint32_t)(seed >> 32);
}

void chance_bytes(void *to, size_t bytes)
{
    uint8_t *p = to;
    for (size_t i = 0; i < bytes; i++)
        p[i] = (uint8_t)chance();
}

int all_zero(const void *p, size_t bytes)
{
    const uint8_t *b = p;
    while (bytes > 0 && b[bytes - 1] == 0)
        bytes--;
    return bytes == 0;
}

uint32_t word_of(uint32_t form, uint32_t operation, uint32_t condition, uint32_t d, uint32_t s, uint32_t value)
{
    trm_instruction i = {form, operation, condition, d, s, value};
    return trm_encode(i).word;
}

void *room(size_t bytes)
{
    void *p = malloc(bytes);
    if (!p) {
        printf("no memory\n0 passed, 1 failed\n");
        exit(1);
    }
    return p;
}

given carved(size_t program, size_t store, size_t clocks)
{
    given g;
    memset(&g, 0, sizeof g);
    g.bytes_of_piece = sizeof(trm_machine) + 4 * (program + 2 * store + 2 * clocks) + 2 * clocks;
    g.piece = room(g.bytes_of_piece);
    g.copy = room(g.bytes_of_piece);
    g.machine = g.piece;
    g.program = (uint32_t *)(g.machine + 1);
    g.store = g.program + program;
    g.buffer = g.store + store;
    g.inputs = g.buffer + store;
    g.words = g.inputs + clocks;
    g.line_bytes = (uint8_t *)(g.words + clocks);
    g.bytes = g.line_bytes + clocks;
    return g;
}

void let_go(given *g)
{
    free(g->piece);
    free(g->copy);
}

void begin(given *g, size_t program, size_t store, size_t clocks)
{
    memset(g->piece, 0, g->bytes_of_piece);
    g->program_words = program;
    g->store_words = g->buffer_words = store;
    g->line_bytes_length = g->inputs_length = g->bytes_length = g->words_length = clocks;
    g->line_byte = 0;
    g->address = 0;
    chance_bytes(g->store, 4 * store);
    memset(g->buffer, 0xA5, 4 * store);
    memset(g->words, 0xA5, 4 * clocks);
    memset(g->bytes, 0xA5, clocks);
    *g->machine = trm_reset(g->store, store).machine;
}

/* Not a refusal number: the rest of the answer is not as the header says. */
enum { ODD = 99 };

static int same(const trm_machine *a, const trm_machine *b)
{
    return memcmp(a, b, sizeof *a) == 0;
}

static uint32_t call_clock(given *g)
{
    trm_clock_answer a = trm_clock(g->machine, LENT_PROGRAM(g), LENT_STORE(g), g->line_byte, 7);
    return a.number && (a.byte || a.word || a.finished) ? ODD : a.number;
}

static uint32_t call_value(given *g)
{
    trm_clock_value_answer a = trm_clock_value(*g->machine, LENT_PROGRAM(g), LENT_STORE(g), g->line_byte, 7);
    return a.number && (a.byte || a.word || a.finished || !same(&a.machine, g->machine)) ? ODD : a.number;
}

static uint32_t call_run(given *g)
{
    trm_run_answer a = trm_run(*g->machine, LENT_PROGRAM(g), LENT_STORE(g), LENT(g->line_bytes, g->line_bytes_length),
                               LENT(g->inputs, g->inputs_length), LENT(g->bytes, g->bytes_length), LENT(g->words, g->words_length));
    if (a.number)
        return a.used || a.finished || !same(&a.machine, g->machine) ? ODD : a.number;
    return a.used == g->line_bytes_length ? a.number : ODD;
}

static uint32_t call_look(given *g)
{
    trm_look_answer a = trm_look(*g->machine, LENT_PROGRAM(g), LENT_STORE(g), g->address);
    return a.number && a.word ? ODD : a.number;
}

static uint32_t call_copy(given *g)
{
    return trm_copy(*g->machine, LENT_PROGRAM(g), LENT_STORE(g), LENT(g->buffer, g->buffer_words));
}

void expect(int which, given *g, uint32_t number, const char *what, size_t at)
{
    static uint32_t (*const calls[CALLS])(given *) = {call_clock, call_value, call_run, call_look, call_copy};
    memcpy(g->copy, g->piece, g->bytes_of_piece);
    uint32_t got = calls[which](g);
    int kept = memcmp(g->copy, g->piece, g->bytes_of_piece) == 0;
    hold(got == number && (kept || number == 0), what, at);
    if (got != number)
        printf("  call %d gave %u, not %u\n", which, (unsigned)got, (unsigned)number);
    else if (!kept && number != 0)
        printf("  S3.2 call %d was refused and yet changed what it was lent\n", which);
}

void expect_all(given *g, uint32_t number, const char *what, size_t at)
{
    trm_machine machine = *g->machine;
    for (int which = 0; which < CALLS; which++) {
        *g->machine = machine;
        expect(which, g, number, what, at);
    }
}
