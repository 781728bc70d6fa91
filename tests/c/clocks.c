/*
 * The lent clock, the clock by value and the run, side by side over the same clocks; look and copy compared with the record's cache lines.
 * Paper: "a second entry lends the record itself for one clock, with the same outcome"; "a full line's word standing before the store's".
 * Called: by edges.c. That each clock is right is checked elsewhere, by proof and by tests/rust.
 */
#include <stdio.h>
#include <string.h>

#include "edges.h"

enum { WORDS = 22, BIG = 256, CLOCKS = 8000, SPARE = 8, ROUNDS = 20 };

typedef struct met {
    unsigned phases, held, reads, writes, modes;
    uint64_t refills, writebacks;
} met;

/* Both interrupts, MUL, DIV, loads and stores that share a cache line, a device, the cache on, and off if the device's word is not
 * negative. */
static void write_program(uint32_t *p)
{
    p[0] = word_of(TRM_FORM_STATUS, 0, 0, 0, 0, 11);
    p[1] = word_of(TRM_FORM_BRANCH, 0, 14, 0, 0, 4);
    p[2] = word_of(TRM_FORM_BRANCH, 0, 14, 0, 0, 1); /* interrupt 0 */
    p[3] = word_of(TRM_FORM_RTI, 0, 0, 0, 7, 0);     /* interrupt 1 */
    p[4] = word_of(TRM_FORM_LITERAL, 2, 0, 1, 0, 1);
    p[5] = word_of(TRM_FORM_RTI, 0, 0, 0, 7, 0);
    p[6] = word_of(TRM_FORM_LOAD, 0, 0, 0, 7, 9);
    p[7] = word_of(TRM_FORM_REGISTER, 8, 0, 0, 2, 0);
    p[8] = word_of(TRM_FORM_STORE, 0, 0, 0, 7, 138);
    p[9] = word_of(TRM_FORM_LITERAL, 9, 0, 0, 0, 13);
    p[10] = word_of(TRM_FORM_MOVE_H, 0, 0, 3, 0, 0);
    p[11] = word_of(TRM_FORM_STORE, 0, 0, 3, 7, 9);
    p[12] = word_of(TRM_FORM_LITERAL, 0, 0, 1, 0, 0);
    p[13] = word_of(TRM_FORM_LITERAL, 3, 0, 1, 0, 64);
    p[14] = word_of(TRM_FORM_LOAD, 0, 0, 2, 1, 9); /* device 9 */
    p[15] = word_of(TRM_FORM_STORE, 0, 0, 0, 1, 63);
    p[16] = word_of(TRM_FORM_REGISTER, 0, 0, 2, 2, 0);
    p[17] = word_of(TRM_FORM_BRANCH, 0, 4, 0, 0, 3);
    p[18] = word_of(TRM_FORM_STATUS, 0, 0, 0, 0, 3);
    p[19] = word_of(TRM_FORM_LOAD, 0, 0, 4, 7, 9);
    p[20] = word_of(TRM_FORM_STORE, 0, 0, 4, 7, 20);
    p[21] = word_of(TRM_FORM_JUMP, 0, 0, 0, 5, 0);
}

/* Data memory by the paper: the word of a full cache line, else that of the store. */
static uint32_t in_memory(const trm_machine *m, const uint32_t *store, uint32_t address)
{
    uint32_t block = address / 8, line = block % 16;
    return m->full[line] && m->block[line] == block ? m->words[line * 8 + address % 8] : store[address];
}

/* Compares look and copy with that, in the middle of a run; store and record do not change. */
static int seen(given *g)
{
    memcpy(g->copy, g->piece, g->bytes_of_piece);
    int good = trm_copy(*g->machine, LENT_PROGRAM(g), LENT_STORE(g), g->buffer, BIG) == TRM_ACCEPTED;
    for (uint32_t a = 0; a < BIG; a++) {
        uint32_t word = in_memory(g->machine, g->store, a);
        trm_look_answer look = trm_look(*g->machine, LENT_PROGRAM(g), LENT_STORE(g), a + BIG * (a % 3));
        good = good && g->buffer[a] == word && look.number == 0 && look.word == word;
    }
    memset(g->buffer, 0xA5, 4 * BIG);
    return good && memcmp(g->copy, g->piece, g->bytes_of_piece) == 0;
}

static void note(met *m, const trm_machine *before, uint8_t line_byte, uint8_t byte)
{
    m->phases |= 1u << before->phase;
    m->modes |= 1u << (before->status >> 2 & 1);
    m->held += line_byte >> 2;
    m->reads += byte & 1;
    m->writes += byte >> 1 & 1;
}

/* One clock by both entries: g has the lent record and its store after it; `beside` is the store of the other. */
static int same_clock(given *g, uint32_t *beside, size_t at, met *m, uint64_t *finished)
{
    trm_machine before = *g->machine;
    trm_clock_answer a = trm_clock(g->machine, LENT_PROGRAM(g), LENT_STORE(g), g->line_bytes[at], g->inputs[at]);
    trm_clock_value_answer b = trm_clock_value(before, LENT_PROGRAM(g), beside, BIG, g->line_bytes[at], g->inputs[at]);
    note(m, &before, g->line_bytes[at], a.byte);
    g->bytes[at] = a.byte;
    g->words[at] = a.word;
    *finished += a.finished;
    return a.number == 0 && b.number == 0 && a.byte == b.byte && a.word == b.word && a.finished == b.finished &&
           memcmp(g->machine, &b.machine, sizeof before) == 0 && memcmp(g->store, beside, 4 * BIG) == 0;
}

/* A run of the same clocks ends with the same record and store; it writes the same answers and nothing after them. */
static int same_run(given *g, trm_machine first, uint32_t *beside, uint64_t finished)
{
    static uint8_t bytes[CLOCKS + SPARE];
    static uint32_t words[CLOCKS + SPARE];
    memset(bytes, 0xA5, sizeof bytes);
    memset(words, 0xA5, sizeof words);
    trm_run_answer r = trm_run(first, LENT_PROGRAM(g), beside, BIG, g->line_bytes, CLOCKS, g->inputs, CLOCKS, bytes, CLOCKS, words, CLOCKS);
    int past = 0;
    for (int i = CLOCKS; i < CLOCKS + SPARE; i++)
        past |= bytes[i] != 0xA5 || words[i] != 0xA5A5A5A5;
    return r.number == 0 && r.used == CLOCKS && r.finished == finished && !past && memcmp(bytes, g->bytes, CLOCKS) == 0 &&
           memcmp(words, g->words, 4 * CLOCKS) == 0 && memcmp(&r.machine, g->machine, sizeof first) == 0 &&
           memcmp(g->store, beside, 4 * BIG) == 0;
}

/* Lines by chance: a quarter of the clocks held, interrupts seldom. */
static void draw_line_bytes(given *g)
{
    for (size_t i = 0; i < CLOCKS; i++) {
        uint32_t dice = chance();
        g->line_bytes[i] = (uint8_t)((dice % 4 == 0) << 2 | (dice / 4 % 32 == 0) << 1 | (dice / 128 % 32 == 0));
        g->inputs[i] = chance();
    }
}

static void test_round(size_t round, met *m)
{
    static uint32_t beside[BIG], start[BIG];
    given g = carved(WORDS, BIG, CLOCKS);
    uint64_t finished = 0;
    int clocks = 1, memory = 1;
    begin(&g, WORDS, BIG, CLOCKS);
    for (int i = 0; i < WORDS; i++)
        g.program[i] = chance() & 0x3FFFF;
    if (round == 0)
        write_program(g.program);
    draw_line_bytes(&g);
    trm_machine first = *g.machine;
    memcpy(start, g.store, sizeof start);
    memcpy(beside, g.store, sizeof beside);
    for (size_t at = 0; at < CLOCKS && clocks; at++) {
        clocks = same_clock(&g, beside, at, m, &finished);
        memory = memory && (at % 16 != 0 || seen(&g));
    }
    hold(clocks, "S2.32 the lent clock and the clock by value, round", round);
    hold(memory, "S2.35 look and copy, round", round);
    hold(same_run(&g, first, start, finished), "S2.33 the run, round", round);
    m->refills += g.machine->refills;
    m->writebacks += g.machine->writebacks;
    let_go(&g);
}

void test_clocks(void)
{
    met m = {0, 0, 0, 0, 0, 0, 0};
    test_round(0, &m);
    hold(m.phases == 0x3F && m.modes == 3, "S2.25 every phase and both modes are met", m.phases);
    hold(m.held && m.reads && m.writes && m.refills && m.writebacks, "S2.29 every count moves", m.phases);
    for (size_t round = 1; round < ROUNDS; round++)
        test_round(round, &m);
    printf("S2.32 side by side: %d clocks, %u held, %u device reads, %u device writes, %llu refills, %llu write-backs\n", ROUNDS * CLOCKS,
           m.held, m.reads, m.writes, (unsigned long long)m.refills, (unsigned long long)m.writebacks);
}
