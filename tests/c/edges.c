/*
 * Tests the C interface of libtrm.a: here lengths of 0, any bytes as a record, every set of faults, the limits; the other files the rest.
 * Paper: "Where calls are turned down", and the limits among its bench cases. The numbers expected are the paper's.
 * Called: tests/c/run compiles the files of tests/c as C11 and runs them. The last line is `N passed, M failed`; ends with 1 if one failed.
 */
#include <stdio.h>
#include <string.h>

#include "edges.h"

/* ---- Lengths of 0, with NULL */

static void test_empty_calls(void)
{
    given g = carved(4, 64, 3);
    begin(&g, 0, 64, 3);
    expect_all(&g, TRM_REFUSED_PROGRAM, "S3.5 no program", 0);
    begin(&g, 4, 64, 3);
    g.store_words = 0;
    expect_all(&g, TRM_REFUSED_STORE, "S3.6 no store", 0);
    begin(&g, 0, 64, 0);
    g.store_words = g.buffer_words = 0;
    expect_all(&g, TRM_REFUSED_PROGRAM, "S3.1 nothing at all", 0);
    begin(&g, 4, 64, 3);
    g.buffer_words = 0;
    expect(COPY, &g, TRM_REFUSED_BUFFERS, "S3.9 no buffer", 0);
    let_go(&g);
}

static void test_empty_runs(void)
{
    given g = carved(4, 64, 3);
    begin(&g, 4, 64, 0);
    expect(RUN, &g, TRM_ACCEPTED, "S5.17 a run of 0", 0);
    hold(memcmp(g.copy, g.piece, g.bytes_of_piece) == 0, "S2.33 a run of 0 leaves everything", 0);
    g.inputs_length = 1;
    expect(RUN, &g, TRM_REFUSED_LINE_BYTES, "S3.8 a run of 0 with an input word", 0);
    begin(&g, 4, 64, 0);
    g.bytes_length = 1;
    expect(RUN, &g, TRM_REFUSED_BUFFERS, "S3.9 a run of 0 with an answer byte", 0);
    begin(&g, 4, 64, 3);
    g.line_bytes_length = 0;
    expect(RUN, &g, TRM_REFUSED_LINE_BYTES, "S3.8 no line bytes", 0);
    begin(&g, 4, 64, 3);
    g.inputs_length = 0;
    expect(RUN, &g, TRM_REFUSED_LINE_BYTES, "S3.8 no inputs", 0);
    begin(&g, 4, 64, 3);
    g.bytes_length = 0;
    expect(RUN, &g, TRM_REFUSED_BUFFERS, "S3.9 no bytes", 0);
    begin(&g, 4, 64, 3);
    g.words_length = 0;
    expect(RUN, &g, TRM_REFUSED_BUFFERS, "S3.9 no words", 0);
    let_go(&g);
}

/* A refused reset: the record is zero, and no call takes it with any store. */
static void test_empty_reset(void)
{
    given g = carved(4, 32768, 3);
    trm_reset_answer a = trm_reset(NULL, 0);
    hold(a.number == TRM_REFUSED_STORE && all_zero(&a.machine, sizeof a.machine), "S3.6 a reset without a store", 0);
    for (size_t words = 64; words <= 32768; words *= 2) {
        begin(&g, 4, words, 3);
        *g.machine = a.machine;
        expect_all(&g, TRM_REFUSED_STORE, "S3.6 the record of a refused reset", words);
    }
    begin(&g, 4, 64, 3);
    *g.machine = a.machine;
    g.store_words = g.buffer_words = 0;
    expect_all(&g, TRM_REFUSED_STORE, "S3.6 the record of a refused reset, no store", 0);
    let_go(&g);
}

/* ---- Any bytes as a record */

static void test_any_bytes(void)
{
    given g = carved(4, 64, 3);
    for (size_t round = 0; round < 500; round++) {
        begin(&g, 4, 64, 3);
        if (round == 0)
            memset(g.machine, 0xFF, sizeof *g.machine);
        else
            chance_bytes(g.machine, sizeof *g.machine);
        expect_all(&g, TRM_REFUSED_STORE, "S3.6 bytes by chance", round);
        g.machine->size = 64;
        expect_all(&g, TRM_REFUSED_RECORD, "S3.7 bytes by chance, the size right", round);
    }
    let_go(&g);
}

/* The refusal of a reset record with a byte of FFH at this offset. */
static uint32_t judged(size_t at)
{
    if (at == offsetof(trm_machine, pc))
        return TRM_ACCEPTED; /* PC 255 */
    if (at >= offsetof(trm_machine, h) && at < offsetof(trm_machine, size))
        return TRM_ACCEPTED;
    if (at >= offsetof(trm_machine, size) && at < offsetof(trm_machine, clocks))
        return TRM_REFUSED_STORE;
    if (at >= offsetof(trm_machine, clocks) && at < offsetof(trm_machine, clocks) + 4)
        return TRM_ACCEPTED; /* the count fits 32 bits */
    if (at >= offsetof(trm_machine, regs) && at < offsetof(trm_machine, full))
        return TRM_ACCEPTED;
    return at >= offsetof(trm_machine, words) ? TRM_ACCEPTED : TRM_REFUSED_RECORD;
}

static void test_each_byte(void)
{
    given g = carved(4, 64, 3);
    for (size_t at = 0; at < sizeof(trm_machine); at++) {
        begin(&g, 4, 64, 3);
        ((uint8_t *)g.machine)[at] = 0xFF;
        expect_all(&g, judged(at), "S3.7 a byte of FFH in the record", at);
    }
    let_go(&g);
}

/* ---- Every set of faults at once: the first row counts */

static void make_faults(given *g, unsigned faults)
{
    begin(g, 4, 64, 3);
    if (faults & 1u << TRM_REFUSED_PROGRAM)
        g->program[3] = 0x40000;
    if (faults & 1u << TRM_REFUSED_STORE)
        g->store_words = 63;
    if (faults & 1u << TRM_REFUSED_RECORD)
        g->machine->z = 2;
    if (faults & 1u << TRM_REFUSED_LINE_BYTES)
        g->line_byte = g->line_bytes[2] = 8;
    if (faults & 1u << TRM_REFUSED_BUFFERS)
        g->words_length = g->buffer_words = 2;
    if (faults & 1u << TRM_REFUSED_CLOCKS)
        g->machine->clocks = 0xFFFFFFFF;
    if (faults & 1u << TRM_REFUSED_ADDRESS)
        g->address = 0xFFC0;
}

static void test_rows(void)
{
    /* the rows of each call, a bit for each: 3 to 6 and 8; the same; 3 to 8; 3 to 5 and 9; 3 to 5 and 7 */
    static const unsigned rows[CALLS] = {0x178, 0x178, 0x1F8, 0x238, 0x0B8};
    given g = carved(4, 64, 3);
    for (int which = 0; which < CALLS; which++)
        for (unsigned faults = 0; faults < 1u << 10; faults += 8) {
            uint32_t first = 3;
            while (first < 10 && !(faults & rows[which] & 1u << first))
                first++;
            make_faults(&g, faults);
            expect(which, &g, first < 10 ? first : 0, "S3.1 faults", faults);
        }
    let_go(&g);
}

/* ---- Limits */

static void test_program(void)
{
    given g = carved(4097, 32768, 3);
    begin(&g, 4096, 32768, 3);
    g.program[4095] = 0x3FFFF;
    expect_all(&g, TRM_ACCEPTED, "S5.13 4,096 words, 3FFFFH, a store of 32,768", 0);
    begin(&g, 4097, 64, 3);
    expect_all(&g, TRM_REFUSED_PROGRAM, "S5.19 4,097 words", 0);
    begin(&g, 4096, 64, 3);
    g.program[4095] = 0x40000;
    expect_all(&g, TRM_REFUSED_PROGRAM, "S5.20 40000H", 0);
    begin(&g, 1, 64, 3);
    g.program[0] = 0xFFFFFFFF;
    expect_all(&g, TRM_REFUSED_PROGRAM, "S3.5 FFFFFFFFH", 0);
    begin(&g, 1, 64, 3);
    expect_all(&g, TRM_ACCEPTED, "S5.15 1 word, a store of 64", 0);
    let_go(&g);
}

static void test_store(void)
{
    static const size_t others[] = {1, 32, 63, 65, 128, 32768, 65536};
    given g = carved(1, 65536, 3);
    unsigned accepted = 0, refused = 0;
    for (size_t i = 0; i < sizeof others / sizeof *others; i++) {
        begin(&g, 1, 64, 3);
        g.store_words = others[i];
        expect_all(&g, TRM_REFUSED_STORE, "S3.6 reset with 64, then a store of", others[i]);
    }
    for (size_t words = 0; words <= 65536; words++) {
        trm_reset_answer a = trm_reset(g.store, words);
        trm_machine zero = a.machine;
        zero.size = 0;
        accepted += a.number == TRM_ACCEPTED && a.machine.size == words && all_zero(&zero, sizeof zero);
        refused += a.number == TRM_REFUSED_STORE && all_zero(&a.machine, sizeof a.machine);
    }
    hold(accepted == 10, "S3.6 64, 128 and so on to 32,768: accepted", accepted);
    hold(refused == 65537 - 10, "S3.6 all other lengths: refused", refused);
    let_go(&g);
}

static void test_runs(void)
{
    given g = carved(1, 65, 65537);
    begin(&g, 1, 64, 65536);
    expect(RUN, &g, TRM_ACCEPTED, "S5.18 a run of 65,536", 0);
    begin(&g, 1, 64, 65537);
    expect(RUN, &g, TRM_REFUSED_LINE_BYTES, "S5.23 a run of 65,537", 0);
    for (size_t other = 1; other <= 3; other += 2) {
        begin(&g, 1, 64, 2);
        g.inputs_length = other;
        expect(RUN, &g, TRM_REFUSED_LINE_BYTES, "S3.8 2 line bytes, and input words", other);
        begin(&g, 1, 64, 2);
        g.bytes_length = other;
        expect(RUN, &g, TRM_REFUSED_BUFFERS, "S3.9 2 lines, and answer bytes", other);
        begin(&g, 1, 64, 2);
        g.words_length = other;
        expect(RUN, &g, TRM_REFUSED_BUFFERS, "S3.9 2 lines, and answer words", other);
        begin(&g, 1, 64, 2);
        g.buffer_words = 62 + other;
        expect(COPY, &g, TRM_REFUSED_BUFFERS, "S3.9 a store of 64, and a copy of", g.buffer_words);
    }
    let_go(&g);
}

static void test_line_bytes(void)
{
    given g = carved(1, 64, 300);
    for (unsigned line_byte = 0; line_byte < 256; line_byte++) {
        uint32_t number = line_byte > 7 ? TRM_REFUSED_LINE_BYTES : TRM_ACCEPTED;
        begin(&g, 1, 64, 300);
        g.line_byte = g.line_bytes[line_byte] = (uint8_t)line_byte;
        expect(RUN, &g, number, "S3.8 line byte", line_byte);
        expect(VALUE, &g, number, "S3.8 line byte", line_byte);
        expect(CLOCK, &g, number, "S3.8 line byte", line_byte);
    }
    let_go(&g);
}

static void test_clock_count(void)
{
    given g = carved(1, 64, 3);
    for (size_t clocks = 0; clocks <= 3; clocks++)
        for (uint64_t left = 0; left <= 3; left++) {
            begin(&g, 1, 64, clocks);
            g.machine->clocks = 0xFFFFFFFF - left;
            expect(RUN, &g, clocks > left ? TRM_REFUSED_CLOCKS : TRM_ACCEPTED, "S3.10 a run, clocks left", left);
            expect(VALUE, &g, left ? TRM_ACCEPTED : TRM_REFUSED_CLOCKS, "S3.10 a clock, clocks left", left);
            expect(LOOK, &g, TRM_ACCEPTED, "S3.10 a look, clocks left", left);
            expect(COPY, &g, TRM_ACCEPTED, "S3.10 a copy, clocks left", left);
            expect(CLOCK, &g, left ? TRM_ACCEPTED : TRM_REFUSED_CLOCKS, "S3.10 a clock, clocks left", left);
            hold(g.machine->clocks == 0xFFFFFFFF - left + (left > 0), "S3.10 the count after it", left);
        }
    let_go(&g);
}

static void test_addresses(void)
{
    static const uint32_t beyond[] = {0xFFC0, 0xFFFF, 0x10000, 0x10010, 0x7FFFFFFF, 0xFFFFFFFF};
    given g = carved(1, 64, 3);
    size_t right = 0;
    begin(&g, 1, 64, 3);
    for (size_t i = 0; i < sizeof beyond / sizeof *beyond; i++) {
        g.address = beyond[i];
        expect(LOOK, &g, TRM_REFUSED_ADDRESS, "S3.11 a look at", beyond[i]);
    }
    for (uint32_t address = 0; address <= 0xFFBF; address++) {
        trm_look_answer a = trm_look(*g.machine, LENT_PROGRAM(&g), LENT_STORE(&g), address);
        right += a.number == 0 && a.word == g.store[address % 64];
    }
    hold(right == 0xFFC0, "S2.35 looks at 0 to FFBFH", right);
    let_go(&g);
}

int main(void)
{
    test_layout();
    test_empty_calls();
    test_empty_runs();
    test_empty_reset();
    test_any_bytes();
    test_each_byte();
    test_rows();
    test_program();
    test_store();
    test_runs();
    test_line_bytes();
    test_clock_count();
    test_addresses();
    test_words();
    test_images();
    test_clocks();
    test_board_edges();
    test_board_limits();
    test_board_clocks();
    test_board_devices();
    test_board_line();
    test_board_joined();
    printf("%u passed, %u failed\n", passed, failed);
    return failed ? 1 : 0;
}
