/*
 * A board with the machine, a serial receiver, a converter and a memory chip: which oscillator and which memory does it need?
 * Paper: the clock table, the calls and their refusals. README.md in this folder works out every number that is printed.
 * Build: cc -std=c99 examples/c/board.c -I include target/staticlib/libtrm.a; C++ compilers take it too.
 */
#include <inttypes.h>
#include <stdio.h>
#include <stdlib.h>
#include <string.h>

#include "trm.h"

enum { RECEIVER = 3, CONVERTER = 5, LAMP = 6 };                /* devices */
enum { RESULTS = 16, SAMPLES = 12 };                           /* where the results begin, and how many there are */
enum { PROGRAM_WORDS = 19, LAST_WORD = 18, MOST_WORDS = 256 }; /* of the program, and of a memory chip */
enum { SILENT = 14, RUN_CLOCKS = 1200 };                       /* clocks before the first sample; clocks of a run */
enum { SAMPLES_A_SECOND = 11520 };                             /* 115,200 baud, ten bits to a sample */

typedef struct board {
    trm_machine machine;
    uint32_t program[PROGRAM_WORDS];
    uint32_t store[MOST_WORDS];
    uint32_t memory[MOST_WORDS]; /* room for a copy */
    size_t words;                /* the words of the store that the chip has */
} board;

/* Ends the program if a call was refused that should have been accepted. */
static void must(uint32_t number, const char *what)
{
    if (number != TRM_ACCEPTED) {
        printf("%s: refused %" PRIu32 "\n", what, number);
        exit(1);
    }
}

/* ---- The program of the board, made and listed */

static uint32_t word_of(uint32_t form, uint32_t operation, uint32_t condition, uint32_t d, uint32_t s, uint32_t value)
{
    trm_instruction instruction = {form, operation, condition, d, s, value};
    trm_encode_answer answer = trm_encode(instruction);
    must(answer.number, "encode");
    return answer.word;
}

static uint32_t status(uint32_t value)
{
    return word_of(TRM_FORM_STATUS, 0, 0, 0, 0, value);
}

static uint32_t literal(uint32_t operation, uint32_t d, uint32_t value)
{
    return word_of(TRM_FORM_LITERAL, operation, 0, d, 0, value);
}

static uint32_t registers(uint32_t operation, uint32_t d, uint32_t s)
{
    return word_of(TRM_FORM_REGISTER, operation, 0, d, s, 0);
}

static uint32_t load(uint32_t d, uint32_t s, uint32_t offset)
{
    return word_of(TRM_FORM_LOAD, 0, 0, d, s, offset);
}

static uint32_t store(uint32_t d, uint32_t s, uint32_t offset)
{
    return word_of(TRM_FORM_STORE, 0, 0, d, s, offset);
}

/* The offset counts from the next word and has ten bits. */
static uint32_t branch(uint32_t condition, uint32_t at, uint32_t target)
{
    return word_of(TRM_FORM_BRANCH, 0, condition, 0, 0, (target - at - 1) & 0x3FF);
}

/* Reads samples x, and stores and sends 5 x + the x before; the samples are stored `behind` words after the results. */
static void write_program(uint32_t *program, uint32_t behind)
{
    const uint32_t words[PROGRAM_WORDS] = {
        status(8),                    /* 000 cache on */
        literal(TRM_SUB, 1, 64),      /* 001 R1 := -64, the address of device 0 */
        literal(TRM_MOV, 3, RESULTS), /* 002 R3: the address of the next result */
        literal(TRM_MOV, 5, SAMPLES), /* 003 R5: samples to come */
        load(0, 1, RECEIVER),         /* 004 its word is 0 while it has no sample */
        literal(TRM_AND, 0, 255),     /* 005 */
        branch(TRM_IF_Z, 6, 4),       /* 006 */
        registers(TRM_MOV, 2, 0),     /* 007 */
        literal(TRM_MUL, 2, 5),       /* 008 */
        registers(TRM_ADD, 2, 4),     /* 009 R4: the sample before */
        registers(TRM_MOV, 4, 0),     /* 00A */
        store(2, 3, 0),               /* 00B stores the result */
        store(0, 3, behind),          /* 00C stores the sample */
        literal(TRM_ADD, 3, 1),       /* 00D */
        store(2, 1, CONVERTER),       /* 00E sends the result */
        literal(TRM_SUB, 5, 1),       /* 00F */
        branch(TRM_IF_NOT_Z, 16, 4),  /* 010 */
        store(2, 1, LAMP),            /* 011 all done */
        branch(TRM_ALWAYS, 18, 18),   /* 012 */
    };
    memcpy(program, words, sizeof words);
}

static void print_instruction(uint32_t at, trm_instruction i)
{
    static const char *const operations[] = {"MOV", "NOT", "ADD", "SUB", "AND", "BIC", "OR", "XOR", "MUL", "DIV", "ROR"};
    static const char *const conditions[] = {"EQ", "NE", "CS", "CC", "MI", "PL", "VS", "VC",
                                             "HI", "LS", "GE", "LT", "GT", "LE", "",   "NV"};
    uint32_t target = (at + 1 + i.value - (i.value & 0x200) * 2) & 0xFFF;
    switch (i.form) {
    case TRM_FORM_REGISTER:
        printf("%s R%" PRIu32 ", R%" PRIu32 "\n", operations[i.operation], i.d, i.s);
        break;
    case TRM_FORM_LITERAL:
        printf("%s R%" PRIu32 ", %" PRIu32 "\n", operations[i.operation], i.d, i.value);
        break;
    case TRM_FORM_STATUS:
        printf("LDPSR %" PRIu32 "\n", i.value);
        break;
    case TRM_FORM_LOAD:
    case TRM_FORM_STORE:
        printf("%s R%" PRIu32 ", [R%" PRIu32 "+%" PRIu32 "]\n", i.form == TRM_FORM_LOAD ? "LD" : "ST", i.d, i.s, i.value);
        break;
    case TRM_FORM_BRANCH:
        printf("B%s %03" PRIX32 "\n", conditions[i.condition], target);
        break;
    default:
        printf("form %" PRIu32 "\n", i.form);
    }
}

static void print_program(const uint32_t *program)
{
    for (uint32_t at = 0; at < PROGRAM_WORDS; at++) {
        trm_decode_answer answer = trm_decode(program[at]);
        must(answer.number, "decode");
        printf("%03" PRIX32 " %05" PRIX32 " ", at, program[at]);
        print_instruction(at, answer.instruction);
    }
}

/* A board after reset, with an empty memory chip of `words` words. */
static void build(board *b, uint32_t behind, size_t words)
{
    write_program(b->program, behind);
    memset(b->store, 0, sizeof b->store);
    b->words = words;
    trm_reset_answer answer = trm_reset(b->store, words);
    must(answer.number, "reset");
    b->machine = answer.machine;
}

/* ---- The oscillator: clock by clock, with the record lent */

typedef struct job {
    uint64_t instructions, results;
    uint64_t last;    /* the clock of the last result */
    uint64_t slowest; /* clocks from one result to the next, at most */
    uint32_t result;
} job;

static void note_result(job *j, uint64_t clock, uint32_t result)
{
    if (j->results > 0 && clock - j->last > j->slowest)
        j->slowest = clock - j->last;
    j->results++;
    j->last = clock;
    j->result = result;
}

/* Processes all samples, until the lamp is lit. Every clock whose number `refresh` divides is held; with 0 none is. */
static job work(board *b, uint64_t refresh)
{
    job j = {0, 0, 0, 0, 0};
    uint32_t sample = 1; /* the receiver has the samples 1, 2, 3 and so on */
    trm_clock_answer answer;
    do {
        uint64_t clock = b->machine.clocks + 1;
        uint8_t line_byte = refresh && clock % refresh == 0 ? TRM_LINE_STALL : 0;
        uint32_t input = clock > SILENT ? sample : 0;
        answer = trm_clock(&b->machine, b->program, PROGRAM_WORDS, b->store, b->words, line_byte, input);
        must(answer.number, "clock");
        j.instructions += answer.finished;
        if (answer.byte == (RECEIVER * 4 | TRM_ANSWER_READ) && answer.word != 0)
            sample++;
        if (answer.byte == (CONVERTER * 4 | TRM_ANSWER_WRITE))
            note_result(&j, clock, answer.word);
    } while (answer.byte != (LAMP * 4 | TRM_ANSWER_WRITE));
    return j;
}

/* The slowest oscillator that processes a sample before the next one comes. */
static void choose_oscillator(const char *memory, uint64_t refresh)
{
    enum { OFFERED = 4 };
    static const uint64_t offered[OFFERED] = {800, 1000, 1600, 2000}; /* kHz */
    board b;
    build(&b, 64, 128);
    job j = work(&b, refresh);
    uint64_t needed = j.slowest * SAMPLES_A_SECOND;
    size_t i = 0;
    while (i < OFFERED - 1 && offered[i] * 1000 < needed)
        i++;
    printf("%s: %" PRIu64 " clocks, %" PRIu64 " held; ", memory, b.machine.clocks, b.machine.held);
    printf("%" PRIu64 " instructions, %" PRIu64 " results, the last %" PRIu32 "\n", j.instructions, j.results, j.result);
    printf("  slowest sample %" PRIu64 " clocks: %" PRIu64 " Hz needed, ", j.slowest, needed);
    printf("oscillator of %" PRIu64 " kHz\n", offered[i]);
}

/* ---- The memory chip: runs of many clocks, and what they leave in memory */

/* One run from a reset, with a sample of 7 always waiting; the clock that lights the lamp shows how long the work takes. */
static void try_chip(board *b, uint32_t behind, size_t words)
{
    static uint8_t line_bytes[RUN_CLOCKS], bytes[RUN_CLOCKS];
    static uint32_t inputs[RUN_CLOCKS], moved[RUN_CLOCKS];
    build(b, behind, words);
    for (int i = 0; i < RUN_CLOCKS; i++)
        inputs[i] = 7;
    trm_run_answer run = trm_run(b->machine, b->program, PROGRAM_WORDS, b->store, words, line_bytes, RUN_CLOCKS, inputs, RUN_CLOCKS,
                                 bytes, RUN_CLOCKS, moved, RUN_CLOCKS);
    must(run.number, "run");
    b->machine = run.machine;
    trm_watch_answer lamp = trm_watch(bytes, RUN_CLOCKS, LAMP);
    must(lamp.number, "watch");
    printf("%u words, samples %" PRIu32 " behind: ", (unsigned)words, behind);
    if (lamp.found)
        printf("lamp in clock %" PRIu64 " with %" PRIu32 "; ", lamp.clock + 1, moved[lamp.clock]);
    printf("%" PRIu64 " refills, %" PRIu64 " write-backs\n", run.machine.refills, run.machine.writebacks);
    printf("  %" PRIu64 " clocks, %" PRIu64 " instructions\n", run.used, run.finished);
}

static uint32_t sum_of_results(const uint32_t *memory)
{
    uint32_t sum = 0;
    for (int i = 0; i < SAMPLES; i++)
        sum += memory[RESULTS + i];
    return sum;
}

/* What the machine has in memory, and what of it is in the chip: the words of a dirty cache line are not there yet. */
static void print_memory(board *b)
{
    trm_look_answer look = trm_look(b->machine, b->program, PROGRAM_WORDS, b->store, b->words, RESULTS);
    must(look.number, "look");
    must(trm_copy(b->machine, b->program, PROGRAM_WORDS, b->store, b->words, b->memory, b->words), "copy");
    printf("  word %d: %" PRIu32 " in memory, %" PRIu32 " in the chip; ", RESULTS, look.word, b->store[RESULTS]);
    printf("sum of results: %" PRIu32 " and %" PRIu32 "\n", sum_of_results(b->memory), sum_of_results(b->store));
}

/* Turns the cache off by a new last word; the power must stay on for that many clocks. */
static void power_down(board *b)
{
    uint64_t from = b->machine.clocks;
    trm_clock_answer answer;
    b->program[LAST_WORD] = status(0);
    do {
        answer = trm_clock(&b->machine, b->program, PROGRAM_WORDS, b->store, b->words, 0, 0);
        must(answer.number, "clock");
    } while (!answer.finished);
    printf("cache off: %" PRIu64 " clocks, %" PRIu64 " write-backs\n", b->machine.clocks - from, b->machine.writebacks);
}

static void choose_memory(void)
{
    board b;
    try_chip(&b, 128, 256);
    try_chip(&b, 64, 128);
    print_memory(&b);
    power_down(&b);
    print_memory(&b);
}

/* ---- Images and refusals */

static void check_images(void)
{
    uint8_t image[] = {
        0x0C, 0, 0, 0, 1, 0,                         /* kind 1, 12 bytes: */
        5, 0, 0, 0, 3, 0, 2, 0, 0xFF, 0xBB, 3, 0,    /* the words 00005, 20003, 3BBFF */
        9, 0, 0, 0, 3, 0,                            /* kind 3, 9 bytes: */
        0x28, 0, 0, 0, 0, 0, 0, 0, 0,                /* 40 clocks, line byte 0, input word 0 */
    };
    trm_image_answer answer = trm_image_check(image, sizeof image, 2048);
    must(answer.number, "the paper's image");
    printf("the paper's image: accepted\n");
    image[28] = 8; /* the run's line byte */
    answer = trm_image_check(image, sizeof image, 2048);
    printf("with a line byte of 8: refused %" PRIu32 ", the record at byte %" PRIu64 "\n", answer.number, answer.at);
}

static void print_refusal(const char *what, uint32_t number, const board *now, const board *before)
{
    int same = memcmp(now, before, sizeof *now) == 0;
    printf("%s: refused %" PRIu32 ", %s\n", what, number, same ? "nothing changed" : "CHANGED");
}

/* Calls that are refused, on a board and a copy of it. */
static void show_refusals(void)
{
    board b, before;
    memset(&b, 0, sizeof b);
    build(&b, 64, 128);
    memcpy(&before, &b, sizeof b);
    trm_clock_answer line_byte = trm_clock(&b.machine, b.program, PROGRAM_WORDS, b.store, b.words, 8, 0);
    print_refusal("a line byte of 8", line_byte.number, &b, &before);
    trm_clock_answer chip = trm_clock(&b.machine, b.program, PROGRAM_WORDS, b.store, 64, 0, 0);
    print_refusal("another chip than at reset", chip.number, &b, &before);
    trm_look_answer look = trm_look(b.machine, b.program, PROGRAM_WORDS, b.store, b.words, 0xFFC0);
    print_refusal("a look at device 0", look.number, &b, &before);
    uint32_t copy = trm_copy(b.machine, b.program, PROGRAM_WORDS, b.store, b.words, b.memory, 127);
    print_refusal("a copy of 127 words", copy, &b, &before);
    b.machine.z = before.machine.z = 2;
    trm_clock_answer record = trm_clock(&b.machine, b.program, PROGRAM_WORDS, b.store, b.words, 0, 0);
    print_refusal("a flag of 2 in the record", record.number, &b, &before);
    trm_instruction ninth = {TRM_FORM_REGISTER, TRM_MOV, 0, 8, 0, 0};
    print_refusal("a register R8", trm_encode(ninth).number, &b, &before);
}

int main(void)
{
    uint32_t program[PROGRAM_WORDS];
    if (trm_record_size() != sizeof(trm_machine) || trm_record_version() != TRM_RECORD_VERSION) {
        printf("the library is not the header's\n");
        return 1;
    }
    printf("record: %u bytes, version %" PRIu32 "\n\nThe program\n", (unsigned)trm_record_size(), trm_record_version());
    write_program(program, 64);
    print_program(program);
    printf("\nThe oscillator, at %d samples a second\n", SAMPLES_A_SECOND);
    choose_oscillator("static memory", 0);
    choose_oscillator("memory refreshed every 8 clocks", 8);
    printf("\nThe memory chip\n");
    choose_memory();
    printf("\nImages and refusals\n");
    check_images();
    show_refusals();
    return 0;
}
