/*
 * Decode, encode and the watch: every word, every field at its limit, every device.
 * Paper: "What a programmer sees", the formats; rows 3, 9 and 10 of the refusals; "the watch names a clock, from 0".
 * Called: by edges.c.
 */
#include <string.h>

#include "edges.h"

/* Encodes an instruction by the paper's formats. */
static uint32_t written(trm_instruction i)
{
    uint32_t d = i.d << 11;
    switch (i.form) {
    case TRM_FORM_REGISTER:
        return i.operation << 14 | d | 1 << 10 | i.s;
    case TRM_FORM_LITERAL:
        return i.operation << 14 | d | i.value;
    case TRM_FORM_MOVE_H:
        return d | 1 << 10 | 1 << 3;
    case TRM_FORM_STATUS:
        return 11 << 14 | i.value;
    case TRM_FORM_JUMP:
        return 11 << 14 | 1 << 10 | i.s;
    case TRM_FORM_LINK:
        return 11 << 14 | d | 1 << 10 | 2 << 8 | i.s;
    case TRM_FORM_RTI:
        return 11 << 14 | 1 << 10 | 1 << 8 | i.s;
    case TRM_FORM_LOAD:
        return 12 << 14 | d | i.value << 3 | i.s;
    case TRM_FORM_STORE:
        return 13 << 14 | d | i.value << 3 | i.s;
    case TRM_FORM_BRANCH:
        return 14 << 14 | i.condition << 10 | i.value;
    default:
        return 15 << 14 | i.value;
    }
}

/* Each word's instruction is written as the paper says and read back; the formats have 144,168 instructions. */
static void test_all_words(void)
{
    size_t same = 0, odd = 0;
    for (uint32_t word = 0; word <= 0x3FFFF; word++) {
        trm_decode_answer a = trm_decode(word);
        trm_encode_answer b = trm_encode(a.instruction);
        trm_decode_answer c = trm_decode(b.word);
        odd += a.number || b.number || c.number || b.word != written(a.instruction) ||
               memcmp(&a.instruction, &c.instruction, sizeof a.instruction) != 0;
        same += b.word == word;
    }
    hold(odd == 0, "S1.4 words decoded, encoded and decoded", odd);
    hold(same == 144168, "S1.30 words without an unused bit", same);
    for (int bit = 18; bit < 32; bit++) {
        trm_decode_answer a = trm_decode(1u << bit);
        hold(a.number == TRM_REFUSED_PROGRAM && all_zero(&a.instruction, sizeof a.instruction), "S3.5 a lone word with bit", (size_t)bit);
    }
}

/* The largest value of each field of each form: operation, condition, d, s, value. */
static const uint32_t MOST[11][5] = {
    {10, 0, 7, 7, 0}, {10, 0, 7, 0, 1023}, {0, 0, 7, 0, 0},  {0, 0, 0, 0, 15},    {0, 0, 0, 7, 0}, {0, 0, 7, 7, 0},
    {0, 0, 0, 7, 0},  {0, 0, 7, 7, 255},   {0, 0, 7, 7, 255}, {0, 15, 0, 0, 1023}, {0, 0, 0, 0, 4095},
};

/* Encodes a form with its largest fields, one of them changed. */
static trm_encode_answer with_field(uint32_t form, int at, uint32_t value)
{
    uint32_t f[5];
    memcpy(f, MOST[form], sizeof f);
    f[at] = value;
    trm_instruction i = {form, f[0], f[1], f[2], f[3], f[4]};
    return trm_encode(i);
}

static void test_field(uint32_t form, int at)
{
    uint32_t most = MOST[form][at];
    for (int bit = 0; bit < 33; bit++) {
        uint32_t value = bit < 32 ? 1u << bit : most + 1;
        trm_encode_answer a = with_field(form, at, value);
        int refused = a.number == TRM_REFUSED_INSTRUCTION && a.word == 0;
        hold(value <= most ? a.number == TRM_ACCEPTED : refused, "S3.12 a field of form", form);
    }
}

static void test_fields(void)
{
    for (uint32_t form = 0; form <= 10; form++) {
        hold(with_field(form, 0, MOST[form][0]).number == TRM_ACCEPTED, "S3.12 the largest fields of form", form);
        for (int at = 0; at < 5; at++)
            test_field(form, at);
    }
    for (uint32_t form = 11; form != 0; form *= 2) {
        trm_instruction i = {form, 0, 0, 0, 0, 0};
        trm_encode_answer a = trm_encode(i);
        hold(a.number == TRM_REFUSED_INSTRUCTION && a.word == 0, "S3.12 form", form);
    }
}

static int nowhere(trm_watch_answer a)
{
    return a.number == TRM_ACCEPTED && !a.found && a.clock == 0;
}

static int at_clock(trm_watch_answer a, uint64_t clock)
{
    return a.number == TRM_ACCEPTED && a.found == 1 && a.clock == clock;
}

static void test_device(uint32_t device)
{
    uint8_t bytes[300], written_byte = (uint8_t)(device << 2 | TRM_ANSWER_WRITE);
    memset(bytes, (int)(device << 2 | TRM_ANSWER_READ), sizeof bytes);
    hold(nowhere(trm_watch(bytes, sizeof bytes, device)), "S2.37 reads only, device", device);
    memset(bytes, written_byte ^ 4, sizeof bytes);
    hold(nowhere(trm_watch(bytes, sizeof bytes, device)), "S2.37 another's writes, device", device);
    bytes[299] = written_byte;
    hold(at_clock(trm_watch(bytes, sizeof bytes, device), 299), "S2.37 one write at the end, device", device);
    hold(nowhere(trm_watch(bytes, 299, device)), "S2.37 one write past the end, device", device);
    bytes[0] = written_byte;
    trm_watch_answer either = trm_watch(bytes, sizeof bytes, device);
    hold(at_clock(either, 0) || at_clock(either, 299), "S2.37 two writes, device", device);
}

static void test_watch(void)
{
    uint8_t bytes[4] = {2, 2, 2, 2};
    for (uint32_t device = 0; device < 64; device++)
        test_device(device);
    for (uint32_t device = 64; device != 0; device *= 2) {
        trm_watch_answer a = trm_watch(bytes, sizeof bytes, device);
        hold(a.number == TRM_REFUSED_ADDRESS && !a.found && a.clock == 0, "S3.11 device", device);
    }
    hold(nowhere(trm_watch(NULL, 0, 63)), "S2.37 no answer bytes", 0);
    hold(trm_watch(NULL, 0, 64).number == TRM_REFUSED_ADDRESS, "S3.11 no answer bytes, device 64", 0);
}

void test_words(void)
{
    test_all_words();
    test_fields();
    test_watch();
}
