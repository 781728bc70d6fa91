/*
 * The check of an image: the paper's example, cut and spoiled, and the records' order and lengths.
 * Paper: "Images and the listing program"; rows 1, 2, 3, 4 and 6 of the refusals, with the record's offset.
 * Called: by edges.c.
 */
#include <stdio.h>
#include <string.h>

#include "edges.h"

/* Three words, and a run of 40 clocks from byte 18 on. */
static const uint8_t PAPER[33] = {0x0C, 0, 0, 0, 1, 0, 5, 0, 0, 0, 3, 0, 2, 0, 0xFF, 0xBB, 3, 0, 9, 0, 0, 0, 3, 0, 0x28};

static void expect_image(const uint8_t *image, size_t bytes, size_t store, uint32_t number, uint64_t at, const char *what, size_t where)
{
    trm_image_answer a = trm_image_check(image, bytes, store);
    hold(a.number == number && a.at == at, what, where);
    if (a.number != number || a.at != at)
        printf("  gave %u at %llu\n", (unsigned)a.number, (unsigned long long)a.at);
}

static void test_cut(void)
{
    expect_image(NULL, 0, 2048, TRM_REFUSED_KIND, 0, "S3.4 an empty image", 0);
    expect_image(NULL, 0, 0, TRM_REFUSED_KIND, 0, "S3.4 an empty image, no store", 0);
    for (size_t bytes = 1; bytes <= sizeof PAPER; bytes++) {
        int whole = bytes == 18 || bytes == 33;
        expect_image(PAPER, bytes, 2048, whole ? 0 : TRM_REFUSED_IMAGE, whole || bytes < 18 ? 0 : 18, "S3.3 an image of bytes", bytes);
    }
}

/* The paper's image with one byte changed: offset of the byte, its value, the refusal, the offset of the record. */
static void test_spoiled(void)
{
    static const struct {
        uint8_t at, byte;
        uint32_t number;
        uint64_t record;
    } rows[] = {
        {0, 0, 1, 0},     {0, 11, 1, 0},   {0, 13, 1, 0},    {3, 1, 1, 0},   /* lengths of the program */
        {4, 0, 2, 0},     {4, 2, 2, 0},    {4, 4, 2, 0},     {5, 1, 2, 0},   /* its kind */
        {8, 4, 3, 0},     {16, 4, 3, 0},   {17, 1, 3, 0},                    /* its words */
        {18, 8, 1, 18},   {18, 10, 1, 18}, {21, 255, 1, 18},                 /* lengths of the run */
        {22, 1, 1, 18},   {22, 4, 2, 18},  {23, 1, 2, 18},                   /* its kind; kind 1 cannot have nine bytes */
        {24, 0, 1, 18},   {26, 1, 1, 18},  {27, 1, 1, 18},   {25, 255, 0, 0}, /* its count */
        {28, 8, 6, 18},   {28, 255, 6, 18}, {28, 7, 0, 0},   {32, 255, 0, 0}, /* its line byte and input word */
    };
    for (size_t i = 0; i < sizeof rows / sizeof *rows; i++) {
        uint8_t image[sizeof PAPER];
        memcpy(image, PAPER, sizeof image);
        image[rows[i].at] = rows[i].byte;
        expect_image(image, sizeof image, 2048, rows[i].number, rows[i].record, "S4.8 a spoiled image, row", i);
    }
}

/* Appends a record of zeros, for a run with a count of 1; returns where the next record begins. */
static size_t put(uint8_t *image, size_t at, uint8_t kind, size_t length)
{
    memset(image + at, 0, 6 + length);
    image[at] = (uint8_t)length;
    image[at + 1] = (uint8_t)(length >> 8);
    image[at + 4] = kind;
    if (kind == 3)
        image[at + 6] = 1;
    return at + 6 + length;
}

/* Records of these kinds and lengths, with a store of 64 words. */
static void test_records(void)
{
    static const struct {
        uint8_t kinds[3];
        size_t lengths[3];
        uint32_t number;
        uint64_t at;
    } rows[] = {
        {{1, 2, 3}, {4, 256, 9}, 0, 0},   {{1, 2, 3}, {4, 260, 9}, 1, 10},  {{1, 2, 3}, {4, 254, 9}, 1, 10},
        {{1, 2, 3}, {4, 0, 9}, 0, 0},     {{1, 3, 3}, {4, 9, 9}, 0, 0},     {{1, 2, 2}, {4, 8, 8}, 2, 24},
        {{1, 3, 2}, {4, 9, 8}, 2, 25},    {{1, 1, 3}, {4, 4, 9}, 2, 10},    {{2, 1, 3}, {8, 4, 9}, 2, 0},
        {{3, 1, 3}, {9, 4, 9}, 2, 0},     {{1, 3, 1}, {4, 9, 4}, 2, 25},    {{1, 2, 3}, {16384, 0, 9}, 0, 0},
        {{1, 2, 3}, {16388, 0, 9}, 1, 0}, {{1, 2, 3}, {4, 256, 8}, 1, 272}, {{1, 2, 4}, {4, 256, 9}, 2, 272},
    };
    static uint8_t image[20000];
    for (size_t i = 0; i < sizeof rows / sizeof *rows; i++) {
        size_t bytes = 0;
        for (int k = 0; k < 3; k++)
            bytes = put(image, bytes, rows[i].kinds[k], rows[i].lengths[k]);
        expect_image(image, bytes, 64, rows[i].number, rows[i].at, "S4.8 an image of three records, row", i);
    }
}

/* A store of 63 words: 4 at 0, before row 6 and every later record, but after rows 1, 2 and 3 of the first record. */
static void test_no_store(void)
{
    static const struct {
        uint8_t kinds[2];
        size_t lengths[2];
        size_t at;
        uint8_t byte;
        uint32_t number;
    } rows[] = {
        {{1, 3}, {4, 9}, 20, 8, TRM_REFUSED_STORE},   /* a line byte of 8 */
        {{1, 3}, {4, 9}, 16, 0, TRM_REFUSED_STORE},   /* a count of 0 */
        {{1, 3}, {4, 9}, 10, 10, TRM_REFUSED_STORE},  /* a record cut short */
        {{1, 1}, {4, 4}, 0, 4, TRM_REFUSED_STORE},    /* kind 1 again */
        {{1, 2}, {4, 260}, 0, 4, TRM_REFUSED_STORE},  /* 65 words of data */
        {{1, 3}, {4, 9}, 0, 5, TRM_REFUSED_IMAGE},    /* a program of 5 bytes */
        {{4, 3}, {4, 9}, 0, 4, TRM_REFUSED_KIND},     /* an unknown kind */
        {{1, 3}, {4, 9}, 8, 4, TRM_REFUSED_PROGRAM},  /* the word 40000H */
    };
    static uint8_t image[300];
    for (size_t i = 0; i < sizeof rows / sizeof *rows; i++) {
        size_t bytes = put(image, 0, rows[i].kinds[0], rows[i].lengths[0]);
        bytes = put(image, bytes, rows[i].kinds[1], rows[i].lengths[1]);
        image[rows[i].at] = rows[i].byte;
        expect_image(image, bytes, 63, rows[i].number, 0, "S3.6 an image for a store of 63 words, row", i);
    }
}

static void test_limits(void)
{
    static uint8_t zeros[65537];
    size_t accepted = 0, refused = 0;
    for (size_t words = 0; words <= 65536; words++) {
        trm_image_answer a = trm_image_check(PAPER, sizeof PAPER, words);
        accepted += a.number == TRM_ACCEPTED && a.at == 0;
        refused += a.number == TRM_REFUSED_STORE && a.at == 0;
    }
    hold(accepted == 10 && refused == 65537 - 10, "S3.6 an image with every length of store: accepted", accepted);
    expect_image(PAPER, sizeof PAPER, SIZE_MAX, TRM_REFUSED_STORE, 0, "S3.6 the largest number as a store", 0);
    expect_image(zeros, 65537, 2048, TRM_REFUSED_IMAGE, 0, "S3.3 65,537 bytes", 0);
    expect_image(zeros, 65536, 2048, TRM_REFUSED_KIND, 0, "S3.4 65,536 bytes of 0", 0);
}

static void expect_part(const uint8_t *image, size_t bytes, size_t at, uint32_t number, uint64_t start, uint64_t length, const char *what,
                        size_t row)
{
    trm_part_answer a = trm_image_payload(image, bytes, at);
    hold(a.number == number && a.start == start && a.length == length, what, row);
}

/* The payload of the record at an offset: the paper's image has 12 bytes from 6 on, and 9 from 24 on. The refusal is 2 where no record
 * begins, as at the end of the bytes, and 1 where a record begins but is cut short. */
static void test_payloads(void)
{
    static const struct { size_t bytes, at; uint32_t number; uint64_t start, length; } rows[] = {
        {33, 0, 0, 6, 12},  {33, 18, 0, 24, 9}, {33, 1, 2, 0, 0},   {33, 4, 2, 0, 0},   {33, 17, 2, 0, 0},
        {33, 19, 2, 0, 0},  {33, 27, 2, 0, 0},  {33, 33, 2, 0, 0},  {33, 34, 2, 0, 0},  {33, SIZE_MAX, 2, 0, 0},
        {33, SIZE_MAX - 5, 2, 0, 0},            {32, 18, 1, 0, 0},  {24, 18, 1, 0, 0},  {23, 18, 1, 0, 0},
        {19, 18, 1, 0, 0},  {18, 18, 2, 0, 0},  {18, 0, 0, 6, 12},  {32, 0, 0, 6, 12},  {17, 0, 1, 0, 0},
        {17, 18, 2, 0, 0},  {6, 0, 1, 0, 0},    {5, 0, 1, 0, 0},    {1, 0, 1, 0, 0},    {1, 1, 2, 0, 0},
    };
    for (size_t i = 0; i < sizeof rows / sizeof rows[0]; i++)
        expect_part(PAPER, rows[i].bytes, rows[i].at, rows[i].number, rows[i].start, rows[i].length,
                    "S4.6 the payload of a record, row", i);
    expect_part(NULL, 0, 0, TRM_REFUSED_KIND, 0, 0, "S4.6 the payload of an empty image", 0);
}

/* Bytes of 0: records of six bytes and no payload, of which 65,536 hold 10,922 and the first four bytes of one more. */
static void test_payloads_of_zeros(void)
{
    static const uint8_t zeros[65537];
    static const struct { size_t bytes, at; uint32_t number; uint64_t start; } rows[] = {
        {65537, 0, 1, 0}, {65537, 1, 1, 0},     {65537, 65536, 1, 0}, {65536, 0, 0, 6},     {65536, 6, 0, 12},
        {65536, 3, 2, 0}, {65536, 65526, 0, 65532}, {65536, 65532, 1, 0}, {65536, 65535, 2, 0}, {65536, 65536, 2, 0},
    };
    for (size_t i = 0; i < sizeof rows / sizeof rows[0]; i++)
        expect_part(zeros, rows[i].bytes, rows[i].at, rows[i].number, rows[i].start, 0, "S4.6 the payload of a record of zeros, row", i);
}

void test_images(void)
{
    test_payloads();
    test_payloads_of_zeros();
    test_cut();
    test_spoiled();
    test_records();
    test_no_store();
    test_limits();
}
