/*
 * A line joined to itself, at the paper's own timing: bytes accepted and handed over, replaced, dropped; a level fed back by the caller.
 * Request A1: "From reset, a line joined to itself must hand every accepted byte to reads that find the bit set, once and in order".
 * Called: by edges.c.
 */
#include <string.h>

#include "board.h"

enum { MANY = 16, TEXT_AT = 16, ENOUGH = 400000 }; /* bytes of a list; the text in the store; clocks, if the bytes do not come */
static const char text[] = "Weaverlamp, 1"; /* 13 bytes */

/* The bytes accepted, received, handed over, replaced and dropped, with the clocks of the first two. */
typedef struct list {
    size_t count;
    uint8_t bytes[MANY];
    uint64_t clocks[MANY];
} list;

typedef struct history {
    list accepted, received, handed, replaced;
    size_t dropped;
} history;

static void add(list *l, uint64_t clock, uint64_t byte)
{
    if (l->count < MANY) {
        l->bytes[l->count] = (uint8_t)byte;
        l->clocks[l->count] = clock;
    }
    l->count++;
}

static void note(history *h, const trm_serial *before, const scene *s)
{
    uint64_t clock = s->board.machine.clocks;
    int read = s->answer.byte == READ_4;
    if (s->answer.byte == WRITE_4 && before->left == 0)
        add(&h->accepted, clock, s->answer.word);
    h->dropped += s->answer.byte == WRITE_4 && before->left > 0;
    if (read && before->ready)
        add(&h->handed, clock, s->answer.word);
    if (before->passed == STOP - 1) {
        add(&h->received, clock, s->board.devices.serial.byte);
        if (before->ready && !read)
            add(&h->replaced, clock, before->byte);
    }
}

/* Clocks with the line joined to itself, until so many bytes are accepted and so many clocks more; every seventh held if asked for. */
static history joined(scene *s, size_t accepted, uint64_t more, int holds)
{
    history h;
    memset(&h, 0, sizeof h);
    for (size_t i = 0; i < sizeof text - 1; i++)
        s->store[TEXT_AT + i] = 0xDEADBE00 | (uint8_t)text[i];
    for (size_t clock = 0; clock < ENOUGH; clock++) {
        trm_serial before = s->board.devices.serial;
        if (h.accepted.count >= accepted && s->board.machine.clocks >= h.accepted.clocks[accepted - 1] + more)
            break;
        scene_clock(s, 1, holds && s->board.machine.clocks % 7 == 3 ? TRM_BOARD_STALL : 0, 0);
        note(&h, &before, s);
    }
    return h;
}

/* Whether a list has so many bytes, every `step`-th of the text from `first` on. */
static int is_text(const list *l, size_t count, size_t first, size_t step)
{
    int same = l->count == count;
    for (size_t i = 0; same && i < count; i++)
        same = l->bytes[i] == (uint8_t)text[first + step * i];
    return same;
}

/* Thirteen bytes, each read back before the next is sent; the last is on the line at the end. */
static void test_echo(int holds)
{
    const uint32_t program[] = {
        word_literal(TRM_MOV, 2, TEXT_AT),
        word_load(0, 2, 0), /* 1: the next word */
        word_write(0, TRM_DEVICE_SERIAL),
        word_read(3, TRM_DEVICE_STATUS), /* 3: a byte received? */
        word_literal(TRM_AND, 3, TRM_SERIAL_RECEIVED),
        word_branch(TRM_IF_Z, 5, 3),
        word_read(4, TRM_DEVICE_SERIAL),
        word_store(4, 2, 64),
        word_read(3, TRM_DEVICE_STATUS), /* 8: the transmitter free? */
        word_literal(TRM_AND, 3, TRM_SERIAL_FREE),
        word_branch(TRM_IF_Z, 10, 8),
        word_literal(TRM_ADD, 2, 1),
        word_branch(TRM_ALWAYS, 12, 1),
    };
    scene s;
    scene_begin(&s, program, sizeof program / sizeof *program);
    history h = joined(&s, 13, 5000, holds);
    int timed = 1, kept = 1;
    for (size_t i = 0; i < 12; i++) {
        timed = timed && h.received.clocks[i] == h.accepted.clocks[i] + STOP;
        timed = timed && h.accepted.clocks[i + 1] > h.accepted.clocks[i] + TRM_FRAME_CLOCKS;
        kept = kept && s.store[TEXT_AT + 64 + i] == (uint8_t)text[i];
    }
    hold(is_text(&h.accepted, 13, 0, 1), A1_JOINED "accepted", h.accepted.count);
    hold(is_text(&h.handed, 12, 0, 1) && kept, A1_JOINED "handed over, once and in order", h.handed.count);
    hold(is_text(&h.received, 12, 0, 1) && timed, A1_RECEIVED "received 9,614 clocks after the write", h.received.count);
    hold(h.replaced.count == 0 && h.dropped == 0, A1_JOINED "nothing replaced or dropped", h.dropped);
    hold(s.board.devices.serial.left > 0 && s.board.devices.serial.sent == (uint8_t)text[12], A1_JOINED "the last is on the line", 0);
}

/* Pairs of bytes, read after the second: it replaces the first. */
static void test_replaced(void)
{
    const uint32_t program[] = {
        word_literal(TRM_MOV, 2, TEXT_AT),
        word_load(0, 2, 0), /* 1: a pair */
        word_write(0, TRM_DEVICE_SERIAL),
        word_read(3, TRM_DEVICE_STATUS),
        word_literal(TRM_AND, 3, TRM_SERIAL_FREE),
        word_branch(TRM_IF_Z, 5, 3),
        word_load(0, 2, 1),
        word_write(0, TRM_DEVICE_SERIAL),
        word_read(3, TRM_DEVICE_STATUS),
        word_literal(TRM_AND, 3, TRM_SERIAL_FREE),
        word_branch(TRM_IF_Z, 10, 8),
        word_read(4, TRM_DEVICE_SERIAL),
        word_literal(TRM_ADD, 2, 2),
        word_branch(TRM_ALWAYS, 13, 1),
    };
    scene s;
    scene_begin(&s, program, sizeof program / sizeof *program);
    history h = joined(&s, 6, STOP, 0);
    hold(is_text(&h.accepted, 6, 0, 1) && is_text(&h.received, 6, 0, 1), A1_JOINED "pairs accepted and received", h.accepted.count);
    hold(is_text(&h.handed, 2, 1, 2), A1_JOINED "the second of each pair is handed over", h.handed.count);
    hold(is_text(&h.replaced, 3, 0, 2), A1_JOINED "the first of each pair is replaced", h.replaced.count);
    hold(s.board.devices.serial.ready && s.board.devices.serial.byte == (uint8_t)text[5], A1_JOINED "the last is unread", 0);
}

/* Writes without asking, in clocks 2, 10, 18 and so on: after 2 the first that is free is 2 + 10,128. */
static void test_dropped(void)
{
    const uint32_t program[] = {
        word_literal(TRM_ADD, 0, 1),
        word_write(0, TRM_DEVICE_SERIAL),
        word_read(4, TRM_DEVICE_SERIAL),
        word_read(5, TRM_DEVICE_STATUS),
        word_branch(TRM_ALWAYS, 4, 0),
    };
    scene s;
    scene_begin(&s, program, sizeof program / sizeof *program);
    history h = joined(&s, 4, 0, 0);
    int right = h.accepted.count == 4 && h.handed.count == 3 && h.dropped == 3 * 1265;
    for (size_t i = 0; i < 4; i++)
        right = right && h.accepted.clocks[i] == 2 + 10128 * i && h.accepted.bytes[i] == (uint8_t)(1 + 1266 * i) &&
                (i == 3 || h.handed.bytes[i] == h.accepted.bytes[i]);
    hold(right, A1_JOINED "writes while busy are dropped", h.dropped);
}

/* A level given to the clock after its own: the receiver is one clock behind. */
static void test_late(void)
{
    const uint32_t program[] = {word_write(0, TRM_DEVICE_SERIAL), WORD_STAY};
    scene s, fed;
    scene_begin(&s, program, 2);
    fed = s;
    size_t right = 0;
    fed.answer.level = 1;
    for (uint64_t clock = 1; clock <= STOP; clock++) {
        scene_clock(&s, 1, 0, 0);
        scene_clock(&fed, 0, fed.answer.level, 0);
        right += s.board.devices.serial.passed == clock - 1 && fed.board.devices.serial.passed == (clock > 1 ? clock - 2 : 0);
    }
    hold(right == STOP, A1_JOINED "a level fed back is one clock late", right);
}

void test_board_joined(void)
{
    test_echo(0);
    test_echo(1);
    test_replaced();
    test_dropped();
    test_late();
}
