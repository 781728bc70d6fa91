/*
 * Weaverlamp: a clock-accurate simulator of the Tiny Register Machine. The C interface of libtrm.a.
 * Paper: the record and the calls of "Clock by clock"; the numbers of "Where calls are turned down"; images. Request A1: the serial board.
 * Link: cc program.c -I include target/staticlib/libtrm.a (made by `tools/archive`), x86-64 Linux.
 *
 * Every call returns, whatever the values of its arguments, and either does its work or refuses it. `number` in its answer is
 * TRM_ACCEPTED (0) or one of TRM_REFUSED_.. below. Arguments are checked first, in the order in which the call's comment lists the
 * refusals, and the first check that fails gives the number. A refused call changes nothing: no store, no buffer, no lent record. The
 * rest of its answer is 0, with two exceptions: a record passed by value is returned unchanged, and trm_image_check gives the offset of
 * the fault. A record is a trm_machine, or a trm_board, which has one in it. It may hold any bytes: if they are not a legal record the
 * call is refused with 5; behaviour is never undefined.
 *
 * What a caller must guarantee, for every function here:
 *  - a pointer with a length L points to L elements of its type, aligned, that may be read (and written, where it is not const) until the
 *    call returns; with L = 0 it is not used and may be NULL; no length is above PTRDIFF_MAX bytes;
 *  - the pointer to a lent record is not NULL: it points to one trm_machine, aligned, with any content;
 *  - what may be written (store, bytes, words, buffer, a lent record) overlaps nothing else that is passed to the same call, and no
 *    other thread accesses what is passed during the call. What is only read may overlap.
 * Nothing is kept between calls: no global state, no allocation, no file. A call needs some kilobytes of stack. The program may change
 * between two calls: if the record then does not fit the new word at PC, the next call is refused with 5. Structs have padding: compare
 * them field by field.
 */
#ifndef TRM_H
#define TRM_H

#include <stddef.h>
#include <stdint.h>

#ifdef __cplusplus
extern "C" {
#endif

/* The version of the record and of this interface in this header; trm_record_version() returns that of the linked library. */
#define TRM_RECORD_VERSION 3u

/* The refusal numbers: the rows of the paper's table of refusals. */
enum {
    TRM_ACCEPTED = 0,
    TRM_REFUSED_IMAGE = 1,       /* image: over 65,536 bytes, a record cut short or of a wrong length, a run of 0 or over 65,536 clocks */
    TRM_REFUSED_KIND = 2,        /* image: a record kind that is unknown, repeated or out of order, or kind 1 missing */
    TRM_REFUSED_PROGRAM = 3,     /* program: no word, over 4,096 words, or a word above 3FFFFH; also a word to decode above 3FFFFH */
    TRM_REFUSED_STORE = 4,       /* store: its length is not a power of two from 64 to 32,768, or not the length at reset */
    TRM_REFUSED_RECORD = 5,      /* record: a field out of range, a board's too, or fields that contradict each other or the word at PC */
    TRM_REFUSED_LINE_BYTES = 6,  /* line bytes: not as many as input words (a board's: as switches), over 65,536, or one above 7 */
    TRM_REFUSED_BUFFERS = 7,     /* buffers: not as long as the run, or for a copy not as long as the store */
    TRM_REFUSED_CLOCKS = 8,      /* the clock count would exceed 4,294,967,295 */
    TRM_REFUSED_ADDRESS = 9,     /* a look at an address above FFBFH, a watch of a device above 63 */
    TRM_REFUSED_INSTRUCTION = 10 /* an instruction to encode has a field outside its width */
};

/* The bits of a line byte, the input of one clock: interrupt lines 0 and 1, stall. The bits of an answer byte, the device access of one
 * clock: read, write; the device number is byte / 4. */
enum { TRM_LINE_INTERRUPT_0 = 1, TRM_LINE_INTERRUPT_1 = 2, TRM_LINE_STALL = 4 };
enum { TRM_ANSWER_READ = 1, TRM_ANSWER_WRITE = 2 };

/* The machine record: the whole state of a machine but its store. A caller may read and write any field; the next call checks the
 * record and refuses an illegal one with 5, a wrong `size` with 4. */
typedef struct trm_machine {
    uint64_t status;      /* bit 0: interrupt 0 enabled; 1: interrupt 1 enabled; 2: mode, selects the register bank; 3: cache on */
    uint64_t pc;
    uint64_t n, z, c, v;  /* flags, 0 or 1 */
    uint64_t phase;       /* 0 ready, 1 arithmetic, 2 write-back, 3 refill, 4 uncached wait, 5 last clock due */
    uint64_t count;       /* clocks of this phase that are done */
    uint64_t product;     /* the multiplier's register */
    uint64_t remainder;   /* the divider's registers */
    uint64_t quotient;
    uint32_t h;           /* H: the upper half of a product, or the remainder of a division */
    uint32_t size;        /* the store's length at reset */
    uint64_t clocks, held, refills, writebacks; /* counts since reset: all clocks, clocks held by stall, bursts of the cache */
    uint32_t regs[16];    /* bank 0, then bank 1 */
    uint8_t full[16];     /* for each of the sixteen cache lines: 1 if it holds a block, else 0 */
    uint8_t dirty[16];    /* 1 if the line must be written back to the store, else 0 */
    uint16_t block[16];   /* the block that the line holds: its addresses / 8; 0 for an empty line */
    uint32_t words[128];  /* the words of the cache lines, eight per line */
} trm_machine;

/* Operations 0-10 and conditions 0-15, by number. */
enum {
    TRM_MOV = 0,
    TRM_NOT = 1,
    TRM_ADD = 2,
    TRM_SUB = 3,
    TRM_AND = 4,
    TRM_BIC = 5,
    TRM_OR = 6,
    TRM_XOR = 7,
    TRM_MUL = 8,
    TRM_DIV = 9,
    TRM_ROR = 10
};
enum {
    TRM_IF_Z = 0,
    TRM_IF_NOT_Z = 1,
    TRM_IF_C = 2,
    TRM_IF_NOT_C = 3,
    TRM_IF_N = 4,
    TRM_IF_NOT_N = 5,
    TRM_IF_V = 6,
    TRM_IF_NOT_V = 7,
    TRM_IF_C_AND_NOT_Z = 8,
    TRM_UNLESS_C_AND_NOT_Z = 9,
    TRM_IF_N_IS_V = 10,
    TRM_IF_N_IS_NOT_V = 11,
    TRM_IF_N_IS_V_AND_NOT_Z = 12,
    TRM_UNLESS_N_IS_V_AND_NOT_Z = 13,
    TRM_ALWAYS = 14,
    TRM_NEVER = 15
};

/* An instruction as plain numbers: its form, and the fields that each form has; every other field is 0. */
enum {
    TRM_FORM_REGISTER = 0, /* operation 0-10, d, s: R.d := R.d operation R.s */
    TRM_FORM_LITERAL = 1,  /* operation 0-10, d, value: the literal, 0 to 1,023 */
    TRM_FORM_MOVE_H = 2,   /* d: R.d := H */
    TRM_FORM_STATUS = 3,   /* value: the new status, 0 to 15 */
    TRM_FORM_JUMP = 4,     /* s */
    TRM_FORM_LINK = 5,     /* d, s: a jump that stores PC+1 in R.d */
    TRM_FORM_RTI = 6,      /* s */
    TRM_FORM_LOAD = 7,     /* d, s, value: the offset, 0 to 255 */
    TRM_FORM_STORE = 8,    /* d, s, value: the offset, 0 to 255 */
    TRM_FORM_BRANCH = 9,   /* condition 0-15, value: the ten bits of the offset, which are signed */
    TRM_FORM_CALL = 10     /* value: the offset, 0 to 4,095 */
};

typedef struct trm_instruction {
    uint32_t form, operation, condition, d, s, value;
} trm_instruction;

/* What the calls return. `number` is the refusal number, or TRM_ACCEPTED. */
typedef struct trm_reset_answer {
    trm_machine machine;
    uint32_t number;
} trm_reset_answer;

typedef struct trm_clock_value_answer {
    trm_machine machine;
    uint32_t number;
    uint8_t byte;      /* the device access: TRM_ANSWER_.. plus the device number times 4; 0 if there was none */
    uint32_t word;     /* the word read or written; 0 if there was no device access */
    uint64_t finished; /* 1 if the clock finished an instruction, else 0 */
} trm_clock_value_answer;

typedef struct trm_clock_answer {
    uint32_t number;
    uint8_t byte;
    uint32_t word;
    uint64_t finished;
} trm_clock_answer;

typedef struct trm_run_answer {
    trm_machine machine;
    uint32_t number;
    uint64_t used;     /* clocks run: the number of line bytes */
    uint64_t finished; /* instructions finished */
} trm_run_answer;

typedef struct trm_look_answer {
    uint32_t number;
    uint32_t word;
} trm_look_answer;

typedef struct trm_watch_answer {
    uint32_t number;
    uint32_t found; /* 1 if there is such a clock; else 0, and `clock` is 0 */
    uint64_t clock; /* its index in the answer bytes, from 0 */
} trm_watch_answer;

typedef struct trm_decode_answer {
    trm_instruction instruction;
    uint32_t number;
} trm_decode_answer;

typedef struct trm_encode_answer {
    uint32_t number;
    uint32_t word;
} trm_encode_answer;

typedef struct trm_image_answer {
    uint32_t number;
    uint64_t at; /* the offset where the record at fault begins; 0 if the image is accepted, too long or empty */
} trm_image_answer;

typedef struct trm_part_answer {
    uint32_t number;
    uint64_t start; /* the offset in the image where the payload begins */
    uint64_t length;
} trm_part_answer;

/* Return the sizes of a trm_machine and of a trm_board in bytes and their version in the linked library. Compare them with
 * sizeof(trm_machine), sizeof(trm_board) and TRM_RECORD_VERSION to see that header and library match. Never refused. */
size_t trm_record_size(void);
size_t trm_board_size(void);
uint32_t trm_record_version(void);

/* Returns the record of a machine after a reset, for a store of this length: every field 0 except `size`, all cache lines empty. The
 * store is not changed; its words are the first content of data memory.
 * Refused with
 *   4 if store_words is not a power of two from 64 to 32,768. The record returned is then refused by every call, with any store. */
trm_reset_answer trm_reset(const uint32_t *store, size_t store_words);

/* Runs one clock. The record is lent: it and the store are changed in place. `line` is the line byte of this clock; `input` is the word
 * that a load from a device reads in it. The answer has the device access and whether an instruction finished.
 * Refused, in this order, with
 *   3 if the program has no word, over 4,096 words, or a word above 3FFFFH;
 *   4 if the length of the store is not a power of two from 64 to 32,768, or not the one at reset;
 *   5 if the record is not legal for this program and store;
 *   6 if the line byte is above 7;
 *   8 if the clock count is 4,294,967,295 already.
 * Record and store are then unchanged, and byte, word and finished are 0. */
trm_clock_answer trm_clock(trm_machine *machine, const uint32_t *program, size_t program_words, uint32_t *store, size_t store_words,
                           uint8_t line_byte, uint32_t input);

/* Runs one clock like trm_clock, but takes the record by value and returns it as trm_clock would leave it.
 * Refused as trm_clock is; the record is then returned unchanged. */
trm_clock_value_answer trm_clock_value(trm_machine machine, const uint32_t *program, size_t program_words, uint32_t *store,
                                       size_t store_words, uint8_t line_byte, uint32_t input);

/* Runs one clock for each line byte: clock i takes lines[i] and inputs[i] and writes its device access to bytes[i] and words[i] (0 if
 * there is none). Returns the record, the number of clocks, and how many instructions finished.
 * Refused, in this order, with
 *   3, 4, 5 as trm_clock;
 *   6 if lines_length and inputs_length differ, or are over 65,536, or a line byte is above 7;
 *   7 if bytes_length or words_length is not lines_length;
 *   8 if the clock count would exceed 4,294,967,295.
 * The record is then returned unchanged, and store, bytes and words are unchanged. */
trm_run_answer trm_run(trm_machine machine, const uint32_t *program, size_t program_words, uint32_t *store, size_t store_words,
                       const uint8_t *line_bytes, size_t line_bytes_length, const uint32_t *inputs, size_t inputs_length, uint8_t *bytes,
                       size_t bytes_length, uint32_t *words, size_t words_length);

/* Returns one word of data memory as the program sees it: from the cache line that holds it, else from the store. The address is reduced
 * modulo the store's length. Nothing changes.
 * Refused, in this order, with
 *   3, 4, 5 as trm_clock;
 *   9 if the address is above FFBFH: device addresses cannot be looked at. */
trm_look_answer trm_look(trm_machine machine, const uint32_t *program, size_t program_words, const uint32_t *store, size_t store_words,
                         uint32_t address);

/* Copies all of data memory, as the program sees it, into `buffer`, and returns the refusal number. Record and store do not change.
 * Refused, in this order, with
 *   3, 4, 5 as trm_clock;
 *   7 if buffer_words is not store_words.
 * The buffer is then unchanged. */
uint32_t trm_copy(trm_machine machine, const uint32_t *program, size_t program_words, const uint32_t *store, size_t store_words,
                  uint32_t *buffer, size_t buffer_words);

/* Finds a clock of a run that wrote to a device: an index into the answer bytes of a run at which the byte shows a write to it. If
 * several clocks did, any of them may be returned.
 * Refused with
 *   9 if the device number is above 63. */
trm_watch_answer trm_watch(const uint8_t *bytes, size_t bytes_length, uint32_t device);

/* Decodes a program word to an instruction. Refused with
 *   3 if the word is above 3FFFFH. */
trm_decode_answer trm_decode(uint32_t word);

/* Encodes an instruction to a program word, with its unused bits 0. Refused with
 *   10 if the form or the operation is above 10, a field is outside its width, or a field that the form does not have is not 0. */
trm_encode_answer trm_encode(trm_instruction instruction);

/* Checks whether an image can be run with a store of store_words words. Records are checked one after another; the first fault gives
 * the number, and `at` the offset of its record. Refused with
 *   1 if the image is over 65,536 bytes, or a record is cut short or has a length wrong for its kind, or a run has 0 or over 65,536 clocks;
 *   2 if the image is empty, or the kind of a record is unknown, repeated or out of order;
 *   3 if a program word is above 3FFFFH;
 *   4 if store_words is not a power of two from 64 to 32,768: checked for the first record, after 1, 2 and 3, with `at` 0;
 *   6 if the line byte of a run is above 7. */
trm_image_answer trm_image_check(const uint8_t *image, size_t image_bytes, size_t store_words);

/* Finds the payload of the record that begins at offset `at`: where it begins in the image, and its length in bytes. Refused, in this
 * order, with
 *   1 if the image is over 65,536 bytes;
 *   2 if no record of the image begins at `at`;
 *   1 if that record is cut short. */
trm_part_answer trm_image_payload(const uint8_t *image, size_t image_bytes, size_t at);

/* ---- The serial board: a machine with a serial line, a tick, eight switches and ten lamps */

/* The devices of the board. A read of 4, 5 or 6 shows what stood when its clock began. Any other device reads 0, and a write to it, or to
 * 5, does nothing. */
enum {
    TRM_DEVICE_SERIAL = 4,       /* read: the byte last received, and the received bit is cleared; write: sends the word's low 8 bits */
    TRM_DEVICE_STATUS = 5,       /* read: TRM_SERIAL_RECEIVED and TRM_SERIAL_FREE */
    TRM_DEVICE_MILLISECONDS = 6, /* read: the clock count / 116,600, rounded down; write, of any word: clears the tick */
    TRM_DEVICE_PANEL = 7         /* read: the switches of this clock; write: the word's low 10 bits are the lamps */
};
enum { TRM_SERIAL_RECEIVED = 1, TRM_SERIAL_FREE = 2 };

/* A frame is a low start bit, eight data bits, lowest first, and a high stop bit, TRM_BIT_CLOCKS each.
 * Transmitter: a write to device 4 is accepted if it is free, else dropped. It is busy in the TRM_FRAME_CLOCKS clocks after that of an
 * accepted write, in which it sends the frame, and in no others; when it is free, it sends a high level.
 * Receiver: after a reset or a stop sample the next clock with a low line is a frame's first. Each bit is sampled in its 506th clock; the
 * samples of the start and the stop bit are not judged. The byte is received, and the received bit set, in the clock that samples the stop
 * bit, the frame's 9,614th, after any read in that clock; it replaces one that was not read.
 * Tick: it is interrupt 0. It rises whenever the clock count comes to a multiple of TRM_TICK_CLOCKS, even if a write clears it in that
 * very clock, and the machine sees it from the next clock on.
 * All three run in held clocks too. */
enum { TRM_BIT_CLOCKS = 1012, TRM_FRAME_CLOCKS = 10120, TRM_TICK_CLOCKS = 116600 };

/* The bits of a given byte, the input of one clock of the board: the level of the serial line, interrupt 1, stall. */
enum { TRM_BOARD_LINE = 1, TRM_BOARD_INTERRUPT_1 = 2, TRM_BOARD_STALL = 4 };

/* The board's record: the machine's, and the board fields. A caller may read and write any field; the next call refuses a field outside
 * its range with 5. Only ranges are checked: any fields within them are accepted together. */
typedef struct trm_serial {
    uint64_t left;   /* transmitter: clocks of its frame still to come, 0 to 10,120; 0 if it is free */
    uint64_t sent;   /* transmitter: the byte last accepted, 0 to 255 */
    uint64_t passed; /* receiver: clocks of its frame gone by, 0 to 9,613; 0 if none has begun */
    uint64_t bits;   /* receiver: a shift register with its last eight data samples, the latest highest, 0 to 255 */
    uint64_t byte;   /* receiver: the byte last received, 0 to 255; a read does not change it */
    uint64_t ready;  /* receiver: the received bit, 0 or 1 */
} trm_serial;

typedef struct trm_devices {
    trm_serial serial;
    uint64_t tick;  /* 0 or 1 */
    uint64_t lamps; /* 0 to 1,023 */
} trm_devices;

typedef struct trm_board {
    trm_machine machine; /* what trm_look and trm_copy take */
    trm_devices devices;
} trm_board;

typedef struct trm_board_reset_answer {
    trm_board board;
    uint32_t number;
} trm_board_reset_answer;

typedef struct trm_board_clock_answer {
    trm_board board;
    uint32_t number;
    uint8_t level;     /* the level that the transmitter sent in this clock, 0 or 1; of a refused call it is 0 and no level */
    uint8_t byte;      /* the device access: TRM_ANSWER_.. plus the device number times 4; 0 if there was none */
    uint32_t word;     /* the word read or written; 0 if there was no device access */
    uint64_t finished; /* 1 if the clock finished an instruction, else 0 */
} trm_board_clock_answer;

typedef struct trm_board_run_answer {
    trm_board board;
    uint32_t number;
    uint64_t used;     /* clocks run: the number of given bytes */
    uint64_t finished; /* instructions finished */
} trm_board_run_answer;

/* Returns the record of a board after a reset, for a store of this length: the machine as after trm_reset, every board field 0. The store
 * is not changed.
 * Refused with
 *   4 if store_words is not a power of two from 64 to 32,768. The board returned is then refused by every call, with 3 or 4. */
trm_board_reset_answer trm_board_reset(const uint32_t *store, size_t store_words);

/* Runs one clock of a board. `given` has the line, interrupt 1 and stall of this clock, `switches` what a read of device 7 gives in it.
 * Returns the board, the level sent in this clock, the device access, and whether an instruction finished.
 * Refused, in this order, with
 *   3 if the program has no word, over 4,096 words, or a word above 3FFFFH;
 *   4 if the length of the store is not a power of two from 64 to 32,768, or not the one at reset;
 *   5 if the machine's record is not legal for this program and store, or a board field is outside its range;
 *   6 if the given byte is above 7;
 *   8 if the clock count is 4,294,967,295 already.
 * The board is then returned as given, the store is unchanged, and level, byte, word and finished are 0. */
trm_board_clock_answer trm_board_clock(trm_board board, const uint32_t *program, size_t program_words, uint32_t *store,
                                       size_t store_words, uint8_t given, uint8_t switches);

/* Runs one clock like trm_board_clock, with the line joined to itself: the level sent in this clock is also its line. Bit 0 of `given` is
 * not looked at.
 * Joining needs a call of its own: trm_board_clock returns the level when the clock is over, and as the line of the next clock it would be
 * one clock late. (The level of a clock depends on the board before it alone: it is 1 if `left` is 0, else that of bit
 * (10,120 - left) / 1,012 of the frame of `sent`, the start bit being 0. So a caller can also join two boards to each other.)
 * Refused as trm_board_clock is, with the same answer. */
trm_board_clock_answer trm_board_clock_joined(trm_board board, const uint32_t *program, size_t program_words, uint32_t *store,
                                              size_t store_words, uint8_t given, uint8_t switches);

/* Runs one clock of a board for each given byte: clock i takes given[i] and switches[i], and writes the level sent to levels[i] and its
 * device access to bytes[i] and words[i] (0 if there is none). Returns the board, the number of clocks, and how many instructions finished.
 * Refused, in this order, with
 *   3, 4, 5 as trm_board_clock;
 *   6 if given_length and switches_length differ, or are over 65,536, or a given byte is above 7;
 *   7 if levels_length, bytes_length or words_length is not given_length;
 *   8 if the clock count would exceed 4,294,967,295.
 * The board is then returned as given, store, levels, bytes and words are unchanged, and used and finished are 0. */
trm_board_run_answer trm_board_run(trm_board board, const uint32_t *program, size_t program_words, uint32_t *store, size_t store_words,
                                   const uint8_t *given, size_t given_length, const uint8_t *switches, size_t switches_length,
                                   uint8_t *levels, size_t levels_length, uint8_t *bytes, size_t bytes_length, uint32_t *words,
                                   size_t words_length);

/* Runs clocks like trm_board_run, with the line joined to itself: the level sent in a clock is also its line, and bit 0 of each given byte
 * is not looked at; see trm_board_clock_joined.
 * Refused as trm_board_run is, with the same answer. */
trm_board_run_answer trm_board_run_joined(trm_board board, const uint32_t *program, size_t program_words, uint32_t *store,
                                          size_t store_words, const uint8_t *given, size_t given_length, const uint8_t *switches,
                                          size_t switches_length, uint8_t *levels, size_t levels_length, uint8_t *bytes,
                                          size_t bytes_length, uint32_t *words, size_t words_length);

#ifdef __cplusplus
}
#endif

#endif
