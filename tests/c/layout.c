/*
 * Sizes and offsets of everything that trm.h declares, as x86-64 lays it out; trm_machine and trm_board have no padding.
 * Paper: "The record holds phase and count"; the fields are those of the record in docs/DECISIONS.md, D-17 and D-52.
 * Called: by edges.c; a wrong layout does not compile.
 */
#include "edges.h"

#define SIZE(type, bytes) _Static_assert(sizeof(type) == (bytes), "size of " #type)
#define FIELD(type, field, at, bytes)                                                          \
    _Static_assert(offsetof(type, field) == (at), "place of " #type "." #field);               \
    _Static_assert(sizeof(((type *)NULL)->field) == (bytes), "width of " #type "." #field)

SIZE(trm_machine, 768);
FIELD(trm_machine, status, 0, 8);
FIELD(trm_machine, pc, 8, 8);
FIELD(trm_machine, n, 16, 8);
FIELD(trm_machine, z, 24, 8);
FIELD(trm_machine, c, 32, 8);
FIELD(trm_machine, v, 40, 8);
FIELD(trm_machine, phase, 48, 8);
FIELD(trm_machine, count, 56, 8);
FIELD(trm_machine, product, 64, 8);
FIELD(trm_machine, remainder, 72, 8);
FIELD(trm_machine, quotient, 80, 8);
FIELD(trm_machine, h, 88, 4);
FIELD(trm_machine, size, 92, 4);
FIELD(trm_machine, clocks, 96, 8);
FIELD(trm_machine, held, 104, 8);
FIELD(trm_machine, refills, 112, 8);
FIELD(trm_machine, writebacks, 120, 8);
FIELD(trm_machine, regs, 128, 64);
FIELD(trm_machine, full, 192, 16);
FIELD(trm_machine, dirty, 208, 16);
FIELD(trm_machine, block, 224, 32);
FIELD(trm_machine, words, 256, 512);
SIZE(trm_instruction, 24);
FIELD(trm_instruction, form, 0, 4);
FIELD(trm_instruction, operation, 4, 4);
FIELD(trm_instruction, condition, 8, 4);
FIELD(trm_instruction, d, 12, 4);
FIELD(trm_instruction, s, 16, 4);
FIELD(trm_instruction, value, 20, 4);
SIZE(trm_reset_answer, 776);
FIELD(trm_reset_answer, machine, 0, 768);
FIELD(trm_reset_answer, number, 768, 4);
SIZE(trm_clock_value_answer, 792);
FIELD(trm_clock_value_answer, machine, 0, 768);
FIELD(trm_clock_value_answer, number, 768, 4);
FIELD(trm_clock_value_answer, byte, 772, 1);
FIELD(trm_clock_value_answer, word, 776, 4);
FIELD(trm_clock_value_answer, finished, 784, 8);
SIZE(trm_clock_answer, 24);
FIELD(trm_clock_answer, number, 0, 4);
FIELD(trm_clock_answer, byte, 4, 1);
FIELD(trm_clock_answer, word, 8, 4);
FIELD(trm_clock_answer, finished, 16, 8);
SIZE(trm_run_answer, 792);
FIELD(trm_run_answer, machine, 0, 768);
FIELD(trm_run_answer, number, 768, 4);
FIELD(trm_run_answer, used, 776, 8);
FIELD(trm_run_answer, finished, 784, 8);
SIZE(trm_look_answer, 8);
FIELD(trm_look_answer, number, 0, 4);
FIELD(trm_look_answer, word, 4, 4);
SIZE(trm_watch_answer, 16);
FIELD(trm_watch_answer, number, 0, 4);
FIELD(trm_watch_answer, found, 4, 4);
FIELD(trm_watch_answer, clock, 8, 8);
SIZE(trm_decode_answer, 28);
FIELD(trm_decode_answer, instruction, 0, 24);
FIELD(trm_decode_answer, number, 24, 4);
SIZE(trm_encode_answer, 8);
FIELD(trm_encode_answer, number, 0, 4);
FIELD(trm_encode_answer, word, 4, 4);
SIZE(trm_image_answer, 16);
FIELD(trm_image_answer, number, 0, 4);
FIELD(trm_image_answer, at, 8, 8);
SIZE(trm_part_answer, 24);
FIELD(trm_part_answer, number, 0, 4);
FIELD(trm_part_answer, start, 8, 8);
FIELD(trm_part_answer, length, 16, 8);
SIZE(trm_serial, 48);
FIELD(trm_serial, left, 0, 8);
FIELD(trm_serial, sent, 8, 8);
FIELD(trm_serial, passed, 16, 8);
FIELD(trm_serial, bits, 24, 8);
FIELD(trm_serial, byte, 32, 8);
FIELD(trm_serial, ready, 40, 8);
SIZE(trm_devices, 64);
FIELD(trm_devices, serial, 0, 48);
FIELD(trm_devices, tick, 48, 8);
FIELD(trm_devices, lamps, 56, 8);
SIZE(trm_board, 832);
FIELD(trm_board, machine, 0, 768);
FIELD(trm_board, devices, 768, 64);
SIZE(trm_board_reset_answer, 840);
FIELD(trm_board_reset_answer, board, 0, 832);
FIELD(trm_board_reset_answer, number, 832, 4);
SIZE(trm_board_clock_answer, 856);
FIELD(trm_board_clock_answer, board, 0, 832);
FIELD(trm_board_clock_answer, number, 832, 4);
FIELD(trm_board_clock_answer, level, 836, 1);
FIELD(trm_board_clock_answer, byte, 837, 1);
FIELD(trm_board_clock_answer, word, 840, 4);
FIELD(trm_board_clock_answer, finished, 848, 8);
SIZE(trm_board_run_answer, 856);
FIELD(trm_board_run_answer, board, 0, 832);
FIELD(trm_board_run_answer, number, 832, 4);
FIELD(trm_board_run_answer, used, 840, 8);
FIELD(trm_board_run_answer, finished, 848, 8);

void test_layout(void)
{
    hold(trm_record_size() == sizeof(trm_machine), "S2.25 the record's size", trm_record_size());
    hold(trm_board_size() == sizeof(trm_board), "A1.1 the board's size", trm_board_size());
    hold(trm_record_version() == TRM_RECORD_VERSION, "S2.25 the record's version", trm_record_version());
}
