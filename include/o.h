/* The compiler and the machine of the language O, for C. The functions are proved; `rt lib` in crates/export writes the archive that has them. */
#ifndef O_H
#define O_H

#include <stddef.h>
#include <stdint.h>

#ifdef __cplusplus
extern "C" {
#endif

/*
 * A text compiled into a code table.
 *
 * Each array passes as a pointer and its number of elements. A pointer is not null, also where the number is 0, and is
 * valid for that many elements. `table` and `report` are written: neither may overlap anything else lent.
 *
 * Afterwards report[0] is 0 if the text was accepted, or the number of the refusal, 1 to 8; report[1] the refusal's
 * place; report[2] the instructions, each of two numbers of the table; report[3] the cells; report[4] the stack need.
 * What the answer does not report is 0. The table is the code and then zeros, and all zeros on a refusal.
 */
void o_compile(const uint8_t *text, size_t text_length,
               int32_t *table, size_t table_length,
               uint64_t report[5]);

/*
 * A run of a code table over a text and readings, within a budget of steps.
 *
 * Each array passes as a pointer and its number of elements. A pointer is not null, also where the number is 0, and is
 * valid for that many elements. `stack`, `out` and `report` are written: none of them may overlap anything else lent.
 *
 * Afterwards report[0] is the ending, 0 to 8; report[1] the steps; report[2] the readings used; report[3] the output's
 * length. The whole stack is 0, and the bytes of `out` past the output are as they were.
 */
void o_run(const uint8_t *text, size_t text_length,
           const int32_t *table, size_t table_length,
           const int32_t *readings, size_t readings_length,
           uint32_t budget,
           int32_t *stack, size_t stack_length,
           uint8_t *out, size_t out_length,
           uint64_t report[4]);

/*
 * A text compiled and its own code run: what firmware calls. It passes on the counted pairs of the table and no more,
 * and says how many bytes may be sent.
 *
 * Each array passes as a pointer and its number of elements. A pointer is not null, also where the number is 0, and is
 * valid for that many elements. `table`, `stack`, `out` and `report` are written: none of them may overlap anything
 * else lent.
 *
 * Afterwards report[0] is 0 if the text was accepted, or the number of the refusal, 1 to 8; report[1] the refusal's
 * place; report[2] the ending, 0 to 8; report[3] the steps; report[4] the readings used; report[5] the output's length;
 * report[6] how many bytes of `out` may be sent on to the feed: the length with ending 0, and 0 with any other.
 * On a refusal report[2] to report[6] are 0, the table is all zeros, and stack and `out` are as they were. Else the
 * table is the code and then zeros, the whole stack is 0, and the bytes of `out` past the output are as they were. On a
 * stack shorter than the text's need the run may end with 6; with 16,384 numbers of table and 8,192 cells of stack
 * every text that can be accepted is, and none ends with 6 or 8.
 */
void o_run_text(const uint8_t *text, size_t text_length,
                const int32_t *readings, size_t readings_length,
                uint32_t budget,
                int32_t *table, size_t table_length,
                int32_t *stack, size_t stack_length,
                uint8_t *out, size_t out_length,
                uint64_t report[7]);

/*
 * A tidy copy of a text: its lexemes with one space between, literals without needless zeros, strings byte for byte.
 *
 * Each array passes as a pointer and its number of elements. A pointer is not null, also where the number is 0, and is
 * valid for that many elements. `room` and `report` are written: neither may overlap anything else lent.
 *
 * Afterwards report[0] is 0 if there is a copy, or the number of the text's refusal, 1 to 8 (there is no table: 8 is by
 * the limit of 8,192 instructions alone), or 15 if the tidy text is longer than the room or than 49,152 bytes;
 * report[1] the refusal's place, 0 with 15; report[2] the copy's length, 0 on a refusal. The room is the copy and then
 * zeros, and all zeros on a refusal: nothing of what it held shows. A room of length 0 is no special case.
 */
void o_tidy(const uint8_t *text, size_t text_length,
            uint8_t *room, size_t room_length,
            uint64_t report[3]);

#ifdef __cplusplus
}
#endif

#endif
