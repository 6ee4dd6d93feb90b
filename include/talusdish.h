/* Talusdish: escape routing of a pin array with diagonal capacity.
 *
 * Link with libtalusdish.a, which `host/prove library` writes to target/staticlib/. x86-64 Linux.
 *
 * Every function returns 256 * value + code.
 *
 * code   0  accepted
 *        1  record under 32,768 bytes, or damaged
 *        2  rows or columns not 2 to 40
 *        3  capacities: O not 1 to 8, D not O to 2*O, E not 0 to 16, or E above D in a new job; in extra an E that is greater
 *        4  no such pin or tile; in part also a pin that is not chosen
 *        5  unknown mark, state or side code
 *        6  wrong text; the value is the offset of the first line that may not stand there
 *        7  output too short
 *        8  scratch under 65,536 bytes
 *        9  a measure not 1 to 100,000
 *       10  pitch under pad diameter and spacing together, or O not 1 to 8
 *       11  a count of laid wires above O
 *       12  a starting number of 0, or of more than 32 bits
 *       13  percentages: chosen and missing together above 100, or closed above 100
 *       14  a sheet for a job whose O is not 2, or that has a missing pin
 *       15  a sheet that is not 9,600 bytes long, or with a load over its side or inward at the rim, or with wrong marks
 * value  as said below; 0 where nothing is said, and with every code but 0 and 6
 *
 * Where several codes fit, the one that stands first at the function is returned. A refused call changes no byte.
 *
 * Buffers are the caller's. Each is a pointer and its length in bytes; a longer one than needed is used from its start and its rest is untouched, and NULL
 * with length 0 is an empty buffer. The buffers of one call do not overlap, and nobody else writes them during the call. A function keeps nothing between
 * calls, so calls on different records may run at the same time. docs/RECORD.md says what each byte of a record and of shortfall's output holds.
 *
 * A call works on the stack of its thread: step needs 320 KiB of it, shortfall 269 KiB, listing 137 KiB, mark, close, lay, diagonal, extra, part, write_text and sheet 105 KiB, new, read_text, trial and rules at most
 * 17 KiB (measured on x86-64 with two 40 by 40 jobs, not proved). A thread with 512 KiB is safe.
 */
#ifndef TALUSDISH_H
#define TALUSDISH_H

#include <stdint.h>

#define TALUSDISH_RECORD 32768  /* bytes of a record, and of shortfall's output */
#define TALUSDISH_SCRATCH 65536 /* bytes of scratch */
#define TALUSDISH_SHEET 9600    /* bytes of a sheet */

#define TALUSDISH_CODE(word) ((word) & 255)
#define TALUSDISH_VALUE(word) ((word) >> 8)

#ifdef __cplusplus
extern "C" {
#endif

/* A new job: every pin idle, every tile open, no wires. 1 only for a short record; 2; 3. */
uint64_t talusdish_new(uint8_t *record, uint64_t record_len, uint64_t rows, uint64_t columns, uint64_t o, uint64_t d, uint64_t e);

/* The mark of a pin: 0 idle, 1 chosen, 2 missing. 1; 4; 5. A mark already there changes nothing. Another takes out the wires that start at the pin or pass
 * it, so none where it was idle. Every other wire keeps its places; its lane numbers may shrink. */
uint64_t talusdish_mark(uint8_t *record, uint64_t record_len, uint64_t row, uint64_t column, uint64_t mark);

/* The state of a tile: 0 open, 1 closed. 1; 4; 5. A state already there changes nothing. Closing a tile takes out the wires that meet one of its places, opening
 * one takes out none. Every other wire keeps its places; its lane numbers may shrink. */
uint64_t talusdish_close(uint8_t *record, uint64_t record_len, uint64_t row, uint64_t column, uint64_t state);

/* How many wires are already laid on a side of a tile, 0 to O: the side takes O less that. Side 0 n, 1 e, 2 s, 3 w; an inner side has one count, whichever of its
 * tiles names it. 1; 4 no such tile; 5; 11. A count already there changes nothing, a lower one takes out no wire. A higher one takes out the wires in the side's
 * highest lanes, as many as exceed the new limit. Every other wire keeps its places; its lane numbers may shrink. */
uint64_t talusdish_lay(uint8_t *record, uint64_t record_len, uint64_t row, uint64_t column, uint64_t side, uint64_t count);

/* The D of a tile, O to 2×O; the job's D means that the tile has none of its own. 1; 4 no such tile; 3. The D in force changes nothing; another, lower or higher,
 * takes out the wires through the tile's centre and no others. Every other wire keeps its places; its lane numbers may shrink. */
uint64_t talusdish_diagonal(uint8_t *record, uint64_t record_len, uint64_t row, uint64_t column, uint64_t d);

/* A lower E, the extra of a missing pin. 1; 3 a greater E. The same E changes nothing, a lower one takes out every wire that passes a missing pin and no
 * others. Every other wire keeps its places; its lane numbers may shrink. An E above D, of a record that was made before such an E was refused, may be lowered
 * to any smaller one, also above D. */
uint64_t talusdish_extra(uint8_t *record, uint64_t record_len, uint64_t e);

/* One wire more. 1; 8. Value 0 added: one more chosen pin is wired and those wired stay wired; 1 all wired; 2 short: no more wires fit.
 * An all wired leaves wires of the least total length, 10 for each side crossed and 14 for each missing pin passed: it may move wires, no pin loses its own, and
 * where the length is the least already no byte changes, so that a repeated one moves nothing. 2 changes no byte of the record. The scratch of an accepted call is
 * zero afterwards. */
uint64_t talusdish_step(uint8_t *record, uint64_t record_len, uint8_t *scratch, uint64_t scratch_len);

/* How many chosen pins cannot be wired. 1; 8; 7 for output under 32,768 bytes. The value is the chosen pins less the greatest number. Where it is not 0,
 * the output has 1 for each pin, place, entry and exit of the smallest near side and 0 elsewhere; where it is 0, the output is untouched. The scratch of
 * an accepted call is zero afterwards. */
uint64_t talusdish_shortfall(const uint8_t *record, uint64_t record_len, uint8_t *scratch, uint64_t scratch_len, uint8_t *output, uint64_t output_len);

/* What a chosen pin's wire lists at an index, from 0. 1; 4. The value is kind + 4 * place + 32 * lane + 1,024 * row + 65,536 * column.
 * kind   0 unwired, 1 past the end (all else 0), 2 to, 3 out (row and column 0)
 * place  0 n, 1 e, 2 s, 3 w, 4 c, 5 r; of an out the rim side, or 6 p for a pin in the first or last row or column that leaves directly, lane 0, at
 *        index 0 */
uint64_t talusdish_part(const uint8_t *record, uint64_t record_len, uint64_t row, uint64_t column, uint64_t index);

/* The job of a text, without wires. 1 only for a short record; 6. */
uint64_t talusdish_read_text(uint8_t *record, uint64_t record_len, const uint8_t *text, uint64_t text_len);

/* The text of the job, wires left out. 1; 7 for output shorter than the text. The value is the text's length. The longest
 * text has 117,252 bytes (40 by 40, every pin missing, every tile closed with a D of its own, wires laid on every side); that 640,320 are always enough is proved. */
uint64_t talusdish_write_text(const uint8_t *record, uint64_t record_len, uint8_t *output, uint64_t output_len);

/* The listing of the wires that the record holds, as the program escape prints wires, whether all are wired or not; beyond document 01. Behind the wires stand their
 * total length, (length N), and the mean of a wire as quotient and remainder, (mean Q R). 1; 7 for output shorter than the listing. The value is the listing's
 * length; bytes beyond it are untouched. The longest listing found has some 678,100 bytes; that 1,254,600,108 are always enough is proved. */
uint64_t talusdish_listing(const uint8_t *record, uint64_t record_len, uint8_t *output, uint64_t output_len);

/* The capacities that design rules give: pitch p, pad diameter d, wire width w and spacing s, in micrometres. 9; 10. No record is needed.
 * *o        the quotient of p - d - s by w + s, and *o_rest its remainder
 * *k        the largest with (k * (w + s) + s + d) squared at most 2 * p * p, and *k_rest what that square leaves of 2 * p * p
 * *diagonal the smaller of *k and 2 * *o
 * O and D of talusdish_new may be *o and *diagonal, with every E up to *diagonal. The five pointers are to different numbers; a refused call changes none. */
uint64_t talusdish_rules(uint64_t p, uint64_t d, uint64_t w, uint64_t s, uint64_t *o, uint64_t *o_rest, uint64_t *k, uint64_t *k_rest, uint64_t *diagonal);

/* The job of a load trial, without wires. 1 only for a short record; 2; 3; 12; 13. The number `seed` moves on with each draw by Marsaglia's xorshift on 32
 * bits: left 13, right 17, left 5. Each pin by row and column takes one draw modulo 100: below `chosen` it is chosen, below `chosen` + `missing` it is
 * missing, else idle; then each tile, in the same order: below `closed` it is closed. */
uint64_t talusdish_trial(uint8_t *record, uint64_t record_len, uint64_t rows, uint64_t columns, uint64_t o, uint64_t d, uint64_t e, uint64_t seed,
                         uint64_t chosen, uint64_t missing, uint64_t closed);

/* Whether the tiles carry a sheet of side loads: whether wires can go on inside every tile so that the loads of its sides and the marks of its pins fit. 1; 14;
 * 15. The value is 0 where the sheet is carried, else 1 + 1024 * row + 65536 * column of the first failing tile by row and column. docs/RECORD.md has the
 * sheet's bytes. The record is only read; its own wires do not matter. */
uint64_t talusdish_sheet(const uint8_t *record, uint64_t record_len, const uint8_t *sheet, uint64_t sheet_len);

#ifdef __cplusplus
}
#endif

#endif
