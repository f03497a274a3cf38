/*
 * Lochkave: decisions on sheets, from bytes to bytes. Link target/staticlib/liblochkave.a, which `tools/staticlib lochkave` writes.
 *
 * Every function takes a sheet of `sheet_len` bytes and an output of `out_len` bytes. The two must not overlap. A length may be 0; the
 * pointer is then not read, but must not be null. Any bytes may be handed over as a sheet.
 *
 * The result is number x 2^32 + line:
 *
 *   number 0     the sheet is decided. The lower half of the result is not a line but a count: so many bytes of the answer stand at the
 *                front of `out`. Every byte of `out` behind them is as it was.
 *   number > 0   the sheet is refused, and every byte of `out` is as it was. Line 1 is the sheet's first; line 0 where no line is to blame.
 *
 * Refusals. Of several the lowest line counts, and on it the lowest number; then those of line 0, in this order:
 *
 *    1   wrong, missing or extra line, or a line without LF. A missing line is the line after the last.
 *    2   malformed field, wrong number of fields, a number over the field's largest
 *    3   more than 32 entries, 8 children, 256 T lines, 8 entries of a required order or 65,536 bytes. Bytes beyond 65,536 count as the
 *        line that holds the first of them.
 *    4   undefined code, mark, direction or expression
 *    6   child count unfit for the operator
 *    5   line 0: L and G differ in length, S doesn't fit L, or a list that isn't used has entries (K and I sheets)
 *    7   line 0: target or batch out of range (D sheets, as 8, 9 and 11)
 *    8   line 0: an X row is there twice, is of an unknown child or form, or has a count, an order or a mask that doesn't fit; a Y mask
 *        has a bit beyond the children
 *    9   line 0: an X row is needed and missing
 *   10   line 0: a name for J isn't found (K sheets)
 *   11   line 0: relationships between children can't be enforced
 *   12   line 0: the answer is longer than `out_len`
 *
 * An output of 65,536 bytes always suffices. Sheets, answers and refusals are described in docs/DECISIONS.md and examples/README.md.
 *
 * The functions always return. They keep no state, allocate nothing and read and write nothing but what is lent; several threads may call
 * them at once, each with an output of its own.
 */
#ifndef LOCHKAVE_H
#define LOCHKAVE_H

#include <stddef.h>
#include <stdint.h>

#ifdef __cplusplus
extern "C" {
#endif

/* Decides a K, an I or a D sheet. Any other first line is refusal 1 on line 1. */
uint64_t lochkave_decide(const uint8_t *sheet, size_t sheet_len, uint8_t *out, size_t out_len);

/*
 * Decides as lochkave_decide does, in rooms that are lent and never cleared: for who decides many sheets. Each length counts elements. Where a
 * room is shorter than in `lochkave_room`, the result is the same, in rooms of the function's own. What the rooms hold before and after a
 * call is of no account. They must not overlap each other, the sheet or the output, and several threads need rooms of their own.
 */
uint64_t lochkave_decide_in(const uint8_t *sheet, size_t sheet_len, uint64_t (*fields)[2], size_t fields_len, uint64_t (*lists)[64],
                            size_t lists_len, uint64_t (*rows)[11], size_t rows_len, uint64_t (*xs)[13], size_t xs_len,
                            uint64_t (*mid)[11], size_t mid_len, uint64_t (*dst)[11], size_t dst_len, uint64_t *masks, size_t masks_len,
                            uint64_t *index, size_t index_len, uint8_t *out, size_t out_len);

/* Rooms that suffice for every sheet. */
typedef struct lochkave_room {
    uint64_t fields[256][2], lists[17][64], rows[256][11], xs[128][13], mid[258][11], dst[536][11], masks[256], index[129];
} lochkave_room;

static inline uint64_t lochkave_decide_lent(lochkave_room *room, const uint8_t *sheet, size_t sheet_len, uint8_t *out, size_t out_len) {
    return lochkave_decide_in(sheet, sheet_len, room->fields, 256, room->lists, 17, room->rows, 256, room->xs, 128, room->mid, 258,
                              room->dst, 536, room->masks, 256, room->index, 129, out, out_len);
}

/* Decides a K sheet: `adjust_input_keys_ordering`. Any other first line is refusal 1 on line 1. */
uint64_t lochkave_adjust_input_keys_ordering(const uint8_t *sheet, size_t sheet_len, uint8_t *out, size_t out_len);

/* Decides an I sheet: `reorder_join_keys_to_inputs`. Any other first line is refusal 1 on line 1. It never gives refusals 6 and 10. */
uint64_t lochkave_reorder_join_keys_to_inputs(const uint8_t *sheet, size_t sheet_len, uint8_t *out, size_t out_len);

/* Decides a D sheet: `ensure_distribution`. Any other first line is refusal 1 on line 1. It never gives refusals 5 and 10. */
uint64_t lochkave_ensure_distribution(const uint8_t *sheet, size_t sheet_len, uint8_t *out, size_t out_len);

/* Reads a sheet and writes it again from what was read: the same bytes. Refusals 1 to 8 and 12 only. */
uint64_t lochkave_rewrite(const uint8_t *sheet, size_t sheet_len, uint8_t *out, size_t out_len);

/* The two halves of a result. */
static inline uint32_t lochkave_number(uint64_t result) { return (uint32_t)(result >> 32); }
static inline uint32_t lochkave_line(uint64_t result) { return (uint32_t)result; }

#ifdef __cplusplus
}
#endif

#endif
