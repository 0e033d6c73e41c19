/*
 * Whole walls and the decoder, for tests and tools. A board needs none of these: what it calls is in column.h, and so is what is asked of slices.
 * Each call answers 0, or the number of a refusal (enum column_refusal), and a refused call has written nothing.
 *
 * Link with libwall_bytes.a, which tools/archive writes beside the board's archive; a program that makes columns too links both. Every
 * function here is proved to do what is said of it for every input (crates/wall_bytes_c, over crates/wall_bytes); what is not proved is this file,
 * so firmware/run tests it.
 *
 * Stack. As in column.h, the most that a call takes, in bytes:
 *
 *     column_wall  110592    posting_wall 110592    column_decode  2560
 */
#ifndef WALL_H
#define WALL_H

#include "column.h"

#ifdef __cplusplus
extern "C" {
#endif

/* The length of what column_decode writes. */
#define COLUMN_COEFFICIENTS 4

/*
 * Runs a whole wall from a planner's sheet and writes a struct column_entry for each column, by column number. row_len is n times
 * COLUMN_ENTRY_BYTES. Refused with 4 for a sheet under two bytes, then with 1, 2, then with 4 for a sheet shorter than its marks and
 * records or a row of another length, then with 5, 6, and with 4 for a sheet of any other length.
 */
uint8_t column_wall(const uint8_t *sheet, size_t sheet_len, uint8_t *row, size_t row_len);

/* The same of a posting, with the poster's number beside the sheet: refused with 3 too, after 1 and 2. */
uint8_t posting_wall(uint32_t poster, const uint8_t *sheet, size_t sheet_len, uint8_t *row, size_t row_len);

/* As posting_wall, on an array of structs: row_len is n. */
uint8_t posting_rows(uint8_t poster, const uint8_t *sheet, size_t sheet_len, struct column_entry *row, size_t row_len);

/*
 * Of n points, by column number, the polynomial of degree at most d that meets at least n - t of them, t being (n - 1) / 3 and d being t / 3: four
 * coefficients, the constant term first and those above d zero. Where there is none, four blanks. A value above 256, blank among them, is no point,
 * and no polynomial meets it. points_len is n, out_len COLUMN_COEFFICIENTS. Refused with 1, 4.
 */
uint8_t column_decode(uint32_t n, const uint16_t *points, size_t points_len, uint16_t *out, size_t out_len);

#ifdef __cplusplus
}
#endif
#endif
