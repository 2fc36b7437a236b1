/* Haafgrim: the checked core of puzzle publishing. Link with libhaafgrim.a (`tools/library` makes it).
 *
 * Every entry takes any input at all and needs no earlier call. It answers a number and, through `place`, a place:
 *   0        accepted; the place is how many words or bytes were written, from the front of `out` on, and the rest of `out` is as it was;
 *   others   refused, with the number and the place of the table in docs/STATEMENTS.md; nothing of `out` is changed.
 * `*place` is set on every answer. (haafgrim_from_two_powers alone has no buffer and no place: it answers its mask.)
 * Refusals are listed below in the order in which they are tested; in a walk over words, the first word that offends decides, and so 4 and 5 of a clue,
 * 1, 2, 3, 4, 5, 7 and 8 of a puzzle, and 1, 17, 18 and 19 of probe words go by word.
 *
 * A slice is a pointer and then its length in elements; where the length is 0 the pointer is not used and may be NULL.
 * `place` points to one writable size_t. The lent memory, `out` and `*place`, overlaps neither the inputs nor each other.
 * The entries keep no state and allocate nothing: they may run at the same time, on memory of their own to write to. 128 KiB of stack are enough for each.
 */
#ifndef HAAFGRIM_H
#define HAAFGRIM_H

#include <stddef.h>
#include <stdint.h>

#ifdef __cplusplus
extern "C" {
#endif

/* The set bits of a mask as powers of two, lowest first.
 * Needs as many words as bits are set (32 are always enough). Refuses: 12. */
uint32_t haafgrim_two_powers(uint32_t mask, uint32_t *out, size_t out_len, size_t *place);

/* The words joined by or; 0 for none. Answers the mask itself and never refuses. */
uint32_t haafgrim_from_two_powers(const uint32_t *words, size_t words_len);

/* The maximal runs of one non-blank colour in a line of colour bytes (0 is blank), as size and colour pairs.
 * Needs two words a run (128 are always enough). Refuses: 2, 18, 12. */
uint32_t haafgrim_read_line(const uint8_t *line, size_t line_len, uint32_t *out, size_t out_len, size_t *place);

/* For a clue, given as a size and a colour for each block, on a line of `length` cells: the positions of each block, the least space,
 * then the start of each block. Needs two words and one a block (66 are always enough). Refuses: 2, 1, 3, 4, 5, 6, 12. */
uint32_t haafgrim_starts(size_t length, const uint32_t *clue, size_t clue_len, uint32_t *out, size_t out_len, size_t *place);

/* For the same clue, for each colour 1 to 31, the first cell that it can have and the cell after the last; zeros where the clue lacks it.
 * Needs 62 words. Refuses: 2, 1, 3, 4, 5, 6, 12. */
uint32_t haafgrim_color_ranges(size_t length, const uint32_t *clue, size_t clue_len, uint32_t *out, size_t out_len, size_t *place);

/* A grid is colour bytes row by row, 0 for blank. Reads it as the words of the puzzle that it solves: its columns' and rows' clues, and for each cell a mask with
 * bit 0 and the bits of the colours of the rows (bit 1 where there are none). 20,611 words are always enough. Refuses: 2 (place 0 for the width, 1 for the height), 7, 18, 12. */
uint32_t haafgrim_read_grid(size_t width, size_t height, const uint8_t *grid, size_t grid_len, uint32_t *out, size_t out_len, size_t *place);

/* The grid's columns as rows: a grid of `height` bytes a row, any bytes. Needs as many bytes as the grid has. Refuses: 2, 7, 12. */
uint32_t haafgrim_transpose(size_t width, size_t height, const uint8_t *grid, size_t grid_len, uint8_t *out, size_t out_len, size_t *place);

/* The clauses of a puzzle, which is given as words such as haafgrim_read_grid writes: ten sections, each its number of clauses, then for each clause its number
 * of literals and its literals, v or -v. Variables count from 1: per column and block its positions, per row and block its positions, then per cell, row by row,
 * the colours of the rows, ascending (colour 1 where there are none). There are at most 262,144.
 * The sections: 1 and 2, each block of a column, of a row, has some position; 3 and 4, no two; 5 and 6, no two blocks of it are in conflict; 7, a colour of a cell is
 * that of a block which covers it, in its column and in its row; 8, and a cell that is covered has the colour; 9, no two colours; 10, what the masks say.
 * Needs as many words as haafgrim_counts writes last. Refuses: 1, 2, 3, 4, 5, 7, 8, 11, 6, 9, 10, 12. */
uint32_t haafgrim_clauses(const uint32_t *puzzle, size_t puzzle_len, int32_t *out, size_t out_len, size_t *place);

/* For the same words: how many variables there are, how many clauses in each of the ten sections, how many literals in all, and how many words the clauses need.
 * Needs 13 words of 64 bits. Refuses: 1, 2, 3, 4, 5, 7, 8, 11, 6, 9, 10, 12. */
uint32_t haafgrim_counts(const uint32_t *puzzle, size_t puzzle_len, uint64_t *out, size_t out_len, size_t *place);

/* A model is one byte, 0 or 1, for each variable of the puzzle, from 1 on. Accepts it exactly when every clause of the ten sections is true, and then writes the
 * picture that it shows: one colour byte for each cell, row by row, 0 for blank. Needs width times height bytes (4,096 are always enough).
 * Refuses: those of haafgrim_clauses but 12, then 13, 14, 15 (at the first false clause, counted from 0 over all sections), 16 (never given: 15 comes before), 12. */
uint32_t haafgrim_check_model(const uint32_t *puzzle, size_t puzzle_len, const uint8_t *model, size_t model_len, uint8_t *out, size_t out_len, size_t *place);

/* Checks the model likewise, and writes the clause that rules its picture out: how many literals it has, then each true variable of a cell negated, ascending.
 * With the clauses of the puzzle and such clauses of some models, exactly the pictures that none of these models shows remain.
 * Needs one word and one for each coloured cell (4,097 are always enough). Refuses as haafgrim_check_model does. */
uint32_t haafgrim_blocking(const uint32_t *puzzle, size_t puzzle_len, const uint8_t *model, size_t model_len, int32_t *out, size_t out_len, size_t *place);

/* Probe words are the number of probes, and for each its x, its y, its colour (0 for blank) and the number of its impacts, then the x, y and colour of each impact.
 * Writes one section, the number of its clauses and then the clauses as haafgrim_clauses does, which a grid of blanks and colours that cells have variables for satisfies exactly when, wherever a probe's cell has the
 * probe's colour, each of its impacts holds; an impact of another colour is left out. Needs one word, and at most 1,023 for each impact.
 * Refuses: those of haafgrim_clauses but 12, then 20, 1, 17, 18, 19, 11, whose places count in the probe words, and 12. A 1 or 11 may be of the puzzle or of the
 * probe words; where haafgrim_counts accepts the puzzle, it is of the probe words. */
uint32_t haafgrim_probes(const uint32_t *puzzle, size_t puzzle_len, const uint32_t *probe, size_t probe_len, int32_t *out, size_t out_len, size_t *place);

/* Clause words as DIMACS CNF text: `sections` sections in the form in which haafgrim_clauses writes ten; any words may be given, and 22 is the answer to all that are not of that form. The first line is `p cnf V C`, with the number of variables
 * and that of clauses; then comes a line for each clause, its literals and 0 parted by single spaces; a newline after each line, no comments, no zero byte at the end.
 * Literals are of the variables 1 to `variables`; each section's clauses follow those of the section before. Two different numbers of variables or lists of clauses never give one text.
 * Needs as many bytes as the text has; 12 says how many. Refuses: 21 (place 0 for over 1,000,000 variables, 1 for over 16 sections, 2 for over 1,073,741,824 words), 22, 12. */
uint32_t haafgrim_dimacs(size_t variables, size_t sections, const int32_t *words, size_t words_len, uint8_t *out, size_t out_len, size_t *place);

#ifdef __cplusplus
}
#endif

#endif
