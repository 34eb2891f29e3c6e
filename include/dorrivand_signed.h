/*
 * Write, next and prev of signed numbers, for degrees below zero. dorrivand.h includes this header, and says what a caller must
 * see to and what the words mean.
 *
 * They do what their plain twins do, in files of species 6, whose elements are -32,768 to 32,767. The plain ones refuse that
 * species, and these refuse all others. There is no signed run. Opening, pointers and inquiries are the same for every species.
 */
#ifndef DORRIVAND_SIGNED_H
#define DORRIVAND_SIGNED_H

#include <stddef.h>
#include <stdint.h>

#ifdef __cplusplus
extern "C" {
#endif

/* Write, as dorrivand_write. Done is 0, in an answer that is not signed.
 * Refusals: 20; 1; 2; 19 for species 0 to 5; 4; 5; 6 where v < b; 7 where v >= e, but not through 1; 23 for a number outside
 * the range, through 0 too; 10; 8; 9. */
uint64_t dorrivand_write_signed(uint32_t *store, size_t store_length, uint32_t *tables, size_t tables_length,
                                uint32_t user, uint32_t entry, uint32_t pointer, int32_t number);

/* Next, as dorrivand_next. The answer is signed.
 * Refusals: 20; 1; 2; 19 for species 0 to 5; 4; 5 (through 0); 6 where v < b; 7 where v >= e. */
int64_t dorrivand_next_signed(const uint32_t *store, size_t store_length, uint32_t *tables, size_t tables_length,
                              uint32_t user, uint32_t entry, uint32_t pointer);

/* Prev, as dorrivand_prev. The answer is signed.
 * Refusals: 20; 1; 2; 19 for species 0 to 5; 4; 5 (through 1); 6 where v <= b; 7 where v > e. */
int64_t dorrivand_prev_signed(const uint32_t *store, size_t store_length, uint32_t *tables, size_t tables_length,
                              uint32_t user, uint32_t entry, uint32_t pointer);

#ifdef __cplusplus
}
#endif

#endif
