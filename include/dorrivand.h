/*
 * Dorrivand: a file module for eight landlords who keep their lifts' fault records in one block store.
 *
 * The caller keeps the store and the tables, two rows of 32-bit cells, and lends them to each call. `tools/build door`
 * writes the library, and a program is built by
 *
 *     gcc program.c -Iinclude target/staticlib/libdoor.a
 *
 * What the caller must see to:
 *   - A slice is a pointer and the number of elements that it points to. Where the number is 0, any pointer will do.
 *   - A place is a pointer to one cell.
 *   - The slices and the place lent to one call do not overlap, and nobody else writes to them before it returns.
 * Nothing else. Numbers may be any numbers, slices of any length, cells and names of any contents: every call ends and
 * answers, and a refusal leaves store, tables, image and list as they stood. A run's place, which gets the refusal's number,
 * is the one cell that a refusal may write. A call writes only to slices that are not const, and to its place.
 *
 * Where a call's words below name no number, done is 0. The refusals of a call are listed in the order in which they are
 * judged: the first that applies is the answer.
 *
 * Users are 0 to 7, each with entries 0 to 3; pointers 3 to 7 are a file's own.
 *
 * Names: space, tab and newline are skipped; 0 to 9 and a to z are symbols 0 to 35; any other byte ends the name; what
 * follows the twelfth symbol is ignored. The empty name is the scratch name, and no call refuses a name for its bytes. So:
 *   - "Lift 7" is the scratch name, for a capital letter ends a name: a new file renamed to it is gone at its close, and
 *     so is an old one.
 *   - "lift-7" is kept as "lift".
 *   - "building 12 lift 1" and "building 12 lift 2" are one name, "building12li".
 * dorrivand_name_of tells beforehand what will be kept.
 *
 * docs/OPERATING.md: what to keep on disk, and how. docs/CHANGES.md: what is new in each version.
 */
#ifndef DORRIVAND_H
#define DORRIVAND_H

#include "dorrivand_answers.h"
#include "dorrivand_forms.h"
#include "dorrivand_signed.h"
#include <stddef.h>
#include <stdint.h>

#ifdef __cplusplus
extern "C" {
#endif

/* A file's standard pointers. */
enum dorrivand_pointer { DORRIVAND_BEGIN = 0, DORRIVAND_END = 1, DORRIVAND_WORK = 2 };

/* The species, by the width of a file's elements; one of 32 bits is a cell of the store. Those of the last are signed, and
 * are written and read by the calls of dorrivand_signed.h. */
enum dorrivand_species {
    DORRIVAND_BITS_1 = 0,
    DORRIVAND_BITS_2 = 1,
    DORRIVAND_BITS_4 = 2,
    DORRIVAND_BITS_8 = 3,
    DORRIVAND_BITS_16 = 4,
    DORRIVAND_BITS_32 = 5,
    DORRIVAND_SIGNED_16 = 6
};

/* The version that this header belongs to: it grows by 1 with each change that a caller can notice. */
#define DORRIVAND_VERSION 8

/* The version of the library that is linked. */
uint32_t dorrivand_version(void);

/* The one length of the tables, and of an image, in cells. */
size_t dorrivand_tables_length(void);
size_t dorrivand_image_length(void);

/* What name the bytes make. Its twelve symbols, with 63 after the last one, go to the first cells of symbols, as many of them
 * as there are cells; other cells stay. The answer is how many bytes the name uses: those before the first that ends it or
 * is a thirteenth symbol. Where that is name_length, nothing is lost but what is skipped; where the first symbol is 63,
 * it is the scratch name. */
size_t dorrivand_name_of(const uint8_t *name, size_t name_length, uint32_t *symbols, size_t symbols_length);

/* ---- The operator's calls: they name no user, and none of them but tidying changes a store cell. ---- */

/* Fresh start: no files, nothing open, and floor(store_length / 64) segments, at most 1,024. What the tables held is not
 * looked at.
 * Refusals: 20 (the lengths alone). */
uint64_t dorrivand_fresh(const uint32_t *store, size_t store_length, uint32_t *tables, size_t tables_length);

/* Save: writes the records, whatever is open, to the image. The elements are not in it, they stay in the store's cells: an
 * image is a backup only together with the store's cells of the same moment.
 * Refusals: 20; 22 (the image's length alone). */
uint64_t dorrivand_save(const uint32_t *store, size_t store_length, const uint32_t *tables, size_t tables_length,
                        uint32_t *image, size_t image_length);

/* Load: the image's records and its number of segments, nothing open. What the tables held is not looked at. The elements
 * are those that the store's cells hold now. Over cells of another moment the load is done all the same, and a landlord's
 * file reads what a neighbour has written into its segments since the save. An image that a version before 7 saved is refused
 * until dorrivand_up has moved it; tables that such a version left are good as they are.
 * Refusals: 20 (the lengths alone); 22. */
uint64_t dorrivand_load(const uint32_t *store, size_t store_length, uint32_t *tables, size_t tables_length,
                        const uint32_t *image, size_t image_length);

/* Tidy: H being how many segments the records list, the listed ones numbered H or above, in rising order, go to the free
 * ones below H, in rising order; no other moves. Their 64 cells are copied, segments left behind keep theirs, and every file
 * reads the same. The store's cells beyond the first 64 * H hold no file then. The answer is the number of cells copied.
 * An image saved before names the old segments. Saved just before, it is good over these cells until one that was left
 * behind is written to again; an older one may name a segment that was free since and is written over here. So save after
 * tidying, and keep image and store of one moment together.
 * Refusals: 20; 14 if anything at all is open, a reader or an empty new file too. */
uint64_t dorrivand_tidy(uint32_t *store, size_t store_length, uint32_t *tables, size_t tables_length);

/* ---- Free segments ---- */

/* The number of free segments: those that no record and no opening lists.
 * Refusals: 20; 1. */
uint64_t dorrivand_free(const uint32_t *store, size_t store_length, const uint32_t *tables, size_t tables_length,
                        uint32_t user);

/* ---- Opening ---- */

/* New: makes an empty scratch file of the species, with work permit. The work pointer stands at the begin, which is 1.
 * Refusals: 20; 1; 2 (entry above 3); 3; 19 (species above 6). */
uint64_t dorrivand_new(const uint32_t *store, size_t store_length, uint32_t *tables, size_t tables_length,
                       uint32_t user, uint32_t entry, uint32_t species);

/* Work: opens a permanent file by name, with work permit: the user's own record of that name first, then a public one.
 * The work pointer stands at the end: to read or change what is there already, reset first.
 * Refusals: 20; 1; 2 (entry above 3); 3; 15; 11 when neither is there, for another's private file looks absent; 13 for
 * another's public file; 14 if any opening of the record exists. */
uint64_t dorrivand_work(const uint32_t *store, size_t store_length, uint32_t *tables, size_t tables_length,
                        uint32_t user, uint32_t entry, const uint8_t *name, size_t name_length);

/* Read: opens a permanent file by name, looked up as for work, without work permit. The work pointer stands at the begin.
 * Refusals: 20; 1; 2 (entry above 3); 3; 15; 11 as for work; 14 if a work opening of the record exists. */
uint64_t dorrivand_read(const uint32_t *store, size_t store_length, uint32_t *tables, size_t tables_length,
                        uint32_t user, uint32_t entry, const uint8_t *name, size_t name_length);

/* ---- Renaming, closing, abandoning ---- */

/* Rename: changes the opening's name only; the record gets it at a close.
 * Refusals: 20; 1; 2; 5. */
uint64_t dorrivand_rename(const uint32_t *store, size_t store_length, uint32_t *tables, size_t tables_length,
                          uint32_t user, uint32_t entry, const uint8_t *name, size_t name_length);

/* Close private. Read: the opening ends. New scratch: the file vanishes. Old work renamed to scratch: its record and all
 * segments are freed. Otherwise name, privacy, species, begin, end and segments become the record, a new file in the
 * lowest free place, and replaced segments become free.
 * Refusals: 20; 1; 2; 16 if a record would be written and another one has the same owner and name; 17. */
uint64_t dorrivand_close(const uint32_t *store, size_t store_length, uint32_t *tables, size_t tables_length,
                         uint32_t user, uint32_t entry);

/* Close public: as close private, and everyone may read the file.
 * Refusals: 20; 1; 2; 18; 16 if another record has the same owner and name, or another public one has the name; 17. */
uint64_t dorrivand_public(const uint32_t *store, size_t store_length, uint32_t *tables, size_t tables_length,
                          uint32_t user, uint32_t entry);

/* Abandon: the opening ends, segments listed only by it become free, the record is untouched.
 * Refusals: 20; 1; 2. */
uint64_t dorrivand_abandon(const uint32_t *store, size_t store_length, uint32_t *tables, size_t tables_length,
                           uint32_t user, uint32_t entry);

/* ---- Pointers ---- */

/* Reset: puts the work pointer at the begin value.
 * Refusals: 20; 1; 2. */
uint64_t dorrivand_reset(const uint32_t *store, size_t store_length, uint32_t *tables, size_t tables_length,
                         uint32_t user, uint32_t entry);

/* New own pointer: takes the lowest free name, which is the answer, and the value of the given pointer.
 * Refusals: 20; 1; 2; 4; 21. */
uint64_t dorrivand_pointer(const uint32_t *store, size_t store_length, uint32_t *tables, size_t tables_length,
                           uint32_t user, uint32_t entry, uint32_t pointer);

/* Delete an own pointer: only 3 to 7 can be deleted.
 * Refusals: 20; 1; 2; 4. */
uint64_t dorrivand_delete(const uint32_t *store, size_t store_length, uint32_t *tables, size_t tables_length,
                          uint32_t user, uint32_t entry, uint32_t pointer);

/* ---- Access: v is the value of the pointer, b the begin, e the end; none is above 4,294,967,295 ---- */

/* Write: it, its run, the signed write and tidying are all that writes to the store. Through 1: append, e grows by 1.
 * Through 0: the first element is dropped, no segment is taken and no store cell changes. Else position v is replaced. v grows
 * by 1. No number is cut: one that is too wide for the species is refused, through 0 too.
 * Refusals: 20; 1; 2; 19 for species 6; 4; 5; 6 where v < b; 7 where v >= e, but not through 1; 23; 10 where e is
 * 4,294,967,295, but only through 1; 8; 9. */
uint64_t dorrivand_write(uint32_t *store, size_t store_length, uint32_t *tables, size_t tables_length,
                         uint32_t user, uint32_t entry, uint32_t pointer, uint32_t number);

/* Next: delivers position v, v grows by 1. Through 0 the element leaves the file.
 * Refusals: 20; 1; 2; 19 for species 6; 4; 5 (through 0); 6 where v < b; 7 where v >= e. */
uint64_t dorrivand_next(const uint32_t *store, size_t store_length, uint32_t *tables, size_t tables_length,
                        uint32_t user, uint32_t entry, uint32_t pointer);

/* Prev: v falls by 1, delivers that position. Through 1 the element leaves the file.
 * Refusals: 20; 1; 2; 19 for species 6; 4; 5 (through 1); 6 where v <= b; 7 where v > e. */
uint64_t dorrivand_prev(const uint32_t *store, size_t store_length, uint32_t *tables, size_t tables_length,
                        uint32_t user, uint32_t entry, uint32_t pointer);

/* ---- Runs of elements: single calls made one after another, up to the first that is refused ---- */

/* The outcome is that of the single calls: what those before the refused one did stays done. The tables are judged once for
 * the whole run. The place gets the number of the refusal that stopped the run, 0 where none did. A list of length 0 asks for
 * no element, and gets the refusals that come before any element's. */

/* Write a run: writes the list's elements in their order through one pointer. The answer is how many are left unwritten: the
 * last so many of the list.
 * Refusals: 20; 1; 2; 19; 4; 5; 6; 7; 23; 10; 8; 9, as for write; of a list of length 0 only 20; 1; 2; 19; 4; 5. */
size_t dorrivand_write_run(uint32_t *store, size_t store_length, uint32_t *tables, size_t tables_length,
                           uint32_t user, uint32_t entry, uint32_t pointer, const uint32_t *list, size_t list_length,
                           uint32_t *place);

/* Fill a run: puts what next delivers through one pointer into the list's places in their order. The answer is how many it
 * filled: the first so many of the list. The others stay as they were.
 * Refusals: 20; 1; 2; 19; 4; 5 (through 0); 6; 7, as for next; of a list of length 0 only 20; 1; 2; 19; 4; 5 (through 0). */
size_t dorrivand_fill_run(const uint32_t *store, size_t store_length, uint32_t *tables, size_t tables_length,
                          uint32_t user, uint32_t entry, uint32_t pointer, uint32_t *list, size_t list_length,
                          uint32_t *place);

/* ---- Inquiries about an open file ---- */

/* The species.
 * Refusals: 20; 1; 2. */
uint64_t dorrivand_species(const uint32_t *store, size_t store_length, const uint32_t *tables, size_t tables_length,
                           uint32_t user, uint32_t entry);

/* The claim: the number of positions from b to the end of the last held stretch, even beyond 4,294,967,295; 0 for an empty file.
 * Refusals: 20; 1; 2. */
uint64_t dorrivand_claim(const uint32_t *store, size_t store_length, const uint32_t *tables, size_t tables_length,
                         uint32_t user, uint32_t entry);

/* The work permit: 1 or 0.
 * Refusals: 20; 1; 2. */
uint64_t dorrivand_permit(const uint32_t *store, size_t store_length, const uint32_t *tables, size_t tables_length,
                          uint32_t user, uint32_t entry);

/* Symbol k of the name, k from 0; 63 after the name's last symbol, and for k of 12 or more.
 * Refusals: 20; 1; 2. */
uint64_t dorrivand_symbol(const uint32_t *store, size_t store_length, const uint32_t *tables, size_t tables_length,
                          uint32_t user, uint32_t entry, uint32_t k);

/* The begin value.
 * Refusals: 20; 1; 2. */
uint64_t dorrivand_begin(const uint32_t *store, size_t store_length, const uint32_t *tables, size_t tables_length,
                         uint32_t user, uint32_t entry);

/* The end value.
 * Refusals: 20; 1; 2. */
uint64_t dorrivand_end(const uint32_t *store, size_t store_length, const uint32_t *tables, size_t tables_length,
                       uint32_t user, uint32_t entry);

/* The value of a pointer.
 * Refusals: 20; 1; 2; 4. */
uint64_t dorrivand_value(const uint32_t *store, size_t store_length, const uint32_t *tables, size_t tables_length,
                         uint32_t user, uint32_t entry, uint32_t pointer);

#ifdef __cplusplus
}
#endif

#endif
