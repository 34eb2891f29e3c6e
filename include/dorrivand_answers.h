/*
 * What dorrivand.h's calls answer, and why they refuse.
 *
 * The answer is one number of 64 bits: done with n is n, refused for n is 2^32 + n. Where the call gives a signed number, it is
 * a signed one of 64 bits. A run's answer is a number of elements, and its place gets the number of the refusal, or 0.
 */
#ifndef DORRIVAND_ANSWERS_H
#define DORRIVAND_ANSWERS_H

#include <stdint.h>

/* Whether the answer is done. */
static inline int dorrivand_is_done(uint64_t answer) { return answer >> 32 == 0; }

/* The number in the answer: of a done one what was asked for, of a refused one the refusal. */
static inline uint32_t dorrivand_number(uint64_t answer) { return (uint32_t)(answer & 0xFFFFFFFFu); }

/* The number of the refusal, 0 where the answer is done. */
static inline uint32_t dorrivand_refused(uint64_t answer) { return dorrivand_is_done(answer) ? 0 : dorrivand_number(answer); }

/* The same of a signed answer, which is below 2^32 where it is done. */
static inline int dorrivand_signed_is_done(int64_t answer) { return answer < ((int64_t)1 << 32); }

static inline int32_t dorrivand_signed_number(int64_t answer) {
    return dorrivand_signed_is_done(answer) ? (int32_t)answer : (int32_t)dorrivand_number((uint64_t)answer);
}

static inline uint32_t dorrivand_signed_refused(int64_t answer) {
    return dorrivand_signed_is_done(answer) ? 0 : dorrivand_number((uint64_t)answer);
}

/* Why a call is refused. 12, which told of another's private file, is no longer given: such a file is unknown, 11. No other
 * refusal has its number. */
enum dorrivand_refusal {
    DORRIVAND_NO_SUCH_USER = 1,
    DORRIVAND_ENTRY_NOT_OPEN = 2,
    DORRIVAND_ENTRY_OPEN = 3,
    DORRIVAND_NOT_A_POINTER = 4,
    DORRIVAND_NO_WORK_PERMIT = 5,
    DORRIVAND_BELOW_BEGIN = 6,
    DORRIVAND_BEYOND_END = 7,
    DORRIVAND_TOO_MANY_SEGMENTS = 8,
    DORRIVAND_NO_ROOM = 9,
    DORRIVAND_POSITIONS_USED_UP = 10,
    DORRIVAND_UNKNOWN_NAME = 11,
    DORRIVAND_NO_WORK_ON_ANOTHERS = 13,
    DORRIVAND_NOT_NOW = 14,
    DORRIVAND_EMPTY_NAME = 15,
    DORRIVAND_NAME_TAKEN = 16,
    DORRIVAND_NO_FREE_PLACE = 17,
    DORRIVAND_NOT_TO_BE_PUBLIC = 18,
    DORRIVAND_NO_SUCH_SPECIES = 19,
    DORRIVAND_UNSOUND_TABLES = 20,
    DORRIVAND_NO_POINTER_LEFT = 21,
    DORRIVAND_UNSOUND_IMAGE = 22,
    DORRIVAND_TOO_WIDE = 23,
    DORRIVAND_FAR = 24
};

/* A refusal in words; "unknown" for a number that is none. */
static inline const char *dorrivand_words(uint32_t refusal) {
    switch (refusal) {
    case DORRIVAND_NO_SUCH_USER: return "user above 7";
    case DORRIVAND_ENTRY_NOT_OPEN: return "entry above 3, or not open where it must be";
    case DORRIVAND_ENTRY_OPEN: return "entry open at an opening";
    case DORRIVAND_NOT_A_POINTER: return "not a pointer of the file, or a standard one to delete";
    case DORRIVAND_NO_WORK_PERMIT: return "no work permit";
    case DORRIVAND_BELOW_BEGIN: return "below the begin";
    case DORRIVAND_BEYOND_END: return "beyond the end";
    case DORRIVAND_TOO_MANY_SEGMENTS: return "a 33rd segment needed";
    case DORRIVAND_NO_ROOM: return "no room: a segment needed, none free";
    case DORRIVAND_POSITIONS_USED_UP: return "positions used up";
    case DORRIVAND_UNKNOWN_NAME: return "unknown name";
    case DORRIVAND_NO_WORK_ON_ANOTHERS: return "no work on another's file";
    case DORRIVAND_NOT_NOW: return "not now";
    case DORRIVAND_EMPTY_NAME: return "old file asked for by the empty name";
    case DORRIVAND_NAME_TAKEN: return "name taken by another record";
    case DORRIVAND_NO_FREE_PLACE: return "new file, no free place";
    case DORRIVAND_NOT_TO_BE_PUBLIC: return "read or scratch closed as public";
    case DORRIVAND_NO_SUCH_SPECIES: return "species above 6, or of the other kind of call";
    case DORRIVAND_UNSOUND_TABLES: return "tables of wrong length or unsound, or store under 64 cells";
    case DORRIVAND_NO_POINTER_LEFT: return "no own pointer left";
    case DORRIVAND_UNSOUND_IMAGE: return "image of wrong length, or unsound";
    case DORRIVAND_TOO_WIDE: return "a number too wide for its species, or outside its range where it is signed";
    case DORRIVAND_FAR: return "a begin or an end too great for the old image";
    default: return "unknown";
    }
}

#endif
