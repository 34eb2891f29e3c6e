/*
 * How much stack each call takes. A call runs on a thread whose stack was filled with a pattern; what the pattern lost, less
 * what a thread takes that does nothing, is the call's. Fails where a call takes more than it may.
 */
#define _POSIX_C_SOURCE 200809L
#include "dorrivand.h"
#include <pthread.h>
#include <stdio.h>
#include <stdlib.h>
#include <string.h>

enum { STORE_LENGTH = 65536, LIST_LENGTH = 100, USER = 1, ENTRY = 2, FIRST_OWN = 3 };
enum { STACK_BYTES = 1 << 18, MOST_BYTES = 32 * 1024, PAGE_BYTES = 4096, PATTERN = 0xA5 };

static uint32_t store[STORE_LENGTH], list[LIST_LENGTH], *tables, *image, *old;

#define LENT store, STORE_LENGTH, tables, dorrivand_tables_length()
#define IMAGE image, dorrivand_image_length()
#define OLD_IMAGE old, dorrivand_old_image_length()
#define NAMED (const uint8_t *)"lift 7", 6

static uint64_t nothing(void) { return 0; }
static uint64_t fresh(void) { return dorrivand_fresh(LENT); }
static uint64_t open_new(void) { return dorrivand_new(LENT, USER, ENTRY, DORRIVAND_BITS_32); }
static uint64_t append(void) { return dorrivand_write(LENT, USER, ENTRY, DORRIVAND_END, 301); }
static uint64_t reset(void) { return dorrivand_reset(LENT, USER, ENTRY); }
static uint64_t replace(void) { return dorrivand_write(LENT, USER, ENTRY, DORRIVAND_WORK, 417); }
static uint64_t own_pointer(void) { return dorrivand_pointer(LENT, USER, ENTRY, DORRIVAND_BEGIN); }
static uint64_t delete_pointer(void) { return dorrivand_delete(LENT, USER, ENTRY, FIRST_OWN); }
static uint64_t rename_it(void) { return dorrivand_rename(LENT, USER, ENTRY, NAMED); }
static uint64_t claim(void) { return dorrivand_claim(LENT, USER, ENTRY); }
static uint64_t close_public(void) { return dorrivand_public(LENT, USER, ENTRY); }
static uint64_t save(void) { return dorrivand_save(LENT, IMAGE); }
static uint64_t move_down(void) { return dorrivand_down(IMAGE, OLD_IMAGE, STORE_LENGTH / 64); }
static uint64_t move_up(void) { return dorrivand_up(OLD_IMAGE, IMAGE, STORE_LENGTH / 64); }
static uint64_t load(void) { return dorrivand_load(LENT, IMAGE); }
static uint64_t tidy(void) { return dorrivand_tidy(LENT); }
static uint64_t open_work(void) { return dorrivand_work(LENT, USER, ENTRY, NAMED); }
static uint64_t take_first(void) { return dorrivand_next(LENT, USER, ENTRY, DORRIVAND_BEGIN); }
static uint64_t take_last(void) { return dorrivand_prev(LENT, USER, ENTRY, DORRIVAND_END); }
static uint64_t free_segments(void) { return dorrivand_free(LENT, USER); }
static uint64_t abandon(void) { return dorrivand_abandon(LENT, USER, ENTRY); }

/* What stopped a run or refused a signed call, as the others answer it. */
static uint64_t stopped(uint32_t stop) { return stop == 0 ? 0 : ((uint64_t)1 << 32) + stop; }

static uint64_t write_run(uint32_t pointer) {
    uint32_t stop;
    dorrivand_write_run(LENT, USER, ENTRY, pointer, list, LIST_LENGTH, &stop);
    return stopped(stop);
}

static uint64_t append_run(void) { return write_run(DORRIVAND_END); }
static uint64_t replace_run(void) { return write_run(DORRIVAND_WORK); }

static uint64_t take_run(void) {
    uint32_t stop;
    dorrivand_fill_run(LENT, USER, ENTRY, DORRIVAND_BEGIN, list, LIST_LENGTH, &stop);
    return stopped(stop);
}

static uint64_t new_signed(void) { return dorrivand_new(LENT, USER, ENTRY, DORRIVAND_SIGNED_16); }
static uint64_t append_signed(void) { return dorrivand_write_signed(LENT, USER, ENTRY, DORRIVAND_END, -5); }

static uint64_t take_first_signed(void) {
    return stopped(dorrivand_signed_refused(dorrivand_next_signed(LENT, USER, ENTRY, DORRIVAND_BEGIN)));
}

static uint64_t take_last_signed(void) {
    return stopped(dorrivand_signed_refused(dorrivand_prev_signed(LENT, USER, ENTRY, DORRIVAND_END)));
}

struct call {
    const char *name;
    uint64_t (*made)(void);
};

/* A history in which each of them is done. At its end the file has been changed and closed, so that it lies above the segment
 * that it had, and the tidying has something to move. */
static struct call calls[] = {
    {"fresh start", fresh},
    {"new signed", new_signed},
    {"write signed", append_signed},
    {"write signed", append_signed},
    {"next signed", take_first_signed},
    {"prev signed", take_last_signed},
    {"abandon", abandon},
    {"new", open_new},
    {"append", append},
    {"append", append},
    {"own pointer", own_pointer},
    {"delete", delete_pointer},
    {"rename", rename_it},
    {"claim", claim},
    {"close public", close_public},
    {"save", save},
    {"down", move_down},
    {"up", move_up},
    {"load", load},
    {"work", open_work},
    {"reset", reset},
    {"replace", replace},
    {"next", take_first},
    {"prev", take_last},
    {"append a run", append_run},
    {"replace a run", replace_run},
    {"fill a run", take_run},
    {"free segments", free_segments},
    {"abandon", abandon},
    {"work", open_work},
    {"append", append},
    {"close public", close_public},
    {"tidy", tidy},
};

static uint64_t answer;

static void *make(void *call) {
    answer = ((struct call *)call)->made();
    return NULL;
}

/* How many bytes of a stack a call has written to, with what the thread itself needs. */
static long touched(struct call *call) {
    static unsigned char *stack;
    pthread_attr_t attributes;
    pthread_t thread;
    long untouched = 0;
    if (stack == NULL && posix_memalign((void **)&stack, PAGE_BYTES, STACK_BYTES) != 0) exit(EXIT_FAILURE);
    memset(stack, PATTERN, STACK_BYTES);
    if (pthread_attr_init(&attributes) != 0 || pthread_attr_setstack(&attributes, stack, STACK_BYTES) != 0) exit(EXIT_FAILURE);
    if (pthread_create(&thread, &attributes, make, call) != 0 || pthread_join(thread, NULL) != 0) exit(EXIT_FAILURE);
    while (stack[untouched] == PATTERN) untouched++;
    return STACK_BYTES - untouched;
}

int main(void) {
    struct call none = {"nothing", nothing};
    int status = EXIT_SUCCESS;
    image = calloc(dorrivand_image_length(), sizeof *image);
    old = calloc(dorrivand_old_image_length(), sizeof *old);
    tables = calloc(dorrivand_tables_length(), sizeof *tables);
    if (image == NULL || old == NULL || tables == NULL) return EXIT_FAILURE;
    for (size_t i = 0; i < sizeof calls / sizeof *calls; i++) {
        long bytes = -touched(&none);
        bytes += touched(&calls[i]);
        printf("%-14s%6ld bytes\n", calls[i].name, bytes);
        if (!dorrivand_is_done(answer) || bytes > MOST_BYTES) status = EXIT_FAILURE;
    }
    free(image);
    free(old);
    free(tables);
    return status;
}
