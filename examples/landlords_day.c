/* A landlord's day, through the header alone. It prints every answer; landlords_day.expected has them all. */
#include "dorrivand.h"
#include <stdio.h>
#include <stdlib.h>
#include <string.h>

#define STORE_LENGTH 1024
#define READINGS 40

static uint32_t store[STORE_LENGTH];
static uint32_t *tables;

/* Every call is lent the store and the tables. */
#define LENT store, STORE_LENGTH, tables, dorrivand_tables_length()

/* The bytes of a name, and how many they are. */
#define NAMED(name) (const uint8_t *)(name), strlen(name)

static void part(const char *words) { printf("\n%s\n", words); }

static void refused(const char *call, uint32_t refusal) {
    printf("    %-30srefused: %s\n", call, dorrivand_words(refusal));
}

/* The answer of a call that gives no number. */
static void did(const char *call, uint64_t answer) {
    if (dorrivand_is_done(answer)) {
        printf("    %-30sdone\n", call);
    } else {
        refused(call, dorrivand_refused(answer));
    }
}

/* The answer of a call that gives a number. */
static void got(const char *call, uint64_t answer) {
    if (dorrivand_is_done(answer)) {
        printf("    %-30s%u\n", call, (unsigned)dorrivand_number(answer));
    } else {
        refused(call, dorrivand_refused(answer));
    }
}

/* The answer of a call that gives a signed number. */
static void got_signed(const char *call, int64_t answer) {
    if (dorrivand_signed_is_done(answer)) {
        printf("    %-30s%d\n", call, (int)dorrivand_signed_number(answer));
    } else {
        refused(call, dorrivand_signed_refused(answer));
    }
}

/* How many elements a run left or filled, and what stopped it. */
static void ran(const char *call, size_t elements, uint32_t stop) {
    if (stop == 0) {
        printf("    %-30s%lu\n", call, (unsigned long)elements);
    } else {
        printf("    %-30s%lu, stopped: %s\n", call, (unsigned long)elements, dorrivand_words(stop));
    }
}

static void open_for(const char *purpose, const char *name, uint64_t answer) {
    char call[64];
    snprintf(call, sizeof call, "open for %s \"%s\"", purpose, name);
    did(call, answer);
}

/* Reads a file from its begin to its end. */
static void read_all(uint32_t user, const char *name) {
    uint64_t answer;
    open_for("reading", name, dorrivand_read(LENT, user, 1, NAMED(name)));
    do {
        answer = dorrivand_next(LENT, user, 1, DORRIVAND_WORK);
        got("next", answer);
    } while (dorrivand_is_done(answer));
    did("close private", dorrivand_close(LENT, user, 1));
}

/* The same of a file of temperatures. */
static void read_degrees(uint32_t user, const char *name) {
    int64_t answer;
    open_for("reading", name, dorrivand_read(LENT, user, 1, NAMED(name)));
    do {
        answer = dorrivand_next_signed(LENT, user, 1, DORRIVAND_WORK);
        got_signed("next", answer);
    } while (dorrivand_signed_is_done(answer));
    did("close private", dorrivand_close(LENT, user, 1));
}

static void make_two_files(void) {
    part("Landlord 2 makes a file of fault records for lift 7: numbers of 16 bits, private.");
    did("open new", dorrivand_new(LENT, 2, 0, DORRIVAND_BITS_16));
    did("append 301", dorrivand_write(LENT, 2, 0, DORRIVAND_END, 301));
    did("append 417", dorrivand_write(LENT, 2, 0, DORRIVAND_END, 417));
    did("append 208", dorrivand_write(LENT, 2, 0, DORRIVAND_END, 208));
    did("rename to \"lift 7\"", dorrivand_rename(LENT, 2, 0, NAMED("lift 7")));
    did("close private", dorrivand_close(LENT, 2, 0));

    part("Landlord 5 makes one for door 1: numbers of 8 bits, public. 300 is too wide, and is refused.");
    did("open new", dorrivand_new(LENT, 5, 0, DORRIVAND_BITS_8));
    did("append 12", dorrivand_write(LENT, 5, 0, DORRIVAND_END, 12));
    did("append 300", dorrivand_write(LENT, 5, 0, DORRIVAND_END, 300));
    did("append 255", dorrivand_write(LENT, 5, 0, DORRIVAND_END, 255));
    did("rename to \"door 1\"", dorrivand_rename(LENT, 5, 0, NAMED("door 1")));
    did("close public", dorrivand_public(LENT, 5, 0));
    got("free segments", dorrivand_free(LENT, 5));
}

static void read_and_be_refused(void) {
    part("Landlord 2 reads both files. Nobody but the owner works on a public one.");
    read_all(2, "lift 7");
    read_all(2, "door 1");
    open_for("work", "door 1", dorrivand_work(LENT, 2, 0, NAMED("door 1")));

    part("The neighbour, landlord 5, asks for lift 7, which is not his and private. To him it looks absent, as lift 9 does.");
    open_for("reading", "lift 7", dorrivand_read(LENT, 5, 0, NAMED("lift 7")));
    open_for("work", "lift 7", dorrivand_work(LENT, 5, 0, NAMED("lift 7")));
    open_for("reading", "lift 9", dorrivand_read(LENT, 5, 0, NAMED("lift 9")));
}

/* A file that is opened for work has its work pointer at the end. */
static uint64_t replace_first(uint32_t user, uint32_t entry, uint32_t number) {
    uint64_t answer = dorrivand_reset(LENT, user, entry);
    if (!dorrivand_is_done(answer)) return answer;
    return dorrivand_write(LENT, user, entry, DORRIVAND_WORK, number);
}

static void edit(void) {
    part("Landlord 2 edits lift 7 and abandons the edit: nothing of it is left.");
    open_for("work", "lift 7", dorrivand_work(LENT, 2, 0, NAMED("lift 7")));
    did("replace the first by 999", replace_first(2, 0, 999));
    got("take the last away", dorrivand_prev(LENT, 2, 0, DORRIVAND_END));
    did("append 111", dorrivand_write(LENT, 2, 0, DORRIVAND_END, 111));
    got("free segments", dorrivand_free(LENT, 2));
    did("abandon", dorrivand_abandon(LENT, 2, 0));
    got("free segments", dorrivand_free(LENT, 2));
    read_all(2, "lift 7");

    part("Fault 301 is mended, and a new one comes in. This edit is closed.");
    open_for("work", "lift 7", dorrivand_work(LENT, 2, 0, NAMED("lift 7")));
    got("take the first away", dorrivand_next(LENT, 2, 0, DORRIVAND_BEGIN));
    did("append 522", dorrivand_write(LENT, 2, 0, DORRIVAND_END, 522));
    got("begin", dorrivand_begin(LENT, 2, 0));
    got("end", dorrivand_end(LENT, 2, 0));
    did("close private", dorrivand_close(LENT, 2, 0));
    got("free segments", dorrivand_free(LENT, 2));
}

static void write_and_fill_runs(void) {
    uint32_t readings[READINGS], list[READINGS], stop;
    size_t elements;
    part("The sensors of lift 7 deliver forty readings together. One run writes them, and one reads them back.");
    for (uint32_t i = 0; i < READINGS; i++) readings[i] = 215 + 3 * i;
    did("open new", dorrivand_new(LENT, 2, 0, DORRIVAND_BITS_16));
    elements = dorrivand_write_run(LENT, 2, 0, DORRIVAND_END, readings, READINGS, &stop);
    ran("append forty, left unwritten", elements, stop);
    did("rename to \"motor 7\"", dorrivand_rename(LENT, 2, 0, NAMED("motor 7")));
    did("close private", dorrivand_close(LENT, 2, 0));
    got("free segments", dorrivand_free(LENT, 2));
    open_for("reading", "motor 7", dorrivand_read(LENT, 2, 1, NAMED("motor 7")));
    elements = dorrivand_fill_run(LENT, 2, 1, DORRIVAND_WORK, list, READINGS, &stop);
    ran("fill forty, filled", elements, stop);
    printf("    %-30s%u\n", "the first", (unsigned)list[0]);
    printf("    %-30s%u\n", "the last", (unsigned)list[READINGS - 1]);
    printf("    %-30s%s\n", "all as delivered", memcmp(list, readings, sizeof list) == 0 ? "yes" : "no");
    elements = dorrivand_fill_run(LENT, 2, 1, DORRIVAND_WORK, list, READINGS, &stop);
    ran("fill forty more, filled", elements, stop);
    did("close private", dorrivand_close(LENT, 2, 1));
}

static void keep_temperatures(void) {
    part("The machine room of lift 7 is cold at night. Temperatures are signed, and have calls of their own.");
    did("open new", dorrivand_new(LENT, 2, 0, DORRIVAND_SIGNED_16));
    did("append 3", dorrivand_write_signed(LENT, 2, 0, DORRIVAND_END, 3));
    did("append -5", dorrivand_write_signed(LENT, 2, 0, DORRIVAND_END, -5));
    did("append 40000", dorrivand_write_signed(LENT, 2, 0, DORRIVAND_END, 40000));
    got("next, by the plain call", dorrivand_next(LENT, 2, 0, DORRIVAND_WORK));
    did("rename to \"frost 7\"", dorrivand_rename(LENT, 2, 0, NAMED("frost 7")));
    did("close private", dorrivand_close(LENT, 2, 0));
    got("free segments", dorrivand_free(LENT, 2));
    read_degrees(2, "frost 7");
}

static void save_and_load(uint32_t *image) {
    part("In the evening the operator saves. After another fresh start the load brings all back.");
    did("save", dorrivand_save(LENT, image, dorrivand_image_length()));
    printf("    %-30s0x%08lX\n", "first cell of the image", (unsigned long)image[0]);
    did("fresh start", dorrivand_fresh(LENT));
    open_for("reading", "lift 7", dorrivand_read(LENT, 2, 0, NAMED("lift 7")));
    got("free segments", dorrivand_free(LENT, 2));
    did("load", dorrivand_load(LENT, image, dorrivand_image_length()));
    got("free segments", dorrivand_free(LENT, 2));
    read_all(2, "lift 7");
    read_degrees(2, "frost 7");
}

int main(void) {
    uint32_t *image = calloc(dorrivand_image_length(), sizeof *image);
    tables = calloc(dorrivand_tables_length(), sizeof *tables);
    if (image == NULL || tables == NULL) {
        fputs("landlords_day: no memory\n", stderr);
        return EXIT_FAILURE;
    }
    puts("In the morning the operator starts a store of 16 segments.");
    did("fresh start", dorrivand_fresh(LENT));
    got("free segments", dorrivand_free(LENT, 0));
    make_two_files();
    read_and_be_refused();
    edit();
    write_and_fill_runs();
    keep_temperatures();
    save_and_load(image);
    free(image);
    free(tables);
    return EXIT_SUCCESS;
}
