/*
 * A store that outlives its program: the faults of landlord 2's lift 7, kept in one file (docs/OPERATING.md has its form).
 *
 *     backup FILE add NUMBER     one fault more
 *     backup FILE show           all faults
 *
 * FILE is replaced in one step, so that whoever stops the program, and when, leaves the backup before or the one after.
 * One that was made before version 7 is read as well, and replaced by one of today.
 * With `half` or `whole` as its last word the program waits to be killed when so much of the new file is written.
 */
#define _POSIX_C_SOURCE 200809L
#include "dorrivand.h"
#include <errno.h>
#include <fcntl.h>
#include <stdio.h>
#include <stdlib.h>
#include <string.h>
#include <unistd.h>

enum { STORE_LENGTH = 1024, SEGMENT_CELLS = 64, LONGEST_PATH = 4096, CELL_BYTES = 4, USER = 2, ENTRY = 0 };

static const char name[] = "lift 7";
static uint32_t store[STORE_LENGTH];
static uint32_t *tables, *image, *old;

#define LENT store, STORE_LENGTH, tables, dorrivand_tables_length()
#define IMAGE image, dorrivand_image_length()
#define OLD_IMAGE old, dorrivand_old_image_length()
#define NAMED (const uint8_t *)name, strlen(name)

static void fail(const char *what, const char *why) {
    fprintf(stderr, "backup: %s: %s\n", what, why);
    exit(EXIT_FAILURE);
}

/* The number of a call that must be done. */
static uint32_t done(const char *call, uint64_t answer) {
    if (!dorrivand_is_done(answer)) fail(call, dorrivand_words(dorrivand_refused(answer)));
    return dorrivand_number(answer);
}

static void put_cells(FILE *file, const uint32_t *cells, size_t count) {
    for (size_t cell = 0; cell < count; cell++) {
        for (int byte = 0; byte < CELL_BYTES; byte++) putc((int)(cells[cell] >> 8 * byte & 0xFF), file);
    }
}

static void take_cells(FILE *file, uint32_t *cells, size_t count) {
    for (size_t cell = 0; cell < count; cell++) {
        cells[cell] = 0;
        for (int byte = 0; byte < CELL_BYTES; byte++) cells[cell] |= (uint32_t)(getc(file) & 0xFF) << 8 * byte;
    }
}

static void wait_if(int asked) {
    if (!asked) return;
    puts("waiting");
    fflush(stdout);
    for (;;) pause();
}

/* A new name lasts when its folder is on the disk too. */
static int flush_folder_of(const char *path) {
    char folder[LONGEST_PATH];
    const char *slash = strrchr(path, '/');
    snprintf(folder, sizeof folder, "%.*s.", slash == NULL ? 0 : (int)(slash - path + 1), path);
    int descriptor = open(folder, O_RDONLY);
    return descriptor >= 0 && fsync(descriptor) == 0 && close(descriptor) == 0;
}

static void back_up(const char *path, const char *stop) {
    char new_path[LONGEST_PATH];
    if (snprintf(new_path, sizeof new_path, "%s.new", path) >= LONGEST_PATH) fail(path, "too long");
    FILE *file = fopen(new_path, "wb");
    if (file == NULL) fail(new_path, strerror(errno));
    /* No call between the save and the last cell: image and store are of one moment. */
    done("save", dorrivand_save(LENT, IMAGE));
    put_cells(file, IMAGE);
    put_cells(file, store, STORE_LENGTH / 2);
    fflush(file);
    wait_if(strcmp(stop, "half") == 0);
    put_cells(file, store + STORE_LENGTH / 2, STORE_LENGTH - STORE_LENGTH / 2);
    if (ferror(file) || fflush(file) != 0 || fsync(fileno(file)) != 0 || fclose(file) != 0) fail(new_path, strerror(errno));
    wait_if(strcmp(stop, "whole") == 0);
    if (rename(new_path, path) != 0 || !flush_folder_of(path)) fail(path, strerror(errno));
}

/* Whether the file has an image of so many cells before the store's. */
static int has_image_of(FILE *file, size_t length) {
    int is_so = fseek(file, 0, SEEK_END) == 0 && ftell(file) == (long)(CELL_BYTES * (length + STORE_LENGTH));
    rewind(file);
    return is_so;
}

/* An image that was saved before version 7, which its length tells, is moved up. */
static void take_image(FILE *file, const char *path) {
    if (has_image_of(file, dorrivand_image_length())) {
        take_cells(file, IMAGE);
    } else if (has_image_of(file, dorrivand_old_image_length())) {
        take_cells(file, OLD_IMAGE);
        done("move up", dorrivand_up(OLD_IMAGE, IMAGE, STORE_LENGTH / SEGMENT_CELLS));
    } else {
        fail(path, "not the length of a backup");
    }
}

/* A backup that cannot be used is no reason for a fresh start: that is for the operator to say. */
static void restore(const char *path) {
    FILE *file = fopen(path, "rb");
    if (file == NULL && errno == ENOENT) {
        done("fresh start", dorrivand_fresh(LENT));
        return;
    }
    if (file == NULL) fail(path, strerror(errno));
    take_image(file, path);
    take_cells(file, store, STORE_LENGTH);
    if (ferror(file) || feof(file)) fail(path, "cannot be read to its end");
    fclose(file);
    done("load", dorrivand_load(LENT, IMAGE));
}

static void add(uint32_t number) {
    uint64_t answer = dorrivand_work(LENT, USER, ENTRY, NAMED);
    if (dorrivand_refused(answer) == DORRIVAND_UNKNOWN_NAME) {
        done("open new", dorrivand_new(LENT, USER, ENTRY, DORRIVAND_BITS_32));
        done("rename", dorrivand_rename(LENT, USER, ENTRY, NAMED));
    } else {
        done("open for work", answer);
    }
    done("append", dorrivand_write(LENT, USER, ENTRY, DORRIVAND_END, number));
    done("close", dorrivand_close(LENT, USER, ENTRY));
}

static void show(void) {
    done("open for reading", dorrivand_read(LENT, USER, ENTRY, NAMED));
    uint64_t answer = dorrivand_next(LENT, USER, ENTRY, DORRIVAND_WORK);
    for (; dorrivand_is_done(answer); answer = dorrivand_next(LENT, USER, ENTRY, DORRIVAND_WORK)) {
        printf("%lu\n", (unsigned long)dorrivand_number(answer));
    }
    if (dorrivand_refused(answer) != DORRIVAND_BEYOND_END) done("next", answer);
}

int main(int count, char **words) {
    if (dorrivand_version() != DORRIVAND_VERSION) fail("libdoor.a", "of another version than dorrivand.h");
    image = calloc(dorrivand_image_length(), sizeof *image);
    old = calloc(dorrivand_old_image_length(), sizeof *old);
    tables = calloc(dorrivand_tables_length(), sizeof *tables);
    if (image == NULL || old == NULL || tables == NULL) fail("cells", "no memory");
    if (count == 3 && strcmp(words[2], "show") == 0) {
        restore(words[1]);
        show();
    } else if ((count == 4 || count == 5) && strcmp(words[2], "add") == 0) {
        char *rest;
        uint32_t number = (uint32_t)strtoul(words[3], &rest, 10);
        if (rest == words[3] || *rest != '\0') fail(words[3], "no number");
        restore(words[1]);
        add(number);
        back_up(words[1], count == 5 ? words[4] : "");
    } else {
        fail("FILE add NUMBER, or FILE show", "wanted");
    }
    free(image);
    free(old);
    free(tables);
    return EXIT_SUCCESS;
}
