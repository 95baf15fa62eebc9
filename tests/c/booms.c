/* One directory for each boom, as an example to copy: it makes the directories, puts counts into them, and removes one that is empty.
 * Firmware reads the image from the button before the first call and writes it back after the last; here the image stands in memory only.
 *
 *     cc -std=c99 -Iinclude tests/c/booms.c target/staticlib/libowfs.a
 *
 * It prints a line for each step and ends with 1 if anything is not as it expects. */
#include <stdio.h>
#include <stdlib.h>
#include <string.h>

#include "owfs.h"

/* A DS1993: 16 pages of 32 bytes. The bitmap stands in a file, as it must with more than 32 pages. The owner table has a record of four bytes for
 * each page. */
enum { PAGE_LENGTH = 32, PAGE_COUNT = 16, BITMAP_FILE = 0, RECORD = 4 };

/* Names of four bytes, and the extension number of the counts. */
enum { NAME = 4, COUNTS = 7 };

/* The numbers of owfs.h that this program meets. */
enum { DONE = 0, ABSENT = 15, NOT_EMPTY = 20, ALREADY_THERE = 21 };

/* The button's memory, and the owner table that every call is lent. */
static uint8_t image[PAGE_LENGTH * PAGE_COUNT];
static uint8_t owners[RECORD * PAGE_COUNT];

/* Prints a step with the number that it answered, and ends the program if another was expected. */
static void step(const char *what, const char *boom, struct owfs_answer told, uint32_t number)
{
    printf("%s%s: %u\n", what, boom, (unsigned)told.number);
    if (told.number != number || told.page != 0) {
        fprintf(stderr, "%u was expected\n", (unsigned)number);
        exit(1);
    }
}

/* Makes the directory of a boom: its path is its name alone, since it stands in the root. */
static void make_boom(const char *boom, uint32_t number)
{
    struct owfs_answer told = owfs_make_directory(PAGE_LENGTH, PAGE_COUNT, image, sizeof image, (const uint8_t *)boom, NAME, owners, sizeof owners);
    step("make ", boom, told, number);
}

/* Removes the directory of a boom, which must have no file any more. */
static void remove_boom(const char *boom, uint32_t number)
{
    struct owfs_answer told = owfs_remove_directory(PAGE_LENGTH, PAGE_COUNT, image, sizeof image, (const uint8_t *)boom, NAME, owners, sizeof owners);
    step("remove ", boom, told, number);
}

/* The path of a boom's counts: the directory's name, the file's name, its extension number. */
static void path_of_counts(uint8_t path[2 * NAME + 1], const char *boom)
{
    memcpy(path, boom, NAME);
    memcpy(path + NAME, "CNT ", NAME);
    path[2 * NAME] = COUNTS;
}

/* Puts the counts of a boom into its directory, which must be there. */
static void put_counts(const char *boom, const char *counts, uint32_t number)
{
    uint8_t path[2 * NAME + 1];
    char what[40];
    path_of_counts(path, boom);
    struct owfs_answer told = owfs_put(PAGE_LENGTH, PAGE_COUNT, image, sizeof image, path, sizeof path, (const uint8_t *)counts, strlen(counts), owners,
                                       sizeof owners);
    snprintf(what, sizeof what, "put of %u bytes to ", (unsigned)strlen(counts));
    step(what, boom, told, number);
}

/* Deletes the counts of a boom. */
static void delete_counts(const char *boom)
{
    uint8_t path[2 * NAME + 1];
    path_of_counts(path, boom);
    struct owfs_answer told = owfs_delete(PAGE_LENGTH, PAGE_COUNT, image, sizeof image, path, sizeof path, owners, sizeof owners);
    step("delete from ", boom, told, DONE);
}

/* Prints every entry, and what a check tells. */
static void print_button(void)
{
    for (uint32_t position = 0;; position++) {
        struct owfs_entry entry = owfs_list(PAGE_LENGTH, PAGE_COUNT, image, sizeof image, owners, sizeof owners, position);
        if (entry.number != DONE)
            break;
        for (uint32_t place = 0; place < NAME; place++)
            if ((entry.name >> 8 * place & 0xFF) != ' ')
                putchar((int)(entry.name >> 8 * place & 0xFF));
        printf(" %03u, level %u, page %u", (unsigned)entry.extension, (unsigned)entry.level, (unsigned)entry.start);
        if (entry.pages > 0)
            printf(", %u bytes", (unsigned)entry.length);
        printf("\n");
    }
    struct owfs_totals told = owfs_check(PAGE_LENGTH, PAGE_COUNT, image, sizeof image, owners, sizeof owners);
    printf("pages in use %u, files %u, directories %u\n", (unsigned)told.used, (unsigned)told.files, (unsigned)told.directories);
}

int main(void)
{
    step("format", "", owfs_format(PAGE_LENGTH, PAGE_COUNT, image, sizeof image, owners, sizeof owners, BITMAP_FILE), DONE);
    make_boom("BM01", DONE);
    make_boom("BM02", DONE);
    make_boom("BM03", DONE);
    make_boom("BM02", ALREADY_THERE); /* it is there: go on and put into it */
    put_counts("BM01", "Monday 12", DONE);
    put_counts("BM02", "Tuesday 15", DONE);
    put_counts("BM04", "Friday 3", ABSENT); /* a put makes no directory */
    remove_boom("BM02", NOT_EMPTY); /* a refusal changes nothing: its counts are there still */
    remove_boom("BM03", DONE);
    remove_boom("BM03", ABSENT);
    delete_counts("BM02");
    remove_boom("BM02", DONE);
    print_button();
    return 0;
}
