/* What a handheld does with one button, as an example to copy: it formats it, puts a file, reads it back, checks the whole button, replaces the
 * file and deletes it. Firmware reads the image from the button before the first call and writes it back after the last; here the image
 * stands in memory only.
 *
 *     cc -std=c99 -Iinclude tests/c/firmware.c target/staticlib/libowfs.a
 *
 * It prints a line for each step and ends with 1 if anything is not as it expects. */
#include <stdio.h>
#include <stdlib.h>
#include <string.h>

#include "owfs.h"

/* A DS1993: 16 pages of 32 bytes. With up to 32 pages the bitmap may stand in page 0. The owner table has a record of four bytes for each page. */
enum { PAGE_LENGTH = 32, PAGE_COUNT = 16, LOCAL_BITMAP = 1, RECORD = 4 };

/* The numbers of owfs.h that this program meets. */
enum { DONE = 0, ABSENT = 15, NO_ROOM = 17 };

/* The button's memory, the owner table that every call is lent, and a buffer as long as any file can be. */
static uint8_t image[PAGE_LENGTH * PAGE_COUNT];
static uint8_t owners[RECORD * PAGE_COUNT];
static uint8_t buffer[PAGE_LENGTH * PAGE_COUNT];

/* The path of a file in the root: its name of four bytes, filled with blanks if it is shorter, and its extension number. */
static const uint8_t path[] = {'L', 'O', 'G', ' ', 7};

/* Ends the program if something is not as expected. */
static void expect(int is, const char *what)
{
    if (!is) {
        fprintf(stderr, "%s is not as expected\n", what);
        exit(1);
    }
}

/* Makes the button empty. */
static void format_button(void)
{
    struct owfs_answer told = owfs_format(PAGE_LENGTH, PAGE_COUNT, image, sizeof image, owners, sizeof owners, LOCAL_BITMAP);
    printf("format: %u page %u\n", (unsigned)told.number, (unsigned)told.page);
    expect(told.number == DONE, "format");
}

/* Checks the whole button. */
static void check_button(unsigned used)
{
    struct owfs_totals told = owfs_check(PAGE_LENGTH, PAGE_COUNT, image, sizeof image, owners, sizeof owners);
    printf("check: %u page %u, pages in use %u, files %u\n", (unsigned)told.number, (unsigned)told.page, (unsigned)told.used, (unsigned)told.files);
    expect(told.number == DONE && told.used == used, "check");
}

/* Makes the file, or replaces it. */
static void put_file(const char *text, size_t length, uint32_t number)
{
    struct owfs_answer told = owfs_put(PAGE_LENGTH, PAGE_COUNT, image, sizeof image, path, sizeof path, (const uint8_t *)text, length, owners,
                                       sizeof owners);
    printf("put of %u bytes: %u page %u\n", (unsigned)length, (unsigned)told.number, (unsigned)told.page);
    expect(told.number == number, "put");
}

/* Reads the file back. */
static void read_file(const char *text, size_t length)
{
    struct owfs_length told = owfs_read(PAGE_LENGTH, PAGE_COUNT, image, sizeof image, path, sizeof path, buffer, sizeof buffer, owners, sizeof owners);
    printf("read: %u page %u, \"%.*s\"\n", (unsigned)told.number, (unsigned)told.page, (int)told.length, (const char *)buffer);
    expect(told.number == DONE && told.length == length && memcmp(buffer, text, length) == 0, "read");
}

/* Deletes the file. */
static void delete_file(uint32_t number)
{
    struct owfs_answer told = owfs_delete(PAGE_LENGTH, PAGE_COUNT, image, sizeof image, path, sizeof path, owners, sizeof owners);
    printf("delete: %u page %u\n", (unsigned)told.number, (unsigned)told.page);
    expect(told.number == number, "delete");
}

int main(void)
{
    static const char first[] = "Monday 12";
    static const char second[] = "Monday 12, Tuesday 15, Wednesday 9";
    static const char too_long[sizeof image] = "";

    format_button();
    check_button(1);
    put_file(first, strlen(first), DONE);
    read_file(first, strlen(first));
    check_button(2);
    put_file(second, strlen(second), DONE); /* replaces the file, which has two pages now */
    read_file(second, strlen(second));
    check_button(3);
    put_file(too_long, sizeof too_long, NO_ROOM); /* a refusal changes nothing: the file is as before */
    read_file(second, strlen(second));
    delete_file(DONE);
    delete_file(ABSENT);
    check_button(1);
    return 0;
}
