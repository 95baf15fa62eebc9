/* Gathering a button that a season of puts and deletes has crowded, as an example to copy, with a simulated button that is pulled after every possible
 * page write: `gather_button` gathers it, and finishes at the next contact what a pull has stopped; `restore_button` writes the old image back.
 *
 *     cc -std=c99 -Iinclude tests/c/crowded.c target/staticlib/libowfs.a
 *
 * A button that is pulled halfway has parts of two images, and a check may accept it though a file has the bytes of another. So the old image and the
 * copy are both kept until every page of the button reads back as written. The program pulls the button at every moment of the gathering, and again at
 * every moment of the next contact, and demands that the button then ends as the copy, or as the old image if that is written back. It prints what it
 * did and ends with 1 if anything is not as it demands. */
#include <stdio.h>
#include <stdlib.h>
#include <string.h>

#include "owfs.h"

/* A button of 32 pages of 32 bytes, its bitmap in page 0. The owner table has a record of four bytes for each page. */
enum { PAGE_LENGTH = 32, PAGE_COUNT = 32, LOCAL_BITMAP = 1, IMAGE = PAGE_LENGTH * PAGE_COUNT, RECORD = 4 };

/* Names of four bytes; the longest path has eight directories, a file and its extension number. A directory has the extension number 127. */
enum { NAME = 4, MOST_PATH = 9 * NAME + 1, DIRECTORY = 127 };

/* The numbers of owfs.h that this program meets, and its own: pulled, read back other than written, no image kept to restore. */
enum { DONE = 0, ABSENT = 15, PULLED = 100, UNEQUAL = 101, NOT_KEPT = 102 };

/* The simulated button: its memory, the reads and page writes until it is pulled, those made so far, and a page that does not take its write. */
enum { NEVER = -1, NO_PAGE = PAGE_COUNT };
static uint8_t button[IMAGE];
static long until_pulled = NEVER;
static unsigned reads, page_writes;
static uint32_t weak_page = NO_PAGE;

/* What outlasts a pull: the image as it was read, the gathered copy, and 1 while both are kept. Firmware keeps the button's serial number with them. */
static uint8_t old[IMAGE], copy[IMAGE];
static int is_kept;

/* What is read back from the button, and the owner table that every call is lent. */
static uint8_t back[IMAGE];
static uint8_t owners[RECORD * PAGE_COUNT];

/* Ends the program if something is not as it must be. */
static void expect(int is, const char *what)
{
    if (!is) {
        fprintf(stderr, "%s is not as expected\n", what);
        exit(1);
    }
}

/* The simulated button: 0 if it is pulled now. */
static int is_on_probe(void)
{
    if (until_pulled == 0)
        return 0;
    if (until_pulled > 0)
        until_pulled--;
    return 1;
}

/* The simulated button: reads it whole; 0 if it is pulled before. */
static int read_button(uint8_t *image)
{
    if (!is_on_probe())
        return 0;
    memcpy(image, button, IMAGE);
    reads++;
    return 1;
}

/* The simulated button: writes a whole page; 0 if it is pulled before. */
static int write_page(uint32_t page, const uint8_t *image)
{
    size_t at = (size_t)page * PAGE_LENGTH;
    if (!is_on_probe())
        return 0;
    if (page != weak_page)
        memcpy(button + at, image + at, PAGE_LENGTH);
    page_writes++;
    return 1;
}

/* ---- to copy: from here ---- */

/* Whether a page of two images differs. */
static int differs(uint32_t page, const uint8_t *one, const uint8_t *other)
{
    size_t at = (size_t)page * PAGE_LENGTH;
    return memcmp(one + at, other + at, PAGE_LENGTH) != 0;
}

/* Writes the pages that differ from what the button holds, or all if that is not known, and reads back; only then are the kept images given up. */
static uint32_t write_and_compare(const uint8_t *image, const uint8_t *held)
{
    for (uint32_t page = 0; page < PAGE_COUNT; page++)
        if ((held == NULL || differs(page, held, image)) && !write_page(page, image))
            return PULLED;
    if (!read_button(back))
        return PULLED;
    if (memcmp(back, image, IMAGE) != 0)
        return UNEQUAL; /* a weak contact: try again */
    is_kept = 0;
    return DONE;
}

/* Gathers the button on the probe. While images are kept the button may have parts of both: it is not read anew, the copy is written again whole. */
static uint32_t gather_button(void)
{
    struct owfs_answer told;
    if (is_kept)
        return write_and_compare(copy, NULL);
    if (!read_button(old))
        return PULLED;
    told = owfs_gather(PAGE_LENGTH, PAGE_COUNT, old, sizeof old, copy, sizeof copy, owners, sizeof owners);
    if (told.number != DONE) {
        printf("gather: %u page %u, the button is left alone\n", (unsigned)told.number, (unsigned)told.page);
        return told.number;
    }
    is_kept = 1; /* from here on the images must outlast a pull: store them first if memory does not */
    return write_and_compare(copy, old);
}

/* Writes the old image back whole, for one who does not want the copy any more. */
static uint32_t restore_button(void)
{
    return is_kept ? write_and_compare(old, NULL) : NOT_KEPT;
}

/* ---- to copy: up to here ---- */

/* What a check tells of an image. */
static struct owfs_totals check(const uint8_t *image)
{
    return owfs_check(PAGE_LENGTH, PAGE_COUNT, image, IMAGE, owners, sizeof owners);
}

/* The entry of an image at a position. */
static struct owfs_entry list(const uint8_t *image, uint32_t position)
{
    return owfs_list(PAGE_LENGTH, PAGE_COUNT, image, IMAGE, owners, sizeof owners, position);
}

/* Whether a file has the same bytes in two images. */
static int same_bytes(const uint8_t *one, const uint8_t *other, const uint8_t *path, size_t path_length)
{
    static uint8_t first[IMAGE], second[IMAGE];
    struct owfs_length told, same;
    told = owfs_read(PAGE_LENGTH, PAGE_COUNT, one, IMAGE, path, path_length, first, sizeof first, owners, sizeof owners);
    same = owfs_read(PAGE_LENGTH, PAGE_COUNT, other, IMAGE, path, path_length, second, sizeof second, owners, sizeof owners);
    return told.number == DONE && same.number == DONE && told.length == same.length && memcmp(first, second, told.length) == 0;
}

/* Whether two entries are the same but for their pages. */
static int same_entry(struct owfs_entry one, struct owfs_entry other)
{
    return one.level == other.level && one.name == other.name && one.extension == other.extension && one.attribute == other.attribute;
}

/* Whether two images have the same entries in the same order, and every file reads the same. */
static int same_files(const uint8_t *one, const uint8_t *other)
{
    uint8_t path[MOST_PATH];
    for (uint32_t position = 0;; position++) {
        struct owfs_entry entry = list(one, position), same = list(other, position);
        size_t at = NAME * (size_t)entry.level;
        if (entry.number != DONE || same.number != DONE)
            return entry.number == ABSENT && same.number == ABSENT;
        if (!same_entry(entry, same))
            return 0;
        for (size_t place = 0; place < NAME; place++)
            path[at + place] = (uint8_t)(entry.name >> 8 * place);
        path[at + NAME] = (uint8_t)entry.extension;
        if (entry.extension != DIRECTORY && !same_bytes(one, other, path, at + NAME + 1))
            return 0;
    }
}

/* Puts a file by a path of so many bytes, or deletes it if there is no text. */
static void edit(const char *path, size_t path_length, const char *text, size_t length)
{
    const uint8_t *at = (const uint8_t *)path;
    struct owfs_answer told;
    if (text == NULL)
        told = owfs_delete(PAGE_LENGTH, PAGE_COUNT, button, IMAGE, at, path_length, owners, sizeof owners);
    else
        told = owfs_put(PAGE_LENGTH, PAGE_COUNT, button, IMAGE, at, path_length, (const uint8_t *)text, length, owners, sizeof owners);
    expect(told.number == DONE, "an edit of the season");
}

/* A season: each week puts a file to the root and one to JIB, and replaces LOG.7 as it grows; most of these files are deleted later. */
static void crowd_button(void)
{
    static const char days[] = "Monday 12, Tuesday 15, Wednesday 9, Thursday 11, Friday 14, Saturday 3";
    char week[] = "WK1 \1", pins[] = "JIB PN1 \1";
    memset(button, 0xFF, sizeof button);
    expect(owfs_format(PAGE_LENGTH, PAGE_COUNT, button, IMAGE, owners, sizeof owners, LOCAL_BITMAP).number == DONE, "format");
    expect(owfs_make_directory(PAGE_LENGTH, PAGE_COUNT, button, IMAGE, (const uint8_t *)"JIB ", NAME, owners, sizeof owners).number == DONE, "JIB");
    for (int number = 1; number <= 9; number++) {
        week[2] = pins[6] = (char)('0' + number);
        edit(week, 5, week, 3);
        edit(pins, 9, pins, 7);
        edit("LOG \7", 5, days, 7 * (size_t)number + 7);
    }
    for (int number = 1; number <= 8; number++) {
        week[2] = pins[6] = (char)('0' + number);
        edit(pins, 9, NULL, 0);
        if (number != 2 && number != 8)
            edit(week, 5, NULL, 0);
    }
}

/* A contact: the button is on the probe for so many reads and page writes. */
static uint32_t contact(uint32_t (*act)(void), long so_many)
{
    uint32_t number;
    reads = page_writes = 0;
    until_pulled = so_many;
    number = act();
    until_pulled = NEVER;
    return number;
}

/* A first contact with the crowded button. */
static uint32_t first_contact(const uint8_t *season, long so_many)
{
    is_kept = 0;
    memcpy(button, season, IMAGE);
    return contact(gather_button, so_many);
}

/* Prints what a check tells of an accepted button. */
static void print_totals(const char *what)
{
    struct owfs_totals told = check(button);
    expect(told.number == DONE, "check");
    printf("%s: pages in use %u, files %u, directories %u\n", what, (unsigned)told.used, (unsigned)told.files, (unsigned)told.directories);
}

/* A button with a damaged page is refused, and no byte of it is written. */
static void refuse_damaged(const uint8_t *season, uint32_t page)
{
    static uint8_t damaged[IMAGE];
    memcpy(damaged, season, IMAGE);
    damaged[page * PAGE_LENGTH + 1] ^= 1;
    expect(first_contact(damaged, NEVER) != DONE && page_writes == 0, "a refusal");
    expect(memcmp(button, damaged, IMAGE) == 0 && !is_kept, "a button that is refused");
}

/* Pulls the button after each number of page writes, and prints what a check and the files then tell. */
static void pull_once(const uint8_t *season, unsigned writes)
{
    unsigned refused = 0, wrong = 0, sound = 0;
    expect(first_contact(season, 0) == PULLED && !is_kept && memcmp(button, season, IMAGE) == 0, "a pull before the read");
    for (unsigned made = 0; made <= writes; made++) {
        expect(first_contact(season, 1 + (long)made) == PULLED && page_writes == made && is_kept, "a pull");
        if (check(button).number != DONE)
            refused++;
        else if (same_files(season, button))
            sound++;
        else
            wrong++;
    }
    printf("pulled after 0 to %u page writes: %u refused by a check, %u accepted with wrong files, %u sound\n", writes, refused, wrong, sound);
}

/* Pulls the button after each number of page writes, and again at every moment of the next contact; one more contact then leaves this image. */
static void pull_twice(const char *what, const uint8_t *season, unsigned writes, uint32_t (*next)(void), const uint8_t *image)
{
    unsigned ended = 0;
    for (unsigned made = 0; made <= writes; made++) {
        for (long second = 0; second <= PAGE_COUNT; second++) {
            expect(first_contact(season, 1 + (long)made) == PULLED, "a first pull");
            expect(contact(next, second) == PULLED && is_kept, "a second pull");
            expect(contact(next, NEVER) == DONE && !is_kept && page_writes == PAGE_COUNT && reads == 1, "the last contact");
            expect(memcmp(button, image, IMAGE) == 0 && same_files(season, button), "the button in the end");
            ended++;
        }
    }
    printf("%s: %u times after two pulls, every file as before\n", what, ended);
}

/* A page write that the button does not take is found by reading back, and the next contact makes it good. */
static void lose_writes(const uint8_t *season, const uint8_t *gathered)
{
    unsigned found = 0;
    for (uint32_t page = 0; page < PAGE_COUNT; page++) {
        if (!differs(page, season, gathered))
            continue;
        weak_page = page;
        expect(first_contact(season, NEVER) == UNEQUAL && is_kept, "a lost write");
        weak_page = NO_PAGE;
        expect(contact(gather_button, NEVER) == DONE && memcmp(button, gathered, IMAGE) == 0, "a write made good");
        found++;
    }
    printf("lost page writes found by reading back: %u\n", found);
}

int main(void)
{
    static uint8_t season[IMAGE], gathered[IMAGE];
    uint32_t used;
    unsigned writes;
    crowd_button();
    memcpy(season, button, IMAGE);
    used = check(season).used;
    print_totals("crowded");
    refuse_damaged(season, 1);
    expect(first_contact(season, NEVER) == DONE && !is_kept && restore_button() == NOT_KEPT, "a gathering");
    expect(check(button).used < used && same_files(season, button), "the gathered button");
    memcpy(gathered, button, IMAGE);
    writes = page_writes;
    print_totals("gathered");
    pull_once(season, writes);
    pull_twice("copy written again whole", season, writes, gather_button, gathered);
    pull_twice("old image written back whole", season, writes, restore_button, season);
    lose_writes(season, gathered);
    return 0;
}
