/* The office's question when a page of a button has gone bad, as an example to copy: whose is it, and how many pages and data bytes of that file lie
 * after it?
 *
 *     cc -std=c99 -Iinclude tests/c/bad_page.c target/staticlib/libowfs.a -o bad_page
 *     ./bad_page samples/bad-page-before.dump samples/bad-page.dump
 *
 * A dump with a bad page is refused with 2 at that page, and its owner table is all 0: it says nothing of any page. So the answer comes from the records
 * of the last dump of the same button that was accepted, which is the first argument; the dump with the bad page is the second.
 *
 * It prints number and page of the refused dump, then whose the page is, its place in the chain, and what lies after it. It ends with 1 if there is no
 * answer. */
#include <stdio.h>
#include <string.h>

#include "owfs.h"

enum { HEADER = 8, MOST_PAGE = 256, MOST_PAGES = 65535, MOST_OFFSET = 32768, MOST_DUMP = MOST_OFFSET + MOST_PAGE * MOST_PAGES };

/* The numbers of owfs.h that this program tells apart. */
enum { DONE = 0, BAD_PAGE = 2 };

/* The form of the owner table: bytes of a record, and its owners. */
enum { RECORD = 4, NO_OWNER = 0, ROOT = 1, BITMAP_FILE = 2, FIRST_ENTRY = 3 };

/* The extension number of a directory, the levels that entries can have, the bytes of a name. */
enum { DIRECTORY = 127, LEVELS = 9, NAME = 4 };

/* A dump of a button. */
struct dump {
    uint32_t page_length, page_count;
    const uint8_t *image;
    size_t image_length;
};

/* What lies after a page in its chain. */
struct after {
    uint32_t chain; /* the pages of the chain, this one too */
    uint32_t pages;
    uint32_t bytes;
};

static uint8_t last_bytes[MOST_DUMP], bad_bytes[MOST_DUMP];
static uint8_t owners[RECORD * MOST_PAGES];

/* A number of so many bytes, low byte first. */
static uint32_t number(const uint8_t *bytes, size_t count)
{
    uint32_t all = 0;
    while (count > 0)
        all = all << 8 | bytes[--count];
    return all;
}

/* Reads a dump: page length (2 bytes), page count (2), offset of page 0 (4), and the image, which ends it; 0 if it is none. */
static int read_dump(const char *name, uint8_t *bytes, struct dump *dump)
{
    FILE *file = fopen(name, "rb");
    int is_longer;
    size_t length, offset;
    if (file == NULL)
        return 0;
    length = fread(bytes, 1, MOST_DUMP, file);
    is_longer = fgetc(file) != EOF;
    fclose(file);
    if (length < HEADER || is_longer)
        return 0;
    dump->page_length = number(bytes, 2);
    dump->page_count = number(bytes + 2, 2);
    offset = number(bytes + 4, 4);
    if (offset < HEADER || offset > length)
        return 0;
    dump->image = bytes + offset;
    dump->image_length = length - offset;
    return 1;
}

/* ---- to copy: from here ---- */

/* Checks a dump; if it is accepted, the owner table has its records afterwards, and if not, the table says nothing of any page. */
static struct owfs_totals check(const struct dump *dump)
{
    return owfs_check(dump->page_length, dump->page_count, dump->image, dump->image_length, owners, sizeof owners);
}

/* The owner of a page, by its record. */
static uint32_t owner_of(uint32_t page)
{
    return number(owners + RECORD * (size_t)page, 2);
}

/* The place of a page in its owner's chain, by its record. */
static uint32_t place_of(uint32_t page)
{
    return number(owners + RECORD * (size_t)page + 2, 2);
}

/* The data bytes of a page in use: its length byte counts them and the pointer to the next page, of one byte, or of two from 257 pages on. */
static uint32_t data_bytes(const struct dump *dump, uint32_t page)
{
    return dump->image[(size_t)page * dump->page_length] - (dump->page_count <= 256 ? 1u : 2u);
}

/* What lies after a page, by the records of a dump that was accepted: the pages of the same owner with a greater place. */
static struct after lies_after(const struct dump *last, uint32_t page)
{
    struct after after = {0, 0, 0};
    for (uint32_t other = 0; other < last->page_count; other++) {
        if (owner_of(other) != owner_of(page))
            continue;
        after.chain++;
        if (place_of(other) > place_of(page)) {
            after.pages++;
            after.bytes += data_bytes(last, other);
        }
    }
    return after;
}

/* Prints a name without its blanks; its first byte is the lowest of the number. */
static void print_name(uint32_t name)
{
    for (int place = 0; place < NAME && (name >> 8 * place & 0xFF) != ' '; place++)
        putchar((int)(name >> 8 * place & 0xFF));
}

/* Prints the path of the entry at a position in walk order: the names of the directories above it are those met last at each level. */
static void print_entry(const struct dump *last, uint32_t position)
{
    uint32_t names[LEVELS] = {0};
    struct owfs_entry entry = {0};
    for (uint32_t place = 0; place <= position; place++) {
        entry = owfs_list(last->page_length, last->page_count, last->image, last->image_length, owners, sizeof owners, place);
        names[entry.level] = entry.name;
    }
    fputs(entry.extension == DIRECTORY ? "directory " : "file ", stdout);
    for (uint32_t level = 0; level < entry.level; level++) {
        print_name(names[level]);
        putchar('/');
    }
    print_name(entry.name);
    if (entry.extension != DIRECTORY)
        printf(".%03u", (unsigned)entry.extension);
}

/* Prints an owner. */
static void print_owner(const struct dump *last, uint32_t owner)
{
    if (owner == ROOT)
        printf("the root directory");
    else if (owner == BITMAP_FILE)
        printf("the bitmap file");
    else
        print_entry(last, owner - FIRST_ENTRY);
}

/* Prints what the records of the last accepted dump tell of a bad page. A page that had no owner then was given out since. */
static void print_bad_page(const struct dump *last, uint32_t page)
{
    struct after after;
    if (owner_of(page) == NO_OWNER) {
        printf("page %u was in no chain when the last dump was accepted, but is now: nothing is known of it\n", (unsigned)page);
        return;
    }
    after = lies_after(last, page);
    printf("page %u has place %u of %u in ", (unsigned)page, (unsigned)place_of(page), (unsigned)after.chain);
    print_owner(last, owner_of(page));
    printf("\nafter it pages %u bytes %u\n", (unsigned)after.pages, (unsigned)after.bytes);
}

/* ---- to copy: up to here ---- */

/* Prints whether the answer is of the button as it is: it is, if nothing but the bad page has changed. */
static void print_differing(const struct dump *last, const struct dump *bad, uint32_t page)
{
    uint32_t count = 0;
    for (uint32_t other = 0; other < last->page_count; other++) {
        size_t at = (size_t)other * last->page_length;
        if (other != page && memcmp(last->image + at, bad->image + at, last->page_length) != 0)
            count++;
    }
    if (count == 0)
        printf("no other page differs\n");
    else
        printf("other pages that differ %u: written since, or bad too; the figures are those of the last accepted dump\n", (unsigned)count);
}

/* Answers by both dumps; 0 if there is an answer. */
static int answer(const struct dump *last, const struct dump *bad)
{
    struct owfs_totals told = check(bad), other;
    if (told.number == DONE) {
        printf("accepted: no page in use is bad\n");
        return 0;
    }
    printf("refused %u page %u\n", (unsigned)told.number, (unsigned)told.page);
    if (told.number != BAD_PAGE) {
        printf("this is not the number of a bad page\n");
        return 1;
    }
    if (last->page_length != bad->page_length || last->page_count != bad->page_count) {
        printf("the dumps are not of one button\n");
        return 1;
    }
    other = check(last);
    if (other.number != DONE) {
        printf("the last dump is refused %u page %u: it has no records\n", (unsigned)other.number, (unsigned)other.page);
        return 1;
    }
    print_bad_page(last, told.page);
    print_differing(last, bad, told.page);
    return 0;
}

int main(int count, char **names)
{
    struct dump last, bad;
    if (count != 3) {
        printf("two arguments: the last accepted dump, the dump with the bad page\n");
        return 1;
    }
    if (!read_dump(names[1], last_bytes, &last)) {
        printf("the last accepted dump is no dump\n");
        return 1;
    }
    if (!read_dump(names[2], bad_bytes, &bad)) {
        printf("the dump with the bad page is no dump\n");
        return 1;
    }
    return answer(&last, &bad);
}
