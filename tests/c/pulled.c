/* What a handheld does so that a button may be pulled off its probe at any moment, as an example to copy, with a simulated button that is pulled after
 * every possible page write: `write_carefully` puts or deletes a file, `power_up` finds out how a button stands and mends it.
 *
 *     cc -std=c99 -Iinclude tests/c/pulled.c target/staticlib/libowfs.a
 *
 * A button takes whole pages: a page is written or it is not. For each edit of some buttons the program pulls the button after 0, 1, 2, .. of its page
 * writes. It demands that each write changes just one page and leaves what the careful call with so many writes allowed leaves. After each pull, and
 * after each pull while it mends, it demands that a check finds no fault but marks, and in the end that all other files read as before and the edited
 * one as before or as new; once it was new, it stays so for every later pull. It prints a line for each button and ends with 1 if anything is not as
 * it demands. */
#include <stdio.h>
#include <stdlib.h>
#include <string.h>

#include "owfs.h"

enum { MOST_PAGE = 64, MOST_PAGES = 320, MOST_IMAGE = MOST_PAGE * MOST_PAGES, MOST_FILES = 12, MOST_PATH = 9, RECORD = 4, NEVER = -1 };

/* The numbers of owfs.h that this program meets, and its own for a button that was pulled. */
enum { DONE = 0, MARKS = 13, ABSENT = 15, PULLED = 100 };

/* A file: its path, and its bytes, which repeat one byte; a length of ABSENT_FILE is no file. */
enum { ABSENT_FILE = -1 };
struct file {
    uint8_t path[MOST_PATH];
    size_t path_length;
    uint8_t byte;
    long length;
};

/* The button: its memory, and the page writes until it is pulled, NEVER for none. */
static uint32_t page_length, page_count;
static uint8_t button[MOST_IMAGE];
static long writes_until_pulled = NEVER;

/* The firmware's memory: the image as it was read, what the button holds now, the image that a call works on, owner table, file. */
static uint8_t start[MOST_IMAGE], held[MOST_IMAGE], work[MOST_IMAGE];
static uint8_t owners[RECORD * MOST_PAGES];
static uint8_t file_bytes[MOST_IMAGE];

/* What the button's files must be, and what was done. */
static struct file files[MOST_FILES];
static size_t file_count;
static unsigned edits, pulls, mends, mend_pulls;

/* Ends the program if something is not as it must be. */
static void expect(int is, const char *what)
{
    if (!is) {
        fprintf(stderr, "%s is not as expected: edit %u, pull %u\n", what, edits, pulls);
        exit(1);
    }
}

/* The bytes of the button, and of its owner table: a record of four for each page. */
static size_t image_length(void)
{
    return (size_t)page_length * page_count;
}

static size_t owners_length(void)
{
    return RECORD * (size_t)page_count;
}

/* The simulated button: reads it whole. */
static void read_button(uint8_t *image)
{
    memcpy(image, button, image_length());
}

/* The simulated button: writes a whole page; 0 if the button is pulled before it. */
static int write_page(uint32_t page, const uint8_t *image)
{
    size_t at = (size_t)page * page_length;
    expect(page < page_count, "the page to write");
    if (writes_until_pulled == 0)
        return 0;
    if (writes_until_pulled > 0)
        writes_until_pulled--;
    memcpy(button + at, image + at, page_length);
    return 1;
}

/* ---- to copy: from here ---- */

/* Whether a page of two images differs. */
static int differs(uint32_t page, const uint8_t *one, const uint8_t *other)
{
    size_t at = (size_t)page * page_length;
    return memcmp(one + at, other + at, page_length) != 0;
}

/* The first page that differs, page_count if there is none. */
static uint32_t differing_page(const uint8_t *one, const uint8_t *other)
{
    uint32_t page = 0;
    while (page < page_count && !differs(page, one, other))
        page++;
    return page;
}

/* A careful put of a file, or a careful delete if it has no bytes to put, on a fresh copy of the image with so many writes allowed. */
static struct owfs_writes careful_call(const struct file *file, uint32_t allowed)
{
    size_t length = (size_t)file->length;
    memcpy(work, start, image_length());
    if (file->length == ABSENT_FILE)
        return owfs_careful_delete(page_length, page_count, work, image_length(), file->path, file->path_length, owners, owners_length(), allowed);
    memset(file_bytes, file->byte, length);
    return owfs_careful_put(page_length, page_count, work, image_length(), file->path, file->path_length, file_bytes, length, owners, owners_length(),
                            allowed);
}

/* Puts or deletes a file on the button: with 1, 2, 3, .. writes allowed just one page differs from the step before, and that page is written next.
 * The answer is the call's number, or PULLED. */
static uint32_t write_carefully(const struct file *file)
{
    struct owfs_writes told;
    uint32_t allowed = 0;
    read_button(start);
    memcpy(held, start, image_length());
    do {
        uint32_t page;
        allowed++;
        told = careful_call(file, allowed);
        if (told.number != DONE)
            return told.number; /* nothing was written: told.page says where */
        page = differing_page(held, work);
        if (!write_page(page, work))
            return PULLED;
        memcpy(held, work, image_length());
    } while (told.left);
    return DONE;
}

/* The page after another in its chain: the last bytes of its packet, 0 at the end. */
static uint32_t next_page(uint32_t page, const uint8_t *image)
{
    const uint8_t *packet = image + (size_t)page * page_length;
    if (page_count <= 256)
        return packet[packet[0]];
    return packet[packet[0] - 1] | (uint32_t)packet[packet[0]] << 8;
}

/* The first page of the bitmap: page 0, or where the control field places a bitmap file. */
static uint32_t first_bitmap_page(const uint8_t *image)
{
    if (page_count <= 256)
        return image[3] & 0x80 ? 0 : image[6];
    return image[5] | (uint32_t)image[6] << 8;
}

/* Writes the pages of the bitmap that differ back to the button, in chain order; 0 if it is pulled. */
static int write_bitmap(const uint8_t *image)
{
    uint32_t page = first_bitmap_page(image);
    do {
        if (differs(page, held, image) && !write_page(page, image))
            return 0;
        page = page == 0 ? 0 : next_page(page, image);
    } while (page != 0);
    return 1;
}

/* After power-up, or when a button is put on the probe: reads it, checks it, and mends it if a put or a delete was stopped. The answer is that of the
 * check, or PULLED. */
static uint32_t power_up(void)
{
    struct owfs_totals totals;
    struct owfs_mended mended;
    read_button(held);
    totals = owfs_check(page_length, page_count, held, image_length(), owners, owners_length());
    if (totals.number != MARKS)
        return totals.number;
    memcpy(work, held, image_length());
    mended = owfs_mend(page_length, page_count, work, image_length(), owners, owners_length());
    if (mended.number != DONE)
        return mended.number; /* 13: no stopped careful call leaves such a bitmap, hand the dump to the office */
    return write_bitmap(work) ? DONE : PULLED;
}

/* ---- to copy: up to here ---- */

/* The number of pages that differ. */
static uint32_t differing_pages(const uint8_t *one, const uint8_t *other)
{
    uint32_t count = 0;
    for (uint32_t page = 0; page < page_count; page++)
        count += differs(page, one, other) ? 1 : 0;
    return count;
}

/* Demands of the button after an edit of the image in `start` that was pulled after so many writes, or done with them: the careful call with so many
 * writes allowed makes as many and leaves what the button holds, and that differs in just one page from what it held with one write less. */
static void expect_step(const struct file *file, uint32_t writes, int is_done)
{
    static uint8_t one_less[MOST_IMAGE];
    struct owfs_writes told = careful_call(file, writes);
    expect(told.number == DONE && told.made == writes && told.left == (is_done ? 0 : 1), "the number of writes");
    expect(memcmp(work, button, image_length()) == 0, "what the writes leave");
    if (writes == 0)
        memcpy(one_less, start, image_length());
    expect(differing_pages(one_less, button) == (writes == 0 ? 0 : 1), "one page for each write");
    memcpy(one_less, button, image_length());
}

/* Whether the button has a file as it must be, or has not one that must be absent. */
static int reads_as(const struct file *file)
{
    static uint8_t out[MOST_IMAGE];
    struct owfs_length told = owfs_read(page_length, page_count, button, image_length(), file->path, file->path_length, out, sizeof out, owners,
                                        owners_length());
    if (file->length == ABSENT_FILE)
        return told.number == ABSENT;
    memset(file_bytes, file->byte, (size_t)file->length);
    return told.number == DONE && told.length == (uint32_t)file->length && memcmp(out, file_bytes, told.length) == 0;
}

/* The place of a file among the button's files; a new one is added as absent. */
static size_t place_of(const struct file *file)
{
    for (size_t place = 0; place < file_count; place++)
        if (files[place].path_length == file->path_length && memcmp(files[place].path, file->path, file->path_length) == 0)
            return place;
    expect(file_count < MOST_FILES, "number of files");
    files[file_count] = *file;
    files[file_count].length = ABSENT_FILE;
    return file_count++;
}

/* Demands that every file but one is as it must be. */
static void expect_others(size_t edited)
{
    for (size_t place = 0; place < file_count; place++)
        expect(place == edited || reads_as(&files[place]), "another file");
}

/* Demands that a check of the button finds no fault but marks. */
static void expect_marks_at_most(void)
{
    uint32_t number = owfs_check(page_length, page_count, button, image_length(), owners, owners_length()).number;
    expect(number == DONE || number == MARKS, "check of a pulled button");
}

/* Powers up a pulled button, which is pulled again after each number of page writes that the mend makes; in the end it is accepted. */
static void mend_with_pulls(void)
{
    static uint8_t pulled[MOST_IMAGE];
    memcpy(pulled, button, image_length());
    for (long writes = 0;; writes++) {
        uint32_t number;
        memcpy(button, pulled, image_length());
        writes_until_pulled = writes;
        number = power_up();
        writes_until_pulled = NEVER;
        expect_marks_at_most();
        if (number == PULLED)
            mend_pulls++;
        else if (writes > 0)
            mends++;
        expect(power_up() == DONE, "power-up");
        expect(power_up() == DONE && memcmp(held, button, image_length()) == 0, "a mended button");
        if (number != PULLED)
            return;
    }
}

/* An edit that is pulled after so many writes, one more than the time before, and the button mended; 1 if the file is then new. Tells whether the edit
 * was done before the pull. */
static int pull_after(const struct file *file, long writes, int *is_done)
{
    size_t place = place_of(file);
    uint32_t number;
    int is_new;
    writes_until_pulled = writes;
    number = write_carefully(file);
    writes_until_pulled = NEVER;
    expect(number == DONE || number == PULLED, "edit");
    *is_done = number == DONE;
    expect_step(file, (uint32_t)writes, *is_done);
    expect_marks_at_most();
    mend_with_pulls();
    expect_others(place);
    is_new = reads_as(file);
    expect(is_new || reads_as(&files[place]), "the edited file");
    return is_new;
}

/* An edit, pulled after every possible write and then done. */
static void edit_with_pulls(const struct file *file)
{
    static uint8_t before[MOST_IMAGE];
    int was_new = 0, is_done = 0;
    edits++;
    read_button(before);
    for (long writes = 0; !is_done; writes++) {
        int is_new;
        memcpy(button, before, image_length());
        is_new = pull_after(file, writes, &is_done);
        expect(is_new >= was_new, "new from the visible write on");
        was_new = is_new;
        pulls += is_done ? 0 : 1;
    }
    expect(was_new, "an edit that is done");
    files[place_of(file)] = *file;
}

/* A careful put by the name of a file in the root, or in the directory D. */
static void put(const char *directory, const char *name, uint8_t byte, long length)
{
    struct file file;
    memset(file.path, ' ', sizeof file.path);
    file.path_length = strlen(directory) == 0 ? 5 : 9;
    memcpy(file.path, directory, strlen(directory));
    memcpy(file.path + file.path_length - 5, name, strlen(name));
    file.path[file.path_length - 1] = 1;
    file.byte = byte;
    file.length = length;
    edit_with_pulls(&file);
}

/* A careful delete. */
static void delete(const char *directory, const char *name)
{
    put(directory, name, 0, ABSENT_FILE);
}

/* Writes a packet by hand. */
static void write_packet(uint32_t page, const uint8_t *body, size_t length, uint32_t pointer)
{
    uint8_t *packet = button + (size_t)page * page_length;
    size_t n = page_count <= 256 ? 1 : 2;
    uint16_t check;
    packet[0] = (uint8_t)(length + n);
    memmove(packet + 1, body, length);
    packet[1 + length] = (uint8_t)pointer;
    if (n == 2)
        packet[2 + length] = (uint8_t)(pointer >> 8);
    check = (uint16_t)~owfs_crc16((uint16_t)page, packet, 1 + length + n);
    packet[1 + length + n] = (uint8_t)check;
    packet[2 + length + n] = (uint8_t)(check >> 8);
}

/* A formatted button without files. */
static void format(uint32_t length, uint32_t count, uint32_t local)
{
    page_length = length;
    page_count = count;
    file_count = 0;
    edits = pulls = mends = mend_pulls = 0;
    memset(button, 0xFF, sizeof button);
    expect(owfs_format(page_length, page_count, button, image_length(), owners, owners_length(), local).number == DONE, "format");
}

/* A button of 16 pages of 32 bytes with a directory D on page 3; its bitmap file has the first byte on page 9, none on page 7, and the second on
 * page 5. */
static void make_scattered(void)
{
    static const uint8_t root[] = {0xAA, 0, 0, 0, 0, 9, 3, 'D', ' ', ' ', ' ', 127, 3, 0};
    static const uint8_t directory[] = {0xAA, 'R', 'O', 'O', 'T', 0, 0};
    static const uint8_t low[] = {0xA9}, high[] = {0x02};
    format(32, 16, 0);
    memset(button, 0xFF, sizeof button);
    write_packet(0, root, sizeof root, 0);
    write_packet(3, directory, sizeof directory, 0);
    write_packet(9, low, sizeof low, 7);
    write_packet(7, low, 0, 5);
    write_packet(5, high, sizeof high, 0);
}

/* The edits of every button: new files, a directory that grows, longer, shorter and empty files, files of all pages that are left, deletes. */
static void edit_button(const char *directory, long data, long free)
{
    put(directory, "A", 1, 10);
    put(directory, "A", 2, 3 * data);
    put(directory, "B", 3, data + 1);
    put(directory, "A", 4, 0);
    put(directory, "C", 5, 0);
    put("", "E", 6, 1);
    put(directory, "D", 7, 2 * data);
    put(directory, "F", 8, 5);
    delete(directory, "B");
    put(directory, "B", 3, data + 1);
    put(directory, "C", 9, data);
    delete(directory, "D");
    delete("", "E");
    delete(directory, "F");
    delete(directory, "A");
    delete(directory, "C");
    delete(directory, "B");
    put(directory, "ALL", 10, free * data);
    delete(directory, "ALL");
}

/* Says what was done with a button. */
static void report(const char *bitmap)
{
    printf("%u pages of %u bytes, %s: %u edits, %u pulls, %u mends, %u pulls while mending\n", (unsigned)page_count, (unsigned)page_length, bitmap, edits,
           pulls, mends, mend_pulls);
}

int main(void)
{
    format(32, 16, 1);
    edit_button("", 28, 14);
    report("bitmap in page 0");
    format(64, 32, 1);
    edit_button("", 60, 31);
    report("bitmap in page 0");
    format(32, 24, 0);
    edit_button("", 28, 21);
    report("bitmap file");
    make_scattered();
    edit_button("D", 28, 10);
    report("scattered bitmap file, files in a directory");
    format(32, 320, 0);
    edit_button("", 27, 230);
    report("bitmap file of two pages");
    return 0;
}
