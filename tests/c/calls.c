/* Calls check, list, read, format, put, delete, careful put, careful delete, mend, gather, the making and removing of a directory, the check sum and
 * those of reports as firmware calls them, with numbers and byte slices, each on a stack of 16 KiB, and prints each answer and each byte lent.
 *
 * The argument names a file: page length and page count (4 bytes each, low byte first), then the image, which ends the file.
 * Standard input has the calls; a number is 4 bytes, low byte first:
 *
 *   c  bytes of the owner table
 *   l  bytes of the owner table, position
 *   r  bytes of the owner table, bytes of the path, bytes of the output, then the path
 *   f  bytes of the owner table, 0 for a bitmap file or any other number for a local bitmap
 *   p  bytes of the owner table, bytes of the path, bytes of the file, then the path and the file's bytes
 *   d  bytes of the owner table, bytes of the path, then the path
 *   P  bytes of the owner table, bytes of the path, bytes of the file, writes allowed, then the path and the file's bytes
 *   D  bytes of the owner table, bytes of the path, writes allowed, then the path
 *   m  bytes of the owner table
 *   g  bytes of the owner table, bytes of the copy
 *   n  bytes of the owner table, bytes of the path, then the path of the directory to make
 *   x  bytes of the owner table, bytes of the path, then the path of the directory to remove
 *   k  start of the check sum, number of bytes, then the bytes
 *   t  limit and margin of a report to start
 *   w  limit, margin, version and K of a report with a weight to start
 *   a  a report, each field of 8 bytes as two numbers, the low one first, then bytes of the count file, then the count file
 *   s  bytes of stack to use in blocks of 1,024, to show that the limit of the stack holds
 *
 * For each call it prints the letter and the fields of the answer, then a line with the owner table, for `r` one with the output, for `g` one with the
 * copy and for `f`, `p`, `d`, `P`, `D`, `m`, `n` and `x` one with the image, in hexadecimal; for `k`, `t`, `w`, `a` and `s` the first line alone. The
 * calls after an edit have the image as it left it. Owner table, output and copy hold the byte C7 before each call. A slice of no bytes has no address.
 * In the end it tells on standard error the most bytes of stack that a call has used.
 * It ends with 1 if a call changed the path, the file's bytes, bytes next to a lent slice, or the image where it must not (c, l, r, g and every
 * refusal), with 2 if its input is not as above, and by a signal if a call needs more stack.
 */
#define _DEFAULT_SOURCE
#include <inttypes.h>
#include <stdio.h>
#include <stdlib.h>
#include <string.h>

#include "owfs.h"
#include "small_stack.h"

enum {
    MOST_IMAGE = 256 * 65535 + 1024,
    MOST_OWNERS = 300000,
    MOST_PATH = 4096,
    MOST_OUT = MOST_IMAGE,
    MOST_FILE = MOST_IMAGE,
    MARGIN = 64,
    BLOCK = 1024,
    BEFORE = 0xC7
};

/* A buffer with a margin before and after the bytes that are lent. */
struct lent {
    uint8_t *bytes;
    size_t length;
};

static uint8_t image_bytes[MARGIN + MOST_IMAGE + MARGIN], image_before[MOST_IMAGE];
static uint8_t owner_bytes[MARGIN + MOST_OWNERS + MARGIN];
static uint8_t out_bytes[MARGIN + MOST_OUT + MARGIN];
static uint8_t path_bytes[MARGIN + MOST_PATH + MARGIN], path_before[MOST_PATH];
static uint8_t file_bytes[MARGIN + MOST_FILE + MARGIN], file_before[MOST_FILE];
static struct lent image;
static uint32_t page_length, page_count;

/* What the next call is lent besides the image, and its number: position, kind of bitmap, writes allowed, start of the check sum, or limit of a report;
 * margin, version and K of a report to start, or the report to add a file to. */
static struct lent owners, path, file, out;
static uint32_t argument, margin, version, knee;
static struct owfs_report report;

/* Its answer. */
static struct owfs_totals totals;
static struct owfs_entry entry;
static struct owfs_length length_read;
static struct owfs_answer answer;
static struct owfs_writes writes;
static struct owfs_mended mended;
static struct owfs_added added;
static uint32_t sum, blocks;

/* The most bytes of stack that a call has used. */
static size_t most_stack;

/* Ends the program because its input is not as it must be. */
static void wrong_input(const char *what)
{
    fprintf(stderr, "%s\n", what);
    exit(2);
}

/* Ends the program because a call wrote where it must not. */
static void wrong_write(const char *what)
{
    fprintf(stderr, "%s changed\n", what);
    exit(1);
}

/* A number of 4 bytes, low byte first. */
static uint32_t number(FILE *file)
{
    uint8_t four[4];
    if (fread(four, 1, sizeof four, file) != sizeof four)
        wrong_input("a number is missing");
    return four[0] | (uint32_t)four[1] << 8 | (uint32_t)four[2] << 16 | (uint32_t)four[3] << 24;
}

/* A length of at most `most`. */
static size_t length_up_to(size_t most)
{
    uint32_t length = number(stdin);
    if (length > most)
        wrong_input("a length is too great");
    return length;
}

/* Lends `length` bytes of a buffer, all with the same byte before the call; none of them has no address. */
static struct lent lend(uint8_t *buffer, size_t length)
{
    struct lent lent = {length == 0 ? NULL : buffer + MARGIN, length};
    memset(buffer, BEFORE, MARGIN + length + MARGIN);
    return lent;
}

/* Reads page length, page count and image. */
static void read_image(const char *name)
{
    FILE *file = fopen(name, "rb");
    if (file == NULL)
        wrong_input("no image");
    page_length = number(file);
    page_count = number(file);
    image = lend(image_bytes, fread(image_before, 1, sizeof image_before, file));
    memcpy(image_bytes + MARGIN, image_before, image.length);
    fclose(file);
}

/* Sees that the margins of a lent buffer are as before. */
static void see_margins(const uint8_t *buffer, size_t length, const char *what)
{
    for (size_t place = 0; place < MARGIN; place++)
        if (buffer[place] != BEFORE || buffer[MARGIN + length + place] != BEFORE)
            wrong_write(what);
}

/* Prints bytes in hexadecimal. */
static void print_bytes(const struct lent *lent)
{
    static const char digits[] = "0123456789abcdef";
    for (size_t place = 0; place < lent->length; place++) {
        putchar(digits[lent->bytes[place] >> 4]);
        putchar(digits[lent->bytes[place] & 15]);
    }
    putchar('\n');
}

/* Reads the bytes of a slice that a call must not change, and keeps a copy of them. */
static struct lent read_given(uint8_t *buffer, uint8_t *before, size_t length)
{
    struct lent lent = lend(buffer, length);
    if (fread(before, 1, length, stdin) != length)
        wrong_input("the bytes of a slice are missing");
    memcpy(buffer + MARGIN, before, length);
    return lent;
}

/* Sees that a slice which a call must not change is as before. */
static void see_given(const uint8_t *buffer, const uint8_t *before, size_t length, const char *what)
{
    if (memcmp(buffer + MARGIN, before, length) != 0)
        wrong_write(what);
    see_margins(buffer, length, what);
}

/* Lends the owner table of the next call. */
static void lend_owners(void)
{
    owners = lend(owner_bytes, length_up_to(MOST_OWNERS));
}

/* The calls, each by a function that is run on the small stack. */
static void make_check(void)
{
    totals = owfs_check(page_length, page_count, image.bytes, image.length, owners.bytes, owners.length);
}

static void make_list(void)
{
    entry = owfs_list(page_length, page_count, image.bytes, image.length, owners.bytes, owners.length, argument);
}

static void make_read(void)
{
    length_read = owfs_read(page_length, page_count, image.bytes, image.length, path.bytes, path.length, out.bytes, out.length, owners.bytes,
                            owners.length);
}

static void make_format(void)
{
    answer = owfs_format(page_length, page_count, image.bytes, image.length, owners.bytes, owners.length, argument);
}

static void make_put(void)
{
    answer = owfs_put(page_length, page_count, image.bytes, image.length, path.bytes, path.length, file.bytes, file.length, owners.bytes, owners.length);
}

static void make_delete(void)
{
    answer = owfs_delete(page_length, page_count, image.bytes, image.length, path.bytes, path.length, owners.bytes, owners.length);
}

static void make_careful_put(void)
{
    writes = owfs_careful_put(page_length, page_count, image.bytes, image.length, path.bytes, path.length, file.bytes, file.length, owners.bytes,
                              owners.length, argument);
}

static void make_careful_delete(void)
{
    writes = owfs_careful_delete(page_length, page_count, image.bytes, image.length, path.bytes, path.length, owners.bytes, owners.length, argument);
}

static void make_mend(void)
{
    mended = owfs_mend(page_length, page_count, image.bytes, image.length, owners.bytes, owners.length);
}

static void make_copy(void)
{
    answer = owfs_gather(page_length, page_count, image.bytes, image.length, out.bytes, out.length, owners.bytes, owners.length);
}

static void make_new_directory(void)
{
    answer = owfs_make_directory(page_length, page_count, image.bytes, image.length, path.bytes, path.length, owners.bytes, owners.length);
}

static void make_removal(void)
{
    answer = owfs_remove_directory(page_length, page_count, image.bytes, image.length, path.bytes, path.length, owners.bytes, owners.length);
}

static void make_sum(void)
{
    sum = owfs_crc16((uint16_t)argument, file.bytes, file.length);
}

static void make_report(void)
{
    report = owfs_report_start((int32_t)argument, (uint16_t)margin);
}

static void make_weighted_report(void)
{
    report = owfs_report_start_weighted((int32_t)argument, (uint16_t)margin, version, knee);
}

static void make_add(void)
{
    added = owfs_report_add(report, file.bytes, file.length);
}

/* Makes the call on the small stack. */
static void make(void (*call)(void))
{
    size_t used = on_small_stack(call);
    if (used > most_stack)
        most_stack = used;
}

/* After a call that must not change the image: sees that it did not, nor bytes next to a slice, and prints the owner table. */
static void after_call(void)
{
    if (memcmp(image_bytes + MARGIN, image_before, image.length) != 0)
        wrong_write("image");
    see_margins(image_bytes, image.length, "margin of the image");
    see_margins(owner_bytes, owners.length, "margin of the owner table");
    print_bytes(&owners);
}

/* c: a check. */
static void call_check(void)
{
    lend_owners();
    make(make_check);
    printf("c %" PRIu32 " %" PRIu32 " %" PRIu32 " %" PRIu32 " %" PRIu32 "\n", totals.number, totals.page, totals.used, totals.files, totals.directories);
    after_call();
}

/* l: a listing. */
static void call_list(void)
{
    lend_owners();
    argument = number(stdin);
    make(make_list);
    printf("l %" PRIu32 " %" PRIu32 " %" PRIu32 " %" PRIu32 " %" PRIu32, entry.number, entry.page, entry.level, entry.name, entry.extension);
    printf(" %" PRIu32 " %" PRIu32 " %" PRIu32 " %" PRIu32 "\n", entry.attribute, entry.start, entry.pages, entry.length);
    after_call();
}

/* r: a read. */
static void call_read(void)
{
    lend_owners();
    size_t path_length = length_up_to(MOST_PATH);
    out = lend(out_bytes, length_up_to(MOST_OUT));
    path = read_given(path_bytes, path_before, path_length);
    make(make_read);
    printf("r %" PRIu32 " %" PRIu32 " %" PRIu32 "\n", length_read.number, length_read.page, length_read.length);
    after_call();
    see_margins(out_bytes, out.length, "margin of the output");
    see_given(path_bytes, path_before, path.length, "path");
    print_bytes(&out);
}

/* After a call that may change the image: prints the owner table and the image. If it was done, the image is the one that later calls must keep. */
static void after_change(uint32_t number)
{
    if (number == 0)
        memcpy(image_before, image_bytes + MARGIN, image.length);
    after_call();
    print_bytes(&image);
}

/* After a format, a put, a delete or the making or removing of a directory: prints its answer, the owner table and the image. */
static void after_edit(char letter)
{
    printf("%c %" PRIu32 " %" PRIu32 "\n", letter, answer.number, answer.page);
    after_change(answer.number);
}

/* After a careful call: prints its answer, the owner table and the image. */
static void after_careful(char letter)
{
    printf("%c %" PRIu32 " %" PRIu32 " %" PRIu32 " %" PRIu32 "\n", letter, writes.number, writes.page, writes.made, writes.left);
    after_change(writes.number);
}

/* Reads the path of a call, and of a put the bytes of the file. */
static void read_path(size_t path_length)
{
    path = read_given(path_bytes, path_before, path_length);
}

static void read_path_and_file(size_t path_length, size_t file_length)
{
    read_path(path_length);
    file = read_given(file_bytes, file_before, file_length);
}

/* Sees that the path is as before, and the bytes of the file. */
static void see_path(void)
{
    see_given(path_bytes, path_before, path.length, "path");
}

static void see_path_and_file(void)
{
    see_path();
    see_given(file_bytes, file_before, file.length, "bytes of the file");
}

/* f: a format. */
static void call_format(void)
{
    lend_owners();
    argument = number(stdin);
    make(make_format);
    after_edit('f');
}

/* p: a put. */
static void call_put(void)
{
    lend_owners();
    size_t path_length = length_up_to(MOST_PATH);
    size_t file_length = length_up_to(MOST_FILE);
    read_path_and_file(path_length, file_length);
    make(make_put);
    see_path_and_file();
    after_edit('p');
}

/* d: a delete. */
static void call_delete(void)
{
    lend_owners();
    read_path(length_up_to(MOST_PATH));
    make(make_delete);
    see_path();
    after_edit('d');
}

/* P: a careful put. */
static void call_careful_put(void)
{
    lend_owners();
    size_t path_length = length_up_to(MOST_PATH);
    size_t file_length = length_up_to(MOST_FILE);
    argument = number(stdin);
    read_path_and_file(path_length, file_length);
    make(make_careful_put);
    see_path_and_file();
    after_careful('P');
}

/* D: a careful delete. */
static void call_careful_delete(void)
{
    lend_owners();
    size_t path_length = length_up_to(MOST_PATH);
    argument = number(stdin);
    read_path(path_length);
    make(make_careful_delete);
    see_path();
    after_careful('D');
}

/* m: a mend. */
static void call_mend(void)
{
    lend_owners();
    make(make_mend);
    printf("m %" PRIu32 " %" PRIu32 " %" PRIu32 "\n", mended.number, mended.page, mended.cleared);
    after_change(mended.number);
}

/* g: a gather; the copy stands where the output of a read does. */
static void call_gather(void)
{
    lend_owners();
    out = lend(out_bytes, length_up_to(MOST_OUT));
    make(make_copy);
    printf("g %" PRIu32 " %" PRIu32 "\n", answer.number, answer.page);
    after_call();
    see_margins(out_bytes, out.length, "margin of the copy");
    print_bytes(&out);
}

/* n: a directory made. */
static void call_make_directory(void)
{
    lend_owners();
    read_path(length_up_to(MOST_PATH));
    make(make_new_directory);
    see_path();
    after_edit('n');
}

/* x: a directory removed. */
static void call_remove_directory(void)
{
    lend_owners();
    read_path(length_up_to(MOST_PATH));
    make(make_removal);
    see_path();
    after_edit('x');
}

/* k: a check sum. */
static void call_sum(void)
{
    argument = number(stdin);
    file = read_given(file_bytes, file_before, length_up_to(MOST_FILE));
    make(make_sum);
    printf("k %" PRIu32 "\n", sum);
    see_given(file_bytes, file_before, file.length, "bytes of the sum");
}

/* A number of 8 bytes, low byte first. */
static uint64_t long_number(void)
{
    uint64_t low = number(stdin);
    return low | (uint64_t)number(stdin) << 32;
}

/* Reads a report, field by field. */
static void read_report(void)
{
    report.cycles = long_number();
    report.near = long_number();
    report.weight = long_number();
    report.limit = (int32_t)number(stdin);
    report.greatest = (int32_t)number(stdin);
    report.has_greatest = number(stdin);
    report.margin = number(stdin);
    report.version = number(stdin);
    report.knee = number(stdin);
    report.files = number(stdin);
}

/* Prints a report, field by field, to the end of the line. */
static void print_report(const struct owfs_report *report)
{
    printf(" %" PRIu64 " %" PRIu64 " %" PRIu64 " %" PRId32 " %" PRId32, report->cycles, report->near, report->weight, report->limit, report->greatest);
    printf(" %" PRIu32 " %" PRIu32 " %" PRIu32 " %" PRIu32 " %" PRIu32 "\n", report->has_greatest, report->margin, report->version, report->knee,
           report->files);
}

/* t: a report that is started. */
static void call_report(void)
{
    argument = number(stdin);
    margin = number(stdin);
    make(make_report);
    printf("t");
    print_report(&report);
}

/* w: a report with a weight that is started. */
static void call_weighted_report(void)
{
    argument = number(stdin);
    margin = number(stdin);
    version = number(stdin);
    knee = number(stdin);
    make(make_weighted_report);
    printf("w");
    print_report(&report);
}

/* a: a file that is added to a report. */
static void call_add(void)
{
    read_report();
    file = read_given(file_bytes, file_before, length_up_to(MOST_FILE));
    make(make_add);
    see_given(file_bytes, file_before, file.length, "count file");
    printf("a %" PRIu32 " %" PRIu32, added.number, added.page);
    print_report(&added.report);
}

/* Writes to so many bytes of the stack, a block at a time, and counts the blocks. */
static uint32_t use_stack(uint32_t bytes)
{
    volatile uint8_t block[BLOCK];
    for (size_t place = 0; place < BLOCK; place++)
        block[place] = 1;
    return bytes <= BLOCK ? block[0] : use_stack(bytes - BLOCK) + block[BLOCK - 1];
}

static void make_use(void)
{
    blocks = use_stack(argument);
}

/* s: stack in use. */
static void call_stack(void)
{
    argument = number(stdin);
    make(make_use);
    printf("s %" PRIu32 "\n", blocks);
}

int main(int count, char **arguments)
{
    if (count != 2)
        wrong_input("one argument, the file of the image");
    read_image(arguments[1]);
    make_small_stack();
    for (int letter = getchar(); letter != EOF; letter = getchar()) {
        switch (letter) {
        case 'c': call_check(); break;
        case 'l': call_list(); break;
        case 'r': call_read(); break;
        case 'f': call_format(); break;
        case 'p': call_put(); break;
        case 'd': call_delete(); break;
        case 'P': call_careful_put(); break;
        case 'D': call_careful_delete(); break;
        case 'm': call_mend(); break;
        case 'g': call_gather(); break;
        case 'n': call_make_directory(); break;
        case 'x': call_remove_directory(); break;
        case 'k': call_sum(); break;
        case 't': call_report(); break;
        case 'w': call_weighted_report(); break;
        case 'a': call_add(); break;
        case 's': call_stack(); break;
        default: wrong_input("no such call");
        }
    }
    fprintf(stderr, "stack %zu\n", most_stack);
    return 0;
}
