/* A fuzz target of the exported calls, for libFuzzer (Debian's clang has it). `tests/fuzz/run 10` builds it and runs it for ten minutes, starting
 * from the dumps in samples/; all it makes is in target/fuzz. To make the calls of one input again, as after a crash:
 *
 *     target/fuzz/calls target/fuzz/crash-..
 *
 * fuzz.h says what an input is. Every exported function is called with it. What must hold of every call is demanded:
 *
 *   - no call reads or writes outside the slices that it is lent, and none changes a path, a file's bytes or an image that it only reads
 *   - a refusal changes no byte of the image, the output and the copy
 *   - after 1 no owner byte is changed; bytes past the first 4 * page_count never are; the faults 2 to 13 leave owner records of 0
 *   - the owner records of an accepted image are those of its chains: by the pointers of the image, the page after another has the same owner and the
 *     next place; each chain starts at place 0; a free page has 0 and 0
 *   - a fault of the image is told by each call that checks it; the calls agree on what a path leads to
 *   - after a put that is done the image is accepted and the file reads back, after a delete it is accepted and the file is absent, after a format it
 *     is accepted and empty; the owner table is the one that a check leaves
 *   - a careful put or delete makes no more writes than allowed, and all of them if any are left; a check of what it leaves finds no fault but marks,
 *     which a mend clears; then the file is as before or as new, and as new if nothing was left
 *   - a directory that is made is accepted, has no entries, can be removed, and cannot be made again; one that is removed is absent and can be made
 *     again; making and removing agree on what a path leads to, and a file may be put into a directory exactly if its names lead to one
 *   - careful calls refuse what the plain ones refuse, and besides only a put for which there is no room; a mend refuses what a check refuses, but
 *     for marks that no chain has
 *   - a gather tells the check's fault, and 1 for a copy of another length; its copy is accepted with as many files and directories on no more pages,
 *     its chains stand on consecutive pages from page 1 up with FF in every unused byte, and a gather of the copy is the copy
 *   - format is refused with 4 exactly if a local bitmap is asked for with more than 32 pages; no image of more has one and is accepted
 */
#define _GNU_SOURCE
#include <stdio.h>
#include <stdlib.h>
#include <string.h>
#include <sys/mman.h>
#include <unistd.h>

#include "fuzz.h"

/* What an owner table and an output hold before a call, and the bytes before a lent slice. */
enum { BEFORE = 0xC7, MARGIN = 64 };

/* Numbers of answers. */
enum { DONE = 0, ARGUMENTS = 1, CONTROL = 4, LAST_FAULT = 13, MARKS = 13, MALFORMED = 14, ABSENT = 15, READ_ONLY = 16, NO_ROOM = 17, TOO_SHORT = 18,
       NOT_EMPTY = 20, ALREADY_THERE = 21, HIDDEN = 22 };

/* Memory that is lent: a slice just before a page that may not be touched. */
struct lent {
    uint8_t *end;
    uint8_t *bytes;
    size_t length;
};

static struct lent image, owners, out, path, file, copy;
static struct dump dump;
static struct arguments arguments;

/* Ends the program if something does not hold. */
static void demand(int holds, const char *what)
{
    if (!holds) {
        fprintf(stderr, "does not hold: %s\n", what);
        abort();
    }
}

/* Makes memory for slices of up to so many bytes, between pages that may not be touched. */
static struct lent make_lent(size_t most)
{
    size_t page = (size_t)getpagesize();
    size_t room = (most + MARGIN + page - 1) / page * page;
    uint8_t *start = mmap(NULL, room + 2 * page, PROT_READ | PROT_WRITE, MAP_PRIVATE | MAP_ANONYMOUS, -1, 0);
    demand(start != MAP_FAILED, "memory");
    demand(mprotect(start, page, PROT_NONE) == 0, "a page before the memory");
    demand(mprotect(start + page + room, page, PROT_NONE) == 0, "a page after the memory");
    return (struct lent){start + page + room, NULL, 0};
}

/* Lends so many bytes, all with the same byte, or those of a slice. */
static void lend(struct lent *lent, const uint8_t *bytes, size_t length)
{
    lent->bytes = lent->end - length;
    lent->length = length;
    memset(lent->bytes - MARGIN, BEFORE, MARGIN + length);
    if (bytes != NULL)
        memcpy(lent->bytes, bytes, length);
}

/* Whether these bytes are all the same: none, or each equal to the first and to the one before it. */
static int all(const uint8_t *bytes, size_t length, uint8_t byte)
{
    return length == 0 || (bytes[0] == byte && memcmp(bytes, bytes + 1, length - 1) == 0);
}

/* Whether a lent slice has the bytes of another. */
static int holds(const struct lent *lent, const uint8_t *bytes)
{
    return memcmp(lent->bytes, bytes, lent->length) == 0;
}

/* Lends the image, an owner table, an output, the path, the file's bytes and a copy as long as the image for a call. */
static void lend_all(const uint8_t *image_bytes)
{
    lend(&image, image_bytes, dump.image_length);
    lend(&owners, NULL, arguments.owners_length);
    lend(&out, NULL, arguments.out_length);
    lend(&path, arguments.path, arguments.path_length);
    lend(&file, arguments.file, arguments.file_length);
    lend(&copy, NULL, dump.image_length);
}

/* Demands of the owner table what holds after every call; format alone can be refused with a fault's number though the image is accepted. */
static void see_owners(uint32_t number, int is_format)
{
    if (number == ARGUMENTS) {
        demand(all(owners.bytes, owners.length, BEFORE), "owners stay after 1");
        return;
    }
    size_t used = RECORD * (size_t)arguments.page_count;
    demand(owners.length >= used, "an owner table too short is 1");
    demand(all(owners.bytes + used, owners.length - used, BEFORE), "the owner table's rest stays");
    if (number != DONE && number <= LAST_FAULT && !is_format)
        demand(all(owners.bytes, used, 0), "no owners after a fault");
}

/* Demands what holds after every call, and tells libFuzzer the answer. */
static void after_call(enum kind kind, uint32_t number, uint32_t page)
{
    meet(kind, number * PAGES_TOLD + (page < PAGES_TOLD ? page : PAGES_TOLD - 1));
    demand(number <= TOO_SHORT || (number >= NOT_EMPTY && number <= HIDDEN), "a number of the table");
    demand(number <= LAST_FAULT || page == 0, "page 0 of a number above 13");
    demand(number != DONE || page == 0, "page 0 if done");
    const struct lent *every[] = {&image, &owners, &out, &path, &file, &copy};
    for (size_t place = 0; place < sizeof every / sizeof *every; place++)
        demand(all(every[place]->bytes - MARGIN, MARGIN, BEFORE), "bytes before a slice stay");
    demand(holds(&path, arguments.path), "the path stays");
    demand(holds(&file, arguments.file), "the file's bytes stay");
    see_owners(number, kind == FORMATTED);
}

/* Whether page 0 of an accepted image has the bitmap: bit 7 of the byte after length byte, marker and map address. */
static int has_local_bitmap(const uint8_t *bytes)
{
    return bytes[arguments.page_count <= ONE_BYTE_PAGES ? 3 : 4] >> 7;
}

/* The owner of a page, and its place, by the owner table. */
static uint32_t owner_of(uint32_t page)
{
    const uint8_t *record = owners.bytes + RECORD * (size_t)page;
    return record[0] | (uint32_t)record[1] << 8;
}

static uint32_t place_of(uint32_t page)
{
    const uint8_t *record = owners.bytes + RECORD * (size_t)page;
    return record[2] | (uint32_t)record[3] << 8;
}

/* The page after another in its chain, by the image: the last bytes of its packet, 0 at the end. */
static uint32_t next_page(const uint8_t *bytes, uint32_t page)
{
    const uint8_t *packet = bytes + (size_t)page * arguments.page_length;
    if (arguments.page_count <= ONE_BYTE_PAGES)
        return packet[packet[0]];
    return packet[packet[0] - 1] | (uint32_t)packet[packet[0]] << 8;
}

/* Demands of the owner records of an accepted image that they are those of its chains. */
static void see_records(const uint8_t *bytes, struct owfs_totals totals)
{
    uint32_t used = 0, first = 0;
    for (uint32_t page = 0; page < arguments.page_count; page++) {
        uint32_t owner = owner_of(page), place = place_of(page);
        demand(owner != 0 || place == 0, "a free page has place 0");
        if (owner == 0)
            continue;
        uint32_t next = next_page(bytes, page);
        demand(next == 0 || (owner_of(next) == owner && place_of(next) == place + 1), "the next page has the next place");
        used++;
        first += place == 0;
    }
    demand(used == totals.used, "every page in use has an owner");
    demand(first == totals.files + totals.directories + (has_local_bitmap(bytes) ? 1 : 2), "each chain starts at place 0");
}

/* A check of an image. */
static struct owfs_totals check(const uint8_t *bytes)
{
    lend_all(bytes);
    struct owfs_totals told =
        owfs_check(arguments.page_length, arguments.page_count, image.bytes, image.length, owners.bytes, owners.length);
    after_call(CHECKED, told.number, told.page);
    demand(holds(&image, bytes), "a check writes no image");
    demand(told.number <= LAST_FAULT, "a check's number");
    demand(told.number == DONE || (told.used | told.files | told.directories) == 0, "no totals in a refusal");
    if (told.number == DONE) {
        demand(arguments.page_count <= MOST_LOCAL_PAGES || !has_local_bitmap(bytes), "no local bitmap with more than 32 pages");
        see_records(bytes, told);
        meet(USED, told.used);
        meet(FILES, told.files);
        meet(DIRECTORIES, told.directories);
    }
    return told;
}

/* A listing of an image with these totals, or this fault. */
static void see_list(struct owfs_totals totals)
{
    lend_all(dump.image);
    struct owfs_entry told = owfs_list(arguments.page_length, arguments.page_count, image.bytes, image.length, owners.bytes, owners.length,
                                       arguments.position);
    after_call(LISTED, told.number, told.page);
    demand(holds(&image, dump.image), "a listing writes no image");
    uint32_t fields = told.level | told.name | told.extension | told.attribute | told.start | told.pages | told.length;
    demand(told.number == DONE || fields == 0, "no entry in a refusal");
    if (totals.number != DONE) {
        demand(told.number == totals.number && told.page == totals.page, "a listing tells the fault");
    } else if (arguments.position < totals.files + totals.directories) {
        demand(told.number == DONE, "an entry is listed");
        meet(LEVEL, told.level);
    } else {
        demand(told.number == ABSENT, "no entry past the end");
    }
}

/* A read of an image into an output of so many bytes. */
static struct owfs_length read_file(const uint8_t *bytes, size_t out_length)
{
    lend_all(bytes);
    lend(&out, NULL, out_length);
    struct owfs_length told = owfs_read(arguments.page_length, arguments.page_count, image.bytes, image.length, path.bytes, path.length, out.bytes,
                                        out.length, owners.bytes, owners.length);
    after_call(READ, told.number, told.page);
    demand(holds(&image, bytes), "a read writes no image");
    demand(told.length <= out.length, "a file no longer than the output");
    demand(told.number == DONE || told.length == 0, "no length in a refusal");
    demand(all(out.bytes + told.length, out.length - told.length, BEFORE), "the output's rest stays");
    return told;
}

/* Demands of a call that may change the image: a refusal changes no byte of it; the owner table is the one that a check leaves.
 * Copies the image as it stands and gives its totals. */
static struct owfs_totals after_change(enum kind kind, uint32_t number, uint32_t page, const uint8_t *before, uint8_t *changed)
{
    static uint8_t table[MOST_OWNERS];
    after_call(kind, number, page);
    demand(number == DONE || holds(&image, before), "a refusal changes no byte of the image");
    memcpy(changed, image.bytes, image.length);
    memcpy(table, owners.bytes, owners.length);
    struct owfs_totals totals = check(changed);
    demand(holds(&owners, table), "owners of the image as it stands");
    return totals;
}

/* Demands of a format, a put or a delete: if it is done, the image is accepted. Copies the image as it stands and gives its totals. */
static struct owfs_totals after_edit(enum kind kind, struct owfs_answer told, uint8_t *edited)
{
    struct owfs_totals totals = after_change(kind, told.number, told.page, dump.image, edited);
    demand(told.number != DONE || totals.number == DONE, "an edit leaves an accepted image");
    return totals;
}

/* Demands that a put or a delete tells the fault of an image that is not accepted. */
static void see_fault(struct owfs_totals before, struct owfs_answer told)
{
    if (before.number != DONE)
        demand(told.number == before.number && told.page == before.page, "an edit tells the fault");
}

/* A put, and what it leaves; its number. */
static uint32_t see_put(struct owfs_totals before)
{
    static uint8_t edited[MOST_IMAGE];
    lend_all(dump.image);
    struct owfs_answer told = owfs_put(arguments.page_length, arguments.page_count, image.bytes, image.length, path.bytes, path.length, file.bytes,
                                       file.length, owners.bytes, owners.length);
    struct owfs_totals after = after_edit(PUT, told, edited);
    see_fault(before, told);
    if (told.number != DONE)
        return told.number;
    demand(after.files == before.files || after.files == before.files + 1, "one file more or none");
    demand(after.directories == before.directories, "as many directories");
    struct owfs_length length = read_file(edited, arguments.file_length);
    demand(length.number == DONE && length.length == arguments.file_length, "a file that was put is read");
    demand(memcmp(out.bytes, arguments.file, arguments.file_length) == 0, "the bytes that were put");
    return told.number;
}

/* A delete, and what it leaves; its number. */
static uint32_t see_delete(struct owfs_totals before)
{
    static uint8_t edited[MOST_IMAGE];
    lend_all(dump.image);
    struct owfs_answer told = owfs_delete(arguments.page_length, arguments.page_count, image.bytes, image.length, path.bytes, path.length,
                                          owners.bytes, owners.length);
    struct owfs_totals after = after_edit(DELETED, told, edited);
    see_fault(before, told);
    if (told.number != DONE)
        return told.number;
    demand(after.files + 1 == before.files && after.directories == before.directories, "one file less");
    demand(after.used < before.used, "pages are free");
    demand(read_file(edited, arguments.out_length).number == ABSENT, "a file that was deleted is absent");
    return told.number;
}

/* Makes or removes a directory in an image, by the front of the path that is whole names, or by the whole path. */
static struct owfs_answer edit_directory(const uint8_t *bytes, int is_make, size_t path_length)
{
    lend_all(bytes);
    if (is_make)
        return owfs_make_directory(arguments.page_length, arguments.page_count, image.bytes, image.length, path.bytes, path_length, owners.bytes,
                                   owners.length);
    return owfs_remove_directory(arguments.page_length, arguments.page_count, image.bytes, image.length, path.bytes, path_length, owners.bytes,
                                 owners.length);
}

/* A directory made, and what it leaves; its number. */
static uint32_t see_make(struct owfs_totals before, size_t path_length)
{
    static uint8_t edited[MOST_IMAGE];
    struct owfs_answer told = edit_directory(dump.image, 1, path_length);
    struct owfs_totals after = after_edit(DIRECTORY_MADE, told, edited);
    see_fault(before, told);
    if (told.number != DONE)
        return told.number;
    demand(after.files == before.files && after.directories == before.directories + 1, "one directory more");
    demand(after.used == before.used + 1 || after.used == before.used + 2, "a page for it, and perhaps one for its entry");
    demand(edit_directory(edited, 1, path_length).number == ALREADY_THERE, "a directory that was made is there");
    demand(edit_directory(edited, 0, path_length).number == DONE, "a directory that was made is empty");
    struct owfs_totals removed = check(memcpy(edited, image.bytes, image.length));
    demand(removed.number == DONE && removed.directories == before.directories && removed.used + 1 == after.used, "its page is free again");
    return told.number;
}

/* A directory removed, and what it leaves; its number. */
static uint32_t see_remove(struct owfs_totals before, size_t path_length)
{
    static uint8_t edited[MOST_IMAGE];
    struct owfs_answer told = edit_directory(dump.image, 0, path_length);
    struct owfs_totals after = after_edit(DIRECTORY_REMOVED, told, edited);
    see_fault(before, told);
    if (told.number != DONE)
        return told.number;
    demand(after.files == before.files && after.directories + 1 == before.directories, "one directory less");
    demand(after.used < before.used, "pages are free");
    demand(edit_directory(edited, 0, path_length).number == ABSENT, "a directory that was removed is absent");
    demand(edit_directory(edited, 1, path_length).number == DONE, "a directory that was removed can be made again");
    return told.number;
}

/* A directory made and removed by the path as it is, and by its whole names; they agree on what the names lead to. */
static void see_directories(struct owfs_totals before, uint32_t put)
{
    size_t names = arguments.path_length / 4 * 4;
    if (names < arguments.path_length) {
        uint32_t make = see_make(before, arguments.path_length), remove = see_remove(before, arguments.path_length);
        demand(before.number != DONE || (make == MALFORMED && remove == MALFORMED), "a path that is not whole names");
    }
    uint32_t make = see_make(before, names), remove = see_remove(before, names);
    if (before.number != DONE)
        return;
    demand((make == MALFORMED) == (remove == MALFORMED), "a malformed path of a directory");
    demand(make != ALREADY_THERE || remove == DONE || remove == NOT_EMPTY || remove == HIDDEN, "a directory that is there");
    demand(remove != DONE || make == ALREADY_THERE, "a directory that can be removed is there");
    demand(remove != NOT_EMPTY || make == ALREADY_THERE, "a directory that has entries is there");
    demand(make != ABSENT || remove == ABSENT, "a directory whose parent is absent");
    demand(make != HIDDEN || remove == HIDDEN || remove == ABSENT, "a directory below a hidden one");
    demand(make != DONE || remove == ABSENT, "a new directory");
    /* The names before a file's, as a path of a directory: they lead to one exactly if a put does not miss it. */
    if (put != MALFORMED && names > 4) {
        uint32_t parent = edit_directory(dump.image, 0, names - 4).number;
        demand((put == ABSENT) == (parent == ABSENT), "a directory that a put misses");
        demand((put == HIDDEN) == (parent == HIDDEN), "a directory that hides a put");
    }
}

/* A format, and what it leaves. */
static void see_format(struct owfs_totals before)
{
    static uint8_t edited[MOST_IMAGE];
    lend_all(dump.image);
    struct owfs_answer told = owfs_format(arguments.page_length, arguments.page_count, image.bytes, image.length, owners.bytes, owners.length,
                                          arguments.local);
    struct owfs_totals after = after_edit(FORMATTED, told, edited);
    demand(told.page == 0, "format tells no page");
    demand((told.number == ARGUMENTS) == (before.number == ARGUMENTS), "format and check judge arguments alike");
    if (told.number == ARGUMENTS)
        return;
    int is_refused = arguments.local != 0 && arguments.page_count > MOST_LOCAL_PAGES;
    demand(told.number == (is_refused ? CONTROL : DONE), "a local bitmap with more than 32 pages is 4, and nothing else is");
    if (is_refused)
        return;
    demand(after.files + after.directories == 0, "a formatted image is empty");
    demand(has_local_bitmap(edited) == (arguments.local != 0), "the bitmap that was asked for");
}

/* A mend of an image, and what it leaves: an accepted image, or the fault that a check tells. Copies the image as it stands. */
static uint32_t see_mend(const uint8_t *bytes, struct owfs_totals before, uint8_t *mended)
{
    lend_all(bytes);
    struct owfs_mended told =
        owfs_mend(arguments.page_length, arguments.page_count, image.bytes, image.length, owners.bytes, owners.length);
    struct owfs_totals after = after_change(MENDED, told.number, told.page, bytes, mended);
    if (told.number != DONE) {
        demand(told.cleared == 0 && told.number == before.number && told.page == before.page, "a mend tells the check's fault");
        return told.number;
    }
    demand(after.number == DONE, "a mend leaves an accepted image");
    demand(before.number == DONE || before.number == MARKS, "a mend clears marks only");
    demand((told.cleared > 0) == (before.number == MARKS), "marks that are cleared");
    demand(before.number == MARKS || memcmp(bytes, mended, dump.image_length) == 0, "an accepted image stays");
    return told.number;
}

/* Demands of the owner records of a gathered copy that its chains follow each other from page 1 up, and FF in every byte that no packet has. */
static void see_gathered(const uint8_t *bytes, uint32_t used)
{
    for (uint32_t page = 0; page < arguments.page_count; page++) {
        const uint8_t *packet = bytes + (size_t)page * arguments.page_length;
        size_t packet_length = page < used ? 3 + (size_t)packet[0] : 0;
        demand((owner_of(page) != 0) == (page < used), "the first pages are in use");
        demand(all(packet + packet_length, arguments.page_length - packet_length, 0xFF), "unused bytes are FF");
        uint32_t next = page < used ? next_page(bytes, page) : 0;
        demand(next == 0 || page == 0 || next == page + 1, "chains on consecutive pages");
    }
}

/* A gather of an image into a copy as long as it, or one byte longer. */
static struct owfs_answer gather(const uint8_t *bytes, size_t more)
{
    lend_all(bytes);
    lend(&copy, NULL, dump.image_length + more);
    struct owfs_answer told = owfs_gather(arguments.page_length, arguments.page_count, image.bytes, image.length, copy.bytes, copy.length,
                                          owners.bytes, owners.length);
    after_call(GATHERED, told.number, told.page);
    demand(holds(&image, bytes), "a gather writes no image");
    demand(told.number == DONE || all(copy.bytes, copy.length, BEFORE), "a refusal changes no byte of the copy");
    return told;
}

/* A gather, and what it leaves. */
static void see_gather(struct owfs_totals before)
{
    static uint8_t gathered[MOST_IMAGE], table[MOST_OWNERS];
    demand(gather(dump.image, 1).number == ARGUMENTS, "a copy of another length");
    struct owfs_answer told = gather(dump.image, 0);
    demand(told.number == before.number && told.page == before.page, "a gather tells the check's fault, and no other");
    if (told.number != DONE)
        return;
    memcpy(gathered, copy.bytes, copy.length);
    memcpy(table, owners.bytes, owners.length);
    struct owfs_totals after = check(gathered);
    demand(holds(&owners, table), "owners of the copy");
    demand(after.number == DONE && after.used <= before.used, "the copy is accepted and has no more pages in use");
    demand(after.files == before.files && after.directories == before.directories, "as many files and directories");
    demand(has_local_bitmap(gathered) == has_local_bitmap(dump.image), "the same kind of bitmap");
    see_gathered(gathered, after.used);
    struct owfs_length old = read_file(dump.image, arguments.out_length), new = read_file(gathered, arguments.out_length);
    demand(old.number == new.number && old.length == new.length, "a path leads to the same in the copy");
    demand(gather(gathered, 0).number == DONE && holds(&copy, gathered), "a gather of the copy is the copy");
}

/* Demands of a careful call: writes as allowed, and what it leaves can be mended. Copies the mended image; 1 if the call was done. */
static int after_careful(enum kind kind, struct owfs_writes told, struct owfs_totals before, uint8_t *mended)
{
    static uint8_t edited[MOST_IMAGE];
    struct owfs_totals after = after_change(kind, told.number, told.page, dump.image, edited);
    demand(told.made <= arguments.position && told.left <= 1, "no more writes than allowed");
    demand(told.left == 0 || told.made == arguments.position, "all writes that are allowed");
    if (before.number != DONE)
        demand(told.number == before.number && told.page == before.page, "a careful call tells the fault");
    if (told.number != DONE) {
        demand(told.made == 0 && told.left == 0, "no writes in a refusal");
        return 0;
    }
    demand(told.made > 0 || told.left == 1, "there is something to write");
    demand(after.number == DONE || (after.number == MARKS && told.left == 1), "no fault but marks");
    demand(see_mend(edited, after, mended) == DONE, "what a careful call leaves is mended");
    return 1;
}

/* Whether the path's file in an image has the bytes that were put. */
static int is_put(const uint8_t *bytes)
{
    struct owfs_length length = read_file(bytes, MOST_FILE);
    return length.number == DONE && length.length == arguments.file_length && memcmp(out.bytes, arguments.file, arguments.file_length) == 0;
}

/* Whether the path's file is as in the dump's image, or absent as there. */
static int is_as_before(const uint8_t *bytes)
{
    static uint8_t old[MOST_FILE];
    struct owfs_length before = read_file(dump.image, MOST_FILE);
    memcpy(old, out.bytes, before.length);
    struct owfs_length length = read_file(bytes, MOST_FILE);
    return length.number == before.number && length.length == before.length && memcmp(out.bytes, old, before.length) == 0;
}

/* A careful put, and what it leaves; `put` is the number of the plain one. */
static void see_careful_put(struct owfs_totals before, uint32_t put)
{
    static uint8_t mended[MOST_IMAGE];
    lend_all(dump.image);
    struct owfs_writes told = owfs_careful_put(arguments.page_length, arguments.page_count, image.bytes, image.length, path.bytes, path.length,
                                               file.bytes, file.length, owners.bytes, owners.length, arguments.position);
    demand(told.number == put || (told.number == NO_ROOM && put == DONE), "a careful put is refused as a put, or for its room");
    if (after_careful(CAREFUL_PUT, told, before, mended))
        demand(is_put(mended) || (told.left == 1 && is_as_before(mended)), "a file that was put carefully");
}

/* A careful delete, and what it leaves; `deleted` is the number of the plain one. */
static void see_careful_delete(struct owfs_totals before, uint32_t deleted)
{
    static uint8_t mended[MOST_IMAGE];
    lend_all(dump.image);
    struct owfs_writes told = owfs_careful_delete(arguments.page_length, arguments.page_count, image.bytes, image.length, path.bytes, path.length,
                                                  owners.bytes, owners.length, arguments.position);
    demand(told.number == deleted, "a careful delete is refused as a delete");
    if (!after_careful(CAREFUL_DELETED, told, before, mended))
        return;
    int is_absent = read_file(mended, MOST_FILE).number == ABSENT;
    demand(is_absent == (told.made > 0), "absent from the first write on");
    demand(is_absent || is_as_before(mended), "as before without a write");
}

/* Demands that read, put and delete agree on what a path of an accepted image leads to. */
static void see_path(uint32_t read, uint32_t put, uint32_t deleted)
{
    int is_there = read == DONE || read == TOO_SHORT;
    demand(is_there || read == MALFORMED || read == ABSENT, "numbers of a read");
    demand(put == DONE || (put >= MALFORMED && put <= NO_ROOM) || put == HIDDEN, "numbers of a put");
    demand((read == MALFORMED) == (put == MALFORMED) && (read == MALFORMED) == (deleted == MALFORMED), "a malformed path");
    demand((read == ABSENT) == (deleted == ABSENT), "an absent file");
    demand(put != ABSENT || read == ABSENT, "an absent directory has no file");
    demand((put == READ_ONLY) == (deleted == READ_ONLY) && (put != READ_ONLY || is_there), "a read-only file");
    demand((deleted == HIDDEN) == (put == HIDDEN && is_there), "a file below a hidden directory");
    demand(is_there == (deleted == DONE || deleted == READ_ONLY || deleted == HIDDEN), "a file that is there");
}

/* Demands that the check sum over a front of the image is the one worked bit by bit. */
static void see_sum(void)
{
    size_t length = dump.image_length < 300 ? dump.image_length : 300;
    uint16_t start = (uint16_t)arguments.position, sum = start;
    for (size_t place = 0; place < 8 * length; place++) {
        int leaving = (sum ^ dump.image[place / 8] >> place % 8) & 1;
        sum = (uint16_t)(sum >> 1 ^ leaving * 0xA001);
    }
    lend(&image, dump.image, length);
    demand(owfs_crc16(start, image.bytes, length) == sum, "the check sum");
}

int LLVMFuzzerInitialize(int *count, char ***words);
int LLVMFuzzerTestOneInput(const uint8_t *data, size_t size);

/* Makes the memory that is lent; the blocks' addresses stand beside the program. */
int LLVMFuzzerInitialize(int *count, char ***words)
{
    (void)count;
    char addresses[4096];
    snprintf(addresses, sizeof addresses, "%s.blocks", (*words)[0]);
    image = make_lent(MOST_IMAGE);
    owners = make_lent(MOST_OWNERS);
    out = make_lent(MOST_FILE);
    path = make_lent(MOST_PATH);
    file = make_lent(MOST_FILE);
    copy = make_lent(MOST_IMAGE + 1);
    watch_blocks(addresses);
    return 0;
}

/* Makes every call with the input that was read. */
static void make_calls(void)
{
    see_sum();
    struct owfs_totals totals = check(dump.image);
    see_list(totals);
    see_format(totals);
    struct owfs_length length = read_file(dump.image, arguments.out_length);
    uint32_t deleted = see_delete(totals);
    uint32_t put = see_put(totals);
    static uint8_t mended[MOST_IMAGE];
    see_mend(dump.image, totals, mended);
    see_gather(totals);
    see_careful_put(totals, put);
    see_careful_delete(totals, deleted);
    see_directories(totals, put);
    if (totals.number == DONE)
        see_path(length.number, put, deleted);
    else
        demand(length.number == totals.number && length.page == totals.page, "a read tells the fault");
}

int LLVMFuzzerTestOneInput(const uint8_t *data, size_t size)
{
    if (!read_dump(&dump, data, size))
        return 0;
    read_arguments(&arguments, &dump);
    begin_input();
    make_calls();
    end_input();
    return 0;
}
