/* New inputs of old ones. Most changes know the structure: afterwards the packets' checks are computed again and the bitmap is made to agree, so that
 * an input gets past them and is judged by the rest of the check. */
#include <string.h>

#include "fuzz.h"

enum { LEAST_PAGE = 32, MOST_PAGE = 256, DIRECTORY = 127, LEVELS = 8, NAME = 4 };

/* The number of a check that only the bitmap refuses, the most bits that are repaired, and the most bytes of settings in a new input. */
enum { BITMAP = 13, MOST_FLIPS = 64, NEW_SETTINGS = MOST_SETTINGS / 4 };

size_t LLVMFuzzerMutate(uint8_t *data, size_t size, size_t most);
size_t LLVMFuzzerCustomMutator(uint8_t *data, size_t size, size_t most, unsigned int seed);

static struct dump dump;
static uint8_t owners[MOST_OWNERS];
static uint64_t state;

/* A random number below a limit. */
static uint32_t below(uint32_t limit)
{
    state ^= state << 13;
    state ^= state >> 7;
    state ^= state << 17;
    return (uint32_t)(state >> 16) % limit;
}

/* The bytes of a page number. */
static size_t number_length(void)
{
    return dump.page_count <= ONE_BYTE_PAGES ? 1 : 2;
}

/* The bytes of an owner table. */
static size_t owners_length(void)
{
    return RECORD * (size_t)dump.page_count;
}

/* Whether page length, page count and image are those of a button. */
static int is_button(void)
{
    int sizes = dump.page_length >= LEAST_PAGE && dump.page_length <= MOST_PAGE && dump.page_count >= 2;
    return sizes && dump.image_length == (size_t)dump.page_length * dump.page_count;
}

/* The bytes of a page. */
static uint8_t *page_at(uint32_t page)
{
    return dump.image + (size_t)page * dump.page_length;
}

/* A page number at a place. */
static uint32_t number_at(const uint8_t *place)
{
    return number_length() == 1 ? place[0] : place[0] | (uint32_t)place[1] << 8;
}

/* Writes a page number to a place. */
static void put_number(uint8_t *place, uint32_t number)
{
    place[0] = (uint8_t)number;
    if (number_length() == 2)
        place[1] = (uint8_t)(number >> 8);
}

/* Whether the length byte of a page is one of a packet. */
static int has_packet(uint32_t page)
{
    uint32_t length = page_at(page)[0];
    return length >= number_length() && length + 3 <= dump.page_length;
}

/* The place of a packet's pointer. */
static uint8_t *pointer_of(uint32_t page)
{
    return page_at(page) + 1 + page_at(page)[0] - number_length();
}

/* Computes the check of a page's packet again. */
static void seal(uint32_t page)
{
    if (!has_packet(page))
        return;
    uint8_t *bytes = page_at(page);
    size_t end = 1 + (size_t)bytes[0];
    uint16_t check = (uint16_t)~owfs_crc16((uint16_t)page, bytes, end);
    bytes[end] = (uint8_t)check;
    bytes[end + 1] = (uint8_t)(check >> 8);
}

/* The page that has a bit of the bitmap, and the place of its byte; all else of the image is known to be right. */
static uint32_t page_of_bit(uint32_t bit, uint8_t **place)
{
    size_t before = 0, byte = bit / 8, n = number_length();
    if (page_at(0)[2 + n] & 0x80) {
        *place = page_at(0) + 3 + n + byte;
        return 0;
    }
    uint32_t page = number_at(page_at(0) + 7 - n);
    while (byte >= before + page_at(page)[0] - n) {
        before += page_at(page)[0] - n;
        page = number_at(pointer_of(page));
    }
    *place = page_at(page) + 1 + byte - before;
    return page;
}

/* Marks and unmarks pages in the bitmap until it agrees, if nothing else is wrong and few bits are. */
static void repair_bitmap(void)
{
    for (int flips = 0; flips < MOST_FLIPS; flips++) {
        struct owfs_totals told = owfs_check(dump.page_length, dump.page_count, dump.image, dump.image_length, owners, owners_length());
        if (told.number != BITMAP)
            return;
        uint8_t *place;
        uint32_t page = page_of_bit(told.page, &place);
        *place ^= (uint8_t)(1 << told.page % 8);
        seal(page);
    }
}

/* Another page length or page count, often one at a limit, and an image that fits. */
static void change_sizes(void)
{
    static const uint16_t lengths[] = {32, 33, 38, 39, 40, 64, 128, 255, 256, 31, 257};
    static const uint16_t counts[] = {2, 3, 8, 9, 16, 31, 32, 33, 64, 256, 257, 300, 1};
    if (below(2) == 0)
        dump.page_length = lengths[below(sizeof lengths / sizeof *lengths)];
    else
        dump.page_count = below(2) == 0 ? counts[below(sizeof counts / sizeof *counts)] : 2 + below(40);
    size_t length = (size_t)dump.page_length * dump.page_count;
    if (length > MOST_IMAGE)
        return;
    if (length > dump.image_length)
        memset(dump.image + dump.image_length, 0, length - dump.image_length);
    dump.image_length = length;
}

/* A page changed by libFuzzer: its packet only, or all of it. */
static void change_page(void)
{
    uint8_t *page = page_at(below(dump.page_count));
    size_t packet = 1 + (size_t)page[0];
    size_t length = below(4) == 0 || packet > dump.page_length ? dump.page_length : packet;
    uint8_t bytes[MOST_PAGE];
    memcpy(bytes, page, length);
    size_t changed = LLVMFuzzerMutate(bytes, length, length);
    memcpy(page, bytes, changed);
}

/* A page copied over another. */
static void copy_page(void)
{
    uint8_t *from = page_at(below(dump.page_count));
    memmove(page_at(below(dump.page_count)), from, dump.page_length);
}

/* Another pointer of a page: 0, a page, or a number past the last. */
static void change_pointer(void)
{
    uint32_t page = below(dump.page_count);
    if (has_packet(page))
        put_number(pointer_of(page), below(4) == 0 ? 0 : below(dump.page_count + 2));
}

/* The entry at a random position of the image, with the names that lead to it, and the length of these; 0 if there is none. The position becomes the
 * one to list. */
static size_t random_entry(struct owfs_entry *entry, uint8_t *path)
{
    struct owfs_totals totals = owfs_check(dump.page_length, dump.page_count, dump.image, dump.image_length, owners, owners_length());
    uint32_t entries = totals.files + totals.directories;
    uint32_t last = entries == 0 ? 0 : below(entries);
    size_t length = 0;
    write_position(&dump, last + below(2) * below(2));
    for (uint32_t position = 0; position < entries && position <= last; position++) {
        *entry = owfs_list(dump.page_length, dump.page_count, dump.image, dump.image_length, owners, owners_length(), position);
        length = NAME * (size_t)entry->level;
        for (size_t place = 0; place < NAME; place++)
            path[length++] = (uint8_t)(entry->name >> 8 * place);
    }
    return length;
}

/* A name of one letter. */
static void random_name(uint8_t *name)
{
    memset(name, ' ', NAME);
    name[0] = (uint8_t)('A' + below(8));
}

/* The path of a file that is there, or of any in a directory that is. */
static void change_path(void)
{
    uint8_t path[NAME * (LEVELS + 2) + 1];
    struct owfs_entry entry;
    size_t length = random_entry(&entry, path);
    uint8_t extension = (uint8_t)below(101);
    if (length > 0 && entry.extension != DIRECTORY) {
        extension = (uint8_t)entry.extension;
    } else {
        random_name(path + length);
        length += NAME;
    }
    path[length] = extension;
    write_path(&dump, path, length + 1);
}

/* Puts an entry at the end of a directory's first page, if it has space. */
static void append_entry(uint32_t page, const uint8_t *name, uint8_t extension, uint32_t start, uint32_t pages)
{
    size_t n = number_length(), entry = NAME + 1 + 2 * n;
    uint8_t *bytes = page_at(page);
    if (!has_packet(page) || bytes[0] + entry + 3 > dump.page_length)
        return;
    uint8_t *place = pointer_of(page);
    memmove(place + entry, place, n);
    memcpy(place, name, NAME);
    place[NAME] = extension;
    put_number(place + NAME + 1, start);
    put_number(place + NAME + 1 + n, pages);
    bytes[0] = (uint8_t)(bytes[0] + entry);
    seal(page);
}

/* A directory more, in the root or in a directory that is there, on any page. */
static void add_directory(void)
{
    uint8_t path[NAME * (LEVELS + 2)], name[NAME], parent[NAME + 1] = "ROOT";
    struct owfs_entry entry;
    uint32_t start = 0, page = 1 + below(dump.page_count - 1);
    size_t length = random_entry(&entry, path), n = number_length();
    if (length > 0 && entry.extension == DIRECTORY) {
        memcpy(parent, path + length - NAME, NAME);
        start = entry.start;
    }
    uint8_t *bytes = page_at(page);
    bytes[0] = (uint8_t)(NAME + 2 + 2 * n);
    bytes[1] = n == 1 ? 0xAA : 0xAB;
    memcpy(bytes + 2, parent, NAME);
    bytes[2 + NAME] = 0;
    put_number(bytes + 3 + NAME, start);
    put_number(bytes + 3 + NAME + n, 0);
    seal(page);
    random_name(name);
    append_entry(start, name, DIRECTORY | (below(4) == 0) << 7, page, 0);
}

/* A stamp more, an entry's bytes with the first above 127, in a page of the root or of a directory that is there, if it has space: before one of its
 * entries or at its end. */
static void add_stamp(void)
{
    uint8_t path[NAME * (LEVELS + 2)];
    struct owfs_entry entry;
    size_t length = random_entry(&entry, path), n = number_length(), slot = NAME + 1 + 2 * n, control = NAME + 2 + n;
    uint32_t page = length > 0 && entry.extension == DIRECTORY ? entry.start : 0;
    uint32_t next = has_packet(page) ? number_at(pointer_of(page)) : 0;
    if (next > 0 && next < dump.page_count && below(2) == 0) {
        page = next;
        control = 0;
    }
    uint8_t *bytes = page_at(page);
    if (!has_packet(page) || bytes[0] < control + n || bytes[0] + slot + 3 > dump.page_length)
        return;
    uint32_t slots = (uint32_t)((bytes[0] - control - n) / slot);
    uint8_t *place = bytes + 1 + control + slot * below(slots + 1), *end = bytes + 1 + bytes[0];
    memmove(place + slot, place, (size_t)(end - place));
    for (size_t byte = 0; byte < slot; byte++)
        place[byte] = (uint8_t)below(256);
    place[0] |= 0x80;
    bytes[0] = (uint8_t)(bytes[0] + slot);
    seal(page);
}

/* The image as a put, a delete or a format with the settings leaves it. */
static void edit(void)
{
    static struct arguments with;
    read_arguments(&with, &dump);
    uint32_t length = dump.page_length, count = dump.page_count;
    uint8_t *image = dump.image;
    size_t size = dump.image_length, table = owners_length();
    switch (below(8)) {
    case 0: owfs_format(length, count, image, size, owners, table, with.local); break;
    case 1: owfs_delete(length, count, image, size, with.path, with.path_length, owners, table); break;
    default: owfs_put(length, count, image, size, with.path, with.path_length, with.file, with.file_length, owners, table); break;
    }
}

/* Other settings, by libFuzzer. */
static void change_settings(void)
{
    dump.settings_length = LLVMFuzzerMutate(dump.settings, dump.settings_length, NEW_SETTINGS);
}

/* One change; those that need the pages of a button are chosen as often as they stand here. */
static void change(void)
{
    static void (*const of_button[])(void) = {
        change_page, change_page, copy_page, change_pointer, change_path, change_path, add_directory, add_stamp, edit, edit,
    };
    if (below(6) == 0)
        change_settings();
    else if (!is_button() || below(12) == 0)
        change_sizes();
    else
        of_button[below(sizeof of_button / sizeof *of_button)]();
}

size_t LLVMFuzzerCustomMutator(uint8_t *data, size_t size, size_t most, unsigned int seed)
{
    state = 0x9E3779B97F4A7C15u ^ seed;
    if (!read_dump(&dump, data, size) || below(20) == 0)
        return LLVMFuzzerMutate(data, size, most);
    if (dump.settings_length > NEW_SETTINGS)
        dump.settings_length = NEW_SETTINGS;
    for (uint32_t changes = 1 + below(3); changes > 0; changes--)
        change();
    if (is_button() && below(8) != 0) {
        for (uint32_t page = 0; page < dump.page_count; page++)
            seal(page);
        if (below(8) != 0)
            repair_bitmap();
    }
    size_t written = write_dump(&dump, data, most);
    return written > 0 ? written : LLVMFuzzerMutate(data, size, most);
}
