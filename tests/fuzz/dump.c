/* Inputs of the fuzz target, read and written. */
#include <string.h>

#include "fuzz.h"

/* Places in the settings, and values of their bytes. */
enum { POSITION_AT = 3, PATH_LENGTH_AT = 15, GREATER = 255, SHORTER = 240, BYTES = 256 };

/* Bytes that are left to be read. */
struct cursor {
    const uint8_t *bytes;
    size_t left;
};

/* A number of so many bytes, low byte first; bytes that are missing are 0. */
static uint32_t take(struct cursor *cursor, size_t count)
{
    uint32_t number = 0;
    for (size_t place = 0; place < count && cursor->left > 0; place++) {
        number |= (uint32_t)*cursor->bytes << (8 * place);
        cursor->bytes++;
        cursor->left--;
    }
    return number;
}

/* Writes a number of so many bytes, low byte first. */
static void give(uint8_t *bytes, size_t count, uint32_t number)
{
    for (size_t place = 0; place < count; place++)
        bytes[place] = (uint8_t)(number >> (8 * place));
}

int read_dump(struct dump *dump, const uint8_t *data, size_t size)
{
    if (size < HEADER)
        return 0;
    struct cursor header = {data, HEADER};
    dump->page_length = take(&header, 2);
    dump->page_count = take(&header, 2);
    size_t offset = take(&header, 4);
    if (offset < HEADER || offset > size)
        offset = HEADER;
    dump->settings_length = offset - HEADER;
    dump->image_length = size - offset;
    if (dump->settings_length > MOST_SETTINGS || dump->image_length > MOST_IMAGE)
        return 0;
    memcpy(dump->settings, data + HEADER, dump->settings_length);
    memcpy(dump->image, data + offset, dump->image_length);
    return 1;
}

size_t write_dump(const struct dump *dump, uint8_t *data, size_t most)
{
    size_t offset = HEADER + dump->settings_length;
    if (offset + dump->image_length > most)
        return 0;
    give(data, 2, dump->page_length);
    give(data + 2, 2, dump->page_count);
    give(data + 4, 4, (uint32_t)offset);
    memcpy(data + HEADER, dump->settings, dump->settings_length);
    memcpy(data + offset, dump->image, dump->image_length);
    return offset + dump->image_length;
}

/* The length of the owner table: so many bytes above or below what the pages need, and no more than there are. */
static size_t owners_length(uint32_t page_count, uint32_t more)
{
    size_t needed = RECORD * (size_t)page_count;
    size_t less = BYTES - more;
    size_t length = more < SHORTER ? needed + more : needed > less ? needed - less : 0;
    return length < MOST_OWNERS ? length : MOST_OWNERS;
}

void read_arguments(struct arguments *arguments, const struct dump *dump)
{
    struct cursor settings = {dump->settings, dump->settings_length};
    arguments->page_length = dump->page_length + (take(&settings, 1) == GREATER ? 65536 : 0);
    arguments->page_count = dump->page_count + (take(&settings, 1) == GREATER ? 65536 : 0);
    arguments->owners_length = owners_length(arguments->page_count, take(&settings, 1));
    arguments->position = take(&settings, 4);
    arguments->local = take(&settings, 4);
    size_t out_length = take(&settings, 2);
    arguments->out_length = out_length == 0 ? dump->image_length : out_length - 1;
    arguments->file_length = take(&settings, 2);
    arguments->path_length = take(&settings, 1);
    for (size_t place = 0; place < arguments->path_length; place++)
        arguments->path[place] = (uint8_t)take(&settings, 1);
    for (size_t place = 0; place < arguments->file_length; place++)
        arguments->file[place] = settings.left > 0 ? settings.bytes[place % settings.left] : 0;
}

/* Fills the settings with zeros as far as the path. */
static void fill_settings(struct dump *dump)
{
    size_t least = PATH_LENGTH_AT + 1;
    if (dump->settings_length < least) {
        memset(dump->settings + dump->settings_length, 0, least - dump->settings_length);
        dump->settings_length = least;
    }
}

void write_position(struct dump *dump, uint32_t position)
{
    fill_settings(dump);
    give(dump->settings + POSITION_AT, 4, position);
}

void write_path(struct dump *dump, const uint8_t *path, size_t length)
{
    fill_settings(dump);
    size_t start = PATH_LENGTH_AT + 1;
    size_t end = start + dump->settings[PATH_LENGTH_AT];
    size_t rest = end < dump->settings_length ? dump->settings_length - end : 0;
    if (length > MOST_PATH || start + length + rest > MOST_SETTINGS)
        return;
    memmove(dump->settings + start + length, dump->settings + end, rest);
    memcpy(dump->settings + start, path, length);
    dump->settings[PATH_LENGTH_AT] = (uint8_t)length;
    dump->settings_length = start + length + rest;
}
