/* What the parts of the fuzz target share: `calls.c` makes the calls, `mutate.c` makes new inputs of old ones, `dump.c` reads and writes inputs,
 * `blocks.c` tells libFuzzer what an input has met.
 *
 * An input is a dump as the program `list` reads it: page length (2 bytes), page count (2), offset of the image (4), low byte first, and the image,
 * which ends the dump. The bytes between header and image, which a dump may have of any kind, are the settings of the calls, in this order; those
 * that are missing are 0:
 *
 *   1 byte    255 for a page length that is 65,536 greater
 *   1         255 for a page count that is 65,536 greater
 *   1         0 to 239: so many bytes of the owner table above 4 * page_count; 240 to 255: 16 to 1 below it
 *   4         the position to list, and the page writes that careful calls are allowed
 *   4         what format takes for `local`
 *   2         bytes of the output: 0 for as many as the image has, else one more than there are
 *   2         bytes of the file to put
 *   1         bytes of the path, then the path
 *   the rest  the bytes of the file to put, again and again
 */
#ifndef FUZZ_H
#define FUZZ_H

#include <stddef.h>
#include <stdint.h>

#include "owfs.h"

enum {
    HEADER = 8,
    MOST_SETTINGS = 1024,
    MOST_IMAGE = 32768,
    MOST_PATH = 255,
    MOST_FILE = 65535,
    RECORD = 4, /* the bytes of a page's owner record */
    MOST_OWNERS = RECORD * 65535 + 256,
    ONE_BYTE_PAGES = 256, /* the most pages with page numbers of one byte */
    MOST_LOCAL_PAGES = 32 /* the most pages with a local bitmap */
};

/* An input in its parts. */
struct dump {
    uint32_t page_length, page_count; /* as in the header, 16 bits */
    size_t settings_length, image_length;
    uint8_t settings[MOST_SETTINGS];
    uint8_t image[MOST_IMAGE];
};

/* The arguments of the calls. */
struct arguments {
    uint32_t page_length, page_count;
    size_t owners_length;
    uint32_t position, local;
    size_t out_length, path_length, file_length;
    uint8_t path[MOST_PATH];
    uint8_t file[MOST_FILE];
};

/* dump.c: the parts of an input; 0 if it has no header or is too long. */
int read_dump(struct dump *dump, const uint8_t *data, size_t size);

/* dump.c: the parts written as an input; its size, 0 if it does not fit. */
size_t write_dump(const struct dump *dump, uint8_t *data, size_t most);

/* dump.c: the arguments by the header and the settings. */
void read_arguments(struct arguments *arguments, const struct dump *dump);

/* dump.c: another path in the settings, and another position. */
void write_path(struct dump *dump, const uint8_t *path, size_t length);
void write_position(struct dump *dump, uint32_t position);

/* What an input can meet, besides the library's blocks: the answers of the calls, each as its number times PAGES_TOLD and the page it tells, or the
 * last if that is greater; and what an accepted image has. */
enum kind { CHECKED, LISTED, READ, FORMATTED, PUT, DELETED, CAREFUL_PUT, CAREFUL_DELETED, MENDED, GATHERED, DIRECTORY_MADE, DIRECTORY_REMOVED, USED, FILES, DIRECTORIES, LEVEL, KINDS };
enum { PAGES_TOLD = 8 };

/* blocks.c: tells libFuzzer that an input has met a value of this kind. */
void meet(enum kind kind, uint32_t value);

/* blocks.c: sees to it that each block of the library's code is told when an input runs it first. The file has the blocks' addresses. */
void watch_blocks(const char *file);

/* blocks.c: an input's calls begin and end; blocks that are run between, to make the next input, are not told. */
void begin_input(void);
void end_input(void);

#endif
