/* The 1-Wire File Structure (Application Note 114) on a lent image of one memory button, and reports on count files.
 *
 * Link with libowfs.a (tools/build makes it). The archive holds x86-64 code; another processor needs a toolchain for it first.
 * A slice is a pointer and a length; with length 0 the pointer is not used. A slice that a call writes must not overlap another slice of that call.
 */
#ifndef OWFS_H
#define OWFS_H

#include <stddef.h>
#include <stdint.h>

/* The CRC-16 register (x^16 + x^15 + x^2 + 1, least significant bit first) after the bytes, started with `start`, not inverted.
 * A packet's check is this sum over length byte and data, started with the page number, inverted, stored low byte first.
 * Any bytes of any length are taken; nothing is written. Stack: under 128 bytes. */
uint16_t owfs_crc16(uint16_t start, const uint8_t *bytes, size_t length);

/* What a check answers: number 0, page 0 and the totals, or the number and page of the first fault with every other field 0. */
struct owfs_totals {
    uint32_t number;
    uint32_t page;
    uint32_t used;        /* pages in use */
    uint32_t files;       /* files and directories: root and bitmap file are not counted */
    uint32_t directories;
};

/* Checks an image of `page_count` pages of `page_length` bytes and fills the owner table. The image is not written.
 *
 * number  meaning                                                  page
 *      0  done                                                     0
 *      1  page length, page count, image length or owner table     0
 *      2  packet length or check                                   that page
 *      3  marker                                                   that page
 *      4  control field; local bitmap with more than 32 pages      that page
 *      5  in progress                                              0
 *      6  start page 0 or past the last page; pointer past it      page that holds the number
 *      7  page in two chains or twice in one                       that page
 *      8  page count, bitmap byte count, or entries not whole      page that holds the entries; 0 for the bitmap file
 *      9  name                                                     page of the entry
 *     10  extension 100 to 126, or a stamp without its entry       page of the entry or the stamp
 *     11  name and extension twice                                 page of the later entry
 *     12  nested too deep                                          page of the entry
 *     13  bitmap disagrees                                         lowest differing bit
 *
 * Extended entries (first byte above 127) are stamps of the entry after them in their page: they are accepted, and nothing lists or counts them.
 *
 * `owners` are bytes, a record of four for each page; at least 4 * page_count of them are needed (1). A record is the page's owner, two bytes, low byte
 * first, then its place in the owner's chain, two bytes, low byte first. Afterwards the owner is 0 if the page is free, 1 in the root, 2 in the bitmap
 * file, 3 + k in the entry at walk position k; the place is 0 for the first page of the chain, 1 for the second, and so on, and 0 for a free page. A
 * page of a subdirectory has the owner of the subdirectory's entry and its place in the subdirectory's own chain. All records are 0 after the faults
 * 2 to 13: they then say nothing of any page. After 1 no byte is changed; bytes past the first 4 * page_count never change. Any arguments are taken.
 * Image and owners must not overlap.
 * Stack: less than 16 KiB, for every page count, however many entries a directory has. */
struct owfs_totals owfs_check(uint32_t page_length, uint32_t page_count, const uint8_t *image, size_t image_length, uint8_t *owners, size_t owners_length);

/* What a listing answers: number 0, page 0 and what a line of `list` shows, or a refusal's number and page with every other field 0, also the name. */
struct owfs_entry {
    uint32_t number;
    uint32_t page;
    uint32_t level;       /* of the directory that holds the entry, 0 for the root */
    uint32_t name;        /* its four bytes as stored, blanks too, the first byte lowest */
    uint32_t extension;   /* the extension number: 0 to 99 a file, 127 a directory */
    uint32_t attribute;   /* 1 for a read-only file or a hidden directory, else 0 */
    uint32_t start;       /* start page */
    uint32_t pages;       /* pages as in the entry, 0 for a directory */
    uint32_t length;      /* bytes of a file, 0 for a directory */
};

/* Checks an image as owfs_check does, then tells the entry at `position` in walk order. The image is not written.
 * Walk order: a directory's entries in chain order, and right after a subdirectory's entry all entries below it. The root's first entry that is no stamp
 * has position 0; stamps have no position.
 *
 * number  meaning                                                  page
 *      0  done                                                     0
 *   1-13  the check's faults, as for owfs_check                    as there
 *     15  position at or past the end                              0
 *
 * `owners` are left as owfs_check leaves them, after 15 too: at least 4 * page_count bytes are needed (1); all records are 0 after the faults
 * 2 to 13; after 1 no byte is changed; bytes past the first 4 * page_count never change. Any arguments are taken; a position of any size past the
 * end is 15. Image and owners must not overlap.
 * Stack: less than 16 KiB, for every page count, however many entries a directory has. */
struct owfs_entry owfs_list(uint32_t page_length, uint32_t page_count, const uint8_t *image, size_t image_length, uint8_t *owners, size_t owners_length,
                            uint32_t position);

/* What a read answers: number 0, page 0 and the file's length in bytes, or a refusal's number and page with length 0. */
struct owfs_length {
    uint32_t number;
    uint32_t page;
    uint32_t length;
};

/* Checks an image as owfs_check does, then copies a file to the front of `out` and tells its length. Image and path are not written.
 * A path is none to eight directory names of four bytes each, the highest directory first, then the file's name of four bytes and one byte 0 to 99,
 * its extension number. Names are as stored, filled with blanks. Read-only files and files below hidden directories are read like others.
 *
 * number  meaning, in the order in which it is judged              page
 *      0  done                                                     0
 *   1-13  the check's faults, as for owfs_check                    as there
 *     14  path malformed: its length, a name or its last byte      0
 *     15  directory or file absent                                 0
 *     18  output shorter than the file                             0
 *
 * After 0 the first `length` bytes of `out` are the file's and the rest of it is as before; a refusal changes no byte of it. An output of just the
 * file's length is enough.
 * `owners` are left as owfs_check leaves them, after 14, 15 and 18 too: at least 4 * page_count bytes are needed (1); all records are 0 after the
 * faults 2 to 13; after 1 no byte is changed; bytes past the first 4 * page_count never change. Any arguments are taken. Output and owners must
 * not overlap each other, the image or the path.
 * Stack: less than 16 KiB, for every page count, however many entries a directory has. */
struct owfs_length owfs_read(uint32_t page_length, uint32_t page_count, const uint8_t *image, size_t image_length, const uint8_t *path, size_t path_length,
                             uint8_t *out, size_t out_length, uint8_t *owners, size_t owners_length);

/* What an edit answers: number 0 and page 0, or a refusal's number and page. */
struct owfs_answer {
    uint32_t number;
    uint32_t page;
};

/* Formats an image: page 0 is made an empty root and, if `local` is 0, a bitmap file is laid from page 1 upward, all its packets full but the last.
 * With any other `local` the bitmap stands in page 0, which only an image of at most 32 pages may have; more pages need a bitmap file. The image
 * may hold any bytes before.
 *
 * number  meaning, in the order in which it is judged              page
 *      0  done                                                     0
 *      1  page length, page count, image length or owner table     0
 *      4  local bitmap with more than 32 pages                     0
 *
 * In a page written only the bytes of its packet change; every other byte of the image stays. A refusal changes no byte of the image.
 * `owners` are a record of four bytes for each page, as for owfs_check; at least 4 * page_count bytes are needed (1). After 0 they tell of the new image:
 * page 0 has owner 1, the bitmap file's pages have owner 2 and the places 0, 1, 2 and so on, every other page is free. After 4 they tell of the image as
 * it stands, as owfs_check leaves them: its records if it is accepted, all 0 if not. After 1 no byte is changed; bytes past the first 4 * page_count
 * never change. Any arguments are taken. Image and owners must not overlap.
 * Stack: less than 16 KiB, for every page count, however many entries a directory has. */
struct owfs_answer owfs_format(uint32_t page_length, uint32_t page_count, uint8_t *image, size_t image_length, uint8_t *owners, size_t owners_length,
                               uint32_t local);

/* Checks an image as owfs_check does, then puts `bytes` as the file at a path: it makes the file or replaces it, not read-only. The path is as for
 * owfs_read. Path and bytes are not written. No file is put below a hidden directory, at any depth (22).
 *
 * number  meaning, in the order in which it is judged              page
 *      0  done                                                     0
 *   1-13  the check's faults, as for owfs_check                    as there
 *     14  path malformed: its length, a name or its last byte      0
 *     15  directory absent                                         0
 *     22  a directory on the path is hidden                        0
 *     16  file is read-only                                        0
 *     17  no room                                                  0
 *
 * A replaced file's entry stays in place with its stamps, and its old pages count as free. A new entry goes to the end of the first page of its
 * directory with space, in chain order, where stamps take space as entries do; if there is none, the lowest free page joins the directory's end. The
 * file then takes the lowest free pages, rising, all packets full but the last; an empty file takes one page. 17 is answered only if no image that
 * keeps every other entry with its stamps, every other file and page could hold the file, and no such image has fewer pages in use than the one that
 * is left after 0.
 * Only the packets of the file's new pages, of one page of the directory, of a page that joins it and of the bitmap change; a bitmap file keeps its
 * packets' lengths. In a page written only the bytes of its new packet change; every other byte of the image stays, those of old pages too that the
 * file has no longer. A refusal changes no byte of the image.
 * `owners` are left as owfs_check leaves them: after 0 they tell of the new image, after 14 to 17 and 22 of the image as it stands; at least
 * 4 * page_count bytes are needed (1); all records are 0 after the faults 2 to 13; after 1 no byte is changed; bytes past the first 4 * page_count
 * never change. Any arguments are taken. Image and owners must not overlap each other, the path or the bytes.
 * Stack: less than 16 KiB, for every page count, however many entries a directory has. */
struct owfs_answer owfs_put(uint32_t page_length, uint32_t page_count, uint8_t *image, size_t image_length, const uint8_t *path, size_t path_length,
                            const uint8_t *bytes, size_t bytes_length, uint8_t *owners, size_t owners_length);

/* Checks an image as owfs_check does, then deletes a file: its entry is removed with its stamps, later ones of the same directory page move up,
 * and its pages are free in the bitmap. The path is as for owfs_read and is not written. No file is deleted below a hidden directory (22).
 *
 * number  meaning, in the order in which it is judged              page
 *      0  done                                                     0
 *   1-13  the check's faults, as for owfs_check                    as there
 *     14  path malformed: its length, a name or its last byte      0
 *     15  directory or file absent                                 0
 *     22  a directory on the path is hidden                        0
 *     16  file is read-only                                        0
 *
 * Only the packets of the entry's page and of the bitmap change: the directory keeps its pages, also one that is left without entries, and a bitmap
 * file keeps its packets' lengths. In a page written only the bytes of its new packet change; every other byte of the image stays, those of the
 * file's pages too. A refusal changes no byte of the image.
 * `owners` are left as owfs_check leaves them: after 0 they tell of the new image, after 14, 15, 16 and 22 of the image as it stands; at least
 * 4 * page_count bytes are needed (1); all records are 0 after the faults 2 to 13; after 1 no byte is changed; bytes past the first 4 * page_count
 * never change. Any arguments are taken. Image and owners must not overlap each other or the path.
 * Stack: less than 16 KiB, for every page count, however many entries a directory has. */
struct owfs_answer owfs_delete(uint32_t page_length, uint32_t page_count, uint8_t *image, size_t image_length, const uint8_t *path, size_t path_length,
                               uint8_t *owners, size_t owners_length);

/* Checks an image as owfs_check does, then makes a directory at a path: without entries, not hidden. The path is one to eight names of four bytes each,
 * the highest directory first and the new one's name last, as stored, filled with blanks; no extension number follows. The root has no path (14).
 * The path is not written. No directory is made below a hidden one, at any depth (22); the last name may be that of a file, and a directory of that
 * name, hidden or not, is 21.
 *
 * number  meaning, in the order in which it is judged              page
 *      0  done                                                     0
 *   1-13  the check's faults, as for owfs_check                    as there
 *     14  path malformed: its length or a name                     0
 *     15  directory before the last name absent                    0
 *     22  a directory before the last name is hidden               0
 *     21  a directory of that name is already there                0
 *     17  no room                                                  0
 *
 * The new entry goes to the end of the first page with space, in chain order, of the directory that holds it, where stamps take space as entries do;
 * if there is none, the lowest free page joins that directory's end. The new directory then takes the lowest free page, which holds its marker and its
 * reference back to the directory that holds it. 17 is answered only if no image that keeps every entry with its stamps, every file and page could hold
 * the new directory, and no such image has fewer pages in use than the one that is left after 0.
 * Only the packets of the new page, of one page of the directory that holds the entry, of a page that joins it and of the bitmap change; a bitmap file
 * keeps its packets' lengths. In a page written only the bytes of its new packet change; every other byte of the image stays. A refusal changes no
 * byte of the image.
 * `owners` are left as owfs_check leaves them: after 0 they tell of the new image, after 14, 15, 17, 21 and 22 of the image as it stands; at least
 * 4 * page_count bytes are needed (1); all records are 0 after the faults 2 to 13; after 1 no byte is changed; bytes past the first 4 * page_count
 * never change. Any arguments are taken. Image and owners must not overlap each other or the path.
 * Stack: less than 16 KiB, for every page count, however many entries a directory has. */
struct owfs_answer owfs_make_directory(uint32_t page_length, uint32_t page_count, uint8_t *image, size_t image_length, const uint8_t *path,
                                       size_t path_length, uint8_t *owners, size_t owners_length);

/* Checks an image as owfs_check does, then removes a directory that has no entries on any of its pages: its entry is removed with its stamps, later
 * ones of the same directory page move up, and all its pages are free in the bitmap. The path is as for owfs_make_directory and is not written. No
 * hidden directory is removed, and none below a hidden one (22).
 *
 * number  meaning, in the order in which it is judged              page
 *      0  done                                                     0
 *   1-13  the check's faults, as for owfs_check                    as there
 *     14  path malformed: its length or a name                     0
 *     15  a directory of the path absent                           0
 *     22  a directory of the path, the last too, is hidden         0
 *     20  the directory has entries                                0
 *
 * Only the packets of the entry's page and of the bitmap change: the directory that held the entry keeps its pages, also one that is left without
 * entries, and a bitmap file keeps its packets' lengths. In a page written only the bytes of its new packet change; every other byte of the image
 * stays, those of the removed directory's pages too. A refusal changes no byte of the image.
 * `owners` are left as owfs_check leaves them: after 0 they tell of the new image, after 14, 15, 20 and 22 of the image as it stands; at least
 * 4 * page_count bytes are needed (1); all records are 0 after the faults 2 to 13; after 1 no byte is changed; bytes past the first 4 * page_count
 * never change. Any arguments are taken. Image and owners must not overlap each other or the path.
 * Stack: less than 16 KiB, for every page count, however many entries a directory has. */
struct owfs_answer owfs_remove_directory(uint32_t page_length, uint32_t page_count, uint8_t *image, size_t image_length, const uint8_t *path,
                                         size_t path_length, uint8_t *owners, size_t owners_length);

/* What a careful put or delete answers: number 0, page 0, the page writes made and whether any are left, or a refusal's number and page with both 0. */
struct owfs_writes {
    uint32_t number;
    uint32_t page;
    uint32_t made;        /* page writes made, at most `allowed` */
    uint32_t left;        /* 1 if writes are left, else 0 */
};

/* Checks an image as owfs_check does, then puts a file as owfs_put does, but so that a button can be written in the same order, page by page, and be
 * pulled off its probe between any two page writes. At most `allowed` page writes are made, the first of this order:
 *
 *   1. the bitmap's pages that mark the new pages, in chain order; with a local bitmap page 0
 *   2. the file's pages, rising
 *   3. a page that joins the directory, with the new entry in it
 *   4. the one directory page that makes the change visible
 *   5. the bitmap's pages that release a replaced file's pages, as in 1
 *
 * A page whose packet would not change is not written and does not count. With `allowed` at least the number of writes, as 0xFFFFFFFF always is, the
 * put is done whole and `left` is 0; with 0 nothing is written.
 *
 * number  meaning, in the order in which it is judged              page
 *      0  done, as far as the writes allowed go                    0
 *   1-13  the check's faults, as for owfs_check                    as there
 *     14  path malformed: its length, a name or its last byte      0
 *     15  directory absent                                         0
 *     22  a directory on the path is hidden                        0
 *     16  file is read-only                                        0
 *     17  no room besides the replaced file's pages                0
 *
 * Path and entry are as for owfs_put. The file takes the lowest free pages, and none of the pages of a file that it replaces: these are free only
 * when nothing is left. While writes are left, owfs_check answers 0, or 13 because pages are marked that no chain has; then owfs_mend clears these
 * marks. Afterwards every other file reads as before, and the path's as before until the write of 4 is made, and as the new one from it on. When
 * nothing is left the image is accepted. An image with writes left that is refused with 13 is refused by a careful put too: mend it first.
 * In a page written only the bytes of its new packet change; every other byte of the image stays. A refusal changes no byte of the image.
 * `owners` are left as owfs_check leaves them for the image as it then stands, also after 0: all records are 0 where a check would answer 13, and
 * after the faults 2 to 13; at least 4 * page_count bytes are needed (1); after 1 no byte is changed; bytes past the first 4 * page_count never
 * change. Any arguments are taken. Image and owners must not overlap each other, the path or the bytes.
 * Stack: less than 16 KiB, for every page count, however many entries a directory has. */
struct owfs_writes owfs_careful_put(uint32_t page_length, uint32_t page_count, uint8_t *image, size_t image_length, const uint8_t *path,
                                    size_t path_length, const uint8_t *bytes, size_t bytes_length, uint8_t *owners, size_t owners_length,
                                    uint32_t allowed);

/* Checks an image as owfs_check does, then deletes a file as owfs_delete does, but in an order as owfs_careful_put has it, by at most `allowed` page
 * writes: the directory page without the entry and its stamps, which makes the change visible, then the bitmap's pages that release the file's pages,
 * in chain order; with a local bitmap page 0.
 *
 * number  meaning, in the order in which it is judged              page
 *      0  done, as far as the writes allowed go                    0
 *   1-13  the check's faults, as for owfs_check                    as there
 *     14  path malformed: its length, a name or its last byte      0
 *     15  directory or file absent                                 0
 *     22  a directory on the path is hidden                        0
 *     16  file is read-only                                        0
 *
 * While writes are left, owfs_check answers 0, or 13 because pages are marked that no chain has; then owfs_mend clears these marks. Afterwards every
 * other file reads as before, and the path's as before until the first write is made, and is absent from it on. When nothing is left the image is
 * accepted. In a page written only the bytes of its new packet change; every other byte of the image stays, those of the file's pages too. A refusal
 * changes no byte of the image. `owners` are left as by owfs_careful_put. Any arguments are taken. Image and owners must not overlap each other or
 * the path.
 * Stack: less than 16 KiB, for every page count, however many entries a directory has. */
struct owfs_writes owfs_careful_delete(uint32_t page_length, uint32_t page_count, uint8_t *image, size_t image_length, const uint8_t *path,
                                       size_t path_length, uint8_t *owners, size_t owners_length, uint32_t allowed);

/* What a mend answers: number 0, page 0 and the marks cleared, or a refusal's number and page with 0 marks. */
struct owfs_mended {
    uint32_t number;
    uint32_t page;
    uint32_t cleared;
};

/* Checks an image as owfs_check does, but for the bitmap, then clears the bitmap's marks of pages that no chain has, as a careful put or delete
 * that was stopped leaves them, and tells their number. An image that is accepted stays as it is, with 0 marks cleared.
 *
 * number  meaning, in the order in which it is judged              page
 *      0  done: the image is accepted now                          0
 *   1-12  the check's faults, as for owfs_check                    as there
 *     13  a page in use is unmarked, or a bit past the last page   lowest differing bit, as for owfs_check
 *         is set: nothing is cleared
 *
 * Only the packets of the bitmap change, in page 0 or in the bitmap file, which keeps its packets' lengths; every other byte of the image stays. A
 * refusal changes no byte of the image. `owners` are left as owfs_check leaves them: after 0 they tell of the mended image; at least 4 * page_count
 * bytes are needed (1); all records are 0 after the faults 2 to 13; after 1 no byte is changed; bytes past the first 4 * page_count never change.
 * Any arguments are taken. Image and owners must not overlap.
 * Stack: less than 16 KiB, for every page count, however many entries a directory has. */
struct owfs_mended owfs_mend(uint32_t page_length, uint32_t page_count, uint8_t *image, size_t image_length, uint8_t *owners, size_t owners_length);

/* Checks an image as owfs_check does, then builds a gathered copy of it in `copy`: the same tree, that is names, entry order, stamps, attributes and
 * file bytes, with the same kind of bitmap, on as few pages as any image can have it on. The image is not written.
 *
 * number  meaning, in the order in which it is judged              page
 *      0  done: the copy is accepted                               0
 *      1  the copy has another length than the image               0
 *   1-13  the check's faults of the image, as for owfs_check       as there
 *
 * In the copy each directory page is filled as far as the next entry fits with its stamps, which stay in one page with it; all other packets are full
 * but the last of each chain. From page 1 up come the bitmap file, the root's further pages, then each entry's chain in walk order, every chain on
 * pages that follow each other. Every byte of the copy that no packet has is FF, free pages wholly; what it held before does not matter. A refusal
 * changes no byte of it.
 * Writing a copy to a button rewrites nearly all of it and is not safe against a pull: in between the button has parts of both images, files may be
 * lost, and owfs_check may still accept it. Keep image and copy until every page of the button reads back equal to the copy.
 * `owners` are left as owfs_check leaves them: after 0 they tell of the copy, after the faults 2 to 13 all records are 0; at least 4 * page_count
 * bytes are needed (1); after 1 no byte is changed; bytes past the first 4 * page_count never change. Any arguments are taken. Copy and owners must
 * not overlap each other or the image.
 * Stack: less than 16 KiB, for every page count, however many entries a directory has. */
struct owfs_answer owfs_gather(uint32_t page_length, uint32_t page_count, const uint8_t *image, size_t image_length, uint8_t *copy, size_t copy_length,
                               uint8_t *owners, size_t owners_length);

/* A report on count files: what has been totalled so far. owfs_report_start or owfs_report_start_weighted makes one, owfs_report_add tells the next;
 * nothing else should change a field. It holds no pointer, and a copy of it is a report of its own. */
struct owfs_report {
    uint64_t cycles;        /* the cycles of all rows of the files counted */
    uint64_t near;          /* near misses: the cycles of all rows whose doubled peak is below the limit by no more than the margin */
    uint64_t weight;        /* the sum over all rows of cycles times weight, in version 2 times K squared; 0 in a report without weight */
    int32_t limit;
    int32_t greatest;       /* the greatest doubled peak of a row, 0 while there is none */
    uint32_t has_greatest;  /* 1 if there is a greatest doubled peak, else 0 */
    uint32_t margin;        /* 0 to 65,535 */
    uint32_t version;       /* 0 in a report without weight, else 1 or 2; 0xFFFFFFFF if another was asked for */
    uint32_t knee;          /* K, which only version 2 looks at; 0 in a report without weight */
    uint32_t files;         /* the files counted, at most 4,096 */
};

/* Starts a report without weight: empty, with its limit and margin. Any limit and margin are taken, and nothing is refused. All other fields are 0, so
 * there is no greatest doubled peak.
 * Stack: under 512 bytes. */
struct owfs_report owfs_report_start(int32_t limit, uint16_t margin);

/* Starts a report with a weight: empty, with its limit, its margin, its version and its K. Any numbers are taken, and nothing is refused.
 *
 * version  what a cycle of a row weighs
 *       1  the cube of the range; the K that is given is kept and not looked at
 *       2  the cube of the range at and above K, below it the fifth power divided by K squared; the sum is carried times K squared, so that it is
 *          whole: a cycle adds the cube times K squared, or the fifth power; K is 1 to 1,000
 *   other  a version that no report has: it is kept as 0xFFFFFFFF with K 0
 *
 * With another version than 1 and 2, 0 among them, and with a K of version 2 out of its limits, owfs_report_add answers 25 for every well-formed file.
 * Stack: under 512 bytes. */
struct owfs_report owfs_report_start_weighted(int32_t limit, uint16_t margin, uint32_t version, uint32_t knee);

/* What adding a file answers: number 0, page 0 and the new report, or a refusal's number and page 0 with the report as it was given. */
struct owfs_added {
    uint32_t number;
    uint32_t page;
    struct owfs_report report;
};

/* Adds a count file to a report. The file is not written.
 * A count file is a header of two numbers of 16 bits, row count and offset of the first row, then rows of eight bytes: mean stress (signed 16 bits),
 * range (unsigned 16), cycles (unsigned 32), low byte first. The offset is at least 4 and, plus eight for each row, is the file's length. Bytes
 * between the header and the offset may be any. The doubled peak of a row is twice its mean plus its range.
 *
 * number  meaning, in the order in which it is judged              page
 *      0  done                                                     0
 *     24  count file malformed, or the report has 4,096 files      0
 *     25  only for a report with a weight: a range above 1,000,    0
 *         version neither 1 nor 2, version 2's K not 1 to 1,000,
 *         or the weighted sum past 64 bits
 *
 * After 0 `files` is one more, `cycles` has grown by the cycles of all rows, `near` by the cycles of the rows whose doubled peak is below the limit by
 * no more than the margin, which are none at the limit and none with a margin of 0, and `greatest` is the greatest doubled peak of all rows so far,
 * rows of 0 cycles too; while no file had a row, `has_greatest` is 0. In a report with a weight, `weight` has grown by the cycles times weight of all
 * rows. A refusal adds nothing: the report is as if the file had not been given. For up to 4,096 well-formed files, of which none gets 25, their order
 * changes no field; it may decide which file would bring the weighted sum past 64 bits.
 * A range above 1,000 is 25 in a row of 0 cycles too, and so are a version other than 1 and 2 and a version 2 K that is not 1 to 1,000, for a file without rows too.
 * `cycles` and `near` do not pass 64 bits in a report that only these calls have changed. Any other is taken too: 24 if `cycles` or `near` would pass
 * 64 bits or `files` is above 4,096; any `has_greatest` but 0 means that there is a greatest, and after 0 it is 0 or 1; `greatest` beside a 0 says
 * nothing; a margin above 65,535 is taken as it is; beside version 0 `knee` is 0 after 0 and `weight` stays. Any arguments are taken.
 * Stack: under 512 bytes, however many rows the file has. */
struct owfs_added owfs_report_add(struct owfs_report report, const uint8_t *file, size_t length);

#endif
