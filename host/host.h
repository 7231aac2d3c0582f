/* The host program, `PROGRAM VERB WORDS..`: what is on a chip's flash, for people with a file system and memory.
 *
 * It calls the functions of include/stumpchoir.h and those of libc, and nothing else. A verb is a file of its own; what they share stands
 * here and in host.c: a dump that is read from its folder, its finished objects and names, equal things of a list, lines that no name can break,
 * and how a run ends. */
#ifndef HOST_H
#define HOST_H

#include "stumpchoir.h"

/* How a run ends: everything is said; a message on standard error; the input is refused, in whole or in part. */
enum ending { SAID = 0, FAILED = 1, REFUSED = 2 };

/* A sound geometry, and an image of the length that it says. */
struct dump {
    struct stumpchoir_geometry geometry;
    uint8_t *image;
    size_t len;
};

/* The files geometry.bin and image.bin of a folder: 0, or the answer that refuses them, 6 or 7; then there is no image. */
unsigned read_dump(const char *folder, struct dump *dump);

/* The next finished object of a block of a kind from an iterator on, and the iterator behind it; *found is false where there is none. Where a
 * listing is refused the iterator is at that place. */
unsigned next_finished(const struct dump *d, uint32_t kind, struct stumpchoir_iterator *at, bool *found, struct stumpchoir_header *header);

/* A size field says less than this, so in a buffer as long nothing is refused for its length. Pages that no bytes reach are never touched. */
enum { LONGEST = 1 << 24 };

/* The name of the street whose metadata object is at a place, into a buffer of LONGEST bytes. */
unsigned read_name(const struct dump *d, uint32_t block, uint32_t offset, uint8_t *bytes, uint64_t *len);

/* The things of a list, each by a number that equal ones share. */
struct keys {
    struct key {
        uint64_t number;
        size_t thing;
    } *keys;
    size_t count, room;
};

/* The next thing of the list, by its bytes. */
void add_key(struct keys *keys, const uint8_t *bytes, size_t len);

/* Hands each thing, with each before it that shares its number, to `found`, until that says that it has found what it looks for. */
void find_equal(struct keys *keys, bool (*found)(void *list, size_t earlier, size_t thing), void *list);

/* Prints bytes on one line: printable ASCII as it is, but for the backslash, which is \\, and any other byte as \x and two digits. */
void print_bytes(const uint8_t *bytes, size_t len);

/* More room for records of a size, or the end of the run. */
void *more_room(void *old, size_t count, size_t size);

/* The same, so that there is room behind count of them. */
void *room_behind(void *old, size_t count, size_t *room, size_t size);

/* Ends the run with FAILED: `what: why` on standard error. */
void fail(const char *what, const char *why);

/* Prints the line `refused N`. */
enum ending refuse(unsigned answer);

/* Has all lines written, or fails. */
void flush_lines(void);

/* The verbs, each with its words, and NULL behind the last. */
enum ending streets(char **words);
enum ending sweep(char **words);

#endif
