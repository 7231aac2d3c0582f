/* A small store: formatted, written, listed, moved, and written to in one call; and a chip that programs no unit twice. Compiled as C99 and
 * as C++ by tools/c-sample. */
#include "stumpchoir.h"

#include <stdio.h>
#include <stdlib.h>
#include <string.h>

static uint8_t image[4 * 256];
static const struct stumpchoir_geometry geometry = {STUMPCHOIR_BIT, 1, 1, 0, 256, 4};

static void expect(const char *what, uint32_t got, uint32_t wanted)
{
    if (got != wanted) {
        printf("%s: %lu, not %lu\n", what, (unsigned long)got, (unsigned long)wanted);
        exit(1);
    }
}

static void list(uint32_t block)
{
    struct stumpchoir_iterator at;
    struct stumpchoir_header header;
    uint32_t found;
    expect("iterator_new", stumpchoir_iterator_new(&geometry, block, &at), STUMPCHOIR_DONE);
    for (;;) {
        expect("iterator_next", stumpchoir_iterator_next(&geometry, image, sizeof image, &at, &found, &header), STUMPCHOIR_DONE);
        if (found != STUMPCHOIR_FOUND) {
            printf("block %lu: %s at %lu\n", (unsigned long)block, found == STUMPCHOIR_FOUND_END ? "end" : "free", (unsigned long)at.offset);
            return;
        }
        printf("block %lu: type %lX, state %lu, %lu bytes at %lu\n", (unsigned long)header.block, (unsigned long)header.type,
               (unsigned long)header.state, (unsigned long)header.size, (unsigned long)header.offset);
    }
}

/* Numbers that no geometry has are 6, also where their low byte would do; the strict mark goes with words only. */
static void geometries(void)
{
    struct stumpchoir_geometry g = geometry;
    g.granularity = 256;
    expect("granularity 256", stumpchoir_check(&g, image, sizeof image), STUMPCHOIR_BAD_GEOMETRY);
    g = geometry;
    g.strict = 1;
    expect("strict 1 with Bit", stumpchoir_check(&g, image, sizeof image), STUMPCHOIR_BAD_GEOMETRY);
    for (g.granularity = STUMPCHOIR_WORD1; g.granularity <= STUMPCHOIR_WORD4; g.granularity += STUMPCHOIR_WORD4 - STUMPCHOIR_WORD1) {
        g.strict = 1;
        expect("strict 1", stumpchoir_check(&g, image, sizeof image), STUMPCHOIR_DONE);
        g.strict = 2;
        expect("strict 2", stumpchoir_check(&g, image, sizeof image), STUMPCHOIR_BAD_GEOMETRY);
        g.strict = 257;
        expect("strict 257", stumpchoir_check(&g, image, sizeof image), STUMPCHOIR_BAD_GEOMETRY);
    }
}

/* Stores bytes at offset 40 of block 1 with power for some units: what it answers, how many are left, and the two words there then. */
static void store(const struct stumpchoir_geometry *g, const uint8_t *bytes, size_t len, uint32_t units, uint32_t answer, uint32_t left, const char *words)
{
    expect("store", stumpchoir_write(g, image, sizeof image, true, &units, 1, 40, bytes, len), answer);
    expect("units left", units, left);
    expect("the words differ", memcmp(image + 256 + 40, words, 8) != 0, 0);
}

/* A chip that programs no word twice; a word all FF counts as none. At the end the same without the mark. */
static void strict_chip(void)
{
    const uint8_t bytes[2] = {0x0F, 0x55}, more[5] = {0xFF, 0xFF, 0xFF, 0x00, 0x11}, type_word[2] = {0xFF, 0x00};
    struct stumpchoir_geometry chip = {STUMPCHOIR_WORD4, 1, 1, 1, 256, 4};
    uint64_t total = 9;
    memset(image, 0xFF, sizeof image);
    expect("strict format", stumpchoir_format_storage(&chip, image, sizeof image, false, NULL), STUMPCHOIR_DONE);
    expect("strict type", stumpchoir_set_block_type(&chip, image, sizeof image, false, NULL, 1, STUMPCHOIR_KIND_DATA), STUMPCHOIR_DONE);
    expect("a second type", stumpchoir_set_block_type(&chip, image, sizeof image, false, NULL, 1, STUMPCHOIR_KIND_METADATA), STUMPCHOIR_NOT_ERASED);
    expect("and none", stumpchoir_set_block_type(&chip, image, sizeof image, false, NULL, 1, STUMPCHOIR_KIND_UNDEFINED), STUMPCHOIR_DONE);

    store(&chip, bytes, 2, 1, STUMPCHOIR_DONE, 0, "\x0F\x55\xFF\xFF\xFF\xFF\xFF\xFF");
    store(&chip, bytes, 2, 1, STUMPCHOIR_NOT_ERASED, 1, "\x0F\x55\xFF\xFF\xFF\xFF\xFF\xFF");
    store(&chip, bytes, 2, 0, STUMPCHOIR_NOT_ERASED, 0, "\x0F\x55\xFF\xFF\xFF\xFF\xFF\xFF");
    store(&chip, more, 3, 1, STUMPCHOIR_DONE, 0, "\x0F\x55\xFF\xFF\xFF\xFF\xFF\xFF");
    store(&chip, more, 5, 2, STUMPCHOIR_NOT_ERASED, 2, "\x0F\x55\xFF\xFF\xFF\xFF\xFF\xFF");
    expect("the range first", stumpchoir_write(&chip, image, sizeof image, false, NULL, 1, 41, more, 4), STUMPCHOIR_IO);

    /* a free place whose type word is programmed */
    expect("type word", stumpchoir_write(&chip, image, sizeof image, false, NULL, 1, 60, type_word, 2), STUMPCHOIR_DONE);
    expect("write_to", stumpchoir_write_to(&chip, image, sizeof image, false, NULL, 1, 60, STUMPCHOIR_TYPE_FILE_DATA, bytes, 2, &total), STUMPCHOIR_NOT_ERASED);
    expect("no total size", (uint32_t)total, 9);
    expect("format_block", stumpchoir_format_block(&chip, image, sizeof image, false, NULL, 1), STUMPCHOIR_DONE);
    store(&chip, bytes, 2, 1, STUMPCHOIR_DONE, 0, "\x0F\x55\xFF\xFF\xFF\xFF\xFF\xFF");
    chip.strict = 0;
    store(&chip, more, 5, 2, STUMPCHOIR_DONE, 0, "\x0F\x55\xFF\x00\x11\xFF\xFF\xFF");
}

int main(void)
{
    const uint8_t payload[3] = {0x41, 0x42, 0x43};
    /* type, offset, and start and length in the payload: the third wants a byte more than there are */
    const uint32_t records[12] = {STUMPCHOIR_TYPE_FILE_NAME, 8, 0, 1, STUMPCHOIR_TYPE_FILE_DATA, 12, 1, 2, STUMPCHOIR_TYPE_FILE_DATA, 17, 1, 3};
    struct stumpchoir_header header, copy;
    struct stumpchoir_record table[4];
    uint64_t total = 0;
    uint32_t units = 6, done = 9, i;

    /* a new store: erased, formatted, and blocks 0 and 2 for data */
    memset(image, 0xFF, sizeof image);
    expect("format_storage", stumpchoir_format_storage(&geometry, image, sizeof image, false, NULL), STUMPCHOIR_DONE);
    for (i = 0; i < 4; i += 2)
        expect("set_block_type", stumpchoir_set_block_type(&geometry, image, sizeof image, false, NULL, i, STUMPCHOIR_KIND_DATA), STUMPCHOIR_DONE);

    /* the first object goes right behind the block's header */
    expect("write_to", stumpchoir_write_to(&geometry, image, sizeof image, false, NULL, 0, 8, STUMPCHOIR_TYPE_FILE_DATA, payload, 3, &total), STUMPCHOIR_DONE);
    expect("total size", (uint32_t)total, 6);
    list(0);

    /* moved with power for six units of seven: both are there; then the old one is deleted */
    expect("header_read", stumpchoir_header_read(&geometry, image, sizeof image, 0, 8, &header), STUMPCHOIR_DONE);
    expect("move_object", stumpchoir_move_object(&geometry, image, sizeof image, true, &units, &header, 2, 8, &copy), STUMPCHOIR_POWER_LOST);
    expect("units", units, 0);
    list(0);
    list(2);
    expect("info_delete", stumpchoir_info_delete(&geometry, image, sizeof image, false, NULL, &header), STUMPCHOIR_DONE);

    /* a collection, with the table that the blocks say */
    for (i = 0; i < 4; i++)
        expect("scan_block", stumpchoir_scan_block(&geometry, image, sizeof image, i, &table[i]), STUMPCHOIR_DONE);
    expect("run", stumpchoir_run(&geometry, image, sizeof image, false, NULL, (uint32_t *)table, 16), STUMPCHOIR_DONE);
    list(0);
    list(2);

    /* two objects in one call, and a third that is refused in its turn */
    expect("write_all", stumpchoir_write_all(&geometry, image, sizeof image, false, NULL, 0, records, 12, payload, 3, &done), STUMPCHOIR_BAD_ROOM);
    expect("records done", done, 2);
    list(0);

    /* an empty buffer may be null */
    expect("write of nothing", stumpchoir_write(&geometry, image, sizeof image, false, NULL, 1, 8, NULL, 0), STUMPCHOIR_DONE);
    expect("a batch of nothing", stumpchoir_write_all(&geometry, image, sizeof image, false, NULL, 9, NULL, 0, NULL, 0, &done), STUMPCHOIR_DONE);
    expect("read of nothing", stumpchoir_read(&geometry, image, sizeof image, 1, 8, NULL, 0), STUMPCHOIR_DONE);
    geometries();
    expect("a short image", stumpchoir_check(&geometry, image, sizeof image - 1), STUMPCHOIR_BAD_ROOM);
    strict_chip();
    return 0;
}
