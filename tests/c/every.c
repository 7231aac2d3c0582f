/* Calls every function of the header once, on a thread whose stack is painted, and prints the deepest that was used. */
#include "stumpchoir.h"

#include <pthread.h>
#include <stdio.h>
#include <stdlib.h>
#include <string.h>

enum { STACK = 1 << 20, PAINT = 0xA5, SIZE = 65536, COUNT = 4 };

static uint8_t image[SIZE * COUNT];
static uint8_t bytes[SIZE];
static struct stumpchoir_geometry g;
static unsigned called;

#define CALL(NAME, ...) (called++, stumpchoir_##NAME(&g, ##__VA_ARGS__))
#define IMAGE image, sizeof image
#define POWER image, sizeof image, false, NULL

static void objects(void)
{
    struct stumpchoir_header h = {0, 0, 0, 0, 0}, copy = h;
    struct stumpchoir_reader reader;
    struct stumpchoir_writer writer;
    struct stumpchoir_metadata metadata;
    struct stumpchoir_location location;
    struct stumpchoir_iterator at;
    const uint32_t records[8] = {STUMPCHOIR_TYPE_FILE_NAME, 16, 0, 9, STUMPCHOIR_TYPE_FILE_DATA, 4096, 9, 1000};
    uint8_t six[6];
    uint32_t found, done;
    uint64_t n;
    CALL(iterator_new, 0, &at);
    CALL(write_to, POWER, 0, at.offset, STUMPCHOIR_TYPE_FILE_METADATA, bytes, 4096, &n);
    CALL(header_read, IMAGE, 0, at.offset, &h);
    CALL(copy_object, POWER, &h, 1, at.offset, &copy);
    CALL(move_object, POWER, &h, 2, at.offset, &copy);
    CALL(info_read, IMAGE, 2, at.offset, &found, &h);
    CALL(info_total_size, &h, &n);
    CALL(info_read_metadata, IMAGE, &h, &metadata);
    CALL(location_read_metadata, IMAGE, 2, at.offset, &metadata);
    CALL(metadata_next_object_location, IMAGE, &metadata, &found, &location);
    CALL(metadata_reset, &metadata);
    CALL(location_into_bytes, 1, 2, six, &n);
    CALL(location_from_bytes, six, (size_t)n, &location);
    CALL(reader_new, IMAGE, 2, at.offset, false, &reader);
    CALL(reader_len, &reader, &n);
    CALL(reader_remaining, &reader, &n);
    CALL(reader_read, IMAGE, &reader, bytes, 100, &n);
    CALL(reader_rewind, &reader);
    CALL(iterator_next, IMAGE, &at, &found, &h);
    CALL(writer_allocate, POWER, 2, 32768, STUMPCHOIR_TYPE_FILE_DATA, &writer);
    CALL(writer_space, &writer, &n);
    CALL(writer_write, POWER, &writer, bytes, 1001);
    CALL(writer_payload_size, &writer, &n);
    CALL(writer_total_size, &writer, &n);
    CALL(writer_finalize, POWER, &writer);
    CALL(writer_delete, POWER, &writer);
    CALL(writer_allocate, POWER, 2, 49152, STUMPCHOIR_TYPE_FILE_DATA, &writer);
    CALL(set_payload_size, POWER, &writer.header, 5);
    CALL(update_state, POWER, &writer.header, STUMPCHOIR_STATE_FINALIZED);
    CALL(write_all, POWER, 3, records, 8, bytes, sizeof bytes, &done);
    CALL(info_finalize, POWER, &copy);
    CALL(info_delete, POWER, &copy);
    called--; /* writer_allocate twice */
}

static void blocks(void)
{
    struct stumpchoir_block_header header;
    struct stumpchoir_record record, table[COUNT];
    uint32_t empty, i;
    uint64_t n;
    for (i = 0; i < COUNT; i++)
        stumpchoir_scan_block(&g, IMAGE, i, &table[i]);
    CALL(scan_block, IMAGE, 2, &record);
    CALL(calculate_freeable_space, IMAGE, 2, &n);
    CALL(block_header_read, IMAGE, 2, &header);
    CALL(is_block_data_empty, IMAGE, 2, &empty);
    CALL(record_free_space, &record, &n);
    CALL(record_is_empty, &record, &empty);
    CALL(record_add_used_bytes, &record, 5);
    CALL(record_update_stats_after_erase, &record);
    CALL(delete_invalid_objects, POWER, (uint32_t *)table, 4 * COUNT);
    CALL(erase_invalid_finished_blocks, POWER, (uint32_t *)table, 4 * COUNT);
    CALL(erase_full_finished_blocks, POWER, (uint32_t *)table, 4 * COUNT);
    CALL(run, POWER, (uint32_t *)table, 4 * COUNT);
    CALL(format_block, POWER, 0);
    CALL(block_header_write, POWER, 0, STUMPCHOIR_KIND_DATA, 7);
}

/* Block 1 anew, with a file: its name, and twice the same data, are in block 3. */
static void files(void)
{
    static const uint8_t path[] = "a path of two turns"; /* 20 bytes, with its 0 */
    static const uint8_t payload[13] = {7, 0, 0, 0, 3, 0, 64, 3, 0, 128, 3, 0, 128};
    struct stumpchoir_names names;
    struct stumpchoir_location location;
    uint32_t found;
    uint64_t n;
    uint8_t refused = CALL(names_new, &names);
    stumpchoir_format_block(&g, POWER, 1);
    stumpchoir_set_block_type(&g, POWER, 1, STUMPCHOIR_KIND_METADATA);
    stumpchoir_write_to(&g, POWER, 3, 16384, STUMPCHOIR_TYPE_FILE_NAME, path, sizeof path, &n);
    stumpchoir_write_to(&g, POWER, 3, 32768, STUMPCHOIR_TYPE_FILE_DATA, bytes, 1000, &n);
    stumpchoir_write_to(&g, POWER, 1, names.offset, STUMPCHOIR_TYPE_FILE_METADATA, payload, sizeof payload, &n);
    refused |= CALL(lookup, IMAGE, path, sizeof path, 7, &location);
    refused |= CALL(file_size, IMAGE, location.block, location.offset, &n);
    refused |= CALL(file_read, IMAGE, location.block, location.offset, 500, bytes, sizeof bytes, &n);
    refused |= CALL(names_next, IMAGE, &names, bytes, sizeof bytes, &found, &location, &n);
    if (refused || n != sizeof path) {
        fprintf(stderr, "a file is not found, not read or not listed\n");
        exit(1);
    }
}

static uint8_t before[sizeof image], swept[sizeof image];
static uint32_t words[sizeof image];

/* A new store: a name in block 3 and its metadata in block 1, each twice, of which both refer to the first name. Under the strict mark it is not
 * swept. */
static void left_over(void)
{
    static const uint8_t name[4] = {'n', 'a', 'm', 'e'};
    uint8_t payload[7] = {7, 0, 0, 0, 3, 0, 0};
    struct stumpchoir_iterator named, file;
    const uint8_t answer = g.strict ? STUMPCHOIR_DANGLING : STUMPCHOIR_DONE;
    const uint32_t one = !g.strict;
    uint32_t i, twins = 0, unreferred = 0;
    uint64_t n;
    stumpchoir_format_storage(&g, POWER);
    stumpchoir_set_block_type(&g, POWER, 1, STUMPCHOIR_KIND_METADATA);
    stumpchoir_set_block_type(&g, POWER, 3, STUMPCHOIR_KIND_DATA);
    stumpchoir_iterator_new(&g, 3, &named);
    stumpchoir_iterator_new(&g, 1, &file);
    payload[5] = (uint8_t)named.offset;
    for (i = 0; i < 2; i++) {
        stumpchoir_write_to(&g, POWER, 3, named.offset, STUMPCHOIR_TYPE_FILE_NAME, name, sizeof name, &n);
        stumpchoir_align(&g, (uint32_t)n, &n);
        named.offset += (uint32_t)n;
        stumpchoir_write_to(&g, POWER, 1, file.offset, STUMPCHOIR_TYPE_FILE_METADATA, payload, sizeof payload, &n);
        stumpchoir_align(&g, (uint32_t)n, &n);
        file.offset += (uint32_t)n;
    }
    memcpy(before, image, sizeof image);
    if (CALL(sweep, POWER, &twins, &unreferred) != answer || twins != one || unreferred != one) {
        fprintf(stderr, "what is left over is not swept\n");
        exit(1);
    }
    memcpy(swept, image, sizeof image);
    memcpy(image, before, sizeof image);
    if (CALL(sweep_with, POWER, &twins, &unreferred, words, sizeof image) != answer || twins != one || unreferred != one
        || memcmp(image, swept, sizeof image)) {
        fprintf(stderr, "with words it is swept otherwise\n");
        exit(1);
    }
}

static void *every(void *none)
{
    uint64_t n;
    uint32_t i;
    memset(image, 0xFF, sizeof image);
    CALL(check, IMAGE);
    CALL(align, 5, &n);
    CALL(format_storage, POWER);
    CALL(set_block_type, POWER, 0, STUMPCHOIR_KIND_METADATA);
    for (i = 1; i < COUNT; i++)
        stumpchoir_set_block_type(&g, POWER, i, STUMPCHOIR_KIND_DATA);
    CALL(read, IMAGE, 0, 0, bytes, sizeof bytes);
    objects();
    blocks();
    files();
    left_over();
    CALL(erase, POWER, 3);
    CALL(write, POWER, 3, 0, bytes, 100);
    return none;
}

int main(void)
{
    static const uint32_t kinds[5][2] = {{STUMPCHOIR_BIT, 0}, {STUMPCHOIR_WORD1, 0}, {STUMPCHOIR_WORD4, 0}, {STUMPCHOIR_WORD1, 1}, {STUMPCHOIR_WORD4, 1}};
    size_t deepest = 0;
    int i;
    for (i = 0; i < 5; i++) {
        uint8_t *stack;
        size_t at = 0;
        pthread_attr_t attr;
        pthread_t thread;
        struct stumpchoir_geometry laid = {kinds[i][0], 2, 1, kinds[i][1], SIZE, COUNT};
        g = laid;
        called = 0;
        if (posix_memalign((void **)&stack, 4096, STACK) != 0)
            return 1;
        memset(stack, PAINT, STACK);
        pthread_attr_init(&attr);
        if (pthread_attr_setstack(&attr, stack, STACK) != 0 || pthread_create(&thread, &attr, every, NULL) != 0)
            return 1;
        pthread_join(thread, NULL);
        while (at < STACK && stack[at] == PAINT)
            at++;
        if (STACK - at > deepest)
            deepest = STACK - at;
        free(stack);
    }
    printf("%u functions, at most %lu bytes of stack\n", called, (unsigned long)deepest);
    return 0;
}
