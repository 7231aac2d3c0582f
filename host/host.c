#include "host.h"

#include <errno.h>
#include <stdio.h>
#include <stdlib.h>
#include <string.h>

enum { RECORD = 16, ZEROS = 12 };

void fail(const char *what, const char *why)
{
    fflush(stdout);
    fprintf(stderr, "%s: %s\n", what, why);
    exit(FAILED);
}

void *more_room(void *old, size_t count, size_t size)
{
    void *room = count > SIZE_MAX / size ? NULL : realloc(old, count * size);
    if (!room)
        fail("memory", strerror(ENOMEM));
    return room;
}

void *room_behind(void *old, size_t count, size_t *room, size_t size)
{
    if (count < *room)
        return old;
    *room = *room ? 2 * *room : 1024;
    return more_room(old, *room, size);
}

/* ---- a dump ---- */

/* Reads at most room bytes of a file of the folder. */
static size_t read_file(const char *folder, const char *name, uint8_t *bytes, size_t room)
{
    size_t len = strlen(folder), got;
    char *path = more_room(NULL, len + strlen(name) + 2, 1);
    FILE *file;
    sprintf(path, "%s%s%s", folder, len && folder[len - 1] != '/' ? "/" : "", name);
    file = fopen(path, "rb");
    if (!file)
        fail(path, strerror(errno));
    got = fread(bytes, 1, room, file);
    if (ferror(file))
        fail(path, strerror(errno));
    fclose(file);
    free(path);
    return got;
}

static uint32_t low_first(const uint8_t *bytes)
{
    return bytes[0] | (uint32_t)bytes[1] << 8 | (uint32_t)bytes[2] << 16 | (uint32_t)bytes[3] << 24;
}

/* Whether the bytes are a record, as far as a geometry's numbers do not say it: its length, and the last four bytes. */
static bool is_record(const uint8_t *bytes, size_t len)
{
    static const uint8_t zeros[RECORD - ZEROS];
    return len == RECORD && memcmp(bytes + ZEROS, zeros, sizeof zeros) == 0;
}

unsigned read_dump(const char *folder, struct dump *dump)
{
    uint8_t record[RECORD + 1];
    struct stumpchoir_geometry *g = &dump->geometry;
    unsigned answer;
    if (!is_record(record, read_file(folder, "geometry.bin", record, sizeof record)))
        return STUMPCHOIR_BAD_GEOMETRY;
    g->granularity = record[0];
    g->s = record[1];
    g->c = record[2];
    g->strict = record[3];
    g->block_size = low_first(record + 4);
    g->block_count = low_first(record + 8);

    /* no geometry has an image of no bytes, so 7 says that this one is sound */
    answer = stumpchoir_check(g, NULL, 0);
    if (answer != STUMPCHOIR_BAD_ROOM)
        return answer;
    dump->len = (size_t)g->block_size * g->block_count;
    dump->image = more_room(NULL, dump->len + 1, 1);
    answer = stumpchoir_check(g, dump->image, read_file(folder, "image.bin", dump->image, dump->len + 1));
    if (answer != STUMPCHOIR_DONE) {
        free(dump->image);
        dump->image = NULL;
    }
    return answer;
}

/* ---- objects ---- */

unsigned next_finished(const struct dump *d, uint32_t kind, struct stumpchoir_iterator *at, bool *found, struct stumpchoir_header *header)
{
    struct stumpchoir_block_header block;
    uint32_t met;
    unsigned answer;
    *found = false;
    for (; at->block < d->geometry.block_count; stumpchoir_iterator_new(&d->geometry, at->block + 1, at)) {
        answer = stumpchoir_block_header_read(&d->geometry, d->image, d->len, at->block, &block);
        if (answer != STUMPCHOIR_DONE)
            return answer;
        if (block.kind != kind)
            continue;
        do {
            answer = stumpchoir_iterator_next(&d->geometry, d->image, d->len, at, &met, header);
            if (answer != STUMPCHOIR_DONE)
                return answer;
            *found = met == STUMPCHOIR_FOUND && header->state == STUMPCHOIR_STATE_FINALIZED;
            if (*found)
                return STUMPCHOIR_DONE;
        } while (met == STUMPCHOIR_FOUND);
    }
    return STUMPCHOIR_DONE;
}

/* The walk from its place on begins with it. */
unsigned read_name(const struct dump *d, uint32_t block, uint32_t offset, uint8_t *bytes, uint64_t *len)
{
    struct stumpchoir_names names;
    struct stumpchoir_location at;
    uint32_t found;
    names.block = block;
    names.offset = offset;
    return stumpchoir_names_next(&d->geometry, d->image, d->len, &names, bytes, LONGEST, &found, &at, len);
}

/* ---- equal things ---- */

/* FNV-1a */
static uint64_t number_of(const uint8_t *bytes, size_t len)
{
    uint64_t n = UINT64_C(14695981039346656037);
    size_t i;
    for (i = 0; i < len; i++)
        n = (n ^ bytes[i]) * UINT64_C(1099511628211);
    return n;
}

void add_key(struct keys *keys, const uint8_t *bytes, size_t len)
{
    keys->keys = room_behind(keys->keys, keys->count, &keys->room, sizeof *keys->keys);
    keys->keys[keys->count].number = number_of(bytes, len);
    keys->keys[keys->count].thing = keys->count;
    keys->count++;
}

static int by_number(const void *a, const void *b)
{
    const struct key *x = a, *y = b;
    if (x->number != y->number)
        return x->number < y->number ? -1 : 1;
    return x->thing < y->thing ? -1 : x->thing > y->thing;
}

void find_equal(struct keys *keys, bool (*found)(void *list, size_t earlier, size_t thing), void *list)
{
    size_t from = 0, i, j;
    if (keys->count < 2)
        return;
    qsort(keys->keys, keys->count, sizeof *keys->keys, by_number);
    for (i = 1; i < keys->count; i++) {
        if (keys->keys[i].number != keys->keys[from].number)
            from = i;
        for (j = from; j < i && !found(list, keys->keys[j].thing, keys->keys[i].thing);)
            j++;
    }
}

/* ---- lines ---- */

void print_bytes(const uint8_t *bytes, size_t len)
{
    size_t i;
    for (i = 0; i < len; i++)
        if (bytes[i] == '\\')
            fputs("\\\\", stdout);
        else if (bytes[i] >= 0x20 && bytes[i] <= 0x7E)
            putchar(bytes[i]);
        else
            printf("\\x%02x", bytes[i]);
}

enum ending refuse(unsigned answer)
{
    printf("refused %u\n", answer);
    return REFUSED;
}

void flush_lines(void)
{
    if (fflush(stdout) || ferror(stdout))
        fail("the output cannot be written", strerror(errno));
}
