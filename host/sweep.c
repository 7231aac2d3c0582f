/* sweep FOLDER [FILE]: a line for each object that a sweep deletes, in the order in which it does that. Then one that says how many they are, and
 * one that says the same to people. The swept image goes to FILE, if one is named.
 *
 *   twin BLOCK OFFSET of BLOCK OFFSET NAME             a metadata object, the equal one before it that stays, and the street's name
 *   nameless BLOCK OFFSET of BLOCK OFFSET refused N    the same where the name cannot be read
 *   unreferred BLOCK OFFSET TYPE SIZE                  an object of a Data block that no metadata refers to. SIZE is `-` where it is not set
 *   unreferred BLOCK OFFSET FileName SIZE NAME         SIZE is `refused N`, without a name, where the name cannot be read
 *   twins N unreferred N                               how many are twin or nameless, and how many are unreferred
 *
 * A store that is not swept is REFUSED, and standard error says in words why, and where.
 *
 * The library sweeps a copy. What is reported is read off the two images, and has to be all that differs in them. */
#include "host.h"

#include <errno.h>
#include <inttypes.h>
#include <stdio.h>
#include <stdlib.h>
#include <string.h>

static uint8_t bytes[LONGEST], other[LONGEST];

/* A finished metadata object. One that stays knows how often it stands again, a deleted one which of them stays. */
struct entry {
    struct stumpchoir_header header;
    bool deleted;
    uint32_t again;
    size_t first;
};

/* A dump before and after a sweep, and what the library says that it deleted. */
struct sweeping {
    struct dump before, after;
    uint32_t twins, unreferred;
    struct entry *entries;
    size_t count, room;
    struct keys keys;
};

/* The library's sweep, with power, and with words for its notes. */
static unsigned run_sweep(struct dump *d, uint32_t *twins, uint32_t *unreferred)
{
    uint32_t *words = more_room(NULL, d->len, sizeof *words);
    unsigned answer = stumpchoir_sweep_with(&d->geometry, d->image, d->len, false, NULL, twins, unreferred, words, d->len);
    free(words);
    return answer;
}

static void copy_dump(const struct dump *d, struct dump *copy)
{
    *copy = *d;
    copy->image = more_room(NULL, d->len, 1);
    memcpy(copy->image, d->image, d->len);
}

static unsigned read_payload(const struct dump *d, const struct stumpchoir_header *header, uint8_t *into, uint64_t *len)
{
    struct stumpchoir_reader reader;
    unsigned answer = stumpchoir_reader_new(&d->geometry, d->image, d->len, header->block, header->offset, false, &reader);
    if (answer != STUMPCHOIR_DONE)
        return answer;
    return stumpchoir_reader_read(&d->geometry, d->image, d->len, &reader, into, LONGEST, len);
}

/* ---- why it is refused ---- */

/* The first place from which a block of a kind cannot be listed. */
static bool find_unlisted(const struct dump *d, uint32_t kind, struct stumpchoir_iterator *at)
{
    struct stumpchoir_header header;
    bool found;
    unsigned answer;
    stumpchoir_iterator_new(&d->geometry, 0, at);
    do
        answer = next_finished(d, kind, at, &found, &header);
    while (answer == STUMPCHOIR_DONE && found);
    return answer != STUMPCHOIR_DONE;
}

static void explain_unlisted(const struct dump *d)
{
    struct stumpchoir_iterator at;
    if (!find_unlisted(d, STUMPCHOIR_KIND_METADATA, &at) && !find_unlisted(d, STUMPCHOIR_KIND_DATA, &at))
        fail("the sweep is refused", "no listing shows where");
    fprintf(stderr, "block %" PRIu32 " cannot be listed: at offset %" PRIu32 " stands what is no entry. A power cut inside a content leaves that.",
            at.block, at.offset);
}

static size_t place_in(const struct dump *d, uint32_t block, uint32_t offset)
{
    return (size_t)block * d->geometry.block_size + offset;
}

/* For each byte of the image, whether a finished object of a Data block begins there. */
static bool *listed_places(const struct dump *d)
{
    bool *listed = more_room(NULL, d->len, sizeof *listed), found;
    struct stumpchoir_iterator at;
    struct stumpchoir_header header;
    memset(listed, 0, d->len * sizeof *listed);
    stumpchoir_iterator_new(&d->geometry, 0, &at);
    while (next_finished(d, STUMPCHOIR_KIND_DATA, &at, &found, &header) == STUMPCHOIR_DONE && found)
        listed[place_in(d, header.block, header.offset)] = true;
    return listed;
}

/* Whether a payload is a hash, a name's location and whole further locations within its block. */
static bool is_whole(const struct dump *d, const struct stumpchoir_header *header)
{
    uint64_t location = d->geometry.c + d->geometry.s, len;
    if (read_payload(d, header, bytes, &len) != STUMPCHOIR_DONE)
        return false;
    return len >= 4 + location && (len - 4) % location == 0;
}

/* The first location of a whole metadata object at which no object is listed. */
static bool find_dangling(const struct dump *d, const bool *listed, const struct stumpchoir_header *header, struct stumpchoir_location *to)
{
    struct stumpchoir_metadata metadata;
    uint32_t found;
    if (stumpchoir_info_read_metadata(&d->geometry, d->image, d->len, header, &metadata) != STUMPCHOIR_DONE)
        return false;
    to->block = metadata.name_block;
    to->offset = metadata.name_offset;
    do
        if (to->block >= d->geometry.block_count || to->offset >= d->geometry.block_size || !listed[place_in(d, to->block, to->offset)])
            return true;
    while (stumpchoir_metadata_next_object_location(&d->geometry, d->image, d->len, &metadata, &found, to) == STUMPCHOIR_DONE
           && found == STUMPCHOIR_FOUND);
    return false;
}

static void explain_dangling(const struct dump *d)
{
    bool *listed = listed_places(d), found;
    struct stumpchoir_iterator at;
    struct stumpchoir_header header;
    struct stumpchoir_location to;
    bool whole = true, dangling = false;
    stumpchoir_iterator_new(&d->geometry, 0, &at);
    while (whole && !dangling) {
        if (next_finished(d, STUMPCHOIR_KIND_METADATA, &at, &found, &header) != STUMPCHOIR_DONE || !found)
            fail("the sweep is refused", "no listing shows where");
        whole = is_whole(d, &header);
        dangling = whole && find_dangling(d, listed, &header, &to);
    }
    fprintf(stderr, "the metadata at block %" PRIu32 ", offset %" PRIu32 " ", header.block, header.offset);
    if (whole)
        fprintf(stderr, "refers to block %" PRIu32 ", offset %" PRIu32 ", where no finished name or content stands. A power cut in changing or deleting "
                "a street leaves that.", to.block, to.offset);
    else
        fprintf(stderr, "is not a hash, the place of a name and whole further places, within its block.");
    free(listed);
}

static enum ending explain(const struct dump *d, unsigned answer)
{
    refuse(answer);
    flush_lines();
    if (answer == STUMPCHOIR_BAD_GEOMETRY)
        fprintf(stderr, "geometry.bin is no geometry record, or breaks a rule of one: see docs/FORMAT.md.");
    else if (answer == STUMPCHOIR_BAD_ROOM)
        fprintf(stderr, "image.bin has another length than geometry.bin says: see docs/FORMAT.md.");
    else if (answer == STUMPCHOIR_DANGLING && d->geometry.strict)
        fprintf(stderr, "geometry.bin has the strict mark: a store on a chip that programs no unit twice is not swept.");
    else if (answer == STUMPCHOIR_DANGLING)
        explain_dangling(d);
    else
        explain_unlisted(d);
    fprintf(stderr, " Nothing was swept.\n");
    return REFUSED;
}

/* ---- what was deleted ---- */

static bool is_deleted(const struct sweeping *s, const struct stumpchoir_header *header)
{
    struct stumpchoir_header now;
    const struct dump *d = &s->after;
    if (stumpchoir_header_read(&d->geometry, d->image, d->len, header->block, header->offset, &now) != STUMPCHOIR_DONE)
        fail("the swept image", "an object is there no longer");
    return now.state == STUMPCHOIR_STATE_DELETED;
}

static void add(struct sweeping *s, const struct stumpchoir_header *header)
{
    struct entry *new;
    uint64_t len;
    if (read_payload(&s->before, header, bytes, &len) != STUMPCHOIR_DONE)
        fail("metadata that was swept", "it cannot be read");
    s->entries = room_behind(s->entries, s->count, &s->room, sizeof *s->entries);
    new = &s->entries[s->count++];
    new->header = *header;
    new->deleted = is_deleted(s, header);
    new->again = 0;
    new->first = SIZE_MAX;
    add_key(&s->keys, bytes, (size_t)len);
}

static bool is_equal(const struct dump *d, const struct stumpchoir_header *a, const struct stumpchoir_header *b)
{
    uint64_t len, length;
    return a->type == b->type && read_payload(d, a, bytes, &len) == STUMPCHOIR_DONE && read_payload(d, b, other, &length) == STUMPCHOIR_DONE
        && len == length && memcmp(bytes, other, (size_t)len) == 0;
}

/* Finds which one stays; of one that stays itself nothing is looked for. */
static bool twin_of(void *sweeping, size_t earlier, size_t thing)
{
    struct sweeping *s = sweeping;
    struct entry *first = &s->entries[earlier], *entry = &s->entries[thing];
    if (!entry->deleted)
        return true;
    if (first->deleted || !is_equal(&s->before, &first->header, &entry->header))
        return false;
    first->again++;
    entry->first = earlier;
    return true;
}

static void list_metadata(struct sweeping *s)
{
    struct stumpchoir_iterator at;
    struct stumpchoir_header header;
    bool found;
    stumpchoir_iterator_new(&s->before.geometry, 0, &at);
    while (next_finished(&s->before, STUMPCHOIR_KIND_METADATA, &at, &found, &header) == STUMPCHOIR_DONE && found)
        add(s, &header);
    find_equal(&s->keys, twin_of, s);
}

/* ---- lines ---- */

static void print_twin(const struct dump *d, const struct stumpchoir_header *twin, const struct stumpchoir_header *first)
{
    uint64_t len;
    unsigned answer = read_name(d, first->block, first->offset, bytes, &len);
    printf("%s %" PRIu32 " %" PRIu32 " of %" PRIu32 " %" PRIu32 " ", answer == STUMPCHOIR_DONE ? "twin" : "nameless", twin->block, twin->offset,
           first->block, first->offset);
    if (answer == STUMPCHOIR_DONE)
        print_bytes(bytes, (size_t)len);
    else
        printf("refused %u", answer);
    putchar('\n');
}

static uint32_t print_twins(const struct sweeping *s)
{
    uint32_t twins = 0;
    size_t i;
    for (i = 0; i < s->count; i++) {
        if (!s->entries[i].deleted)
            continue;
        if (s->entries[i].first == SIZE_MAX)
            fail("a twin", "none that is equal to it stays");
        print_twin(&s->before, &s->entries[i].header, &s->entries[s->entries[i].first].header);
        twins++;
    }
    return twins;
}

static const char *type_name(uint32_t type)
{
    return type == STUMPCHOIR_TYPE_FILE_METADATA ? "FileMetadata" : type == STUMPCHOIR_TYPE_FILE_DATA ? "FileData" : "FileName";
}

static void print_object(const struct dump *d, const struct stumpchoir_header *header)
{
    uint64_t len = 0;
    bool is_name = header->type == STUMPCHOIR_TYPE_FILE_NAME;
    unsigned answer = is_name ? read_payload(d, header, bytes, &len) : STUMPCHOIR_DONE;
    printf("unreferred %" PRIu32 " %" PRIu32 " %s ", header->block, header->offset, type_name(header->type));
    if (answer != STUMPCHOIR_DONE)
        printf("refused %u", answer);
    else if (header->size == UINT32_MAX >> (32 - 8 * d->geometry.s))
        putchar('-');
    else
        printf("%" PRIu32, header->size);
    if (is_name && answer == STUMPCHOIR_DONE) {
        putchar(' ');
        print_bytes(bytes, (size_t)len);
    }
    putchar('\n');
}

static uint32_t print_unreferred(const struct sweeping *s)
{
    struct stumpchoir_iterator at;
    struct stumpchoir_header header;
    bool found;
    uint32_t unreferred = 0;
    stumpchoir_iterator_new(&s->before.geometry, 0, &at);
    while (next_finished(&s->before, STUMPCHOIR_KIND_DATA, &at, &found, &header) == STUMPCHOIR_DONE && found)
        if (is_deleted(s, &header)) {
            print_object(&s->before, &header);
            unreferred++;
        }
    return unreferred;
}

static void print_summary(const struct sweeping *s)
{
    uint32_t streets = 0;
    size_t i;
    for (i = 0; i < s->count; i++)
        streets += s->entries[i].again != 0;
    printf("twins %" PRIu32 " unreferred %" PRIu32 "\n", s->twins, s->unreferred);
    printf("%" PRIu32 " %s more than once in equal entries, %" PRIu32 " too many. %" PRIu32 " %s to no street.\n", streets,
           streets == 1 ? "street stands" : "streets stand", s->twins, s->unreferred, s->unreferred == 1 ? "entry belongs" : "entries belong");
}

/* ---- the swept image ---- */

/* Fails unless the images differ in as many bytes as objects are reported. Each of these has another state, so a byte of its own that differs:
 * with as many in all there is one for each, its mark, and no other. */
static void check_rest(const struct sweeping *s, uint32_t twins, uint32_t unreferred)
{
    size_t differing = 0, i;
    for (i = 0; i < s->before.len; i++)
        differing += s->before.image[i] != s->after.image[i];
    if (twins != s->twins || unreferred != s->unreferred || differing != (size_t)twins + unreferred)
        fail("the swept image", "it differs in other bytes than the marks of what was deleted");
}

static void write_image(const char *path, const struct dump *d)
{
    FILE *file = fopen(path, "wb");
    if (!file)
        fail(path, strerror(errno));
    if (fwrite(d->image, 1, d->len, file) != d->len || fclose(file))
        fail(path, strerror(errno));
}

static enum ending report(struct sweeping *s, const char *path)
{
    uint32_t twins, unreferred;
    list_metadata(s);
    twins = print_twins(s);
    unreferred = print_unreferred(s);
    check_rest(s, twins, unreferred);
    print_summary(s);
    flush_lines();
    if (path)
        write_image(path, &s->after);
    return SAID;
}

enum ending sweep(char **words)
{
    struct sweeping s = {0};
    enum ending ended;
    unsigned answer = read_dump(words[0], &s.before);
    if (answer == STUMPCHOIR_DONE) {
        copy_dump(&s.before, &s.after);
        answer = run_sweep(&s.after, &s.twins, &s.unreferred);
    }
    ended = answer == STUMPCHOIR_DONE ? report(&s, words[1]) : explain(&s.before, answer);
    free(s.entries);
    free(s.keys.keys);
    free(s.before.image);
    free(s.after.image);
    return ended;
}
