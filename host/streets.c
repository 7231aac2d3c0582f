/* streets FOLDER: a line for each file, which is a street, in the order in which they are looked up: the place of its metadata object, its
 * size and its name. Then a line for each name that stands more than once, and one that says how many there are and whether that is all.
 *
 *   street BLOCK OFFSET SIZE NAME              SIZE is `refused N` where it cannot be told
 *   nameless BLOCK OFFSET refused N            a finished object of a Metadata block whose name cannot be read
 *   unlisted BLOCK OFFSET refused N            a Metadata block that cannot be listed from there on
 *   twice BLOCK OFFSET BLOCK OFFSET NAME       `3 times` and three places, and so on
 *   streets N more than once N complete        `not complete` behind a nameless or an unlisted line; the input is then REFUSED
 *
 * The library's walk stays where it is refused. The place is then found by a listing, as the walk found it, and the walk goes on behind. */
#include "host.h"

#include <inttypes.h>
#include <stdio.h>
#include <stdlib.h>
#include <string.h>

static uint8_t name[LONGEST], other[LONGEST];

/* A street, and those that have its name: it is linked to the next of them, and the first knows how many they are and which is the last. */
struct street {
    struct stumpchoir_location at;
    uint32_t len, times;
    struct street *next, *last;
};

struct list {
    const struct dump *dump;
    struct street *streets;
    size_t count, room;
    struct keys keys;
    bool complete;
};

/* ---- the walk ---- */

static void add(struct list *list, struct stumpchoir_location at, size_t len)
{
    struct street *new;
    list->streets = room_behind(list->streets, list->count, &list->room, sizeof *list->streets);
    new = &list->streets[list->count++];
    new->at = at;
    new->len = (uint32_t)len;
    new->times = 1;
    new->next = NULL;
    add_key(&list->keys, name, len);
}

static void print_street(const struct dump *d, struct stumpchoir_location at, size_t len)
{
    uint64_t size;
    unsigned answer = stumpchoir_file_size(&d->geometry, d->image, d->len, at.block, at.offset, &size);
    printf("street %" PRIu32 " %" PRIu32 " ", at.block, at.offset);
    if (answer == STUMPCHOIR_DONE)
        printf("%" PRIu64 " ", size);
    else
        printf("refused %u ", answer);
    print_bytes(name, len);
    putchar('\n');
}

/* Says what a walk was refused at, and sets it behind: behind an object, or at the next block. */
static void step_over(const struct dump *d, unsigned refused, struct stumpchoir_names *names)
{
    struct stumpchoir_iterator at;
    struct stumpchoir_header header;
    bool found;
    unsigned answer;
    at.block = names->block;
    at.offset = names->offset;
    answer = next_finished(d, STUMPCHOIR_KIND_METADATA, &at, &found, &header);
    if (answer != STUMPCHOIR_DONE) {
        printf("unlisted %" PRIu32 " %" PRIu32 " refused %u\n", at.block, at.offset, answer);
        stumpchoir_iterator_new(&d->geometry, at.block + 1, &at);
    } else if (found) {
        printf("nameless %" PRIu32 " %" PRIu32 " refused %u\n", header.block, header.offset, refused);
    } else {
        fail("the names are refused", "no listing shows where");
    }
    names->block = at.block;
    names->offset = at.offset;
}

static void walk(struct list *list)
{
    const struct dump *d = list->dump;
    struct stumpchoir_names names;
    struct stumpchoir_location at;
    uint32_t found = STUMPCHOIR_FOUND;
    uint64_t len;
    unsigned answer;
    stumpchoir_names_new(&d->geometry, &names);
    while (found == STUMPCHOIR_FOUND) {
        answer = stumpchoir_names_next(&d->geometry, d->image, d->len, &names, name, sizeof name, &found, &at, &len);
        if (answer != STUMPCHOIR_DONE) {
            step_over(d, answer, &names);
            list->complete = false;
        } else if (found == STUMPCHOIR_FOUND) {
            print_street(d, at, (size_t)len);
            add(list, at, (size_t)len);
        }
    }
}

/* ---- names that stand more than once ---- */

/* The name of a street that was listed, once more. */
static void read_again(const struct dump *d, const struct street *street, uint8_t *bytes)
{
    uint64_t len;
    if (read_name(d, street->at.block, street->at.offset, bytes, &len) != STUMPCHOIR_DONE)
        fail("a name", "it was listed and cannot be read again");
}

/* Links a street behind the first of its name. */
static bool link_to(void *l, size_t earlier, size_t thing)
{
    struct list *list = l;
    struct street *first = &list->streets[earlier], *street = &list->streets[thing];
    if (!first->times || first->len != street->len)
        return false;
    read_again(list->dump, first, other);
    read_again(list->dump, street, name);
    if (memcmp(name, other, street->len) != 0)
        return false;
    *(first->next ? &first->last->next : &first->next) = street;
    first->last = street;
    first->times++;
    street->times = 0;
    return true;
}

/* Prints the names that stand more than once, in the order of their first streets: how many they are. */
static size_t print_repeated(const struct list *list)
{
    const struct street *first, *street;
    size_t names = 0, i;
    for (i = 0; i < list->count; i++) {
        first = &list->streets[i];
        if (first->times < 2)
            continue;
        names++;
        if (first->times == 2)
            printf("twice ");
        else
            printf("%" PRIu32 " times ", first->times);
        for (street = first; street; street = street->next)
            printf("%" PRIu32 " %" PRIu32 " ", street->at.block, street->at.offset);
        read_again(list->dump, first, name);
        print_bytes(name, first->len);
        putchar('\n');
    }
    return names;
}

enum ending streets(char **words)
{
    struct dump dump;
    struct list list = {&dump, NULL, 0, 0, {NULL, 0, 0}, true};
    size_t repeated;
    unsigned answer = read_dump(words[0], &dump);
    if (answer != STUMPCHOIR_DONE)
        return refuse(answer);
    walk(&list);
    find_equal(&list.keys, link_to, &list);
    repeated = print_repeated(&list);
    printf("streets %lu more than once %lu %s\n", (unsigned long)list.count, (unsigned long)repeated, list.complete ? "complete" : "not complete");
    free(list.streets);
    free(list.keys.keys);
    free(dump.image);
    return list.complete ? SAID : REFUSED;
}
