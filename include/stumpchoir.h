/* Stumpchoir for C: the low-level layer of norfs over an image in memory, proved. Made by tools/cface, as its functions are.
 *
 * A new store: fill an image with FF, stumpchoir_format_storage, then give each block that is to be used a type with
 * stumpchoir_set_block_type, since a formatted block is Undefined. The first object of a block goes right behind the block's header, at
 * offset 8, under Word(4) at 12 (stumpchoir_iterator_new says it); the next one at offset plus stumpchoir_info_total_size, aligned up by
 * stumpchoir_align. stumpchoir_write_to writes one whole, stumpchoir_iterator_next lists them. The collector's table is a record a block in
 * order, as stumpchoir_scan_block gives them.
 *
 * Every function answers an enum stumpchoir_answer. 6 comes first, then 7 where there is an image, then 4 for numbers that no value has,
 * then what the steps of the operation give, in their order. A refused call leaves every out value as it was and every in/out value as it
 * went in, but for a writer, which is spent after 8, for *done of stumpchoir_write_all, and for *twins, *unreferred and words of the sweeps;
 * image and units have exactly what was stored before the refusal.
 *
 * With strict 1, for a chip that programs no unit twice, a store is 10 where a unit that is not all FF would get data that, filled up with FF, is
 * not all FF. That is after 3 and before 8, nothing is stored of it, and it takes no power. An erase, a format and the collector's second and
 * third pass never give it; stumpchoir_sweep and stumpchoir_sweep_with answer 14. An image's bytes do not tell the mark.
 *
 * Pointers: none is kept after a call. No two of one call may overlap. `units` may be null where `fused` is false, and a buffer may be where
 * its length is 0; no other may be. A length has to be that of the buffer, since no call can tell
 * a false one. Bytes to write that are longer than a block get 3, by a writer 5, and so does stumpchoir_read of so many, even of SIZE_MAX; that
 * is all a test can see.
 * There is no heap and no state beside what is lent, so calls on different images may run at the same time. Calls take less than 16 KiB of
 * stack (at most 8,552 bytes with the thread's own were measured by tools/c-sample).
 *
 * To link: `tools/library`, then cc prog.c with each archive in target/staticlib (x86-64 Linux).
 */
#ifndef STUMPCHOIR_H
#define STUMPCHOIR_H

#include <stdbool.h>
#include <stddef.h>
#include <stdint.h>

#ifdef __cplusplus
extern "C" {
#endif

/* What every function answers. */
enum stumpchoir_answer {
    STUMPCHOIR_DONE = 0,
    STUMPCHOIR_NOT_FORMATTED = 1,
    STUMPCHOIR_FS_CORRUPTED = 2,
    STUMPCHOIR_IO = 3,
    STUMPCHOIR_INVALID_OPERATION = 4,
    STUMPCHOIR_INSUFFICIENT_SPACE = 5,
    STUMPCHOIR_BAD_GEOMETRY = 6,
    STUMPCHOIR_BAD_ROOM = 7,
    STUMPCHOIR_POWER_LOST = 8,
    STUMPCHOIR_RUST_PANIC = 9,
    STUMPCHOIR_NOT_ERASED = 10,
    STUMPCHOIR_NOT_FOUND = 13,
    STUMPCHOIR_DANGLING = 14
};

/* How finely a chip is programmed: by the bit, by words of a byte, by words of four. */
enum stumpchoir_granularity {
    STUMPCHOIR_BIT = 0,
    STUMPCHOIR_WORD1 = 1,
    STUMPCHOIR_WORD4 = 4
};

/* Types of objects, as their bytes; FREE where there is none. */
enum stumpchoir_type {
    STUMPCHOIR_TYPE_FILE_METADATA = 0x8F,
    STUMPCHOIR_TYPE_FILE_DATA = 0x8E,
    STUMPCHOIR_TYPE_FILE_NAME = 0x8D,
    STUMPCHOIR_TYPE_FREE = 0xFF
};

/* States of objects, which only go forward. */
enum stumpchoir_state {
    STUMPCHOIR_STATE_FREE = 0,
    STUMPCHOIR_STATE_ALLOCATED = 1,
    STUMPCHOIR_STATE_FINALIZED = 2,
    STUMPCHOIR_STATE_DELETED = 3
};

/* Kinds of blocks. The last three are the types that a block can be given. */
enum stumpchoir_kind {
    STUMPCHOIR_KIND_EMPTY = 0,
    STUMPCHOIR_KIND_UNKNOWN = 1,
    STUMPCHOIR_KIND_METADATA = 2,
    STUMPCHOIR_KIND_DATA = 3,
    STUMPCHOIR_KIND_UNDEFINED = 4
};

/* What *found says: a free place (or the end of a list of locations or names), something, the end of a block. */
enum stumpchoir_found {
    STUMPCHOIR_FOUND_NONE = 0,
    STUMPCHOIR_FOUND = 1,
    STUMPCHOIR_FOUND_END = 2
};

/* ---- Values are structs of uint32_t, and nothing else stands in them: a caller in another language hands arrays of as many numbers ---- */

/* How an image is laid out. granularity is an enum stumpchoir_granularity; s bytes hold a size or an offset, c bytes a block number,
 * 1 to 3 each; strict is 0, or 1 for a chip that programs no unit twice, which goes with words only. block_size is 64 to 65536, a
 * multiple of 4 and at most 256^s; block_count is at least 1 and at most 256^c; together they are at most 16777216, and just the
 * length of the image. Anything else is 6, another length 7. */
struct stumpchoir_geometry {
    uint32_t granularity;
    uint32_t s;
    uint32_t c;
    uint32_t strict;
    uint32_t block_size;
    uint32_t block_count;
};
typedef char stumpchoir_geometry_is_6_numbers[sizeof(struct stumpchoir_geometry) == 6 * sizeof(uint32_t) ? 1 : -1];
enum stumpchoir_geometry_index {
    STUMPCHOIR_GEOMETRY_GRANULARITY = 0, STUMPCHOIR_GEOMETRY_S = 1, STUMPCHOIR_GEOMETRY_C = 2, STUMPCHOIR_GEOMETRY_STRICT = 3,
    STUMPCHOIR_GEOMETRY_BLOCK_SIZE = 4, STUMPCHOIR_GEOMETRY_BLOCK_COUNT = 5
};

/* A place in a block. */
struct stumpchoir_location {
    uint32_t block;
    uint32_t offset;
};
typedef char stumpchoir_location_is_2_numbers[sizeof(struct stumpchoir_location) == 2 * sizeof(uint32_t) ? 1 : -1];
enum stumpchoir_location_index {
    STUMPCHOIR_LOCATION_BLOCK = 0, STUMPCHOIR_LOCATION_OFFSET = 1
};

/* A place in a block from which it is listed. */
struct stumpchoir_iterator {
    uint32_t block;
    uint32_t offset;
};
typedef char stumpchoir_iterator_is_2_numbers[sizeof(struct stumpchoir_iterator) == 2 * sizeof(uint32_t) ? 1 : -1];
enum stumpchoir_iterator_index {
    STUMPCHOIR_ITERATOR_BLOCK = 0, STUMPCHOIR_ITERATOR_OFFSET = 1
};

/* A place in a store from which file names are listed. */
struct stumpchoir_names {
    uint32_t block;
    uint32_t offset;
};
typedef char stumpchoir_names_is_2_numbers[sizeof(struct stumpchoir_names) == 2 * sizeof(uint32_t) ? 1 : -1];
enum stumpchoir_names_index {
    STUMPCHOIR_NAMES_BLOCK = 0, STUMPCHOIR_NAMES_OFFSET = 1
};

/* An object: an enum stumpchoir_type, an enum stumpchoir_state (Free has type FF, and no other has), the payload size as read or set,
 * and its place. */
struct stumpchoir_header {
    uint32_t type;
    uint32_t state;
    uint32_t size;
    uint32_t block;
    uint32_t offset;
};
typedef char stumpchoir_header_is_5_numbers[sizeof(struct stumpchoir_header) == 5 * sizeof(uint32_t) ? 1 : -1];
enum stumpchoir_header_index {
    STUMPCHOIR_HEADER_TYPE = 0, STUMPCHOIR_HEADER_STATE = 1, STUMPCHOIR_HEADER_SIZE = 2, STUMPCHOIR_HEADER_BLOCK = 3,
    STUMPCHOIR_HEADER_OFFSET = 4
};

/* A reader: its object, and the payload bytes read so far, at most 65536. */
struct stumpchoir_reader {
    struct stumpchoir_header header;
    uint32_t cursor;
};
typedef char stumpchoir_reader_is_6_numbers[sizeof(struct stumpchoir_reader) == 6 * sizeof(uint32_t) ? 1 : -1];
enum stumpchoir_reader_index {
    STUMPCHOIR_READER_HEADER = 0, STUMPCHOIR_READER_CURSOR = 5
};

/* A writer: its object, the payload bytes stored, those that wait for their word, which are fewer than a unit has, and which they are
 * (0 to 255 each); spent is 0 or 1. */
struct stumpchoir_writer {
    struct stumpchoir_header header;
    uint32_t cursor;
    uint32_t held;
    uint32_t tail[4];
    uint32_t spent;
};
typedef char stumpchoir_writer_is_12_numbers[sizeof(struct stumpchoir_writer) == 12 * sizeof(uint32_t) ? 1 : -1];
enum stumpchoir_writer_index {
    STUMPCHOIR_WRITER_HEADER = 0, STUMPCHOIR_WRITER_CURSOR = 5, STUMPCHOIR_WRITER_HELD = 6, STUMPCHOIR_WRITER_TAIL = 7,
    STUMPCHOIR_WRITER_SPENT = 11
};

/* A metadata object: its header, hash of the path, location of the name, and how far its list was read, at most 65536. */
struct stumpchoir_metadata {
    struct stumpchoir_header header;
    uint32_t path_hash;
    uint32_t name_block;
    uint32_t name_offset;
    uint32_t cursor;
};
typedef char stumpchoir_metadata_is_9_numbers[sizeof(struct stumpchoir_metadata) == 9 * sizeof(uint32_t) ? 1 : -1];
enum stumpchoir_metadata_index {
    STUMPCHOIR_METADATA_HEADER = 0, STUMPCHOIR_METADATA_PATH_HASH = 5, STUMPCHOIR_METADATA_NAME_BLOCK = 6,
    STUMPCHOIR_METADATA_NAME_OFFSET = 7, STUMPCHOIR_METADATA_CURSOR = 8
};

/* The header of a block: an enum stumpchoir_kind, and how often it was erased. */
struct stumpchoir_block_header {
    uint32_t kind;
    uint32_t erase_count;
};
typedef char stumpchoir_block_header_is_2_numbers[sizeof(struct stumpchoir_block_header) == 2 * sizeof(uint32_t) ? 1 : -1];
enum stumpchoir_block_header_index {
    STUMPCHOIR_BLOCK_HEADER_KIND = 0, STUMPCHOIR_BLOCK_HEADER_ERASE_COUNT = 1
};

/* What is known of a block: an enum stumpchoir_kind, how often it was erased, its used bytes from the start on, and whether objects
 * may be allocated in it (0 or 1). */
struct stumpchoir_record {
    uint32_t kind;
    uint32_t erase_count;
    uint32_t used_bytes;
    uint32_t allow_mark;
};
typedef char stumpchoir_record_is_4_numbers[sizeof(struct stumpchoir_record) == 4 * sizeof(uint32_t) ? 1 : -1];
enum stumpchoir_record_index {
    STUMPCHOIR_RECORD_KIND = 0, STUMPCHOIR_RECORD_ERASE_COUNT = 1, STUMPCHOIR_RECORD_USED_BYTES = 2,
    STUMPCHOIR_RECORD_ALLOW_MARK = 3
};

/* ---- What most functions begin with ---- */

#define STUMPCHOIR_GEOMETRY const struct stumpchoir_geometry *geometry

/* An image to read. */
#define STUMPCHOIR_IMAGE const uint8_t *image, size_t image_len

/* An image to store into. Without a fuse (fused false) *units is neither read nor written; with one, *units is the count of units
 * that may still be programmed, and becomes what is left. */
#define STUMPCHOIR_STORE uint8_t *image, size_t image_len, bool fused, uint32_t *units

/* ---- The medium ---- */

/* A geometry and the room for it: 0, 6 or 7. */
uint8_t stumpchoir_check(STUMPCHOIR_GEOMETRY, STUMPCHOIR_IMAGE);

/* n bytes aligned up to whole units. */
uint8_t stumpchoir_align(STUMPCHOIR_GEOMETRY, uint32_t n, uint64_t *aligned);

/* A range of one block, into the buffer. */
uint8_t stumpchoir_read(STUMPCHOIR_GEOMETRY, STUMPCHOIR_IMAGE, uint32_t block, uint32_t offset, uint8_t *buffer, size_t buffer_len);

/* Programs the bytes of src at a place of a block: one store, so 3, then 10, then 8. */
uint8_t stumpchoir_write(STUMPCHOIR_GEOMETRY, STUMPCHOIR_STORE, uint32_t block, uint32_t offset, const uint8_t *src, size_t src_len);

/* Sets a block to FF: one unit. */
uint8_t stumpchoir_erase(STUMPCHOIR_GEOMETRY, STUMPCHOIR_STORE, uint32_t block);

/* ---- Locations ---- */

/* The bytes of a location: the first c + s of the six are set, and *len is c + s. */
uint8_t stumpchoir_location_into_bytes(STUMPCHOIR_GEOMETRY, uint32_t block, uint32_t offset, uint8_t bytes[6], uint64_t *len);

/* The block and offset that c + s bytes say; 9 for another length. */
uint8_t stumpchoir_location_from_bytes(STUMPCHOIR_GEOMETRY, const uint8_t *bytes, size_t bytes_len, struct stumpchoir_location *location);

/* ---- Headers of objects ---- */

/* The header at a place. */
uint8_t stumpchoir_header_read(STUMPCHOIR_GEOMETRY, STUMPCHOIR_IMAGE, uint32_t block, uint32_t offset, struct stumpchoir_header *header);

/* Stores the mark of a state that lies ahead, or is 10; the present state stores nothing, backwards is 4, Free is 9. */
uint8_t stumpchoir_update_state(STUMPCHOIR_GEOMETRY, STUMPCHOIR_STORE, struct stumpchoir_header *header, uint8_t state);

/* Stores the low s bytes of a size that is not set yet, or is 10; one that is set is 4. */
uint8_t stumpchoir_set_payload_size(STUMPCHOIR_GEOMETRY, STUMPCHOIR_STORE, struct stumpchoir_header *header, uint32_t payload_size);

/* ---- Writers ----
 *
 * After 8 `spent` of a writer that went in is 1, and nothing else of it has changed: each later write, finalize and delete of it gives 4. */

/* Stores the type (8F, 8E or 8D, else 4) of a new object, over Free or over Allocated of the same type: its writer. Under the strict
 * mark the second is 10, and the first where its unit is programmed. */
uint8_t stumpchoir_writer_allocate(STUMPCHOIR_GEOMETRY, STUMPCHOIR_STORE, uint32_t block, uint32_t offset, uint8_t type, struct stumpchoir_writer *writer);

/* The payload bytes that still fit; 9 where the writer stands past the end of its block. */
uint8_t stumpchoir_writer_space(STUMPCHOIR_GEOMETRY, const struct stumpchoir_writer *writer, uint64_t *space);

/* The payload bytes taken so far, stored or held. */
uint8_t stumpchoir_writer_payload_size(STUMPCHOIR_GEOMETRY, const struct stumpchoir_writer *writer, uint64_t *payload_size);

/* Those and the header. */
uint8_t stumpchoir_writer_total_size(STUMPCHOIR_GEOMETRY, const struct stumpchoir_writer *writer, uint64_t *total_size);

/* Takes payload bytes: whole words are stored, less than a word is held. 5 where they are more than the space. The word that held
 * bytes fill is a store of its own: 10 of the words behind it leaves it there. */
uint8_t stumpchoir_writer_write(STUMPCHOIR_GEOMETRY, STUMPCHOIR_STORE, struct stumpchoir_writer *writer, const uint8_t *src, size_t src_len);

/* Ends the object: what is held, the size, and the mark of a Finalized object; each store can be 10. */
uint8_t stumpchoir_writer_finalize(STUMPCHOIR_GEOMETRY, STUMPCHOIR_STORE, struct stumpchoir_writer *writer);

/* Deletes the object: one that is not Finalized gets its size first; of one that is Free or Deleted nothing is stored. Each store can
 * be 10. */
uint8_t stumpchoir_writer_delete(STUMPCHOIR_GEOMETRY, STUMPCHOIR_STORE, struct stumpchoir_writer *writer);

/* ---- Readers ---- */

/* A reader of the Finalized object at a place, or of any object that is there. */
uint8_t stumpchoir_reader_new(STUMPCHOIR_GEOMETRY, STUMPCHOIR_IMAGE, uint32_t block, uint32_t offset, bool allow_non_finalized, struct stumpchoir_reader *reader);

/* The payload size of the reader's object, 0 where it is unset. */
uint8_t stumpchoir_reader_len(STUMPCHOIR_GEOMETRY, const struct stumpchoir_reader *reader, uint64_t *len);

/* What is left of the payload; 9 where the cursor is beyond it. */
uint8_t stumpchoir_reader_remaining(STUMPCHOIR_GEOMETRY, const struct stumpchoir_reader *reader, uint64_t *remaining);

/* Back to the start of the payload. */
uint8_t stumpchoir_reader_rewind(STUMPCHOIR_GEOMETRY, struct stumpchoir_reader *reader);

/* As much of what is left as the buffer holds, into its first *read bytes. */
uint8_t stumpchoir_reader_read(STUMPCHOIR_GEOMETRY, STUMPCHOIR_IMAGE, struct stumpchoir_reader *reader, uint8_t *buffer, size_t buffer_len, uint64_t *read);

/* ---- Objects that are there ---- */

/* The object at a place: *found is 1 with its header, or 0 where the place is Free (then the header stays as it was). */
uint8_t stumpchoir_info_read(STUMPCHOIR_GEOMETRY, STUMPCHOIR_IMAGE, uint32_t block, uint32_t offset, uint32_t *found, struct stumpchoir_header *header);

/* Header and payload together, in bytes. */
uint8_t stumpchoir_info_total_size(STUMPCHOIR_GEOMETRY, const struct stumpchoir_header *header, uint64_t *total_size);

/* Stores the mark of a Finalized object, or is 10. */
uint8_t stumpchoir_info_finalize(STUMPCHOIR_GEOMETRY, STUMPCHOIR_STORE, struct stumpchoir_header *header);

/* Stores the mark of a Deleted object, or is 10. */
uint8_t stumpchoir_info_delete(STUMPCHOIR_GEOMETRY, STUMPCHOIR_STORE, struct stumpchoir_header *header);

/* ---- Metadata objects ---- */

/* Path hash and name location of an object that is known by its header. */
uint8_t stumpchoir_info_read_metadata(STUMPCHOIR_GEOMETRY, STUMPCHOIR_IMAGE, const struct stumpchoir_header *header, struct stumpchoir_metadata *metadata);

/* The same of the object at a place; a Free place is 2. */
uint8_t stumpchoir_location_read_metadata(STUMPCHOIR_GEOMETRY, STUMPCHOIR_IMAGE, uint32_t block, uint32_t offset, struct stumpchoir_metadata *metadata);

/* The location of the next data object: *found is 1 with it, or 0 at the end of the list (then metadata and location stay). */
uint8_t stumpchoir_metadata_next_object_location(STUMPCHOIR_GEOMETRY, STUMPCHOIR_IMAGE, struct stumpchoir_metadata *metadata, uint32_t *found, struct stumpchoir_location *location);

/* Back to the first data object. */
uint8_t stumpchoir_metadata_reset(STUMPCHOIR_GEOMETRY, struct stumpchoir_metadata *metadata);

/* ---- Listing ---- */

/* An iterator right after the header of a block. */
uint8_t stumpchoir_iterator_new(STUMPCHOIR_GEOMETRY, uint32_t block, struct stumpchoir_iterator *iterator);

/* The object at the iterator: *found is 1 with its header and the iterator behind it. Where listing stops, iterator and header stay:
 * *found is 0 at a free place, and 2 at the end of the block. */
uint8_t stumpchoir_iterator_next(STUMPCHOIR_GEOMETRY, STUMPCHOIR_IMAGE, struct stumpchoir_iterator *iterator, uint32_t *found, struct stumpchoir_header *header);

/* ---- Objects written whole, copied, moved ---- */

/* An object of a type (8F, 8E or 8D, else 4), written whole: *total_size is its header and payload together. The type is stored
 * first, and 5, where the payload does not fit, leaves it there; 10 of a later store leaves those before it. */
uint8_t stumpchoir_write_to(STUMPCHOIR_GEOMETRY, STUMPCHOIR_STORE, uint32_t block, uint32_t offset, uint8_t type, const uint8_t *src, size_t src_len, uint64_t *total_size);

/* The Finalized object that a header names, anew at another place: its header there. The type is the one that the header says. 10
 * leaves what was stored of it. */
uint8_t stumpchoir_copy_object(STUMPCHOIR_GEOMETRY, STUMPCHOIR_STORE, const struct stumpchoir_header *header, uint32_t block, uint32_t offset, struct stumpchoir_header *copy);

/* The same, and then the object is deleted where it was; 10 of its delete mark leaves both, the copy finished. */
uint8_t stumpchoir_move_object(STUMPCHOIR_GEOMETRY, STUMPCHOIR_STORE, const struct stumpchoir_header *header, uint32_t block, uint32_t offset, struct stumpchoir_header *copy);

/* ---- Several objects of a block in one call ----
 *
 * The records are lent: four numbers each, type, offset, and start and length in the payload, records_len counted in numbers. 7 for more than
 * 64 records or a part of one, before any store. *done is written in every case, also where the call is refused. */

/* Up to 64 records in order, each written as stumpchoir_write_to writes an object, up to the first refusal; *done is how many were
 * written whole. At its turn a record whose range is outside the payload is 7, then one whose type is none of the three is 4, then
 * what stumpchoir_write_to answers, 10 too. */
uint8_t stumpchoir_write_all(STUMPCHOIR_GEOMETRY, STUMPCHOIR_STORE, uint32_t block, const uint32_t *records, size_t records_len, const uint8_t *payload, size_t payload_len, uint32_t *done);

/* ---- Blocks ---- */

/* The header of a block: kind and erase count. */
uint8_t stumpchoir_block_header_read(STUMPCHOIR_GEOMETRY, STUMPCHOIR_IMAGE, uint32_t block, struct stumpchoir_block_header *header);

/* Programs a header, or is 10. */
uint8_t stumpchoir_block_header_write(STUMPCHOIR_GEOMETRY, STUMPCHOIR_STORE, uint32_t block, uint32_t kind, uint32_t erase_count);

/* Whether all bytes behind the header are FF: 1 or 0. */
uint8_t stumpchoir_is_block_data_empty(STUMPCHOIR_GEOMETRY, STUMPCHOIR_IMAGE, uint32_t block, uint32_t *empty);

/* Makes a block Undefined and empty; 2 for a known block whose erase count is at its end. */
uint8_t stumpchoir_format_block(STUMPCHOIR_GEOMETRY, STUMPCHOIR_STORE, uint32_t block);

/* Formats every block, from 0 up. */
uint8_t stumpchoir_format_storage(STUMPCHOIR_GEOMETRY, STUMPCHOIR_STORE);

/* The record of a block, read off its bytes; 1 for an Empty one, 2 where a header in it is corrupted. */
uint8_t stumpchoir_scan_block(STUMPCHOIR_GEOMETRY, STUMPCHOIR_IMAGE, uint32_t block, struct stumpchoir_record *record);

/* Programs the type byte; 4 for a kind below 2. Under the strict mark a block that has a type already is 10, but for Undefined, which
 * stores FF. */
uint8_t stumpchoir_set_block_type(STUMPCHOIR_GEOMETRY, STUMPCHOIR_STORE, uint32_t block, uint32_t kind);

/* What is free, and what unfinished and deleted objects take; 9 where the listing runs past the block. */
uint8_t stumpchoir_calculate_freeable_space(STUMPCHOIR_GEOMETRY, STUMPCHOIR_IMAGE, uint32_t block, uint64_t *space);

/* ---- Records of blocks ---- */

/* What is left of a block; 9 where the used bytes pass the block size. */
uint8_t stumpchoir_record_free_space(STUMPCHOIR_GEOMETRY, const struct stumpchoir_record *record, uint64_t *space);

/* Whether nothing but the header is used: 1 or 0. */
uint8_t stumpchoir_record_is_empty(STUMPCHOIR_GEOMETRY, const struct stumpchoir_record *record, uint32_t *empty);

/* Adds an object's size, aligned up; 9 where the sum passes 4294967295. */
uint8_t stumpchoir_record_add_used_bytes(STUMPCHOIR_GEOMETRY, struct stumpchoir_record *record, uint32_t total_size);

/* The record of a block that was just formatted; 9 at the last erase count. */
uint8_t stumpchoir_record_update_stats_after_erase(STUMPCHOIR_GEOMETRY, struct stumpchoir_record *record);

/* ---- The collector ----
 *
 * The table is lent: a record a block, four numbers each, table_len counted in numbers. 7 for another length, and 4 for an impossible kind
 * or mark anywhere in it, before any step. After a refusal image and table have exactly what was stored before. */

/* The first pass: deletes objects that a power cut left unfinished, or is 10 where their size or mark cannot be stored. */
uint8_t stumpchoir_delete_invalid_objects(STUMPCHOIR_GEOMETRY, STUMPCHOIR_STORE, uint32_t *table, size_t table_len);

/* The second: formats blocks without allocation whose only object that is not deleted is an unfinished one. */
uint8_t stumpchoir_erase_invalid_finished_blocks(STUMPCHOIR_GEOMETRY, STUMPCHOIR_STORE, uint32_t *table, size_t table_len);

/* The third: formats blocks with deleted objects alone, unless they are full. */
uint8_t stumpchoir_erase_full_finished_blocks(STUMPCHOIR_GEOMETRY, STUMPCHOIR_STORE, uint32_t *table, size_t table_len);

/* A collection: the three passes in order. Only the first can be 10. */
uint8_t stumpchoir_run(STUMPCHOIR_GEOMETRY, STUMPCHOIR_STORE, uint32_t *table, size_t table_len);

/* ---- Files by their names ----
 *
 * The hash of a path is the caller's: whatever was stored with it. Nothing is stored here, and no power is needed. */

/* Where the metadata object of a file is, by its path and the hash of the path: the first Finalized object of Metadata blocks, in
 * block and offset order, that has both; 13 where none has. What is refused on the way ends the search. */
uint8_t stumpchoir_lookup(STUMPCHOIR_GEOMETRY, STUMPCHOIR_IMAGE, const uint8_t *path, size_t path_len, uint32_t hash, struct stumpchoir_location *location);

/* How long the file is whose metadata object is at a place: every data object is opened. */
uint8_t stumpchoir_file_size(STUMPCHOIR_GEOMETRY, STUMPCHOIR_IMAGE, uint32_t block, uint32_t offset, uint64_t *size);

/* Its bytes from a position on, into the first *read bytes of the buffer; none at or past its end. Once the buffer is full no more is
 * opened. A refused read leaves the whole buffer as it was. */
uint8_t stumpchoir_file_read(STUMPCHOIR_GEOMETRY, STUMPCHOIR_IMAGE, uint32_t block, uint32_t offset, uint64_t position, uint8_t *buffer, size_t buffer_len, uint64_t *read);

/* Before the first name. */
uint8_t stumpchoir_names_new(STUMPCHOIR_GEOMETRY, struct stumpchoir_names *names);

/* The next name, in the order of a lookup, into the first *len bytes of the buffer: *found is 1 with it, with the place of its
 * metadata object and with the names behind it; 0 at the end, and then nothing else changes. 7 for a name longer than the buffer. */
uint8_t stumpchoir_names_next(STUMPCHOIR_GEOMETRY, STUMPCHOIR_IMAGE, struct stumpchoir_names *names, uint8_t *buffer, size_t buffer_len, uint32_t *found, struct stumpchoir_location *location, uint64_t *len);

/* ---- The sweep ----
 *
 * Metadata objects are the Finalized ones that are listed in Metadata blocks, data and name objects those in Data blocks; other blocks are not
 * looked at. A delete mark is one unit each, and nothing else is stored. *twins and *unreferred are written in every case, also where the call is
 * refused; after 8 the same call again goes on. */

/* Of Finalized metadata objects of equal type and payload bytes the first stays, in block and offset order, and the others are
 * deleted; then each Finalized object of a Data block is that no Finalized metadata object refers to. *twins and *unreferred are how
 * many were deleted of each. 2 where a Metadata or Data block cannot be listed, then 14 where metadata is not a hash, a name location
 * and whole locations within its block, or one of these has no Finalized object of a Data block, and under the strict mark; both
 * before any store. */
uint8_t stumpchoir_sweep(STUMPCHOIR_GEOMETRY, STUMPCHOIR_STORE, uint32_t *twins, uint32_t *unreferred);

/* The same, and sooner: what was met is noted in the words, which the caller lends, one for each byte of the image; 7 for another
 * number of them, behind 6 and 7. They come back as 0, and after 6 or 7 as they were. */
uint8_t stumpchoir_sweep_with(STUMPCHOIR_GEOMETRY, STUMPCHOIR_STORE, uint32_t *twins, uint32_t *unreferred, uint32_t *words, size_t words_len);

#ifdef __cplusplus
}
#endif

#endif
