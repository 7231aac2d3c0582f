"""The C interface as a table, for tools/cface.

A row is a function:
  name     without stumpchoir_
  says     what it does, for people: the comment in the code and in the header (says_c: another one in the header)
  place    alone: no image; image: one to read; store: one to store into, with a fuse
  params   its own parameters, in order: n is a u32, n:u8 another number, n[] bytes, n[]> bytes that are filled, table[]=:u32 the table;
           n[]~:u32 numbers that are lent; n<header numbers that come in, n=header that change, n>header that go out; n>u64 a number that goes out; n#u32 one that does in
           every case, from 0 on
  value    what is read from numbers first (VALUES), where something is; numbers that say none are refused behind 6 and 7
  calls    the function of the library (or, in crate::.., one of this crate that hands the answer out too), `on` a value, with `args`
  means    the definition that its contract cites, over g, the value and the parameters
  leaves   what a call leaves in numbers that are lent, over g and the parameters as they went in
  hand     how the answer goes out (HANDS), where `calls` does not do it itself: then `as` or `by` says how the values cross
  before   lines of code before the call
  small    why a number that goes out fits its place, where it is wider in the library: {called} is the call, {told} its promise
  homes    'crate word' for a word of the contract that stands in more crates than one
"""

# ---- values that are read from numbers: the code, and the definition

def value(var, read, means, **more):
    code = f'let {var} = match {read} {{{{\n    Ok({var}) => {var},\n    Err(e) => return {{refuse}}e.number()),\n}}}};'
    return dict(var=var, code=code, means=means, **more)


VALUES = {
    'header': value('h', 'values::header_of(header)', 'header_of header'),
    'target': value('t', 'values::target_of(header, state)', 'target_of header state'),
    'reader': value('r', 'values::reader_of(reader)', 'reader_of reader'),
    'metadata': value('m', 'values::metadata_of(metadata)', 'metadata_of metadata'),
    'record': value('r', 'records::record_of(record)', 'record_of record'),
    'type': value('t', 'ObjectType::try_from(kind as u32)', 'object_type_of kind', uses={'ObjectType': 'objects::types::ObjectType'}),
    'block_type': value('t', 'records::type_of(kind)', 'block_type_of kind'),
    'kind': value('k', 'BlockHeaderKind::try_from(kind)', 'kind_of kind', uses={'BlockHeaderKind': 'blocks::header::BlockHeaderKind'}),
    'writer': value('w', 'writers::writer_of(writer)', 'writer_of writer'),
}

# ---- how an answer goes out: the function that hands it, and how its value crosses. `told` gives a refusal's number,
# where the function takes that

HANDS = {
    'stored': dict(code='call::hand_back', told='Told::from'),
    'batched': dict(code='batches::hand_back'),
    'swept': dict(code='sweeps::hand_back'),
    'headed': {'code': 'outs::hand_back', 'as': 'header_numbers', 'told': 'Told::from'},
    # a writer stands beside its answer, so its law is another than given_handed; the numbers of one that came in say after 8 that it is spent
    'new_writer': {'code': 'writers::hand_out', 'as': 'writer_numbers', 'law': 'given_beside'},
    'writer': {'code': 'writers::hand_back', 'as': 'writer_numbers', 'law': 'given_spent', 'spent': True},
    'total': {'code': 'writers::hand_total', 'as': 'plain'},
    'count': {'code': 'hand::hand', 'as': 'plain'},
    'flag': {'code': 'hand::hand', 'as': 'flag_number'},
    'record': {'code': 'hand::hand', 'as': 'record_numbers'},
    'block_header': {'code': 'hand::hand', 'as': 'block_header_numbers'},
    'header': {'code': 'hand::hand', 'as': 'header_numbers'},
    'info': {'code': 'outs::hand_info', 'by': 'info_out', 'told': 'Refusal::number'},
    'location': {'code': 'hand::hand', 'as': 'location_numbers'},
    'next': {'code': 'outs::hand_next', 'by': 'next_out', 'told': 'Refusal::number'},
    'reader': {'code': 'cursors::hand_reader', 'as': 'reader_numbers'},
    'metadata': {'code': 'cursors::hand_metadata', 'as': 'metadata_numbers'},
    'next_location': {'code': 'cursors::hand_next', 'by': 'next_location_out'},
}

# words of the kit that a contract uses
PRELUDE, DATA_STATE = 'Rattle.std.specs.Prelude', 'Rattle.objects.specs.declared.state.ObjectDataState.TheVariants'
KIT = {'◌≡◌': PRELUDE, '[]': PRELUDE, '◌∷◌': PRELUDE, 'length': PRELUDE, 'Valid': DATA_STATE, 'Deleted': DATA_STATE}

# ---- the functions, by module: module, what it is, the part of the header before its functions

MEDIUM = [
    dict(name='check', says='A geometry and the room for it: 0, 6 or 7.', place='image',
         calls='medium::geometry::check', args='g, image.len()', number='check_of g (length image)'),
    dict(name='align', says='n bytes aligned up to whole units.', place='alone', params='n aligned>u64',
         calls='medium::geometry::align', args='g, n', means='aligned_of g n', hand='count'),
    dict(name='read', says='A range of one block, into the buffer.', place='image', params='block offset buffer[]>',
         calls='cface::filled::read', args='g, image, block, offset, buffer',
         means='read_at g block offset (length buffer) image', **{'as': 'plain'}),
    dict(name='write', says='Programs the bytes of src at a place of a block: one store, so 3, then 10, then 8.', place='store',
         params='block offset src[]', calls='medium::write', args='g, image, f, block, offset as usize, src', means='write g block offset src', hand='stored'),
    dict(name='erase', says='Sets a block to FF: one unit.', place='store', params='block',
         calls='medium::erase', args='g, image, f, block', means='erase g block', hand='stored'),
]

LOCATIONS = [
    dict(name='location_into_bytes', says='The bytes of a location: the first c + s of the six are set, and *len is c + s.', place='alone',
         params='block offset bytes>six len>u64', calls='cface::filled::location', args='g, at, bytes, len',
         means='into_bytes g at (location_length g)', by='bytes_out'),
    dict(name='location_from_bytes', says='The block and offset that c + s bytes say; 9 for another length.', place='alone',
         params='bytes[] location>location', calls='objects::location::ObjectLocation::from_bytes', args='g, bytes',
         means='from_bytes g bytes', hand='location'),
]

HEADERS = [
    dict(name='header_read', says='The header at a place.', place='image', params='block offset header>header',
         calls='objects::header::ObjectHeader::read', args='g, image, at', means='header_at g at image', hand='header'),
    dict(name='update_state', says='Stores the mark of a state that lies ahead, or is 10; the present state stores nothing, backwards is 4, Free is 9.',
         place='store', params='header=header state:u8', value='target',
         calls='objects::header::ObjectHeader::update_state', on='t.header', args='g, image, f, t.state',
         means='update_state g t.header t.state', hand='headed'),
    dict(name='set_payload_size', says='Stores the low s bytes of a size that is not set yet, or is 10; one that is set is 4.', place='store',
         params='header=header payload_size', value='header',
         calls='objects::header::ObjectHeader::set_payload_size', on='h', args='g, image, f, payload_size',
         means='set_payload_size g h payload_size', hand='headed'),
]

WRITERS = [
    dict(name='writer_allocate',
         says='Stores the type (8F, 8E or 8D, else 4) of a new object, over Free or over Allocated of the same type: its writer. Under '
              'the strict mark the second is 10, and the first where its unit is programmed.',
         place='store', params='block offset kind:type writer>writer', value='type',
         calls='writer::writer::ObjectWriter::allocate', args='g, image, f, at, t', means='allocate g at t', hand='new_writer',
         small='small_by _ _ _ _ {called}.result.answer {called}.result.writer {told} (allocate_small _ _ _ _ _)'),
    dict(name='writer_space', says='The payload bytes that still fit; 9 where the writer stands past the end of its block.', place='alone',
         params='writer<writer space>u64', value='writer', calls='writer::writer::ObjectWriter::space', on='w', args='g',
         means='space_of g w', hand='count'),
    dict(name='writer_payload_size', says='The payload bytes taken so far, stored or held.', place='alone',
         params='writer<writer payload_size>u64', value='writer', calls='writer::writer::ObjectWriter::payload_size', on='w', args='g',
         means='size_of_payload g w', hand='count'),
    dict(name='writer_total_size', says='Those and the header.', place='alone', params='writer<writer total_size>u64', value='writer',
         calls='writer::writer::ObjectWriter::total_size', on='w', args='g', means='size_of_object g w', hand='count', homes=['writer size_of_object']),
    dict(name='writer_write',
         says='Takes payload bytes: whole words are stored, less than a word is held. 5 where they are more than the space. The word that held '
              'bytes fill is a store of its own: 10 of the words behind it leaves it there.',
         place='store', params='writer=writer src[]', value='writer', calls='writer::writer::ObjectWriter::write', on='w',
         args='g, image, f, src', means='write_some g w src', hand='writer',
         small='small_by _ _ _ _ {called}.result.answer {called}.result.writer {told} (some_small _ _ _ _ _)'),
    dict(name='writer_finalize', says='Ends the object: what is held, the size, and the mark of a Finalized object; each store can be 10.',
         place='store', params='writer=writer', value='writer', calls='writer::writer::ObjectWriter::finalize', on='w', args='g, image, f',
         means='finalize g w', hand='writer',
         small='small_by _ _ _ _ {called}.result.answer {called}.result.writer {told} (finalize_small _ _ _ _)'),
    dict(name='writer_delete',
         says='Deletes the object: one that is not Finalized gets its size first; of one that is Free or Deleted nothing is stored. Each store '
              'can be 10.',
         place='store', params='writer=writer', value='writer', calls='writer::writer::ObjectWriter::delete', on='w', args='g, image, f',
         means='delete g w', hand='writer',
         small='small_by _ _ _ _ {called}.result.answer {called}.result.writer {told} (delete_small _ _ _ _)'),
]

READERS = [
    dict(name='reader_new', says='A reader of the Finalized object at a place, or of any object that is there.', place='image',
         params='block offset allow_non_finalized:bool reader>reader', calls='objects::reader::ObjectReader::new',
         args='g, image, at, allow_non_finalized', means='reader_at g at allow_non_finalized image', hand='reader',
         small='new_small _ _ _ _ _ {told}'),
    dict(name='reader_len', says='The payload size of the reader\'s object, 0 where it is unset.', place='alone',
         params='reader<reader len>u64', value='reader', calls='objects::reader::ObjectReader::len', on='r', args='g',
         means='reader_len g r', hand='count'),
    dict(name='reader_remaining', says='What is left of the payload; 9 where the cursor is beyond it.', place='alone',
         params='reader<reader remaining>u64', value='reader', calls='objects::reader::ObjectReader::remaining', on='r', args='g',
         means='Rattle.objects.specs.Reader.remaining g r', hand='count'),
    dict(name='reader_rewind', says='Back to the start of the payload.', place='alone', params='reader=reader',
         calls='cface::cursors::rewind', args='g, reader', means='fitting g (rewind_of reader)', **{'as': 'reader_numbers'}),
    dict(name='reader_read', says='As much of what is left as the buffer holds, into its first *read bytes.', place='image',
         params='reader=reader buffer[]> read>u64', value='reader', calls='cface::cursors::read',
         args='g, image, r, reader, buffer, read', means='read_some g r (length buffer) image', by='chunk_out'),
]

INFOS = [
    dict(name='info_read',
         says='The object at a place: *found is 1 with its header, or 0 where the place is Free (then the header stays as it was).',
         place='image', params='block offset found>u32 header>header', calls='objects::info::read', args='g, image, at',
         means='info_at g at image', hand='info', homes=['objects info_at']),
    dict(name='info_total_size', says='Header and payload together, in bytes.', place='alone', params='header<header total_size>u64',
         value='header', calls='objects::info::total_size', args='g, h', means='size_of_object g h', hand='count', homes=['objects size_of_object']),
    dict(name='info_finalize', says='Stores the mark of a Finalized object, or is 10.', place='store', params='header=header', value='header',
         calls='objects::info::finalize', args='g, image, f, h', means='set_state g h Valid', hand='headed'),
    dict(name='info_delete', says='Stores the mark of a Deleted object, or is 10.', place='store', params='header=header', value='header',
         calls='objects::info::delete', args='g, image, f, h', means='set_state g h Deleted', hand='headed'),
]

METADATA = [
    dict(name='info_read_metadata', says='Path hash and name location of an object that is known by its header.', place='image',
         params='header<header metadata>metadata', value='header', calls='objects::metadata::read', args='g, image, h',
         means='read_metadata g h image', hand='metadata', small='metadata_small _ _ _ _ {told}'),
    dict(name='location_read_metadata', says='The same of the object at a place; a Free place is 2.', place='image',
         params='block offset metadata>metadata', calls='objects::metadata::read_at', args='g, image, at', means='metadata_at g at image',
         hand='metadata', small='metadata_at_small _ _ _ _ {told}'),
    dict(name='metadata_next_object_location',
         says='The location of the next data object: *found is 1 with it, or 0 at the end of the list (then metadata and location stay).',
         place='image', params='metadata=metadata found>u32 location>location', value='metadata',
         calls='objects::metadata::MetadataObjectHeader::next_object_location', on='m', args='g, image',
         means='next_location g m image', hand='next_location',
         small='next_small _ _ _ _ {told}'),
    dict(name='metadata_reset', says='Back to the first data object.', place='alone', params='metadata=metadata',
         calls='cface::cursors::reset', args='g, metadata', means='fitting g (reset_in metadata)', **{'as': 'metadata_numbers'}),
]

ITERATORS = [
    dict(name='iterator_new', says='An iterator right after the header of a block.', place='alone', params='block iterator>iterator',
         calls='crossing::outs::start', args='g, block, iterator', means='fitting g (done (start_of g block))', **{'as': 'iterator_numbers'}),
    dict(name='iterator_next',
         says='The object at the iterator: *found is 1 with its header and the iterator behind it. Where listing stops, iterator and header '
              'stay: *found is 0 at a free place, and 2 at the end of the block.',
         place='image', params='iterator=iterator found>u32 header>header', before='let i = values::iterator_of(iterator);',
         calls='objects::iterator::ObjectIterator::next', on='i', args='g, image', means='next_of g (iterator_of iterator) image',
         hand='next'),
]

MOVING = [
    dict(name='write_to',
         says='An object of a type (8F, 8E or 8D, else 4), written whole: *total_size is its header and payload together. The type is stored '
              'first, and 5, where the payload does not fit, leaves it there; 10 of a later store leaves those before it.',
         place='store', params='block offset kind:type src[] total_size>u64', value='type', calls='writer::writer::ObjectWriter::write_to',
         args='g, image, f, at, t, src', means='write_to g at t src', hand='total'),
    dict(name='copy_object',
         says='The Finalized object that a header names, anew at another place: its header there. The type is the one that the header says. '
              '10 leaves what was stored of it.',
         place='store', params='header<header block offset copy>header', value='header', calls='moving::copy_object',
         args='g, image, f, h, to', means='copy_object g h to', hand='headed'),
    dict(name='move_object',
         says='The same, and then the object is deleted where it was; 10 of its delete mark leaves both, the copy finished.', place='store',
         params='header<header block offset copy>header', value='header', calls='moving::move_object',
         args='g, image, f, h, to', means='move_object g h to', hand='headed'),
]

BATCH = [
    dict(name='write_all',
         says='Up to 64 records in order, each written as stumpchoir_write_to writes an object, up to the first refusal; *done is how many were '
              'written whole. At its turn a record whose range is outside the payload is 7, then one whose type is none of the three is 4, then what '
              'stumpchoir_write_to answers, 10 too.',
         place='store', params='block records[]:u32 payload[] done#u32', calls='batch::write_all',
         args='g, image, f, block, records, payload', means='write_all g block records payload', hand='batched'),
]

STORAGE = [
    dict(name='lookup',
         says='Where the metadata object of a file is, by its path and the hash of the path: the first Finalized object of Metadata blocks, in '
              'block and offset order, that has both; 13 where none has. What is refused on the way ends the search.',
         place='image', params='path[] hash location>location', calls='storage::lookup::lookup', args='g, image, path, hash',
         means='lookup g path hash image', hand='location'),
    dict(name='file_size', says='How long the file is whose metadata object is at a place: every data object is opened.', place='image',
         params='block offset size>u64', calls='storage::file::size', args='g, image, at', means='file_size g at image', hand='count'),
    dict(name='file_read',
         says='Its bytes from a position on, into the first *read bytes of the buffer; none at or past its end. Once the buffer is full no more '
              'is opened. A refused read leaves the whole buffer as it was.',
         place='image', params='block offset position:u64 buffer[]> read>u64', calls='cface_storage::files::read',
         args='g, image, at, position, buffer, read', means='read_file g at position (length buffer) image', by='bytes_out'),
    dict(name='names_new', says='Before the first name.', place='alone', params='names>names', calls='cface_storage::listed::start',
         args='g, names', means='fitting g (done (names_from g))', **{'as': 'names_numbers'}),
    dict(name='names_next',
         says='The next name, in the order of a lookup, into the first *len bytes of the buffer: *found is 1 with it, with the place of its '
              'metadata object and with the names behind it; 0 at the end, and then nothing else changes. 7 for a name longer than the buffer.',
         place='image', params='names=names buffer[]> found>u32 location>location len>u64', calls='cface_storage::listed::next',
         args='g, image, names, buffer, found, location, len', means='next_name g (names_of names) (length buffer) image', by='name_out'),
]

SWEEP = [
    dict(name='sweep',
         says='Of Finalized metadata objects of equal type and payload bytes the first stays, in block and offset order, and the others are '
              'deleted; then each Finalized object of a Data block is that no Finalized metadata object refers to. *twins and *unreferred are how '
              'many were deleted of each. 2 where a Metadata or Data block cannot be listed, then 14 where metadata is not a hash, a name location '
              'and whole locations within its block, or one of these has no Finalized object of a Data block, and under the strict mark; both '
              'before any store.',
         place='store', params='twins#u32 unreferred#u32', calls='sweep::sweep', args='g, image, f', means='sweep g', hand='swept',
         homes=['sweep sweep']),
    dict(name='sweep_with',
         says='The same, and sooner: what was met is noted in the words, which the caller lends, one for each byte of the image; 7 for another number of '
              'them, behind 6 and 7. They come back as 0, and after 6 or 7 as they were.',
         place='store', params='twins#u32 unreferred#u32 words[]~:u32', calls='sweep::sweep_with', args='g, image, f, words', means='sweep_with g (length words)',
         leaves={'words': 'words_after (words_fit g (length image) (length words)) words'}, hand='swept'),
]

BLOCKS = [
    dict(name='block_header_read', says='The header of a block: kind and erase count.', place='image', params='block header>block_header',
         calls='blocks::header::BlockHeader::read', args='g, image, block', means='block_header_at g block image', hand='block_header'),
    dict(name='block_header_write', says='Programs a header, or is 10.', place='store', params='block kind:kind erase_count', value='kind',
         before='let h = BlockHeader {\n    kind: k,\n    erase_count: erase_count,\n};', calls='blocks::header::BlockHeader::write', on='h',
         args='g, image, f, block', means='write_header g block (block_header_of k erase_count)', hand='stored'),
    dict(name='is_block_data_empty', says='Whether all bytes behind the header are FF: 1 or 0.', place='image', params='block empty>u32',
         calls='blocks::format::is_block_data_empty', args='g, image, block', means='data_empty_at g block image', hand='flag'),
    dict(name='format_block', says='Makes a block Undefined and empty; 2 for a known block whose erase count is at its end.', place='store',
         params='block', calls='blocks::format::format_block', args='g, image, f, block', means='format_block g block', hand='stored'),
    dict(name='format_storage', says='Formats every block, from 0 up.', place='store',
         calls='blocks::format::format_storage', args='g, image, f', means='format_storage g', hand='stored'),
    dict(name='scan_block', says='The record of a block, read off its bytes; 1 for an Empty one, 2 where a header in it is corrupted.',
         place='image', params='block record>record', calls='blocks::scan::scan_block', args='g, image, block',
         means='scan_block g block image', hand='record'),
    dict(name='set_block_type',
         says='Programs the type byte; 4 for a kind below 2. Under the strict mark a block that has a type already is 10, but for Undefined, '
              'which stores FF.',
         place='store', params='block kind:block_type', value='block_type', calls='blocks::format::set_block_type', args='g, image, f, block, t',
         means='set_block_type g block t', hand='stored'),
    dict(name='calculate_freeable_space',
         says='What is free, and what unfinished and deleted objects take; 9 where the listing runs past the block.', place='image',
         params='block space>u64', calls='blocks::scan::calculate_freeable_space', args='g, image, block',
         means='calculate_freeable_space g block image', hand='count'),
]

RECORDS = [
    dict(name='record_free_space', says='What is left of a block; 9 where the used bytes pass the block size.', place='alone',
         params='record<record space>u64', value='record', calls='blocks::record::BlockInfo::free_space', on='r', args='g',
         means='free_space g r', hand='count'),
    dict(name='record_is_empty', says='Whether nothing but the header is used: 1 or 0.', place='alone', params='record<record empty>u32',
         value='record', calls='blocks::record::BlockInfo::is_empty', on='r', args='g', means='record_empty g r', hand='flag'),
    dict(name='record_add_used_bytes', says='Adds an object\'s size, aligned up; 9 where the sum passes 4294967295.', place='alone',
         params='record=record total_size', value='record', calls='blocks::record::BlockInfo::add_used_bytes', on='r', args='g, total_size',
         means='add_used_bytes g r total_size', hand='record'),
    dict(name='record_update_stats_after_erase', says='The record of a block that was just formatted; 9 at the last erase count.',
         place='alone', params='record=record', value='record', calls='blocks::record::BlockInfo::update_stats_after_erase', on='r',
         args='g', means='update_stats_after_erase g r', hand='record'),
]

COLLECTOR = [
    dict(name='delete_invalid_objects',
         says='The first pass: deletes objects that a power cut left unfinished, or is 10 where their size or mark cannot be stored.', place='store',
         params='table[]=:u32', calls='collector::delete_invalid_objects', args='g, image, table, f', means='delete_invalid_objects g',
         hand='stored'),
    dict(name='erase_invalid_finished_blocks',
         says='The second: formats blocks without allocation whose only object that is not deleted is an unfinished one.', place='store',
         params='table[]=:u32', calls='collector::erase_invalid_finished_blocks', args='g, image, table, f',
         means='erase_invalid_finished_blocks g', hand='stored'),
    dict(name='erase_full_finished_blocks', says='The third: formats blocks with deleted objects alone, unless they are full.', place='store',
         params='table[]=:u32', calls='collector::erase_full_finished_blocks', args='g, image, table, f',
         means='erase_full_finished_blocks g', hand='stored'),
    dict(name='run', says='A collection: the three passes in order. Only the first can be 10.', place='store', params='table[]=:u32',
         calls='collector::run', args='g, image, table, f', means='collect g', hand='stored'),
]

# the crate that a module's functions are in, where it is not cface
CRATES = {'block_calls': 'cface_blocks', 'record_calls': 'cface_blocks', 'collector_calls': 'cface_blocks', 'batch_calls': 'cface_batch',
          'storage_calls': 'cface_storage', 'sweep_calls': 'cface_sweep'}

GROUPS = [
    ('medium_calls', 'The medium for C.', '/* ---- The medium ---- */', MEDIUM),
    ('location_calls', 'Locations for C.', '/* ---- Locations ---- */', LOCATIONS),
    ('header_calls', 'Headers for C.', '/* ---- Headers of objects ---- */', HEADERS),
    ('writer_calls', 'Writers for C. A writer that came in is as it was after a refusal, and spent after 8.', '''/* ---- Writers ----
 *
 * After 8 `spent` of a writer that went in is 1, and nothing else of it has changed: each later write, finalize and delete of it gives 4. */''',
     WRITERS),
    ('reader_calls', 'Readers for C.', '/* ---- Readers ---- */', READERS),
    ('info_calls', 'Objects that are there, for C: known by their headers.', '/* ---- Objects that are there ---- */', INFOS),
    ('metadata_calls', 'Metadata objects for C.', '/* ---- Metadata objects ---- */', METADATA),
    ('iterator_calls', 'Listing for C.', '/* ---- Listing ---- */', ITERATORS),
    ('moving_calls', 'Objects written whole, copied and moved, for C.', '/* ---- Objects written whole, copied, moved ---- */', MOVING),
    ('batch_calls', 'Several objects of a block in one call, for C.', '''/* ---- Several objects of a block in one call ----
 *
 * The records are lent: four numbers each, type, offset, and start and length in the payload, records_len counted in numbers. 7 for more than
 * 64 records or a part of one, before any store. *done is written in every case, also where the call is refused. */''', BATCH),
    ('block_calls', 'Blocks for C.', '/* ---- Blocks ---- */', BLOCKS),
    ('record_calls', 'The arithmetic of a block\'s record for C.', '/* ---- Records of blocks ---- */', RECORDS),
    ('collector_calls', 'The collector for C. The table is four numbers a block: kind, erase count, used bytes, allow mark.',
     '''/* ---- The collector ----
 *
 * The table is lent: a record a block, four numbers each, table_len counted in numbers. 7 for another length, and 4 for an impossible kind
 * or mark anywhere in it, before any step. After a refusal image and table have exactly what was stored before. */''', COLLECTOR),
    ('storage_calls', 'Files by their names, for C.', '''/* ---- Files by their names ----
 *
 * The hash of a path is the caller's: whatever was stored with it. Nothing is stored here, and no power is needed. */''', STORAGE),
    ('sweep_calls', 'What is left over after power cuts, deleted, for C.', '''/* ---- The sweep ----
 *
 * Metadata objects are the Finalized ones that are listed in Metadata blocks, data and name objects those in Data blocks; other blocks are not
 * looked at. A delete mark is one unit each, and nothing else is stored. *twins and *unreferred are written in every case, also where the call is
 * refused; after 8 the same call again goes on. */''', SWEEP),
]

# ---- the numbers that cross together: a struct with its fields (name, how many numbers), and what it is

STRUCTS = {
    'geometry': dict(
        says='How an image is laid out. granularity is an enum stumpchoir_granularity; s bytes hold a size or an offset, c bytes a block '
             'number, 1 to 3 each; strict is 0, or 1 for a chip that programs no unit twice, which goes with words only. block_size is 64 to '
             '65536, a multiple of 4 and at most 256^s; block_count is at least 1 and at most 256^c; together they are at most 16777216, and '
             'just the length of the image. Anything else is 6, another length 7.',
        fields=[('granularity', 1), ('s', 1), ('c', 1), ('strict', 1), ('block_size', 1), ('block_count', 1)]),
    'location': dict(says='A place in a block.', fields=[('block', 1), ('offset', 1)]),
    'iterator': dict(says='A place in a block from which it is listed.', fields=[('block', 1), ('offset', 1)]),
    'names': dict(says='A place in a store from which file names are listed.', fields=[('block', 1), ('offset', 1)]),
    'header': dict(
        says='An object: an enum stumpchoir_type, an enum stumpchoir_state (Free has type FF, and no other has), the payload size as read or '
             'set, and its place.',
        fields=[('type', 1), ('state', 1), ('size', 1), ('block', 1), ('offset', 1)]),
    'reader': dict(says='A reader: its object, and the payload bytes read so far, at most 65536.', fields=[('header', 5), ('cursor', 1)]),
    'writer': dict(
        says='A writer: its object, the payload bytes stored, those that wait for their word, which are fewer than a unit has, and which they '
             'are (0 to 255 each); spent is 0 or 1.',
        fields=[('header', 5), ('cursor', 1), ('held', 1), ('tail', 4), ('spent', 1)]),
    'metadata': dict(
        says='A metadata object: its header, hash of the path, location of the name, and how far its list was read, at most 65536.',
        fields=[('header', 5), ('path_hash', 1), ('name_block', 1), ('name_offset', 1), ('cursor', 1)]),
    'block_header': dict(says='The header of a block: an enum stumpchoir_kind, and how often it was erased.',
                         fields=[('kind', 1), ('erase_count', 1)]),
    'record': dict(
        says='What is known of a block: an enum stumpchoir_kind, how often it was erased, its used bytes from the start on, and whether '
             'objects may be allocated in it (0 or 1).',
        fields=[('kind', 1), ('erase_count', 1), ('used_bytes', 1), ('allow_mark', 1)]),
}

# ---- numbers with a name: enum -> what it is, and its cases

ENUMS = {
    'answer': ('What every function answers.', [
        ('DONE', 0), ('NOT_FORMATTED', 1), ('FS_CORRUPTED', 2), ('IO', 3), ('INVALID_OPERATION', 4), ('INSUFFICIENT_SPACE', 5),
        ('BAD_GEOMETRY', 6), ('BAD_ROOM', 7), ('POWER_LOST', 8), ('RUST_PANIC', 9), ('NOT_ERASED', 10),
        ('NOT_FOUND', 13), ('DANGLING', 14)]),
    'granularity': ('How finely a chip is programmed: by the bit, by words of a byte, by words of four.', [
        ('BIT', 0), ('WORD1', 1), ('WORD4', 4)]),
    'type': ('Types of objects, as their bytes; FREE where there is none.', [
        ('TYPE_FILE_METADATA', '0x8F'), ('TYPE_FILE_DATA', '0x8E'), ('TYPE_FILE_NAME', '0x8D'), ('TYPE_FREE', '0xFF')]),
    'state': ('States of objects, which only go forward.', [
        ('STATE_FREE', 0), ('STATE_ALLOCATED', 1), ('STATE_FINALIZED', 2), ('STATE_DELETED', 3)]),
    'kind': ('Kinds of blocks. The last three are the types that a block can be given.', [
        ('KIND_EMPTY', 0), ('KIND_UNKNOWN', 1), ('KIND_METADATA', 2), ('KIND_DATA', 3), ('KIND_UNDEFINED', 4)]),
    'found': ('What *found says: a free place (or the end of a list of locations or names), something, the end of a block.', [
        ('FOUND_NONE', 0), ('FOUND', 1), ('FOUND_END', 2)]),
}

HEAD = r"""/* Stumpchoir for C: the low-level layer of norfs over an image in memory, proved. Made by tools/cface, as its functions are.
 *
 * A new store: fill an image with FF, stumpchoir_format_storage, then give each block that is to be used a type with
 * stumpchoir_set_block_type, since a formatted block is Undefined. The first object of a block goes right behind the block's header, at
 * offset 8, under Word(4) at 12 (stumpchoir_iterator_new says it); the next one at offset plus stumpchoir_info_total_size, aligned up by
 * stumpchoir_align. stumpchoir_write_to writes one whole, stumpchoir_iterator_next lists them. The collector's table is a record a block in
 * order, as stumpchoir_scan_block gives them.
 *
 * Every function answers an enum stumpchoir_answer. 6 comes first, then 7 where there is an image, then 4 for numbers that no value has,
 * then what the steps of the operation give, in their order. A refused call leaves every out value as it was and every in/out value as it
 * went in, but for a writer, which is spent after 8, for *done of stumpchoir_write_all, and for *twins, *unreferred and words of the sweeps;
 * image and units have exactly what was stored before the refusal.
 *
 * With strict 1, for a chip that programs no unit twice, a store is 10 where a unit that is not all FF would get data that, filled up with FF, is
 * not all FF. That is after 3 and before 8, nothing is stored of it, and it takes no power. An erase, a format and the collector's second and
 * third pass never give it; stumpchoir_sweep and stumpchoir_sweep_with answer 14. An image's bytes do not tell the mark.
 *
 * Pointers: none is kept after a call. No two of one call may overlap. `units` may be null where `fused` is false, and a buffer may be where
 * its length is 0; no other may be. A length has to be that of the buffer, since no call can tell
 * a false one. Bytes to write that are longer than a block get 3, by a writer 5, and so does stumpchoir_read of so many, even of SIZE_MAX; that
 * is all a test can see.
 * There is no heap and no state beside what is lent, so calls on different images may run at the same time. Calls take less than 16 KiB of
 * stack (at most 8,552 bytes with the thread's own were measured by tools/c-sample).
 *
 * To link: `tools/library`, then cc prog.c with each archive in target/staticlib (x86-64 Linux).
 */
#ifndef STUMPCHOIR_H
#define STUMPCHOIR_H

#include <stdbool.h>
#include <stddef.h>
#include <stdint.h>

#ifdef __cplusplus
extern "C" {
#endif

ENUMS

/* ---- Values are structs of uint32_t, and nothing else stands in them: a caller in another language hands arrays of as many numbers ---- */

STRUCTS

/* ---- What most functions begin with ---- */

#define STUMPCHOIR_GEOMETRY const struct stumpchoir_geometry *geometry

/* An image to read. */
#define STUMPCHOIR_IMAGE const uint8_t *image, size_t image_len

/* An image to store into. Without a fuse (fused false) *units is neither read nor written; with one, *units is the count of units
 * that may still be programmed, and becomes what is left. */
#define STUMPCHOIR_STORE uint8_t *image, size_t image_len, bool fused, uint32_t *units"""

TAIL = """#ifdef __cplusplus
}
#endif

#endif
"""
