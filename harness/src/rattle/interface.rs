//! The C interface as include/stumpchoir.h declares it. Made by tools/cface.

#![allow(dead_code)]

unsafe extern "C" {
    pub fn stumpchoir_check(geometry: *const u32, image: *const u8, image_len: usize) -> u8;
    pub fn stumpchoir_align(geometry: *const u32, n: u32, aligned: *mut u64) -> u8;
    pub fn stumpchoir_read(
        geometry: *const u32,
        image: *const u8,
        image_len: usize,
        block: u32,
        offset: u32,
        buffer: *mut u8,
        buffer_len: usize,
    ) -> u8;
    pub fn stumpchoir_write(
        geometry: *const u32,
        image: *mut u8,
        image_len: usize,
        fused: bool,
        units: *mut u32,
        block: u32,
        offset: u32,
        src: *const u8,
        src_len: usize,
    ) -> u8;
    pub fn stumpchoir_erase(
        geometry: *const u32,
        image: *mut u8,
        image_len: usize,
        fused: bool,
        units: *mut u32,
        block: u32,
    ) -> u8;
    pub fn stumpchoir_location_into_bytes(
        geometry: *const u32,
        block: u32,
        offset: u32,
        bytes: *mut u8,
        len: *mut u64,
    ) -> u8;
    pub fn stumpchoir_location_from_bytes(
        geometry: *const u32,
        bytes: *const u8,
        bytes_len: usize,
        location: *mut u32,
    ) -> u8;
    pub fn stumpchoir_header_read(
        geometry: *const u32,
        image: *const u8,
        image_len: usize,
        block: u32,
        offset: u32,
        header: *mut u32,
    ) -> u8;
    pub fn stumpchoir_update_state(
        geometry: *const u32,
        image: *mut u8,
        image_len: usize,
        fused: bool,
        units: *mut u32,
        header: *mut u32,
        state: u8,
    ) -> u8;
    pub fn stumpchoir_set_payload_size(
        geometry: *const u32,
        image: *mut u8,
        image_len: usize,
        fused: bool,
        units: *mut u32,
        header: *mut u32,
        payload_size: u32,
    ) -> u8;
    pub fn stumpchoir_writer_allocate(
        geometry: *const u32,
        image: *mut u8,
        image_len: usize,
        fused: bool,
        units: *mut u32,
        block: u32,
        offset: u32,
        kind: u8,
        writer: *mut u32,
    ) -> u8;
    pub fn stumpchoir_writer_space(geometry: *const u32, writer: *const u32, space: *mut u64) -> u8;
    pub fn stumpchoir_writer_payload_size(geometry: *const u32, writer: *const u32, payload_size: *mut u64) -> u8;
    pub fn stumpchoir_writer_total_size(geometry: *const u32, writer: *const u32, total_size: *mut u64) -> u8;
    pub fn stumpchoir_writer_write(
        geometry: *const u32,
        image: *mut u8,
        image_len: usize,
        fused: bool,
        units: *mut u32,
        writer: *mut u32,
        src: *const u8,
        src_len: usize,
    ) -> u8;
    pub fn stumpchoir_writer_finalize(
        geometry: *const u32,
        image: *mut u8,
        image_len: usize,
        fused: bool,
        units: *mut u32,
        writer: *mut u32,
    ) -> u8;
    pub fn stumpchoir_writer_delete(
        geometry: *const u32,
        image: *mut u8,
        image_len: usize,
        fused: bool,
        units: *mut u32,
        writer: *mut u32,
    ) -> u8;
    pub fn stumpchoir_reader_new(
        geometry: *const u32,
        image: *const u8,
        image_len: usize,
        block: u32,
        offset: u32,
        allow_non_finalized: bool,
        reader: *mut u32,
    ) -> u8;
    pub fn stumpchoir_reader_len(geometry: *const u32, reader: *const u32, len: *mut u64) -> u8;
    pub fn stumpchoir_reader_remaining(geometry: *const u32, reader: *const u32, remaining: *mut u64) -> u8;
    pub fn stumpchoir_reader_rewind(geometry: *const u32, reader: *mut u32) -> u8;
    pub fn stumpchoir_reader_read(
        geometry: *const u32,
        image: *const u8,
        image_len: usize,
        reader: *mut u32,
        buffer: *mut u8,
        buffer_len: usize,
        read: *mut u64,
    ) -> u8;
    pub fn stumpchoir_info_read(
        geometry: *const u32,
        image: *const u8,
        image_len: usize,
        block: u32,
        offset: u32,
        found: *mut u32,
        header: *mut u32,
    ) -> u8;
    pub fn stumpchoir_info_total_size(geometry: *const u32, header: *const u32, total_size: *mut u64) -> u8;
    pub fn stumpchoir_info_finalize(
        geometry: *const u32,
        image: *mut u8,
        image_len: usize,
        fused: bool,
        units: *mut u32,
        header: *mut u32,
    ) -> u8;
    pub fn stumpchoir_info_delete(
        geometry: *const u32,
        image: *mut u8,
        image_len: usize,
        fused: bool,
        units: *mut u32,
        header: *mut u32,
    ) -> u8;
    pub fn stumpchoir_info_read_metadata(
        geometry: *const u32,
        image: *const u8,
        image_len: usize,
        header: *const u32,
        metadata: *mut u32,
    ) -> u8;
    pub fn stumpchoir_location_read_metadata(
        geometry: *const u32,
        image: *const u8,
        image_len: usize,
        block: u32,
        offset: u32,
        metadata: *mut u32,
    ) -> u8;
    pub fn stumpchoir_metadata_next_object_location(
        geometry: *const u32,
        image: *const u8,
        image_len: usize,
        metadata: *mut u32,
        found: *mut u32,
        location: *mut u32,
    ) -> u8;
    pub fn stumpchoir_metadata_reset(geometry: *const u32, metadata: *mut u32) -> u8;
    pub fn stumpchoir_iterator_new(geometry: *const u32, block: u32, iterator: *mut u32) -> u8;
    pub fn stumpchoir_iterator_next(
        geometry: *const u32,
        image: *const u8,
        image_len: usize,
        iterator: *mut u32,
        found: *mut u32,
        header: *mut u32,
    ) -> u8;
    pub fn stumpchoir_write_to(
        geometry: *const u32,
        image: *mut u8,
        image_len: usize,
        fused: bool,
        units: *mut u32,
        block: u32,
        offset: u32,
        kind: u8,
        src: *const u8,
        src_len: usize,
        total_size: *mut u64,
    ) -> u8;
    pub fn stumpchoir_copy_object(
        geometry: *const u32,
        image: *mut u8,
        image_len: usize,
        fused: bool,
        units: *mut u32,
        header: *const u32,
        block: u32,
        offset: u32,
        copy: *mut u32,
    ) -> u8;
    pub fn stumpchoir_move_object(
        geometry: *const u32,
        image: *mut u8,
        image_len: usize,
        fused: bool,
        units: *mut u32,
        header: *const u32,
        block: u32,
        offset: u32,
        copy: *mut u32,
    ) -> u8;
    pub fn stumpchoir_write_all(
        geometry: *const u32,
        image: *mut u8,
        image_len: usize,
        fused: bool,
        units: *mut u32,
        block: u32,
        records: *const u32,
        records_len: usize,
        payload: *const u8,
        payload_len: usize,
        done: *mut u32,
    ) -> u8;
    pub fn stumpchoir_block_header_read(
        geometry: *const u32,
        image: *const u8,
        image_len: usize,
        block: u32,
        header: *mut u32,
    ) -> u8;
    pub fn stumpchoir_block_header_write(
        geometry: *const u32,
        image: *mut u8,
        image_len: usize,
        fused: bool,
        units: *mut u32,
        block: u32,
        kind: u32,
        erase_count: u32,
    ) -> u8;
    pub fn stumpchoir_is_block_data_empty(
        geometry: *const u32,
        image: *const u8,
        image_len: usize,
        block: u32,
        empty: *mut u32,
    ) -> u8;
    pub fn stumpchoir_format_block(
        geometry: *const u32,
        image: *mut u8,
        image_len: usize,
        fused: bool,
        units: *mut u32,
        block: u32,
    ) -> u8;
    pub fn stumpchoir_format_storage(
        geometry: *const u32,
        image: *mut u8,
        image_len: usize,
        fused: bool,
        units: *mut u32,
    ) -> u8;
    pub fn stumpchoir_scan_block(
        geometry: *const u32,
        image: *const u8,
        image_len: usize,
        block: u32,
        record: *mut u32,
    ) -> u8;
    pub fn stumpchoir_set_block_type(
        geometry: *const u32,
        image: *mut u8,
        image_len: usize,
        fused: bool,
        units: *mut u32,
        block: u32,
        kind: u32,
    ) -> u8;
    pub fn stumpchoir_calculate_freeable_space(
        geometry: *const u32,
        image: *const u8,
        image_len: usize,
        block: u32,
        space: *mut u64,
    ) -> u8;
    pub fn stumpchoir_record_free_space(geometry: *const u32, record: *const u32, space: *mut u64) -> u8;
    pub fn stumpchoir_record_is_empty(geometry: *const u32, record: *const u32, empty: *mut u32) -> u8;
    pub fn stumpchoir_record_add_used_bytes(geometry: *const u32, record: *mut u32, total_size: u32) -> u8;
    pub fn stumpchoir_record_update_stats_after_erase(geometry: *const u32, record: *mut u32) -> u8;
    pub fn stumpchoir_delete_invalid_objects(
        geometry: *const u32,
        image: *mut u8,
        image_len: usize,
        fused: bool,
        units: *mut u32,
        table: *mut u32,
        table_len: usize,
    ) -> u8;
    pub fn stumpchoir_erase_invalid_finished_blocks(
        geometry: *const u32,
        image: *mut u8,
        image_len: usize,
        fused: bool,
        units: *mut u32,
        table: *mut u32,
        table_len: usize,
    ) -> u8;
    pub fn stumpchoir_erase_full_finished_blocks(
        geometry: *const u32,
        image: *mut u8,
        image_len: usize,
        fused: bool,
        units: *mut u32,
        table: *mut u32,
        table_len: usize,
    ) -> u8;
    pub fn stumpchoir_run(
        geometry: *const u32,
        image: *mut u8,
        image_len: usize,
        fused: bool,
        units: *mut u32,
        table: *mut u32,
        table_len: usize,
    ) -> u8;
    pub fn stumpchoir_lookup(
        geometry: *const u32,
        image: *const u8,
        image_len: usize,
        path: *const u8,
        path_len: usize,
        hash: u32,
        location: *mut u32,
    ) -> u8;
    pub fn stumpchoir_file_size(
        geometry: *const u32,
        image: *const u8,
        image_len: usize,
        block: u32,
        offset: u32,
        size: *mut u64,
    ) -> u8;
    pub fn stumpchoir_file_read(
        geometry: *const u32,
        image: *const u8,
        image_len: usize,
        block: u32,
        offset: u32,
        position: u64,
        buffer: *mut u8,
        buffer_len: usize,
        read: *mut u64,
    ) -> u8;
    pub fn stumpchoir_names_new(geometry: *const u32, names: *mut u32) -> u8;
    pub fn stumpchoir_names_next(
        geometry: *const u32,
        image: *const u8,
        image_len: usize,
        names: *mut u32,
        buffer: *mut u8,
        buffer_len: usize,
        found: *mut u32,
        location: *mut u32,
        len: *mut u64,
    ) -> u8;
    pub fn stumpchoir_sweep(
        geometry: *const u32,
        image: *mut u8,
        image_len: usize,
        fused: bool,
        units: *mut u32,
        twins: *mut u32,
        unreferred: *mut u32,
    ) -> u8;
    pub fn stumpchoir_sweep_with(
        geometry: *const u32,
        image: *mut u8,
        image_len: usize,
        fused: bool,
        units: *mut u32,
        twins: *mut u32,
        unreferred: *mut u32,
        words: *mut u32,
        words_len: usize,
    ) -> u8;
}
