//! The exports of libdwarnizza.a, as `include/dwarnizza.h` declares them and says what they do.

#![allow(missing_docs, reason = "the header has the words")]

unsafe extern "C" {
    pub fn dwarnizza_md5(
        data: *const u8,
        data_len: usize,
        digest: &mut [u8; 16],
        answer: &mut [u64; 8],
    ) -> u32;

    pub safe fn dwarnizza_md5_start(
        words: &mut [u32; 4],
        pending: &mut [u8; 64],
        count: &mut u64,
        answer: &mut [u64; 8],
    ) -> u32;

    pub fn dwarnizza_md5_update(
        part: *const u8,
        part_len: usize,
        words: &mut [u32; 4],
        pending: &mut [u8; 64],
        count: &mut u64,
        answer: &mut [u64; 8],
    ) -> u32;

    pub safe fn dwarnizza_md5_finish(
        words: &[u32; 4],
        pending: &[u8; 64],
        count: u64,
        digest: &mut [u8; 16],
        answer: &mut [u64; 8],
    ) -> u32;

    pub fn dwarnizza_index_check(index: *const u8, index_len: usize, answer: &mut [u64; 8]) -> u32;

    pub fn dwarnizza_index_settings(
        index: *const u8,
        index_len: usize,
        answer: &mut [u64; 8],
    ) -> u32;

    pub fn dwarnizza_index_entry(
        index: *const u8,
        index_len: usize,
        page: u64,
        slot: u64,
        answer: &mut [u64; 8],
    ) -> u32;

    pub fn dwarnizza_index_footer(index: *const u8, index_len: usize, answer: &mut [u64; 8])
    -> u32;

    pub fn dwarnizza_index_loose(index: *const u8, index_len: usize, answer: &mut [u64; 8]) -> u32;

    pub fn dwarnizza_index_page(
        index: *const u8,
        index_len: usize,
        page: u64,
        answer: &mut [u64; 8],
    ) -> u32;

    pub fn dwarnizza_index_list(
        index: *const u8,
        index_len: usize,
        output: *mut u8,
        output_len: usize,
        answer: &mut [u64; 8],
    ) -> u32;

    pub fn dwarnizza_index_write(
        version: u32,
        offset_width: u32,
        key_length: u32,
        list: *const u8,
        list_len: usize,
        output: *mut u8,
        output_len: usize,
        answer: &mut [u64; 8],
    ) -> u32;

    pub fn dwarnizza_index_written_length(
        version: u32,
        offset_width: u32,
        key_length: u32,
        list: *const u8,
        list_len: usize,
        answer: &mut [u64; 8],
    ) -> u32;

    pub fn dwarnizza_list_put(
        version: u32,
        offset_width: u32,
        key_length: u32,
        key: *const u8,
        key_len: usize,
        size: u32,
        archive: u32,
        offset: u64,
        output: *mut u8,
        output_len: usize,
        answer: &mut [u64; 8],
    ) -> u32;

    pub fn dwarnizza_index_listing(
        input: *const u8,
        input_len: usize,
        output: *mut u8,
        output_len: usize,
        answer: &mut [u64; 8],
    ) -> u32;

    pub fn dwarnizza_index_lookup(
        index: *const u8,
        index_len: usize,
        key: *const u8,
        key_len: usize,
        answer: &mut [u64; 8],
    ) -> u32;

    pub fn dwarnizza_index_bound(index: *const u8, index_len: usize, answer: &mut [u64; 8]) -> u32;

    pub fn dwarnizza_envelope_open(
        file: *const u8,
        file_len: usize,
        key: *const u8,
        key_len: usize,
        output: *mut u8,
        output_len: usize,
        answer: &mut [u64; 8],
    ) -> u32;

    pub fn dwarnizza_envelope_length(
        file: *const u8,
        file_len: usize,
        key: *const u8,
        key_len: usize,
        answer: &mut [u64; 8],
    ) -> u32;

    pub fn dwarnizza_envelope_key(
        file: *const u8,
        file_len: usize,
        key: &mut [u8; 16],
        answer: &mut [u64; 8],
    ) -> u32;

    pub fn dwarnizza_encoding_check(file: *const u8, file_len: usize, answer: &mut [u64; 8])
    -> u32;

    pub fn dwarnizza_encoding_find_content(
        file: *const u8,
        file_len: usize,
        key: *const u8,
        key_len: usize,
        answer: &mut [u64; 8],
    ) -> u32;

    pub fn dwarnizza_encoding_find_encoding(
        file: *const u8,
        file_len: usize,
        key: *const u8,
        key_len: usize,
        answer: &mut [u64; 8],
    ) -> u32;

    pub fn dwarnizza_encoding_spec(
        file: *const u8,
        file_len: usize,
        number: u32,
        answer: &mut [u64; 8],
    ) -> u32;

    pub fn dwarnizza_root_check(file: *const u8, file_len: usize, answer: &mut [u64; 8]) -> u32;

    pub fn dwarnizza_root_find(
        file: *const u8,
        file_len: usize,
        id: u32,
        locale: u32,
        unwanted: u64,
        key: &mut [u8; 16],
        answer: &mut [u64; 8],
    ) -> u32;

    pub fn dwarnizza_root_find_many(
        file: *const u8,
        file_len: usize,
        ids: *const u8,
        ids_len: usize,
        locale: u32,
        unwanted: u64,
        output: *mut u8,
        output_len: usize,
        answer: &mut [u64; 8],
    ) -> u32;

    pub fn dwarnizza_name_hash(path: *const u8, path_len: usize, answer: &mut [u64; 8]) -> u32;

    pub fn dwarnizza_root_find_path(
        file: *const u8,
        file_len: usize,
        path: *const u8,
        path_len: usize,
        locale: u32,
        unwanted: u64,
        key: &mut [u8; 16],
        answer: &mut [u64; 8],
    ) -> u32;

    pub fn dwarnizza_resolve(
        root: *const u8,
        root_len: usize,
        encoding: *const u8,
        encoding_len: usize,
        index: *const u8,
        index_len: usize,
        id: u32,
        locale: u32,
        unwanted: u64,
        answer: &mut [u64; 8],
    ) -> u32;

    pub fn dwarnizza_key_text(
        text: *const u8,
        text_len: usize,
        key_length: u32,
        key: &mut [u8; 16],
        answer: &mut [u64; 8],
    ) -> u32;

    pub fn dwarnizza_worklist_row(
        text: *const u8,
        text_len: usize,
        at: usize,
        separator: u32,
        answer: &mut [u64; 8],
    ) -> u32;

    pub fn dwarnizza_worklist_field(
        text: *const u8,
        text_len: usize,
        at: usize,
        separator: u32,
        column: usize,
        answer: &mut [u64; 8],
    ) -> u32;

    pub fn dwarnizza_worklist_unquoted(
        field: *const u8,
        field_len: usize,
        output: *mut u8,
        output_len: usize,
        answer: &mut [u64; 8],
    ) -> u32;

    pub fn dwarnizza_file_number(text: *const u8, text_len: usize, answer: &mut [u64; 8]) -> u32;
}
