//! The functions of libcapi.a (crates/capi): slices are a pointer and a length.

#[link(name = "capi", kind = "static")]
extern "C" {
    pub fn mch_truth_word(b: u64, answer: *mut u64) -> u64;
    pub fn mch_char_word(c: u32, answer: *mut u64) -> u64;
    pub fn mch_float_word(bits: u64, answer: *mut u64) -> u64;
    pub fn mch_integer_word(z: i64, answer: *mut u64) -> u64;
    pub fn mch_reference_word(slot: u32, tag: u16, answer: *mut u64) -> u64;
    pub fn mch_read_word(word: u64, answer: *mut u64) -> u64;
    pub fn mch_same_words(a: u64, b: u64, answer: *mut u64) -> u64;
    pub fn mch_open(
        record: *mut u64, size: u64, limit: u64, weights: *const u64, layout: *const u8, layout_length: usize,
        table: *mut u64, table_length: usize, marks: *mut u8, marks_length: usize, order: *mut u32,
        order_length: usize, slots: *const u64, slots_length: usize, scalars: *const u64, scalars_length: usize,
        list: *const u64, list_length: usize, directory: *const u64, directory_length: usize, cells: *const u64,
        cells_length: usize,
    ) -> u64;
    pub fn mch_collect(
        record: *mut u64, slots: *mut u64, slots_length: usize, scalars: *mut u64, scalars_length: usize,
        list: *mut u64, list_length: usize, directory: *const u64, directory_length: usize, cells: *const u64,
        cells_length: usize, layout: *const u8, layout_length: usize, table: *const u64, table_length: usize,
        marks: *mut u8, marks_length: usize, order: *mut u32, order_length: usize, roots: *const u64,
        roots_length: usize, places: *mut u64, places_length: usize, answer: *mut u64,
    ) -> u64;
    pub fn mch_charge(
        record: *mut u64, slots: *const u64, slots_length: usize, scalars: *const u64, scalars_length: usize,
        list: *const u64, list_length: usize, directory: *const u64, directory_length: usize, cells: *const u64,
        cells_length: usize, bytes: u64, answer: *mut u64,
    ) -> u64;
    pub fn mch_fits(
        record: *const u64, slots: *const u64, slots_length: usize, scalars: *const u64, scalars_length: usize,
        list: *const u64, list_length: usize, directory: *const u64, directory_length: usize, cells: *const u64,
        cells_length: usize, bytes: u64, answer: *mut u64,
    ) -> u64;
    pub fn mch_wants_gc(
        record: *const u64, slots: *const u64, slots_length: usize, scalars: *const u64, scalars_length: usize,
        list: *const u64, list_length: usize, directory: *const u64, directory_length: usize, cells: *const u64,
        cells_length: usize, extra: u64, answer: *mut u64,
    ) -> u64;
    pub fn mch_collection_count(
        record: *const u64, slots: *const u64, slots_length: usize, scalars: *const u64, scalars_length: usize,
        list: *const u64, list_length: usize, directory: *const u64, directory_length: usize, cells: *const u64,
        cells_length: usize, answer: *mut u64,
    ) -> u64;
    pub fn mch_freed_count(
        record: *const u64, slots: *const u64, slots_length: usize, scalars: *const u64, scalars_length: usize,
        list: *const u64, list_length: usize, directory: *const u64, directory_length: usize, cells: *const u64,
        cells_length: usize, answer: *mut u64,
    ) -> u64;
    pub fn mch_used_bytes(
        record: *const u64, slots: *const u64, slots_length: usize, scalars: *const u64, scalars_length: usize,
        list: *const u64, list_length: usize, directory: *const u64, directory_length: usize, cells: *const u64,
        cells_length: usize, answer: *mut u64,
    ) -> u64;
    pub fn mch_present_count(
        record: *const u64, slots: *const u64, slots_length: usize, scalars: *const u64, scalars_length: usize,
        list: *const u64, list_length: usize, directory: *const u64, directory_length: usize, cells: *const u64,
        cells_length: usize, answer: *mut u64,
    ) -> u64;
    pub fn mch_cells_in_use(
        record: *const u64, slots: *const u64, slots_length: usize, scalars: *const u64, scalars_length: usize,
        list: *const u64, list_length: usize, directory: *const u64, directory_length: usize, cells: *const u64,
        cells_length: usize, answer: *mut u64,
    ) -> u64;
    pub fn mch_new_string(
        record: *mut u64, slots: *mut u64, slots_length: usize, scalars: *const u64, scalars_length: usize,
        list: *const u64, list_length: usize, directory: *mut u64, directory_length: usize, cells: *mut u64,
        cells_length: usize, bytes: *const u8, bytes_length: usize, answer: *mut u64,
    ) -> u64;
    pub fn mch_new_integer(
        record: *mut u64, slots: *mut u64, slots_length: usize, scalars: *const u64, scalars_length: usize,
        list: *const u64, list_length: usize, directory: *const u64, directory_length: usize, cells: *const u64,
        cells_length: usize, z: i64, answer: *mut u64,
    ) -> u64;
    pub fn mch_new_cell(
        record: *mut u64, slots: *mut u64, slots_length: usize, scalars: *const u64, scalars_length: usize,
        list: *const u64, list_length: usize, directory: *const u64, directory_length: usize, cells: *const u64,
        cells_length: usize, t: u64, word: u64, answer: *mut u64,
    ) -> u64;
    pub fn mch_new_error(
        record: *mut u64, slots: *mut u64, slots_length: usize, scalars: *const u64, scalars_length: usize,
        list: *const u64, list_length: usize, directory: *const u64, directory_length: usize, cells: *const u64,
        cells_length: usize, kind: u16, word: u64, answer: *mut u64,
    ) -> u64;
    pub fn mch_new_box(
        record: *mut u64, slots: *mut u64, slots_length: usize, scalars: *const u64, scalars_length: usize,
        list: *const u64, list_length: usize, directory: *const u64, directory_length: usize, cells: *const u64,
        cells_length: usize, word: u64, answer: *mut u64,
    ) -> u64;
    pub fn mch_new_array(
        record: *mut u64, slots: *mut u64, slots_length: usize, scalars: *const u64, scalars_length: usize,
        list: *const u64, list_length: usize, directory: *mut u64, directory_length: usize, cells: *mut u64,
        cells_length: usize, t: u64, length: i64, answer: *mut u64,
    ) -> u64;
    pub fn mch_new_map(
        record: *mut u64, slots: *mut u64, slots_length: usize, scalars: *mut u64, scalars_length: usize,
        list: *const u64, list_length: usize, directory: *const u64, directory_length: usize, cells: *const u64,
        cells_length: usize, keys: u64, values: u64, answer: *mut u64,
    ) -> u64;
    pub fn mch_new_struct(
        record: *mut u64, slots: *mut u64, slots_length: usize, scalars: *const u64, scalars_length: usize,
        list: *const u64, list_length: usize, directory: *mut u64, directory_length: usize, cells: *mut u64,
        cells_length: usize, number: u64, fields: *const u64, fields_length: usize, answer: *mut u64,
    ) -> u64;
    pub fn mch_new_function(
        record: *mut u64, slots: *mut u64, slots_length: usize, scalars: *const u64, scalars_length: usize,
        list: *const u64, list_length: usize, directory: *mut u64, directory_length: usize, cells: *mut u64,
        cells_length: usize, import: u64, number: u64, captures: *const u64, captures_length: usize, answer: *mut u64,
    ) -> u64;
    pub fn mch_new_iter(
        record: *mut u64, slots: *mut u64, slots_length: usize, scalars: *mut u64, scalars_length: usize,
        list: *const u64, list_length: usize, directory: *const u64, directory_length: usize, cells: *const u64,
        cells_length: usize, source: u64, answer: *mut u64,
    ) -> u64;
    pub fn mch_new_coroutine(
        record: *mut u64, slots: *mut u64, slots_length: usize, scalars: *mut u64, scalars_length: usize,
        list: *const u64, list_length: usize, directory: *mut u64, directory_length: usize, cells: *mut u64,
        cells_length: usize, k: *const u64, registers: *const u64, registers_length: usize, frames: *const u64,
        frames_length: usize, answer: *mut u64,
    ) -> u64;
    pub fn mch_get(
        record: *const u64, slots: *const u64, slots_length: usize, scalars: *const u64, scalars_length: usize,
        list: *const u64, list_length: usize, directory: *const u64, directory_length: usize, cells: *const u64,
        cells_length: usize, word: u64, answer: *mut u64,
    ) -> u64;
    pub fn mch_deref(
        record: *const u64, slots: *const u64, slots_length: usize, scalars: *const u64, scalars_length: usize,
        list: *const u64, list_length: usize, directory: *const u64, directory_length: usize, cells: *const u64,
        cells_length: usize, word: u64, answer: *mut u64,
    ) -> u64;
    pub fn mch_kind_of(
        record: *const u64, slots: *const u64, slots_length: usize, scalars: *const u64, scalars_length: usize,
        list: *const u64, list_length: usize, directory: *const u64, directory_length: usize, cells: *const u64,
        cells_length: usize, word: u64, answer: *mut u64,
    ) -> u64;
    pub fn mch_string_length(
        record: *const u64, slots: *const u64, slots_length: usize, scalars: *const u64, scalars_length: usize,
        list: *const u64, list_length: usize, directory: *const u64, directory_length: usize, cells: *const u64,
        cells_length: usize, word: u64, answer: *mut u64,
    ) -> u64;
    pub fn mch_read_string(
        record: *const u64, slots: *const u64, slots_length: usize, scalars: *const u64, scalars_length: usize,
        list: *const u64, list_length: usize, directory: *const u64, directory_length: usize, cells: *const u64,
        cells_length: usize, word: u64, buffer: *mut u8, buffer_length: usize, answer: *mut u64,
    ) -> u64;
    pub fn mch_read_integer(
        record: *const u64, slots: *const u64, slots_length: usize, scalars: *const u64, scalars_length: usize,
        list: *const u64, list_length: usize, directory: *const u64, directory_length: usize, cells: *const u64,
        cells_length: usize, word: u64, answer: *mut u64,
    ) -> u64;
    pub fn mch_read_cell(
        record: *const u64, slots: *const u64, slots_length: usize, scalars: *const u64, scalars_length: usize,
        list: *const u64, list_length: usize, directory: *const u64, directory_length: usize, cells: *const u64,
        cells_length: usize, word: u64, answer: *mut u64,
    ) -> u64;
    pub fn mch_cell_type(
        record: *const u64, slots: *const u64, slots_length: usize, scalars: *const u64, scalars_length: usize,
        list: *const u64, list_length: usize, directory: *const u64, directory_length: usize, cells: *const u64,
        cells_length: usize, word: u64, answer: *mut u64,
    ) -> u64;
    pub fn mch_error_kind(
        record: *const u64, slots: *const u64, slots_length: usize, scalars: *const u64, scalars_length: usize,
        list: *const u64, list_length: usize, directory: *const u64, directory_length: usize, cells: *const u64,
        cells_length: usize, word: u64, answer: *mut u64,
    ) -> u64;
    pub fn mch_error_word(
        record: *const u64, slots: *const u64, slots_length: usize, scalars: *const u64, scalars_length: usize,
        list: *const u64, list_length: usize, directory: *const u64, directory_length: usize, cells: *const u64,
        cells_length: usize, word: u64, answer: *mut u64,
    ) -> u64;
    pub fn mch_read_box(
        record: *const u64, slots: *const u64, slots_length: usize, scalars: *const u64, scalars_length: usize,
        list: *const u64, list_length: usize, directory: *const u64, directory_length: usize, cells: *const u64,
        cells_length: usize, word: u64, answer: *mut u64,
    ) -> u64;
    pub fn mch_array_type(
        record: *const u64, slots: *const u64, slots_length: usize, scalars: *const u64, scalars_length: usize,
        list: *const u64, list_length: usize, directory: *const u64, directory_length: usize, cells: *const u64,
        cells_length: usize, word: u64, answer: *mut u64,
    ) -> u64;
    pub fn mch_array_length(
        record: *const u64, slots: *const u64, slots_length: usize, scalars: *const u64, scalars_length: usize,
        list: *const u64, list_length: usize, directory: *const u64, directory_length: usize, cells: *const u64,
        cells_length: usize, word: u64, answer: *mut u64,
    ) -> u64;
    pub fn mch_array_capacity(
        record: *const u64, slots: *const u64, slots_length: usize, scalars: *const u64, scalars_length: usize,
        list: *const u64, list_length: usize, directory: *const u64, directory_length: usize, cells: *const u64,
        cells_length: usize, word: u64, answer: *mut u64,
    ) -> u64;
    pub fn mch_read_item(
        record: *const u64, slots: *const u64, slots_length: usize, scalars: *const u64, scalars_length: usize,
        list: *const u64, list_length: usize, directory: *const u64, directory_length: usize, cells: *const u64,
        cells_length: usize, word: u64, i: u64, answer: *mut u64,
    ) -> u64;
    pub fn mch_struct_number(
        record: *const u64, slots: *const u64, slots_length: usize, scalars: *const u64, scalars_length: usize,
        list: *const u64, list_length: usize, directory: *const u64, directory_length: usize, cells: *const u64,
        cells_length: usize, word: u64, answer: *mut u64,
    ) -> u64;
    pub fn mch_field_count(
        record: *const u64, slots: *const u64, slots_length: usize, scalars: *const u64, scalars_length: usize,
        list: *const u64, list_length: usize, directory: *const u64, directory_length: usize, cells: *const u64,
        cells_length: usize, word: u64, answer: *mut u64,
    ) -> u64;
    pub fn mch_read_field(
        record: *const u64, slots: *const u64, slots_length: usize, scalars: *const u64, scalars_length: usize,
        list: *const u64, list_length: usize, directory: *const u64, directory_length: usize, cells: *const u64,
        cells_length: usize, word: u64, i: u64, answer: *mut u64,
    ) -> u64;
    pub fn mch_is_import(
        record: *const u64, slots: *const u64, slots_length: usize, scalars: *const u64, scalars_length: usize,
        list: *const u64, list_length: usize, directory: *const u64, directory_length: usize, cells: *const u64,
        cells_length: usize, word: u64, answer: *mut u64,
    ) -> u64;
    pub fn mch_function_number(
        record: *const u64, slots: *const u64, slots_length: usize, scalars: *const u64, scalars_length: usize,
        list: *const u64, list_length: usize, directory: *const u64, directory_length: usize, cells: *const u64,
        cells_length: usize, word: u64, answer: *mut u64,
    ) -> u64;
    pub fn mch_capture_count(
        record: *const u64, slots: *const u64, slots_length: usize, scalars: *const u64, scalars_length: usize,
        list: *const u64, list_length: usize, directory: *const u64, directory_length: usize, cells: *const u64,
        cells_length: usize, word: u64, answer: *mut u64,
    ) -> u64;
    pub fn mch_read_capture(
        record: *const u64, slots: *const u64, slots_length: usize, scalars: *const u64, scalars_length: usize,
        list: *const u64, list_length: usize, directory: *const u64, directory_length: usize, cells: *const u64,
        cells_length: usize, word: u64, i: u64, answer: *mut u64,
    ) -> u64;
    pub fn mch_read_state(
        record: *const u64, slots: *const u64, slots_length: usize, scalars: *const u64, scalars_length: usize,
        list: *const u64, list_length: usize, directory: *const u64, directory_length: usize, cells: *const u64,
        cells_length: usize, word: u64, answer: *mut u64,
    ) -> u64;
    pub fn mch_read_payload(
        record: *const u64, slots: *const u64, slots_length: usize, scalars: *const u64, scalars_length: usize,
        list: *const u64, list_length: usize, directory: *const u64, directory_length: usize, cells: *const u64,
        cells_length: usize, word: u64, answer: *mut u64,
    ) -> u64;
    pub fn mch_read_key(
        record: *const u64, slots: *const u64, slots_length: usize, scalars: *const u64, scalars_length: usize,
        list: *const u64, list_length: usize, directory: *const u64, directory_length: usize, cells: *const u64,
        cells_length: usize, word: u64, answer: *mut u64,
    ) -> u64;
    pub fn mch_read_result(
        record: *const u64, slots: *const u64, slots_length: usize, scalars: *const u64, scalars_length: usize,
        list: *const u64, list_length: usize, directory: *const u64, directory_length: usize, cells: *const u64,
        cells_length: usize, word: u64, answer: *mut u64,
    ) -> u64;
    pub fn mch_read_signal(
        record: *const u64, slots: *const u64, slots_length: usize, scalars: *const u64, scalars_length: usize,
        list: *const u64, list_length: usize, directory: *const u64, directory_length: usize, cells: *const u64,
        cells_length: usize, word: u64, answer: *mut u64,
    ) -> u64;
    pub fn mch_coroutine_sequence(
        record: *const u64, slots: *const u64, slots_length: usize, scalars: *const u64, scalars_length: usize,
        list: *const u64, list_length: usize, directory: *const u64, directory_length: usize, cells: *const u64,
        cells_length: usize, word: u64, answer: *mut u64,
    ) -> u64;
    pub fn mch_coroutine_finalized(
        record: *const u64, slots: *const u64, slots_length: usize, scalars: *const u64, scalars_length: usize,
        list: *const u64, list_length: usize, directory: *const u64, directory_length: usize, cells: *const u64,
        cells_length: usize, word: u64, answer: *mut u64,
    ) -> u64;
    pub fn mch_register_count(
        record: *const u64, slots: *const u64, slots_length: usize, scalars: *const u64, scalars_length: usize,
        list: *const u64, list_length: usize, directory: *const u64, directory_length: usize, cells: *const u64,
        cells_length: usize, word: u64, answer: *mut u64,
    ) -> u64;
    pub fn mch_frame_count(
        record: *const u64, slots: *const u64, slots_length: usize, scalars: *const u64, scalars_length: usize,
        list: *const u64, list_length: usize, directory: *const u64, directory_length: usize, cells: *const u64,
        cells_length: usize, word: u64, answer: *mut u64,
    ) -> u64;
    pub fn mch_read_frame(
        record: *const u64, slots: *const u64, slots_length: usize, scalars: *const u64, scalars_length: usize,
        list: *const u64, list_length: usize, directory: *const u64, directory_length: usize, cells: *const u64,
        cells_length: usize, word: u64, i: u64, answer: *mut u64,
    ) -> u64;
    pub fn mch_read_register(
        record: *const u64, slots: *const u64, slots_length: usize, scalars: *const u64, scalars_length: usize,
        list: *const u64, list_length: usize, directory: *const u64, directory_length: usize, cells: *const u64,
        cells_length: usize, word: u64, i: u64, answer: *mut u64,
    ) -> u64;
    pub fn mch_store_cell(
        record: *const u64, slots: *mut u64, slots_length: usize, scalars: *const u64, scalars_length: usize,
        list: *const u64, list_length: usize, directory: *const u64, directory_length: usize, cells: *const u64,
        cells_length: usize, word: u64, value: u64, answer: *mut u64,
    ) -> u64;
    pub fn mch_store_box(
        record: *const u64, slots: *mut u64, slots_length: usize, scalars: *const u64, scalars_length: usize,
        list: *const u64, list_length: usize, directory: *const u64, directory_length: usize, cells: *const u64,
        cells_length: usize, word: u64, value: u64, answer: *mut u64,
    ) -> u64;
    pub fn mch_store_item(
        record: *const u64, slots: *const u64, slots_length: usize, scalars: *const u64, scalars_length: usize,
        list: *const u64, list_length: usize, directory: *const u64, directory_length: usize, cells: *mut u64,
        cells_length: usize, word: u64, i: u64, value: u64, answer: *mut u64,
    ) -> u64;
    pub fn mch_push(
        record: *mut u64, slots: *mut u64, slots_length: usize, scalars: *const u64, scalars_length: usize,
        list: *const u64, list_length: usize, directory: *mut u64, directory_length: usize, cells: *mut u64,
        cells_length: usize, word: u64, value: u64, answer: *mut u64,
    ) -> u64;
    pub fn mch_pop(
        record: *const u64, slots: *mut u64, slots_length: usize, scalars: *const u64, scalars_length: usize,
        list: *const u64, list_length: usize, directory: *const u64, directory_length: usize, cells: *const u64,
        cells_length: usize, word: u64, answer: *mut u64,
    ) -> u64;
    pub fn mch_store_field(
        record: *const u64, slots: *const u64, slots_length: usize, scalars: *const u64, scalars_length: usize,
        list: *const u64, list_length: usize, directory: *const u64, directory_length: usize, cells: *mut u64,
        cells_length: usize, word: u64, i: u64, value: u64, answer: *mut u64,
    ) -> u64;
    pub fn mch_store_capture(
        record: *const u64, slots: *const u64, slots_length: usize, scalars: *const u64, scalars_length: usize,
        list: *const u64, list_length: usize, directory: *const u64, directory_length: usize, cells: *mut u64,
        cells_length: usize, word: u64, i: u64, value: u64, answer: *mut u64,
    ) -> u64;
    pub fn mch_store_register(
        record: *const u64, slots: *const u64, slots_length: usize, scalars: *const u64, scalars_length: usize,
        list: *const u64, list_length: usize, directory: *const u64, directory_length: usize, cells: *mut u64,
        cells_length: usize, word: u64, i: u64, value: u64, answer: *mut u64,
    ) -> u64;
    pub fn mch_store_payload(
        record: *const u64, slots: *const u64, slots_length: usize, scalars: *mut u64, scalars_length: usize,
        list: *const u64, list_length: usize, directory: *const u64, directory_length: usize, cells: *const u64,
        cells_length: usize, word: u64, value: u64, answer: *mut u64,
    ) -> u64;
    pub fn mch_store_key(
        record: *const u64, slots: *const u64, slots_length: usize, scalars: *mut u64, scalars_length: usize,
        list: *const u64, list_length: usize, directory: *const u64, directory_length: usize, cells: *const u64,
        cells_length: usize, word: u64, value: u64, answer: *mut u64,
    ) -> u64;
    pub fn mch_store_result(
        record: *const u64, slots: *const u64, slots_length: usize, scalars: *mut u64, scalars_length: usize,
        list: *const u64, list_length: usize, directory: *const u64, directory_length: usize, cells: *const u64,
        cells_length: usize, word: u64, value: u64, answer: *mut u64,
    ) -> u64;
    pub fn mch_store_signal(
        record: *const u64, slots: *const u64, slots_length: usize, scalars: *mut u64, scalars_length: usize,
        list: *const u64, list_length: usize, directory: *const u64, directory_length: usize, cells: *const u64,
        cells_length: usize, word: u64, value: u64, answer: *mut u64,
    ) -> u64;
    pub fn mch_set_state(
        record: *const u64, slots: *mut u64, slots_length: usize, scalars: *const u64, scalars_length: usize,
        list: *const u64, list_length: usize, directory: *const u64, directory_length: usize, cells: *const u64,
        cells_length: usize, word: u64, s: u64, answer: *mut u64,
    ) -> u64;
    pub fn mch_put(
        record: *mut u64, slots: *mut u64, slots_length: usize, scalars: *mut u64, scalars_length: usize,
        list: *const u64, list_length: usize, directory: *mut u64, directory_length: usize, cells: *mut u64,
        cells_length: usize, word: u64, hash: u64, key: u64, value: u64, answer: *mut u64,
    ) -> u64;
    pub fn mch_insert_entry(
        record: *mut u64, slots: *mut u64, slots_length: usize, scalars: *mut u64, scalars_length: usize,
        list: *const u64, list_length: usize, directory: *mut u64, directory_length: usize, cells: *mut u64,
        cells_length: usize, word: u64, hash: u64, key: u64, value: u64, answer: *mut u64,
    ) -> u64;
    pub fn mch_find(
        record: *const u64, slots: *const u64, slots_length: usize, scalars: *const u64, scalars_length: usize,
        list: *const u64, list_length: usize, directory: *const u64, directory_length: usize, cells: *const u64,
        cells_length: usize, word: u64, hash: u64, key: u64, answer: *mut u64,
    ) -> u64;
    pub fn mch_remove(
        record: *mut u64, slots: *mut u64, slots_length: usize, scalars: *mut u64, scalars_length: usize,
        list: *const u64, list_length: usize, directory: *mut u64, directory_length: usize, cells: *mut u64,
        cells_length: usize, word: u64, hash: u64, key: u64, answer: *mut u64,
    ) -> u64;
    pub fn mch_remove_at(
        record: *mut u64, slots: *mut u64, slots_length: usize, scalars: *mut u64, scalars_length: usize,
        list: *const u64, list_length: usize, directory: *mut u64, directory_length: usize, cells: *mut u64,
        cells_length: usize, word: u64, pos: u64, answer: *mut u64,
    ) -> u64;
    pub fn mch_read_entry(
        record: *const u64, slots: *const u64, slots_length: usize, scalars: *const u64, scalars_length: usize,
        list: *const u64, list_length: usize, directory: *const u64, directory_length: usize, cells: *const u64,
        cells_length: usize, word: u64, pos: u64, answer: *mut u64,
    ) -> u64;
    pub fn mch_set_value(
        record: *const u64, slots: *const u64, slots_length: usize, scalars: *const u64, scalars_length: usize,
        list: *const u64, list_length: usize, directory: *const u64, directory_length: usize, cells: *mut u64,
        cells_length: usize, word: u64, pos: u64, value: u64, answer: *mut u64,
    ) -> u64;
    pub fn mch_note(
        record: *const u64, slots: *mut u64, slots_length: usize, scalars: *mut u64, scalars_length: usize,
        list: *const u64, list_length: usize, directory: *const u64, directory_length: usize, cells: *const u64,
        cells_length: usize, word: u64, k: i64, answer: *mut u64,
    ) -> u64;
    pub fn mch_next_key(
        record: *const u64, slots: *const u64, slots_length: usize, scalars: *const u64, scalars_length: usize,
        list: *const u64, list_length: usize, directory: *const u64, directory_length: usize, cells: *const u64,
        cells_length: usize, word: u64, answer: *mut u64,
    ) -> u64;
    pub fn mch_noted_key(
        record: *const u64, slots: *const u64, slots_length: usize, scalars: *const u64, scalars_length: usize,
        list: *const u64, list_length: usize, directory: *const u64, directory_length: usize, cells: *const u64,
        cells_length: usize, word: u64, answer: *mut u64,
    ) -> u64;
    pub fn mch_next(
        record: *const u64, slots: *const u64, slots_length: usize, scalars: *const u64, scalars_length: usize,
        list: *const u64, list_length: usize, directory: *const u64, directory_length: usize, cells: *const u64,
        cells_length: usize, word: u64, cursor: *mut u64, answer: *mut u64,
    ) -> u64;
    pub fn mch_live_count(
        record: *const u64, slots: *const u64, slots_length: usize, scalars: *const u64, scalars_length: usize,
        list: *const u64, list_length: usize, directory: *const u64, directory_length: usize, cells: *const u64,
        cells_length: usize, word: u64, answer: *mut u64,
    ) -> u64;
    pub fn mch_place_count(
        record: *const u64, slots: *const u64, slots_length: usize, scalars: *const u64, scalars_length: usize,
        list: *const u64, list_length: usize, directory: *const u64, directory_length: usize, cells: *const u64,
        cells_length: usize, word: u64, answer: *mut u64,
    ) -> u64;
    pub fn mch_is_hashed(
        record: *const u64, slots: *const u64, slots_length: usize, scalars: *const u64, scalars_length: usize,
        list: *const u64, list_length: usize, directory: *const u64, directory_length: usize, cells: *const u64,
        cells_length: usize, word: u64, answer: *mut u64,
    ) -> u64;
    pub fn mch_key_type(
        record: *const u64, slots: *const u64, slots_length: usize, scalars: *const u64, scalars_length: usize,
        list: *const u64, list_length: usize, directory: *const u64, directory_length: usize, cells: *const u64,
        cells_length: usize, word: u64, answer: *mut u64,
    ) -> u64;
    pub fn mch_value_type(
        record: *const u64, slots: *const u64, slots_length: usize, scalars: *const u64, scalars_length: usize,
        list: *const u64, list_length: usize, directory: *const u64, directory_length: usize, cells: *const u64,
        cells_length: usize, word: u64, answer: *mut u64,
    ) -> u64;
    pub fn mch_map_epoch(
        record: *const u64, slots: *const u64, slots_length: usize, scalars: *const u64, scalars_length: usize,
        list: *const u64, list_length: usize, directory: *const u64, directory_length: usize, cells: *const u64,
        cells_length: usize, word: u64, answer: *mut u64,
    ) -> u64;
    pub fn mch_next_sequence(
        record: *const u64, slots: *const u64, slots_length: usize, scalars: *const u64, scalars_length: usize,
        list: *const u64, list_length: usize, directory: *const u64, directory_length: usize, cells: *const u64,
        cells_length: usize, word: u64, answer: *mut u64,
    ) -> u64;
    pub fn mch_entry_capacity(
        record: *const u64, slots: *const u64, slots_length: usize, scalars: *const u64, scalars_length: usize,
        list: *const u64, list_length: usize, directory: *const u64, directory_length: usize, cells: *const u64,
        cells_length: usize, word: u64, answer: *mut u64,
    ) -> u64;
    pub fn mch_index_length(
        record: *const u64, slots: *const u64, slots_length: usize, scalars: *const u64, scalars_length: usize,
        list: *const u64, list_length: usize, directory: *const u64, directory_length: usize, cells: *const u64,
        cells_length: usize, word: u64, answer: *mut u64,
    ) -> u64;
    pub fn mch_growth_bytes(
        record: *const u64, slots: *const u64, slots_length: usize, scalars: *const u64, scalars_length: usize,
        list: *const u64, list_length: usize, directory: *const u64, directory_length: usize, cells: *const u64,
        cells_length: usize, word: u64, key: u64, answer: *mut u64,
    ) -> u64;
    pub fn mch_iter_next(
        record: *const u64, slots: *const u64, slots_length: usize, scalars: *mut u64, scalars_length: usize,
        list: *const u64, list_length: usize, directory: *const u64, directory_length: usize, cells: *const u64,
        cells_length: usize, word: u64, answer: *mut u64,
    ) -> u64;
    pub fn mch_iter_key(
        record: *const u64, slots: *const u64, slots_length: usize, scalars: *const u64, scalars_length: usize,
        list: *const u64, list_length: usize, directory: *const u64, directory_length: usize, cells: *const u64,
        cells_length: usize, word: u64, answer: *mut u64,
    ) -> u64;
    pub fn mch_iter_source(
        record: *const u64, slots: *const u64, slots_length: usize, scalars: *const u64, scalars_length: usize,
        list: *const u64, list_length: usize, directory: *const u64, directory_length: usize, cells: *const u64,
        cells_length: usize, word: u64, answer: *mut u64,
    ) -> u64;
    pub fn mch_iter_key_type(
        record: *const u64, slots: *const u64, slots_length: usize, scalars: *const u64, scalars_length: usize,
        list: *const u64, list_length: usize, directory: *const u64, directory_length: usize, cells: *const u64,
        cells_length: usize, word: u64, answer: *mut u64,
    ) -> u64;
    pub fn mch_iter_ended(
        record: *const u64, slots: *const u64, slots_length: usize, scalars: *const u64, scalars_length: usize,
        list: *const u64, list_length: usize, directory: *const u64, directory_length: usize, cells: *const u64,
        cells_length: usize, word: u64, answer: *mut u64,
    ) -> u64;
    pub fn mch_iter_cursor(
        record: *const u64, slots: *const u64, slots_length: usize, scalars: *const u64, scalars_length: usize,
        list: *const u64, list_length: usize, directory: *const u64, directory_length: usize, cells: *const u64,
        cells_length: usize, word: u64, answer: *mut u64,
    ) -> u64;
}
