//! The library behind the calls of scale.rs: a heap over buffers of this program, every call by its own function of libcapi.a.
use crate::scale::{extra, Answer, Call};

macro_rules! calls {
    ($($name:ident($($a:ident: $t:ty),*);)*) => {
        unsafe extern "C" {
            $(fn $name(heap: *mut u64, slots: *mut u64, n: usize, scalars: *mut u64, m: usize, list: *mut u64, k: usize,
                directory: *mut u64, j: usize, cells: *mut u64, i: usize, $($a: $t,)* answer: *mut u64) -> u64;)*
        }
    };
}

calls! {
    mch_charge(bytes: u64); mch_fits(bytes: u64); mch_wants_gc(extra: u64); mch_collection_count(); mch_freed_count(); mch_present_count();
    mch_cells_in_use(); mch_new_string(bytes: *const u8, count: usize); mch_new_integer(z: i64); mch_new_cell(t: u64, w: u64);
    mch_new_error(kind: u16, w: u64); mch_new_box(w: u64); mch_new_array(t: u64, length: i64); mch_new_map(keys: u64, values: u64);
    mch_new_struct(number: u64, fields: *const u64, count: usize); mch_new_function(import: u64, number: u64, captures: *const u64, count: usize);
    mch_new_iter(source: u64); mch_new_coroutine(words: *const u64, registers: *const u64, r: usize, frames: *const u64, f: usize);
    mch_get(w: u64); mch_deref(w: u64); mch_kind_of(w: u64); mch_string_length(w: u64); mch_read_string(w: u64, buffer: *mut u8, count: usize);
    mch_read_integer(w: u64); mch_read_cell(w: u64); mch_cell_type(w: u64); mch_error_kind(w: u64); mch_error_word(w: u64); mch_read_box(w: u64);
    mch_array_type(w: u64); mch_array_length(w: u64); mch_array_capacity(w: u64); mch_read_item(w: u64, p: u64); mch_struct_number(w: u64);
    mch_field_count(w: u64); mch_read_field(w: u64, p: u64); mch_is_import(w: u64); mch_function_number(w: u64); mch_capture_count(w: u64);
    mch_read_capture(w: u64, p: u64); mch_read_state(w: u64); mch_read_payload(w: u64); mch_read_key(w: u64); mch_read_result(w: u64);
    mch_read_signal(w: u64); mch_coroutine_sequence(w: u64); mch_coroutine_finalized(w: u64); mch_register_count(w: u64); mch_frame_count(w: u64);
    mch_read_frame(w: u64, p: u64); mch_read_register(w: u64, p: u64); mch_store_cell(w: u64, v: u64); mch_store_box(w: u64, v: u64);
    mch_store_item(w: u64, p: u64, v: u64); mch_push(w: u64, v: u64); mch_pop(w: u64); mch_store_field(w: u64, p: u64, v: u64);
    mch_store_capture(w: u64, p: u64, v: u64); mch_store_register(w: u64, p: u64, v: u64); mch_store_payload(w: u64, v: u64);
    mch_store_key(w: u64, v: u64); mch_store_result(w: u64, v: u64); mch_store_signal(w: u64, v: u64); mch_set_state(w: u64, s: u64);
    mch_put(w: u64, hash: u64, key: u64, value: u64); mch_insert_entry(w: u64, hash: u64, key: u64, value: u64);
    mch_find(w: u64, hash: u64, key: u64); mch_remove(w: u64, hash: u64, key: u64); mch_remove_at(w: u64, p: u64); mch_read_entry(w: u64, p: u64);
    mch_set_value(w: u64, p: u64, v: u64); mch_note(w: u64, key: i64); mch_next_key(w: u64); mch_noted_key(w: u64);
    mch_next(w: u64, cursor: *mut u64); mch_live_count(w: u64); mch_place_count(w: u64); mch_is_hashed(w: u64); mch_key_type(w: u64);
    mch_value_type(w: u64); mch_map_epoch(w: u64); mch_next_sequence(w: u64); mch_entry_capacity(w: u64); mch_index_length(w: u64);
    mch_growth_bytes(w: u64, key: u64); mch_iter_next(w: u64); mch_iter_key(w: u64); mch_iter_source(w: u64); mch_iter_key_type(w: u64);
    mch_iter_ended(w: u64); mch_iter_cursor(w: u64);
    mch_collect(layout: *const u8, a: usize, table: *const u64, b: usize, marks: *mut u8, c: usize, order: *mut u32, d: usize,
        roots: *const u64, e: usize, places: *mut u64, f: usize);
}

unsafe extern "C" {
    fn mch_open(heap: *mut u64, size: u64, limit: u64, weights: *const u64, layout: *const u8, a: usize, table: *mut u64, b: usize, marks: *mut u8, c: usize,
        order: *mut u32, d: usize, slots: *const u64, n: usize, scalars: *const u64, m: usize, list: *const u64, k: usize, directory: *const u64, j: usize,
        cells: *const u64, i: usize) -> u64;
    fn mch_truth_word(b: u64, answer: *mut u64) -> u64;
    fn mch_char_word(c: u32, answer: *mut u64) -> u64;
    fn mch_float_word(bits: u64, answer: *mut u64) -> u64;
    fn mch_integer_word(z: i64, answer: *mut u64) -> u64;
    fn mch_reference_word(slot: u32, tag: u16, answer: *mut u64) -> u64;
    fn mch_read_word(w: u64, answer: *mut u64) -> u64;
    fn mch_same_words(a: u64, b: u64, answer: *mut u64) -> u64;
}

pub(crate) struct Ours {
    heap: [u64; 19],
    slots: Vec<u64>,
    scalars: Vec<u64>,
    list: Vec<u64>,
    directory: Vec<u64>,
    cells: Vec<u64>,
    layout: Vec<u8>,
    table: Vec<u64>,
    marks: Vec<u8>,
    order: Vec<u32>,
}

impl Ours {
    pub(crate) fn new(slots: usize, cells: usize) -> Ours {
        Ours { heap: [0; 19], slots: vec![0; 8 * slots], scalars: vec![0; 8 * slots], list: vec![0; slots], directory: vec![0; 2 * slots], cells: vec![0; cells],
            layout: Vec::new(), table: vec![0; 514], marks: vec![0; slots], order: vec![0; 2 * slots] }
    }

    pub(crate) fn open(&mut self, size: u64, limit: u64, weights: [u64; 5], layout: &[u8]) {
        self.layout = layout.to_vec();
        let r = unsafe {
            mch_open(self.heap.as_mut_ptr(), size, limit, weights.as_ptr(), self.layout.as_ptr(), self.layout.len(), self.table.as_mut_ptr(), self.table.len(),
                self.marks.as_mut_ptr(), self.marks.len(), self.order.as_mut_ptr(), self.order.len(), self.slots.as_ptr(), self.slots.len(),
                self.scalars.as_ptr(), self.scalars.len(), self.list.as_ptr(), self.list.len(), self.directory.as_ptr(), self.directory.len(),
                self.cells.as_ptr(), self.cells.len())
        };
        assert_eq!(r, 0, "the opening is refused");
    }

    pub(crate) fn taken(&self) -> u64 { self.heap[14] }
    pub(crate) fn present(&self) -> u64 { self.heap[15] }

    pub(crate) fn call(&mut self, call: &Call) -> Answer {
        let mut x = [0u64; 6];
        let a = call.a;
        let mut places = Vec::new();
        let mut bytes = Vec::new();
        macro_rules! go {
            ($f:ident $(, $v:expr)*) => {
                $f(self.heap.as_mut_ptr(), self.slots.as_mut_ptr(), self.slots.len(), self.scalars.as_mut_ptr(), self.scalars.len(), self.list.as_mut_ptr(), self.list.len(),
                    self.directory.as_mut_ptr(), self.directory.len(), self.cells.as_mut_ptr(), self.cells.len(), $($v,)* x.as_mut_ptr())
            };
        }
        let refusal = unsafe {
            match call.code {
                0x01 => go!(mch_new_box, a[0]),
                0x02 => go!(mch_new_array, a[0], a[1] as i64),
                0x03 => go!(mch_new_map, a[0], a[1]),
                0x04 => go!(mch_new_string, call.bytes.as_ptr(), call.bytes.len()),
                0x05 => go!(mch_new_integer, a[0] as i64),
                0x06 => go!(mch_read_box, a[0]),
                0x07 => go!(mch_new_cell, a[0], a[1]),
                0x08 => go!(mch_new_error, a[0] as u16, a[1]),
                0x09 => go!(mch_new_struct, a[0], call.words.as_ptr(), call.words.len()),
                0x0A => go!(mch_new_function, a[0], a[1], call.words.as_ptr(), call.words.len()),
                0x0D => go!(mch_new_iter, a[0]),
                0x0E => go!(mch_new_coroutine, a.as_ptr(), call.words.as_ptr(), call.words.len(), call.frames.as_ptr(), call.frames.len()),
                0x0F => {
                    places = (0..a[0]).map(|i| 0xAAAA_AAAA_AAAA_0000 + i).collect();
                    go!(mch_collect, self.layout.as_ptr(), self.layout.len(), self.table.as_ptr(), self.table.len(), self.marks.as_mut_ptr(), self.marks.len(),
                        self.order.as_mut_ptr(), self.order.len(), call.words.as_ptr(), call.words.len(), places.as_mut_ptr(), places.len())
                }
                0x10 => go!(mch_array_length, a[0]),
                0x11 => go!(mch_read_item, a[0], a[1]),
                0x12 => go!(mch_store_item, a[0], a[1], a[2]),
                0x13 => go!(mch_push, a[0], a[1]),
                0x14 => go!(mch_pop, a[0]),
                0x15 => go!(mch_store_box, a[0], a[1]),
                0x16 => go!(mch_read_cell, a[0]),
                0x17 => go!(mch_store_cell, a[0], a[1]),
                0x18 => go!(mch_read_field, a[0], a[1]),
                0x19 => go!(mch_store_field, a[0], a[1], a[2]),
                0x1A => go!(mch_read_capture, a[0], a[1]),
                0x1B => go!(mch_store_capture, a[0], a[1], a[2]),
                0x1C => go!(mch_read_register, a[0], a[1]),
                0x1D => go!(mch_store_register, a[0], a[1], a[2]),
                0x1E => go!(mch_read_state, a[0]),
                0x1F => go!(mch_set_state, a[0], a[1]),
                0x20 => match a[1] {
                    0 => go!(mch_read_payload, a[0]),
                    1 => go!(mch_read_key, a[0]),
                    2 => go!(mch_read_result, a[0]),
                    3 => go!(mch_read_signal, a[0]),
                    4 => go!(mch_coroutine_sequence, a[0]),
                    5 => go!(mch_coroutine_finalized, a[0]),
                    6 => go!(mch_register_count, a[0]),
                    _ => go!(mch_frame_count, a[0]),
                },
                0x21 => match a[1] {
                    0 => go!(mch_store_payload, a[0], a[2]),
                    1 => go!(mch_store_key, a[0], a[2]),
                    2 => go!(mch_store_result, a[0], a[2]),
                    _ => go!(mch_store_signal, a[0], a[2]),
                },
                0x22 => go!(mch_error_kind, a[0]),
                0x23 => go!(mch_error_word, a[0]),
                0x24 => go!(mch_read_integer, a[0]),
                0x25 => go!(mch_string_length, a[0]),
                0x26 => { bytes = vec![0xEE; a[1] as usize]; go!(mch_read_string, a[0], bytes.as_mut_ptr(), bytes.len()) }
                0x27 => go!(mch_get, a[0]),
                0x28 => go!(mch_deref, a[0]),
                0x29 => go!(mch_struct_number, a[0]),
                0x2A => go!(mch_field_count, a[0]),
                0x2B => {
                    let r = go!(mch_is_import, a[0]);
                    let import = x[0];
                    let s = go!(mch_function_number, a[0]);
                    assert_eq!(r, s);
                    x[1] = import;
                    s
                }
                0x2C => go!(mch_capture_count, a[0]),
                0x2D => go!(mch_array_type, a[0]),
                0x2E => go!(mch_array_capacity, a[0]),
                0x2F => go!(mch_cell_type, a[0]),
                0x30 => go!(mch_put, a[0], a[1], a[2], a[3]),
                0x31 => go!(mch_find, a[0], a[1], a[2]),
                0x32 => go!(mch_remove, a[0], a[1], a[2]),
                0x33 => go!(mch_read_entry, a[0], a[1]),
                0x34 => go!(mch_set_value, a[0], a[1], a[2]),
                0x35 => go!(mch_remove_at, a[0], a[1]),
                0x36 => go!(mch_live_count, a[0]),
                0x37 => go!(mch_is_hashed, a[0]),
                0x38 => go!(mch_note, a[0], a[1] as i64),
                0x39 => go!(mch_next_key, a[0]),
                0x3A => {
                    let mut cursor = [a[1], a[2], a[3], a[4]];
                    let r = go!(mch_next, a[0], cursor.as_mut_ptr());
                    x[2..].copy_from_slice(&cursor);
                    r
                }
                0x3B => go!(mch_insert_entry, a[0], a[1], a[2], a[3]),
                0x3C => go!(mch_growth_bytes, a[0], a[1]),
                0x3D => go!(mch_place_count, a[0]),
                0x3E => go!(mch_key_type, a[0]),
                0x3F => go!(mch_value_type, a[0]),
                0x40 => go!(mch_iter_next, a[0]),
                0x41 => go!(mch_iter_key, a[0]),
                0x42 => go!(mch_iter_source, a[0]),
                0x43 => go!(mch_iter_key_type, a[0]),
                0x44 => go!(mch_iter_ended, a[0]),
                0x45 => go!(mch_iter_cursor, a[0]),
                0x48 => go!(mch_map_epoch, a[0]),
                0x49 => go!(mch_next_sequence, a[0]),
                0x4A => go!(mch_noted_key, a[0]),
                0x4B => go!(mch_entry_capacity, a[0]),
                0x4C => go!(mch_index_length, a[0]),
                0x4D => go!(mch_read_frame, a[0], a[1]),
                0x4E => go!(mch_kind_of, a[0]),
                0x50 => go!(mch_charge, a[0]),
                0x51 => go!(mch_wants_gc, a[0]),
                0x52 => go!(mch_fits, a[0]),
                0x53 => go!(mch_collection_count),
                0x54 => go!(mch_freed_count),
                0x55 => go!(mch_present_count),
                0x56 => go!(mch_cells_in_use),
                0x60 => mch_truth_word(a[0], x.as_mut_ptr()),
                0x61 => mch_char_word(a[0] as u32, x.as_mut_ptr()),
                0x62 => mch_float_word(a[0], x.as_mut_ptr()),
                0x63 => mch_integer_word(a[0] as i64, x.as_mut_ptr()),
                0x64 => mch_reference_word(a[0] as u32, a[1] as u16, x.as_mut_ptr()),
                0x65 => mch_read_word(a[0], x.as_mut_ptr()),
                0x66 => mch_same_words(a[0], a[1], x.as_mut_ptr()),
                c => panic!("no command {c:02X}"),
            }
        };
        Answer { refusal, word: x[0], used: self.heap[0], extra: extra(call, refusal, &x, &places, &bytes) }
    }
}
