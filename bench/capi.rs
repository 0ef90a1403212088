//! The library as a caller in C or Rust has it: each call one call of libcapi.a, over lent buffers at full size.
use crate::Side;
use crate::lent::{Lent, SLOTS};
use crate::work::WEIGHTS;

macro_rules! calls {
    ($($name:ident($($a:ident: $t:ty),*);)*) => {
        #[link(name = "capi", kind = "static")]
        unsafe extern "C" {
            fn mch_open(heap: *mut u64, size: u64, limit: u64, weights: *const u64, layout: *const u8, l: usize, table: *mut u64, t: usize, marks: *mut u8, m: usize, order: *mut u32, o: usize, slots: *const u64, s: usize, scalars: *const u64, x: usize, list: *const u64, f: usize, directory: *const u64, d: usize, cells: *const u64, c: usize) -> u64;
            $(fn $name(heap: *mut u64, slots: *mut u64, s: usize, scalars: *mut u64, x: usize, list: *mut u64, f: usize, directory: *mut u64, d: usize, cells: *mut u64, c: usize, $($a: $t,)* answer: *mut u64) -> u64;)*
        }
    };
}

calls! {
    mch_read_box(w: u64);
    mch_store_box(w: u64, v: u64);
    mch_read_item(w: u64, p: u64);
    mch_store_item(w: u64, p: u64, v: u64);
    mch_new_box(w: u64);
    mch_new_array(t: u64, length: i64);
    mch_new_map(keys: u64, values: u64);
    mch_new_iter(source: u64);
    mch_push(w: u64, v: u64);
    mch_pop(w: u64);
    mch_put(w: u64, hash: u64, key: u64, value: u64);
    mch_find(w: u64, hash: u64, key: u64);
    mch_remove(w: u64, hash: u64, key: u64);
    mch_iter_next(w: u64);
    mch_collect(layout: *const u8, l: usize, table: *const u64, t: usize, marks: *mut u8, m: usize, order: *mut u32, o: usize, roots: *const u64, r: usize, places: *mut u64, p: usize);
}

/// The first word that the call answers; 0 for a refusal.
macro_rules! call {
    ($s:ident, $f:ident $(, $x:expr)*) => {{
        let mut answer = [0; 6];
        unsafe {
            $f($s.heap.as_mut_ptr(), $s.slots.as_mut_ptr(), $s.slots.len(), $s.scalars.as_mut_ptr(), $s.scalars.len(), $s.list.as_mut_ptr(), $s.list.len(),
                $s.directory.as_mut_ptr(), $s.directory.len(), $s.cells.as_mut_ptr(), $s.cells.len(), $($x,)* answer.as_mut_ptr());
        }
        answer[0]
    }};
}

impl Side for Lent {
    fn open(&mut self) {
        let r = unsafe {
            mch_open(self.heap.as_mut_ptr(), SLOTS as u64, 1 << 40, WEIGHTS.as_ptr(), self.layout.as_ptr(), self.layout.len(), self.table.as_mut_ptr(), self.table.len(),
                self.marks.as_mut_ptr(), self.marks.len(), self.order.as_mut_ptr(), self.order.len(), self.slots.as_ptr(), self.slots.len(), self.scalars.as_ptr(), self.scalars.len(),
                self.list.as_ptr(), self.list.len(), self.directory.as_ptr(), self.directory.len(), self.cells.as_ptr(), self.cells.len())
        };
        assert_eq!(r, 0, "the opening is accepted");
    }

    fn read_box(&mut self, words: &[u64]) -> u64 {
        words.iter().fold(0u64, |sum, &w| sum.wrapping_add(call!(self, mch_read_box, w)))
    }

    fn store_box(&mut self, words: &[u64], values: &[u64]) {
        for (&w, &v) in words.iter().zip(values) {
            call!(self, mch_store_box, w, v);
        }
    }

    fn read_item(&mut self, words: &[u64], positions: &[u64]) -> u64 {
        words.iter().zip(positions).fold(0u64, |sum, (&w, &p)| sum.wrapping_add(call!(self, mch_read_item, w, p)))
    }

    fn store_item(&mut self, words: &[u64], positions: &[u64], v: u64) {
        for (&w, &p) in words.iter().zip(positions) {
            call!(self, mch_store_item, w, p, v);
        }
    }

    fn new_box(&mut self, w: u64, out: &mut [u64]) {
        for place in out {
            *place = call!(self, mch_new_box, w);
        }
    }

    fn new_array(&mut self, t: u64, size: i64, out: &mut [u64]) {
        for place in out {
            *place = call!(self, mch_new_array, t, size);
        }
    }

    fn new_map(&mut self, out: &mut [u64]) {
        for place in out {
            *place = call!(self, mch_new_map, 0, 0);
        }
    }

    fn new_iter(&mut self, source: u64, out: &mut [u64]) {
        for place in out {
            *place = call!(self, mch_new_iter, source);
        }
    }

    fn push(&mut self, w: u64, values: &[u64]) {
        for &v in values {
            call!(self, mch_push, w, v);
        }
    }

    fn pop(&mut self, w: u64, n: usize) -> u64 {
        (0..n).fold(0u64, |sum, _| sum.wrapping_add(call!(self, mch_pop, w)))
    }

    fn put(&mut self, w: u64, hashes: &[u64], keys: &[u64]) {
        for (&hash, &key) in hashes.iter().zip(keys) {
            call!(self, mch_put, w, hash, key, key);
        }
    }

    fn find(&mut self, w: u64, hashes: &[u64], keys: &[u64]) -> u64 {
        hashes.iter().zip(keys).fold(0u64, |sum, (&hash, &key)| sum.wrapping_add(call!(self, mch_find, w, hash, key)))
    }

    fn remove(&mut self, w: u64, hashes: &[u64], keys: &[u64]) {
        for (&hash, &key) in hashes.iter().zip(keys) {
            call!(self, mch_remove, w, hash, key);
        }
    }

    fn iter_next(&mut self, w: u64, n: usize) -> u64 {
        (0..n).fold(0u64, |sum, _| sum.wrapping_add(call!(self, mch_iter_next, w)))
    }

    fn collect(&mut self, roots: &[u64]) -> u64 {
        call!(self, mch_collect, self.layout.as_ptr(), self.layout.len(), self.table.as_ptr(), self.table.len(), self.marks.as_mut_ptr(), self.marks.len(),
            self.order.as_mut_ptr(), self.order.len(), roots.as_ptr(), roots.len(), self.places.as_mut_ptr(), self.places.len())
    }

    fn used(&self) -> u64 {
        self.heap[0]
    }
}
