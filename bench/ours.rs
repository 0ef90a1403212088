//! The library, through the loops of crate heap_bench, over lent buffers at full size.
use crate::Side;
use crate::lent::{Lent, SLOTS};
use crate::work::WEIGHTS;

type P = *const u64;
type M = *mut u64;

#[link(name = "heap_bench", kind = "static")]
unsafe extern "C" {
    fn heap_bench_open(heap: M, size: u64, limit: u64, weights: P, layout: *const u8, l: usize, table: M, t: usize, marks: *mut u8, m: usize, order: *mut u32, o: usize, slots: P, s: usize, scalars: P, x: usize, list: P, f: usize, directory: P, d: usize, cells: P, c: usize) -> u64;
    fn heap_bench_read_box(heap: P, slots: P, s: usize, scalars: P, x: usize, list: P, f: usize, directory: P, d: usize, cells: P, c: usize, words: P, n: usize) -> u64;
    fn heap_bench_store_box(heap: P, slots: M, s: usize, scalars: P, x: usize, list: P, f: usize, directory: P, d: usize, cells: P, c: usize, words: P, n: usize, values: P, v: usize);
    fn heap_bench_read_item(heap: P, slots: P, s: usize, scalars: P, x: usize, list: P, f: usize, directory: P, d: usize, cells: P, c: usize, words: P, n: usize, positions: P, p: usize) -> u64;
    fn heap_bench_store_item(heap: P, slots: P, s: usize, scalars: P, x: usize, list: P, f: usize, directory: P, d: usize, cells: M, c: usize, words: P, n: usize, positions: P, p: usize, v: u64);
    fn heap_bench_new_box(heap: M, slots: M, s: usize, scalars: P, x: usize, list: P, f: usize, directory: P, d: usize, cells: P, c: usize, w: u64, out: M, n: usize);
    fn heap_bench_new_array(heap: M, slots: M, s: usize, scalars: P, x: usize, list: P, f: usize, directory: M, d: usize, cells: M, c: usize, t: u64, size: i64, out: M, n: usize);
    fn heap_bench_new_map(heap: M, slots: M, s: usize, scalars: M, x: usize, list: P, f: usize, directory: P, d: usize, cells: P, c: usize, out: M, n: usize);
    fn heap_bench_new_iter(heap: M, slots: M, s: usize, scalars: M, x: usize, list: P, f: usize, directory: P, d: usize, cells: P, c: usize, source: u64, out: M, n: usize);
    fn heap_bench_push(heap: M, slots: M, s: usize, scalars: P, x: usize, list: P, f: usize, directory: M, d: usize, cells: M, c: usize, w: u64, values: P, n: usize);
    fn heap_bench_pop(heap: P, slots: M, s: usize, scalars: P, x: usize, list: P, f: usize, directory: P, d: usize, cells: P, c: usize, w: u64, n: usize) -> u64;
    fn heap_bench_put(heap: M, slots: M, s: usize, scalars: M, x: usize, list: P, f: usize, directory: M, d: usize, cells: M, c: usize, w: u64, hashes: P, h: usize, keys: P, k: usize);
    fn heap_bench_find(heap: P, slots: P, s: usize, scalars: P, x: usize, list: P, f: usize, directory: P, d: usize, cells: P, c: usize, w: u64, hashes: P, h: usize, keys: P, k: usize) -> u64;
    fn heap_bench_remove(heap: M, slots: M, s: usize, scalars: M, x: usize, list: P, f: usize, directory: M, d: usize, cells: M, c: usize, w: u64, hashes: P, h: usize, keys: P, k: usize);
    fn heap_bench_iter_next(heap: P, slots: P, s: usize, scalars: M, x: usize, list: P, f: usize, directory: P, d: usize, cells: P, c: usize, w: u64, n: usize) -> u64;
    fn heap_bench_collect(heap: M, slots: M, s: usize, scalars: M, x: usize, list: M, f: usize, directory: P, d: usize, cells: P, c: usize, layout: *const u8, l: usize, table: P, t: usize, marks: *mut u8, m: usize, order: *mut u32, o: usize, roots: P, r: usize, places: M, p: usize) -> u64;
}

/// The pointers and lengths of the five buffers, shared or to be written.
macro_rules! call {
    ($f:ident, $s:ident, $heap:ident, $a:ident $b:ident $c:ident $d:ident $e:ident, $($x:expr),*) => {
        unsafe { $f($s.heap.$heap(), $s.slots.$a(), $s.slots.len(), $s.scalars.$b(), $s.scalars.len(), $s.list.$c(), $s.list.len(),
            $s.directory.$d(), $s.directory.len(), $s.cells.$e(), $s.cells.len() $(, $x)*) }
    };
}

impl Side for Lent {
    fn open(&mut self) {
        let r = unsafe {
            heap_bench_open(self.heap.as_mut_ptr(), SLOTS as u64, 1 << 40, WEIGHTS.as_ptr(), self.layout.as_ptr(), self.layout.len(), self.table.as_mut_ptr(), self.table.len(),
                self.marks.as_mut_ptr(), self.marks.len(), self.order.as_mut_ptr(), self.order.len(), self.slots.as_ptr(), self.slots.len(), self.scalars.as_ptr(), self.scalars.len(),
                self.list.as_ptr(), self.list.len(), self.directory.as_ptr(), self.directory.len(), self.cells.as_ptr(), self.cells.len())
        };
        assert_eq!(r, 0, "the opening is accepted");
    }

    fn read_box(&mut self, words: &[u64]) -> u64 {
        call!(heap_bench_read_box, self, as_ptr, as_ptr as_ptr as_ptr as_ptr as_ptr, words.as_ptr(), words.len())
    }

    fn store_box(&mut self, words: &[u64], values: &[u64]) {
        call!(heap_bench_store_box, self, as_ptr, as_mut_ptr as_ptr as_ptr as_ptr as_ptr, words.as_ptr(), words.len(), values.as_ptr(), values.len())
    }

    fn read_item(&mut self, words: &[u64], positions: &[u64]) -> u64 {
        call!(heap_bench_read_item, self, as_ptr, as_ptr as_ptr as_ptr as_ptr as_ptr, words.as_ptr(), words.len(), positions.as_ptr(), positions.len())
    }

    fn store_item(&mut self, words: &[u64], positions: &[u64], v: u64) {
        call!(heap_bench_store_item, self, as_ptr, as_ptr as_ptr as_ptr as_ptr as_mut_ptr, words.as_ptr(), words.len(), positions.as_ptr(), positions.len(), v)
    }

    fn new_box(&mut self, w: u64, out: &mut [u64]) {
        call!(heap_bench_new_box, self, as_mut_ptr, as_mut_ptr as_ptr as_ptr as_ptr as_ptr, w, out.as_mut_ptr(), out.len())
    }

    fn new_array(&mut self, t: u64, size: i64, out: &mut [u64]) {
        call!(heap_bench_new_array, self, as_mut_ptr, as_mut_ptr as_ptr as_ptr as_mut_ptr as_mut_ptr, t, size, out.as_mut_ptr(), out.len())
    }

    fn new_map(&mut self, out: &mut [u64]) {
        call!(heap_bench_new_map, self, as_mut_ptr, as_mut_ptr as_mut_ptr as_ptr as_ptr as_ptr, out.as_mut_ptr(), out.len())
    }

    fn new_iter(&mut self, source: u64, out: &mut [u64]) {
        call!(heap_bench_new_iter, self, as_mut_ptr, as_mut_ptr as_mut_ptr as_ptr as_ptr as_ptr, source, out.as_mut_ptr(), out.len())
    }

    fn push(&mut self, w: u64, values: &[u64]) {
        call!(heap_bench_push, self, as_mut_ptr, as_mut_ptr as_ptr as_ptr as_mut_ptr as_mut_ptr, w, values.as_ptr(), values.len())
    }

    fn pop(&mut self, w: u64, n: usize) -> u64 {
        call!(heap_bench_pop, self, as_ptr, as_mut_ptr as_ptr as_ptr as_ptr as_ptr, w, n)
    }

    fn put(&mut self, w: u64, hashes: &[u64], keys: &[u64]) {
        call!(heap_bench_put, self, as_mut_ptr, as_mut_ptr as_mut_ptr as_ptr as_mut_ptr as_mut_ptr, w, hashes.as_ptr(), hashes.len(), keys.as_ptr(), keys.len())
    }

    fn find(&mut self, w: u64, hashes: &[u64], keys: &[u64]) -> u64 {
        call!(heap_bench_find, self, as_ptr, as_ptr as_ptr as_ptr as_ptr as_ptr, w, hashes.as_ptr(), hashes.len(), keys.as_ptr(), keys.len())
    }

    fn remove(&mut self, w: u64, hashes: &[u64], keys: &[u64]) {
        call!(heap_bench_remove, self, as_mut_ptr, as_mut_ptr as_mut_ptr as_ptr as_mut_ptr as_mut_ptr, w, hashes.as_ptr(), hashes.len(), keys.as_ptr(), keys.len())
    }

    fn iter_next(&mut self, w: u64, n: usize) -> u64 {
        call!(heap_bench_iter_next, self, as_ptr, as_ptr as_mut_ptr as_ptr as_ptr as_ptr, w, n)
    }

    fn collect(&mut self, roots: &[u64]) -> u64 {
        call!(heap_bench_collect, self, as_mut_ptr, as_mut_ptr as_mut_ptr as_mut_ptr as_ptr as_ptr, self.layout.as_ptr(), self.layout.len(), self.table.as_ptr(), self.table.len(),
            self.marks.as_mut_ptr(), self.marks.len(), self.order.as_mut_ptr(), self.order.len(), roots.as_ptr(), roots.len(), self.places.as_mut_ptr(), self.places.len())
    }

    fn used(&self) -> u64 {
        self.heap[0]
    }
}
