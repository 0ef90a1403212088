//! The originals: heap.rs, coll.rs and map.rs. Put, find and remove are coll.rs' map_set_raw, map_find and map_del with the hash given and
//! keys compared as words.
use crate::Side;
use crate::coll;
use crate::heap::{Heap, Object};
use crate::program::Program;
use bytecode_lang::{TypeId, ValType};

unsafe extern "C" {
    fn mallopt(parameter: i32, value: i32) -> i32;
}

/// The original's allocations stay with the process, warm as the library's buffers are.
pub fn keep_memory() {
    unsafe {
        mallopt(-3, 1 << 30);
        mallopt(-1, 1 << 30);
    }
}

pub struct Original {
    heap: Heap,
    program: Program,
    dropped: Vec<u64>,
}

impl Original {
    pub fn new() -> Original {
        Original { heap: Heap::new(1 << 40), program: Program::default(), dropped: vec![] }
    }
}

fn type_of(t: u64) -> ValType {
    match t {
        0 => ValType::I64,
        1 => ValType::Ref(TypeId(0)),
        _ => ValType::Dyn,
    }
}

/// One call each: inlined in the loops, or, where the library is called through its C interface, a call of its own on this side too.
macro_rules! each {
    ($(fn $name:ident($($a:ident: $t:ty),*) $(-> $r:ty)? $body:block)*) => {
        $(#[cfg_attr(through_capi, inline(never))]
        #[cfg_attr(not(through_capi), inline(always))]
        fn $name($($a: $t),*) $(-> $r)? $body)*
    };
}

each! {
    fn read_box(heap: &Heap, w: u64) -> u64 {
        heap.box_value(w).unwrap_or(0)
    }

    fn store_box(heap: &mut Heap, w: u64, v: u64) {
        heap.set_box(w, v);
    }

    fn read_item(heap: &Heap, w: u64, p: u64) -> u64 {
        coll::array_get(heap, w, p as i64).unwrap_or(0)
    }

    fn store_item(heap: &mut Heap, w: u64, p: u64, v: u64) {
        let _ = coll::array_set_raw(heap, w, p as usize, v);
    }

    fn new_box(heap: &mut Heap, w: u64) -> u64 {
        heap.alloc_box(w).unwrap_or(0)
    }

    fn new_array(heap: &mut Heap, t: u64, size: i64) -> u64 {
        coll::new_array(heap, type_of(t), size).unwrap_or(0)
    }

    fn new_map(heap: &mut Heap) -> u64 {
        coll::new_map(heap, ValType::I64, ValType::I64).unwrap_or(0)
    }

    fn new_iter(heap: &mut Heap, source: u64) -> u64 {
        coll::new_iter(heap, source, false).and_then(Result::ok).unwrap_or(0)
    }

    fn push(heap: &mut Heap, w: u64, v: u64) {
        let _ = coll::array_push(heap, w, v);
    }

    fn pop(heap: &mut Heap, w: u64) -> u64 {
        coll::array_pop(heap, w).unwrap_or(0)
    }

    fn put(heap: &mut Heap, w: u64, hash: u64, key: u64) {
        let int = Some(i128::from(key as i64));
        let Ok(m) = coll::map_ref(heap, w) else { return };
        let pos = m.store.find(hash, int, |k| k == key);
        let growth = if pos.is_none() { m.store.growth_bytes(int) } else { 0 };
        let Ok(store) = coll::map_store_mut(heap, w, growth) else { return };
        match pos {
            Some(p) => store.set_value(p, key),
            None => {
                store.insert(hash, key, key, int);
            }
        }
    }

    fn find(heap: &Heap, w: u64, hash: u64, key: u64) -> u64 {
        let Ok(m) = coll::map_ref(heap, w) else { return 0 };
        m.store.find(hash, Some(i128::from(key as i64)), |k| k == key).unwrap_or(0) as u64
    }

    fn remove(heap: &mut Heap, w: u64, hash: u64, key: u64) {
        let Ok(m) = coll::map_ref(heap, w) else { return };
        let Some(p) = m.store.find(hash, Some(i128::from(key as i64)), |k| k == key) else { return };
        if let Ok(store) = coll::map_store_mut(heap, w, 0) {
            store.remove(p);
        }
    }

    fn iter_next(heap: &mut Heap, w: u64) -> u64 {
        coll::iter_next(heap, w).ok().flatten().unwrap_or(0)
    }
}

impl Side for Original {
    fn open(&mut self) {
        self.heap = Heap::new(1 << 40);
    }

    #[inline(never)]
    fn read_box(&mut self, words: &[u64]) -> u64 {
        words.iter().fold(0u64, |sum, &w| sum.wrapping_add(read_box(&self.heap, w)))
    }

    #[inline(never)]
    fn store_box(&mut self, words: &[u64], values: &[u64]) {
        for (&w, &v) in words.iter().zip(values) {
            store_box(&mut self.heap, w, v);
        }
    }

    #[inline(never)]
    fn read_item(&mut self, words: &[u64], positions: &[u64]) -> u64 {
        words.iter().zip(positions).fold(0u64, |sum, (&w, &p)| sum.wrapping_add(read_item(&self.heap, w, p)))
    }

    #[inline(never)]
    fn store_item(&mut self, words: &[u64], positions: &[u64], v: u64) {
        for (&w, &p) in words.iter().zip(positions) {
            store_item(&mut self.heap, w, p, v);
        }
    }

    #[inline(never)]
    fn new_box(&mut self, w: u64, out: &mut [u64]) {
        for o in out {
            *o = new_box(&mut self.heap, w);
        }
    }

    #[inline(never)]
    fn new_array(&mut self, t: u64, size: i64, out: &mut [u64]) {
        for o in out {
            *o = new_array(&mut self.heap, t, size);
        }
    }

    #[inline(never)]
    fn new_map(&mut self, out: &mut [u64]) {
        for o in out {
            *o = new_map(&mut self.heap);
        }
    }

    #[inline(never)]
    fn new_iter(&mut self, source: u64, out: &mut [u64]) {
        for o in out {
            *o = new_iter(&mut self.heap, source);
        }
    }

    #[inline(never)]
    fn push(&mut self, w: u64, values: &[u64]) {
        for &v in values {
            push(&mut self.heap, w, v);
        }
    }

    #[inline(never)]
    fn pop(&mut self, w: u64, n: usize) -> u64 {
        (0..n).fold(0u64, |sum, _| sum.wrapping_add(pop(&mut self.heap, w)))
    }

    #[inline(never)]
    fn put(&mut self, w: u64, hashes: &[u64], keys: &[u64]) {
        for (&hash, &key) in hashes.iter().zip(keys) {
            put(&mut self.heap, w, hash, key);
        }
    }

    #[inline(never)]
    fn find(&mut self, w: u64, hashes: &[u64], keys: &[u64]) -> u64 {
        hashes.iter().zip(keys).fold(0u64, |sum, (&hash, &key)| sum.wrapping_add(find(&self.heap, w, hash, key)))
    }

    #[inline(never)]
    fn remove(&mut self, w: u64, hashes: &[u64], keys: &[u64]) {
        for (&hash, &key) in hashes.iter().zip(keys) {
            remove(&mut self.heap, w, hash, key);
        }
    }

    #[inline(never)]
    fn iter_next(&mut self, w: u64, n: usize) -> u64 {
        (0..n).fold(0u64, |sum, _| sum.wrapping_add(iter_next(&mut self.heap, w)))
    }

    #[inline(never)]
    fn collect(&mut self, roots: &[u64]) -> u64 {
        let before = self.heap.stats.freed;
        self.heap.collect(roots.iter().copied(), &self.program, &mut self.dropped);
        self.heap.stats.freed - before
    }

    fn used(&self) -> u64 {
        self.heap.used() as u64
    }
}
