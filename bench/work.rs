//! The workloads. Each opens a heap, makes what it needs, and times one thing on it; what it answers must be the same on both sides.
use crate::Side;

/// Slot, entry, iterator, coroutine, frame: read off the build of the originals.
pub const WEIGHTS: [u64; 5] = [
    crate::heap::SLOT_BYTES as u64,
    size_of::<crate::map::Entry>() as u64,
    size_of::<crate::heap::IterObj>() as u64,
    size_of::<crate::heap::CoroObj>() as u64,
    crate::heap::FRAME_BYTES as u64,
];

/// Runs a part of a workload under the clock.
type Clock<'a> = &'a mut dyn FnMut(&mut dyn Side, &mut dyn FnMut(&mut dyn Side) -> u64) -> u64;

pub struct Work {
    pub name: &'static str,
    pub what: &'static str,
    pub run: fn(&mut dyn Side, &Load, Clock) -> Vec<u64>,
}

const OBJECTS: usize = 10_000;
const MANY: usize = 60_000;
const KEYS: usize = 100_000;
const NIL: u64 = 0;

/// Keys with their hashes.
pub struct Keys {
    hashes: Vec<u64>,
    keys: Vec<u64>,
}

impl Keys {
    fn new(keys: Vec<u64>) -> Keys {
        Keys { hashes: keys.iter().map(|&k| mix(k)).collect(), keys }
    }
}

/// A bijective mixer of 64-bit words.
fn mix(word: u64) -> u64 {
    let mut x = word.wrapping_add(0x9E37_79B9_7F4A_7C15);
    x = (x ^ (x >> 30)).wrapping_mul(0xBF58_476D_1CE4_E5B9);
    x = (x ^ (x >> 27)).wrapping_mul(0x94D0_49BB_1331_11EB);
    x ^ (x >> 31)
}

fn shuffled(n: usize) -> Vec<usize> {
    let mut order: Vec<usize> = (0..n).collect();
    let mut seed = n as u64;
    for i in (1..n).rev() {
        seed = mix(seed);
        order.swap(i, (seed % (i as u64 + 1)) as usize);
    }
    order
}

/// The inputs that both sides are given.
pub struct Load {
    order: Vec<usize>,
    long: Vec<usize>,
    positions: Vec<u64>,
    values: Vec<u64>,
    ordered: Keys,
    mixed: Keys,
    absent: Keys,
    packed: Keys,
}

impl Load {
    pub fn new() -> Load {
        let keys: Vec<u64> = (0..KEYS as u64).map(|i| i * 7 + 3).collect();
        let mixed: Vec<u64> = shuffled(KEYS).iter().map(|&i| keys[i]).collect();
        Load {
            order: shuffled(OBJECTS),
            long: shuffled(MANY),
            positions: (0..OBJECTS as u64).map(|i| mix(i) % 16).collect(),
            values: (0..KEYS as u64).collect(),
            absent: Keys::new(mixed.iter().map(|k| k + 1).collect()),
            ordered: Keys::new(keys),
            mixed: Keys::new(mixed),
            packed: Keys::new((0..KEYS as u64).collect()),
        }
    }
}

fn boxes(s: &mut dyn Side, n: usize) -> Vec<u64> {
    let mut out = vec![0; n];
    s.new_box(7, &mut out);
    out
}

fn arrays(s: &mut dyn Side, t: u64, size: i64, n: usize) -> Vec<u64> {
    let mut out = vec![0; n];
    s.new_array(t, size, &mut out);
    out
}

fn map(s: &mut dyn Side) -> u64 {
    let mut out = [0];
    s.new_map(&mut out);
    out[0]
}

fn iterator(s: &mut dyn Side, source: u64) -> u64 {
    let mut out = [0];
    s.new_iter(source, &mut out);
    out[0]
}

fn sum(words: &[u64]) -> u64 {
    words.iter().fold(0, |a, &w| a.wrapping_mul(31).wrapping_add(w))
}

/// A thousand readings of each of the words.
fn read_boxes(s: &mut dyn Side, words: &[u64], clock: Clock) -> Vec<u64> {
    vec![clock(s, &mut |s| (0..1000).fold(0, |a: u64, _| a.wrapping_add(s.read_box(words))))]
}

fn allocate(s: &mut dyn Side, clock: Clock, make: &mut dyn FnMut(&mut dyn Side, &mut [u64])) -> Vec<u64> {
    let mut out = vec![0; MANY];
    clock(s, &mut |s| {
        make(s, &mut out);
        0
    });
    vec![sum(&out)]
}

/// Makes everything, has it collected, and makes it again under the clock.
fn again(s: &mut dyn Side, clock: Clock, make: &mut dyn FnMut(&mut dyn Side, &mut [u64])) -> Vec<u64> {
    s.open();
    let mut out = vec![0; MANY];
    make(s, &mut out);
    let freed = s.collect(&[]);
    let mut said = allocate(s, clock, make);
    said.push(freed);
    said
}

fn collections(s: &mut dyn Side, roots: &[u64], clock: Clock, times: usize) -> Vec<u64> {
    vec![clock(s, &mut |s| (0..times).map(|_| s.collect(roots)).sum())]
}

/// Boxes that hold one another, in the order of their slots or in another one; the root is the last.
fn box_list(s: &mut dyn Side, order: &[usize]) -> u64 {
    let words = boxes(s, MANY);
    let along: Vec<u64> = order.iter().map(|&i| words[i]).collect();
    s.store_box(&along[1..], &along[..MANY - 1]);
    along[MANY - 1]
}

/// Arrays of two items: a list, or a tree whose node i has the nodes 2i + 1 and 2i + 2.
fn array_list(s: &mut dyn Side) -> u64 {
    let words = arrays(s, 1, 2, MANY);
    for i in 1..MANY {
        s.store_item(&words[i..i + 1], &[1], words[i - 1]);
    }
    words[MANY - 1]
}

fn array_tree(s: &mut dyn Side) -> u64 {
    let words = arrays(s, 1, 2, MANY);
    for i in 1..MANY {
        s.store_item(&words[(i - 1) / 2..(i - 1) / 2 + 1], &[(i as u64 - 1) % 2], words[i]);
    }
    words[0]
}

fn full_map(s: &mut dyn Side, keys: &Keys) -> u64 {
    s.open();
    let m = map(s);
    s.put(m, &keys.hashes, &keys.keys);
    m
}

pub const ALL: &[Work] = &[
    Work { name: "read_box", what: "10^7 box reads over 10,000 objects, in the order of their slots", run: |s, _, clock| {
        s.open();
        let words = boxes(s, OBJECTS);
        read_boxes(s, &words, clock)
    } },
    Work { name: "read_box_shuffled", what: "the same, shuffled", run: |s, l, clock| {
        s.open();
        let words = boxes(s, OBJECTS);
        let mixed: Vec<u64> = l.order.iter().map(|&i| words[i]).collect();
        read_boxes(s, &mixed, clock)
    } },
    Work { name: "store_box", what: "10^6 box stores over 10,000 objects, shuffled", run: |s, l, clock| {
        s.open();
        let words = boxes(s, OBJECTS);
        let mixed: Vec<u64> = l.order.iter().map(|&i| words[i]).collect();
        clock(s, &mut |s| { for _ in 0..100 { s.store_box(&mixed, &l.values[..OBJECTS]); } 0 });
        vec![s.read_box(&words)]
    } },
    Work { name: "read_item", what: "10^6 item reads over 10,000 arrays of 16, shuffled", run: |s, l, clock| {
        s.open();
        let words = arrays(s, 0, 16, OBJECTS);
        let mixed: Vec<u64> = l.order.iter().map(|&i| words[i]).collect();
        s.store_item(&mixed, &l.positions, 5);
        vec![clock(s, &mut |s| (0..100).map(|_| s.read_item(&mixed, &l.positions)).sum())]
    } },
    Work { name: "store_item", what: "10^6 item stores, likewise", run: |s, l, clock| {
        s.open();
        let words = arrays(s, 0, 16, OBJECTS);
        let mixed: Vec<u64> = l.order.iter().map(|&i| words[i]).collect();
        clock(s, &mut |s| { for v in 0..100 { s.store_item(&mixed, &l.positions, v); } 0 });
        vec![s.read_item(&mixed, &l.positions)]
    } },
    Work { name: "new_box", what: "60,000 boxes on fresh slots", run: |s, _, clock| {
        s.open();
        allocate(s, clock, &mut |s, out| s.new_box(NIL, out))
    } },
    Work { name: "new_box_recycled", what: "60,000 boxes on slots that a collection freed", run: |s, _, clock| again(s, clock, &mut |s, out| s.new_box(NIL, out)) },
    Work { name: "new_array_0", what: "60,000 arrays of length 0 on fresh slots", run: |s, _, clock| {
        s.open();
        allocate(s, clock, &mut |s, out| s.new_array(1, 0, out))
    } },
    Work { name: "new_array_4", what: "60,000 arrays of length 4 on fresh slots", run: |s, _, clock| {
        s.open();
        allocate(s, clock, &mut |s, out| s.new_array(1, 4, out))
    } },
    Work { name: "new_array_16", what: "60,000 arrays of length 16 on fresh slots", run: |s, _, clock| {
        s.open();
        allocate(s, clock, &mut |s, out| s.new_array(1, 16, out))
    } },
    Work { name: "new_array_4_recycled", what: "60,000 arrays of length 4 on slots and cells that a collection freed", run: |s, _, clock| again(s, clock, &mut |s, out| s.new_array(1, 4, out)) },
    Work { name: "new_array_16_recycled", what: "60,000 arrays of length 16, likewise", run: |s, _, clock| again(s, clock, &mut |s, out| s.new_array(1, 16, out)) },
    Work { name: "push", what: "100,000 items pushed into one array", run: |s, l, clock| {
        s.open();
        let a = arrays(s, 0, 0, 1)[0];
        clock(s, &mut |s| { s.push(a, &l.values); 0 });
        vec![s.pop(a, 3)]
    } },
    Work { name: "push_short", what: "eight items pushed into each of 10,000 arrays", run: |s, l, clock| {
        s.open();
        let words = arrays(s, 0, 0, OBJECTS);
        clock(s, &mut |s| { for &w in &words { s.push(w, &l.values[..8]); } 0 });
        vec![s.pop(words[77], 3)]
    } },
    Work { name: "pop", what: "100,000 items popped from one array", run: |s, l, clock| {
        s.open();
        let a = arrays(s, 0, 0, 1)[0];
        s.push(a, &l.values);
        vec![clock(s, &mut |s| s.pop(a, KEYS))]
    } },
    Work { name: "put", what: "100,000 integer keys put into a map of the heap", run: |s, l, clock| {
        s.open();
        let m = map(s);
        clock(s, &mut |s| { s.put(m, &l.ordered.hashes, &l.ordered.keys); 0 });
        vec![s.find(m, &l.mixed.hashes, &l.mixed.keys)]
    } },
    Work { name: "put_packed", what: "the keys 0 to 99,999, which keep the map packed", run: |s, l, clock| {
        s.open();
        let m = map(s);
        clock(s, &mut |s| { s.put(m, &l.packed.hashes, &l.packed.keys); 0 });
        vec![s.find(m, &l.packed.hashes, &l.packed.keys)]
    } },
    Work { name: "put_again", what: "100,000 keys overwritten, shuffled", run: |s, l, clock| {
        let m = full_map(s, &l.ordered);
        clock(s, &mut |s| { s.put(m, &l.mixed.hashes, &l.mixed.keys); 0 });
        vec![s.find(m, &l.mixed.hashes, &l.mixed.keys)]
    } },
    Work { name: "find", what: "100,000 keys found, in the order of insertion", run: |s, l, clock| {
        let m = full_map(s, &l.ordered);
        vec![clock(s, &mut |s| s.find(m, &l.ordered.hashes, &l.ordered.keys))]
    } },
    Work { name: "find_shuffled", what: "100,000 keys found, shuffled", run: |s, l, clock| {
        let m = full_map(s, &l.ordered);
        vec![clock(s, &mut |s| s.find(m, &l.mixed.hashes, &l.mixed.keys))]
    } },
    Work { name: "find_absent", what: "100,000 absent keys sought", run: |s, l, clock| {
        let m = full_map(s, &l.ordered);
        vec![clock(s, &mut |s| s.find(m, &l.absent.hashes, &l.absent.keys))]
    } },
    Work { name: "remove", what: "100,000 keys removed, shuffled", run: |s, l, clock| {
        let m = full_map(s, &l.ordered);
        clock(s, &mut |s| { s.remove(m, &l.mixed.hashes, &l.mixed.keys); 0 });
        vec![s.find(m, &l.mixed.hashes, &l.mixed.keys)]
    } },
    Work { name: "iterate_array", what: "an iterator over an array of 100,000", run: |s, l, clock| {
        s.open();
        let a = arrays(s, 0, 0, 1)[0];
        s.push(a, &l.values);
        let it = iterator(s, a);
        vec![clock(s, &mut |s| s.iter_next(it, KEYS + 1))]
    } },
    Work { name: "iterate_map", what: "an iterator over a map of 100,000", run: |s, l, clock| {
        let m = full_map(s, &l.ordered);
        let it = iterator(s, m);
        vec![clock(s, &mut |s| s.iter_next(it, KEYS + 1))]
    } },
    Work { name: "collect_boxes_garbage", what: "a collection that frees 60,000 boxes", run: |s, _, clock| {
        s.open();
        boxes(s, MANY);
        collections(s, &[], clock, 1)
    } },
    Work { name: "collect_box_list", what: "5 collections that keep a list of 60,000 boxes", run: |s, _, clock| {
        s.open();
        let root = box_list(s, &(0..MANY).collect::<Vec<_>>());
        collections(s, &[root], clock, 5)
    } },
    Work { name: "collect_box_list_shuffled", what: "the same list through shuffled slots", run: |s, l, clock| {
        s.open();
        let root = box_list(s, &l.long);
        collections(s, &[root], clock, 5)
    } },
    Work { name: "collect_arrays_garbage", what: "a collection that frees 60,000 arrays of two items", run: |s, _, clock| {
        s.open();
        array_list(s);
        collections(s, &[], clock, 1)
    } },
    Work { name: "collect_array_list", what: "5 collections that keep a list of 60,000 arrays of two items", run: |s, _, clock| {
        s.open();
        let root = array_list(s);
        collections(s, &[root], clock, 5)
    } },
    Work { name: "collect_array_tree", what: "5 collections that keep a tree of 60,000 arrays of two items", run: |s, _, clock| {
        s.open();
        let root = array_tree(s);
        collections(s, &[root], clock, 5)
    } },
];
