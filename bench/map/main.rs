//! The map store's loops (crate map_bench) against the same loops over the original map.rs.
#![allow(dead_code)]
extern crate alloc;
mod map;
use map::{Cursor, MapStore};
use std::hint::black_box;
use std::time::Instant;

extern "C" {
    fn map_bench_put(words: *mut u64, cells: *mut u64, n: usize, hashes: *const u64, h: usize, keys: *const u64, k: usize) -> u64;
    fn map_bench_find(words: *const u64, cells: *const u64, n: usize, hashes: *const u64, h: usize, keys: *const u64, k: usize) -> u64;
    fn map_bench_remove(words: *mut u64, cells: *mut u64, n: usize, hashes: *const u64, h: usize, keys: *const u64, k: usize) -> u64;
    fn map_bench_iterate(words: *const u64, cells: *const u64, n: usize, steps: usize) -> u64;
    fn map_bench_resume(words: *const u64, cells: *const u64, n: usize, epoch: u32, lasts: *const u64, l: usize) -> u64;
    fn mallopt(parameter: i32, value: i32) -> i32;
}

/// Keys with their hashes.
struct Keys {
    hashes: Vec<u64>,
    keys: Vec<u64>,
}

impl Keys {
    fn new(keys: Vec<u64>) -> Keys {
        Keys { hashes: keys.iter().map(|&k| mix(k)).collect(), keys }
    }

    fn part(&self, a: usize, e: usize) -> Keys {
        Keys { hashes: self.hashes[a..e].to_vec(), keys: self.keys[a..e].to_vec() }
    }
}

/// A bijective mixer of 64-bit words.
fn mix(word: u64) -> u64 {
    let mut x = word.wrapping_add(0x9E37_79B9_7F4A_7C15);
    x = (x ^ (x >> 30)).wrapping_mul(0xBF58_476D_1CE4_E5B9);
    x = (x ^ (x >> 27)).wrapping_mul(0x94D0_49BB_1331_11EB);
    x ^ (x >> 31)
}

/// Both sides answer a number, so that no call is left out.
trait Side {
    fn put(&mut self, k: &Keys) -> u64;
    fn find(&self, k: &Keys) -> u64;
    fn remove(&mut self, k: &Keys) -> u64;
    fn iterate(&self, steps: usize) -> u64;
    fn resume(&self, lasts: &[u64]) -> u64;
    fn live(&self) -> u64;
    fn places(&self) -> u64;
    fn clear(&mut self);
}

struct Ours<'a> {
    words: [u64; 7],
    cells: &'a mut [u64],
}

impl Side for Ours<'_> {
    #[inline(never)]
    fn put(&mut self, k: &Keys) -> u64 {
        unsafe { map_bench_put(self.words.as_mut_ptr(), self.cells.as_mut_ptr(), self.cells.len(), k.hashes.as_ptr(), k.hashes.len(), k.keys.as_ptr(), k.keys.len()) }
    }

    #[inline(never)]
    fn find(&self, k: &Keys) -> u64 {
        unsafe { map_bench_find(self.words.as_ptr(), self.cells.as_ptr(), self.cells.len(), k.hashes.as_ptr(), k.hashes.len(), k.keys.as_ptr(), k.keys.len()) }
    }

    #[inline(never)]
    fn remove(&mut self, k: &Keys) -> u64 {
        unsafe { map_bench_remove(self.words.as_mut_ptr(), self.cells.as_mut_ptr(), self.cells.len(), k.hashes.as_ptr(), k.hashes.len(), k.keys.as_ptr(), k.keys.len()) }
    }

    #[inline(never)]
    fn iterate(&self, steps: usize) -> u64 {
        unsafe { map_bench_iterate(self.words.as_ptr(), self.cells.as_ptr(), self.cells.len(), steps) }
    }

    #[inline(never)]
    fn resume(&self, lasts: &[u64]) -> u64 {
        unsafe { map_bench_resume(self.words.as_ptr(), self.cells.as_ptr(), self.cells.len(), BEFORE, lasts.as_ptr(), lasts.len()) }
    }

    fn live(&self) -> u64 {
        self.words[1]
    }

    fn places(&self) -> u64 {
        self.words[0]
    }

    fn clear(&mut self) {
        self.words = [0; 7];
    }
}

struct Original(MapStore);

impl Side for Original {
    #[inline(never)]
    fn put(&mut self, k: &Keys) -> u64 {
        let m = &mut self.0;
        for i in 0..k.keys.len() {
            let (hash, key) = (k.hashes[i], k.keys[i]);
            let int = Some(key as i64 as i128);
            match m.find(hash, int, |x| x == key) {
                Some(p) => m.set_value(p, i as u64),
                None => {
                    m.insert(hash, key, i as u64, int);
                }
            }
        }
        k.keys.len() as u64
    }

    #[inline(never)]
    fn find(&self, k: &Keys) -> u64 {
        let mut n = 0;
        for i in 0..k.keys.len() {
            let key = k.keys[i];
            if self.0.find(k.hashes[i], Some(key as i64 as i128), |x| x == key).is_some() {
                n += 1;
            }
        }
        n
    }

    #[inline(never)]
    fn remove(&mut self, k: &Keys) -> u64 {
        let m = &mut self.0;
        for i in 0..k.keys.len() {
            let key = k.keys[i];
            if let Some(p) = m.find(k.hashes[i], Some(key as i64 as i128), |x| x == key) {
                m.remove(p);
            }
        }
        k.keys.len() as u64
    }

    #[inline(never)]
    fn iterate(&self, steps: usize) -> u64 {
        let mut cursor = Cursor::default();
        for i in 0..steps {
            if self.0.next(&mut cursor).is_none() {
                return i as u64;
            }
        }
        steps as u64
    }

    #[inline(never)]
    fn resume(&self, lasts: &[u64]) -> u64 {
        let mut n = 0;
        for &last in lasts {
            let mut cursor = Cursor { last_seq: Some(last), pos: 0, epoch: BEFORE };
            if self.0.next(&mut cursor).is_some() {
                n += 1;
            }
        }
        n
    }

    fn live(&self) -> u64 {
        self.0.len() as u64
    }

    fn places(&self) -> u64 {
        self.0.entries().len() as u64
    }

    fn clear(&mut self) {
        self.0 = MapStore::default();
    }
}

const NAMES: [&str; 12] = [
    "put", "put_again", "find", "find_shuffled", "find_absent", "iterate", "remove", "put_others", "remove_rest", "put_churn", "resume_newest", "resume_oldest",
];
const N: usize = 100_000;
/// An epoch that no map here has.
const BEFORE: u32 = u32::MAX;

struct Load {
    ordered: Keys,
    shuffled: Keys,
    absent: Keys,
    first: Keys,
    rest: Keys,
    gone: Keys,
    others: Keys,
    oldest: Keys,
    last_newest: Vec<u64>,
    last_oldest: Vec<u64>,
}

/// Three lives of a map: their times, and the numbers answered. In the second, of half the keys, the entries outgrow their capacity
/// and the index does not. In the third, the last removal of the older half compacts the map; then cursors of before resume.
fn life(m: &mut dyn Side, w: &Load) -> (Vec<f64>, Vec<u64>) {
    let (mut times, mut said) = (vec![], vec![]);
    let mut step = |f: &mut dyn FnMut() -> u64| {
        let start = Instant::now();
        let answer = black_box(f());
        times.push(start.elapsed().as_nanos() as f64);
        said.push(answer);
    };
    step(&mut || m.put(&w.ordered));
    step(&mut || m.put(&w.shuffled));
    step(&mut || m.find(&w.ordered));
    step(&mut || m.find(&w.shuffled));
    step(&mut || m.find(&w.absent));
    step(&mut || m.iterate(N + 1));
    step(&mut || m.remove(&w.first));
    step(&mut || m.put(&w.others));
    step(&mut || m.remove(&w.rest));
    said.extend([m.live(), m.places()]);
    m.clear();
    said.extend([m.put(&w.first), m.remove(&w.gone)]);
    let start = Instant::now();
    said.push(black_box(m.put(&w.others)));
    times.push(start.elapsed().as_nanos() as f64);
    said.extend([m.live(), m.places()]);
    m.clear();
    said.extend([m.put(&w.ordered), m.remove(&w.oldest), m.live(), m.places()]);
    for lasts in [&w.last_newest, &w.last_oldest] {
        let start = Instant::now();
        said.push(black_box(m.resume(lasts)));
        times.push(start.elapsed().as_nanos() as f64);
    }
    (times, said)
}

fn median(mut v: Vec<f64>) -> f64 {
    v.sort_by(|a, b| a.total_cmp(b));
    v[v.len() / 2]
}

fn least(v: &[f64]) -> f64 {
    v.iter().copied().fold(f64::MAX, f64::min)
}

fn main() {
    let rounds: usize = std::env::args().nth(1).map_or(21, |x| x.parse().expect("ROUNDS is a number")).max(9);
    // The original's allocations stay with the process, warm as our lent cells are.
    unsafe {
        mallopt(-3, 1 << 30);
        mallopt(-1, 1 << 30);
    }
    let keys: Vec<u64> = (0..N as u64).map(|i| i * 7 + 3).collect();
    let mut order = keys.clone();
    let mut seed = 1;
    for i in (1..order.len()).rev() {
        seed = mix(seed);
        order.swap(i, (seed % (i as u64 + 1)) as usize);
    }
    let absent = Keys::new(order.iter().map(|k| k + 1).collect());
    let shuffled = Keys::new(order);
    let ordered = Keys::new(keys);
    let n = N as u64;
    let load = Load {
        oldest: ordered.part(0, N / 2 + 1),
        last_newest: (0..n).map(|i| n - 2 - i % 16).collect(),
        last_oldest: (0..1000).map(|i| n / 2 + 1 + i % 16).collect(),
        ordered,
        first: shuffled.part(0, N / 2),
        rest: shuffled.part(N / 2, N),
        gone: shuffled.part(0, N / 5),
        others: absent.part(0, N / 4),
        absent,
        shuffled,
    };
    let mut cells = vec![0u64; 1_048_576];
    let mut ratios = vec![vec![]; NAMES.len()];
    let mut micros = vec![(vec![], vec![]); NAMES.len()];
    for round in 0..rounds + 2 {
        let ours = |cells: &mut [u64]| life(&mut Ours { words: [0; 7], cells }, &load);
        let original = || life(&mut Original(MapStore::default()), &load);
        let (a, b);
        if round % 2 == 0 {
            a = ours(&mut cells);
            b = original();
        } else {
            b = original();
            a = ours(&mut cells);
        }
        assert_eq!(a.1, b.1, "the two sides answer alike");
        if round < 2 {
            continue;
        }
        for i in 0..NAMES.len() {
            ratios[i].push(a.0[i] / b.0[i]);
            micros[i].0.push(a.0[i] / 1000.0);
            micros[i].1.push(b.0[i] / 1000.0);
        }
    }
    for (i, name) in NAMES.iter().enumerate() {
        let (ours, original) = std::mem::take(&mut micros[i]);
        let (least, best) = (least(&ours), least(&original));
        println!("ratio {} {:.2}   (least times: {:.0} us against {:.0} us, {:.2})", name, median(std::mem::take(&mut ratios[i])), least, best, least / best);
    }
}
