//! The library's calls in loops (crate heap_bench, or with cfg through_capi one call of libcapi.a each) against the same loops over the
//! originals, compiled unchanged.
//! `bench ROUNDS [DOCS]`: prints `ratio NAME X`, our time by the original's, the median over the rounds; with DOCS it writes the table
//! and the plot there. ONLY=TEXT in the environment: only the workloads whose names have this text, and nothing is written.
#![allow(dead_code, unused_imports)]
extern crate alloc;
#[path = "seed/coll.rs"]
mod coll;
mod conv;
#[path = "seed/dynv.rs"]
mod dynv;
#[path = "seed/fault.rs"]
mod fault;
#[path = "seed/hash.rs"]
mod hash;
#[path = "seed/heap.rs"]
mod heap;
#[path = "seed/int.rs"]
mod int;
mod lent;
mod machine;
#[path = "seed/map.rs"]
mod map;
#[cfg_attr(through_capi, path = "capi.rs")]
mod ours;
mod page;
mod program;
mod rust;
mod work;

unsafe extern "C" {
    fn clock_gettime(clock: i32, time: *mut [i64; 2]) -> i32;
}

/// The thread's processor time in microseconds: what other programs take of the machine is left out.
fn now() -> f64 {
    let mut t = [0; 2];
    let r = unsafe { clock_gettime(3, &mut t) };
    assert_eq!(r, 0, "the thread has a clock");
    t[0] as f64 * 1e6 + t[1] as f64 / 1e3
}

/// Both sides' calls in loops. Readings answer the sum of the words read, so that no call is left out.
pub trait Side {
    /// A heap without objects.
    fn open(&mut self);
    fn read_box(&mut self, words: &[u64]) -> u64;
    fn store_box(&mut self, words: &[u64], values: &[u64]);
    fn read_item(&mut self, words: &[u64], positions: &[u64]) -> u64;
    fn store_item(&mut self, words: &[u64], positions: &[u64], v: u64);
    fn new_box(&mut self, w: u64, out: &mut [u64]);
    fn new_array(&mut self, t: u64, size: i64, out: &mut [u64]);
    fn new_map(&mut self, out: &mut [u64]);
    fn new_iter(&mut self, source: u64, out: &mut [u64]);
    fn push(&mut self, w: u64, values: &[u64]);
    fn pop(&mut self, w: u64, n: usize) -> u64;
    fn put(&mut self, w: u64, hashes: &[u64], keys: &[u64]);
    fn find(&mut self, w: u64, hashes: &[u64], keys: &[u64]) -> u64;
    fn remove(&mut self, w: u64, hashes: &[u64], keys: &[u64]);
    fn iter_next(&mut self, w: u64, n: usize) -> u64;
    /// The objects freed.
    fn collect(&mut self, roots: &[u64]) -> u64;
    /// The bytes charged.
    fn used(&self) -> u64;
}

/// One workload's times in the rounds, in microseconds.
pub struct Measured {
    pub name: &'static str,
    pub what: &'static str,
    pub ours: Vec<f64>,
    pub original: Vec<f64>,
}

impl Measured {
    pub fn ratio(&self) -> f64 {
        median(self.ours.iter().zip(&self.original).map(|(a, b)| a / b).collect())
    }
}

pub fn median(mut v: Vec<f64>) -> f64 {
    v.sort_by(|a, b| a.total_cmp(b));
    v[v.len() / 2]
}

/// A workload on one side: its time in microseconds and what was answered.
fn once(side: &mut dyn Side, w: &work::Work, load: &work::Load) -> (f64, Vec<u64>) {
    let mut time = 0.0;
    let mut said = (w.run)(side, load, &mut |side, f| {
        let start = now();
        let answer = std::hint::black_box(f(side));
        time += now() - start;
        answer
    });
    said.push(side.used());
    (time, said)
}

fn main() {
    let args: Vec<String> = std::env::args().collect();
    let rounds: usize = args.get(1).map_or(21, |x| x.parse().expect("ROUNDS is a number")).max(9);
    let only = std::env::var("ONLY").unwrap_or_default();
    rust::keep_memory();
    let load = work::Load::new();
    let mut ours = lent::Lent::new();
    let mut original = rust::Original::new();
    let mut measured = vec![];
    for w in work::ALL.iter().filter(|w| w.name.contains(&only)) {
        let mut m = Measured { name: w.name, what: w.what, ours: vec![], original: vec![] };
        for round in 0..rounds + 2 {
            let (a, b);
            if round % 2 == 0 {
                a = once(&mut ours, w, &load);
                b = once(&mut original, w, &load);
            } else {
                b = once(&mut original, w, &load);
                a = once(&mut ours, w, &load);
            }
            assert_eq!(a.1, b.1, "{}: the two sides answer alike", w.name);
            if round >= 2 {
                m.ours.push(a.0);
                m.original.push(b.0);
            }
        }
        println!("ratio {} {:.2}   ({:.0} us against {:.0} us)", m.name, m.ratio(), median(m.ours.clone()), median(m.original.clone()));
        measured.push(m);
    }
    if let (Some(docs), true) = (args.get(2), only.is_empty()) {
        page::write(docs, rounds, &measured);
    }
}
