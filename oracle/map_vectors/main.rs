//! What the original map.rs answers to the input of the program map_vectors, whose source describes the commands.
#![allow(dead_code)]
extern crate alloc;
mod map;
use map::{Cursor, MapStore};
use std::io::Read;

struct State {
    map: MapStore,
    digest: u64,
    cursor: Cursor,
    traced: bool,
}

fn mix(digest: u64, x: u64) -> u64 {
    ((digest % (1 << 52)) * 1021 + digest / (1 << 52) + x) % ((1 << 61) - 1)
}

impl State {
    fn new(digest: u64, traced: bool) -> State {
        State { map: MapStore::default(), digest, cursor: Cursor::default(), traced }
    }

    fn bit(&mut self, x: u64) {
        self.digest = mix(self.digest, x);
    }

    fn word(&mut self, x: u64) {
        self.bit(x % (1 << 32));
        self.bit(x >> 32);
    }

    fn answer(&mut self, found: Option<usize>) {
        self.bit(u64::from(found.is_some()));
        if let Some(p) = found {
            self.word(p as u64);
        }
    }

    fn int(&self, key: u64) -> Option<i128> {
        if self.traced { None } else { Some(key as i64 as i128) }
    }

    fn find(&self, hash: u64, key: u64) -> Option<usize> {
        self.map.find(hash, self.int(key), |k| k == key)
    }

    fn insert(&mut self, hash: u64, key: u64, value: u64) {
        let int = self.int(key);
        assert!(self.map.insert(hash, key, value, int));
    }

    fn put(&mut self, hash: u64, key: u64, value: u64) {
        match self.find(hash, key) {
            Some(p) => {
                self.map.set_value(p, value);
                self.answer(Some(p));
            }
            None => self.insert(hash, key, value),
        }
    }

    fn remove_key(&mut self, hash: u64, key: u64) {
        if let Some(p) = self.find(hash, key) {
            self.map.remove(p);
        }
    }

    fn entry(&mut self, p: usize) {
        match self.map.entry(p).copied() {
            Some(e) => {
                for w in [e.hash, e.key, e.value, e.seq] {
                    self.word(w);
                }
                self.bit(u64::from(e.live));
            }
            None => self.bit(3),
        }
    }

    fn step(&mut self) {
        let found = self.map.next(&mut self.cursor);
        self.answer(found);
        self.word(self.cursor.pos as u64);
        self.word(u64::from(self.cursor.epoch));
        self.bit(u64::from(self.cursor.last_seq.is_some()));
        if let Some(q) = self.cursor.last_seq {
            self.word(q);
        }
    }

    /// The original's search in `next`; beside it a plain count of what a search from the last entry backwards looks at.
    fn search(&mut self, q: u64) {
        let entries = self.map.entries();
        let pos = entries.partition_point(|e| e.seq <= q);
        let later = entries.iter().filter(|e| e.seq > q).count();
        let looked = later + usize::from(entries.iter().any(|e| e.seq <= q));
        self.word(pos as u64);
        self.word(looked as u64);
    }

    /// The store's numbers; the epoch is what a step writes into a cursor.
    fn numbers(&mut self) {
        let mut probe = Cursor::default();
        self.map.next(&mut probe);
        self.word(self.map.len() as u64);
        self.word(self.map.entries().len() as u64);
        self.word(u64::from(probe.epoch));
        self.word(self.map.bytes() as u64);
        self.bit(u64::from(self.map.is_hashed()));
        let next = self.map.next_int();
        if next == 1 << 63 {
            self.bit(2);
        } else if next < 0 {
            self.bit(1);
            self.word((-(next + 1)) as u64);
        } else {
            self.bit(0);
            self.word(next as u64);
        }
    }
}

struct Input(Vec<u8>);

impl Input {
    fn byte(&self, i: usize) -> usize {
        self.0.get(i).copied().map_or(0, usize::from)
    }

    fn word(&self, i: usize) -> u64 {
        let at = 2 + 8 * self.byte(i);
        (0..8).map(|k| (self.byte(at + k) as u64) << (8 * k)).sum()
    }

    fn small(&self, i: usize) -> u64 {
        (self.byte(i) + 256 * self.byte(i + 1)) as u64
    }

    fn small_hash(&self, i: usize) -> u64 {
        let key = self.small(i);
        match self.byte(i + 2) {
            0 => key * 2654435761 % (1 << 32),
            1 => key % 64,
            _ => key * ((1 << 48) + 21),
        }
    }

    fn macro_at(&self, k: usize) -> usize {
        2 + 8 * self.byte(0) + 32 * k
    }
}

fn size(op: usize) -> usize {
    match op {
        10 | 13 | 14 => 1,
        1 | 6 | 7 | 9 | 11 | 19 => 2,
        4 | 5 | 8 => 3,
        2 | 3 | 16 => 4,
        12 | 15 => 5,
        _ => 0,
    }
}

fn command(s: &mut State, x: &Input, at: usize, op: usize) {
    let (a, b) = (x.word(at + 1), x.word(at + 2));
    match op {
        1 => *s = State::new(s.digest, x.byte(at + 1) == 1),
        2 => s.put(a, b, x.word(at + 3)),
        3 => s.insert(a, b, x.word(at + 3)),
        4 => {
            let found = s.find(a, b);
            s.answer(found);
        }
        5 => s.remove_key(a, b),
        6 => s.map.remove(a as usize),
        7 => s.entry(a as usize),
        8 => s.map.set_value(a as usize, b),
        9 => s.map.note_int_key(a as i64 as i128),
        11 => {
            let int = s.int(a);
            s.word(s.map.growth_bytes(int) as u64);
        }
        12 => {
            s.cursor = Cursor { last_seq: (x.byte(at + 1) == 1).then_some(b), pos: x.word(at + 3) as usize, epoch: x.word(at + 4) as u32 };
            s.step();
        }
        13 => s.step(),
        14 => (0..s.map.entries().len()).for_each(|p| s.entry(p)),
        15 => s.put(x.small_hash(at + 1), x.small(at + 1), x.word(at + 4)),
        16 => s.remove_key(x.small_hash(at + 1), x.small(at + 1)),
        19 => s.search(a),
        _ => {}
    }
    s.numbers();
}

fn run(s: &mut State, x: &Input, from: usize, end: usize) {
    let mut i = from;
    while i < end && size(x.byte(i)) > 0 {
        let op = x.byte(i);
        command(s, x, i, op);
        i += size(op);
    }
}

fn main() {
    let mut bytes = vec![];
    std::io::stdin().read_to_end(&mut bytes).unwrap();
    let n = bytes.len();
    let x = Input(bytes);
    let mut s = State::new(0, false);
    let mut i = x.macro_at(x.byte(1));
    while i < n {
        match x.byte(i) {
            17 => {
                println!("{:016x}", s.digest);
                s.digest = 0;
                i += 1;
            }
            18 => {
                let (d, a, t, n) = (x.byte(i + 1), x.byte(i + 2), x.byte(i + 3), x.small(i + 4) as usize);
                for word in 0..a * n {
                    s = State::new(s.digest, false);
                    let mut rest = word;
                    for _ in 0..d {
                        let from = x.macro_at(rest % a);
                        run(&mut s, &x, from, from + 32);
                        rest /= a;
                    }
                    run(&mut s, &x, x.macro_at(t), x.macro_at(t) + 32);
                    if (word + 1) % n == 0 {
                        println!("{:016x}", s.digest);
                    }
                }
                i += 6;
            }
            op => {
                if size(op) == 0 {
                    return;
                }
                command(&mut s, &x, i, op);
                i += size(op);
            }
        }
    }
}
