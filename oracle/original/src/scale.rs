//! Random calls at full size (65,536 slots, 1,048,576 cells) on the originals and on the library, compared call by call.
//! `oracle scale [CALLS [SEED]]`; built with `--features scale` against target/staticlib/libcapi.a.
use std::fmt::Write as _;

use crate::driver::{layout, weights, In, Line};
use crate::ours::Ours;

/// One call: its command, operands without lists, and its lists.
#[derive(Default, Clone)]
pub(crate) struct Call {
    pub(crate) code: u8,
    pub(crate) a: [u64; 6],
    pub(crate) words: Vec<u64>,
    pub(crate) frames: Vec<u64>,
    pub(crate) bytes: Vec<u8>,
}

/// What a call answered: refusal, word, the rest of its line.
#[derive(Default, PartialEq, Eq, Debug)]
pub(crate) struct Answer {
    pub(crate) refusal: u64,
    pub(crate) word: u64,
    pub(crate) used: u64,
    pub(crate) extra: String,
}

/// The operands of each command as docs/SCRIPTS.md has them.
fn shape(code: u8) -> &'static str {
    match code {
        0x01 | 0x05 | 0x06 | 0x0D | 0x10 | 0x14 | 0x16 | 0x1E | 0x22..=0x25 | 0x27..=0x2F | 0x36 | 0x37 | 0x39 | 0x3D..=0x45
        | 0x48..=0x4C | 0x4E | 0x50..=0x52 | 0x61..=0x63 | 0x65 => "q",
        0x02 | 0x07 => "bq",
        0x03 => "bb",
        0x04 => "S",
        0x08 => "hq",
        0x09 => "qW",
        0x0A => "bqW",
        0x0E => "bqqqqqWF",
        0x0F => "Wq",
        0x11 | 0x13 | 0x15 | 0x17 | 0x18 | 0x1A | 0x1C | 0x26 | 0x33 | 0x35 | 0x38 | 0x3C | 0x4D | 0x64 | 0x66 => "qq",
        0x12 | 0x19 | 0x1B | 0x1D | 0x31 | 0x32 | 0x34 => "qqq",
        0x1F | 0x20 => "qb",
        0x21 => "qbq",
        0x30 | 0x3B => "qqqq",
        0x3A => "qbqqq",
        0x60 => "b",
        _ => "",
    }
}

fn encode(c: &Call, out: &mut Vec<u8>) {
    out.clear();
    let mut n = 0;
    let list = |out: &mut Vec<u8>, count: usize, ws: &[u64]| {
        out.extend((count as u64).to_le_bytes());
        ws.iter().for_each(|w| out.extend(w.to_le_bytes()));
    };
    for s in shape(c.code).bytes() {
        match s {
            b'W' => list(out, c.words.len(), &c.words),
            b'F' => list(out, c.frames.len() / 4, &c.frames),
            b'S' => { out.extend((c.bytes.len() as u64).to_le_bytes()); out.extend(&c.bytes); }
            _ => {
                let size = match s { b'b' => 1, b'h' => 2, _ => 8 };
                out.extend(&c.a[n].to_le_bytes()[..size]);
                n += 1;
            }
        }
    }
}

fn original(line: &mut Line, c: &Call, buffer: &mut Vec<u8>) -> Answer {
    encode(c, buffer);
    line.x.clear();
    let r = line.call(c.code, &mut In { b: buffer, at: 0 }).expect("a known command");
    let (refusal, word) = match r { Ok(w) => (0, w), Err(n) => (u64::from(n), 0) };
    Answer { refusal, word, used: line.heap.used() as u64, extra: line.x.clone() }
}

/// The rest of a line, from what the library answered beside the word.
pub(crate) fn extra(c: &Call, refusal: u64, x: &[u64; 6], lent: &[u64], bytes: &[u8]) -> String {
    let mut s = String::new();
    match c.code {
        0x0F => for w in lent { let _ = write!(s, " {w:016X}"); },
        0x26 if bytes.is_empty() => s.push_str(" -"),
        0x26 => { s.push(' '); bytes.iter().for_each(|b| { let _ = write!(s, "{b:02X}"); }); }
        0x3A => { let last = if x[2] == 0 { c.a[2] } else { x[3] }; let _ = write!(s, " {} {} {last} {} {}", x[1], x[2], x[4], x[5]); }
        _ if refusal != 0 => {}
        0x2B | 0x31 | 0x39 | 0x40 | 0x41 | 0x4A | 0x63 | 0x65 => { let _ = write!(s, " {}", x[1]); }
        0x33 => { let _ = write!(s, " {:016X} {:016X} {} {}", x[1], x[2], x[3], x[4]); }
        0x45 if x[1] == 7 => { let _ = write!(s, " 7 {} {} {}", x[2], x[3], x[4]); }
        0x45 => { let _ = write!(s, " {}", x[1]); }
        0x4D => { let _ = write!(s, " {} {} {:016X}", x[1], x[2], x[3]); }
        _ => {}
    }
    s
}

const ROWS: usize = 12;

struct Gen { state: u64, pool: [Vec<u64>; ROWS] }

impl Gen {
    fn next(&mut self) -> u64 {
        self.state = self.state.wrapping_add(0x9E37_79B9_7F4A_7C15);
        let mut x = self.state;
        x = (x ^ (x >> 30)).wrapping_mul(0xBF58_476D_1CE4_E5B9);
        x = (x ^ (x >> 27)).wrapping_mul(0x94D0_49BB_1331_11EB);
        x ^ (x >> 31)
    }
    fn below(&mut self, n: u64) -> u64 { self.next() % n }
    fn one_in(&mut self, n: u64) -> bool { self.below(n) == 0 }

    /// A reference to an object of the row, perhaps one that is freed; now and then another word.
    fn of(&mut self, row: usize) -> u64 {
        if self.one_in(60) || self.pool[row].is_empty() { return self.word(); }
        let n = self.pool[row].len() as u64;
        let i = if self.one_in(4) { self.below(n) } else { n - 1 - self.below(n.min(64)) };
        self.pool[row][i as usize]
    }

    fn word(&mut self) -> u64 {
        match self.below(10) {
            0 => 0,
            1 => [1, 1 << 32, (1 << 32) + 5, 2 << 32, 1 << 48, (1 << 48) + (1 << 47), 1 << 49, u64::MAX, 1 << 63, 0x7FFA_0000_0000_0000][self.below(10) as usize],
            2 => 0xFFFE_0000_0000_0000 + self.below(1 << 49),
            3 => self.next(),
            _ => { let row = 1 + self.below(11) as usize; let n = self.pool[row].len() as u64; if n == 0 { 0 } else { let i = self.below(n); self.pool[row][i as usize] } }
        }
    }
    fn words(&mut self, n: u64) -> Vec<u64> { (0..n).map(|_| self.word()).collect() }
    fn length(&mut self) -> u64 { match self.below(40) { 0 => self.below(300), 1..=5 => self.below(40), _ => self.below(8) } }
    fn key(&mut self) -> u64 { match self.below(20) { 0 => self.next(), 1 => (self.below(50) as i64).wrapping_neg() as u64, 2..=9 => self.below(30), _ => self.below(2000) } }
    fn hash(&mut self, k: u64) -> u64 { match self.below(50) { 0 => self.next(), 1 => 7, _ => k.wrapping_mul(0x9E37_79B9_7F4A_7C15) >> 7 } }

    fn make(&mut self) -> Call {
        let code = [0x01, 0x02, 0x02, 0x03, 0x04, 0x05, 0x07, 0x08, 0x09, 0x0A, 0x0D, 0x0E][self.below(12) as usize];
        let mut c = Call { code, ..Call::default() };
        match code {
            0x02 => { c.a[0] = self.below(3); c.a[1] = if self.one_in(200) { u64::MAX } else { self.length() }; if self.one_in(300) { c.a[0] = 3 + self.below(200); } }
            0x03 => { c.a[0] = if self.one_in(4) { self.below(3) } else { 0 }; c.a[1] = self.below(3); }
            0x04 => { let n = self.length(); c.bytes = (0..n).map(|i| (i * 37) as u8).collect(); }
            0x07 => { c.a[0] = self.below(3); c.a[1] = self.word(); }
            0x08 => { c.a[0] = self.below(65536); c.a[1] = self.word(); }
            0x09 => { c.a[0] = self.below(6); let n = self.length(); c.words = self.words(n); }
            0x0A => { c.a[0] = u64::from(self.one_in(4)); c.a[1] = self.below(6); let n = self.length(); c.words = self.words(n); }
            0x0D => { let row = if self.one_in(2) { 6 } else { 7 }; c.a[0] = self.of(row); }
            0x0E => {
                c.a = [self.below(5), self.below(1000), self.word(), self.word(), self.word(), self.word()];
                if self.one_in(200) { c.a[0] = 5; }
                let n = self.length(); c.words = self.words(n);
                for _ in 0..self.below(4) { let f = [self.below(6), self.below(1 << 32), self.below(10), self.word()]; c.frames.extend(f); }
            }
            _ => c.a[0] = self.word(),
        }
        c
    }

    fn on_map(&mut self) -> Call {
        let code = [0x30, 0x30, 0x30, 0x30, 0x31, 0x31, 0x32, 0x32, 0x3B, 0x33, 0x34, 0x35, 0x36, 0x37, 0x38, 0x39, 0x3A, 0x3A, 0x3C, 0x3D, 0x3E, 0x3F][self.below(22) as usize];
        let map = self.of(7);
        let k = self.key();
        let h = self.hash(k);
        let a = match code {
            0x30 | 0x3B => [map, h, k, self.word(), 0, 0],
            0x31 | 0x32 => [map, h, k, 0, 0, 0],
            0x34 => [map, self.below(60), self.word(), 0, 0, 0],
            0x33 | 0x35 => [map, self.below(60), 0, 0, 0, 0],
            0x3A => [map, self.below(2), self.below(60), self.below(60), self.below(3), 0],
            _ => [map, k, 0, 0, 0, 0],
        };
        Call { code, a, ..Call::default() }
    }

    fn on_array(&mut self) -> Call {
        let code = [0x10, 0x11, 0x11, 0x12, 0x12, 0x13, 0x13, 0x13, 0x14, 0x14, 0x2D, 0x2E][self.below(12) as usize];
        let a = match code { 0x13 => [self.of(6), self.word(), 0, 0, 0, 0], _ => [self.of(6), self.length(), self.word(), 0, 0, 0] };
        Call { code, a, ..Call::default() }
    }

    fn on_iterator(&mut self) -> Call {
        let code = [0x40, 0x40, 0x40, 0x40, 0x40, 0x41, 0x42, 0x43, 0x44, 0x45][self.below(10) as usize];
        // 45 asks the originals for the kind of the source, which has to be present.
        Call { code, a: [self.of(10), 0, 0, 0, 0, 0], ..Call::default() }
    }

    fn on_other(&mut self) -> Call {
        let (code, row) = [(0x06, 5), (0x15, 5), (0x16, 3), (0x17, 3), (0x2F, 3), (0x22, 4), (0x23, 4), (0x24, 2), (0x25, 1), (0x26, 1), (0x18, 8), (0x19, 8), (0x29, 8),
            (0x2A, 8), (0x1A, 9), (0x1B, 9), (0x2B, 9), (0x2C, 9), (0x1C, 11), (0x1D, 11), (0x1E, 11), (0x1F, 11), (0x20, 11), (0x21, 11), (0x4D, 11)][self.below(25) as usize];
        let mut a = [self.of(row), self.length(), self.word(), 0, 0, 0];
        match code {
            0x15 | 0x17 => a[1] = self.word(),
            0x1F => a[1] = self.below(6),
            0x20 => a[1] = self.below(8),
            0x21 => a[1] = self.below(4),
            0x4D => a[1] = self.below(4),
            0x26 => a[1] = self.below(200),
            _ => {}
        }
        Call { code, a, ..Call::default() }
    }

    fn on_word(&mut self) -> Call {
        let code = [0x27, 0x28, 0x4E, 0x60, 0x61, 0x62, 0x63, 0x64, 0x65, 0x66, 0x50, 0x51, 0x52, 0x53, 0x54, 0x55][self.below(16) as usize];
        let mut a = [self.word(), self.word(), 0, 0, 0, 0];
        match code { 0x50..=0x52 => a[0] = self.below(1 << 12), 0x60 => a[0] = self.below(3), _ => {} }
        Call { code, a, ..Call::default() }
    }

    /// Keeps about half of what the pool names.
    fn collection(&mut self) -> Call {
        let share = 1 + self.below(4);
        let mut words = Vec::new();
        for row in 1..ROWS {
            for i in 0..self.pool[row].len() { if self.below(4) < share { words.push(self.pool[row][i]); } }
        }
        Call { code: 0x0F, a: [words.len() as u64, 0, 0, 0, 0, 0], words, ..Call::default() }
    }

    fn call(&mut self, present: u64, taken: u64) -> Call {
        if present > 64_000 || taken > 1_000_000 || self.one_in(120_000) { return self.collection(); }
        // What the driver reads off the originals' Debug form is asked for rarely.
        if self.one_in(4000) { return Call { code: 0x48 + self.below(5) as u8, a: [self.of(7), 0, 0, 0, 0, 0], ..Call::default() }; }
        if self.one_in(300_000) { return Call { code: 0x56, ..Call::default() }; }
        match self.below(100) {
            0..=17 => self.make(),
            18..=49 => self.on_map(),
            50..=66 => self.on_array(),
            67..=79 => self.on_iterator(),
            80..=93 => self.on_other(),
            _ => self.on_word(),
        }
    }
}

/// Structs and functions with traced fields, registers and captures.
fn layout_bytes() -> Vec<u8> {
    vec![1, 2, 0, 0, 2, 2, 0, 1, 2, 1, 0, 2, 1, 0, 1, 3, 4, 0, 0, 4, 3, 0, 5, 0, 5, 1, 5, 2, 3, 5, 2, 5, 2, 3, 4, 1, 0, 0]
}

fn row_of(code: u8) -> Option<usize> {
    Some(match code { 0x01 => 5, 0x02 => 6, 0x03 => 7, 0x04 => 1, 0x05 => 2, 0x07 => 3, 0x08 => 4, 0x09 => 8, 0x0A => 9, 0x0D => 10, 0x0E => 11, _ => return None })
}

/// The original has one null answer. On a reference the library's 11 stands for it (document 02, (i)) and 1 would be a difference; so do 15 and 0 of `get` and `kind`.
fn null_answer(c: &Call, mut a: Answer) -> Answer {
    if c.a[0] >> 48 == 1 {
        a.refusal = match a.refusal { 11 => 1, 1 => 11, n => n };
        if matches!(c.code, 0x27 | 0x4E) {
            a.word = match a.word { 15 => 0, 0 => 15, n => n };
        }
    }
    a
}

/// One heap's life: so many calls since its opening.
fn life(g: &mut Gen, calls: u64, limit: u64, ours: &mut Ours, tally: &mut [u64; 3]) -> Result<(), String> {
    let bytes = layout_bytes();
    let mut line = Line::new(limit, layout(&bytes).expect("a layout"));
    ours.open(65_536, limit, weights(), &bytes);
    g.pool = Default::default();
    let mut buffer = Vec::new();
    for n in 0..calls {
        let c = g.call(ours.present(), ours.taken());
        let theirs = original(&mut line, &c, &mut buffer);
        let mine = null_answer(&c, ours.call(&c));
        if theirs != mine { return Err(format!("call {n}: {:02X} {:X?} words {} frames {}: the original {theirs:X?}, the library {mine:X?}", c.code, c.a, c.words.len(), c.frames.len())); }
        tally[0] += 1;
        tally[1] += u64::from(mine.refusal != 0);
        tally[2] = tally[2].max(ours.present());
        if let (Some(row), 0) = (row_of(c.code), mine.refusal) { g.pool[row].push(mine.word); }
        if c.code == 0x0F { for row in 1..ROWS { let kept: Vec<u64> = g.pool[row].iter().copied().filter(|&w| line.heap.get(w).is_some()).collect(); g.pool[row] = kept; } }
    }
    Ok(())
}

pub(crate) fn main(calls: u64, seed: u64) {
    let mut g = Gen { state: seed, pool: Default::default() };
    let mut ours = Ours::new(65_536, 1_048_576);
    let mut tally = [0u64; 3];
    let lives = calls.div_ceil(1_000_000).max(1);
    for n in 0..lives {
        let limit = [1 << 40, 1 << 40, 12_000_000][(n % 3) as usize];
        if let Err(e) = life(&mut g, calls / lives, limit, &mut ours, &mut tally) { println!("a difference, life {n}: {e}"); std::process::exit(1); }
    }
    println!("{} calls at 65,536 slots and 1,048,576 cells in {lives} lives, {} refused, at most {} objects present: no difference", tally[0], tally[1], tally[2]);
}
