//! What a caller lends the library: the record and the buffers at full size.
pub const SLOTS: usize = 65_536;
pub const CELLS: usize = 1_048_576;

/// The record and the buffers, made once; every opening takes them as they are.
pub struct Lent {
    pub heap: [u64; 19],
    pub slots: Vec<u64>,
    pub scalars: Vec<u64>,
    pub list: Vec<u64>,
    pub directory: Vec<u64>,
    pub cells: Vec<u64>,
    pub layout: Vec<u8>,
    pub table: Vec<u64>,
    pub marks: Vec<u8>,
    pub order: Vec<u32>,
    pub places: Vec<u64>,
}

impl Lent {
    pub fn new() -> Lent {
        Lent {
            heap: [0; 19],
            slots: vec![1; SLOTS * 8],
            scalars: vec![1; SLOTS * 8],
            list: vec![1; SLOTS],
            directory: vec![1; SLOTS * 2],
            cells: vec![1; CELLS],
            layout: vec![0],
            table: vec![1; 514],
            marks: vec![1; SLOTS],
            order: vec![1; SLOTS * 2],
            places: vec![1; 64],
        }
    }
}
