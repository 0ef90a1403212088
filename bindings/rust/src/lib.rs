//! The heap for Rust: a [`Heap`] owns its buffers, and every call is a method. Each rests on the function of the same
//! name in crates/capi, which is proved; this wrapper is not, it only hands over what the functions are to be lent.
//!
//! Build the library first: `tools/staticlib capi`.

mod sys;

/// A 64-bit word: nil, a truth value, an integer, a float, a character or a reference.
#[derive(Clone, Copy, PartialEq, Eq, PartialOrd, Ord, Hash, Debug, Default)]
#[repr(transparent)]
pub struct Word(pub u64);

/// Why a call was refused. A refused call changes nothing.
#[derive(Clone, Copy, PartialEq, Eq, Debug)]
pub enum Refusal {
    /// A call on nil.
    NilTarget = 1,
    /// An object of another kind, or a word neither nil nor reference.
    OtherKind = 2,
    /// A position outside, pop of an empty array, a negative length.
    Outside = 3,
    /// A state above 4.
    BadType = 4,
    OverBudget = 5,
    NoSlot = 6,
    NoCells = 7,
    /// A lent list or buffer that is too short.
    TooShort = 8,
    /// A map's 2^32 sequence numbers are spent.
    Spent = 9,
    BadOpening = 10,
    /// A reference to an object that is not there, or no longer.
    DeadReference = 11,
}

/// What [`Heap::get`] and [`Heap::kind_of`] answer of a dead reference.
pub const DEAD: u64 = 15;

/// The type of an array's items, of a map's keys or values, or of a cell's word.
#[derive(Clone, Copy, PartialEq, Eq, Debug)]
pub enum Type {
    Plain = 0,
    Reference = 1,
    Dynamic = 2,
}

/// What a word reads as.
#[derive(Clone, Copy, PartialEq, Debug)]
pub enum Value {
    Nil,
    Truth(bool),
    Integer(i64),
    Float(f64),
    Character(u32),
    Reference { slot: u32, tag: u16 },
}

/// The bytes that things weigh in the account, 1 to 4,096 each.
#[derive(Clone, Copy, PartialEq, Eq, Debug)]
pub struct Weights {
    pub slot: u64,
    pub entry: u64,
    pub iterator: u64,
    pub coroutine: u64,
    pub frame: u64,
}

/// What a coroutine is made with beside its registers and frames. States: 0 fresh, 1 running, 2 yielded, 3 awaiting,
/// 4 returned.
#[derive(Clone, Copy, PartialEq, Eq, Debug, Default)]
pub struct Coroutine {
    pub state: u64,
    pub sequence: u64,
    pub payload: Word,
    pub key: Word,
    pub result: Word,
    pub signal: Word,
}

impl Coroutine {
    fn words(self) -> [u64; 6] {
        [self.state, self.sequence, self.payload.0, self.key.0, self.result.0, self.signal.0]
    }
}

/// A frame of a coroutine.
#[derive(Clone, Copy, PartialEq, Eq, Debug, Default)]
#[repr(C)]
pub struct Frame {
    pub function: u64,
    pub counter: u64,
    pub base: u64,
    pub closure: Word,
}

/// An entry of a map.
#[derive(Clone, Copy, PartialEq, Eq, Debug)]
pub struct Entry {
    pub hash: u64,
    pub key: Word,
    pub value: Word,
    pub sequence: u64,
    pub live: bool,
}

/// A map's cursor: the sequence number yielded last, a position, an epoch. The default one has yielded nothing.
#[derive(Clone, Copy, PartialEq, Eq, Debug, Default)]
pub struct Cursor {
    pub last: Option<u64>,
    pub position: u64,
    pub epoch: u32,
}

impl Cursor {
    fn words(self) -> [u64; 4] {
        [self.last.is_some() as u64, self.last.unwrap_or(0), self.position, self.epoch as u64]
    }

    fn of(w: [u64; 4]) -> Cursor {
        Cursor { last: (w[0] != 0).then_some(w[1]), position: w[2], epoch: w[3] as u32 }
    }
}

/// An iterator's cursor.
#[derive(Clone, Copy, PartialEq, Eq, Debug)]
pub enum IterCursor {
    Array(u64),
    Map(Cursor),
}

impl IterCursor {
    fn of(a: Answer) -> IterCursor {
        if a[1] == 6 {
            IterCursor::Array(a[0])
        } else {
            IterCursor::Map(Cursor::of([a[2], a[3], a[0], a[4]]))
        }
    }
}

/// What a collection answers.
#[derive(Clone, Copy, PartialEq, Eq, Debug)]
pub struct Collected {
    pub freed: u64,
    pub listed: u64,
}

type Answer = [u64; 6];

fn told(number: u64, answer: Answer) -> Result<Answer, Refusal> {
    Err(match number {
        0 => return Ok(answer),
        1 => Refusal::NilTarget,
        2 => Refusal::OtherKind,
        3 => Refusal::Outside,
        4 => Refusal::BadType,
        5 => Refusal::OverBudget,
        6 => Refusal::NoSlot,
        7 => Refusal::NoCells,
        8 => Refusal::TooShort,
        9 => Refusal::Spent,
        10 => Refusal::BadOpening,
        11 => Refusal::DeadReference,
        _ => unreachable!("no refusal has the number {number}"),
    })
}

/// The answer of a call that is never refused.
fn never(told: Result<Answer, Refusal>) -> Answer {
    told.expect("a call that is never refused")
}

/// A call on words.
macro_rules! words {
    ($f:ident($($a:expr),*)) => {{
        let mut answer = [0; 6];
        // SAFETY: `answer` is six words.
        unsafe { sys::$f($($a,)* answer.as_mut_ptr()) };
        answer
    }};
}

impl Word {
    pub const NIL: Word = Word(0);

    pub fn from_bool(b: bool) -> Word {
        Word(words!(mch_truth_word(b as u64))[0])
    }

    pub fn from_char(c: u32) -> Word {
        Word(words!(mch_char_word(c))[0])
    }

    /// Every NaN has one word.
    pub fn from_f64(x: f64) -> Word {
        Word(words!(mch_float_word(x.to_bits()))[0])
    }

    /// The word of an integer from -2^48 to 2^48 - 1; others have none.
    pub fn from_i64(number: i64) -> Option<Word> {
        let a = words!(mch_integer_word(number));
        (a[1] != 0).then_some(Word(a[0]))
    }

    /// A slot, and a tag: the box flag 0x8000 and a 15-bit generation.
    pub fn from_reference(slot: u32, tag: u16) -> Word {
        Word(words!(mch_reference_word(slot, tag))[0])
    }

    pub fn read(self) -> Value {
        let a = words!(mch_read_word(self.0));
        match a[1] {
            1 => Value::Truth(a[0] != 0),
            2 => Value::Integer(a[0] as i64),
            3 => Value::Float(f64::from_bits(a[0])),
            4 => Value::Character(a[0] as u32),
            5 => Value::Reference { slot: a[0] as u32, tag: (a[0] >> 32) as u16 },
            _ => Value::Nil,
        }
    }

    /// Whether two words read as the same: equal kind and value, floats by IEEE equality.
    pub fn same(self, other: Word) -> bool {
        words!(mch_same_words(self.0, other.0))[0] != 0
    }
}

/// A heap, its record and its buffers.
pub struct Heap {
    record: [u64; 19],
    slots: Vec<u64>,
    scalars: Vec<u64>,
    list: Vec<u64>,
    directory: Vec<u64>,
    cells: Vec<u64>,
    layout: Vec<u8>,
    table: Vec<u64>,
    marks: Vec<u8>,
    order: Vec<u32>,
}

const MOST_SLOTS: u64 = 65_536;
const MOST_CELLS: usize = 1_048_576;
const TABLE: usize = 514;

/// A call that leaves the record and the buffers as they are.
macro_rules! read {
    ($h:ident.$f:ident($($a:expr),*)) => {{
        let mut answer = [0; 6];
        // SAFETY: the record and the buffers are those that an accepted opening and the calls since have left, and the
        // other pointers come from slices and arrays of the lengths that the function takes.
        let number = unsafe {
            sys::$f(
                $h.record.as_ptr(),
                $h.slots.as_ptr(), $h.slots.len(),
                $h.scalars.as_ptr(), $h.scalars.len(),
                $h.list.as_ptr(), $h.list.len(),
                $h.directory.as_ptr(), $h.directory.len(),
                $h.cells.as_ptr(), $h.cells.len(),
                $($a,)* answer.as_mut_ptr(),
            )
        };
        told(number, answer)
    }};
}

/// A call that may change them.
macro_rules! change {
    ($h:ident.$f:ident($($a:expr),*)) => {{
        let mut answer = [0; 6];
        // SAFETY: as for `read`; the buffers are borrowed mutably, and none overlaps another.
        let number = unsafe {
            sys::$f(
                $h.record.as_mut_ptr(),
                $h.slots.as_mut_ptr(), $h.slots.len(),
                $h.scalars.as_mut_ptr(), $h.scalars.len(),
                $h.list.as_mut_ptr(), $h.list.len(),
                $h.directory.as_mut_ptr(), $h.directory.len(),
                $h.cells.as_mut_ptr(), $h.cells.len(),
                $($a,)* answer.as_mut_ptr(),
            )
        };
        told(number, answer)
    }};
}

impl Heap {
    /// A heap of so many slots and cells. Refused: 10.
    pub fn open(slots: u64, cells: usize, limit: u64, weights: Weights, layout: &[u8]) -> Result<Heap, Refusal> {
        // Sizes beyond the maximum are refused whatever the buffers are.
        let n = slots.min(MOST_SLOTS) as usize;
        let mut h = Heap {
            record: [0; 19],
            slots: vec![0; 8 * n],
            scalars: vec![0; 8 * n],
            list: vec![0; n],
            directory: vec![0; 2 * n],
            cells: vec![0; cells.min(MOST_CELLS + 1)],
            layout: layout.to_vec(),
            table: vec![0; TABLE],
            marks: vec![0; n],
            order: vec![0; 2 * n],
        };
        let w = [weights.slot, weights.entry, weights.iterator, weights.coroutine, weights.frame];
        // SAFETY: every pointer comes with the length of what it points to; none overlaps another.
        let number = unsafe {
            sys::mch_open(
                h.record.as_mut_ptr(),
                slots,
                limit,
                w.as_ptr(),
                h.layout.as_ptr(),
                h.layout.len(),
                h.table.as_mut_ptr(),
                h.table.len(),
                h.marks.as_mut_ptr(),
                h.marks.len(),
                h.order.as_mut_ptr(),
                h.order.len(),
                h.slots.as_ptr(),
                h.slots.len(),
                h.scalars.as_ptr(),
                h.scalars.len(),
                h.list.as_ptr(),
                h.list.len(),
                h.directory.as_ptr(),
                h.directory.len(),
                h.cells.as_ptr(),
                h.cells.len(),
            )
        };
        told(number, [0; 6]).map(|_| h)
    }

    /// A collection: what the roots reach is kept; so are waiting coroutines outside it, which are finalized and listed
    /// in the first of the places, and what they reach; the other objects are freed. Refused: 8.
    pub fn collect(&mut self, roots: &[Word], places: &mut [Word]) -> Result<Collected, Refusal> {
        change!(self.mch_collect(
            self.layout.as_ptr(),
            self.layout.len(),
            self.table.as_ptr(),
            self.table.len(),
            self.marks.as_mut_ptr(),
            self.marks.len(),
            self.order.as_mut_ptr(),
            self.order.len(),
            roots.as_ptr().cast(),
            roots.len(),
            places.as_mut_ptr().cast(),
            places.len()
        ))
        .map(|a| Collected { freed: a[0], listed: a[1] })
    }
}

/// The heap as a whole.
impl Heap {
    /// A charge of so many bytes, without an object. Refused: 5.
    pub fn charge(&mut self, bytes: u64) -> Result<(), Refusal> {
        change!(self.mch_charge(bytes)).map(|_| ())
    }

    /// Whether a charge of so many bytes would be accepted.
    pub fn fits(&self, bytes: u64) -> bool {
        let a = never(read!(self.mch_fits(bytes)));
        a[0] != 0
    }

    /// Whether a collection is due before so many bytes more.
    pub fn wants_gc(&self, extra: u64) -> bool {
        let a = never(read!(self.mch_wants_gc(extra)));
        a[0] != 0
    }

    /// How many collections there have been.
    pub fn collection_count(&self) -> u64 {
        let a = never(read!(self.mch_collection_count()));
        a[0]
    }

    /// How many objects the collections have freed.
    pub fn freed_count(&self) -> u64 {
        let a = never(read!(self.mch_freed_count()));
        a[0]
    }

    /// The bytes charged and not freed.
    pub fn used_bytes(&self) -> u64 {
        let a = never(read!(self.mch_used_bytes()));
        a[0]
    }

    /// How many objects are present.
    pub fn present_count(&self) -> u64 {
        let a = never(read!(self.mch_present_count()));
        a[0]
    }

    /// The cells of the objects present.
    pub fn cells_in_use(&self) -> u64 {
        let a = never(read!(self.mch_cells_in_use()));
        a[0]
    }
}

/// New objects.
impl Heap {
    /// A string of these bytes. Refused: 5, 6, 7.
    pub fn new_string(&mut self, bytes: &[u8]) -> Result<Word, Refusal> {
        change!(self.mch_new_string(bytes.as_ptr(), bytes.len())).map(|a| Word(a[0]))
    }

    /// An integer object. Refused: 5, 6.
    pub fn new_integer(&mut self, number: i64) -> Result<Word, Refusal> {
        change!(self.mch_new_integer(number)).map(|a| Word(a[0]))
    }

    /// A cell of this type, with this word. Refused: 5, 6.
    pub fn new_cell(&mut self, kind: Type, word: Word) -> Result<Word, Refusal> {
        change!(self.mch_new_cell(kind as u64, word.0)).map(|a| Word(a[0]))
    }

    /// An error of any 16-bit kind, with this word. Refused: 5, 6.
    pub fn new_error(&mut self, kind: u16, word: Word) -> Result<Word, Refusal> {
        change!(self.mch_new_error(kind, word.0)).map(|a| Word(a[0]))
    }

    /// A box with this word. Refused: 5, 6.
    pub fn new_box(&mut self, word: Word) -> Result<Word, Refusal> {
        change!(self.mch_new_box(word.0)).map(|a| Word(a[0]))
    }

    /// An array of this type, with so many nil items. Refused: 3, 5, 6, 7.
    pub fn new_array(&mut self, kind: Type, length: i64) -> Result<Word, Refusal> {
        change!(self.mch_new_array(kind as u64, length)).map(|a| Word(a[0]))
    }

    /// A map without entries, of these types of keys and values. Refused: 5, 6.
    pub fn new_map(&mut self, keys: Type, values: Type) -> Result<Word, Refusal> {
        change!(self.mch_new_map(keys as u64, values as u64)).map(|a| Word(a[0]))
    }

    /// A struct of the type of this number, with these fields. Refused: 5, 6, 7.
    pub fn new_struct(&mut self, number: u64, fields: &[Word]) -> Result<Word, Refusal> {
        change!(self.mch_new_struct(number, fields.as_ptr().cast(), fields.len())).map(|a| Word(a[0]))
    }

    /// A function with these captures; an import, or one of the layout's. Refused: 5, 6, 7.
    pub fn new_function(&mut self, import: bool, number: u64, captures: &[Word]) -> Result<Word, Refusal> {
        change!(self.mch_new_function(import as u64, number, captures.as_ptr().cast(), captures.len()))
            .map(|a| Word(a[0]))
    }

    /// An iterator over an array or a map. Refused: 1, 11, 2, 5, 6.
    pub fn new_iter(&mut self, source: Word) -> Result<Word, Refusal> {
        change!(self.mch_new_iter(source.0)).map(|a| Word(a[0]))
    }

    /// A coroutine with these words, registers and frames. Refused: 4, 5, 6, 7.
    pub fn new_coroutine(
        &mut self, coroutine: Coroutine, registers: &[Word], frames: &[Frame],
    ) -> Result<Word, Refusal> {
        let words = coroutine.words();
        change!(self.mch_new_coroutine(
            words.as_ptr(),
            registers.as_ptr().cast(),
            registers.len(),
            frames.as_ptr().cast(),
            4 * frames.len()
        ))
        .map(|a| Word(a[0]))
    }
}

/// Readings.
impl Heap {
    /// The row of the object that a word reaches: 1 string, 2 integer, 3 cell, 4 error, 5 box, 6 array, 7 map, 8 struct, 9 function, 10 iterator, 11 coroutine; [`DEAD`] for a dead
    /// reference, 0 for any other word.
    pub fn get(&self, word: Word) -> u64 {
        let a = never(read!(self.mch_get(word.0)));
        a[0]
    }

    /// A word seen through a box.
    pub fn deref(&self, word: Word) -> Word {
        let a = never(read!(self.mch_deref(word.0)));
        Word(a[0])
    }

    /// The number of a word's kind: 0 nil, an object's row, 2 an integer, 12 truth, 13 float, 14 character, [`DEAD`] a dead reference.
    pub fn kind_of(&self, word: Word) -> u64 {
        let a = never(read!(self.mch_kind_of(word.0)));
        a[0]
    }

    /// The length of a string in bytes. Refused: 1, 11, 2.
    pub fn string_length(&self, string: Word) -> Result<u64, Refusal> {
        read!(self.mch_string_length(string.0)).map(|a| a[0])
    }

    /// A string's bytes, into the buffer's first places; 8 where the buffer is shorter. Refused: 1, 11, 2, 8.
    pub fn read_string(&self, string: Word, buffer: &mut [u8]) -> Result<u64, Refusal> {
        read!(self.mch_read_string(string.0, buffer.as_mut_ptr(), buffer.len())).map(|a| a[0])
    }

    /// An integer object's number. Refused: 1, 11, 2.
    pub fn read_integer(&self, integer: Word) -> Result<i64, Refusal> {
        read!(self.mch_read_integer(integer.0)).map(|a| a[0] as i64)
    }

    /// A cell's word. Refused: 1, 11, 2.
    pub fn read_cell(&self, cell: Word) -> Result<Word, Refusal> {
        read!(self.mch_read_cell(cell.0)).map(|a| Word(a[0]))
    }

    /// A cell's type. Refused: 1, 11, 2.
    pub fn cell_type(&self, cell: Word) -> Result<u64, Refusal> {
        read!(self.mch_cell_type(cell.0)).map(|a| a[0])
    }

    /// An error's kind. Refused: 1, 11, 2.
    pub fn error_kind(&self, error: Word) -> Result<u64, Refusal> {
        read!(self.mch_error_kind(error.0)).map(|a| a[0])
    }

    /// An error's word. Refused: 1, 11, 2.
    pub fn error_word(&self, error: Word) -> Result<Word, Refusal> {
        read!(self.mch_error_word(error.0)).map(|a| Word(a[0]))
    }

    /// A box's word. Refused: 1, 11, 2.
    pub fn read_box(&self, boxed: Word) -> Result<Word, Refusal> {
        read!(self.mch_read_box(boxed.0)).map(|a| Word(a[0]))
    }

    /// The type of an array's items. Refused: 1, 11, 2.
    pub fn array_type(&self, array: Word) -> Result<u64, Refusal> {
        read!(self.mch_array_type(array.0)).map(|a| a[0])
    }

    /// The length of an array. Refused: 1, 11, 2.
    pub fn array_length(&self, array: Word) -> Result<u64, Refusal> {
        read!(self.mch_array_length(array.0)).map(|a| a[0])
    }

    /// The capacity of an array. Refused: 1, 11, 2.
    pub fn array_capacity(&self, array: Word) -> Result<u64, Refusal> {
        read!(self.mch_array_capacity(array.0)).map(|a| a[0])
    }

    /// An item of an array, as it was stored. Refused: 1, 11, 2, 3.
    pub fn read_item(&self, array: Word, index: u64) -> Result<Word, Refusal> {
        read!(self.mch_read_item(array.0, index)).map(|a| Word(a[0]))
    }

    /// A struct's type. Refused: 1, 11, 2.
    pub fn struct_number(&self, object: Word) -> Result<u64, Refusal> {
        read!(self.mch_struct_number(object.0)).map(|a| a[0])
    }

    /// How many fields a struct has. Refused: 1, 11, 2.
    pub fn field_count(&self, object: Word) -> Result<u64, Refusal> {
        read!(self.mch_field_count(object.0)).map(|a| a[0])
    }

    /// A field of a struct. Refused: 1, 11, 2, 3.
    pub fn read_field(&self, object: Word, index: u64) -> Result<Word, Refusal> {
        read!(self.mch_read_field(object.0, index)).map(|a| Word(a[0]))
    }

    /// Whether a function is an import. Refused: 1, 11, 2.
    pub fn is_import(&self, function: Word) -> Result<bool, Refusal> {
        read!(self.mch_is_import(function.0)).map(|a| a[0] != 0)
    }

    /// A function's number. Refused: 1, 11, 2.
    pub fn function_number(&self, function: Word) -> Result<u64, Refusal> {
        read!(self.mch_function_number(function.0)).map(|a| a[0])
    }

    /// How many captures a function has. Refused: 1, 11, 2.
    pub fn capture_count(&self, function: Word) -> Result<u64, Refusal> {
        read!(self.mch_capture_count(function.0)).map(|a| a[0])
    }

    /// A capture of a function. Refused: 1, 11, 2, 3.
    pub fn read_capture(&self, function: Word, index: u64) -> Result<Word, Refusal> {
        read!(self.mch_read_capture(function.0, index)).map(|a| Word(a[0]))
    }

    /// A coroutine's state. Refused: 1, 11, 2.
    pub fn read_state(&self, coroutine: Word) -> Result<u64, Refusal> {
        read!(self.mch_read_state(coroutine.0)).map(|a| a[0])
    }

    /// A coroutine's payload. Refused: 1, 11, 2.
    pub fn read_payload(&self, coroutine: Word) -> Result<Word, Refusal> {
        read!(self.mch_read_payload(coroutine.0)).map(|a| Word(a[0]))
    }

    /// A coroutine's key. Refused: 1, 11, 2.
    pub fn read_key(&self, coroutine: Word) -> Result<Word, Refusal> {
        read!(self.mch_read_key(coroutine.0)).map(|a| Word(a[0]))
    }

    /// A coroutine's result. Refused: 1, 11, 2.
    pub fn read_result(&self, coroutine: Word) -> Result<Word, Refusal> {
        read!(self.mch_read_result(coroutine.0)).map(|a| Word(a[0]))
    }

    /// A coroutine's signal. Refused: 1, 11, 2.
    pub fn read_signal(&self, coroutine: Word) -> Result<Word, Refusal> {
        read!(self.mch_read_signal(coroutine.0)).map(|a| Word(a[0]))
    }

    /// A coroutine's sequence number. Refused: 1, 11, 2.
    pub fn coroutine_sequence(&self, coroutine: Word) -> Result<u64, Refusal> {
        read!(self.mch_coroutine_sequence(coroutine.0)).map(|a| a[0])
    }

    /// Whether a coroutine is finalized. Refused: 1, 11, 2.
    pub fn coroutine_finalized(&self, coroutine: Word) -> Result<bool, Refusal> {
        read!(self.mch_coroutine_finalized(coroutine.0)).map(|a| a[0] != 0)
    }

    /// How many registers a coroutine has. Refused: 1, 11, 2.
    pub fn register_count(&self, coroutine: Word) -> Result<u64, Refusal> {
        read!(self.mch_register_count(coroutine.0)).map(|a| a[0])
    }

    /// How many frames a coroutine has. Refused: 1, 11, 2.
    pub fn frame_count(&self, coroutine: Word) -> Result<u64, Refusal> {
        read!(self.mch_frame_count(coroutine.0)).map(|a| a[0])
    }

    /// A frame of a coroutine. Refused: 1, 11, 2, 3.
    pub fn read_frame(&self, coroutine: Word, index: u64) -> Result<Frame, Refusal> {
        read!(self.mch_read_frame(coroutine.0, index)).map(|a| Frame {
            function: a[0],
            counter: a[1],
            base: a[2],
            closure: Word(a[3]),
        })
    }

    /// A register of a coroutine. Refused: 1, 11, 2, 3.
    pub fn read_register(&self, coroutine: Word, index: u64) -> Result<Word, Refusal> {
        read!(self.mch_read_register(coroutine.0, index)).map(|a| Word(a[0]))
    }
}

/// Stores, and arrays that grow and shrink.
impl Heap {
    /// A new word for a cell. Refused: 1, 11, 2.
    pub fn store_cell(&mut self, cell: Word, value: Word) -> Result<(), Refusal> {
        change!(self.mch_store_cell(cell.0, value.0)).map(|_| ())
    }

    /// A new word for a box. Refused: 1, 11, 2.
    pub fn store_box(&mut self, boxed: Word, value: Word) -> Result<(), Refusal> {
        change!(self.mch_store_box(boxed.0, value.0)).map(|_| ())
    }

    /// A new item of an array; outside the length nothing changes. Refused: 1, 11, 2, 5.
    pub fn store_item(&mut self, array: Word, index: u64, value: Word) -> Result<(), Refusal> {
        change!(self.mch_store_item(array.0, index, value.0)).map(|_| ())
    }

    /// An item behind the last of an array. Refused: 1, 11, 2, 5, 7.
    pub fn push(&mut self, array: Word, value: Word) -> Result<(), Refusal> {
        change!(self.mch_push(array.0, value.0)).map(|_| ())
    }

    /// The last item of an array, taken off. Refused: 1, 11, 2, 3, 5.
    pub fn pop(&mut self, array: Word) -> Result<Word, Refusal> {
        change!(self.mch_pop(array.0)).map(|a| Word(a[0]))
    }

    /// A new word for a field of a struct. Refused: 1, 11, 2, 3.
    pub fn store_field(&mut self, object: Word, index: u64, value: Word) -> Result<(), Refusal> {
        change!(self.mch_store_field(object.0, index, value.0)).map(|_| ())
    }

    /// A new word for a capture of a function. Refused: 1, 11, 2, 3.
    pub fn store_capture(&mut self, function: Word, index: u64, value: Word) -> Result<(), Refusal> {
        change!(self.mch_store_capture(function.0, index, value.0)).map(|_| ())
    }

    /// A new word for a register of a coroutine. Refused: 1, 11, 2, 3.
    pub fn store_register(&mut self, coroutine: Word, index: u64, value: Word) -> Result<(), Refusal> {
        change!(self.mch_store_register(coroutine.0, index, value.0)).map(|_| ())
    }

    /// A new payload for a coroutine. Refused: 1, 11, 2.
    pub fn store_payload(&mut self, coroutine: Word, value: Word) -> Result<(), Refusal> {
        change!(self.mch_store_payload(coroutine.0, value.0)).map(|_| ())
    }

    /// A new key for a coroutine. Refused: 1, 11, 2.
    pub fn store_key(&mut self, coroutine: Word, value: Word) -> Result<(), Refusal> {
        change!(self.mch_store_key(coroutine.0, value.0)).map(|_| ())
    }

    /// A new result for a coroutine. Refused: 1, 11, 2.
    pub fn store_result(&mut self, coroutine: Word, value: Word) -> Result<(), Refusal> {
        change!(self.mch_store_result(coroutine.0, value.0)).map(|_| ())
    }

    /// A new signal for a coroutine. Refused: 1, 11, 2.
    pub fn store_signal(&mut self, coroutine: Word, value: Word) -> Result<(), Refusal> {
        change!(self.mch_store_signal(coroutine.0, value.0)).map(|_| ())
    }

    /// A new state for a coroutine. Refused: 4, 1, 11, 2.
    pub fn set_state(&mut self, coroutine: Word, s: u64) -> Result<(), Refusal> {
        change!(self.mch_set_state(coroutine.0, s)).map(|_| ())
    }
}

/// Maps and iterators.
impl Heap {
    /// The value of a key: overwritten where the key is found, else an entry is added. Refused: 1, 11, 2, 9, 5, 7.
    pub fn put(&mut self, map: Word, hash: u64, key: Word, value: Word) -> Result<(), Refusal> {
        change!(self.mch_put(map.0, hash, key.0, value.0)).map(|_| ())
    }

    /// An entry added, whatever is there. Refused: 1, 11, 2, 9, 5, 7.
    pub fn insert_entry(&mut self, map: Word, hash: u64, key: Word, value: Word) -> Result<(), Refusal> {
        change!(self.mch_insert_entry(map.0, hash, key.0, value.0)).map(|_| ())
    }

    /// The position of a key: of an entry with this hash and key word. Refused: 1, 11, 2.
    pub fn find(&self, map: Word, hash: u64, key: Word) -> Result<Option<u64>, Refusal> {
        read!(self.mch_find(map.0, hash, key.0)).map(|a| (a[1] != 0).then_some(a[0]))
    }

    /// The entry of a key removed. Refused: 1, 11, 2, 7.
    pub fn remove(&mut self, map: Word, hash: u64, key: Word) -> Result<(), Refusal> {
        change!(self.mch_remove(map.0, hash, key.0)).map(|_| ())
    }

    /// The entry at a position removed. Refused: 1, 11, 2, 7.
    pub fn remove_at(&mut self, map: Word, position: u64) -> Result<(), Refusal> {
        change!(self.mch_remove_at(map.0, position)).map(|_| ())
    }

    /// The entry at a position, live or dead. Refused: 1, 11, 2, 3.
    pub fn read_entry(&self, map: Word, position: u64) -> Result<Entry, Refusal> {
        read!(self.mch_read_entry(map.0, position)).map(|a| Entry {
            hash: a[1],
            key: Word(a[2]),
            value: Word(a[0]),
            sequence: a[3],
            live: a[4] != 0,
        })
    }

    /// A new value at a position; outside nothing changes. Refused: 1, 11, 2.
    pub fn set_value(&mut self, map: Word, position: u64, value: Word) -> Result<(), Refusal> {
        change!(self.mch_set_value(map.0, position, value.0)).map(|_| ())
    }

    /// An integer key noted. Refused: 1, 11, 2.
    pub fn note(&mut self, map: Word, key: i64) -> Result<(), Refusal> {
        change!(self.mch_note(map.0, key)).map(|_| ())
    }

    /// The integer key after the greatest noted one. Refused: 1, 11, 2.
    pub fn next_key(&self, map: Word) -> Result<Option<i64>, Refusal> {
        read!(self.mch_next_key(map.0)).map(|a| (a[1] == 0).then_some(a[0] as i64))
    }

    /// The greatest noted key. Refused: 1, 11, 2.
    pub fn noted_key(&self, map: Word) -> Result<Option<i64>, Refusal> {
        read!(self.mch_noted_key(map.0)).map(|a| (a[1] != 0).then_some(a[0] as i64))
    }

    /// The next live entry's position, or the end; the cursor is moved, unless the call is refused. Refused: 1, 11, 2.
    pub fn next(&self, map: Word, cursor: &mut Cursor) -> Result<Option<u64>, Refusal> {
        let mut words = cursor.words();
        let told = read!(self.mch_next(map.0, words.as_mut_ptr()));
        *cursor = Cursor::of(words);
        told.map(|a| (a[1] != 0).then_some(a[0]))
    }

    /// How many live entries a map has. Refused: 1, 11, 2.
    pub fn live_count(&self, map: Word) -> Result<u64, Refusal> {
        read!(self.mch_live_count(map.0)).map(|a| a[0])
    }

    /// How many places a map has, dead ones included. Refused: 1, 11, 2.
    pub fn place_count(&self, map: Word) -> Result<u64, Refusal> {
        read!(self.mch_place_count(map.0)).map(|a| a[0])
    }

    /// Whether a map is hashed. Refused: 1, 11, 2.
    pub fn is_hashed(&self, map: Word) -> Result<bool, Refusal> {
        read!(self.mch_is_hashed(map.0)).map(|a| a[0] != 0)
    }

    /// The type of a map's keys. Refused: 1, 11, 2.
    pub fn key_type(&self, map: Word) -> Result<u64, Refusal> {
        read!(self.mch_key_type(map.0)).map(|a| a[0])
    }

    /// The type of a map's values. Refused: 1, 11, 2.
    pub fn value_type(&self, map: Word) -> Result<u64, Refusal> {
        read!(self.mch_value_type(map.0)).map(|a| a[0])
    }

    /// How often a map was compacted, in 32 bits. Refused: 1, 11, 2.
    pub fn map_epoch(&self, map: Word) -> Result<u64, Refusal> {
        read!(self.mch_map_epoch(map.0)).map(|a| a[0])
    }

    /// The next entry's sequence number. Refused: 1, 11, 2.
    pub fn next_sequence(&self, map: Word) -> Result<u64, Refusal> {
        read!(self.mch_next_sequence(map.0)).map(|a| a[0])
    }

    /// The capacity of a map's entry list. Refused: 1, 11, 2.
    pub fn entry_capacity(&self, map: Word) -> Result<u64, Refusal> {
        read!(self.mch_entry_capacity(map.0)).map(|a| a[0])
    }

    /// The length of a map's index. Refused: 1, 11, 2.
    pub fn index_length(&self, map: Word) -> Result<u64, Refusal> {
        read!(self.mch_index_length(map.0)).map(|a| a[0])
    }

    /// The bytes that an insertion of this key would be charged. Refused: 1, 11, 2.
    pub fn growth_bytes(&self, map: Word, key: Word) -> Result<u64, Refusal> {
        read!(self.mch_growth_bytes(map.0, key.0)).map(|a| a[0])
    }

    /// The next item of an iterator, or its end. Refused: 1, 11, 2.
    pub fn iter_next(&mut self, iterator: Word) -> Result<Option<Word>, Refusal> {
        change!(self.mch_iter_next(iterator.0)).map(|a| (a[1] != 0).then_some(Word(a[0])))
    }

    /// The key of the item visited last. Refused: 1, 11, 2.
    pub fn iter_key(&self, iterator: Word) -> Result<Option<Word>, Refusal> {
        read!(self.mch_iter_key(iterator.0)).map(|a| (a[1] != 0).then_some(Word(a[0])))
    }

    /// The word of the array or map that an iterator goes over. Refused: 1, 11, 2.
    pub fn iter_source(&self, iterator: Word) -> Result<Word, Refusal> {
        read!(self.mch_iter_source(iterator.0)).map(|a| Word(a[0]))
    }

    /// The type of an iterator's keys. Refused: 1, 11, 2.
    pub fn iter_key_type(&self, iterator: Word) -> Result<u64, Refusal> {
        read!(self.mch_iter_key_type(iterator.0)).map(|a| a[0])
    }

    /// Whether an iterator has ended. Refused: 1, 11, 2.
    pub fn iter_ended(&self, iterator: Word) -> Result<bool, Refusal> {
        read!(self.mch_iter_ended(iterator.0)).map(|a| a[0] != 0)
    }

    /// An iterator's cursor. Refused: 1, 11, 2.
    pub fn iter_cursor(&self, iterator: Word) -> Result<IterCursor, Refusal> {
        read!(self.mch_iter_cursor(iterator.0)).map(|a| IterCursor::of(a))
    }
}
