//! Every call, accepted and refused.
use mirchollan::{Coroutine, Cursor, Entry, Frame, Heap, IterCursor, Refusal, Type, Value, Weights, Word, DEAD};

const WEIGHTS: Weights = Weights { slot: 64, entry: 40, iterator: 80, coroutine: 160, frame: 32 };
const STALE: Word = Word(0x0001_0000_0000_0007);

fn heap() -> Heap {
    Heap::open(16, 256, 1 << 20, WEIGHTS, &[0]).unwrap()
}

fn integer(n: i64) -> Word {
    Word::from_i64(n).unwrap()
}

/// Refused with 1 for nil, with 11 for a stale reference, with 2 for an object of another kind and a word that is no reference.
fn judges<T: std::fmt::Debug + PartialEq>(other: Word, mut call: impl FnMut(Word) -> Result<T, Refusal>) {
    assert_eq!(call(Word::NIL), Err(Refusal::NilTarget));
    assert_eq!(call(STALE), Err(Refusal::DeadReference));
    assert_eq!(call(other), Err(Refusal::OtherKind));
    assert_eq!(call(integer(3)), Err(Refusal::OtherKind));
}

#[test]
fn words() {
    assert_eq!(Word::from_i64((1 << 48) - 1), Some(Word(0xFFFE_FFFF_FFFF_FFFF)));
    assert_eq!(Word::from_i64(1 << 48), None);
    assert_eq!(Word::from_i64(-(1 << 48)), Some(Word(0xFFFF_0000_0000_0000)));
    assert_eq!(integer(-1), Word(u64::MAX));
    assert_eq!(Word::from_f64(1.0), Word(0x3FF2_0000_0000_0000));
    assert_eq!(Word::from_f64(f64::NAN), Word(0x7FFA_0000_0000_0000));
    assert_eq!(Word(0x0000_0001_0000_0005).read(), Value::Truth(true));
    assert_eq!(Word::from_bool(false).read(), Value::Truth(false));
    assert_eq!(Word::from_char(0x41).read(), Value::Character(0x41));
    assert_eq!(integer(-7).read(), Value::Integer(-7));
    assert_eq!(Word::from_f64(-2.5).read(), Value::Float(-2.5));
    assert_eq!(Word::from_reference(9, 0x8001).read(), Value::Reference { slot: 9, tag: 0x8001 });
    assert_eq!(Word::NIL.read(), Value::Nil);
    assert!(Word::from_f64(0.0).same(Word::from_f64(-0.0)));
    assert!(!Word::from_f64(f64::NAN).same(Word::from_f64(f64::NAN)));
    assert!(!integer(1).same(Word::from_bool(true)));
}

#[test]
fn opening() {
    let open = |slots, cells, weights, layout: &[u8]| Heap::open(slots, cells, 1000, weights, layout).err();
    assert_eq!(open(1, 0, WEIGHTS, &[0]), None);
    assert_eq!(open(65_536, 1_048_576, WEIGHTS, &[0]), None);
    for slots in [0, 65_537, u64::MAX] {
        assert_eq!(open(slots, 8, WEIGHTS, &[0]), Some(Refusal::BadOpening));
    }
    for cells in [1_048_577, usize::MAX] {
        assert_eq!(open(8, cells, WEIGHTS, &[0]), Some(Refusal::BadOpening));
    }
    assert_eq!(open(8, 8, Weights { frame: 4097, ..WEIGHTS }, &[0]), Some(Refusal::BadOpening));
    for layout in [&[][..], &[9], &[2, 0, 0, 0], &[0, 0]] {
        assert_eq!(open(8, 8, WEIGHTS, layout), Some(Refusal::BadOpening));
    }
}

#[test]
fn account_and_counts() {
    let mut h = Heap::open(2, 8, 100, WEIGHTS, &[0]).unwrap();
    h.charge(60).unwrap();
    assert!(h.fits(40) && !h.fits(41));
    assert_eq!(h.charge(41), Err(Refusal::OverBudget));
    assert!(h.wants_gc(41) && !h.wants_gc(40));
    assert_eq!(h.new_box(Word::NIL), Err(Refusal::OverBudget));
    assert_eq!(h.collect(&[], &mut []).unwrap().freed, 0);
    assert_eq!((h.used_bytes(), h.collection_count(), h.freed_count()), (0, 1, 0));
    h.new_string(b"nine bytes").unwrap();
    assert_eq!((h.used_bytes(), h.present_count(), h.cells_in_use()), (74, 1, 2));
    assert_eq!(h.collect(&[], &mut []).unwrap().freed, 1);
    assert_eq!((h.used_bytes(), h.collection_count(), h.freed_count(), h.present_count()), (0, 2, 1, 0));
}

#[test]
fn no_slot_and_no_cells() {
    let mut h = Heap::open(2, 4, u64::MAX, WEIGHTS, &[0]).unwrap();
    assert_eq!(h.new_array(Type::Plain, 5), Err(Refusal::NoCells));
    assert_eq!(h.new_array(Type::Plain, -1), Err(Refusal::Outside));
    h.new_array(Type::Plain, 4).unwrap();
    h.new_box(Word::NIL).unwrap();
    assert_eq!(h.new_box(Word::NIL), Err(Refusal::NoSlot));
}

#[test]
fn plain_kinds() {
    let mut h = heap();
    let text = h.new_string(b"conveyor").unwrap();
    assert_eq!(h.string_length(text), Ok(8));
    let mut buffer = [b'-'; 10];
    assert_eq!(h.read_string(text, &mut buffer), Ok(8));
    assert_eq!(&buffer, b"conveyor--");
    assert_eq!(h.read_string(text, &mut buffer[..7]), Err(Refusal::TooShort));
    assert_eq!(&buffer, b"conveyor--");

    let number = h.new_integer(i64::MIN).unwrap();
    assert_eq!(h.read_integer(number), Ok(i64::MIN));

    let cell = h.new_cell(Type::Dynamic, integer(5)).unwrap();
    assert_eq!((h.read_cell(cell), h.cell_type(cell)), (Ok(integer(5)), Ok(2)));
    h.store_cell(cell, text).unwrap();
    assert_eq!(h.read_cell(cell), Ok(text));

    let error = h.new_error(0xFFFF, text).unwrap();
    assert_eq!((h.error_kind(error), h.error_word(error)), (Ok(0xFFFF), Ok(text)));

    let boxed = h.new_box(integer(1)).unwrap();
    h.store_box(boxed, integer(2)).unwrap();
    assert_eq!((h.read_box(boxed), h.deref(boxed), h.deref(text)), (Ok(integer(2)), integer(2), text));

    assert_eq!((h.get(text), h.get(boxed), h.get(STALE), h.get(integer(1))), (1, 5, DEAD, 0));
    assert_eq!((h.kind_of(error), h.kind_of(Word::from_bool(true)), h.kind_of(STALE)), (4, 12, DEAD));
    assert_eq!((h.get(Word::NIL), h.kind_of(Word::NIL)), (0, 0));

    judges(cell, |w| h.string_length(w));
    judges(cell, |w| h.read_string(w, &mut [0; 16]));
    judges(cell, |w| h.read_integer(w));
    judges(text, |w| h.read_cell(w));
    judges(text, |w| h.cell_type(w));
    judges(text, |w| h.store_cell(w, Word::NIL));
    judges(text, |w| h.error_kind(w));
    judges(text, |w| h.error_word(w));
    judges(text, |w| h.read_box(w));
    judges(text, |w| h.store_box(w, Word::NIL));
}

#[test]
fn arrays() {
    let mut h = heap();
    let a = h.new_array(Type::Dynamic, 3).unwrap();
    assert_eq!((h.array_type(a), h.array_length(a), h.array_capacity(a)), (Ok(2), Ok(3), Ok(3)));
    let boxed = h.new_box(integer(7)).unwrap();
    h.push(a, boxed).unwrap();
    assert_eq!((h.array_length(a), h.array_capacity(a)), (Ok(4), Ok(6)));
    assert_eq!(h.read_item(a, 3), Ok(integer(7)));
    h.store_item(a, 0, boxed).unwrap();
    h.store_item(a, 9, boxed).unwrap();
    assert_eq!((h.read_item(a, 0), h.read_item(a, 4)), (Ok(boxed), Err(Refusal::Outside)));
    assert_eq!(h.pop(a), Ok(integer(7)));
    for _ in 0..3 {
        h.pop(a).unwrap();
    }
    assert_eq!(h.pop(a), Err(Refusal::Outside));
    judges(boxed, |w| h.array_type(w));
    judges(boxed, |w| h.array_length(w));
    judges(boxed, |w| h.array_capacity(w));
    judges(boxed, |w| h.read_item(w, 0));
    judges(boxed, |w| h.store_item(w, 0, Word::NIL));
    judges(boxed, |w| h.push(w, Word::NIL));
    judges(boxed, |w| h.pop(w));
}

#[test]
fn structs_and_functions() {
    let mut h = heap();
    let s = h.new_struct(1 << 40, &[integer(1), integer(2)]).unwrap();
    assert_eq!((h.struct_number(s), h.field_count(s)), (Ok(1 << 40), Ok(2)));
    h.store_field(s, 1, integer(9)).unwrap();
    assert_eq!((h.read_field(s, 1), h.read_field(s, 2)), (Ok(integer(9)), Err(Refusal::Outside)));
    assert_eq!(h.store_field(s, 2, integer(9)), Err(Refusal::Outside));

    let f = h.new_function(true, 4, &[s]).unwrap();
    let g = h.new_function(false, 5, &[]).unwrap();
    assert_eq!((h.is_import(f), h.is_import(g)), (Ok(true), Ok(false)));
    assert_eq!((h.function_number(f), h.capture_count(f), h.capture_count(g)), (Ok(4), Ok(1), Ok(0)));
    h.store_capture(f, 0, g).unwrap();
    assert_eq!((h.read_capture(f, 0), h.read_capture(g, 0)), (Ok(g), Err(Refusal::Outside)));
    assert_eq!(h.store_capture(f, 1, g), Err(Refusal::Outside));

    judges(f, |w| h.struct_number(w));
    judges(f, |w| h.field_count(w));
    judges(f, |w| h.read_field(w, 0));
    judges(f, |w| h.store_field(w, 0, Word::NIL));
    judges(s, |w| h.is_import(w));
    judges(s, |w| h.function_number(w));
    judges(s, |w| h.capture_count(w));
    judges(s, |w| h.read_capture(w, 0));
    judges(s, |w| h.store_capture(w, 0, Word::NIL));
}

#[test]
fn coroutines() {
    let mut h = heap();
    let other = h.new_box(Word::NIL).unwrap();
    let made = Coroutine {
        state: 2,
        sequence: 11,
        payload: integer(1),
        key: integer(2),
        result: integer(3),
        signal: integer(4),
    };
    let frame = Frame { function: 1 << 33, counter: 2, base: u64::MAX, closure: other };
    let c = h.new_coroutine(made, &[integer(5), integer(6)], &[Frame::default(), frame]).unwrap();
    assert_eq!(h.new_coroutine(Coroutine { state: 5, ..made }, &[], &[]), Err(Refusal::BadType));
    assert_eq!((h.read_state(c), h.coroutine_sequence(c), h.coroutine_finalized(c)), (Ok(2), Ok(11), Ok(false)));
    assert_eq!((h.read_payload(c), h.read_key(c)), (Ok(integer(1)), Ok(integer(2))));
    assert_eq!((h.read_result(c), h.read_signal(c)), (Ok(integer(3)), Ok(integer(4))));
    assert_eq!((h.register_count(c), h.frame_count(c)), (Ok(2), Ok(2)));
    assert_eq!((h.read_frame(c, 1), h.read_frame(c, 2)), (Ok(frame), Err(Refusal::Outside)));
    h.store_register(c, 0, other).unwrap();
    assert_eq!((h.read_register(c, 0), h.read_register(c, 2)), (Ok(other), Err(Refusal::Outside)));
    assert_eq!(h.store_register(c, 2, other), Err(Refusal::Outside));
    h.store_payload(c, integer(10)).unwrap();
    h.store_key(c, integer(20)).unwrap();
    h.store_result(c, integer(30)).unwrap();
    h.store_signal(c, integer(40)).unwrap();
    assert_eq!((h.read_payload(c), h.read_key(c)), (Ok(integer(10)), Ok(integer(20))));
    assert_eq!((h.read_result(c), h.read_signal(c)), (Ok(integer(30)), Ok(integer(40))));
    h.set_state(c, 4).unwrap();
    assert_eq!((h.read_state(c), h.set_state(Word::NIL, 5)), (Ok(4), Err(Refusal::BadType)));

    judges(other, |w| h.read_state(w));
    judges(other, |w| h.read_payload(w));
    judges(other, |w| h.read_key(w));
    judges(other, |w| h.read_result(w));
    judges(other, |w| h.read_signal(w));
    judges(other, |w| h.coroutine_sequence(w));
    judges(other, |w| h.coroutine_finalized(w));
    judges(other, |w| h.register_count(w));
    judges(other, |w| h.frame_count(w));
    judges(other, |w| h.read_frame(w, 0));
    judges(other, |w| h.read_register(w, 0));
    judges(other, |w| h.store_register(w, 0, Word::NIL));
    judges(other, |w| h.store_payload(w, Word::NIL));
    judges(other, |w| h.store_key(w, Word::NIL));
    judges(other, |w| h.store_result(w, Word::NIL));
    judges(other, |w| h.store_signal(w, Word::NIL));
    judges(other, |w| h.set_state(w, 0));
}

#[test]
fn maps() {
    let mut h = heap();
    let other = h.new_box(Word::NIL).unwrap();
    let m = h.new_map(Type::Plain, Type::Dynamic).unwrap();
    assert_eq!((h.key_type(m), h.value_type(m), h.is_hashed(m)), (Ok(0), Ok(2), Ok(false)));
    assert_eq!(h.growth_bytes(m, Word(0)), Ok(160));
    h.put(m, 0, Word(0), integer(10)).unwrap();
    h.put(m, 0, Word(1), integer(11)).unwrap();
    h.put(m, 0, Word(1), integer(12)).unwrap();
    h.insert_entry(m, 77, Word(50), integer(13)).unwrap();
    assert_eq!((h.live_count(m), h.place_count(m), h.is_hashed(m)), (Ok(3), Ok(3), Ok(true)));
    assert_eq!((h.entry_capacity(m), h.index_length(m), h.next_sequence(m)), (Ok(4), Ok(8), Ok(3)));
    assert_eq!((h.find(m, 77, Word(50)), h.find(m, 78, Word(50))), (Ok(Some(2)), Ok(None)));
    let entry = Entry { hash: 77, key: Word(50), value: integer(13), sequence: 2, live: true };
    assert_eq!((h.read_entry(m, 2), h.read_entry(m, 3)), (Ok(entry), Err(Refusal::Outside)));
    h.set_value(m, 2, integer(14)).unwrap();
    h.set_value(m, 3, integer(15)).unwrap();
    assert_eq!(h.read_entry(m, 2), Ok(Entry { value: integer(14), ..entry }));

    let mut cursor = Cursor::default();
    assert_eq!(h.next(m, &mut cursor), Ok(Some(0)));
    h.remove(m, 0, Word(1)).unwrap();
    h.remove(m, 0, Word(1)).unwrap();
    assert_eq!(h.next(m, &mut cursor), Ok(Some(2)));
    assert_eq!((h.next(m, &mut cursor), h.map_epoch(m)), (Ok(None), Ok(0)));
    assert_eq!(cursor, Cursor { last: Some(2), position: 3, epoch: 0 });
    h.remove_at(m, 0).unwrap();
    assert_eq!((h.live_count(m), h.place_count(m)), (Ok(1), Ok(3)));
    assert!(!h.read_entry(m, 0).unwrap().live);

    assert_eq!((h.noted_key(m), h.next_key(m)), (Ok(None), Ok(Some(0))));
    h.note(m, -5).unwrap();
    assert_eq!((h.noted_key(m), h.next_key(m)), (Ok(Some(-5)), Ok(Some(-4))));
    h.note(m, i64::MAX).unwrap();
    assert_eq!((h.noted_key(m), h.next_key(m)), (Ok(Some(i64::MAX)), Ok(None)));

    let mut lent = Cursor { last: Some(9), position: 8, epoch: 7 };
    judges(other, |w| h.next(w, &mut lent));
    assert_eq!(lent, Cursor { last: Some(9), position: 8, epoch: 7 });
    judges(other, |w| h.put(w, 0, Word(0), Word::NIL));
    judges(other, |w| h.insert_entry(w, 0, Word(0), Word::NIL));
    judges(other, |w| h.find(w, 0, Word(0)));
    judges(other, |w| h.remove(w, 0, Word(0)));
    judges(other, |w| h.remove_at(w, 0));
    judges(other, |w| h.read_entry(w, 0));
    judges(other, |w| h.set_value(w, 0, Word::NIL));
    judges(other, |w| h.note(w, 0));
    judges(other, |w| h.next_key(w));
    judges(other, |w| h.noted_key(w));
    judges(other, |w| h.live_count(w));
    judges(other, |w| h.place_count(w));
    judges(other, |w| h.is_hashed(w));
    judges(other, |w| h.key_type(w));
    judges(other, |w| h.value_type(w));
    judges(other, |w| h.map_epoch(w));
    judges(other, |w| h.next_sequence(w));
    judges(other, |w| h.entry_capacity(w));
    judges(other, |w| h.index_length(w));
    judges(other, |w| h.growth_bytes(w, Word(0)));
}

#[test]
fn compaction() {
    let mut h = Heap::open(2, 1024, 1 << 20, WEIGHTS, &[0]).unwrap();
    let m = h.new_map(Type::Plain, Type::Plain).unwrap();
    for i in 0..33 {
        h.put(m, i, Word(i), Word::NIL).unwrap();
    }
    for i in 0..17 {
        assert_eq!((h.map_epoch(m), h.place_count(m)), (Ok(0), Ok(33)));
        h.remove(m, i, Word(i)).unwrap();
    }
    assert_eq!((h.map_epoch(m), h.place_count(m), h.live_count(m)), (Ok(1), Ok(16), Ok(16)));
}

#[test]
fn iterators() {
    let mut h = heap();
    let a = h.new_array(Type::Plain, 0).unwrap();
    h.push(a, integer(1)).unwrap();
    h.push(a, integer(2)).unwrap();
    let i = h.new_iter(a).unwrap();
    assert_eq!((h.iter_source(i), h.iter_key(i), h.iter_ended(i)), (Ok(a), Ok(None), Ok(false)));
    assert_eq!((h.iter_next(i), h.iter_next(i)), (Ok(Some(integer(1))), Ok(Some(integer(2)))));
    assert_eq!(h.iter_cursor(i), Ok(IterCursor::Array(2)));
    assert_eq!((h.iter_next(i), h.iter_ended(i)), (Ok(None), Ok(true)));

    let m = h.new_map(Type::Plain, Type::Plain).unwrap();
    h.put(m, 5, Word(30), integer(3)).unwrap();
    let j = h.new_iter(m).unwrap();
    assert_eq!(h.iter_cursor(j), Ok(IterCursor::Map(Cursor::default())));
    assert_eq!((h.iter_next(j), h.iter_key(j), h.iter_key_type(j)), (Ok(Some(integer(3))), Ok(Some(Word(30))), Ok(0)));
    assert_eq!(h.iter_cursor(j), Ok(IterCursor::Map(Cursor { last: Some(0), position: 1, epoch: 0 })));

    judges(j, |w| h.new_iter(w));
    judges(a, |w| h.iter_next(w));
    judges(a, |w| h.iter_key(w));
    judges(a, |w| h.iter_source(w));
    judges(a, |w| h.iter_key_type(w));
    judges(a, |w| h.iter_ended(w));
    judges(a, |w| h.iter_cursor(w));
}

#[test]
fn collecting() {
    // The field 0 of struct type 0 is traced.
    let mut h = Heap::open(16, 256, 1 << 20, WEIGHTS, &[1, 2, 0, 0, 0]).unwrap();
    let kept = h.new_box(integer(1)).unwrap();
    let lost = h.new_box(integer(2)).unwrap();
    let root = h.new_struct(0, &[kept, lost]).unwrap();
    let b = h.new_coroutine(Coroutine { state: 2, sequence: 3, ..Coroutine::default() }, &[], &[]).unwrap();
    let a = h.new_coroutine(Coroutine { state: 2, sequence: 5, payload: b, ..Coroutine::default() }, &[], &[]).unwrap();
    let mut places = [Word(9); 3];
    assert_eq!(h.collect(&[root], &mut places[..1]), Err(Refusal::TooShort));
    assert_eq!((places, h.collection_count(), h.read_box(lost)), ([Word(9); 3], 0, Ok(integer(2))));
    let collected = h.collect(&[root], &mut places).unwrap();
    assert_eq!((collected.freed, collected.listed, places), (1, 2, [b, a, Word(9)]));
    assert_eq!((h.read_box(kept), h.read_box(lost)), (Ok(integer(1)), Err(Refusal::DeadReference)));
    assert_eq!((h.coroutine_finalized(a), h.coroutine_finalized(b)), (Ok(true), Ok(true)));
    let again = h.new_box(integer(3)).unwrap();
    assert_eq!((again.0 as u32, h.read_box(lost)), (lost.0 as u32, Err(Refusal::DeadReference)));
    assert_eq!(h.collect(&[root, again], &mut places).unwrap().freed, 2);
    assert_eq!((h.present_count(), h.freed_count()), (3, 3));
}
