//! A small line controller: parcels wait in a queue and are known by their codes; one leaves, a collection frees it, and
//! its reference opens nothing any more, though its slot is in use again.
use mirchollan::{Heap, Refusal, Type, Value, Weights, Word};

const NAME: u64 = 0;
const GRAMS: u64 = 1;

/// One struct type, whose field NAME is traced.
const LAYOUT: [u8; 5] = [0x01, 0x02, NAME as u8, 0x00, 0x00];

fn new_parcel(heap: &mut Heap, name: &str, grams: i64) -> Result<Word, Refusal> {
    let name = heap.new_string(name.as_bytes())?;
    let grams = Word::from_i64(grams).expect("a weight that has a word");
    heap.new_struct(0, &[name, grams])
}

fn show_parcel(heap: &Heap, parcel: Word) -> Result<(), Refusal> {
    let mut name = [0; 32];
    let length = heap.read_string(heap.read_field(parcel, NAME)?, &mut name)? as usize;
    if let Value::Integer(grams) = heap.read_field(parcel, GRAMS)?.read() {
        println!("  {}, {} g", String::from_utf8_lossy(&name[..length]), grams);
    }
    Ok(())
}

fn show_counts(heap: &Heap, when: &str) {
    println!("{when}: {} objects, {} bytes", heap.present_count(), heap.used_bytes());
}

fn slot_of(word: Word) -> u32 {
    word.0 as u32
}

fn main() -> Result<(), Refusal> {
    let weights = Weights { slot: 64, entry: 40, iterator: 80, coroutine: 160, frame: 32 };
    let mut heap = Heap::open(16, 256, 1 << 20, weights, &LAYOUT)?;
    let queue = heap.new_array(Type::Reference, 0)?;
    let known = heap.new_map(Type::Plain, Type::Reference)?;
    for (code, name, grams) in [(7001, "tiles", 12500), (7002, "seed", 300), (7003, "lamps", 2250)] {
        let parcel = new_parcel(&mut heap, name, grams)?;
        heap.push(queue, parcel)?;
        heap.put(known, code, Word(code), parcel)?;
    }
    show_counts(&heap, "filled");

    let gone = heap.pop(queue)?;
    heap.remove(known, 7003, Word(7003))?;
    let collected = heap.collect(&[queue, known], &mut [Word::NIL])?;
    println!("collected: {} freed", collected.freed);
    show_counts(&heap, "afterwards");

    let iterator = heap.new_iter(queue)?;
    println!("in the queue:");
    while let Some(parcel) = heap.iter_next(iterator)? {
        show_parcel(&heap, parcel)?;
    }
    let position = heap.find(known, 7002, Word(7002))?.expect("a code that was put");
    let entry = heap.read_entry(known, position)?;
    println!("code {}:", entry.key.0);
    show_parcel(&heap, entry.value)?;

    let again = slot_of(iterator) == slot_of(gone);
    println!("the slot of the parcel that left is in use again: {}", if again { "yes" } else { "no" });
    let refusal = heap.read_field(gone, NAME).expect_err("a parcel that was freed");
    println!("the parcel that left: refused with {}", refusal as u64);
    Ok(())
}
