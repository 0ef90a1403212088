//! The oracle: the originals, compiled unchanged, behind the script format of
//! docs/SCRIPTS.md.
#![allow(dead_code, unused_imports, clippy::all)]
extern crate alloc;
#[path = "seed/coll.rs"] mod coll;
#[path = "seed/dynv.rs"] mod dynv;
#[path = "seed/fault.rs"] mod fault;
#[path = "seed/hash.rs"] mod hash;
#[path = "seed/heap.rs"] mod heap;
#[path = "seed/int.rs"] mod int;
#[path = "seed/map.rs"] mod map;
mod conv;
mod driver;
mod machine;
mod probes;
mod program;
#[cfg(feature = "scale")] mod ours;
#[cfg(feature = "scale")] mod scale;

fn main() { driver::main() }
