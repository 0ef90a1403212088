//! Executes scripts of docs/SCRIPTS.md on the originals.
use std::fmt::Write as _;
use std::io::{Read, Write as _};

use alloc::boxed::Box;
use alloc::sync::Arc;
use alloc::vec::Vec;
use bytecode_lang::{CoroState, ErrorKind, Kind, TypeId, ValType};

use crate::coll;
use crate::dynv;
use crate::fault::Fault;
use crate::heap::*;
use crate::machine::{Cont, Frame};
use crate::map::{Cursor, Entry, MapStore};
use crate::program::{FuncInfo, Program, StructInfo, TypeInfo};

pub(crate) fn weights() -> [u64; 5] {
    [SLOT_BYTES as u64, size_of::<Entry>() as u64, size_of::<IterObj>() as u64, size_of::<CoroObj>() as u64, FRAME_BYTES as u64]
}

pub(crate) fn val_type(t: u8) -> Option<ValType> {
    match t { 0 => Some(ValType::I64), 1 => Some(ValType::Ref(TypeId(0))), 2 => Some(ValType::Dyn), _ => None }
}
fn type_no(t: ValType) -> u8 { match t { ValType::I64 => 0, ValType::Dyn => 2, _ => 1 } }
fn state_of(s: u8) -> Option<CoroState> {
    Some(match s { 0 => CoroState::Created, 1 => CoroState::Running, 2 => CoroState::Yielded, 3 => CoroState::Awaiting, 4 => CoroState::Returned, _ => return None })
}
fn state_no(s: CoroState) -> u8 {
    match s { CoroState::Created => 0, CoroState::Running => 1, CoroState::Yielded => 2, CoroState::Awaiting => 3, CoroState::Returned => 4, _ => 255 }
}
fn clamp(n: u64) -> u32 { u32::try_from(n).unwrap_or(u32::MAX) }

/// Document 01's number for a fault of the originals.
pub(crate) fn number(f: Fault) -> u32 {
    match f {
        Fault::Raise(ErrorKind::NullReference) => 1,
        Fault::Raise(ErrorKind::TypeError) => 2,
        Fault::Raise(ErrorKind::IndexOutOfBounds) => 3,
        Fault::Trap(ErrorKind::OutOfMemory) => 5,
        other => panic!("fault {other:?}"),
    }
}

/// Layout bytes to the program's lookups (only what is well formed; the
/// domain of comparison leaves refusal 10 out).
pub(crate) fn layout(b: &[u8]) -> Option<Program> {
    let mut structs: Vec<Vec<u16>> = Vec::new();
    let mut funcs: Vec<(Vec<u16>, Vec<ValType>)> = Vec::new();
    let mut i = 0;
    let mut under = 0u8;
    loop {
        let c = *b.get(i)?;
        i += 1;
        match c {
            0 => break,
            1 => { structs.push(Vec::new()); under = 1; }
            3 => { funcs.push((Vec::new(), Vec::new())); under = 3; }
            2 | 4 => {
                if under != c - 1 { return None; }
                let n = u16::from_le_bytes([*b.get(i)?, *b.get(i + 1)?]);
                i += 2;
                if c == 2 { structs.last_mut()?.push(n) } else { funcs.last_mut()?.0.push(n) }
            }
            5 => { if under != 3 { return None; } let t = val_type(*b.get(i)?)?; i += 1; funcs.last_mut()?.1.push(t); }
            _ => return None,
        }
    }
    if i != b.len() || structs.len() > 256 || funcs.len() > 256 { return None; }
    Some(Program {
        types: structs.into_iter().map(|r| TypeInfo::Struct(StructInfo { ref_fields: r.into_boxed_slice(), ..Default::default() })).collect(),
        funcs: funcs.into_iter().map(|(r, c)| FuncInfo {
            sig: 0, nregs: 0, nparams: 0, regs: Box::new([]), result: None, ref_regs: r.into_boxed_slice(), captures: c.into_boxed_slice(),
            names: Box::new([]), type_refs: Box::new([]), catch_table: None,
        }).collect(),
    })
}

pub(crate) struct In<'a> { pub(crate) b: &'a [u8], pub(crate) at: usize }
impl<'a> In<'a> {
    fn take(&mut self, n: usize) -> Option<&'a [u8]> {
        let r = self.b.get(self.at..self.at.checked_add(n)?)?;
        self.at += n;
        Some(r)
    }
    fn b(&mut self) -> Option<u8> { Some(self.take(1)?[0]) }
    fn h(&mut self) -> Option<u16> { Some(u16::from_le_bytes(self.take(2)?.try_into().ok()?)) }
    fn q(&mut self) -> Option<u64> { Some(u64::from_le_bytes(self.take(8)?.try_into().ok()?)) }
    fn n(&mut self) -> Option<usize> { let n = self.q()?; if n > self.b.len() as u64 { None } else { Some(n as usize) } }
    fn s(&mut self) -> Option<&'a [u8]> { let n = self.n()?; self.take(n) }
    fn w(&mut self) -> Option<Vec<u64>> {
        let n = self.n()?;
        let r = self.take(n.checked_mul(8)?)?;
        Some(r.chunks_exact(8).map(|c| u64::from_le_bytes(c.try_into().unwrap())).collect())
    }
    fn f(&mut self) -> Option<Vec<[u64; 4]>> {
        let n = self.n()?;
        let r = self.take(n.checked_mul(32)?)?;
        let g = |c: &[u8], i: usize| u64::from_le_bytes(c[8 * i..8 * i + 8].try_into().unwrap());
        Some(r.chunks_exact(32).map(|c| [g(c, 0), g(c, 1), g(c, 2), g(c, 3)]).collect())
    }
}

pub(crate) type Ans = Result<u64, u32>;
const FILL: u64 = 0xAAAA_AAAA_AAAA_0000;

pub(crate) struct Line { pub(crate) heap: Heap, pub(crate) prog: Program, roots: Vec<u64>, made: Vec<u64>, pub(crate) x: String }

fn f<T>(r: Result<T, Fault>) -> Result<T, u32> { r.map_err(number) }

impl Line {
    pub(crate) fn new(limit: u64, prog: Program) -> Line {
        Line { heap: Heap::new(limit as usize), prog, roots: Vec::new(), made: Vec::new(), x: String::new() }
    }
    fn miss(&self, v: u64) -> u32 { number(coll::not_a(&self.heap, v)) }
    fn new_obj(&mut self, o: Object) -> Ans { let w = f(self.heap.alloc(o))?; self.made.push(w); Ok(w) }
    fn made(&mut self, r: Result<u64, Fault>) -> Ans { let w = f(r)?; self.made.push(w); Ok(w) }
    fn map(&self, v: u64) -> Result<&MapObj, u32> { f(coll::map_ref(&self.heap, v)) }
    /// The store of a map, without the (zero) charge of `map_store_mut`.
    fn store(&mut self, v: u64) -> Result<&mut MapStore, u32> {
        let n = self.miss(v);
        match self.heap.get_mut(v) { Some(Object::Map(m)) => Ok(Arc::make_mut(&mut m.store)), _ => Err(n) }
    }
    fn ik(m: &MapObj, key: u64) -> Option<i128> { (type_no(m.key) == 0).then(|| i128::from(key as i64)) }
    fn place(&mut self, kind: u8, v: u64, i: u64) -> Result<&mut u64, u32> {
        let n = self.miss(v);
        let ws: &mut [u64] = match (kind, self.heap.get_mut(v)) {
            (0, Some(Object::Struct(s))) => &mut s.fields,
            (1, Some(Object::Func(s))) => &mut s.captures,
            (2, Some(Object::Coro(c))) => &mut c.regs,
            _ => return Err(n),
        };
        usize::try_from(i).ok().and_then(|i| ws.get_mut(i)).ok_or(3)
    }
    fn x(&mut self, s: impl std::fmt::Display) { let _ = write!(self.x, " {s}"); }

    /// One call; `None`: an unknown command or missing operand.
    pub(crate) fn call(&mut self, c: u8, i: &mut In) -> Option<Ans> {
        let heap = &mut self.heap;
        Some(match c {
            0x00 => {
                let (_slots, _cells, limit) = (i.q()?, i.q()?, i.q()?);
                let w = [i.q()?, i.q()?, i.q()?, i.q()?, i.q()?];
                let lay = i.s()?;
                if w != weights() { eprintln!("oracle: weights {:?} asked, this build has {:?}", w, weights()); }
                match layout(lay) { Some(p) => { *self = Line::new(limit, p); Ok(0) } None => Err(10) }
            }
            0x01 => { let v = i.q()?; let r = heap.alloc_box(v); self.made(r) }
            0x02 => { let (t, n) = (i.b()?, i.q()?); match val_type(t) { None => Err(4), Some(t) => { let r = coll::new_array(heap, t, n as i64); self.made(r) } } }
            0x03 => { let (k, v) = (i.b()?, i.b()?); match (val_type(k), val_type(v)) { (Some(k), Some(v)) => { let r = coll::new_map(heap, k, v); self.made(r) } _ => Err(4) } }
            0x04 => { let s = i.s()?; let r = heap.alloc_str(s); self.made(r) }
            0x05 => { let n = i.q()? as i64; self.new_obj(Object::Int(n)) }
            0x06 => { let v = i.q()?; heap.box_value(v).ok_or_else(|| self.miss(v)) }
            0x07 => { let (t, value) = (i.b()?, i.q()?); match val_type(t) { None => Err(4), Some(elem) => self.new_obj(Object::Cell(CellObj { elem, value })) } }
            0x08 => { let (k, payload) = (i.h()?, i.q()?); self.new_obj(Object::Error(ErrorObj { kind: ErrorKind::Other(k), func: 0, pc: 0, payload })) }
            0x09 => { let (ty, w) = (i.q()?, i.w()?); self.new_obj(Object::Struct(StructObj { ty: clamp(ty), fields: w.into_boxed_slice() })) }
            0x0A => { let (imp, n, w) = (i.b()?, i.q()?, i.w()?);
                let target = if imp != 0 { Callable::Import(clamp(n)) } else { Callable::Func(clamp(n)) };
                self.new_obj(Object::Func(FuncObj { target, captures: w.into_boxed_slice() })) }
            0x0B => { let v = i.q()?; if self.roots.len() == 64 { Err(4) } else { self.roots.push(v); Ok(0) } }
            0x0C => { let mut d = Vec::new(); let before = heap.stats.freed;
                heap.collect(self.roots.iter().copied(), &self.prog, &mut d);
                let n = heap.stats.freed - before;
                for w in d { self.x(format_args!("{w:016X}")); }
                Ok(n) }
            // 2 for a coroutine is document 01's; the original makes an iterator.
            0x0D => { let v = i.q()?; if heap.coro(v).is_some() { Err(2) } else { match coll::new_iter(heap, v, false) {
                None => Err(self.miss(v)),
                Some(r) => self.made(r) } } }
            0x0E => {
                let (st, seq, payload, key, result, signal) = (i.b()?, i.q()?, i.q()?, i.q()?, i.q()?, i.q()?);
                let (w, fr) = (i.w()?, i.f()?);
                let mut regs = Vec::with_capacity(w.len()); regs.extend(w);
                let mut frames = Vec::with_capacity(fr.len());
                for [func, pc, base, closure] in fr { frames.push(Frame { func: clamp(func), pc: pc as u32, base: base as usize, closure, cont: Cont::Coro }); }
                match state_of(st) { None => Err(4), Some(state) => self.new_obj(Object::Coro(Box::new(CoroObj {
                    state, closing: false, finalized: false, task: false, seq, frames, regs, resume_dst: 0, payload, key, max_key: -1, result, signal }))) }
            }
            0x0F => { let (r, n) = (i.w()?, i.q()? as usize);
                let mut d = Vec::new(); let before = heap.stats.freed;
                heap.collect(r.iter().copied(), &self.prog, &mut d);
                let freed = heap.stats.freed - before;
                let m = d.len();
                for k in 0..n.max(m) { let w = if k < m { d[k] } else { FILL + k as u64 }; self.x(format_args!("{w:016X}")); }
                Ok(freed) }
            0x10 => { let v = i.q()?; f(coll::array_ref(heap, v).map(|a| a.items.len() as u64)) }
            0x11 => { let (v, p) = (i.q()?, i.q()?); f(coll::array_ref(heap, v)).and_then(|a| usize::try_from(p).ok().and_then(|p| a.items.get(p).copied()).ok_or(3)) }
            0x12 => { let (v, p, w) = (i.q()?, i.q()?, i.q()?); f(coll::array_set_raw(heap, v, p as usize, w)).map(|_| 0) }
            0x13 => { let (v, w) = (i.q()?, i.q()?); f(coll::array_push(heap, v, w)).map(|_| 0) }
            0x14 => { let v = i.q()?; f(coll::array_pop(heap, v)) }
            0x15 => { let (v, w) = (i.q()?, i.q()?); if heap.set_box(v, w) { Ok(0) } else { Err(self.miss(v)) } }
            0x16 => { let v = i.q()?; match heap.get(v) { Some(Object::Cell(c)) => Ok(c.value), _ => Err(self.miss(v)) } }
            0x17 => { let (v, w) = (i.q()?, i.q()?); match heap.get_mut(v) { Some(Object::Cell(c)) => { c.value = w; Ok(0) } _ => Err(self.miss(v)) } }
            0x18 | 0x1A | 0x1C => { let (v, p) = (i.q()?, i.q()?); self.place((c - 0x18) / 2, v, p).map(|w| *w) }
            0x19 | 0x1B | 0x1D => { let (v, p, w) = (i.q()?, i.q()?, i.q()?); self.place((c - 0x18) / 2, v, p).map(|x| { *x = w; 0 }) }
            0x1E => { let v = i.q()?; heap.coro(v).map(|c| u64::from(state_no(c.state))).ok_or_else(|| self.miss(v)) }
            0x1F => { let (v, s) = (i.q()?, i.b()?); let n = self.miss(v);
                match (state_of(s), self.heap.coro_mut(v)) { (None, _) => Err(4), (Some(s), Some(c)) => { c.state = s; Ok(0) } _ => Err(n) } }
            0x20 => { let (v, p) = (i.q()?, i.b()?); if p > 7 { return None; } match heap.coro(v) { None => Err(self.miss(v)),
                Some(c) => Ok([c.payload, c.key, c.result, c.signal, c.seq, u64::from(c.finalized), c.regs.len() as u64, c.frames.len() as u64][p as usize]) } }
            0x21 => { let (v, p, w) = (i.q()?, i.b()?, i.q()?); let n = self.miss(v); if p > 3 { return None; } match self.heap.coro_mut(v) { None => Err(n),
                Some(c) => { *[&mut c.payload, &mut c.key, &mut c.result, &mut c.signal][p as usize] = w; Ok(0) } } }
            0x22 | 0x23 => { let v = i.q()?; match heap.get(v) { Some(Object::Error(e)) => Ok(if c == 0x23 { e.payload } else { match e.kind { ErrorKind::Other(k) => u64::from(k), _ => unreachable!() } }), _ => Err(self.miss(v)) } }
            0x24 => { let v = i.q()?; match heap.get(v) { Some(Object::Int(n)) => Ok(*n as u64), _ => Err(self.miss(v)) } }
            0x25 => { let v = i.q()?; heap.str(v).map(|s| s.len() as u64).ok_or_else(|| self.miss(v)) }
            0x26 => { let (v, n) = (i.q()?, i.q()? as usize);
                let mut buf = vec![0xEEu8; n];
                let r = match heap.str(v) { None => Err(self.miss(v)), Some(s) if s.len() > n => Err(8), Some(s) => { buf[..s.len()].copy_from_slice(s); Ok(s.len() as u64) } };
                let h: String = buf.iter().map(|b| format!("{b:02X}")).collect();
                self.x(if h.is_empty() { "-" } else { &h }); r }
            0x27 => { let v = i.q()?; Ok(heap.get(v).map_or(0, row)) }
            0x28 => { let v = i.q()?; Ok(heap.deref(v)) }
            0x29 | 0x2A => { let v = i.q()?; match heap.get(v) { Some(Object::Struct(s)) => Ok(if c == 0x29 { u64::from(s.ty) } else { s.fields.len() as u64 }), _ => Err(self.miss(v)) } }
            0x2B | 0x2C => { let v = i.q()?; match heap.get(v) { Some(Object::Func(s)) => {
                    let (n, imp) = match s.target { Callable::Func(n) => (n, 0), Callable::Import(n) => (n, 1) };
                    if c == 0x2B { self.x(imp); Ok(u64::from(n)) } else { Ok(s.captures.len() as u64) } }
                _ => Err(self.miss(v)) } }
            0x2D | 0x2E => { let v = i.q()?; f(coll::array_ref(heap, v)).map(|a| if c == 0x2D { u64::from(type_no(a.elem)) } else { a.items.capacity() as u64 }) }
            0x2F => { let v = i.q()?; match heap.get(v) { Some(Object::Cell(c)) => Ok(u64::from(type_no(c.elem))), _ => Err(self.miss(v)) } }
            0x30 | 0x3B => { let (v, h, k, w) = (i.q()?, i.q()?, i.q()?, i.q()?); self.put(v, h, k, w, c == 0x30) }
            0x31 => { let (v, h, k) = (i.q()?, i.q()?, i.q()?); match self.find(v, h, k) { Err(n) => Err(n), Ok(p) => { self.x(u8::from(p.is_some())); Ok(p.unwrap_or(0) as u64) } } }
            0x32 => { let (v, h, k) = (i.q()?, i.q()?, i.q()?); match self.find(v, h, k) { Err(n) => Err(n), Ok(None) => Ok(0), Ok(Some(p)) => self.store(v).map(|s| { s.remove(p); 0 }) } }
            0x33 => { let (v, p) = (i.q()?, i.q()?); match self.map(v).and_then(|m| m.store.entry(p as usize).copied().ok_or(3)) { Err(n) => Err(n),
                Ok(e) => { self.x(format_args!("{:016X} {:016X} {} {}", e.hash, e.key, e.seq, u8::from(e.live))); Ok(e.value) } } }
            0x34 => { let (v, p, w) = (i.q()?, i.q()?, i.q()?); self.store(v).map(|s| { s.set_value(p as usize, w); 0 }) }
            0x35 => { let (v, p) = (i.q()?, i.q()?); self.store(v).map(|s| { s.remove(p as usize); 0 }) }
            0x36 => { let v = i.q()?; self.map(v).map(|m| m.store.len() as u64) }
            0x37 => { let v = i.q()?; self.map(v).map(|m| u64::from(m.store.is_hashed())) }
            0x38 => { let (v, k) = (i.q()?, i.q()?); self.store(v).map(|s| { s.note_int_key(i128::from(k as i64)); 0 }) }
            0x39 => { let v = i.q()?; match self.map(v).map(|m| m.store.next_int()) { Err(n) => Err(n),
                Ok(k) => { let past = k > i128::from(i64::MAX); self.x(u8::from(past)); Ok(if past { 0 } else { k as i64 as u64 }) } } }
            0x3A => { let (v, fl, last, pos, ep) = (i.q()?, i.b()?, i.q()?, i.q()?, i.q()?);
                let mut cu = Cursor { last_seq: (fl != 0).then_some(last), pos: pos as usize, epoch: ep as u32 };
                let r = self.map(v).map(|m| m.store.next(&mut cu));
                self.x(format_args!("{} {} {} {} {}", u8::from(matches!(r, Ok(Some(_)))), u8::from(cu.last_seq.is_some()), cu.last_seq.unwrap_or(last), cu.pos, cu.epoch));
                r.map(|p| p.unwrap_or(0) as u64) }
            0x3C => { let (v, k) = (i.q()?, i.q()?); self.map(v).map(|m| m.store.growth_bytes(Self::ik(m, k)) as u64) }
            0x3D => { let v = i.q()?; self.map(v).map(|m| m.store.entries().len() as u64) }
            0x3E => { let v = i.q()?; self.map(v).map(|m| u64::from(type_no(m.key))) }
            0x3F => { let v = i.q()?; self.map(v).map(|m| u64::from(type_no(m.value))) }
            0x40 => { let v = i.q()?; match f(coll::iter_next(heap, v)) { Err(n) => Err(n), Ok(w) => { self.x(u8::from(w.is_some())); Ok(w.unwrap_or(0)) } } }
            // Before the first item document 01 has no refusal; the original raises IndexOutOfBounds.
            0x41 => { let v = i.q()?; match f(coll::iter_key(heap, v)) { Err(3) => { self.x(0); Ok(0) } Err(n) => Err(n), Ok(k) => { self.x(1); Ok(k) } } }
            0x42..=0x45 => { let v = i.q()?; let Some(Object::Iter(it)) = heap.get(v) else { return Some(Err(self.miss(v))); };
                match c {
                    0x42 => Ok(it.src),
                    0x43 => Ok(u64::from(type_no(it.key_ty))),
                    0x44 => Ok(u64::from(it.done)),
                    _ => { let (src, n, cu) = (heap.get(it.src).map_or(0, row), it.index as u64, it.cursor);
                        self.x(src);
                        if src == 6 { Ok(n) } else {
                            self.x(format_args!("{} {} {}", u8::from(cu.last_seq.is_some()), cu.last_seq.unwrap_or(0), cu.epoch)); Ok(cu.pos as u64) } }
                } }
            0x48..=0x4C => { let v = i.q()?; match self.map(v).map(|m| Tail::of(&m.store)) { Err(n) => Err(n), Ok(t) => match c {
                    0x48 => Ok(t.epoch),
                    0x49 => Ok(t.next_seq),
                    // The original keeps the greatest noted key + 1.
                    0x4A => match t.next_int.parse::<i128>() { Err(_) => { self.x(0); Ok(0) } Ok(k) => { self.x(1); Ok((k - 1) as i64 as u64) } },
                    0x4B => Ok(t.ecap as u64),
                    _ => Ok(t.ilen as u64) } } }
            0x4D => { let (v, p) = (i.q()?, i.q()?); match heap.coro(v) { None => Err(self.miss(v)), Some(co) => match usize::try_from(p).ok().and_then(|p| co.frames.get(p).copied()) { None => Err(3),
                Some(fr) => { self.x(format_args!("{} {} {:016X}", fr.pc, fr.base, fr.closure)); Ok(u64::from(fr.func)) } } } }
            0x4E => { let v = i.q()?; Ok(kind_no(heap.kind(v))) }
            0x50 => { let n = i.q()?; f(heap.charge(n as usize)).map(|_| 0) }
            0x51 => { let n = i.q()?; Ok(u64::from(heap.wants_gc(n as usize))) }
            0x52 => { let n = i.q()?; Ok(u64::from(heap.fits(n as usize))) }
            0x53 => Ok(heap.stats.collections),
            0x54 => Ok(heap.stats.freed),
            0x55 => Ok(heap.len() as u64),
            0x56 => Ok(self.cells()),
            0x60 => Ok(dynv::from_bool(i.b()? != 0)),
            0x61 => Ok(dynv::from_char(i.q()? as u32)),
            0x62 => Ok(dynv::from_f64(f64::from_bits(i.q()?))),
            0x63 => { let w = dynv::inline_int(i.q()? as i64); self.x(u8::from(w.is_some())); Ok(w.unwrap_or(0)) }
            0x64 => { let (s, t) = (i.q()?, i.q()?); Ok(dynv::from_ref(s as u32, t as u16)) }
            0x65 => { let (k, v) = match dynv::decode(i.q()?) {
                    dynv::Raw::Nil => (0, 0), dynv::Raw::Bool(b) => (1, u64::from(b)), dynv::Raw::Int(n) => (2, n as u64),
                    dynv::Raw::Float(x) => (3, if x.is_nan() { dynv::CANONICAL_NAN } else { x.to_bits() }), dynv::Raw::Char(c) => (4, u64::from(c)),
                    dynv::Raw::Ref(s, t) => (5, u64::from(t) << 32 | u64::from(s)) };
                self.x(k); Ok(v) }
            0x66 => { let (a, b) = (i.q()?, i.q()?); Ok(u64::from(dynv::decode(a) == dynv::decode(b))) }
            _ => return None,
        })
    }

    fn find(&self, v: u64, h: u64, k: u64) -> Result<Option<usize>, u32> {
        let m = self.map(v)?;
        Ok(m.store.find(h, Self::ik(m, k), |e| e == k))
    }

    /// `map_set_raw` with the hash given and word equality: find, else
    /// `map_store_mut` charged `growth_bytes`, then `insert`.
    fn put(&mut self, v: u64, h: u64, k: u64, w: u64, look: bool) -> Ans {
        let pos = if look { self.find(v, h, k)? } else { None };
        let m = self.map(v)?;
        let ik = Self::ik(m, k);
        let growth = if pos.is_none() { m.store.growth_bytes(ik) } else { 0 };
        let store = f(coll::map_store_mut(&mut self.heap, v, growth))?;
        match pos { Some(p) => store.set_value(p, w), None => { assert!(store.insert(h, k, w, ik)); } }
        Ok(0)
    }

    fn cells(&self) -> u64 {
        let mut n = 0;
        for &w in &self.made {
            n += match self.heap.get(w) {
                None => 0,
                Some(Object::Str(s)) => s.len().div_ceil(8),
                Some(Object::Array(a)) => a.items.capacity(),
                Some(Object::Map(m)) => { let t = Tail::of(&m.store); 5 * t.ecap + t.ilen / 2 }
                Some(Object::Struct(s)) => s.fields.len(),
                Some(Object::Func(s)) => s.captures.len(),
                Some(Object::Coro(c)) => c.regs.len() + 4 * c.frames.len(),
                Some(_) => 0,
            };
        }
        n as u64
    }

    /// Everything the account and the objects hold; the model's `dump`.
    pub(crate) fn dump(&self) -> String {
        let d = format!("{:?}", self.heap);
        let num = |key: &str| -> u64 {
            let at = d.rfind(key).unwrap() + key.len();
            d[at..].split(|c: char| !c.is_ascii_digit()).next().unwrap().parse().unwrap()
        };
        let free = { let at = d.rfind("], free: [").unwrap() + 10; d[at..].split(']').next().unwrap().replace(' ', "") };
        let mut s = String::new();
        let mut live: Vec<u64> = self.made.iter().copied().filter(|&w| self.heap.get(w).is_some()).collect();
        live.sort_by_key(|w| *w as u32);
        let _ = write!(s, "A {} {} {} {} {} {} {}\nP {}", num(", used: "), num(", since_gc: "), num(", threshold: "),
            self.heap.stats.collections, self.heap.stats.freed, self.heap.len(), self.cells(), free);
        let list = |w: &[u64]| w.iter().map(|x| format!("{x:x}")).collect::<Vec<_>>().join(",");
        for w in live {
            let o = self.heap.get(w).unwrap();
            let _ = write!(s, "\n{:x} {} ", w, row(o));
            let _ = match o {
                Object::Str(b) => write!(s, "{}", b.iter().map(|x| format!("{x:02x}")).collect::<String>()),
                Object::Int(n) => write!(s, "{n}"),
                Object::Cell(c) => write!(s, "{} {:x}", type_no(c.elem), c.value),
                Object::Error(e) => write!(s, "{} {:x}", match e.kind { ErrorKind::Other(k) => k, _ => unreachable!() }, e.payload),
                Object::Ref(v) => write!(s, "{v:x}"),
                Object::Array(a) => write!(s, "{} {} {}", type_no(a.elem), a.items.capacity(), list(&a.items)),
                Object::Map(m) => { let t = Tail::of(&m.store);
                    write!(s, "{} {} {} {} {} {} {} {} {} {}", type_no(m.key), type_no(m.value), u8::from(m.store.is_hashed()), m.store.len(),
                        t.next_seq, t.epoch, t.next_int, t.ecap, t.ilen,
                        m.store.entries().iter().map(|e| format!("{:x}:{:x}:{:x}:{}:{}", e.hash, e.key, e.value, e.seq, u8::from(e.live))).collect::<Vec<_>>().join(",")) }
                Object::Struct(o) => write!(s, "{} {}", o.ty, list(&o.fields)),
                Object::Func(o) => { let (n, imp) = match o.target { Callable::Func(n) => (n, 0), Callable::Import(n) => (n, 1) }; write!(s, "{} {} {}", imp, n, list(&o.captures)) }
                Object::Iter(it) => write!(s, "{:x} {} {} {},{},{} {} {}", it.src, u8::from(it.done), it.index,
                    it.cursor.last_seq.map_or("-".into(), |x| x.to_string()), it.cursor.pos, it.cursor.epoch,
                    it.key.map_or("-".into(), |x| format!("{x:x}")), type_no(it.key_ty)),
                Object::Coro(c) => write!(s, "{} {} {} {} {} {}", state_no(c.state), u8::from(c.finalized), c.seq,
                    list(&[c.payload, c.key, c.result, c.signal]), list(&c.regs),
                    c.frames.iter().map(|f| format!("{}:{}:{:x}:{:x}", f.func, f.pc, f.base, f.closure)).collect::<Vec<_>>().join(",")),
            };
        }
        s
    }
}

/// The private fields of a store, read off its Debug form.
struct Tail { ilen: usize, ecap: usize, next_seq: u64, epoch: u64, next_int: String }
impl Tail {
    fn of(m: &MapStore) -> Tail {
        let d = format!("{m:?}");
        let at = d.rfind("], index: [").unwrap() + 11;
        let idx = d[at..].split(']').next().unwrap();
        let ilen = if idx.is_empty() { 0 } else { idx.split(',').count() };
        let get = |key: &str| { let at = d.rfind(key).unwrap() + key.len(); d[at..].split([',', ' ']).next().unwrap().to_string() };
        let ni = get("next_int: ");
        let next_int = if ni == "None" { "-".into() } else { ni.trim_start_matches("Some(").trim_end_matches(')').to_string() };
        // The index's capacity equals its length in every case met; otherwise
        // the division below would not come out even.
        let rest = m.bytes() - 4 * ilen;
        assert_eq!(rest % size_of::<Entry>(), 0);
        Tail { ilen, ecap: rest / size_of::<Entry>(), next_seq: get("next_seq: ").parse().unwrap(), epoch: get("epoch: ").parse().unwrap(), next_int }
    }
}

fn row(o: &Object) -> u64 {
    match o { Object::Str(_) => 1, Object::Int(_) => 2, Object::Cell(_) => 3, Object::Error(_) => 4, Object::Ref(_) => 5, Object::Array(_) => 6,
        Object::Map(_) => 7, Object::Struct(_) => 8, Object::Func(_) => 9, Object::Iter(_) => 10, Object::Coro(_) => 11 }
}

/// A kind's number: the row of the object; integer 2 also for an inline one;
/// 0 nil, 12 truth, 13 float, 14 character.
fn kind_no(k: Kind) -> u64 {
    match k { Kind::Nil => 0, Kind::Str => 1, Kind::Int => 2, Kind::Cell => 3, Kind::Error => 4, Kind::Reference => 5, Kind::Array => 6, Kind::Map => 7,
        Kind::Object => 8, Kind::Function => 9, Kind::Iter => 10, Kind::Coroutine => 11, Kind::Bool => 12, Kind::Float => 13, Kind::Char => 14 }
}

fn crc32(b: &[u8]) -> u32 {
    static T: std::sync::OnceLock<[u32; 256]> = std::sync::OnceLock::new();
    let t = T.get_or_init(|| { let mut t = [0u32; 256]; for (i, e) in t.iter_mut().enumerate() { let mut c = i as u32; for _ in 0..8 { c = if c & 1 == 1 { 0xEDB8_8320 ^ (c >> 1) } else { c >> 1 }; } *e = c; } t });
    !b.iter().fold(!0u32, |c, &x| t[((c ^ u32::from(x)) & 255) as usize] ^ (c >> 8))
}

pub(crate) fn run(data: &[u8], sheet: bool, state: bool, dump: bool, out: &mut String) {
    let mut l = Line::new(1_048_576, layout(&[0]).unwrap());
    let mut i = In { b: data, at: 0 };
    while i.at < data.len() {
        let c = data[i.at];
        i.at += 1;
        l.x.clear();
        let known = !sheet || matches!(c, 0x01 | 0x02 | 0x06 | 0x0B | 0x0C);
        let Some(a) = (if known { l.call(c, &mut i) } else { None }) else {
            let _ = writeln!(out, "?? 4 {:016X} {}", 0, l.heap.used());
            return;
        };
        let (n, w) = match a { Ok(w) => (0, w), Err(n) => (n, 0) };
        let _ = write!(out, "{c:02X} {n} {w:016X} {}{}", l.heap.used(), l.x);
        if state || dump {
            let d = l.dump();
            if state { let _ = write!(out, " #{:08x}", crc32(d.as_bytes())); }
            if dump { let _ = write!(out, "\n{d}"); }
        }
        out.push('\n');
    }
}

pub(crate) fn main() {
    let args: Vec<String> = std::env::args().skip(1).collect();
    let has = |s: &str| args.iter().any(|a| a == s);
    let (state, dump) = (has("--state"), has("--dump"));
    let mode = args.iter().find(|a| !a.starts_with("--")).map_or("script", |s| s.as_str());
    let mut out = String::new();
    let input = || { let mut v = Vec::new(); std::io::stdin().read_to_end(&mut v).unwrap(); v };
    match mode {
        "weights" => { let w = weights(); let _ = writeln!(out, "slot {} entry {} iterator {} coroutine {} frame {}", w[0], w[1], w[2], w[3], w[4]); }
        "probes" => crate::probes::run(),
        #[cfg(feature = "scale")]
        "scale" => {
            let n = |i: usize, or: u64| args.get(i).map_or(or, |s| s.parse().expect("a number"));
            crate::scale::main(n(1, 10_000_000), n(2, 1));
        }
        "callsheet" => { let mut v = input(); v.truncate(65536); run(&v, true, state, dump, &mut out) }
        "script" => run(&input(), false, state, dump, &mut out),
        // u32 length and script, repeated; answers separated by a line "--"
        "batch" => {
            let v = input();
            let mut at = 0;
            while at + 4 <= v.len() {
                let n = u32::from_le_bytes(v[at..at + 4].try_into().unwrap()) as usize;
                at += 4;
                run(&v[at..at + n], false, state, dump, &mut out);
                out.push_str("--\n");
                at += n;
            }
        }
        m => { eprintln!("unknown mode {m}"); std::process::exit(2) }
    }
    std::io::stdout().write_all(out.as_bytes()).unwrap();
}
