#!/usr/bin/env python3
"""Reference model of documents 01 and 02, written from them alone.

FEATURES  the follow-up requests of document 02 in force, "i" to "xiv";
          empty: document 01. `--with=i,iii` or `--with=all` on the command line
          of any of these programs, else the environment variable FEATURES, else
          LANDED.
          (iv) is in cycle.py, (x) and (xiii) in plan.py, (xiv) in holder.py.
Heap      the model: slots, pile, account, capacities, cells, maps, iterators,
          coroutines, layout, collection, refusals in their order
Book      document 01's accession book, independent of Heap (own code): fed the
          layout (and rights), each call's arguments and whether it was refused;
          it also says which of the refusals that the script earns is due
Runner    executes a script (docs/SCRIPTS.md), one line a call; with check=True
          Heap and Book are compared after every call
"""
import copy
import os
import re
import struct as _st
import sys
import zlib

LANDED = "i,ii"                               # those that the product has
REQUESTS = ["i", "ii", "iii", "iv", "v", "vi", "vii", "viii", "ix", "x", "xi", "xii", "xiii", "xiv"]
FEATURES = set()


def set_features(names):
    """A list of requests, or text such as "i,iii" or "all". Commands that no
    request in force has are unknown."""
    if isinstance(names, str):
        names = REQUESTS if names == "all" else [x for x in names.replace(" ", ",").split(",") if x]
    for x in names:
        if x not in REQUESTS:
            sys.exit("unknown request %r" % x)
    FEATURES.clear()
    FEATURES.update(names)
    SPEC.clear()
    SPEC.update({c: s for c, s in SPEC_01.items() if not (s[0] == "note" and on("v"))})
    for request, c, name, operands in SPEC_02:
        if on(request):
            SPEC[c] = (name, operands)
    BY_NAME.clear()
    BY_NAME.update({n: (c, s) for c, (n, s) in SPEC.items()})


def on(*names):
    return all(x in FEATURES for x in names)


def module(name):
    """cycle, plan or holder: beside this file, written apart."""
    import importlib
    return importlib.import_module(name)

M64 = (1 << 64) - 1
SEQS = 1 << 32
FIRST_THRESHOLD = 262144


def sat(x):
    return M64 if x > M64 else x


def signed(w):
    return w - (1 << 64) if w >> 63 else w


# ------------------------------------------------------------------ words ---
INT_FROM = 0xFFFE000000000000
FLOAT_FROM = 1 << 49
REF_FROM = 1 << 48
NIL, TRUTH, INT, FLOAT, CHAR, REF = range(6)


NAN = 0x7FF8000000000000


def is_nan_bits(b):
    return (b & 0x7FF0000000000000) == 0x7FF0000000000000 and (b & 0x000FFFFFFFFFFFFF) != 0


def word_truth(b):
    return (1 << 32) | (1 if b else 0)


def word_char(c):
    return (2 << 32) | c


def word_float(bits):
    return (NAN if is_nan_bits(bits) else bits) + (1 << 49)


def word_int(i):
    if -(1 << 48) <= i <= (1 << 48) - 1:
        return INT_FROM | (i & ((1 << 49) - 1))
    return None


def word_ref(slot, tag):
    return (1 << 48) + (tag << 32) + slot


def read(w):
    """(kind, value): integers as Python ints, floats as their bits; there is
    one NaN, so every NaN word reads as the same bits."""
    if w >= INT_FROM:
        v = w & ((1 << 49) - 1)
        return (INT, v - (1 << 49) if v >> 48 else v)
    if w >= FLOAT_FROM:
        bits = w - (1 << 49)
        return (FLOAT, NAN if is_nan_bits(bits) else bits)
    if w >= REF_FROM:
        return (REF, w - (1 << 48))
    top = w >> 32
    if top == 1:
        return (TRUTH, 1 if w & 0xFFFFFFFF else 0)
    if top == 2 and (not on("iii") or scalar(w & 0xFFFFFFFF)):
        return (CHAR, w & 0xFFFFFFFF)
    return (NIL, 0)


def scalar(c):
    """(iii) A Unicode scalar value."""
    return c <= 0xD7FF or 0xE000 <= c <= 0x10FFFF


def same(a, b):
    """Without (vii) it is same_number."""
    return read(a) == read(b) if on("vii") else same_number(a, b)


def same_number(a, b):
    ka, va = read(a)
    kb, vb = read(b)
    if ka != kb:
        return False
    if ka == FLOAT:
        if is_nan_bits(va) or is_nan_bits(vb):
            return False
        if (va | vb) << 1 & M64 == 0:
            return True
    return va == vb


def is_ref(w):
    return REF_FROM <= w < FLOAT_FROM


# ----------------------------------------------------------------- layout ---
def parse_layout(data):
    """(structs, functions) or None. structs[i]: traced field numbers;
    functions[i]: (traced register numbers, capture types)."""
    structs, funcs, under, i = [], [], 0, 0
    while True:
        if i >= len(data):
            return None                       # no 00
        c = data[i]
        i += 1
        if c == 0:
            return (structs, funcs) if i == len(data) else None
        if c == 1:
            if len(structs) == 256:
                return None
            structs.append([])
            under = 1
        elif c == 3:
            if len(funcs) == 256:
                return None
            funcs.append(([], []))
            under = 3
        elif c in (2, 4):
            if under != c - 1 or i + 2 > len(data):
                return None
            n = data[i] | data[i + 1] << 8
            i += 2
            (structs[-1] if c == 2 else funcs[-1][0]).append(n)
        elif c == 5:
            if under != 3 or i >= len(data) or data[i] > 2:
                return None
            funcs[-1][1].append(data[i])
            i += 1
        else:
            return None


# ------------------------------------------------------------------- heap ---
STR, INTEGER, CELL, ERROR, BOX, ARRAY, MAP, STRUCT, FUNC, ITER, CORO, WEAK = range(1, 13)
NAMES = ["string", "integer", "cell", "error", "box", "array", "map", "struct", "function", "iterator", "coroutine", "weak"]
DEAD_ROW = 15                                 # (i) get and kind of a dead reference
WEAK_KIND = 16                                # (xii) kind of a weak box; get gives its row
ZERO_ALONE = ("collect", "collect_roots", "begin", "turn", "state_set", "census", "holder")
NO_ZONE = ("open", "zone", "root")            # and the functions on words


def heap_call(name):
    return name not in NO_ZONE and not name.startswith("w_")


class Refuse(Exception):
    def __init__(self, n):
        self.n = n


class O:
    """An object; `k` is its row in the table, the rest depends on the kind."""

    def __init__(self, k, **kw):
        self.k = k
        self.__dict__.update(kw)


def pow2_at_least(n):
    p = 1
    while p < n:
        p *= 2
    return p


class Heap:
    def __init__(self, slots, cells, limit, weights, layout, rights=None):
        lay = parse_layout(layout)
        if not (1 <= slots <= 65536 and 0 <= cells <= 1048576) or any(not 1 <= w <= 4096 for w in weights) or lay is None:
            raise Refuse(10)
        if on("ix") and (len(rights) != 256 or any(x > 2 for x in rights)):
            raise Refuse(10)
        self.rights = rights
        self.zone = 0                         # (ix) of the call being made
        self.cycle = None                     # (iv) cycle.py's state while one is open
        self.nslots, self.ncells, self.limit = slots, cells, limit
        self.ws, self.we, self.wi, self.wc, self.wf = weights
        self.structs, self.funcs = lay
        self.slots = []                       # [generation, flag, object or None, age, owner]
        self.pile = []
        self.used = self.since = 0
        self.threshold = FIRST_THRESHOLD
        self.collections = self.freed = 0
        self.cells = 0

    # -- account
    def fits(self, n):
        return sat(self.used + sat(n)) <= self.limit

    def charge(self, n):
        if not self.fits(n):
            raise Refuse(5)
        self.used = sat(self.used + sat(n))
        self.since = sat(self.since + sat(n))

    def wants_gc(self, extra):
        return self.since >= self.threshold or (sat(self.used + extra) > self.limit and self.since >= self.limit // 8)

    # -- weights and cells of an object
    def bytes_of(self, o):
        k = o.k
        if k == STR:
            return len(o.data)
        if k == ARRAY:
            return 8 * o.cap
        if k == MAP:
            return self.we * o.ecap + 4 * o.ilen
        if k == STRUCT or k == FUNC:
            return 8 * len(o.words)
        if k == ITER:
            return self.wi
        if k == CORO:
            return self.wc + 8 * len(o.regs) + self.wf * len(o.frames)
        return 0

    def cells_of(self, o):
        k = o.k
        if k == STR:
            return (len(o.data) + 7) // 8
        if k == ARRAY:
            return o.cap
        if k == MAP:
            return 5 * o.ecap + o.ilen // 2
        if k == STRUCT or k == FUNC:
            return len(o.words)
        if k == CORO:
            return len(o.regs) + 4 * len(o.frames)
        return 0

    # -- slots
    def get(self, w):
        if not is_ref(w):
            return None
        slot, tag = w & 0xFFFFFFFF, (w >> 32) & 0xFFFF
        if slot >= len(self.slots):
            return None
        s = self.slots[slot]
        return s[2] if s[0] | s[1] == tag and s[2] is not None else None

    # -- (ix) zones
    def gate(self, name):
        """What the zone alone decides, before everything else."""
        if on("ix") and heap_call(name):
            if self.zone > 15:
                raise Refuse(4)
            if name in ZERO_ALONE and self.zone != 0:
                raise Refuse(14)

    def right(self, w):
        """Of the calling zone over the object that w reaches: 0, 1 read, 2 write too."""
        if not on("ix"):
            return 2
        owner = self.slots[w & 0xFFFFFFFF][4]
        return 2 if owner == self.zone else self.rights[16 * self.zone + owner]

    def must_read(self, w):
        """A word that reaches an object the zone may not read: 14."""
        if self.get(w) is not None and self.right(w) < 1:
            raise Refuse(14)

    def see_through(self, w):
        """deref for push, pop and iteration: a box must be readable."""
        if is_ref(w) and w >> 47 & 1:
            self.must_read(w)
        return self.deref(w)

    def target(self, w, right=1):
        """The object a call is made on: 1, 11, 14."""
        o = self.get(w)
        if o is None:
            k = read(w)[0]
            raise Refuse(1 if k == NIL else 2 if k != REF else 11 if on("i") else 1)
        if self.right(w) < right:
            raise Refuse(14)
        return o

    def need(self, w, k, right=1):
        o = self.target(w, right)
        if o.k != k:
            raise Refuse(2)
        return o

    # -- (iv) hooks; cycle.py decides
    def taken(self, words):
        """Traced words that an accepted call is about to take away."""
        if self.cycle is not None:
            module("cycle").taken(self, list(words))

    def born(self, slot):
        if self.cycle is not None:
            module("cycle").born(self, slot)

    def deref(self, w):
        if is_ref(w) and w >> 47 & 1:
            o = self.get(w)
            return o.word if o is not None else 0
        return w

    def deref_call(self, w):
        return self.see_through(w)

    def get_row(self, w):
        self.must_read(w)
        o = self.get(w)
        if o is None:
            return DEAD_ROW if is_ref(w) and on("i") else 0
        return o.k

    def kind(self, w):
        """Row of the object a reference reaches (16 for a weak box); 0 nil (also a
        reference that reaches nothing, which (i) gives 15), 2 integer, 12 truth,
        13 float, 14 character."""
        k = read(w)[0]
        if k == REF:
            n = self.get_row(w)
            return WEAK_KIND if n == WEAK else n
        return {NIL: 0, TRUTH: 12, INT: INTEGER, FLOAT: 13, CHAR: 14}[k]

    def age(self, w):
        self.target(w)
        return self.slots[w & 0xFFFFFFFF][3]

    def alloc_sized(self, nbytes, ncells, make):
        n = self.ws + sat(nbytes)
        if not self.fits(n):
            raise Refuse(5)
        if not self.pile and len(self.slots) == self.nslots:
            raise Refuse(6)
        if self.cells + ncells > self.ncells:
            raise Refuse(7)
        self.charge(n)
        self.cells += ncells
        o = make()
        if self.pile:
            i = self.pile.pop()
        else:
            i = len(self.slots)
            self.slots.append([0, 0, None, 0, 0])
        s = self.slots[i]
        s[1] = 0x8000 if o.k == BOX else 0
        s[2] = o
        s[3] = 0
        s[4] = self.zone
        self.born(i)
        return word_ref(i, s[0] | s[1])

    def alloc(self, o):
        return self.alloc_sized(self.bytes_of(o), self.cells_of(o), lambda: o)

    # -- allocations
    def box(self, w):
        return self.alloc(O(BOX, word=w))

    def weak(self, w):
        return self.alloc(O(WEAK, word=w))

    def string(self, data):
        return self.alloc(O(STR, data=bytes(data)))

    def integer(self, i):
        return self.alloc(O(INTEGER, n=i))

    def cell(self, t, w):
        if t > 2:
            raise Refuse(4)
        return self.alloc(O(CELL, t=t, word=w))

    def error(self, kind, w):
        return self.alloc(O(ERROR, kind=kind, word=w))

    def array(self, t, n):
        if t > 2:
            raise Refuse(4)
        n = signed(n)
        if n < 0:
            raise Refuse(3)
        return self.alloc_sized(8 * n, n, lambda: O(ARRAY, t=t, items=[0] * n, cap=n))

    def map(self, kt, vt):
        if kt > 2 or vt > 2:
            raise Refuse(4)
        return self.alloc(O(MAP, kt=kt, vt=vt, hashed=False, ents=[], ecap=0, ilen=0, live=0,
                            seq=0, epoch=0, noted=None))

    def struct(self, ty, words):
        return self.alloc(O(STRUCT, ty=ty, words=list(words)))

    def func(self, imp, num, words):
        return self.alloc(O(FUNC, imp=1 if imp else 0, num=num, words=list(words)))

    def iter(self, src):
        o = self.target(src)
        if o.k not in (ARRAY, MAP):
            raise Refuse(2)
        return self.alloc(O(ITER, src=src, over=o.k, done=False, index=0, cur=(None, 0, 0), key=None,
                            kt=0 if o.k == ARRAY else o.kt))

    def coro(self, state, seq, payload, key, result, signal, regs, frames):
        if state > 4:
            raise Refuse(4)
        return self.alloc(O(CORO, state=state, fin=False, seq=seq, parts=[payload, key, result, signal],
                            regs=list(regs), frames=[tuple(f) for f in frames]))

    # -- arrays
    def array_len(self, a):
        return len(self.need(a, ARRAY).items)

    def array_read(self, a, i):
        o = self.need(a, ARRAY)
        if i >= len(o.items):
            raise Refuse(3)
        return o.items[i]

    def array_store(self, a, i, w):
        o = self.need(a, ARRAY, 2)
        self.charge(0)
        if i < len(o.items):
            if o.t:
                self.taken([o.items[i]])
            o.items[i] = w

    def push(self, a, w):
        o = self.need(a, ARRAY, 2)
        if o.t == 2:
            w = self.see_through(w)
        n, cap = 0, o.cap
        if len(o.items) == o.cap:
            n, cap = 8 * max(o.cap, 4), max(2 * o.cap, 4)
        if not self.fits(n):
            raise Refuse(5)
        if self.cells + cap - o.cap > self.ncells:
            raise Refuse(7)
        self.charge(n)
        self.cells += cap - o.cap
        o.cap = cap
        o.items.append(w)

    def pop(self, a):
        o = self.need(a, ARRAY, 2)
        if not o.items:
            raise Refuse(3)
        w = o.items[-1]
        seen = self.see_through(w) if o.t == 2 else w
        self.charge(0)
        if o.t:
            self.taken([w])
        o.items.pop()
        return seen

    # -- words of small objects
    def box_read(self, b):
        return self.need(b, BOX).word

    def box_store(self, b, w):
        o = self.need(b, BOX, 2)
        self.taken([o.word])
        o.word = w

    def weak_read(self, b):
        w = self.need(b, WEAK).word
        return 0 if is_ref(w) and self.get(w) is None else w

    def weak_store(self, b, w):
        self.need(b, WEAK, 2).word = w

    def cell_read(self, c):
        return self.need(c, CELL).word

    def cell_store(self, c, w):
        o = self.need(c, CELL, 2)
        if o.t:
            self.taken([o.word])
        o.word = w

    def place(self, o, i):
        ws = o.regs if o.k == CORO else o.words
        if i >= len(ws):
            raise Refuse(3)
        return ws

    def part_read(self, k, r, i):
        return self.place(self.need(r, k), i)[i]

    def part_traced(self, o, i):
        """Is the field, capture or register a traced word?"""
        if o.k == STRUCT:
            return o.ty < len(self.structs) and i in self.structs[o.ty]
        if o.k == FUNC:
            return not o.imp and o.num < len(self.funcs) and i < len(self.funcs[o.num][1]) and self.funcs[o.num][1][i] != 0
        return any(fn < len(self.funcs) and i - base in self.funcs[fn][0] for fn, _pc, base, _clo in o.frames)

    def part_store(self, k, r, i, w):
        o = self.need(r, k, 2)
        ws = self.place(o, i)
        if self.part_traced(o, i):
            self.taken([ws[i]])
        ws[i] = w

    def state_set(self, r, s):
        if s > 4:
            raise Refuse(4)
        self.need(r, CORO, 0).state = s      # zone 0 alone (gate), whatever its rights

    def coro_read(self, r, which):
        o = self.need(r, CORO)
        return (o.parts + [o.seq, int(o.fin), len(o.regs), len(o.frames)])[which]

    def coro_store(self, r, which, w):
        o = self.need(r, CORO, 2)
        self.taken([o.parts[which]])
        o.parts[which] = w

    def frame(self, r, i):
        o = self.need(r, CORO)
        if i >= len(o.frames):
            raise Refuse(3)
        return o.frames[i]

    # -- maps
    @staticmethod
    def int_key(m, key):
        return signed(key) if m.kt == 0 else None

    def m_find(self, m, h, key):
        if not m.hashed:
            k = self.int_key(m, key)
            return k if k is not None and 0 <= k < len(m.ents) else None
        for p, e in enumerate(m.ents):
            if e[4] and e[0] == h and e[1] == key:
                return p
        return None

    def m_growth(self, m, key):
        n = 0
        if len(m.ents) == m.ecap:
            n += max(m.ecap, 4) * self.we
        if m.hashed or self.int_key(m, key) != len(m.ents):
            want = max(8, pow2_at_least(2 * (m.live + 1)))
            if want > m.ilen:
                n += 4 * want
        return n

    def m_insert(self, m, h, key, value):
        if m.seq >= SEQS:
            raise Refuse(9)
        n = self.m_growth(m, key)
        ecap = max(2 * m.ecap, 4) if len(m.ents) == m.ecap else m.ecap
        ilen, hashed = m.ilen, m.hashed
        if not hashed and self.int_key(m, key) != len(m.ents):
            hashed = True
            ilen = max(8, pow2_at_least(2 * m.live))
        if hashed and 2 * (m.live + 1) > ilen:
            ilen *= 2
        cells = 5 * (ecap - m.ecap) + (ilen - m.ilen) // 2
        if not self.fits(n):
            raise Refuse(5)
        if self.cells + cells > self.ncells:
            raise Refuse(7)
        self.charge(n)
        self.cells += cells
        m.ecap, m.ilen, m.hashed = ecap, ilen, hashed
        m.ents.append([h, key, value, m.seq, True])
        m.seq += 1
        m.live += 1

    def m_remove(self, m, p):
        if not m.hashed:
            ilen = max(8, pow2_at_least(2 * m.live))
            if self.cells + ilen // 2 > self.ncells:
                raise Refuse(7)
            self.cells += ilen // 2
            m.ilen, m.hashed = ilen, True
        if p < len(m.ents) and m.ents[p][4]:
            self.taken([m.ents[p][1]] * (m.kt != 0) + [m.ents[p][2]] * (m.vt != 0))
            m.ents[p][4] = False
            m.live -= 1
            dead = len(m.ents) - m.live
            if dead > 16 and dead > m.live:
                m.ents = [e for e in m.ents if e[4]]
                m.epoch = (m.epoch + 1) % (1 << 32)

    def put(self, r, h, key, value):
        m = self.need(r, MAP, 2)
        p = self.m_find(m, h, key)
        if p is None:
            self.m_insert(m, h, key, value)
        else:
            self.charge(0)
            if m.vt:
                self.taken([m.ents[p][2]])
            m.ents[p][2] = value
        k = self.int_key(m, key)
        if on("v") and k is not None:
            self.m_note(m, k)

    def insert(self, r, h, key, value):
        self.m_insert(self.need(r, MAP, 2), h, key, value)

    def find(self, r, h, key):
        return self.m_find(self.need(r, MAP), h, key)

    def remove(self, r, h, key):
        m = self.need(r, MAP, 2)
        p = self.m_find(m, h, key)
        if p is not None:
            self.m_remove(m, p)

    def remove_at(self, r, p):
        self.m_remove(self.need(r, MAP, 2), p)

    def entry(self, r, p):
        m = self.need(r, MAP)
        if p >= len(m.ents):
            raise Refuse(3)
        return m.ents[p]

    def set_value(self, r, p, w):
        m = self.need(r, MAP, 2)
        if p < len(m.ents):
            if m.vt and m.ents[p][4]:
                self.taken([m.ents[p][2]])
            m.ents[p][2] = w

    @staticmethod
    def m_note(m, k):
        if m.noted is None or k > m.noted:
            m.noted = k

    def note(self, r, k):
        self.m_note(self.need(r, MAP, 2), signed(k))

    def next_key(self, r):
        """None is "past"."""
        m = self.need(r, MAP)
        if m.noted is None:
            return 0
        return None if m.noted == (1 << 63) - 1 else m.noted + 1

    @staticmethod
    def m_next(m, cur):
        """(position or None, next cursor); cur = (last or None, pos, epoch)."""
        last, pos, epoch = cur
        if last is None:
            p = 0
        elif epoch == m.epoch:
            p = pos
        else:
            p = 0
            while p < len(m.ents) and m.ents[p][3] <= last:
                p += 1
        while p < len(m.ents):
            if m.ents[p][4]:
                return p, (m.ents[p][3], p + 1, m.epoch)
            p += 1
        return None, (last, p, m.epoch)

    def next(self, r, cur):
        return self.m_next(self.need(r, MAP), cur)

    # -- iterators
    def iter_next(self, r):
        """None: ended."""
        it = self.need(r, ITER, 2)
        self.must_read(it.src)
        if it.done:
            return None
        src = self.get(it.src)
        cur = it.cur
        if src is None:                       # freed by a cycle in which the iterator was made: it ends, as in the original
            p = None
        elif src.k == ARRAY:
            p = it.index if it.index < len(src.items) else None
        else:
            p, cur = self.m_next(src, it.cur)
        if p is None:
            it.done = True
            return None
        if src.k == ARRAY:
            key, w, t = p, src.items[p], src.t
        else:
            key, w, t = src.ents[p][1], src.ents[p][2], src.vt
        if t == 2:
            w = self.see_through(w)
        if it.kt and it.key is not None:
            self.taken([it.key])
        it.key, it.cur = key, cur
        it.index += 1
        return w

    def iter_key(self, r):
        """None: no item yet."""
        return self.need(r, ITER).key

    def iter_cursor(self, r):
        """The array index, or (last or None, position, epoch) over a map."""
        it = self.need(r, ITER)
        self.must_read(it.src)                 # its form tells the source's kind
        src = self.get(it.src)
        if src is None:                       # see iter_next: three fields, whatever it iterated
            return (None, it.index, 0) if it.over == ARRAY else it.cur
        return it.index if src.k == ARRAY else it.cur

    # -- collection
    def traced(self, o):
        k = o.k
        if k == CELL:
            return [o.word] if o.t else []
        if k == ERROR or k == BOX:
            return [o.word]
        if k == ARRAY:
            return o.items if o.t else []
        if k == MAP:
            out = []
            for e in o.ents:
                if e[4]:
                    if o.kt:
                        out.append(e[1])
                    if o.vt:
                        out.append(e[2])
            return out
        if k == STRUCT:
            if o.ty >= len(self.structs):
                return []
            return [o.words[f] for f in self.structs[o.ty] if f < len(o.words)]
        if k == FUNC:
            if o.imp or o.num >= len(self.funcs):
                return []
            return [w for t, w in zip(self.funcs[o.num][1], o.words) if t]
        if k == ITER:
            return [o.src] + ([o.key] if o.kt and o.key is not None else [])
        if k == CORO:
            out = list(o.parts)
            for fn, _pc, base, clo in o.frames:
                out.append(clo)
                if fn < len(self.funcs):
                    for r in self.funcs[fn][0]:
                        if base + r < len(o.regs):
                            out.append(o.regs[base + r])
            return out
        return []

    def reach(self, seen, words):
        work = list(words)
        while work:
            w = work.pop()
            o = self.get(w)
            if o is not None:
                i = w & 0xFFFFFFFF
                if i not in seen:
                    seen.add(i)
                    work.extend(self.traced(o))

    def collect(self, roots, places):
        """(freed, list of F's words)."""
        if self.cycle is not None:
            raise Refuse(13)
        seen = set()
        self.reach(seen, roots)
        found = []
        for i, s in enumerate(self.slots):
            o = s[2]
            if o is not None and o.k == CORO and i not in seen and o.state in (2, 3) and not o.fin:
                found.append((o.seq, word_ref(i, s[0] | s[1])))
        if len(found) > places:
            raise Refuse(8)
        found.sort()
        for _, w in found:
            self.get(w).fin = True
        self.reach(seen, [w for _, w in found])
        return self.sweep(seen), [w for _, w in found]

    def sweep(self, kept):
        """Frees the present objects whose slot is not in `kept` and does what else
        a collection does: account, counts, ages, weak boxes. The number freed."""
        used = freed = cells = 0
        gone = set()
        for i, s in enumerate(self.slots):
            if s[2] is None:
                continue
            if i in kept:
                used += self.ws + self.bytes_of(s[2])
                cells += self.cells_of(s[2])
                s[3] = min(s[3] + 1, 255)
                continue
            gone.add(word_ref(i, s[0] | s[1]))
            s[2] = None
            s[1] = 0
            s[3] = 0
            freed += 1
            if s[0] < 32767:
                s[0] += 1
                self.pile.append(i)
        self.used, self.since, self.threshold, self.cells = sat(used), 0, max(sat(used), FIRST_THRESHOLD), cells
        self.collections = sat(self.collections + 1)
        self.freed = sat(self.freed + freed)
        for s in self.slots:
            if s[2] is not None and s[2].k == WEAK and s[2].word in gone:
                s[2].word = 0
        return freed

    # -- (vi) census
    def census(self, room):
        rows = {k: [0, 0, 0, 0] for k in range(STR, WEAK + 1 if on("xii") else WEAK)}
        for s in self.slots:
            o = s[2]
            if o is not None:
                r = rows[o.k]
                rows[o.k] = [r[0] + 1, r[1] + self.ws + self.bytes_of(o), r[2] + self.cells_of(o), max(r[3], s[3])]
        table = [(NAMES[k - 1], r) for k, r in rows.items()]
        table.append(("total", [sum(r[0] for _, r in table), sum(r[1] for _, r in table), sum(r[2] for _, r in table),
                                max(r[3] for _, r in table)]))
        out = ""
        for name, (n, b, c, a) in table:
            out += ("%-12s%12d%20d%12d%4s" % (name, n, b, c, a if on("viii") else "")).ljust(72) + "\n"
        if room < len(out):
            raise Refuse(8)
        return out.encode()

    def present(self):
        return sum(1 for s in self.slots if s[2] is not None)

    # -- for comparison: all that the account and the objects hold
    def dump(self, base=False):
        """base: without what the requests add, for the original."""
        L = ["A %d %d %d %d %d %d %d" % (self.used, self.since, self.threshold, self.collections, self.freed,
                                         self.present(), self.cells),
             "P " + ",".join(map(str, self.pile))]
        if on("iv") and not base:
            L.append(module("cycle").line(self) or "C")
        for i, s in enumerate(self.slots):
            o = s[2]
            if o is None:
                continue
            t = "%x %d " % (word_ref(i, s[0] | s[1]), o.k)
            k = o.k
            if k == STR:
                t += o.data.hex()
            elif k == INTEGER:
                t += str(o.n)
            elif k == CELL:
                t += "%d %x" % (o.t, o.word)
            elif k == ERROR:
                t += "%d %x" % (o.kind, o.word)
            elif k in (BOX, WEAK):
                t += "%x" % o.word
            elif k == ARRAY:
                t += "%d %d %s" % (o.t, o.cap, ",".join("%x" % w for w in o.items))
            elif k == MAP:
                t += "%d %d %d %d %d %d %s %d %d " % (o.kt, o.vt, o.hashed, o.live, o.seq, o.epoch,
                                                      "-" if o.noted is None else o.noted + 1, o.ecap, o.ilen)
                t += ",".join("%x:%x:%x:%d:%d" % (e[0], e[1], e[2], e[3], e[4]) for e in o.ents)
            elif k == STRUCT:
                t += "%d %s" % (min(o.ty, 0xFFFFFFFF), ",".join("%x" % w for w in o.words))
            elif k == FUNC:
                t += "%d %d %s" % (o.imp, min(o.num, 0xFFFFFFFF), ",".join("%x" % w for w in o.words))
            elif k == ITER:
                c = o.cur
                t += "%x %d %d %s,%d,%d %s %d" % (o.src, o.done, o.index, "-" if c[0] is None else c[0], c[1], c[2],
                                                  "-" if o.key is None else "%x" % o.key, o.kt)
            elif k == CORO:
                t += "%d %d %d %s %s %s" % (o.state, o.fin, o.seq, ",".join("%x" % w for w in o.parts),
                                            ",".join("%x" % w for w in o.regs),
                                            ",".join("%d:%d:%x:%x" % (min(f[0], 0xFFFFFFFF), f[1] & 0xFFFFFFFF, f[2], f[3])
                                                     for f in o.frames))
            if on("viii") and not base:
                t += " age %d" % s[3]
            if on("ix") and not base:
                t += " zone %d" % s[4]
            L.append(t)
        return "\n".join(L)

    def pages(self):
        """What the book would have, by reference."""
        out = {}
        for i, s in enumerate(self.slots):
            o = s[2]
            if o is None:
                continue
            k = o.k
            if k == STR:
                p = ("string", o.data)
            elif k == INTEGER:
                p = ("integer", o.n)
            elif k == CELL:
                p = ("cell", o.t, o.word)
            elif k == ERROR:
                p = ("error", o.kind, o.word)
            elif k == BOX:
                p = ("box", o.word)
            elif k == WEAK:
                p = ("weak", o.word)
            elif k == ARRAY:
                p = ("array", o.t, o.items)
            elif k == MAP:
                p = ("map", o.kt, o.vt, o.hashed, o.noted, o.ents, o.seq, o.epoch)
            elif k == STRUCT:
                p = ("struct", o.ty, o.words)
            elif k == FUNC:
                p = ("function", o.imp, o.num, o.words)
            elif k == ITER:
                p = ("iterator", o.src, o.kt, o.done, o.index if o.over == ARRAY else o.cur, o.key)
            else:
                p = ("coroutine", o.state, o.fin, o.seq, o.parts, o.regs, o.frames)
            if on("viii"):
                p += ("age", s[3])
            if on("ix"):
                p += ("owner", s[4])
            out[word_ref(i, s[0] | s[1])] = p
        return out


# ------------------------------------------------------- accession book -----
class Page:
    def __init__(self, kind, ref, **kw):
        self.kind, self.ref, self.out = kind, ref, False      # out: freed
        self.__dict__.update(kw)


class Book:
    """Fed: what opening was given, (name, arguments, refused). Nothing else from the
    heap. Pages also have owner and age. Beside the pages (in no comparison of them)
    it keeps room and account, and so reckons every refusal but 9, and used."""

    def __init__(self, slots, ncells, limit, weights, layout, rights=None):
        self.layout, self.rights, self.weights = layout, rights, weights
        self.slots, self.ncells, self.limit = slots, ncells, limit
        self.used = self.since = self.roots = self.weedings = 0
        self.threshold = 262144
        self.zone = 0
        self.cyc = None               # (iv) cycle.BookCycle while a cycle is open
        self.book = []                # all pages ever
        self.byref = {}               # reference -> unfreed page
        self.pile = []
        self.of_slot = []             # pages a slot ever had
        self.fields, self.regs, self.caps = [], [], []
        at = 0
        while layout[at] != 0:        # accepted, so well formed
            c = layout[at]
            if c == 1:
                self.fields.append(set())
            elif c == 3:
                self.regs.append(set())
                self.caps.append([])
            elif c == 2:
                self.fields[-1].add(layout[at + 1] + 256 * layout[at + 2])
            elif c == 4:
                self.regs[-1].add(layout[at + 1] + 256 * layout[at + 2])
            else:
                self.caps[-1].append(layout[at + 1])
            at += {1: 1, 2: 3, 3: 1, 4: 3, 5: 2}[c]

    def feed(self, name, args, refused):
        """Enters the call; returns what the rules say it answers, or None
        where the book does not say."""
        if name == "zone":
            self.zone = args[0]
        if refused:
            return None
        if self.cyc is not None:
            self.cyc.enter(name, args)
        n = self.cost(name, args)[0]
        if n is not None:
            self.used, self.since = min(self.used + n, M64), min(self.since + n, M64)
        f = getattr(self, "c_" + name, None)
        return f(*args) if f else None

    # account: what document 01 says of it, reckoned again
    def c_root(self, w): self.roots += 1
    def c_fits(self, n): return int(min(self.used + n, M64) <= self.limit)

    def c_wants_gc(self, n):
        return int(self.since >= self.threshold or min(self.used + n, M64) > self.limit and self.since >= self.limit // 8)

    def cost(self, name, a):
        """(bytes charged, None if the call charges nothing; slots; cells)"""
        ws, we, wi, wc, wf = self.weights
        if name in ("box", "weak", "integer", "cell", "error", "map"):
            return ws, 1, 0
        if name == "string":
            return ws + len(a[0]), 1, (len(a[0]) + 7) // 8
        if name == "array":
            return ws + 8 * a[1], 1, a[1]
        if name in ("struct", "func"):
            return ws + 8 * len(a[-1]), 1, len(a[-1])
        if name == "iter":
            return ws + wi, 1, 0
        if name == "coro":
            return ws + wc + 8 * len(a[6]) + wf * len(a[7]), 1, len(a[6]) + 4 * len(a[7])
        if name == "charge":
            return a[0], 0, 0
        if name in ("array_store", "pop"):
            return 0, 0, 0
        if name == "push":
            p = self.byref[a[0]]
            if len(p.items) < p.room:
                return 0, 0, 0
            return 8 * max(4, p.room), 0, max(2 * p.room, 4) - p.room
        if name == "put" and self.where(self.byref[a[0]], a[1], a[2]) is not None:
            return 0, 0, 0
        if name in ("put", "insert"):
            return self.growth(self.byref[a[0]], a[2])
        if name == "remove" and self.where(self.byref[a[0]], a[1], a[2]) is None:
            return None, 0, 0
        if name in ("remove", "remove_at"):
            p = self.byref[a[0]]
            return None, 0, self.power(2 * self.live(p)) // 2 if p.packed else 0
        if name == "read_plan":
            todo = module("plan").pages(self.layout, a[0])
            sizes = []
            for kind, attrs in todo:
                p = Page(kind, 0, **attrs)
                self.roomy(p)
                sizes.append(self.size(p))
            return sum(ws + b for b, _ in sizes), len(todo), sum(c for _, c in sizes)
        return None, 0, 0

    @staticmethod
    def live(p):
        return len([e for e in p.places if e[4]])

    @staticmethod
    def power(n):
        """The least power of two that is at least 8 and n."""
        return 1 << max(3, (n - 1).bit_length() if n > 0 else 0)

    def growth(self, p, key):
        """Of an insertion: (bytes, 0, cells)"""
        n = c = 0
        if len(p.places) == p.room:
            n = max(p.room, 4) * self.weights[1]
            c = 5 * (max(2 * p.room, 4) - p.room)
        if not p.packed or p.kt != 0 or key != len(p.places):
            live = self.live(p)
            need = self.power(2 * live + 2)
            if need > p.index:
                n += 4 * need
            then = p.index if not p.packed else self.power(2 * live)
            c += ((2 * then if 2 * live + 2 > then else then) - p.index) // 2
        return n, 0, c

    def c_growth(self, r, key): return self.growth(self.byref[r], key)[0]
    def c_array_cap(self, r): return self.byref[r].room
    def c_map_cap(self, r): return self.byref[r].room
    def c_map_index_len(self, r): return self.byref[r].index
    def c_present(self): return len(self.byref)
    def c_freed(self): return self.freed()
    def c_collections(self): return self.weedings
    def c_string_read(self, r, room): return self.byref[r].data

    def c_next(self, r, yielded, last, pos, epoch):
        """The lent cursor: nothing yielded yet, from 0; same epoch, from its
        position; otherwise from the first later sequence number."""
        p = self.byref[r]
        if not yielded:
            pos = 0
        elif epoch % (1 << 32) != p.epoch:
            pos = sum(e[3] <= last for e in p.places)
        live = [i for i, e in enumerate(p.places) if e[4] and i >= pos]
        if live:
            return (live[0], 1, 1, p.places[live[0]][3], live[0] + 1, p.epoch)
        return (0, 0, int(yielded != 0), last, max(pos, len(p.places)), p.epoch)

    def load(self, name, a):
        """5, 6, 7, or 0."""
        n, s, c = self.cost(name, a)
        if n is not None and min(self.used + n, M64) > self.limit:
            return 5
        if s > len(self.pile) + self.slots - len(self.of_slot):
            return 6
        return 7 if c > 0 and c + self.c_cells() > self.ncells else 0

    def add(self, kind, **kw):
        if self.pile:
            slot = self.pile.pop()
        else:
            slot = len(self.of_slot)
            self.of_slot.append(0)
        tag = self.of_slot[slot] + (0x8000 if kind == "box" else 0)
        self.of_slot[slot] += 1
        pg = Page(kind, 0x1000000000000 + tag * 0x100000000 + slot, slot=slot, owner=self.zone, age=0, **kw)
        self.roomy(pg)
        self.book.append(pg)
        self.byref[pg.ref] = pg
        return pg.ref

    def value(self, w):
        if 0x1800000000000 <= w < 0x2000000000000:
            return self.byref[w].word if w in self.byref else 0
        return w

    # (iv)
    def c_begin(self, roots): self.cyc = module("cycle").BookCycle(self, roots)

    def c_turn(self, visits, places):
        said = self.cyc.turn(visits, places)
        if said[1]:
            self.cyc = None
        return said

    # (x), (xiii)
    def c_read_plan(self, data): return module("plan").enter(self, self.layout, data)
    def c_write_plan(self, r, room): return module("plan").book_write(self.layout, self.byref, r)
    def c_to_older(self, data, room): return module("plan").book_to_older(self.layout, data)
    def c_from_older(self, data, room): return module("plan").book_from_older(self.layout, data)

    # room: an array's capacity, a map's entry capacity; index: a map's index length
    def roomy(self, p):
        if p.kind == "array":
            p.room = len(p.items)
        elif p.kind == "map":
            p.room, p.index = len(p.places), 0
            self.indexed(p)

    @staticmethod
    def indexed(p):
        """On becoming hashed."""
        if not p.packed and p.index == 0:
            p.index = 8
            while p.index < 2 * sum(e[4] for e in p.places):
                p.index += p.index

    # allocations
    def c_box(self, w): return self.add("box", word=w)
    def c_weak(self, w): return self.add("weak", word=w)
    def c_string(self, d): return self.add("string", data=bytes(d))
    def c_integer(self, i): return self.add("integer", n=i if i < 1 << 63 else i - (1 << 64))
    def c_cell(self, t, w): return self.add("cell", t=t, word=w)
    def c_error(self, k, w): return self.add("error", code=k, word=w)
    def c_array(self, t, n): return self.add("array", t=t, items=[0] * n)
    def c_struct(self, ty, ws): return self.add("struct", ty=ty, items=list(ws))
    def c_func(self, imp, num, ws): return self.add("function", imp=int(imp != 0), num=num, items=list(ws))

    def c_map(self, kt, vt):
        return self.add("map", kt=kt, vt=vt, packed=True, noted=None, places=[], nseq=0, epoch=0)

    def c_iter(self, src):
        s = self.byref[src]
        return self.add("iterator", src=src, kt=s.kt if s.kind == "map" else 0, ended=False, key=None,
                        cursor=(None, 0, 0) if s.kind == "map" else 0)

    def c_coro(self, st, seq, a, b, c, d, regs, frames):
        return self.add("coroutine", state=st, seq=seq, fin=False, four=[a, b, c, d], items=list(regs),
                        frames=[tuple(x) for x in frames])

    # stores
    def c_array_store(self, r, i, w):
        it = self.byref[r].items
        if i < len(it):
            it[i] = w

    def c_push(self, r, w):
        p = self.byref[r]
        if len(p.items) >= p.room:
            p.room = 4 if p.room < 2 else p.room + p.room
        p.items += [self.value(w) if p.t == 2 else w]

    def c_pop(self, r):
        p = self.byref[r]
        w, p.items = p.items[-1], p.items[:-1]
        return self.value(w) if p.t == 2 else w

    def c_box_store(self, r, w): self.byref[r].word = w
    c_cell_store = c_weak_store = c_box_store
    def c_field_store(self, r, i, w): self.byref[r].items[i] = w
    c_capture_store = c_register_store = c_field_store
    def c_state_set(self, r, s): self.byref[r].state = s
    def c_coro_store(self, r, i, w): self.byref[r].four[i] = w

    # maps: a place is [hash, key, value, sequence, live]
    def where(self, p, h, key):
        if p.packed:
            return key if p.kt == 0 and key < len(p.places) else None
        return next((i for i, e in enumerate(p.places) if e[4] and (e[0], e[1]) == (h, key)), None)

    def c_insert(self, r, h, key, v):
        p = self.byref[r]
        if p.kt != 0 or key != len(p.places):
            p.packed = False
        self.indexed(p)
        p.room = p.room if len(p.places) < p.room else 4 if p.room < 2 else p.room + p.room
        p.places.append([h, key, v, p.nseq, True])
        if not p.packed and p.index < 2 * sum(e[4] for e in p.places):
            p.index += p.index
        p.nseq += 1

    def c_put(self, r, h, key, v):
        at = self.where(self.byref[r], h, key)
        if at is None:
            self.c_insert(r, h, key, v)
        else:
            self.byref[r].places[at][2] = v
        if "v" in FEATURES and self.byref[r].kt == 0:
            self.c_note(r, key)

    def c_set_value(self, r, at, v):
        pl = self.byref[r].places
        if at < len(pl):
            pl[at][2] = v

    def c_remove_at(self, r, at):
        p = self.byref[r]
        p.packed = False
        self.indexed(p)
        if at < len(p.places):
            if p.places[at][4]:
                p.places[at][4] = False
                live = sum(e[4] for e in p.places)
                dead = len(p.places) - live
                if dead >= 17 and dead > live:
                    p.places = [e for e in p.places if e[4]]
                    p.epoch = (p.epoch + 1) & 0xFFFFFFFF

    def c_remove(self, r, h, key):
        at = self.where(self.byref[r], h, key)
        if at is not None:
            self.c_remove_at(r, at)

    def c_note(self, r, k):
        p = self.byref[r]
        k = k if k < 1 << 63 else k - (1 << 64)
        p.noted = k if p.noted is None else max(p.noted, k)

    # iterator's step
    def c_iter_next(self, r):
        p = self.byref[r]
        s = self.byref.get(p.src)
        if p.ended:
            return (0, 0)
        if s is None:
            pass                      # its source was freed by a cycle: it ends
        elif s.kind == "array":
            if p.cursor < len(s.items):
                v, p.key, dyn = s.items[p.cursor], p.cursor, s.t == 2
                p.cursor += 1
                return (self.value(v) if dyn else v, 1)
        else:
            last, pos, ep = p.cursor
            lo = 0 if last is None else pos
            ahead = [i for i, e in enumerate(s.places) if e[4] and
                     (i >= lo if last is None or ep == s.epoch else e[3] > last)]
            if ahead:
                e = s.places[ahead[0]]
                p.key, p.cursor = e[1], (e[3], ahead[0] + 1, s.epoch)
                return (self.value(e[2]) if s.vt == 2 else e[2], 1)
        p.ended = True
        return (0, 0)

    # readings: what the page says, never what the heap says (capacities and
    # the index length are on no page); a tuple is the answer and its extras
    def c_get(self, w):
        if w in self.byref:
            return self.ROW[self.byref[w].kind]
        return 15 if "i" in FEATURES and w >> 48 == 1 else 0

    def c_kind(self, w):
        if w >> 48 == 1:
            n = self.c_get(w)
            return 16 if n == 12 else n
        return {"nil": 0, "integer": 2, "truth": 12, "float": 13, "character": 14}[self.reading(w)[0]]

    ROW = dict(string=1, integer=2, cell=3, error=4, box=5, array=6, map=7, struct=8, function=9, iterator=10, coroutine=11, weak=12)

    def c_age(self, r): return self.byref[r].age

    def c_weak_read(self, r):
        w = self.byref[r].word
        return 0 if w >> 48 == 1 and w not in self.byref else w

    # words, by Python's own floats and characters
    @staticmethod
    def shown(c):
        """Is the number a Unicode scalar value?"""
        try:
            return bool(chr(c).encode("utf-8"))
        except (ValueError, OverflowError):
            return False

    def reading(self, w):
        if w >= 0xFFFE << 48:
            return ("integer", (w + (1 << 48)) % (1 << 49) - (1 << 48))
        if w >= 1 << 49:
            return ("float", _st.unpack("<d", _st.pack("<Q", w - (1 << 49)))[0])
        if w >> 48:
            return ("reference", w % (1 << 48))
        top, low = divmod(w, 1 << 32)
        if top == 1:
            return ("truth", low != 0)
        if top == 2 and ("iii" not in FEATURES or self.shown(low)):
            return ("character", low)
        return ("nil", None)

    def c_w_char(self, q): return (2 << 32) + q % (1 << 32)
    def c_w_truth(self, b): return (1 << 32) + (b != 0)
    def c_w_ref(self, slot, tag): return (1 << 48) + tag % (1 << 16) * (1 << 32) + slot % (1 << 32)

    def c_w_int(self, q):
        n = q - (q >> 63 << 64)
        return ((0xFFFE << 48) + n % (1 << 49), 1) if abs(2 * n + 1) < 1 << 49 else (0, 0)

    def c_w_float(self, bits):
        x = _st.unpack("<d", _st.pack("<Q", bits))[0]
        return 0x7FFA << 48 if x != x else bits + (1 << 49)

    def c_w_read(self, w):
        k, v = self.reading(w)
        if k == "float":
            v = 0x7FF8 << 48 if v != v else _st.unpack("<Q", _st.pack("<d", v))[0]
        return ((int(v) if v is not None else 0) % (1 << 64), ["nil", "truth", "integer", "float", "character", "reference"].index(k))

    def c_w_same_number(self, a, b):
        a, b = self.reading(a), self.reading(b)
        return int(a[0] == b[0] and a[1] == b[1])

    def c_w_same(self, a, b):
        if "vii" not in FEATURES:
            return self.c_w_same_number(a, b)
        x, y = self.reading(a), self.reading(b)
        if x[0] == y[0] == "float":
            if x[1] != x[1] or y[1] != y[1]:
                return int(x[1] != x[1] and y[1] != y[1])
            return int(str(x[1]) == str(y[1]))            # "0.0", "-0.0"; otherwise one text a number
        return int(x == y)

    def c_deref(self, w): return self.value(w)
    def c_box_read(self, r): return self.byref[r].word
    c_cell_read = c_error_word = c_box_read
    def c_cell_type(self, r): return self.byref[r].t
    c_array_type = c_cell_type
    def c_error_kind(self, r): return self.byref[r].code
    def c_integer_read(self, r): return self.byref[r].n % (1 << 64)
    def c_string_len(self, r): return len(self.byref[r].data)
    def c_array_len(self, r): return len(self.byref[r].items)
    c_struct_len = c_func_len = c_array_len
    def c_array_read(self, r, i): return self.byref[r].items[i]
    c_field_read = c_capture_read = c_register_read = c_array_read
    def c_struct_type(self, r): return self.byref[r].ty
    def c_func_number(self, r): return (self.byref[r].num, self.byref[r].imp)
    def c_state_read(self, r): return self.byref[r].state

    def c_coro_read(self, r, which):
        p = self.byref[r]
        return p.four[which] if which < 4 else {4: p.seq, 5: int(p.fin), 6: len(p.items), 7: len(p.frames)}[which]

    def c_frame(self, r, i):
        f = self.byref[r].frames[i]
        return (f[0], f[1], f[2], "%016X" % f[3])

    def c_key_type(self, r): return self.byref[r].kt
    c_iter_key_type = c_key_type
    def c_value_type(self, r): return self.byref[r].vt
    def c_map_epoch(self, r): return self.byref[r].epoch
    def c_map_next_seq(self, r): return self.byref[r].nseq
    def c_map_mode(self, r): return int(not self.byref[r].packed)
    def c_map_places(self, r): return len(self.byref[r].places)
    def c_map_len(self, r): return sum(e[4] for e in self.byref[r].places)

    def c_map_noted(self, r):
        k = self.byref[r].noted
        return (0, 0) if k is None else (k % (1 << 64), 1)

    def c_next_key(self, r):
        k = self.byref[r].noted
        return (0, 0) if k is None else (0, 1) if k + 1 == 1 << 63 else ((k + 1) % (1 << 64), 0)

    def c_entry(self, r, i):
        e = self.byref[r].places[i]
        return (e[2], "%016X" % e[0], "%016X" % e[1], e[3], int(e[4]))

    def c_find(self, r, h, key):
        at = self.where(self.byref[r], h, key)
        return (0, 0) if at is None else (at, 1)

    def c_iter_source(self, r): return self.byref[r].src
    def c_iter_ended(self, r): return int(self.byref[r].ended)

    def c_iter_key(self, r):
        k = self.byref[r].key
        return (0, 0) if k is None else (k, 1)

    def c_iter_cursor(self, r):
        c = self.byref[r].cursor
        s = self.byref.get(self.byref[r].src)
        if s is not None and s.kind == "array":
            return (c, 6)
        if isinstance(c, int):        # its source, an array, was freed by a cycle
            return (c, 7, 0, 0, 0)
        return (c[1], 7, 0, 0, c[2]) if c[0] is None else (c[1], 7, 1, c[0], c[2])

    # collection: fixed points over sets of references
    def holds(self, p):
        k = p.kind
        if k in ("error", "box") or k == "cell" and p.t != 0:
            return {p.word}
        if k == "array" and p.t != 0:
            return set(p.items)
        if k == "map":
            return {w for e in p.places if e[4] for w, t in ((e[1], p.kt), (e[2], p.vt)) if t != 0}
        if k == "struct" and p.ty < len(self.fields):
            return {w for i, w in enumerate(p.items) if i in self.fields[p.ty]}
        if k == "function" and not p.imp and p.num < len(self.caps):
            return {w for i, w in enumerate(p.items) if i < len(self.caps[p.num]) and self.caps[p.num][i] != 0}
        if k == "iterator":
            return {p.src} | ({p.key} if p.kt != 0 and p.key is not None else set())
        if k == "coroutine":
            h = set(p.four)
            for fn, _c, base, clo in p.frames:
                h.add(clo)
                if fn < len(self.regs):
                    h |= {w for i, w in enumerate(p.items) if i - base in self.regs[fn]}
            return h
        return set()

    def closure(self, start):
        kept = {w for w in start if w in self.byref}
        new = kept
        while new:
            new = {w for r in new for w in self.holds(self.byref[r]) if w in self.byref} - kept
            kept = kept | new
        return kept

    def c_collect(self, roots, places):
        r = self.closure(roots)
        f = [p for p in self.byref.values() if p.kind == "coroutine" and p.state in (2, 3) and not p.fin
             and p.ref not in r]
        kept = self.closure(r | {p.ref for p in f})
        for p in f:
            p.fin = True
        return (self.weed(kept), [p.ref for p in sorted(f, key=lambda p: (p.seq, p.ref))])

    def weed(self, kept):
        """A collection's step for a kept set of references; the number freed."""
        gone = sorted((p for p in self.byref.values() if p.ref not in kept), key=lambda p: p.slot)
        for p in gone:
            p.out = True
            del self.byref[p.ref]
            if self.of_slot[p.slot] - 1 != 32767:
                self.pile.append(p.slot)
        out = {p.ref for p in gone}
        for p in self.byref.values():
            if p.age < 255:
                p.age += 1
            if p.kind == "weak" and p.word in out:
                p.word = 0
        self.used = min(M64, sum(self.weights[0] + self.size(p)[0] for p in self.byref.values()))
        self.since, self.threshold = 0, max(self.used, 262144)
        self.weedings += 1
        return len(gone)

    # (vi), (viii)
    def size(self, p):
        """(bytes beyond the slot weight, cells)"""
        _slot, entry, iterator, coroutine, frame = self.weights
        k = p.kind
        if k == "string":
            return len(p.data), -(-len(p.data) // 8)
        if k == "array":
            return 8 * p.room, p.room
        if k == "map":
            return entry * p.room + 4 * p.index, 5 * p.room + p.index // 2
        if k in ("struct", "function"):
            return 8 * len(p.items), len(p.items)
        if k == "iterator":
            return iterator, 0
        if k == "coroutine":
            return coroutine + 8 * len(p.items) + frame * len(p.frames), len(p.items) + 4 * len(p.frames)
        return 0, 0

    def c_cells(self): return sum(self.size(p)[1] for p in self.byref.values())

    def sheet(self):
        kinds = sorted(self.ROW, key=self.ROW.get)[:12 if "xii" in FEATURES else 11]
        lines = []
        for name in kinds + ["total"]:
            ps = [p for p in self.byref.values() if name in (p.kind, "total")]
            line = [" "] * 72 + ["\n"]

            def right(text, last):    # columns count from 1
                line[last - len(text):last] = text
            line[:len(name)] = name
            right(str(len(ps)), 24)
            right(str(sum(self.weights[0] + self.size(p)[0] for p in ps)), 44)
            right(str(sum(self.size(p)[1] for p in ps)), 56)
            if "viii" in FEATURES:
                right(str(max([p.age for p in ps], default=0)), 60)
            lines.append("".join(line))
        return "".join(lines).encode()

    def c_census(self, room): return self.sheet()

    # ---- which refusal is due, 0 if none; 9 is not judged here
    READS = {"array": "array_len array_read array_type array_cap", "box": "box_read", "cell": "cell_read cell_type", "struct": "field_read struct_type struct_len",
             "function": "capture_read func_number func_len", "coroutine": "register_read state_read coro_read frame", "error": "error_kind error_word",
             "integer": "integer_read", "string": "string_len string_read", "weak": "weak_read",
             "map": "find entry map_len map_mode next_key next growth map_places key_type value_type map_epoch map_next_seq map_noted map_cap map_index_len",
             "iterator": "iter_key iter_source iter_key_type iter_ended iter_cursor"}
    WRITES = {"array": "array_store push pop", "box": "box_store", "cell": "cell_store", "struct": "field_store", "function": "capture_store",
              "coroutine": "register_store coro_store", "map": "put remove set_value remove_at note insert", "iterator": "iter_next", "weak": "weak_store"}
    WANTS = {n: (k, need) for table, need in ((READS, 1), (WRITES, 2)) for k, names in table.items() for n in names.split()}
    WANTS.update(state_set=("coroutine", 0), iter=("array map", 1), age=("", 1), holder=("", 0), write_plan=("", 1))

    def allowed(self, ref, need):
        if "ix" not in FEATURES:
            return True
        o = self.byref[ref].owner
        return o == self.zone or self.rights[self.zone * 16 + o] >= need

    def hidden(self, w):
        """Does the word reach an object that the zone may not read?"""
        return w in self.byref and not self.allowed(w, 1)

    def due(self, name, a):
        if name == "open":
            well = re.fullmatch(rb"(?:\x01(?:\x02..)*|\x03(?:\x04..|\x05[\x00-\x02])*)*\x00", a[8], re.S)
            if well:                          # so no operand byte is taken for a command
                c = re.sub(rb"(\x01|\x03)|\x02..|\x04..|\x05.", lambda m: m.group(1) or b"", a[8], flags=re.S)
                well = c.count(1) <= 256 and c.count(3) <= 256
            good = well and a[0] in range(1, 65537) and a[1] in range(1048577) and all(w in range(1, 4097) for w in a[3:8])
            return 0 if good and ("ix" not in FEATURES or len(a[9]) == 256 and not set(a[9]) - {0, 1, 2}) else 10
        if name == "root":
            return 4 if self.roots >= 64 else 0
        return self.earned(name, a) or self.load(name, a)

    def earned(self, name, a):
        """By the script, or of the lent memory or plan."""
        if name == "zone":
            return 0
        if name == "w_char":
            return 12 if "iii" in FEATURES and not self.shown(a[0] % (1 << 32)) else 0
        if name[:2] == "w_":
            return 0
        if "ix" in FEATURES:
            if self.zone >= 16:
                return 4
            if self.zone > 0 and name in ("collect", "begin", "turn", "census", "holder", "state_set"):
                return 14
        if name in ("get", "kind"):
            return 14 if self.hidden(a[0]) else 0
        if name == "deref":
            return 14 if self.hidden(a[0]) and self.byref[a[0]].kind == "box" else 0
        if name in ("begin", "collect") and self.cyc is not None or name == "turn" and self.cyc is None:
            return 13
        types = {"array": a[:1], "map": a[:2], "cell": a[:1]}.get(name, [])
        if max(types, default=0) > 2 or name == "coro" and a[0] > 4 or name == "state_set" and a[1] > 4:
            return 4
        if name in self.WANTS:
            kinds, need = self.WANTS[name]
            if a[0] not in self.byref:
                k = self.reading(a[0])[0]
                return 1 if k == "nil" else 2 if k != "reference" else 11 if "i" in FEATURES else 1
            if not self.allowed(a[0], need):
                return 14
            p = self.byref[a[0]]
            if name == "write_plan":
                return self.due_plan(a[0], a[1])
            if kinds and p.kind not in kinds.split():
                return 2
            if name in ("iter_next", "iter_cursor") and self.hidden(p.src):
                return 14
            if name == "push" and p.t == 2 and a[1] >> 47 == 3 and self.hidden(a[1]):
                return 14
            if name == "pop":
                if not p.items:
                    return 3
                if p.t == 2 and p.items[-1] >> 47 == 3 and self.hidden(p.items[-1]):
                    return 14
            if name == "iter_next" and self.item(p) >> 47 == 3 and self.hidden(self.item(p)):
                return 14
        if name == "array" and a[1] >> 63:
            return 3
        if name in ("array_read", "field_read", "field_store", "capture_read", "capture_store", "register_read", "register_store") and a[1] >= len(p.items) \
                or name == "frame" and a[1] >= len(p.frames) or name == "entry" and a[1] >= len(p.places):
            return 3
        if name == "string_read" and a[1] < len(p.data) or name == "census" and a[0] < len(self.sheet()):
            return 8
        if name == "collect":
            r = self.closure(a[0])
            return 8 if a[1] < sum(p.kind == "coroutine" and p.state in (2, 3) and not p.fin and p.ref not in r for p in self.byref.values()) else 0
        if name == "holder":
            return 8 if a[2] < len(self.chain(a[0], a[1])[2]) else 0
        if name == "turn" and not self.cyc.left() and a[1] < len(self.cyc.rescued):
            return 8
        if name in ("to_older", "read_plan") and "xii" not in FEATURES and module("plan").accepts(self.layout, a[0]) \
                and any(k == "weak" for k, _ in module("plan").pages(self.layout, a[0])):
            return 16
        if name in ("to_older", "from_older"):
            said = getattr(module("plan"), "book_" + name)(self.layout, a[0])
            return said if isinstance(said, int) else 15 if len(said) > a[1] else 0
        if name == "read_plan":
            return 0 if module("plan").accepts(self.layout, a[0]) else 16
        return 0

    # (xiv), from the object backwards: how many links each page is away from it
    def chain(self, ref, roots):
        """(0 root, 1 rescue, 2 unheld; position; references)"""
        links = {r: {w for w in self.holds(p) if w in self.byref} for r, p in self.byref.items()}
        away, n = {ref: 0}, 0
        while True:
            n += 1
            new = [r for r in links if r not in away and any(away.get(w) == n - 1 for w in links[r])]
            if not new:
                break
            away.update((r, n) for r in new)
        held = [(away[w], i, w) for i, w in enumerate(roots) if w in away]
        which, at = 0, 0
        if held:
            _, at, w = min(held)
        else:
            r = self.closure(roots)
            f = [(away[p.ref], p.seq, p.ref) for p in self.byref.values()
                 if p.kind == "coroutine" and p.state in (2, 3) and not p.fin and p.ref not in r and p.ref in away]
            if not f:
                return 2, 0, []
            which, w = 1, min(f)[2]
        out = [w]
        while out[-1] != ref:
            out.append(min((x for x in links[out[-1]] if away.get(x, -1) == away[out[-1]] - 1), key=lambda x: x % (1 << 32)))
        return which, at, out

    def c_holder(self, ref, roots, places):
        which, at, c = self.chain(ref, roots)
        return (at, which, len(c)) + tuple("%016X" % w for w in c) + tuple("%016X" % (0xAAAAAAAAAAAA0000 + i) for i in range(len(c), places))

    def item(self, it):
        """The word an iterator's next step would see through; 0 if none."""
        s = self.byref.get(it.src)
        if it.ended or s is None:
            return 0
        if s.kind == "array":
            return s.items[it.cursor] if s.t == 2 and it.cursor < len(s.items) else 0
        last, pos, ep = it.cursor
        ahead = [e for i, e in enumerate(s.places) if e[4] and (last is None or (i >= pos if ep == s.epoch else e[3] > last))]
        return ahead[0][2] if ahead and s.vt == 2 else 0

    def due_plan(self, ref, room):
        """Of the writer, its reference once good: 14, 2, 15."""
        whole = self.closure([ref])
        if any(self.hidden(r) for r in whole):
            return 14
        if any(self.byref[r].kind in ("iterator", "coroutine") for r in whole):
            return 2
        return 15 if room < len(module("plan").book_write(self.layout, self.byref, ref)) else 0

    def freed(self):
        return len(self.book) - len(self.byref)

    def page(self, p):
        return self.written(p) + (("age", p.age) if "viii" in FEATURES else ()) + (("owner", p.owner) if "ix" in FEATURES else ())

    def written(self, p):
        k = p.kind
        if k == "string":
            return (k, p.data)
        if k == "integer":
            return (k, p.n)
        if k == "cell":
            return (k, p.t, p.word)
        if k == "error":
            return (k, p.code, p.word)
        if k in ("box", "weak"):
            return (k, p.word)
        if k == "array":
            return (k, p.t, p.items)
        if k == "map":
            return (k, p.kt, p.vt, not p.packed, p.noted, p.places, p.nseq, p.epoch)
        if k == "struct":
            return (k, p.ty, p.items)
        if k == "function":
            return (k, p.imp, p.num, p.items)
        if k == "iterator":
            return (k, p.src, p.kt, p.ended, p.cursor, p.key)
        return (k, p.state, p.fin, p.seq, p.four, p.items, p.frames)

    def compare(self, heap):
        """None, or what differs from the heap's model."""
        mine = {r: self.page(p) for r, p in self.byref.items()}
        theirs = heap.pages()
        if mine != theirs:
            for r in sorted(set(mine) | set(theirs)):
                if mine.get(r) != theirs.get(r):
                    return "page %x: book %r, heap %r" % (r, mine.get(r), theirs.get(r))
        if self.pile != heap.pile:
            return "pile: book %r, heap %r" % (self.pile, heap.pile)
        if self.freed() != heap.freed or len(mine) != heap.present():
            return "counts"
        if self.cyc is not None:
            return self.cyc.differs(heap)
        return "cycle: open in the heap, not in the book" if heap.cycle is not None else None


# ------------------------------------------------------------- scripts ------
# operands: b u8, h u16, q u64, W u64 count + words, S u64 count + bytes,
# F u64 count + frames of four words; c a byte 0 to 7, d a byte 0 to 3 (which
# coroutine word; another byte is a missing operand)
SPEC_01 = {
    0x00: ("open", "qqqqqqqqS"), 0x01: ("box", "q"), 0x02: ("array", "bq"), 0x03: ("map", "bb"),
    0x04: ("string", "S"), 0x05: ("integer", "q"), 0x06: ("box_read", "q"), 0x07: ("cell", "bq"),
    0x08: ("error", "hq"), 0x09: ("struct", "qW"), 0x0A: ("func", "bqW"), 0x0B: ("root", "q"),
    0x0C: ("collect_roots", ""), 0x0D: ("iter", "q"), 0x0E: ("coro", "bqqqqqWF"), 0x0F: ("collect", "Wq"),
    0x10: ("array_len", "q"), 0x11: ("array_read", "qq"), 0x12: ("array_store", "qqq"), 0x13: ("push", "qq"),
    0x14: ("pop", "q"), 0x15: ("box_store", "qq"), 0x16: ("cell_read", "q"), 0x17: ("cell_store", "qq"),
    0x18: ("field_read", "qq"), 0x19: ("field_store", "qqq"), 0x1A: ("capture_read", "qq"),
    0x1B: ("capture_store", "qqq"), 0x1C: ("register_read", "qq"), 0x1D: ("register_store", "qqq"),
    0x1E: ("state_read", "q"), 0x1F: ("state_set", "qb"), 0x20: ("coro_read", "qc"), 0x21: ("coro_store", "qdq"),
    0x22: ("error_kind", "q"), 0x23: ("error_word", "q"), 0x24: ("integer_read", "q"), 0x25: ("string_len", "q"),
    0x26: ("string_read", "qq"), 0x27: ("get", "q"), 0x28: ("deref", "q"), 0x29: ("struct_type", "q"),
    0x2A: ("struct_len", "q"), 0x2B: ("func_number", "q"), 0x2C: ("func_len", "q"),
    0x2D: ("array_type", "q"), 0x2E: ("array_cap", "q"), 0x2F: ("cell_type", "q"),
    0x30: ("put", "qqqq"), 0x31: ("find", "qqq"), 0x32: ("remove", "qqq"), 0x33: ("entry", "qq"),
    0x34: ("set_value", "qqq"), 0x35: ("remove_at", "qq"), 0x36: ("map_len", "q"), 0x37: ("map_mode", "q"),
    0x38: ("note", "qq"), 0x39: ("next_key", "q"), 0x3A: ("next", "qbqqq"), 0x3B: ("insert", "qqqq"),
    0x3C: ("growth", "qq"), 0x3D: ("map_places", "q"), 0x3E: ("key_type", "q"), 0x3F: ("value_type", "q"),
    0x40: ("iter_next", "q"), 0x41: ("iter_key", "q"), 0x42: ("iter_source", "q"), 0x43: ("iter_key_type", "q"),
    0x44: ("iter_ended", "q"), 0x45: ("iter_cursor", "q"),
    0x48: ("map_epoch", "q"), 0x49: ("map_next_seq", "q"), 0x4A: ("map_noted", "q"), 0x4B: ("map_cap", "q"),
    0x4C: ("map_index_len", "q"), 0x4D: ("frame", "qq"), 0x4E: ("kind", "q"),
    0x50: ("charge", "q"), 0x51: ("wants_gc", "q"), 0x52: ("fits", "q"), 0x53: ("collections", ""),
    0x54: ("freed", ""), 0x55: ("present", ""), 0x56: ("cells", ""),
    0x60: ("w_truth", "b"), 0x61: ("w_char", "q"), 0x62: ("w_float", "q"), 0x63: ("w_int", "q"),
    0x64: ("w_ref", "qq"), 0x65: ("w_read", "q"), 0x66: ("w_same", "qq"),
}
SPEC_02 = [
    ("iv", 0x70, "begin", "W"), ("iv", 0x71, "turn", "qq"), ("vi", 0x72, "census", "q"), ("vii", 0x67, "w_same_number", "qq"),
    ("viii", 0x73, "age", "q"), ("ix", 0x74, "zone", "b"), ("ix", 0x00, "open", "qqqqqqqqSS"),
    ("x", 0x75, "write_plan", "qq"), ("x", 0x76, "read_plan", "S"),
    ("xii", 0x77, "weak", "q"), ("xii", 0x78, "weak_read", "q"), ("xii", 0x79, "weak_store", "qq"),
    ("xiii", 0x7A, "to_older", "Sq"), ("xiii", 0x7B, "from_older", "Sq"), ("xiv", 0x7C, "holder", "qWq"),
]
SPEC, BY_NAME = {}, {}                        # those in force
set_features(next((x[7:] for x in sys.argv if x.startswith("--with=")), os.environ.get("FEATURES", LANDED)))
CALLSHEET = (0x01, 0x02, 0x06, 0x0B, 0x0C)
LIST_FILL = 0xAAAAAAAAAAAA0000
OPEN_CALLSHEET = (256, 2048, 1048576, 64, 40, 80, 160, 32, b"\0")
NO_RIGHTS = bytes(256)                        # (ix) of the heap opened before the first command


def encode(name, *args):
    c, spec = BY_NAME[name]
    out = bytearray([c])
    for s, a in zip(spec, args):
        if s in "bcd":
            out.append(a)
        elif s == "h":
            out += _st.pack("<H", a)
        elif s == "q":
            out += _st.pack("<Q", a & M64)
        elif s == "S":
            out += _st.pack("<Q", len(a)) + bytes(a)
        else:
            out += _st.pack("<Q", len(a))
            for w in a:
                out += _st.pack("<Q", w) if s == "W" else _st.pack("<4Q", *w)
    return bytes(out)


class Missing(Exception):
    pass


def decode_args(data, at, spec):
    args = []

    def take(n):
        nonlocal at
        if at + n > len(data):
            raise Missing
        at += n
        return data[at - n:at]

    for s in spec:
        if s in "bcd":
            args.append(take(1)[0])
            if args[-1] > {"b": 255, "c": 7, "d": 3}[s]:
                raise Missing
        elif s == "h":
            args.append(_st.unpack("<H", take(2))[0])
        elif s == "q":
            args.append(_st.unpack("<Q", take(8))[0])
        else:
            n = _st.unpack("<Q", take(8))[0]
            size = {"S": 1, "W": 8, "F": 32}[s]
            if n > len(data):
                raise Missing
            raw = take(n * size)
            if s == "S":
                args.append(raw)
            elif s == "W":
                args.append(list(_st.unpack("<%dQ" % n, raw)))
            else:
                args.append([_st.unpack_from("<4Q", raw, 32 * i) for i in range(n)])
    return args, at


class Bug(Exception):
    pass


def text(lines):
    """What a program prints: every line ends with a newline, nothing more."""
    return "".join(x + "\n" for x in lines)


def listed(words, places):
    """A lent list after the call."""
    return ["%016X" % w for w in list(words) + [LIST_FILL + i for i in range(len(words), places)]]


def written(data, room):
    """Length, and a lent buffer after the call."""
    return len(data), [(data + b"\xEE" * (room - len(data))).hex().upper() or "-"]


def dead_or_nil(f):
    """Without (i), 1 for 11."""
    try:
        return f()
    except Refuse as r:
        raise Refuse(1 if r.n == 11 and not on("i") else r.n)


class Runner:
    def __init__(self, check=True, state=False, dump=False):
        self.check, self.state, self.dumping = check, state, dump
        self.lines = []
        self.heap = None
        self.last = None              # (refusal, word, extras)
        self.log = []                 # (name, arguments, refusal, word, extras, used, digest of the base's dump or None)
        self.open(*OPEN_CALLSHEET, NO_RIGHTS)

    def open(self, *a):
        self.heap = Heap(a[0], a[1], a[2], a[3:8], *a[8:10])     # may refuse 10
        self.book = Book(*a[:3], a[3:8], *a[8:10])
        self.roots = []
        self.zone = 0

    def call(self, name, *args):
        """Executes one call and appends its line."""
        cmd = BY_NAME[name][0]
        extra = []
        word = 0
        ref = 0
        bname, bargs = name, list(args)
        if name == "collect_roots":
            bname, bargs = "collect", [list(self.roots), 65536]
        kept = None
        if self.check:
            due = self.book.due(bname, bargs)
            if on("ix"):
                self.secrecy(name, args)
                kept = self.unwritable(name)
        try:
            word, extra = self.do(name, args)
        except Refuse as r:
            ref = r.n
            word = 0
            extra = self.lent(name, args)
        self.last = (ref, word, extra)
        line = "%02X %d %016X %d" % (cmd, ref, word, self.heap.used)
        if extra:
            line += " " + " ".join(extra)
        if self.check:
            if due != ref and ref != 9:
                raise Bug("book says refusal %d of line %s" % (due, line))
            said = self.book.feed(bname, bargs, ref != 0)
            if said is not None and ref == 0:
                if bname == "turn":
                    ok = said[0] == word and extra[:3] == [str(int(said[1])), str(said[2]), str(len(said[3]))] and \
                        extra[3:3 + len(said[3])] == ["%016X" % w for w in said[3]]
                elif isinstance(said, bytes):
                    ok = len(said) == word and extra[0] == (said + b"\xEE" * (bargs[-1] - len(said))).hex().upper() or "-" == extra[0] and not said
                elif bname == "collect":
                    ok = said[0] == word and ["%016X" % w for w in said[1]] == (extra if name == "collect_roots" else extra[:len(said[1])])
                elif isinstance(said, tuple):
                    ok = said[0] == word and extra == [str(x) for x in said[1:]]
                else:
                    ok = said == word
                if not ok:
                    raise Bug("book says %r of line %s" % (said, line))
            if kept is not None:
                self.integrity(name, kept, line)
            if self.book.used != self.heap.used or self.book.since != self.heap.since:
                raise Bug("book has used %d, since %d after line %s" % (self.book.used, self.book.since, line))
            d = self.book.compare(self.heap)
            if d:
                raise Bug("after %s: %s" % (line, d))
            self.invariants()
            if on("xi") and bname == "collect" and ref == 0:
                self.twice(bargs[0], extra if name == "collect_roots" else extra[:len(said[1])])
        crc = None
        if self.state:
            crc = zlib.crc32(self.heap.dump().encode())
            line += " #%08x" % crc
            if FEATURES:
                crc = zlib.crc32(self.heap.dump(True).encode())
        self.log.append((name, args, ref, word, extra, self.heap.used, crc))
        self.lines.append(line)
        if self.dumping:
            self.lines.append(self.heap.dump())
        return self.last

    def invariants(self):
        h = self.heap
        if h.cells != sum(h.cells_of(s[2]) for s in h.slots if s[2] is not None) or h.cells > h.ncells:
            raise Bug("cells")

    def twice(self, roots, listed):
        """(xi) Weeding again with the listed coroutines added to the roots."""
        h = copy.deepcopy(self.heap)
        n, f = h.collect(roots + [int(w, 16) for w in listed], 0)
        for i, (s, old) in enumerate(zip(h.slots, self.heap.slots)):
            if s[2] is not None and s[3] != min(old[3] + 1, 255):
                raise Bug("twice: age of slot %d" % i)
            s[3] = old[3]
        h.collections -= 1
        if n or f or h.dump() != self.heap.dump() or [s[:2] + s[3:] for s in h.slots] != [s[:2] + s[3:] for s in self.heap.slots]:
            raise Bug("weeding twice: freed %d, listed %d" % (n, len(f)))

    def unwritable(self, name):
        """(ix) What the zone may not write, before a call: {reference: contents}."""
        h, z = self.heap, self.zone
        if z > 15 or len(h.slots) > 400 or not heap_call(name) or zlib.crc32(repr((name, len(self.log))).encode()) % 3:
            return None
        may = {word_ref(i, s[0] | s[1]) for i, s in enumerate(h.slots) if s[2] is not None and (s[4] == z or h.rights[16 * z + s[4]] == 2)}
        return {r: repr(self.plain(p)) for r, p in h.pages().items() if r not in may}

    @staticmethod
    def plain(p):
        """A page without what collections and zone 0's state settings may change: age, state,
        finalized; a weak box's word."""
        p = p[:-2]                            # owner
        if on("viii"):
            p = p[:-2]
        return ("coroutine",) + p[3:] if p[0] == "coroutine" else p[:1] if p[0] == "weak" else p

    def integrity(self, name, kept, line):
        """A zone with no right to write does not alter the contents of another's object."""
        now = self.heap.pages()
        for r, p in kept.items():
            if r not in now and name not in ("collect", "collect_roots", "turn") or r in now and repr(self.plain(now[r])) != p:
                raise Bug("zone %d altered %x, which it may not write: %s" % (self.zone, r, line))

    def secrecy(self, name, args):
        """(ix) A zone's answer and refusal in a heap that differs in the contents
        (and kinds) of objects it may not read: the same."""
        h = self.heap
        z = self.zone
        if not 1 <= z <= 15 or not heap_call(name) or h.cycle is not None or len(h.slots) > 400:
            return
        hide = [i for i, s in enumerate(h.slots) if s[2] is not None and s[4] != z and h.rights[16 * z + s[4]] == 0]
        if not hide or zlib.crc32(repr((name, args, len(self.log))).encode()) % 4:
            return
        a, b = copy.copy(self), copy.copy(self)
        a.heap, b.heap = copy.deepcopy(h), copy.deepcopy(h)
        for i in hide:
            s = b.heap.slots[i]
            if s[2].k == BOX:
                s[2].word ^= 5
            else:
                s[2] = O(STR, data=b"other") if s[2].k != STR else O(CELL, t=2, word=1 << 48)
        out = []
        for r in (a, b):
            try:
                out.append((0,) + tuple(r.do(name, args)) + (r.heap.used, r.heap.cells, r.heap.pile))
            except Refuse as e:
                out.append(e.n)
        if out[0] != out[1]:
            raise Bug("zone %d learns of what it may not read: %s %r: %r, %r" % (z, name, args, out[0], out[1]))

    def lent(self, name, args):
        if name in ("collect", "turn", "holder"):
            return ["%016X" % (LIST_FILL + i) for i in range(args[-1])]
        if name in ("string_read", "census", "write_plan", "to_older", "from_older"):
            return ["EE" * args[-1] or "-"]
        if name == "next":
            return ["0", str(min(args[1], 1)), str(args[2]), str(args[3]), str(args[4] & 0xFFFFFFFF)]
        return []

    def do(self, name, a):
        h = self.heap
        h.zone = self.zone
        h.gate(name)
        if name == "open":
            self.open(*a)
            return 0, []
        if name == "zone":
            self.zone = a[0]
            return 0, []
        if name == "begin":
            module("cycle").begin(h, a[0])
            return 0, []
        if name == "turn":
            n, closed, freed, f = module("cycle").turn(h, *a)
            return n, [str(int(closed)), str(freed), str(len(f))] + listed(f, a[1])
        if name == "holder":
            which, pos, chain = dead_or_nil(lambda: module("holder").holder(h, *a))
            return pos, [str(which), str(len(chain))] + listed(chain, a[2])
        if name == "census":
            return written(h.census(a[0]), a[0])
        if name == "write_plan":
            return written(dead_or_nil(lambda: self.write_plan(*a)), a[1])
        if name == "read_plan":
            return module("plan").read_plan(h, self.zone if on("ix") else None, a[0], weak=on("xii")), []
        if name == "to_older":
            return written(module("plan").to_older(h, *a, weak=on("xii")), a[1])
        if name == "from_older":
            return written(module("plan").from_older(h, *a), a[1])
        if name == "root":
            if len(self.roots) == 64:
                raise Refuse(4)
            self.roots.append(a[0])
            return 0, []
        if name == "collect_roots":
            n, f = h.collect(self.roots, 65536)
            return n, ["%016X" % w for w in f]
        if name == "collect":
            n, f = h.collect(a[0], a[1])
            return n, listed(f, a[1])
        if name == "integer":
            return h.integer(signed(a[0])), []
        if name in ("box", "array", "map", "string", "cell", "error", "struct", "func", "iter", "coro",
                    "array_len", "array_read", "pop", "box_read", "cell_read", "coro_read", "kind", "age", "weak", "weak_read"):
            return getattr(h, name)(*a), []
        if name == "deref":
            return h.deref_call(*a), []
        if name in ("weak_store", "array_store", "push", "box_store", "cell_store", "state_set", "coro_store", "put", "remove",
                    "set_value", "remove_at", "note", "insert", "charge"):
            getattr(h, name)(*a)
            return 0, []
        if name in ("field_read", "capture_read", "register_read"):
            return h.part_read({"f": STRUCT, "c": FUNC, "r": CORO}[name[0]], *a), []
        if name in ("field_store", "capture_store", "register_store"):
            h.part_store({"f": STRUCT, "c": FUNC, "r": CORO}[name[0]], *a)
            return 0, []
        if name == "state_read":
            return h.need(a[0], CORO).state, []
        if name == "error_kind":
            return h.need(a[0], ERROR).kind, []
        if name == "error_word":
            return h.need(a[0], ERROR).word, []
        if name == "integer_read":
            return h.need(a[0], INTEGER).n & M64, []
        if name == "string_len":
            return len(h.need(a[0], STR).data), []
        if name == "string_read":
            d = h.need(a[0], STR).data
            if a[1] < len(d):
                raise Refuse(8)
            return written(d, a[1])
        if name == "get":
            return h.get_row(a[0]), []
        if name == "array_type":
            return h.need(a[0], ARRAY).t, []
        if name == "array_cap":
            return h.need(a[0], ARRAY).cap, []
        if name == "cell_type":
            return h.need(a[0], CELL).t, []
        if name == "frame":
            fn, pc, base, clo = h.frame(*a)
            return fn, [str(pc), str(base), "%016X" % clo]
        if name == "struct_type":
            return h.need(a[0], STRUCT).ty, []
        if name == "struct_len":
            return len(h.need(a[0], STRUCT).words), []
        if name == "func_number":
            o = h.need(a[0], FUNC)
            return o.num, [str(o.imp)]
        if name == "func_len":
            return len(h.need(a[0], FUNC).words), []
        if name == "find":
            p = h.find(*a)
            return (0, ["0"]) if p is None else (p, ["1"])
        if name == "entry":
            e = h.entry(*a)
            return e[2], ["%016X" % e[0], "%016X" % e[1], str(e[3]), str(int(e[4]))]
        if name == "map_len":
            return h.need(a[0], MAP).live, []
        if name == "map_mode":
            return int(h.need(a[0], MAP).hashed), []
        if name == "map_places":
            return len(h.need(a[0], MAP).ents), []
        if name == "key_type":
            return h.need(a[0], MAP).kt, []
        if name == "value_type":
            return h.need(a[0], MAP).vt, []
        if name == "map_epoch":
            return h.need(a[0], MAP).epoch, []
        if name == "map_next_seq":
            return h.need(a[0], MAP).seq, []
        if name == "map_noted":
            k = h.need(a[0], MAP).noted
            return (0, ["0"]) if k is None else (k & M64, ["1"])
        if name == "map_cap":
            return h.need(a[0], MAP).ecap, []
        if name == "map_index_len":
            return h.need(a[0], MAP).ilen, []
        if name == "growth":
            return h.m_growth(h.need(a[0], MAP), a[1]), []
        if name == "next_key":
            k = h.next_key(a[0])
            return (0, ["1"]) if k is None else (k & M64, ["0"])
        if name == "next":
            p, c = h.next(a[0], (a[2] if a[1] else None, a[3], a[4] & 0xFFFFFFFF))
            return (0 if p is None else p), [str(int(p is not None)), str(int(c[0] is not None)),
                                             str(a[2] if c[0] is None else c[0]), str(c[1]), str(c[2])]
        if name == "iter_next":
            w = h.iter_next(a[0])
            return (0, ["0"]) if w is None else (w, ["1"])
        if name == "iter_key":
            k = h.iter_key(a[0])
            return (0, ["0"]) if k is None else (k, ["1"])
        if name == "iter_source":
            return h.need(a[0], ITER).src, []
        if name == "iter_key_type":
            return h.need(a[0], ITER).kt, []
        if name == "iter_ended":
            return int(h.need(a[0], ITER).done), []
        if name == "iter_cursor":
            c = h.iter_cursor(a[0])
            if isinstance(c, int):
                return c, ["6"]
            return c[1], ["7", str(int(c[0] is not None)), str(c[0] or 0), str(c[2])]
        if name == "wants_gc":
            return int(h.wants_gc(a[0])), []
        if name == "fits":
            return int(h.fits(a[0])), []
        if name == "collections":
            return h.collections, []
        if name == "freed":
            return h.freed, []
        if name == "present":
            return h.present(), []
        if name == "cells":
            return h.cells, []
        if name == "w_truth":
            return word_truth(a[0]), []
        if name == "w_char":
            c = a[0] & 0xFFFFFFFF
            if on("iii") and not scalar(c):
                raise Refuse(12)
            return word_char(c), []
        if name == "w_float":
            return word_float(a[0]), []
        if name == "w_int":
            w = word_int(signed(a[0]))
            return (0, ["0"]) if w is None else (w, ["1"])
        if name == "w_ref":
            return word_ref(a[0] & 0xFFFFFFFF, a[1] & 0xFFFF), []
        if name == "w_read":
            k, v = read(a[0])
            return v & M64, [str(k)]
        if name == "w_same":
            return int(same(*a)), []
        if name == "w_same_number":
            return int(same_number(*a)), []
        raise KeyError(name)

    def write_plan(self, ref, room):
        h = self.heap
        words = {id(s[2]): word_ref(i, s[0] | s[1]) for i, s in enumerate(h.slots) if s[2] is not None}
        return module("plan").write_plan(h, self.zone if on("ix") else None, ref, room, lambda o: h.right(words[id(o)]) >= 1)

    def run(self, data, only=None):
        at = 0
        while at < len(data):
            c = data[at]
            try:
                if c not in SPEC or (only and c not in only):
                    raise Missing
                args, at = decode_args(data, at + 1, SPEC[c][1])
            except Missing:
                self.lines.append("?? 4 %016X %d" % (0, self.heap.used))
                return self
            self.call(SPEC[c][0], *args)
        return self


def main():
    a = sys.argv[1:]
    flags = [x for x in a if x.startswith("--")]
    a = [x for x in a if not x.startswith("--")]
    mode = a[0] if a else "script"
    data = open(a[1], "rb").read() if len(a) > 1 else sys.stdin.buffer.read()
    r = Runner(check="--no-book" not in flags, state="--state" in flags, dump="--dump" in flags)
    if mode == "callsheet":
        r.run(data[:65536], CALLSHEET)
    else:
        r.run(data)
    sys.stdout.buffer.write(text(r.lines).encode())


if __name__ == "__main__":
    import model                              # one copy, which cycle.py and the others share
    model.main()
