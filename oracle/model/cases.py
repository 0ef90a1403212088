#!/usr/bin/env python3
"""Document 01's marked cases a to l, its callsheet listing, and other fixed
cases, on model (with book) and oracle; with requests of document 02 in force
(--with=) those of each request, written from its sentences. cases.py [--show]
  --port=PROGRAM    judges PROGRAM (one script on standard input) instead of the
                    oracle, cases with refusals 6 to 10 included
  --sheet=PROGRAM   judges PROGRAM (callsheet) by the callsheet cases
Outputs are compared byte by byte."""
import os
import sys
import gen
import model as M
from model import M64, encode as e
from compare import ORACLE, PORT, first_difference, for_oracle, oracle, printed
from model import on

W = (64, 40, 80, 160, 32)
DEAD = 11 if on("i") else 1                   # a reference that reaches nothing
TABLE = bytes(256)


def opening(*a):
    return e("open", *a, *([TABLE] if on("ix") else []))


def op(limit=1 << 20, layout=b"\0", slots=gen.SIZE[0], cells=gen.SIZE[1], w=W):
    return opening(slots, cells, limit, *w, layout)


def box(i, g=0):
    return M.word_ref(i, 0x8000 | g)


def ref(i, g=0):
    return M.word_ref(i, g)


def puts(m, n, h=lambda k: k):
    return b"".join(e("put", m, h(k), k, 0) for k in range(n))


def cor(st, seq, payload=0, regs=(), frames=()):
    return e("coro", st, seq, payload, 0, 0, 0, list(regs), list(frames))


# name, script, expected answers of the last calls ("refusal word [extras]"; None: any), oracle too?
C = []


def case(name, script, *last, both=True):
    C.append((name, script, last, both))


case("a", e("w_int", (1 << 48) - 1) + e("w_int", 1 << 48), "0 FFFEFFFFFFFFFFFF 1", "0 0000000000000000 0")
case("b", e("w_int", -(1 << 48)), "0 FFFF000000000000 1")
case("c", e("w_int", -1), "0 FFFFFFFFFFFFFFFF 1")
case("d", e("w_float", 0x3FF0000000000000), "0 3FF2000000000000")
case("e", e("w_float", 0xFFF0000000000001), "0 7FFA000000000000")
case("f", e("w_read", 0x0000000100000005), "0 0000000000000001 1")
case("g", op(100) + e("charge", 60) + e("charge", 41) + e("charge", 40), "0 0000000000000000", "5 0000000000000000", "0 0000000000000000")
for nm, dead, live, gone in (("h 17/16", 17, 16, True), ("h 17/17", 17, 17, False), ("h 16/0", 16, 0, False), ("h 17/0", 17, 0, True)):
    s = op() + e("map", 0, 0) + puts(ref(0), dead + live)
    s += b"".join(e("remove_at", ref(0), i) for i in range(dead)) + e("map_places", ref(0)) + e("map_len", ref(0))
    case(nm, s, "0 %016X" % (live if gone else live + dead), "0 %016X" % live)
case("i", op() + b"".join(e("box", 0) + e("collect", [], 0) for _ in range(32766)) + e("box", 5) + e("collect", [], 0) + e("box", 6)
     + e("collect", [], 0) + e("box", 7) + e("freed") + e("box_read", box(0, 32767)),
     "0 0001FFFE00000000", "0 0000000000000001", "0 0001FFFF00000000", "0 0000000000000001", "0 0001800000000001",
     "0 0000000000008000", "%d 0000000000000000" % DEAD)
case("j", op() + cor(2, 3) + cor(2, 5, ref(0)) + e("collect", [], 3) + e("collect", [], 0) + e("present"),
     "0 0000000000000000 0001000000000000 0001000000000001 AAAAAAAAAAAA0002", "0 0000000000000002", "0 0000000000000000")
case("k", op(64 + 24 + 32) + e("array", 0, 3) + e("push", ref(0), 1) + e("cells") + e("push", ref(0), 1) + e("push", ref(0), 1) + e("push", ref(0), 1),
     "0 0000000000000000", "0 0000000000000006", "0 0000000000000000", "0 0000000000000000", "5 0000000000000000")
def noted(m, k):
    """The call that notes a plain key."""
    return e("put", m, 0, k, 0) if on("v") else e("note", m, k)


case("l", op() + e("map", 0, 0) + e("next_key", ref(0)) + noted(ref(0), -5) + e("next_key", ref(0)) + noted(ref(0), (1 << 63) - 1) + e("next_key", ref(0)),
     "0 0000000000000000 0", "0 0000000000000000", "0 FFFFFFFFFFFFFFFC 0", "0 0000000000000000", "0 0000000000000000 1")
case("same" if not on("vii") else "same_number", b"".join(e("w_same_number" if on("vii") else "w_same", a, b) for a, b in ((1 << 49, (1 << 63) + (1 << 49)), (0x7FFA << 48, 0x7FFA << 48), (0, 3 << 32),
                                                     (0x100000005, 0x100000001), (2 << 32, 0), (1 << 48, (1 << 48) + 1))),
     "0 0000000000000001", "0 0000000000000000", "0 0000000000000001", "0 0000000000000001", "0 0000000000000000", "0 0000000000000000")
case("nil reads 1, other words 2", op() + b"".join(e("array_len", w) for w in (0, 3 << 32, 1 << 32, 2 << 32, 1 << 48, 1 << 49, M64)),
     *["%d 0000000000000000" % n for n in (1, 1, 2, 2, DEAD, 2, 2)])
case("4 before 3 before 5", op(0) + e("array", 3, M64) + e("array", 0, M64) + e("array", 0, 0), *["%d 0000000000000000" % n for n in (4, 3, 5)])
case("4 before 1", op() + e("state_set", 0, 5) + e("state_set", 0, 4), "4 0000000000000000", "1 0000000000000000")
case("5 before 6 before 7", op(64, slots=1, cells=0) + e("array", 0, 1) + e("box", 0) + e("box", 0) + op(200, slots=1, cells=0) + e("array", 0, 1)
     + e("box", 0) + e("array", 0, 1) + e("array", 0, 17),
     *["%d %016X" % x for x in ((5, 0), (0, box(0)), (5, 0), (0, 0), (7, 0), (0, box(0)), (6, 0), (5, 0))], both=False)
case("limit 2^64-1: a saturated sum is never refused", op(M64) + e("charge", M64) + e("charge", M64) + e("charge", 0) + e("box", 0),
     *["0 %016X" % x for x in (0, 0, 0, box(0))])
case("array too long for the cells", op(M64) + e("array", 0, (1 << 63) - 1), "7 0000000000000000", both=False)
case("used beyond limit", op(64 + 160) + e("map", 0, 0) + e("put", ref(0), 0, 0, 7) + e("remove_at", ref(0), 9) + e("collect", [ref(0)], 0)
     + e("put", ref(0), 0, 0, 8) + e("put", ref(0), 1, 1, 8) + e("set_value", ref(0), 0, 9) + e("charge", 0) + (e("map_epoch", ref(0)) if on("v") else e("note", ref(0), 3))
     + e("remove", ref(0), 0, 0) + e("map_len", ref(0)),
     *["%d %016X" % x for x in ((0, 0), (5, 0), (5, 0), (0, 0), (5, 0), (0, 0), (0, 0), (0, 0))])
case("removal needs cells", op(cells=23) + e("map", 0, 0) + e("put", ref(0), 0, 0, 7) + e("remove", ref(0), 0, 0) + e("remove_at", ref(0), 9)
     + e("map_mode", ref(0)) + e("remove", ref(0), 0, 5), *["%d %016X" % x for x in ((7, 0), (7, 0), (0, 0), (0, 0))], both=False)
case("removal with cells just enough", op(cells=24) + e("map", 0, 0) + e("put", ref(0), 0, 0, 7) + e("remove", ref(0), 0, 0) + e("cells"),
     "0 0000000000000000", "0 %016X" % 24, both=False)
case("freed slots low to high, last used first", op() + e("box", 0) * 3 + e("collect", [], 0) + e("box", 0) * 4,
     *["0 %016X" % w for w in (box(2, 1), box(1, 1), box(0, 1), box(3))])
case("list by word: generation before slot", op() + e("box", 0) + e("collect", [], 0) + cor(2, 1) + cor(3, 1) + e("collect", [], 2),
     "0 0000000000000000 %016X %016X" % (ref(1), ref(0, 1)))
case("base + number, exact", op(layout=bytes([3, 4, 1, 0, 0])) + e("box", 0) + cor(0, 0, 0, [box(0)], [(0, 0, M64, 0)]) + e("collect", [ref(1)], 0),
     "0 0000000000000001", both=False)
case("list too short", op() + cor(2, 3) + cor(2, 5) + e("collect", [], 1) + e("collect", [], 2),
     "8 0000000000000000 AAAAAAAAAAAA0000", "0 0000000000000000 0001000000000000 0001000000000001", both=False)
case("buffer too short", op() + e("string", b"abc") + e("string_read", ref(0), 2) + e("string_read", ref(0), 3) + e("string_read", ref(0), 4),
     "8 0000000000000000 EEEE", "0 0000000000000003 616263", "0 0000000000000003 616263EE", both=False)
case("ended iterator stays ended", op() + e("array", 0, 0) + e("iter", ref(0)) + e("iter_next", ref(1)) + e("push", ref(0), 5) + e("iter_next", ref(1)),
     "0 0000000000000000 0", "0 0000000000000000", "0 0000000000000000 0")
case("cursor across compaction", op() + e("map", 0, 0) + puts(ref(0), 34) + e("next", ref(0), 1, 20, 21, 0)
     + b"".join(e("remove_at", ref(0), i) for i in range(18)) + e("next", ref(0), 1, 21, 22, 0),
     *[None] * 18, "0 0000000000000004 1 1 22 5 1")
case("box reads", op() + e("box", 5) + e("array", 2, 1) + e("array_store", ref(1), 0, box(0)) + e("array_read", ref(1), 0) + e("iter", ref(1))
     + e("iter_next", ref(2)) + e("push", ref(1), box(0)) + e("array_read", ref(1), 1) + e("collect", [ref(2)], 0) + e("pop", ref(1)) + e("pop", ref(1)),
     "0 %016X" % box(0), "0 %016X" % ref(2), "0 0000000000000005 1", "0 0000000000000000", "0 0000000000000005", "0 0000000000000000",
     "0 0000000000000005", "0 0000000000000005")
case("stale box reads nil", op() + e("box", 5) + e("collect", [], 0) + e("deref", box(0)) + e("array", 2, 0) + e("push", ref(0, 1), box(0)) + e("array_read", ref(0, 1), 0),
     "0 0000000000000000", "0 %016X" % ref(0, 1), "0 0000000000000000", "0 0000000000000000")
case("65th root", op() + e("root", 1) * 64 + e("root", 1) + e("collect_roots"), "4 0000000000000000", "0 0000000000000000")
case("unknown command", op() + e("box", 0) + b"\xFF" + e("box", 0), "0 %016X" % box(0), "4 0000000000000000")
case("missing operand", op() + e("box", 0) + e("box", 0)[:-1], "0 %016X" % box(0), "4 0000000000000000")
for nm, lay, ok in (("empty", b"", 0), ("00", b"\0", 1), ("00 00", b"\0\0", 0), ("01 00", b"\1\0", 1), ("02 first", b"\2\0\0\0", 0),
                    ("01 02", b"\1\2\0\0\0", 1), ("01 02 short", b"\1\2\0", 0), ("01 04", b"\1\4\0\0\0", 0), ("03 02", b"\3\2\0\0\0", 0),
                    ("03 04 05", b"\3\4\7\0\5\2\0", 1), ("03 05 3", b"\3\5\3\0", 0), ("01 05", b"\1\5\0\0", 0), ("06", b"\6\0", 0),
                    ("256 types", b"\1" * 256 + b"\0", 1), ("257 types", b"\1" * 257 + b"\0", 0), ("256 + 256", b"\1" * 256 + b"\3" * 256 + b"\0", 1),
                    ("257 functions", b"\3" * 257 + b"\0", 0), ("no 00", b"\1\2\0\0", 0), ("03 01 04", b"\3\1\4\0\0\0", 0)):
    case("layout " + nm, opening(9, 9, 9, *W, lay), "%d 0000000000000000" % (0 if ok else 10), both=False)
for nm, args in (("0 slots", (0, 0)), ("65537 slots", (65537, 0)), ("1048577 cells", (1, 1048577))):
    case(nm, opening(*args, 9, *W, b"\0"), "10 0000000000000000", both=False)
for i in range(5):
    for v in (0, 4097):
        case("weight %d %d" % (i, v), opening(1, 1, 9, *[v if j == i else 1 for j in range(5)], b"\0"), "10 0000000000000000", both=False)


Z = "0000000000000000"
case("one slot, retired", op(slots=1) + b"".join(e("box", 0) + e("collect", [], 0) for _ in range(32768)) + e("present") + e("freed") + e("box", 0),
     "0 " + Z, "0 0000000000008000", "6 " + Z, both=False)
case("one NaN: every NaN word reads alike", b"".join(e("w_read", b + (1 << 49) & M64) for b in (
     0x7FF8 << 48, (0x7FF0 << 48) + 1, (0x7FF8 << 48) + 5, 0xFFF8 << 48, (0xFFF0 << 48) + 1, 0xFFFBFFFFFFFFFFFF, 0x7FF0 << 48, 0xFFF0 << 48)),
     *["0 7FF8000000000000 3"] * 6, "0 7FF0000000000000 3", "0 FFF0000000000000 3")
case("iterator's key before the first item", op() + e("array", 0, 1) + e("iter", ref(0)) + e("iter_key", ref(1)) + e("iter_next", ref(1))
     + e("iter_key", ref(1)) + e("iter_next", ref(1)) + e("iter_key", ref(1)) + e("iter_key", ref(0)) + e("iter_key", ref(9)),
     "0 %s 0" % Z, "0 %s 1" % Z, "0 %s 1" % Z, "0 %s 0" % Z, "0 %s 1" % Z, "2 " + Z, "%d " % DEAD + Z)
case("key 0 is not no key", op() + e("map", 0, 0) + e("put", ref(0), 5, 0, 9) + e("iter", ref(0)) + e("iter_next", ref(1)) + e("iter_key", ref(1))
     + e("iter_cursor", ref(1)), "0 0000000000000009 1", "0 %s 1" % Z, "0 0000000000000001 7 1 0 0")
case("coroutine word 7", op() + cor(2, 3) + e("coro_read", ref(0), 7), "0 " + Z)
case("coroutine word 8: missing operand", op() + cor(2, 3) + e("coro_read", ref(0), 8) + e("box", 0), "0 %016X" % ref(0), "4 " + Z)
case("coroutine word store 3", op() + cor(2, 3) + e("coro_store", ref(0), 3, 6) + e("coro_read", ref(0), 3), "0 " + Z, "0 0000000000000006")
case("coroutine word store 4: missing operand", op() + cor(2, 3) + e("coro_store", ref(0), 4, 6) + e("box", 0), "0 %016X" % ref(0), "4 " + Z)
case("types are kept", op() + b"".join(e("cell", t, 0) + e("array", t, 0) + e("map", t, 2 - t) for t in range(3))
     + b"".join(e("cell_type", ref(3 * t)) + e("array_type", ref(3 * t + 1)) + e("key_type", ref(3 * t + 2)) + e("value_type", ref(3 * t + 2)) for t in range(3)),
     *["0 %016X" % n for t in range(3) for n in (t, t, t, 2 - t)])
case("frames are kept", op() + cor(1, 0, 0, [5], [(7, 1, 2, 3), (8, 4294967295, M64, 9)]) + e("frame", ref(0), 0) + e("frame", ref(0), 1) + e("frame", ref(0), 2)
     + e("frame", 0, 9) + e("box", 0) + e("frame", box(1), 9),
     "0 0000000000000007 1 2 0000000000000003", "0 0000000000000008 4294967295 18446744073709551615 0000000000000009", "3 " + Z, "1 " + Z,
     "0 %016X" % box(1), "2 " + Z)
case("64-bit numbers are kept", op() + cor(1, M64, 0, [], [(1 << 32, 1 << 32, 0, 0)]) + e("struct", M64, []) + e("func", 1, 1 << 32, [])
     + e("frame", ref(0), 0) + e("coro_read", ref(0), 4) + e("struct_type", ref(1)) + e("func_number", ref(2)),
     "0 0000000100000000 4294967296 0 " + Z, "0 FFFFFFFFFFFFFFFF", "0 FFFFFFFFFFFFFFFF", "0 0000000100000000 1", both=False)
case("a map's page", op() + e("map", 0, 1) + e("map_noted", ref(0)) + (b"" if on("v") else e("note", ref(0), -1)) + e("map_noted", ref(0)) + e("next_key", ref(0))
     + puts(ref(0), 18) + e("map_cap", ref(0)) + e("map_index_len", ref(0)) + b"".join(e("remove_at", ref(0), i) for i in range(17))
     + e("map_epoch", ref(0)) + e("map_next_seq", ref(0)) + e("map_cap", ref(0)) + e("map_index_len", ref(0)) + e("entry", ref(0), 0) + e("entry", ref(0), 1),
     *[None] * 17, "0 0000000000000001", "0 0000000000000012", "0 0000000000000020", "0 0000000000000040",
     "0 %s %016X %016X 17 1" % (Z, 17, 17), "3 " + Z)
case("noted, or none", op() + e("map", 0, 1) + e("map_noted", ref(0)) + noted(ref(0), -1) + e("map_noted", ref(0)) + e("next_key", ref(0))
     + noted(ref(0), -7) + e("map_noted", ref(0)),
     "0 %s 0" % Z, "0 " + Z, "0 FFFFFFFFFFFFFFFF 1", "0 %s 0" % Z, "0 " + Z, "0 FFFFFFFFFFFFFFFF 1")
case("an iterator's page", op() + e("map", 2, 0) + e("iter", ref(0)) + e("array", 2, 2) + e("iter", ref(2)) + e("iter_next", ref(3))
     + b"".join(e(n, r) for r in (ref(1), ref(3)) for n in ("iter_source", "iter_key_type", "iter_ended", "iter_cursor"))
     + e("iter_next", ref(1)) + e("iter_ended", ref(1)) + e("iter_cursor", ref(1)) + e("iter_source", ref(0)) + e("iter_cursor", 0),
     "0 %016X" % ref(0), "0 0000000000000002", "0 " + Z, "0 %s 7 0 0 0" % Z, "0 %016X" % ref(2), "0 " + Z, "0 " + Z, "0 0000000000000001 6",
     "0 %s 0" % Z, "0 0000000000000001", "0 %s 7 0 0 0" % Z, "2 " + Z, "1 " + Z)
case("capacity", op() + e("array", 0, 3) + e("array_cap", ref(0)) + e("push", ref(0), 1) + e("array_cap", ref(0)) + e("pop", ref(0)) + e("array_cap", ref(0)),
     "0 0000000000000003", "0 " + Z, "0 0000000000000006", "0 0000000000000001", "0 0000000000000006")
case("kind", op() + e("string", b"") + e("integer", 1 << 60) + e("cell", 0, 0) + e("error", 0, 0) + e("box", 0) + e("array", 0, 0) + e("map", 0, 0)
     + e("struct", 0, []) + e("func", 0, 0, []) + e("iter", ref(5)) + cor(0, 0)
     + b"".join(e("kind", box(i) if i == 4 else ref(i)) for i in range(11)) + e("kind", ref(4)) + e("kind", box(0)) + e("kind", ref(0, 1)) + e("kind", ref(11))
     + b"".join(e("kind", w) for w in (0, 3 << 32, 1 << 32, M64, 0xFFFE << 48, 1 << 49, 0x7FFA << 48, 2 << 32)),
     *["0 %016X" % n for n in (1, 2, 3, 4, 5, 6, 7, 8, 9, 10, 11, *[15 if on("i") else 0] * 4, 0, 0, 12, 2, 2, 13, 13, 14)])

# callsheet: name, input, the whole text, oracle too?
SHEETS = []


def sheet(name, data, *lines, both=True):
    SHEETS.append((name, data, "".join(x + "\n" for x in lines), both))


def z(cmd, refusal, used):
    return "%s %d %s %d" % (cmd, refusal, Z, used)


def nbox(i, used):
    return "01 0 %016X %d" % (0x0001800000000000 + i, used)


READ0 = e("box_read", 0)                                   # nine bytes, refused 1
sheet("empty input", b"")
sheet("ends after a whole command", e("box", 0), nbox(0, 64))
sheet("ends after a whole command, 0C", b"\x0C", z("0C", 0, 0))
sheet("01 alone", b"\x01", z("??", 4, 0))
sheet("01 and seven bytes", e("box", 0) + e("box", 0)[:-1], nbox(0, 64), z("??", 4, 64))
sheet("02 alone", b"\x02", z("??", 4, 0))
sheet("02 07: no length", b"\x02\x07", z("??", 4, 0))
sheet("type 3", e("array", 3, 1) + e("array", 2, 1), z("02", 4, 0), "02 0 0001000000000000 72")
sheet("type 255, negative length", e("array", 255, M64), z("02", 4, 0))
sheet("negative length", e("array", 0, M64) + e("array", 1, 1 << 63) + e("array", 0, 0), z("02", 3, 0), z("02", 3, 0), "02 0 0001000000000000 64")
sheet("length past the limit", e("array", 0, (1 << 63) - 1) + e("array", 0, 131065) + e("box", 0), z("02", 5, 0), z("02", 5, 0), nbox(0, 64))
sheet("float word to 06", e("box_read", 0x3FF2000000000000), z("06", 2, 0))
sheet("other words to 06", b"".join(e("box_read", w) for w in (0, 3 << 32, 1 << 32, 2 << 32, M64, 1 << 48, 0x0001800000000000)),
      *[z("06", n, 0) for n in (1, 1, 2, 2, 2, DEAD, DEAD)])
sheet("array to 06", e("array", 1, 2) + e("box_read", ref(0)), "02 0 0001000000000000 80", z("06", 2, 80))
sheet("the array's slot with the flag to 06", e("array", 1, 2) + e("box_read", box(0)), "02 0 0001000000000000 80", z("06", DEAD, 80))
sheet("65th root, and going on", e("box", 7) * 2 + e("root", box(0)) * 64 + e("root", box(1)) + b"\x0C" + e("box_read", box(0)) + e("box_read", box(1)),
      nbox(0, 64), nbox(1, 128), *[z("0B", 0, 128)] * 64, z("0B", 4, 128), "0C 0 0000000000000001 64", "06 0 0000000000000007 64", z("06", DEAD, 64))
sheet("257th box", e("box", 0) * 257 + b"\x0C" + e("box", 0), *[nbox(i, 64 * (i + 1)) for i in range(256)], z("01", 6, 16384),
      "0C 0 0000000000000100 0", "01 0 00018001000000FF 64", both=False)
sheet("array of 2,048, then of 1", e("array", 0, 2048) + e("array", 0, 1) + e("array", 0, 0) + b"\x0C" + e("array", 0, 2049) + e("array", 0, 1),
      "02 0 0001000000000000 16448", z("02", 7, 16448), "02 0 0001000000000001 16512", "0C 0 0000000000000002 0", z("02", 7, 0),
      "02 0 0001000100000001 72", both=False)
sheet("commands of the script format are unknown", e("box", 5) + b"\x03\0\0" + e("box", 5), nbox(0, 64), z("??", 4, 64))
sheet("00 is unknown", b"\0" + e("box", 5), z("??", 4, 0))
sheet("byte 65,536 inside an operand", READ0 * 7282, *[z("06", 1, 0)] * 7281, z("??", 4, 0))
sheet("byte 65,536 is a command with an operand", READ0 * 7281 + b"\x0C" * 6 + e("box", 5), *[z("06", 1, 0)] * 7281, *[z("0C", 0, 0)] * 6, z("??", 4, 0))
sheet("an operand ends with byte 65,536", b"\x0C" * 65527 + e("box", 5), *[z("0C", 0, 0)] * 65527, nbox(0, 64))
sheet("bytes after the 65,536th ignored", READ0 * 7281 + b"\x0C" * 7 + b"\xFF" + e("box", 5), *[z("06", 1, 0)] * 7281, *[z("0C", 0, 0)] * 7)
sheet("65,536 collections", b"\x0C" * 65536, *[z("0C", 0, 0)] * 65536)
sheet("65,537 collections", b"\x0C" * 65537, *[z("0C", 0, 0)] * 65536)
HERE = os.path.dirname(os.path.abspath(__file__))
LISTING = open(HERE + "/example.expected").read().splitlines()
if on("i"):
    LISTING[-1] = "06 11 0000000000000000 144"
sheet("document 01's listing", open(HERE + "/example.callsheet", "rb").read(), *LISTING)
if on("iii"):
    sheet("a character no display can show is nil to 06", b"".join(e("box_read", (2 << 32) + c) for c in (0xD7FF, 0xD800, 0xDFFF, 0xE000, 0x10FFFF, 0x110000)),
          *[z("06", n, 0) for n in (2, 1, 1, 2, 2, 1)], both=False)
import cases02                                # noqa: those of the requests
cases02.add(case)


def strip(line):
    p = line.split()
    return " ".join([p[1], p[2]] + p[4:])


def main():
    bad = 0
    port = next((x[8:].split() for x in sys.argv if x.startswith("--sheet=")), None)
    for name, s, last, both in C if PORT or not port else []:
        r = M.Runner(check=len(s) < 100000)
        r.run(s)
        outs = [("model", M.text(r.lines))]
        if PORT or both and not M.FEATURES:
            o, err = oracle([s], False)
            outs.append(("program" if PORT else "oracle", o[0] if o else err))
        elif both:
            script, want = for_oracle(r, False)
            o, err = oracle([script], False)
            if not o or o[0] != want:
                bad += 1
                print("DIFFER", name, "line %d: wanted %r, oracle %r" % first_difference(want, o[0] if o else err))
        for who, text in outs:
            got = [strip(x) for x in text.splitlines()[-len(last):]]
            if len(got) != len(last) or any(x is not None and x != y for x, y in zip(last, got)):
                bad += 1
                print("FAILS", name, who, "\n  wanted", last, "\n  got   ", got)
        if len(outs) == 2 and outs[0][1] != outs[1][1]:
            bad += 1
            print("DIFFER", name, "line %d: model %r, other %r" % first_difference(outs[0][1], outs[1][1]))
        if "--show" in sys.argv:
            print(name, "|", *r.lines[-len(last):], sep="\n   ")
    for name, data, want, both in SHEETS if port or not PORT else []:
        outs = [("program", printed(port, data))] if port else [("model", M.text(M.Runner().run(data[:65536], M.CALLSHEET).lines))]
        if both and not port:
            outs.append(("oracle", printed([ORACLE, "callsheet"], data)))
        for who, text in outs:
            d = first_difference(want.replace("06 11 ", "06 1 ") if who == "oracle" else want, text)
            if d:
                bad += 1
                print("callsheet FAILS", name, who, "line %d: wanted %r, got %r" % d)
    print("cases", (len(C) if PORT or not port else 0) + (len(SHEETS) if port or not PORT else 0), "failures", bad)
    sys.exit(bad != 0)


if __name__ == "__main__":
    main()
