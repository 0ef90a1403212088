#!/usr/bin/env python3
"""Fixed cases for the requests of document 02, expected answers written from
its sentences. cases.py runs
them: `add(case)` adds those of the requests in force."""
import model as M
from model import M64, encode as e, on

W = (64, 40, 80, 160, 32)
Z = "0000000000000000"
BIG = 1 << 20


def rights(**kw):
    """z1o2=1: zone 1 may read what zone 2 owns; nothing else is allowed."""
    t = bytearray(256)
    for k, v in kw.items():
        a, b = k[1:].split("o")
        t[16 * int(a) + int(b)] = v
    return bytes(t)


def op(limit=BIG, layout=b"\0", slots=64, cells=4096, table=bytes(256)):
    return e("open", slots, cells, limit, *W, layout, *([table] if on("ix") else []))


def box(i, g=0):
    return M.word_ref(i, 0x8000 | g)


def ref(i, g=0):
    return M.word_ref(i, g)


def ok(w=0, *extra):
    return " ".join(["0 %016X" % w] + list(extra))


def no(n, *extra):
    return " ".join(["%d %s" % (n, Z)] + list(extra))


def cor(st, seq, payload=0, regs=(), frames=()):
    return e("coro", st, seq, payload, 0, 0, 0, list(regs), list(frames))


def fill(n, start=0):
    return ["%016X" % (0xAAAAAAAAAAAA0000 + i) for i in range(start, n)]


def row(name, n, b, c, age=0):
    """One row of the sheet, column by column."""
    a = "%4d" % age if on("viii") else "    "
    return name + " " * (12 - len(name)) + "%12d" % n + "%20d" % b + "%12d" % c + a + " " * 12 + "\n"


KINDS = ["string", "integer", "cell", "error", "box", "array", "map", "struct", "function", "iterator", "coroutine"] + ["weak"] * on("xii")
SHEET = 73 * (len(KINDS) + 1)


def sheet(room=None, **rows):
    """The census line's answer: rows by name, all others nought."""
    total = [sum(r[i] for r in rows.values()) for i in range(3)] + [max([r[3] for r in rows.values() if len(r) > 3], default=0)]
    s = "".join(row(k, *rows.get(k, (0, 0, 0))) for k in KINDS) + row("total", *total)
    return ok(len(s), (s.encode() + b"\xEE" * ((room or len(s)) - len(s))).hex().upper())


if not on("viii"):
    assert row("string", 1, 69, 1) == "string                 1                  69           1                \n"
else:
    assert row("string", 1, 69, 1, 7) == "string                 1                  69           1   7            \n"


# every call made on an object, what else it takes, and what a refusal shows of lent memory
ON_OBJECT = {
    "box_read": (), "array_len": (), "array_read": (0,), "array_store": (0, 0), "push": (0,), "pop": (), "box_store": (0,), "cell_read": (), "cell_store": (0,),
    "field_read": (0,), "field_store": (0, 0), "capture_read": (0,), "capture_store": (0, 0), "register_read": (0,), "register_store": (0, 0),
    "state_read": (), "state_set": (0,), "coro_read": (0,), "coro_store": (0, 0), "error_kind": (), "error_word": (), "integer_read": (), "string_len": (),
    "string_read": (2,), "struct_type": (), "struct_len": (), "func_number": (), "func_len": (), "array_type": (), "array_cap": (), "cell_type": (),
    "put": (0, 0, 0), "find": (0, 0), "remove": (0, 0), "entry": (0,), "set_value": (0, 0), "remove_at": (0,), "map_len": (), "map_mode": (), "next_key": (),
    "next": (1, 2, 3, 4), "insert": (0, 0, 0), "growth": (0,), "map_places": (), "key_type": (), "value_type": (), "iter_next": (), "iter_key": (),
    "iter_source": (), "iter_key_type": (), "iter_ended": (), "iter_cursor": (), "map_epoch": (), "map_next_seq": (), "map_noted": (), "map_cap": (),
    "map_index_len": (), "frame": (0,), "iter": (), "age": (), "weak_read": (), "weak_store": (0,), "write_plan": (2,), "holder": ([], 1),
}
SHOWN = {"string_read": ["EEEE"], "next": ["0", "1", "2", "3", "4"], "write_plan": ["EEEE"], "holder": fill(1)}


def made_on():
    return [(n, a) for n, a in ON_OBJECT.items() if n in M.BY_NAME]


def add(case):
    def c(name, script, *last):
        case(name, script, *last, both=False)

    if on("i"):
        calls = made_on()
        # a freed one, one of a later generation, an unused slot, a box's slot without the flag, another's with it
        head = op() + e("box", 5) + e("array", 0, 0) + e("collect", [ref(1)], 0)
        for what, w, n in (("freed", box(0), 11), ("of a later generation", ref(1, 1), 11), ("unused slot", ref(9), 11), ("with the flag", box(1), 11),
                           ("slot 2^32-1", ref((1 << 32) - 1), 11), ("nil", 0, 1), ("a word that reads nil", 3 << 32, 1), ("integer", M64, 2), ("truth", 1 << 32, 2)):
            c("(i) %s: %d" % (what, n), head + b"".join(e(x, w, *a) for x, a in calls), *[no(n, *SHOWN.get(x, [])) for x, _ in calls])
        c("(i) get and kind pass it on", head + b"".join(e(x, w) for w in (box(0), ref(9), 0, 3 << 32, M64, ref(1)) for x in ("get", "kind")),
          *[ok(n) for n in (15, 15, 15, 15, 0, 0, 0, 0, 0, 2, 6, 6)])
        c("(i) a box that reaches nothing still dereferences to nil", head + e("deref", box(0)), ok(0))
        c("(i) 4 before 11, 11 before 3", head + e("state_set", ref(9), 5) + e("array_read", ref(9), 7), no(4), no(11))
    if on("iii"):
        chars = (0, 0xD7FF, 0xD800, 0xDFFF, 0xE000, 0x10FFFF, 0x110000, 0xFFFFFFFF)
        good = [True, True, False, False, True, True, False, False]
        c("(iii) making", b"".join(e("w_char", x) for x in chars), *[ok((2 << 32) + x) if g else no(12) for x, g in zip(chars, good)])
        c("(iii) the script's operand: its low 32 bits", e("w_char", (1 << 32) + 0x41) + e("w_char", (1 << 32) + 0xD800), ok(0x200000041), no(12))
        c("(iii) reading", b"".join(e("w_read", (2 << 32) + x) for x in chars), *[ok(x, "4") if g else ok(0, "0") for x, g in zip(chars, good)])
        c("(iii) same follows the reading", b"".join(e("w_same", a, b) for a, b in (
            (0x20000D800, 0), (0x20000D800, 0x200110000), (0x20000D800, 3 << 32), (0x20000D7FF, 0x20000D800), (0x20000D7FF, 0x20000D7FF), (0x20000D800, 0x20000D800))),
          *[ok(x) for x in (1, 1, 1, 0, 1, 1)])
        c("(iii) kind and target: nil", op() + e("kind", 0x20000D800) + e("kind", 0x20000D7FF) + e("array_len", 0x20000DFFF) + e("array_len", 0x20000E000),
          ok(0), ok(14), no(1), no(2))
        c("(iii) words stay, keys by word", op() + e("box", 0x20000D800) + e("box_read", box(0)) + e("map", 1, 0) + e("put", ref(1), 7, 0x20000D800, 4)
          + e("put", ref(1), 7, 0x20000DFFF, 5) + e("find", ref(1), 7, 0) + e("find", ref(1), 7, 0x20000DFFF) + e("map_len", ref(1)),
          ok(0x20000D800), ok(ref(1)), ok(), ok(), ok(0, "0"), ok(1, "1"), ok(2))
    if on("iv"):
        c("(iv) 13", op() + e("turn", 1, 0) + e("begin", []) + e("begin", [5]) + e("collect", [], 0) + e("collect_roots") + e("turn", 1, 0) + e("turn", 1, 1),
          no(13), ok(), no(13), no(13), no(13), ok(0, "1", "0", "0"), no(13, *fill(1)))
        c("(iv) visits", op() + e("box", 0) + e("box", box(0)) + e("begin", [box(1), box(1), 7]) + e("turn", 0, 0) + e("turn", 1, 0) + e("turn", M64, 0)
          + e("turn", 5, 0) + e("present"),
          ok(), ok(0, "0", "0", "0"), ok(1, "0", "0", "0"), ok(1, "0", "0", "0"), ok(0, "1", "0", "0"), ok(2))
        c("(iv) freed by the closing turn, born in the cycle kept", op() + e("box", 0) * 2 + e("begin", [box(1)]) + e("box", 0) + e("turn", 9, 0) + e("present")
          + e("turn", 9, 1) + e("present") + e("box", 0) + e("freed"),
          ok(), ok(box(2)), ok(1, "0", "0", "0"), ok(3), ok(0, "1", "1", "0", *fill(1)), ok(2), ok(box(0, 1)), ok(1))
        c("(iv) a word taken away is marked", op() + e("box", 0) + e("box", box(0)) + e("begin", [box(1)]) + e("box_store", box(1), 0) + e("turn", 9, 0)
          + e("turn", 9, 0) + e("present") + e("collect", [box(1)], 0), ok(), ok(), ok(2, "0", "0", "0"), ok(0, "1", "0", "0"), ok(2), ok(1))
        c("(iv) not if it was not traced", op() + e("box", 0) + e("cell", 0, box(0)) + e("begin", [ref(1)]) + e("cell_store", ref(1), 0) + e("turn", 9, 0)
          + e("turn", 9, 0), ok(), ok(), ok(1, "0", "0", "0"), ok(0, "1", "1", "0"))
        c("(iv) the roots reach nothing: rescue in the beginning", op() + cor(2, 5) + cor(3, 4) + cor(1, 0) + e("begin", []) + e("coro_read", ref(0), 5)
          + e("coro_read", ref(2), 5) + e("turn", 9, 2) + e("turn", 0, 1) + e("turn", 0, 2) + e("present"),
          ok(), ok(1), ok(0), ok(2, "0", "0", "0", *fill(2)), no(8, *fill(1)), ok(0, "1", "1", "2", "%016X" % ref(1), "%016X" % ref(0)), ok(2))
        c("(iv) rescue when the first marking runs dry; a state set before it counts", op() + e("box", 0) + cor(1, 5) + e("begin", [box(0)]) + e("coro_read", ref(1), 5)
          + e("state_set", ref(1), 2) + e("turn", 1, 0) + e("coro_read", ref(1), 5) + e("turn", 1, 0) + e("turn", 1, 0) + e("turn", 1, 1),
          ok(), ok(0), ok(), ok(1, "0", "0", "0"), ok(1), ok(1, "0", "0", "0"), no(8), ok(0, "1", "0", "1", "%016X" % ref(1)))
        c("(iv) a coroutine of the cycle is no F", op() + e("begin", []) + cor(2, 5) + e("turn", 9, 0) + e("coro_read", ref(0), 5), ok(), ok(ref(0)), ok(0, "1", "0", "0"), ok(0))
        # 0 a map with key 1, value 2; 3 the root; 4 held by nothing: what the key holds after its visit is not marked
        head = op() + e("map", 1, 1) + e("box", 0) * 4 + e("put", ref(0), 0, box(1), box(2)) + e("begin", [box(3)])
        for what, call in (("removal", e("remove_at", ref(0), 0)), ("removal by key", e("remove", ref(0), 0, box(1)))):
            c("(iv) a key before its value: " + what, head + call + e("turn", 2, 0) + e("box_store", box(1), box(4)) + e("turn", 9, 0) + e("turn", 9, 0) + e("present"),
              ok(), ok(2, "0", "0", "0"), ok(), ok(1, "0", "0", "0"), ok(0, "1", "2", "0"), ok(3))
        c("(iv) the value of an unvisited one is", head + e("remove_at", ref(0), 0) + e("turn", 2, 0) + e("box_store", box(2), box(4)) + e("turn", 9, 0) + e("turn", 9, 0) + e("present"),
          ok(), ok(2, "0", "0", "0"), ok(), ok(2, "0", "0", "0"), ok(0, "1", "1", "0"), ok(4))
        # "these .. are all that marks": 0 the root, 1 a loose box
        head = op() + e("box", 0) * 2 + e("begin", [box(0)])
        c("(iv) stored into a visited one: freed", head + e("turn", 1, 0) + e("box_store", box(0), box(1)) + e("turn", 1, 0) + e("box_read", box(0)) + e("deref", box(1)),
          ok(1, "0", "0", "0"), ok(), ok(0, "1", "1", "0"), ok(box(1)), ok(0))
        c("(iv) stored into one that is still to be visited: kept", head + e("box_store", box(0), box(1)) + e("turn", 9, 0) + e("turn", 1, 0), ok(), ok(2, "0", "0", "0"), ok(0, "1", "0", "0"))
        c("(iv) stored into one of the cycle: freed", head + e("box", box(1)) + e("turn", 9, 0) + e("turn", 1, 0), ok(box(2)), ok(1, "0", "0", "0"), ok(0, "1", "1", "0"))
        c("(iv) an overwriting put takes the value, not the key", op() + e("map", 1, 1) + e("box", 0) * 3 + e("put", ref(0), 0, box(1), box(2)) + e("begin", [box(3)]) + e("put", ref(0), 0, box(1), 0)
          + e("turn", 9, 0) + e("turn", 9, 0) + e("get", box(2)), ok(), ok(2, "0", "0", "0"), ok(0, "1", "2", "0"), ok(5))
        c("(iv) taken from what nothing holds", op() + e("box", 0) + e("box", box(0)) + e("begin", []) + e("box_store", box(1), 0) + e("turn", 9, 0) + e("turn", 9, 0), ok(), ok(), ok(1, "0", "0", "0"), ok(0, "1", "1", "0"))
        c("(iv) taken from one of the cycle", op() + e("box", 0) + e("begin", []) + e("box", box(0)) + e("box_store", box(1), 0) + e("turn", 9, 0) + e("turn", 9, 0),
          ok(), ok(box(1)), ok(), ok(1, "0", "0", "0"), ok(0, "1", "0", "0"))
        c("(iv) set to returned before the rescue", op() + e("box", 0) + cor(2, 5) + e("begin", [box(0)]) + e("state_set", ref(1), 4) + e("turn", 9, 0) + e("turn", 9, 0), ok(), ok(), ok(1, "0", "0", "0"), ok(0, "1", "1", "0"))
        c("(iv) set to yielded after it", op() + e("box", 0) + cor(1, 5) + e("begin", [box(0)]) + e("turn", 9, 0) + e("state_set", ref(1), 2) + e("turn", 9, 0), ok(), ok(1, "0", "0", "0"), ok(), ok(0, "1", "1", "0"))
        # struct 0 lists field 1, then 0; 0 the struct, 1 and 2 its fields, 3 loose: after two visits field 1 was visited, field 0 was not
        head = op(layout=b"\1\2\1\0\2\0\0\0") + e("struct", 0, [box(1), box(2)]) + e("box", 0) * 3 + e("begin", [ref(0)]) + e("turn", 2, 0)
        for i, n in ((1, 0), (2, 1)):
            c("(iv) children in the layout's order: field %d" % (i - 1), head + e("box_store", box(i), box(3)) + e("turn", 9, 0) + e("turn", 9, 0),
              ok(2, "0", "0", "0"), ok(), ok(2 - n, "0", "0", "0"), ok(0, "1", str(n), "0"))
        # our reading: an iterator made in the cycle does not mark its source; without it the step ends, as the original's
        c("(iv) an iterator of the cycle whose source the cycle frees", op() + e("array", 0, 1) + e("begin", []) + e("iter", ref(0)) + e("turn", 0, 0) + e("iter_cursor", ref(1)) + e("iter_next", ref(1))
          + e("iter_ended", ref(1)) + e("iter_source", ref(1)), ok(ref(1)), ok(0, "1", "1", "0"), ok(0, "7", "0", "0", "0"), ok(0, "0"), ok(1), ok(ref(0)))
        # words that the other stores take away: 0 the root, 1 the word
        taken = [("array store", e("array", 1, 1), lambda r: e("array_store", r, 0, 0), ref, lambda r, w: e("array_store", r, 0, w)),
                 ("array store of the same word", e("array", 2, 1), lambda r: e("array_store", r, 0, box(1)), ref, lambda r, w: e("array_store", r, 0, w)),
                 ("pop", e("array", 1, 0), lambda r: e("pop", r), ref, lambda r, w: e("push", r, w)),
                 ("cell store", e("cell", 2, 0), lambda r: e("cell_store", r, 0), ref, lambda r, w: e("cell_store", r, w)),
                 ("listed field", e("struct", 0, [0, 0]), lambda r: e("field_store", r, 1, 0), ref, lambda r, w: e("field_store", r, 1, w)),
                 ("traced capture", e("func", 0, 0, [0, 0]), lambda r: e("capture_store", r, 1, 0), ref, lambda r, w: e("capture_store", r, 1, w)),
                 ("listed register", cor(0, 0, 0, [0, 0, 0], [(0, 0, 1, 0)]), lambda r: e("register_store", r, 2, 0), ref, lambda r, w: e("register_store", r, 2, w)),
                 ("signal", cor(0, 0), lambda r: e("coro_store", r, 3, 0), ref, lambda r, w: e("coro_store", r, 3, w)),
                 ("set_value", e("map", 0, 1), lambda r: e("set_value", r, 0, 0), ref, lambda r, w: e("put", r, 0, 0, w)),
                 ("overwriting put", e("map", 0, 2), lambda r: e("put", r, 0, 0, 0), ref, lambda r, w: e("put", r, 0, 0, w)),
                 ("removal of a value", e("map", 0, 2), lambda r: e("remove", r, 0, 0), ref, lambda r, w: e("put", r, 0, 0, w)),
                 ("removal of a key", e("map", 1, 0), lambda r: e("remove_at", r, 0), ref, lambda r, w: e("put", r, 0, w, 0))]
        untraced = [("plain array store", e("array", 0, 1), lambda r: e("array_store", r, 0, 0), ref, lambda r, w: e("array_store", r, 0, w)),
                    ("plain pop", e("array", 0, 0), lambda r: e("pop", r), ref, lambda r, w: e("push", r, w)),
                    ("unlisted field", e("struct", 0, [0, 0]), lambda r: e("field_store", r, 0, 0), ref, lambda r, w: e("field_store", r, 0, w)),
                    ("an import's capture", e("func", 1, 0, [0, 0]), lambda r: e("capture_store", r, 1, 0), ref, lambda r, w: e("capture_store", r, 1, w)),
                    ("plain capture", e("func", 0, 0, [0, 0]), lambda r: e("capture_store", r, 0, 0), ref, lambda r, w: e("capture_store", r, 0, w)),
                    ("unlisted register", cor(0, 0, 0, [0, 0, 0], [(0, 0, 1, 0)]), lambda r: e("register_store", r, 1, 0), ref, lambda r, w: e("register_store", r, 1, w)),
                    ("set_value, plain", e("map", 1, 0), lambda r: e("set_value", r, 0, 0), ref, lambda r, w: e("put", r, 0, 0, w)),
                    ("removal, plain", e("map", 0, 0), lambda r: e("remove", r, 0, 0), ref, lambda r, w: e("put", r, 0, 0, w)),
                    ("an insertion beside it", e("map", 0, 1), lambda r: e("put", r, 0, 7, 0), ref, lambda r, w: e("put", r, 0, 0, 0))]
        lay = b"\1\2\1\0\3\4\1\0\5\0\5\1\0"      # struct 0: field 1; function 0: register 1, captures plain and traced
        for words, n in ((taken, 0), (untraced, 1)):
            for what, make, call, r, hold in words:
                c("(iv) %s: %s" % ("taken away" if n == 0 else "not traced", what), op(layout=lay) + make + e("box", 0) + hold(r(0), box(1)) + e("begin", [r(0)]) + call(r(0)) + e("turn", 9, 0)
                  + e("turn", 9, 0) + e("get", box(1)), ok(2 - n, "0", "0", "0"), ok(0, "1", str(n), "0"), ok(5 if n == 0 else 15 if on("i") else 0))
        c("(iv) not traced: the value of a dead place", op() + e("map", 0, 1) + e("box", 0) + e("put", ref(0), 0, 0, box(1)) + e("remove", ref(0), 0, 0) + e("begin", [ref(0)]) + e("set_value", ref(0), 0, 0)
          + e("turn", 9, 0) + e("turn", 9, 0), ok(), ok(), ok(1, "0", "0", "0"), ok(0, "1", "1", "0"))
        c("(iv) not traced: an iterator's plain key", op() + e("map", 0, 0) + e("box", 0) + e("put", ref(0), 0, box(1), 0) + e("put", ref(0), 0, 5, 0) + e("iter", ref(0)) + e("iter_next", ref(2))
          + e("begin", [ref(2)]) + e("iter_next", ref(2)) + e("turn", 9, 0) + e("turn", 9, 0), ok(0, "1"), ok(2, "0", "0", "0"), ok(0, "1", "1", "0"))
        c("(iv) pop takes the item as it stands", op() + e("array", 2, 1) + e("box", 7) + e("array_store", ref(0), 0, box(1)) + e("begin", [ref(0)]) + e("pop", ref(0)) + e("turn", 9, 0) + e("turn", 9, 0)
          + e("box_read", box(1)), ok(7), ok(2, "0", "0", "0"), ok(0, "1", "0", "0"), ok(7))
        c("(iv) only objects present at the beginning are marked", op() + e("box", 0) + e("begin", [box(0)]) + e("box", 0) + e("box_store", box(0), box(1)) + e("box_store", box(0), 0) + e("turn", 9, 0)
          + e("turn", 9, 0), ok(), ok(box(1)), ok(), ok(), ok(1, "0", "0", "0"), ok(0, "1", "0", "0"))
        c("(iv) taken away: an iterator's key by its step", op() + e("map", 1, 0) + e("box", 0) + e("put", ref(0), 0, box(1), 0) + e("put", ref(0), 0, 5, 0) + e("iter", ref(0)) + e("iter_next", ref(2))
          + e("remove", ref(0), 0, box(1)) + e("begin", [ref(2)]) + e("iter_next", ref(2)) + e("turn", 9, 0) + e("turn", 9, 0), ok(0, "1"), ok(3, "0", "0", "0"), ok(0, "1", "0", "0"))
        c("(iv) an ending step takes nothing away, and keeps the key", op() + e("map", 1, 0) + e("box", 0) + e("put", ref(0), 0, box(1), 0) + e("iter", ref(0)) + e("iter_next", ref(2))
          + e("begin", [0, ref(0)]) + e("turn", 1, 0) + e("remove", ref(0), 0, box(1)) + e("iter_next", ref(2)) + e("turn", 9, 0) + e("turn", 9, 0) + e("iter_key", ref(2)),
          ok(), ok(1, "0", "0", "0"), ok(), ok(0, "0"), ok(1, "0", "0", "0"), ok(0, "1", "1", "0"), no(11 if on("i") else 1))
    if on("v"):
        head = op() + e("map", 0, 0)
        c("(v) put notes, inserted or overwritten", head + e("put", ref(0), 1, 5, 0) + e("map_noted", ref(0)) + e("put", ref(0), 1, 3, 0) + e("map_noted", ref(0))
          + e("insert", ref(0), 1, 9, 0) + e("map_noted", ref(0)) + e("put", ref(0), 1, 9, 1) + e("map_noted", ref(0)) + e("map_len", ref(0)) + e("next_key", ref(0)),
          ok(), ok(5, "1"), ok(), ok(5, "1"), ok(), ok(5, "1"), ok(), ok(9, "1"), ok(3), ok(10, "0"))
        c("(v) signed, and past", head + e("put", ref(0), 1, -5, 0) + e("next_key", ref(0)) + e("put", ref(0), 1, (1 << 63) - 1, 0) + e("next_key", ref(0)),
          ok(), ok(-4 & M64, "0"), ok(), ok(0, "1"))
        c("(v) a traced key is not noted", op() + e("map", 1, 0) + e("put", ref(0), 1, 5, 0) + e("map_noted", ref(0)) + e("map", 2, 0) + e("put", ref(1), 1, M.word_int(5), 0)
          + e("map_noted", ref(1)), ok(ref(0)), ok(), ok(0, "0"), ok(ref(1)), ok(), ok(0, "0"))
        c("(v) a refused put notes nothing", op(64) + e("map", 0, 0) + e("put", ref(0), 1, 5, 0) + e("map_noted", ref(0)), ok(ref(0)), no(5), ok(0, "0"))
        c("(v) removal leaves it", head + e("put", ref(0), 1, 5, 0) + e("remove", ref(0), 1, 5) + e("map_noted", ref(0)), ok(), ok(), ok(5, "1"))
        c("(v) the note call is gone", head + b"\x38" + bytes(16) + e("box", 0), ok(ref(0)), no(4))
    if on("vi"):
        a = [1] if on("viii") else []
        c("(vi) nothing present", op() + e("census", SHEET), sheet())
        c("(vi) buffers", op() + e("census", SHEET - 1) + e("census", SHEET + 3) + e("census", 0), no(8, "EE" * (SHEET - 1)), sheet(SHEET + 3), no(8, "-"))
        one = e("string", b"abcde") + e("integer", 5) + e("cell", 0, 0) + e("error", 9, 0) + e("box", 0) + e("array", 0, 3) + e("push", ref(5), 1) + e("map", 0, 0) \
            + e("put", ref(6), 0, 0, 0) + e("struct", 0, [1, 2]) + e("func", 0, 0, [1]) + e("iter", ref(5)) + cor(0, 0, 0, [1], [(0, 0, 0, 0)]) + (e("weak", 0) if on("xii") else b"")
        rows = dict(string=(1, 69, 1), integer=(1, 64, 0), cell=(1, 64, 0), error=(1, 64, 0), box=(1, 64, 0), array=(1, 112, 6), map=(1, 224, 20), struct=(1, 80, 2),
                    function=(1, 72, 1), iterator=(1, 144, 0), coroutine=(1, 264, 5))
        if on("xii"):
            rows["weak"] = (1, 64, 0)
        # 11 objects, 1221 bytes, 35 cells; with the weak box 12 and 1285
        c("(vi) one of each kind", op() + one + e("census", SHEET), sheet(**rows))
        last = sheet(**rows).split()[2]
        want = ("total                 12                1285          35" if on("xii") else "total                 11                1221          35").encode().hex().upper()
        assert last[-2 * 73:].startswith(want), last
        c("(vi) weights, not what was charged", op() + e("charge", 1000) + e("array", 0, 1) + e("push", ref(0), 0) * 4 + e("pop", ref(0)) * 5 + e("census", SHEET),
          sheet(array=(1, 64 + 64, 8)))
        c("(vi) a hashed map", op() + e("map", 0, 0) + e("put", ref(0), 0, 7, 0) + e("census", SHEET), sheet(map=(1, 64 + 160 + 32, 24)))
        c("(vi) freed ones are not there", op() + e("box", 0) * 3 + e("collect", [box(1)], 0) + e("census", SHEET), ok(2), sheet(box=(1, 64, 0, *a)))
    if on("vii"):
        p, m, nan, nan2 = 1 << 49, (1 << 63) + (1 << 49), 0x7FFA << 48, 0xFFFB << 48
        words = (0, 3 << 32, 1 << 32, (1 << 32) + 5, 2 << 32, (2 << 32) + 0xD800, 1 << 48, p, m, nan, nan2, 0x7FF2 << 48, 0xFFFE << 48, M64)
        c("(vii) every word with itself", b"".join(e("w_same", w, w) for w in words), *[ok(1)] * len(words))
        c("(vii) the sign of zero, one NaN", e("w_same", p, m) + e("w_same", m, p) + e("w_same", nan, nan2) + e("w_same", 0x3FF2 << 48, 0xBFF2 << 48),
          ok(0), ok(0), ok(1), ok(0))
        c("(vii) other kinds as before", b"".join(e("w_same", a, b) for a, b in ((0, 3 << 32), ((1 << 32) + 5, (1 << 32) + 1), (1 << 32, (1 << 32) + 1), (1 << 48, (1 << 48) + 1), (0, 1 << 32))),
          *[ok(x) for x in (1, 1, 0, 0, 0)])
        c("(vii) the old comparison", b"".join(e("w_same_number", a, b) for a, b in ((p, m), (nan, nan), (nan, nan2), (p, p), (0, 3 << 32), (0, 1 << 32), (M64, M64))),
          *[ok(x) for x in (1, 0, 0, 1, 1, 0, 1)])
    if on("viii"):
        c("(viii) age", op() + e("box", 0) + e("age", box(0)) + e("collect", [box(0)], 0) + e("age", box(0)) + e("collect", [box(0)], 0) + e("box", 0) + e("age", box(1)) + e("age", box(0))
          + e("collect", [box(1)], 0) + e("box", 0) + e("age", box(0, 1)) + e("age", box(1)) + e("age", 0) + e("age", M64),
          ok(0), ok(), ok(1), ok(), ok(box(1)), ok(0), ok(2), ok(1), ok(box(0, 1)), ok(0), ok(1), no(1), no(2))
        c("(viii) it stops at 255", op() + e("box", 0) + e("collect", [box(0)], 0) * 254 + e("age", box(0)) + b"".join(e("collect", [box(0)], 0) + e("age", box(0)) for _ in range(3)),
          ok(254), ok(), ok(255), ok(), ok(255), ok(), ok(255))
        c("(viii) a refused collection does not count; a rescued one is kept", op() + cor(2, 1) + e("collect", [], 0) + e("age", ref(0)) + e("collect", [], 1) + e("age", ref(0)),
          no(8), ok(0), ok(0, "%016X" % ref(0)), ok(1))
        if on("vi"):
            c("(viii) in the sheet", op() + e("box", 0) + e("collect", [box(0)], 0) * 12 + e("box", 0) + e("string", b"") + e("collect", [box(0), ref(2)], 0) + e("census", SHEET),
              ok(1), sheet(box=(1, 64, 0, 13), string=(1, 64, 0, 1)))
            c("(viii) the greatest age of a kind", op() + e("box", 0) + e("collect", [box(0)], 0) * 2 + e("box", 0) + e("census", SHEET), ok(box(1)), sheet(box=(2, 128, 0, 2)))
        if on("iv"):
            c("(viii) a closing turn is a collection", op() + e("box", 0) + e("begin", [box(0)]) + e("box", 0) + e("turn", 9, 0) + e("age", box(0)) + e("turn", 9, 0)
              + e("age", box(0)) + e("age", box(1)), ok(1, "0", "0", "0"), ok(0), ok(0, "1", "0", "0"), ok(1), ok(1))
    if on("ix"):
        zones(c)
    if on("xi"):
        c("(xi) weeding twice", op() + cor(2, 5, box(2)) + cor(3, 5) + e("box", 7) + e("box", 8) + e("collect", [], 2) + e("collect", [ref(0), ref(1)], 0) + e("present") + e("box_read", box(2))
          + e("collections"), ok(1, "%016X" % ref(0), "%016X" % ref(1)), ok(0), ok(3), ok(7), ok(2))
    if on("xii"):
        weak(c)
    if on("x"):
        plans(c)
    if on("xiii"):
        older(c)
    if on("xiv"):
        holders(c)


def zones(c):
    dead = 11 if on("i") else 1
    z = [e("zone", i) for i in range(20)]
    for what, t, n in (("0 bytes", b"", 10), ("255", bytes(255), 10), ("257", bytes(257), 10), ("all 2", b"\2" * 256, 0), ("byte 3", bytes(255) + b"\3", 10),
                       ("byte 3 on the diagonal", b"\3" + bytes(255), 10), ("byte 255", bytes(7) + b"\xFF" + bytes(248), 10), ("2 on the diagonal", b"\2" + bytes(255), 0)):
        c("(ix) rights: " + what, e("open", 9, 9, 9, *W, b"\0", t), no(n))
    c("(ix) a zone above 15 meets 4 before any other number", op() + z[16] + e("box_read", 0) + e("box", 0) + e("present") + e("get", 0) + e("wants_gc", 0) + e("collect", [], 0)
      + e("state_set", 0, 9) + e("w_int", 1) + e("root", 0) + e("zone", 255) + e("charge", 0) + z[15] + e("present"),
      ok(), no(4), no(4), no(4), no(4), no(4), no(4), no(4), ok((0xFFFE << 48) + 1, "1"), ok(), ok(), no(4), ok(), ok(0))
    t = rights(z1o0=0, z2o0=1, z3o0=2)
    # what zone 0 made: nothing to zone 1, read by zone 2, read and written by zone 3
    c("(ix) 0, 1, 2", op(table=t) + e("box", 5) + b"".join(z[i] + e("box_read", box(0)) + e("box_store", box(0), i) + e("box_read", box(0)) for i in (1, 2, 3, 0)),
      ok(), no(14), no(14), no(14), ok(), ok(5), no(14), ok(5), ok(), ok(5), ok(), ok(3), ok(), ok(3), ok(), ok(0))
    c("(ix) both to its own, whatever the table says", op() + z[7] + e("box", 5) + e("box_store", box(0), 6) + e("box_read", box(0)) + z[8] + e("box_read", box(0)),
      ok(box(0)), ok(), ok(6), ok(), no(14))
    c("(ix) 14 after 1 and 11, before 2", op() + e("box", 5) + z[1] + e("array_len", 0) + e("array_len", ref(9)) + e("array_len", box(0)) + e("array_len", M64) + e("array_read", box(0), 7),
      ok(), no(1), no(dead), no(14), no(2), no(14))
    c("(ix) each reading needs 1, each store 2", op(table=rights(z1o0=1)) + e("array", 2, 1) + e("map", 0, 0) + e("put", ref(1), 0, 0, 0) + e("struct", 0, [1]) + cor(0, 0, 0, [1])
      + e("cell", 0, 0) + e("func", 0, 0, [1]) + z[1] + e("array_read", ref(0), 0) + e("array_store", ref(0), 0, 1) + e("push", ref(0), 1) + e("pop", ref(0)) + e("map_len", ref(1))
      + e("put", ref(1), 0, 0, 0) + e("insert", ref(1), 0, 0, 0) + e("remove", ref(1), 0, 0) + e("remove_at", ref(1), 0) + e("set_value", ref(1), 0, 0) + e("next", ref(1), 0, 0, 0, 0)
      + e("field_read", ref(2), 0) + e("field_store", ref(2), 0, 0) + e("register_store", ref(3), 0, 0) + e("coro_store", ref(3), 0, 0) + e("cell_store", ref(4), 0)
      + e("capture_store", ref(5), 0, 0) + e("capture_read", ref(5), 0),
      ok(), ok(0), no(14), no(14), no(14), ok(1), no(14), no(14), no(14), no(14), no(14), ok(0, "1", "1", "0", "1", "0"), ok(1), no(14), no(14), no(14), no(14), no(14), ok(1))
    c("(ix) get, kind, deref", op() + e("box", 5) + e("array", 0, 0) + z[1] + b"".join(e(x, w) for w in (box(0), ref(1), ref(9), 0) for x in ("get", "kind", "deref")),
      ok(), *[no(14)] * 5, ok(ref(1)), *[ok(15 if on("i") else 0)] * 2, ok(ref(9)), ok(0), ok(0), ok(0))
    only = e("collect", [], 1) + e("collect_roots") + e("state_set", 0, 9)
    last = [no(14, *fill(1)), no(14), no(14)]
    if on("vi"):
        only, last = only + e("census", 1), last + [no(14, "EE")]
    if on("iv"):
        only, last = only + e("begin", []) + e("turn", 0, 1), last + [no(14), no(14, *fill(1))]
    if on("xiv"):
        only, last = only + e("holder", 0, [], 1), last + [no(14, *fill(1))]
    c("(ix) only zone 0: before 13, 4 and 1", op(table=b"\2" * 256) + z[1] + only, ok(), *last)
    c("(ix) zone 0 sets states whatever its rights, and reads nothing it may not", op() + z[1] + cor(1, 0) + z[0] + e("state_set", ref(0), 2) + e("state_set", ref(0), 5) + e("state_read", ref(0))
      + z[1] + e("state_read", ref(0)) + e("state_set", ref(0), 1), ok(ref(0)), ok(), ok(), no(4), no(14), ok(), ok(2), no(14))
    c("(ix) zone 0 frees and finalizes what it may not read", op() + z[1] + e("box", 5) + cor(2, 1) + z[0] + e("collect", [], 1) + e("box_read", box(0)),
      ok(ref(1)), ok(), ok(1, "%016X" % ref(1)), no(dead))
    # zone 1's dynamic array, zone 0's box (which zone 1 may not read, zone 2 may)
    t = rights(z2o0=1, z2o1=2)
    head = op(table=t) + e("box", 5) + z[1] + e("array", 2, 0) + e("array", 1, 0) + e("array", 2, 1) + e("array_store", ref(3), 0, box(0))
    c("(ix) push and pop see through a box", head + e("push", ref(1), box(0)) + e("array_len", ref(1)) + e("push", ref(2), box(0)) + e("array_read", ref(2), 0) + e("pop", ref(3)) + e("array_len", ref(3))
      + z[2] + e("push", ref(1), box(0)) + e("array_read", ref(1), 0) + e("pop", ref(3)) + z[1] + e("pop", ref(2)),
      no(14), ok(0), ok(), ok(box(0)), no(14), ok(1), ok(), ok(), ok(5), ok(5), ok(), ok(box(0)))
    c("(ix) no other object is seen through", op(table=t) + e("array", 0, 0) + z[1] + e("array", 2, 0) + e("push", ref(1), ref(0)) + e("pop", ref(1)), ok(), ok(ref(0)))
    c("(ix) so does iteration; the iterator stays where it was", head + e("iter", ref(3)) + e("iter_next", ref(4)) + e("iter_cursor", ref(4)) + e("iter_key", ref(4)) + z[2] + e("iter_next", ref(4)),
      ok(ref(4)), no(14), ok(0, "6"), ok(0, "0"), ok(), ok(5, "1"))
    c("(ix) and over a map's values, not its keys", op(table=t) + e("box", 5) + z[1] + e("map", 2, 2) + e("put", ref(1), 0, box(0), 7) + e("put", ref(1), 0, 8, box(0)) + e("iter", ref(1))
      + e("iter_next", ref(2)) + e("iter_next", ref(2)) + e("iter_key", ref(2)), ok(ref(2)), ok(7, "1"), no(14), ok(box(0), "1"))
    c("(ix) a box that reaches nothing is nil to everyone", head + z[0] + e("collect", [ref(1)], 0) + z[1] + e("push", ref(1), box(0)) + e("array_read", ref(1), 0), ok(3), ok(), ok(), ok(0))
    # used over limit: 14 before 5
    head = op(64 + 160 + 72 + 64, table=t) + z[1] + e("map", 0, 0) + e("put", ref(0), 0, 0, 0) + e("array", 2, 1) + z[0] + e("box", 5) + z[1] + e("array_store", ref(1), 0, box(2)) \
        + e("remove_at", ref(0), 9) + z[0] + e("collect", [ref(0), ref(1)], 0)
    c("(ix) 14 before 5", head + z[1] + e("pop", ref(1)) + e("push", ref(1), box(2)) + e("push", ref(1), 7) + z[2] + e("pop", ref(1)) + z[1] + e("array_len", ref(1)),
      ok(), no(14), no(14), no(5), ok(), no(5), ok(), ok(1))
    # zone 1's iterator over zone 2's array; zone 3 may write the iterator, not read the array; zone 4 may read both
    t = rights(z1o2=1, z3o1=2, z4o1=1, z4o2=1)
    c("(ix) making and stepping read the source", op(table=t) + z[2] + e("array", 0, 1) + z[1] + e("iter", ref(0)) + z[3] + e("iter", ref(0)) + e("iter_next", ref(1)) + e("iter_cursor", ref(1))
      + e("iter_source", ref(1)) + z[4] + e("iter_next", ref(1)) + e("iter_cursor", ref(1)) + z[1] + e("iter_next", ref(1)) + e("iter_next", ref(1)) + z[3] + e("iter_next", ref(1)) + e("iter_ended", ref(1)),
      ok(ref(1)), ok(), no(14), no(14), no(14), ok(ref(0)), ok(), no(14), ok(0, "6"), ok(), ok(0, "1"), ok(0, "0"), ok(), no(14), ok(1))
    c("(ix) the slot's next object is its maker's", op() + e("box", 5) + e("collect", [], 0) + z[1] + e("box", 6) + e("box_read", box(0, 1)) + z[0] + e("box_read", box(0, 1)),
      ok(), ok(box(0, 1)), ok(6), ok(), no(14))
    c("(ix) an opening begins in zone 0, a refused one does not", op() + z[3] + e("open", 9, 9, 9, *W, b"\0", b"") + e("collect", [], 0) + op() + e("collect", [], 0), no(10), no(14), ok(), ok(0))
    c("(ix) account and counts are open to all", op() + z[9] + e("charge", 5) + e("fits", 5) + e("wants_gc", 5) + e("present") + e("cells") + e("freed") + e("collections"),
      ok(), ok(1), ok(0), ok(0), ok(0), ok(0), ok(0))
    c("(ix) words to store and roots are not judged", op(table=rights()) + e("box", 5) + z[1] + e("box", box(0)) + e("box_store", box(1), box(0)) + z[0] + e("collect", [box(1)], 0),
      ok(box(1)), ok(), ok(), ok(0))
    c("(ix) the initial heap allows nothing", z[1] + e("box", 5) + z[2] + e("box_read", box(0)), ok(), ok(box(0)), ok(), no(14))
    if on("viii"):
        c("(ix) age is a reading", op(table=rights(z2o0=1)) + e("box", 5) + z[1] + e("age", box(0)) + z[2] + e("age", box(0)), no(14), ok(), ok(0))
    if on("xii"):
        c("(ix) weak boxes", op(table=rights(z2o0=1)) + e("weak", 5) + z[1] + e("weak_read", ref(0)) + e("weak_store", ref(0), 1) + z[2] + e("weak_read", ref(0)) + e("weak_store", ref(0), 1),
          no(14), no(14), ok(), ok(5), no(14))


def weak(c):
    dead = 11 if on("i") else 1
    c("(xii) a weak box", op() + e("weak", 7) + e("weak_read", ref(0)) + e("weak_store", ref(0), 9) + e("weak_read", ref(0)) + e("get", ref(0)) + e("kind", ref(0)) + e("deref", ref(0))
      + e("cells") + e("box_read", ref(0)) + e("box", 0) + e("weak_read", box(1)) + e("weak_read", 0) + e("weak_read", ref(9)) + e("weak_store", M64, 0),
      ok(ref(0)), ok(7), ok(), ok(9), ok(12), ok(16), ok(ref(0)), ok(0), no(2), ok(box(1)), no(2), no(1), no(dead), no(2))
    c("(xii) it weighs like a box", op(64) + e("weak", 7) + e("weak", 7) + op(128, slots=1) + e("weak", 7) + e("weak", 7), ok(ref(0)), no(5), ok(), ok(ref(0)), no(6))
    c("(xii) it does not hold its target", op() + e("box", 5) + e("weak", box(0)) + e("weak_read", ref(1)) + e("collect", [ref(1)], 0) + e("weak_read", ref(1)) + e("box", 6) + e("weak_read", ref(1)),
      ok(box(0)), ok(1), ok(0), ok(box(0, 1)), ok(0))
    c("(xii) a held target stays", op() + e("box", 5) + e("weak", box(0)) + e("collect", [ref(1), box(0)], 0) + e("weak_read", ref(1)), ok(0), ok(box(0)))
    c("(xii) a rescued coroutine counts as present", op() + cor(2, 1, box(1)) + e("box", 5) + e("weak", ref(0)) + e("weak", box(1)) + e("collect", [ref(2), ref(3)], 1) + e("weak_read", ref(2))
      + e("weak_read", ref(3)) + e("collect", [ref(2), ref(3)], 0) + e("weak_read", ref(2)) + e("weak_read", ref(3)),
      ok(0, "%016X" % ref(0)), ok(ref(0)), ok(box(1)), ok(2), ok(0), ok(0))
    c("(xii) a dead reference reads nil, other words as they are", op() + e("weak", ref(9)) + e("weak_read", ref(0)) + e("weak_store", ref(0), 3 << 32) + e("weak_read", ref(0)) + e("weak_store", ref(0), ref(0))
      + e("weak_read", ref(0)), ok(0), ok(), ok(3 << 32), ok(), ok(ref(0)))
    c("(xii) push does not see through it", op() + e("weak", 7) + e("array", 2, 0) + e("push", ref(1), ref(0)) + e("pop", ref(1)), ok(), ok(ref(0)))
    if on("x"):
        one = (1 << 48).to_bytes(8, "little")
        c("(xii) in plans: a number if traced words meet it, nil for any other reference", op() + e("weak", box(1)) + e("box", ref(0)) + e("weak", 9) + e("write_plan", ref(0), 10) + e("write_plan", box(1), 19)
          + e("write_plan", ref(2), 10), ok(10, "0C" + "00" * 9), ok(19, ("05" + (2 ** 48 + 1).to_bytes(8, "little").hex() + "0C" + one.hex() + "00").upper()),
          ok(10, "0C09" + "00" * 8))
    if on("iv"):
        c("(xii) a closing turn writes nil", op() + e("box", 5) + e("weak", box(0)) + e("begin", [ref(1)]) + e("turn", 9, 0) + e("weak_read", ref(1)) + e("turn", 9, 0) + e("weak_read", ref(1)),
          ok(1, "0", "0", "0"), ok(box(0)), ok(0, "1", "1", "0"), ok(0))


def q(n):
    return (n & M64).to_bytes(8, "little")


def plans(c):
    dead = 11 if on("i") else 1

    def hx(b):
        return b.hex().upper()
    n0, n1 = q(1 << 48), q((1 << 48) + 1)
    c("(x) nearest first, children in order", op() + e("array", 1, 3) + e("box", 0) + e("integer", -2) + e("array_store", ref(0), 0, ref(2)) + e("array_store", ref(0), 1, box(1)) + e("array_store", ref(0), 2, ref(2))
      + e("box_store", box(1), ref(0)) + e("write_plan", ref(0), 61),
      ok(61 - 8, hx(b"\6\1" + q(3) + n1 + q((1 << 48) + 2) + n1 + b"\2" + q(-2) + b"\5" + n0 + b"\0") + "EE" * 8))
    c("(x) reaches nothing: nil; untraced: raw", op() + e("cell", 1, ref(9)) + e("cell", 0, ref(9)) + e("write_plan", ref(0), 11) + e("write_plan", ref(1), 11),
      ok(11, hx(b"\3\1" + q(0) + b"\0")), ok(11, hx(b"\3\0" + q(ref(9)) + b"\0")))
    c("(x) refusals of the writer", op() + e("array", 0, 0) + e("iter", ref(0)) + e("box", ref(1)) + cor(0, 0) + e("write_plan", 0, 9) + e("write_plan", ref(9), 1) + e("write_plan", M64, 0) + e("write_plan", ref(1), 0)
      + e("write_plan", box(2), 0) + e("write_plan", ref(3), 0) + e("write_plan", ref(0), 10) + e("write_plan", ref(0), 11),
      no(1, "EE" * 9), no(dead, "EE"), no(2, "-"), no(2, "-"), no(2, "-"), no(2, "-"), no(15, "EE" * 10), ok(11, hx(b"\6\0" + q(0) + b"\0")))
    whole = b"\6\1" + q(3) + n1 + q((1 << 48) + 2) + n1 + b"\2" + q(-2) + b"\5" + n0 + b"\0"
    c("(x) read and written again", op() + e("read_plan", whole) + e("write_plan", ref(0), len(whole)) + e("array_cap", ref(0)) + e("integer_read", ref(1)) + e("box_read", box(2)) + e("cells"),
      ok(ref(0)), ok(len(whole), hx(whole)), ok(3), ok(-2 & M64), ok(ref(0)), ok(3))
    bad = [b"", b"\0", whole + b"\0", whole[:-1], b"\5" + n1 + b"\0", b"\5" + q((1 << 48) + (1 << 47)) + b"\0", b"\5" + q(ref(9)) + b"\0", b"\5" + q(0) + b"\5" + q(0) + b"\0",
           b"\3\3" + q(0) + b"\0", b"\6\1" + q(2) + q((1 << 48) + 2) + n1 + b"\5" + q(0) + b"\5" + q(0) + b"\0", b"\x0A" + q(0) + b"\0", b"\4" + q(65536) + q(0) + b"\0",
           b"\7\0\0\0\0" + q(1) + q(0) + b"\0", b"\7\0\0\0\2" + q(0) + q(0) + b"\0", b"\7\0\0\0\0" + q(0) + q(1) + q(5) + q(0) + q(0) + b"\0",
           b"\7\0\0\0\1" + q(0) + q(1) + q(5) + q(1) + q(0) + b"\0", b"\7\0\0\1\1" + q(3) + q(1) + q(5) + q(4) + q(0) + b"\0",
           b"\7\0\0\1\1" + q(9) + q(2) + (q(5) + q(4) + q(0)) * 2 + b"\0"]
    good = [b"\5" + n0 + b"\0", b"\4" + q(65535) + q(0) + b"\0", b"\7\0\0\0\0" + q(0) + q(0) + b"\0", b"\7\0\0\0\1" + q(0) + q(1) + q(5) + q(0) + q(0) + b"\0", b"\7\0\0\1\1" + q(4) + q(1) + q(5) + q(4) + q(0) + b"\0",
            b"\7\0\0\1\1" + q(9) + q(0) + b"\0", b"\7\1\0\1\0" + q(0) + q(2) + (q(5) + q(0) + q(0)) * 2 + b"\0"]
    c("(x) 16", op() + b"".join(e("read_plan", d) for d in bad) + e("present"), *[no(16)] * len(bad), ok(0))
    for i, d in enumerate(good):
        c("(x) accepted %d" % i, op() + e("read_plan", d) + e("present") + e("write_plan", box(0) if d[0] == 5 else ref(0), len(d)), ok(box(0) if d[0] == 5 else ref(0)), ok(1), ok(len(d), hx(d)))
    two = b"\5" + n1 + b"\6\0" + q(2) + q(0) * 2 + b"\0"          # 64 + 64 + 16 bytes, 2 objects, 2 cells
    c("(x) 5, 6, 7 on the whole plan, in this order", op(143, slots=1, cells=1) + e("read_plan", two) + op(144, slots=1, cells=1) + e("read_plan", two) + op(144, slots=2, cells=1) + e("read_plan", two)
      + e("present") + op(144, slots=2, cells=2) + e("read_plan", two) + e("present"), no(5), ok(), no(6), ok(), no(7), ok(0), ok(), ok(box(0)), ok(2))
    if on("ix"):
        c("(x) the reader owns; an object that may not be read: 14 before 2", op() + e("zone", 3) + e("read_plan", whole) + e("zone", 0) + e("box_read", box(2)) + e("array", 0, 0) + e("iter", ref(3)) + e("box", ref(0))
          + e("array", 1, 2) + e("array_store", ref(6), 0, ref(4)) + e("array_store", ref(6), 1, ref(0)) + e("write_plan", ref(6), 0) + e("write_plan", ref(4), 0) + e("write_plan", ref(0), 0),
          ok(ref(0)), ok(), no(14), ok(ref(3)), ok(ref(4)), ok(box(5)), ok(ref(6)), ok(), ok(), no(14, "-"), no(2, "-"), no(14, "-"))


def older(c):
    def hx(b):
        return b.hex().upper()

    def i4(n):
        return (n % (1 << 32)).to_bytes(4, "little")
    five, big = b"\2" + q(5) + b"\0", b"\2" + q(1 << 31) + b"\0"
    c("(xiii) integers", op() + e("to_older", five, 6) + e("to_older", b"\2" + q(-(1 << 31)) + b"\0", 6) + e("to_older", big, 9) + e("to_older", b"\2" + q(-(1 << 31) - 1) + b"\0", 9) + e("to_older", five, 5),
      ok(6, hx(b"\2" + i4(5) + b"\0")), ok(6, hx(b"\2" + i4(-(1 << 31)) + b"\0")), no(17, "EE" * 9), no(17, "EE" * 9), no(15, "EE" * 5))
    dyn = b"\3\2" + q(M.word_int(-7)) + b"\0"
    c("(xiii) places of type 2", op() + e("to_older", dyn, 8) + e("from_older", b"\3\2\1" + i4(-7) + b"\0", 11) + e("to_older", b"\3\2" + q(5) + b"\0", 12) + e("to_older", b"\3\1" + q(M.word_int(1 << 40)) + b"\0", 11)
      + e("to_older", b"\3\2" + q(M.word_int(1 << 31)) + b"\0", 12) + e("to_older", b"\5" + q(M.word_int(1 << 40)) + b"\0", 10),
      ok(8, hx(b"\3\2\1" + i4(-7) + b"\0")), ok(11, hx(dyn)), ok(12, hx(b"\3\2\0" + q(5) + b"\0")), ok(11, hx(b"\3\1" + q(M.word_int(1 << 40)) + b"\0")), no(17, "EE" * 12),
      ok(10, hx(b"\5" + q(M.word_int(1 << 40)) + b"\0")))
    c("(xiii) not in the older dialect", op() + e("to_older", b"\4" + q(0) + q(0) + b"\0", 0) + e("to_older", b"\x09\0" + q(0) + q(0) + b"\0", 0) + e("to_older", b"\x0C" + q(0) + b"\0", 0) + e("to_older", b"\0", 0)
      + e("from_older", b"\4" + q(0) + q(0) + b"\0", 0) + e("from_older", b"\3\2\0" + q(M.word_int(5)) + b"\0", 11) + e("from_older", b"\3\2\2" + q(5) + b"\0", 11) + e("from_older", five, 11),
      no(17, "-"), no(17, "-"), no(17 if on("xii") else 16, "-"), no(16, "-"), no(16, "-"), no(16, "EE" * 11), no(16, "EE" * 11), no(16, "EE" * 11))

    def star(n):
        return b"\6\1" + q(n) + b"".join(q((1 << 48) + 1 + i) for i in range(n)) + (b"\1" + q(0)) * n + b"\0"
    c("(xiii) at most 255 objects", op() + e("to_older", star(255), 0) + e("to_older", star(254), len(star(254))) + e("from_older", star(254), 9), no(17, "-"), ok(len(star(254)), hx(star(254))),
      no(15, "EE" * 9))


def holders(c):
    dead = 11 if on("i") else 1
    # 0 array of 1, 2; 1 and 2 boxes of 3; 3 an integer; 4 an integer that nothing holds
    head = op() + e("array", 1, 2) + e("box", ref(3)) + e("box", ref(3)) + e("integer", 3) + e("integer", 4) + e("array_store", ref(0), 0, box(2)) + e("array_store", ref(0), 1, box(1))

    def ch(*w, n=4):
        return ["%016X" % x for x in w] + fill(n, len(w))
    c("(xiv) the chain", head + e("holder", ref(3), [7, ref(0)], 4) + e("holder", ref(3), [ref(0), box(2), box(1)], 4) + e("holder", ref(0), [ref(0), ref(0)], 4) + e("holder", ref(4), [ref(0)], 4)
      + e("holder", ref(3), [ref(0)], 2) + e("holder", ref(4), [], 0),
      ok(1, "0", "3", *ch(ref(0), box(1), ref(3))), ok(1, "0", "2", *ch(box(2), ref(3))), ok(0, "0", "1", *ch(ref(0))), ok(0, "2", "0", *ch()), no(8, *fill(2)), ok(0, "2", "0"))
    c("(xiv) the lowest slot, not the lowest word", op() + e("array", 1, 2) + e("box", ref(3)) + e("cell", 1, ref(3)) + e("integer", 3) + e("array_store", ref(0), 0, ref(2)) + e("array_store", ref(0), 1, box(1))
      + e("holder", ref(3), [ref(0)], 4), ok(0, "0", "3", *ch(ref(0), box(1), ref(3))))
    c("(xiv) refusals", head + e("holder", 0, [], 1) + e("holder", ref(9), [], 0) + e("holder", M64, [], 0), no(1, *fill(1)), no(dead), no(2))
    c("(xiv) rescue: the lowest sequence, then word, of those with a shortest chain", op() + e("integer", 3) + cor(2, 9, ref(0)) + cor(3, 8, ref(0)) + cor(2, 1, ref(2)) + cor(1, 0, ref(0)) + e("holder", ref(0), [], 3)
      + e("holder", ref(0), [ref(4)], 3) + e("holder", ref(2), [], 3) + e("holder", ref(0), [ref(2)], 3) + e("state_set", ref(2), 4) + e("holder", ref(0), [], 3) + e("holder", ref(2), [], 3),
      ok(0, "1", "2", *ch(ref(2), ref(0), n=3)), ok(0, "0", "2", *ch(ref(4), ref(0), n=3)), ok(0, "1", "1", *ch(ref(2), n=3)), ok(0, "0", "2", *ch(ref(2), ref(0), n=3)), ok(),
      ok(0, "1", "2", *ch(ref(1), ref(0), n=3)), ok(0, "1", "2", *ch(ref(3), ref(2), n=3)))
    if on("iv"):
        c("(xiv) as if no cycle were open", head + e("begin", [ref(4)]) + e("holder", ref(4), [], 1) + e("holder", ref(3), [box(1)], 2), ok(), ok(0, "2", "0", *fill(1)), ok(0, "0", "2", "%016X" % box(1), "%016X" % ref(3)))
