"""Rules of document 01, a script each: SCRIPTS is a list of (the sentence that it shows, script, is it for the original too?).

The scripts are made with the reference model's encoder and hold no answers: replay_vectors.py has the reference model answer them, and the
Rust original where it can (it has no refusals 6 to 10, its weights are fixed, and its sums wrap: docs/DIFFERENCES.md)."""
import model as M
from model import M64, encode as e

W = M.OPEN_CALLSHEET[3:8]
SCRIPTS = []


def rule(sentence, *calls, both=True):
    SCRIPTS.append((sentence, b"".join(calls), both))


def start(limit=1 << 20, layout=b"\0", slots=1024, cells=65536, weights=W):
    return e("open", slots, cells, limit, *weights, layout)


def ref(slot, generation=0):
    return M.word_ref(slot, generation)


def box(slot, generation=0):
    return M.word_ref(slot, 0x8000 + generation)


def coro(state, sequence, payload=0, registers=(), frames=()):
    return e("coro", state, sequence, payload, 0, 0, 0, list(registers), list(frames))


def on(name, *operands):
    """The call on each of several operands."""
    return b"".join(e(name, *(o if isinstance(o, tuple) else (o,))) for o in operands)


# ---- Account
rule("`wants_gc(extra)` is yes if since ≥ threshold; threshold (first 262,144)",
     start(1 << 24), e("charge", 262143), e("wants_gc", 0), e("charge", 1), e("wants_gc", 0))
rule("since 0, threshold the larger of used and 262,144: here used, 320,064",
     start(1 << 24), e("array", 0, 40000), e("root", ref(0)), e("collect_roots"), e("charge", 262144), e("wants_gc", 0),
     e("charge", 57919), e("wants_gc", 0), e("charge", 1), e("wants_gc", 0))
rule("since 0, threshold the larger of used and 262,144: here 262,144",
     start(1 << 24), e("array", 0, 30000), e("root", ref(0)), e("collect_roots"), e("charge", 262143), e("wants_gc", 0), e("charge", 1), e("wants_gc", 0))
rule("or used + extra (saturated) > limit and since ≥ limit/8 rounded down",
     start(8007), e("charge", 999), on("wants_gc", 7008, 7009, M64), e("charge", 1), on("wants_gc", 0, 7007, 7008, M64),
     e("charge", 7007), on("wants_gc", 0, 1), on("fits", 0, 1))
rule("A charge is refused exactly if used + bytes, bytes and sum saturated at 2^64-1, exceeds limit",
     start(M64 - 1), e("charge", M64 - 1), on("charge", 1, M64, 0), on("fits", 0, 1, M64))


def beyond():
    """A heap with objects of every kind that stores are made on, in which used exceeds limit: removal at a position outside makes the map hashed, 32 bytes that are
    not charged, and the collection counts them. Slots: 0 map, 1 box, 2 cell, 3 coroutine, 4 array with an item, 5 empty array, 6 iterator of the map, 7 of
    the array, 8 struct, 9 function."""
    made = [e("map", 0, 0), e("box", 1), e("cell", 0, 2), coro(1, 0, 0, [3]), e("array", 0, 2), e("array", 0, 0), e("iter", ref(0)), e("iter", ref(4)),
            e("struct", 0, [4]), e("func", 0, 0, [5]), e("put", ref(0), 7, 0, 6), e("pop", ref(4))]
    dry = M.Runner()
    dry.run(start() + b"".join(made))
    words = [box(i) if i == 1 else ref(i) for i in range(10)]
    return b"".join([start(dry.heap.used)] + made + [e("remove_at", ref(0), 9), e("collect", words, 0)])


rule("Zero bytes is a charge too: array store, push, pop and an overwriting put meet 5 where used exceeds limit, as it may after a collection",
     beyond(), e("charge", 0), e("fits", 0), on("array_store", (ref(4), 0, 1), (ref(4), 9, 1)), e("push", ref(4), 1), e("pop", ref(4)), e("put", ref(0), 7, 0, 1),
     e("put", ref(0), 7, 9, 1), e("insert", ref(0), 7, 9, 1), e("growth", ref(0), 9), e("box", 0))
rule("other stores charge nothing",
     beyond(), on("iter_next", ref(6), ref(6), ref(7), ref(7)), on("state_set", (ref(3), 2), (ref(3), 0)), e("box_store", box(1), 8), e("cell_store", ref(2), 8),
     on("coro_store", *[(ref(3), i, 8) for i in range(4)]), e("register_store", ref(3), 0, 8), e("field_store", ref(8), 0, 8), e("capture_store", ref(9), 0, 8),
     e("set_value", ref(0), 0, 8), e("note", ref(0), 4), e("next", ref(0), 0, 0, 0, 0))
rule("an absent key's removal changes nothing, a present one's makes no charge",
     beyond(), on("remove", (ref(0), 7, 5), (ref(0), 7, 0)), e("remove_at", ref(0), 0))

# ---- "Order: 4, 1, 2, 3, 9, 5, 6, 7; 8 stands after 2"
rule("4 before 1, 4 before 2", start(), e("box", 0), on("state_set", (0, 5), (0, 4), (box(0), 5), (box(0), 4)))
rule("4 before 3, 4 before 5, 3 before 5", start(0), on("array", (3, M64), (0, M64), (0, 1 << 63), (0, 0)), on("cell", (3, 0), (2, 0)), on("map", (3, 0), (0, 3), (0, 0)), coro(5, 0), coro(4, 0))
rule("1 before 3, 2 before 3", start(), e("box", 0), e("array", 0, 1), on("array_read", (0, 9), (box(0), 9), (ref(1), 9)), on("field_read", (0, 9), (ref(1), 9)),
     on("capture_read", (0, 9), (ref(1), 9)), on("register_store", (0, 9, 9), (ref(1), 9, 9)), on("entry", (0, 9), (ref(1), 9)), on("frame", (0, 9), (ref(1), 9)))
rule("1 and 2 before 5, 3 before 5: pop of an empty array where used exceeds limit",
     beyond(), on("push", (0, 1), (box(1), 1)), on("array_store", (0, 0, 1), (box(1), 0, 1)), on("pop", 0, box(1), ref(5), ref(4)),
     on("put", (0, 7, 0, 1), (box(1), 7, 0, 1)), on("iter", 0, box(1), ref(5)))
rule("5 before 6", start(128, slots=1), e("box", 0), e("box", 0), e("charge", 1), e("box", 0), both=False)
rule("6 before 7", start(slots=1, cells=0), e("array", 0, 1), e("box", 0), e("array", 0, 1), both=False)
rule("5 before 7", start(71, cells=0), on("array", (0, 1), (0, 0)), start(72, cells=0), e("array", 0, 1), both=False)
rule("1 and 2 judge the object a call is made on or is to iterate, never roots or words to store",
     start(), e("array", 1, 1), on("array_store", (ref(0), 0, ref(9)), (ref(0), 0, 1 << 49)), e("push", ref(0), ref(9)), e("box", ref(9)), e("collect", [ref(9), 1 << 32, box(0), ref(0)], 0))
rule("`new_iter` gives 1 or 2 where the Rust gives none, and 2 for a coroutine",
     start(), e("box", 0), coro(2, 0), e("string", b"ab"), on("iter", 0, 3 << 32, ref(9), box(0), ref(1), ref(2), 1 << 32, M64))

# ---- 8: lent list shorter than F, or a reader's lent buffer shorter than the string; lent memory unchanged
rule("8 lent list shorter than F", start(), coro(2, 9), coro(3, 4), on("collect", ([], 0), ([], 1)), e("collections"), on("coro_read", (ref(0), 5), (ref(1), 5)),
     e("collect", [], 3), on("coro_read", (ref(0), 5), (ref(1), 5)), e("collect", [], 0), both=False)
rule("or a reader's lent buffer shorter than the string", start(), e("string", b"sorting"), e("string", b""), on("string_read", (ref(0), 0), (ref(0), 6), (ref(0), 7), (ref(0), 9), (ref(1), 0)),
     both=False)
rule("8 stands after 2", start(), e("box", 0), on("string_read", (0, 0), (box(0), 0), (ref(9), 1)))

# ---- 10: who set the line up
rule("Types and functions count from 0, at most 256 each: a 257th type is refused with 10, and the earlier heap stays",
     start(), e("box", 7), start(layout=b"\1" * 257 + b"\0"), e("box_read", box(0)), start(layout=b"\1" * 256 + b"\2\1\0\0"), e("box", 7), e("box", 8),
     e("struct", 255, [0, box(0)]), e("struct", 256, [0, box(1)]), e("collect", [ref(2), ref(3)], 0), both=False)
rule("Types and functions count from 0, at most 256 each: a 257th function",
     start(), e("box", 7), start(layout=b"\3" * 257 + b"\0"), e("box_read", box(0)), start(layout=b"\3" * 256 + b"\5\1\0"), e("box", 7), e("box", 8),
     e("func", 0, 255, [box(0)]), e("func", 0, 256, [box(1)]), e("collect", [ref(2), ref(3)], 0), both=False)
for i, weight in enumerate(("slot", "entry", "iterator", "coroutine", "frame")):
    def weighing(n):
        return start(weights=[n if j == i else W[j] for j in range(5)])

    weighed = e("map", 0, 0) + e("put", ref(0), 0, 0, 0) + e("iter", ref(0)) + coro(0, 0, 0, [], [(0, 0, 0, 0)])
    rule("Weights are given at opening, 1 to 4,096: " + weight, weighing(0), weighing(4097), weighing(1), weighed, weighing(4096), weighed, both=False)
rule("1 to 65,536 slots, 0 to 1,048,576 lent cells", start(slots=0), start(slots=65537), start(cells=1048577), start(slots=1, cells=0), e("array", 0, 0), both=False)
rule("an opening outside these ranges is refused with 10, however large the rest of it is, and the earlier heap stays",
     start(), e("box", 7), start(slots=0, cells=65537), start(slots=0, cells=1048576), start(slots=65537, cells=65537), start(slots=65536, cells=1048577), e("box_read", box(0)), both=False)
rule("weights and layout too, where the program has no room for the heap",
     start(), e("box", 7), start(slots=1025, weights=(0, 1, 1, 1, 1)), start(cells=65537, weights=(1, 1, 1, 1, 4097)), start(slots=65536, cells=1048576, layout=b"\1"), e("box_read", box(0)), both=False)

# ---- "cells are refused exactly if the cells of present objects plus those added exceed the total"
rule("7: array, string, struct, function, coroutine with all cells and one more",
     start(cells=10), *[refused + fitting + e("array", 0, 1) + e("cells") + e("collect", [], 0) for refused, fitting in (
         (e("array", 0, 11), e("array", 0, 10)), (e("string", bytes(81)), e("string", bytes(80))), (e("struct", 0, [1] * 11), e("struct", 0, [1] * 10)),
         (e("func", 0, 0, [1] * 11), e("func", 0, 0, [1] * 10)), (coro(0, 0, 0, [1] * 3, [(0, 0, 0, 0)] * 2), coro(0, 0, 0, [1] * 2, [(0, 0, 0, 0)] * 2)))], both=False)
rule("7: push, put, insert and removal with all cells and one more",
     start(cells=3), e("array", 0, 0), e("push", ref(0), 1), start(cells=4), e("array", 0, 0), e("push", ref(0), 1) * 5, start(cells=20), e("map", 0, 0),
     on("put", *[(ref(0), k, k, 0) for k in range(5)]), e("remove_at", ref(0), 0), start(cells=23), e("map", 0, 0), e("insert", ref(0), 7, 7, 0), start(cells=24), e("map", 0, 0), e("insert", ref(0), 7, 7, 0), e("array", 0, 1), both=False)

# ---- Traced words
rule("key, then value of each live entry: a dead one's are not traced",
     start(), e("map", 1, 2), e("box", 5), e("box", 6), e("put", ref(0), 7, box(1), box(2)), e("collect", [ref(0)], 1), e("remove_at", ref(0), 0), e("collect", [ref(0)], 1))
rule("1 and 2 are traced: keys and values by type", start(), e("box", 5), e("box", 6), e("map", 0, 1), e("map", 2, 0), e("put", ref(2), 7, box(0), 1), e("put", ref(3), 7, 1, box(1)),
     e("collect", [ref(2), ref(3)], 0))
rule("listed captures of traced type; none for an import", start(layout=b"\3\5\0\5\1\5\2\0"), on("box", 1, 2, 3), e("func", 1, 0, [box(0), box(1), box(2)]), e("func", 0, 0, [box(0), box(1)]),
     e("func", 0, 1, [box(2)]), e("collect", [ref(3), ref(4), ref(5)], 0))
rule("fields listed for its type; unknown numbers trace nothing", start(layout=b"\1\2\1\0\1\2\0\0\0"), on("box", 1, 2, 3), e("struct", 0, [box(0), box(1)]), e("struct", 1, [box(2), box(0)]),
     e("struct", 2, [box(0)]), e("collect", [ref(3), ref(4), ref(5)], 0), e("collect", [ref(3)], 0))
rule("cell: its word, if its type is traced; error: its word", start(), e("box", 1), e("cell", 0, box(0)), e("collect", [ref(1)], 0), e("box", 1), e("cell", 1, box(0, 1)), e("collect", [ref(2)], 0),
     e("error", 9, box(0, 1)), e("collect", [ref(1, 1)], 0))
rule("each frame's closure and listed registers (base + number)", start(layout=b"\3\4\0\0\0"), on("box", 1, 2, 3), coro(1, 0, 0, [box(0), box(1)], [(0, 0, 1, box(2))]), e("collect", [ref(3)], 0))
rule("of an unknown function the closure alone", start(layout=b"\3\4\0\0\0"), on("box", 1, 2, 3), coro(1, 0, 0, [box(0), box(1)], [(1, 0, 0, box(2))]), e("collect", [ref(3)], 0))
rule("Base + number, an exact sum, outside the registers traces nothing", start(layout=b"\3\4\1\0\0"), e("box", 1), coro(1, 0, 0, [box(0)], [(0, 0, M64, 0)]), e("collect", [ref(1)], 0),
     both=False)     # D3: the original's sum wraps

# ---- Entry, index, cursor
rule("packed: find answers that position, whatever the hash; hashed, it needs equal hash and key word",
     start(), e("map", 0, 0), on("put", (ref(0), 5, 0, 1), (ref(0), 6, 1, 2)), on("find", (ref(0), 9, 1), (ref(0), 6, 2)), e("remove_at", ref(0), 9), on("find", (ref(0), 9, 1), (ref(0), 6, 1)))
rule("of several such entries it answers the first", start(), e("map", 0, 0), on("insert", (ref(0), 5, 7, 1), (ref(0), 5, 7, 2), (ref(0), 5, 7, 3)), e("find", ref(0), 5, 7), e("remove_at", ref(0), 0),
     e("find", ref(0), 5, 7), e("put", ref(0), 5, 7, 4))
rule("Integer key: a plain key word read signed; traced types have none", start(), e("map", 0, 0), e("map", 1, 0), e("map", 0, 0), e("put", ref(0), 5, 0, 1), e("put", ref(1), 5, 0, 1),
     e("put", ref(2), 5, M64, 1), on("map_mode", ref(0), ref(1), ref(2)))
rule("On becoming hashed the index is the least power of two that is at least 8 and 2 × live; before an insertion it doubles when 2 × (live + 1) exceeds it",
     start(), e("map", 0, 0), on("put", *[(ref(0), k, k, 0) for k in range(5)]), e("remove_at", ref(0), 9), e("map_index_len", ref(0)), on("put", *[(ref(0), k, k, 0) for k in range(5, 8)]),
     e("map_index_len", ref(0)), e("growth", ref(0), 8), e("put", ref(0), 8, 8, 0), e("map_index_len", ref(0)), e("cells"))
rule("`remove` of a position outside a packed store still makes it hashed; `set_value` outside changes nothing; an entry read outside gives 3",
     start(), e("map", 0, 0), e("put", ref(0), 5, 0, 1), on("set_value", (ref(0), 1, 9), (ref(0), M64, 9)), on("entry", (ref(0), 1), (ref(0), M64)), e("remove", ref(0), 5, 1), e("map_mode", ref(0)),
     e("remove_at", ref(0), M64), e("map_mode", ref(0)))
rule("Array store outside the length, within budget, is accepted and changes nothing; array read there is refused",
     start(), e("array", 0, 2), e("pop", ref(0)), on("array_store", (ref(0), 0, 5), (ref(0), 1, 6), (ref(0), M64, 7)), on("array_read", (ref(0), 0), (ref(0), 1), (ref(0), M64)))
