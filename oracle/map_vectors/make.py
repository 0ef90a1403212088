#!/usr/bin/env python3
"""make.py: writes the input of the program map_vectors to standard output (the commands: crates/map_vectors/src/main.rt)."""
import random
import sys

# small numbers first, so that a word's number is its value; then the ends of the ranges
WORDS = list(range(48)) + [63, 64, 255, 1000, 2**18 - 1, 2**18, 2**31, 2**32 - 1, 2**32, 2**32 + 5, 2**62, 2**63 - 2, 2**63 - 1,
                           2**63, 2**63 + 1, 2**64 - 2, 2**64 - 1, 2**18 * 5 + 7, 2**20 + 7, 2**40 + 7, 2**50 + 7]
NUMBER = {w: i for i, w in enumerate(WORDS)}


def n(*ws):
    return bytes(NUMBER[w] for w in ws)


def put(h, k, v): return b"\x02" + n(h, k, v)
def insert(h, k, v): return b"\x03" + n(h, k, v)
def find(h, k): return b"\x04" + n(h, k)
def remove(h, k): return b"\x05" + n(h, k)
def remove_at(p): return b"\x06" + n(p)
def set_value(p, v): return b"\x08" + n(p, v)
def step(seen, q, p, e): return bytes([12, seen]) + n(q, p, e)
def search(q): return b"\x13" + n(q)
def small_put(k, way, v): return bytes([15, k % 256, k // 256, way]) + n(v)
def small_remove(k, way): return bytes([16, k % 256, k // 256, way])


LINE = b"\x11"
# hashes 7 and 15 share a place of an index of 8, and 6 is the place before it
HASH = {0: 7, 1: 7, 2: 15, 5: 6}
MACROS = [put(h, k, 3) for k, h in HASH.items()] + [remove(h, k) for k, h in HASH.items()] + \
    [remove_at(0), remove_at(9), insert(7, 1, 4), put(9, 1, 5), set_value(1, 8)]
TAIL = b"".join(find(h, k) for k, h in HASH.items()) + step(0, 0, 0, 0) + step(1, 1, 2, 0) + b"\x0a\x0e"


def every_short_sequence():
    a = len(MACROS)
    return b"".join(bytes([18, d, a, a]) + (a ** (d - 1)).to_bytes(2, "little") + LINE for d in (1, 2, 3, 4))


def random_calls(seed, calls):
    """Colliding hashes, negative and traced keys, cursors of any value, positions inside and out."""
    r = random.Random(seed)
    traced = seed % 4 == 3
    hashes = [[7], list(range(8)), list(range(48)), WORDS][seed % 4]
    keys = list(range(6 + seed % 20)) + [2**63, 2**64 - 1, 2**63 - 1, 2**64 - 2]
    ends = [2**64 - 1, 2**63, 2**32, 63]
    out = [bytes([1, traced])]
    places = 0
    for i in range(calls):
        h, k, v = r.choice(hashes), r.choice(keys), r.choice(WORDS)
        if seed % 3 == 0 and places < 48 and r.random() < .5:
            k = places
        p = r.choice(ends) if r.random() < .05 else r.randrange(min(48, places + 3))
        x = r.random()
        if i // 50 % 2 and x < .3:
            x = .45                         # a phase of removals
        if x < .3:
            c, places = put(h, k, v), places + 1
        elif x < .38:
            c, places = insert(h, k, v), places + 1
        elif x < .5:
            c = remove(h, k) if r.random() < .5 else remove_at(r.randrange(48))
        elif x < .56:
            c = remove_at(p)
        elif x < .64:
            c = find(h, k)
        elif x < .68:
            c = b"\x07" + n(p)
        elif x < .72:
            c = set_value(p, v)
        elif x < .75:
            c = b"\x09" + n(r.choice([2**63, 2**63 + 1, 2**64 - 2, 2**64 - 1, 0, 1, 5, 2**62] if r.random() < .9 else WORDS))
        elif x < .77:
            c = b"\x0a"
        elif x < .82:
            c = b"\x0b" + n(k)
        elif x < .84:
            c = search(r.randrange(48) if r.random() < .9 else r.choice(WORDS))
        elif x < .9:
            c = step(r.randrange(2), r.choice(WORDS), p, r.choice([0, 0, 1, 2, 3, 2**32 - 1]))
        elif x < .99:
            c = b"\x0d"
        else:
            c = b"\x0e"
        out.append(c)
    return b"".join(out) + b"\x0e" + LINE


def long_life(seed, calls):
    """A map of some thousand small keys, with phases of removals, so that it grows and is compacted."""
    r = random.Random(1000 + seed)
    way = seed % 3
    out = [bytes([1, seed % 2]), step(0, 0, 0, 0)]
    for i in range(calls):
        x = r.random()
        if i // (calls // 5) % 2:
            x = x * .6 + .4
        k = i if seed == 0 and i < 300 else r.randrange(1500)
        if x < .55:
            out.append(small_put(k, way, r.randrange(48)))
        elif x < .95:
            out.append(small_remove(k, way))
        else:
            out.append(b"\x0d")
    return b"".join(out) + b"\x0e" + LINE


def searches():
    """The search for the first later entry, and a step of a cursor of another epoch, on one store a line."""
    def filled(k):
        return bytes([1, 0]) + b"".join(put(i, i, i) for i in range(k))

    def removed(keys):
        return b"".join(remove(i, i) for i in keys)

    stores = [
        bytes([1, 0]),                                                  # empty
        bytes([1, 0]) + remove_at(0),                                   # empty and hashed
        filled(1),
        filled(12),                                                     # packed: none later than 11, the last
        filled(12) + removed(range(7, 12)),                             # dead ones at the end
        filled(12) + removed(range(0, 12, 2)),                          # every other one dead
        filled(12) + removed(range(12)),                                # all dead
        filled(40) + removed(range(21)),                                # compacted: all later than 20
        filled(40) + removed(range(21)) + removed(range(30, 40)),       # and then dead ones at the end
        filled(33) + removed(range(33)),                                # compacted, all later than 16 and dead
        filled(40) + removed(range(1, 40, 2)) + removed([0, 38]),       # compacted, with gaps: 2, 4, .. 38, the last dead
        bytes([1, 1]) + b"".join(put(7, i, i) for i in range(12)) + b"".join(remove(7, i) for i in (3, 10, 11)),   # traced keys
    ]
    cursors = b"".join(search(q) + step(1, q, 0, 5) for q in list(range(48)) + [63, 2**32 - 1, 2**32, 2**64 - 1])
    return b"".join(store + cursors + b"\x0e" + LINE for store in stores)


def main():
    macros = [m.ljust(32, b"\0") for m in MACROS + [TAIL]]
    out = bytes([len(WORDS), len(macros)]) + b"".join(w.to_bytes(8, "little") for w in WORDS) + b"".join(macros)
    out += every_short_sequence()
    out += b"".join(random_calls(seed, 600) for seed in range(24))
    out += b"".join(long_life(seed, 3000) for seed in range(3))
    out += searches()
    assert len(out) <= 131072
    sys.stdout.buffer.write(out)


main()
