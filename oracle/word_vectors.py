#!/usr/bin/env python3
"""word_vectors.py DIR: writes DIR/stdin and DIR/stdout, the script of the program word_vectors and the lines it must print.

The original is built before, by oracle/build. The calls on words are answered by both, which must agree; the openings by the model alone, since the Rust has no refusal 10.
The script ends with a missing operand."""
import os
import random
import struct
import subprocess
import sys

target = sys.argv[1]
sys.path.insert(0, os.path.join(os.path.dirname(os.path.abspath(__file__)), "model"))
import model

pick = random.Random(20)
M64 = (1 << 64) - 1


def q(*numbers):
    return b"".join(struct.pack("<Q", n & M64) for n in numbers)


def around(*numbers):
    return sorted({(n + d) & M64 for n in numbers for d in (-1, 0, 1)})


def any_word():
    return pick.choice([pick.getrandbits(64), pick.getrandbits(49), pick.getrandbits(50), pick.getrandbits(35), M64 - pick.getrandbits(50)])


SIGN = 1 << 63
PATTERNS = [p | s for s in (0, SIGN) for p in around(0x0010000000000000, 0x3FF0000000000000, 0x7FF0000000000000, 0x7FF8000000000000) + [0, 1, 0x7FFFFFFFFFFFFFFF]]
ENDS = around(0, 1 << 32, 5 + (1 << 32), 2 << 32, 3 << 32, 1 << 48, 1 << 49, 0xFFFE << 48, 0xFFFF << 48)
ALIKE = [0, 7, 3 << 32, 1 << 32, 1 + (1 << 32), 5 + (1 << 32), 65 + (2 << 32), 1 << 48, (1 << 48) + (0x8000 << 32),
         1 << 49, SIGN + (1 << 49), 0x3FF2000000000000, 0x7FF2000000000000, 0x7FF2000000000001, 0x7FFA000000000000, 0xFFFE << 48, M64]


def word_calls():
    out = [b"\x60" + bytes([b]) for b in (0, 1, 2, 128, 255)]
    out += [b"\x61" + q(c) for c in (0, 0x41, 0xD800, 0x10FFFF, 0x110000, 0xFFFFFFFF, 0x100000041, M64)]
    out += [b"\x62" + q(p) for p in PATTERNS + [pick.getrandbits(64) for _ in range(20)]]
    out += [b"\x63" + q(n) for n in around(0, 1 << 48, -(1 << 48), SIGN) + [pick.getrandbits(47), -pick.getrandbits(47)]]
    out += [b"\x64" + q(s, t) for s in (0, 1, 0xFFFFFFFF, 1 << 32) for t in (0, 1, 0x7FFF, 0x8000, 0xFFFF, 0x10000)]
    out += [b"\x65" + q(w) for w in ENDS + [(p + (1 << 49)) & M64 for p in PATTERNS] + [any_word() for _ in range(80)]]
    out += [b"\x66" + q(a, b) for a in ALIKE for b in ALIKE]
    out += [b"\x66" + q(w, w) for w in (any_word() for _ in range(20))]
    return out


def opening(layout, slots=8, cells=64, limit=1000, weights=(64, 40, 80, 160, 32)):
    return b"\x00" + q(slots, cells, limit, *weights, len(layout)) + bytes(layout)


FIXED = ["", "00", "0000", "01", "0100", "010200", "01020700", "0102070000", "0102ffff0200000200000200", "0102ffff02000000", "020000", "0002000000", "0302070000",
         "03040700", "0304070000", "030400", "0304", "0104070000", "0400000000", "0500", "030500", "03050000", "03050100", "03050200", "03050300", "0305ff00", "0305",
         "010500", "0301050000", "01030500", "0103050000", "03010402000000", "0301020000030405000500050200", "06", "0600", "ff00", "010600", "0106", "03ff00", "010300", "0001", "030404000401000500040100050200"]


def whole(rnd):
    out = bytearray()
    for _ in range(rnd.randrange(5)):
        if rnd.random() < 0.5:
            out += b"\x01" + b"".join(b"\x02" + struct.pack("<H", rnd.choice([0, 1, 7, 255, 256, 65535])) for _ in range(rnd.randrange(4)))
        else:
            out += b"\x03"
            for _ in range(rnd.randrange(5)):
                out += rnd.choice([b"\x04" + struct.pack("<H", rnd.randrange(65536)), b"\x05" + bytes([rnd.randrange(3)])])
    return bytes(out + b"\x00")


def damaged(rnd):
    out = bytearray(whole(rnd))
    for _ in range(rnd.randrange(1, 3)):
        at = rnd.randrange(len(out) + 1)
        what = rnd.randrange(4)
        if what == 0:
            del out[at:at + 1]
        elif what == 1:
            out.insert(at, rnd.choice([0, 1, 2, 3, 4, 5, 6, 255]))
        elif what == 2 and at < len(out):
            out[at] = rnd.choice([0, 1, 2, 3, 4, 5, 6, 255])
        else:
            del out[at:]
    return bytes(out)


def openings():
    out = [opening(bytes.fromhex(x)) for x in FIXED]
    out += [opening(whole(pick)) for _ in range(60)] + [opening(damaged(pick)) for _ in range(140)]
    for n in (255, 256, 257):
        out += [opening(b"\x01" * n + b"\x00"), opening(b"\x03" * n + b"\x00"), opening(b"\x01\x03" * n + b"\x00")]
        out += [opening((b"\x01\x02\x07\x00") * n + b"\x00"), opening((b"\x03\x05\x01\x04\x02\x00") * n + b"\x00")]
    out += [opening(b"\x00", slots=n) for n in (0, 1, 2, 65535, 65536, 65537, M64)]
    out += [opening(b"\x00", cells=n) for n in (0, 1, 1048575, 1048576, 1048577, M64)]
    out += [opening(b"\x00", limit=n) for n in (0, M64)]
    for i in range(5):
        for n in (0, 1, 4096, 4097, M64):
            weights = [64, 40, 80, 160, 32]
            weights[i] = n
            out.append(opening(b"\x00", weights=weights))
    return out


END = b"\x65\x01\x02"
on_words, on_layouts = word_calls(), openings()
script = b"".join(on_words + on_layouts) + b"\x65" + q(5 + (1 << 32)) + END
assert len(script) <= 65536, len(script)


def answers(data):
    return model.text(model.Runner().run(data).lines)


alone = b"".join(on_words) + END
oracle = os.path.join(os.path.dirname(os.path.abspath(__file__)), "../target/oracle/original/release/oracle")
by_rust = subprocess.run([oracle, "script"], input=alone, stdout=subprocess.PIPE, check=True).stdout.decode()
assert by_rust == answers(alone), "model and originals differ"
with open(os.path.join(target, "stdin"), "wb") as f:
    f.write(script)
with open(os.path.join(target, "stdout"), "w") as f:
    f.write(answers(script))
print(len(on_words), "calls on words,", len(on_layouts), "openings,", len(script), "bytes")
