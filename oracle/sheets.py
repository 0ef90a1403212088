#!/usr/bin/env python3
"""sheets.py DIR: writes DIR/stdin and DIR/stdout, an input of the program callsheet and the text it must print (crate callsheet_edges).

The original is built before, by oracle/build. One input, since the program opens one heap: random commands, then the edges (kinds of words, types,
lengths, the 65th root, the last cell, the last slot), then random commands again until byte 65,536 cuts an operand; the bytes after it are not
looked at. The reference model answers all of it, and the Rust original the first part, which meets neither 6 nor 7."""
import os
import random
import subprocess
import sys

target = sys.argv[1]
sys.argv = sys.argv[:1]
sys.path.insert(0, os.path.join(os.path.dirname(os.path.abspath(__file__)), "model"))
import model
from compare import ORACLE
from model import M64

FIRST, READ = 30000, 65536  # bytes of the first random part, and those that the program reads
SLOTS, CELLS = model.OPEN_CALLSHEET[:2]
WORDS = [0, 1, 1 << 32, 2 << 32, 3 << 32, 1 << 48, 1 << 49, 0x3FF2 << 48, 0xFFFE << 48, M64]


class Sheet:
    def __init__(self):
        self.pick, self.run, self.bytes, self.references = random.Random(65), model.Runner(check=False), b"", [0]

    def call(self, name, *operands):
        self.bytes += model.encode(name, *operands)
        refusal, word, _ = self.run.call(name, *operands)
        if refusal == 0 and name in ("box", "array"):
            self.references.append(word)

    def word(self):
        """A reference answered, mostly a late one; one that was not; another word."""
        pick = self.pick
        known = pick.choice(self.references[-20:] if pick.random() < .6 else self.references)
        return pick.choices([known, known ^ pick.choice([1, 1 << 32, 1 << 33, 1 << 47]), pick.choice(WORDS + [pick.getrandbits(64)])], [8, 1, 1])[0]

    def random(self, until, roots):
        """Commands up to a length, with slots and cells left and up to so many roots."""
        pick, heap = self.pick, self.run.heap
        while len(self.bytes) < until:
            name = pick.choices(["box", "array", "box_read", "root", "collect_roots"], [8, 4, 6, .5, .3])[0]
            if heap.present() > SLOTS - 10 or heap.cells > CELLS - 100:
                name = "collect_roots"
            if name == "array":
                self.call(name, pick.choice([0, 1, 2, 2, 3]), pick.choice([0, 1, 2, 3, 8, 40, M64, 131065]))
            elif name == "collect_roots":
                self.call(name)
            elif name != "root" or len(self.run.roots) < roots:
                self.call(name, self.word())

    def edges(self):
        heap = self.run.heap
        for word in WORDS + [5 << 32, (1 << 48) + SLOTS]:
            self.call("box_read", word)
        self.call("box", M64)
        self.call("box_read", self.references[-1])
        for type_, length in ((3, 0), (255, M64), (2, M64), (0, 1 << 63), (0, 1 << 61), (1, 131065), (1, CELLS - heap.cells + 1), (1, CELLS - heap.cells), (2, 1), (2, 0)):
            self.call("array", type_, length)
        self.call("box_read", self.references[-1])
        while len(self.run.roots) < 64:
            self.call("root", self.word())
        self.call("array", 0, 0)
        self.call("root", self.references[-1])  # the 65th: the array is freed
        self.call("collect_roots")
        self.call("box_read", self.references[-1])
        while heap.present() < SLOTS:
            self.call("box", self.references[-1])
        for name, *operands in (("box", 0), ("array", 0, 1), ("array", 9, 1), ("collect_roots",), ("box", 5), ("box_read", self.references[-1])):
            self.call(name, *operands)
        self.call("box_read", self.references[-1])


def text(data):
    return model.text(model.Runner(check=False).run(data[:READ], model.CALLSHEET).lines)


def main():
    sheet = Sheet()
    sheet.random(FIRST, 40)
    by_original = subprocess.run([ORACLE, "callsheet"], input=sheet.bytes, stdout=subprocess.PIPE, check=True).stdout.decode()
    assert by_original == text(sheet.bytes).replace("06 11 ", "06 1 "), "model and original differ"  # its null answer is 1 or 11
    sheet.edges()
    sheet.random(READ + 1, 0)
    data = sheet.bytes + model.encode("box", 7)
    printed = text(data)
    assert "??" in printed.splitlines()[-1]
    with open(os.path.join(target, "stdin"), "wb") as f:
        f.write(data)
    with open(os.path.join(target, "stdout"), "w", newline="\n") as f:
        f.write(printed)
    print(len(data), "bytes,", printed.count("\n"), "lines,", len(printed), "bytes of text; refusals", sorted({line.split()[1] for line in printed.splitlines()}))


if __name__ == "__main__":
    main()
