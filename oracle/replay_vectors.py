#!/usr/bin/env python3
"""replay_vectors.py DIR [PER]: writes DIR/stdin and DIR/stdout, the script of the program replay and the lines it must print.

The original is built before, by oracle/build. The script is the fixed cases of the reference model, the rules of rules.py and PER random scripts of every profile, each opened
anew. Whatever heap a part leaves is read back at its end, and before it opens another: every content of every object whose reference was
answered, present or not (arrays of more than 1,000 items left out); the counts; the free list, by boxes that take from it; the distance
from the threshold, by charges. Parts without refusals 6 to 10 are answered by model and original, which must agree, the others by the
model alone. The script ends with an unknown command; the box after it is not made."""
import os
import sys

target = sys.argv[1]
per = int(sys.argv[2]) if len(sys.argv) > 2 else 3
sys.argv = [sys.argv[0], "--port="]  # the sizes that the program holds
sys.path.insert(0, os.path.join(os.path.dirname(os.path.abspath(__file__)), "model"))
sys.dont_write_bytecode = True
import cases
import compare
import gen
import model
import rules  # beside this file

LARGEST = 20000  # bytes of a fixed case
STEPS = 60  # calls of a random script
LONGEST = 1000  # items of an array that are read back


class Script(gen.Gen):
    """A random script; what it leaves is read back by `ReadBack`, not by the generator."""

    def epilogue(self):
        pass


class ReadBack(gen.Gen):
    """A script's calls, with those that read back each heap it leaves."""

    def __init__(self, script, both):
        self.run, self.calls, self.rows = model.Runner(), [], {}
        self.profile = gen.PROFILES[0] if both else gen.FULL[0]  # the original does not read wide numbers back
        for name, args in decoded(script):
            if name == "open" and model.Runner().call(name, *args)[0] == 0:
                self.read_heap()
            self.call(name, *args)
        self.read_heap()

    def call(self, name, *args):
        self.calls.append(model.encode(name, *args))
        refusal, word, extra = self.run.call(name, *args)
        if refusal == 0 and name in gen.ROWS and not (name == "array" and args[1] > LONGEST):
            self.rows[word] = gen.ROWS[name]
        return refusal, word, extra

    def read_heap(self):
        heap = self.run.heap
        if heap.used == 0 and not self.rows:
            return
        gen.Gen.epilogue(self)
        for _ in range(len(heap.pile) + 1):
            self.call("box", 0)
        for bytes_ in (max(heap.threshold - heap.since - 1, 0), 1):
            self.call("charge", bytes_)
            self.call("wants_gc", 0)
        self.rows = {}


def decoded(script):
    at, out = 0, []
    while at < len(script):
        name, shape = model.SPEC[script[at]]
        args, at = model.decode_args(script, at + 1, shape)
        out.append((name, args))
    return out


def lines(script):
    return model.text(model.Runner().run(script).lines)


def held(script):
    """No accepted opening, no list and no buffer is larger than the program's own."""
    for name, args in decoded(script):
        if name == "open" and (args[0] > 1024 or args[1] > 65536) and model.Runner().call(name, *args)[0] == 0 or name == "collect" and args[1] > 65536 or name == "string_read" and args[1] > 524288:
            return False
    return True


def compared(script):
    """Does the original print the same? None: refusals 6 to 10 are outside its domain."""
    run = model.Runner().run(script)
    if any(line.split()[1] in ("6", "7", "8", "9", "10") for line in run.lines):
        return None
    script, text = compare.for_oracle(run, False)
    return compare.oracle([script], False, None)[0][0] == text


def parts():
    """(name, script, is it for the original?)"""
    for name, script, _, both in cases.C:
        if len(script) <= LARGEST and "??" not in lines(script) and held(script):
            yield name, script, both
    for sentence, script, both in rules.SCRIPTS:
        assert held(script), sentence
        yield sentence, script, both
    for profile in gen.PROFILES + gen.FULL:
        for seed in range(per):
            script = Script(seed, profile, steps=STEPS).script()
            if held(script):
                yield "%s %d" % (profile, seed), script, profile not in gen.FULL


def main():
    opening = model.encode("open", *model.OPEN_CALLSHEET)
    whole, count, original = b"", 0, 0
    for name, script, both in parts():
        part = opening + b"".join(ReadBack(script, both).calls)
        agreed = compared(part) if both else None
        assert agreed is not False, "model and original differ: " + name
        whole, count, original = whole + part, count + 1, original + (agreed is True)
    whole += b"\xFF" + model.encode("box", 0)
    assert len(whole) <= 1048576
    text = lines(whole)
    assert text.count("??") == 1
    with open(os.path.join(target, "stdin"), "wb") as f:
        f.write(whole)
    with open(os.path.join(target, "stdout"), "w", newline="\n") as f:
        f.write(text)
    print(count, "parts,", original, "of them by the original too;", len(whole), "bytes,", text.count("\n"), "lines,", len(text), "bytes of text")


if __name__ == "__main__":
    main()
