#!/usr/bin/env python3
"""compare.py FIRST COUNT [--with=i,ii,.. or all] [--profiles=a,b] [--no-book] [--no-state]
                          [--counts] [--port=PROGRAM] [--no-shrink] [--no-oracle]
Makes COUNT scripts for each profile, runs model (with the book beside it) and
oracle, compares every line. Profiles full, layouts and wide (gen.FULL) run
model and book only. A difference is shrunk and written to target/oracle/fail.
With requests of document 02 in force the oracle gets what `for_oracle` leaves
of a script. --counts prints how often each command was accepted, each refusal met,
and which pairs of a command and a refusal that can happen did not.
--port=PROGRAM judges PROGRAM (one script on standard input, lines on standard
output, no digests) by the model instead, refusals 6 to 10 included; scripts then
open at most 1,024 slots and 65,536 cells, unless --full-size is given. Its output
is compared byte by byte: a newline after every line, nothing more; an empty
script prints nothing."""
import os
import struct
import subprocess
import sys
import time
import gen
import model as M

HERE = os.path.dirname(os.path.abspath(__file__))
ORACLE = os.environ.get("ORACLE", os.path.join(HERE, "../../target/oracle/original/release/oracle"))


PORT = next((x[7:].split() for x in sys.argv if x.startswith("--port=")), None)


def oracle(scripts, state, port=PORT):
    """The texts printed for the scripts, byte for byte; or None and why."""
    if port:
        return [printed(port, s) for s in scripts], ""
    data = b"".join(struct.pack("<I", len(s)) + s for s in scripts)
    p = subprocess.run([ORACLE, "batch"] + (["--state"] if state else []), input=data, stdout=subprocess.PIPE, stderr=subprocess.PIPE)
    if p.returncode:
        return None, p.stderr.decode()[-500:]
    return p.stdout.decode("latin-1").split("--\n")[:-1], ""


def printed(cmd, data):
    """Standard output of a program, byte for byte (one character a byte)."""
    return subprocess.run(cmd, input=data, stdout=subprocess.PIPE, stderr=subprocess.PIPE).stdout.decode("latin-1")


def first_difference(want, got):
    """None, or (line number, wanted line, line got), newlines included."""
    if want == got:
        return None
    a, b = want.splitlines(True), got.splitlines(True)
    k = next((i for i, (x, y) in enumerate(zip(a, b)) if x != y), min(len(a), len(b)))
    return k, "".join(a[k:k + 1]), "".join(b[k:k + 1])


def model_run(calls, state):
    return M.Runner(check=False, state=state).run(b"".join(calls))


def model_lines(calls, state):
    return model_run(calls, state).lines


def bad_char(w):
    return w >> 32 == 2 and not M.scalar(w & 0xFFFFFFFF)


# the original has a word for these, or nothing like them
NOT_THERE = ("census", "age", "zone", "write_plan", "to_older", "from_older", "holder", "weak_read", "weak_store")


def for_oracle(run, state):
    """(script, text): the calls of a run that document 02 still compares, and
    what the original must print: up to the first accepted beginning of a cycle,
    weak box or plan read; without calls refused by 4 for the zone or by 6 and
    later (they change nothing), but 11, its 1; put is its put and note; `same` of
    two floats and calls that read a character no display shows are left out."""
    script, lines, dropped = [], [], set()

    def line(name, args, ref, word, extra, used, crc):
        script.append(encode_01(name, *args))
        lines.append(" ".join(["%02X %d %016X %d" % (CODE[name], ref, word, used)] + extra + (["#%08x" % crc] if state else [])))
    plain = set()                             # maps with plain keys
    zone = 0
    for name, args, ref, word, extra, used, crc in run.log:
        if name == "zone":
            zone = args[0]
        if name == "open" and ref == 0:
            plain, zone = set(), 0
        if ref == 0 and name in ("begin", "weak", "read_plan"):
            break
        if ref == 0 and name == "map" and args[0] == 0:
            plain.add(word)
        if name in NOT_THERE or ref > 5 and ref != 11 or ref and name in ("begin", "weak", "read_plan") or zone > 15 and ref:
            continue
        if M.on("iii") and (name in M.Book.WANTS or name in ("w_read", "kind", "w_same", "w_same_number")) and any(map(bad_char, args[:2 if "same" in name else 1])):
            continue
        if name == "w_same" and M.on("vii") and M.read(args[0])[0] == M.read(args[1])[0] == M.FLOAT:
            continue
        if name == "open":
            args = args[:9]
        if name == "w_same_number":
            name = "w_same"
        if name in ("get", "kind") and word == M.DEAD_ROW:
            word = 0
        line(name, args, 1 if ref == 11 else ref, word, extra, used, crc)
        if name == "put" and M.on("v") and ref == 0 and args[0] in plain:
            script.append(encode_01("note", args[0], args[2]))
            if state:
                lines[-1] = lines[-1].replace("#%08x" % crc, "#")
            lines.append("38 0 %016X %d" % (0, used) + (" #%08x" % crc if state else ""))
    return b"".join(script), M.text(lines)


CODE = {n: c for c, (n, _) in M.SPEC_01.items()}


def encode_01(name, *args):
    """As without requests: open has no rights, note is there."""
    keep = M.BY_NAME.get(name)
    M.BY_NAME[name] = (CODE[name], M.SPEC_01[CODE[name]][1])
    try:
        return M.encode(name, *args)
    finally:
        M.BY_NAME[name] = keep
        if keep is None:
            del M.BY_NAME[name]


def put_digest(text):
    """The original's digest after a put that its note follows is of no use."""
    out = []
    for l in text.splitlines():
        if l.startswith("38 ") and out and out[-1].startswith("30 0 "):
            out[-1] = out[-1].split("#")[0] + "#"
        out.append(l)
    return M.text(out)


def expected(run, state):
    """(script for the oracle or program, text it must print)"""
    if PORT or not M.FEATURES:
        return None, M.text(run.lines)
    return for_oracle(run, state)


def differs(calls, state):
    run = model_run(calls, state)
    if not PORT and not M.FEATURES and any(l.split()[1] in ("6", "7", "8", "9", "10") for l in run.lines):
        return False
    script, want = expected(run, state)
    o, _ = oracle([b"".join(calls) if script is None else script], state)
    return o is None or (put_digest(o[0]) if M.on("v") and state and not PORT else o[0]) != want


def shrink(calls, state):
    n = len(calls) // 2
    while n >= 1:
        i = 0
        while i < len(calls):
            c = calls[:i] + calls[i + n:]
            if differs(c, state):
                calls = c
            else:
                i += n
        n //= 2
    return calls


def main():
    a = [x for x in sys.argv[1:] if not x.startswith("--")]
    first, count = int(a[0]), int(a[1])
    book, state = "--no-book" not in sys.argv, "--no-state" not in sys.argv and not PORT
    profiles = gen.profiles()
    for x in sys.argv:
        if x.startswith("--profiles="):
            profiles = x.split("=")[1].split(",")
    t0 = time.time()
    bad = nscripts = ncalls = noracle = 0
    refused, per, taken = {}, {}, {}
    for prof in profiles:
        for lo in range(first, first + count, 50):
            gs = []
            for s in range(lo, min(lo + 50, first + count)):
                try:
                    gs.append(gen.Gen(s, prof, check=book, state=state))
                except M.Bug as e:
                    bad += 1
                    print("BOOK", prof, s, e, flush=True)
                    if bad > 20:
                        sys.exit(1)
            nscripts += len(gs)
            for g in gs:
                ncalls += len(g.calls)
                for l in g.run.lines:
                    p = l.split(" ", 2)
                    per[p[0]] = per.get(p[0], 0) + 1
                    if p[1] != "0":
                        refused[p[0] + " " + p[1]] = refused.get(p[0] + " " + p[1], 0) + 1
                for name, _, ref, *_ in g.run.log:
                    taken[name, ref] = taken.get((name, ref), 0) + 1
            if prof in gen.FULL and not PORT or prof in gen.NO_ORACLE and not PORT or "--no-oracle" in sys.argv:
                continue
            pairs = [expected(g.run, state) for g in gs]
            outs, err = oracle([g.script() if p[0] is None else p[0] for g, p in zip(gs, pairs)], state)
            if outs is None:
                print("ORACLE FAILED", prof, lo, err)
                bad += 1
                if "--no-shrink" in sys.argv:
                    sys.exit(1)
                continue
            for g, (_, want), o in zip(gs, pairs, outs):
                noracle += want.count("\n")
                if M.on("v") and state and not PORT:
                    o = put_digest(o)
                if not PORT and not M.FEATURES and any(l.split(" ", 2)[1] in ("6", "7", "8", "9", "10") for l in g.run.lines):
                    print("outside the domain", prof)
                    continue
                d = first_difference(want, o)
                if d:
                    bad += 1
                    print("DIFF", prof, g.seed, "line", d[0], "\n  %s %r\n  model  %r" % ("program" if PORT else "oracle", d[2], d[1]))
                    if "--no-shrink" in sys.argv:
                        sys.exit(1)
                    c = shrink(g.calls, state)
                    os.makedirs(os.path.join(HERE, "../../target/oracle/fail"), exist_ok=True)
                    fn = os.path.join(HERE, "../../target/oracle/fail/%s-%d.bin" % (prof, bad))
                    open(fn, "wb").write(b"".join(c))
                    print("  shrunk to", len(c), "calls:", fn)
                    print("  model :", *model_lines(c, False), sep="\n    ")
                    o = oracle([b"".join(c)], False)[0]
                    print("  oracle:", *(o[0].splitlines() if o else ["failed"]), sep="\n    ")
                    if bad > 5:
                        sys.exit(1)
    print("scripts %d calls %d differences %d seconds %.1f" % (nscripts, ncalls, bad, time.time() - t0)
          + ("; %d lines with the %s" % (noracle, "program" if PORT else "oracle") if M.FEATURES else ""))
    if "--counts" in sys.argv:
        print("calls by command:", " ".join("%s:%d" % kv for kv in sorted(per.items())))
        print("refusals:", ", ".join("%s x%d" % kv for kv in sorted(refused.items())))
        print("accepted:", ", ".join("%02X %s x%d" % (M.BY_NAME[n][0], n, taken.get((n, 0), 0)) for n in sorted(M.BY_NAME, key=M.BY_NAME.get)))
        pairs = gen.possible()
        print("not met of %d pairs that can happen:" % len(pairs), ", ".join("%s %d" % p for p in pairs if p not in taken) or "none")
        print("met, though not in the list:", ", ".join("%s %d" % p for p in sorted(taken) if p not in pairs) or "none")
    sys.exit(1 if bad else 0)


if __name__ == "__main__":
    main()
