#!/usr/bin/env python3
"""What is said of lines over the small world, by the second reading: prints what the program verdicts prints.
Each line of the standard input is put at the end of the file x; places are counted within the line.
  python3 tests/verdicts.py < crates/verdicts/stdin > crates/verdicts/stdout"""
import sys
import semantics as s
WORLD = {
    b"x": b"""use ports
use more
def base(p port) num = 1
def flag() bool = 1 < 2
kind port2 = Mine
rec odd = bad nosuch, n num, n bool
def lost(a nosuch) nosuch = 1
def add(a num, b num) num = a + b
""",
    b"ports": b"""kind port = Vik, Sund
rec ticket = start port, end port, age num
""",
    b"more": b"""use deep
kind port2 = Oslo, Sund
rec hold = v s, back hold
def k() num = 1
kind k = Lone
""",
    b"deep": b"""kind s = S
"""}

def said_of(line):
    p = dict(WORLD)
    p[b"x"] = WORLD[b"x"] + line
    return s.spoken(p, b"x")[-1][2]
def said_without(line):
    """The same, with names looked up as if the line declared nothing."""
    p, before = WORLD, [d[0] for d in s.decls(WORLD[b"x"])]
    here = lambda w: s.sig_of(p, s.meaning(p, b"x", w))
    there = lambda g, n: s.sig_of(p, s.in_file(p, g, n) or "unknown")
    return s.of_item(b"x", here, there, lambda w: w in p, before, s.item_of(line))
def type_text(t): return t if t in ("num", "bool") else (t[0] + b"." + t[1]).decode()
def link_text(l): return (l[3] + b"." + l[4]).decode() if l[2] == 0 else f"bound at {l[5]}" if l[2] == 1 else "file"
def main():
    lines = sys.stdin.buffer.read().split(b"\n")
    if lines[-1] == b"": lines.pop()
    for i, line in enumerate(lines):
        x = said_of(line)
        if x != said_without(line): sys.exit(f"line {i + 1} uses a name that it declares itself, which the small world doesn't know")
        print(f"{i + 1}:" + "".join(f" {a} {b} {k};" for a, b, k in x[1])
              + " | types" + "".join(f" {a}-{b}:{type_text(t)}" for a, b, t in x[2])
              + " | links" + "".join(f" {l[0]}-{l[1]}:{link_text(l)}" for l in x[3]))
if __name__ == "__main__": main()
