#!/usr/bin/env python3
"""A second reading of the language, written from docs/LANGUAGE.md and on its own: it says of each line of standard input what
the program `corpus` should say of it. `tests/reference.py < crates/corpus/stdin` prints what crates/corpus/stdout holds."""
import sys

RESERVED = {b"use", b"kind", b"rec", b"def", b"let", b"in", b"if", b"then", b"else", b"and", b"or", b"num", b"bool"}
LEVELS = {1: {b"or": "or"}, 2: {b"and": "and"}, 4: {b"+": "+", b"-": "-"}, 5: {b"*": "*"}}
COMPARE = {b"==": "==", b"<": "<"}


def is_letter(c):
    return 97 <= c <= 122 or 65 <= c <= 90 or c == 95 or 48 <= c <= 57


def pieces(line):
    out, i = [], 0
    while i < len(line):
        c = line[i]
        if c in (32, 9, 13):
            i += 1
        elif c == 35:
            break
        elif is_letter(c):
            j = i
            while j < len(line) and is_letter(line[j]):
                j += 1
            out.append((line[i:j], i, j))
            i = j
        elif line[i:i + 2] == b"==":
            out.append((b"==", i, i + 2))
            i += 2
        else:
            out.append((line[i:i + 1], i, i + 1))
            i += 1
    return out


class Bad(Exception):
    """Not understood, at the piece with this number, or behind the last."""


class Reader:
    def __init__(self, line):
        self.ts, self.i = pieces(line), 0

    def word(self):
        return self.ts[self.i][0] if self.i < len(self.ts) else b""

    def take(self, ok):
        if self.i >= len(self.ts) or not ok(self.word()):
            raise Bad()
        self.i += 1
        return self.ts[self.i - 1]

    def eat(self, w):
        return self.take(lambda x: x == w)

    def name(self):
        return self.take(is_name)

    def type(self):
        return self.take(lambda w: w in (b"num", b"bool") or is_name(w))

    def end(self):
        if self.i < len(self.ts):
            raise Bad()

    # expressions: each gives its code, a list of strings
    def expr(self):
        if self.word() == b"let":
            at = self.eat(b"let")[1]
            x = self.name()
            self.eat(b"=")
            a = self.expr()
            self.eat(b"in")
            return a + ["bind " + show(x)] + self.expr() + ["let %d" % at]
        if self.word() == b"if":
            at = self.eat(b"if")[1]
            a = self.expr()
            self.eat(b"then")
            b = self.expr()
            self.eat(b"else")
            return a + ["cond"] + b + self.expr() + ["if %d" % at]
        return self.level(1)

    def level(self, n):
        if n == 6:
            return self.fields()
        a = self.level(n + 1)
        if n == 3:
            if self.word() in COMPARE:
                o = COMPARE[self.word()]
                self.i += 1
                a = a + self.level(4) + ["op " + o]
            return a
        while self.word() in LEVELS[n]:
            o = LEVELS[n][self.word()]
            self.i += 1
            a = a + self.level(n + 1) + ["op " + o]
        return a

    def fields(self):
        a = self.atom()
        while self.word() == b".":
            self.i += 1
            a = a + ["field " + show(self.name())]
        return a

    def atom(self):
        w = self.word()
        if w == b"(":
            at = self.eat(b"(")[1]
            a = self.expr()
            return a + ["par %d %d" % (at, self.eat(b")")[2])]
        if w[:1].isdigit():
            return ["num " + show(self.take(lambda w: w.isdigit()))]
        f = self.name()
        if self.word() != b"(":
            return ["name " + show(f)]
        self.i += 1
        args = []
        if self.word() != b")":
            args.append(self.expr())
            while self.word() == b",":
                self.i += 1
                args.append(self.expr())
        to = self.eat(b")")[2]
        return ["call %s %d" % (show(f), len(args))] + [s for a in args for s in a + ["arg"]] + ["end %d" % to]

    # items
    def fieldlist(self):
        out = []
        while True:
            x = self.name()
            out.append("%s %s" % (show(x), show(self.type())))
            if self.word() != b",":
                return out
            self.i += 1

    def item(self):
        w = self.word()
        if not self.ts:
            return "nothing"
        if w == b"use":
            self.i += 1
            f = self.name()
            self.end()
            return "use " + show(f)
        if w == b"kind":
            self.i += 1
            out = ["kind " + show(self.name())]
            self.eat(b"=")
            out.append(show(self.name()))
            while self.word() == b",":
                self.i += 1
                out.append(show(self.name()))
            self.end()
            return " | ".join(out)
        if w == b"rec":
            self.i += 1
            out = ["rec " + show(self.name())]
            self.eat(b"=")
            out += self.fieldlist()
            self.end()
            return " | ".join(out)
        if w == b"def":
            self.i += 1
            out = ["def " + show(self.name())]
            self.eat(b"(")
            if self.word() != b")":
                out += self.fieldlist()
            self.eat(b")")
            out.append("result " + show(self.type()))
            self.eat(b"=")
            out += self.expr()
            self.end()
            return " | ".join(out)
        raise Bad()


def is_name(w):
    return w != b"" and is_letter(w[0]) and not w[:1].isdigit() and w not in RESERVED


def show(t):
    return "%s %d-%d" % (t[0].decode("latin-1"), t[1], t[2])


def says(line):
    r = Reader(line)
    try:
        return r.item()
    except Bad:
        if r.i < len(r.ts):
            return "bad %d-%d" % (r.ts[r.i][1], r.ts[r.i][2])
        return "bad %d-%d" % (r.ts[-1][2], r.ts[-1][2])


def main():
    text = sys.stdin.buffer.read()
    lines = text.split(b"\n")
    if lines[-1] == b"":
        lines.pop()
    for n, line in enumerate(lines, 1):
        print("%d: %s" % (n, says(line)))


if __name__ == "__main__":
    sys.setrecursionlimit(100000)
    main()
