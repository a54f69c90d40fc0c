#!/usr/bin/env python3
"""The definitions of names, what is said of a line, and answers, as a second reading: Python over bytes.
Files are a dict from name (bytes) to text (bytes), in the order in which they were opened."""
import sys
sys.setrecursionlimit(100000)
RESERVED = {b"use", b"kind", b"rec", b"def", b"let", b"in", b"if", b"then", b"else", b"and", b"or", b"num", b"bool"}
OPS = {b"+": 0, b"-": 1, b"*": 2, b"==": 3, b"<": 4, b"and": 5, b"or": 6}
LEVEL = {1: (b"or",), 2: (b"and",), 4: (b"+", b"-"), 5: (b"*",)}

def letter(c): return 97 <= c <= 122 or 65 <= c <= 90 or c == 95 or 48 <= c <= 57
def is_name(w): return w != b"" and letter(w[0]) and not w[:1].isdigit() and w not in RESERVED

def pieces(line):
    out, i = [], 0
    while i < len(line):
        c = line[i]
        if c in (32, 9, 13): i += 1
        elif c == 35: break
        elif letter(c):
            j = i
            while j < len(line) and letter(line[j]): j += 1
            out.append((line[i:j], i, j)); i = j
        elif line[i:i+2] == b"==": out.append((b"==", i, i+2)); i += 2
        else: out.append((line[i:i+1], i, i+1)); i += 1
    return out

class Bad(Exception): pass
class Reader:
    def __init__(self, line): self.ts, self.i = pieces(line), 0
    def word(self): return self.ts[self.i][0] if self.i < len(self.ts) else b""
    def take(self, ok):
        if self.i >= len(self.ts) or not ok(self.word()): raise Bad()
        self.i += 1; return self.ts[self.i-1]
    def eat(self, w): return self.take(lambda x: x == w)
    def name(self): return self.take(is_name)
    def type(self): return self.take(lambda w: w in (b"num", b"bool") or is_name(w))
    def expr(self):
        if self.word() == b"let":
            at = self.eat(b"let")[1]; x = self.name(); self.eat(b"="); a = self.expr(); self.eat(b"in"); b = self.expr()
            return ("let", at, x, a, b)
        if self.word() == b"if":
            at = self.eat(b"if")[1]; a = self.expr(); self.eat(b"then"); b = self.expr(); self.eat(b"else"); c = self.expr()
            return ("if", at, a, b, c)
        return self.level(1)
    def level(self, n):
        if n == 6: return self.fields()
        a = self.level(n+1)
        if n == 3:
            if self.word() in (b"==", b"<"):
                o = OPS[self.word()]; self.i += 1
                a = ("op", o, a, self.level(4))
            return a
        while self.word() in LEVEL[n]:
            o = OPS[self.word()]; self.i += 1
            a = ("op", o, a, self.level(n+1))
        return a
    def fields(self):
        a = self.atom()
        while self.word() == b".": self.i += 1; a = ("field", a, self.name())
        return a
    def atom(self):
        w = self.word()
        if w == b"(":
            at = self.eat(b"(")[1]; a = self.expr(); return ("par", at, a, self.eat(b")")[2])
        if w[:1].isdigit(): return ("num", self.take(lambda w: w.isdigit()))
        f = self.name()
        if self.word() != b"(": return ("name", f)
        self.i += 1; args = []
        if self.word() != b")":
            args.append(self.expr())
            while self.word() == b",": self.i += 1; args.append(self.expr())
        return ("call", f, args, self.eat(b")")[2])
    def end(self):
        if self.i < len(self.ts): raise Bad()
    def fieldlist(self):
        out = []
        while True:
            x = self.name(); out.append((x, self.type()))
            if self.word() != b",": return out
            self.i += 1
    def item(self):
        if not self.ts: return ("nothing",)
        w = self.word(); self.i += 1
        if w == b"use": f = self.name(); self.end(); return ("use", f)
        if w == b"kind":
            t = self.name(); self.eat(b"="); cs = [self.name()]
            while self.word() == b",": self.i += 1; cs.append(self.name())
            self.end(); return ("kind", t, cs)
        if w == b"rec": t = self.name(); self.eat(b"="); fs = self.fieldlist(); self.end(); return ("rec", t, fs)
        if w == b"def":
            t = self.name(); self.eat(b"("); ps = [] if self.word() == b")" else self.fieldlist(); self.eat(b")")
            r = self.type(); self.eat(b"="); e = self.expr(); self.end(); return ("def", t, ps, r, e)
        self.i -= 1; raise Bad()
def item_of(line):
    r = Reader(line)
    try: return r.item()
    except Bad:
        if r.i < len(r.ts): return ("bad", r.ts[r.i][1], r.ts[r.i][2])
        return ("bad", r.ts[-1][2], r.ts[-1][2])
def frm(e): return {"num": lambda: e[1][1], "name": lambda: e[1][1], "call": lambda: e[1][1], "field": lambda: frm(e[1]), "op": lambda: frm(e[2]), "if": lambda: e[1], "let": lambda: e[1], "par": lambda: e[1]}[e[0]]()
def to(e): return {"num": lambda: e[1][2], "name": lambda: e[1][2], "call": lambda: e[3], "field": lambda: e[2][2], "op": lambda: to(e[3]), "if": lambda: to(e[4]), "let": lambda: to(e[4]), "par": lambda: e[3]}[e[0]]()

# --- names
def lines(text):
    out, s = [], 0
    for l in text.split(b"\n"): out.append((s, l)); s += len(l) + 1
    return out
def decls_item(s, it):
    if it[0] == "kind": return [(it[1][0], s, it[1], 0, it[1][0], [])] + [(c[0], s, c, 1, it[1][0], []) for c in it[2]]
    if it[0] == "rec": return [(it[1][0], s, it[1], 2, it[1][0], it[2])]
    if it[0] == "def": return [(it[1][0], s, it[1], 3, it[3][0], it[2])]
    return []
def decls(text): return [d for s, l in lines(text) for d in decls_item(s, item_of(l))]
def used(me, text):
    ws = []
    for s, l in lines(text):
        it = item_of(l)
        if it[0] == "use" and it[1][0] != me and it[1][0] not in ws: ws.append(it[1][0])
    return ws
def in_file(p, f, w):
    if f not in p: return None
    for d in decls(p[f]):
        if d[0] == w: return (f, d)
    return None
def meaning(p, f, w):
    a = in_file(p, f, w)
    if a: return a
    if f not in p: return "unknown"
    r = "unknown"
    for g in used(f, p[f]):
        a = in_file(p, g, w)
        if a: r = a if r == "unknown" else "several"
    return r
def type_named(p, f, w):
    if w == b"num": return "num"
    if w == b"bool": return "bool"
    m = meaning(p, f, w)
    if m in ("unknown", "several"): return None
    return (m[0], m[1][0]) if m[1][3] in (0, 2) else None
def sig_of(p, m):
    if m in ("unknown", "several"): return (m,)
    f, d = m
    sl = [(x[0][0], type_named(p, f, x[1][0])) for x in d[5]]
    if d[3] == 0: return ("type", f, d[0])
    if d[3] == 1: return ("const", f, d[0], type_named(p, f, d[4]))
    if d[3] == 2: return ("rec", f, d[0], sl)
    return ("def", f, d[0], sl, type_named(p, f, d[4]))
# --- check: (type, faults, types, links)
def said(t=None, fs=(), ts=(), ls=()): return (t, list(fs), list(ts), list(ls))
def wrong(t, k): return said(None, [(t[1], t[2], k)])
def join(x, y, o): return (o, x[1]+y[1], x[2]+y[2], x[3]+y[3])
def typed(a, b, s): return (s[0], s[1], s[2] + ([(a, b, s[0])] if s[0] is not None else []), s[3])
def wants(t, a, b, o): return [] if o is None or o == t else [(a, b, 5)]
def slot(t, a, b, o): return [] if t is None else wants(t, a, b, o)
def link_to(t, f, n): return (t[1], t[2], 0, f, n, 0)
def link_local(t, x): return (t[1], t[2], 1, b"", t[0], x[0][1])
def find(g, w):
    for x in g:
        if x[0][0] == w: return x
    return None
def alone(t, s):
    if s[0] == "unknown": return wrong(t, 2)
    if s[0] == "several": return wrong(t, 3)
    l = [link_to(t, s[1], s[2])]
    return said(s[3], [], [], l) if s[0] == "const" else said(None, [(t[1], t[2], 8)], [], l)
def callee(t, s):
    if s[0] == "unknown": return None, wrong(t, 2)
    if s[0] == "several": return None, wrong(t, 3)
    l = [link_to(t, s[1], s[2])]
    if s[0] == "rec": return s[3], said((s[1], s[2]), [], [], l)
    if s[0] == "def": return s[3], said(s[4], [], [], l)
    return None, said(None, [(t[1], t[2], 8)], [], l)
def check(here, there, g, e):
    k = e[0]
    if k == "num": return typed(e[1][1], e[1][2], said("num"))
    if k == "name":
        t = e[1]; x = find(g, t[0])
        return typed(t[1], t[2], alone(t, here(t[0])) if x is None else said(x[1], [], [], [link_local(t, x)]))
    if k == "call":
        f, es, n = e[1], e[2], e[3]; x = find(g, f[0])
        if x is not None: s = join(said(None, [(f[1], f[2], 8)], [], [link_local(f, x)]), checks(here, there, g, [], es), None)
        else:
            ss, c = callee(f, here(f[0]))
            s = join(c, checks(here, there, g, ss or [], es), c[0])
            if ss is not None and len(ss) != len(es): s = (s[0], [(f[1], f[2], 6)] + s[1], s[2], s[3])
        return typed(f[1], n, s)
    if k == "field":
        a = check(here, there, g, e[1]); x = e[2]
        if a[0] is None: r = said()
        elif a[0] in ("num", "bool"): r = wrong(x, 7)
        else:
            s = there(*a[0]); r = wrong(x, 7)
            if s[0] == "rec":
                for nm, ty in s[3]:
                    if nm == x[0]: r = said(ty); break
        return typed(frm(e[1]), x[2], join(a, r, r[0]))
    if k == "op":
        o, ea, eb = e[1], e[2], e[3]; a = check(here, there, g, ea); b = check(here, there, g, eb)
        if o == 3: fs = [] if a[0] is None else wants(a[0], frm(eb), to(eb), b[0])
        else:
            w = "bool" if o >= 5 else "num"; fs = wants(w, frm(ea), to(ea), a[0]) + wants(w, frm(eb), to(eb), b[0])
        j = join(a, b, "bool" if o >= 3 else "num")
        return typed(frm(ea), to(eb), (j[0], j[1] + fs, j[2], j[3]))
    if k == "if":
        n, ea, eb, ec = e[1:]; a, b, c = (check(here, there, g, x) for x in (ea, eb, ec))
        fs = a[1] + wants("bool", frm(ea), to(ea), a[0]) + b[1] + c[1] + ([] if b[0] is None else wants(b[0], frm(ec), to(ec), c[0]))
        return typed(n, to(ec), (b[0] if b[0] is not None else c[0], fs, a[2]+b[2]+c[2], a[3]+b[3]+c[3]))
    if k == "let":
        n, x, ea, eb = e[1:]; a = check(here, there, g, ea); b = check(here, there, [(x, a[0])] + g, eb)
        return typed(n, to(eb), join(a, b, b[0]))
    return check(here, there, g, e[2])
def wanted(o, e, s): return (s[0], s[1] + slot(o, frm(e), to(e), s[0]), s[2], s[3])
def checks(here, there, g, ss, es):
    out = said()
    for i, e in enumerate(es):
        s = check(here, there, g, e)
        out = join(out, wanted(ss[i][1], e, s) if i < len(ss) else s, None)
    return out
def of_type(here, t):
    if t[0] in (b"num", b"bool"): return said(t[0].decode())
    s = here(t[0])
    if s[0] == "unknown": return wrong(t, 2)
    if s[0] == "several": return wrong(t, 3)
    l = [link_to(t, s[1], s[2])]
    return said((s[1], s[2]), [], [], l) if s[0] in ("type", "rec") else said(None, [(t[1], t[2], 8)], [], l)
def again(before, t): return wrong(t, 4) if t[0] in before else said()
def of_fields(here, fs):
    out, seen = said(), []
    for x, t in fs: out = join(join(out, again(seen, x), None), of_type(here, t), None); seen.append(x[0])
    return out
def of_item(me, here, there, file_there, before, it):
    k = it[0]
    if k == "nothing": return said()
    if k == "use":
        t = it[1]
        return said(None, [], [], [(t[1], t[2], 2, t[0], b"", 0)]) if file_there(t[0]) and t[0] != me else wrong(t, 9)
    if k == "kind":
        out, seen = said(), list(before)
        for t in [it[1]] + it[2]: out = join(out, again(seen, t), None); seen.append(t[0])
        return out
    if k == "rec": return join(again(before, it[1]), of_fields(here, it[2]), None)
    if k == "def":
        t, ps, r, e = it[1:]; g = []
        for x, ty in ps: g = [(x, of_type(here, ty)[0])] + g
        rs = of_type(here, r)
        return join(join(join(again(before, t), of_fields(here, ps), None), rs, None), wanted(rs[0], e, check(here, there, g, e)), None)
    return said(None, [(it[1], it[2], 1)])
def spoken(p, f):
    here = lambda w: sig_of(p, meaning(p, f, w))
    there = lambda g, n: sig_of(p, in_file(p, g, n) or "unknown")
    out, before = [], []
    for s, l in lines(p[f]):
        it = item_of(l)
        out.append((s, len(l), of_item(f, here, there, lambda w: w in p, before, it)))
        before += [d[0] for d in decls_item(0, it)]
    return out
# --- answers
def faults(p, f): return None if f not in p else [(s + a, s + b, k) for s, n, x in spoken(p, f) for a, b, k in x[1]]
def line_at(n, ss):
    for s in ss:
        if s[0] <= n <= s[0] + s[1]: return s
def type_at(p, f, n):
    s = line_at(n, spoken(p, f))
    if s is None: return None
    o = None
    for t in s[2][2]:
        if t[0] <= n - s[0] < t[1] and (o is None or t[1] - t[0] < o[1] - o[0]): o = t
    return o[2] if o else None
def where(p, f, n):
    s = line_at(n, spoken(p, f))
    if s is None: return None
    for l in s[2][3]:
        if l[0] <= n - s[0] < l[1]:
            if l[2] == 0:
                a = in_file(p, l[3], l[4])
                return (a[1][1] + a[1][2][1], a[1][1] + a[1][2][2], l[3]) if a else None
            if l[2] == 1: return (s[0] + l[5], s[0] + l[5] + len(l[4]), f)
            return (0, 0, l[3])
    return None
