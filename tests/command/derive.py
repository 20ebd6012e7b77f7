#!/usr/bin/env python3
"""derive.py FOLDER [check]
Writes to FOLDER (../sessions) the stored sessions' NAME.in, and to NAME.out the outputs worked out by
hand for them, in the words of the paper: nothing here computes a standing, a head, a mark, the set
or the list. With "check" it compares the files in FOLDER with these instead of writing them."""
import hashlib
import os
import sys

Z = bytes(32)
TAG = lambda n: bytes([n]) * 16
T1, T2, T3, T4, T5, T6 = (TAG(n * 17) for n in range(1, 7))
MISSING = hashlib.sha256(b"never offered").digest()


class U:
    """An update's bytes with its id."""
    def __init__(self, author, preds, body, version=1, n=None, sort=True):
        ids = [p.id if isinstance(p, U) else p for p in preds]
        if sort:
            ids.sort()
        self.author = author
        self.bytes = bytes([version, author, len(ids) if n is None else n]) + b"".join(ids) + body
        self.id = hashlib.sha256(self.bytes).digest()


def idof(x):
    return x.id if isinstance(x, U) else x


def add(author, preds, tag, **k):
    return U(author, preds, b"\1" + tag, **k)


def remove(author, preds, tag, named, m=None, sort=True):
    ids = [idof(x) for x in named]
    if sort:
        ids.sort()
    return U(author, preds, b"\2" + tag + bytes([len(ids) if m is None else m]) + b"".join(ids))


def insert(author, preds, anchor, value):
    return U(author, preds, b"\3" + idof(anchor) + value)


def delete(author, preds, named):
    return U(author, preds, b"\4" + idof(named))


def line(x):
    """An offer of an update or of bytes; text stands for itself."""
    if isinstance(x, str):
        return x.encode("latin-1")
    return b"(offer " + (x.bytes if isinstance(x, U) else x).hex().encode() + b")"


def report(held=(), heads=(), waiting=(), void=(), marks=(), set=(), list=()):
    """The marks are pairs of an author and its word, the set's entries pairs of a tag and its adding author, each in
    the order in which they are shown."""
    full = lambda us: ["%s %d" % (u.id.hex(), u.author) for u in sorted(us, key=lambda u: u.id)]
    out = ["(ledger 1"]
    for name, lines in [
        ("held", full(held)), ("heads", sorted(u.id.hex() for u in heads)), ("waiting", full(waiting)),
        ("void", full(void)), ("marks", ["%d %s" % m for m in marks]), ("set", ["%s %d" % (t.hex(), a) for t, a in set]),
        ("list", [v.hex() for v in list]),
    ]:
        out += ["(" + name] + ["(" + l + ")" for l in lines] + [")"]
    return "\n".join(out + [")"]) + "\n"


SESSIONS = {}


def session(name, pairs, end=b"\n", **parts):
    """Pairs of a line and its answer, then the parts of the report."""
    data = b"\n".join(line(x) for x, _ in pairs)
    out = "".join("(" + answer + ")\n" for _, answer in pairs) + report(**parts)
    SESSIONS[name] = (data + (end if pairs else b""), out.encode())


H1, W, V1 = "taken held 1 0", "taken waiting 0 0", "taken void 0 1"

# The paper's own example, and inputs with little or nothing in them.
session("paper-example", [("(offer )", "refused 2"), ("(hello)", "unread")])
session("empty", [])
session("only-newlines", [("", "unread"), ("", "unread"), ("", "unread")])

# The sixteen small ledgers.
a = add(1, [], T1)
b = add(1, [a], T2)
session("small-01", [])
session("small-02", [(a, H1)], held=[a], heads=[a], set=[(T1, 1)])
session("small-03", [(b, W)], waiting=[b])
session("small-04", [(b, W), (a, "taken held 2 0")], held=[a, b], heads=[b], set=[(T1, 1), (T2, 1)])
root = add(1, [], T2)
session("small-05", [(a, H1), (root, H1)], held=[a, root], heads=[a, root], marks=[(1, "fork")],
        set=[(T1, 1), (T2, 1)])
session("small-06", [(a, H1), (b, H1)], held=[a, b], heads=[b], set=[(T1, 1), (T2, 1)])
d = add(1, [a, b], T3)
e = add(1, [d], T4)
ab = dict(held=[a, b], heads=[b], set=[(T1, 1), (T2, 1)])
bad_d = dict(marks=[(1, "fault")], **ab)
session("small-07", [(a, H1), (b, H1), (d, V1)], void=[d], **bad_d)
session("small-08", [(a, H1), (b, H1), (d, V1), (e, V1)], void=[d, e], **bad_d)
e = add(1, [d, MISSING], T4)
session("small-09", [(a, H1), (b, H1), (d, V1), (e, V1)], void=[d, e], **bad_d)
r = remove(2, [], T1, [a])
session("small-10", [(a, H1), (r, V1)], held=[a], heads=[a], void=[r], marks=[(2, "fault")], set=[(T1, 1)])
r = remove(2, [a], T1, [a])
session("small-11", [(a, H1), (r, H1)], held=[a, r], heads=[r])
# The other Add by the same author, then by another one, then both.
again, other = add(1, [a], T1), add(3, [], T1)
session("small-12", [(a, H1), (r, H1), (again, H1)], held=[a, r, again], heads=[r, again], set=[(T1, 1)])
session("small-12-another", [(a, H1), (r, H1), (other, H1)], held=[a, r, other], heads=[r, other], set=[(T1, 3)])
session("small-12-both", [(a, H1), (r, H1), (other, H1), (again, H1)], held=[a, r, again, other],
        heads=[r, again, other], set=[(T1, 1), (T1, 3)])
p = insert(1, [], Z, T1)
# The later one has the smaller id, so that ids alone would order them wrongly.
q = next(u for i in range(99) if (u := insert(1, [p], Z, TAG(i))).id < p.id)
session("small-13", [(p, H1), (q, H1)], held=[p, q], heads=[q], list=[q.bytes[-16:], T1])
q = insert(2, [], Z, T2)
p, q = (p, q) if p.id < q.id else (q, p)
session("small-14", [(p, H1), (q, H1)], held=[p, q], heads=[p, q], list=[q.bytes[-16:], p.bytes[-16:]])
p = insert(1, [], Z, T1)
r = insert(2, [p], p, T2)
x = delete(1, [r], p)
session("small-15", [(p, H1), (r, H1), (x, H1)], held=[p, r, x], heads=[x], list=[T2])
r = remove(1, [], T1, [])
session("small-16", [(r, H1)], held=[r], heads=[r])

# A last line without its newline.
session("no-last-newline", [(a, H1), (b, H1)], end=b"", **ab)

# Lengths 19 and 20, 533 and 534.
roots = [add(i, [], T1) for i in range(8)]
one = add(9, [], T2)
most = remove(8, roots, T1, roots)
assert (len(one.bytes), len(most.bytes)) == (20, 533)
session("lengths",
        [(one.bytes[:19], "refused 2"), (one, H1), (most.bytes + b"\0", "refused 2"), (most, W)]
        + [(u, H1) for u in roots[:7]]
        + [(roots[7], "taken held 2 0"), (most, "known held"), (bytes(996), "refused 2")],
        held=roots + [one, most], heads=[one, most], set=[(T2, 9)])

# Authors 15 and 16; marks in numeric order.
two = {n: [add(n, [], T1), add(n, [], T2)] for n in (15, 10, 9, 2)}
zero = add(0, [], T3)
pairs = [(u, H1) for us in two.values() for u in us]
session("authors",
        pairs + [(add(16, [], T1), "refused 4"), (add(255, [], T1), "refused 4"), (zero, H1)],
        held=[u for us in two.values() for u in us] + [zero],
        heads=[u for us in two.values() for u in us] + [zero], marks=[(n, "fork") for n in (2, 9, 10, 15)],
        set=[(T1, 2), (T1, 9), (T1, 10), (T1, 15), (T2, 2), (T2, 9), (T2, 10), (T2, 15), (T3, 0)])

# Counts n and m, 8 and 9.
n8 = add(8, roots, T2)
n9 = add(8, roots + [n8], T2)
m8 = remove(9, [n8], T1, roots)
m9 = remove(9, [n8], T1, roots + [n8])
far = add(8, [hashlib.sha256(bytes([i])).digest() for i in range(8)], T5)
session("counts",
        [(u, H1) for u in roots]
        + [(n9, "refused 5"), (n8, H1), (m9, "refused 8"), (m8, H1), (far, W)],
        held=roots + [n8, m8], heads=[m8], waiting=[far], set=[(T2, 8)])

# Each refusal from 2 to 9, and which of two faults is named.
A, B, C = sorted(hashlib.sha256(bytes([i])).digest() for i in range(3))
tail = b"\1" + T1
good = add(1, [A, B, C], T1)
session("refusals", [
    (b"", "refused 2"), (bytes(19), "refused 2"), (b"\7" * 534, "refused 2"),
    (bytes([0, 16, 9]) + bytes(17), "refused 3"), (bytes([2]) + add(1, [], T1).bytes[1:], "refused 3"),
    (bytes([1, 16, 9]) + bytes(17), "refused 4"),
    (bytes([1, 15, 9]) + bytes(17), "refused 5"), (bytes([1, 15, 255]) + bytes(530), "refused 5"),
    (bytes([1, 15, 1]) + bytes(17), "refused 6"), (bytes([1, 15, 1]) + bytes(32), "refused 6"),
    (bytes([1, 15, 8]) + bytes(256), "refused 6"),
    (bytes([1, 15, 1]) + bytes(32) + b"\0", "refused 7"), (bytes([1, 15, 0, 0]) + bytes(16), "refused 7"),
    (bytes([1, 15, 0, 5]) + bytes(16), "refused 7"), (bytes([1, 15, 0, 255]) + bytes(16), "refused 7"),
    (bytes([1, 15, 2]) + B + A + b"\5", "refused 7"),
    (bytes([1, 15, 1]) + bytes(32) + b"\4", "refused 8"), (bytes([1, 15, 0, 1]) + bytes(17), "refused 8"),
    (bytes([1, 15, 0, 3]) + bytes(47), "refused 8"), (bytes([1, 15, 0, 3]) + bytes(49), "refused 8"),
    (bytes([1, 15, 0, 4]) + bytes(31), "refused 8"), (bytes([1, 15, 0, 4]) + bytes(33), "refused 8"),
    (bytes([1, 15, 0, 2]) + bytes(16), "refused 8"), (bytes([1, 15, 0, 2]) + T1 + b"\1", "refused 8"),
    (bytes([1, 15, 0, 2]) + T1 + b"\0" + A, "refused 8"), (bytes([1, 15, 0, 2]) + T1 + b"\2" + A, "refused 8"),
    (bytes([1, 15, 2]) + B + A + tail + b"\0", "refused 8"),
    (bytes([1, 15, 2]) + B + A + tail, "refused 9"), (bytes([1, 15, 2]) + A + A + tail, "refused 9"),
    (bytes([1, 15, 3]) + A + C + B + tail, "refused 9"),
    (bytes([1, 15, 0, 2]) + T1 + b"\2" + B + A, "refused 9"),
    (bytes([1, 15, 0, 2]) + T1 + b"\2" + A + A, "refused 9"),
    (bytes([1, 15, 1]) + A + b"\2" + T1 + b"\3" + A + C + B, "refused 9"),
    (good, W), (good, "known waiting"),
], waiting=[good])

# The 64th and 65th update; known and malformed ones when full.
chain = [add(3, [], T1)]
while len(chain) < 60:
    chain.append(add(3, [chain[-1]], T1))
vd = add(4, [chain[0], chain[1]], T2)
vc = add(4, [vd], T2)
late = add(6, [], T3)
wt = add(5, [late], T3)
last = insert(6, [], Z, T4)
over = add(7, [], T5)
session("full",
        [(c, H1) for c in chain] + [(vd, V1), (vc, V1), (wt, W), (last, H1)]
        + [(over, "refused 10"), (late, "refused 10"), (chain[0], "known held"), (vd, "known void"),
           (wt, "known waiting"), (last, "known held"), (over.bytes[:19], "refused 2"),
           (over.bytes + b"\0", "refused 8"), ("(offer", "unread"), (over, "refused 10"), (vc, "known void")],
        held=chain + [last], heads=[chain[-1], last], waiting=[wt], void=[vd, vc], marks=[(4, "fault")],
        set=[(T1, 3)], list=[T4])

# The largest report: 64 roots of as many tags, authors 0 to 9 with two each, 10 to 15 with the rest.
many = [add(i // 2 if i < 20 else 10 + i % 6, [], TAG(i)) for i in range(64)]
session("largest", [(u, H1) for u in many], held=many, heads=many, marks=[(n, "fork") for n in range(16)],
        set=[(TAG(i), i // 2 if i < 20 else 10 + i % 6) for i in range(64)])
assert len(SESSIONS["largest"][1]) - 64 * len("(taken held 1 0)\n") == 11_382

# A chain offered backwards; then one that ends in void updates.
c = [add(7, [], T1)]
while len(c) < 6:
    c.append(add(7, [c[-1]], T1))
session("chain-reversed",
        [(u, W) for u in c[:0:-1]] + [(c[0], "taken held 6 0"), (c[5], "known held"), (c[0], "known held")],
        held=c, heads=[c[5]], set=[(T1, 7)])
d = add(7, [c[1], c[3]], T2)
e = add(7, [d], T2)
session("chain-void",
        [(e, W), (d, W), (c[3], W), (d, "known waiting"), (c[2], W), (c[1], W), (c[0], "taken held 4 2"),
         (d, "known void"), (e, "known void"), (c[3], "known held")],
        held=c[:4], heads=[c[3]], void=[d, e], marks=[(7, "fault")], set=[(T1, 7)])

# Forks: two roots; two successors apart; none from a waiting or a void update, none in a chain. z2 is a fault.
f1, f2 = add(1, [], T1), add(1, [], T2)
c1 = add(2, [f1], T1)
c2 = add(2, [c1, f2], T1)
g, h = add(3, [f1], T3), add(3, [f2], T3)
x, y = add(5, [], T5), add(5, [MISSING], T5)
z1 = add(6, [], T6)
z2 = remove(6, [], T6, [z1])
merge = insert(4, [c2, g, h, x, z1], Z, T4)
session("forks",
        [(f1, H1), (f2, H1), (c1, H1), (c2, H1), (g, H1), (h, H1), (x, H1), (y, W), (z1, H1), (z2, V1),
         (merge, H1)],
        held=[f1, f2, c1, c2, g, h, x, z1, merge], heads=[merge], waiting=[y], void=[z2],
        marks=[(1, "fork"), (3, "fork"), (6, "fault")],
        set=[(T1, 1), (T1, 2), (T2, 1), (T3, 3), (T5, 5), (T6, 6)], list=[T4])

# A void cascade, all at once when the root comes last.
a = add(1, [], T1)
b = add(1, [a], T2)
d = add(1, [a, b], T3)                # antichain
e = add(2, [d], T3)                   # below a void one
f = add(2, [e, MISSING], T3)          # the same, another predecessor missing
g = remove(3, [a], T2, [b])           # b no ancestor
i0 = insert(4, [], Z, T4)
h = insert(3, [a], i0, T3)            # i0 no ancestor
k = delete(3, [b], a)                 # a no Insert
l = insert(4, [i0], a, T3)            # a neither
m = add(5, [l, g], T3)                # l void
w = add(6, [MISSING], T3)
w2 = add(6, [w, f], T3)
w3 = add(6, [w, b], T3)
session("void-cascade",
        [(b, W), (d, W), (e, W), (f, W), (g, W), (h, W), (k, W), (i0, H1), (l, V1), (m, V1), (w, W),
         (w2, W), (w3, W), (a, "taken held 2 7"), (w2, "known void"), (w3, "known waiting"), (b, "known held")],
        held=[a, b, i0], heads=[b, i0], waiting=[w, w3], void=[d, e, f, g, h, k, l, m, w2],
        marks=[(1, "fault"), (3, "fault"), (4, "fault")], set=[(T1, 1), (T2, 1)], list=[T4])

# Document 02, E7: author 1 has a fork and a fault, author 9 a fork; two faults of author 10 are one line, one of them
# once the update that it waits for is there; 0 and 15, each with one. Authors 3, 4 and 5 have updates after void ones,
# beside a held, a missing and another void one, and author 6 a bad one that waits: none of them is marked.
x1, x2 = add(1, [], T1), add(1, [], T2)
b1 = remove(1, [x1], T2, [x2])        # x2 no ancestor
x3 = add(2, [x1], T3)
b2 = add(2, [x1, x3], T3)             # antichain
n3, n4, n5 = add(3, [b2, x2], T4), add(4, [b2, MISSING], T4), add(5, [b1, b2], T4)
w6 = remove(6, [MISSING], T1, [x1])
late = add(7, [], T5)
c10, d10 = insert(10, [late], x1, T5), remove(10, [], T1, [x1])  # x1 no Insert; x1 no ancestor
d0 = delete(0, [], x1)                # x1 no ancestor
y15 = add(15, [], T6)
d15 = remove(15, [y15], T1, [y15])    # another tag
s9, t9 = add(9, [], T1), add(9, [], T2)
session("faults",
        [(x1, H1), (x2, H1), (b1, V1), (x3, H1), (b2, V1), (n3, V1), (n4, V1), (n5, V1), (w6, W), (c10, W), (d10, V1),
         (d0, V1), (y15, H1), (d15, V1), (s9, H1), (t9, H1), (late, "taken held 1 1"), (c10, "known void")],
        held=[x1, x2, x3, y15, s9, t9, late], heads=[x2, x3, y15, s9, t9, late], waiting=[w6],
        void=[b1, b2, n3, n4, n5, c10, d10, d0, d15],
        marks=[(0, "fault"), (1, "both"), (2, "fault"), (9, "fork"), (10, "fault"), (15, "fault")],
        set=[(T1, 1), (T1, 9), (T2, 1), (T2, 9), (T3, 2), (T5, 7), (T6, 15)])

# The list: rank before id among siblings, a deleted entry's children, deletes twice.
p = insert(1, [], Z, T1)                                                  # rank 0
w = next(u for i in range(99) if (u := insert(4, [], Z, TAG(i))).id > p.id)  # rank 0, larger id
q = insert(1, [p], Z, T2)                                                 # rank 1
r = insert(2, [p], p, T3)                                                 # rank 1
s = next(u for i in range(99) if (u := insert(3, [p], p, TAG(i))).id > r.id)  # rank 1, larger id
u = insert(1, [q], p, T4)                                                 # rank 2
v = insert(2, [r], r, T5)                                                 # under r
d1, d2, d3 = delete(3, [s], p), delete(2, [v], p), delete(1, [u], u)
x = insert(1, [d3], u, T6)                                                # under a deleted entry
dv, dw = delete(5, [], w), delete(5, [w, MISSING], w)                     # void, waiting: w stays
val = lambda y: y.bytes[-16:]
session("list",
        [(y, H1) for y in (p, w, q, r, s, u, v, d1, d2, d3, x)] + [(dv, V1), (dw, W)],
        held=[p, w, q, r, s, u, v, d1, d2, d3, x], heads=[w, x, d1, d2], waiting=[dw], void=[dv],
        marks=[(5, "fault")], list=[T2, val(w), T6, val(s), T3, T5])

# Rank is the number of ancestors, not the length of the longest chain below.
c1 = add(1, [], T1)
c2 = add(1, [c1], T1)
deep = insert(1, [c2], Z, T2)                                             # rank 2
flat = [add(n, [], T1) for n in (2, 3, 4)]
broad = insert(2, flat, Z, T3)                                            # rank 3
session("list-rank", [(y, H1) for y in [c1, c2, deep] + flat + [broad]],
        held=[c1, c2, deep, broad] + flat, heads=[deep, broad],
        set=[(T1, 1), (T1, 2), (T1, 3), (T1, 4)], list=[T3, T2])

# The set: an Add survives a Remove that does not name it; m = 0; other tags and no ancestors.
a1, a2 = add(1, [], T2), add(2, [], T2)
r1 = remove(1, [a1], T2, [a1])
a3 = add(3, [], T1)
r2 = remove(3, [a3], T1, [])
r3 = remove(3, [r2], T1, [a3])
r4 = remove(4, [a3], T1, [a3])
a4 = add(3, [r3], T1)
a5 = add(5, [], T3)
r5, r6 = remove(5, [a5], T2, [a5]), remove(5, [a5], T2, [a2])
a6 = add(6, [], T4)
r7 = remove(6, [a6], T4, [a6])
r8, r9 = remove(7, [], T3, [a5]), remove(7, [r1], T2, [r1])
session("set",
        [(a1, H1), (a2, H1), (r1, H1), (a3, H1), (r2, H1), (r3, H1), (r4, H1), (a4, H1), (a5, H1), (r5, V1),
         (r6, V1), (a6, H1), (r7, H1), (r8, V1), (r9, V1)],
        held=[a1, a2, r1, a3, r2, r3, r4, a4, a5, a6, r7], heads=[a2, r1, r4, a4, a5, r7],
        void=[r5, r6, r8, r9], marks=[(5, "fault"), (7, "fault")], set=[(T1, 3), (T2, 2), (T3, 5)])

# Document 02, E5: entries by tag, then by author as a number. Author 2's Add of T1 is removed, author 10's two
# stay, and show once; a Remove names two authors' Adds of T2 and leaves the third; of author 6's two Adds of T3
# one is removed; T4 comes back by two others than who added and who removed it; 2 stands before 10 at T5.
low = add(15, [], TAG(1))
m2, m10 = add(2, [], T1), add(10, [], T1)
n10 = add(10, [m10], T1)
r1 = remove(3, [m2], T1, [m2])
x4, x11, x12 = add(4, [], T2), add(11, [], T2), add(12, [], T2)
r2 = remove(5, [x4, x11], T2, [x4, x11])
y1 = add(6, [], T3)
y2 = add(6, [y1], T3)
r3 = remove(7, [y1], T3, [y1])
z8 = add(8, [], T4)
r4 = remove(13, [z8], T4, [z8])
z9, z1 = add(9, [r4], T4), add(1, [r4], T4)
w10, w2 = add(10, [n10], T5), add(2, [m2], T5)
shared = [low, m2, m10, n10, r1, x4, x11, x12, r2, y1, y2, r3, z8, r4, z9, z1, w10, w2]
session("shared-tags", [(w, H1) for w in shared], held=shared, heads=[low, r1, x12, r2, y2, r3, z9, z1, w10, w2],
        set=[(TAG(1), 15), (T1, 10), (T2, 12), (T3, 6), (T4, 1), (T4, 9), (T5, 2), (T5, 10)])

# Zero ids: the beginning as an anchor, an ordinary id elsewhere.
p = insert(1, [], Z, T1)
q = insert(1, [Z], Z, T2)
dz, dr = delete(2, [p], Z), delete(2, [], Z)
rz = remove(3, [], TAG(0), [Z])
az = add(3, [], TAG(0))
ra = remove(3, [az], TAG(0), [Z, az])
n2 = add(4, [Z, p], T2)
vz = add(5, [Z, dz], T2)
pv = insert(6, [p], p, TAG(0))
session("zero-ids",
        [(p, H1), (q, W), (dz, V1), (dr, V1), (rz, V1), (az, H1), (ra, V1), (n2, W),
         (add(4, [Z, Z], T2), "refused 9"), (vz, V1), (pv, H1)],
        held=[p, az, pv], heads=[az, pv], waiting=[q, n2], void=[dz, dr, rz, ra, vz],
        marks=[(2, "fault"), (3, "fault")], set=[(TAG(0), 3)], list=[T1, TAG(0)])

# Lines of 2,000 characters and about it, the last one too long and without newline.
offer = lambda digits: "(offer " + "0" * digits + ")"
assert [len(offer(n)) for n in (1992, 1993, 1994)] == [2000, 2001, 2002]
a = add(1, [], T1)
text = line(a).decode()
session("lines",
        [(offer(1990), "refused 2"), (offer(1992), "refused 2"), (offer(1993), "unread"), (offer(1994), "unread"),
         (offer(1996), "unread"), ("x" * 1999, "unread"), ("x" * 2000, "unread"), ("x" * 2001, "unread"),
         ("(offer" + " " * 1994 + text, "unread"), ("(offer )" + " " * 1993 + text, "unread"),
         (" " * 2001 + text, "unread"), (" " * 20000 + text, "unread"), (a, H1), (offer(1994), "unread")],
        end=b"", held=[a], heads=[a], set=[(T1, 1)])

# Lines that do not read as offers.
body = text[7:-1]
session("garbage",
        [(t, "unread") for t in (
            "", "\0", "\xff", "\xff" * 30, "(", ")", "()", "(offer", "(offer ", "(offer)", "offer )", "(offer  )",
            "(offer ) ", " (offer )", "(offer )\r", "(offer ))", "((offer )", "(OFFER )", "(offer\t)", "(offer\0)",
            "(offer 0)", "(offer 00 00)", "(offer 000)", "(offer 0A)", "(offer A0)", "(offer 0g)", "(offer 0/)",
            "(offer 0:)", "(offer 0`)", "(offer \xff\xff)", "(offer 0\0)", "(offer )(offer )", "\xef\xbb\xbf(offer )",
            text[:-1], text[1:], text + "\r", text + text, "(offer " + body.upper() + "AA)", "(offer " + body[1:] + ")",
            "(offer 0x" + body + ")", "(taken held 1 0)", "(ledger 1")]
        + [("(offer 00)", "refused 2"), (a, H1), (a, "known held"), ("(offer )", "refused 2")],
        held=[a], heads=[a], set=[(T1, 1)])

# Every byte but the newline: as a line, and in either place of a pair of digits. One byte is too short an
# update, so the 16 digits give 2. Then runs of the bytes 0 and 255, the last one without newline.
others = [chr(v) for v in range(256) if v != 10]
as_digit = lambda v: "refused 2" if v in "0123456789abcdef" else "unread"
session("every-byte",
        [(v, "unread") for v in others]
        + [("(offer " + v + "0)", as_digit(v)) for v in others]
        + [("(offer 0" + v + ")", as_digit(v)) for v in others]
        + [("\0" * 2000, "unread"), ("\0" * 2001, "unread"), ("\xff" * 2000, "unread"), ("\xff" * 2001, "unread"),
           ("\0", "unread"), ("\xff", "unread"), ("\0" + text, "unread"), (text + "\xff", "unread"), ("\0", "unread")],
        end=b"")

# Last lines without newline: one of 2,000 characters; one that stops before its bracket.
session("last-line-longest", [(a, H1), (offer(1992), "refused 2")], end=b"", held=[a], heads=[a], set=[(T1, 1)])
session("last-line-cut", [(a, H1), (line(add(1, [a], T2)).decode()[:-1], "unread")], end=b"",
        held=[a], heads=[a], set=[(T1, 1)])

# An offer across byte 65,536 of the input, and one that begins at byte 131,072.
b = add(1, [a], T2)
blocks = [("x" * 65500, "unread"), (a, H1)]
blocks.append(("x" * (131071 - sum(len(line(x)) + 1 for x, _ in blocks)), "unread"))
assert [sum(len(line(x)) + 1 for x, _ in blocks[:n]) for n in (1, 2, 3)] == [65501, 65550, 131072]
session("blocks", blocks + [(b, H1)], held=[a, b], heads=[b], set=[(T1, 1), (T2, 1)])

# The session that the README explains line by line.
text16 = lambda t: t.ljust(16, ".").encode()
hours = add(1, [], text16("mon 08-10"))
barley = insert(1, [hours], Z, text16("barley"))
rye = insert(2, [barley], barley, text16("rye"))
later = add(1, [hours], text16("mon 10-12"))
oats = insert(3, [rye, later], Z, text16("oats"))
gone = remove(2, [oats], text16("mon 08-10"), [hours])
same_hours = add(6, [gone], text16("mon 10-12"))
tue = add(4, [gone, b"\xab" * 32], text16("tue 08-10"))
wrong = remove(5, [], text16("mon 08-10"), [hours])
session("example",
        [(barley, W), (hours, "taken held 2 0"), (rye, H1), (later, H1), (oats, H1), (gone, H1), (same_hours, H1),
         (tue, W), (wrong, V1), (hours, "known held"), (b"\1\2", "refused 2"), ("hello", "unread")],
        held=[hours, barley, rye, later, oats, gone, same_hours], heads=[same_hours], waiting=[tue], void=[wrong],
        marks=[(1, "fork"), (5, "fault")], set=[(text16("mon 10-12"), 1), (text16("mon 10-12"), 6)],
        list=[text16("oats"), text16("barley"), text16("rye")])


def read(path):
    """A file's bytes; None if it is not there."""
    return open(path, "rb").read() if os.path.exists(path) else None


def main():
    folder = sys.argv[1]
    wrong = 0
    for name, (data, out) in SESSIONS.items():
        base = os.path.join(folder, name)
        if sys.argv[2:] == ["check"]:
            if read(base + ".in") != data or read(base + ".out") != out:
                wrong += 1
                print("DIFFERENT", name)
        else:
            open(base + ".in", "wb").write(data)
            open(base + ".out", "wb").write(out)
    print(len(SESSIONS), "sessions,", wrong, "different")
    sys.exit(wrong > 0)


main()
