#!/usr/bin/env python3
"""Holds `step` (crates/semantics/specs) against the Python model of document 01, by computation.

    agree.py [--seed N] [--runs N] [--steps N] [--with SET] [--model FOLDER] --out CRATE     writes the crate `agree`
    agree.py .. --check REPO                                                                 checks it in a copy of REPO

The model is tools/model, or that of another FOLDER, and answers by the requests of document 02 in SET, else by those that
have landed (landed.py). The unit of comparison is one step: a whole state before, a call, its number, the whole state after,
and of finish the output. Steps come from

- random runs from a fresh builder, in half of them with pokes between the calls;
- for each step of a run, steps one off from it: the same state and call but for one number one
  more or less, those of marks and undo records too, one flag turned, one bit of a list's data at its close,
  one byte or number more or less lent .., chosen where the number changes. If the one has number n and the
  other a later one or none, the other just misses n;
- all one-off steps of a few states in which everything that number 1 asks just holds;
- written cases: 64 open, the widths' and ranges' edges, at each floor, numbers to 2^64 - 1, lists whose
  data is as many values as they count, or just not, 16 marks and one more, records undone.

Each step becomes an antt term; a module shows `faults steps ≡ []` by refl: the places of the steps
that differ. All that document 01 fixes is compared whole. Of what it leaves free: the freed
entries of a closed object are expected sorted, as crates/semantics/specs says; the containers beyond
the new depth are not compared (those not open beforehand are given to both sides differently), nor
is an object's count of elements, nor a mark that is not set.
"""
import argparse
import collections
import copy
import os
import random
import re
import shutil
import subprocess
import sys
import tempfile
import time

from landed import LANDED

KINDS_OF_CALL = ("register", "append", "open", "close", "rollback", "unique", "finish", "mark", "return")
ORDER = (1, 2, 3, 4, 5, 6, 22, 18, 7, 17, 8, 9, 10, 11, 12, 13, 23, 14, 15, 16)     # of checking
NAMES = [b"a", b"b", b"c", b"ab", b"", b"\xc3\xa9", b"z", b"a", b"b", b"abc"]
BAD_NAMES = [b"\xff", b"\xc3", b"a\x80", b"\xed\xa0\x80", b"\xe0\x9f\xbf", b"\xf4\x90\x80\x80", b"\xc1\xbf"]
EDGE_TEXTS = [b"\xc2\x80", b"\xdf\xbf", b"\xe0\xa0\x80", b"\xed\x9f\xbf", b"\xee\x80\x80", b"\xef\xbf\xbf",
              b"\xf0\x90\x80\x80", b"\xf4\x8f\xbf\xbf", b"\xf3\xbf\xbf\xbf", b"\x7f", b"\x00"]
TOP = 2**64 - 1
FLOORS = (1, 2, 3, 4)
BAD_FLOORS = (0, 5, 6, TOP)


def floors(model):
    """Those that a builder may have: by A10 four, else one."""
    return FLOORS if "A10" in model.on else (1,)


def twin(b):
    """A copy of a builder and its storage."""
    r, s = copy.copy(b.r), copy.copy(b.s)
    r.containers = [copy.copy(c) if i < b.r.open else c for i, c in enumerate(r.containers)]
    s.value, s.namebytes, s.nameends, s.entries, s.undo = s.value[:], s.namebytes[:], s.nameends[:], s.entries[:], s.undo[:]
    return type(b)(r, s, b.on)


# ---------------------------------------------------------------- a step

class Step:
    """A state before, a call, the model's number and state after, and finish's output after."""

    def __init__(self, model, before, call, origin):
        self.before, self.call, self.origin = before, call, origin
        after = twin(before)
        self.written = 0
        self.output = bytearray(call[1]) if call[0] == "finish" else bytearray()
        if call[0] == "finish":
            self.number, self.written = after.finish(self.output)
        else:
            self.number = {"register": after.register, "append": after.append, "open": after.open,
                           "close": after.close, "rollback": after.rollback, "unique": after.set_unique,
                           "mark": after.mark, "return": after.return_to}[call[0]](*call[1:])
        self.after = after

    @staticmethod
    def key_of(b):
        r, s = b.r, b.s
        return repr((r.value_used, r.names_used, r.namebytes_used, r.entries_used, r.undo_used, r.open, r.unique,
                     r.finished, r.floor, r.containers[:r.open], s.value, s.namebytes, s.nameends, s.entries, s.undo))

    def key(self):
        return self.key_of(self.before) + repr(self.call)

    def entries_after(self):
        """The model's, but the freed entries of a closed object in sorted order."""
        b = self.before
        if self.number or self.call[0] != "close" or b.innermost().kind != "object":
            return self.after.s.entries
        fields = sorted(b.entries_of(b.r.open - 1), key=lambda f: b.name(f[0]))
        out, at = list(self.after.s.entries), 2 * b.innermost().entries
        out[at:at + 2 * len(fields)] = [n for f in fields for n in f]
        return out


# ---------------------------------------------------------------- random runs

def random_scalar(rng):
    kind = rng.choice(["null", "true", "false", "int8", "int8", "int16", "int32", "int64", "date", "time", "tsmicros",
                       "tsntzmicros", "tsnanos", "tsntznanos", "float", "double", "dec4", "dec8", "dec16", "binary",
                       "string", "short", "text", "text", "uuid", "null", "int8", "text"])
    bits = {"int8": 8, "int16": 16, "int32": 32, "int64": 64, "date": 32, "time": 64, "tsmicros": 64,
            "tsntzmicros": 64, "tsnanos": 64, "tsntznanos": 64, "dec4": 32, "dec8": 64, "dec16": 128}
    if kind in ("null", "true", "false"):
        return (kind,)
    if kind in ("float", "double"):
        return (kind, rng.getrandbits(32 if kind == "float" else 64))
    if kind == "uuid":
        return (kind, bytes(rng.randrange(256) for _ in range(16)))
    if kind in ("binary", "string", "short", "text"):
        pick = rng.random()
        if pick < 0.7:
            return (kind, b"".join(rng.choice(NAMES) for _ in range(rng.randrange(4))))
        if pick < 0.8:
            return (kind, rng.choice(EDGE_TEXTS))
        if pick < 0.9:
            return (kind, rng.choice(BAD_NAMES))
        return (kind, b"x" * rng.choice([10, 20, 62, 63, 64]))
    top = 1 << bits[kind] - 1
    small = rng.choice([0, 1, -1, 5, -2, 127, -128])
    edge = rng.choice([top - 1, -top, rng.randrange(-top, top)])
    if kind == "time":
        return (kind, rng.choice([0, 1, -1, 86_399_999_999, 86_400_000_000, edge, 77, 12345]))
    if kind.startswith("dec"):
        most = {"dec4": 10**9 - 1, "dec8": 10**18 - 1, "dec16": 10**38 - 1}[kind]
        return (kind, rng.choice([0, 2, 37, 38, 38, 39, 255]), rng.choice([small, edge, most, -most, most + 1, -most - 1, small]))
    return (kind, rng.choice([small, small, edge]))


def random_name(rng):
    return rng.choice(BAD_NAMES) if rng.random() < 0.06 else rng.choice(NAMES + EDGE_TEXTS[:2]) if rng.random() < 0.9 else b"abcdefgh"


def ample_call(rng, b):
    """Mostly accepted: few names, short scalars, replaced fields, children closed and rolled back."""
    inner = b.r.containers[b.r.open - 1] if 0 < b.r.open <= 64 else None
    if inner is None or rng.random() < 0.05:
        return random_call(rng, b) if b.r.value_used or rng.random() < 0.2 else ("open", None, rng.choice(["object", "object", "list"]))
    name = rng.choice([b"b", b"a", b"ab", b"a", b"b", b""]) if inner.kind == "object" else None
    verbs = ("append", "open", "close", "rollback", "unique", "mark", "return")
    marks = (3, 4 if inner.marks else 0.2) if "A9" in b.on else (0, 0)
    verb = rng.choices(verbs, (*((9, 7, 1, 1, 1) if b.r.open == 1 else (5, 4, 4, 6, 1)), *marks))[0]
    if verb == "append":
        return (verb, name, rng.choice([("null",), ("int8", rng.randrange(-128, 128)), ("text", b"hi"), ("true",)]))
    if verb == "open":
        return (verb, name, rng.choice(["list", "object", "object"]))
    if verb == "return":
        return (verb, returned(rng, inner))
    return (verb, rng.random() < 0.3) if verb == "unique" else (verb,)


def returned(rng, inner):
    """The mark that a return goes to, mostly one that is set."""
    marks = inner.marks if inner else 0
    return rng.choice([0, 1, 1, 2, marks, marks, max(marks - 1, 0), marks + 1 if marks < TOP else 16, 17, TOP])


def random_call(rng, b):
    inner = b.r.containers[b.r.open - 1] if 0 < b.r.open <= 64 else None
    named = inner is not None and inner.kind == "object"
    if rng.random() < 0.06:
        named = not named
    name = None
    if named:
        name = rng.choice(b.names()) if rng.random() < 0.4 and not b.broken(names=True) and b.r.names_used else random_name(rng)
    if inner is None:
        weights = (5, 3, 14, 1, 1, 1, 2, 1, 1) if b.r.value_used == 0 else (4, 2, 2, 1, 1, 1, 5, 1, 1)
    else:
        weights = (1, 14, 8, 6, 4, 2, 1, 4, 5 if inner.marks else 0.5)
    if "A9" not in b.on:
        weights = (*weights[:7], 0, 0)
    verb = rng.choices(KINDS_OF_CALL, weights)[0]
    if verb == "register":
        return (verb, random_name(rng))
    if verb == "append":
        return (verb, name, random_scalar(rng))
    if verb == "open":
        return (verb, name, rng.choice(["list", "object", "object"]))
    if verb == "unique":
        return (verb, rng.random() < 0.5)
    if verb == "finish":
        return (verb, bytes([rng.randrange(256)]) * rng.choice([0, 2, 3, 5, 9, 30, 30, 30]))
    return (verb, returned(rng, inner)) if verb == "return" else (verb,)


def near(rng, n):
    return rng.choice([max(n - 1, 0), n + 1, n, 0, 1, 2, rng.randrange(12), TOP, 2**32 - 1, 2**32, n + 1])


def random_poke(rng, b):
    """The words of a poke that the model's grammar has."""
    r, s = b.r, b.s
    depth = min(r.open, 64)
    what = rng.choice(["count", "flag", "container", "container", "value", "namebytes", "nameend", "entry", "entry",
                       *["floor"] * ("A10" in b.on), *["mark", "mark", "mark", "undo"] * ("A9" in b.on)])
    if what == "count":
        field = rng.choice(["value_used", "names_used", "namebytes_used", "entries_used", "open", *["undo_used"] * ("A9" in b.on)])
        return [field, near(rng, getattr(r, field))]
    if what == "flag":
        return [rng.choice(["unique", "finished"]), rng.randrange(2)]
    marked = [i for i in range(depth) if r.containers[i].marks]
    if what == "mark" and marked:
        i = rng.choice(marked)
        k = rng.randint(1, min(r.containers[i].marks, 16))
        key = rng.choice(["value", "names", "namebytes", "entries", "count", "undo", "unique"])
        return ["mark", i, k, key, rng.randrange(2) if key == "unique" else near(rng, getattr(r.containers[i].slots[k - 1], key))]
    if what == "undo" and len(s.undo) > 1:
        return [what, rng.randrange(len(s.undo) // 2), rng.randrange(4), near(rng, rng.randrange(6))]
    if what == "floor":
        return ["floor", rng.choice([*FLOORS, *BAD_FLOORS])]
    if what == "container" and depth:
        i = rng.randrange(depth)
        c = r.containers[i]
        key = rng.choice(["value", "names", "namebytes", "entries", "kind", "unique", "entry", "entry", *["count"] * 3 * ("A8" in b.on),
                          *["undo", "undo", "marks"] * ("A9" in b.on)])
        if key == "kind":
            return ["container", i, key, rng.choice(["list", "object"])]
        if key == "unique":
            return ["container", i, key, rng.randrange(2)]
        if key == "entry":
            return ["container", i, key] + (["new"] if rng.random() < 0.3 else ["replaced", rng.randrange(4), rng.randrange(6)])
        return ["container", i, key, near(rng, getattr(c, key))]
    if what in ("value", "namebytes") and len(getattr(s, what)):
        return [what, rng.randrange(len(getattr(s, what))), f"{rng.randrange(256):02x}"]
    if what == "nameend" and s.nameends:
        k = rng.randrange(len(s.nameends))
        return [what, k, near(rng, s.nameends[k])]
    if what == "entry" and len(s.entries) > 1:
        k = rng.randrange(len(s.entries) // 2)
        return [what, k, near(rng, s.entries[2 * k]) if rng.random() < 0.5 else s.entries[2 * k], near(rng, s.entries[2 * k + 1])]
    return ["unique", rng.randrange(2)]


def random_run(model, rng, number):
    big = rng.random()
    settings = {"unique": rng.randrange(2), "value": rng.choice([rng.randrange(12), rng.randrange(41), 40, 40]),
                "namebytes": rng.choice([rng.randrange(5), 10, 12]), "names": rng.choice([rng.randrange(4), 6, 8]),
                "entries": rng.choice([rng.randrange(6), 9, 12, 12]), "undo": rng.choice([rng.randrange(6), 6, 8]),
                "fill": rng.choice([0, 1, 238, 255, TOP])}
    ample = big < 0.35
    if ample:
        settings.update(unique=int(rng.random() < 0.2), value=60, namebytes=8, names=5, entries=20, undo=rng.choice([2, 4, 8, 8]))
    settings["floor"] = rng.choice([1, *floors(model)])
    b = model.fresh(settings, model.on)
    for c in b.r.containers:
        c.value = c.names = c.namebytes = c.entries = c.undo = c.marks = rng.randrange(3)
    if rng.random() < 0.5:
        b.s.value[:] = bytes(rng.randrange(256) for _ in b.s.value)
        b.s.namebytes[:] = bytes(rng.randrange(256) for _ in b.s.namebytes)
        b.s.nameends[:] = [rng.randrange(20) for _ in b.s.nameends]
        b.s.entries[:] = [rng.randrange(20) for _ in b.s.entries]
        b.s.undo[:] = [rng.randrange(20) for _ in b.s.undo]
    poked = rng.random() < 0.5
    steps = []
    for _ in range(rng.randrange(12, 28) if ample else rng.randrange(6, 18)):
        if b.r.finished and rng.random() < 0.4 or ample and b.r.open == 0 and b.r.value_used and rng.random() < 0.3:
            break
        if poked and rng.random() < 0.3:
            kept = twin(b)
            model.poke(b, random_poke(rng, b))
            if b.broken() and rng.random() < 0.7:
                b = kept  # or most of these runs would be number 1 to their end
        step = Step(model, twin(b), (ample_call if ample else random_call)(rng, b), f"run {number}")
        steps.append(step)
        b = twin(step.after)
    return steps


# ---------------------------------------------------------------- one off

def one_off(before, call):
    """All states and calls that differ from these in one small thing."""
    def state(change):
        b = twin(before)
        change(b)
        return b, call

    r, s = before.r, before.s
    for field in ("value", "namebytes", "nameends", "entries", *["undo"] * ("A9" in before.on)):
        yield lambda f=field: state(lambda b: getattr(b.s, f).append(0))
        if len(getattr(s, field)):
            yield lambda f=field: state(lambda b: getattr(b.s, f).pop())
    for field in ("value_used", "names_used", "namebytes_used", "entries_used", "open", *["undo_used"] * ("A9" in before.on)):
        yield lambda f=field: state(lambda b: setattr(b.r, f, getattr(b.r, f) + 1))
        if getattr(r, field):
            yield lambda f=field: state(lambda b: setattr(b.r, f, getattr(b.r, f) - 1))
    for field in ("unique", "finished"):
        yield lambda f=field: state(lambda b: setattr(b.r, f, not getattr(b.r, f)))
    for floor in (r.floor - 1, r.floor + 1) if "A10" in before.on else ():
        if 0 <= floor <= TOP:
            yield lambda n=floor: state(lambda b: setattr(b.r, "floor", n))
    for i in range(min(r.open, 64)):
        c = r.containers[i]
        for field in ("value", "names", "namebytes", "entries", *["count"] * ("A8" in before.on), *["undo", "marks"] * ("A9" in before.on)):
            for d in (1, -1):
                if getattr(c, field) + d >= 0:
                    yield lambda i=i, f=field, d=d: state(
                        lambda b: setattr(b.r.containers[i], f, getattr(b.r.containers[i], f) + d))
        yield lambda i=i: state(lambda b: setattr(
            b.r.containers[i], "kind", "list" if b.r.containers[i].kind == "object" else "object"))
        yield lambda i=i: state(lambda b: setattr(b.r.containers[i], "unique", not b.r.containers[i].unique))
        entries = [("new",)]
        if c.entry[0] == "replaced":
            _, ident, former = c.entry
            entries += [("replaced", ident + 1, former), ("replaced", ident, former + 1)]
            entries += [("replaced", ident - 1, former)] if ident else []
            entries += [("replaced", ident, former - 1)] if former else []
        else:
            entries += [("replaced", k, o) for k in (0, 1) for o in (0, 2)]
        for e in entries:
            yield lambda i=i, e=e: state(lambda b: setattr(b.r.containers[i], "entry", e))
        for k, m in enumerate(c.slots[:min(c.marks, 16)] if "A9" in before.on else ()):
            for part in marks_one_off(m):
                slots = (*c.slots[:k], part, *c.slots[k + 1:])
                yield lambda i=i, slots=slots: state(lambda b: setattr(b.r.containers[i], "slots", slots))
    for field, used in (("nameends", min(r.names_used, len(s.nameends))), ("entries", min(2 * r.entries_used, len(s.entries))),
                        ("undo", min(2 * r.undo_used, len(s.undo)) if "A9" in before.on else 0)):
        for k in range(used):
            for d in (1, -1):
                if 0 <= getattr(s, field)[k] + d <= TOP:
                    def moved(b, f=field, k=k, d=d):
                        getattr(b.s, f)[k] += d
                    yield lambda m=moved: state(m)
    if "A8" in before.on and call[0] == "close" and 0 < r.open <= 64:
        for k in range(before.innermost().value, min(r.value_used, len(s.value))):
            for bit in (1, 4, 16, 64, 128):
                def turned(b, k=k, bit=bit):
                    b.s.value[k] ^= bit
                yield lambda m=turned: state(m)
    yield from ((lambda c=c: (twin(before), c)) for c in calls_one_off(call))


def marks_one_off(mark):
    yield mark._replace(unique=not mark.unique)
    for field in ("value", "names", "namebytes", "entries", "undo", "count"):
        yield mark._replace(**{field: getattr(mark, field) + 1})
        if getattr(mark, field):
            yield mark._replace(**{field: getattr(mark, field) - 1})


def bytes_one_off(data):
    if data:
        yield data[:-1]
        yield data[:-1] + bytes([data[-1] ^ 1])
        yield data[:-1] + bytes([data[-1] ^ 0x80])
    yield data + b"a"
    yield data + b"\x80"


def calls_one_off(call):
    verb = call[0]
    if verb == "register":
        yield from ((verb, n) for n in bytes_one_off(call[1]))
    elif verb in ("append", "open"):
        name, last = call[1], call[2]
        if name is None:
            yield (verb, b"a", last)
        else:
            yield (verb, None, last)
            yield from ((verb, n, last) for n in bytes_one_off(name))
        if verb == "append":
            yield from ((verb, name, v) for v in scalars_one_off(last))
    elif verb == "return":
        yield from ((verb, n) for n in (call[1] - 1, call[1] + 1) if 0 <= n <= TOP)
    elif verb == "finish":
        yield (verb, call[1] + b"\x07")
        if call[1]:
            yield (verb, call[1][:-1])


def scalars_one_off(v):
    kind = v[0]
    if kind == "time" or kind.startswith("dec"):
        bits = {"time": 64, "dec4": 32, "dec8": 64, "dec16": 128}[kind]
        for d in (1, -1):
            n = v[-1] + d
            if -(1 << bits - 1) <= n < 1 << bits - 1:
                yield (*v[:-1], n)
            if len(v) == 3 and 0 <= v[1] + d <= 255:
                yield (kind, v[1] + d, v[2])
    if kind in ("string", "short", "text", "binary"):
        yield from ((kind, b) for b in bytes_one_off(v[1]))
        yield from ((k, v[1]) for k in ("string", "short", "text", "binary") if k != kind)


def later(a, b):
    """The number b comes after a in the order of checking; 0 is none."""
    return a != 0 and (b == 0 or ORDER.index(b) > ORDER.index(a))


# ---------------------------------------------------------------- written cases

def written(model):
    """States and calls at the edges that random runs don't come to."""
    def builder(value=40, namebytes=8, names=8, entries=12, fill=0, floor=1, undo=8):
        return model.fresh({"unique": 0, "value": value, "namebytes": namebytes, "names": names, "entries": entries, "fill": fill,
                            "floor": floor, "undo": undo}, model.on)

    def after(b, *calls):
        for c in calls:
            if Step(model, b, c, "").number:
                raise AssertionError("a written case's beginning is refused")
            b = Step(model, b, c, "").after
        return b

    def deep(n, kind):
        b = builder(entries=130)
        for i in range(n):
            b = after(b, ("open", b"a" if i and kind == "object" else None, kind))
        return b

    for kind in ("list", "object"):
        name = b"a" if kind == "object" else None
        for n in (62, 63, 64):
            b = deep(n, kind)
            for call in (("open", name, "list"), ("append", name, ("null",)), ("close",), ("rollback",), ("finish", bytes(30)), ("unique", True)):
                yield b, call
        for n in (64, 65, 66, 2**32, TOP):
            b = deep(64, kind)
            b.r.open = n
            for call in (("open", name, "list"), ("close",), ("rollback",), ("unique", True), ("finish", bytes(30)), ("register", b"a")):
                yield b, call
    for n in (63, 64):
        for unique in (False, True):
            b = deep(n, "object")
            b.r.containers[n - 1].unique = unique
            full = twin(b)
            full.s.nameends, full.s.entries = full.s.nameends[:1], full.s.entries[:2 * full.r.entries_used]
            live = after(b, ("append", b"a", ("null",)))
            for c in (b, full, live):
                for name in (b"a", b"b", b"\xff", None):
                    yield c, ("open", name, "object")
    for floor in floors(model):
        yield from at_edges(builder, after, floor)
    # nothing in them, and every floor there is at every call, finished or not
    calls = (("append", None, ("null",)), ("append", b"a", ("null",)), ("open", None, "list"), ("close",), ("rollback",), ("unique", True),
             ("register", b"a"), ("finish", bytes(12)))
    for floor in (*FLOORS, *BAD_FLOORS) if "A10" in model.on else ():
        for b in (builder(), after(builder(), ("append", None, ("null",))), after(builder(), ("open", None, "object")),
                  after(builder(), ("open", None, "list")), after(builder(), ("append", None, ("null",)), ("finish", bytes(3)))):
            b.r.floor = floor
            for call in calls:
                yield b, call
    # an object of 256 entries, all of one id or of alternating ids of equal names
    b = builder(value=1300, entries=512, names=4, namebytes=4)
    b = after(b, ("register", b"b"), ("register", b"a"), ("open", None, "object"))
    b.r.entries_used, b.r.value_used = 256, 256
    b.s.entries[:] = [n for k in range(256) for n in (k % 2, 255 - k)]
    yield b, ("close",)
    # equal names and ids in foreign storage
    b = after(builder(), ("register", b"b"), ("register", b"a"), ("open", None, "object"))
    b.s.namebytes[:4], b.s.nameends[:4] = b"baab", [1, 2, 3, 4]
    b.r.names_used = b.r.namebytes_used = 4
    b.r.value_used, b.r.entries_used = 6, 6
    b.s.entries[:12] = [3, 1, 2, 2, 0, 3, 1, 4, 2, 5, 3, 6]
    for call in (("close",), ("append", b"a", ("null",)), ("open", b"b", "list"), ("append", b"c", ("null",))):
        yield b, call
    c = after(b, ("open", b"b", "list"))
    yield c, ("rollback",)
    c = twin(c)
    c.r.containers[1].entry = ("replaced", 3, 0)
    yield c, ("rollback",)
    if "A8" in model.on:
        yield from lists_without_entries(builder, after)
    if "A9" in model.on:
        yield from with_marks(builder, after)
    # the empty name, and name table and name bytes full to the last
    for namebytes, names in ((0, 1), (0, 0), (1, 1), (2, 1), (1, 2)):
        b = builder(namebytes=namebytes, names=names)
        yield b, ("register", b"")
        yield b, ("register", b"a")
        if names:
            yield after(b, ("register", b"")), ("register", b"a")
    # texts and decimals at their edges
    for size in (62, 63, 64, 65):
        for kind in ("text", "short", "string", "binary"):
            for room in (size, size + 1, size + 4, size + 5, size + 6):
                yield builder(value=room), ("append", None, (kind, b"y" * size))
    for kind, most, bits in (("dec4", 10**9 - 1, 32), ("dec8", 10**18 - 1, 64), ("dec16", 10**38 - 1, 128)):
        for n in (most, most + 1, -most, -most - 1, 0, -1, 2**(bits - 1) - 1, -2**(bits - 1), 2**64 if bits > 64 else 1, -2**64 if bits > 64 else 2):
            for scale in (0, 38, 39):
                yield builder(), ("append", None, (kind, scale, n))
    for n in (-1, 0, 86_399_999_999, 86_400_000_000, TOP // 2, -TOP // 2):
        yield builder(), ("append", None, ("time", n))
    for data in EDGE_TEXTS + BAD_NAMES:
        for extra in (b"", b"\x80", b"\xbf", b"\xc0"):
            yield builder(), ("append", None, ("text", data + extra))
            yield builder(namebytes=12), ("register", data + extra)
    for field in ("value_used", "names_used", "namebytes_used", "entries_used", "open"):
        for n in (1, 8, 9, 40, 41, 64, 65, 2**32, TOP):
            b = builder()
            setattr(b.r, field, n)
            for call in (("append", None, ("null",)), ("rollback",), ("close",), ("register", b"a")):
                yield b, call


def with_marks(builder, after):
    """Marks to 16 and one more, of the innermost and of others, returns to each, and records undone: some by fields, some by children, some altered."""
    mark, a, b = ("mark",), ("append", b"a", ("null",)), ("append", b"b", ("int8", 1))
    calls = (mark, ("return", 0), ("return", 1), ("return", 2), ("return", 3), ("return", 15), ("return", 16), ("return", 17), ("return", TOP), a, b,
             ("open", b"a", "list"), ("append", None, ("null",)), ("unique", True), ("close",), ("rollback",))
    for kind in ("list", "object"):
        for n in (15, 16):
            full = after(builder(), ("open", None, kind), *[mark] * n)
            for call in calls:
                yield full, call
            for marks in (15, 16, 17, TOP):
                for inner in (False, True):
                    other = after(full, ("open", b"a" if kind == "object" else None, "object")) if inner else twin(full)
                    other.r.containers[0].marks = marks
                    yield other, mark
                    yield other, ("unique", False)
    one = after(builder(), ("open", None, "object"), a, mark, a)
    child = after(one, ("open", b"a", "list"))
    for ready in (one, after(one, mark, b, a), after(one, mark, b, b, mark, a, b), child, after(child, ("close",)), after(child, ("rollback",)),
                  after(child, mark, ("append", None, ("true",))), after(one, ("unique", True), mark), after(one, ("open", b"b", "object"), a, mark, a)):
        for call in calls:
            yield ready, call
        for room in (0, 1, 2, 3, 5):
            for used in {ready.r.undo_used, room // 2}:
                other = twin(ready)
                other.s.undo = other.s.undo[:room]
                other.r.undo_used = used
                for call in (a, ("open", b"b", "list"), ("return", 1), ("rollback",)):
                    yield other, call
    for records in ([0, 0, 0, 1], [1, 9, 0, 1], [0, 9, 7, 1], [7, 7, 7, 7], [0, 1, 0, 9], [1, 0, 0, 2]):
        other = after(builder(), ("open", None, "object"), a, b, mark, a, a)
        other.s.undo[:4] = records
        yield other, ("return", 1)
        other = twin(other)
        other.r.containers[0].kind = "list"
        other.r.containers[0].count = 4
        yield other, ("return", 1)
    deep = after(builder(entries=130), *[("open", None, "list")] + [mark, ("open", None, "list")] * 63)
    for call in (mark, ("return", 1), ("close",), ("rollback",), ("append", None, ("null",))):
        yield deep, call
        yield after(deep, mark, mark), call


PAYLOADS = {**dict(enumerate((0, 0, 0, 1, 2, 4, 8, 8, 5, 9, 17, 4, 8, 8, 4))), 17: 8, 18: 8, 19: 8, 20: 16}


def measured_values(rng):
    """Bytes that are one value, and some that are none, or not whole."""
    def header(first, ids, count, large):
        w, size = (first >> 2 & 3) + 1, rng.randrange(3)
        return (bytes([first]) + count.to_bytes(4 if large else 1, "little") + bytes([7] * ((w + ids) * count))
                + size.to_bytes(w, "little") + bytes([9] * size))

    scalars = [bytes([4 * code]) + bytes(size) for code, size in [*PAYLOADS.items(), (21, 0), (21, 1), (40, 0), (63, 0)]]
    texts = [bytes([4 * code]) + size.to_bytes(4, "little") + bytes(size) for code in (15, 16) for size in (0, 1, 3)]
    shorts = [bytes([4 * n + 1]) + bytes(n) for n in (0, 1, 3, 7)]
    lists = [header(3 + 4 * (w - 1) + 16 * large + unused, 0, count, large)
             for unused in (0, 32, 224) for w in (1, 2, 3, 4) for large in (0, 1) for count in (0, 1, 2)]
    objects = [header(2 + 4 * (w - 1) + 16 * (v - 1) + 64 * large + unused, v, count, large)
               for unused in (0, 128) for w in (1, 2, 4) for v in (1, 3) for large in (0, 1) for count in (0, 1, 2)]
    # stored lengths past the data, beyond 32 bits together, or themselves cut short
    past = ["3cffffffff", "4000000100", "13ffffffff00", "1fffffffff", "7effffff7f01", "03", "02", "130000", "3c", "05", "0c", "0f0100000000ffffffff"]
    return [*scalars, *texts, *shorts, *lists, *objects, *map(bytes.fromhex, past)]


def lists_without_entries(builder, after):
    """Closes of lists whose data is as many values as they count, or just not; children of lists that count too little; lists where no entry is
    lent."""
    rng = random.Random(8)
    for data in measured_values(rng):
        for front, behind in ((b"", b""), (b"\x00", b""), (b"", b"\x04"), (b"", b"\x00\x00\x00")):
            whole = front + data + behind
            for count in {1, 1 + len(front) + len(behind), rng.randrange(4)}:
                for room in (40, 3, 4):
                    b = after(builder(value=len(whole) + room), ("open", None, "list"))
                    b.s.value[:len(whole)] = whole
                    b.r.value_used, b.r.containers[0].count = len(whole), count
                    if room == 40 or rng.random() < 0.1:
                        yield b, ("close",)
    null = ("append", None, ("null",))
    for count in (0, 1, 2):
        for child in ("list", "object"):
            for own in (("new",), ("replaced", 0, 0)):
                b = after(builder(), ("open", None, "list"), ("open", None, child))
                b.r.containers[0].count, b.r.containers[1].entry = count, own
                for call in (("rollback",), ("close",), null, ("append", b"a", ("null",)), ("unique", True)):
                    yield b, call
    b = after(builder(entries=0), ("open", None, "list"), null, ("open", None, "list"), ("append", None, ("true",)))
    for call in (null, ("open", None, "object"), ("open", None, "list"), ("close",), ("rollback",), ("append", b"a", ("null",))):
        yield b, call


def at_edges(builder, after, floor):
    """Closes and finishes at the widths' edges, with this floor."""
    # data sizes around a width's edge, in a list and in an object
    for size in (254, 255, 256, 257):
        for kind in ("list", "object"):
            name, ids = (b"a", floor) if kind == "object" else (None, 0)
            header = 2 + ids + 2 * max(floor, 1 if size < 256 else 2)
            for room in (0, header - 1, header, 20):
                b = after(builder(value=size + room, floor=floor), ("open", None, kind))
                b = after(b, ("append", name, ("binary", b"\x05" * (size - 5))))
                yield b, ("close",)
    # counts around 255, and ids
    for count in (254, 255, 256, 257):
        b = builder(value=2000, entries=2 * count + 1, floor=floor)
        b = after(b, ("open", None, "list"))
        b.r.entries_used, b.r.value_used = count, count
        b.s.entries[:2 * count] = [n for k in range(count) for n in (0, k)]
        b.r.containers[0].count = count
        yield b, ("close",)
        b = builder(value=60, names=count, namebytes=count, entries=12, floor=floor)
        b = after(b, ("open", None, "object"))
        b.s.nameends[:] = [k + 1 for k in range(count)]
        b.s.namebytes[:] = bytes((7 * k) % 128 for k in range(count))
        b.r.names_used, b.r.namebytes_used = count, count
        b.r.entries_used, b.s.entries[:4] = 2, [count - 1, 0, 3, 0]
        b.r.value_used = 2
        yield b, ("close",)
        b = twin(b)
        b.r.open = b.r.entries_used = 0
        for room in (1 + max(floor, 1 if count < 256 else 2) * (count + 2) + count + d for d in (-1, 0, 1)):
            yield b, ("finish", bytes(room))


def tight(model):
    """States in which all that number 1 asks just holds: all their one-off steps are taken, for every call."""
    def end_of(marks, used, i):
        return marks[i + 1][0] if i + 1 < len(marks) else used[0]

    def base(kinds, entry, marks, fields, ends, used, room):
        floor = floors(model)[-1 if room is wide else 0]
        b = model.fresh({"unique": 0, "value": room[0], "namebytes": room[2], "names": room[1], "entries": 2 * room[3], "fill": 3,
                         "floor": floor, "undo": 2}, model.on)
        for i, kind in enumerate(kinds):
            value, names, text, entries = marks[i]
            b.r.containers[i] = model.Container(value=value, names=names, namebytes=text, entries=entries, kind=kind,
                                                unique=i == 1, entry=entry if i else ("new",))
            if "A9" in model.on and room is full:
                # a mark at its start and one at the used counts; the child has a record
                c, last = b.r.containers[i], i + 1 == len(kinds)
                c.undo, c.marks = int(i > 0), 2
                own = (end_of(marks, used, i) - value + (not last)) if "A8" in model.on else 0
                c.slots = (model.Mark(value, names, text, entries, 0, c.undo, False), model.Mark(*used, own, 1, True), *c.slots[2:])
                b.r.undo_used = 1
                b.s.undo[:2] = [1, 0]
            end = end_of(marks, used, i)
            if "A8" in model.on:
                b.r.containers[i].count = end - value + (i + 1 < len(kinds))
                b.s.value[value:end] = bytes(end - value)
        b.r.open = len(kinds)
        b.s.namebytes[:3] = b"bab"
        b.s.nameends[:len(ends)] = ends
        b.s.entries[:2 * len(fields)] = [n for f in fields for n in f]
        b.r.value_used, b.r.names_used, b.r.namebytes_used, b.r.entries_used = used
        return b

    calls = (("register", b"a"), ("append", None, ("null",)), ("append", b"a", ("int8", 1)), ("open", None, "list"), ("open", b"b", "object"),
             ("close",), ("rollback",), ("unique", True), ("finish", bytes(12)), *[("mark",), ("return", 1), ("return", 2)] * ("A9" in model.on))
    wide, full = (20, 4, 6, 4), (4, 2, 2, 3)
    for room in (wide, full):
        for kind in ("list", "object"):
            # a replacing child: its former offset, and its parent's entries' offsets, are the parent's data size
            yield base(("object", kind), ("replaced", 1, 2), [(0, 0, 0, 0), (2, 2, 2, 2)], [(1, 2), (0, 2), (1, 2)], [1, 2], (4, 2, 2, 3), room), calls
            # a new child without data, all marks equal
            yield base((kind, "object"), ("new",), [(0, 0, 0, 0), (4, 2, 2, 1)], [(1, 4)], [1, 2], (4, 2, 2, 1), room), calls
            yield base((kind,), ("new",), [(1, 0, 0, 0)], [(1, 3), (0, 0)], [1, 2], (4, 2, 2, 2), room), calls
        yield base((), ("new",), [], [], [1, 2], (4, 2, 2, 0), room), calls
        yield base((), ("new",), [], [], [], (0, 0, 0, 0), room), calls


# ---------------------------------------------------------------- as antt

def bools(b):
    return "true" if b else "false"


def numbers(ns):
    """A list of numbers; stretches of one number by replicate."""
    ns = list(ns)
    parts, i = [], 0
    while i < len(ns):
        j = i
        while j < len(ns) and ns[j] == ns[i]:
            j += 1
        if j - i >= 6:
            parts.append(("many", j - i, ns[i]))
            i = j
        else:
            parts.append(("one", ns[i]))
            i += 1
    text, close_ = "", ""
    for p in parts:
        if p[0] == "one":
            text += f"{p[1]} ∷ "
        else:
            text += f"(replicate {p[1]} {p[2]} ++ ("
            close_ += "))"
    return f"({text}[]{close_})"


def whole(n):
    return f"(pos {n})" if n >= 0 else f"(negsuc {-n - 1})"


def scalar_term(v):
    kind = v[0]
    fixed = {"null": "Null", "true": "BooleanTrue", "false": "BooleanFalse", "int8": "Int8", "int16": "Int16", "int32": "Int32",
             "int64": "Int64", "date": "Date", "time": "Time", "tsmicros": "TimestampMicros", "tsntzmicros": "TimestampNtzMicros",
             "tsnanos": "TimestampNanos", "tsntznanos": "TimestampNtzNanos", "float": "Float", "double": "Double",
             "dec4": "Decimal4", "dec8": "Decimal8", "dec16": "Decimal16"}
    kinds = {"binary": "Binary", "string": "String", "short": "ShortString", "text": "Text"}
    if kind == "uuid":
        return f"(uuid {numbers(v[1])})"
    if kind in kinds:
        return f"(bytes kind.{kinds[kind]} {numbers(v[1])})"
    name = "variant." + fixed[kind]
    if len(v) == 1:
        return f"(fixed {name})"
    if kind in ("float", "double"):
        return f"(fixed ({name} {v[1]}))"
    if kind == "dec16":
        return f"(fixed ({name} (record {{ high = {whole(v[2] >> 64)}; low = {v[2] % 2**64}; scale = {v[1]} }})))"
    if kind in ("dec4", "dec8"):
        return f"(fixed ({name} (record {{ integer = {whole(v[2])}; scale = {v[1]} }})))"
    return f"(fixed ({name} {whole(v[1])}))"


def call_term(call):
    verb = call[0]
    if verb == "register":
        return f"(register {numbers(call[1])})"
    if verb in ("append", "open"):
        name = "none" if call[1] is None else f"(some {numbers(call[1])})"
        if verb == "append":
            return f"(append {name} {scalar_term(call[2])})"
        return f"(open_in {name} {bools(call[2] == 'object')})"
    if verb == "unique":
        return f"(uniqueness {bools(call[1])})"
    if verb == "finish":
        return f"(finish {numbers(call[1])})"
    if verb == "return":
        return f"(return_to {call[1]})"
    return {"close": "close", "rollback": "roll_back", "mark": "set_mark"}[verb]


def container_term(c):
    parent = "None" if c.entry[0] == "new" else f"(Some (former {c.entry[1]} {c.entry[2]}))"
    return f"box {c.value} {c.names} {c.namebytes} {c.entries} {c.undo} {parent} {bools(c.kind == 'object')} {bools(c.unique)} {c.marks}"


def marks_term(containers):
    """The table of marks as far as the open containers go; what is not set is 88."""
    table = []
    for c in containers:
        rows = [(m.value, m.names, m.namebytes, m.entries, m.undo, m.count, int(m.unique)) for m in c.slots[:min(c.marks, 16)]]
        table += [n for row in rows for n in row] + [88] * (7 * (16 - len(rows)))
    return numbers(table)


def state_term(b, entries):
    r, s = b.r, b.s
    containers = "(" + "".join(container_term(c) + " ∷ " for c in r.containers[:r.open]) + "[])"
    elements = "(" + "".join(f"{c.count} ∷ " for c in r.containers[:r.open]) + "[])"
    return (f"(state {r.value_used} {r.names_used} {r.namebytes_used} {r.entries_used} {r.undo_used} {r.open} {bools(r.unique)} "
            f"{bools(r.finished)} {r.floor} {containers} {elements} {marks_term(r.containers[:r.open])} {numbers(s.value)} {numbers(s.namebytes)} "
            f"{numbers(s.nameends)} {numbers(entries)} {numbers(s.undo)})")


def step_term(step):
    head = state_term(step.before, step.before.s.entries) + " " + call_term(step.call)
    if step.number:
        return f"refuses {head} {step.number}"
    return f"leaves {head} {state_term(step.after, step.entries_after())} {numbers(step.output)} {step.written}"


COMPARE = """-- Steps to be held against `step`, and the places of those that differ.
use Rattle.std.specs.Prelude.{Bool, true, false, cond, not, ◌&&◌, ◌||◌, List, [], ◌∷◌, ◌++◌, ℕ, ◌+◌, ◌-◌, eqb, leb, length, replicate, Option as Optional, Some, None}
use Rattle.metadata.specs.Names.{same}
use Rattle.container.specs.declared.Entry.{Entry}
use Rattle.semantics.specs.declared.Container.{Container}
use Rattle.semantics.specs.declared.Counts.{Counts}
use Rattle.semantics.specs.declared.Mark.{Mark}
use Rattle.semantics.specs.Record.{Storage, storage_of, State, Call, table_size, marks_of}
use Rattle.semantics.specs.Step.{step, lent_output}

-- a step as the model takes it; of the containers after it those that are open
pub record Check : Type 0 where
  pub before : State
  pub call : Call
  pub number : ℕ
  pub after : State
  pub output : List ℕ
  pub written : ℕ

abbrev pub former : ℕ → ℕ → Entry
former id offset = record { id = id; offset = offset }

abbrev pub box : ℕ → ℕ → ℕ → ℕ → ℕ → Optional Entry → Bool → Bool → ℕ → Container
box value names text entries undo parent object unique marks =
    record { value = value; names = names; text = text; entries = entries; undo = undo; parent = parent; object = object; unique = unique; marks = marks }

-- the containers that are listed, and others to 64
abbrev pub padded : List Container → List Container
padded cs = cs ++ replicate (64 - length cs) (box 9 8 7 6 5 (Some (former 5 4)) true true 3)

-- so the elements
abbrev pub filled : List ℕ → List ℕ
filled ns = ns ++ replicate (64 - length ns) 99

-- and the table of marks
abbrev pub tabled : List ℕ → List ℕ
tabled ms = ms ++ replicate (table_size - length ms) 77

abbrev pub state : ℕ → ℕ → ℕ → ℕ → ℕ → ℕ → Bool → Bool → ℕ → List Container → List ℕ → List ℕ → List ℕ → List ℕ → List ℕ → List ℕ → List ℕ → State
state value names text entries undo depth unique finished floor containers elements marks value_bytes text_bytes ends numbers records =
    record {
      builder =
          record {
            containers = containers;
            elements = elements;
            counts =
                record {
                  value = value;
                  entries = entries;
                  undo = undo;
                  depth = depth;
                  dictionary = record { names = names; text = text };
                  unique = unique;
                  finished = finished;
                  floor = floor;
                };
          };
      marks = marks;
      storage = storage_of value_bytes text_bytes ends numbers records;
    }

abbrev pub leaves : State → Call → State → List ℕ → ℕ → Check
leaves s c t output written = record { before = s; call = c; number = 0; after = t; output = output; written = written }

abbrev pub refuses : State → Call → ℕ → Check
refuses s c n = record { before = s; call = c; number = n; after = s; output = lent_output c; written = 0 }

abbrev pub whole : State → State
whole s =
    let b = s.builder in
    record {
      builder = record { containers = padded b.containers; elements = filled b.elements; counts = b.counts };
      marks = tabled s.marks;
      storage = s.storage;
    }

unfoldable pub alike : Bool → Bool → Bool
alike true b = b
alike false b = not b

unfoldable pub alike_parents : Optional Entry → Optional Entry → Bool
alike_parents None None = true
alike_parents None (Some e) = false
alike_parents (Some e) None = false
alike_parents (Some e) (Some f) = eqb e.id f.id && eqb e.offset f.offset

unfoldable pub alike_containers : Container → Container → Bool
alike_containers k l =
    eqb k.value l.value
    && (eqb k.names l.names
    && (eqb k.text l.text
    && (eqb k.entries l.entries
    && (eqb k.undo l.undo
    && (alike_parents k.parent l.parent && (alike k.object l.object && (alike k.unique l.unique && eqb k.marks l.marks)))))))

-- the second begins with containers like the first's
unfoldable pub begins : List Container → List Container → Bool
begins [] ls = true
begins (k ∷ ks) [] = false
begins (k ∷ ks) (l ∷ ls) = alike_containers k l && begins ks ls

-- so the elements, of lists; those of an object are free
unfoldable pub counts : List Container → List ℕ → List ℕ → Bool
counts [] ms ns = true
counts (k ∷ ks) [] ns = false
counts (k ∷ ks) (m ∷ ms) [] = false
counts (k ∷ ks) (m ∷ ms) (n ∷ ns) = (k.object || eqb m n) && counts ks ms ns

-- so the marks that are set; of an object their counts are free
unfoldable pub alike_marks : Bool → List Mark → List Mark → Bool
alike_marks object [] qs = true
alike_marks object (p ∷ ps) [] = false
alike_marks object (p ∷ ps) (q ∷ qs) =
    eqb p.value q.value
    && (eqb p.names q.names
    && (eqb p.text q.text
    && (eqb p.entries q.entries
    && (eqb p.undo q.undo && ((object || eqb p.count q.count) && (alike p.unique q.unique && alike_marks object ps qs))))))

unfoldable pub marked : List Container → ℕ → List ℕ → List ℕ → Bool
marked [] d ms ns = true
marked (k ∷ ks) d ms ns =
    let n = cond (leb k.marks 16) k.marks 16 in
    alike_marks k.object (marks_of ms d n) (marks_of ns d n) && marked ks (d + 1) ms ns

unfoldable pub alike_counts : Counts → Counts → Bool
alike_counts c d =
    eqb c.value d.value
    && (eqb c.entries d.entries
    && (eqb c.undo d.undo
    && (eqb c.depth d.depth
    && (eqb c.dictionary.names d.dictionary.names
    && (eqb c.dictionary.text d.dictionary.text
    && (alike c.unique d.unique && (alike c.finished d.finished && eqb c.floor d.floor)))))))

unfoldable pub alike_storage : Storage → Storage → Bool
alike_storage s t =
    same s.value t.value
    && (same s.text t.text && (same s.ends t.ends && (same s.entries t.entries && same s.undo t.undo)))

unfoldable pub alike_states : State → State → Bool
alike_states s t =
    alike_counts s.builder.counts t.builder.counts
    && (begins s.builder.containers t.builder.containers
    && (counts s.builder.containers s.builder.elements t.builder.elements
    && (marked s.builder.containers 0 s.marks t.marks
    && (eqb (length t.builder.containers) 64 && (eqb (length t.builder.elements) 64 && alike_storage s.storage t.storage)))))

unfoldable pub agrees : Check → Bool
agrees k =
    let o = step (whole k.before) k.call in
    eqb k.number o.number && (eqb k.written o.written && (same k.output o.output && alike_states k.after o.state))

-- the places, from n on, of those that differ
unfoldable pub faults : ℕ → List Check → List ℕ
faults n [] = []
faults n (k ∷ ks) = cond (agrees k) (faults (n + 1) ks) (n ∷ faults (n + 1) ks)
"""

STEPS_HEAD = """-- Steps of the model, held against `step` by computation.
use Rattle.std.specs.Prelude.{◌≡◌, refl, Bool, true, false, cond, List, [], ◌∷◌, ◌++◌, ℕ, pos, negsuc, replicate}
use Rattle.std.proofs.Math.Option.{Option, none, some}
use Rattle.encoding.specs.Width.{width, width_at}
use Rattle.encoding.specs.Packed.{le, les, number}
use Rattle.encoding.specs.Signed.{twos, whole}
use Rattle.encoding.specs.Utf8.{table, follow, rest, utf8}
use Rattle.encoding.specs.Rows.{first}
use Rattle.encoding.specs.Slices.{write, shift}
use Rattle.value.specs.Scalar.{scalar_bytes, scalar_length}
use Rattle.value.specs.declared.variant.Variant.TheVariants as variant
use Rattle.value.specs.declared.variant.VariantBytes.TheVariants as kind
use Rattle.metadata.specs.Names.{cuts, names_of, risen, intact, same, place, below, ascending, sorted}
use Rattle.metadata.specs.Bytes.{joined, ends_from, laid_out, dictionary}
use Rattle.container.specs.Layout.{list_header_at, list_header, object_header_at, largest, object_header}
use Rattle.container.specs.Entries.{entries_of, put_entries, seek, misplaced}
use Rattle.container.specs.Sort.{insert, sort}
use Rattle.container.specs.Undo.{restore, replay}
use Rattle.container.specs.Close.{fronted}
use Rattle.measure.specs.Measure.{container_length, value_length, measured, whole_values, starts_in}
use Rattle.std.specs.Prelude.{Some, None}
use Rattle.semantics.specs.Record.{fixed, bytes, uuid, register, append, open_in, close, roll_back, uniqueness, set_mark, return_to, finish}
use Rattle.semantics.specs.Record.{rising, chained, mark_at, marks_of, falling, marks_hold}
use Rattle.semantics.specs.Damage.{over_used, unchained, bad_floor, fallen_ends, misplaced_inner, misplaced_parent, uncounted, damaged_parent}
use Rattle.semantics.specs.Table.{header, number_of}
use Rattle.semantics.specs.Step.{registered, appended, opened, new_container, entries_closed, closed, rolled_back, finished, dictionary_of, after, step}
use Rattle.semantics.specs.Step.{with_marks, put_mark, entries_returned, returned}
use Rattle.semantics.specs.Step as steps
use Rattle.agree.specs.Compare.{Check, box, former, state, leaves, refuses, alike, alike_parents, alike_containers, begins, counts, alike_marks, marked}
use Rattle.agree.specs.Compare.{alike_counts, alike_storage, alike_states, agrees, faults}

"""

UNFOLDING = ("width width_at le les number twos whole table follow rest utf8 write shift scalar_bytes scalar_length cuts names_of risen intact "
             "same place below joined ends_from laid_out dictionary ascending sorted list_header_at list_header object_header_at largest "
             "object_header entries_of put_entries seek misplaced insert sort fronted over_used rising chained unchained bad_floor fallen_ends misplaced_inner "
             "misplaced_parent uncounted damaged_parent container_length value_length measured whole_values starts_in header first number_of "
             "registered appended opened new_container entries_closed closed rolled_back finished dictionary_of after step steps.with_unique alike "
             "alike_parents alike_containers begins counts alike_counts alike_storage alike_states agrees faults "
             "restore replay mark_at marks_of falling marks_hold with_marks put_mark entries_returned returned alike_marks marked")


# how many steps a theorem has at most, and the characters at which it gets no more: antt limits what one may compute
GROUP, LONG = 5, 16000


def grouped(steps, at):
    """The steps by theorem, each group with its first step's place and the steps' terms."""
    groups, size = [], LONG
    for n, s in enumerate(steps, at):
        term = step_term(s)
        if size >= LONG or len(groups[-1][1]) == GROUP:
            groups.append((n, []))
            size = 0
        groups[-1][1].append((s, term))
        size += len(term)
    return groups


def module(steps, at):
    text = STEPS_HEAD
    for n, group in grouped(steps, at):
        terms = "".join(f"    -- {n + i}, {s.origin}: {s.call[0]}, number {s.number}\n    {'∷ ' if i else ''}{term}\n"
                        for i, (s, term) in enumerate(group))
        text += (f"unfoldable pub taken{n} : List Check\ntaken{n} =\n{terms}    ∷ []\n\n"
                 f"pub agree{n} : faults {n} taken{n} ≡ []\nunfolding {UNFOLDING} taken{n}\nagree{n} = refl\n\n")
    return text


def write_crate(folder, modules):
    for sub in ("src", "specs", "proofs"):
        os.makedirs(os.path.join(folder, sub), exist_ok=True)

    def put(path, text):
        with open(os.path.join(folder, path), "w", encoding="utf-8") as f:
            f.write(text)

    put("src/lib.rt", "// Nothing: the steps are in proofs/.\n")
    put("specs/Lib.antt", "pub mod Compare\n")
    put("specs/Compare.antt", COMPARE)
    put("proofs/Lib.antt", "".join(f"pub mod Steps{i}\n" for i in range(len(modules))))
    for i, (at, steps) in enumerate(modules):
        put(f"proofs/Steps{i}.antt", module(steps, at))


# ---------------------------------------------------------------- the whole

def one_off_steps(model, rng, step, found, share):
    """One-off steps of this one whose number is another; those that are rarely met first."""
    options = collections.defaultdict(list)
    makers = list(one_off(step.before, step.call))
    for make in rng.sample(makers, min(len(makers), 60)):
        b, call = make()
        other = Step(model, b, call, step.origin + ", one off")
        if other.number != step.number:
            low, missing = (step, other) if later(step.number, other.number) else (other, step)
            options[(low.number, missing.number, step.call[0], other is missing)].append((low.number, other))
    keys = sorted(options, key=lambda k: (found[k], rng.random()))
    for key in keys[:share]:
        found[key] += 1
        yield rng.choice(options[key])


def gather(model, seed, runs, share):
    rng = random.Random(seed)
    steps, seen = [], set()
    missed, found = collections.Counter(), collections.Counter()

    def keep(step):
        key = step.key()
        if step.number and step.key_of(step.after) != step.key_of(step.before):
            raise AssertionError("the model changed something at a refusal")
        if key in seen:
            return False
        seen.add(key)
        steps.append(step)
        return True

    for n in range(runs):
        for step in random_run(model, rng, n):
            keep(step)
            for low, other in one_off_steps(model, rng, step, found, share):
                if keep(other):
                    missed[low] += 1
    for b, call in written(model):
        step = Step(model, twin(b), call, "written")
        keep(step)
        if b.r.open > 8 or len(b.s.value) > 200 or len(b.s.nameends) > 100:
            continue  # these are long
        for low, other in one_off_steps(model, rng, step, found, 1):
            if keep(other):
                missed[low] += 1
    for b, calls in tight(model):
        for call in calls:
            step = Step(model, twin(b), call, "tight")
            keep(step)
            for make in one_off(b, call):
                other = Step(model, *make(), "tight, one off")
                if keep(other) and other.number != step.number:
                    missed[step.number if later(step.number, other.number) else other.number] += 1
    # 11 is met only with 64 open, 63 just misses it
    missed[11] += sum(1 for s in steps if s.origin == "written" and s.call[0] == "open" and s.before.r.open == 63 and s.number != 11)
    return steps, missed


def check(repo, modules):
    """rt check in a throw-away copy of the repository, module by module; how many are not shown."""
    copy_of = tempfile.mkdtemp(prefix="agree-")
    try:
        shutil.copytree(os.path.join(repo, "crates"), os.path.join(copy_of, "crates"), ignore=shutil.ignore_patterns("out"))
        with open(os.path.join(repo, "crates.txt")) as f:
            crates = f.read()
        with open(os.path.join(copy_of, "crates.txt"), "w") as f:
            f.write(crates + "agree: semantics measure container metadata value encoding\n")
        bad = 0
        for i, (at, steps) in enumerate(modules):
            folder = os.path.join(copy_of, "crates", "agree")
            shutil.rmtree(folder, ignore_errors=True)
            write_crate(folder, [(at, steps)])
            began = time.time()
            done = subprocess.run(["rt", "check"], cwd=folder, capture_output=True, text=True)
            text = done.stdout + done.stderr
            ok = done.returncode == 0 and "\nlogic=proved " in text
            print(f"steps {at} to {at + len(steps) - 1}: {'agree' if ok else 'NOT SHOWN'}, {time.time() - began:.1f} s", flush=True)
            if not ok:
                bad += 1
                differ = re.findall(r"are `Path \(List ℕ\) \((.*?)\) \[\]` \(expected\)", text)
                places = sorted({int(n) for d in differ for n in re.findall(r"\d+", d)})
                if places:
                    print("these differ (see them with --only):", *places, flush=True)
                refused = {int(n) for n in re.findall(r"error: `agree(\d+)`: expected type", text)}
                for n, group in grouped(steps, at):
                    if n in refused and not any(n <= k < n + len(group) for k in places):
                        print(f"some of {n} to {n + len(group) - 1} differ (too long to be shown)", flush=True)
                others = [l[:600] for l in text.splitlines() if "error" in l and "faults" not in l]
                for line in others[:6]:
                    print(line, flush=True)
        return bad
    finally:
        shutil.rmtree(copy_of, ignore_errors=True)


def main():
    p = argparse.ArgumentParser(description=__doc__, formatter_class=argparse.RawDescriptionHelpFormatter)
    p.add_argument("--model", default=os.path.join(os.path.dirname(os.path.abspath(__file__)), "model"), metavar="FOLDER")
    p.add_argument("--with", dest="wanted", default=LANDED, metavar="SET")
    p.add_argument("--seed", type=int, default=1)
    p.add_argument("--runs", type=int, default=400)
    p.add_argument("--share", type=int, default=1, help="one-off steps for each step of a run")
    p.add_argument("--steps", type=int, default=2000, help="steps in a module")
    p.add_argument("--first", type=int, default=None, help="only so many modules")
    p.add_argument("--only", type=int, default=None, help="only the step at this place, printed too")
    p.add_argument("--out")
    p.add_argument("--check")
    a = p.parse_args()
    sys.dont_write_bytecode = True
    sys.path.insert(0, a.model)
    import model
    model.on = model.requests(a.wanted)
    steps, missed = gather(model, a.seed, a.runs, a.share)
    met = collections.Counter(s.number for s in steps)
    kinds = collections.Counter(s.call[0] for s in steps)
    both = collections.Counter((s.call[0], s.number) for s in steps)
    print(f"{len(steps)} steps of {a.runs} runs: {sum(s.origin.startswith('run') and 'one off' not in s.origin for s in steps)} as they ran, "
          f"{sum('one off' in s.origin and 'tight' not in s.origin for s in steps)} one off, "
          f"{sum('tight' in s.origin for s in steps)} about tight states, {sum(s.origin == 'written' for s in steps)} written")
    print("floors: " + ", ".join(f"{floor} in {n}" for floor, n in sorted(collections.Counter(s.before.r.floor for s in steps).items())))
    print("number: met, just missed")
    for n in (0, *sorted(ORDER)):
        if n < 17 or met[n]:
            print(f"{n:6}: {met[n]}" + (f", {missed[n]}" if n else ""))
    for k in KINDS_OF_CALL:
        print(f"{k}, {kinds[k]}: " + ", ".join(f"number {n} {both[k, n]}" for n in (0, *ORDER) if both[k, n]))
    done = [s for s in steps if not s.number]
    below = [s for s in done if s.call[0] == "rollback" and s.before.r.open > 1]
    print("carried out: roll backs of a new child", sum(s.before.innermost().entry[0] == "new" for s in below),
          "of a replacing one", sum(s.before.innermost().entry[0] == "replaced" for s in below),
          "; replaced fields", sum(s.call[0] in ("append", "open") and s.call[1] is not None
                                   and s.before.r.entries_used == s.after.r.entries_used for s in done),
          "; objects closed with two fields or more", sum(s.call[0] == "close" and s.before.innermost().kind == "object"
                                                          and len(s.before.entry_range(s.before.r.open - 1)) > 1 for s in done),
          "; returns that undo records", sum(s.call[0] == "return" and s.after.r.undo_used < s.before.r.undo_used for s in done),
          "that bring offsets back", sum(s.call[0] == "return" and s.after.s.entries != s.before.s.entries for s in done),
          "; roll backs that free a child's record", sum(s.before.innermost().undo > s.after.r.undo_used for s in below))
    modules = [(i, steps[i:i + a.steps]) for i in range(0, len(steps), a.steps)]
    if a.only is not None:
        s = steps[a.only]
        print("before:", s.before.r, s.before.s, "\ncall:", s.call, "\nnumber:", s.number, "\nafter:", s.after.r, s.after.s, bytes(s.output), s.written)
        modules = [(a.only, [s])]
    if a.first is not None:
        modules = modules[:a.first]
    if a.out:
        write_crate(a.out, modules)
        print(f"add the line 'agree: semantics measure container metadata value encoding' to crates.txt of a copy of the repository,\n"
              f"put {a.out} there as crates/agree, and run rt check in it")
    if a.check:
        sys.exit(1 if check(a.check, modules) else 0)


if __name__ == "__main__":
    main()
