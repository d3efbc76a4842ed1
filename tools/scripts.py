"""Random scripts of named kinds for compare.py; the grammar is that of the model's README.

A run is made call by call on the model, so that a call can be chosen by the state it meets.
Every run comes from its own seed: the same seed, kind and number give the same script.
"""
import collections
import random

import layouts

OBJECTS = ("list", "object")
EDGE_CHARS = [b"\x00", b"\x7f", b"\xc2\x80", b"\xdf\xbf", b"\xe0\xa0\x80", b"\xed\x9f\xbf", b"\xee\x80\x80",
              b"\xef\xbf\xbf", b"\xf0\x90\x80\x80", b"\xf3\xbf\xbf\xbf", b"\xf4\x8f\xbf\xbf"]
BAD_TEXTS = [b"\xff", b"\x80", b"\xc3", b"a\xc3", b"a\x80", b"\xc1\xbf", b"\xc2\xc0", b"\xe0\x9f\xbf", b"\xe1\x80",
             b"\xed\xa0\x80", b"\xef\xbf\xc0", b"\xf0\x8f\xbf\xbf", b"\xf1\x80\x80", b"\xf4\x90\x80\x80",
             b"\xf5\x80\x80\x80", b"ok\xc3\xa9\xed\xbf\xbf"]
MIXED = [b"a", b"b", b"c", b"ab", b"", b"\xc3\xa9", b"z", b"abc", b"\xf4\x8f\xbf\xbf", b"B", b"a\x00", b"\x00"]
BITS = {"int8": 8, "int16": 16, "int32": 32, "int64": 64, "date": 32, "time": 64, "tsmicros": 64, "tsntzmicros": 64,
        "tsnanos": 64, "tsntznanos": 64, "dec4": 32, "dec8": 64, "dec16": 128}
DIGITS = {"dec4": 9, "dec8": 18, "dec16": 38}
KINDS = ("null", "true", "false", *BITS, "float", "double", "binary", "string", "short", "text", "uuid")
DAYS = (-96_465_292, 95_026_236)      # chrono's dates
MICROS = (DAYS[0] * 86_400_000_000, (DAYS[1] + 1) * 86_400_000_000 - 1)
DAY = 86_400_000_000
FILLS = (1, 7, 85, 170, 255, 256, 65535, 2**32 - 1, 2**63, 2**64 - 1)
AMPLE = {"value": 4096, "namebytes": 1024, "names": 64, "entries": 256}
FLOORS = (1, 1, 1, 1, 1, 1, 1, 2, 3, 4)
BAD_FLOORS = (0, 5, 6, 256, 2**32 + 1, 2**64 - 1)
CIVIL = ("ymd", "ymdts", "ymdtsntz")
BESIDE = {"days": "A2", "civil": "A2", "packdec": "A4", "readdec": "A4",      # the calls that need no builder
          "batchstart": "A7", "batchadd": "A7", "batchread": "A7", "read": "A6", "field": "A6", "firstint": "A6"}
READING = tuple(verb for verb, request in BESIDE.items() if request == "A6")
LEAVES = (*KINDS, *("int8", "int16", "int32", "int64") * 3)
YEARS = (1, 2, 3, 4, 5, 100, 400, 1582, 1600, 1899, 1900, 1969, 1970, 1972, 2000, 2023, 2024, 2100, 9996, 9998, 9999)
SPAN = (-719_162, 2_932_896)          # the days of the years 1 to 9999
OUTSIDE = ((0, 10_000, -1), (0, 13, -1), (0, 29, 30, 31, 32, -1), (DAY, -1))     # of a year, a month, a day and a time
EXTREMES = (2**31, 2**32 + 1, 2**40 + 1, 2**63 - 1, -2**63)
POWERS = (9, 9, 18, 18, 38, 38, *range(39))
FAR = (0, 3, 4, 255, 256, 2**24, 2**31, 2**32 - 9, 2**32 - 4, 2**32 - 1)       # counts and lengths that seldom fit
NOT_MADE = (("register", b"a"), ("append", None, ("null",)), ("open", None, "list"), ("close",), ("rollback",), ("unique", True),
            ("finish", 9), ("poke", "floor", 1), ("poke", "open", 0), ("dump",), ("dumpvalue",))
NOT_MARKED = (("mark",), ("return", 1), ("poke", "undo_used", 1))
UNDO_ROOMS = (64, 64, 64, 20, 8, 4, 2, 0, 5)


# ---------------------------------------------------------------- scalars

def rust_holds(model, scalar):
    """Whether the Rust's types hold a scalar that the call takes."""
    scalar = model.converted(scalar)[1]
    kind = scalar[0]
    if kind in DIGITS:
        return scalar[1] <= DIGITS[kind]
    if kind == "date":
        return DAYS[0] <= scalar[1] <= DAYS[1]
    if kind in ("tsmicros", "tsntzmicros"):
        return MICROS[0] <= scalar[1] <= MICROS[1]
    return True


def whole(rng, kind):
    """A whole number of the kind's bits: an edge, or one of any length."""
    top = 1 << BITS[kind] - 1
    edges = {"date": [e + d for e in DAYS for d in (-1, 0, 1)], "time": [0, DAY - 1, DAY, -1, DAY + 999_999],
             "tsmicros": [e + d for e in MICROS for d in (-1, 0, 1)]}
    edges["tsntzmicros"] = edges["tsmicros"]
    pick = rng.random()
    if pick < 0.2 and kind in edges:
        return rng.choice(edges[kind])
    if pick < 0.35:
        return rng.choice([0, 1, -1, top - 1, -top, top // 2])
    n = rng.getrandbits(rng.randint(1, BITS[kind] - 1))
    return n % DAY if kind == "time" and pick < 0.8 else n if rng.random() < 0.5 else -n


def text(rng, bad):
    """Bytes of a text, with probability `bad` not UTF-8."""
    pick = rng.random()
    if pick < 0.5:
        out = b"".join(rng.choice(MIXED) for _ in range(rng.randrange(5)))
    elif pick < 0.65:
        out = b"".join(rng.choice(EDGE_CHARS) for _ in range(rng.randrange(1, 4)))
    elif pick < 0.9:
        out = rng.choice([b"a", b"x", b"\x7f"]) * rng.choice([1, 2, 10, 62, 63, 63, 64, 64, 65])
    else:
        out = (b"y" * rng.choice([58, 59, 60, 61, 250]) + rng.choice(EDGE_CHARS))
    if rng.random() < bad:
        at = rng.randrange(len(out) + 1)
        out = out[:at] + rng.choice(BAD_TEXTS) + out[at:]
    return out


def date(rng):
    """Year, month and day, mostly those of a date."""
    year = rng.choice(YEARS) if rng.random() < 0.5 else rng.randint(1, 9999)
    return [year, rng.choice((1, 2, 2, 12, rng.randint(1, 12))), rng.choice((1, 28, 29, 30, 31, rng.randint(1, 28)))]


def civil(rng, kind, bad):
    """A date, and where the kind has one a time of day; a bad one has a number that is just outside, or anything."""
    numbers = date(rng) + [rng.choice((0, 1, DAY - 1, rng.randrange(DAY)))] * (kind != "ymd")
    for at in rng.sample(range(len(numbers)), rng.choice((0, 1, 1, 1, len(numbers))) if bad else 0):
        anything = rng.choice((*EXTREMES, rng.getrandbits(rng.randint(1, 63)), -rng.getrandbits(rng.randint(1, 63))))
        numbers[at] = rng.choice(OUTSIDE[at]) if rng.random() < 0.7 else anything
    return (kind, *numbers)


def day_number(rng):
    near = rng.choice((*SPAN, 0)) + rng.randint(-2, 2)
    return rng.choice((near, near, rng.randint(*SPAN), rng.randint(*SPAN), rng.choice(EXTREMES)))


def magnitude(rng):
    """At a power of ten, or of any count of digits to 39."""
    near = 10**rng.choice(POWERS) - rng.choice((0, 1, 1))
    return rng.choice((near, near, rng.randrange(10**rng.randint(1, 39)), rng.randrange(10)))


def any_scale(rng):
    return rng.choice((0, 1, rng.randint(0, 9), rng.randrange(39), rng.choice((9, 10, 18, 19, 38, 39, 255))))


def packed(rng, bad):
    """Packed decimal, now and then with zeros in front; a bad one is empty, too long, too large, or has a digit or a sign that is none."""
    large = rng.choice((10**38, rng.randrange(10**38, 10**39), 2**128 + 5))
    digits = str(large if bad and rng.random() < 0.3 else magnitude(rng)) + rng.choice("ccdf")
    digits = "0" * (len(digits) % 2) + digits
    digits = "00" * rng.choice((0, 0, 0, 1, 20 - len(digits) // 2)) + digits
    at = rng.randrange(len(digits) - 1)
    wrong = ("", "00" * (21 - len(digits) // 2) + digits, "00" * rng.randint(1, 50) + digits, rng.randbytes(rng.randint(1, 24)).hex(),
             digits[:at] + rng.choice("abcdef") + digits[at + 1:], digits[:-1] + rng.choice("abe0129"))
    return bytes.fromhex(rng.choice(wrong) if bad and rng.random() < 0.6 else digits)


def any_scalar(rng, bad, kinds):
    kind = rng.choice(kinds)
    if kind in CIVIL:
        return civil(rng, kind, bad)
    if kind == "packed":
        return (kind, any_scale(rng), packed(rng, bad))
    if kind in ("null", "true", "false"):
        return (kind,)
    if kind in ("float", "double"):
        bits = 32 if kind == "float" else 64
        return (kind, rng.choice([0, 1 << bits - 1, (1 << bits) - 1, rng.getrandbits(bits), rng.getrandbits(bits)]))
    if kind == "uuid":
        return (kind, rng.randbytes(16))
    if kind == "binary":
        return (kind, rng.choice([b"", b"\xff" * 70, rng.randbytes(rng.randrange(1, 9))]))
    if kind in ("string", "short", "text"):
        return (kind, text(rng, bad))
    if kind in DIGITS:
        most = 10**DIGITS[kind] - 1
        n = rng.choice([0, most, -most, rng.choice([most + 1, -most - 1]), whole(rng, kind), whole(rng, kind) % most])
        scale = rng.choice([0, DIGITS[kind], rng.randint(0, DIGITS[kind]), rng.randrange(39), rng.choice([10, 19, 38, 39, 255])])
        return (kind, scale, n)
    return (kind, whole(rng, kind))


def batch_part(rng):
    """A dictionary or a value in a batch, which does not judge it."""
    return rng.randbytes(rng.choice((0, 0, 1, 2, 3, rng.randrange(12), rng.choice((250, 255, 256)) if rng.random() < 0.05 else 5)))


def batch_record(rng, bad):
    """A record of a batch; a bad one is a count below four and as many bytes, or its count or dictionary length is another, mostly one off."""
    dictionary, value = batch_part(rng), batch_part(rng)
    if bad and rng.random() < 0.3:
        count = rng.randrange(4)
        return count.to_bytes(4, "big") + rng.randbytes(count)
    numbers = [4 + len(dictionary) + len(value), len(dictionary)]
    if bad:
        at = rng.randrange(2)
        near = rng.choice((numbers[0] - 4, numbers[at])) + rng.choice((-1, 1))
        numbers[at] = max(near, 0) if rng.random() < 0.6 else rng.choice(FAR)
    return b"".join(n.to_bytes(4, "big") for n in numbers) + dictionary + value


def batch_file(rng, bad):
    """A batch file of some records, often cut anywhere; a bad one has bad records, bytes altered or another version, or is any bytes."""
    file = b"\x01" + b"".join(batch_record(rng, bad and rng.random() < 0.4) for _ in range(rng.choice((0, 1, 1, 2, 3, 6))))
    if rng.random() < 0.5:
        file = file[:rng.randint(1, len(file))]
    at, pick = rng.randrange(len(file)), rng.random() if bad else 1
    if pick < 0.2:
        return file[:at] + rng.randbytes(1) + file[at + 1:]
    return rng.choice((b"", b"\x02" + file[1:], rng.randbytes(rng.randrange(20)), b"\x01" + rng.randbytes(9))) if pick < 0.4 else file


def batch_call(rng, verb, bad):
    """A call on a batch file; the buffer of one that writes is mostly just enough, or one byte too short or too long."""
    file, dictionary, value = batch_file(rng, bad), batch_part(rng), batch_part(rng)
    words = {"file": file.hex(), "dict": dictionary.hex(), "value": value.hex()} if verb == "batchadd" else {}
    if verb == "batchread":
        words = {"file": file.hex()}
    elif rng.random() < 0.7:
        used, size = (len(file), 8 + len(dictionary) + len(value)) if words else (0, 1)
        words["out"] = max(0, used + rng.choice((size, size, size, size - 1, size + 1, 0, -1, rng.randint(0, size))))
    return (verb, *(f"{key}={word}" for key, word in words.items()))


def without_builder(rng, verb, bad):
    """A call that needs no builder."""
    if BESIDE[verb] == "A7":
        return batch_call(rng, verb, bad)
    if verb == "days":
        return (verb, *civil(rng, "ymd", bad)[1:])
    if verb == "civil":
        return (verb, day_number(rng))
    if verb == "readdec":
        return (verb, any_scale(rng), packed(rng, bad).hex())
    n = rng.choice((1, -1)) * magnitude(rng)
    n = rng.choice((2**127 - 1, -2**127, 1 - 2**127)) if bad and rng.random() < 0.2 or abs(n) >> 127 else n
    out = len(str(abs(n))) // 2 + rng.choice((1, 1, 0, 5))
    return (verb, any_scale(rng), n, *[f"out={out}"] * (rng.random() < 0.7))


# ---------------------------------------------------------------- a run

class Run:
    """A script as it grows: lines, the calls they state and the model's answers.

    `wrong` is the chance of a misplaced or ill-formed call; in a `held` run the accepted scalars are
    those that the Rust's types hold. Under A1 names are registered with containers open in an `inside` run, and in
    no other, since the Rust has no such call. Under A2 there are dates among the scalars, under A4 packed decimal, and
    between the calls those that need no builder (A2, A4, A7, A6); under A6 what a finish yields is read, too. Under A10 a run has a
    floor, mostly 1; `made` is the place of the `new` that makes its builder, before which one is now and then refused. Under A8 `lists`
    counts the closes that walk a list's data. Under A9 marks are set and returned to in a `marked` run, which says how often, and in no
    other, since the Rust has no such calls; `returns` counts what came of them."""

    def __init__(self, model, rng, held, pool=None, wrong=0.02, unique=None, inside=False, marked=None, floor=None, **settings):
        self.model, self.rng, self.held, self.wrong = model, rng, held, wrong
        self.kinds = (*KINDS, *CIVIL * ("A2" in model.on), *("packed",) * 2 * ("A4" in model.on))
        self.asked = [verb for verb, request in BESIDE.items() if request in model.on]
        self.inside = "A1" in model.on and (inside or rng.random() < 0.3)
        self.pool = pool or rng.choice([MIXED, MIXED[:3], [rng.randbytes(2).hex().encode() for _ in range(8)]])
        self.session, self.lines, self.calls, self.answers = model.Session(model.on), [], [], []
        self.peak = dict.fromkeys(("value", "namebytes", "names", "entries", "out"), 0)
        self.inner_names = 0    # registered with containers open
        self.lists, self.returns = collections.Counter(), collections.Counter()
        unique = rng.random() < 0.2 if unique is None else unique
        fill = rng.choice(FILLS)
        self.marked = 0
        if "A9" in model.on:
            self.marked = 2 * (rng.random() < 0.2) if marked is None else marked
        if self.marked:
            self.peak["undo"] = 0
            settings = {"undo": rng.choice(UNDO_ROOMS), **settings}
        self.start({"unique": int(unique), **AMPLE, "fill": fill, **settings}, floor)

    def start(self, settings, floor):
        if "A10" in self.model.on:
            if self.chance(0.03):
                self.say(("new", {**settings, "floor": self.rng.choice(BAD_FLOORS)}))
                for _ in range(self.rng.randrange(4)):
                    self.beside() or self.say(self.rng.choice((*NOT_MADE, *NOT_MARKED * (self.marked > 0))))
            settings = {**settings, "floor": floor or self.rng.choice(FLOORS)}
        self.made = len(self.lines)
        self.say(("new", settings))

    def say(self, call):
        line = self.model.format_call(call)
        call = self.model.parse_line(line)
        walked, undone = self.walked(call), self.undone(call)
        answer = self.session.answer(call)
        self.lists.update(walked(answer) if walked else ())
        self.returns.update(undone() if undone and answer == "ok" else ())
        self.lines.append(line)
        self.calls.append(call)
        self.answers.append(answer)
        if self.session.builder is None:
            return answer
        r, p = self.record(), self.peak
        p["value"], p["names"] = max(p["value"], r.value_used), max(p["names"], r.names_used)
        p["namebytes"], p["entries"] = max(p["namebytes"], r.namebytes_used), max(p["entries"], 2 * r.entries_used)
        if "undo" in p:
            p["undo"] = max(p["undo"], 2 * r.undo_used)
        self.inner_names += call[0] == "register" and answer == "ok" and r.open > 0
        if call[0] == "finish":
            p["out"] = max(p["out"], len(self.session.written))
        return answer

    def walked(self, call):
        """Of a close that walks a list's data, what its answer tells."""
        b = self.session.builder
        if call[0] != "close" or "A8" not in self.model.on or b is None or b.broken(names=True) or not b.r.open:
            return None
        c, bare = b.innermost(), not b.entries_room()
        told = [*["over 255"] * (c.count > 255), *["no entry lent"] * bare]
        return (lambda answer: ["refused"] if answer == "refused 1" else ["closed", *told]) if c.kind == "list" else None

    def undone(self, call):
        """Of a call that sets a mark or undoes records, what came of it."""
        b = self.session.builder
        if "A9" not in self.model.on or b is None or call[0] not in ("mark", "return", "rollback") or not 0 < b.r.open <= 64:
            return None
        used, entries, inner = b.r.undo_used, list(b.s.entries[:2 * b.r.entries_used]), b.innermost()
        if call[0] == "mark":
            return lambda: ["set", *["sixteenth"] * (inner.marks == 16), *["in lists"] * (inner.kind == "list")]
        if call[0] == "rollback":
            below = inner.undo
            return lambda: ["with a child"] * (b.r.undo_used < below)
        return lambda: ["returned", *["with records"] * (b.r.undo_used < used),
                        *["with offsets"] * (b.s.entries[:2 * b.r.entries_used] != entries[:2 * b.r.entries_used])]

    def record(self):
        return self.session.builder.r

    def inner(self):
        """The innermost container's kind, or None (of an altered record too)."""
        r = self.record()
        return r.containers[r.open - 1].kind if 0 < r.open <= 64 else None

    def set_marks(self):
        """How many marks are set in the innermost container."""
        r = self.record()
        return min(r.containers[r.open - 1].marks, 16) if 0 < r.open <= 64 else 0

    def chance(self, p):
        return self.rng.random() < p

    def scalar(self):
        while True:
            bad = self.chance(self.wrong)
            scalar = any_scalar(self.rng, bad, self.kinds)
            refused = self.model.scalar_refusal(scalar)
            if bad or not refused:
                if refused or not self.held or rust_holds(self.model, scalar):
                    return scalar

    def name(self):
        """A name where one belongs."""
        if (self.inner() == "object") == self.chance(self.wrong / 2):
            return None
        return self.any_name()

    def any_name(self):
        return self.rng.choice(BAD_TEXTS) if self.chance(self.wrong) else self.rng.choice(self.pool)

    def register(self):
        return self.say(("register", self.any_name()))

    def append(self):
        return self.say(("append", self.name(), self.scalar()))

    def open(self, kind=None):
        return self.say(("open", self.name(), kind or self.rng.choice(OBJECTS)))

    def mark(self):
        return self.say(("mark",))

    def return_to(self):
        """To a mark that is set, mostly, and more often to an early one."""
        n = self.set_marks()
        early = self.rng.randint(1, self.rng.randint(1, n)) if n else 0
        return self.say(("return", early if n and self.chance(0.93) else self.rng.choice((0, n, n + 1, 16, 17, 2**64 - 1))))

    def finish(self, out=4096):
        answer = self.say(("finish", out))
        if "A6" in self.model.on and answer.startswith("ok value"):
            self.say(("read", *answer.split()[1:]))
        return answer

    def beside(self):
        """Now and then a call that needs no builder; else None."""
        if not self.asked or not self.chance(0.04):
            return None
        verb, bad = self.rng.choice(self.asked), self.chance(0.3)
        return self.read(verb, bad) if verb in READING else self.say(without_builder(self.rng, verb, bad))

    def read(self, verb, bad):
        """A call on a record laid out anyhow, or on what a finish yielded; a bad one is mostly none."""
        last = next((answer for answer in reversed(self.answers) if answer.startswith("ok value")), None)
        if last and len(last) < 9000 and self.chance(0.3):
            value, dictionary = (bytes.fromhex(word.split("=")[1]) for word in last.split()[1:])
            value, names = layouts.altered(self.rng, value) if bad else value, self.pool
        else:
            dictionary, value, names = layouts.pair(self.rng, lambda: self.leaf(bad), self.pool, bad)
        name = self.rng.choice([*names, *names, self.rng.choice(MIXED), self.rng.choice(BAD_TEXTS)])
        return self.say(layouts.call(self.rng, verb, dictionary, value, name))

    def leaf(self, bad):
        """A scalar's bytes; now and then those of one that is refused."""
        while True:
            scalar = any_scalar(self.rng, bad and self.chance(0.1), LEAVES)
            refused = self.model.scalar_refusal(scalar)
            if not refused or bad and self.chance(0.1) and scalar[0] != "short":
                return self.model.scalar_bytes(scalar)

    def step(self, weights=(9, 4, 3, 2, 1)):
        """Mostly a call that fits the state."""
        self.beside()
        r = self.record()
        if r.finished and self.chance(0.9):
            return None
        if self.chance(self.wrong):
            return self.anything()
        if r.open == 0 and r.value_used == 0 and not self.chance(0.05):
            return self.open() if self.chance(0.9) else self.register()
        if r.open == 0:
            return self.finish() if self.chance(0.4) else self.anything()
        if r.open == 1:
            weights = (weights[0], weights[1], 0.2, 0.4, weights[4])
        if self.inner() == "list":
            weights = (*weights[:4], 0)
        verbs = ("append", "open", "close", "rollback", "unique", "register", "mark", "return")
        marks = (self.marked / 2, self.marked if self.set_marks() else self.marked / 20)
        verb = self.rng.choices(verbs, (*weights, 2 if self.inside else 0, *marks))[0]
        if verb in ("mark", "return"):
            return self.mark() if verb == "mark" else self.return_to()
        if verb == "register":
            return self.register()
        if verb in ("append", "open"):
            return self.append() if verb == "append" else self.open()
        return self.say((verb, self.chance(0.5)) if verb == "unique" else (verb,))

    def anything(self):
        """Any call, whatever the state."""
        self.beside()
        verb = self.rng.choice(("register", "append", "append", "open", "close", "rollback", "unique", "finish",
                                *("mark", "return") * (self.marked > 0)))
        if verb in ("mark", "return"):
            return self.mark() if verb == "mark" else self.return_to()
        if verb == "register" and "A1" in self.model.on and self.record().open and not self.inside:
            verb = "append"
        if verb == "register":
            return self.register()
        if verb in ("append", "open"):
            return self.append() if verb == "append" else self.open()
        if verb == "finish":
            return self.finish(self.rng.choice([4096, 4096, 0, 2, 3, 10]))
        return self.say((verb, self.chance(0.5)) if verb == "unique" else (verb,))

    def wind_up(self, rollback=0.15, finish=0.95):
        """Closes or rolls back all that is open, then finishes."""
        for _ in range(min(self.record().open, 66)):
            self.say(("rollback",) if self.chance(rollback) else ("close",))
            if self.chance(0.2):
                self.append()
        if self.record().value_used == 0:
            if self.chance(0.3):
                self.finish()
            self.append()
        if self.chance(finish):
            self.finish()
        if self.chance(0.05):
            self.anything()


# ---------------------------------------------------------------- kinds

def plain(new, number, short):
    run = new()
    for _ in range(run.rng.randrange(3) if run.chance(0.3) else 0):
        run.register()
    if run.chance(0.15):
        run.append()
    for _ in range(run.rng.randrange(15 if short else 45)):
        run.step()
    run.wind_up()
    return run


def descend(run, depth, siblings):
    """Opens containers down to the depth, with a value before one of them now and then."""
    for _ in range(4 * depth):
        if run.record().open < depth:
            if run.record().open and run.chance(siblings):
                run.append()
            if run.inside and run.chance(0.2):
                run.register()
            run.open()


def deep(new, number, short):
    """To 64 open, where one more is refused."""
    run = new(unique=False, value=8192, entries=300)
    descend(run, 64 if not short or number % 8 == 0 else run.rng.randint(3, 10), 0.2 if short else 0.4)
    for _ in range(run.rng.randrange(2 if short else 6)):
        run.step((4, 4, 1, 1, 1))
    while run.record().open:
        for _ in range(0 if short else run.rng.randrange(3)):
            run.append() if run.chance(0.7) else run.open()
        if run.chance(0.03) or run.say(("close",)) != "ok":
            run.say(("rollback",))
    run.wind_up()
    return run


def rollbacks(new, number, short):
    """Roll backs at each depth: of a new child, of a replacing one, of one with children."""
    run = new(unique=False, pool=new.rng.choice([[b"a"], [b"b", b"a"], MIXED, MIXED[:4]]), value=8192, entries=400)
    depth = 1 + number % (6 if short else 64)
    descend(run, depth - 1, 0.3)
    for _ in range(1 if short else run.rng.randint(1, 3)):
        before = run.record().open
        if before and run.chance(0.5):
            run.append()
        run.open()
        for _ in range(run.rng.randrange(6)):
            run.step((5, 3, 1, 1, 1))
        while run.record().open > before:
            run.say(("rollback",))
        run.append()
    while run.record().open:
        if run.chance(0.3) or run.say(("close",)) != "ok":
            run.say(("rollback",))
        if run.record().open and run.chance(0.3):
            run.append()
    run.wind_up()
    return run


def replaced(new, number, short):
    """Few names: live ones are replaced, or refused where the mark is on."""
    run = new(pool=[b"b", b"a", b"ab"][:new.rng.randint(1, 3)])
    run.open("object")
    for _ in range(run.rng.randrange(3, 16 if short else 40)):
        run.step((8, 5, 3, 3, 2))
    run.wind_up()
    return run


def refusals(new, number, short):
    """Calls in the wrong order, ill-formed ones, calls after finish."""
    run = new(wrong=0.35)
    for _ in range(run.rng.randrange(4, 18 if short else 40)):
        run.step() if run.chance(0.6) else run.anything()
    run.wrong = 0.1
    run.wind_up()
    for _ in range(run.rng.randrange(4)):
        run.anything()
    return run


def small(new, number, short):
    """The calls of another run again, over storages just enough or just too small."""
    return tightened(new, new.rng.choice([plain, replaced, rollbacks])(new, number, short))


def tightened(new, other):
    rng, sizes, settings = new.rng, dict(other.peak), other.calls[other.made][1]
    for key in rng.sample(sorted(sizes), rng.randint(1, 5)):
        sizes[key] = rng.choice([sizes[key] - 1, sizes[key] - 1, sizes[key], sizes[key] + 1, rng.randint(0, sizes[key])])
    sizes = {key: max(n, 0) for key, n in sizes.items()}
    out = sizes.pop("out")
    run = new(unique=settings["unique"], floor=settings.get("floor"), marked=other.marked, **sizes)
    for call in [call for call in other.calls[other.made + 1:] if call[0] not in READING]:
        run.finish(out) if call[0] == "finish" else run.say(call)
    if run.answers[-1] == "refused 16":
        run.finish(other.peak["out"])
    return run


def lists(new, number, short):
    """Lists, and objects within them, where few entries are lent, or none; now and then of around 255 elements."""
    rng = new.rng
    run = new(value=8192, entries=rng.choice([0, 0, 1, 2, 3, 6]), pool=MIXED[:3])
    run.open("list")
    if number % 4 == 0 and not short:
        for _ in range(rng.choice([254, 255, 256, 257])):
            put(run, None)
    for _ in range(rng.randrange(3, 12 if short else 30)):
        run.step((6, 2, 3, 3, 1)) if run.chance(0.6) else run.open("list" if run.chance(0.7) else "object")
    run.wind_up()
    return run


def edge(new):
    """Data, or the bytes of all names, that end at a width's edge."""
    rng = new.rng
    run = new(value=140_000, namebytes=70_000, pool=MIXED[:4])
    size = rng.choice([255, 65_535]) + rng.choice([-1, 0, 0, 0, 1, 1])
    if run.chance(0.4):
        run.say(("register", b"n" * size))
    for _ in range(rng.randint(1, 2)):
        run.open()
    for _ in range(rng.randrange(4)):
        run.append()
    rest = size - 5 - run.record().value_used
    if rest >= 0:
        run.say(("append", run.name(), (rng.choice(["binary", "string"]), b"w" * rest)))
    run.wind_up(rollback=0.02)
    if run.record().namebytes_used > 4000:
        run.finish(80_000)
    return run


def wide(new, number, short):
    """Around 255 entries, over 256 names, data and names to the edges of the widths 1 and 2 and beyond."""
    rng, large = new.rng, number % 5 == 0
    if number % 3 == 0 and not short:
        return edge(new)
    if short:
        run = new(pool=[bytes([97 + i]) * rng.randint(1, 9) for i in range(12)])
    else:
        names = [rng.choice([b"%03x", b"n%d", b"%d"]) % i for i in range(rng.randint(255, 300))]
        run = new(pool=names, value=200_000 if large else 20_000, namebytes=4096, names=400, entries=900)
    for name in [] if short else rng.sample(run.pool, rng.choice([0, 0, 5, 255, len(run.pool)])):
        run.say(("register", name))
    run.open() if short or run.chance(0.6) else [run.open("list"), run.append(), run.open()]
    for name in rng.sample(run.pool, min(len(run.pool), 14 if short else rng.choice([254, 255, 256, 257, 300]))):
        scalar = run.scalar() if run.chance(0.1) else rng.choice([("null",), ("int8", 5), ("text", name)])
        run.say(("append", name if run.inner() == "object" else None, scalar))
    if run.chance(0.7):
        sizes = (240, 250, 300) if short else (65_500, 66_000, 70_000) if large else (250, 300, 2000)
        run.say(("append", run.name(), (rng.choice(["binary", "text", "string"]), b"w" * rng.choice(sizes))))
    run.wind_up(rollback=0.02)
    return run


# ---------------------------------------------------------------- marks

def stepped(run, most, weights):
    """Some random calls, then the end."""
    for _ in range(run.rng.randrange(5, most)):
        run.step(weights)
    run.wind_up()
    return run


def marked_fields(new):
    """Few names, so that most fields are replaced."""
    run = new(pool=[b"b", b"a", b"ab"][:new.rng.randint(1, 3)], unique=new.rng.random() < 0.1, marked=5)
    run.open("object")
    return stepped(run, 50, (12, 5, 2, 4, 1))


def sixteen_marks(new):
    """To 16 marks and one more, with values between them or none."""
    run = new(pool=MIXED[:3], value=8192, marked=3)
    for _ in range(run.rng.choice((1, 1, 1, 2, 4))):
        run.open()
    for _ in range(run.rng.choice((15, 16, 17, 18))):
        run.append() if run.chance(0.4) else None
        run.mark()
    for _ in range(run.rng.randrange(10)):
        run.rng.choice((run.mark, run.return_to, run.append, run.step))()
    run.wind_up()
    return run


def few_records(new):
    """Replaced fields where few undo records are lent, which returns, roll backs and closes free again."""
    run = new(pool=[b"a", b"b"][:new.rng.randint(1, 2)], unique=False, undo=new.rng.choice((0, 1, 2, 3, 4, 5, 6)), marked=5)
    run.open("object")
    put(run, run.pool[0])
    run.mark()
    return stepped(run, 40, (9, 5, 2, 4, 0.2))


def marked_lists(new):
    """Lists, and objects within them, where few entries are lent, or none."""
    run = new(pool=MIXED[:3], entries=new.rng.choice((0, 0, 2, 4, 6)), marked=6)
    run.open("list")
    return stepped(run, 40, (6, 3, 2, 3, 1))


def marked_deep(new):
    """Marks at each depth."""
    run = new(pool=MIXED[:4], unique=False, value=8192, entries=300, marked=3)
    for _ in range(run.rng.choice((64, 66, run.rng.randint(2, 63)))):
        run.open()
        for _ in range(run.rng.randrange(3)):
            run.append() if run.chance(0.4) else run.mark()
    while run.record().open:
        for _ in range(run.rng.randrange(3)):
            run.rng.choice((run.return_to, run.return_to, run.append, run.mark))()
        if run.chance(0.3) or run.say(("close",)) != "ok":
            run.say(("rollback",))
    run.wind_up()
    return run


def marks(new, number, short):
    """Marks and returns to them; now and then over storages just enough or just too small."""
    if "A9" not in new.model.on:
        return replaced(new, number, short)
    run = (sixteen_marks if number % 12 == 2 else marked_deep if number % 12 == 8 else (marked_fields, few_records, marked_lists)[number % 3])(new)
    return tightened(new, run) if run.chance(0.2) else run


# ---------------------------------------------------------------- records

def records(new, number, short):
    """Records read, right and wrong ones; what the run yields among them."""
    run = new(pool=new.rng.choice((MIXED, MIXED[:4], [b"", b"a"])))
    for _ in range(run.rng.randrange(1, 12)):
        run.step()
    run.wind_up()
    for _ in range(20 if "A6" in new.model.on else 0):
        run.read(run.rng.choice(READING), run.chance(0.5))
    return run


# ---------------------------------------------------------------- the widths' edges

def put(run, name, scalar=None):
    """Into the innermost container, under the name if that is an object; without a scalar, a short one."""
    scalar = scalar or run.rng.choice([("null",), ("int8", 5), ("true",)])
    run.say(("append", name if run.inner() == "object" else None, scalar))


def register_all(run, names):
    for name in names:
        run.say(("register", name))


def data_edge(run, kind, size):
    """A container of that many bytes of data."""
    run.open(kind)
    for name in run.pool[:run.rng.randrange(4)]:
        put(run, name)
    put(run, run.pool[4], (run.rng.choice(["binary", "string"]), b"w" * (size - 5 - run.record().value_used)))


def count_edge(run, kind, count):
    """A container of that many elements or fields."""
    run.open(kind)
    for name in run.rng.sample(run.pool, count):
        put(run, name)


def id_edge(run, largest):
    """A field of that id, beside others."""
    register_all(run, run.pool[:largest + 1])
    run.open("object")
    for name in run.rng.sample(run.pool[largest - 2:largest + 1], 3):
        put(run, name)


def names_edge(run, count):
    """That many names."""
    register_all(run, run.pool[:count])
    put(run, None)


def name_bytes_edge(run, size):
    """Names of that many bytes together."""
    ends = sorted([0, size, *run.rng.sample(range(1, size), 2)])
    register_all(run, [bytes([97 + i]) * (end - start) for i, (start, end) in enumerate(zip(ends, ends[1:]))])
    put(run, None)


SIZES = (255, 256, 65_535, 65_536)
COUNTS = (255, 256)
EDGES = (*((data_edge, kind, n) for kind in OBJECTS for n in SIZES), *((count_edge, kind, n) for kind in OBJECTS for n in COUNTS),
         *((id_edge, n) for n in COUNTS), *((names_edge, n) for n in COUNTS), *((name_bytes_edge, n) for n in SIZES))
CASES = [(floor, *edge) for edge in EDGES for floor in (1, 2, 3, 4)]


def widths(new, number, short):
    """Each floor at each edge of a width; now and then over storages just enough or just too small."""
    floor, at_edge, *edge_of = CASES[37 * number % len(CASES)]     # 37 and their number have no divisor in common: all come, mixed
    names = [b"%03d" % i for i in range(260)]
    new.rng.shuffle(names)
    run = new(floor=floor, pool=names, wrong=0, value=70_000, namebytes=70_000, names=300, entries=700)
    at_edge(run, *edge_of)
    if run.record().open:
        run.say(("close",))
    run.finish(80_000)
    return tightened(new, run) if run.chance(0.3) else run


# ---------------------------------------------------------------- altered storage

def near(rng, n, room):
    choices = [n - 1, n + 1, n, 0, room, room + 1, rng.randint(0, room), 2**32 - 1, 2**32, 2**64 - 1]
    return min(max(0, rng.choice(choices[:7] if rng.random() < 0.9 else choices)), 2**64 - 1)


def poke_number(run):
    r, b, rng = run.record(), run.session.builder, run.rng
    rooms = {"value_used": b.value_room(), "names_used": b.names_room(), "namebytes_used": b.namebytes_room(),
             "entries_used": b.entries_room(), "open": 64}
    key = rng.choice(list(rooms))
    run.say(("poke", key, near(rng, getattr(r, key), rooms[key])))


def poke_container(run):
    r, rng = run.record(), run.rng
    if 0 < r.open <= 64:
        i = rng.choice([r.open - 1, max(r.open - 2, 0), rng.randrange(r.open)])
        key = rng.choice(("value", "names", "namebytes", "entries", "kind", "unique", "entry", "entry"))
        if key == "kind":
            word = (rng.choice(OBJECTS),)
        elif key == "unique":
            word = (rng.randrange(2),)
        elif key == "entry":
            word = rng.choice([("new",), ("replaced", rng.randrange(3), rng.randrange(8))])
        else:
            word = (near(rng, getattr(r.containers[i], key), getattr(r, key + "_used")),)
        run.say(("poke", "container", i, key, *word))


def poke_storage(run):
    r, b, rng = run.record(), run.session.builder, run.rng
    what = rng.choice(("value", "namebytes", "nameend", "entry", "entry"))
    if what in ("value", "namebytes"):
        at = rng.randrange(min(len(getattr(b.s, what)), 12))
        run.say(("poke", what, at, rng.randbytes(1).hex() if rng.random() < 0.5 else "61"))
    elif what == "nameend":
        k = rng.randrange(min(max(r.names_used, 1), b.names_room()))
        run.say(("poke", what, k, near(rng, b.s.nameends[k], min(r.namebytes_used, 99))))
    else:
        k = rng.randrange(min(max(r.entries_used, 1), b.entries_room()))
        run.say(("poke", what, k, near(rng, rng.randrange(3), min(r.names_used, 99)), near(rng, 0, min(r.value_used, 99))))


def poke_name(run):
    """One more name, perhaps equal to one already there."""
    r, b, rng = run.record(), run.session.builder, run.rng
    name = rng.choice([b"a", b"b", b"", b"\xff"])
    end = r.namebytes_used + len(name)
    if r.names_used < b.names_room() and end <= b.namebytes_room():
        run.say(("poke", "nameend", r.names_used, end))
        if name:
            run.say(("poke", "namebytes", r.namebytes_used, name.hex()))
        run.say(("poke", "names_used", r.names_used + 1))
        run.say(("poke", "namebytes_used", end))


def poke_entry(run):
    """One more entry, perhaps of an id already there."""
    r, b, rng = run.record(), run.session.builder, run.rng
    if r.entries_used < b.entries_room():
        run.say(("poke", "entry", r.entries_used, rng.randint(0, min(r.names_used, 9)), rng.randint(0, min(r.value_used, 9))))
        run.say(("poke", "entries_used", r.entries_used + 1))


def poke_open(run):
    """One more open container, at the used counts or a little before."""
    r, rng = run.record(), run.rng
    if r.open < 64:
        marks = [max(0, n - rng.choice([0, 0, 0, 1])) for n in (r.value_used, r.names_used, r.namebytes_used, r.entries_used)]
        entry = rng.choice([("new",), ("replaced", rng.randrange(3), rng.randrange(6))])
        run.say(("poke", "container", r.open, "all", *marks, rng.choice(OBJECTS), rng.randrange(2), *entry))
        run.say(("poke", "open", r.open + 1))


def poke_floor(run):
    run.say(("poke", "floor", run.rng.choice((1, 2, 3, 4, 1, 2, 3, 4, 0, 5, 2**64 - 1))))


def poke_count(run):
    """A list's count: one off, none, as many as its data's bytes or just more, or anything; now and then an object's, which is free."""
    r, b, rng = run.record(), run.session.builder, run.rng
    wanted = OBJECTS if rng.random() < 0.1 else ("list",)
    counted = [i for i in range(r.open if r.open <= 64 else 0) if r.containers[i].kind in wanted]
    if counted:
        i = rng.choice([*counted, counted[-1]])
        count, most = r.containers[i].count, b.data_size(i) + (i + 1 < r.open)
        near_by = (count - 1, count - 1, count + 1, count + 1, 0, most, most + 1)
        n = rng.choice(near_by) if rng.random() < 0.85 else rng.choice((2**32 - 1, 2**32, 2**63, 2**64 - 1, rng.randrange(99)))
        run.say(("poke", "container", i, "count", min(max(0, n), 2**64 - 1)))


def poke_mark(run):
    """A number of a mark that is set: one off, its neighbour's or just past it, or anything."""
    r, rng = run.record(), run.rng
    marked = [i for i in range(r.open if r.open <= 64 else 0) if r.containers[i].marks]
    if not marked:
        return poke_marks(run)
    i = rng.choice([*marked, marked[-1]])
    c = r.containers[i]
    k, key = rng.randint(1, min(c.marks, 16)), rng.choice((*run.model.MARK_NUMBERS, "unique"))
    if key == "unique":
        return run.say(("poke", "mark", i, k, key, rng.randrange(2)))
    used, start = (c.count, 0) if key == "count" else (getattr(r, key + "_used"), getattr(c, key))
    numbers = [start, *(getattr(mark, key) for mark in c.slots[:min(c.marks, 16)]), used]
    below, own, above = numbers[k - 1:k + 2]
    near_by = (own - 1, own + 1, below, below - 1, above, above + 1, used, used + 1, start - 1)
    n = rng.choice(near_by) if rng.random() < 0.9 else rng.choice((0, 2**32, 2**63, 2**64 - 1, rng.randrange(99)))
    return run.say(("poke", "mark", i, k, key, min(max(0, n), 2**64 - 1)))


def poke_marks(run):
    """How many marks are set: one off, none, 16 or more; of one more its numbers, too, mostly such as would fit."""
    r, rng = run.record(), run.rng
    if not 0 < r.open <= 64:
        return None
    i = rng.choice([r.open - 1, r.open - 1, rng.randrange(r.open)])
    c = r.containers[i]
    if c.marks >= 16 or rng.random() < 0.4:
        n = rng.choice((c.marks - 1, c.marks + 1, c.marks + 1, 0, 16, 17, 2**64 - 1))
        return run.say(("poke", "container", i, "marks", min(max(0, n), 2**64 - 1)))
    for key in run.model.MARK_NUMBERS:
        used, start = (c.count, 0) if key == "count" else (getattr(r, key + "_used"), getattr(c, key))
        low = getattr(c.slots[c.marks - 1], key) if c.marks else start
        n = rng.choice((low, used, rng.randint(min(low, used), max(low, used)), used + (rng.random() < 0.1)))
        run.say(("poke", "mark", i, c.marks + 1, key, min(n, 2**64 - 1)))
    run.say(("poke", "mark", i, c.marks + 1, "unique", rng.randrange(2)))
    return run.say(("poke", "container", i, "marks", c.marks + 1))


def poke_undo(run):
    """The used undo records, a container's starting undo count, or a record."""
    r, b, rng = run.record(), run.session.builder, run.rng
    what = rng.choice(("undo_used", "container", "container", "undo", "undo"))
    if what == "undo_used":
        return run.say(("poke", what, near(rng, r.undo_used, b.undo_room())))
    if what == "container" and 0 < r.open <= 64:
        i = rng.choice([r.open - 1, max(r.open - 2, 0), rng.randrange(r.open)])
        others = [c.undo for c in r.containers[:r.open]]
        n = rng.choice((*others, r.undo_used)) if rng.random() < 0.4 else near(rng, others[i], r.undo_used)
        return run.say(("poke", what, i, "undo", min(n, 2**64 - 1)))
    if b.undo_room():
        k = rng.randrange(min(max(r.undo_used, 1), b.undo_room()))
        return run.say(("poke", "undo", k, rng.randint(0, min(r.names_used, 3)), near(rng, 0, min(r.value_used, 99))))
    return None


def poke_undo_counts(run):
    """Some undo records used, with starting undo counts that may fall from one open container to the next; the marks' are the used ones."""
    r, b, rng = run.record(), run.session.builder, run.rng
    used = rng.randint(0, min(b.undo_room(), 3))
    run.say(("poke", "undo_used", used))
    for i in range(r.open if r.open <= 64 else 0):
        run.say(("poke", "container", i, "undo", rng.choice((used, used, rng.randint(0, used)))))
        for k in range(min(r.containers[i].marks, 16)):
            run.say(("poke", "mark", i, k + 1, "undo", used))


def starts_of(model, data):
    """Where the values start that data begins with, and where the last one ends."""
    at = [0]
    while size := model.measure(data[at[-1]:]):
        at.append(at[-1] + size)
    return at if at[-1] else [0, len(data)]


def poke_data(run):
    """The innermost list's data: a value, or some, overwritten by one of another kind or by what is just none; or the data cut short. Its count is
    mostly as many as there would then be."""
    r, b, rng = run.record(), run.session.builder, run.rng
    first = r.containers[r.open - 1].value if run.inner() == "list" else r.value_used
    data = bytes(b.s.value[first:r.value_used])
    if not data or r.value_used > len(b.s.value):
        return poke_count(run)
    starts = starts_of(run.model, data)
    i = rng.randrange(len(starts) - 1)
    j = rng.choice((i + 1, i + 1, rng.randint(i + 1, len(starts) - 1)))
    count = len(starts) - 1
    if rng.random() < 0.1:
        run.say(("poke", "value_used", first + starts[i] if rng.random() < 0.3 else r.value_used - rng.randint(1, min(len(data), 9))))
    else:
        poked, values = rng.choice((one_value, one_value, one_value, one_off, no_value, far_length, far_count))(rng, starts[j] - starts[i])
        run.say(("poke", "value", first + starts[i], poked[:len(b.s.value) - first - starts[i]].hex()))
        count += i - j + values
    run.say(("poke", "container", r.open - 1, "count", max(0, count + rng.choice((0, 0, 0, 0, -1, 1)))))


def container_head(rng):
    """The first byte of a list or an object, with unused bits now and then; the bytes of an offset, of an offset with its id, and of the count."""
    w, v, large, unused = rng.randint(1, 4), rng.randint(1, 4), rng.random() < 0.5, rng.random() < 0.5
    if rng.random() < 0.5:
        return 3 + 4 * (w - 1) + 16 * large + 32 * rng.randrange(8) * unused, w, w, 4 if large else 1
    return 2 + 4 * (w - 1) + 16 * (v - 1) + 64 * large + 128 * unused, w, v + w, 4 if large else 1


def one_value(rng, size):
    """The first bytes of a value of that size, up to all that measuring reads, and 1."""
    first, w, item, c = container_head(rng)
    room, pick = (size - 1 - c - w) // item, rng.random()
    count = min(rng.choice((0, 1, room, rng.randint(0, max(room, 0)))), room, 255)
    rest = size - 1 - c - w - count * item
    if pick < 0.7 and room >= 0 and rest < 256**w:
        return bytes([first]) + count.to_bytes(c, "little") + rng.randbytes(count * item) + rest.to_bytes(w, "little"), 1
    if pick < 0.9 and size >= 5:
        return bytes([4 * rng.choice((15, 16))]) + (size - 5).to_bytes(4, "little"), 1
    fixed = [4 * code for code, n in PAYLOADS.items() if n + 1 == size]
    return bytes([rng.choice([*fixed, 4 * min(size - 1, 63) + 1])]), 1


def one_off(rng, size):
    """The same of a value that is one byte longer or shorter."""
    return one_value(rng, max(1, size + rng.choice((-1, 1))))


def no_value(rng, size):
    """A type code above 20 and nulls to that size; how many values they would be."""
    return bytes([4 * rng.choice((21, 22, 31, 32, 63, rng.randint(21, 63)))]) + bytes(size - 1), size


def far_length(rng, size):
    """A Binary, a String or an empty container that says more bytes than there are, or so many that 32 bits do not hold them."""
    first, _, _, c = container_head(rng)
    if rng.random() < 0.5:
        return bytes([4 * rng.choice((15, 16))]) + rng.choice((*FAR, 2**32 - 5, 2**32 - 3)).to_bytes(4, "little"), 1
    return bytes([first | 12]) + bytes(c) + rng.choice((*FAR, 2**32 - 5 - c, 2**32 - 3 - c)).to_bytes(4, "little"), 1


def far_count(rng, size):
    """A container without data whose offsets are so many that 32 bits hold few of their bytes, then nulls to that size; how many values these would
    be."""
    first, w, item, _ = container_head(rng)
    count = min(-(-2**32 // item), 2**32 - 1)
    header = 5 + count * item % 2**32 + w
    if header > size:
        return no_value(rng, size)
    return bytes([first | (16 if first % 4 == 3 else 64)]) + count.to_bytes(4, "little") + bytes(size - 5), 1 + size - header


PAYLOADS = {0: 0, 1: 0, 2: 0, 3: 1, 4: 2, 5: 4, 6: 8, 7: 8, 8: 5, 9: 9, 10: 17, 11: 4, 12: 8, 13: 8, 14: 4, 17: 8, 18: 8, 19: 8, 20: 16}
POKES = [poke_number, poke_container, poke_storage, poke_name, poke_entry, poke_open,
         lambda run: run.say(("poke", run.rng.choice(("unique", "sorted", "finished")), run.rng.randrange(2)))]


def many_names(new, number):
    """So many empty names that the next one's id, and the names' count, are at a width's edge: too many to be registered."""
    run = new(floor=1 + number % 4, names=65_540, fill=0, wrong=0)
    run.say(("poke", "names_used", new.rng.choice(SIZES) - new.rng.randrange(2)))
    run.open("object")
    for name in (b"a", b"")[:new.rng.randint(1, 2)]:
        put(run, name)
    run.say(("close",))
    run.finish(400_000)
    return run


def many_elements(new, number):
    """So many values in a list that their count is at a width's edge, or far above it, and so many counted, or one off: values all alike, as the
    storage is filled, over as much room as the header takes, or about that."""
    rng, model, floor = new.rng, new.model, 1 + number % 4
    fill, count = rng.choice((0, 0, 4, 12, 16, 5, 3, 2)), rng.choice((*SIZES, 100_000) if number % 5 == 0 else (254, *COUNTS, 257, 1000))
    size = model.measure(bytes([fill]) * 99)
    header = model.list_header(range(0, count * size, size), count * size, floor)
    run = new(floor=floor, value=count * size + len(header) + rng.choice((0, 0, 0, 1, -1)), entries=0, fill=fill, wrong=0)
    run.open("list")
    run.say(("poke", "value_used", count * size))
    run.say(("poke", "container", 0, "count", count + rng.choice((0, 0, 0, 0, 1, -1))))
    run.say(("close",))
    run.finish()
    return run


def list_altered(new):
    """A list of some values, within others or not; its data or its count altered, then its close."""
    rng = new.rng
    run = new(value=rng.choice([60, 120, 400]), namebytes=8, names=4, entries=rng.choice([0, 4, 12]), pool=MIXED[:3], wrong=0, inside=True)
    for _ in range(rng.choice([0, 0, 0, 1, 2])):
        run.open()
    run.open("list")
    for _ in range(rng.randint(1, 5)):
        depth = run.record().open
        rng.choice((lambda: put(run, run.pool[0]), run.append, run.append, run.open))()
        for _ in range(rng.randrange(3) if run.record().open > depth else 0):
            run.append()
        if run.record().open > depth and run.say(("close",)) != "ok":
            run.say(("rollback",))
    if run.chance(0.15):
        run.open()
    for _ in range(rng.choice([1, 1, 1, 2, 3])):
        rng.choice((poke_count, poke_data, poke_data, poke_data))(run)
    settle(run)
    run.say(("dump",)) if run.chance(0.3) else None
    run.step((2, 1, 9, 2, 1)) if run.chance(0.2) else run.say(("close",))
    return run


def marks_altered(new):
    """A container with marks, within others or not, with fields replaced under them and perhaps a child; its marks, undo counts or records altered,
    then a call or two."""
    rng = new.rng
    run = new(value=rng.choice([120, 400]), namebytes=8, names=4, entries=rng.choice([6, 12, 24]), undo=rng.choice([2, 4, 6, 8]), pool=MIXED[:2],
              wrong=0, unique=False, inside=True, marked=3)
    for _ in range(rng.choice([0, 0, 0, 1, 2])):
        run.open()
        run.mark() if run.chance(0.3) else None
    run.open("object" if run.chance(0.75) else "list")
    for _ in range(rng.randint(2, 9)):
        rng.choice((run.append, run.append, run.append, run.mark))()
    for _ in range(16 if run.chance(0.08) else 0):
        run.mark()
    if run.chance(0.4):
        run.open()
        run.append() if run.chance(0.3) else None
    for _ in range(rng.choice([1, 1, 1, 2, 3])):
        rng.choice((poke_mark, poke_mark, poke_mark, poke_marks, poke_undo, poke_undo, poke_undo_counts))(run)
    settle(run)
    run.say(("dump",)) if run.chance(0.3) else None
    for _ in range(rng.choice([1, 1, 2])):
        run.step((2, 1, 2, 3, 1)) if run.chance(0.6) else run.return_to()
    return run


def settle(run):
    """Pokes all that a call may read, so that no answer rests on what document 01 leaves free."""
    r, b = run.record(), run.session.builder
    for i in range(r.open if r.open <= 64 else 0):
        c = r.containers[i]
        run.say(("poke", "container", i, "all", c.value, c.names, c.namebytes, c.entries, c.kind, int(c.unique), *c.entry))
        if c.count and "A8" in run.model.on:
            run.say(("poke", "container", i, "count", c.count))
        if "A9" in run.model.on:
            settle_marks(run, i, c)
    for k in range(min(r.entries_used, b.entries_room())):
        run.say(("poke", "entry", k, *b.s.entries[2 * k:2 * k + 2]))
    for k in range(min(r.names_used, b.names_room())):
        run.say(("poke", "nameend", k, b.s.nameends[k]))
    for k in range(min(r.undo_used, b.undo_room()) if "A9" in run.model.on else 0):
        run.say(("poke", "undo", k, *b.s.undo[2 * k:2 * k + 2]))
    data = bytes(b.s.namebytes[:r.namebytes_used])
    if data:
        run.say(("poke", "namebytes", 0, data.hex()))


def settle_marks(run, i, c):
    """The same of a container's starting undo count and its marks, which a poke of it whole made 0."""
    for key in ("undo", "marks"):
        if getattr(c, key):
            run.say(("poke", "container", i, key, getattr(c, key)))
    for k, mark in enumerate(c.slots[:min(c.marks, 16)], 1):
        for key, n in mark._asdict().items():
            if n:
                run.say(("poke", "mark", i, k, key, int(n)))


def altered(new, number, short):
    """Record and storage overwritten between the calls: against the model alone."""
    rng = new.rng
    if number % 40 == 0:
        return many_names(new, number // 40)
    if number % 40 == 20 and "A8" in new.model.on:
        return many_elements(new, number // 40)
    if number % 3 == 1 and "A8" in new.model.on:
        return ended(list_altered(new))
    if number % 3 == 2 and "A9" in new.model.on:
        return ended(marks_altered(new))
    run = new(value=rng.choice([60, 120, 400]), namebytes=rng.choice([8, 30]), names=rng.choice([4, 12]),
              pool=MIXED[:5], entries=rng.choice([5, 12, 25]), wrong=0.06, inside=True, marked=3 if number % 2 else 0)
    pokes = [*POKES, *[poke_floor] * ("A10" in new.model.on), *[poke_count, poke_data] * ("A8" in new.model.on),
             *[poke_mark, poke_marks, poke_undo, poke_undo_counts] * ("A9" in new.model.on)]
    for _ in range(rng.randint(1, 3)):
        for _ in range(rng.randrange(9)):
            run.step()
        for _ in range(rng.choice([1, 1, 1, 2, 3])):
            rng.choice(pokes)(run)
        settle(run)
        for _ in range(rng.randint(1, 4)):
            run.step((4, 3, 3, 4, 1)) if run.chance(0.8) else run.anything()
            if run.chance(0.3):
                run.say(("dump",))
    return ended(run)


def ended(run):
    """Wound up, and all shown."""
    run.wind_up(rollback=0.4)
    run.say(("dump",))
    run.say(("dumpvalue",))
    return run


MAKERS = {f.__name__: f for f in (plain, deep, rollbacks, replaced, refusals, small, wide, widths, lists, marks, records, altered)}
SHARES = {"plain": 20, "deep": 15, "rollbacks": 17, "replaced": 15, "refusals": 12, "small": 15, "wide": 3, "widths": 5, "lists": 5, "marks": 8,
          "records": 8, "altered": 8}


class Maker:
    """Makes runs for one seed, kind and number."""

    def __init__(self, model, seed, kind, number):
        self.model, self.rng = model, random.Random(f"{seed}:{kind}:{number}")
        self.held = self.rng.random() < 0.97

    def __call__(self, **settings):
        return Run(self.model, self.rng, self.held, **settings)


def make(model, seed, kind, number, short=False):
    run = MAKERS[kind](Maker(model, seed, kind, number), number, short)
    run.kind = kind
    if not short and run.chance(0.2):
        run.say(("dump",))
        run.say(("dumpvalue",)) if run.peak["value"] < 2000 else None
    return run
