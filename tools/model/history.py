"""The history of document 01: what gives the kept record, fed each call and whether it was
refused; the bytes of a kept record by the layout sections; and what follows from the history
alone: the ledger of used value bytes and the refusals of a run from a fresh builder. With the
requests of document 02 that change these; `on` is the set of those in force.

Written apart from model.py and sharing no code with it.
"""
import datetime
import struct
from itertools import accumulate

# ---------------------------------------------------------------- scalars as kept

_FIXED = {  # kind: (type code, struct format of the payload)
    "null": (0, ""), "true": (1, ""), "false": (2, ""), "int8": (3, "b"), "int16": (4, "h"),
    "int32": (5, "i"), "int64": (6, "q"), "double": (7, "Q"), "dec4": (8, "Bi"),
    "dec8": (9, "Bq"), "date": (11, "i"), "tsmicros": (12, "q"), "tsntzmicros": (13, "q"),
    "float": (14, "I"), "time": (17, "Q"), "tsnanos": (18, "q"), "tsntznanos": (19, "q"),
}
SHORT = "short"  # the stored type that has no code


EPOCH = datetime.date(1970, 1, 1)


def civil_days(y, m, d):
    """A2, by Python's own calendar, whose years are 1 to 9999; None where there's no such date."""
    try:
        return (datetime.date(y, m, d) - EPOCH).days
    except (ValueError, OverflowError):
        return None


def packed_number(data):
    """A4, by the text of the digits; None where 18 refuses."""
    text = data.hex()
    known = 2 <= len(text) <= 40 and text[:-1].isdecimal() and text[-1] in "cdf"
    return int(("-" if text[-1] == "d" else "") + text[:-1]) if known else None


def plain(scalar):
    """A2's and A4's forms, where not refused, as document 01's."""
    kind, args = scalar[0], scalar[1:]
    if kind == "ymd":
        return "date", civil_days(*args)
    if kind in ("ymdts", "ymdtsntz"):
        micros = civil_days(*args[:3]) * 86_400_000_000 + args[3]
        return "tsmicros" if kind == "ymdts" else "tsntzmicros", micros
    if kind == "packed":
        n = packed_number(args[1])
        digits = len(str(abs(n)))
        return "dec4" if digits <= 9 else "dec8" if digits <= 18 else "dec16", args[0], n
    return scalar


def keep_scalar(scalar):
    """(stored type, payload): the type is a code, or SHORT."""
    scalar = plain(scalar)
    kind, args = scalar[0], scalar[1:]
    if kind in _FIXED:
        code, layout = _FIXED[kind]
        return code, struct.pack("<" + layout, *args)
    if kind == "dec16":
        return 10, struct.pack("<BQq", args[0], args[1] & (1 << 64) - 1, args[1] >> 64)
    if kind == "uuid":
        return 20, args[0]
    if kind == "binary":
        return 15, args[0]
    if kind == "short" or kind == "text" and len(args[0]) < 64:
        return SHORT, args[0]
    return 16, args[0]


# ---------------------------------------------------------------- the history

class Open:
    """An open container: kind, own name if any, items in order, names before its open.
    An item is [name or None, value]; in an object None marks a replaced one. By A9 also its
    marks, each a copy of its items and of the names."""

    def __init__(self, kind, name, names):
        self.kind, self.name, self.items, self.names_before = kind, name, [], names
        self.marks = []

    def replaced(self):
        """Replacements that a return to some mark would undo."""
        def gone(items):
            return sum(name is None for name, _ in items)
        if self.kind == "list" or not self.marks:
            return 0
        return gone(self.items) - gone(self.marks[0][0])

    def live(self):
        return [name for name, _ in self.items if name is not None]


class History:
    def __init__(self):
        self.names = ()     # in order of id
        self.top = None     # a value, once there is one
        self.open = []      # innermost last
        self.kept = None    # the kept record, after an accepted finish

    def feed(self, call, refused):
        verb = call[0]
        if refused or verb == "unique":
            return
        if verb in ("register", "append", "open"):
            name = call[1]
            before = self.names
            if name is not None and name not in self.names:
                self.names += (name,)
        if verb == "append":
            self._enter(("scalar", *keep_scalar(call[2])), name)
        elif verb == "open":
            self.open.append(Open(call[2], name, before))
        elif verb == "close":
            c = self.open.pop()
            self._enter((c.kind, tuple(map(tuple, c.items))), c.name)
        elif verb == "rollback":
            self.names = self.open.pop().names_before
        elif verb == "mark":
            c = self.open[-1]
            c.marks.append(([item[:] for item in c.items], self.names))
        elif verb == "return":
            c = self.open[-1]
            del c.marks[call[1]:]
            items, self.names = c.marks[-1]
            c.items = [item[:] for item in items]
        elif verb == "finish":
            self.kept = (self.top, self.names)

    def _enter(self, value, name):
        if not self.open:
            self.top = value
            return
        items = self.open[-1].items
        if name is not None:
            for item in items:
                if item[0] == name:
                    item[0] = None
        items.append([name, value])


# ---------------------------------------------------------------- bytes of the kept

def number(n, size):
    return struct.pack("<Q", n)[:size]


def size_of(n):
    return next(size for size in (1, 2, 3, 4) if n < 256 ** size)


def header_of(kind, items, names, floor=1):
    """(header, data) of a closed container's items. floor: A10's."""
    parts = [encode_value(value, names, floor) for _, value in items]
    starts = [0, *accumulate(map(len, parts))]
    total = starts.pop()
    fields = list(zip([name for name, _ in items], starts))
    offset_size = max(floor, size_of(total))
    if kind == "object":
        fields = sorted((name, start) for name, start in fields if name is not None)
        ids = [names.index(name) for name, _ in fields]
        id_size = max(floor, size_of(max([0, *ids])))
        large, first = 64, 2 + 4 * (offset_size - 1) + 16 * (id_size - 1)
    else:
        ids, id_size = [], 0
        large, first = 16, 3 + 4 * (offset_size - 1)
    if len(fields) > 255:
        head = bytes([first + large]) + number(len(fields), 4)
    else:
        head = bytes([first, len(fields)])
    head += b"".join(number(i, id_size) for i in ids)
    head += b"".join(number(start, offset_size) for _, start in fields)
    return head + number(total, offset_size), b"".join(parts)


def encode_value(value, names, floor=1):
    if value[0] != "scalar":
        return b"".join(header_of(value[0], value[1], names, floor))
    _, stored, payload = value
    if stored == SHORT:
        return bytes([len(payload) << 2 | 1]) + payload
    if stored in (15, 16):
        return bytes([stored << 2]) + number(len(payload), 4) + payload
    return bytes([stored << 2]) + payload


def encode(kept, floor=1):
    """The value bytes of a kept record."""
    top, names = kept
    return encode_value(top, names, floor)


def dictionary_of(names, sorted_mark, floor=1):
    """The dictionary's bytes. The kept record doesn't hold the sorted mark; by A3 it needs none
    (exact_mark)."""
    ends = [0, *accumulate(map(len, names))]
    size = max(floor, size_of(max(len(names), ends[-1])))
    return b"".join([bytes([1 | bool(sorted_mark) << 4 | size - 1 << 6]), number(len(names), size),
                     *(number(end, size) for end in ends), *names])


def exact_mark(names):
    """A3."""
    return len(names) > 0 and list(names) == sorted(set(names))


# ---------------------------------------------------------------- what follows from it

class Ledger:
    """Used value bytes as the sum, over the calls, of scalars kept and headers closed. By A9,
    calls between a mark and the return to it are struck out."""

    def __init__(self, floor=1):
        self.sums = [0]  # one for the top level, one for each open container
        self.marked = [[]]  # beside each the sums at its marks
        self.floor = floor

    def feed(self, call, refused, history_before):
        """history_before: the history before this call is entered in it."""
        if refused:
            return
        if call[0] == "append":
            stored, payload = keep_scalar(call[2])
            self.sums[-1] += 1 + len(payload) + (4 if stored in (15, 16) else 0)
        elif call[0] == "open":
            self.sums.append(0)
            self.marked.append([])
        elif call[0] == "mark":
            self.marked[-1].append(self.sums[-1])
        elif call[0] == "return":
            self.marked[-1] = self.marked[-1][:call[1]]
            self.sums[-1] = self.marked[-1][-1]
        elif call[0] == "rollback":
            self.sums.pop()
            self.marked.pop()
        elif call[0] == "close":
            c = history_before.open[-1]
            data = self.sums.pop()
            self.marked.pop()
            if c.kind == "object":
                count = len(c.live())
                ids = [history_before.names.index(name) for name in c.live()]
                id_bytes = count * max(self.floor, size_of(max([0, *ids])))
            else:
                count, id_bytes = len(c.items), 0
            offset_bytes = (count + 1) * max(self.floor, size_of(data))
            head = 1 + (4 if count > 255 else 1) + id_bytes + offset_bytes
            self.sums[-1] += head + data

    def used(self):
        return sum(self.sums)


class Sorted:
    """The sorted mark, from the names before and after each call."""

    def __init__(self, on=frozenset()):
        self.mark, self.exact = False, "A3" in on

    def feed(self, before, after):
        if self.exact:
            self.mark = exact_mark(after)
        elif len(after) > len(before):  # one name was added, last
            self.mark = len(after) == 1 or self.mark and after[-2] < after[-1]


class Refusals:
    """The refusal each call of a run from a fresh builder must get, by the history, the
    ledger, the sizes lent and the uniqueness marks: document 01's table without 1."""

    def __init__(self, settings, on=frozenset()):
        self.lent, self.on = {"undo": 64, "floor": 1, **settings}, on
        self.marks = [bool(settings["unique"])]  # the builder's, then each open container's
        self.kept_marks = [[]]  # A9: beside each, what it was at each mark

    def feed(self, call, refused):
        if refused:
            return
        if call[0] == "open":
            self.marks.append(self.marks[-1])
            self.kept_marks.append([])
        elif call[0] in ("close", "rollback"):
            self.marks.pop()
            self.kept_marks.pop()
        elif call[0] == "unique":
            self.marks[-1] = call[1]
        elif call[0] == "mark":
            self.kept_marks[-1].append(self.marks[-1])
        elif call[0] == "return":
            self.marks[-1] = self.kept_marks[-1][call[1] - 1]
            del self.kept_marks[-1][call[1]:]

    def expected(self, call, history, ledger, sorted_mark):
        verb, name = call[0], call[1] if call[0] in ("register", "append", "open") else None
        depth, inner = len(history.open), history.open[-1] if history.open else None
        is_object = bool(inner) and inner.kind == "object"
        placed = verb in ("append", "open")
        live = is_object and name in inner.live()
        takes_entry = placed and inner is not None and not live and (
            is_object or "A8" not in self.on)
        takes_undo = placed and live and bool(inner.marks)
        floor = self.lent["floor"]
        conditions = [  # in the table's order; a later one may lean on the earlier ones' failing
            (2, lambda: history.kept is not None),
            (3, lambda: verb in ("close", "rollback") and depth == 0),
            (3, lambda: verb == "unique" and not is_object),
            (4, lambda: depth > 0 and (verb == "finish"
                                       or verb == "register" and "A1" not in self.on)),
            (5, lambda: placed and (name is not None) != is_object),
            (6, lambda: placed and depth == 0 and history.top is not None),
            (22, lambda: verb == "mark" and (inner is None or len(inner.marks) == 16)),
            (22, lambda: verb == "return" and (
                inner is None or call[1] not in range(1, 1 + len(inner.marks)))),
            (18, lambda: verb == "append" and call[2][0] == "packed"
                and packed_number(call[2][2]) is None),
            (7, lambda: verb == "append" and self._out_of_range(call[2])),
            (17, lambda: verb == "append" and self._no_date(call[2])),
            (8, lambda: verb == "append" and self._bad_text(call[2])),
            (9, lambda: name is not None and not self._utf8(name)),
            (10, lambda: placed and live and self.marks[-1]),
            (11, lambda: verb == "open" and depth == 64),
            (12, lambda: name is not None and name not in history.names and (
                len(history.names) == self.lent["names"]
                or sum(map(len, history.names)) + len(name) > self.lent["namebytes"])),
            (13, lambda: takes_entry and self._entries(history) == self.lent["entries"] // 2),
            (23, lambda: takes_undo and self._undos(history) == self.lent["undo"] // 2),
            (14, lambda: ledger.used() + self._growth(call, history) > self.lent["value"]),
            (15, lambda: verb == "finish" and history.top is None),
            (16, lambda: verb == "finish"
                and len(dictionary_of(history.names, sorted_mark, floor)) > call[1]),
        ]
        return next((n for n, holds in conditions if holds()), 0)

    def _growth(self, call, history):
        """Value bytes that the call, otherwise accepted, adds."""
        if call[0] == "append":
            return len(encode_value(("scalar", *keep_scalar(call[2])), ()))
        if call[0] == "close":
            c = history.open[-1]
            return len(header_of(c.kind, c.items, history.names, self.lent["floor"])[0])
        return 0

    @staticmethod
    def _undos(history):
        """A9: undo records in use: each open object's, its open child's own among them."""
        total = 0
        for c, child in zip(history.open, [*history.open[1:], None]):
            total += c.replaced()
            total += bool(c.marks and child and child.name is not None and child.name in c.live())
        return total

    def _entries(self, history):
        """Entries in use: each open container's, its open child's own among them."""
        total = 0
        for c, child in zip(history.open, [*history.open[1:], None]):
            if c.kind == "list" and "A8" in self.on:
                continue
            if c.kind == "list":
                total += len(c.items) + (child is not None)
            else:
                total += len(set(c.live()) | ({child.name} if child else set()))
        return total

    @staticmethod
    def _out_of_range(scalar):
        kind = scalar[0]
        if kind == "time":
            return not 0 <= scalar[1] < 24 * 60 * 60 * 1_000_000
        if kind == "packed":
            return scalar[1] > 38 or abs(packed_number(scalar[2])) >= 10 ** 38
        digits = {"dec4": 9, "dec8": 18, "dec16": 38}.get(kind)
        return digits is not None and (scalar[1] > 38 or abs(scalar[2]) >= 10 ** digits)

    @staticmethod
    def _no_date(scalar):
        """17's condition."""
        if scalar[0] not in ("ymd", "ymdts", "ymdtsntz"):
            return False
        day_time = scalar[4] if scalar[4:] else 0
        return civil_days(*scalar[1:4]) is None or day_time not in range(24 * 60 * 60 * 1_000_000)

    @staticmethod
    def _utf8(data):
        try:
            data.decode("utf-8")
            return True
        except UnicodeDecodeError:
            return False

    @staticmethod
    def _bad_text(scalar):
        if scalar[0] not in ("string", "short", "text"):
            return False
        return not Refusals._utf8(scalar[1]) or scalar[0] == "short" and len(scalar[1]) > 63
