#!/usr/bin/env python3
"""Document 02, A6: the pairs of dictionary and value that the reader accepts.

First the grammar (what bytes a tree has, which trees are allowed), written without the reader;
then the reader, which finds the tree of given bytes. `read value=.. dict=.. ` and the other
verbs are at the end; the readings of the paper that were decided are in
READINGS_A6_A11_A12_A13.md.

    python3 reading.py < SCRIPT
"""
import sys
from dataclasses import dataclass, field

MOST_BYTES = 4_294_967_295
MOST_CONTAINERS = 64
MOST_SCALE = 38
MOST_TIME = 86_399_999_999
BINARY, STRING, TIME, UUID, SHORT = 15, 16, 17, 20, "short"
INTEGERS = {3: 1, 4: 2, 5: 4, 6: 8}                             # code: bytes
DECIMALS = {8: (4, 10**9 - 1), 9: (8, 10**18 - 1), 10: (16, 10**38 - 1)}
FIXED = {0: 0, 1: 0, 2: 0, **INTEGERS, 7: 8, 8: 5, 9: 9, 10: 17, 11: 4, 12: 8, 13: 8, 14: 4,
         17: 8, 18: 8, 19: 8, 20: 16}                           # code: bytes of the payload


class Refused(Exception):
    def __init__(self, number):
        super().__init__(number)
        self.number = number


# ---------------------------------------------------------------- grammar

@dataclass
class Scalar:
    kind: object            # type code 0 to 20, or SHORT
    payload: bytes          # of Binary, String and short text without the length
    at: int = field(default=0, compare=False)      # where the reader found it
    end: int = field(default=0, compare=False)


@dataclass
class List:
    offset_width: int
    large: bool
    elements: list
    at: int = field(default=0, compare=False)
    end: int = field(default=0, compare=False)


@dataclass
class Object:
    offset_width: int
    id_width: int
    large: bool
    fields: list            # (id, place of its value among the values), as the header has them
    values: list            # the data's values end to end; those of no field are replaced ones
    at: int = field(default=0, compare=False)
    end: int = field(default=0, compare=False)


def is_utf8(data):
    """The Unicode Standard's table 3-7."""
    i = 0
    while i < len(data):
        lead = data[i]
        if lead <= 0x7F:
            i += 1
            continue
        if 0xC2 <= lead <= 0xDF:
            more, low, high = 1, 0x80, 0xBF
        elif 0xE0 <= lead <= 0xEF:
            more, low, high = 2, 0xA0 if lead == 0xE0 else 0x80, 0x9F if lead == 0xED else 0xBF
        elif 0xF0 <= lead <= 0xF4:
            more, low, high = 3, 0x90 if lead == 0xF0 else 0x80, 0x8F if lead == 0xF4 else 0xBF
        else:
            return False
        rest = data[i + 1:i + 1 + more]
        if len(rest) < more or not low <= rest[0] <= high:
            return False
        if any(not 0x80 <= b <= 0xBF for b in rest[1:]):
            return False
        i += 1 + more
    return True


def little(n, size):
    return n.to_bytes(size, "little")           # raises where the width does not hold n


def ascends(names):
    return all(a < b for a, b in zip(names, names[1:]))


def dictionary_bytes(width, mark, names):
    """Any width that holds count and offsets; the mark only if the names ascend strictly."""
    assert 1 <= width <= 4 and (not mark or ascends(names)) and all(map(is_utf8, names))
    out, end = bytes([1 + 16 * mark + 64 * (width - 1)]) + little(len(names), width), 0
    for name in names:
        out += little(end, width)
        end += len(name)
    return out + little(end, width) + b"".join(names)


def scalar_allowed(kind, payload):
    if kind == SHORT:
        return len(payload) <= 63 and is_utf8(payload)
    if kind == STRING:
        return is_utf8(payload)
    if kind == BINARY:
        return True
    if FIXED.get(kind) != len(payload):
        return False
    if kind in DECIMALS:
        number = int.from_bytes(payload[1:], "little", signed=True)
        return payload[0] <= MOST_SCALE and abs(number) <= DECIMALS[kind][1]
    if kind == TIME:
        return 0 <= int.from_bytes(payload, "little", signed=True) <= MOST_TIME
    return True


def starts(parts):
    """Where each part starts in the data, and the data's size."""
    out = [0]
    for part in parts:
        out.append(out[-1] + len(part))
    return out


def value_bytes(v):
    if isinstance(v, Scalar):
        if v.kind == SHORT:
            return bytes([4 * len(v.payload) + 1]) + v.payload
        length = little(len(v.payload), 4) if v.kind in (BINARY, STRING) else b""
        return bytes([4 * v.kind]) + length + v.payload
    if isinstance(v, List):
        parts = [value_bytes(x) for x in v.elements]        # once: twice at each level is 2^depth
        first = 3 + 4 * (v.offset_width - 1) + 16 * v.large
        count, ids, numbers = len(parts), b"", starts(parts)
    else:
        parts = [value_bytes(x) for x in v.values]
        first = 2 + 4 * (v.offset_width - 1) + 16 * (v.id_width - 1) + 64 * v.large
        at = starts(parts)
        count, numbers = len(v.fields), [at[place] for _, place in v.fields] + [at[-1]]
        ids = b"".join(little(i, v.id_width) for i, _ in v.fields)
    return (bytes([first]) + little(count, 4 if v.large else 1) + ids
            + b"".join(little(n, v.offset_width) for n in numbers) + b"".join(parts))


def value_allowed(v, names, depth=MOST_CONTAINERS):
    """depth: how many containers may still be nested."""
    if isinstance(v, Scalar):
        return scalar_allowed(v.kind, v.payload)
    if depth == 0 or not 1 <= v.offset_width <= 4:
        return False
    if isinstance(v, List):
        return all(value_allowed(e, names, depth - 1) for e in v.elements)
    ids, places = [i for i, _ in v.fields], [p for _, p in v.fields]
    return (1 <= v.id_width <= 4 and all(i < len(names) for i in ids)
            and ascends([names[i] for i in ids]) and len(set(places)) == len(places)
            and all(p < len(v.values) for p in places)
            and all(value_allowed(x, names, depth - 1) for x in v.values))


# ---------------------------------------------------------------- reader

def number_at(data, at, width):
    return int.from_bytes(data[at:at + width], "little")


def read_dictionary(data):
    """The names, or Refused(19)."""
    if not 1 <= len(data) <= MOST_BYTES:
        raise Refused(19)
    first = data[0]
    width, mark = (first >> 6) + 1, first >> 4 & 1
    if first & 0x2F != 1 or len(data) < 1 + width:
        raise Refused(19)
    count = number_at(data, 1, width)
    text = 1 + width + width * (count + 1)
    if text > len(data):
        raise Refused(19)
    ends = [number_at(data, 1 + width + width * k, width) for k in range(count + 1)]
    if ends[0] != 0 or any(b < a for a, b in zip(ends, ends[1:])) or text + ends[-1] != len(data):
        raise Refused(19)
    names = [bytes(data[text + a:text + b]) for a, b in zip(ends, ends[1:])]
    if not all(map(is_utf8, names)) or mark and not ascends(names):
        raise Refused(19)
    return names


class ValueReader:
    """Finds the value that begins at a place and ends by a limit; lists and objects hold each other."""

    def __init__(self, data, names):
        self.data, self.names = data, names

    def value(self, at, limit, depth):
        if at >= limit:
            raise Refused(20)
        kind = self.data[at] & 3
        if kind == 3:
            return self.list(at, limit, depth)
        if kind == 2:
            return self.object(at, limit, depth)
        return self.short(at, limit) if kind == 1 else self.primitive(at, limit)

    def scalar(self, kind, at, payload, end, limit):
        if end > limit:
            raise Refused(20)
        if kind == BINARY:                      # anything goes: not copied, it may be large
            return Scalar(kind, Part(self.data, payload, end), at, end)
        found = Scalar(kind, bytes(self.data[payload:end]), at, end)
        if not scalar_allowed(kind, found.payload):
            raise Refused(20)
        return found

    def short(self, at, limit):
        return self.scalar(SHORT, at, at + 1, at + 1 + (self.data[at] >> 2), limit)

    def primitive(self, at, limit):
        code = self.data[at] >> 2
        if code > UUID:
            raise Refused(20)
        if code not in (BINARY, STRING):
            return self.scalar(code, at, at + 1, at + 1 + FIXED[code], limit)
        if at + 5 > limit:
            raise Refused(20)
        return self.scalar(code, at, at + 5, at + 5 + number_at(self.data, at + 1, 4), limit)

    def header(self, at, limit, depth, large, id_width, offset_width):
        """ids, offsets (the data size last), where the data starts and ends."""
        count_width = 4 if large else 1
        numbers = at + 1 + count_width
        if depth == 0 or numbers > limit:
            raise Refused(20)
        count = number_at(self.data, at + 1, count_width)
        offsets = numbers + count * id_width
        start = offsets + (count + 1) * offset_width
        if start > limit:
            raise Refused(20)
        ids = [number_at(self.data, numbers + k * id_width, id_width) for k in range(count)]
        ends = [number_at(self.data, offsets + k * offset_width, offset_width)
                for k in range(count + 1)]
        if start + ends[-1] > limit:
            raise Refused(20)
        return ids, ends, start, start + ends[-1]

    def run(self, at, end, depth):
        """Whole values end to end from at to end, exactly."""
        found = []
        while at < end:
            found.append(self.value(at, end, depth))
            at = found[-1].end
        return found

    def list(self, at, limit, depth):
        first = self.data[at]
        if first & 0xE0:
            raise Refused(20)
        width, large = (first >> 2 & 3) + 1, bool(first & 16)
        _, offsets, start, end = self.header(at, limit, depth, large, 0, width)
        elements = self.run(start, end, depth - 1)
        if [e.at - start for e in elements] != offsets[:-1]:
            raise Refused(20)
        return List(width, large, elements, at, end)

    def object(self, at, limit, depth):
        first = self.data[at]
        if first & 0x80:
            raise Refused(20)
        width, id_width, large = (first >> 2 & 3) + 1, (first >> 4 & 3) + 1, bool(first & 64)
        ids, offsets, start, end = self.header(at, limit, depth, large, id_width, width)
        if any(i >= len(self.names) for i in ids) or not ascends([self.names[i] for i in ids]):
            raise Refused(20)
        values = self.run(start, end, depth - 1)
        place = {v.at - start: k for k, v in enumerate(values)}
        offsets = offsets[:-1]
        if any(o not in place for o in offsets) or len(set(offsets)) != len(offsets):
            raise Refused(20)
        fields = [(i, place[o]) for i, o in zip(ids, offsets)]
        return Object(width, id_width, large, fields, values, at, end)


class Part:
    """A part of the caller's bytes, not copied; as good as bytes for what is asked here."""

    def __init__(self, data, at, end):
        self.data, self.at, self.end = data, at, end

    def __len__(self):
        return self.end - self.at

    def __eq__(self, other):
        return bytes(self) == bytes(other)

    def __bytes__(self):
        return bytes(self.data[self.at:self.end])

    def __radd__(self, before):
        return before + bytes(self)


def read_value(data, names):
    """The value that all of data is, or Refused(20)."""
    if len(data) > MOST_BYTES:
        raise Refused(20)
    found = ValueReader(data, names).value(0, len(data), MOST_CONTAINERS)
    if found.end != len(data):
        raise Refused(20)
    return found


def read_pair(value, dictionary):
    """The names and the tree; the dictionary is judged first."""
    names = read_dictionary(dictionary)
    return names, read_value(value, names)


def fields_of(v):
    """The live fields (id, value) in order of names; none for a value that is no object."""
    return [(i, v.values[place]) for i, place in v.fields] if isinstance(v, Object) else []


def field_of(names, v, name):
    """The value of the top value's field of that name, or None."""
    return next((x for i, x in fields_of(v) if names[i] == name), None)


def first_integer(v):
    """(id, number) of the first field, in order of names, that is int8 to int64, or None."""
    for i, x in fields_of(v):
        if isinstance(x, Scalar) and x.kind in INTEGERS:
            return i, int.from_bytes(x.payload, "little", signed=True)
    return None


# ---------------------------------------------------------------- script lines

def hex_bytes(token):
    """HEX, or COUNTxHEX for HEX repeated."""
    if "x" in token:
        count, digits = token.split("x")
        return bytes.fromhex(digits) * int(count)
    return bytes.fromhex(token)


def settings(words, verb, **defaults):
    """KEY=.. words over the defaults: bytes keys (default b'') as bytes, number keys as numbers."""
    out = dict(defaults)
    for word in words[1:] if words[:1] == [verb] else words:
        key, _, text = word.partition("=")
        if key not in out:
            raise ValueError("no such setting: " + word)
        out[key] = hex_bytes(text) if isinstance(out[key], bytes) else int(text)
    return out


def answering(verb, **defaults):
    """A script verb: its settings go to the function; a Refused is answered by its number."""
    def wrap(function):
        def answer(words):
            try:
                return function(**settings(words, verb, **defaults))
            except Refused as refusal:
                return f"refused {refusal.number}"
        return answer
    return wrap


@answering("read", value=b"", dict=b"")
def answer_read(value, dict):
    read_pair(value, dict)
    return "ok"


@answering("field", name=b"", value=b"", dict=b"")
def answer_field(name, value, dict):
    names, top = read_pair(value, dict)
    found = field_of(names, top, name)
    return "none" if found is None else f"ok at={found.at} len={found.end - found.at}"


@answering("firstint", value=b"", dict=b"")
def answer_firstint(value, dict):
    found = first_integer(read_pair(value, dict)[1])
    return "none" if found is None else f"ok id={found[0]} number={found[1]}"


VERBS = {"read": answer_read, "field": answer_field, "firstint": answer_firstint}


def main():
    """Answers lines of these verbs and, where they are at hand, of canonical.py, path_words.py
    and small_values.py; `new` is answered `new`, so that one can tell where a case starts."""
    import canonical
    import path_words
    import small_values
    verbs = {**VERBS, **canonical.VERBS, **path_words.VERBS, **small_values.VERBS}
    for line in sys.stdin:
        words = line.split("#")[0].split()
        if words:
            print("new" if words[0] == "new" else verbs[words[0]](words))


if __name__ == "__main__":
    sys.modules["reading"] = sys.modules["__main__"]    # one class Refused, not two
    main()
