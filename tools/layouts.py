"""Random dictionaries and values for the calls that read them: right ones in any layout, and ones that are just wrong.

A scalar's bytes come from the function `scalar` that is handed in; all else is made by the layout alone, without the model."""
import itertools

MOST_CONTAINERS = 64


def stored(width, numbers):
    return b"".join(n.to_bytes(width, "little") for n in numbers)


def some_width(rng, numbers):
    """A width that holds them, mostly the least."""
    least = max(1, -(-max(numbers, default=0).bit_length() // 8))
    return rng.choice((least, least, rng.randint(least, 4)))


def starts(parts):
    """Where each part starts, and where the last one ends."""
    return [0, *itertools.accumulate(map(len, parts))]


def spoil(rng, numbers):
    """One of the numbers is one off, another one's or far off, or two are exchanged."""
    numbers = list(numbers)
    if numbers:
        i, j = rng.randrange(len(numbers)), rng.randrange(len(numbers))
        pick = rng.random()
        if pick < 0.3:
            numbers[i], numbers[j] = numbers[j], numbers[i]
        else:
            off = max(0, numbers[i] + rng.choice((-1, 1)))
            numbers[i] = off if pick < 0.8 else numbers[j] if pick < 0.95 else rng.choice((255, 256, 2**16, 2**32 - 1))
    return numbers


class Values:
    """Values over some names; `wrong` is the chance that a container, or the dictionary, has something wrong in its header."""

    def __init__(self, rng, scalar, names, wrong=0.0):
        self.rng, self.scalar, self.names, self.wrong = rng, scalar, names, wrong

    def spoiled(self, *parts):
        """The parts, each a list of numbers; now and then one of them is spoiled."""
        if self.rng.random() >= self.wrong:
            return parts
        at = self.rng.randrange(len(parts))
        return [spoil(self.rng, part) if i == at else part for i, part in enumerate(parts)]

    def dictionary(self):
        ascend = all(a < b for a, b in zip(self.names, self.names[1:]))
        mark = self.rng.random() < (0.6 if ascend else self.wrong)
        (count,), ends = self.spoiled([len(self.names)], starts(self.names))
        w = some_width(self.rng, [count, *ends])
        first = 1 + 16 * mark + 64 * (w - 1)
        if self.rng.random() < self.wrong / 4:
            first ^= 1 << self.rng.randrange(8)
        return bytes([first]) + stored(w, [count, *ends]) + b"".join(self.names)

    def value(self, depth=3):
        if depth == 0 or self.rng.random() < 0.45:
            return self.scalar()
        return self.list(depth) if self.rng.random() < 0.4 else self.object(depth)

    def list(self, depth):
        parts = [self.value(depth - 1) for _ in range(self.rng.choice((0, 1, 2, 3, 6)))]
        return self.container(3, [], starts(parts), parts)

    def object(self, depth):
        """Fields of some of the names, each by one of its ids; values in any order, replaced ones among them."""
        ids = {name: i for i, name in self.rng.sample(list(enumerate(self.names)), len(self.names))}
        fields = sorted(self.rng.sample(sorted(ids), self.rng.randint(0, min(len(ids), 5))))
        parts = [self.value(depth - 1) for _ in range(len(fields) + self.rng.choice((0, 0, 0, 1, 2)))]
        at = starts(parts)
        offsets = self.rng.sample(at[:-1], len(fields))
        return self.container(2, [ids[name] for name in fields], [*offsets, at[-1]], parts)

    def container(self, kind, ids, offsets, parts):
        (count,), ids, offsets = self.spoiled([len(offsets) - 1], ids, offsets)
        w, v, large = some_width(self.rng, offsets), some_width(self.rng, ids), count > 255 or self.rng.random() < 0.15
        first = 3 + 4 * (w - 1) + 16 * large if kind == 3 else 2 + 4 * (w - 1) + 16 * (v - 1) + 64 * large
        if self.rng.random() < self.wrong / 4:
            first |= self.rng.choice((32, 64, 128))
        return bytes([first]) + stored(4 if large else 1, [count]) + stored(v, ids) + stored(w, offsets) + b"".join(parts)

    def nested(self):
        """As many containers in each other as may be, or one more or fewer; some of them are replaced values."""
        value = self.rng.choice((self.scalar(), b"\x03\x00\x00"))
        for _ in range(MOST_CONTAINERS + self.rng.choice((-1, 0, 0, 1)) - (value[0] & 3 == 3)):
            if self.rng.random() < 0.5:
                value = self.container(3, [], [0, len(value)], [value])
            else:
                ids = [self.rng.randrange(len(self.names))] if self.names and self.rng.random() < 0.8 else []
                value = self.container(2, ids, [0] * len(ids) + [len(value)], [value])
        return value


def altered(rng, data):
    """A byte, or some, altered, put in, taken out or cut off."""
    at, pick = rng.randrange(len(data) + 1), rng.randrange(6)
    if pick < 3 and at < len(data):
        byte = rng.choice((data[at] + 1 & 255, data[at] - 1 & 255, data[at] ^ 1 << rng.randrange(8), rng.randrange(256)))
        return data[:at] + bytes([byte]) + data[at + 1:]
    if pick == 3:
        return data[:at]
    return data[:at] + rng.randbytes(1) * (pick == 4) + data[at + (pick == 5):]


def pair(rng, scalar, pool, bad):
    """A dictionary, a value over its names, and the names; a bad pair has wrong headers or altered bytes."""
    names = rng.choices(pool, k=rng.choice((0, 1, 2, 3, 6)))
    if rng.random() < 0.03:
        names = [b"%d" % i for i in rng.sample(range(300), 260)]
    names = sorted(set(names)) if rng.random() < 0.4 else names
    values = Values(rng, scalar, names, 0.3 if bad and rng.random() < 0.5 else 0)
    value = values.nested() if rng.random() < 0.04 else rng.choice((values.value, values.list, values.object, values.object))(3)
    dictionary = values.dictionary()
    if bad and not values.wrong:
        dictionary, value = (altered(rng, dictionary), value) if rng.random() < 0.3 else (dictionary, altered(rng, value))
    return dictionary, value, names


def call(rng, verb, dictionary, value, name):
    """The call's words, in any order."""
    words = [f"value={value.hex()}", f"dict={dictionary.hex()}", *[f"name={name.hex()}"] * (verb == "field")]
    return (verb, *rng.sample(words, len(words)))
