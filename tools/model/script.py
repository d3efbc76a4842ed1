"""The line grammar of call scripts (see README.md), shared by all modules here.

A parsed call is a tuple: ('new', {..}), ('register', name), ('append', name|None,
scalar), ('open', name|None, 'list'|'object'), ('close',), ('rollback',),
('unique', bool), ('finish', out), ('poke', words..), ('dump',), ('dumpvalue',);
of document 02 ('mark',), ('return', n), and of a call that needs no builder its words.
A scalar is a tuple: its kind, then its arguments.
"""

NEW_DEFAULTS = {"unique": 0, "value": 4096, "namebytes": 1024, "names": 64,
                "entries": 256, "fill": 0}
LATER_SETTINGS = ("floor", "undo")  # A10, A9; not in a parsed call unless given
FINISH_DEFAULT = 4096

PLAIN = ("null", "true", "false")
INTEGERS = {"int8": 8, "int16": 16, "int32": 32, "int64": 64, "date": 32, "time": 64,
            "tsmicros": 64, "tsntzmicros": 64, "tsnanos": 64, "tsntznanos": 64}
BITS = {"float": 32, "double": 64}
DECIMALS = {"dec4": 32, "dec8": 64, "dec16": 128}
BYTES = ("binary", "string", "short", "text", "uuid")
KINDS = (*PLAIN, *INTEGERS, *BITS, *DECIMALS, *BYTES)
CIVIL = {"ymd": 3, "ymdts": 4, "ymdtsntz": 4}  # A2: how many numbers
BESIDE = {  # calls that need no builder: the request that brings them, and the module that answers
    "days": ("A2", "calendar_days"), "civil": ("A2", "calendar_days"),
    "packdec": ("A4", "packed_decimal"), "readdec": ("A4", "packed_decimal"),
    "read": ("A6", "reading"), "field": ("A6", "reading"), "firstint": ("A6", "reading"),
    "batchstart": ("A7", "batch"), "batchadd": ("A7", "batch"), "batchread": ("A7", "batch"),
    "canon": ("A11", "canonical"), "find": ("A12", "path_words"), "small": ("A13", "small_values")}


def parse_bytes(token):
    """HEX, or COUNTxHEX for HEX repeated COUNT times."""
    if "x" in token:
        count, digits = token.split("x")
        return bytes.fromhex(digits) * int(count)
    return bytes.fromhex(token)


def _signed(token, bits):
    n = int(token)
    if not -(1 << bits - 1) <= n < 1 << bits - 1:
        raise ValueError(f"{n} is no {bits}-bit number")
    return n


def parse_scalar(words):
    kind, args = words[0], words[1:]
    if kind in PLAIN and not args:
        return (kind,)
    if kind in INTEGERS and len(args) == 1:
        return (kind, _signed(args[0], INTEGERS[kind]))
    if kind in BITS and len(args) == 1:
        n = int(args[0], 16)
        if n >> BITS[kind]:
            raise ValueError("too many bits")
        return (kind, n)
    if kind in DECIMALS and len(args) == 2:
        scale = int(args[0])
        if not 0 <= scale <= 255:
            raise ValueError("a scale is one byte")
        return (kind, scale, _signed(args[1], DECIMALS[kind]))
    if kind in CIVIL and len(args) == CIVIL[kind]:
        return (kind, *(_signed(word, 64) for word in args))
    if kind == "packed" and len(args) in (1, 2):  # A4
        scale = int(args[0])
        if not 0 <= scale <= 255:
            raise ValueError("a scale is one byte")
        return (kind, scale, parse_bytes(args[1]) if args[1:] else b"")
    if kind in BYTES and len(args) <= 1:
        data = parse_bytes(args[0]) if args else b""
        if kind == "uuid" and len(data) != 16:
            raise ValueError("a UUID is 16 bytes")
        return (kind, data)
    raise ValueError("no such scalar: " + " ".join(words))


def parse_line(line):
    """The call that a line states, or None for a blank line or a comment."""
    words = line.split("#")[0].split()
    if not words:
        return None
    verb, rest = words[0], words[1:]
    if verb in BESIDE:
        return tuple(words)
    if verb == "new":
        settings = dict(NEW_DEFAULTS)
        for word in rest:
            key, n = word.split("=")
            if key not in (*NEW_DEFAULTS, *LATER_SETTINGS):
                raise ValueError("no such setting: " + key)
            settings[key] = int(n)
        return ("new", settings)
    if verb == "register":
        return ("register", parse_bytes(rest[0]) if rest else b"")
    if verb in ("append", "open"):
        name = None
        if rest[0] == "-":
            rest = rest[1:]
        elif rest[0].startswith("name="):
            name = parse_bytes(rest[0][5:])
            rest = rest[1:]
        if verb == "append":
            return ("append", name, parse_scalar(rest))
        if rest not in (["list"], ["object"]):
            raise ValueError("list or object wanted")
        return ("open", name, rest[0])
    if verb in ("close", "rollback", "mark", "dump", "dumpvalue") and not rest:
        return (verb,)
    if verb == "return" and len(rest) == 1 and rest[0].isdigit():
        return ("return", int(rest[0]))
    if verb == "unique" and rest in (["0"], ["1"]):
        return ("unique", rest[0] == "1")
    if verb == "finish":
        out = FINISH_DEFAULT
        for word in rest:
            key, n = word.split("=")
            if key != "out":
                raise ValueError("no such setting: " + key)
            out = int(n)
        return ("finish", out)
    if verb == "poke":
        return ("poke", *rest)
    raise ValueError("no such call: " + line)


def _name_word(name):
    return "" if name is None else "name=" + format_bytes(name) + " "


def format_bytes(data):
    if len(data) > 64 and data == data[:1] * len(data):
        return f"{len(data)}x{data[:1].hex()}"
    return data.hex()


def format_scalar(scalar):
    kind, args = scalar[0], scalar[1:]
    if kind in BITS:
        return f"{kind} {args[0]:0{BITS[kind] // 4}x}"
    if kind in BYTES:
        return f"{kind} {format_bytes(args[0])}".rstrip()
    if kind == "packed":
        return f"packed {args[0]} {format_bytes(args[1])}".rstrip()
    return " ".join([kind, *map(str, args)])


def format_call(call):
    verb = call[0]
    if verb == "new":
        return "new " + " ".join(f"{k}={v}" for k, v in call[1].items())
    if verb == "register":
        return ("register " + format_bytes(call[1])).rstrip()
    if verb == "append":
        return "append " + _name_word(call[1]) + format_scalar(call[2])
    if verb == "open":
        return "open " + _name_word(call[1]) + call[2]
    if verb == "unique":
        return f"unique {int(call[1])}"
    if verb == "finish":
        return f"finish out={call[1]}"
    return " ".join(map(str, call))
