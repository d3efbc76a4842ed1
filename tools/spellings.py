#!/usr/bin/env python3
"""Holds variant-script against the model of document 01 on scripts as people may type them, bad lines included.

    spellings.py WRITER [--seed S] [--runs N] [--with SET] [--model FOLDER]

WRITER is variant-script; the model is tools/model, or that of another FOLDER, and answers by the requests of document 02
in SET, else by those that have landed (landed.py). A run is one random script: signs, underscores and leading zeros in
numbers, `0x`, capitals, COUNTxHEX, tabs, comments, line ends of three kinds, dates, packed decimal, batch files, records, marks,
pokes of all fields, now and then another `new`, one that is refused, and a line that is no call. Numbers of `new`, `finish` and
pokes are those of the grammar, 0 to 2^64 - 1. Every answer must be the model's; where the model cannot take a line, WRITER must stop
there with status 2 and say which line it is.
"""
import argparse
import os
import random
import subprocess
import sys

from landed import LANDED

MODEL = os.path.join(os.path.dirname(os.path.abspath(__file__)), "model")
LARGE = (63, 64, 65, 255, 256, 2**32 - 1, 2**32, 2**63, 2**64 - 1)
BITS = (7, 15, 31, 32, 63, 127, 128)
NO_CALLS = ("close 1", "new size=1", "open tree", "call", "unique 2", "poke field 1", "poke container 64 value 0")
NO_RETURNS = ("return", "return +1", "return 1_0", "return -1", "return x", "return 1 2", "mark 1", "poke mark 64 1 value 0", "poke mark 0 17 value 0",
              "poke mark 0 1 kind 0", "poke mark 0 0 value 0", "poke mark 0 1 value", "poke undo 0 1", "poke container 0 marks", "new undo=x")


FLOORS = ("1", "2", "3", "4", "+2", "03", "0_4", "1")
BAD_FLOORS = ("0", "5", "+0", "00_5", str(2**64 - 1))
PARTS = ("010000", "1x110000", "0101000161", "11020001026162", "00", "0C05", "1x030000", "0301000100", "02010000020c05",
         "1x0201000003100500", "3x00")
FILES = ("01", "1x01", "02", "70x01", "0100", "010000000400000000", "0100000006000000010A0b", "010000000300000000000000", "01fFffffff00")


def seldom(rng, wrong, right):
    return rng.choice(wrong) if rng.random() < 0.02 else rng.choice(right)


def number(rng):
    """A number of the storage, mostly a small one."""
    n = str(rng.choice(LARGE) if rng.random() < 0.3 else rng.randrange(10))
    return rng.choice([n, n, n, "+" + n, "00" + n, n[0] + "_" + n[1:] if n[1:] else n])


def size(rng):
    return rng.choice([str(rng.randrange(80)), str(rng.randrange(5)), "+7", "1_0", "007"])


def digits(rng, count):
    text = bytes(rng.choice([0x61, 0x62, 0x63, rng.randrange(256)]) for _ in range(count)).hex()
    return rng.choice([text, text, text.upper()])


def some_bytes(rng):
    repeated = rng.choice(["0", "1", "3", "64", "+2", "00", "1_0"]) + "x" + digits(rng, rng.randrange(3))
    return seldom(rng, ["6", "6g", "1x2x3", "x61"], [digits(rng, rng.randrange(5)), digits(rng, rng.randrange(5)), repeated])


def whole(rng):
    return rng.choice(["", "", "", "+", "-"]) + rng.choice(["0", "127", "0_1", "007", str(rng.getrandbits(rng.choice(BITS)))])


def scale(rng):
    return seldom(rng, ["256", "-1", "x"], ["0", "5", "38", "39", "+3", "255", "1_0"])


def packed(rng):
    """The bytes of packed decimal, mostly."""
    return seldom(rng, ["5", "5g", "5c 5c"], ["", "0c", "5D", "00123F", "1_0x12", "5x00", "19x99", "20x9C", "21x0c", "5e", "Ac",
                                              f"{rng.randrange(10**8):09}C", some_bytes(rng)])


def date(rng):
    """Year, month and day, mostly a date's."""
    years, months, days = ("1", "1970", "+2024", "2_000", "09999", "0"), ("1", "2", "+12", "0_2", "00"), ("1", "28", "29", "+3_1", "030")
    return [seldom(rng, [whole(rng), "x", "1.0"], part) for part in (years, months, days)]


def scalar(rng, model, script):
    kind = seldom(rng, ["scalar"], [*script.KINDS, *(script.CIVIL if "A2" in model.on else ()), *["packed"] * ("A4" in model.on)])
    if kind in script.PLAIN:
        return kind
    if kind in script.INTEGERS:
        return f"{kind} {whole(rng)}"
    if kind in script.BITS:
        return f"{kind} " + rng.choice(["", "", "+", "-0", "0x", "0X", "0x_"]) + rng.choice(["0", "1f", "FF", "3f800000", "1_f"])
    if kind in script.DECIMALS:
        return f"{kind} {scale(rng)} {whole(rng)}"
    if kind == "packed":
        return f"{kind} {scale(rng)} {packed(rng)}"
    if kind in script.CIVIL:
        times = seldom(rng, [[], [whole(rng)] * 2], [[], []] if kind == "ymd" else [["0"], ["86_399_999_999"], [whole(rng)]])
        return " ".join([kind, *date(rng), *times])
    if kind == "uuid":
        return "uuid " + seldom(rng, ["8x61"], [digits(rng, 16), "16x61", "8x6162"])
    return f"{kind} " + rng.choice(["", some_bytes(rng)])


def setting(rng, key):
    known = {"file": FILES, "value": PARTS, "dict": PARTS}.get(key, ["61"])
    return f"{key}=" + (size(rng) if key == "out" else rng.choice([*known, some_bytes(rng)]))


BATCH = (("batchstart", ["out"]), ("batchadd", ["file", "dict", "value", "out"]), ("batchread", ["file"]))
READING = (("read", ["value", "dict"]), ("field", ["name", "value", "dict"]), ("firstint", ["value", "dict"]))


def with_settings(rng, calls):
    """One of the calls: settings in any order, left out and given again."""
    verb, keys = rng.choice(calls)
    given = rng.sample(keys, rng.randint(len(keys) // 2, len(keys))) + rng.choices(keys, k=int(rng.random() < 0.2))
    other = seldom(rng, [["size=1"], ["="], ["file"], ["value"], ["dict=x"], ["out=x"]], [[]])
    return " ".join([verb, *(setting(rng, key) for key in given), *other])


def beside(rng, model):
    """A call that needs no builder, in a list, or none."""
    dates = [" ".join(["days", *date(rng)]), "civil " + rng.choice(["-719_162", "+2932896", "2932897", whole(rng)])]
    out = rng.choice(["", " out=" + size(rng)])
    decimals = [f"packdec {scale(rng)} {whole(rng)}{out}", f"readdec {scale(rng)} {packed(rng)}"]
    batches, records = ([with_settings(rng, calls) for _ in range(2)] for calls in (BATCH, READING))
    asked = dates * ("A2" in model.on) + decimals * ("A4" in model.on) + batches * ("A7" in model.on) + records * ("A6" in model.on)
    return [seldom(rng, [rng.choice(asked) + " 1", rng.choice(asked).split()[0]], asked)] if asked else []


def poke(rng, model):
    n = [number(rng) for _ in range(6)]
    kind, flag = seldom(rng, ["tree"], ["list", "object"]), rng.choice("012")
    entry = seldom(rng, ["replaced"], ["new", f"replaced {n[4]} {n[5]}", "new 4 5"])
    mark = rng.choice(model.CONTAINER_NUMBERS)
    part = rng.choice([f"{mark} {n[0]}", f"kind {kind}", f"unique {flag}", f"entry {entry}",
                       f"all {n[0]} {n[1]} {n[2]} {n[3]} {kind} {flag} {entry}", *[f"count {n[0]}"] * 2 * ("A8" in model.on),
                       *[f"undo {n[0]}", f"marks {rng.choice(['0', '1', '+2', '0_3', '16', n[0]])}"] * ("A9" in model.on)])
    near = rng.randrange(4)
    number_of = rng.choice([*(f"{key} {n[0]}" for key in model.MARK_NUMBERS), f"unique {flag}"])
    marks = [f"undo_used {n[0]}", f"undo {near} {n[0]} {n[1]}",
             f"mark {rng.choice(['0', '1', '+0', '63'])} {rng.choice(['1', '2', '+1', '16'])} {number_of}"]
    return "poke " + rng.choice([
        *marks * ("A9" in model.on),
        f"{rng.choice(model.RECORD_NUMBERS)} {n[0]}", f"{rng.choice(model.RECORD_MARKS)} {flag}",
        f"container {rng.choice(['0', '0', '1', '1', '2', '+1', '63'])} {part}", f"container {near} {part}",
        f"{rng.choice(['value', 'namebytes'])} {near} {some_bytes(rng)}", f"nameend {near} {n[0]}", f"entry {near} {n[0]} {n[1]}",
        *[f"floor {rng.choice([*FLOORS, n[0]])}"] * ("A10" in model.on)])


def marking(rng):
    """Calls about marks, in a list."""
    returned = rng.choice(["1", "1", "2", "01", "0", "17", "3", str(2**64 - 1)])
    return [seldom(rng, NO_RETURNS, ["mark"]), "mark", f"return {returned}", f"return {returned}"]


def line(rng, model, script):
    name = rng.choice(["", "", "- ", "name= ", "name=61 ", "name=62 ", f"name={some_bytes(rng)} "])
    appended, opened, poked = f"append {name}{scalar(rng, model, script)}", f"open {name}{rng.choice(['list', 'object'])}", poke(rng, model)
    text = seldom(rng, NO_CALLS, [
        appended, appended, appended, opened, opened, poked, poked, "register " + some_bytes(rng), "register", "close", "close",
        "rollback", "unique " + rng.choice("01"), "finish", "finish out=" + size(rng), "dump", "dumpvalue", "", "# nothing",
        first_line(rng, model) if rng.random() < 0.3 else "close", *beside(rng, model), *marking(rng) * ("A9" in model.on)])
    behind = rng.choice([" # said", "#said", "\t", "  ", "\v", " \f", "\x1c", "\u00a0"])
    return rng.choice([text, text, text, text + behind, text.replace(" ", "\t ")])


def first_line(rng, model):
    keys = rng.sample(["value", "namebytes", "names", "entries", "fill"], rng.randrange(6))
    settings = [f"{key}={number(rng) if key == 'fill' else size(rng)}" for key in keys]
    if "A10" in model.on and rng.random() < 0.6:
        settings.append("floor=" + rng.choice(BAD_FLOORS if rng.random() < 0.1 else FLOORS))
    if "A9" in model.on and rng.random() < 0.5:
        settings.insert(rng.randrange(len(settings) + 1), "undo=" + size(rng))
    return " ".join(["new", *settings, rng.choice(["", "unique=1", "unique=2"])])


def made(rng, model, script):
    """A script's lines, the model's answers, and the number of the line that the model cannot take, if any."""
    session, lines, answers = model.Session(model.on), [], []
    for at in range(1, rng.randrange(2, 40)):
        lines.append(line(rng, model, script) if at > 1 else first_line(rng, model))
        try:
            call = script.parse_line(lines[-1])
            if call is not None:
                answers.append(session.answer(call))
        except (ValueError, IndexError, KeyError):
            return lines, answers, at
    return lines, answers, None


def same(writer, text, answers, bad):
    """Whether the writer gives these answers and names the bad line, if any; and what it said."""
    got = subprocess.run([writer], input=text.encode(), capture_output=True)
    said = got.stderr.decode()
    ended = said.startswith(f"variant-script: line {bad}: expected ") if bad else said == ""
    return got.stdout.decode().splitlines() == answers and got.returncode == (2 if bad else 0) and ended, said


def main():
    parser = argparse.ArgumentParser(description=__doc__, formatter_class=argparse.RawDescriptionHelpFormatter)
    parser.add_argument("writer")
    parser.add_argument("--seed", default="1")
    parser.add_argument("--runs", type=int, default=20_000)
    parser.add_argument("--with", dest="wanted", default=LANDED, metavar="SET")
    parser.add_argument("--model", default=MODEL, metavar="FOLDER")
    args = parser.parse_args()
    sys.path.insert(0, args.model)
    import model
    import script
    model.on = model.requests(args.wanted)
    count = fell = differ = 0
    for run in range(args.runs):
        rng = random.Random(f"{args.seed}:{run}")
        lines, answers, bad = made(rng, model, script)
        end = rng.choice(["\n", "\r\n", "\r"])
        right, said = same(args.writer, "".join(one + end for one in lines), answers, bad)
        count, fell, differ = count + len(answers), fell + (bad is not None), differ + (not right)
        if not right and differ <= 3:
            print(f"run {run}: the model stops at line {bad}; the writer said {said!r}", *lines, sep="\n    ")
    print(f"seed {args.seed}: {args.runs} scripts, {count} answers, {fell} scripts with a bad line; {differ} scripts differ")
    return differ > 0


if __name__ == "__main__":
    sys.exit(main())
