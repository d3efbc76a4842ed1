#!/usr/bin/env python3
"""Holds a writer to long lists where no entry is lent: against the model and, where ORACLE is given, against the Rust.

    long_lists.py WRITER [ORACLE] [--seed S] [--with SET] [--model FOLDER]

WRITER, ORACLE, SET and FOLDER are those of compare.py. A list has 255, 256, 65,535, 65,536 or 100,000 elements: nulls, over as many value bytes as
they and the header take, at each floor; random scalars; or random scalars with small lists and empty objects among them. Behind its elements a
child is rolled back, then its count is altered by one each way, which close refuses, and put right again. The Rust gets the runs with floor 1,
without pokes and refused calls. The status is 1 where an answer differs.
"""
import argparse
import itertools
import sys

import compare
import scripts
from landed import LANDED

SIZES = (255, 256, 65_535, 65_536, 100_000)


def nulls(run, size):
    for _ in range(size):
        run.say(("append", None, ("null",)))


def mixed(run, size):
    for _ in range(size):
        run.say(("append", None, run.scalar()))


def nested(run, size):
    for _ in range(size):
        if not run.chance(0.1):
            run.say(("append", None, run.scalar()))
            continue
        kind = run.rng.choice(scripts.OBJECTS)
        run.say(("open", None, kind))
        for _ in range(run.rng.randrange(3) if kind == "list" else 0):
            run.say(("append", None, run.scalar()))
        run.say(("close",))


def made(model, seed, fill, size, floor):
    """The run of a list of that size."""
    new = scripts.Maker(model, seed, fill.__name__, size)
    new.held = True
    room = size + len(model.list_header(range(size), size, floor)) if fill is nulls else 400 * size
    run = new(value=room, namebytes=0, names=0, entries=0, wrong=0, floor=floor)
    run.open("list")
    fill(run, size)
    run.say(("open", None, "list"))
    run.say(("rollback",))
    for count in (size - 1, size + 1, size):
        run.say(("poke", "container", 0, "count", count))
        run.say(("close",))
    run.finish()
    return run


def difference(program, lines, calls, expected):
    """The first line that the program answers otherwise, with both answers; None where all are as expected. From a roll back on the sorted mark is
    not compared, which the Rust keeps otherwise; there are no names."""
    got = compare.unmarked(calls, compare.ask(program, lines))
    for line, mine, theirs in itertools.zip_longest(lines, compare.unmarked(calls, expected), got):
        if mine != theirs:
            return line, str(mine)[:200], str(theirs)[:200]
    return None


def main():
    parser = argparse.ArgumentParser(description=__doc__, formatter_class=argparse.RawDescriptionHelpFormatter)
    parser.add_argument("writer", metavar="WRITER")
    parser.add_argument("oracle", nargs="?", metavar="ORACLE")
    parser.add_argument("--seed", default="1")
    parser.add_argument("--with", dest="wanted", default=LANDED, metavar="SET")
    parser.add_argument("--model", default=compare.MODEL, metavar="FOLDER")
    args = parser.parse_args()
    model = compare.load(args.model, args.wanted)
    ways = [(nulls, floor) for floor in ((1, 2, 3, 4) if "A10" in model.on else (1,))] + [(mixed, 1), (nested, 1)]
    differ = 0
    for size, (fill, floor) in itertools.product(SIZES, ways):
        run = made(model, args.seed, fill, size, floor)
        found = [("model", difference(args.writer, run.lines, run.calls, run.answers))]
        places = compare.for_oracle(model, run.calls, run.answers) if args.oracle else None
        if places:
            lines = [compare.rust_line(model, run.lines[i], run.calls[i]) for i in places]
            calls, answers = [run.calls[i] for i in places], [run.answers[i] for i in places]
            found.append(("Rust", difference(args.oracle, lines, calls, answers)))
        told = ", ".join(f"{'as' if place is None else 'not as'} the {side}" for side, place in found)
        print(f"{size} elements, {fill.__name__}, floor {floor}, {len(run.session.builder.value_bytes())} bytes: {told}", flush=True)
        for side, place in found:
            if place:
                differ += 1
                print(f"  at: {place[0]}\n  expected: {place[1]}\n  got: {place[2]}", flush=True)
    print(f"seed {args.seed}: {differ} differ")
    return 1 if differ else 0


if __name__ == "__main__":
    sys.exit(main())
