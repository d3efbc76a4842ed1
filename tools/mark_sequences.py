#!/usr/bin/env python3
"""Holds a writer against the model on every short sequence of calls about marks.

    mark_sequences.py WRITER [--length N] [--with SET] [--model FOLDER]

WRITER, SET and FOLDER are those of compare.py. A sequence is N calls, 6 where N is left out, each one of CALLS. It comes between FIRST and LAST, under
both uniqueness marks and with room for 0, 1, 2 and 32 undo records: 8^N * 8 runs. Every answer must be the model's, a dump before the last calls
included. Two states of the model whose dumps are equal are taken for one, so that what follows is asked of it once. The status is 1 where an answer
differs.
"""
import argparse
import itertools
import sys
import time

import compare
from landed import LANDED

CALLS = ("append name=61 true", "append name=62 int8 2", "mark", "return 1", "return 2", "open name=61 object", "close", "rollback")
FIRST = ("open object", "append name=61 null")
LAST = ("dump", "close", "finish out=64")
SIZES = "value=128 namebytes=2 names=2 entries=32"
UNDO = (0, 2, 4, 64)


def twin(b):
    """A copy of a builder and its storage."""
    def copied(thing):
        other = object.__new__(type(thing))
        other.__dict__.update(thing.__dict__)
        return other

    r, s = copied(b.r), copied(b.s)
    r.containers = [copied(c) if i < r.open else c for i, c in enumerate(r.containers)]
    s.value, s.namebytes, s.nameends, s.entries, s.undo = s.value[:], s.namebytes[:], s.nameends[:], s.entries[:], s.undo[:]
    return type(b)(r, s, b.on)


class Sequences:
    """The model's answers to all sequences from a state on. A state goes by its dump."""

    def __init__(self, model):
        self.model = model
        self.calls, self.last = ([model.parse_line(line) for line in lines] for lines in (CALLS, LAST))
        self.builders, self.steps, self.rest = {}, {}, {}

    def made(self, b, calls):
        """The answers to calls, one after the other, and the builder after them."""
        session = self.model.Session(self.model.on)
        session.builder = twin(b) if b else None
        return [session.answer(call) for call in calls], session.builder

    def state(self, b):
        dump = self.model.dump(b)
        self.builders.setdefault(dump, b)
        return dump

    def after(self, state):
        """Each call's answer and the state then."""
        if state not in self.steps:
            made = [self.made(self.builders[state], [call]) for call in self.calls]
            self.steps[state] = [(answer, self.state(b)) for (answer,), b in made]
        return self.steps[state]

    def answers(self, state, length):
        """Of each sequence, in order, the answers, those to the last calls among them: a text of a line each."""
        if (state, length) not in self.rest:
            if length:
                texts = [f"{answer}\n{text}" for answer, then in self.after(state) for text in self.answers(then, length - 1)]
            else:
                texts = ["".join(f"{answer}\n" for answer in self.made(self.builders[state], self.last)[0])]
            self.rest[state, length] = texts
        return self.rest[state, length]


def scripts(head, length):
    """The text of each run, in the order of the answers."""
    texts = ["".join(f"{line}\n" for line in LAST)]
    for _ in range(length):
        texts = [f"{call}\n{text}" for call in CALLS for text in texts]
    return [head + text for text in texts]


def difference(writer, asked, expected):
    """The first run that the writer answers otherwise, its lines beside the answers of both; None where there is none."""
    got = compare.ask(writer, ["".join(asked).rstrip("\n")])
    if got == "".join(expected).splitlines():
        return None
    for lines, told in zip(asked, expected):
        lines, told = lines.splitlines(), told.splitlines()
        mine, got = got[:len(told)], got[len(told):]
        if mine != told:
            return list(itertools.zip_longest(lines, told, mine))
    return [("behind the last run", "", str(got[:1]))]


def main():
    parser = argparse.ArgumentParser(description=__doc__, formatter_class=argparse.RawDescriptionHelpFormatter)
    parser.add_argument("writer", metavar="WRITER")
    parser.add_argument("--length", type=int, default=6, metavar="N")
    parser.add_argument("--with", dest="wanted", default=LANDED, metavar="SET")
    parser.add_argument("--model", default=compare.MODEL, metavar="FOLDER")
    args = parser.parse_args()
    model = compare.load(args.model, args.wanted)
    runs, differ, start = 0, 0, time.time()
    for unique, undo in itertools.product((0, 1), UNDO):
        model_side = Sequences(model)
        new = f"new unique={unique} {SIZES} undo={undo}"
        told, b = model_side.made(None, [model.parse_line(line) for line in (new, *FIRST)])
        head, first = ("".join(f"{line}\n" for line in lines) for lines in ((new, *FIRST), told))
        # by the first call, so that not all texts are held at once
        for call, (answer, then) in zip(CALLS, model_side.after(model_side.state(b))) if args.length else ():
            expected = [f"{first}{answer}\n{text}" for text in model_side.answers(then, args.length - 1)]
            found = difference(args.writer, scripts(f"{head}{call}\n", args.length - 1), expected)
            runs += len(expected)
            if found:
                differ += 1
                print(f"difference, unique={unique} undo={undo}:")
                for line, expected, got in found:
                    print(f"  {line}: {expected}" + ("" if got == expected else f"\n  WRITER: {got}"), flush=True)
        print(f"unique={unique} undo={undo}: {runs} runs so far, {len(model_side.builders)} states, {time.time() - start:.0f} s", flush=True)
    print(f"{runs} runs of {args.length} calls between {len(FIRST)} and {len(LAST)}; {'none differs' if not differ else f'{differ} parts of them differ'}")
    return 1 if differ else 0


if __name__ == "__main__":
    sys.exit(main())
