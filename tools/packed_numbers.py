#!/usr/bin/env python3
"""Holds variant-script's `packdec` and `readdec` against the model of packed decimal, both ways.

    packed_numbers.py WRITER [--seed S] [--numbers N] [--model FOLDER]

First the powers of ten, one less and one more, both signs, and those of two, then N random numbers of 1 to 39 digits. Of each that 128
bits hold the packed form is asked for, also over an output of just its size and over one too short. Then that form is read, the same
number spelled otherwise (zeros in front, F for plus), both of which must tell the number, and the form damaged. Every answer must be
the model's. The status is 1 where something differs.
"""
import argparse
import collections
import os
import random
import subprocess
import sys

MODEL = os.path.join(os.path.dirname(os.path.abspath(__file__)), "model")
TOP = 2**127
BATCH = 20_000
SHOWN = 5


def numbers(rng, count):
    """(scale, number): all the edges, then random ones."""
    for power in range(39):
        for n in (10**power - 1, 10**power, 10**power + 1):
            for scale in (0, 38, 39):
                yield from ((scale, n), (scale, -n))
    yield from ((0, sign * (2**power + more)) for power in (31, 32, 63, 64, 96, 127, 128) for more in (-1, 0, 1, 5) for sign in (1, -1))
    for _ in range(count):
        n = rng.randrange(10**rng.randint(1, 39))
        yield rng.randrange(39) if rng.random() < 0.95 else rng.randrange(256), rng.choice((n, -n))


def otherwise(rng, form):
    """Another spelling of the same number."""
    front = "00" * rng.randint(0, 20 - len(form) // 2)
    return front + (form[:-1] + "f" if form[-1] == "c" and rng.random() < 0.7 else form)


def damaged(rng, form):
    """The form with one half of a byte another, or with zeros in front to over 20 bytes."""
    at = rng.randrange(len(form))
    return rng.choice((form[:at] + rng.choice("0123456789abcdef") + form[at + 1:], "00" * (21 - len(form) // 2) + form))


def lines(rng, scale, n):
    """What is asked about a number, and the number that must be told, if any."""
    digits = str(abs(n))
    form = "0" * (1 - len(digits) % 2) + digits + ("d" if n < 0 else "c")
    if -TOP <= n < TOP:
        for out in ("", f" out={len(form) // 2}", f" out={len(form) // 2 - 1}"):
            yield f"packdec {scale} {n}{out}", None
    yield f"readdec {scale} {form}", n
    yield f"readdec {scale} {otherwise(rng, form)}", n
    yield f"readdec {scale} {damaged(rng, form)}", None


def held(writer, model, rng, batch, counts):
    """Asks about the numbers of a batch."""
    asked = [pair for scale, n in batch for pair in lines(rng, scale, n)]
    done = subprocess.run([writer], input="".join(line + "\n" for line, _ in asked), capture_output=True, text=True)
    answers = done.stdout.splitlines()
    if len(answers) != len(asked):
        sys.exit(f"WRITER gave {len(answers)} answers to {len(asked)} lines: {done.stderr.strip()}")
    for (line, n), answer in zip(asked, answers):
        expected = model.VERBS[line.split()[0]](line.split())
        other = n is not None and answer.startswith("ok") and int(answer.split()[-1]) != n
        counts["lines"] += 1
        counts[" ".join(answer.split()[:2]) if answer.startswith("refused") else "accepted"] += 1
        if answer != expected or other:
            counts["differ"] += 1
            if counts["differ"] <= SHOWN:
                print(f"{line}: {answer}; the model: {expected}", flush=True)
    counts["numbers"] += len(batch)
    print(f"{counts['numbers']} numbers, {counts['differ']} answers differ", file=sys.stderr, flush=True)


def main():
    parser = argparse.ArgumentParser(description=__doc__, formatter_class=argparse.RawDescriptionHelpFormatter)
    parser.add_argument("writer")
    parser.add_argument("--seed", default="1")
    parser.add_argument("--numbers", type=int, default=200_000)
    parser.add_argument("--model", default=MODEL, metavar="FOLDER")
    args = parser.parse_args()
    sys.path.insert(0, args.model)
    import packed_decimal
    rng, counts, batch = random.Random(args.seed), collections.Counter(differ=0), []
    for number in numbers(rng, args.numbers):
        batch.append(number)
        if len(batch) == BATCH:
            held(args.writer, packed_decimal, rng, batch, counts)
            batch = []
    held(args.writer, packed_decimal, rng, batch, counts)
    told = ", ".join(f"{answer} {counts[answer]}" for answer in ("accepted", "refused 7", "refused 14", "refused 18"))
    print(f"seed {args.seed}: {counts['numbers']} numbers both ways, {counts['lines']} lines ({told}); {counts['differ']} answers differ")
    return 1 if counts["differ"] else 0


if __name__ == "__main__":
    sys.exit(main())
