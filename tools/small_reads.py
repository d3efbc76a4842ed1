#!/usr/bin/env python3
"""Holds variant-script's `read` against the model on every short value over the dictionary 01 00 00.

    small_reads.py WRITER [--length N] [--model FOLDER]

Every byte string of up to N bytes is read as a value; N is 2, or 3 where it says so. The accepted ones must be the model's, all others refused with
20: 4 of one byte, 384 of two, 83,845 of three. The status is 1 where something differs.
"""
import argparse
import sys

import compare

COUNTS = {0: 0, 1: 4, 2: 384, 3: 83_845}
SHOWN = 5


def strings(length):
    """All byte strings of that length, as hexadecimal digits, in portions."""
    if length < 3:
        yield [n.to_bytes(length, "big").hex() for n in range(256**length)]
    else:
        rest = [f"{n:04x}" for n in range(256**2)]
        yield from ([f"{first:02x}{digits}" for digits in rest] for first in range(256))


def differences(writer, length, accepted):
    """How many strings the writer accepts, and those that it answers otherwise than the model."""
    count, differ = 0, []
    for values in strings(length):
        answers = compare.ask(writer, [f"read value={value} dict=010000" for value in values])
        if len(answers) != len(values):
            sys.exit(f"WRITER gave {len(answers)} answers to {len(values)} lines, at last: {answers[-1:]}")
        count += answers.count("ok")
        differ += [(value, answer) for value, answer in zip(values, answers) if answer != ("ok" if value in accepted else "refused 20")]
    return count, differ


def main():
    parser = argparse.ArgumentParser(description=__doc__, formatter_class=argparse.RawDescriptionHelpFormatter)
    parser.add_argument("writer", metavar="WRITER")
    parser.add_argument("--length", type=int, default=2, choices=(2, 3), metavar="N")
    parser.add_argument("--model", default=compare.MODEL, metavar="FOLDER")
    args = parser.parse_args()
    sys.path.insert(0, args.model)
    import small_values
    wrong = 0
    for length in range(args.length + 1):
        accepted = {value.hex() for value in small_values.small_values(length)} if length else set()
        count, differ = differences(args.writer, length, accepted)
        wrong += len(differ) + (count != COUNTS[length])
        print(f"{256**length} strings of {length} bytes: {count} accepted, {len(differ)} answers differ", flush=True)
        for value, answer in differ[:SHOWN]:
            print(f"  {value}: {answer}", flush=True)
    return 1 if wrong else 0


if __name__ == "__main__":
    sys.exit(main())
