#!/usr/bin/env python3
"""Holds variant-script's `batchadd` and `batchread` against the model of batch files, on every cut of random files.

    batch_cuts.py WRITER [--seed S] [--files N] [--model FOLDER]

A file is made of up to six random records by `batchadd`, each over a buffer just large enough, one byte too short, one that is full, and one
shorter than the file. Then it is read cut after each byte: the records wholly present must come out as they were given, and the rest as the
tail. From each cut, without its tail, adding goes on, and all records must come out, old and new. Then the version and each byte of the counts
and lengths are altered, and the file is read whole and cut; and a file with bad records is read cut after each byte, too. Every answer must be
the model's. The status is 1 where something differs.
"""
import argparse
import collections
import random
import sys

import compare
import scripts

PORTION = 100
SHOWN = 5


def shown(records, tail):
    return " ".join(["ok", f"records={len(records)}", *(f"{d.hex()}/{v.hex()}" for d, v in records), f"tail={tail}"])


def reading(file):
    return f"batchread file={file.hex()}"


def adding(file, record, out):
    return f"batchadd file={file.hex()} dict={record[0].hex()} value={record[1].hex()} out={out}"


def cuts(model, rng, records):
    """What is asked about a file of these records, and the answer that each line must get, None where the model alone says."""
    file, ends = b"\x01", [1]
    for record in records:
        used, (_, file) = file, model.add(file, *record, sys.maxsize)
        ends.append(len(file))
        yield adding(used, record, len(file)), f"ok file={file.hex()}"
        yield adding(used, record, len(file) - 1), "refused 14"
        yield adding(used, record, len(used)), "refused 14"
        yield adding(used, record, len(used) - 1), "refused 1"
    for cut in range(1, len(file) + 1):
        whole = max(n for n, end in enumerate(ends) if end <= cut)
        yield reading(file[:cut]), shown(records[:whole], cut - ends[whole])
        used, new = file[:ends[whole]], (scripts.batch_part(rng), scripts.batch_part(rng))
        then = model.add(used, *new, sys.maxsize)[1]
        yield adding(used, new, len(then)), f"ok file={then.hex()}"
        yield reading(then), shown([*records[:whole], new], 0)
    for at in [0, *(end + place for end in ends[:-1] for place in range(8))]:
        byte = rng.choice((file[at] ^ 1, file[at] + 1 & 255, rng.randrange(256), 255))
        altered = file[:at] + bytes([byte]) + file[at + 1:]
        yield reading(altered), None
        yield reading(altered[:rng.randint(at + 1, len(file))]), None
    bad = b"\x01" + b"".join(scripts.batch_record(rng, rng.random() < 0.5) for _ in records)
    yield from ((reading(bad[:cut]), None) for cut in range(len(bad) + 1))


def held(writer, model, asked, counts):
    """Asks these lines."""
    answers = compare.ask(writer, [line for line, _ in asked])
    if len(answers) != len(asked):
        sys.exit(f"WRITER gave {len(answers)} answers to {len(asked)} lines, at last: {answers[-1:]}")
    for (line, must), answer in zip(asked, answers):
        verb = line.split()[0]
        expected = model.VERBS[verb](line.split())
        counts[f"{verb}, {answer if answer.startswith('refused') else 'bad records' if '!19' in answer else 'accepted'}"] += 1
        if answer != expected or must not in (None, answer):
            counts["differ"] += 1
            if counts["differ"] <= SHOWN:
                print(f"{line}: {answer}; the model: {expected}; it must be: {must or expected}", flush=True)


def main():
    parser = argparse.ArgumentParser(description=__doc__, formatter_class=argparse.RawDescriptionHelpFormatter)
    parser.add_argument("writer")
    parser.add_argument("--seed", default="1")
    parser.add_argument("--files", type=int, default=5_000)
    parser.add_argument("--model", default=compare.MODEL, metavar="FOLDER")
    args = parser.parse_args()
    sys.path.insert(0, args.model)
    import batch
    rng, counts, asked = random.Random(args.seed), collections.Counter(differ=0), []
    for number in range(1, args.files + 1):
        records = [(scripts.batch_part(rng), scripts.batch_part(rng)) for _ in range(rng.randint(0, 6))]
        asked.extend(cuts(batch, rng, records))
        if number % PORTION == 0 or number == args.files:
            held(args.writer, batch, asked, counts)
            asked = []
            print(f"{number} files, {counts['differ']} answers differ", file=sys.stderr, flush=True)
    differ = counts.pop("differ")
    told = "; ".join(f"{what}: {n}" for what, n in sorted(counts.items()))
    print(f"seed {args.seed}: every cut of {args.files} files, {counts.total()} lines ({told}); {differ} answers differ")
    return 1 if differ else 0


if __name__ == "__main__":
    sys.exit(main())
