#!/usr/bin/env python3
"""Holds the model's two halves against each other: the storage (model.py) and the kept record (history.py).

    histories.py [--seed S] [--calls N] [--kind KIND] [--with SET] [--model FOLDER]

The model is tools/model, or that of another FOLDER. The runs are those of compare.py, made on model.py, but for `altered`,
which pokes. Of every call the history must foretell the answer, the refusal's number included (24 of a `new` by its floor
alone); of a finished run the kept record must have the value and the dictionary that the model wrote at the run's floor, and the
ledger the value's size. SET names the requests of document 02 in force, as the model's --with does, else those that have landed
(landed.py). The status is 1 where something differs.
"""
import argparse
import collections
import sys

import compare
import scripts
from landed import LANDED


def faults(history, model, run):
    """What differs in a run: lines for people."""
    for call, answer in zip(run.calls[:run.made + 1], run.answers):
        if call[0] == "new" and answer != ("new" if 1 <= call[1].get("floor", 1) <= 4 else "refused 24"):
            yield f"{call}: the model {answer}"
    settings, told = run.calls[run.made][1], history.History()
    floor = settings.get("floor", 1)
    ledger, mark, refusals = history.Ledger(floor), history.Sorted(model.on), history.Refusals(settings, model.on)
    for call, answer in zip(run.calls[run.made + 1:], run.answers[run.made + 1:]):
        if call[0] not in compare.CALLS:
            continue
        number = int(answer.split()[1]) if answer.startswith("refused") else 0
        expected = refusals.expected(call, told, ledger, mark.mark)
        if number != expected:
            yield f"{call}: the model {number}, the history {expected}"
            return
        names = told.names
        ledger.feed(call, number != 0, told)
        refusals.feed(call, number != 0)
        told.feed(call, number != 0)
        mark.feed(names, told.names)
        if call[0] == "finish" and number == 0:
            value, dictionary = history.encode(told.kept, floor), history.dictionary_of(told.names, mark.mark, floor)
            if answer != f"ok value={value.hex()} dict={dictionary.hex()}" or ledger.used() != len(value):
                yield f"{call}: the bytes of the kept record or their count differ"


def main():
    parser = argparse.ArgumentParser(description=__doc__, formatter_class=argparse.RawDescriptionHelpFormatter)
    parser.add_argument("--seed", default="1")
    parser.add_argument("--calls", type=int, default=100_000)
    parser.add_argument("--kind", choices=[kind for kind in scripts.MAKERS if kind != "altered"])
    parser.add_argument("--with", dest="wanted", default=LANDED, metavar="SET")
    parser.add_argument("--model", default=compare.MODEL, metavar="FOLDER")
    args = parser.parse_args()
    model = compare.load(args.model, args.wanted)
    import history
    shares = {args.kind: 1} if args.kind else {kind: n for kind, n in scripts.SHARES.items() if kind != "altered"}
    made, numbers, calls, finished, differ = collections.Counter(), collections.Counter(), 0, 0, 0
    while calls < args.calls:
        kind = min(shares, key=lambda k: made[k] / shares[k])
        run = scripts.make(model, args.seed, kind, numbers[kind])
        numbers[kind] += 1
        made[kind] += len(run.lines)
        calls += sum(call[0] in compare.CALLS for call in run.calls)
        finished += any(answer.startswith("ok value") for answer in run.answers)
        found = list(faults(history, model, run))
        differ += len(found)
        for line in found[:1]:
            print(f"kind {kind}: " + " / ".join(run.lines) + "\n  " + line, flush=True)
    print(f"seed {args.seed}: {numbers.total()} runs, {calls} calls, {finished} finished runs; {differ} differ")
    return 1 if differ else 0


if __name__ == "__main__":
    sys.exit(main())
