#!/usr/bin/env python3
"""Holds a writer against the model of document 01 and against the Rust, by random scripts of calls.

    compare.py WRITER [ORACLE] [--seed S] [--calls N] [--kind KIND] [--with SET] [--model FOLDER]
    compare.py --sample FOLDER ORACLE [--seed S]

WRITER and ORACLE are programs that answer a script on stdin; the model is tools/model, or that of another FOLDER, and
its README has the grammar. N counts the calls held against ORACLE, or without it against the model. SET names the
requests of document 02 by which the model answers, as its --with does; without it they are those that have landed
(landed.py), by which WRITER answers, too.

Every answer of WRITER must be the model's. ORACLE gets the same runs but for altered storage, without the calls
that are refused with a number other than 6, 10 and 15 (a refusal changes nothing; so none of 17 and above), without those
that need no builder and without dumps; an accepted date or packed decimal goes as the scalar that is stored for it. Each of its
answers must be WRITER's. Left out is a run with an accepted scalar that the Rust's types don't hold, a name registered inside a
container, a floor other than 1, a mark set or returned to. From an accepted roll back on the dictionary's sorted mark is not
compared with the Rust, which keeps another one there; in all other runs it is.
--sample writes scripts.txt and answers.txt: short runs of calls that the Rust answers, chosen by document 01 alone, and its
answers, but for the mark where it is not compared: that one is the model's, by what has landed.
"""
import argparse
import collections
import os
import subprocess
import sys
import time

import scripts
from landed import LANDED

CALLS = ("register", "append", "open", "close", "rollback", "unique", "mark", "return", "finish")
OPENED = {"open": 1, "close": -1, "rollback": -1}
BATCH = 30_000
SHOWN = 5
MODEL = os.path.join(os.path.dirname(os.path.abspath(__file__)), "model")
LIMITS = {"value": 2048, "namebytes": 512, "names": 64, "entries": 256, "out": 1024}


def load(folder, wanted):
    """The model's module, with the grammar's two functions and the requests wanted, which each of its sessions is given."""
    sys.path.insert(0, folder)
    import model
    import script
    model.format_call = script.format_call
    model.on = model.requests(wanted)
    return model


def ask(program, lines):
    """The program's answers, and what it said if it fell."""
    done = subprocess.run([program], input="\n".join(lines) + "\n", capture_output=True, text=True)
    answers = done.stdout.splitlines()
    return answers + [f"fell with {done.returncode}: {done.stderr.strip()[-200:]}"] * (done.returncode != 0)


def rust_line(model, line, call):
    """The line as the Rust is given it: an accepted date or packed decimal is the scalar that is stored for it."""
    if call[0] != "append" or model.converted(call[2])[1] == call[2]:
        return line
    return model.format_call((*call[:2], model.converted(call[2])[1]))


def beyond_rust(model, call, depth):
    """Whether an accepted call, with so many containers open, is one that the Rust does not have."""
    if call[0] == "new":
        return call[1].get("floor", 1) != 1
    if call[0] == "register":
        return depth > 0
    return call[0] in ("mark", "return") or call[0] == "append" and not scripts.rust_holds(model, call[2])


def unmarked(calls, answers):
    """The answers, from an accepted roll back on without the dictionary's sorted mark: there the Rust keeps another (A3)."""
    kept, rolled = [], False
    for call, answer in zip(calls, answers):
        rolled = rolled and call[0] != "new" or call[0] == "rollback" and answer.startswith("ok")
        if rolled and answer.startswith("ok value="):
            front, first = answer.split(" dict=")
            answer = f"{front} dict={int(first[:2], 16) & ~16:02x}{first[2:]}"
        kept.append(answer)
    return kept


def for_oracle(model, calls, answers):
    """The places of the lines that the Rust answers, or None where the run is left out."""
    places, depth = [], 0
    for i, (call, answer) in enumerate(zip(calls, answers)):
        if call[0] in scripts.BESIDE:
            continue
        held = call[0] != "append" or scripts.rust_holds(model, call[2])
        if call[0] == "new" or answer.startswith("ok"):
            if beyond_rust(model, call, depth):
                return None
            places.append(i)
            depth += OPENED.get(call[0], 0)
        elif answer in ("refused 6", "refused 10", "refused 15"):
            # 6 comes before 18, 7, 17 and 8: the Rust cannot say what those would refuse
            if held and (call[0] != "append" or not model.scalar_refusal(call[2])):
                places.append(i)
    return places


# ---------------------------------------------------------------- one run again, smaller

def model_answers(model, calls):
    session = model.Session(model.on)
    return [session.answer(call) for call in calls]


def differs(model, writer, oracle, lines):
    """What differs in one run: None, or the line with both answers."""
    calls = [model.parse_line(line) for line in lines]
    expected, got = model_answers(model, calls), ask(writer, lines)
    if oracle:
        places = for_oracle(model, calls, expected)
        if places is None:
            return None
        expected = ask(oracle, [rust_line(model, lines[i], calls[i]) for i in places])
        got = [got[i] if i < len(got) else "-" for i in places]
        lines, calls = [lines[i] for i in places], [calls[i] for i in places]
        expected, got = unmarked(calls, expected), unmarked(calls, got)
    for i, line in enumerate(lines):
        pair = [answers[i] if i < len(answers) else "-" for answers in (expected, got)]
        if pair[0] != pair[1]:
            return line, *pair
    return None


def smallest(model, writer, oracle, lines):
    """The run with as many lines taken out as the difference bears."""
    size = len(lines) // 2
    while size:
        at = 1
        while at < len(lines):
            fewer = lines[:at] + lines[at + size:]
            try:
                keeps = differs(model, writer, oracle, fewer)
            except (ValueError, IndexError):
                keeps = None
            lines, at = (fewer, at) if keeps else (lines, at + size)
        size //= 2
    return lines


def report(model, writer, oracle, run):
    lines = smallest(model, writer, oracle, run.lines)
    line, expected, got = differs(model, writer, oracle, lines) or ("only among other runs", "", "")
    print(f"difference from the {'Rust' if oracle else 'model'}, kind {run.kind}:")
    print("  " + " / ".join(lines))
    print(f"  at: {line}\n  {'Rust' if oracle else 'model'}: {expected[:400]}\n  writer: {got[:400]}", flush=True)


# ---------------------------------------------------------------- many runs

class Counts:
    def __init__(self):
        self.runs, self.finished, self.model, self.oracle = (collections.Counter() for _ in range(4))
        self.left_out, self.finished_oracle, self.verbs, self.answers = (collections.Counter() for _ in range(4))
        self.inner_names = self.inner_runs = self.not_made = self.without = 0
        self.floors, self.beside, self.forms, self.reading, self.read_back = (collections.Counter() for _ in range(5))
        self.sorted, self.lists, self.returns = collections.Counter(on=0, off=0, ignored=0), collections.Counter(), collections.Counter()

    def note(self, run, places):
        kind = run.kind
        self.runs[kind] += 1
        self.inner_names += run.inner_names
        self.inner_runs += run.inner_names > 0
        self.lists += run.lists
        self.returns += run.returns
        for call, answer, before in zip(run.calls, run.answers, ["", *run.answers]):
            if call[0] in scripts.BESIDE:
                self.beside[call[0]] += 1
                self.note_reading(call, answer, before if kind != "altered" else "")
            elif answer == "new":
                self.floors[call[1].get("floor", 1)] += 1
            elif call[0] == "new":
                self.not_made += 1
            elif answer == "no builder":
                self.without += 1
            elif call[0] in CALLS:
                self.model[kind] += 1
                self.verbs[call[0]] += 1
                self.answers[answer if answer.startswith("refused") else "accepted"] += 1
                if call[0] == "append" and answer == "ok" and call[2][0] not in scripts.KINDS:
                    self.forms[call[2][0]] += 1
                self.finished[kind] += answer.startswith("ok value")
        if places is None:
            self.left_out[kind] += 1
        elif places:
            self.oracle[kind] += len(places) - 1
            self.finished_oracle[kind] += any(run.answers[i].startswith("ok value") for i in places)
            self.note_sorted([run.calls[i] for i in places], [run.answers[i] for i in places])

    def note_reading(self, call, answer, before):
        """What a call told that reads a record; and apart, of one that reads what was finished just before."""
        if call[0] in scripts.READING:
            self.reading[f"{call[0]} {answer if answer.startswith('refused') else answer.split()[0]}"] += 1
        if before.startswith("ok value=") and before == " ".join(["ok", *call[1:]]):
            self.read_back[answer] += 1

    def note_sorted(self, calls, answers):
        """How the sorted mark of a finished run was held against the Rust."""
        rolled = False
        for call, answer in zip(calls, answers):
            rolled = rolled or call[0] == "rollback" and answer.startswith("ok")
            if answer.startswith("ok value"):
                first = int(answer.split(" dict=")[1][:2], 16)
                self.sorted["ignored" if rolled else "on" if first & 16 else "off"] += 1

    def show(self):
        row = "{:<10} {:>8} {:>13} {:>12} {:>9} {:>10} {:>9}"
        print(row.format("kind", "runs", "calls: model", "calls: Rust", "finished", "with Rust", "left out"))
        columns = (self.runs, self.model, self.oracle, self.finished, self.finished_oracle, self.left_out)
        for kind in [*scripts.MAKERS, "all"]:
            print(row.format(kind, *(c.total() if kind == "all" else c[kind] for c in columns)))
        print("calls: " + ", ".join(f"{verb} {n}" for verb, n in sorted(self.verbs.items())))
        order = sorted(self.answers.items(), key=lambda p: int(p[0].split()[-1]) if " " in p[0] else 0)
        print("answers: " + ", ".join(f"{answer} {n}" for answer, n in order))
        print("floors: " + ", ".join(f"{floor} in {n} runs" for floor, n in sorted(self.floors.items()))
              + f"; {self.not_made} refused, then {self.without} calls, pokes and dumps without a builder")
        print("forms of document 02 appended: " + (", ".join(f"{kind} {n}" for kind, n in sorted(self.forms.items())) or "none")
              + "; without a builder: " + (", ".join(f"{verb} {n}" for verb, n in sorted(self.beside.items())) or "none"))
        print(f"lists closed: {self.lists['closed']}, {self.lists['over 255']} of over 255 elements, {self.lists['no entry lent']} where no entry is "
              f"lent; not as many whole values as counted: {self.lists['refused']}")
        r = self.returns
        print(f"marks set: {r['set']}, {r['in lists']} in lists, {r['sixteenth']} as the sixteenth; returned to {r['returned']}, {r['with records']} with "
              f"undo records, {r['with offsets']} with offsets brought back; roll backs that free a child's record: {r['with a child']}")
        print("records: " + (", ".join(f"{what} {n}" for what, n in sorted(self.reading.items())) or "none")
              + "; what was finished, read: " + (", ".join(f"{what} {n}" for what, n in sorted(self.read_back.items())) or "none"))
        print(f"names registered with containers open: {self.inner_names}, in {self.inner_runs} runs")
        print(f"sorted mark of runs finished in both: compared on {self.sorted['on']}, compared off {self.sorted['off']}, "
              f"ignored after a roll back {self.sorted['ignored']}")


def cut(answers, lengths):
    """The answers run by run; a missing one is '-'."""
    at = 0
    for length in lengths:
        part = answers[at:at + length]
        yield part + ["-"] * (length - len(part))
        at += length


def batch(model, args, runs, counts):
    """Holds runs against both sides; the number of runs that differ."""
    faults = 0
    got = list(cut(ask(args.writer, [line for run in runs for line in run.lines]), [len(run.lines) for run in runs]))
    places = [for_oracle(model, run.calls, run.answers) if run.kind != "altered" and args.oracle else [] for run in runs]
    asked = [(run, p, mine) for run, p, mine in zip(runs, places, got) if p]
    for run, mine, kept in zip(runs, got, places):
        counts.note(run, kept)
        if mine != run.answers:
            faults += 1
            if faults <= SHOWN:
                report(model, args.writer, None, run)
            if mine[-1] == "-":
                sys.exit("WRITER fell: the runs after it have no answers")
    if asked:
        lines = [rust_line(model, run.lines[i], run.calls[i]) for run, p, _ in asked for i in p]
        rust = cut(ask(args.oracle, lines), [len(p) for _, p, _ in asked])
        for (run, p, mine), theirs in zip(asked, rust):
            calls = [run.calls[i] for i in p]
            if unmarked(calls, [mine[i] for i in p]) != unmarked(calls, theirs) and mine == run.answers:
                faults += 1
                if faults <= SHOWN:
                    report(model, args.writer, args.oracle, run)
    return faults


def compare(model, args):
    counts, faults, numbers, start, told = Counts(), 0, collections.Counter(), time.time(), 0
    shares = {args.kind: 1} if args.kind else scripts.SHARES
    made = collections.Counter()
    while (counts.oracle if args.oracle and args.kind != "altered" else counts.model).total() < args.calls:
        runs, lines = [], 0
        while lines < BATCH:
            kind = min(shares, key=lambda k: made[k] / shares[k])
            runs.append(scripts.make(model, args.seed, kind, numbers[kind]))
            numbers[kind] += 1
            made[kind] += len(runs[-1].lines)
            lines += len(runs[-1].lines)
        faults += batch(model, args, runs, counts)
        if time.time() - told > 20:
            told = time.time()
            print(f"{counts.model.total()} calls with the model, {counts.oracle.total()} with the Rust, "
                  f"{faults} differences, {told - start:.0f} s", file=sys.stderr, flush=True)
        if faults >= SHOWN:
            break
    counts.show()
    unread = counts.read_back.total() - counts.read_back["ok"]
    print(f"seed {args.seed}: {faults} runs that differ" + f", {unread} finished records refused" * (unread > 0))
    return 1 if faults or unread else 0


# ---------------------------------------------------------------- the sample

def short_run(model, run, exact):
    """The run's calls that the Rust answers, over storages just enough (or a little more); None if too large."""
    places = for_oracle(model, run.calls, run.answers)
    if not places or len(places) > (150 if run.kind == "deep" else 26) or len(places) < 3:
        return None
    sizes = {key: n + (0 if exact else 5) for key, n in run.peak.items()}
    if any(n > LIMITS[key] for key, n in sizes.items()):
        return None
    out = sizes.pop("out")
    head = ("new", {"unique": run.calls[0][1]["unique"], **sizes, "fill": run.calls[0][1]["fill"]})
    calls = [head] + [("finish", out) if run.calls[i][0] == "finish" else run.calls[i] for i in places[1:]]
    answers = [run.answers[i] for i in places]
    return [model.format_call(call) for call in calls] if model_answers(model, calls) == answers else None


def sample(model, args, per_kind=46):
    kept = []
    for kind in [kind for kind in scripts.MAKERS if kind not in ("widths", "lists", "marks", "records", "altered")]:
        number = found = 0
        while found < per_kind:
            lines = short_run(model, scripts.make(model, args.seed, kind, number, short=True), number % 2 == 0)
            number += 1
            if lines:
                kept.append((f"# {len(kept) + 1} {kind}", lines))
                found += 1
    calls = [line for _, lines in kept for line in lines]
    parsed, rust = [model.parse_line(line) for line in calls], ask(args.oracle, calls)
    model.on = model.requests(LANDED)
    answers = model_answers(model, parsed)
    if unmarked(parsed, rust) != unmarked(parsed, answers):
        sys.exit("the Rust differs from the model")
    os.makedirs(args.sample, exist_ok=True)
    with open(os.path.join(args.sample, "scripts.txt"), "w") as out:
        out.writelines("\n".join([mark, *lines]) + "\n" for mark, lines in kept)
    with open(os.path.join(args.sample, "answers.txt"), "w") as out:
        out.write("\n".join(answers) + "\n")
    print(f"{len(kept)} scripts, {len(calls) - len(kept)} calls, {sum(a.startswith('ok value') for a in answers)} finished")
    return 0


def main():
    parser = argparse.ArgumentParser(description=__doc__, formatter_class=argparse.RawDescriptionHelpFormatter)
    parser.add_argument("programs", nargs="+", metavar="WRITER ORACLE")
    parser.add_argument("--seed", default="1")
    parser.add_argument("--calls", type=int, default=100_000)
    parser.add_argument("--kind", choices=list(scripts.MAKERS))
    parser.add_argument("--with", dest="wanted", metavar="SET")
    parser.add_argument("--sample", metavar="FOLDER")
    parser.add_argument("--model", default=MODEL, metavar="FOLDER")
    args = parser.parse_args()
    if len(args.programs) > (1 if args.sample else 2):
        parser.error("WRITER [ORACLE], or with --sample ORACLE; the model's folder is named by --model")
    args.writer, args.oracle = [None, *args.programs] if args.sample else [*args.programs, None][:2]
    wanted = ("" if args.sample else LANDED) if args.wanted is None else args.wanted
    model = load(args.model, wanted)
    return sample(model, args) if args.sample else compare(model, args)


if __name__ == "__main__":
    sys.exit(main())
