#!/usr/bin/env python3
"""Holds variant-script's `days` and `civil` against Python's own calendar, on every day of the years 1 to 9999.

    all_days.py WRITER

Each of the 3,652,059 days is asked both ways; then of each month of each year day 0 and the day behind the last, and the day numbers
just outside, all of which 17 refuses. The status is 1 where something differs.
"""
import datetime
import subprocess
import sys

EPOCH = datetime.date(1970, 1, 1).toordinal()
LAST = datetime.date.max.toordinal()
BATCH = 500_000
SHOWN = 5


def days():
    """Each day both ways: the line, and the answer that it must get."""
    for ordinal in range(1, LAST + 1):
        date, n = datetime.date.fromordinal(ordinal), ordinal - EPOCH
        words = f"{date.year} {date.month} {date.day}"
        yield f"days {words}", f"ok {n}"
        yield f"civil {n}", f"ok {words}"


def exists(year, month, day):
    try:
        datetime.date(year, month, day)
    except ValueError:
        return False
    return True


def no_days():
    """What is just not in the calendar."""
    for year in range(1, 10_000):
        for month in range(1, 13):
            behind = next(day for day in (29, 30, 31, 32) if not exists(year, month, day))
            yield f"days {year} {month} 0", "refused 17"
            yield f"days {year} {month} {behind}", "refused 17"
        yield f"days {year} 0 1", "refused 17"
        yield f"days {year} 13 1", "refused 17"
    for year in (0, 10_000):
        for month in range(1, 13):
            yield f"days {year} {month} 1", "refused 17"
    for n in (-EPOCH, LAST - EPOCH + 1):
        yield f"civil {n}", "refused 17"


def batches(pairs):
    batch = []
    for pair in pairs:
        batch.append(pair)
        if len(batch) == BATCH:
            yield batch
            batch = []
    yield batch


def held(writer, pairs, what):
    """How many lines were asked, and how many answers differ."""
    asked = differ = 0
    for batch in batches(pairs):
        done = subprocess.run([writer], input="".join(line + "\n" for line, _ in batch), capture_output=True, text=True)
        answers = done.stdout.splitlines()
        if len(answers) != len(batch):
            sys.exit(f"WRITER gave {len(answers)} answers to {len(batch)} lines: {done.stderr.strip()}")
        for (line, expected), answer in zip(batch, answers):
            if answer != expected:
                differ += 1
                if differ <= SHOWN:
                    print(f"{line}: {answer}, not {expected}", flush=True)
        asked += len(batch)
        print(f"{asked} lines of {what}, {differ} differ", file=sys.stderr, flush=True)
    return asked, differ


def main():
    if len(sys.argv) != 2:
        sys.exit(__doc__)
    asked, differ = held(sys.argv[1], days(), "days")
    refused, accepted = held(sys.argv[1], no_days(), "what is not in the calendar")
    print(f"{asked // 2} days both ways, {differ} answers differ; {refused} lines not in the calendar, {accepted} answers differ")
    return 1 if differ or accepted else 0


if __name__ == "__main__":
    sys.exit(main())
