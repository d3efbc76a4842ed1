#!/usr/bin/env python3
"""Lists the answers in proof files that the check finds alone: each function is checked without its answers.

usage: tools/alone.py [CRATE..]

For each proofs/PATH/Answers.antt of the crates (default: all) the file is put aside, `rt check --only PATH` is run, and the file is put back. A line a
file: its crate and path, how many answers it has, those whose goals the check did not name as open, and `proved` where it needs none of them.
Such an answer may still be needed beside the others: drop it, check, and keep the drop where that is proved. Some 10 to 50 s a file.
"""
import pathlib
import re
import subprocess
import sys


def open_goals(crate, path):
    said = subprocess.run(["rt", "check", "--only", path], cwd=crate, stdout=subprocess.PIPE, stderr=subprocess.STDOUT, text=True).stdout
    lines = [line.split("did not prove")[1].split("; it calls")[0] for line in said.splitlines() if "did not prove" in line]
    proved = re.search(r"^fn \S*" + re.escape(path) + ": proved", said, re.M)
    return set(re.findall(r"`([^`]+)`", " ".join(lines))), bool(proved)


def main():
    root = pathlib.Path(__file__).resolve().parent.parent / "crates"
    for name in sys.argv[1:] or sorted(p.name for p in root.iterdir() if (p / "proofs").is_dir()):
        crate = root / name
        for file in sorted(crate.glob("proofs/**/Answers.antt")):
            path = str(file.parent.relative_to(crate / "proofs")).replace("/", "::")
            text = file.read_text(encoding="utf-8")
            answers = re.findall(r"^pub (\S+) : goal\.\1\s*$", text, re.M)
            file.unlink()
            try:
                still_open, proved = open_goals(crate, path)
            finally:
                file.write_text(text, encoding="utf-8")
            alone = [a for a in answers if a not in still_open]
            print(name, path, len(answers), " ".join(alone) or "-", "proved" if proved else "", flush=True)


main()
