#!/usr/bin/env python3
"""Old and new texts side by side: what is public and reads otherwise than at a commit.

usage: tools/old_new.py OLD [NEW]

OLD and NEW (default: this folder) are roots of the repository. Listed are, by crate: of src/ the public functions with their clauses, the types and
the traits; of specs/ each definition and theorem, whole; of proofs/ each public theorem, its statement. An item that went to another crate or file
is found by its name. Comments, imports and layout are left out: what differs in them alone is not listed. What is gone is named at each crate's end.
"""
import argparse
import collections
import pathlib
import re
import textwrap


def plain(text):
    text = re.sub(r"^\s*(//|--).*\n?", "", text, flags=re.M)
    return " ".join(re.sub(r"\s--\s.*$", "", text, flags=re.M).split())


def body_end(text, at):
    """Where the brace that opens at `at` closes."""
    depth = 0
    for i in range(at, len(text)):
        depth += {"{": 1, "}": -1}.get(text[i], 0)
        if depth == 0:
            return i + 1
    return len(text)


def of_source(text):
    """Public functions with their clauses, and types, of a source file: name and text."""
    text = re.sub(r"^\s*//.*\n", "", text, flags=re.M)
    for m in re.finditer(r"^(?:pub )?(struct|enum|trait|type|const|static) (\w+)", text, re.M):
        brace, semi = text.find("{", m.start()), text.find(";", m.start())
        end = semi + 1 if semi != -1 and (brace == -1 or semi < brace) else body_end(text, brace)
        if text.startswith("pub ", m.start()):
            yield f"{m.group(1)} {m.group(2)}", plain(text[m.start():end])
    owners = [(m.start(), m.end(), plain(m.group(0))[:-1].strip()) for m in re.finditer(r"^impl[^\n]*\{", text, re.M)]
    for m in re.finditer(r"^( *)pub (?:extern \"C\" )?fn (\w+)", text, re.M):
        head_end = re.compile(r"^ *\{$|\) (?:-> [^{\n]* )?\{$", re.M).search(text, m.start())
        owner = ""
        if m.group(1) and owners:
            before = [o for at, _, o in owners if at < m.start()]
            owner = re.sub(r"^impl(<.*?>)? ", "", before[-1]).split("<")[0] + "::" if before else ""
        yield f"fn {owner}{m.group(2)}", plain(text[m.start():head_end.end() - 1])
    for m in re.finditer(r"^impl\b[^\n]* for [^\n]*\{", text, re.M):
        ghosts = re.findall(r"^ *ghost \w+[^\n]*", text[m.start():body_end(text, m.end() - 1)], re.M)
        if ghosts:
            yield plain(m.group(0))[:-1].strip(), plain("\n".join(ghosts))


KEYWORDS = r"((?:(?:abbrev|unfoldable|opaque|pub|private) )*)(record|data|class|instance|mod|module)? ?"


def blocks(text):
    """The items of a proof module: name, text, and whether it is public. An item begins at a line's start with a keyword, or with `name :`."""
    text = re.sub(r"^\s*--.*\n", "", text, flags=re.M)
    starts = [m.start() for m in re.finditer(r"^(?:(?:abbrev|unfoldable|opaque|pub|private|record|data|class|instance|mod|module|use) |[^\s(){}]+ :(?: |$))", text, re.M)]
    for at, end in zip(starts, starts[1:] + [len(text)]):
        block = text[at:end]
        m = re.match(KEYWORDS + r"([^\s:({\[]+)", block)
        if m and not block.startswith(("use ", "mod ", "module ", "pub mod ", "pub use ")):
            yield m.group(3), block, "pub" in m.group(1).split()


def of_specs(text):
    for name, block, _ in blocks(text):
        yield name, plain(block)


def of_proofs(text):
    """Each public law with what it is over: the modules around it, whose parameters are its own."""
    lines = [line for line in text.split("\n") if not re.match(r"\s*--", line)]
    around, at = [], 0
    while at < len(lines):
        line = lines[at]
        indent = len(line) - len(line.lstrip())
        at += 1
        if not line.strip():
            continue
        while around and around[-1][0] >= indent:
            around.pop()
        block = [line]
        if line.lstrip().startswith("module _"):
            while not re.search(r"\bwhere\s*$", block[-1]) and at < len(lines):
                block.append(lines[at])
                at += 1
            around.append((indent, plain("\n".join(block))))
            continue
        m = re.match(r"\s*(?:(?:abbrev|unfoldable|opaque) )*pub (?:(?:record|data) )?([^\s:({\[]+)", line)
        if not m or line.lstrip().startswith(("pub mod ", "pub use ")):
            continue
        while at < len(lines) and (re.match(r" {%d,}\S" % (indent + 1), lines[at]) or re.match(r" {%d}unfolding " % indent, lines[at])):
            block.append(lines[at])
            at += 1
        yield m.group(1), plain("\n".join([*(t for _, t in around), *block]))


def items(root):
    found = collections.defaultdict(list)
    for crate in sorted(p for p in (root / "crates").iterdir() if p.is_dir()):
        for part, suffix, reader in (("src", "rt", of_source), ("specs", "antt", of_specs), ("proofs", "antt", of_proofs)):
            for path in sorted((crate / part).rglob("*." + suffix)):
                if path.name in ("Invariants.antt", "Answers.antt"):
                    continue
                for name, text in reader(path.read_text(encoding="utf-8")):
                    found[(crate.name, part, name)].append(text)
    return found


def shown(sign, texts):
    for text in texts:
        yield from textwrap.wrap(text, 150, initial_indent=sign + " ", subsequent_indent=sign + "     ", break_long_words=False, break_on_hyphens=False)


def main():
    p = argparse.ArgumentParser()
    p.add_argument("old")
    p.add_argument("new", nargs="?", default=".")
    a = p.parse_args()
    old, new = items(pathlib.Path(a.old)), items(pathlib.Path(a.new))
    moved = collections.defaultdict(list)
    for key in new:
        if key not in old:
            moved[key[1:]].append(key)
    gone, out, taken, same = collections.defaultdict(list), collections.defaultdict(list), set(), 0
    for key, texts in sorted(old.items()):
        to = key if key in new else next((k for k in moved[key[1:]] if k not in taken), None)
        if to is None:
            gone[key[0]].append(f"{key[2]} ({key[1]})")
            continue
        taken.add(to)
        left = [t for t in texts if t not in new[to]]
        more = [t for t in new[to] if t not in texts]
        if not left and not more:
            same += 1
            continue
        where = f"{key[2]} ({key[1]})" + ("" if to[0] == key[0] else f", now in {to[0]}")
        out[key[0]] += ["", where, "", "```diff", *shown("-", left), *shown("+", more), "```"]
    added = collections.defaultdict(list)
    for key in sorted(new):
        if key not in old and key not in taken:
            added[key[0]].append(f"{key[2]} ({key[1]})")
    for crate in sorted(set(out) | set(gone) | set(added)):
        print(f"\n## {crate}")
        print("\n".join(out[crate]))
        for said, names in (("Gone", gone[crate]), ("New", added[crate])):
            if names:
                print("\n" + textwrap.fill(f"{said}: " + ", ".join(names) + ".", 160, break_long_words=False, break_on_hyphens=False))
    print(f"\nThe same: {same}; changed: {sum(b.count('```diff') for b in out.values())}; "
          f"gone: {sum(map(len, gone.values()))}; new: {sum(map(len, added.values()))}.")


main()
