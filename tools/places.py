#!/usr/bin/env python3
"""Lists the places of docs/DESIGN-PASS.md's points in crates/*/src: forms of the older language.

usage: tools/places.py [DIR] [--point N] [--count]

DIR is the repository's root (default: this folder). It reads text only, by the rules below, and exits 0: a place listed is a place to look at. One that stays has its reason beside it,

    // Kept (POINTS; REASON): why

in the comment above the function, struct or field, or in the file's head for all of that point in the file; POINTS as below, with commas.
`--todo` leaves such places out, `--kept` lists them alone.
1  own enums with a variant for success and one for refusal (1a), numbers for refusals (1b), flags kept in structs or passed beside a value (1c),
   a 0 or an end that means none (1d, by the comment or the reason that says so)
2  functions alike but for names, numbers and types, beyond the first of each group
3  while loops, and `for` loops over numbers from .. to (3b)
4  functions that only choose by a condition, cast, or compare byte by byte
5  conjuncts of `requires` that stand in three or more functions (5a), functions with parameters that travel together (5b)
6  functions that take a slice and a place, an end or a count of it
7  matches over which step to run
8  lines of proofs/
"""
import argparse
import collections
import pathlib
import re

REFUSING = {"NoRoom", "OutOfCalendar", "OutOfRange", "NotPacked", "Damaged", "NoBatch", "Bad", "Nothing", "Missing",
            "Refused", "Other", "Full", "NotUtf8", "BadLength", "New"}
GROUPS = [("value", "text", "ends", "entries", "undo"), ("m", "text", "ends"), ("d", "v"), ("table", "w", "count"),
          ("entries", "from", "to"), ("named", "name"), ("high", "low")]
PLACED = r"\b(?:from|to|at|start|end|used|count|size|n|low|high|place|lo|p)\b"


REASONS = ("C interface", "project rule", "speed", "proof", "no plainer")


def kept(text, line, head=True):
    """The points for which the comment right above that line, or with `head` the file's, says why the form stays."""
    lines = text.splitlines()
    top = next((i for i, l in enumerate(lines) if l.strip() and not l.startswith("//")), len(lines)) if head else 0
    above = line
    while 0 < above and re.match(r"\s*(//|#\[)", lines[above - 1]):
        above -= 1
    points = set()
    for l in lines[:top] + lines[above:line]:
        m = re.match(r"\s*// Kept \(([\w, ]+); ([\w ]+)\): \S", l)
        if m and m.group(2) in REASONS:
            points |= {x.strip() for x in m.group(1).split(",")}
    return points


def functions(text):
    """Each function: its line, comment above, head (up to its body) and body."""
    for m in re.finditer(r"^[ ]*(?:pub(?:\(crate\))? )?(?:extern \"C\" )?fn (\w+)", text, re.M):
        head_end = re.compile(r"^\s*\{$|\) (?:-> [^{\n]* )?\{$", re.M).search(text, m.start())
        if not head_end:
            continue
        indent = re.match(r"[ ]*", m.group(0)).group(0)
        close = re.compile(r"^" + indent + r"\}", re.M).search(text, head_end.end())
        above = text[:m.start()].rsplit("\n}\n", 1)[-1]
        note = " ".join(l for l in re.findall(r"^\s*// ?(.*)$", above[-900:], re.M) if not l.startswith("Kept ("))
        yield (text.count("\n", 0, m.start()) + 1, m.group(1), note, text[m.start():head_end.end()],
               text[head_end.end():close.start() if close else None])


def parameters(head):
    inside = head[head.index("(") + 1:].lstrip()
    return re.findall(r"(?:^|[,(]\s*)(?:mut )?(\w+):\s*([^,{}]*?)(?=,\s*\w+:|,?\s*\)\s*(?:->|\n|\{|$))", inside, re.S)


def alike(head, body):
    words = re.findall(r"\w+|[^\w\s]", re.sub(r"//.*", "", body))
    keep = {"if", "else", "while", "for", "match", "return", "let", "mut", "as", "in", "loop"}
    shape = [w if w in keep or not re.match(r"\w", w) else "x" for w in words]
    return " ".join(shape), len(shape)


class Places:
    """What is listed by point: each place with whether its reason is beside it."""

    def __init__(self):
        self.by_point = collections.defaultdict(list)

    def add(self, point, text, lines, where):
        stays = any({point, point[0]} & kept(text, line) for line in lines)
        self.by_point[point].append((where, stays))


def line_of(text, at):
    return text.count("\n", 0, at)


def of_types(found, text, name):
    for m in re.finditer(r"enum (\w+) \{(.*?)\n\}", text, re.S):
        variants = set(re.findall(r"^    (\w+)", m.group(2), re.M))
        if variants & REFUSING and variants - REFUSING:
            found.add("1a", text, [line_of(text, m.start())], f"{name}: enum {m.group(1)}")
    for m in re.finditer(r"struct (\w+)[^{;(]*\{(.*?)\n\}", text, re.S):
        for f in re.finditer(r"^    (?:pub )?(\w+): (u8|bool),", m.group(2), re.M):
            field, kind = f.groups()
            if kind == "bool" or field == "number":
                lines = [line_of(text, m.start()), line_of(text, m.start(2) + f.start())]
                found.add("1b" if kind == "u8" else "1c", text, lines, f"{name}: {m.group(1)}.{field}")
    for m in re.finditer(r"struct (\w+)\((.*?)\);", text):
        if "bool" in m.group(2):
            found.add("1c", text, [line_of(text, m.start())], f"{name}: {m.group(1)}")


def of_function(add, fn, note, head, body, reasons):
    exported = 'extern "C"' in head
    ps = parameters(head)
    names = [p for p, _ in ps]
    if not exported and (re.search(r"_number$|^rows?$|_rows$|^read_pair$|^refused$", fn) or "own" in names) and "u8" in head:
        add("1b")
    if not exported and any(t.strip() == "bool" for p, t in ps):
        add("1c")
    if re.search(r"\bor 0\b|\belse 0\b|\b0 where\b|\b0 if\b|; 0\b|where there is none|or the table's end", note[-260:], re.I) or "1d" in reasons:
        add("1d")
    for _ in re.findall(r"\bwhile\b", body):
        add("3")
    for _ in re.findall(r"\bfor \w+ in \(?[\w.]*(?:\(\))?\.\.", body):
        add("3b")
    flat = re.sub(r"\s+", " ", body).strip()
    if re.search(r"≡ cond ", head) or re.fullmatch(r"\w+ as \w+", flat) or re.search(r"fn (same|below|min|max|saturating_sub|word|flag|within|"
                 r"between|is_negative|low_\w+|primitive_type_code|tag_of|id_of|offset_of)\b", head):
        add("4")
    for g in GROUPS:
        if set(g) <= set(names):
            add("5b", f" ({', '.join(g)})")
    if not exported and any("[" in t for _, t in ps) and any(re.fullmatch(PLACED, p) and t.strip() == "usize" for p, t in ps):
        add("6")
    if re.search(r"match (?:call|step|op|which)\b", body):
        add("7")


def conjuncts_of(head):
    for clause in re.findall(r"requires\s*(?:\w+\s*)?\{(.*?)\}\n", head, re.S):
        for c in clause.split("×"):
            c = re.sub(r"\.(old|now)", "", " ".join(c.split()).strip())
            while c.startswith("(") and c.endswith(")"):
                c = c[1:-1].strip()
            yield c


def places(root):
    found = Places()
    conjuncts, shapes = collections.defaultdict(list), collections.defaultdict(list)
    for path in sorted(root.glob("crates/*/src/**/*.rt")):
        text, name = path.read_text(encoding="utf-8"), str(path.relative_to(root / "crates")).replace("/src/", "/")
        of_types(found, text, name)
        for line, fn, note, head, body in functions(text):
            where = f"{name}:{line} {fn}"

            def add(point, more="", text=text, line=line, where=where):
                found.add(point, text, [line - 1], where + more)
            of_function(add, fn, note, head, body, kept(text, line - 1, head=False))
            shape, size = alike(head, body)
            if 8 <= size:
                shapes[shape].append(add)
            for c in conjuncts_of(head):
                conjuncts[c].append(add)
    for group in shapes.values():
        for add in group[1:]:
            add("2")
    for c, group in conjuncts.items():
        for add in group if 3 <= len(group) else []:
            add("5a", f" ({c})")
    return found.by_point


def main():
    p = argparse.ArgumentParser()
    p.add_argument("dir", nargs="?", default=".")
    p.add_argument("--point", default="")
    p.add_argument("--count", action="store_true")
    p.add_argument("--todo", action="store_true")
    p.add_argument("--kept", action="store_true")
    a = p.parse_args()
    root = pathlib.Path(a.dir)
    found = places(root)
    for point in sorted(found):
        listed = found[point]
        stay = sum(stays for _, stays in listed)
        if point.startswith(a.point):
            print(f"{point}: {len(listed)} listed, {stay} kept with a reason beside them, {len(listed) - stay} to do")
            shown = [w for w, stays in listed if not (a.todo and stays or a.kept and not stays)]
            if not a.count:
                print("".join(f"    {w}\n" for w in shown), end="")
    lines = sum(len(f.read_text(encoding="utf-8").splitlines()) for f in root.glob("crates/*/proofs/**/*.antt"))
    if "8".startswith(a.point):
        print(f"8: {lines} lines of proofs")


main()
