#!/usr/bin/env python3
"""Spells the project's own definitions and lemmas in snake case: dashes and capitals within a name become underscores.

usage: tools/respell.py [--check] [FOLDER]

FOLDER (this checkout, if not said) has crates/. A name that specs/ or proofs/ declare, and that begins in lower case, turns everywhere in the
.antt files, in the clauses and `ghost use` lines of the .rt files, and in the code spans of comments. Names of functions in src/, and what the
check makes of them (proof files of single functions), keep theirs. Where a definition and a lemma would fall together, the lemma gets `_lem`;
tools/respelled.tsv lists all that turned. It was run once, after the kit's own script; a second run finds nothing to do.
"""
import collections
import os
import re
import sys

WORD = re.compile(r'[^\s(){}.;,@"«»`]+')
DECLARED = re.compile(r"(?m)^ *(?:(?:pub|unfoldable|abbrev|pattern) )*([^\s(){}.;,@\"«»]+)(?: \{[^{}\n]*\})* :(?= |$)")
SPAN = re.compile(r"`[^`\n]*`")
QUIET = re.compile(r'"(?:[^"\\\n]|\\.)*"|(?<![^\s(){}.;,@"«»])--[^\n]*')
CLAUSE = re.compile(r"(?:requires|ensures)\s*\*?\s*(?:\w+\s*)?\{|ghost\s*(?:\w+\s*(?::\s*(?:(?:owns|lends)\s*)?|=\s*))?\{")
GHOST_USE = re.compile(r"ghost\s+use\b[^;]*;")
COMMENT = re.compile(r"//[^\n]*")
RENAMED = re.compile(rf"(?<![^\s{{,])({WORD.pattern}) as ({WORD.pattern})")


def snake(name):
    """`widthAt` and `le-split` as `width_at` and `le_split`."""
    name = re.sub(r"(?<=[a-z0-9])[A-Z](?![A-Z0-9])", lambda m: "_" + m[0].lower(), name)
    name = re.sub(r"(?<=[a-z0-9])[A-Z]", lambda m: "_" + m[0].lower(), name)
    return name.replace("-", "_")


def aliases_of(text, table):
    """A file's own names for what it brings in, `append as appendOf`, where they have to turn."""
    names = {m[2] for m in RENAMED.finditer(QUIET.sub(" ", text)) if m[2][0].islower() and snake(m[2]) != m[2] and m[2] not in table}
    return {n: snake(n) for n in names}


USE = re.compile(r"\buse ([^\s;{]+?)\.?(?:\{([^}]*)\})?(?: as \S+)?;?(?=\s|$)")


def brought(text, crates):
    """The names that a file brings in from a library: they keep their spelling."""
    out = set()
    for path, items in USE.findall(text):
        steps = path.split(".")
        if not (steps[0] == "Rattle" and len(steps) > 1 and steps[1] in crates):
            out.update(WORD.findall(RENAMED.sub(lambda m: m[1], items)) if items else steps[-1:])
    return out


def files(top):
    for folder, folders, names in os.walk(os.path.join(top, "crates")):
        folders[:] = sorted(f for f in folders if f not in ("out", "must-fail", "data"))
        for name in sorted(names):
            if name.endswith((".antt", ".rt")):
                yield os.path.join(folder, name)


def read(path):
    with open(path, encoding="utf-8") as f:
        return f.read()


def of_function(path):
    return os.path.basename(path) in ("Proof.antt", "Answers.antt", "Invariants.antt") and f"{os.sep}proofs{os.sep}" in path


def table_of(texts):
    """Each own name that has to turn, with its new spelling."""
    declared = collections.defaultdict(set)
    for path, text in texts.items():
        if path.endswith(".antt") and not of_function(path):
            for name in DECLARED.findall(QUIET.sub(" ", text)):
                declared[name].add(path)
    names = {n for n in declared if n[0].islower()}
    table = {n: snake(n) for n in names if snake(n) != n}
    by = collections.defaultdict(set)
    for n in names:
        by[table.get(n, n)].add(n)
    for new, olds in by.items():
        # a definition, in camel case or spelled so already, has the plain name; the lemma gives way
        has_camel = any("-" not in old and old != new for old in olds)
        for old in sorted(olds):
            if len(olds) > 1 and ("-" in old or has_camel and old == new):
                table[old] = new + "_lem"
    return table


def closing(text, at):
    depth = 0
    for m in re.compile(QUIET.pattern + r"|[{}]").finditer(text, at):
        depth += (m[0] == "{") - (m[0] == "}")
        if depth < 0:
            return m.start()
    return None


def code(text, table):
    def one(m):
        return table.get(m[0], m[0])

    def pair(m):
        a, b = (table.get(x, x) for x in m.groups())
        return a if a == b else m[0]

    return WORD.sub(one, RENAMED.sub(pair, text))


def antt(text, table):
    out, at = [], 0
    for m in QUIET.finditer(text):
        out.append(code(text[at : m.start()], table))
        out.append(m[0] if m[0][0] == '"' else SPAN.sub(lambda s: code(s[0], table), m[0]))
        at = m.end()
    return "".join(out) + code(text[at:], table)


def proof(text, table):
    """A function's proof file: what stands behind a dot is made by the check, but for the project's modules."""
    def one(m):
        behind = text_of[0][m.start() - 1 : m.start()] == "."
        return m[0] if behind else table.get(m[0], m[0])

    out = []
    for line in text.split("\n"):
        if line.startswith("use "):
            out.append(antt(line, table))
            continue
        text_of[0] = line
        out.append(WORD.sub(one, line))
    return "\n".join(out)


text_of = [""]


def rt(text, table):
    # a parameter would hide a definition of its name: there the definition comes in as NAME_of
    rust = COMMENT.sub(" ", GHOST_USE.sub(" ", text))
    hidden = {a: b for a, b in table.items() if re.search(rf"[(,]\s*(?:mut )?{re.escape(b)}\s*:\s*[&\w\[(]", rust)}
    named = {a: b + "_of" for a, b in hidden.items()}
    inner = {**table, **named}
    spots = [(m.start(), m.end()) for m in GHOST_USE.finditer(text)]
    for m in CLAUSE.finditer(text):
        end = closing(text, m.end())
        if end:
            spots.append((m.end(), end))
    for m in COMMENT.finditer(text):
        spots += [(m.start() + s.start(), m.start() + s.end()) for s in SPAN.finditer(m[0])]
    out, at = [], 0
    for a, b in sorted(spots):
        if a < at:
            continue
        part = text[a:b]
        if GHOST_USE.match(part):
            for old in named:
                part = re.sub(rf"(?<![^\s{{,])({re.escape(old)})(?=[,}}])", lambda m: f"{m[1]} as {named[m[1]]}", part)
            part = code(part, table)
        else:
            part = code(part, inner)
        out += [text[at:a], part]
        at = b
    return "".join(out) + text[at:]


def main():
    args = [a for a in sys.argv[1:] if a != "--check"]
    check = "--check" in sys.argv
    top = args[0] if args else os.path.join(os.path.dirname(os.path.realpath(__file__)), "..")
    texts = {p: read(p) for p in files(top)}
    crates = set(os.listdir(os.path.join(top, "crates")))
    table = table_of(texts)
    changed = 0
    for path, text in texts.items():
        theirs = brought(text, crates)
        own = {a: b for a, b in {**table, **aliases_of(text, table)}.items() if a not in theirs}
        new = rt(text, own) if path.endswith(".rt") else proof(text, own) if of_function(path) else antt(text, own)
        if new != text:
            changed += 1
            had, has = set(WORD.findall(QUIET.sub(" ", text))), {table[w] for w in WORD.findall(QUIET.sub(" ", text)) if w in table}
            for both in sorted(had & has):
                print(f"look: {os.path.relpath(path, top)}: {both} stood there already")
            if not check:
                with open(path, "w", encoding="utf-8") as f:
                    f.write(new)
    if not check and table:
        with open(os.path.join(top, "tools", "respelled.tsv"), "w", encoding="utf-8") as f:
            f.writelines(f"{a}\t{b}\n" for a, b in sorted(table.items()))
    print(f"{len(table)} names, {changed} files")


if __name__ == "__main__":
    main()
