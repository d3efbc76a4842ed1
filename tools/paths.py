#!/usr/bin/env python3
"""Says which facts stand at each goal of a function, and how many steps back: how many `.before` lie between the goal's `c` and the fact.

    (cd crates/NAME && rt check --generated FOLDER --start MODULE::FUNCTION); python3 tools/paths.py FOLDER MODULE/FUNCTION

FOLDER is a new one, and a method is TYPE/FUNCTION. A line a goal: its name, the type of its `c`, then `DEPTH:FACTS`, from the last step back
to the start. `c.less` is the last fact of that name; one at depth 2 that a later step hides is `c.before.before.less`. Steps that say only what
kind of thing a value is are left out."""
import glob
import os
import re
import sys


def chain(path):
    """The records of the steps, each with its fields and their types, and each need's first step."""
    steps, needs, step = {}, {}, None
    lines = open(path, encoding='utf-8').read().split('\n')
    for i, line in enumerate(lines):
        if found := re.match(r'\s*pub record (\S+)', line):
            step = steps.setdefault(found[1], [])
        elif not line.strip():
            step = None
        elif step is not None and (found := re.match(r'\s*pub (\S+) : (\S+)', line)):
            step.append(found.groups())
        elif found := re.match(r'\s*(Need-\S+) =', line):
            first = re.search(r'\(c : (\S+)\)', ' '.join(lines[i:i + 3]))
            if first:
                needs[found[1]] = first[1]
    return steps, needs


def goals(path):
    """The goals as proofs name them, each with its need."""
    return re.findall(r'\bthe-fitted-(\S+) =\s+Lts\.(Need-\S+)', open(path, encoding='utf-8').read())


def main():
    if len(sys.argv) != 3:
        sys.exit(__doc__)
    folder, function = sys.argv[1:]
    paths = [path for path in glob.glob(f'{folder}/**/Lts.antt', recursive=True) if path.endswith(f'/{function}/Lts.antt')]
    if not paths:
        sys.exit(f'paths.py: no goals of {function} in {folder}: run `rt check --generated {folder} --start ..` in the crate first')
    steps, needs = chain(paths[0])
    for goal, need in goals(os.path.join(os.path.dirname(paths[0]), 'Goals.antt')):
        facts, depth, step = [], 0, needs.get(need)
        first = step or '-'
        while step in steps:
            told = [field for field, _ in steps[step] if field != 'before' and not re.search(r'(^|_)known\b', field)]
            if told:
                facts.append(f'{depth}:{",".join(told)}')
            step = next((kind for field, kind in steps[step] if field == 'before'), None)
            depth += 1
        print(goal, first, ' '.join(facts))


if __name__ == '__main__':
    main()
