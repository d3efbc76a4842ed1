"""Writes crates/test_replay/stdin: two sets of scripts with their answers, recoded so that the program `test_replay` needs no parser. Nothing is
computed here. In crates/test_replay/data are
- scripts.txt and the real Rust's answers to them, answers.txt, both made by tools/compare.py --sample; the dictionary's sorted mark is
  document 02's where a roll back was accepted before (A3);
- edges.txt, written by hand: each of document 01's numbers refused, and just not, some over a record or storage altered by pokes; and
  edges_answers.txt, the answers of a model of document 01, since the Rust has no such cases. --answers makes them again, by
  tools/model or that of another FOLDER, with the requests of document 02 in SET, else with those that have landed (landed.py).

    python3 tools/replay.py [ROOT] [--answers [--with SET] [--model FOLDER]]

All is hexadecimal; sizes are two bytes, highest first. The first line is the number of scripts. A script is a line of its uniqueness mark,
the number of its maker's refusal or 0, how many lines follow, the storage that it is lent (value, namebytes, names, entries, undo; `fill` is
not used) and its floor, of eight bytes; then a line for each call, poke and dump that has a builder, of three fields:
- the call (CALLS), its argument (the uniqueness mark, which scalar, the scale of packed decimal, or which poke), the refusal's number or 0, whether a name is
  given, the size of the output or the place of a poke, and the sizes of the next two fields;
- the name, the dictionary that a finish must give, or the six used counts that a dump must show (DUMPED), of eight bytes each;
- the scalar: the bytes of a text, a binary, a UUID or packed decimal, the numbers of a date, of eight bytes each, else an integer of 16 bytes and the scale; the
  mark that a return goes to, of eight bytes; the value that a finish or a dump (with argument 1) must give; or a poke's bytes, or its numbers of eight bytes each.
The place of a poke of mark K of container I is 16 * I + K - 1, and the pokes of a mark are in the order of its numbers in the table of marks."""
import argparse
import os
import subprocess
import sys

from landed import LANDED

CALLS = ['', 'register', 'list', 'object', 'close', 'rollback', 'unique', 'bytes', 'uuid', 'scalar', 'finish', 'poke', 'dump', 'civil', 'packed',
         'mark', 'return']
BYTES = ['binary', 'string', 'short', 'text']
SCALARS = ['null', 'true', 'false', 'int8', 'int16', 'int32', 'int64', 'float', 'double', 'date', 'time', 'tsmicros',
           'tsntzmicros', 'tsnanos', 'tsntznanos', 'dec4', 'dec8', 'dec16']
CIVIL = ['ymd', 'ymdts', 'ymdtsntz']
COUNTS = ['value_used', 'names_used', 'namebytes_used', 'entries_used', 'open']
DUMPED = [*COUNTS, 'undo_used']
POKES = [*COUNTS, 'unique', 'sorted', 'finished', 'container value', 'container names', 'container namebytes', 'container entries',
         'container kind', 'container unique', 'container entry new', 'container entry replaced', 'nameend', 'entry', 'value', 'namebytes', 'floor',
         'container count', 'undo_used', 'undo', 'container undo', 'container marks', 'mark value', 'mark names', 'mark namebytes', 'mark entries',
         'mark undo', 'mark count', 'mark unique']


def size(n):
    return n.to_bytes(2, 'big')


def octets(words):
    """HEX, COUNTxHEX or nothing."""
    count, _, digits = ''.join(words).rpartition('x')
    return bytes.fromhex(digits) * int(count or 1)


def settings(words):
    return dict(word.split('=', 1) for word in words)


def scalar(kind, words):
    """The call, its argument and its operand."""
    if kind == 'uuid':
        return 'uuid', 0, octets(words)
    if kind in BYTES:
        return 'bytes', BYTES.index(kind), octets(words)
    if kind in CIVIL:
        return 'civil', CIVIL.index(kind), b''.join(int(word).to_bytes(8, 'big', signed=True) for word in words)
    if kind == 'packed':
        return 'packed', int(words[0]), octets(words[1:])
    operand = b''
    if words:
        number = int(words[-1], 16 if kind in ('float', 'double') else 10)
        operand = number.to_bytes(16, 'big', signed=True) + bytes([int(words[0]) if kind.startswith('dec') else 0])
    return 'scalar', SCALARS.index(kind), operand


def numbers(words):
    return b''.join(int(word).to_bytes(8, 'big') for word in words)


def poke(words):
    """Which one, its place, and its numbers or bytes."""
    what, place = words.pop(0), 0
    if what not in (*POKES[:8], 'floor', 'undo_used'):
        place = int(words.pop(0))
    if what == 'mark':
        place = 16 * place + int(words.pop(0)) - 1
    if what in ('container', 'mark'):
        what += ' ' + words.pop(0)
    if what == 'container entry':
        what += ' ' + words.pop(0)
    if what == 'container kind':
        words = [words[0] == 'object']
    return POKES.index(what), place, octets(words) if what in ('value', 'namebytes') else numbers(words)


def refusal(answer):
    return int(answer.removeprefix('refused ')) if answer.startswith('refused') else 0


def call(line, answer):
    verb, *words = line.split()
    given, name, argument, operand, out = 0, b'', 0, b'', 0
    if words and words[0].startswith('name='):
        given, name = 1, octets([words.pop(0)[5:]])
    if verb == 'register':
        name = octets(words)
    elif verb == 'append':
        verb, argument, operand = scalar(words[0], words[1:])
    elif verb == 'open':
        verb = words[0]
    elif verb == 'unique':
        argument = int(words[0])
    elif verb == 'return':
        operand = numbers(words)
    elif verb == 'finish':
        out = int(settings(words)['out'])
    elif verb == 'poke':
        argument, out, operand = poke(words)
    if answer.startswith('ok value='):
        expected = settings(answer.split()[1:])
        name, operand = octets(expected['dict']), octets(expected['value'])
    elif answer.startswith('dump '):
        expected = settings(word for word in answer.split() if '=' in word)
        name = numbers(expected[count] for count in DUMPED)
        argument, operand = int('value' in expected), octets([expected.get('value', '')])
    head = bytes([CALLS.index(verb), argument, refusal(answer), given]) + size(out) + size(len(name)) + size(len(operand))
    return ','.join(field.hex() for field in (head, name, operand))


def start(line, answer, calls):
    s = settings(line.split()[1:])
    sizes = [calls] + [int(s[key]) for key in ('value', 'namebytes', 'names', 'entries')] + [int(s.get('undo', 64))]
    return (bytes([int(s['unique']), refusal(answer)]) + b''.join(map(size, sizes)) + numbers([s.get('floor', 1)])).hex()


def scripts(folder, asked, answered):
    """Each script's recoded lines."""
    lines = [line.split('#')[0].strip() for line in open(os.path.join(folder, 'data', asked))]
    answers = open(os.path.join(folder, 'data', answered)).read().splitlines()
    parts = []
    for line, answer in zip(filter(None, lines), answers, strict=True):
        if line.split()[0] == 'new':
            parts.append([(line, answer)])
        elif answer != 'no builder':
            parts[-1].append(call(line, answer))
    return [[start(*first, len(rest)), *rest] for first, *rest in parts]


def answer_edges(folder, model, requests):
    with open(os.path.join(folder, 'data', 'edges.txt')) as asked, open(os.path.join(folder, 'data', 'edges_answers.txt'), 'w') as out:
        words = ['--with', requests] if requests else []
        subprocess.run([sys.executable, os.path.join(model, 'model.py'), *words], stdin=asked, stdout=out, check=True)


def main():
    parser = argparse.ArgumentParser(description=__doc__, formatter_class=argparse.RawDescriptionHelpFormatter)
    parser.add_argument('root', nargs='?', default='.', metavar='ROOT')
    parser.add_argument('--answers', action='store_true')
    parser.add_argument('--model', default=os.path.join(os.path.dirname(os.path.abspath(__file__)), 'model'), metavar='FOLDER')
    parser.add_argument('--with', dest='requests', default=LANDED, metavar='SET')
    args = parser.parse_args()
    folder = os.path.join(args.root, 'crates', 'test_replay')
    if args.answers:
        answer_edges(folder, args.model, args.requests)
    both = scripts(folder, 'scripts.txt', 'answers.txt') + scripts(folder, 'edges.txt', 'edges_answers.txt')
    with open(os.path.join(folder, 'stdin'), 'w') as f:
        print(size(len(both)).hex(), *(line for lines in both for line in lines), sep='\n', file=f)


if __name__ == '__main__':
    main()
