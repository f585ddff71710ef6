#!/usr/bin/env python3
"""Respells the repository's own names as today's Rattle has them: words in snake case, and a dash only between two names. Run once, at the top, after port.py.

It takes the names that crates/*/specs/*.antt and crates/*/proofs/*.antt declare, and turns them in these files, in the clauses of src/, in the proofs of
functions, in must-fail/ and trials/, and in the pages where they stand in backquotes. A name that a file imports from elsewhere stays in that file.
--names prints the table and what falls together, and changes nothing."""
import glob
import re
import sys

OWN = ['bits', 'conversion', 'detector', 'models', 'host', 'table', 'frames', 'log', 'framelog', 'replay']
DECLARED = re.compile(r"^\s*(?:(?:abbrev|unfoldable|pub|data|record|mutual) )*([^\s(){}.;,@\"«»:]+)(?: (?:\{[^{}\n]*\}|\([^()\n]*\)))* : ", re.M)
DEFINED = re.compile(r"^(?:abbrev|unfoldable) (?:pub )?([^\s(){}.;,@\"«»:]+)", re.M)
USE = re.compile(r'^(?:pub |ghost )*use ([^\s;{]+)\.\{([^}]*)\}', re.M)
WORD = re.compile(r'[^\s(){}.;,@"«»`]+')
# Library words that stand as one of the two names that a dash joins.
LIBRARY = 'length map take drop set append replicate sum get_or reverse cond min pow'.split()

# Where the rule makes two names one, or the new name is the library's.
CHOSEN = {
    'anomaly-count': 'anomaly_count_lem',
    'at-end': 'at_end_lem',
    'drop-first-cut': 'drop_first_cut',
    'first-sample': 'first_sample_lem',
    'insert-behind': 'insert_behind_lem',
    'is-nan': 'is_nan_lem',
    'isMultiplexor': 'multiplexor_named',
    'mark-before': 'mark_before_lem',
    'no-turn-left': 'no_turn_left',
    'reason-number': 'reason_number_lem',
    'refused-by': 'refused_by_lem',
    'run-live-finite': 'run_live_finite',
    'sound-of': 'sound_of_lem',
}
# Lemmas that port.py respelled and that would meet a definition, by the crate that has them.
FIRST = {
    'log': {'no_room': 'no_room_lem'},
    'frames': {'no_value': 'no_value_lem', 'row_from': 'row_from_lem'},
}
ENDS = 'crates/log/proofs/Ends.antt', {'goes_on': 'goes_on_lem'}


def read(path):
    with open(path, encoding='utf-8') as f:
        return f.read()


def snake(name):
    name = re.sub(r'\bgetD(?=-)', 'get_or', name)
    return re.sub(r'(?<=[a-z0-9])[A-Z]', lambda m: '_' + m[0].lower(), name)


def respelled(name, heads):
    parts = [snake(p) for p in name.split('-')]
    out = parts[0]
    for before, part in zip(parts, parts[1:]):
        out += ('-' if before in heads and part in heads else '_') + part
    return out


def sources():
    return sorted(glob.glob('crates/*/specs/*.antt') + glob.glob('crates/*/proofs/*.antt'))


def write(path, text):
    if text != read(path):
        with open(path, 'w', encoding='utf-8') as f:
            f.write(text)


def table():
    declared, heads = set(), set(LIBRARY)
    for path in sources():
        text = read(path)
        declared |= set(DECLARED.findall(text))
        if '/specs/' in path:
            heads |= {snake(n) for n in DEFINED.findall(text)}
    new = {}
    for name in sorted(declared):
        if name[0].isupper() or not re.fullmatch(r"[\w'₀-₉-]+", name) or name[0] == '-':
            continue
        to = CHOSEN.get(name) or respelled(name, heads)
        if to != name:
            new[name] = to
    return new, declared


def foreign(text):
    """The names that a file imports from outside the repository."""
    names = set()
    for module, items in USE.findall(text):
        if not (module.startswith('Rattle.') and module.split('.')[1] in OWN):
            names |= {i.strip().split(' as ')[-1].strip() for i in items.split(',')}
    return names


def turned(text, new, clear=()):
    def word(m):
        before = text[max(0, m.start() - 5):m.start()]
        if before.endswith(('tie.', 'goal.')):
            return m[0]
        return new.get(m[0], m[0]) if m[0] not in clear else m[0]
    return WORD.sub(word, text)


def in_backquotes(text, new):
    return re.sub(r'`[^`\n]+`', lambda m: turned(m[0], new), text)


def main():
    new, declared = table()
    if '--names' in sys.argv:
        for old, to in sorted(new.items()):
            print(old, to, 'MEETS' if to in declared else '')
        return
    for crate, names in FIRST.items():
        for path in glob.glob(f'crates/{crate}/proofs/**/*.antt', recursive=True):
            write(path, turned(read(path), names))
    write(ENDS[0], turned(read(ENDS[0]), ENDS[1]))
    camel = {o: n for o, n in new.items() if '-' not in o}
    edits = glob.glob('crates/*/must-fail/*.edit') + glob.glob('trials/*/*.edit')
    for path in glob.glob('crates/**/*.antt', recursive=True) + edits:
        text = read(path)
        now = turned(text, new, foreign(text))
        write(path, now)
    for path in glob.glob('crates/*/src/*.rt'):
        text = read(path)
        now = turned(text, camel, foreign(text))
        write(path, now)
    for path in ['README.md', 'CONTRIBUTING.md'] + glob.glob('docs/*.md'):
        text = read(path)
        now = in_backquotes(text, new)
        write(path, now)


main()
