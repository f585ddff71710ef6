"""What the scripts of trials/ share: the lines of an edit, the text that it makes, and the place where the prover refuses that."""
import contextlib
import os
import re
import shutil
import tempfile

# `rt ci` and `rt must-fail` print a line for each edit, with the first of what the prover said, which they cut after 160 characters.
TRIED = re.compile(r'^rt: must-fail ([\w-]+)/([\w.-]+)\.edit: (.*)$')
# What only follows from another refusal, or says that a proof file names what the edit took away.
FOLLOWS = re.compile(r'so this cannot be checked|^(note: )?(\./)?proofs/.*(has no field|is not in scope|has no `|was not admitted)')


def lines(edit, key):
    with open(edit, encoding='utf-8') as f:
        return [l[len(key) + 2:].rstrip('\n') for l in f if l.startswith(key + ': ')]


def name_of(edit):
    """The crate and the label of an edit, crates/NAME/must-fail/LABEL.edit or trials/NAME/LABEL.edit."""
    return edit.split('/')[1], os.path.basename(edit)[:-len('.edit')]


def pairs(edit):
    """The changes of an edit: file, old line, new line."""
    file, old = '', ''
    with open(edit, encoding='utf-8') as f:
        for line in f:
            key, _, rest = line.rstrip('\n').partition(':')
            rest = rest[1:] if rest.startswith(' ') else rest
            if key == 'file':
                file = rest
            elif key == 'old':
                old = rest
            elif key == 'new':
                yield file, old, rest


def edited(edit):
    """The files of the crate that an edit changes, by their paths in it, as they then are; nothing where an old line does not stand there once."""
    crate, texts = name_of(edit)[0], {}
    for file, old, new in pairs(edit):
        if file not in texts:
            with open(f'crates/{crate}/{file}', encoding='utf-8') as f:
                texts[file] = f.read()
        if texts[file].count(old) != 1:
            return None
        texts[file] = texts[file].replace(old, new)
    return texts


@contextlib.contextmanager
def wrong_repository(edit):
    """A copy of the crates with the edit made, outside the checkout, where `rt ci` would meet it; nothing where it cannot be made."""
    texts = edited(edit)
    with tempfile.TemporaryDirectory(prefix='wrong-') as repo:
        shutil.copytree('crates', f'{repo}/crates', ignore=shutil.ignore_patterns('out', 'must-fail'))
        shutil.copy('crates.txt', repo)
        for file, text in (texts or {}).items():
            with open(f'{repo}/crates/{name_of(edit)[0]}/{file}', 'w', encoding='utf-8') as f:
                f.write(text)
        yield repo if texts else None


def function_at(crate, file, text, number):
    """The function whose code has the line of that number, with its module and type."""
    rows = text.split('\n')
    at = min(number, len(rows)) - 1
    while at + 1 < len(rows) and re.match(r'\s*(#|//)', rows[at]):
        at += 1
    name, owner = '?', []
    for row in rows[:at + 1]:
        found = re.match(r'(?:unsafe )?impl(?:<.*?>)? (.*?) ?(?:where .*)?\{?$', row)
        if found:
            owner = [re.sub(r'<.*', '', found[1].split(' for ')[-1]).strip()]
        elif re.match(r'\S', row) and not row.startswith('}'):
            owner = []
        found = re.match(r'\s*(?:pub(?:\([^)]*\))? )?(?:const |unsafe )*(?:extern "C" )?fn (\w+)', row)
        if found:
            name = found[1]
    module = [it for it in file[len('src/'):-len('.rt')].split('/') if it not in ('lib', 'main', 'mod')]
    return '::'.join([crate, *module, *owner, name])


def place(edit, said):
    """Where the prover refused an edit, by what it said first: the proof file, or that of specs/, and the answer or law in it, or the function of src/ and its goal."""
    found = re.match(r'(?:note: )?(?:\./)?((?:src|specs|proofs)/\S+?):(\d+):\d+: (.*)$', said)
    if not found:
        return None
    file, number, text = found[1], int(found[2]), found[3]
    if not file.startswith('src/'):
        name = re.match(r'(?:error: )?[^`]*`([^`]*)`', text)
        return f'{file} {name[1] if name else ""}'.strip()
    crate = name_of(edit)[0]
    source = (edited(edit) or {}).get(file)
    if source is None:
        with open(f'crates/{crate}/{file}', encoding='utf-8') as f:
            source = f.read()
    # a goal's name stands alone in brackets; where the line is cut in it, its beginning does
    goal = re.search(r'\(`([^`()]+)`\)', text)
    cut = re.search(r'\(`([^`()]*)$', text)
    if not goal and not cut and len(said) < 155:
        return None
    name = goal[1] if goal else cut[1] + '..' if cut else '..'
    return f'fn {function_at(crate, file, source, number)} {name}'


def same_place(one, other):
    """Whether two places are the same, of which one may be cut."""
    short = min(len(it) - 2 for it in (one, other) if it.endswith('..')) if one.endswith('..') or other.endswith('..') else None
    return one[:short] == other[:short]


def first_said(text):
    """The first refusal in all that a check printed, as `rt` tells it, and what stands indented below it."""
    rows = text.split('\n')
    told = [n for n, it in enumerate(rows) if re.match(r'(note: )?\S+:\d+:\d+:', it) and (': error' in it or it.startswith('note: ')) and not FOLLOWS.search(it)]
    if not told:
        return None, []
    below = []
    for it in rows[told[0] + 1:]:
        if not it.startswith('  '):
            break
        below.append(it)
    return rows[told[0]], below


def tried(log):
    """What a log of `rt ci` or `rt must-fail` says of each edit, by crate and label."""
    with open(log, encoding='utf-8', errors='replace') as f:
        found = [TRIED.match(it.rstrip('\n')) for it in f]
    return {(it[1], it[2]): it[3] for it in found if it}


def refusal(said):
    """The first words of the prover on an edit that it refused for what it says, or else nothing and why that is no such refusal."""
    found = re.match(r'refused, as it must be: (.*)$', said)
    if found and not FOLLOWS.search(found[1]):
        return found[1], None
    return None, said
