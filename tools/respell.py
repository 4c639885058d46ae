#!/usr/bin/env python3
"""Brings the repository's own names to the spelling of today's Rattle, once, after port.py.

Functions, lemmas, fields, constructors and variables of specs/ and proofs/, and the clauses that cite them, are in
snake case: `decodeBook` is `decode_book`, `length-beDigits` is `length-be_digits`. A dash still joins two names in a
lemma; in a definition of specs/ it is an underscore, and the proof of a function `f` is `f_spec`. Types and modules
keep their capitals, and no function of src/ has a capital in its name. Prints the names that fall together.
"""
import glob
import os
import re
import sys

TOKEN = re.compile(r"[^\s(){}\[\],;.:«»\"`@λ⟨⟩]+")
KIT = {'uint_Tells', 'uint_Makes', 'uint_Lawful', 'shr_slice_Tells', 'walk_Meets', 'mut_slice_Tells', 'mut_Tells'}
# what port.py left in the middle of a name
PARTS = {'getD': 'get_or'}
# two names that would fall together in one scope, and a name that is a tactic's today
APART = {'pastLimit': 'is_past_limit', 'belowSize': 'is_below_size', 'countDisagrees': 'is_count_off', 'first_of': 'first_case'}
# lemmas that would have their function's name, in the files that know them
LEMMAS = {
    'crates/history/proofs/ExtentsFromPlaces.antt': {'place_at': 'place_at-each'},
    'crates/read_many/proofs/PieceLaws.antt': {'read_number': 'read_number_lem'},
    'crates/volume/proofs/ReadManyLaws.antt': {'read_number': 'read_number_lem'},
    'crates/worked/proofs/NewBlocks.antt': {'too_few': 'too_few_lem'},
}


def files():
    for pattern in ('crates/*/specs/**/*.antt', 'crates/*/proofs/**/*.antt', 'crates/*/src/**/*.rt'):
        yield from sorted(glob.glob(pattern, recursive=True))


def snake_part(part):
    if part in PARTS:
        return PARTS[part]
    if not re.match(r'[a-z]', part) or not re.search(r'[A-Zℕ]', part):
        return part
    part = re.sub(r'(?<=[a-z0-9ℕ])(?=[A-Zℕ])', '_', part)
    return part.lower().replace('__', '_')


def snake(name):
    if name in KIT or not re.match(r'[a-z]', name):
        return name
    return '-'.join(snake_part(p) for p in name.split('-'))


def code_of(line, rust):
    """The line without its comment, and the comment."""
    m = re.search(r'//' if rust else r'(^|(?<=\s))--(?=\s|$)', line)
    return (line[:m.start()], line[m.start():]) if m else (line, '')


def declared_with_dash():
    """Names with a dash that specs/ declares: functions, fields and constructors."""
    names = set()
    for path in glob.glob('crates/*/specs/**/*.antt', recursive=True):
        for line in open(path, encoding='utf-8'):
            m = re.match(r'\s*(?:(?:unfoldable|abbrev|pub|data|record)\s+)*([a-z][^\s(){}:]*-[^\s(){}:]*)((?:\s+[a-z][^\s(){}:]*)*)\s*[:({]', line)
            if m:
                names.add(m.group(1))
                names.update(n for n in m.group(2).split() if '-' in n)
    return names


def table():
    names = set()
    for path in files():
        rust = path.endswith('.rt')
        for line in open(path, encoding='utf-8'):
            names.update(TOKEN.findall(code_of(line, rust)[0]))
    dashed = declared_with_dash()
    specs = {}
    for path in glob.glob('crates/*/proofs/**/Proof.antt', recursive=True):
        folder = os.path.dirname(path)
        name = os.path.basename(folder)
        old = name.replace('_', '-') + '-spec'
        if old in open(path, encoding='utf-8').read():
            specs[old] = name + '_spec'
    renamed = {}
    for name in names:
        if name in APART:
            new = APART[name]
        elif name in specs:
            new = specs[name]
        elif name in dashed:
            new = snake(name).replace('-', '_')
        else:
            new = snake(name)
        if new != name:
            renamed[name] = new
    targets = {}
    for name, new in sorted(renamed.items()):
        targets.setdefault(new, []).append(name)
    for new, olds in sorted(targets.items()):
        if len(olds) > 1 or new in names:
            print('together:', new, '<-', ', '.join(olds), '(and a name of that spelling)' if new in names else '')
    return renamed


def respell(text, rust, renamed):
    out = []
    for line in text.split('\n'):
        code, comment = code_of(line, rust)
        code = TOKEN.sub(lambda m: renamed.get(m.group(0), m.group(0)), code)
        comment = re.sub(r'`([^`]+)`', lambda m: '`' + TOKEN.sub(lambda t: renamed.get(t.group(0), t.group(0)), m.group(1)) + '`', comment)
        out.append(code + comment)
    return '\n'.join(out)


def choice(text, path):
    """The rules' own `if◌then◌else◌` under a name that the library does not have: `pick b then x else y`."""
    rust = path.endswith('.rt')
    out = []
    for line in text.split('\n'):
        code, comment = (line, '') if path.endswith('.edit') else code_of(line, rust)
        code = code.replace('if◌then◌else◌', 'pick◌then◌else◌')
        if path.endswith('.antt') or re.search(r'(?<![\w\-])then(?![\w\-])', code):
            code = re.sub(r"(?<![\w'\-.◌])if(?![\w'\-◌])", 'pick', code)
        out.append(code + comment.replace('if◌then◌else◌', 'pick◌then◌else◌'))
    return '\n'.join(out)


def choices():
    for path in list(files()) + sorted(glob.glob('crates/*/must-fail/*.edit')):
        old = open(path, encoding='utf-8').read()
        new = choice(old, path)
        if new != old:
            open(path, 'w', encoding='utf-8').write(new)


def main():
    os.chdir(os.path.join(os.path.dirname(os.path.abspath(__file__)), '..'))
    if len(sys.argv) > 1:
        os.chdir(sys.argv[1])
    renamed = table()
    for path in files():
        old = open(path, encoding='utf-8').read()
        new = respell(old, path.endswith('.rt'), {**renamed, **LEMMAS.get(path, {})})
        if new != old:
            open(path, 'w', encoding='utf-8').write(new)
    # edits: the texts of their lines; the map of the reader: the names in backquotes
    for path in sorted(glob.glob('crates/*/must-fail/*.edit')):
        old = open(path, encoding='utf-8').read()
        new = '\n'.join(
            line if line.startswith('file:') else TOKEN.sub(lambda m: renamed.get(m.group(0), m.group(0)), line)
            for line in old.split('\n'))
        if new != old:
            open(path, 'w', encoding='utf-8').write(new)
    for path in ['README.md'] + sorted(glob.glob('docs/**/*.md', recursive=True)):
        old = open(path, encoding='utf-8').read()
        new = re.sub(r'`([^`\n]+)`', lambda m: '`' + TOKEN.sub(lambda t: renamed.get(t.group(0), t.group(0)), m.group(1)) + '`', old)
        if new != old:
            open(path, 'w', encoding='utf-8').write(new)
    choices()
    print(f'{len(renamed)} names respelled')


if __name__ == '__main__':
    main()
