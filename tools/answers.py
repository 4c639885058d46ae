#!/usr/bin/env python3
"""Turns a crate's proofs of the older form, Proof.antt, into Invariants.antt and Answers.antt.

    tools/answers.py CRATE [FUNCTION..]

Run at the top of the repository, once a crate, when the crates below it are proved and its own source checks. The
names come from `rt check --generated DIR --old-names`. An answer that was only the search is left out, as the check
tries the search itself; one that cannot be turned keeps a line `-- LEFT`.
What a reader has to look at is printed.
"""
import glob
import json
import os
import re
import subprocess
import sys
import tempfile

NAME = r"[^\s(){}\[\],;.:«»\"`@λ=]+"


def norm(name):
    name = name.replace('_', '-').lower()
    name = re.sub(r'^overflow-', '', name)
    name = re.sub(r'^slice-bounds-', 'part-', name)
    return name


def old_names(crate):
    folder = tempfile.mkdtemp()
    out = subprocess.run(['rt', 'check', '--generated', folder, '--old-names'], cwd=f'crates/{crate}',
                         capture_output=True, text=True)
    path = f'{folder}/names.json'
    if not os.path.exists(path):
        sys.exit('no names: ' + (out.stdout + out.stderr)[-300:])
    return json.load(open(path, encoding='utf-8'))


def clauses_of(callee, kind):
    """The names of a function's clauses of a kind, where it has two or more."""
    parts = callee.split('::')
    for path in sorted(glob.glob(f'crates/{parts[0]}/src/**/*.rt', recursive=True)):
        text = open(path, encoding='utf-8').read()
        m = re.search(r'^\s*(?:pub )?(?:extern "C" )?fn ' + parts[-1] + r'\b', text, re.M)
        if m:
            head = re.split(r'^\s*\{\s*$', text[m.end():], maxsplit=1, flags=re.M)[0]
            names = re.findall(r'^\s*' + kind + r' (\w+) \{', head, re.M)
            return names if len(names) > 1 else []
    return []


def pairs(items):
    """Nested pairs, the last not paired."""
    return items[0] if len(items) == 1 else f'({items[0]}, {pairs(items[1:])})'


def split_tuple(text):
    """The parts of a tuple in its parentheses, or None."""
    text = text.strip()
    if not text.startswith('('):
        return None
    depth, parts, start = 0, [], 1
    for i, ch in enumerate(text):
        if ch in '([{':
            depth += 1
        elif ch in ')]}':
            depth -= 1
            if depth == 0:
                if i != len(text) - 1:
                    return None
                parts.append(text[start:i])
        elif ch == ',' and depth == 1:
            parts.append(text[start:i])
            start = i + 1
    parts = [p.strip() for p in parts]
    if not parts[-1]:
        parts.pop()
    return parts if len(parts) > 1 else None


def lets(body):
    """The lets before an expression, and it."""
    rest, head = body, ''
    while re.match(r'\s*let\b', rest):
        depth, i, opened = 0, 0, 0
        for m in re.finditer(r'[(\[{]|[)\]}]|(?<![\w\'\-.])(?:let|in)(?![\w\'\-])', rest):
            t = m.group(0)
            if t in '([{':
                depth += 1
            elif t in ')]}':
                depth -= 1
            elif t == 'let':
                opened += 1
            elif t == 'in':
                opened -= 1
                if depth == 0 and opened == 0:
                    i = m.end()
                    break
        if not i:
            break
        head, rest = head + rest[:i], rest[i:]
    return head, rest


def as_record(body, names):
    """An answer of nested pairs as a record of clauses; None where it is not of that shape."""
    head, rest = lets(body)
    found = []
    for k, name in enumerate(names):
        if k == len(names) - 1:
            found.append((name, rest.strip()))
            break
        parts = split_tuple(rest)
        if parts is None:
            e = rest.strip()
            if re.match(r'(search|omega|grind|elim|rw|simp|λ|cc)\b', e):
                return None
            e = e if re.match(r'^[\w.\'\-]+$', e) else f'({e})'
            for j in range(k, len(names)):
                tail = '.1' * (j - k) + ('.0' if j < len(names) - 1 else '')
                found.append((names[j], e + tail))
            break
        found.append((name, parts[0]))
        rest = parts[1] if len(parts) == 2 else '(' + ', '.join(parts[1:]) + ')'
    fields = '; '.join(f'{n} = {e}' for n, e in found)
    space = re.match(r'\s*', lets(body)[1]).group(0) if head else ''
    return head + space + f'record {{ {fields} }}'


class Function:
    def __init__(self, crate, folder, entry):
        self.crate, self.folder, self.entry = crate, folder, entry
        self.goals = {}
        self.left = []
        self.more = set()
        self.whole = []
        self.parent = {p[0]: p[1] for p in entry['places']}
        self.step = {p[0]: p[2] for p in entry['places']}
        self.index = {p[0]: i for i, p in enumerate(entry['places'])}
        for (old, new), (at, _) in zip(entry['needs'], entry['asked_at']):
            self.goals.setdefault(norm(old), (new, at))
        self.settled = {norm(s) for s in entry['settled']}
        self.loops = {norm(l[0][0]): (l, ch) for l, ch in zip(entry['loops'], entry['changed'])}

    def say(self, text):
        self.left.append(text)

    # ---- paths

    def above(self, place):
        """A place and those before it."""
        out = []
        while place is not None:
            out.append(place)
            place = self.parent[place]
        return out

    def nested(self, rest, fields):
        """`.1.1.0.x` over n clauses, the last not paired, as `.name.x`."""
        n = len(fields)
        i = 0
        while i < n - 1 and rest and rest[0] == '1':
            rest = rest[1:]
            i += 1
        if i < n - 1:
            if not rest or rest[0] != '0':
                return None
            rest = rest[1:]
        return [fields[i]] + rest

    def path(self, at, fields):
        """What stands behind `c` in an answer asked at `at`."""
        place = at
        while fields and fields[0] == 'before':
            place = self.parent.get(place) if place else None
            fields = fields[1:]
        if not fields:
            return None, place
        head, rest = fields[0], fields[1:]
        if head in ('args', 'ranges', 'well_formed', 'well-formed'):
            head = head.replace('-', '_')
            return [head] + rest, place
        if head in ('requires', 'pre'):
            pre = self.entry['pre']
            if pre and len(pre['fields']) > 1:
                if not rest:
                    return ['requires'], place
                if rest[0] in pre['fields']:
                    return ['requires'] + rest, place
                got = self.nested(rest, pre['fields'])
                if got is None:
                    self.say('requires: ' + '.'.join(rest))
                    return ['requires'] + rest, place
                return ['requires'] + got, place
            return ['requires'] + rest, place
        # what an arm binds, and that the value is its variant
        for q in self.above(place) + self.above(at):
            arm = self.entry['arms'][self.index[q]]
            for field, step, old in (arm[2] if arm else []):
                if old and norm(step) == norm(head) and rest[:len(old)] == old:
                    return [arm[0], field] + rest[len(old):], place
        # the step of this place, or of one above it
        p = next((q for q in self.above(place) + self.above(at) + list(self.step) if norm(self.step[q][0]) == norm(head)), None)
        if p is None and head.endswith(('_lem', '-lem')):
            return self.path(place, [head[:-4]] + rest)
        if p is None:
            self.say('no step ' + head)
            return [head] + rest, place
        new = self.step[p][1]
        i = self.index[p]
        if rest[:1] == ['given']:
            variables = [v for v, s in sum(self.entry['typed'], []) if norm(s) == norm(head)]
            if variables:
                return ['type_inv', variables[0]] + rest[1:], place
            if re.match(r'(shared-)?slice-known', norm(head)):
                self.say('type of ' + head)
        if rest[:1] == ['ensures']:
            clauses = self.entry['clauses'][i]
            if clauses and isinstance(clauses, dict) and len(clauses.get('fields', [])) > 1:
                if len(rest) == 1:
                    self.whole = clauses['fields']
                elif rest[1] in clauses['fields']:
                    pass
                else:
                    got = self.nested(rest[1:], clauses['fields'])
                    if got is None:
                        self.say(f'ensures of {new}: {clauses["fields"]}')
                    else:
                        rest = ['ensures'] + got
            elif clauses and isinstance(clauses, dict) and len(clauses.get('fields', [])) == 1:
                rest = ['ensures', clauses['fields'][0]] + rest[1:]
            elif clauses:
                self.say(f'clauses of {new}: {json.dumps(clauses)[:200]}')
        if rest[:1] == ['type-inv']:
            rest = ['type_inv'] + rest[1:]
        if rest[:1] in (['auto'], ['new']) and rest[1:] and rest[1] in '01':
            # by the place of the parameter: `.1.1.0` is the third
            params = self.entry['params'].get(self.entry['places'][i][3] or '', [])
            k = 1
            while k < len(rest) and rest[k] == '1':
                k += 1
            if k < len(rest) and rest[k] == '0' and k - 1 < len(params):
                return [new, rest[0], params[k - 1]] + rest[k + 1:], place
        if rest[:1] in (['auto'], ['new']) and rest[1:2] and rest[1][0] in '01':
            self.say(f'{new}.{".".join(rest)}')
        return [new] + rest, place

    def paths(self, body, at):
        # that each number of a slice fits its type: the search finds it
        known = r"λ k\. \(c(?:\.[\w'\-]+)*\.(?:shared-|shared_)?slice[-_]known[\w\-]*\.given k\)\.fits"
        body = re.sub(r", c(?:\.[\w'\-]+)*\.(?:known|enum)[-_]told[\w\-]*\.given(?=\))", '', body)
        body = body.replace('omega (arith)', 'omega arith')
        body = re.sub(r'\(' + known + r'\)', '(search rules)', body)
        body = re.sub(known, 'search rules', body)
        body = re.sub(r"\(c(?:\.[\w'\-]+)*\.(?:shared-|shared_)?slice[-_]known[\w\-]*\.given c[\w.\-']+\)\.fits", 'XX', body)
        body = body.replace('(XX)', 'XX').replace('XX', '(search rules)')
        # a name for the requires or for what a call ensures, or for what lies behind its first clauses
        pre = self.entry['pre']
        fields_ = pre['fields'] if pre else []
        for m in list(re.finditer(r"let ([\w']+) = (c(?:\.before)*(?:\.[\w'\-]+)?)\.(requires|ensures)((?:\.1)*) in", body)):
            v, stem, kind, tail = m.groups()
            whole_fields = fields_
            if kind == 'ensures':
                self.whole = []
                self.path(at, stem.split('.')[1:] + ['ensures'])
                whole_fields = self.whole
            k = tail.count('1')
            if len(whole_fields) < 2 or k > len(whole_fields) - 1:
                continue
            here = whole_fields[k:]
            stem = 'c' if kind == 'requires' else stem
            if len(here) == 1:
                body = body.replace(m.group(0), f'let {v} = {stem}.{kind}.{here[0]} in')
                continue
            body = body.replace(m.group(0), f'let {v} = {stem}.{kind} in')
            at_ = body.index(f'let {v} = {stem}.{kind} in') + len(f'let {v} = {stem}.{kind} in')

            def two(t, v=v, here=here):
                if not t.group(1):
                    return pairs([f'{v}.{f}' for f in here])
                rest = t.group(1).split('.')[1:]
                got = self.nested(rest, here)
                if got is None:
                    if set(rest) == {'1'} and len(rest) < len(here):
                        left = here[len(rest):]
                        return pairs([f'{v}.{f}' for f in left])
                    self.say(f'{kind} as ' + v + t.group(1))
                    return t.group(0)
                return v + ''.join('.' + f for f in got)
            body = body[:at_] + re.sub(r"(?<![\w'\-.])" + re.escape(v) + r"((?:\.[\w'\-₀-₉]+)*)(?![\w'\-])(?! = c\b)", two, body[at_:])

        def whole(m):
            k = m.group(2).count('1')
            here = fields_[k:]
            if len(fields_) < 2 or len(here) < 2:
                return m.group(0)
            return pairs([f'c.requires.{f}' for f in here])
        body = re.sub(r"(?<!= )(?<![\w'\-.])c((?:\.before)*)\.requires((?:\.1)*)(?![\w.'\-])", whole, body)

        def one(m):
            self.whole = []
            fields = m.group(2).split('.')[1:]
            got, _ = self.path(at, fields)
            if got is None:
                return m.group(1)
            if got[-1] == 'ensures' and self.whole and not re.search(r'let [\w\']+ = $', m.string[:m.start()]):
                here, self.whole = self.whole, []
                return pairs(['.'.join([m.group(1)] + got + [f]) for f in here])
            text = m.group(1) + ''.join('.' + f for f in got)
            callees = {c.split('::')[-1] for c in self.entry['params']}
            if got[0].startswith('if-not-') and got[0].split('-')[2] in callees and got[1:] in (['true'], ['false']):
                # today's fact speaks of the value itself
                self.more.update({'use mathlib.Core.Path.{ap}', 'use mathlib.Core.Bool.{not}'})
                return f'(ap not {text})'
            return text
        body = re.sub(r"(?<![\w'\-.])(c)((?:\.[\w'\-₀-₉]+)+)", one, body)
        return body

    # ---- invariants

    def invariant(self, block):
        """The block of an invariant or a measure, or None."""
        head = block[0]
        m = re.match(r'abbrev (invariant|decreases)-(' + NAME + r') : tie\.\S+', head)
        kind, loop = m.group(1), m.group(2)
        if norm(loop) not in self.loops:
            self.say(f'no loop {loop}')
            return '\n'.join(block)
        (names, locals_), changed = self.loops[norm(loop)]
        new = names[1]
        text = '\n'.join(block[1:])
        m = re.match(r'\S+((?:\s+' + NAME + r')*)\s*=\s*', text)
        args = m.group(1).split()
        body = text[m.end():]
        want = len(locals_) + sum(changed)
        if len(args) != want:
            self.say(f'invariant {loop}: {len(args)} names for {locals_} {changed}')
            return '\n'.join(block)
        mapping = {}
        for a, local, ch in zip(args, locals_, changed):
            mapping[a] = 'l.initial.' + local if ch else 'l.' + local
        rest = args[len(locals_):]
        for a, local in zip(rest, [n for n, ch in zip(locals_, changed) if ch]):
            mapping[a] = 'l.' + local
        for m in re.finditer(r'λ ([^.]*)\.', body):
            for b in re.findall(NAME, m.group(1)):
                if b in mapping:
                    self.say(f'invariant {loop}: λ {b}')
        for b in re.findall(r'let (' + NAME + r') ', body):
            if b in mapping:
                self.say(f'invariant {loop}: let {b}')
        body = re.sub(r"(?<![\w'\-.₀])(" + NAME + r")", lambda m: mapping.get(m.group(1), m.group(1)), body)
        sep = '\n    ' if '\n' in text[:len(text) - len(body)] or '\n' in body or len(body) > 90 else ' '
        return f'abbrev pub {kind}-{new} : goal.{kind}-{new}\n{kind}-{new} l ={sep}{body.strip()}'

    # ---- the file

    def turn(self):
        path = f'{self.folder}/Proof.antt'
        text = open(path, encoding='utf-8').read()
        lines = text.rstrip('\n').split('\n')
        head, blocks, uses = [], [], []
        i = 0
        while i < len(lines) and (lines[i].startswith('--') or not lines[i].strip()):
            head.append(lines[i])
            i += 1
        body = lines[i:]
        # blocks: a declaration with its comments
        cur, pending = None, []
        for line in body:
            if line.startswith('use ') or line.startswith('pub use '):
                uses.append(line)
                continue
            if re.match(r'-- src/\S+:\d+:\d+$', line):
                continue
            if not line.strip():
                if cur is not None:
                    cur.append('')
                continue
            if line.startswith('--'):
                pending.append(line)
                continue
            m = re.match(r'(?:abbrev |unfoldable |pub |pub abbrev |abbrev pub )*(' + NAME + r')\s*(?:\{ℓ[^}]*\} )?:(?:\s|$)', line)
            starts = m or re.match(r'(module|data|record|pub data|pub record|open)\b', line)
            if starts:
                cur = pending + [line]
                pending = []
                blocks.append(cur)
            else:
                if cur is None:
                    cur = []
                    blocks.append(cur)
                cur.extend(pending)
                pending = []
                cur.append(line)
        spec = os.path.basename(self.folder) + '_spec'
        names = {}      # old answer name -> goal
        invs, answers = [], []
        for block in blocks:
            while block and not block[-1].strip():
                block.pop()
            k = next(j for j, l in enumerate(block) if not l.startswith('--'))
            comments, code = block[:k], block[k:]
            sig = code[0]
            if re.match(r'pub \S+ : \{M : Type 1\} → statement', sig) or sig.startswith('pub ' + spec):
                continue
            m = re.match(r'abbrev (invariant|decreases)-', sig)
            if m and 'tie.' in sig:
                invs.append('\n'.join(comments + [self.invariant(code)]))
                continue
            m = re.match(r'(' + NAME + r') : tie\.Need-(' + NAME + r')(.*)$', sig)
            if not m:
                answers.append('\n'.join(comments + code))
                if 'tie.' in '\n'.join(code) or 'lts.' in '\n'.join(code):
                    self.say('a lemma that names tie: ' + sig[:80])
                continue
            old, need = m.group(1), norm(m.group(2))
            alias = {'loop-holds': 'loop-init', 'loop-again': 'loop-preserved', 'loop-less': 'loop-smaller'}
            need = alias.get(need, need)
            text = '\n'.join(code[1:])
            m = re.match(r'((?:unfolding [^\n]*\n)?)(' + re.escape(old) + r')((?:\s+' + NAME + r')*)\s*=\s*(.*)$', text, re.S)
            if m and m.group(4).strip() == 'search rules' and not m.group(1):
                continue
            if need in self.settled:
                continue
            if need not in self.goals:
                self.say(f'no goal for {old} : {need}')
                answers.append('-- LEFT: no goal ' + need + '\n' + '\n'.join('-- ' + l for l in code))
                continue
            goal, at = self.goals[need]
            if not m:
                self.say(f'clauses of {old}')
                answers.append('\n'.join(comments + [f'-- LEFT', f'pub {goal} : goal.{goal}'] + code[1:]))
                continue
            params = [p for p in m.group(3).split()]
            body = self.paths(m.group(4), at)
            if len(params) > 1 and any(re.search(r"(?<![\w'\-])" + re.escape(p) + r"(?![\w'\-])", body) for p in params[1:]):
                self.say(f'{old} uses {params[1:]}')
            clauses = []
            if re.match(r'returns(-|$)', goal):
                clauses = clauses_of(f'{self.crate}::{os.path.basename(self.folder)}', 'ensures')
            elif re.search(r'-requires(-|$)', goal):
                base = goal[:goal.index('-requires')]
                callee = next((c for c in self.entry['params'] if re.match(re.escape(c.split('::')[-1]) + r'(-|$)', base)), None)
                clauses = clauses_of(callee, 'requires') if callee else []
            if clauses:
                new_body = as_record(body, clauses)
                if new_body is None:
                    self.say(f'{goal}: {clauses} in one')
                else:
                    body = new_body
            sep = '\n    ' if '\n' in body else ' '
            answers.append('\n'.join(comments + [f'pub {goal} : goal.{goal}', f'{m.group(1)}{goal} {params[0] if params else "c"} ={sep}{body}']))
        self.write(path, head, uses, invs, answers)

    def write(self, path, head, uses, invs, answers):
        rel = self.folder.split('/proofs/')[1].replace('/', '.')
        module = f'Rattle.{self.crate}.proofs.{rel}'
        keep = [u for u in uses if not re.search(r'\.Statement\.\{', u) and not re.match(r'use \S+\.(Tie|Reads|Lts) as', u)]

        def used(text):
            out = []
            for u in keep:
                m = re.match(r'(use \S+\.)\{(.*)\}$', u)
                if not m:
                    out.append(u)
                    continue
                names = [n.strip() for n in m.group(2).split(',')]
                here = [n for n in names if self.mentions(text, n.split(' as ')[-1])]
                if here:
                    out.append(m.group(1) + '{' + ', '.join(here) + '}')
            return out
        for name, module_name, parts in (('Invariants', 'Given', invs), ('Answers', 'Goals', answers)):
            if not parts:
                continue
            text = '\n\n'.join(parts)
            lines = used(text)
            for u in sorted(self.more if name == 'Answers' else ()):
                if not any(re.search(r'[{ ]' + u[u.index('{') + 1:-1] + '[,}]', x) for x in lines):
                    lines.append(u)
            lines.append(f'use {module}.{module_name} as goal')
            top = head if (name == 'Invariants' or not invs) else []
            open(f'{self.folder}/{name}.antt', 'w', encoding='utf-8').write(
                '\n'.join(top + lines) + '\n\n' + text + '\n')
        os.remove(path)
        if self.left:
            print(f'{self.folder}:')
            for line in self.left:
                print('   ', line)

    @staticmethod
    def mentions(text, name):
        if '◌' in name:
            parts = [p for p in name.split('◌') if p]
            return all(p in text for p in parts)
        return re.search(r"(?<![\w'\-])" + re.escape(name) + r"(?![\w'\-])", text) is not None


def main():
    crate, only = sys.argv[1], sys.argv[2:]
    names = old_names(crate)
    for key, entry in names.items():
        if not key.endswith('.Lts') or not key.startswith(f'Rattle-{crate}-proofs.'):
            continue
        rel = key[len(f'Rattle-{crate}-proofs.'):-len('.Lts')]
        folder = f'crates/{crate}/proofs/' + rel.replace('.', '/')
        if only and os.path.basename(folder) not in only:
            continue
        if os.path.exists(f'{folder}/Proof.antt') and 'tie.' in open(f'{folder}/Proof.antt', encoding='utf-8').read():
            Function(crate, folder, entry).turn()


if __name__ == '__main__':
    main()
