#!/usr/bin/env python3
"""Turn the repository's own names to today's spelling.

Run at the top of a checkout in the state of commit e93b25d (after the toolchain's port.py).
Definitions, lemmas, fields, constructors, helpers and lower-case aliases become snake_case, types and
modules UpperCamel, a prime an apostrophe. Names of libraries and names the toolchain makes stay.

usage: tools/respell.py           rewrite the files in place and print the names that fell together
       tools/respell.py --list    print the table of old and new names, change nothing
       tools/respell.py --check   after the renaming: each own import is declared where it says, and no file declares a name twice
"""
import difflib
import glob
import os
import re
import subprocess
import sys

BEFORE = '98dad23'  # the last commit in the old spelling
PORTED = 'e93b25d'  # the same commit after port.py
SPLIT = set('(){}.;,@"«»[]`\\')
MODIFIERS = {'abbrev', 'unfoldable', 'pub', 'record', 'data', 'opaque'}
KEYWORDS = {'let', 'in', 'where', 'module', 'record', 'data', 'pub', 'abbrev', 'unfoldable', 'unfolding', 'use', 'as', 'open',
            'rw', 'omega', 'search', 'cc', 'absurd', 'yes', 'no', 'mod', 'fact', 'exactly', 'returns', 'by', 'do', 'if', 'then', 'else'}
MADE = re.compile(r'\.(ensures|result|new|now|given|branch|auto)\b')  # what follows the name of a call in a goal's context
CRATES = sorted(os.listdir('crates')) if os.path.isdir('crates') else []


def antt_files():
    return sorted(f for c in CRATES for part in ('specs', 'proofs') for f in glob.glob(f'crates/{c}/{part}/**/*.antt', recursive=True))


def tokens(text):
    """The text cut in (kind, piece): t a token, p a sign that ends one, w white space, s a string, c a comment."""
    out, i, n = [], 0, len(text)
    while i < n:
        c = text[i]
        if c == '"':
            j = text.find('"', i + 1)
            j = n if j < 0 else j + 1
            out.append(('s', text[i:j]))
        elif c.isspace():
            j = i
            while j < n and text[j].isspace():
                j += 1
            out.append(('w', text[i:j]))
        elif c in SPLIT:
            j = i + 1
            out.append(('p', c))
        else:
            j = i
            while j < n and not text[j].isspace() and text[j] not in SPLIT:
                j += 1
            if text.startswith('--', i):
                j = text.find('\n', i)
                j = n if j < 0 else j
                out.append(('c', text[i:j]))
            else:
                out.append(('t', text[i:j]))
        i = j
    return out


def respell(name):
    """The name in today's spelling."""
    name = name.replace('′', "'").replace('″', "''")
    if '◌' in name or not re.search('[A-Za-z]', name):
        return name
    first = re.search('[A-Za-z]', name).group()
    if first.isupper():
        if '-' not in name:
            return name
        return ''.join(part[:1].upper() + part[1:] for part in name.split('-'))
    name = re.sub(r'-(?=[^\s])', '_', name)
    name = re.sub(r'([a-z0-9])([A-Z])', r'\1_\2', name)
    return re.sub('[A-Z]', lambda m: m.group().lower(), name)


def read(path):
    with open(path, encoding='utf-8') as f:
        return f.read()


def shown(commit, path):
    r = subprocess.run(['git', 'show', f'{commit}:{path}'], capture_output=True)
    return r.stdout.decode() if r.returncode == 0 else ''


def own_file(path):
    """The file of the repository that a dotted path names, or None for a library or a generated module."""
    parts = path.split('.')
    if parts[0] != 'Rattle' or len(parts) < 3 or parts[1] not in CRATES:
        return None
    for k in range(len(parts), 2, -1):
        f = 'crates/' + '/'.join(parts[1:k]) + '.antt'
        if os.path.isfile(f):
            return f
    return None


class Use:
    """A line of use: its path, the spans of its names as (start, end, name, alias or None), the alias of a whole path."""
    pattern = re.compile(r'^[ ]*(?:pub )?(?:ghost )?(?:pub )?use ([^\s{;]+?)\.?(?:\{([^}]*)\})?(?: as ([^\s;]+))?;?[ ]*$', re.M)

    def __init__(self, m):
        self.path, self.span = m.group(1), m.span()
        self.names, self.alias = [], m.group(3)
        self.alias_span = m.span(3) if m.group(3) else None
        if m.group(2) is not None:
            at = m.start(2)
            for n in re.finditer(r'([^\s,]+)(?: as ([^\s,]+))?', m.group(2)):
                self.names.append((at + n.start(1), at + n.end(1), n.group(1), n.group(2), n.group(2) and (at + n.start(2), at + n.end(2))))
        self.own = own_file(self.path)


def uses(text):
    return [Use(m) for m in Use.pattern.finditer(text)]


class Declared:
    def __init__(self, name, kind, level, goal, line):
        self.name, self.kind, self.level, self.goal, self.line = name, kind, level, goal, line
        self.old = None


def declarations(text, path):
    """The names that a file declares, in order. Kinds: top, nested, field, constructor, let, alias."""
    out = []
    block = []  # (indent, kind) of the record, data or module that a line is inside
    goal_file = '/proofs/' in path and os.path.basename(path) in ('Proof.antt', 'Answers.antt', 'Invariants.antt')
    lines = text.split('\n')
    for number, line in enumerate(lines):
        if not line.strip() or line.lstrip().startswith('--'):
            continue
        indent = len(line) - len(line.lstrip())
        while block and block[-1][0] >= indent:
            block.pop()
        words = [w for w in tokens(line) if w[0] in 'tpsw']
        flat = [w for w in words if w[0] != 'w']
        k = 0
        heads = set()
        while k < len(flat) and flat[k][1] in MODIFIERS:
            heads.add(flat[k][1])
            k += 1
        if k < len(flat) and flat[k] == ('t', 'module'):
            block.append((indent, 'module'))
        names = []
        j = k
        while j < len(flat) and flat[j][0] == 't' and flat[j][1] not in (':', '=', 'let', 'use', 'module', 'unfolding', 'where', '→', 'mod', 'open', 'export'):
            names.append(flat[j][1])
            j += 1
        if flat[j:j + 1] == [('p', '{')] and flat[j + 2:j + 3] == [('p', '}')]:
            j += 3  # a level, as in `name {ℓ} : type`
        if heads & {'record', 'data'} and names:
            out.append(Declared(names[0], 'top' if indent == 0 or all(b[1] == 'module' for b in block) else 'nested', indent, False, number))
            block.append((indent, 'record' if 'record' in heads else 'data'))
        elif names and j < len(flat) and flat[j] == ('t', ':') and len(names) <= 3 and not line.lstrip().startswith(('→', '(', '{', '∙')):
            around = block[-1][1] if block else None
            kind = {'record': 'field', 'data': 'constructor'}.get(around) or ('top' if indent == 0 or (block and all(b[1] == 'module' for b in block)) else 'nested')
            rest = flat[j + 1][1] if j + 1 < len(flat) else ''
            if not rest:
                following = tokens(lines[number + 1]) if number + 1 < len(lines) else []
                rest = next((w[1] for w in following if w[0] == 't'), '')
            goal = goal_file and rest in ('tie', 'goal')
            for n in names:
                out.append(Declared(n, kind, indent, goal, number))
            if kind != 'field' and kind != 'constructor':
                block.append((indent, 'body'))
        elif names or (flat and flat[0][1] == 'where'):
            block.append((indent, 'body'))
        if re.search(r'\w \S*[a-z]-[a-z]\S* .*= ', line) and number and os.path.basename(path) == 'Split.antt':
            out += [Declared(n, 'let', indent, False, number) for n in ('yes-case', 'no-case')]  # bound by the patterns of `split`
        for m in re.finditer(r'[({]([^(){}:→.,=]+?) : ', line):
            out += [Declared(n, 'let', indent, False, number) for n in m.group(1).split() if re.search('[a-z]-[a-z]', n)]
        for a in range(len(flat) - 1):
            if flat[a] == ('t', 'let') and flat[a + 1][0] == 't':
                out.append(Declared(flat[a + 1][1], 'let', indent, False, number))
    for u in uses(text):
        if u.alias:
            out.append(Declared(u.alias, 'alias', 0, False, -1))
        for n in u.names:
            if n[3]:
                out.append(Declared(n[3], 'alias', 0, False, -1))
    return out


def spec_name(d, path):
    return re.search('[-_]spec$', d.name) and os.path.basename(path) == 'Proof.antt' and d.kind == 'top'


def body_tokens(text):
    """The tokens that are no part of a use line, as (start, token, after a dot, head of the path that it stands in)."""
    spans = [u.span for u in uses(text)]
    out, at, toks = [], 0, tokens(text)
    k = 0
    for i, (kind, piece) in enumerate(toks):
        if kind == 't':
            while k < len(spans) and spans[k][1] <= at:
                k += 1
            if not (k < len(spans) and spans[k][0] <= at):
                head, dotted, j = None, False, i
                while j >= 2 and toks[j - 1] == ('p', '.') and (toks[j - 2][0] == 't' or toks[j - 2] in (('p', ')'), ('p', '}'))):
                    dotted = True
                    if toks[j - 2][0] != 't':
                        head = ')'
                        break
                    j -= 2
                    head = toks[j][1]
                out.append((at, piece, dotted, head))
        at += len(piece)
    return out


def alike(token):
    """What two spellings of one token have in common, for the comparison with the old text."""
    return re.sub("[-_◌·]", '', token.replace('′', "'")).lower()


def old_of(text, old):
    """For each token of the text outside its use lines: the token of the old text at the same place, where there is one."""
    a = body_tokens(text)
    b = body_tokens(old)
    x, y = [alike(t[1]) for t in a], [alike(t[1]) for t in b]
    out, i, j = {}, 0, 0
    while i < len(x) and j < len(y):
        if x[i] == y[j]:
            out[a[i][0]] = b[j][1]
            i, j = i + 1, j + 1
            continue
        # a few tokens came or went: the nearest place where four agree again
        near = ((m, n - m) for n in range(1, 160) for m in range(n + 1) if x[i + m:i + m + 4] == y[j + n - m:j + n - m + 4] and i + m < len(x))
        m, n = next(near, (1, 1))
        i, j = i + m, j + n
    return out


class Repository:
    def __init__(self):
        self.text, self.old, self.declared = {}, {}, {}
        for f in antt_files():
            self.text[f] = read(f)
            self.declared[f] = declarations(self.text[f], f)
        self.names, self.fields, self.kept = {}, set(), set()
        for f, ds in self.declared.items():
            for d in ds:
                if d.goal:
                    continue
                if spec_name(d, f):
                    self.kept.add(d.name)
                    continue
                self.names.setdefault(d.name, []).append((f, d))
                if d.kind == 'field':
                    self.fields.add(d.name)
        self.names = {n: v for n, v in self.names.items() if n not in self.kept}
        self.find_old()
        self.fall_together()

    def find_old(self):
        """The name that each declaration had before port.py, by the order of a file's declarations."""
        self.unpaired = []
        for f, ds in self.declared.items():
            self.old[f] = shown(BEFORE, f)
            olds = declarations(self.old[f], f)
            a = [alike(d.name) for d in ds if d.kind != 'alias']
            b = [alike(d.name) for d in olds if d.kind != 'alias']
            news = [d for d in ds if d.kind != 'alias']
            olds = [d for d in olds if d.kind != 'alias']
            for tag, i1, i2, j1, j2 in difflib.SequenceMatcher(None, a, b, autojunk=False).get_opcodes():
                if tag == 'equal':
                    for k in range(i2 - i1):
                        news[i1 + k].old = olds[j1 + k].name
            self.unpaired += [(f, d.name) for d in news if d.old is None and not d.goal]

    def fall_together(self):
        """Where two names get one spelling: a lemma that can meet a definition gets the ending _lem."""
        groups = {}
        for f, ds in self.declared.items():
            for d in ds:
                if d.kind != 'alias' and not d.goal and d.name not in self.kept:
                    groups.setdefault(respell(d.name), []).append((f, d))
        self.lemma = {}  # file -> {old name -> new name}: declared there with the ending _lem
        self.cases = []
        for new, members in sorted(groups.items()):
            olds = {(d.old or d.name) for f, d in members}
            spelled = {o.replace('′', "'") for o in olds}
            if len(spelled) < 2:
                continue
            functions = [(f, d) for f, d in members if '-' not in (d.old or d.name)]
            lemmas = [(f, d) for f, d in members if '-' in (d.old or d.name)]
            said = []
            for f, d in lemmas:
                theirs = {(x.old or x.name) for _, x in functions}
                both = any(t in theirs for _, t, dotted, _ in body_tokens(self.old[f]) if not dotted) or any(n[2] in theirs for u in uses(self.old[f]) for n in u.names)
                meets = (d.kind == 'top' and any(x.kind in ('top', 'constructor') for _, x in functions)) or (d.kind != 'field' and both)
                if meets:
                    self.lemma.setdefault(f, {})[d.old or d.name] = new + '_lem'
                said.append(f'    {d.old or d.name} ({d.kind}, {f}:{d.line + 1}) -> {new + "_lem" if meets else new}')
            for f, d in functions:
                said.append(f'    {d.old or d.name} ({d.kind}, {f}:{d.line + 1}) -> {new}')
            self.cases.append(f'{new}:\n' + '\n'.join(said))

    def outside(self, text):
        """The names that a text imports from elsewhere, and its aliases of generated or foreign modules."""
        return {n[3] or n[2] for u in uses(text) if not u.own for n in u.names if not n[3]}

    def scope(self, text, path):
        """What is renamed in a text: the names of the repository without those that it imports from elsewhere."""
        out = self.outside(text)
        mine = {d.name for d in self.declared.get(path, []) if not d.goal and d.name not in self.kept}
        if path in self.declared:
            out |= {d.name for d in self.declared[path] if d.goal}
        return {n: respell(n) for n in self.names if n not in out}, mine

    def lemmas_in(self, text, path):
        """The lemmas with the ending _lem that a file knows: spelling in this state -> (old name, new name)."""
        out = {}
        for old, new in self.lemma.get(path, {}).items():
            for d in self.declared[path]:
                if (d.old or d.name) == old:
                    out[d.name] = (old, new)
        for u in uses(text):
            if u.own in self.lemma:
                for old, new in self.lemma[u.own].items():
                    for d in self.declared[u.own]:
                        if (d.old or d.name) == old and any(n[2] == d.name for n in u.names):
                            out[d.name] = (old, new)
        return out

    def renamed(self, text, path, clause=None, old=''):
        """The text with its own names respelled. For code, clause tells which places are clauses."""
        names, mine = self.scope(text, path)
        lemmas = self.lemmas_in(text, path)
        edits = []
        aliases = {}
        for u in uses(text):
            if u.alias:
                aliases[u.alias] = u.own
                edits.append((*u.alias_span, respell(u.alias)))
            for start, end, name, alias, span in u.names:
                if alias:
                    edits.append((*span, respell(alias)))
                if u.own and name not in self.kept:
                    new = names.get(name, respell(name) if name in self.names else name)
                    for o, l in self.lemma.get(u.own, {}).items():
                        hits = [d for d in self.declared[u.own] if d.name == name and d.kind in ('top', 'constructor')]
                        if hits and all((d.old or d.name) == o for d in hits):
                            new = l
                    edits.append((start, end, new))
        was = old_of(text, old) if lemmas and old else {}
        goal_file = os.path.basename(path) in ('Proof.antt', 'Answers.antt', 'Invariants.antt')
        for at, token, dotted, head in body_tokens(text):
            if clause is not None and not clause(at):
                continue
            new = names.get(token)
            if dotted:
                if head in ('tie', 'goal'):
                    continue
                if head in aliases:
                    if not aliases[head]:
                        continue
                    lem = {d.name: self.lemma[aliases[head]][d.old or d.name] for d in self.declared[aliases[head]] if (d.old or d.name) in self.lemma.get(aliases[head], {})}
                    new = lem.get(token, respell(token) if token in self.names else None)
                elif token not in self.fields or (goal_file and MADE.match(text, at + len(token))):
                    continue
                else:
                    new = respell(token)
            elif token in lemmas:
                before = was.get(at)
                if before is None and old:
                    self.unsure.append(f'{path}: {token} at {at}')
                if before is None or before.replace('′', "'") == lemmas[token][0].replace('′', "'"):
                    new = lemmas[token][1]
            if new and new != token:
                edits.append((at, at + len(token), new))
        return self.put(text, edits)

    def comments(self, text, names):
        """The backquoted names of comments and documents."""
        def word(m):
            inner = m.group(1)
            pieces = tokens(inner)
            out = []
            for i, (kind, piece) in enumerate(pieces):
                out.append(names.get(piece, piece) if kind == 't' and not (i and pieces[i - 1] == ('p', '.') and piece not in self.fields) else piece)
            return '`' + ''.join(out) + '`'
        return re.sub(r'`([^`\n]+)`', word, text)

    def before_port(self):
        """What port.py left alone, as documents, comments and edits, has the names of before it: old name -> name now."""
        out = {}
        for f, ds in self.declared.items():
            for d in ds:
                if d.old and d.old != d.name and not d.goal and d.name in self.names and re.search('[-A-Z′]', d.old):
                    out[d.old] = respell(d.old)
        for f, m in self.lemma.items():
            out.update(m)
        for f, ds in self.declared.items():
            for d in ds:
                if d.old in out and out[d.old].endswith('_lem') and d.kind in ('top', 'nested') and d.old not in self.lemma.get(f, {}):
                    out[d.old] = respell(d.old)
        return out

    @staticmethod
    def put(text, edits):
        for start, end, new in sorted(set(edits), reverse=True):
            text = text[:start] + new + text[end:]
        return text

    def comment_names(self, path, text):
        """What a backquoted word means in a file: its own lemma first, then any name of the repository."""
        out = self.outside(text)
        names = {n: respell(n) for n in self.names if n not in out}
        names.update(self.before_port())
        functions = {n[2] for u in uses(text) if u.own and u.own not in self.lemma for n in u.names}
        names.update({n: l[1] for n, l in self.lemmas_in(text, path).items() if n not in functions})
        return names


def clauses_of(code):
    """The places of a Rust text that are logic: what stands in the braces of requires and ensures."""
    spans = []
    for m in re.finditer(r'^[ ]*(?:requires|ensures|invariant|decreases)\b[^{\n]*\{', code, re.M):
        depth, i = 1, m.end()
        while depth and i < len(code):
            depth += {'{': 1, '}': -1}.get(code[i], 0)
            i += 1
        spans.append((m.end(), i - 1))
    return lambda at: any(a <= at < b for a, b in spans)


def in_comments(repo, text, names, mark):
    """The text with the backquoted names of its comments respelled."""
    return re.sub(rf'{mark}.*', lambda m: repo.comments(m.group(), names), text)


def run():
    repo = Repository()
    repo.unsure = []
    out = {}
    for f in antt_files():
        text = repo.text[f]
        names = repo.comment_names(f, text)
        changed = repo.renamed(text, f, None, repo.old[f])
        out[f] = in_comments(repo, changed, names, '(?:^|(?<=\\s))--')
    for f in sorted(glob.glob('crates/*/src/**/*.rt', recursive=True)):
        text = read(f)
        changed = repo.renamed(text, f, clauses_of(text), shown(BEFORE, f))
        out[f] = in_comments(repo, changed, repo.comment_names(f, text), '//')
    for f in sorted(glob.glob('crates/*/must-fail/*.edit') + glob.glob('sweep/ports/**/*.edit', recursive=True)):
        text = read(f)
        crate = f.split('/')[2] if f.startswith('sweep') else f.split('/')[1]
        m = re.search(r'^file: *(\S+)', text, re.M)
        target = f'crates/{crate}/{m.group(1)}' if m else None
        lines = text.split('\n')
        if target and target.endswith('.antt') and os.path.isfile(target):
            whole = read(target)
            names = {**repo.scope(whole, target)[0], **repo.before_port()}
            names.update({n: l[1] for n, l in repo.lemmas_in(whole, target).items()})
            for i, line in enumerate(lines):
                if not line.startswith(('#', 'file:', 'in:')):
                    lines[i] = ''.join(names.get(p, p) if k == 't' else p for k, p in tokens(line))
        elif target and os.path.isfile(target):
            whole = read(target)
            names = {**repo.scope(whole, target)[0], **repo.before_port()}
            for i, line in enumerate(lines):
                if re.match(r'(old|new):\s+(requires|ensures)\b.*\{', line):
                    lines[i] = ''.join(names.get(p, p) if k == 't' else p for k, p in tokens(line))
        out[f] = '\n'.join(lines)
    everywhere = {**{n: respell(n) for n in repo.names}, **repo.before_port()}
    for f in ['README.md'] + sorted(glob.glob('docs/*.md')):
        if os.path.basename(f) == 'CHANGES.md':
            continue
        out[f] = documents(repo, read(f), everywhere)
    for f, text in out.items():
        if read(f) != text:
            with open(f, 'w', encoding='utf-8') as w:
                w.write(text)
    for case in repo.cases:
        print(case)
    meetings(repo, out)
    for u in repo.unsure:
        print('not decided by the old text:', u)
    for f, n in repo.unpaired:
        if re.search('[-_A-Z]', n):
            print('no old name found:', f, n)


def documents(repo, text, everywhere):
    """A document: its backquoted names; where a link leads to a file of laws, by what that file declares."""
    def link(m):
        target = m.group(2).split('#')[0]
        f = os.path.normpath(os.path.join('docs', target)) if not os.path.isfile(target) else target
        names = dict(everywhere)
        if f in repo.lemma:
            names.update({d.name: repo.lemma[f][d.old or d.name] for d in repo.declared[f] if (d.old or d.name) in repo.lemma[f]})
        return '[' + ('`' + names.get(m.group(1), m.group(1)) + '`') + '](' + m.group(2) + ')'
    parts = re.split(r'(\[`[^`\]]+`\]\([^)]*\)|^```.*?^```)', text, flags=re.M | re.S)
    for i, p in enumerate(parts):
        if p.startswith('[`'):
            parts[i] = re.sub(r'\[`([^`\]]+)`\]\(([^)]*)\)', link, p)
        elif not p.startswith('```'):
            parts[i] = repo.comments(p, everywhere)
    return ''.join(parts)


def meetings(repo, out):
    """In one file, two old spellings of one new token: what may shadow or be taken for another."""
    for f in antt_files():
        seen = {}
        was = old_of(out[f], repo.old[f])
        for at, token, dotted, head in body_tokens(out[f]):
            if at in was and not dotted and head is None:
                seen.setdefault(token, set()).add(was[at].replace('′', "'").replace('″', "''"))
        for u in uses(out[f]):
            for n in u.names:
                if not u.own:
                    seen.setdefault(n[3] or n[2], set()).add('outside:' + n[2])
        for token, olds in sorted(seen.items()):
            inside = {o for o in olds if not o.startswith('outside:')}
            if len(inside) > 1 or (len(olds) > 1 and any(re.search('[-A-Z]', o) and token not in repo.outside(repo.text[f]) for o in inside)):
                print('two old spellings in one file:', f, token, sorted(olds))
            if token in KEYWORDS and inside - {token}:
                print('a keyword:', f, token, sorted(olds))


def listed():
    repo = Repository()
    rows = set()
    for n in repo.names:
        if respell(n) != n:
            rows.add((n, respell(n)))
    for f, m in repo.lemma.items():
        for o, n in m.items():
            rows.add((o, n))
    rows |= set(repo.before_port().items())
    for o, n in sorted(rows):
        print(f'{o}\t{n}')


def check():
    """Print what is wrong; end with 1 if anything is."""
    bad = 0
    declared = {f: declarations(read(f), f) for f in antt_files()}
    public = {}
    for f in declared:
        public[f] = {d.name for d in declared[f] if d.kind != 'let'}
        public[f] |= {n[3] or n[2] for u in uses(read(f)) for n in u.names if re.match(r'\s*pub use', read(f)[u.span[0]:u.span[1]])}
    sources = list(declared) + sorted(glob.glob('crates/*/src/**/*.rt', recursive=True))
    for f in sources:
        for u in uses(read(f)):
            if not u.own:
                parts = u.path.split('.')
                made = {'declared', 'contracts', 'Tie', 'Statement', 'Goals', 'Met', 'Lts', 'Symbol', 'Code', 'Kinds', 'Reads', 'TheLaws'}
                if parts[0] == 'Rattle' and parts[1] in CRATES and not made & set(parts) and not any(p.startswith('+') for p in parts):
                    print(f'{f}: no file for {u.path}')
                    bad = 1
                continue
            for n in u.names:
                if n[2] not in public[u.own]:
                    print(f'{f}: {n[2]} is not declared in {u.own}')
                    bad = 1
            seen = [n[3] or n[2] for n in u.names]
            for n in {x for x in seen if seen.count(x) > 1}:
                print(f'{f}: {n} is imported twice from {u.path}')
                bad = 1
    for f, ds in declared.items():
        tops = [d.name for d in ds if d.kind == 'top']
        for n in sorted({x for x in tops if tops.count(x) > 1}):
            where = [d.line + 1 for d in ds if d.name == n and d.kind == 'top']
            print(f'{f}: {n} is declared twice, lines {where}')
            bad = 1
        imported = {}
        for u in uses(read(f)):
            for n in u.names:
                imported.setdefault(n[3] or n[2], set()).add(u.path)
        for n, ps in sorted(imported.items()):
            if len(ps) > 1:
                print(f'{f}: {n} is imported from {sorted(ps)}')
                bad = 1
            if n in tops:
                print(f'{f}: {n} is declared and imported')
                bad = 1
    return bad


if __name__ == '__main__':
    if '--list' in sys.argv[1:]:
        listed()
    elif '--check' in sys.argv[1:]:
        sys.exit(check())
    else:
        run()
