#!/usr/bin/env python3
"""Respells the repository's own names (specs/, proofs/, clauses in src/) as today's Rattle spells names.

    respell.py [ROOT]              rewrites the files below ROOT/crates in place (ROOT: the repository that this file lies in)
    respell.py --table [ROOT]      prints the table, old<TAB>new, and writes nothing
    respell.py --left [ROOT]       prints the fields behind a dot that it leaves: what the toolchain makes
    respell.py --report [ROOT]     prints the names that fall together and what was decided
    respell.py --text ROOT FILE..  applies the table to other files: documents (in backquotes and code blocks alone), must-fail edits,
                                   any other text (whole names). Names that the table does not hold stay.

The rules (CONTRACT_STYLE.md, "Names"): types and facts in UpperCamel, all else in snake_case; a dash joins two names of definitions
that stand in the lemma's own statement, and all other words are joined by `_`. Names of libraries and of Rust source stay.
The table is computed from the texts below ROOT and from the hand decisions below. Once ROOT is respelled its table is
empty: for --text give a ROOT that is not, or `--with TABLE`, what --table printed before. A second run changes nothing.
"""
import collections, os, re, sys

# ---------------------------------------------------------------- hand decisions

# old -> (new, another old name: the decision holds only while a text has that one), above all rules
HAND = {
    # a parameter `floor_given` of the Rust functions that cite it would hide it
    'floorGiven': ('given_floor', 'floorGiven'),
    # aliases of modules, beside the functions `reasonIn` and `roomIn`
    'reason-in': ('reason_in_contract', 'reasonIn'),
    'room_in': ('room_in_contract', 'roomIn'),
}

# facts (their result is `Type 0`) in lower case, or with a dash: old -> new
FACTS = {
    'amountIs': 'AmountIs', 'toldIn': 'ToldIn', 'shownIn': 'ShownIn', 'valueIs': 'ValueIs', 'worthIn': 'WorthIn',
    'Held-up': 'HeldUp', 'None-below': 'NoneBelow',
}

RESERVED = set('''data record deriving module where use mod pub package open as unfoldable abbrev axiom unfold unfolding ruleset mutual
infix infixl infixr elim let in do Type coe fcoe tcoe hcom com search rw simp omega grind cc assumption ground hlevel first_of'''.split())

# words of the format of histories (docs/HISTORY.md) that are spelled as names were: --text leaves them, but in must-fail edits
HISTORIES = set('''same-tip peer-only local-only peer-work local-work peer-tip local-tip peer-hash local-hash off-spine competing-fork
stale-fork'''.split())

# ---------------------------------------------------------------- texts

TOKEN = re.compile(r'"(?:[^"\\\n]|\\.)*"|«[^»\n]*»|--[^\n]*|[^\s(){}.;,@"«»]+|[(){}.;,@«»"]|\s+')
DASHED = re.compile(r"[\w']-|-\w")
CAMEL = re.compile(r"[^\WA-Z].*[A-Z]")
DECL = re.compile(r'^(\s*)((?:(?:pub|abbrev|unfoldable|axiom)\s+)*)((?:[^\s(){}.;,@":=]+\s+)+?)((?:\{[^}]*\}\s*)?):\s(.*)$')
USE = re.compile(r'^([ \t]*(?:pub )?(?:ghost )?use )([^\s{;]+?)(\.\{[^}]*\})?( as [^\s;]+)?(;?[ \t]*)$', re.M)


def is_name(t):
    return not (t.isspace() or t[0] in '"«(){}.;,@»' or t.startswith('--'))


def strange(t):
    """a name whose spelling today's rules would not have"""
    return bool(DASHED.search(t) or CAMEL.match(t))


def tokens(s):
    """(text, start, after a dot that touches it)"""
    dot = False
    for m in TOKEN.finditer(s):
        t = m.group()
        if is_name(t):
            yield t, m.start(), dot
        dot = t == '.'


def indent(l):
    return len(l) - len(l.lstrip())


class Text:
    def __init__(self, path, crates):
        self.path = path
        self.s = open(path, encoding='utf-8').read()
        self.proof = path.endswith('/Proof.antt')
        self.lib, self.imported, self.uses = set(), set(), []
        for m in USE.finditer(self.s):
            parts = m.group(2).split('.')
            own = parts[0] == 'Rattle' and len(parts) > 1 and parts[1] in crates
            self.uses.append((m.start(2), m.end(2), m.end(), own))
            for it in (m.group(3) or '').strip('.{} ').split(','):
                n, _, a = it.strip().partition(' as ')
                if n:
                    self.imported.add(a or n)
                    if not own and not a:
                        self.lib.add(n)
            if m.group(3) is None and m.group(4) is None and not own:
                self.lib.add(parts[-1])
        self.decls = []  # (name, kind, text of the type)
        self.declare()

    def declare(self):
        L = self.s.split('\n')
        block = None
        for i, l in enumerate(L):
            m = re.match(r'^(\s*)(?:pub )?(data|record) ([^\s{(=]+)', l)
            if m:
                block = (len(m.group(1)), m.group(2))
                self.decls.append((m.group(3), 'type', l.split(':', 1)[-1]))
                continue
            if l.strip() and block and indent(l) <= block[0]:
                block = None
            m = DECL.match(l)
            if not m or l.lstrip().startswith('--'):
                continue
            ind, _, names, _, t = m.groups()
            j = i + 1
            while j < len(L) and L[j].strip() and indent(L[j]) > len(ind) and not DECL.match(L[j]):
                t += '\n' + L[j]
                j += 1
            kind = ('con' if block[1] == 'data' else 'field') if block else 'loc' if ind else 'top'
            # what stands below a `module _ .. where` at the left margin is top level too
            if kind == 'loc' and self.in_module(L, i):
                kind = 'top'
            for n in names.split():
                self.decls.append((n, kind, t))

    @staticmethod
    def in_module(L, i):
        d = indent(L[i])
        while i > 0 and d > 0:
            i -= 1
            if L[i].strip() and not L[i].lstrip().startswith('--') and indent(L[i]) < d:
                d = indent(L[i])
                # a module's head may go over several lines
                j = i
                while j > 0 and indent(L[j]) > 0 and not L[j].lstrip().startswith('module'):
                    j -= 1
                if not L[j].lstrip().startswith('module'):
                    return False
        return d == 0

    def names(self):
        """(name, start, kind): kind 'path', 'lib', 'field' (after a dot) or 'name'"""
        spans = self.uses
        k = 0
        for t, i, dot in tokens(self.s):
            while k < len(spans) and i >= spans[k][2]:
                k += 1
            if k < len(spans) and spans[k][0] <= i < spans[k][2]:
                a, b, _, own = spans[k]
                if i < b:
                    yield t, i, 'path'
                elif own or self.s[:i].endswith(' as '):
                    yield t, i, 'name'
                else:
                    yield t, i, 'path'
                continue
            if dot:
                yield t, i, 'field'
            elif t in self.lib:
                yield t, i, 'lib'
            else:
                yield t, i, 'name'


CLAUSE = re.compile(r'\b(?:requires|ensures)(?:\s+\w+)?\s*\{')


def clauses(s):
    """the spans of antt in a .rt file: clauses, and lines `ghost use`"""
    out = []
    for m in re.finditer(r'^[ \t]*ghost use [^;]*;', s, re.M):
        out.append((m.start(), m.end()))
    for m in CLAUSE.finditer(s):
        if '//' in s[s.rfind('\n', 0, m.start()) + 1:m.start()]:
            continue
        d, i = 1, m.end()
        while d and i < len(s):
            d += {'{': 1, '}': -1}.get(s[i], 0)
            i += 1
        out.append((m.end(), i - 1))
    return sorted(out)


class Source:
    def __init__(self, path, crates):
        self.path = path
        self.s = open(path, encoding='utf-8').read()
        self.spans = clauses(self.s)
        self.lib = set()
        self.uses = []
        for m in USE.finditer(self.s):
            if 'ghost use' not in m.group(1):
                continue
            parts = m.group(2).split('.')
            own = parts[0] == 'Rattle' and len(parts) > 1 and parts[1] in crates
            self.uses.append((m.start(2), m.end(2), m.end(), own))
            for it in (m.group(3) or '').strip('.{} ').split(','):
                n, _, a = it.strip().partition(' as ')
                if n and not own and not a:
                    self.lib.add(n)

    def names(self):
        for a, b in self.spans:
            for t, i, dot in tokens(self.s[a:b]):
                i += a
                u = next((u for u in self.uses if u[0] <= i < u[2]), None)
                if u and (i < u[1] or not u[3] and not self.s[:i].endswith(' as ')):
                    yield t, i, 'path'
                else:
                    yield t, i, 'field' if dot and not u else 'lib' if t in self.lib else 'name'

    def rust(self):
        """the names of Rust's values in this file: of whatever is no call, no path and no field"""
        t = re.sub(r'//[^\n]*', '', self.s)
        return set(re.findall(r'(?<![\w.:])([a-z_]\w*)(?!\w|\s*\(|::|!)', t))


def load(root):
    crates = {l.split(':')[0] for l in open(os.path.join(root, 'crates.txt'), encoding='utf-8') if l.strip() and not l.startswith('#')}
    antt, rt = [], []
    for d, ds, fs in os.walk(os.path.join(root, 'crates')):
        ds[:] = sorted(x for x in ds if x not in ('must-fail', 'target'))
        for f in sorted(fs):
            if f.endswith('.antt'):
                antt.append(Text(os.path.join(d, f), crates))
            elif f.endswith('.rt'):
                rt.append(Source(os.path.join(d, f), crates))
    return antt, rt


# ---------------------------------------------------------------- the table

def snake(p):
    """one part of a name, without dashes"""
    if re.match(r'[A-Z]', p) and len(p) > 1:
        return p  # a fact keeps its capital
    p = re.sub(r"(?<=[^\W_A-Z'])(?=[A-Z])", '_', p)
    return re.sub(r'(?<=[A-Z])(?=[A-Z][a-z])', '_', p).lower() if re.search('[A-Z]', p) else p


def result(t):
    """a type's last part, behind the arrows"""
    d = last = 0
    for m in TOKEN.finditer(t):
        x = m.group()
        d += {'(': 1, '{': 1, ')': -1, '}': -1}.get(x, 0)
        if x == '→' and d == 0:
            last = m.end()
    return t[last:].strip()


def bound(t):
    """names that a statement binds"""
    out = set()
    for m in re.finditer(r'[({]([^(){}:]+?)\s:\s', t):
        out |= set(m.group(1).split())
    for m in re.finditer(r'λ([^.]*)\.', t):
        out |= set(m.group(1).split())
    return out


class Table:
    def __init__(self, antt, rt):
        self.antt, self.rt = antt, rt
        self.kinds = collections.defaultdict(set)
        self.statements = collections.defaultdict(list)
        for f in antt:
            tops = {n for n, k, _ in f.decls if k in ('top', 'type', 'con')}
            for n, k, t in f.decls:
                self.kinds[n].add(k)
                if k == 'top' and '-' in n:
                    here = {x for x, _, dot in tokens(re.sub(r'--[^\n]*', '', t)) if not dot} - bound(t)
                    self.statements[n].append(here & (tops | f.imported))
        self.old = set()
        self.libs = set().union(*(f.lib for f in antt + rt))
        self.where = collections.defaultdict(set)  # every name -> files with it, fields behind a dot apart
        self.fields = collections.defaultdict(set)
        for f in antt + rt:
            for t, _, k in f.names():
                if k in ('name', 'lib'):
                    self.where[t].add(f.path)
                elif k == 'field':
                    self.fields[t].add(f.path)
                if k == 'name' and strange(t):
                    self.old.add(t)
        for n in self.kinds:
            if strange(n):
                self.old.add(n)
        self.hand = {t: n for t, (n, beside) in HAND.items() if beside in self.where}
        for t in set(FACTS) | set(self.hand):
            if t in self.where:
                self.old.add(t)
        self.old = {t for t in self.old if t not in RESERVED and not t.startswith('◌') and not t[0].isdigit() and '→' not in t}
        self.defs = {n for n, ks in self.kinds.items() if ks & {'top', 'type', 'con'} and '-' not in n}
        self.lemmas = {n for n, ks in self.kinds.items() if 'top' in ks and '-' in n}
        self.spell()
        self.part()

    def dashes(self, n):
        """n's parts, each dash kept where both neighbours are names in each of n's statements"""
        parts = [snake(p) for p in n.split('-')]
        keep = None
        for here in self.statements.get(n, ()):
            words = {FACTS.get(x, snake(x)) for x in here}
            segs, i = [], 0
            while i < len(parts):
                for j in range(len(parts), i, -1):
                    if '_'.join(parts[i:j]) in words:
                        break
                segs.append((i, j, '_'.join(parts[i:j]) in words))
                i = j
            kept = {a[1] for a, b in zip(segs, segs[1:]) if a[2] and b[2]}
            keep = kept if keep is None else keep & kept
        keep = keep or set()
        return ''.join(p + ('' if i == len(parts) - 1 else '-' if i + 1 in keep else '_') for i, p in enumerate(parts))

    def spell(self):
        self.new = {}
        for t in sorted(self.old):
            if t in self.hand:
                self.new[t] = self.hand[t]
            elif t in FACTS:
                self.new[t] = FACTS[t]
            elif '-' not in t:
                self.new[t] = snake(t)
            elif t.startswith('-') or t.endswith('-'):
                self.new[t] = t
            else:
                # to a fixed point, so that a second run changes nothing
                n = self.dashes(t)
                st = self.statements.get(t)
                while st:
                    self.statements[n] = st
                    again = self.dashes(n)
                    if again == n:
                        break
                    n = again
                self.new[t] = n
            if self.new[t] in RESERVED:
                self.new[t] += '_at'

    def part(self):
        """keeps apart what would fall together"""
        self.report = []
        rust = {f.path: f.rust() for f in self.rt}
        groups = collections.defaultdict(set)
        for o, n in self.new.items():
            groups[n].add(o)
        for n in list(groups):
            if (n in self.where or n in self.kinds) and self.new.get(n, n) == n:
                groups[n].add(n)
        for n in sorted(groups):
            olds = groups[n]
            if len(olds) < 2:
                continue
            def rank(o):
                """who keeps the plain name: libraries' names, definitions and constructors, fields, lemmas, locals"""
                ks = self.kinds.get(o, set())
                r = (0 if o in self.libs else 1 if ks & {'con', 'type'} else 2 if 'top' in ks and CAMEL.match(o) else
                     3 if 'top' in ks and '-' not in o and self.defines(o) else 4 if 'field' in ks else 5 if 'top' in ks else 6 if 'loc' in ks else 7)
                return r, o != n, o
            order = sorted(olds, key=rank)
            for i, o in enumerate(order[1:], 1):
                top = {'top', 'con', 'type'}
                both = [p for p in order[:i] if self.where.get(o, set()) & self.where.get(p, set())]
                tops = [p for p in order[:i] if self.kinds.get(p, set()) & top and self.kinds.get(o, set()) & top]
                apart = bool(both or tops)
                if apart:
                    self.new[o] = n + '_lem'
                self.report.append((self.new.get(o, o), o, self.kind(o), 'beside', ', '.join(p + ' (' + self.kind(p) + ')' for p in order[:i]),
                                    'in one file' if both else 'in no file together'))
        for f in self.rt:
            for t, _, k in f.names():
                if t in self.new and k == 'name' and self.new[t] in rust[f.path]:
                    self.report.append((self.new[t], t, self.kind(t), 'beside', 'a value of Rust', os.path.relpath(f.path)))
        self.report = sorted(set(self.report))

    def kind(self, o):
        return '/'.join(sorted(self.kinds.get(o, ()))) or ('library' if o in self.libs else 'local')

    def defines(self, o):
        """is o a function, not a lemma: no relation stands at the end of its type"""
        for f in self.antt:
            for n, k, t in f.decls:
                if n == o and k == 'top' and re.search(r'[≡≤<⊎×¬↔⊥]', result(re.sub(r'--[^\n]*', '', t))):
                    return False
        return True



# ---------------------------------------------------------------- writing

def replaced(s, edits):
    out, last = [], 0
    for i, o, n in sorted(edits):
        out += [s[last:i], n]
        last = i + len(o)
    return ''.join(out) + s[last:]


TICKS = re.compile(r'`([^`\n]+)`')


def in_ticks(s, start, end, table, lib):
    """edits for the names in backquotes"""
    out = []
    for m in TICKS.finditer(s, start, end):
        for t, i, _ in tokens(m.group(1)):
            if t in table and strange(t) and t not in lib:
                out.append((m.start(1) + i, t, table[t]))
    return out


def modules(f):
    """names by which this file cites modules of the repository"""
    out = set()
    for a, b, end, own in f.uses:
        rest = f.s[b:end]
        if own and not rest.startswith('.{'):
            out.add(rest[4:].strip() if rest.startswith(' as ') else f.s[a:b].split('.')[-1])
    return out


def respelled(f, T, left):
    table, edits = T.new, []
    mods = modules(f)
    for t, i, k in f.names():
        if t not in table or k in ('path', 'lib'):
            continue
        if k == 'field':
            before = re.search(r'((?:[^\s(){}.;,@"«»]+\.)+)$', f.s[max(0, i - 200):i])
            before = before.group(1).split('.') if before else ['', '']
            if not (T.kinds.get(t, set()) & {'field'} or before[-2] in mods or before[0] == 'Rattle'):
                left[t].add(f.path)
                continue
        edits.append((i, t, table[t]))
    if isinstance(f, Text):
        for m in TOKEN.finditer(f.s):
            if m.group().startswith('--'):
                edits += in_ticks(f.s, m.start(), m.end(), table, f.lib)
    else:
        for m in re.finditer(r'//[^\n]*', f.s):
            if not any(a <= m.start() < b for a, b in f.spans):
                edits += in_ticks(f.s, m.start(), m.end(), table, f.lib)
    return replaced(f.s, edits)


def rewrite(root, T):
    left = collections.defaultdict(set)
    n = 0
    for f in T.antt + T.rt:
        s = respelled(f, T, left)
        if s != f.s:
            n += 1
            with open(f.path, 'w', encoding='utf-8') as o:
                o.write(s)
    return n, left


def text(path, table, declared, libs):
    """any other file"""
    s = open(path, encoding='utf-8').read()
    edit = path.endswith('.edit')
    if not edit:
        table = {o: n for o, n in table.items() if o not in HISTORIES}
    edits = []
    if edit:
        base = os.path.abspath(path).split(os.sep + 'must-fail' + os.sep)[0]
        file, at = '', 0
        for l in s.splitlines(True):
            m = re.match(r'file:\s*(\S+)', l)
            if m:
                file = m.group(1)
            elif re.match(r'(old|new):', l):
                lib = libs.get(os.path.join(os.path.basename(base), file), set())
                for t, i, _ in tokens(l[4:]):
                    if t in table and t not in lib and (strange(t) or not file.startswith('src/')):
                        edits.append((at + 4 + i, t, table[t]))
            else:
                edits += in_ticks(s, at, at + len(l), table, set())
            at += len(l)
    elif path.endswith('.md'):
        at, block = 0, False
        for l in s.splitlines(True):
            if l.lstrip().startswith('```'):
                block = not block
            elif block:
                edits += [(at + i, t, table[t]) for t, i, _ in tokens(l) if t in table and strange(t)]
            else:
                edits += in_ticks(s, at, at + len(l), table, set())
            at += len(l)
    else:
        word = re.compile(r"(?<![\w'◌-])[^\W\d][\w'-]*(?![\w'◌])")
        for m in word.finditer(s):
            t = m.group()
            while t and t not in table and t[-1] in "'-":
                t = t[:-1]
            # a dash is common elsewhere: only behind a module, as in Cases.best-by-work
            if t in table and t in declared and (CAMEL.match(t) or strange(t) and re.search(r'[A-Z]\w*\.$', s[max(0, m.start() - 40):m.start()])):
                edits.append((m.start(), t, table[t]))
    if edits:
        with open(path, 'w', encoding='utf-8') as o:
            o.write(replaced(s, edits))
    return len(edits)


def main():
    a = sys.argv[1:]
    here = os.path.dirname(os.path.abspath(__file__))
    opt = {x for x in a if x in ('--table', '--report', '--left', '--text')}
    given = None
    if '--with' in a:
        given = a[a.index('--with') + 1]
        del a[a.index('--with'):a.index('--with') + 2]
    a = [x for x in a if x not in opt]
    root = a[0] if a else os.path.dirname(here)
    T = Table(*load(root))
    changed = {o: n for o, n in T.new.items() if o != n}
    if '--report' in opt:
        for r in T.report:
            print(*r, sep='\t')
    elif '--table' in opt:
        for o in sorted(changed):
            print(o + '\t' + changed[o])
    elif '--left' in opt:
        left = collections.defaultdict(set)
        for f in T.antt + T.rt:
            respelled(f, T, left)
        for t in sorted(left):
            print(t, len(left[t]), min(left[t]), sep='\t')
    elif '--text' in opt:
        declared = {t for t in changed if T.kinds.get(t, set()) & {'top', 'con', 'type', 'field'}}
        if given:
            for l in open(given, encoding='utf-8'):
                o, n = l.rstrip('\n').split('\t')[:2]
                if o not in changed:
                    changed[o] = n
                    declared.add(o)
        libs = {}
        for f in T.antt + T.rt:
            libs[os.path.relpath(f.path, os.path.join(root, 'crates'))] = f.lib
        for p in a[1:]:
            print(text(p, changed, declared, libs), p)
    else:
        n, _ = rewrite(root, T)
        print(f'{len(changed)} names, {n} files')


if __name__ == '__main__':
    main()
