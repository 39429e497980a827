#!/usr/bin/env python3
"""Respells a repository's own antt names. Run at the top of a repository.
respell.py [--table FILE] [--check]        rewrite in place; --check: change nothing, list old names that are left
respell.py --with TABLE --text FILE..      apply a table to Markdown files"""
import os, re, subprocess, sys
from collections import defaultdict
from glob import glob

args = sys.argv[1:]
def opt(name):
    if name in args:
        i = args.index(name); v = args[i + 1]; del args[i:i + 2]; return v
def flag(name):
    if name in args: args.remove(name); return True
    return False
TABLE, WITH, CHECK = opt('--table'), opt('--with'), flag('--check')
LOOK = []
def look(s):
    if s not in LOOK: LOOK.append(s)
def read(p):
    with open(p, encoding='utf-8', newline='') as f: return f.read()
def write(p, s):
    with open(p, 'w', encoding='utf-8', newline='') as f: f.write(s)

TOK = r'[^\s(){}.;,@"«»\[\]\\`]+'
IDENT = re.compile(r"[A-Za-z_][A-Za-z0-9_]*\Z")

def joining(s):
    s = re.sub(r'\bspecs([./])joining\b', r'specs\1Joining', s)
    return re.sub(r'^(\s*(?:pub )?mod )joining\b', r'\1Joining', s, flags=re.M)

# ---- text mode
if '--text' in args:
    files = args[args.index('--text') + 1:]
    table = dict(l.rstrip('\n').split('\t') for l in open(WITH, encoding='utf-8') if '\t' in l)
    def word(m):
        t = m.group(0)
        if t.startswith('«'):
            n = table.get(t[1:-1])
            return t if n is None else (n if IDENT.match(n) else '«%s»' % n)
        return table[t] if t in table and re.search(r"[A-Z′-]", t) else t
    for f in files:
        s = read(f); out = []; fenced = False
        for line in s.split('\n'):
            if line.lstrip().startswith('```'): fenced = not fenced; out.append(line); continue
            if fenced: line = re.sub(r'«[^»]*»|' + TOK, word, line)
            else:
                line = re.sub(r'(`+)([^`]+)\1', lambda m: m.group(1) + re.sub(r'«[^»]*»|' + TOK, word, m.group(2)) + m.group(1), line)
                # outside backquotes only words with a capital inside
                line = re.sub(r"(?<![\w`«.-])[a-z][a-z0-9_]*[A-Z][\w′']*(?![\w`»-])", lambda m: table.get(m.group(0), m.group(0)), line)
            out.append(joining(line))
        n = '\n'.join(out)
        if n != s: write(f, n); print('text:', f)
    sys.exit(0)

# ---- files
def own(p): return '/out/' not in p
ANTT = sorted(p for k in ('specs', 'proofs') for p in glob('crates/*/%s/**/*.antt' % k, recursive=True) if own(p))
RT = sorted(p for p in glob('crates/**/*.rt', recursive=True) if own(p))
EDIT = sorted(p for p in glob('crates/*/must-fail/**/*.edit', recursive=True) if own(p))

def moved(a, b):
    t = a + '.respell-tmp'
    for x, y in ((a, t), (t, b)):
        if subprocess.run(['git', 'mv', x, y], capture_output=True).returncode: os.rename(x, y)
if not CHECK:
    for p in sorted(glob('crates/*/specs/**/joining', recursive=True), reverse=True):
        if os.path.isdir(p) and own(p): moved(p, p[:-7] + 'Joining')
    for p in sorted(glob('crates/*/specs/**/joining.antt', recursive=True), reverse=True):
        if own(p): moved(p, p[:-12] + 'Joining.antt')
    ANTT = sorted(p for k in ('specs', 'proofs') for p in glob('crates/*/%s/**/*.antt' % k, recursive=True) if own(p))
TEXT = {p: read(p) for p in ANTT + RT + EDIT}
ORIG = dict(TEXT)
for p in TEXT: TEXT[p] = joining(TEXT[p])
for p in ANTT:
    b = os.path.basename(p)[:-5]
    if '/specs/' in p and not b[0].isupper() and not (CHECK and b == 'joining'): look('%s: a module whose name is not in camel case' % p)
def crate(p): return p.split('/')[1]

# ---- antt tokens: (kind, text, before) with kinds word, dotted, comment, other
SCAN = re.compile(r'(?P<com>--(?=[\s-]|$)[^\n]*)|(?P<str>"[^"\n]*")|(?P<tok>%s)' % TOK)
def scan(s):
    """yields (start, end, kind) of tokens; comments as one"""
    for m in SCAN.finditer(s):
        if m.lastgroup == 'com': yield m.start(), m.end(), 'com'
        elif m.lastgroup == 'tok':
            a = m.start()
            dotted = a >= 2 and s[a - 1] == '.' and not s[a - 2].isspace()
            yield a, m.end(), 'dot' if dotted else 'tok'

# ---- imports
USE = re.compile(r'\b(?:pub |ghost |open )*(?:\S+ )?use\s+([^\s{;]+?)(?:\.\{([^}]*)\}|\s+as\s+([^\s;]+))?\s*(?:;|\n|$)')
def use_re(s):
    for m in re.finditer(r'\buse\s+((?:Rattle|std|core|lib|mathlib|native|Prim|borrow|denote|mir|[a-zA-Z_]+)[^\s{;]*?)(?:\.\{([^}]*)\}|[ \t]+as[ \t]+([^\s;]+))?(?=[\s;]|$)', s): yield m
def target(path):
    q = path.replace('Rattle·', 'Rattle.').replace('«', '').replace('»', '').split('.')
    if len(q) < 3 or q[0] != 'Rattle': return None
    p = 'crates/%s/%s.antt' % (q[1], '/'.join(q[2:]))
    if p in TEXT: return p
    p = 'crates/%s/%s/Lib.antt' % (q[1], '/'.join(q[2:]))
    return p if p in TEXT else None
def names_in(braces):
    for part in braces.split(','):
        w = part.replace('«', '').replace('»', '').split()
        if w: yield w[0], (w[2] if len(w) == 3 and w[1] == 'as' else None)
IMPORTS = defaultdict(list)   # file -> (target file or None, path, name, alias, public)
MODALIAS = defaultdict(dict)  # file -> alias -> own?
for p in ANTT + RT + EDIT:
    for m in use_re(TEXT[p]):
        line_start = TEXT[p].rfind('\n', 0, m.start()) + 1
        lead = TEXT[p][line_start:m.start()]
        if '--' in lead or (p.endswith('.rt') and 'ghost' not in lead): continue
        t = target(m.group(1))
        if m.group(2) is not None:
            for n, a in names_in(m.group(2)): IMPORTS[p].append((t, m.group(1), n, a, 'pub' in lead))
        elif m.group(3): MODALIAS[p][m.group(3)] = t is not None

# ---- collect
GENERATED = re.compile(r'(Need|After|In|Goal)-|(invariant|decreases)-|the_')
MODS = ('pub', 'abbrev', 'unfoldable', 'opaque', 'private')
DEFS = defaultdict(dict)      # name -> file -> kind (fun, type, field, ctor)
PUB = defaultdict(set)        # file -> public names
LOCAL = defaultdict(set)      # Proof.antt -> own names
def group(s, i):
    pair = {'(': ')', '{': '}'}; stack = []
    while i < len(s):
        c = s[i]
        if c in pair: stack.append(pair[c])
        elif c in ')}':
            if not stack: return i
            stack.pop()
            if not stack: return i + 1
        i += 1
    return i
for p in ANTT:
    s = TEXT[p]; lines = s.split('\n'); blocks = []   # (indent, kind)
    offs = [0]
    for l in lines: offs.append(offs[-1] + len(l) + 1)
    for k, line in enumerate(lines):
        if not line.strip() or line.lstrip().startswith('--'): continue
        ind = len(line) - len(line.lstrip())
        while blocks and blocks[-1][0] >= ind: blocks.pop()
        w = line.split(); i = offs[k] + ind; pub = False
        while w and w[0] in MODS:
            pub = pub or w[0] == 'pub'; w = w[1:]
        if not w: continue
        if w[0] in ('record', 'data') and len(w) > 1 and w[1] not in ('{',) and w[1][0] not in '({':
            name = re.match(TOK, w[1]).group(0); blocks.append((ind, w[0]))
            if os.path.basename(p) != 'Proof.antt':
                DEFS[name][p] = 'type'
                PUB[p].add(name)
            continue
        if w[0] in ('module', 'where'): continue
        if w[0] in ('use', 'mod', 'let', 'in', 'case', 'unfolding', 'open', 'rw', 'simp'): continue
        rest = line.lstrip()
        while rest.split()[0] in MODS: rest = rest.split(None, 1)[1]
        at = offs[k] + len(line) - len(rest)
        names = []; j = at; ok = False
        if re.match(r'\|\s', rest): j += 1
        while True:
            while j < len(s) and s[j] in ' \t': j += 1
            if j >= len(s): break
            if s[j] in '({':
                if not names: break
                j = group(s, j); continue
            if s[j] == '\n':
                nx = s[j + 1:j + 200].split('\n')[0]
                if names and nx.strip() and nx.lstrip()[0] in '({:' and len(nx) - len(nx.lstrip()) > ind: j += 1; continue
                break
            m = re.compile(TOK).match(s, j)
            if not m: break
            if m.group(0) == ':': ok = bool(names); j = m.end(); break
            if m.group(0) in ('=', '→', '->', '|', ':=', 'λ'): break
            names.append(m.group(0)); j = m.end()
            if len(names) > 4: break
        if not ok: continue
        # the signature's text, to the next line that is not deeper
        e = k + 1
        while e < len(lines) and lines[e].strip() and len(lines[e]) - len(lines[e].lstrip()) > ind: e += 1
        sig = s[j:offs[e] - 1].split('\n' + ' ' * ind + 'unfolding')[0]
        if os.path.basename(p) == 'Proof.antt':
            LOCAL[p].update(names); continue
        kind = 'fun'
        if blocks and blocks[-1][1] == 'data': kind = 'ctor'
        elif blocks and blocks[-1][1] == 'record': kind = 'field'
        elif re.search(r'(^|→|:)\s*Type [01]\s*$', sig.rstrip()): kind = 'type'
        elif re.match(r'\s*tie\.', sig): LOCAL[p].update(names); continue
        for n in names:
            if GENERATED.match(n): look('%s: %s is spelled as a name of Rattle, left' % (p, n)); continue
            DEFS[n][p] = kind
            if pub or kind in ('field', 'ctor'): PUB[p].add(n)
        if kind == 'fun' or kind == 'type': blocks.append((ind, 'sig'))

def resolves(p, n, seen=()):
    """True where name n of file p is the repository's"""
    if p is None or (p, n) in seen: return False
    if p in DEFS.get(n, {}): return True
    for t, path, m, a, pub in IMPORTS[p]:
        if (a or m) == n and pub: return resolves(t, m, seen + ((p, n),)) if a is None else False
    return False

# ---- new spelling
def humps(w):
    w = re.sub(r'([a-z0-9])([A-Z])', r'\1_\2', w)
    w = re.sub(r'([A-Z])([A-Z][a-z])', r'\1_\2', w)
    return w.lower()
def snake(n): return re.sub(r'_+', '_', '_'.join(humps(x) for x in n.split('-')))
def camel(n): return ''.join(x[:1].upper() + x[1:] for x in re.split(r'[-_]', n))
def spelled(n, kinds):
    m = n.replace('′', "'")
    if not re.match(r"[A-Za-z][A-Za-z0-9_'-]*\Z", m):
        if re.match(r'[a-z].*[A-Z-]|[A-Z].*-.*-', m) and len(n) > 1: look('%s: has a symbol, left' % n)
        return n
    if m.endswith('-') or '--' in m: look('%s: left' % n); return n
    if m[0].isupper():
        if '-' not in m: return m
        a, b = m.split('-', 1); return a + '-' + snake(b)
    if kinds == {'type'}: return camel(m)
    if 'type' in kinds: look('%s: a type here and a function there; spelled as a function' % n)
    return snake(m)
NEW = {}
for n in sorted(DEFS):
    new = spelled(n, set(DEFS[n].values()))
    if new != n: NEW[n] = new

# ---- what stands where, before
BARE, DOT = {}, {}
RTTOK = re.compile(r'''(?P<str>b?"(?:\\.|[^"\\])*"|b?'(?:\\.[^']*|[^'\\\n])')|(?P<com>//[^\n]*)|(?P<q>«[^»]*»)|(?P<id>[A-Za-z_][A-Za-z0-9_]*['′]*)''', re.S)
BLOCKS = {}
for p in ANTT:
    s = TEXT[p]; BARE[p] = set(); DOT[p] = set(); BLOCKS[p] = []; heads = set()
    for part in re.split(r'\n[ \t]*\n', s):
        b = set()
        for a, e, k in scan(part):
            if k == 'tok': b.add(part[a:e])
            elif k == 'dot': DOT[p].add(part[a:e])
        BLOCKS[p].append(b); BARE[p] |= b
    for l in s.split('\n'):
        if re.match(r'\s*(module|(pub )?(record|data))\s', l): heads |= set(re.findall(TOK, l))
    BLOCKS[p].append(('heads', heads))
RTIDS, RTHIDE, RTCONST = {}, {}, defaultdict(set)
for p in RT:
    ids = set(); s = TEXT[p]
    for m in RTTOK.finditer(s):
        if m.lastgroup == 'q': ids.add(m.group(0)[1:-1])
        elif m.lastgroup == 'id': ids.add(m.group(0))
    RTIDS[p] = ids
    code = re.sub(r'//[^\n]*', '', s)
    RTHIDE[p] = set(re.findall(r'\b([a-z_][a-z0-9_]*)\s*:(?!:)', code))
    for c in re.findall(r'\b(?:const|static)\s+(?:mut\s+)?([A-Za-z_]\w*)', code): RTCONST[crate(p)].add(c)
    for f in re.findall(r'\bfn\s+([A-Za-z_]\w*)', code): RTCONST[crate(p) + '/fn'].add(f)
LIBRARY = set()
for f in ('std/specs/Prelude.antt', 'std/proofs/Common.antt'):
    f = '/opt/rattle/rattle/' + f
    if os.path.exists(f):
        for m in use_re(read(f)):
            if m.group(2): LIBRARY |= {a or n for n, a in names_in(m.group(2))}
LIB = defaultdict(set)        # file -> names with a library's meaning
for p in ANTT + RT + EDIT:
    for t, path, n, a, pub in IMPORTS[p]:
        x = a or n
        if a is not None or not resolves(t, n): LIB[p].add(x)
    if p in LOCAL: LIB[p] |= LOCAL[p]
    LIB[p] -= {n for n in LIB[p] if p in DEFS.get(n, {})}
for p in ANTT + RT:
    both = {n for t, q, n, a, pub in IMPORTS[p] if a is None and resolves(t, n)} & LIB[p] & set(NEW)
    for n in sorted(both): look('%s: %s is imported from a library and from here' % (p, n))

KEYWORDS = set('use pub mod module where let in case of record data open as if then else abbrev unfoldable unfolding Type rw simp omega'.split())
def users(n): return [p for p in ANTT if n in BARE[p] and n not in LIB[p]] if n not in USERS else USERS[n]
USERS = {}
for n in set(NEW) | set(NEW.values()) | set(DEFS):
    pass
index = defaultdict(list); rindex = defaultdict(list)
for p in ANTT:
    for x in BARE[p]:
        if x not in LIB[p]: index[x].append(p)
for p in RT:
    for x in RTIDS[p]: rindex[x].append(p)

def clash(n, new, taken):
    """why `new` will not do for n, or None"""
    kinds = set(DEFS[n].values()); fieldonly = kinds == {'field'}
    if new in KEYWORDS: return 'is a keyword'
    others = [o for o in taken.get(new, ()) if o != n]
    if new in DEFS: others.append(new)
    for o in others:
        ok = set(DEFS[o].values())
        if fieldonly or ok == {'field'}:
            shared = set(DEFS[n]) & set(DEFS[o])
            if shared and fieldonly and ok == {'field'}:
                for p in sorted(shared):
                    for b in BLOCKS[p][:-1]:
                        if n in b and o in b: return 'is %s too, in %s' % (o, p)
            if fieldonly != (ok == {'field'}): continue
            continue
        same = {crate(p) for p in DEFS[n]} & {crate(p) for p in DEFS[o]}
        near = set(index[n] + rindex[n]) & set(index[o] + rindex[o])
        if same or near: return '%s falls together with %s (%s)' % (n, o, sorted(near)[0] if near else 'crate ' + sorted(same)[0])
    if fieldonly: return None
    if new in LIBRARY: return '%s is a name of the library' % new
    for p in index[n]:
        if new in BARE[p]:
            if new in LIB[p]: return '%s: %s is imported or local there' % (p, new)
            if new in DEFS and any(resolves(t, m) for t, q, m, a, pb in IMPORTS[p] if (a or m) == new): continue
            if p in DEFS.get(new, {}): continue
            if 'ctor' in kinds: return '%s: binder %s would be the constructor' % (p, new)
            for b in BLOCKS[p]:
                if isinstance(b, tuple):
                    if new in b[1]: return '%s: binder %s is hidden by a head' % (p, new)
                elif new in b and n in b: return '%s: binder %s hides %s' % (p, new, n)
    for p in rindex[n]:
        if new in RTHIDE[p]: return '%s: parameter or field %s hides %s' % (p, new, n)
        if new in RTCONST[crate(p)]: return '%s: constant %s' % (p, new)
    return None
taken = defaultdict(list)
for n in sorted(NEW, key=lambda x: ('-' in x, x)):
    new = NEW[n]; why = clash(n, new, taken)
    if why:
        kinds = set(DEFS[n].values()); first = new
        o = [x for x in taken.get(new, [])] + ([new] if new in DEFS else [])
        lemma = kinds == {'fun'} and ('-' in n) and o and not any('-' in x for x in o)
        for suf in (['_lem'] if lemma else []) + ['_of', '_here', '_own', '_of2']:
            if new[0].isupper(): suf = {'_of': 'Of', '_here': 'Here', '_own': 'Own'}.get(suf, suf) if '-' not in new else suf
            if clash(n, first + suf, taken) is None: new = first + suf; break
        look('%s -> %s, for %s' % (n, new, why))
    NEW[n] = new; taken[new].append(n)
for n in sorted(NEW):
    for p in rindex[n]:
        if NEW[n] in RTCONST[crate(p) + '/fn'] and re.search(r'\bfn %s\b' % re.escape(NEW[n]), TEXT[p]):
            look('%s: note: fn %s stands beside the definition %s' % (p, NEW[n], n))
FIELDS = {n for n in DEFS if 'field' in DEFS[n].values()}

# ---- names that files give themselves with `as`
ALIAS = defaultdict(dict)
for p in ANTT + RT:
    al = {a for t, q, n, a, pub in IMPORTS[p] if a} | set(MODALIAS[p])
    for a in sorted(al):
        m = spelled(a, {'fun'})
        if m == a or a[0].isupper() or (p in DEFS.get(a, {})): continue
        hid = (BARE[p] if p in BARE else RTIDS[p]) | {NEW.get(x, x) for x in (BARE[p] if p in BARE else RTIDS[p]) if x != a}
        first = m
        for suf in ('', '_of', '_here', '_own'):
            if first + suf not in hid: m = first + suf; break
        if m != first: look('%s: alias %s -> %s' % (p, a, m))
        ALIAS[p][a] = m

# ---- rewriting
LEFT = defaultdict(set)
ROOT = {'tie', 'goal', 'Tie', 'Goals', 'Given', 'Lts', 'Statement'}
def rename(p, t, dotted=None, nxt='', lib=True):
    """the new spelling of the token t in file p; dotted: the token before the dot"""
    if dotted is None:
        if t in ALIAS[p]: return ALIAS[p][t]
        if t not in NEW: return t
        if lib and t in LIB[p]: return t
        return NEW[t]
    if t in ALIAS[p] and False: return t
    if t not in NEW: return t
    if dotted in ROOT or MODALIAS[p].get(dotted) is False: return t
    if nxt.startswith(('.ensures', '.requires')):
        look('%s: .%s is Rattle\'s, left' % (p, t)); return t
    if nxt.startswith(('.ensures', '.requires', '.before', '.args', '.result')) and t not in FIELDS:
        look('%s: .%s is Rattle\'s, left' % (p, t)); return t
    if t not in FIELDS and dotted not in MODALIAS[p] and not dotted[0].isupper() and 'ctor' not in DEFS[t].values():
        look('%s: %s.%s is no field of ours, left' % (p, dotted, t)); return t
    return NEW[t]

def use_lines(p, s):
    """names inside braces of use lines are renamed by what they mean; returns text with these protected"""
    out = []; pos = 0; keep = []
    for m in use_re(s):
        ls = s.rfind('\n', 0, m.start()) + 1
        if '--' in s[ls:m.start()] or '//' in s[ls:m.start()] or m.group(2) is None: continue
        if (p.endswith('.rt') or p.endswith('.edit')) and 'ghost' not in s[ls:m.start()] and not p.endswith('.antt'):
            if not (p.endswith('.edit') and 'Rattle' in m.group(1)): continue
        t = target(m.group(1)); a, b = m.span(2); quoted = p.endswith(('.rt', '.edit'))
        parts = []
        for part in s[a:b].split(','):
            w = part.replace('«', '').replace('»', '').split()
            if not w: parts.append(part); continue
            n = NEW.get(w[0], w[0]) if (resolves(t, w[0]) or (t and not any((y or x) == w[0] for _, _, x, y, _ in IMPORTS[t]))) else w[0]
            new = [n] + w[1:]
            if len(w) == 3 and w[1] == 'as': new[2] = ALIAS[p].get(w[2], w[2])
            if len(new) == 3 and new[0] == new[2]: new = new[:1]
            if new == w: parts.append(part); continue
            sp = part[:len(part) - len(part.lstrip())]; en = part[len(part.rstrip()):]
            q = (lambda x: x if x == 'as' or IDENT.match(x) or not had(part, x) else '«%s»' % x)
            had = lambda part, x: quoted and not IDENT.match(x) and x.isascii()
            parts.append(sp + ' '.join(q(x) for x in new) + en)
        out.append(s[pos:a]); keep.append(','.join(parts)); out.append('\0%d\0' % (len(keep) - 1)); pos = b
    out.append(s[pos:])
    return ''.join(out), keep
def restore(s, keep): return re.sub('\0(\\d+)\0', lambda m: keep[int(m.group(1))], s)

def comment(p, t, quoted=False):
    return NEW[t] if t in NEW and re.search(r"[A-Z′-]", t[1:]) and t not in LIB[p] else t
def antt(p, s):
    s, keep = use_lines(p, s); out = []; pos = 0
    for a, e, k in scan(s):
        out.append(s[pos:a]); t = s[a:e]; pos = e
        if k == 'com': out.append(re.sub(TOK, lambda m: comment(p, m.group(0)), t) if '\0' not in t else t)
        elif k == 'dot':
            m = re.search(r'(%s)\.\Z' % TOK, s[max(0, a - 200):a]); d = m.group(1) if m else ')'
            out.append(rename(p, t, d, s[e:e + 12]))
        elif '\0' in t: out.append(t)
        else:
            # the head of a path is an alias of a module, never a name of a library
            isfield = t in FIELDS and t in NEW and t in LIB[p] and re.search(r'(record|[;{])[^;{}]*\Z', s[max(0, a - 60):a]) and re.match(r'\s*=', s[e:e + 5]) and re.search(r'[;{]\s*\Z', s[max(0, a - 20):a])
            out.append(rename(p, t, lib=not isfield))
    out.append(s[pos:])
    return restore(''.join(out), keep)

def clauses(s):
    """the spans of clauses and ghost lines"""
    spans = []
    for m in re.finditer(r'\b(?:requires|ensures|invariant|decreases|ghost)\b', s):
        i = s.find('{', m.end()); j = s.find('\n', m.end())
        if i < 0 or (j >= 0 and i > j and s[m.end():j].strip()): continue
        spans.append((i, group(s, i)))
    return spans
def rust(p, s):
    s, keep = use_lines(p, s); spans = clauses(s); out = []; pos = 0
    for m in RTTOK.finditer(s):
        a, e = m.span(); t = m.group(0); k = m.lastgroup
        out.append(s[pos:a]); pos = e
        if k == 'com': out.append(re.sub(r'`[^`\n]+`', lambda q: re.sub('«[^»]*»|' + TOK, lambda w: comment(p, w.group(0)), q.group(0)), t) if '\0' not in t else t)
        elif k == 'str': out.append(t)
        else:
            w = t[1:-1] if k == 'q' else t
            inside = any(x <= a < y for x, y in spans)
            if k == 'id' and not inside and not re.search(r'[a-z0-9][A-Z]', w): out.append(t); continue
            if k == 'id' and w[0].isupper(): out.append(t); continue
            d = re.search(r"([\w'»)]+)\.\Z", s[max(0, a - 80):a])
            n = rename(p, w, d.group(1) if d else None) if not d else (NEW[w] if w in NEW and w in FIELDS | {x for x in NEW} else w)
            out.append(t if n == w else n if IDENT.match(n) else '«%s»' % n)
    out.append(s[pos:])
    return restore(''.join(out), keep)
def edit(p, s):
    lines = s.split('\n'); f = ''
    for i, l in enumerate(lines):
        m = re.match(r'file:\s*(\S+)', l)
        if m: f = m.group(1); continue
        m = re.match(r'(old|new): ?', l)
        if l.startswith('#'):
            lines[i] = re.sub(r'`[^`\n]+`', lambda q: re.sub(TOK, lambda w: comment(p, w.group(0)), q.group(0)), l); continue
        h = m.end() if m else 0
        t = 'crates/%s/%s' % (crate(p), f)
        for x in ('LIB', 'ALIAS', 'MODALIAS'):
            if t in globals()[x]: globals()[x][p] = globals()[x][t]
        lines[i] = l[:h] + (antt if f.endswith('.antt') else rust)(p, l[h:])
    return '\n'.join(lines)

changed = 0
for p in ANTT + RT + EDIT:
    s = (antt if p.endswith('.antt') else rust if p.endswith('.rt') else edit)(p, TEXT[p])
    if s != ORIG[p]:
        changed += 1
        if not CHECK: write(p, s)
for l in LOOK: print('look:', l)
if TABLE:
    with open(TABLE, 'w', encoding='utf-8') as f:
        for n in sorted(NEW): f.write('%s\t%s\n' % (n, NEW[n]))
print('%d names respelled, %d files changed' % (len(NEW), changed), '(nothing written)' if CHECK else '')
loc = sorted({n for p in LOCAL for n in LOCAL[p] if re.search(r'[a-z][A-Z]', n)})
