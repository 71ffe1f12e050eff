#!/usr/bin/env python3
"""Turns walks of the code by hand (proofs/F/Proof.antt, as port.py leaves them) to Invariants.antt and Answers.antt.

usage, at the top of the repository, once the crates below CRATE prove:
    (cd crates/CRATE && rt check --generated /tmp/names --old-names)      goals and steps, each with its old and new name
    move each Proof.antt of the crate to FOLDER, at its path below proofs/
    python3 docs/unfinished/walks_to_answers.py /tmp/names/names.json CRATE FOLDER crates/CRATE/proofs

It brought LANDED's 223 walks over but for some 20 functions, and is kept for the unfinished crate. It goes by text: a line '-- LOOK' says where it
could not tell. Answers by `search rules` or `omega arith` alone are left out, since the check tries these itself. Helpers on a place of the walk become typed `let`s.
(`--old-names` goes with a later kit.)
"""
import json, os, re, sys

def norm(s): return s.replace('-', '_').replace('·', '_')

TOK = re.compile(r"--[^\n]*|\"(?:[^\"\\]|\\.)*\"|[ \t\n]+|[(){}\[\],;]|\.\.|[^\s(){}\[\],;]+")

def tokens(s):
    return [m.group() for m in TOK.finditer(s)]

class Bad(Exception): pass

class Fn:
    def __init__(self, info):
        self.needs = {}
        self.asked = {}
        for (old, new), (place, newplace) in zip(info['needs'], info['asked_at']):
            self.needs[norm(old)] = new
            self.asked[norm(old)] = place
        self.settled = info['settled']
        self.clauses_asked = {k: v for k, v in info.get('asked', {}).items()}
        self.parent, self.field, self.fnof = {}, {}, {}
        self.arms = {}
        for pl in info['places']:
            name, parent, (old, new) = pl[0], pl[1], pl[2]
            self.parent[name] = parent
            self.fnof[name] = pl[3]
            self.field.setdefault(name, []).append((old, new))
        self.armof = {}
        for pl, arm in zip(info['places'], info['arms']):
            if arm: self.armof[pl[0]] = arm
        self.loops = []
        for i, ((old, new), vs) in enumerate(info['loops']):
            ch = info['changed'][i] if i < len(info['changed']) else [False]*len(vs)
            self.loops.append((old, new, vs, ch))
        # place name by normalized
        self.places = {norm(n): n for n in self.parent}

def find_place(fn, t):
    """tie.Else3 -> place"""
    n = norm(t)
    if n in fn.places: return fn.places[n]
    return None

class Conv:
    def __init__(self, fn, text):
        self.fn = fn
        self.macros = {}   # name -> (params, body, unfolding, kind)
        self.problems = []
        self.used_unfold = set()
        self.fnof = fn.fnof

        self.lets, self.letlist, self.mtypes = {}, [], {}

    def own(self, place, comp):
        """the new name of an old field at a place"""
        for old, new in self.fn.field.get(place, []):
            o = norm(old)
            c = norm(comp)
            if o == c or re.sub(r'_?\d+$', '', o) == re.sub(r'_?\d+$', '', c) and len(self.fn.field[place]) == 1:
                return new
        return None

    def path(self, head_place, comps):
        """resolve comps from place; returns ('place', p) or ('text', s)"""
        p = head_place
        i = 0
        while i < len(comps) and comps[i] == 'before':
            p = self.fn.parent.get(p) or p
            i += 1
        if i == len(comps): return ('place', p)
        f = comps[i]
        rest = comps[i+1:]
        # the field by its whole old name, on the way from where c is
        q = self.at
        while q is not None:
            if any(norm(o) == norm(f) for o, n in self.fn.field.get(q, [])): p = q; break
            q = self.fn.parent.get(q)
        q = self.at
        while q is not None:
            arm = self.fn.armof.get(q)
            if arm:
                for newf, oldf, way in arm[2]:
                    if way and norm(oldf) == norm(f) and rest[:len(way)] == way:
                        return ('text', '.'.join(['c', arm[0], newf] + rest[len(way):]))
            q = self.fn.parent.get(q)
        new = self.own(p, f)
        if new is not None and len(rest) >= 2 and rest[0] in ('ensures', 'requires') and rest[1].isdigit():
            names = CLAUSES.get(rest[0], {}).get(self.fnof.get(p) or '', [])
            if len(names) >= 2:
                nm, left_ = pick(names, rest[1:])
                if nm: rest = [rest[0], nm] + left_
        if f == 'requires' and rest and rest[0].isdigit() and self.fn.name:
            names = CLAUSES['requires'].get(self.fn.name, [])
            if len(names) >= 2:
                nm, left_ = pick(names, rest)
                if nm: rest = [nm] + left_
        if new is None:
            # maybe it is a field of a nearer or further place
            q = p
            while q is not None:
                new = self.own(q, f)
                if new is not None: break
                q = self.fn.parent.get(q)
            if new is None:
                if f == "well-formed": f = "well_formed"
                if f == "pre": f = "requires"
                if f in ('args', 'requires', 'ranges', 'lifetimes', 'well_formed', 'type_inv', 'utf8'):
                    new = f
                else:
                    new = f
                    self.problems.append(f'field {f} at {p}')
        return ('text', '.'.join(['c', new] + rest))

    def place_expr(self, toks, env):
        """try to read tokens as a place: NAME(.before)* | macro place | ( place )"""
        ts = [t for t in toks if t.strip()]
        if not ts: return None
        if len(ts) == 1:
            comps = ts[0].split('.')
            if comps[0] in env and all(c == 'before' for c in comps[1:]):
                r = self.path(env[comps[0]], comps[1:])
                return r[1]
            return None
        if ts[0] == '(' :
            # matching paren
            d = 0
            for j, t in enumerate(ts):
                if t in '([{': d += 1
                elif t in ')]}':
                    d -= 1
                    if d == 0: break
            inner = self.place_expr(ts[1:j], env)
            if inner is None: return None
            if j == len(ts)-1: return inner
            if j == len(ts)-2 and ts[-1].startswith('.'):
                comps = ts[-1][1:].split('.')
                if all(c == 'before' for c in comps):
                    return self.path(inner, comps)[1]
            return None
        if ts[0] in self.macros:
            params, body, unf, kind = self.macros[ts[0]]
            args = self.split_args(ts[1:], len(params))
            if args is None or args[1]: return None
            vals = [self.place_expr(a, env) for a in args[0]]
            if any(v is None for v in vals): return None
            e2 = dict(zip(params, vals))
            return self.place_expr(tokens(body), e2)
        return None

    def split_args(self, ts, n):
        """first n arguments of a token list (no blanks); returns (args, rest)"""
        out = []
        i = 0
        while len(out) < n:
            if i >= len(ts): return None
            if ts[i] in ('(', '{'):
                d = 0
                j = i
                while True:
                    if ts[j] in ('(', '[', '{'): d += 1
                    elif ts[j] in (')', ']', '}'):
                        d -= 1
                        if d == 0: break
                    j += 1
                a = ts[i:j+1]
                j += 1
                while j < len(ts) and ts[j].startswith('.') and len(ts[j]) > 1:
                    a = a + [ts[j]]
                    j += 1
                out.append(a)
                i = j
            else:
                out.append([ts[i]])
                i += 1
        return out, ts[i:]

    def body(self, text, env):
        """translate a body"""
        ts = tokens(text)
        out = []
        i = 0
        while i < len(ts):
            t = ts[i]
            if t == 'let':
                # let NAME = EXPR in   (no type)
                j = i+1
                while not ts[j].strip(): j += 1
                name = ts[j]
                k = j+1
                while not ts[k].strip(): k += 1
                if ts[k] == '=':
                    # find matching in at depth 0
                    m = k+1; d = 0; lets = 0
                    while m < len(ts):
                        if ts[m] in '([{' and len(ts[m]) == 1: d += 1
                        elif ts[m] in ')]}' and len(ts[m]) == 1: d -= 1
                        elif ts[m] == 'let': lets += 1
                        elif ts[m] == 'in' and d == 0:
                            if lets == 0: break
                            lets -= 1
                        m += 1
                    p = None
                    try:
                        p = self.place_expr(ts[k+1:m], env)
                    except Bad as b:
                        self.problems.append(str(b))
                    if p is not None:
                        env = dict(env); env[name] = p
                        i = m+1
                        while i < len(ts) and not ts[i].strip(): i += 1
                        continue
                    if name in env:
                        env = dict(env)
                        inner = self.body(''.join(ts[k+1:m]), env)
                        del env[name]
                        out.append(f'let {name} = {inner.strip()} ')
                        i = m
                        continue
            if t == '(':
                # parenthesized place followed by .field ?
                d = 0; j = i
                while j < len(ts):
                    if ts[j] in ('(', '[', '{'): d += 1
                    elif ts[j] in (')', ']', '}'):
                        d -= 1
                        if d == 0: break
                    j += 1
                if j+1 < len(ts) and ts[j+1].startswith('.') and len(ts[j+1]) > 1:
                    p = self.place_expr(ts[i+1:j], env)
                    if p is not None:
                        r = self.path(p, ts[j+1][1:].split('.'))
                        if r[0] == 'text':
                            out.append(r[1]); i = j+2; continue
            m = re.match(r"^([^\W\d][\w'·₀-]*)((?:\.[\w'·«»-]+)*)$", t)
            if m:
                head = m.group(1); comps = [c for c in m.group(2).split('.') if c]
                if head in env:
                    r = self.path(env[head], comps)
                    if r[0] == 'text':
                        out.append(r[1]); i += 1; continue
                    self.problems.append(f'place {t} passed on')
                    out.append(t); i += 1; continue
                if head in self.macros and not comps:
                    params, mb, unf, kind = self.macros[head]
                    # gather args
                    rest = ts[i+1:]
                    a = []; pos = 0; ok = True
                    for _ in params:
                        while pos < len(rest) and not rest[pos].strip(): pos += 1
                        if pos >= len(rest): ok = False; break
                        if rest[pos] in ('(',):
                            d = 0; j = pos
                            while True:
                                if rest[j] in ('(', '[', '{'): d += 1
                                elif rest[j] in (')', ']', '}'):
                                    d -= 1
                                    if d == 0: break
                                j += 1
                            j += 1
                            while j < len(rest) and rest[j].startswith('.') and len(rest[j]) > 1: j += 1
                            a.append(rest[pos:j]); pos = j
                        else:
                            a.append([rest[pos]]); pos += 1
                    if ok and (kind == 'def' or 'tie.' not in arrow_last(self.mtypes[head])):
                        ps = []
                        for av in a:
                            try: ps.append(self.place_expr(av, env))
                            except Bad as b: ps.append(None)
                        if all(x is not None for x in ps):
                            key = (head, tuple(ps))
                            if key not in self.lets:
                                e2 = dict(zip(params, ps))
                                mt = self.mtypes[head]
                                # the type behind the parameters
                                tt = mt
                                for _ in params:
                                    k0 = arrow_at(tt)
                                    lead = tt[:k0].strip()
                                    tt = tt[k0+1:].strip()
                                    mm0 = re.match(r"^\(([^\s:]+(?: [^\s:]+)*) : (.*)\)$", lead, re.S)
                                tt = tt.strip()
                                tnames = re.findall(r"\(([^\s:()]+) : tie\.", mt)
                                e3 = dict(e2)
                                for tn, pl in zip(tnames, ps): e3[tn] = pl
                                ttype = re.sub(r"\s+", " ", self.body(tt, e3).strip())
                                tbody = self.body(mb, e2).strip()
                                self.used_unfold |= set(unf)
                                nm = head if not any(l[0] == head for l in self.letlist) else head + "'" * sum(l[0].rstrip("'") == head for l in self.letlist)
                                self.lets[key] = nm
                                self.letlist.append((nm, ttype, tbody))
                            out.append(self.lets[key])
                            i += 1 + pos
                            continue
                    if ok:
                        e2 = {}; sub = {}
                        for pn, av in zip(params, a):
                            p = None
                            try: p = self.place_expr(av, env)
                            except Bad as b: self.problems.append(str(b))
                            if p is not None: e2[pn] = p
                            else: sub[pn] = self.body(''.join(av), env)
                        mb2 = mb
                        for pn, s in sub.items():
                            mb2 = re.sub(r"(?<![\w'.·-])"+re.escape(pn)+r"(?![\w'·-])", lambda _m: s, mb2)
                        self.used_unfold |= set(unf)
                        inner = self.body(mb2, e2)
                        out.append('(' + re.sub(r'\s+', ' ', inner.strip()) + ')')
                        i += 1 + pos
                        continue
            out.append(t)
            i += 1
        return ''.join(out)

def pick(names, path):
    """which of a contract's clauses a path of .0 and .1 through nested pairs means"""
    k = 0
    path = list(path)
    while path and k < len(names) - 1:
        if path[0] == '0': return names[k], path[1:]
        if path[0] != '1': return None, path
        path = path[1:]
        k += 1
    return (names[k], path) if k == len(names) - 1 else (None, path)

CLAUSES = {'ensures': {}, 'requires': {}}

def read_clauses(top):
    """the clause names of each function of the crates, by name as names.json has it"""
    import glob
    for p in glob.glob(top + '/crates/*/src/**/*.rt', recursive=True):
        rel = p[len(top):].split('/')
        crate = rel[2]
        mods = [m for m in '/'.join(rel[4:])[:-3].split('/') if m not in ('lib', 'main')]
        impl = []
        fn = None
        for l in open(p):
            m = re.match(r"^impl(?:<[^>]*>)?\s+(?:.* for )?(\w+)", l)
            if m: impl = [m.group(1)]
            if l.startswith('}'): impl = []
            m = re.match(r"\s*(?:pub(?:\(crate\))? )?(?:unsafe )?(?:extern \"C\" )?fn (\w+)", l)
            if m:
                fn = '::'.join([crate] + mods + (impl if l.startswith(' ') else []) + [m.group(1)])
                continue
            m = re.match(r"\s*(ensures|requires)\*? (\w+) \{", l)
            if m and fn: CLAUSES[m.group(1)].setdefault(fn, []).append(m.group(2))

def top_parts(s):
    """the parts of a tuple '( a, b, c )', or None"""
    s = s.strip()
    if not s.startswith('('): return None
    d = 0; parts = []; cur = ''
    for i, ch in enumerate(s):
        if ch in '([{':
            d += 1
            if d == 1: continue
        if ch in ')]}':
            d -= 1
            if d == 0:
                if s[i+1:].strip(): return None
                if cur.strip(): parts.append(cur.strip())
                return parts
        if ch == ',' and d == 1:
            parts.append(cur.strip()); cur = ''
        else: cur += ch
    return None

def as_record(body, names):
    """a tuple of as many parts as there are clauses, as a record of them by name; lets before it stay"""
    m = re.match(r"^((?:\s*let .*? in\n?)*\s*)(\(.*\))\s*$", body, re.S)
    cand = [body] if not m else [body, m.group(2)]
    for c in cand:
        parts = top_parts(c)
        if parts is None: continue
        # nested pairs
        while len(parts) < len(names) and parts and top_parts(parts[-1]):
            parts = parts[:-1] + top_parts(parts[-1])
        if len(parts) == len(names):
            rec = 'record { ' + '; '.join(f'{n} = {p}' for n, p in zip(names, parts)) + ' }'
            return body[:len(body) - len(body[body.index(c):])] + rec if body.strip() != c.strip() else rec
    # the tuple stands last, behind lets
    depth = 0
    i = body.rstrip()
    if i.endswith(')'):
        d = 0
        for k in range(len(i)-1, -1, -1):
            if i[k] in ')]}': d += 1
            elif i[k] in '([{':
                d -= 1
                if d == 0: break
        c = i[k:]
        parts = top_parts(c)
        pre = i[:k].rstrip()
        if parts and pre.endswith(' in'):
            while len(parts) < len(names) and top_parts(parts[-1]):
                parts = parts[:-1] + top_parts(parts[-1])
            if len(parts) == len(names):
                return i[:k] + 'record { ' + '; '.join(f'{n} = {p}' for n, p in zip(names, parts)) + ' }'
    return body

DECL = re.compile(r"^(?:abbrev )?(?:pub )?(\S+) : ", re.M)

def arrow_last(s):
    while True:
        k = arrow_at(s)
        if k >= len(s): return s
        s = s[k+1:]

def arrow_at(s):
    d = 0
    for k, ch in enumerate(s):
        if ch in '([{': d += 1
        elif ch in ')]}': d -= 1
        elif ch == '→' and d == 0: return k
    return len(s)

def split_decls(text):
    """top-level declarations: list of (comment, head lines...)"""
    lines = text.split('\n')
    items = []
    cur = []
    def flush():
        nonlocal cur
        if cur: items.append('\n'.join(cur)); cur = []
    # group by blank lines, then merge blocks that start indented
    blocks = []
    b = []
    for l in lines:
        if not l.strip():
            if b: blocks.append(b); b = []
        else: b.append(l)
    if b: blocks.append(b)
    out = []
    for b in blocks:
        if out and (b[0].startswith(' ')):
            out[-1] += [''] + b
        else:
            out.append(b)
    return out

def convert(path, fn, modname, crate):
    text = open(path).read()
    blocks = split_decls(text)
    uses = []
    head_comment = []
    decls = []   # (comment, abbrev, name, type, unfolding, clauses text)
    for b in blocks:
        com = []
        i = 0
        while i < len(b) and b[i].startswith('--'):
            com.append(b[i]); i += 1
        rest = b[i:]
        if not rest:
            decls.append((com, None, None, None, None, None)); continue
        if rest[0].startswith('use ') or rest[0].startswith('pub use'):
            if com: head_comment += com
            uses += [l for l in rest if l.startswith('use ')]
            rest = [l for l in rest if not l.startswith('use ')]
            if not rest: continue
            com = []
        # could hold several declarations with no blank line between? find starts
        starts = [k for k, l in enumerate(rest) if re.match(r"^(abbrev )?(pub )?[^\s:]+ : ", l) or re.match(r"^(abbrev )?(pub )?[^\s:]+ *\{.*\} : ", l)]
        if not starts:
            decls.append((com, 'raw', None, '\n'.join(rest), None, None)); continue
        for n, s in enumerate(starts):
            e = starts[n+1] if n+1 < len(starts) else len(rest)
            d = rest[s:e]
            m = re.match(r"^(abbrev )?(pub )?([^\s:]+) ", d[0])
            name = m.group(3)
            k = 1
            typ = d[0].split(' : ', 1)[1]
            while k < len(d) and d[k].startswith(' '):
                typ += ' ' + d[k].strip(); k += 1
            unf = []
            if k < len(d) and d[k].startswith('unfolding '):
                unf = d[k].split()[1:]; k += 1
            decls.append((com if n == 0 else [], 'abbrev' if m.group(1) else 'def', name, typ, unf, d[k:]))
    cv = Conv(fn, text)
    invariants, answers, lemmas = [], [], []
    skipped = []
    problems = []
    tie_spec_names = None
    for com, kind, name, typ, unf, cl in decls:
        if kind == 'raw':
            lemmas.append('\n'.join(com + [typ])); continue
        if name is None:
            if com: answers.append('\n'.join(com)) if False else None
            continue
        if re.search(r'-spec$|_spec$', name) and 'statement' in typ:
            continue
        ntyp = typ.strip()
        m = re.match(r"^tie\.(invariant-\S+|decreases-\S+|decreases\S*)$", ntyp)
        clause0 = '\n'.join(cl)
        if m or re.match(r"^tie\.(invariant|decreases)", ntyp):
            # invariant: name l params
            what = 'invariant' if name.startswith('invariant') else 'decreases'
            loopname = norm(name.split('-', 1)[1]) if '-' in name else norm(name.split('_',1)[1])
            lp = [l for l in fn.loops if norm(l[0]) == loopname]
            mm = re.match(re.escape(name) + r"((?:\s+\S+)*?)\s+=\s*(.*)$", clause0, re.S)
            if not lp or not mm:
                problems.append(f'loop of {name}'); lemmas.append(clause0); continue
            old, new, vs, ch = lp[0]
            params = mm.group(1).split()
            # order: all variables (changed ones initial), then changed
            exp = []
            for v, c in zip(vs, ch): exp.append(('l.initial.' if c else 'l.') + v)
            for v, c in zip(vs, ch):
                if c: exp.append('l.' + v)
            bodyt = mm.group(2)
            if len(params) != len(exp):
                problems.append(f'{name}: {len(params)} parameters, {len(exp)} variables {exp}')
            mp = {p: e for p, e in zip(params, exp) if p != '_'}
            def sub(t):
                return re.sub(r"(?<![\w'.·₀-])([^\W\d][\w'₀·]*)(?![\w'₀·-])", lambda m_: mp.get(m_.group(1), m_.group(1)), t)
            # keep record field names: 'record { state = state0 ...' left sides
            def sub_rec(t):
                out = []
                for part in re.split(r"(\b[\w'-]+ = )", t):
                    if re.fullmatch(r"\b[\w'-]+ = ", part) : out.append(part)
                    else: out.append(sub(part))
                return ''.join(out)
            u = (['unfolding ' + ' '.join(unf)] if unf else [])
            invariants.append('\n'.join(com + [f'abbrev pub {what}-{new} : goal.{what}-{new}'] + u + [f'{what}-{new} l = ' + sub_rec(bodyt)]))
            continue
        m = re.match(r"^tie\.Need-(\S+)", ntyp)
        if m:
            key = norm(name)
            tkey = norm(m.group(1))
            new = fn.needs.get(key)
            src = key
            if new is None:
                new = fn.needs.get(tkey); src = tkey
            # the names of loops' goals: loop-holds, loop-less, loop-again
            if new is None:
                alias = {'holds': 'init', 'less': 'smaller', 'again': 'preserved'}
                for a, b_ in alias.items():
                    k2 = key.replace('_'+a, '_'+b_)
                    if k2 in fn.needs: new = fn.needs[k2]; src = k2
            mm = re.match(re.escape(name) + r"\s+(\S+)((?:\s+\S+)*?)\s+=\s*(.*)$", clause0, re.S)
            if not mm:
                problems.append(f'clause of {name}'); lemmas.append('{- ' + clause0 + ' -}'); continue
            var, more, bt = mm.group(1), mm.group(2).split(), mm.group(3)
            trivial = bt.strip() in ('search rules', 'omega arith', 'tt', 'refl', 'search needs')
            if new is None:
                if trivial: continue
                skipped.append(f'{name} : {ntyp}\n{clause0}')
                continue
            if trivial and not unf: continue
            place = fn.asked[src]
            cv.problems = []
            cv.used_unfold = set()
            cv.lets, cv.letlist = {}, []
            env = {var: place}
            cv.at = place
            try:
                nb = cv.body(bt, env)
            except Bad as e:
                cv.problems.append(str(e)); nb = bt
            asked = fn.clauses_asked.get(new) or fn.clauses_asked.get(src) or (fn.clauses_asked.get('returns') if new.startswith('returns') else None) or (CLAUSES['ensures'].get(fn.name) if new.startswith('returns') else None)
            if asked and len(asked) >= 2: nb = as_record(nb, asked)
            if cv.letlist:
                nb = '\n    ' + ''.join(f'let {n} : {ty} =\n      {bd} in\n    ' for n, ty, bd in cv.letlist) + nb.lstrip()
            nb = re.sub(r", c\.[^\s,()]+\.auto\.[\d.]+(?=[,)])", "", nb)
            nb = re.sub(r"not-(?:true|false) (_|[^\s()]+|\([^()]*\)) (c\.if-not-[^\s()]+\.(?:true|false))", lambda q: q.group() if re.search(r"args\.\w+\.\w+", q.group(1)) else q.group(2), nb)
            us = list(unf) + [x for x in cv.used_unfold if x not in unf]
            u = (['unfolding ' + ' '.join(us)] if us else [])
            pr = [f'-- LOOK: {p}' for p in cv.problems]
            answers.append('\n'.join(com + pr + [f'pub {new} : goal.{new}'] + u + [f'{new} c' + ''.join(' ' + x for x in more if x != 'κs') + ' =' + ('\n' + nb.lstrip('\n') if nb.startswith('\n') else ' ' + nb.lstrip())]))
            continue
        # helper: takes places?
        mt = re.findall(r"tie\.([A-Z][\w-]*)", ntyp)
        if mt:
            mm = re.match(re.escape(name) + r"((?:\s+\S+)*?)\s+=\s*(.*)$", clause0, re.S)
            if mm:
                cv.macros[name] = (mm.group(1).split(), mm.group(2), unf, kind)
                cv.mtypes[name] = ntyp
                continue
            problems.append(f'helper {name} : {ntyp}')
        lemmas.append('\n'.join(com + [('abbrev ' if kind == 'abbrev' else '') + f'{name} : {typ}'] + (['unfolding ' + ' '.join(unf)] if unf else []) + cl))
    # outputs
    keep = [u for u in uses if '.Statement.' not in u and not u.endswith('.Tie as tie') and '.Lts as' not in u]
    res = {}
    base = f'Rattle.{crate}.proofs.{modname}'
    def used(u, body):
        m = re.match(r"use (\S+?)\.\{(.*)\}$", u)
        if m:
            names = []
            for it in re.split(r",\s*", m.group(2)):
                short = it.split(' as ')[-1].strip()
                if '◌' in short:
                    parts = [x for x in short.split('◌') if x]
                    if all(re.search(r"(?<![^\s()\[\]{},;.])" + re.escape(x) + r"(?![^\s()\[\]{},;.])", body) or x in body for x in parts): names.append(it)
                elif re.search(r"(?<![\w'·→-])" + re.escape(short) + r"(?![\w'·-])", body): names.append(it)
            if not names: return None
            return f"use {m.group(1)}.{{{', '.join(names)}}}"
        m = re.match(r"use (\S+) as (\S+)$", u)
        if m: return u if re.search(r"(?<![\w'-])" + re.escape(m.group(2)) + r"\.", body) else None
        return u
    hc = '\n'.join(head_comment)
    def helpers_for(body, skip=()):
        """the helper lemmas that a body reaches"""
        got = []
        todo = body
        changed = True
        names = []
        for l in lemmas:
            if re.search(r"^(module|data|record|pub data|pub record|ruleset|infix)", re.sub(r"^--.*\n", "", l, flags=re.M), re.M):
                names.append(tuple(re.findall(r"^\s*(?:abbrev )?(?:pub )?([^\s:(){}]+) : ", l, re.M) + re.findall(r"^(?:pub )?(?:data|record|ruleset) (\S+)", l, re.M)))
                continue
            m = re.search(r"^(?:abbrev )?(?:pub )?([^\s:]+) ", re.sub(r"^--.*\n", "", l, flags=re.M))
            names.append(m.group(1) if m else None)
        inc = set()
        while changed:
            changed = False
            for n, l in zip(names, lemmas):
                if n in inc: continue
                if n is None or any(re.search(r"(?<![\w'-])" + re.escape(n1) + r"(?![\w'-])", todo) for n1 in (n if isinstance(n, tuple) else (n,))):
                    inc.add(n); todo += '\n' + l; changed = True
        return [l for n, l in zip(names, lemmas) if n in inc]
    if invariants:
        b = '\n\n'.join(invariants)
        hs = helpers_for(b)
        b = '\n\n'.join(hs + invariants)
        us = [x for x in (used(u, b) for u in keep) if x]
        res['Invariants.antt'] = '\n'.join(([hc] if hc else []) + us + [f'use {base}.Given as goal']) + '\n\n' + b + '\n'
    if answers:
        b = '\n\n'.join(answers)
        hs = helpers_for(b)
        b = '\n\n'.join(hs + answers)
        us = [x for x in (used(u, b) for u in keep) if x]
        res['Answers.antt'] = '\n'.join(([hc] if hc and not invariants else []) + us + [f'use {base}.Goals as goal']) + '\n\n' + b + '\n'
    return res, problems, skipped, lemmas

def main():
    names, crate, root, out = sys.argv[1:5]
    filt = sys.argv[5] if len(sys.argv) > 5 else ''
    d = json.load(open(names))
    read_clauses(os.environ.get('TOP', '.'))
    infos = {}
    for k, v in d.items():
        m = re.match(rf"Rattle-{crate}-proofs\.(.*)\.Lts$", k)
        if m: infos[m.group(1)] = v
    for folder, _, files in sorted(os.walk(root)):
        if 'Proof.antt' not in files: continue
        rel = os.path.relpath(folder, root)
        mod = rel.replace('/', '.')
        if filt and filt not in mod: continue
        if mod not in infos:
            print(f'{rel}: no names'); continue
        fn = Fn(infos[mod])
        fn.name = crate + '::' + mod.replace('.', '::')
        try:
            res, problems, skipped, lemmas = convert(os.path.join(folder, 'Proof.antt'), fn, mod, crate)
        except Exception as e:
            import traceback
            print(f'{rel}: FAILED {e!r}'); traceback.print_exc(); continue
        dest = os.path.join(out, rel)
        os.makedirs(dest, exist_ok=True)
        for f, t in res.items():
            open(os.path.join(dest, f), 'w').write(t)
        look = sum(t.count('-- LOOK') for t in res.values())
        if not res: os.rmdir(dest) if not os.listdir(dest) else None
        print(f'{rel}: {", ".join(res) or "nothing left"}' + (f'; {look} to look at' if look else '') + ''.join(f'; {p}' for p in problems))
        for s in skipped: print('   no goal of today: ' + s.replace('\n', '\n      '))

main()
