#!/usr/bin/env python3
"""Makes Answers.antt and Invariants.antt of a crate's older Proof.antt files, which it removes.

usage: python3 wip/turn_proofs.py crates/NAME names.json [FUNCTION..]     at the top of the repository

names.json is what `rt check --generated DIR --old-names` leaves in DIR. Goals, steps, loops and clauses get their new names; a path up the
steps, `c.before.before.args.x`, becomes `c.args.x`; helpers that only go up are written out; answers that only search are left out. What it
could not turn is printed beside the function's name. The check decides: `rt fmt`, then `rt check`.
"""
import re, sys, json, os, glob
crate_dir, namesf = sys.argv[1:3]
only = sys.argv[3:]
crate = os.path.basename(crate_dir.rstrip('/'))
names = json.load(open(namesf))
ROOT = os.path.dirname(os.path.dirname(os.path.abspath(crate_dir)))

def clauses():
    out = {}
    for f in glob.glob(ROOT + '/crates/*/src/*.rt'):
        cr = f.split('/crates/')[1].split('/')[0]
        imp = None
        cur = None
        for l in open(f):
            m = re.match('impl (?:<[^>]*> )?(\\w+)', l)
            if m:
                imp = m.group(1)
            elif l.startswith('}'):
                imp = None if imp and l.rstrip() == '}' else imp
            m = re.match('\\s*(?:pub )?(?:const )?(?:extern "C" )?fn (\\w+)', l)
            if m:
                cur = cr + '::' + (imp + '::' if l.startswith(' ') and imp else '') + m.group(1)
                out[cur] = {'requires': [], 'ensures': []}
            m = re.match('\\s*(requires|ensures)(?: (\\w+))? \\{', l)
            if m and cur:
                out[cur][m.group(1)].append(m.group(2))
    return out
CL = clauses()
PARAMS = {}
for f in glob.glob(ROOT + '/crates/*/src/*.rt'):
    cr = f.split('/crates/')[1].split('/')[0]
    imp = None
    t = open(f).read()
    for m in re.finditer('(?m)^(impl (?:<[^>]*> )?(\\w+))|^(\\s*)(?:pub )?(?:const )?(?:extern "C" )?fn (\\w+)(?:<[^>]*>)?\\(([^)]*)\\)', t):
        if m.group(2):
            imp = m.group(2)
        elif m.group(4):
            PARAMS[cr + '::' + (imp + '::' if m.group(3).strip('\n') and imp else '') + m.group(4)] = [re.sub('^(&?(mut )?)', '', x.split(':')[0].strip()) for x in m.group(5).split(',') if x.strip()]
MUT = {}
for f in glob.glob(ROOT + '/crates/*/src/*.rt'):
    cr = f.split('/crates/')[1].split('/')[0]
    imp = None
    t = open(f).read()
    for m in re.finditer('(?m)^(impl (?:<[^>]*> )?(\\w+))|^\\}|^(\\s*)(?:pub )?(?:const )?(?:extern "C" )?fn (\\w+)(?:<[^>]*>)?\\(([^)]*)\\)', t):
        if m.group(2):
            imp = m.group(2)
        elif m.group(4):
            MUT[cr + '::' + (imp + '::' if m.group(3).strip('\n') and imp else '') + m.group(4)] = [x.split(':')[0].strip() if ':' in x else 'self' for x in m.group(5).split(',') if '&mut' in x]

def clause_path(ns, path):
    """path like '1.0' digits -> named"""
    if len(ns) < 2:
        return None
    p = path.split('.') if path else []
    k = 0
    while k < len(ns) - 1 and p and (p[0] == '1'):
        k += 1
        p = p[1:]
    if k < len(ns) - 1:
        if p and p[0] == '0':
            p = p[1:]
        else:
            return None
    return '.'.join([ns[k]] + p)
norm = lambda s: re.sub('[-_]', '_', s).lower()

def needkey(s):
    s = norm(s)
    s = re.sub('^(overflow|nonzero)_(?=(add|sub|mul|cast|shl|shr|rem|div|neg|step)_)', '', s)
    s = re.sub('^slice_bounds_(.*)_(start|end)$', 'part_\\1_\\2', s)
    s = re.sub('^slice_bounds_(.*)_(start|end)_(\\d+)$', 'part_\\1_\\2_\\3', s)
    return s

def split_tuple(t):
    t = t.strip()
    if not (t.startswith('(') and t.endswith(')')):
        return None
    d = 0
    parts = []
    cur = ''
    for i, ch in enumerate(t):
        if ch in '([{':
            d += 1
        if ch in ')]}':
            d -= 1
        if d == 0 and i < len(t) - 1:
            return None
        if ch == ',' and d == 1:
            parts.append(cur)
            cur = ''
            continue
        if not (i == 0 or i == len(t) - 1):
            cur += ch
    if cur.strip():
        parts.append(cur)
    return parts if len(parts) > 1 else None

def unnest(t, n):
    if n == 1:
        return [t]
    p = split_tuple(t)
    if not p:
        return [t] * n if re.match('(omega|search|grind)\\b', t) else None
    if len(p) == 2:
        r = unnest(p[1].strip(), n - 1)
        return None if r is None else [p[0].strip()] + r
    return [x.strip() for x in p] if len(p) == n else None
report = []
for key, info in sorted(names.items()):
    m = re.match('Rattle-%s-proofs\\.(.*)\\.Lts$' % crate, key)
    if not m:
        continue
    fpath = m.group(1).replace('.', '/')
    pf = f'{crate_dir}/proofs/{fpath}/Proof.antt'
    if not os.path.exists(pf):
        continue
    fn = m.group(1)
    if only and fn not in only:
        continue
    text = open(pf).read()
    places = {p[0]: p for p in info['places']}
    newplace = {p[0]: n for p, n in zip(info['places'], info['places_by_name'])}
    typed = {p[0]: t for p, t in zip(info['places'], info['typed'])}
    stepmap = {}
    callee = {}
    for p in info['places']:
        if p[2][0]:
            stepmap.setdefault(norm(p[2][0]), set()).add(p[2][1])
        if p[3]:
            callee[p[2][1]] = p[3]
    needs = {}
    for (o, n), at in zip(info['needs'], [None] * len(info['needs'])):
        needs[needkey(o)] = n
    L = text.split('\n')
    i = 0
    header = []
    uses = []
    decls = []
    lead = []
    while i < len(L):
        l = L[i]
        if l.startswith('use '):
            u = [l]
            while '{' in u[-1] and '}' not in ''.join(u):
                i += 1
                u.append(L[i])
            uses.append('\n'.join(u))
            i += 1
            if lead and (not decls):
                header += lead
                lead = []
            continue
        if l.strip() == '' or l.startswith('--'):
            lead.append(l)
            i += 1
            continue
        j = i + 1
        b = [l]
        nm = re.match('(?:abbrev |unfoldable )?(?:pub )?(\\S+)', l).group(1)
        while j < len(L):
            k = L[j]
            if k.startswith(' ') or k.startswith('unfolding') or (k.startswith(nm + ' ') and (not l.startswith('module'))):
                b.append(k)
                j += 1
                continue
            if k.strip() == '':
                t = j
                while t < len(L) and L[t].strip() == '':
                    t += 1
                if t < len(L) and L[t].startswith(' '):
                    b += L[j:t]
                    j = t
                    continue
            break
        decls.append((lead, b))
        lead = []
        i = j
    selfname = crate + '::' + fn.replace('.', '::')
    myreq = CL.get(selfname, {}).get('requires', [])
    anyloop = bool(info['loops'])
    invs = []
    out = []
    local2new = {}
    proj = {}
    projf = {}
    nd = []
    for lead, b in decls:
        mp = re.match("module _ \\(([\\w']+) : tie\\.", b[0])
        if mp:
            v = mp.group(1)
            local = {}
            lf = {}
            body2 = b[1:]
            outb = []
            i2 = 0

            def res(val):
                val = val.strip()
                m3 = re.fullmatch("([\\w'-]+)((?:\\.before)*)", val)
                if m3:
                    if m3.group(1) == v:
                        return m3.group(2).count('.before')
                    if m3.group(1) in local:
                        return local[m3.group(1)] + m3.group(2).count('.before')
                m3 = re.fullmatch("([\\w'-]+) (.*)", val)
                if m3 and m3.group(1) in proj:
                    a = m3.group(2).strip()
                    if a.startswith('(') and a.endswith(')'):
                        a = a[1:-1]
                    r = res(a)
                    return None if r is None else r + proj[m3.group(1)]
                return None
            while i2 < len(body2):
                l = body2[i2]
                mm = re.match("  (?:abbrev )?(?:pub )?(\\S+) : tie\\.[\\w'-]+(?: invariant-[\\w-]+| decreases-[\\w-]+)*$", l)
                m2 = mm and i2 + 1 < len(body2) and re.match('  ' + re.escape(mm.group(1)) + ' = (.*)$', body2[i2 + 1])
                mi = re.match('  abbrev (?:pub )?(\\S+) : ', l) if not m2 else None
                mv = mi and i2 + 1 < len(body2) and re.match('  ' + re.escape(mi.group(1)) + ' = (.*)$', body2[i2 + 1])
                if mv and (not (i2 + 2 < len(body2) and body2[i2 + 2].startswith('      '))):
                    val = mv.group(1).strip()
                    for n, k in local.items():
                        val = re.sub("(?<![\\w'.-])" + re.escape(n) + "(?![\\w'-])", v + '.before' * k, val)
                    for n, fl in lf.items():
                        val = re.sub("(?<![\\w'.-])" + re.escape(n) + "(?![\\w'-])", v + fl, val)
                    if re.fullmatch(re.escape(v) + "(\\.(?:«?[A-Za-z_][\\w'-]*»?|\\d+))+", val):
                        lf[mi.group(1)] = val[len(v):]
                        i2 += 2
                        while i2 < len(body2) and body2[i2].strip() == '':
                            i2 += 1
                        continue
                k = res(m2.group(1)) if m2 else None
                if k is not None:
                    local[mm.group(1)] = k
                    i2 += 2
                    while i2 < len(body2) and body2[i2].strip() == '':
                        i2 += 1
                    continue
                outb.append(l)
                i2 += 1
            txt = '\n'.join(outb)
            for n, k in local.items():
                txt = re.sub("(?<![\\w'.-])" + re.escape(n) + "(?![\\w'-])", v + '.before' * k, txt)
                proj[n] = k
            for n, fl in lf.items():
                txt = re.sub("(?<![\\w'.-])" + re.escape(n) + "(?![\\w'-])", v + fl, txt)
                projf[n] = fl
            while txt.endswith('\n'):
                txt = txt[:-1]
            if txt.strip():
                nd.append((lead, [b[0]] + txt.split('\n')))
            continue
        mm = re.match('(?:abbrev )?(?:pub )?(\\S+) : tie\\.[^→]*→ tie\\.', b[0])
        if mm and len(b) == 2:
            m2 = re.match(re.escape(mm.group(1)) + " ([\\w']+) = \\1((?:\\.before)+)$", b[1])
            if m2:
                proj[mm.group(1)] = m2.group(2).count('.before')
                continue
        nd.append((lead, b))

    def unproj(t):
        while True:
            n0 = t
            for n, fl in projf.items():
                t = re.sub('\\(' + re.escape(n) + " ([A-Za-z][\\w']*(?:\\.before)*)\\)", lambda m: m.group(1) + fl, t)
                t = re.sub("(?<![\\w'.-])" + re.escape(n) + " ([A-Za-z][\\w']*(?:\\.before)*)(?![\\w'.-])", lambda m: m.group(1) + fl, t)
            for n, k in proj.items():
                t = re.sub('\\(' + re.escape(n) + " ([A-Za-z][\\w']*(?:\\.before)*)\\)", lambda m: m.group(1) + '.before' * k, t)
                t = re.sub("(?<![\\w'.-])" + re.escape(n) + " ([A-Za-z][\\w']*(?:\\.before)*)(?![\\w'.-])", lambda m: m.group(1) + '.before' * k, t)
                t = re.sub("\\(([A-Za-z][\\w']*(?:\\.before)+)\\)", '\\1', t)
            if t == n0:
                return t
    decls = [(lead, unproj('\n'.join(b)).split('\n')) for lead, b in nd]
    parent = {p[0]: p[1] for p in info['places']}
    ownstep = {p[0]: p[2] for p in info['places']}

    def export(q):
        n = newplace[q]
        m = re.fullmatch('(In[-_].*)-\\d+', n)
        if m and m.group(1) in newplace.values():
            return m.group(1)
        return n

    def walk(q, k):
        while k and q is not None and (q != 'Start'):
            q = parent.get(q)
            k -= 1
        return q
    armmap = {}
    for p, ar in zip(info['places'], info['arms']):
        if ar:
            for fld, st, path in ar[2]:
                if not fld.endswith('-own'):
                    armmap.setdefault((norm(st), tuple(path)), set()).add((p[0], ar[0], fld))

    def isview(q):
        return bool(typed.get(q))
    usedctx = set()

    def place_of(o):
        for p in newplace:
            if norm(p) == norm(o):
                return p
        return None

    def fix_types(t):

        def pl(m):
            q = place_of(m.group(1))
            if q is None:
                problems.append('place ' + m.group(1))
                return m.group(0)
            usedctx.add(export(q))
            return export(q)
        return re.sub("tie\\.((?:After|In|Then|Else|At|Arm|Join)[\\w'-]*|Start\\b)(?: invariant-[\\w-]+ decreases-[\\w-]+)*(?: invariant-[\\w-]+)*(?: decreases-[\\w-]+)*", pl, t)
    PATH = re.compile("(?<![\\w'.-])([A-Za-z][\\w'-]*)((?:\\.before)*)((?:\\.(?:«?[A-Za-z_][\\w'-]*»?|\\d+))*)")

    def split_path(x):
        return [y.strip('«»') for y in re.findall("\\.(«?[A-Za-z_][\\w'-]*»?|\\d+)", x)]

    def cal_(f):
        return callee.get(f)

    def fix_fields(root, q, rest):
        """rest: list of fields; root: text for context"""
        if not rest:
            return root
        f = rest[0]
        if f in ('pre', 'requires'):
            path = rest[1:]
            k = 0
            while k < len(path) and path[k] in '01':
                k += 1
            digits = path[:k]
            tail = path[k:]
            if len(myreq) > 1 and digits:
                r = clause_path(myreq, '.'.join(digits))
                if r:
                    return root + '.requires.' + r + ''.join(('.' + x for x in tail))
                d = 0
                while d < len(digits) and digits[d] == '1':
                    d += 1
                if d == len(digits) and d < len(myreq):
                    return ', '.join((root + '.requires.' + n for n in myreq[d:]))
            return root + '.requires' + ''.join(('.' + x for x in path))
        if f == 'fits':
            return root + '.ranges' + ''.join(('.' + x for x in rest[1:]))
        if f in ('good', 'well-formed'):
            return root + '.well_formed' + ''.join(('.' + x for x in rest[1:]))
        if f in ('args', 'ranges') and len(rest) > 1:
            rest = [rest[0], rest[1].replace('-', '_')] + rest[2:]
        if f in ('args', 'ranges', 'type_inv', 'well_formed', 'lifetimes'):
            return root + ''.join(('.' + x for x in rest))
        for L in range(min(4, len(rest)), 0, -1):
            c = armmap.get((norm(f), tuple(rest[1:L])))
            if c:
                names_ = {(a, fl) for _, a, fl in c}
                best = None
                x = q
                while x is not None and best is None:
                    for pp, a, fl in c:
                        if pp == x:
                            best = (a, fl)
                    x = parent.get(x)
                if best is None:
                    best = sorted(names_)[0]
                return root + '.' + best[0] + '.' + best[1] + ''.join(('.' + y for y in rest[L:]))
        x = q
        newf = None
        while x is not None:
            if norm(ownstep[x][0]) == norm(f):
                newf = ownstep[x][1]
                break
            x = parent.get(x)
        if newf is None:
            c = stepmap.get(norm(f))
            newf = sorted(c)[0] if c else f
            if not c:
                problems.append('field ' + f)
        rest2 = ['type_inv' if z == 'type-inv' else z for z in rest[1:]]
        if rest2[:1] == ['inv']:
            rest2[0] = 'invariant'
        if rest2[:1] == ['taken'] and (newf.startswith('if') or newf.endswith('-test')):
            rest2[0] = 'true'
        if rest2[:1] == ['left'] and (newf.startswith('if') or newf.endswith('-test')):
            rest2[0] = 'false'
        cal = callee.get(newf)
        if f.startswith('shared') and rest2[:1] == ['given'] or (f.startswith('slice') and rest2[:1] == ['given']):
            for nm_, st in typed.get(q) or []:
                if norm(st) == norm(f):
                    if root == 'c':
                        return root + '.type_inv.' + nm_ + ''.join(('.' + y for y in rest2[1:]))
        if cal and rest2[:1] == ['ensures']:
            ns = CL.get(cal, {}).get('ensures', [])
            path = rest2[1:]
            k = 0
            while k < len(path) and path[k] in '01':
                k += 1
            if len(ns) > 1 and k:
                r = clause_path(ns, '.'.join(path[:k]))
                if r:
                    return root + '.' + newf + '.ensures.' + r + ''.join(('.' + y for y in path[k:]))
        if cal and rest2[:1] in (['new'], ['last']):
            path = rest2[1:]
            k = 0
            while k < len(path) and path[k] == '1':
                k += 1
            ps = info['params'].get(cal, [])
            if path and k < len(ps) and (k < len(path)) and (path[k] == '0'):
                return root + '.' + newf + '.new.' + ps[k] + ''.join(('.' + y for y in path[k + 1:]))
        if rest2[:1] == ['kept']:
            rest2[0] = 'auto'
        if rest2[:1] == ['auto']:
            path = rest2[1:]
            k = 0
            while k < len(path) and path[k] == '1':
                k += 1
            muts = MUT.get(cal) if cal else None
            ps = info['params'].get(cal, []) if cal else []
            if muts and path and (path[-1] in '01'):
                if k < len(ps) and ps[k] in muts and (k < len(path)) and (path[k] == '0'):
                    return root + '.' + newf + '.auto.' + ps[k] + ''.join(('.' + y for y in path[k + 1:]))
                if k < len(muts):
                    return root + '.' + newf + '.auto.' + muts[k] + ''.join(('.' + y for y in path[k + 1:]))
                if k == len(muts):
                    return root + '.' + newf + '.auto.' + muts[-1]
        return root + '.' + newf + ''.join(('.' + y for y in rest2))
    myps = PARAMS.get(selfname, [])

    def targ(m):
        k = int(m.group(1))
        return '.' + myps[k - 1] if 0 < k <= len(myps) else m.group(0)

    def fix_text(t, env0, goalname=None):
        t = re.sub('(?<=args)\\.t(\\d)\\b', targ, t)
        for v in set(re.findall("let ([A-Za-z]\\w*) = [\\w'.-]*args in", t)):
            t = re.sub('(?<=\\b' + v + ')\\.t(\\d)\\b', targ, t)
        'env0: {var: place}. Lets that bind contexts go.'
        env = dict(env0)
        rootof = {v: v for v in env0}
        t = fix_types(t)
        for m in list(re.finditer("let ([A-Za-z][\\w'-]*) = ([A-Za-z][\\w'-]*(?:\\.before)*\\.(?:requires|pre)) in[ ]?", t)):
            x, val = (m.group(1), m.group(2))
            t = t.replace(m.group(0), '', 1)
            t = re.sub("(?<![\\w'.-])" + re.escape(x) + "(?![\\w'-])", val, t)
        while True:
            done = False
            for m in re.finditer("let ([A-Za-z][\\w'-]*) = ([A-Za-z][\\w'-]*)((?:\\.before)*) in[ ]?", t):
                x, y, ch = (m.group(1), m.group(2), m.group(3))
                if y in env:
                    q = walk(env[y], ch.count('.before'))
                    env[x] = q
                    rootof[x] = rootof[y]
                    pre = t[:m.start()]
                    post = t[m.end():]
                    if re.search('\\n[ ]*$', pre) and post.startswith('\n'):
                        post = post.lstrip('\n').lstrip(' ')
                    t = pre + post
                    done = True
                    break
            if not done:
                break

        def rep(m):
            v, ch, rest = (m.group(1), m.group(2), split_path(m.group(3)))
            if v not in env:
                return m.group(0)
            q = walk(env[v], ch.count('.before'))
            root = rootof[v]
            base = env0[root]
            if q is None:
                problems.append('walked out ' + m.group(0))
                return m.group(0)
            if rest:
                return fix_fields(root, q, rest)
            if q == base:
                return root
            if goalname:
                usedctx.add('')
                return f'(goal.at.{goalname} {root}).{export(q)}'
            if False:
                k = 0
                x = base
                while x != 'Start':
                    x = parent[x]
                    k += 1
                if isview('Start'):
                    problems.append('Start is a view')
                return root + '.before' * (k + (1 if isview(base) else 0))
            return f'⟪{base}|{root}|{q}⟫'
        return PATH.sub(rep, t)
    problems = []
    goalplace = {n: pl for (o, n), pl in zip(info['needs'], [x[0] for x in info['asked_at']])}
    if len(info['asked_at']) != len(info['needs']):
        problems.append('asked_at %d needs %d' % (len(info['asked_at']), len(info['needs'])))
    for lead, b in decls:
        body = '\n'.join(b)
        if re.match('(?:pub )?\\S+ : \\{M : Type 1\\} → statement M', b[0]):
            continue
        m = re.match('(?:abbrev )?(?:pub )?(invariant|decreases)-([\\w-]+) : tie\\.', b[0])
        m0 = re.match('(?:abbrev )?(?:pub )?(\\S+) : tie\\.(?:invariant|decreases)', b[0])
        if m0:
            kind = 'invariant' if 'tie.invariant' in b[0] else 'decreases'
            tn = re.search('tie\\.(?:invariant|decreases)-([\\w-]+)', b[0]).group(1)
            lp = [x for x in info['loops'] if norm(x[0][0]) == norm(tn)]
            lp = lp[0] if lp else info['loops'][0] if info['loops'] else None
            if not lp:
                problems.append('no loop ' + tn)
                continue
            newl = lp[0][1]
            mm = re.match(re.escape(m0.group(1)) + ' ([^=]*)=(.*)$', '\n'.join(b[1:]), re.S)
            params = mm.group(1).split()
            rhs = mm.group(2)
            sub = {}
            for p in params:
                if p.endswith('₀'):
                    sub[p] = 'l.initial.' + p[:-1].replace('-', '_')
                else:
                    sub[p] = 'l.' + p.replace('-', '_')
            rhs = re.sub("(?<![\\w'.-])([A-Za-z_][\\w'-]*₀?)(?![\\w'-])", lambda z: sub.get(z.group(1), z.group(1)), rhs)
            rhs = re.sub('(?<=[{;] )l\\.([\\w]+) =', '\\1 =', rhs)
            invs.append('\n'.join(lead + [f'abbrev pub {kind}-{newl} : goal.{kind}-{newl}', f'{kind}-{newl} l ={rhs}']))
            local2new[m0.group(1)] = None
            continue
        m = re.match("(?:pub )?(\\S+) : tie\\.Need-([\\w'-]+)(.*)$", b[0])
        if m:
            local, old = (m.group(1), m.group(2))
            new = needs.get(needkey(old))
            rest = '\n'.join(b[1:])
            unf = ''
            mm = re.match('(unfolding [^\\n]*\\n)?' + re.escape(local) + ' ([^=]*?)=(.*)$', rest, re.S)
            if not mm:
                problems.append('cannot parse ' + local)
                out.append('\n'.join(lead + b))
                continue
            unf, params, rhs = (mm.group(1) or '', mm.group(2).split(), mm.group(3))
            if rhs.strip() in ('search rules', 'omega arith', 'refl') and (not unf):
                continue
            if new is None:
                problems.append('no goal for ' + old)
                new = 'MISSING-' + old
            params = [p for p in params if p != 'κs']
            rhs = fix_text(rhs, {params[0]: goalplace.get(new, 'Start')} if params else {}, new)
            rhs = re.sub('\\(not-(?:true|false) _ ([\\w.-]+)\\)', '\\1', rhs)
            rhs = re.sub('(?<![\\w-])not-(?:true|false) _ ([\\w.-]+)', '\\1', rhs)
            z = re.match('(.*)record \\{ fits = (.*) \\}\\s*$', rhs, re.S)
            if z:
                rhs = z.group(1) + z.group(2)
            if z and (not z.group(1)):
                rhs = ' ' + rhs
            if new.endswith('-requires') or '-requires-' in new:
                stp = [cal for p in info['places'] for cal in [p[3]] if cal and new.startswith(p[2][1] + '-requires')]
                cal = stp[0] if stp else None
                ns = CL.get(cal, {}).get('requires', []) if cal else []
                if len(ns) > 1:
                    k = None
                    for z in re.finditer('(?:^|(?<= in))(\\s*)(?=\\()', rhs):
                        if split_tuple(rhs[z.end():].strip()):
                            k = re.match('(.{%d})(\\s*)(.*)$' % z.start(), rhs, re.S)
                            break
                    if k:
                        un = unnest(re.sub('\\s*\\n\\s*', ' ', k.group(3)).replace(',)', ')').replace(', )', ')'), len(ns))
                        if un:
                            rhs = k.group(1) + k.group(2) + 'record { ' + '; '.join((f'{a} = {x}' for a, x in zip(ns, un))) + ' }'
                        else:
                            problems.append('tuple ' + new)
                    else:
                        problems.append('requires record? ' + new + ' ' + ','.join((x or '_' for x in ns)))
            out.append('\n'.join(lead + [f'pub {new} : goal.{new}'] + ([unf.rstrip()] if unf else []) + [f"{new} {' '.join(params)} ={rhs}"]))
            local2new[local] = new
            continue
        env = {}
        mh = re.match("module _ \\(([\\w']+) : tie\\.([\\w'-]+)", b[0])
        if mh:
            env[mh.group(1)] = place_of(mh.group(2))
        else:
            ms = re.match("(?:abbrev )?(?:pub )?(\\S+) : (?:\\(([\\w']+) : )?tie\\.([\\w'-]+)", b[0])
            if ms:
                q = place_of(ms.group(3))
                for x in b[1:]:
                    mc = re.match(re.escape(ms.group(1)) + " ([\\w']+)", x)
                    if mc:
                        env[mc.group(1)] = q
                if ms.group(2):
                    env[ms.group(2)] = q
        if any((v is None for v in env.values())):
            problems.append('helper place ' + b[0])
            env = {k: v for k, v in env.items() if v}
        out.append('\n'.join(lead) + '\n' + fix_text(body, env))
    res = '\n'.join(out)
    hp = {}
    for lead, b in decls:
        mh = re.match("module _ \\(([\\w']+) : tie\\.([\\w'-]+)", b[0])
        if mh and place_of(mh.group(2)):
            for x in b[1:]:
                mm = re.match("  (?:abbrev )?(?:pub )?([\\w'-]+) :", x)
                if mm:
                    hp[mm.group(1)] = export(place_of(mh.group(2)))
        else:
            ms = re.match("(?:abbrev )?(?:pub )?([\\w'-]+) : (?:\\(([\\w']+) : )?tie\\.(?!Need)([\\w'-]+)", b[0])
            if ms and place_of(ms.group(3)):
                hp[ms.group(1)] = export(place_of(ms.group(3)))
    GA = '\\(goal\\.at\\.[\\w-]+ c\\)\\.[\\w-]+'
    for n, fl in projf.items():
        fx = fix_text('c' + fl, {'c': 'Start'}) if False else None

        def rp(m):
            return fix_fields('c', None, split_path(fl))
        res = re.sub('\\(' + re.escape(n) + ' ' + GA + '\\)', rp, res)
        res = re.sub("(?<![\\w'.-])" + re.escape(n) + ' ' + GA, rp, res)
    for n, k in proj.items():
        res = re.sub('\\(' + re.escape(n) + ' ' + GA + '\\)(?=\\.)', 'c', res)
    for h, pn in hp.items():
        res = re.sub("(?<![\\w'.-])(" + re.escape(h) + ") \\(goal\\.at\\.([\\w'-]+) c\\)\\.[\\w'-]+", lambda m: f'{m.group(1)} (goal.at.{m.group(2)} c).{pn}', res)

    def up(base, root, q, h=None):
        if h in hpl:
            q = hpl[h]
        if q == base:
            return root
        k = 0
        x = base
        lastn = export(base)
        while x is not None and x != q:
            x = parent[x]
            if x is not None and export(x) != lastn:
                k += 1
                lastn = export(x)
        if x is None:
            problems.append(f'{q} not above {base}')
            return f'(UP-{q} {root})'
        ch2 = root + '.before' * (k + (1 if isview(base) else 0))
        if not isview(q):
            return ch2
        return '(record { before = ' + ch2 + '; type_inv = record { ' + '; '.join((f'{n} = {root}.type_inv.{n}' for n, _ in typed[q])) + ' } })'
    hpl = {}
    for h, pn in hp.items():
        for p, n in newplace.items():
            if export(p) == pn:
                hpl[h] = p
    res = re.sub("([\\w'-]+) ⟪([^|]*)\\|([^|]*)\\|([^⟫]*)⟫", lambda m: m.group(1) + ' ' + up(m.group(2), m.group(3), m.group(4), m.group(1)), res)
    res = re.sub('⟪([^|]*)\\|([^|]*)\\|([^⟫]*)⟫', lambda m: up(m.group(1), m.group(2), m.group(3)), res)

    def fixc(blk):
        m = re.match("(?s)(.*?)pub ([\\w'-]+) : goal\\.\\2\\n", blk)
        if not m:
            return blk
        g = m.group(2)
        gp = export(goalplace[g]) if g in goalplace else None
        for h, pn in hp.items():
            if pn != gp:
                blk = re.sub("(?<![\\w'.-])(" + re.escape(h) + ") c(?![\\w'.-])", lambda m2: f'{h} (goal.at.{g} c).{pn}', blk)
        return blk
    res = '\n\n'.join((fixc(x) for x in res.split('\n\n')))
    for o, n in local2new.items():
        if n and o != n:
            res = re.sub("(?<![\\w'.-])" + re.escape(o) + "(?![\\w'-])(?! :)", n, res) if not re.search("(?<![\\w'.-])" + re.escape(o) + ' :', res) else res
    d = f'{crate_dir}/proofs/{fpath}'
    keep = [u for u in uses if 'Statement.{' not in u and (not re.search('\\.Tie as tie', u)) and ('borrow.Author.Rules' not in u)]
    if re.search('(?<![\\w.-])rules(?![\\w-])', res):
        keep.append('use Rattle.std.proofs.Common.{rules}')
    head = '\n'.join(header).strip('\n')
    modp = f'Rattle.{crate}.proofs.{fn}'
    ctx = sorted((x for x in usedctx if x))
    tieu = f"use {modp}.Goals.{{{', '.join(ctx)}}}\n" if ctx else ''
    if re.search('(?<![\\w-])tie\\.', res):
        tieu += f'use {modp}.Tie as tie\n'
    allu = '\n'.join(keep)

    def pruned(body):
        o = []
        for u in keep:
            mm = re.match('use ([\\w.\\-]+)\\.\\{(.*)\\}$', re.sub('\\s+', ' ', u), re.S)
            if not mm:
                o.append(u)
                continue
            ns = [x.strip() for x in mm.group(2).split(',') if x.strip()]

            def used(n):
                n = n.split(' as ')[-1]
                op = re.fullmatch('◌(.+)◌', n)
                if op:
                    return re.search('(?<![^\\s(])' + re.escape(op.group(1)) + '(?![^\\s)])', body) or n in body
                return re.search('(?<![^\\s(){}.,;:\\[\\]])' + re.escape(n) + '(?![^\\s(){}.,;:\\[\\]])', body)
            k = [n for n in ns if used(n)]
            if k:
                o.append(f"use {mm.group(1)}.{{{', '.join(k)}}}")
        return '\n'.join(o)
    if invs:
        body = '\n\n'.join((x.strip('\n') for x in invs))
        open(d + '/Invariants.antt', 'w').write(head + '\n' + pruned(body) + f'\nuse {modp}.Given as goal\n\n' + body + '\n')
    body = '\n\n'.join((x.strip('\n') for x in res.split('\n\n') if x.strip('\n')))
    if 'goal.' in res:
        open(d + '/Answers.antt', 'w').write(head + '\n' + pruned(res) + '\n' + tieu + f'use {modp}.Goals as goal\n\n' + res.strip('\n') + '\n')
    os.remove(pf)
    report.append((fn, problems))
for f, p in report:
    print(f, p if p else '')
