#!/usr/bin/env python3
"""Apply a map of renames to a whole clone: rename.py [--dry] [--force] MAP.tsv (run in the clone's root).

Lines of the map: kind, old, new, scope, separated by tabs; '#' starts a comment line.
  crate  old new -
  file   crates/C/specs/Old.antt crates/C/specs/New.antt -
  fn     old new CRATE              a function of CRATE's src
  text   old new FILE               a piece of a comment or document as it is after all else, every place in FILE (its path before the renames)
  def    old new from FILE          a definition, law, record or constructor of FILE: renamed there and wherever it is imported from there
  def    old new field FILE..       a field of a record: `.old`, `old = ` in a record, `pub old :` in it, in files that match one of the patterns
  def    old new var FILE..         a bound name, also with primes and subscripts: every whole word of the code (also `.old`), in files that match one of the patterns;
                                    a new name of two words, a_b, is a_b in the code, «a_b» in contracts, aB in definitions and laws, `.a-b` where a proof names an argument
Names in comments and documents are changed inside backquotes, and elsewhere if they are no plain words.
Before anything is written it asks: does every old name exist, is every new name free in every file that would see it? With --force it goes on all the same.
"""
import fnmatch, os, re, subprocess, sys, glob

ID = r"[A-Za-z0-9_\-′″₀-₉·⁺]"
IDS = r"(?<!%s)(?:%%s)(?!%s)" % (ID, ID)
TOK = re.compile(r"[^\s(){}.;,@\"«»`⌜⌝\x00\x01]+")   # a name of antt: "any run of characters other than spaces and ( ) { } . ; , @ .."

def camel(s):
    a = s.split('_')
    return a[0] + ''.join(x.capitalize() for x in a[1:])

def var_new(tab, w, role, ghost):
    """the new form of a bound name, with its primes and subscripts, or None"""
    m = re.fullmatch(r"(.*?)([′₀-₉]*)", w)
    n = tab.get(m.group(1))
    if n is None:
        return None
    if '_' not in n:
        return n + m.group(2)
    if role == 'proj':
        return kebab(n) + m.group(2)
    if ghost:
        return '«' + n + '»'
    return camel(n) + m.group(2)

def plainword(w):
    return bool(re.fullmatch(r"[A-Z]?[a-z]+", w))

def kebab(s):
    return s.replace('_', '-')

def read(f):
    return open(f, encoding='utf-8').read()

dry = '--dry' in sys.argv
force = '--force' in sys.argv
mapfile = [a for a in sys.argv[1:] if not a.startswith('--')][0]
rows = []
for ln in open(mapfile, encoding='utf-8'):
    ln = ln.rstrip('\n')
    if not ln.strip() or ln.startswith('#'):
        continue
    p = ln.split('\t')
    if len(p) != 4:
        sys.exit('not four columns: ' + ln)
    rows.append(tuple(p))
crates = {o: n for k, o, n, s in rows if k == 'crate'}
files = {o: n for k, o, n, s in rows if k == 'file'}
fns = [(o, n, s) for k, o, n, s in rows if k == 'fn']
defs = [(o, n, s) for k, o, n, s in rows if k == 'def']
texts = [(o, n, s) for k, o, n, s in rows if k == 'text']
for k, o, n, s in rows:
    if k not in ('crate', 'file', 'fn', 'def', 'text'):
        sys.exit('no such kind: ' + k)
complaints = []

tracked = subprocess.run(['git', 'ls-files'], capture_output=True, text=True, check=True).stdout.split('\n')
tracked = [f for f in tracked if f and os.path.exists(f)]
antt = [f for f in tracked if f.startswith('crates/') and f.endswith('.antt')]
rt = [f for f in tracked if f.startswith('crates/') and f.endswith('.rt')]
edits = [f for f in tracked if f.startswith('crates/') and f.endswith('.edit')]
text = {f: read(f) for f in antt + rt + edits}
def crate_of(f):
    return f.split('/')[1]

# ---- code and comment: a file is a list of (is_code, text)
def pieces(t, mark):
    out = []
    for ln in t.split('\n'):
        # a comment starts at the mark, at the line's start or after a blank
        m = re.search(r"(?:^|(?<=\s))" + re.escape(mark) + r"(?=\s|$|-)", ln)
        if m:
            out.append((True, ln[:m.start()])); out.append((False, ln[m.start():] + '\n'))
        else:
            out.append((True, ln + '\n'))
    return out

def join(ps):
    return ''.join(s for _, s in ps)[:-1]

# ---- modules: the file a dotted path stands for
def module_file(path):
    m = re.match(r"Rattle·([a-z_0-9]+)(?:·(?:specs|proofs))?\.(specs|proofs)\.(.+)$", path)
    if not m:
        return None
    return 'crates/%s/%s/%s.antt' % (m.group(1), m.group(2), m.group(3).replace('.', '/'))

USE = re.compile(r"^(?:pub )?(?:ghost )?use (Rattle·[^\s;{]+?)(?:\.\{([^}]*)\}|\s+as\s+([^\s;]+))?;?\s*$", re.M)
def imports(t):
    """(file, set of names, alias) of each import of a file's text"""
    out = []
    for m in USE.finditer(t):
        f = module_file(m.group(1))
        if f is None:
            continue
        names = set()
        for x in (m.group(2) or '').split(','):
            x = x.strip()
            if x:
                names.add(x.split(' as ')[0].strip())
        out.append((f, names, m.group(3)))
    return out
imps = {f: imports(t) for f, t in text.items() if not f.endswith('.edit')}

# fields of records: where a token is a label, a declaration or a projection
def code_tokens(code):
    """(start, end, token, role) of each token; role: proj, label or ''"""
    out = []
    stack = []
    i = 0
    prev = ''
    n = len(code)
    while i < n:
        m = TOK.match(code, i)
        if m:
            w = m.group(0)
            before = code[i-1] if i else ''
            role = ''
            if before == '.' and (i < 2 or code[i-2] in ' (\n\t'):
                role = 'proj'
            elif before == '.':
                role = 'qual'
            elif stack and stack[-1] == 'record' and prev in ('{', ';'):
                role = 'label'
            out.append((i, m.end(), w, role))
            prev = w
            i = m.end()
            continue
        c = code[i]
        if c == '{':
            stack.append('record' if prev == 'record' else 'brace')
            prev = '{'
        elif c == '}':
            if stack:
                stack.pop()
            prev = '}'
        elif not c.isspace():
            prev = c
        i += 1
    return out

def decl_fields(t):
    """positions (line starts) of field declarations: {line number: name}, by record"""
    out = {}
    rec = None; ind = 0
    for k, ln in enumerate(t.split('\n')):
        m = re.match(r"^( *)(?:pub )?record (%s+)" % ID, ln)
        if m:
            rec = m.group(2); ind = len(m.group(1)); continue
        if rec is not None:
            if ln.strip() == '' :
                continue
            lead = len(ln) - len(ln.lstrip(' '))
            if lead <= ind:
                rec = None
                continue
            m = re.match(r"^( *)(?:pub )?(%s+) :" % ID, ln)
            if m and not ln.strip().startswith('--'):
                out[k] = (rec, m.group(2))
    return out

def sub_tokens(code, how):
    """how(token, role, start) -> new token or None"""
    out = []; last = 0
    for a, b, w, role in code_tokens(code):
        r = how(w, role, a)
        if r is not None and r != w:
            out.append(code[last:a]); out.append(r); last = b
    out.append(code[last:])
    return ''.join(out)

BACK = re.compile(r"`([^`\n]+)`")
def sub_comment(c, table):
    """names in backquotes; elsewhere only those that are no plain words"""
    def inside(m):
        return '`' + TOKS(m.group(1), table) + '`'
    def TOKS(s, tab):
        return re.sub(r"%s+" % ID, lambda m: tab.get(m.group(0), m.group(0)), s)
    odd = {o: n for o, n in table.items() if not plainword(o)}
    parts = re.split(r"(`[^`\n]+`)", c)
    return ''.join(TOKS(p[1:-1], table).join('``') if p.startswith('`') and p.endswith('`') and len(p) > 2 else TOKS(p, odd) for p in parts)

# ---- what applies to which file
per_file = {f: {} for f in text}           # plain renames of names: old -> new
per_qual = {f: {} for f in text}           # alias -> {old: new}
per_field = {f: {} for f in text}
per_var = {f: {} for f in text}
where = {}
for o, n, s in defs:
    how, *pats = s.split()
    hits = []
    if how == 'from':
        src = pats[0]
        if src not in text:
            complaints.append('no file %s (for %s)' % (src, o)); continue
        if not re.search(r"(?m)^\s*(?:[a-z]+ )*(?:pub )?(?:(?:record|data) )?" + (IDS % re.escape(o)) + r"(?: |$)", text[src]):
            complaints.append('%s is not declared in %s' % (o, src)); continue
        for f in imps:
            if f == src or any(g == src and o in names for g, names, al in imps[f]):
                if per_file[f].get(o, n) != n:
                    complaints.append('%s: %s has two new names' % (f, o))
                per_file[f][o] = n; hits.append(f)
            for g, names, al in imps[f]:
                if g == src and al:
                    per_qual[f].setdefault(al, {})[o] = n
                    hits.append(f)
    else:
        for f in imps:
            if any(fnmatch.fnmatch(f, p) for p in pats):
                toks = set(TOK.findall(join([(1, c) if k else (1, '') for k, c in pieces(text[f], '--' if f.endswith('.antt') else '//')])))
                if o in toks or (how == 'var' and any(re.fullmatch(re.escape(o) + r"[′₀-₉]*", w) for w in toks)):
                    (per_field if how == 'field' else per_var)[f][o] = n
                    hits.append(f)
        if not hits:
            complaints.append('%s: no file has it (%s)' % (o, s))
    where[(o, s)] = hits

# functions: own crate, and those that import it
fn_in = {f: [] for f in text}              # (old, new)
for o, n, c in fns:
    own = [f for f in rt if crate_of(f) == c]
    if not any(re.search(r"\bfn %s\b" % o, text[f]) for f in own):
        complaints.append('no fn %s in %s' % (o, c)); continue
    if any(re.search(r"\bfn %s\b" % n, text[f]) for f in own):
        complaints.append('fn %s is in %s already' % (n, c))
    users = {c}
    for f in rt:
        if crate_of(f) != c and re.search(r"\buse %s::%s;|\b%s::%s\b" % (c, o, c, o), text[f]):
            users.add(crate_of(f))
            if re.search(r"\bfn %s\b" % n, text[f]) and re.search(r"\buse %s::%s;" % (c, o), text[f]):
                complaints.append('fn %s is in %s already' % (n, crate_of(f)))
    for f in text:
        if crate_of(f) in users:
            fn_in[f].append((o, n, c))

def fn_rt(code, f, table):
    for o, n, c in table:
        mine = crate_of(f) == c
        if not mine:
            code = re.sub(r"\b%s::%s\b" % (c, o), '%s::%s' % (c, n), code)
            if not re.search(r"(?m)^use %s::%s;" % (c, o), text[f] if not f.endswith('.edit') else text.get('crates/%s/src/lib.rt' % crate_of(f), text.get('crates/%s/src/main.rt' % crate_of(f), ''))):
                continue
        # a call or a declaration: not inside the ghost text of a contract, not a method or another crate's
        def one(m):
            pre = code[:m.start()]
            q = re.search(r"(\w+)::$", pre)
            if q and q.group(1) != c:
                return m.group(0)
            if pre.endswith('.'):
                return m.group(0)
            return n
        code = re.sub(r"\b%s\b(?=\()" % o, one, code)
        code = re.sub(r"\bfn %s\b" % o, 'fn ' + n, code)
    return code

def infolder(f):
    """a file of a function's proof: crates/C/proofs/FN/.."""
    p = f.split('/')
    return len(p) >= 5 and p[2] == 'proofs'

def fn_antt(code, f, table, im):
    imported = set()
    for g, names, al in im:
        if not infolder(g):
            imported |= names
    for o, n, c in table:
        k, kn = kebab(o), kebab(n)
        code = re.sub(r"(Rattle·%s(?:·proofs)?\.proofs\.(?:[^\s.]*\+)?)%s(?=[.+])" % (c, o), lambda m: m.group(1) + n, code)
        if infolder(f):
            seg = re.compile(r"(^|-)%s(\d*)(?=$|-)" % re.escape(k))
            def how(w, role, a):
                if w in imported:
                    return None
                if '-' not in k and role == '' and w == k:
                    return None                 # a plain word alone is a variable or a definition
                return seg.sub(lambda m: m.group(1) + kn + m.group(2), w)
            code = sub_tokens(code, how)
        if '_' in o:
            code = re.sub(r"(?<![\w])%s(?![\w])" % o, n, code) if crate_of(f) == c or infolder(f) else code
    return code

FILES = []
for o, n in files.items():
    c, kind, name = o.split('/')[1], o.split('/')[2], o.split('/')[-1][:-5]
    new = n.split('/')[-1][:-5]
    if o not in text:
        complaints.append('no file ' + o)
    if os.path.exists(n) and n not in files:
        complaints.append('there is a file ' + n)
    FILES.append((c, kind, name, new))

def paths(s):
    """module paths and paths of files, in code and documents"""
    for c, kind, name, new in FILES:
        s = re.sub(r"(Rattle·%s(?:·%s)?\.%s\.)%s(?!%s)" % (c, kind, kind, name, ID), lambda m: m.group(1) + new, s)
        s = re.sub(r"\b(%s/%s/)%s\.antt" % (c, kind, name), lambda m: m.group(1) + new + '.antt', s)
    for o, n, c in fns:
        s = re.sub(r"\b(%s/proofs/)%s(?=/)" % (c, o), lambda m: m.group(1) + n, s)
    for o, n in crates.items():
        s = re.sub(r"Rattle·%s(?=[.·])" % o, 'Rattle·' + n, s)
        s = re.sub(r"\bcrates/%s(?=/|\b)" % o, 'crates/' + n, s)
        s = re.sub(r"(?<![\w/])%s(?=/(?:src|specs|proofs|must-fail)\b)" % o, n, s)
    return s

def crate_rt(s):
    for o, n in crates.items():
        s = re.sub(r"(?<![\w:.])%s::" % o, n + '::', s)
    return s

def comment_table(f):
    t = {}
    t.update(per_var[f]); t.update(per_field[f]); t.update(per_file[f])
    for o, n, c in fn_in[f]:
        t.setdefault(o, n)
    return t

def do_antt(f, t, whole=None):
    decl = decl_fields(t)
    lines_of_field = {}
    ps = pieces(t, '--')
    # the code as one string, comments cut out and put back
    code = ''; cuts = []
    for k, s in ps:
        if k:
            code += s
        else:
            cuts.append((len(code), s)); code += '\x00%d\x01\n' % (len(cuts) - 1)
    code = code[:-1]
    # lines of field declarations keep their number
    starts = [0]
    for m in re.finditer('\n', code):
        starts.append(m.end())
    import bisect
    def line(a):
        return bisect.bisect_right(starts, a) - 1
    al = per_qual[f]
    def how(w, role, a):
        if w.startswith('\x00'):
            return None
        l = line(a)
        isdecl = l in decl and decl[l][1] == w and re.fullmatch(r"\s*(?:pub )?", code[starts[l]:a]) is not None
        if role == 'qual':
            m = re.search(r"(%s+)\.$" % ID, code[:a])
            if m and m.group(1) in al and w in al[m.group(1)]:
                return al[m.group(1)][w]
            return None
        v = var_new(per_var[f], w, role, False)
        if v is not None:
            return v
        if role in ('proj', 'label') or isdecl:
            return per_field[f].get(w)
        return per_file[f].get(w)
    code = sub_tokens(code, how)
    code = fn_antt(code, f, fn_in[f], imps.get(f, []))
    tab = comment_table(f)
    def back(m):
        return sub_comment(cuts[int(m.group(1))][1][:-1], tab)
    code = re.sub('\x00(\\d+)\x01', back, code)
    code = paths(code)
    return code

GH = re.compile(r"(⌜.*?⌝)", re.S)
def do_rt(f, t):
    ps = pieces(t, '//')
    tab = comment_table(f)
    out = []
    code = ''; cuts = []
    for k, s in ps:
        if k:
            code += s
        else:
            cuts.append(s); code += '\x00%d\x01\n' % (len(cuts) - 1)
    code = code[:-1]
    def ghost(s):
        al = per_qual[f]
        def how(w, role, a):
            if role == 'qual':
                m = re.search(r"(%s+)\.$" % ID, s[:a])
                if m and m.group(1) in al:
                    return al[m.group(1)].get(w)
                return None
            v = var_new(per_var[f], w, role, True)
            if v is not None:
                return v
            if role in ('proj', 'label'):
                return per_field[f].get(w)
            return per_file[f].get(w)
        return sub_tokens(s, how)
    # ghost text: contracts, and the ghost imports
    parts = GH.split(code)
    for i, p in enumerate(parts):
        if p.startswith('⌜'):
            parts[i] = ghost(p)
        else:
            p = re.sub(r"(?m)^ghost use .*$", lambda m: ghost(m.group(0)), p)
            ls = p.split('\n')
            for j, ln in enumerate(ls):
                if ln.startswith('ghost use '):
                    continue
                ln = fn_rt(ln, f, fn_in[f])
                ln = re.sub(r"\b\w+\b", lambda m: per_var[f].get(m.group(0), m.group(0)), ln)
                for o, n in per_field[f].items():
                    ln = re.sub(r"\.%s\b(?!\()" % o, '.' + n, ln)
                    ln = re.sub(r"(?<![\w:])%s(?=: )" % o, n, ln)
                for o, n, c in fn_in[f]:
                    ln = re.sub(r"^(\s*(?:pub )?use %s::)%s;" % (c, o), lambda m: m.group(1) + n + ';', ln)
                ls[j] = ln
            parts[i] = '\n'.join(ls)
    code = ''.join(parts)
    code = re.sub('\x00(\\d+)\x01', lambda m: sub_comment(cuts[int(m.group(1))][:-1], tab), code)
    code = crate_rt(paths(code))
    for o, n in crates.items():
        code = re.sub(r"(?m)^use %s(?=::|;)" % o, 'use ' + n, code)
    return code

def do_edit(f, t):
    """the lines of an edit by the file that it changes"""
    out = []; target = None; base = '/'.join(f.split('/')[:2])
    for ln in t.split('\n'):
        if ln.startswith('#'):
            tab = {}
            for g in text:
                if crate_of(g) == crate_of(f):
                    tab.update(comment_table(g))
            s = sub_comment(ln, tab)
            for o, n, c in fn_in[f]:
                s = re.sub(r"(?<![\w-])%s(?=: )" % o, n, s)
            out.append(paths(s))
        elif ln.startswith('file: '):
            target = base + '/' + ln[6:].strip()
            s = ln
            for c, kind, name, new in FILES:
                if c == crate_of(f):
                    s = re.sub(r"(%s/)%s\.antt" % (kind, name), lambda m: m.group(1) + new + '.antt', s)
            for o, n, c in fn_in[f]:
                if c == crate_of(f):
                    s = re.sub(r"(proofs/)%s/" % o, lambda m: m.group(1) + n + '/', s)
            out.append(s)
        else:
            m = re.match(r"^(old:|new:)(.*)$", ln)
            if m and target in text:
                out.append(m.group(1) + (do_antt if target.endswith('.antt') else do_rt)(target, m.group(2)))
            else:
                if m:
                    complaints.append('%s: no file %s' % (f, target))
                out.append(ln)
    return '\n'.join(out)

# ---- is every new name free?
def code_of(f):
    return join([(1, c) if k else (1, '\n') for k, c in pieces(text[f], '--' if f.endswith('.antt') else '//')])
for f in imps:
    new = {}
    for tab in (per_file[f], per_var[f]):
        new.update({camel(n) if '_' in n and f.endswith('.antt') else n: o for o, n in tab.items()})
    if not new:
        continue
    gone = set(per_file[f]) | set(per_var[f])
    roles = {}
    whole = code_of(f)
    decl = {(k, nm) for k, (r, nm) in decl_fields(text[f]).items()} if f.endswith('.antt') else set()
    for a, b, w, role in code_tokens(whole):
        if role == '' and (whole.count('\n', 0, a), w) not in decl:
            roles.setdefault(w, set()).add(role)
    for n, o in new.items():
        if n in roles and '' in roles[n] and n not in gone:
            complaints.append('%s: %s -> %s, but %s is there already' % (f, o, n, n))
    olds = {}
    for tab in (per_file[f], per_var[f]):
        for o, n in tab.items():
            olds.setdefault(n, set()).add(o)
    for n, os_ in olds.items():
        if len(os_) > 1:
            complaints.append('%s: %s is the new name of %s' % (f, n, ', '.join(sorted(os_))))

for x in complaints:
    print('!', x)
if complaints and not force:
    sys.exit('%d complaints; nothing written' % len(complaints))

# ---- write
result = {}
for f in antt:
    result[f] = do_antt(f, text[f])
for f in rt:
    result[f] = do_rt(f, text[f])
for f in edits:
    result[f] = do_edit(f, text[f])
# Lib.antt: the modules' names
for f in antt:
    if f.endswith('/Lib.antt'):
        for c, kind, name, new in FILES:
            if crate_of(f) == c and f.split('/')[2] == kind:
                result[f] = re.sub(r"(?m)^(pub mod )%s$" % name, lambda m: m.group(1) + new, result[f])

# documents and scripts
docs = [f for f in tracked if f not in text and (f.endswith('.md') or f == 'crates.txt' or f.split('/')[0] in ('tools', 'compare', 'bench', 'include', 'examples') or f in ('test', 'show'))]
docs = [f for f in docs if os.path.isfile(f) and not f.endswith(('.bin', '.dat')) and '\0' not in open(f, encoding='utf-8', errors='replace').read()]
doc_table = {}
clash = set()
for o, n, s in defs:
    if s.startswith('var'):
        continue
    if o in doc_table and doc_table[o] != n:
        clash.add(o)
    doc_table[o] = n
for o, n, c in fns:
    if o in doc_table and doc_table[o] != n:
        clash.add(o)
    doc_table.setdefault(o, n)
# a name that is also declared elsewhere under the same word is left to a reader
declared = {}
for f in antt:
    for m in re.finditer(r"(?m)^ *(?:[a-z]+ )*pub (?:record |data )?(%s+)(?: |$)" % ID, text[f]):
        declared.setdefault(m.group(1), set()).add(f)
for f in rt:
    for m in re.finditer(r"\bfn (\w+)", text[f]):
        declared.setdefault(m.group(1), set()).add(f)
moved = {}
for o, n, s in defs:
    if s.startswith('from'):
        moved.setdefault(o, set()).add(s.split()[1])
for o, n, c in fns:
    moved.setdefault(o, set()).update(f for f in rt if crate_of(f) == c)
known = {crate_of(f) for f in rt}
unsure = {o for o in doc_table if o in known or declared.get(o, set()) - moved.get(o, set()) or o in clash}
notes = []
back_crate = {n: o for o, n in crates.items()}
def do_doc(f, t):
    t = paths(t)
    if f == 'crates.txt':
        for o, n in crates.items():
            t = re.sub(r"(?m)^%s:" % o, n + ':', t)
            t = re.sub(r"(?m)^(\w+:.*)$", lambda m: re.sub(r"(?<=[ ])%s(?= |$)" % o, n, m.group(1)), t)
        return t
    out = []
    if f in ('compare/run', 'bench/run', 'bench/stack', 'test', 'show'):
        for o, n in crates.items():
            t = re.sub(r"(?m)^(\s*for lib in )(.*?)(;)", lambda m: m.group(1) + re.sub(r"\b%s\b" % o, n, m.group(2)) + m.group(3), t)
            t = re.sub(r"(static=|lib|rt staticlib )%s\b" % o, lambda m: m.group(1) + n, t)
    if not f.endswith('.md'):
        return t
    left = {(c, kind, name): new for c, kind, name, new in FILES}
    names = {}
    for c, kind, name, new in FILES:
        names.setdefault(name, set()).add(new)
    stay = {g.split('/')[-1][:-5] for g in antt if g not in files}
    folder = [None]
    for k, ln in enumerate(t.split('\n')):
        if ln.startswith('|') or not ln.strip():
            folder[0] = None
        def inside(m):
            s = m.group(1)
            def tok(x):
                w = x.group(0)
                pre = s[:x.start()]; post = s[x.end():]
                if w in crates and pre == '' and post == '' and w in declared and re.search(r"\.antt`[^|]*$", ln[:m.start()]):
                    return w                    # behind a file's name in its cell: a definition of it
                if w in crates and (post.startswith('::') or (pre == '' and post == '') or pre.endswith('rt check ') or pre.endswith('rt dev ')):
                    return crates[w]
                q = re.search(r"([\w]+)::$", pre)
                if q:
                    for o, n, c in fns:
                        if o == w and c == q.group(1):
                            return n
                    return w
                if w in doc_table:
                    if w in unsure and (post.startswith('::') or (w in known and w not in crates)):
                        return w                # a crate
                    if w in unsure:
                        notes.append('%s:%d: `%s` left: %s is also another thing\'s name' % (f, k + 1, s, w))
                        return w
                    return doc_table[w]
                return w
            q = re.search(r"([a-z_0-9]+)/(specs|proofs)(?:/|$)", s)
            if q:
                folder[0] = (back_crate.get(q.group(1), q.group(1)), q.group(2))
            q = re.fullmatch(r"([A-Z]\w*)\.antt", s)
            if q:
                w = q.group(1)
                if folder[0] and (folder[0] + (w,)) in left:
                    return '`' + left[folder[0] + (w,)] + '.antt`'
                if w in names and w not in stay and len(names[w]) == 1:
                    return '`' + min(names[w]) + '.antt`'
                if w in names:
                    notes.append('%s:%d: `%s` left: which crate is meant?' % (f, k + 1, s))
                return m.group(0)
            if s.endswith('.antt'):
                return m.group(0)               # a path: done by `paths`
            return '`' + re.sub(r"%s+" % ID, tok, s) + '`'
        new = BACK.sub(inside, ln)
        if f == 'README.md' and re.match(r"^    \S.{20,}|^      \S.{20,}", ln) and '`' not in ln:
            head, tail = ln[:34], ln[34:]
            for o, n in crates.items():
                # a name in a row of names: between two blanks, commas or the ends
                tail = re.sub(r"(?:(?<=^)|(?<=  )|(?<=, ))%s(?=  |,|$)" % o, n, tail)
            new = head + tail
        out.append(new)
    return '\n'.join(out)
for f in docs:
    t = read(f)
    result[f] = do_doc(f, t)
    text[f] = t

def wrap(f, old, new):
    """lines of specs/ and src/ that grew beyond 200 characters are broken before `++`, `∷`, `→` or a bracket at their least depth"""
    if '/proofs/' in f or not f.endswith(('.antt', '.rt')):
        return new
    a, b = old.split('\n'), new.split('\n')
    if len(a) != len(b):
        return new
    out = []
    for x, y in zip(a, b):
        cont = False
        while len(y) > 200 and len(x) <= 200 and not re.match(r"\s*(--|//|use |ghost use |unfolding )", y):
            ind = len(y) - len(y.lstrip(' '))
            depth = 0; best = None
            for i, c in enumerate(y[:196]):
                if c in '([{':
                    if i > ind + 60 and y[i-1] == ' ':
                        if best is None or depth <= best[0]:
                            best = (depth, i)
                    depth += 1
                elif c in ')]}':
                    depth -= 1
                elif i > ind + 60 and re.match(r"(\+\+|∷|→) ", y[i:]) and y[i-1] == ' ':
                    if best is None or depth <= best[0]:
                        best = (depth, i)
            if best is None:
                break
            i = best[1]
            out.append(y[:i].rstrip(' '))
            y = ' ' * (ind if cont or re.match(r"\s*(\+\+|∷|→|\()", y) else ind + 4) + y[i:]
            cont = True
        if len(y) > 200 and len(x) <= 200:
            notes.append('%s: a line of %d characters: %s' % (f, len(y), y[:60]))
        out.append(y)
    return '\n'.join(out)
for f in antt + rt:
    result[f] = wrap(f, text[f], result[f])
for o, n, f in texts:
    if f not in result or o not in result[f]:
        print('! text not found in %s: %s' % (f, o))
    else:
        result[f] = result[f].replace(o, n)
changed = [f for f in result if result[f] != text[f]]
print('%d files change' % len(changed))
for x in notes:
    print('?', x)
if dry:
    sys.exit()
for f in changed:
    st = os.stat(f)
    open(f, 'w', encoding='utf-8').write(result[f])
    os.chmod(f, st.st_mode)
def mv(a, b):
    os.makedirs(os.path.dirname(b), exist_ok=True)
    subprocess.run(['git', 'mv', a, b], check=True)
for o, n in files.items():
    mv(o, n)
for o, n, c in fns:
    d = 'crates/%s/proofs/' % c
    for name in sorted(os.listdir(d)) if os.path.isdir(d) else []:
        parts = name.split('+')
        if os.path.isdir(d + name) and o in parts:
            mv(d + name, d + '+'.join(n if p == o else p for p in parts))
for o, n in crates.items():
    mv('crates/' + o, 'crates/' + n)
print('done')
