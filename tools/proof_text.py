"""What prove-paths and prove-cycle share: the text of a proof file."""
import re

def known_at(lines):
    """Of a generated Lts: for each need, what is known there and the path to it, nearest first, as (thing, path, fields)."""
    records, needs, current = {}, {}, None
    for i, l in enumerate(lines):
        m = re.match(r'\s+pub record (\S+) : Type 0 where', l)
        if m:
            current = m.group(1)
            records.setdefault(current, [])
            continue
        m = re.match(r'\s+pub (\S+) : (.*)', l)
        if m and current:
            records[current].append((m.group(1), m.group(2).strip()))
            continue
        m = re.match(r'\s+Need-(\S+)(?: [^=]*)?=\s*(.*)', l)
        if m:
            place = re.search(r'\(c : (\S+)\)', m.group(2) + ' ' + ' '.join(lines[i + 1:i + 3]))
            if place: needs[m.group(1)] = place.group(1)
    def chain(place):
        out, path = [], 'c'
        while True:
            fields = dict(records[place])
            for k in fields:
                if k != 'before': out.append((k, path + ' .' + k, [x for x, _ in records.get(place + '·own', [])]))
            if 'before' not in fields:
                out.append(('start', path, []))
                return out
            path += ' .before'
            place = fields['before'].split()[0]
    return {n: chain(p) for n, p in needs.items()}, chain

def expand(answer, chain, where):
    """An answer whose @thing are replaced by their paths: one that is long is bound once by a `let`, named by what stands there."""
    paths = {}
    for k, p, _ in chain: paths.setdefault(k, p)
    bound = []
    def thing(m):
        k = m.group(1)
        if k not in paths:
            print('no', k, 'at', where, 'which has', ' '.join(paths))
            return m.group(0)
        if paths[k].count('.before') < 2: return paths[k]
        if k not in bound: bound.append(k)
        return 'at-' + k
    out = re.sub(r'@([A-Za-z«][\w»-]*)', thing, answer)
    if not bound: return out
    lets = ['let at-%s = %s in' % (k, paths[k]) for k in sorted(bound, key=lambda k: -len(paths[k]))]
    return '\n    ' + '\n    '.join(lets + [out.strip()])

def without_unused(text):
    """The text without the imported names that it never writes."""
    rest = '\n'.join(l for l in text.split('\n') if not l.startswith('use '))
    rest = re.sub(r'(^|[ \t])--[^\n]*', '', rest)
    def kept(m):
        names = [x.strip() for x in m.group(2).split(',') if x.strip()]
        used = [x for x in names if all(q in rest for q in x.split(' as ')[-1].strip().replace('syntax ', '').split('_') if q)]
        return m.group(1) + '{' + ', '.join(used) + '}\n' if used else ''
    return re.sub(r'^(use [^\n{]*)\{([^}]*)\}\n', kept, text, flags=re.M)
