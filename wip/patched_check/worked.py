"""Reads the files that are written out in specs/*.antt, and holds them against the definitions in Python."""
import re, sys, glob
sys.path.insert(0, __file__.rsplit('/', 1)[0])
from patched import *
TOK = re.compile(r'"(?:[^"\\]|\\.)*"|0x[0-9A-Fa-f]+|[0-9]+|\+\+|∷|\[\]|[A-Za-z_][A-Za-z_0-9.]*|[(){};=,]')
defs = {}
for path in glob.glob('crates/fz_files/specs/*.antt') + glob.glob('crates/fz_laws/specs/*.antt'):
    text = '\n'.join(l for l in open(path).read().split('\n') if not l.startswith('--') and not l.startswith('use '))
    own = 'fz_laws' in path
    for m in re.finditer(r'^(\w+) =(.*(?:\n[ }].*)*)', text, re.M):
        if m.group(1) not in defs or own: defs[m.group(1)] = m.group(2)
memo = {}
def value(name):
    if name not in memo: memo[name] = Parse(TOK.findall(defs[name])).expr()
    return memo[name]
class Parse:
    def __init__(s, t): s.t, s.i = t, 0
    def peek(s): return s.t[s.i] if s.i < len(s.t) else None
    def next(s): s.i += 1; return s.t[s.i - 1]
    def expr(s):
        a = s.app()
        if s.peek() == '∷': s.next(); return [a] + s.expr()
        if s.peek() == '++': s.next(); return a + s.expr()
        return a
    def record(s):
        out = {}
        if s.peek() != '{': out = dict(s.atom())
        assert s.next() == '{'
        while s.peek() != '}':
            k = s.next(); assert s.next() == '='; out[k] = s.expr()
            if s.peek() == ';': s.next()
        s.next(); return out
    def atom(s):
        t = s.next()
        if t == '(':
            v = s.expr()
            if s.peek() == ',': s.next(); v = (v, s.expr())
            assert s.next() == ')', s.t[s.i-5:s.i+5]; return v
        if t == '[]': return []
        if t == 'record': return s.record()
        if t[0] == '"': return ('str', t[1:-1])
        if re.fullmatch('0x[0-9A-Fa-f]+|[0-9]+', t): return int(t, 0)
        if t in defs and t not in ('take',): return value(t)
        if '.' in t and t.split('.')[0] in defs: return value(t.split('.')[0])[t.split('.')[1]]
        return ('name', t)
    def app(s):
        a = s.atom(); args = []
        while s.peek() not in (None, ')', ']', '}', ';', '∷', '++', ',', '='): args.append(s.atom())
        if isinstance(a, tuple) and a and a[0] == 'name':
            n = a[1]
            if n == 'codes': return list(args[0][1].encode())
            if n == 'replicate': return [args[1]] * args[0]
            if n == 'card_of': return args[0] + [32] * (80 - len(args[0]))
            if n == 'block_of':
                b = sum(args[0], []) + list(b'END'); return b + [32] * (2880 - len(b))
            if n == 'take': return args[1][:args[0]]
            if n == 'drop': return args[1][args[0]:]
            if n == 'amend_of': return (args[0], bytes(args[1]))
            if n == 'Some': return args[0]
            if n == 'None' and not args: return None
            if n in ('Card', 'Byte', 'AtRow'): return ({'Card': 'card', 'Byte': 'byte', 'AtRow': 'row'}[n], args[0])
            if n == 'refusal': return (args[0], args[1], args[2][1])
            if n == 'pos': return args[0]
            if not args: return a
        assert not args, (a, args)
        return a
F = lambda n: bytes(value(n))
bad = 0
def same(what, got, want):
    global bad
    if got != want: bad += 1; print('DIFFER', what, got if len(str(got)) < 900 else '', want if len(str(want)) < 900 else '')
    else: print('same', what)
law = open('crates/fz_laws/src/worked_patches.rt').read()
for m in re.finditer(r'ArePatchSteps (\w+) (\w+) (\w+) (\w+) (\w+)', law):
    f, p, j, facts, st = m.groups()
    h, g, olds, steps = patch_steps(F(f), F(p), value(j))
    same(st, steps, value(st))
    hv = value(facts)
    for k in ('hdu', 'start', 'cards', 'blocks', 'bitpix', 'pcount', 'gcount', 'data_len'): same('  %s.%s' % (facts, k), getattr(h, k), hv[k])
    same('  axes', (h.axes + [0] * 7), hv['axes']['len'])
for m in re.finditer(r'IsFirstPatchFault (\w+) (\w+) (\w+) (\w+)', law):
    f, p, j, x = m.groups()
    try: patch_steps(F(f), F(p), value(j)); got = None
    except Fault as e: got = e.t
    same(x, got, None if x == 'None' else value(x))
for m in re.finditer(r'IsPatchedFile (\w+) (\w+) (\w+) (\w+)', law):
    f, p, j, x = m.groups()
    same(x, applied(all_writes(patch_steps(F(f), F(p), value(j))[3]), F(f)), F(x))
h = patch_target(F('plain_file'), F('six_file'), value('six_job'))
same('tiles', box_tiles(plan_in(F('plain_file'), h), given_by(F('six_file'), value('six_job'))), value('six_tiles'))
print(bad, 'differ')
