import re,sys
groups={}; cur=None
for l in open(sys.argv[1]):
    l=l.rstrip()
    if not l: continue
    if l.startswith('| '):
        c=[x.strip() for x in l.strip('|').split('|')]
        groups[cur][c[0]]=c[1:]
    else: cur=l; groups.setdefault(cur,{})
def ms(c): return c[0] if c else ''
def both(c):
    if not c: return ''
    if len(c)==1: return c[0]
    return f"{c[0]}, {c[1]}"
if sys.argv[2]=='dump':
    for g,v in groups.items():
        print(g)
        for t,c in v.items(): print('   ',t,c)
else:
    job=sys.argv[2]
    cols=[g for g in groups if g.startswith(job)]
    titles=[]
    for g in cols:
        for t in groups[g]:
            if t not in titles: titles.append(t)
    for g in cols: print('#',g)
    for t in titles: print('| '+t+' | '+' | '.join(both(groups[g].get(t)) for g in cols)+' |')
    for t in titles: print('   resident',t,[ (groups[g].get(t) or ['','','',''])[3:4] for g in cols], [ (groups[g].get(t) or ['','',''])[2:3] for g in cols])
