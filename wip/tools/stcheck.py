#!/usr/bin/env python3
"""stcheck.py CRATE FLAGS..: as `gcheck check`, with the stubs of /tmp/ststub (made by mkstub.py TOP /tmp/ststub CRATE..) in place of libraries that
are missing. TOP names the clone, REAL crates that are passed as source though they have a stub. With --allow-holes the only holes left are those of stubs."""
import importlib.machinery, importlib.util, sys, os
from pathlib import Path
loader = importlib.machinery.SourceFileLoader('gcheck', '/work/base/gcheck')
spec = importlib.util.spec_from_loader('gcheck', loader); g = importlib.util.module_from_spec(spec); loader.exec_module(g)
top=Path(os.environ['TOP']); name=sys.argv[1]; flags=sys.argv[2:]
d=top/'crates'/name
real=os.environ.get('REAL','').replace(',',' ').split()
clo=g.closure(top,name)
miss=[x for x in clo if not g.have(top,x)]
# what stands on a stub has to be source as well
src=[]
for x in clo:
    if x in miss or x in real or any(y in src for y in g.deps(top).get(x,[])): src.append(x)
print('source:',src,flush=True)
a=['--extern',f'std={g.RL}/std.rlib']
need=list(g.deps(top).get(name,[]))
for s in src:
    for y in g.deps(top).get(s,[]):
        if y not in need: need.append(y)
for x in need:
    if x in src: continue
    a+=['--extern',f'{x}={g.lib_of(top,x)}' if x.startswith('fz') else f'{x}={g.RL}/{x}.rlib']
for s in src:
    used=','.join(['std']+list(g.deps(top).get(s,[])))
    t=top if s in real or not Path('/tmp/ststub/crates/'+s).exists() else Path('/tmp/ststub')
    a+=['--lib',f'{s}:{used}={t}/crates/{s}/src/lib.rt']
a+=['-L',f'dependency={g.RL}']
for x in clo:
    if x not in src: a+=['-L',f'dependency={g.lib_of(top,x).parent}']
(d/'out').mkdir(exist_ok=True)
root='src/main.rt' if (d/'src/main.rt').exists() else 'src/lib.rt'
with g.Slot():
    sys.exit(g.run(['/opt/rattle/bin/rattle','check','--crate-name',name,root]+a+g.COMMON+['--links',f'{name}=','--incremental','out/inc-stub','--jobs','1']+flags,d))
