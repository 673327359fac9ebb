#!/usr/bin/env python3
"""buildall.py TOP [CRATE..]: proves all product crates of a clone, lowest first, four at once. A crate whose library below is missing because that
one was not proved is checked with it as source. Verdicts in /work/base/build.log; output of each in crates/X/out/gcheck.log or check.log."""
import subprocess,sys,os,time,threading
from pathlib import Path
TOP=Path(sys.argv[1]).resolve(); only=set(sys.argv[2:])
G='/work/base/gcheck'
deps={}
for l in (TOP/'crates.txt').read_text().splitlines():
    l=l.split('#')[0].strip()
    if ':' in l:
        n,r=l.split(':',1); n=n.strip()
        if n.startswith('fz_cases') : continue
        deps[n]=[x for x in r.split() if x.startswith('fz')]
order=list(deps)
def above(n):
    out=set()
    for x in order:
        if n in deps[x] or out&set(deps[x]): out.add(x)
    return len(out)
weight={n:above(n) for n in order}
state={n:'wait' for n in order}
lock=threading.Lock()
LOG=open('/work/base/build.log','a')
def say(*a):
    with lock:
        print(time.strftime('%H:%M:%S'),*a,file=LOG,flush=True)
def closure(n):
    out=[]
    for x in deps[n]:
        for y in closure(x)+[x]:
            if y not in out: out.append(y)
    return out
def work(n):
    bad=[x for x in closure(n) if state[x]!='proved']
    t=time.time(); d=TOP/'crates'/n
    (d/'out').mkdir(exist_ok=True)
    if not bad:
        r=subprocess.run([G,str(d),'lib'],capture_output=True,text=True)
        ok=r.returncode==0
        say(n,'proved' if ok else 'NOT proved',f'{time.time()-t:.0f} s',(r.stdout+r.stderr).strip().splitlines()[-1:] )
        state[n]='proved' if ok else 'bad'
    else:
        log=open(d/'out/check.log','w')
        r=subprocess.run([G,str(d),'check'],stdout=log,stderr=subprocess.STDOUT,env={**os.environ,'SRC':','.join(bad)})
        tail=(d/'out/check.log').read_text().splitlines()[-1:]
        say(n,'checked over sources',bad,f'{time.time()-t:.0f} s',tail); state[n]='bad'
def main():
    running={}
    while True:
        for n,t in list(running.items()):
            if not t.is_alive(): del running[n]
        todo=[n for n in order if state[n]=='wait']
        if not todo and not running: break
        ready=[n for n in todo if all(state[x] in('proved','bad') for x in closure(n))]
        ready.sort(key=lambda n:-weight[n])
        while ready and len(running)<4:
            n=ready.pop(0); state[n]='run'; t=threading.Thread(target=work,args=(n,)); t.start(); running[n]=t
        time.sleep(1)
    say('end',{k:sum(v==k for v in state.values()) for k in('proved','bad')})
main()
