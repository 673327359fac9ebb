#!/bin/bash
# tryedit.sh CRATE EDIT FN : applies an edit in /work/h/ed and checks FN
cd /work/h/ed; git checkout -q .; python3 - "$1" "$2" <<'P'
import sys,os
c,e=sys.argv[1:3]
L=[l.partition(': ')[::2] for l in open(f'crates/{c}/must-fail/{e}.edit').read().split('\n') if l]
f=None
for (k,v),(k2,v2) in zip(L,L[1:]+[('','')]):
    if k=='file': f=f'crates/{c}/{v.strip()}'
    if k=='old':
        s=open(f).read(); assert s.count(v)==1; open(f,'w').write(s.replace(v,v2))
P
git diff --stat | tail -1
JOBS=1 timeout 400 /work/base/gcheck crates/$1 check --only $3 2>&1 | grep -vE "^statements|: proved" | cut -c1-300 | head -12
git checkout -q .
