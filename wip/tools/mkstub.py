#!/usr/bin/env python3
# mkstub.py SRCTOP OUT CRATE.. : copies of crates whose functions have holes for proofs
import sys, re, shutil
from pathlib import Path
top=Path(sys.argv[1]); out=Path(sys.argv[2])
def skip_ws(s,i):
    while i<len(s):
        if s[i].isspace(): i+=1
        elif s.startswith('//',i):
            j=s.find('\n',i); i=len(s) if j<0 else j
        else: break
    return i
def match(s,i):
    # i at an opening bracket; returns index after the matching one
    depth=0
    while i<len(s):
        c=s[i]
        if s.startswith('//',i):
            j=s.find('\n',i); i=len(s) if j<0 else j; continue
        if c=='"':
            i+=1
            while s[i]!='"':
                if s[i]=='\\': i+=1
                i+=1
            i+=1; continue
        if c=="'":
            m=re.match(r"'(\\.[^']*|[^'\\])'",s[i:])
            if m: i+=m.end(); continue
        if c in '({[': depth+=1
        if c in ')}]':
            depth-=1
            if depth==0: return i+1
        i+=1
    raise Exception('no match')
CL=re.compile(r'(requires|ensures|ghost)\*?\s*([\w]+)?\s*:?\s*$')
def body_of(s,i):
    # from after 'fn name' ; returns (start,end) of body or None
    seg=i
    while True:
        c=s[i]
        if s.startswith('//',i):
            j=s.find('\n',i); i=j; continue
        if c==';': return None
        if c in '([':
            i=match(s,i); continue
        if c=='{':
            text=re.sub(r'//[^\n]*','',s[seg:i]).rstrip()
            if CL.search(text): i=match(s,i); seg=i; continue
            return (i,match(s,i))
        if c=="'" :
            i+=1; continue
        i+=1
def stub(name):
    src=top/'crates'/name; dst=out/'crates'/name
    if dst.exists(): shutil.rmtree(dst)
    shutil.copytree(src,dst,ignore=shutil.ignore_patterns('out','must-fail'))
    n=0
    for f in sorted((dst/'src').rglob('*.rt')):
        s=f.read_text()
        rel=f.relative_to(dst/'src').with_suffix('')
        mod=list(rel.parts)
        if mod==['lib']: mod=[]
        if mod and mod[-1]=='mod': mod=mod[:-1]
        res=''; i=0; pos=0
        def scan(a,b,tp):
            nonlocal res,pos,n
            i=a
            while i<b:
                i=skip_ws(s,i)
                if i>=b: break
                if s[i]=='#':
                    j=s.index('[',i); i=match(s,j); continue
                m=re.compile(r'(pub(\([^)]*\))?\s+)?(unsafe\s+)?(const\s+)?fn\s+(\w+)').match(s,i)
                if m:
                    bd=body_of(s,m.end())
                    if bd is None: i=s.index(';',m.end())+1; continue
                    if not m.group(4) and tp is not False:
                        res+=s[pos:bd[0]]+'{ unreachable!() }'; pos=bd[1]
                        p=mod+([tp] if tp else [])+[m.group(5)]
                        d=dst/'proofs'/Path(*p)
                        for x in ('Answers.antt','Invariants.antt'):
                            if (d/x).exists(): (d/x).unlink()
                        d.mkdir(parents=True,exist_ok=True)
                        (d/'Proof.antt').write_text('-- a hole\nuse Rattle.%s.proofs.%s.Statement.{statement}\n\npub %s_spec : {M : Type 1} → statement M\n%s_spec = ?\n'%(name,'.'.join(p),m.group(5),m.group(5)))
                        n+=1
                    i=bd[1]; continue
                m=re.compile(r'(unsafe\s+)?impl\b').match(s,i)
                if m:
                    # header up to '{'
                    j=i
                    while s[j]!='{':
                        if s[j] in '([': j=match(s,j)
                        else: j+=1
                    head=s[i:j]
                    e=match(s,j)
                    if re.search(r'\bfor\b',head): i=e; continue
                    h=re.sub(r'^(unsafe\s+)?impl\s*','',head)
                    if h.startswith('<'):
                        d=0
                        for k,c in enumerate(h):
                            if c=='<': d+=1
                            if c=='>':
                                d-=1
                                if d==0: break
                        h=h[k+1:]
                    t=re.match(r'\s*(\w+)',h).group(1)
                    scan(j+1,e-1,t); i=e; continue
                # other item: to ';' or a brace block at depth 0
                j=i
                while j<b:
                    if s.startswith('//',j):
                        j=s.find('\n',j); continue
                    if s[j]==';': j+=1; break
                    if s[j]=='{':
                        j=match(s,j)
                        # `use a::{..};`
                        k=skip_ws(s,j)
                        if k<b and s[k]==';': j=k+1
                        break
                    if s[j] in '([': j=match(s,j); continue
                    if s[j]=='"':
                        j+=1
                        while s[j]!='"':
                            if s[j]=='\\': j+=1
                            j+=1
                        j+=1; continue
                    j+=1
                i=j
        scan(0,len(s),None)
        res+=s[pos:]
        f.write_text(res)
    print(name,n,'stubbed')
for c in sys.argv[3:]: stub(c)
