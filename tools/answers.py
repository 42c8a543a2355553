#!/usr/bin/env python3
"""Turns the proof files of the older kit, proofs/F/Proof.antt, into Invariants.antt and Answers.antt.

usage: tools/answers.py crates/NAME NAMES [--only REGEX]

Run it at the top of the repository, after port.py and tools/respell.py. NAMES is the names.json that `rt check --generated FOLDER
--old-names` writes in the crate's folder, once every crate below proves: it has each goal and each step under its old and its new name.
An answer that was a bare tactic goes, since the check tries those by itself. What it turns is kept below target/older-proofs, and
what it could not read is printed: a place handed to a helper lemma, and the branches where two arms join, are for the hand.
"""
import json,os,re,sys
crate=os.path.abspath(sys.argv[1]); names=json.load(open(sys.argv[2])); only=re.compile(sys.argv[4]) if len(sys.argv)>4 else None
cn=os.path.basename(crate)
BASE=r"(?:«\w+»|[^\s(){}.;,@\"«»\[\]|λ«»]+)"
PATH=re.compile(r"(?<![^\s(){}\[\],;|])([A-Za-z][\w']*)((?:\."+BASE+r")+)")
def norm(s):
    s=re.sub(r'_lem$','',s); s=(s[:1].lower()+s[1:] if s.startswith('Operand') else s).replace('_','-')
    return re.sub(r'-+','-',s)
def normneed(s):
    s=norm(s)
    s=re.sub(r'^overflow-','',s); s=re.sub(r'^(offset|slice)-bounds-','',s)
    return s
def words(t): return set(re.findall(r"[^\s(){}.;,@\"«»\[\]|]+",t))
def usedimports(uses,text):
    text=re.sub(r"--.*","",text)
    w=words(text); out=[]
    for u in uses:
        m=re.match(r"^use ([^\s{]+)\{(.*)\}\s*$",u,re.S)
        if not m:
            m2=re.match(r"^use (\S+?)(?: as (\S+))?$",u)
            n=m2.group(2) or m2.group(1).split('.')[-1]
            if re.search(r"(?<![\w.])"+re.escape(n)+r"\.",text): out.append(u)
            continue
        keep=[]
        for it in [x.strip() for x in m.group(2).split(',') if x.strip()]:
            n=it.split(' as ')[-1].strip()
            if '◌' in n:
                parts=[p for p in n.split('◌') if p]
                if all(p in w or p in text for p in parts): keep.append(it)
            elif n=='[]':
                if '[]' in text: keep.append(it)
            elif n in w: keep.append(it)
        if keep: out.append(f"use {m.group(1)}{{{', '.join(keep)}}}")
    return out
def split(t):
    """use lines, blocks"""
    lines=t.split('\n'); uses=[]; rest=[]; i=0
    while i<len(lines):
        l=lines[i]
        if l.startswith('use '):
            u=l
            while u.count('{')>u.count('}'):
                i+=1; u+=' '+lines[i].strip()
            uses.append(u)
        else: rest.append(l)
        i+=1
    blocks=[]; cur=[]
    for l in rest:
        if l.strip()=='' :
            # blank line splits only if next is column 0
            cur.append(l); continue
        if l and not l[0].isspace() and cur and any(x.strip()=='' for x in cur[-1:]):
            blocks.append(cur); cur=[]
        cur.append(l)
    if cur: blocks.append(cur)
    return uses,['\n'.join(b).strip('\n') for b in blocks if any(x.strip() for x in b)]
report=[]
ROOT=os.path.dirname(os.path.dirname(crate))
CONTRACT={}
SIG={}
def sources():
    """Each file of src/ in every crate: how a path of its functions begins, and its text."""
    for cr in os.listdir(ROOT+'/crates'):
        sd=f"{ROOT}/crates/{cr}/src"
        for d,_,fs in os.walk(sd):
            for f in fs:
                if not f.endswith('.rt'): continue
                mod=os.path.relpath(os.path.join(d,f),sd)[:-3].replace('/','::')
                yield f"{cr}::"+('' if mod in('lib','main') else mod+'::'),open(os.path.join(d,f)).read()
FN=r'^\s*(?:pub )?(?:extern "C" )?fn (\w+)'
def names_of(params,which):
    return [p.split(':')[0].replace('mut ','').strip() for p in params if which in p]
# the names of each function's requires and ensures clauses; its &mut parameters, all parameters, and its references
for begin,text in sources():
    imp=''; fn=None
    for l in text.split('\n'):
        m=re.match(r"^impl\s+(\w+)",l)
        if m: imp=m.group(1)+'::'
        if l.startswith('}'): imp=''
        m=re.match(FN,l)
        if m:
            fn=begin+imp+m.group(1); CONTRACT[fn]=([],[])
        m=re.match(r"^\s*(requires|ensures)\*?\s*(\w+)?\s*\{",l)
        if m and fn: CONTRACT[fn][0 if m.group(1)=='requires' else 1].append(m.group(2))
    imps=[(m.start(),m.group(1)) for m in re.finditer(r"^impl\s+(\w+)",text,re.M)]
    ends=[m.start() for m in re.finditer(r"^}",text,re.M)]
    for m in re.finditer(FN+r'\s*\(([^)]*)\)',text,re.M):
        imp=''
        for st,n in imps:
            e=[x for x in ends if x>st]
            if st<m.start() and e and m.start()<e[0]: imp=n+'::'
        ps=[p.strip() for p in m.group(2).split(',') if p.strip()]
        SIG[begin+imp+m.group(1)]=(names_of(ps,'&mut'),names_of(ps,''),names_of(ps,'&'))
def mutpath(fn,rest):
    d=1
    while d<len(rest) and rest[d] in('0','1'): d+=1
    ds=rest[1:d]
    i=0
    while i<len(ds) and ds[i]=='1': i+=1
    used=i+1 if i<len(ds) else i
    ms=SIG.get(fn,([],[]))[0]
    if len(ms)==1: return [rest[0],ms[0]]+rest[1+used:]
    return [rest[0],mutparam(fn,i)]+rest[1+used:]
def mutparam(fn,k):
    ms=SIG.get(fn,([],[]))[0]
    if len(ms)==1: return ms[0]
    rs=SIG.get(fn,([],[],[]))[2] if len(SIG.get(fn,()))>2 else ms
    if k<len(rs) and rs[k] in ms: return rs[k]
    return ms[k] if k<len(ms) else str(k)
def clause(fn,kind,sub):
    """sub: fields after requires/ensures; several clauses were pairs, nested to the right"""
    c=CONTRACT.get(fn)
    if not c or not sub or not sub[0].isdigit(): return sub
    ns=c[0 if kind=='requires' else 1]; n=len(ns)
    if n<2 or not all(ns): return sub
    if int(sub[0])>1: return [ns[int(sub[0])]]+sub[1:] if int(sub[0])<n else sub
    i=0; r=list(sub)
    while True:
        if i==n-1: return [ns[i]]+r
        if not r or r[0] not in('0','1'): return sub
        if r[0]=='0': return [ns[i]]+r[1:]
        i+=1; r=r[1:]
def leaves(t):
    t=t.strip()
    if t.startswith('('):
        depth=0
        for i,ch in enumerate(t):
            if ch in '([{': depth+=1
            if ch in ')]}':
                depth-=1
                if depth==0: break
        if i==len(t)-1:
            parts=[];depth=0;cur=''
            for ch in t[1:-1]:
                if ch in '([{': depth+=1
                if ch in ')]}': depth-=1
                if ch==',' and depth==0: parts.append(cur); cur=''
                else: cur+=ch
            parts.append(cur)
            if len(parts)>1: return [parts]
    return None
def flat(t):
    l=leaves(t)
    if l is None: return [t.strip()]
    return [x for p in l[0] for x in flat(p)]
def shallow(t,n):
    """splits nested tuples, leftmost largest first, until there are n parts"""
    parts=[t]
    while len(parts)<n:
        for i,p in enumerate(parts):
            l=leaves(p)
            if l is not None:
                parts[i:i+1]=[q.strip() for q in l[0]]; break
        else: return None
    return parts if len(parts)==n else None
def tuple_record(bd,ns):
    t=bd.rstrip()
    if not t.endswith(')') or len(ns)<2: return bd
    depth=0; i=len(t)-1
    while i>=0:
        if t[i] in ')]}': depth+=1
        if t[i] in '([{':
            depth-=1
            if depth==0: break
        i-=1
    before=t[:i].rstrip()
    if before and not before.endswith((' in','\nin')): return bd
    f=[]; cur=t[i:]
    for _ in range(len(ns)-1):
        l=leaves(cur)
        if l is None or len(l[0])!=2: f=None; break
        f.append(l[0][0].strip()); cur=l[0][1].strip()
    if f is not None: f.append(cur)
    if f is None: f=flat(t[i:])
    if len(f)!=len(ns): f=shallow(t[i:],len(ns))
    if not f: return bd
    return t[:i]+'record { '+'; '.join(f"{n} = {p.strip()}" for n,p in zip(ns,f))+' }'

def convert(dirpath,fn,N):
    p=os.path.join(dirpath,'Proof.antt'); t=open(p).read()
    uses,blocks=split(t)
    places={pl[0]:(i,pl) for i,pl in enumerate(N['places'])}
    arms=N['arms']
    own=cn+'::'+fn.replace('+','').replace('.','::')
    def parent(P): return places[P][1][1]
    def say(x): report.append(f"{fn}: {x}")
    inv=[];ans=[];helpers=[]; dropped=0
    needs=N['needs']; asked=N['asked_at']
    if len(needs)!=len(asked): say(f"needs {len(needs)} asked {len(asked)}")
    loops=N['loops']; changed=N['changed']
    ni=0
    ownparams=set(SIG.get(own,([],[]))[1])
    def find(P,f):
        q=P
        while q is not None:
            if places[q][1][1] is not None and norm(places[q][1][2][0])==norm(f): return q
            q=parent(q)
        c=[x for x in places if places[x][1][1] is not None and norm(places[x][1][2][0])==norm(f)]
        return c[0] if c else None
    def resolve(P,fields,ctx):
        fields=[f.strip('«»') for f in fields]
        while fields and fields[0]=='before':
            q=parent(P)
            if q is not None: P=q
            fields.pop(0)
        if not fields: return ('place',P)
        f=fields[0]
        if f in('pre',): f='requires'; fields[0]='requires'
        if f=='well-formed': f='well_formed'; fields[0]=f
        if f in('args','requires','lifetimes','ranges','well_formed','type_inv'):
            if f=='requires': fields=[f]+clause(own,'requires',fields[1:])
            if f in('args','ranges') and len(fields)>1 and fields[1] not in ownparams and fields[1].replace('-','_') in ownparams: fields[1]=fields[1].replace('-','_')
            return ('path','c.'+'.'.join(fields))
        Q=find(P0[0],f) if find(P,f) is None else find(P,f)
        if Q is None:
            say(f"{ctx}: no step {f} near {P}"); return ('path','c.'+'.'.join(fields))
        idx,pl=places[Q]
        old,nw=pl[2]
        a=arms[idx]
        rest=fields[1:]
        if rest and rest[0]=='last': rest[0]='new'
        if rest and norm(old).startswith('if') and len(rest)==1: rest=[{'taken':'true','left':'false'}.get(rest[0],rest[0])]
        if rest and norm(old).endswith('-test') and len(rest)==1: rest=[{'taken':'true','left':'false'}.get(rest[0],rest[0])]
        if rest and rest[0] in('kept','auto') and len(rest)>1 and rest[1].isdigit() and pl[3]:
            rest=mutpath(pl[3],rest)
        if nw.startswith('if-not-') and rest and rest[0] in('true','false') and len(rest)==1: return ('neg','(ap not c.'+nw+'.'+rest[0]+')')
        if rest and rest[0]=='new' and len(rest)>1 and rest[1].isdigit() and pl[3]:
            rest=mutpath(pl[3],rest)
        if rest and rest[0] in('ensures','requires') and pl[3]: rest=[rest[0]]+clause(pl[3],rest[0],rest[1:])
        if a:
            best=None
            for nf,st,sub in a[2]:
                if norm(st)==norm(f) and rest[:len(sub)]==sub and (best is None or len(sub)>len(best[1])) and sub: best=(nf,sub)
            if best: return ('path','c.'+'.'.join([a[0],best[0]]+rest[len(best[1]):]))
            ownm=[nf for nf,st,sub in a[2] if nf.endswith('-own') and norm(st)==norm(f)]
            if ownm and rest: return ('path','c.'+'.'.join([a[0],ownm[0]]+rest))
            return ('path','c.'+'.'.join([a[0]]+rest))
        return ('path','c.'+'.'.join([nw]+rest))
    P0=[None]
    def body(text,P,ctx):
        P0[0]=P
        env={'c':P}
        # lets of places, line by line
        def letrep(m):
            v,path=m.group(1),m.group(2)
            parts=path.split('.')
            if parts[0] in env:
                r=resolve(env[parts[0]],parts[1:],ctx)
                if r and r[0]=='place':
                    env[v]=r[1]; return ''
            return m.group(0)
        text=re.sub(r"let ([A-Za-z][\w']*) = ([A-Za-z][\w']*(?:\.[^\s(){}.;,]+)*) in[ \n]\s*",letrep,text)
        def pr(m):
            v=m.group(1)
            if v in env:
                r=resolve(env[v],m.group(2)[1:].split('.'),ctx)
                if r is None: return m.group(0)
                if r[0]=='place':
                    say(f"{ctx}: bare place {m.group(0)}"); return 'c'
                return r[1]
            return m.group(0)
        text=PATH.sub(pr,text)
        return text
    HELP={}
    def helped(bd):
        pre=''
        for h,(ty,bo,_) in HELP.items():
            hn=re.sub(r'-','_',h)+'_here'
            new=re.sub(r"(?<![\w.'-])"+re.escape(h)+r" (?:c|b\d+|[a-z])(?:\.before)*(?![\w.'-])",hn,bd)
            new=new.replace('('+hn+')',hn)
            if new!=bd:
                bd=new; pre+=f"\n    let {hn} : {ty} =\n        {bo.strip()} in"
        return pre,bd
    for b in blocks:
        hm=re.match(r"^(?:--.*\n)*(\S+) : \((\w+) : tie\.(\S+?)((?: [^()→]*)?)\)\s*→ (.*?)\n\1 (\w+) =(.*)$",b,re.S)
        if hm and not hm.group(3).startswith('Need'):
            q=[x for x in places if norm(x)==norm(hm.group(3))]
            unf=[l for l in hm.group(5).split('\n') if l.startswith('unfolding')]
            if q and not unf and '\n  where' not in hm.group(7):
                def conv1(v,txt): return body(re.sub(r"(?<![\w.'])"+re.escape(v)+r"(?=\.)",'c',txt),q[0],hm.group(1)) if v!='c' else body(txt,q[0],hm.group(1))
                bo0=hm.group(7)
                p2,bo0=helped(bo0)
                HELP[hm.group(1)]=(conv1(hm.group(2),hm.group(5).strip()),(p2.strip()+'\n    ' if p2 else '')+conv1(hm.group(6),bo0.strip()),b)
            else: say(f"helper {hm.group(1)} at {hm.group(3)} not read")
    blocks=[b for b in blocks if b not in [h[2] for h in HELP.values()]]
    BODY={}
    for b in blocks:
        m=re.match(r"^(?:--.*\n)*(\S+) : tie\.Need-\S+[^\n]*\n((?:unfolding[^\n]*\n)*)\1 c(?: κs)? =(.*)$",'\n'.join(l for l in b.split('\n') if not re.match(r"^\s*-- src/",l)),re.S)
        if m and not m.group(2): BODY[m.group(1)]=m.group(3).strip()
    def cited(bd,me):
        def r(m):
            n=m.group(1)
            return '('+BODY[n]+')' if n in BODY and n!=me else m.group(0)
        return re.sub(r"\((\S+) c(?:\.before)*\)",r,bd)
    for b in blocks:
        bl='\n'.join(l for l in b.split('\n') if not re.match(r"^\s*-- src/",l))
        m=re.match(r"^((?:--.*\n)*)(abbrev |unfoldable )?(?:pub )?(?:abbrev )?(\S+) :\s+(?:tie|Tie)\.(\S+)([^\n]*)\n(.*)$",bl,re.S)
        if 'tie.close' in bl or 'statement M' in bl: continue
        if not m:
            helpers.append(bl); continue
        com,ab,name,ty,tyargs,rest=m.groups()
        if ty.startswith('invariant-') or ty.startswith('decreases-') or ty.startswith('InvT') or ty.startswith('MeasureT'):
            kind='invariant' if ty.startswith(('invariant','InvT')) else 'decreases'
            ln=ty.split('-',1)[1]
            k=[i for i,l in enumerate(loops) if norm(l[0][0])==norm(ln)]
            if not k: say(f"no loop {ln}"); helpers.append(bl); continue
            k=k[0]; new=loops[k][0][1]; vs=loops[k][1]; ch=changed[k]
            mm=re.match(re.escape(name)+r"((?: [^\s=]+)*) =(.*)$",rest,re.S)
            if not mm: say(f"{name}: clause not read"); helpers.append(bl); continue
            args=mm.group(1).split(); bd=mm.group(2)
            chv=[v for v,c in zip(vs,ch) if c]
            if len(args)!=len(vs)+len(chv): say(f"{name}: {len(args)} args, vars {vs} changed {chv}")
            sub={}
            for a,v in zip(args,vs):
                sub[a]=f"l.initial.{v}" if v in chv else f"l.{v}"
            for a,v in zip(args[len(vs):],chv): sub[a]=f"l.{v}"
            def rep(m2):
                w=m2.group(0)
                return sub.get(w,w)
            bd2=re.sub(r"(?<![\w'₀-₉.-])[A-Za-z_][\w'₀-₉-]*",rep,bd)
            inv.append((f"abbrev pub {kind}-{new} : goal.{kind}-{new}\n{kind}-{new} l ={bd2}"))
            continue
        if not ty.startswith('Need-'): say(f"type tie.{ty}"); helpers.append(bl); continue
        on=ty[5:].split()[0]
        # which need
        j=None
        if ni<len(needs) and normneed(needs[ni][0])==normneed(on): j=ni
        else:
            c=[i for i,n in enumerate(needs) if normneed(n[0])==normneed(on)]
            if c: j=c[0]
            elif ni<len(needs): j=ni; say(f"need {on} taken as {needs[ni]}")
        if j is None or (normneed(needs[j][0])!=normneed(on) and on.startswith('slice-aggregate')): say(f"need {on}: none"); ni=(ni if j is None else j); continue
        ni=j+1
        newn=needs[j][1]; P=asked[j][0]
        if P not in places:
            P2=[q for q in places if norm(q)==norm(P)]
            if not P2: say(f"{on}: place {P} unknown"); continue
            P=P2[0]
        # unfolding lines then clause(s)
        ls=rest.split('\n'); unf=[]
        while ls and ls[0].startswith('unfolding'): unf.append(ls.pop(0))
        rs='\n'.join(ls)
        mm=re.match(re.escape(name)+r"((?: [^\s=]+)*) =(.*)$",rs,re.S)
        if not mm: say(f"{name}: clause not read: {rs[:60]}"); continue
        args=mm.group(1).split(); bd=mm.group(2)
        if not args or args[0]!='c': say(f"{name}: args {args}")
        bd=cited(bd,name)
        pre,bd=helped(bd)
        bd=body(bd,P,name)
        if pre: bd=pre+'\n    '+bd.strip()
        mreq=re.match(r"^(.*?)-requires(?:-.*)?$",newn)
        ns=None
        if mreq:
            cands={pl[3] for pl in N['places'] if pl[3] and norm(pl[2][1])==norm(mreq.group(1))} or {pl[3] for pl in N['places'] if pl[3] and norm(mreq.group(1)).startswith(norm(pl[3].split('::')[-1]))}
            if len(cands)==1: ns=CONTRACT.get(cands.pop(),([],[]))[0]
        elif newn.startswith('returns'): ns=CONTRACT.get(own,([],[]))[1]
        if ns and all(ns) and len(ns)>1:
            nb=tuple_record(bd,ns)
            if nb==bd and 'record {' not in bd and not re.match(r'^(search|omega|grind|simp|rw|tt)\b',bd.strip()):
                # the last expression: behind the last line that ends in ' in'
                ls2=bd.rstrip().split('\n'); k2=max([i for i,l in enumerate(ls2) if l.endswith(' in')],default=-1)
                head='\n'.join(ls2[:k2+1]); tail='\n'.join(ls2[k2+1:]).strip()
                acc=['both'+'.1'*i+('.0' if i<len(ns)-1 else '') for i in range(len(ns))]
                nb=(head if head.strip() else '')+'\n    let both = '+tail+' in\n    record { '+'; '.join(f'{n} = {a}' for n,a in zip(ns,acc))+' }'
            bd=nb
        triv=re.sub(r"\s+"," ",bd).strip()
        if triv in('search rules','omega arith','tt','search needs') and not unf:
            dropped+=1; continue
        lead=' ' if not bd.startswith(('\n',' ')) else ''
        ans.append(com+f"pub {newn} : goal.{newn}\n"+''.join(u+'\n' for u in unf)+f"{newn} c ={lead}{bd}")
    mod=f"Rattle.{cn}.proofs."+fn
    uses+=['use mathlib.Core.Bool.{not}','use mathlib.Core.Path.{ap}'] if not any(re.search(r'Core.Path.\{.*\bap\b',u) for u in uses) else ['use mathlib.Core.Bool.{not}']
    uses=[u for u in uses if not re.search(r"\.(Statement|Tie)\b",u)]
    if inv:
        txt='\n\n'.join(inv)
        # helpers that the invariants use
        hs=[h for h in helpers if re.match(r"^(?:--.*\n)*(?:abbrev |unfoldable )?(?:pub )?(\S+) :",h) and re.search(r"(?<![\w.])"+re.escape(re.match(r"^(?:--.*\n)*(?:abbrev |unfoldable )?(?:pub )?(\S+) :",h).group(1))+r"(?![\w-])",txt)]
        if hs: say("helpers used by invariants")
        t2='\n\n'.join(hs+[txt])
        open(os.path.join(dirpath,'Invariants.antt'),'w').write('\n'.join(usedimports(uses,t2)+[f"use {mod}.Given as goal"])+'\n\n'+t2+'\n')
    if ans or helpers:
        t2='\n\n'.join(helpers+ans)
        if ans: open(os.path.join(dirpath,'Answers.antt'),'w').write('\n'.join(usedimports(uses,t2)+[f"use {mod}.Goals as goal"])+'\n\n'+t2+'\n')
    os.makedirs(ROOT+'/target/older-proofs/'+cn,exist_ok=True)
    os.rename(p,ROOT+'/target/older-proofs/'+cn+'/'+fn+'.antt')
    return dropped,len(ans)
lts={}
for k,v in names.items():
    m=re.match(r"^Rattle-\w+-proofs\.(.*)\.Lts$",k)
    if m: lts[m.group(1)]=v
for d,_,fs in sorted(os.walk(crate+'/proofs')):
    if 'Proof.antt' in fs:
        fn=os.path.relpath(d,crate+'/proofs').replace('/','.')
        if only and not only.search(fn): continue
        if fn not in lts: report.append(f"{fn}: no names"); continue
        if 'tie.close' not in open(d+'/Proof.antt').read(): report.append(f"{fn}: by hand"); continue
        convert(d,fn,lts[fn])
print('\n'.join(list(dict.fromkeys(report))[:40]))
