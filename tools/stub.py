#!/usr/bin/env python3
"""stub.py CLONE OUT CRATE.. : crates without functions, for checking lemma files above them."""
import os,re,shutil,sys
src_root,out_root,crates=sys.argv[1],sys.argv[2],sys.argv[3:]
def strip_comments(t):
    out=[];i=0
    while i<len(t):
        if t.startswith('//',i):
            j=t.find('\n',i); j=len(t) if j<0 else j
            if t.startswith('//!',i): out.append(t[i:j])
            i=j
        elif t[i]=='"':
            j=i+1
            while t[j]!='"':
                j+=2 if t[j]=='\\' else 1
            out.append(t[i:j+1]); i=j+1
        else:
            out.append(t[i]); i+=1
    return ''.join(out)
def block_end(t,i):
    d=0
    while i<len(t):
        c=t[i]
        if c=='"':
            i+=1
            while t[i]!='"': i+=2 if t[i]=='\\' else 1
        elif c=="'" :
            m=re.match(r"'(\\.|[^\\'])'",t[i:])
            if m: i+=m.end()-1
        elif c=='{': d+=1
        elif c=='}':
            d-=1
            if d==0: return i+1
        i+=1
    raise Exception('unbalanced')
def items(t):
    i=0;n=len(t)
    while True:
        while i<n and t[i].isspace(): i+=1
        if i>=n: return
        start=i
        # attributes
        attrs=[]
        while True:
            while i<n and t[i].isspace(): i+=1
            if t.startswith('//!',i):
                j=t.find('\n',i); j=n if j<0 else j
                yield ('doc',t[i:j]); i=j; start=i
                continue
            if t.startswith('#!',i) :
                j=t.index(']',i)+1
                d=0;j=i
                while True:
                    if t[j]=='[': d+=1
                    if t[j]==']':
                        d-=1
                        if d==0: break
                    j+=1
                yield ('inner',t[i:j+1]); i=j+1; start=i; continue
            if t.startswith('#[',i):
                d=0;j=i
                while True:
                    if t[j]=='[': d+=1
                    if t[j]==']':
                        d-=1
                        if d==0: break
                    j+=1
                attrs.append(t[i:j+1]); i=j+1; continue
            break
        if i>=n: return
        m=re.match(r'(pub(\([a-z]+\))?\s+)?(ghost\s+)?(unsafe\s+)?(const\s+fn|const|fn|impl|struct|enum|use|mod|trait|type|static|macro_rules!|union)\b',t[i:])
        if not m: raise Exception('item? '+t[i:i+80])
        kind=m.group(5)
        if m.group(3) and kind=='use': kind='ghostuse'
        # end
        j=i+m.end()
        if kind in('fn','const fn'):
            seg=j
            while True:
                c=t[j]
                if c==';' and t[seg:j].count('(')==t[seg:j].count(')'):
                    # array types [T; N] inside
                    if t[seg:j].count('[')==t[seg:j].count(']'):
                        j+=1; break
                if c=='{':
                    pre=t[seg:j]
                    e=block_end(t,j)
                    if re.search(r'\b(requires|ensures|decreases|measure|invariant|frees|reads|ghost)\b[^{}]*$',pre):
                        j=e; seg=e; continue
                    j=e; break
                j+=1
        elif kind in('impl','trait','macro_rules!'):
            j=block_end(t,t.index('{',j)) 
        else:
            while True:
                c=t[j]
                if c==';':
                    if t[i:j].count('[')==t[i:j].count(']') and t[i:j].count('{')==t[i:j].count('}'):
                        j+=1;break
                if c=='{':
                    j=block_end(t,j)
                    if kind in('struct','enum','union','mod'): break
                    continue
                j+=1
        yield (kind,'\n'.join(attrs+[t[i:j]]),attrs)
        i=j
def filter_use(text):
    m=re.match(r'((?:#\[[^\]]*\]\s*)*)((?:pub(?:\([a-z]+\))?\s+)?use\s+)(.*);\s*$',text,re.S)
    pre,head,path=m.group(1),m.group(2),m.group(3)
    def parse(p):
        p=p.strip()
        k=p.find('{')
        if k<0:
            leaf=p.split('::')[-1].split(' as ')[-1].strip()
            return [p] if leaf[:1].isupper() or leaf=='*' else []
        base=p[:k]; inner=p[k+1:p.rindex('}')]
        parts=[];d=0;cur=''
        for c in inner:
            if c=='{': d+=1
            if c=='}': d-=1
            if c==',' and d==0: parts.append(cur);cur=''
            else: cur+=c
        parts.append(cur)
        res=[]
        for q in parts:
            if q.strip(): res+= [base+x for x in parse(q)]
        return res
    return ''.join(head+x.strip()+';\n' for x in parse(path))
def stub_rt(text,kinds):
    out=[]
    for it in items(strip_comments(text)):
        k=it[0]
        if k=='inner': out.append(it[1]+'\n')
        elif k=='doc': pass
        elif k in('struct','enum','const','type','static','union'):
            out.append(it[1]+'\n')
        elif k=='mod':
            if 'cfg(test)' in it[1] or re.search(r'mod\s+tests?\b',it[1]): continue
            out.append(it[1]+'\n')
        elif k=='impl':
            h=it[1][:it[1].index('{')]
            if re.search(r'\b(Model|Ord|PartialOrd|Eq|PartialEq|Hash|Clone|Copy|Debug|Coded)(<[^>]*>)?\s+for\b',h): out.append(it[1]+'\n')
        elif k=='ghostuse': out.append(it[1]+'\n')
        elif k=='use':
            if re.match(r'((?:#\[[^\]]*\]\s*)*)(pub\s+)?use\s+std::',it[1]): out.append(it[1]+'\n'); continue
            u=filter_use(it[1])
            if u: out.append(u)
    return ''.join(out)
for c in crates:
    s=os.path.join(src_root,'crates',c); o=os.path.join(out_root,'crates',c)
    shutil.rmtree(os.path.join(o,'src'),ignore_errors=True)
    shutil.rmtree(os.path.join(o,'specs'),ignore_errors=True)
    shutil.rmtree(os.path.join(o,'proofs'),ignore_errors=True)
    os.makedirs(o,exist_ok=True)
    if os.path.isdir(s+'/specs'): shutil.copytree(s+'/specs',o+'/specs')
    if os.path.isdir(s+'/proofs'):
        def ign(d,names):
            # the folders of answers, which are named as files of src
            return [x for x in names if d==s+'/proofs' and (os.path.exists(s+'/src/'+x+'.rt') or os.path.isdir(s+'/src/'+x))]
        shutil.copytree(s+'/proofs',o+'/proofs',ignore=ign)
    for dp,dn,fn in os.walk(s+'/src'):
        if 'tests' in dp.split('/'): continue
        for f in fn:
            if not f.endswith('.rt') or f=='tests.rt': continue
            p=os.path.join(dp,f); q=o+'/src'+p[len(s+'/src'):]
            os.makedirs(os.path.dirname(q),exist_ok=True)
            try: open(q,'w').write(stub_rt(open(p).read(),None))
            except Exception as e: print(p,e); raise
shutil.copy(os.path.join(src_root,'crates.txt'),os.path.join(out_root,'crates.txt'))
