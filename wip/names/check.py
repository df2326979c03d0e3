"""after a rename: every name imported from a file stands declared there; every proof folder is a function's; every module of Lib.antt is a file"""
import re,glob,os,subprocess
U=re.compile(r"^(?:pub )?(?:ghost )?use (Rattle·[^\s;{]+?)(?:\.\{([^}]*)\}|\s+as\s+([^\s;]+))?;?\s*$",re.M)
def mf(p):
    m=re.match(r"Rattle·([a-z_0-9]+)(?:·(?:specs|proofs))?\.(specs|proofs)\.(.+)$",p)
    return m and 'crates/%s/%s/%s.antt'%(m.group(1),m.group(2),m.group(3).replace('.','/')), m and m.group(1), m and m.group(3)
bad=0
T={}
def toks(f):
    if f not in T:
        T[f]=set(re.findall(r"[^\s(){}.;,@\"«»`⌜⌝]+",re.sub(r"(?m)(^|\s)--.*$","",open(f,encoding='utf-8').read())))
    return T[f]
files=[f for f in subprocess.run(['git','ls-files','crates'],capture_output=True,text=True).stdout.split('\n') if f.endswith(('.antt','.rt'))]
cr=set(os.listdir('crates'))
deps={}
for ln in open('crates.txt'):
    m=re.match(r'(\w+):(.*)$',ln)
    if m: deps[m.group(1)]=m.group(2).split()
for c in deps:
    if c not in cr: print('crates.txt: no folder',c); bad+=1
    for d in deps[c]:
        if d not in deps and d not in ('io','libc','os'): print('crates.txt: unknown',d); bad+=1
for f in files:
    t=open(f,encoding='utf-8').read()
    for m in U.finditer(t):
        g,c,rest=mf(m.group(1))
        if not g: continue
        if c not in cr: print(f,'no crate',c); bad+=1; continue
        if rest.startswith('declared') : 
            src=open('crates/%s/src/lib.rt'%c).read() if os.path.exists('crates/%s/src/lib.rt'%c) else open('crates/%s/src/main.rt'%c).read()
            n=rest.split('.')[1]
            if not re.search(r'\b(struct|enum|const) %s\b'%n,src): print(f,'no',rest,'in',c); bad+=1
            continue
        last=rest.split('.')
        if last[-1] in ('Statement','Tie','Reads','Lts','Spec') or 'Statement' in last or 'Reads' in last or 'Tie' in last:
            n=last[0]
            src=''.join(open(x).read() for x in glob.glob('crates/%s/src/*.rt'%c))
            for x in n.split('+'):
                if x and not re.search(r'\bfn %s\b'%x,src): print(f,'no fn',x,'in',c); bad+=1
            continue
        if not os.path.exists(g): print(f,'no file',g); bad+=1; continue
        for x in (m.group(2) or '').split(','):
            x=x.strip().split(' as ')[0]
            if x and x not in toks(g): print(f,': ',x,'is not in',g); bad+=1
for f in files:
    if f.endswith('/Lib.antt'):
        for n in re.findall(r'(?m)^pub mod (\S+)',open(f).read()):
            if not os.path.exists(os.path.dirname(f)+'/'+n+'.antt') and not os.path.isdir(os.path.dirname(f)+'/'+n): print(f,'no',n); bad+=1
for d in glob.glob('crates/*/proofs/*/'):
    c=d.split('/')[1]; src=''.join(open(x).read() for x in glob.glob('crates/%s/src/*.rt'%c))
    for x in d.split('/')[3].split('+'):
        if x and not re.search(r'\bfn %s\b'%x,src): print(d,'is no function'); bad+=1
# rt imports
for f in files:
    if f.endswith('.rt'):
        t=open(f).read()
        for c,x in re.findall(r'(?m)^use (\w+)::(\w+);',t):
            if c in cr:
                src=''.join(open(y).read() for y in glob.glob('crates/%s/src/*.rt'%c))
                if not re.search(r'\b(fn|struct|enum|const) %s\b'%x,src): print(f,'no',c,x); bad+=1
            elif c not in ('std','io','libc','os'): print(f,'no crate',c); bad+=1
        for c in set(re.findall(r'(?<![\w:])([a-z_0-9]+)::\w',t)):
            if c not in cr and c not in ('std','io','libc','os','num','mem','ptr'): print(f,'? crate',c)
print(bad,'bad')
