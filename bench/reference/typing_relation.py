# The relation of sk_types_rules/specs (Rules, Sorts, Types), transcribed, against the reference: every type has one meaning or none.
import sys, random, itertools
from sketch import *
SECONDS = int(sys.argv[2]) if len(sys.argv) > 2 else 100
S=("ref","S")
UNI=[INT,BIT,S]+[ARR(BIT,n) for n in(1,2,3)]+[ARR(INT,n) for n in(1,2,3)]+[ARR(S,n) for n in (1,2)]+[ARR(ARR(INT,2),m) for m in (1,2,3)]+[ARR(ARR(BIT,2),m) for m in(1,2)]+[ARR(ARR(INT,1),m) for m in(1,2)]
W=16
def el(t): return t[1] if t[0]=="arr" else None
def cnt(t): return t[2] if t[0]=="arr" else 0
def grid(t): return t[0]=="arr" and t[1][0]=="arr"
def array_of(t,n): return None if grid(t) else ARR(t,n)
def pads(u,t):
    if t[0]!="arr": return False
    if t[1][0]!="arr":
        a=t[1]
        if u[0]!="arr": return u==a
        return not grid(u) and u[1]==a and u[2]<t[2]
    if u[0]=="arr" and not grid(u): return u[1]==t[1][1] and u[2]==t[1][2]
    if grid(u): return u[1]==t[1] and u[2]<t[2]
    return False
def fit_of(u,t): return "same" if u==t else "widen" if (u==BIT and t==INT) else "pad" if pads(u,t) else None
def fits(u,t): return fit_of(u,t) is not None
WRONG,LOOSE="wrong","loose"
def firm(t): return ("firm",t)
def join_(a,b): return firm(b) if fits(a,b) else firm(a) if fits(b,a) else WRONG
def isb(t): return t==BIT or isbits(t)
def cls(o): return {"+":"plus"}.get(o) or ("arith" if o in "-*/%" else "order" if o in("<","<=",">",">=") else "eq" if o in("==","!=") else "bit" if o in("&","|","^") else "shift" if o in("<<",">>") else "logic")
def taken(k,t):
    num=firm(INT) if t in(INT,BIT) else WRONG
    if k=="plus": return firm(t) if isbits(t) else num
    if k in("arith","order"): return num
    if k=="eq": return firm(t)
    if k=="bit": return firm(t) if isb(t) else WRONG
    return WRONG
def operand(k,a,b):
    if WRONG in(a,b): return WRONG
    if a==LOOSE and b==LOOSE: return {"plus":LOOSE,"bit":LOOSE,"arith":firm(INT),"order":firm(INT),"eq":firm(INT)}.get(k,WRONG)
    if a==LOOSE: return taken(k,b[1])
    if b==LOOSE: return taken(k,a[1])
    j=join_(a[1],b[1])
    return taken(k,j[1]) if j!=WRONG else WRONG
def loose_takes(k,t): return (t==INT or isbits(t)) if k=="plus" else isb(t) if k=="bit" else False
def result_of(k,t): return BIT if k in("order","eq","logic") else t
def result_own(k,o): return firm(result_of(k,o[1])) if o not in(WRONG,LOOSE) else o
def shifted(o): return firm(o[1]) if o not in(WRONG,LOOSE) and isbits(o[1]) else WRONG
def flipped(o): return o if o in(WRONG,LOOSE) else firm(o[1]) if isb(o[1]) else WRONG
def choice(a,b):
    if WRONG in(a,b): return WRONG
    if a==LOOSE and b==LOOSE: return LOOSE
    if a==LOOSE: return b
    if b==LOOSE: return a
    return join_(a[1],b[1])
def number_takes(n,t): return t==INT or (t==BIT and n<2)
def number_fits(n,t): return number_takes(n,t) or (el(t) is not None and number_takes(n,el(t)))
VARS={"x":INT,"b":BIT,"v":ARR(BIT,2),"w":ARR(BIT,3),"a":ARR(INT,2),"c":ARR(INT,3),"g":ARR(ARR(INT,2),2),"p":S,"q":ARR(S,2)}
FIELDS={"f":INT,"n":S,"h":ARR(INT,2)}
FUNS={"F":(INT,[(INT,False),(ARR(INT,3),False)]),"R":(BIT,[(INT,True)]),"V":(None,[])}
def Fs(t,good): return (firm(t), lambda T: good and fits(t,T))
WR=(WRONG,lambda T:False)
def own_at(s): return s[0] not in(WRONG,LOOSE) and s[1](s[0][1])
def keeps(s,t): return s[0]!=WRONG and (s[0]==LOOSE or s[0][1]==t) and s[1](t)
def sort(e):
    k=e.k
    if k=="num": return (LOOSE if e.v<2 else firm(INT), lambda T: e.v<2**(W-1) and number_fits(e.v,T))
    if k in("true","false"): return Fs(BIT,True)
    if k=="null": return (LOOSE,lambda T:T[0]=="ref")
    if k=="word": return Fs(VARS[e.name],True) if e.name in VARS else WR
    if k=="hole": return (LOOSE,lambda T:(e.bits is None or 1<=e.bits<W) and (T==INT or isb(T)))
    if k=="pattern": ss=[sort(x) for x in e.strings]; return (LOOSE,lambda T:any(keeps(s,T) for s in ss))
    if k=="paren": return sort(e.e)
    if k=="call":
        if e.name not in FUNS: return WR
        r,ps=FUNS[e.name]
        if r is None: return WR
        good=len(ps)==len(e.args) and all((VARS.get(x.name)==t if x.k=="word" else False) if ref else sort(x)[1](t) for x,(t,ref) in zip(e.args,ps))
        return Fs(r,good)
    if k=="new":
        good=all(f in FIELDS and sort(v)[1](FIELDS[f]) for f,v in e.fields) and len({f for f,_ in e.fields})==len(e.fields)
        return Fs(S,good)
    if k=="braces":
        ss=[sort(x) for x in e.es]; return (LOOSE,lambda T:el(T) is not None and len(ss)<=cnt(T) and all(s[1](el(T)) for s in ss))
    if k=="member":
        s=sort(e.base)
        return Fs(FIELDS[e.name],own_at(s)) if s[0]==firm(S) and e.name in FIELDS else WR
    if k=="index":
        s=sort(e.base)
        if s[0] in(WRONG,LOOSE) or el(s[0][1]) is None: return WR
        return Fs(el(s[0][1]),own_at(s) and sort(e.i)[1](INT))
    if k=="slice":
        s=sort(e.base); n=e.len.v
        if s[0] in(WRONG,LOOSE) or el(s[0][1]) is None or not 1<=n<=cnt(s[0][1]): return WR
        return Fs(array_of(el(s[0][1]),n),own_at(s) and sort(e.frm)[1](INT))
    if k=="unary":
        a=sort(e.e)
        if e.op=="!": return Fs(BIT,a[1](BIT))
        if e.op=="-": return Fs(INT,a[1](INT))
        f=flipped(a[0])
        return (f,lambda T: False if f==WRONG else (isb(T) and a[1](T)) if f==LOOSE else (a[1](f[1]) and fits(f[1],T)))
    if k=="binary":
        a,b=sort(e.l),sort(e.r); c=cls(e.op)
        if c=="logic": return Fs(BIT,a[1](BIT) and b[1](BIT))
        if c=="shift":
            s=shifted(a[0]); return WR if s==WRONG else Fs(s[1],a[1](s[1]) and b[1](INT))
        o=operand(c,a[0],b[0])
        return (result_own(c,o),lambda T: False if o==WRONG else (loose_takes(c,T) and a[1](T) and b[1](T)) if o==LOOSE else (a[1](o[1]) and b[1](o[1]) and fits(result_of(c,o[1]),T)))
    if k=="cond":
        z,a,b=sort(e.c),sort(e.a),sort(e.b)
        return (choice(a[0],b[0]),lambda T: z[1](BIT) and a[1](T) and b[1](T))
def at(ms,t): return [p for p,u in ms if u==t]
def means(e):
    k=e.k; out=[]
    if k=="num":
        if e.v<2**(W-1): out=[(("num",e.v,str(t)),t) for t in UNI if number_takes(e.v,t) or (e.v<2 and el(t) is not None and number_takes(e.v,el(t)))]
    elif k in("true","false"): out=[((k,),BIT)]
    elif k=="null": out=[(("null",),t) for t in UNI if t[0]=="ref"]
    elif k=="word": out=[(("var",e.name),VARS[e.name])] if e.name in VARS else []
    elif k=="hole": out=[(("hole",str(t)),t) for t in UNI if (t==INT or isb(t)) and (e.bits is None or 1<=e.bits<W)]
    elif k=="pattern":
        for t in UNI:
            ks=[x for x in e.strings if keeps(sort(x),t)]
            if ks: out+=[(("pattern",)+c,t) for c in itertools.product(*[at(means(x),t) for x in ks])]
    elif k=="paren": out=[(("paren",p),t) for p,t in means(e.e)]
    elif k=="call" and e.name in FUNS:
        r,ps=FUNS[e.name]
        if len(ps)==len(e.args) and all((not ref) or (x.k=="word" and VARS.get(x.name)==t) for x,(t,ref) in zip(e.args,ps)):
            out=[(("call",e.name)+c,r) for c in itertools.product(*[at(means(x),t) for x,(t,_) in zip(e.args,ps)])]
    elif k=="new":
        if all(f in FIELDS for f,_ in e.fields) and len({f for f,_ in e.fields})==len(e.fields):
            out=[(("new",)+c,S) for c in itertools.product(*[at(means(v),FIELDS[f]) for f,v in e.fields])]
    elif k=="braces":
        for r in UNI:
            s=el(r)
            if s is not None and len(e.es)<=cnt(r): out+=[(("braces",)+c,r) for c in itertools.product(*[at(means(x),s) for x in e.es])]
    elif k=="member":
        if sort(e.base)[0]==firm(S) and e.name in FIELDS: out=[(("member",p,e.name),FIELDS[e.name]) for p in at(means(e.base),S)]
    elif k in("index","slice"):
        o=sort(e.base)[0]
        if o not in(WRONG,LOOSE) and el(o[1]):
            r=el(o[1]) if k=="index" else (array_of(el(o[1]),e.len.v) if 1<=e.len.v<=cnt(o[1]) else None)
            if r: out=[((k,p,q),r) for p in at(means(e.base),o[1]) for q in at(means(e.i if k=="index" else e.frm),INT)]
    elif k=="unary":
        o=sort(e.e)[0]
        for u in UNI:
            ok=u==BIT if e.op=="!" else u==INT if e.op=="-" else (flipped(o)!=WRONG and (isb(u) if flipped(o)==LOOSE else flipped(o)[1]==u))
            if ok: out+=[((e.op,p),u) for p in at(means(e.e),u)]
    elif k=="binary":
        c=cls(e.op); a,b=sort(e.l)[0],sort(e.r)[0]
        for u in UNI:
            if c=="logic": ok=u==BIT; ru=BIT; res=BIT
            elif c=="shift": ok=shifted(a)==firm(u); ru=INT; res=u
            else:
                o=operand(c,a,b); ok=o!=WRONG and (loose_takes(c,u) if o==LOOSE else o[1]==u); ru=u; res=result_of(c,u)
            if ok: out+=[((e.op,p,q),res) for p in at(means(e.l),u) for q in at(means(e.r),ru)]
    elif k=="cond":
        for u in UNI: out+=[(("cond",z,p,q),u) for z in at(means(e.c),BIT) for p in at(means(e.a),u) for q in at(means(e.b),u)]
    # coercions
    new=list(out); o=sort(e)[0]; bare=k not in("paren","cond")
    for _ in range(3):
        add=[]
        for p,t in new:
            if bare and o==firm(BIT) and t==BIT: add.append((("toint",p),INT))
            for T in UNI:
                if bare and o not in(WRONG,LOOSE) and t==o[1] and fit_of(t,T)=="pad": add.append((("pad",p,str(T)),T))
        new=[x for x in add if x not in out]
        out+=new
        if not new: break
    return out
# reference typer over the same names
class T2(Typer):
    def __init__(s):
        s.B=DEF; s.W=W; s.scope=list(VARS.items()); s.structs={"S":N("struct",fs=list(FIELDS.items()))}; s.consts={}; s.known={}
        s.funs={f:N("fun",kind="plain",tps=[("_",t,r) for t,r in ps],tres=res) for f,(res,ps) in FUNS.items()}
def rnd(d):
    if d==0: return random.choice([lambda:N("num",v=random.choice([0,1,2,3,40000])),lambda:N("true"),lambda:N("null"),lambda:N("hole",bits=random.choice([None,None,3,16])),lambda:N("word",name=random.choice(list(VARS)))])()
    r=lambda:rnd(d-1)
    return random.choice([
        lambda:N("paren",e=r()),lambda:N("braces",es=[r() for _ in range(random.choice([1,1,2,2,3]))]),
        lambda:N("unary",op=random.choice("!~-"),e=r()),
        lambda:N("binary",op=random.choice(["+","+","-","*","<","==","!=","&","|","^","<<",">>","&&","||"]),l=r(),r=r()),
        lambda:N("binary",op=random.choice(["+","&","=="]),l=r(),r=r()),
        lambda:N("cond",c=r(),a=r(),b=r()),lambda:N("cond",c=N("word",name="b"),a=r(),b=r()),
        lambda:N("index",base=r(),i=r()),lambda:N("slice",base=r(),frm=r(),len=N("num",v=random.choice([1,2,3]))),
        lambda:N("member",base=r(),name=random.choice(list(FIELDS))),
        lambda:N("pattern",strings=[r() for _ in range(random.choice([1,2,3]))]),
        lambda:N("call",name=random.choice(["F","F","R","V"]),args=[r() for _ in range(random.choice([0,1,2,2]))]),
        lambda:N("new",name="S",fields=[(random.choice(list(FIELDS)),r()) for _ in range(random.choice([0,1,2]))]),
        r])()
def ref_at(e,t):
    try: T2().at(e,t); return True
    except Refuse: return False
bad={}; n=0; typed=0
random.seed(int(sys.argv[1]) if len(sys.argv)>1 and sys.argv[1].isdigit() else 1)
def bare(e):
    e.span=(0,0)
    for v in e.__dict__.values():
        for x in (v if isinstance(v,list) else [v]):
            if isinstance(x,tuple): x=x[1] if len(x)==2 else None
            if isinstance(x,N): bare(x)
import time; t0=time.time()
while time.time()-t0<SECONDS:
    e=rnd(random.choice([0,1,2,2,3])); bare(e); n+=1
    ms=means(e); s=sort(e)
    for t in UNI:
        c=len(set(map(str,at(ms,t)))); ref=ref_at(e,t); so=s[1](t)
        typed+=ref
        if c!=int(ref) or so!=ref:
            key=(e.k,c,ref,so); bad.setdefault(key,[]).append((e,t))
print(n,"expressions",typed,"typings")
def show(e):
    try: return ex_text2(e)
    except Exception as x: return repr(e)
def ex_text2(e):
    k=e.k; X=ex_text2
    return {"num":lambda:str(e.v),"hole":lambda:"??"+("(%s)"%e.bits if e.bits else ""),"word":lambda:e.name,"paren":lambda:"("+X(e.e)+")","braces":lambda:"{"+", ".join(map(X,e.es))+"}","unary":lambda:e.op+X(e.e),"binary":lambda:"["+X(e.l)+" "+e.op+" "+X(e.r)+"]","cond":lambda:"["+X(e.c)+"?"+X(e.a)+":"+X(e.b)+"]","index":lambda:X(e.base)+"["+X(e.i)+"]","slice":lambda:X(e.base)+"["+X(e.frm)+"::"+X(e.len)+"]","member":lambda:X(e.base)+"."+e.name,"pattern":lambda:"{|"+"|".join(map(X,e.strings))+"|}","call":lambda:e.name+"("+",".join(map(X,e.args))+")","new":lambda:"new("+",".join(f+"="+X(v) for f,v in e.fields)+")"}.get(k,lambda:k)()
for key,l in sorted(bad.items(),key=lambda x:-len(x[1]))[:25]:
    l.sort(key=lambda et:len(show(et[0])))
    print(key,len(l),[(show(e),ty_text(t)) for e,t in l[:3]])
