# The language again, in Python, written apart from the program: it computes expected values for tests (tokens, trees,
# typing, expansion, sites, filling, runs, sizes, layout, and completion by trying). No part of the program uses it.
import copy, re, sys, itertools
sys.setrecursionlimit(20000)
KEYS=set("adt assert assume bit case else false for generator harness if implements int minimize minrepeat new null pragma ref reorder repeat return struct switch true void while".split())
M2=["{|","|}","??","::","==","!=","<=",">=","<<",">>","&&","||","++","--","+=","-="]
M1=list("+-*/%~!&|^<>=(){}[],;.?:")
class Refuse(Exception):
    def __init__(s,*a): super().__init__(*a); s.a=a
def tokens(t):
    out=[];i=0;n=len(t)
    while i<n:
        c=t[i]
        if c in " \t\n\r\f": i+=1; continue
        if t.startswith("//",i):
            while i<n and t[i]!="\n": i+=1
            continue
        if t.startswith("/*",i):
            j=t.find("*/",i+2)
            if j<0: raise Refuse(11,"OpenComment",i)
            i=j+2; continue
        m=re.compile(r"[A-Za-z_][A-Za-z0-9_]*").match(t,i)
        if m:
            w=m.group(); out.append(("key" if w in KEYS else "word",w,i,m.end())); i=m.end(); continue
        m=re.compile(r"[0-9]+").match(t,i)
        if m:
            v=int(m.group())
            if v>2147483647: raise Refuse(11,"LiteralTooLarge",i)
            out.append(("num",v,i,m.end())); i=m.end(); continue
        if c=='"':
            j=i+1
            while j<n and t[j] not in '"\n': j+=1
            if j>=n or t[j]=="\n": raise Refuse(11,"OpenString",i)
            out.append(("text",t[i+1:j],i,j+1)); i=j+1; continue
        if t[i:i+2] in M2: out.append(("mark",t[i:i+2],i,i+2)); i+=2; continue
        if c in M1: out.append(("mark",c,i,i+1)); i+=1; continue
        raise Refuse(11,"BadByte",i)
    return out
class N:
    def __init__(self_,k,span=None,**kw): self_.k=k; self_.span=span; self_.__dict__.update(kw)
    def __repr__(s): return "N(%s)"%", ".join("%s=%r"%x for x in s.__dict__.items() if x[0]!="span")
LV={}
for l,ops in [(3,"* / %"),(4,"+ -"),(5,"<< >>"),(6,"< <= > >="),(7,"== !="),(8,"&"),(9,"^"),(10,"|"),(11,"&&"),(12,"||")]:
    for o in ops.split(): LV[o]=l
class P:
    def __init__(s,ts): s.t=ts; s.i=0
    def at(s,k=0): return s.t[s.i+k] if s.i+k<len(s.t) else ("eof",None,0,0)
    def is_(s,v,k=0): x=s.at(k); return x[0] in("mark","key") and x[1]==v
    def fail(s): raise Refuse(11,"NoReading",s.at()[2])
    def eat(s,v):
        if not s.is_(v): s.fail()
        s.i+=1
    def word(s):
        if s.at()[0]!="word": s.fail()
        s.i+=1; return s.t[s.i-1][1]
    def sp(s,i0): return (s.t[i0][2],s.t[s.i-1][3])
    def program(s):
        items=[]
        while s.i<len(s.t): items.append(s.item())
        return items
    def item(s):
        if s.is_("pragma"):
            s.i+=1; w=s.word()
            if s.at()[0]!="text": s.fail()
            tx=s.at()[1]; s.i+=1; s.eat(";"); return N("pragma",word=w,text=tx)
        if s.is_("struct"):
            s.i+=1; w=s.word(); s.eat("{"); fs=[]
            while not s.is_("}"):
                ty=s.type(); f=s.word(); s.eat(";"); fs.append((ty,f))
            s.eat("}"); return N("struct",name=w,fields=fs)
        if s.is_("int") and s.at(1)[0]=="word" and s.is_("=",2):
            s.i+=1; w=s.word(); s.eat("="); e=s.expr(); s.eat(";"); return N("const",name=w,value=e)
        kind="plain"
        if s.is_("harness") or s.is_("generator"): kind=s.at()[1]; s.i+=1
        if s.is_("void"): s.i+=1; res=None
        else: res=s.type()
        w=s.word(); s.eat("("); ps=[]
        while not s.is_(")"):
            r=False
            if s.is_("ref"): r=True; s.i+=1
            ty=s.type(); ps.append((r,ty,s.word()))
            if s.is_(","):
                s.i+=1
                if s.is_(")"): s.fail()
            elif not s.is_(")"): s.fail()
        s.eat(")"); imp=None
        if s.is_("implements"): s.i+=1; imp=s.word()
        body=s.block()
        return N("fun",kind=kind,res=res,name=w,params=ps,imp=imp,body=body)
    def type(s):
        if s.is_("int") or s.is_("bit"): b=s.at()[1]; s.i+=1
        else: b=("named",s.word())
        ls=[]
        while s.is_("[") and len(ls)<2:
            s.eat("["); ls.append(s.expr()); s.eat("]")
        return N("type",base=b,lengths=ls)
    def block(s):
        s.eat("{"); out=[]
        while not s.is_("}"): out.append(s.stmt(True))
        s.eat("}"); return out
    def starts_decl(s):
        if s.is_("int") or s.is_("bit"): return True
        if s.at()[0]!="word": return False
        i0=s.i
        try:
            s.type(); ok=s.at()[0]=="word"
        except Refuse: ok=False
        s.i=i0; return ok
    def stmt(s,decl=False):
        i0=s.i
        def mk(k,**kw): return N(k,s.sp(i0),**kw)
        if s.starts_decl():
            if not decl: s.fail()
            ty=s.type(); names=[]
            while True:
                w=s.word(); v=None
                if s.is_("="): s.i+=1; v=s.expr()
                names.append((w,v))
                if s.is_(","): s.i+=1; continue
                break
            s.eat(";"); return mk("declare",ty=ty,names=names)
        if s.is_("{"):
            b=s.block(); return mk("block",body=b)
        if s.is_(";"): s.i+=1; return mk("empty")
        if s.is_("if"):
            s.i+=1; s.eat("("); c=s.expr(); s.eat(")"); a=s.stmt(); b=None
            if s.is_("else"): s.i+=1; b=s.stmt()
            return mk("if",cond=c,then=a,other=b)
        if s.is_("while"):
            s.i+=1; s.eat("("); c=s.expr(); s.eat(")"); a=s.stmt(); return mk("while",cond=c,body=a)
        if s.is_("for"):
            s.i+=1; s.eat("("); j=s.i
            if s.starts_decl():
                ty=s.type(); w=s.word(); s.eat("="); v=s.expr(); f=N("declare",s.sp(j),ty=ty,names=[(w,v)])
            else:
                t=s.target(); s.eat("="); v=s.expr(); f=N("assign",s.sp(j),target=t,value=v)
            s.eat(";"); c=s.expr(); s.eat(";"); n=s.step_or_assign(step_ok=True,assign_ok=True,call_ok=False); s.eat(")"); b=s.stmt()
            return mk("for",first=f,cond=c,next=n,body=b)
        if s.is_("return"):
            s.i+=1; e=None
            if not s.is_(";"): e=s.expr()
            s.eat(";"); return mk("return",value=e)
        for k in("assert","assume"):
            if s.is_(k): s.i+=1; e=s.expr(); s.eat(";"); return mk(k,e=e)
        if s.is_("minimize"):
            s.i+=1; s.eat("("); e=s.expr(); s.eat(")"); s.eat(";"); return mk("minimize",e=e)
        if s.is_("repeat"):
            s.i+=1; s.eat("("); e=s.expr(); s.eat(")"); b=s.stmt(); return mk("repeat",count=e,body=b)
        if s.is_("minrepeat"):
            s.i+=1; b=s.stmt(); return mk("minrepeat",body=b)
        if s.is_("reorder"):
            s.i+=1; b=s.block(); return mk("reorder",body=b)
        x=s.step_or_assign(True,True,True); s.eat(";"); x.span=s.sp(i0); return x
    def target(s):
        e=s.postfix()
        if e.k in("word","member","index","pattern"): return e
        s.fail()
    def step_or_assign(s,step_ok,assign_ok,call_ok):
        i0=s.i
        for o in("++","--"):
            if s.is_(o): s.i+=1; t=s.target(); return N("step",s.sp(i0),op="pre"+o,target=t,by=None)
        e=s.postfix()
        if e.k=="call" and call_ok and s.is_(";"): return N("callst",s.sp(i0),e=e)
        if e.k not in("word","member","index","pattern"): s.fail()
        if s.is_("="): s.i+=1; v=s.expr(); return N("assign",s.sp(i0),target=e,value=v)
        for o in("++","--"):
            if s.is_(o): s.i+=1; return N("step",s.sp(i0),op="post"+o,target=e,by=None)
        for o in("+=","-="):
            if s.is_(o): s.i+=1; v=s.expr(); return N("step",s.sp(i0),op=o,target=e,by=v)
        s.fail()
    def expr(s):
        i0=s.i; c=s.binary(12)
        if s.is_("?"):
            s.i+=1; a=s.expr(); s.eat(":"); b=s.expr(); return N("cond",s.sp(i0),c=c,a=a,b=b)
        return c
    def binary(s,l):
        if l==2: return s.unary()
        i0=s.i; a=s.binary(l-1)
        while s.at()[0]=="mark" and LV.get(s.at()[1])==l:
            o=s.at()[1]; s.i+=1; b=s.binary(l-1); a=N("binary",s.sp(i0),op=o,l=a,r=b)
        return a
    def unary(s):
        i0=s.i
        for o in "!~-":
            if s.is_(o): s.i+=1; e=s.unary(); return N("unary",s.sp(i0),op=o,e=e)
        return s.postfix()
    def args(s,close,one):
        out=[]
        s_close=close
        if not s.is_(close):
            while True:
                out.append(one())
                if s.is_(","): s.i+=1; continue
                break
        s.eat(close); return out
    def postfix(s):
        i0=s.i; e=s.primary()
        while True:
            if s.is_("."): s.i+=1; w=s.word(); e=N("member",s.sp(i0),base=e,name=w)
            elif s.is_("["):
                s.i+=1; x=s.expr()
                if s.is_("::"): s.i+=1; n=s.expr(); s.eat("]"); e=N("slice",s.sp(i0),base=e,frm=x,len=n)
                else: s.eat("]"); e=N("index",s.sp(i0),base=e,i=x)
            else: return e
    def primary(s):
        i0=s.i; k,v,_,_=s.at()
        if k=="num": s.i+=1; return N("num",s.sp(i0),v=v)
        if k=="key" and v in("true","false","null"): s.i+=1; return N(v,s.sp(i0))
        if k=="key" and v=="new":
            s.i+=1; w=s.word(); s.eat("(")
            def one():
                f=s.word(); s.eat("="); return (f,s.expr())
            fs=s.args(")",one); return N("new",s.sp(i0),name=w,fields=fs)
        if k=="word":
            s.i+=1
            if s.is_("("):
                s.i+=1; a=s.args(")",s.expr); return N("call",s.sp(i0),name=v,args=a)
            return N("word",s.sp(i0),name=v)
        if s.is_("??"):
            s.i+=1
            if s.is_("("):
                s.i+=1
                if s.at()[0]!="num": s.fail()
                n=s.at()[1]; s.i+=1; s.eat(")"); return N("hole",s.sp(i0),bits=n)
            return N("hole",s.sp(i0),bits=None)
        if s.is_("("):
            s.i+=1; e=s.expr(); s.eat(")"); return N("paren",s.sp(i0),e=e)
        if s.is_("{"):
            s.i+=1; a=s.args("}",s.expr)
            if not a: s.fail()
            return N("braces",s.sp(i0),es=a)
        if s.is_("{|"):
            s.i+=1; c=s.choice(); s.eat("|}"); sp=s.sp(i0)
            ss=strings(c)
            if len(ss)>128: raise Refuse(11,"TooManyStrings",sp[0])
            es=[]
            for st in ss:
                p=P(st)
                try:
                    e=p.expr()
                    if p.i<len(st): p.fail()
                except Refuse: raise Refuse(11,"BadAlternative",sp[0])
                es.append(e)
            return N("pattern",sp,strings=es)
        s.fail()
    def choice(s):
        out=[s.seq()]
        while s.is_("|"): s.i+=1; out.append(s.seq())
        return ("choice",out)
    def seq(s):
        out=[]
        while not(s.is_("|") or s.is_(")") or s.is_("|}") or s.at()[0]=="eof"):
            if s.is_("("): s.i+=1; c=s.choice(); s.eat(")"); x=c
            elif s.is_("?") or s.is_("{|"): s.fail()
            else: x=("one",s.at()); s.i+=1
            if s.is_("?"): s.i+=1; x=("maybe",x)
            out.append(x)
        if not out: s.fail()
        return ("seq",out)
def strings(p):
    if p[0]=="one": return [[p[1]]]
    if p[0]=="maybe": return [[]]+strings(p[1])
    if p[0]=="choice": return [x for q in p[1] for x in strings(q)]
    out=[[]]
    for q in p[1]: out=[a+b for a in out for b in strings(q)]
    return out
# ---- plain form
def has(e,ks):
    if isinstance(e,N):
        return e.k in ks or any(has(v,ks) for v in e.__dict__.values())
    if isinstance(e,(list,tuple)): return any(has(x,ks) for x in e)
    return False
def blk(s):
    if s is None: return None
    p=plain(s)
    if s.k in ("block","for"): return p[0]
    return N("block",s.span,body=p)
def plain(s):
    if s.k=="empty": return []
    if s.k=="step":
        if has(s.target,("call","hole","pattern")): raise Refuse(12,4,s.span)
        one=N("num",s.span,v=1)
        by=one if s.by is None else N("paren",s.span,e=s.by)
        op="+" if "+" in s.op else "-"
        return [N("assign",s.span,target=s.target,value=N("binary",s.span,op=op,l=copy.deepcopy(s.target),r=by))]
    if s.k=="declare": return [N("declare1",s.span,ty=s.ty,name=w,value=v) for w,v in s.names]
    if s.k=="block": return [N("block",s.span,body=[y for x in s.body for y in plain(x)])]
    if s.k=="if": return [N("if",s.span,cond=s.cond,then=blk(s.then),other=blk(s.other))]
    if s.k=="while": return [N("while",s.span,cond=s.cond,body=blk(s.body))]
    if s.k=="for":
        b=N("block",s.span,body=[blk(s.body)]+plain(s.next))
        return [N("block",s.span,body=plain(s.first)+[N("while",s.span,cond=s.cond,body=b)])]
    if s.k=="repeat": return [N("repeat",s.span,count=s.count,body=blk(s.body))]
    if s.k=="minrepeat": return [N("minrepeat",s.span,body=blk(s.body))]
    if s.k=="reorder": return [N("reorder",s.span,body=[y for x in s.body for y in plain(x)])]
    return [s]
# ---- typing
INT=("int",);BIT=("bit",)
def ARR(t,n): return ("arr",t,n)
def isbits(t): return t[0]=="arr" and t[1]==BIT
def fit(U,T):
    if U==T: return "same"
    if U==BIT and T==INT: return "toint"
    if T[0]=="arr" and (U==T[1] or (U[0]=="arr" and U[1]==T[1] and U[2]<T[2])): return "pad"
    return None
def join(a,b):
    if a==b: return a
    if {a,b}=={INT,BIT}: return INT
    if a[0]=="arr" and (b==a[1] or (b[0]=="arr" and b[1]==a[1] and b[2]<=a[2])): return a
    if b[0]=="arr" and (a==b[1] or (a[0]=="arr" and a[1]==b[1] and a[2]<=b[2])): return b
    return None
ARI=("+","-","*","/","%");ORD=("<","<=",">",">=");BW=("&","|","^")
class Typer:
    def __init__(s,items,B):
        s.B=B; s.W=B["W"]; s.items=items
    def no(s,rule,span): raise Refuse(12,rule,span)
    def run(s):
        s.structs={};s.consts={};s.funs={}; top=set(); order=0
        hasgen=any(i.k=="fun" and i.kind=="generator" for i in s.items)
        def name(x):
            if hasgen and re.search(r"__[0-9]+$",x): s.no(11,(0,0))
        s.name=name
        for i in s.items:
            if i.k=="pragma": continue
            if i.name in top: s.no(2,(0,0))
            top.add(i.name); name(i.name)
            if i.k=="struct": s.structs[i.name]=i
            if i.k=="fun": s.funs[i.name]=i
            if i.k=="const": s.consts[i.name]=None
        s.known={} # constants earlier
        s.scope=[]
        out=N("prog",structs=[],consts=[],funs=[])
        late=[]
        for i in s.items:
            i.known=dict(s.known)
            if i.k=="const":
                v=s.const(i.value)
                s.known[i.name]=v; s.consts[i.name]=v
        for i in s.items:
            s.known=i.known
            if i.k=="struct":
                seen=set(); fs=[]
                for ty,f in i.fields:
                    name(f)
                    if f in seen: s.no(2,(0,0))
                    seen.add(f); fs.append((f,s.type(ty)))
                i.fs=fs; out.structs.append((i.name,fs))
            if i.k=="const":
                out.consts.append((i.name,s.at(i.value,INT),s.consts[i.name]))
            if i.k=="fun":
                i.tps=[]; seen=set()
                for r,ty,w in i.params:
                    name(w)
                    if w in seen: s.no(2,(0,0))
                    seen.add(w); i.tps.append((w,s.type(ty),r))
                i.tres=None if i.res is None else s.type(i.res)
        for i in s.items:
            if i.k!="fun": continue
            s.known=i.known
            def isref(t): return t[0]=="ref" or (t[0]=="arr" and isref(t[1]))
            anyref=any(isref(t) for _,t,_ in i.tps) or (i.tres is not None and isref(i.tres))
            if i.kind=="harness" and (any(r for _,_,r in i.tps) or anyref): s.no(5,(0,0))
            if i.imp is not None:
                if i.imp not in s.funs: s.no(1,(0,0))
                g=s.funs[i.imp]
                if i.kind=="generator" or g.kind=="generator" or [(t,r) for _,t,r in i.tps]!=[(t,r) for _,t,r in g.tps] or i.tres!=g.tres or anyref: s.no(5,(0,0))
            s.scope=[(w,t) for w,t,_ in i.tps]; s.fun=i
            body=s.stmts(i.pbody if hasattr(i,"pbody") else [y for x in i.body for y in plain(x)],0)
            out.funs.append(N("fun",name=i.name,kind=i.kind,res=i.tres,params=i.tps,imp=i.imp,body=body))
        return out
    def const(s,e):
        def go(e):
            if e.k=="num":
                if e.v>2**(s.W-1)-1: s.no(7,e.span)
                v=e.v
            elif e.k=="word":
                if any(w==e.name for w,_ in s.scope) or e.name not in s.known: s.no(6,e.span)
                v=s.known[e.name]
            elif e.k=="paren": v=go(e.e)
            elif e.k=="binary" and e.op in "+-*":
                a,b=go(e.l),go(e.r); v={"+":a+b,"-":a-b,"*":a*b}[e.op]
            else: s.no(6,e.span)
            if not -2**62<=v<=2**62: s.no(6,e.span)
            return v
        v=go(e)
        if not 0<=v<=2**(s.W-1)-1: s.no(6,e.span)
        return v
    def type(s,t):
        if t.base=="int": r=INT
        elif t.base=="bit": r=BIT
        else:
            w=t.base[1]
            if any(x==w for x,_ in s.scope) or w not in s.structs: s.no(1,(0,0))
            r=("ref",w)
        p=1
        for l in t.lengths:
            n=s.const(l)
            if not 1<=n<=64: s.no(8,l.span)
            p*=n; r=ARR(r,n)
        if p>256: s.no(8,t.lengths[1].span)
        return r
    def loose(s,e):
        k=e.k
        if k in("hole","null","pattern","braces"): return True
        if k=="num": return e.v<2
        if k=="paren": return s.loose(e.e)
        if k=="unary": return e.op=="~" and s.loose(e.e)
        if k=="binary": return e.op in("&","|","^","+") and s.loose(e.l) and s.loose(e.r)
        if k=="cond": return s.loose(e.a) and s.loose(e.b)
        return False
    def var(s,w):
        for i in range(len(s.scope)-1,-1,-1):
            if s.scope[i][0]==w: return i
        return None
    def fieldty(s,t,f,span):
        for x,ft in s.structs[t[1]].fs:
            if x==f: return ft
        s.no(1,span)
    def own(s,e):
        """typed e with its own type"""
        k=e.k
        def T(form,ty,**kw): return N(form,e.span,ty=ty,**kw)
        if s.loose(e):
            b=e
            while b.k=="paren": b=b.e
            return s.at(e,BIT if (b.k=="unary" or (b.k=="binary" and b.op!="+")) else INT)
        if k=="num":
            if e.v>2**(s.W-1)-1: s.no(7,e.span)
            return T("num",INT,v=e.v)
        if k in("true","false"): return T(k,BIT)
        if k=="word":
            i=s.var(e.name)
            if i is not None: return T("var",s.scope[i][1],name=e.name,slot=i)
            if e.name in s.consts: return T("const",INT,name=e.name)
            s.no(1,e.span)
        if k=="paren": x=s.own(e.e); return T("paren",x.ty,e=x)
        if k=="new":
            if s.var(e.name) is not None or e.name not in s.structs: s.no(1,e.span)
            t=("ref",e.name); seen=set(); fs=[]
            for f,v in e.fields:
                if f in seen: s.no(2,e.span)
                seen.add(f); fs.append((f,s.at(v,s.fieldty(t,f,e.span))))
            return T("new",t,s=e.name,fields=fs)
        if k=="member":
            b=s.own(e.base)
            if b.ty is None or b.ty[0]!="ref": s.no(3,e.span)
            return T("member",s.fieldty(b.ty,e.name,e.span),base=b,name=e.name)
        if k=="index":
            b=s.own(e.base)
            if b.ty is None or b.ty[0]!="arr": s.no(3,e.span)
            return T("index",b.ty[1],base=b,i=s.at(e.i,INT))
        if k=="slice":
            b=s.own(e.base)
            if b.ty is None or b.ty[0]!="arr": s.no(3,e.span)
            f=s.at(e.frm,INT); n=s.const(e.len)
            if not 1<=n<=b.ty[2]: s.no(8,e.span)
            return T("slice",ARR(b.ty[1],n),base=b,frm=f,n=n)
        if k=="call":
            if s.var(e.name) is not None or e.name not in s.funs: s.no(1,e.span)
            f=s.funs[e.name]
            if f.kind=="harness": s.no(5,e.span)
            if len(f.tps)!=len(e.args): s.no(3,e.span)
            a=[]
            for x,(w,t,r) in zip(e.args,f.tps):
                if r:
                    if x.k!="word" or s.var(x.name) is None: s.no(4,x.span)
                    y=s.own(x)
                    if y.ty!=t: s.no(3,x.span)
                else: y=s.at(x,t)
                a.append(y)
            return T("call",f.tres,f=e.name,args=a)
        if k=="unary":
            if e.op=="!": return T("unary",BIT,op="!",e=s.at(e.e,BIT))
            if e.op=="-": return T("unary",INT,op="-",e=s.at(e.e,INT))
            x=s.own(e.e)
            if x.ty!=BIT and not(x.ty and isbits(x.ty)): s.no(3,e.span)
            return T("unary",x.ty,op="~",e=x)
        if k=="cond":
            t=s.optype(None,e.a,e.b,e.span)
            return T("cond",t,c=s.at(e.c,BIT),a=s.at(e.a,t),b=s.at(e.b,t))
        if k=="binary":
            o=e.op
            if o in("&&","||"): return T("binary",BIT,op=o,l=s.at(e.l,BIT),r=s.at(e.r,BIT))
            if o in("<<",">>"):
                if s.loose(e.l): s.no(3,e.span)
                l=s.own(e.l)
                if l.ty is None or not isbits(l.ty): s.no(3,e.span)
                return T("binary",l.ty,op=o,l=l,r=s.at(e.r,INT))
            t=s.optype(o,e.l,e.r,e.span)
            if o in ARI or o in ORD:
                if t!=INT and not(o=="+" and isbits(t)): s.no(3,e.span)
            if o in BW and t!=BIT and not isbits(t): s.no(3,e.span)
            return T("binary",BIT if o in ORD or o in("==","!=") else t,op=o,l=s.at(e.l,t),r=s.at(e.r,t))
        raise Exception(k)
    def optype(s,o,l,r,span):
        a=None if s.loose(l) else s.own(l).ty
        b=None if s.loose(r) else s.own(r).ty
        if (not s.loose(l) and a is None) or (not s.loose(r) and b is None): s.no(3,span)
        if a and b: t=join(a,b)
        elif a or b: t=a or b
        else: t=BIT if o in BW else INT
        if t is None: s.no(3,span)
        if (o in ARI or o in ORD) and t==BIT: t=INT
        return t
    def at(s,e,t):
        k=e.k
        def T(form,**kw): return N(form,e.span,ty=t,**kw)
        if k=="hole":
            if e.bits is not None and not 1<=e.bits<=s.W-1: s.no(12,e.span)
            if t in(INT,BIT) or isbits(t): return T("hole",bits=e.bits)
            s.no(3,e.span)
        if k=="num" and e.v<2:
            if t in(INT,BIT) or (t[0]=="arr" and t[1] in(INT,BIT)): return T("num",v=e.v)
            s.no(3,e.span)
        if k=="null":
            if t[0]=="ref": return T("null")
            s.no(3,e.span)
        if k=="braces":
            if t[0]!="arr" or len(e.es)>t[2]: s.no(3,e.span)
            return T("braces",es=[s.at(x,t[1]) for x in e.es])
        if k=="pattern":
            keep=[]
            for x in e.strings:
                try:
                    if s.loose(x): keep.append(s.at(x,t))
                    else:
                        y=s.own(x)
                        if y.ty==t: keep.append(y)
                except Refuse: pass
            if not keep: s.no(9,e.span)
            return T("pattern",es=keep)
        if s.loose(e) and k=="unary":
            if t==BIT or isbits(t): return T("unary",op="~",e=s.at(e.e,t))
            s.no(3,e.span)
        if s.loose(e) and k=="binary":
            ok=(t==INT or isbits(t)) if e.op=="+" else (t==BIT or isbits(t))
            if not ok: s.no(3,e.span)
            return T("binary",op=e.op,l=s.at(e.l,t),r=s.at(e.r,t))
        if k=="cond": return T("cond",c=s.at(e.c,BIT),a=s.at(e.a,t),b=s.at(e.b,t))
        if k=="paren": return T("paren",e=s.at(e.e,t))
        x=s.own(e)
        if x.ty is None: s.no(3,e.span)
        f=fit(x.ty,t)
        if f is None: s.no(3,e.span)
        if f=="same": return x
        return N(f,e.span,ty=t,e=x)
    def target(s,e):
        if e.k=="word":
            if s.var(e.name) is None: s.no(4 if e.name in s.consts else 1,e.span)
            return s.own(e)
        if e.k in("member","index"):
            s.target(e.base); return s.own(e)
        s.no(4,e.span)
    def anytarget(s,e):
        if e.k!="pattern": return s.target(e)
        t=None; keep=[]
        for x in e.strings:
            try: y=s.target(x)
            except Refuse: continue
            if t is None: t=y.ty
            if y.ty==t: keep.append(y)
        if not keep: s.no(9,e.span)
        return N("pattern",e.span,ty=t,es=keep)
    def stmts(s,ss,frm):
        out=[]
        for x in ss: out.append(s.stmt(x,frm))
        return out
    def block(s,x):
        n=len(s.scope); b=s.stmts(x.body,n); del s.scope[n:]
        return N("block",x.span,body=b)
    def stmt(s,x,frm):
        k=x.k
        if k=="declare1":
            t=s.type(x.ty); s.name(x.name)
            v=None if x.value is None else s.at(x.value,t)
            if any(w==x.name for w,_ in s.scope[frm:]): s.no(2,x.span)
            s.scope.append((x.name,t)); return N("declare",x.span,slot=len(s.scope)-1,name=x.name,ty=t,value=v)
        if k=="block": return s.block(x)
        if k=="assign":
            t=s.anytarget(x.target); return N("assign",x.span,target=t,value=s.at(x.value,t.ty))
        if k=="callst": return N("callst",x.span,e=s.own(x.e))
        if k=="if": return N("if",x.span,cond=s.at(x.cond,BIT),then=s.block(x.then),other=None if x.other is None else s.block(x.other))
        if k=="while": return N("while",x.span,cond=s.at(x.cond,BIT),body=s.block(x.body))
        if k=="return":
            if x.value is None:
                if s.fun.tres is not None: s.no(3,x.span)
                return N("return",x.span,value=None)
            if s.fun.tres is None: s.no(3,x.span)
            return N("return",x.span,value=s.at(x.value,s.fun.tres))
        if k in("assert","assume"): return N(k,x.span,e=s.at(x.e,BIT))
        if k=="minimize": return N(k,x.span,e=s.at(x.e,INT))
        if k=="repeat":
            if x.count.k=="hole": c=s.at(x.count,INT)
            else:
                n=s.const(x.count)
                if not 0<=n<=64: s.no(8,x.count.span)
                c=N("num",x.count.span,ty=INT,v=n)
            return N("repeat",x.span,count=c,copies=[s.block(x.body)])
        if k=="minrepeat": return N("minrepeat",x.span,copies=[s.block(x.body)])
        if k=="reorder":
            if any(y.k=="declare1" for y in x.body) or len(x.body)>6: s.no(10,x.span)
            return N("reorder",x.span,body=s.stmts(x.body,len(s.scope)))
        raise Exception(k)
# ---- expansion
def expand(p,B):
    p=copy.deepcopy(p); gens={f.name:f for f in p.funs if f.kind=="generator"}
    out=[f for f in p.funs if f.kind!="generator"]; copies=[]; cnt=[0]; stack=[]
    def walk(x):
        if isinstance(x,N):
            if x.k=="repeat":
                if x.count.k=="hole":
                    b=x.count.bits if x.count.bits is not None else B["cbits"]
                    m=min(2**b-1,B["unroll"],2**(B["W"]-1)-1)
                else: m=x.count.v
                x.copies=[copy.deepcopy(x.copies[0]) for _ in range(m)]
                for c in x.copies: walk(c)
                return
            if x.k=="minrepeat":
                m=min(2**B["cbits"]-1,B["unroll"],2**(B["W"]-1)-1)
                x.copies=[copy.deepcopy(x.copies[0]) for _ in range(m)]
                for c in x.copies: walk(c)
                return
            if x.k=="call" and x.f in gens:
                g=gens[x.f]; cnt[0]+=1; c=copy.deepcopy(g); c.kind="plain"; c.name="%s__%d"%(g.name,cnt[0]); c.of=g.name
                copies.append(c); nm=g.name; x.f=c.name
                if stack.count(nm)>=B["inline"]: c.body=[N("assert",x.span,e=N("false",x.span,ty=BIT))]
                else:
                    stack.append(nm); walk(c.body); stack.pop()
                for a in x.args: walk(a)
                return
            for key in ORDER.get(x.k,()): walk(getattr(x,key))
        elif isinstance(x,(list,tuple)):
            for y in x: walk(y)
    for f in out: walk(f.body)
    p.ordinary=len(out); p.funs=out+copies; return p
ORDER={"paren":["e"],"call":["args"],"new":["fields"],"braces":["es"],"pattern":["es"],"member":["base"],"index":["base","i"],"slice":["base","frm"],"unary":["e"],"binary":["l","r"],"cond":["c","a","b"],"toint":["e"],"pad":["e"],
 "block":["body"],"declare":["value"],"assign":["target","value"],"callst":["e"],"if":["cond","then","other"],"while":["cond","body"],"return":["value"],"assert":["e"],"assume":["e"],"minimize":["e"],"repeat":["copies"],"minrepeat":["copies"],"reorder":["body"]}
def sites(p,B):
    out=[]
    def walk(x):
        if isinstance(x,N):
            x.site=len(out)
            if x.k=="hole":
                if x.ty==INT: out.append(2**(x.bits if x.bits is not None else B["cbits"]))
                elif x.ty==BIT: out.append(2)
                else: out.extend([2]*x.ty[2])
            if x.k=="pattern": out.append(len(x.es))
            if x.k=="minrepeat" or (x.k=="repeat" and x.count.k=="hole"): out.append(len(x.copies)+1)
            if x.k=="reorder": out.extend(range(2,len(x.body)+1))
            for key in ORDER.get(x.k,()): walk(getattr(x,key))
        elif isinstance(x,(list,tuple)):
            for y in x: walk(y)
    for f in p.funs: walk(f.body)
    return out
def fill(p,a,target=False):
    p=copy.copy(p); used=set(); mins=[]
    def ex(x,target=False):
        if isinstance(x,N):
            if x.k=="hole":
                if x.ty in(INT,BIT): return N("num",x.span,ty=x.ty,v=a[x.site])
                return N("braces",x.span,ty=x.ty,es=[N("num",x.span,ty=BIT,v=a[x.site+i]) for i in range(x.ty[2])])
            if x.k=="pattern":
                e=ex(x.es[a[x.site]])
                if target or e.k in("num","true","false","null","var","const","call","new","braces","member","index","slice","paren"): return e
                return N("paren",x.span,ty=x.ty,e=e)
            if x.k=="call": used.add(x.f)
            if x.k in("minrepeat","repeat"):
                v=a[x.site] if(x.k=="minrepeat" or x.count.k=="hole") else len(x.copies)
                if x.k=="minrepeat": mins.append((x.site,v,x.span))
                return N("block",x.span,body=[ex(c) for c in x.copies[:v]])
            if x.k=="reorder":
                order=[]
                for i,st in enumerate(x.body):
                    if i==0: order=[st]; continue
                    d=a[x.site+i-1]; order.insert(len(order)-d,st)
                return N("block",x.span,body=[ex(c) for c in order])
            y=copy.copy(x)
            for key in ORDER.get(x.k,()):
                setattr(y,key,ex(getattr(x,key),x.k=="assign" and key=="target"))
            return y
        if isinstance(x,list): return [ex(y) for y in x]
        if isinstance(x,tuple): return tuple(ex(y) for y in x)
        return x
    funs=[]
    for i,f in enumerate(p.funs):
        if i>=p.ordinary and f.name not in used: continue
        f=copy.copy(f); f.body=ex(f.body); funs.append(f)
    mins.sort(key=lambda m:m[0])
    for f in funs:
        if f.kind=="harness": f.body=[N("minimize",sp,e=N("num",sp,ty=INT,v=v)) for _,v,sp in mins]+f.body
    p.funs=funs; return p
# ---- run
class Fail(Exception): pass
class Skip(Exception): pass
class Ret(Exception): pass
def copied(v): return [copied(x) for x in v] if isinstance(v,list) else v
def zero(t):
    if t==INT: return 0
    if t==BIT: return 0
    if t[0]=="ref": return None
    return [zero(t[1]) for _ in range(t[2])]
def run(p,fname,args,B):
    W=B["W"]; funs={f.name:f for f in p.funs}; consts={c[0]:c[2] for c in p.consts}; structs=dict(p.structs)
    heap=[];cost=[0];active=[];cur=[(0,0)]
    def wrap(n):
        n%=2**W
        return n-2**W if n>=2**(W-1) else n
    def fail(): raise Fail(cur[0])
    def ev(e,fr):
        k=e.k
        if k=="num":
            if e.ty[0]=="arr": z=zero(e.ty); z[0]=e.v; return z
            return e.v
        if k=="true": return 1
        if k=="false": return 0
        if k=="null": return None
        if k=="var": return copied(fr[e.slot])
        if k=="const": return wrap(consts[e.name])
        if k=="paren": return ev(e.e,fr)
        if k=="toint": return ev(e.e,fr)
        if k=="pad":
            v=ev(e.e,fr); z=zero(e.ty)
            if e.e.ty==e.ty[1]: v=[v]
            return v+z[len(v):]
        if k=="call": return call(e.f,[ev(x,fr) for x in e.args],e,fr)
        if k=="new":
            vs=[(f,ev(v,fr)) for f,v in e.fields]; r={f:zero(t) for f,t in structs[e.s]}
            for f,v in vs: r[f]=v
            heap.append(r); return ("at",len(heap)-1)
        if k=="braces":
            vs=[ev(x,fr) for x in e.es]; z=zero(e.ty); return vs+z[len(vs):]
        if k=="member":
            b=ev(e.base,fr)
            if b is None: fail()
            return copied(heap[b[1]][e.name])
        if k=="index":
            b=ev(e.base,fr); i=ev(e.i,fr)
            if not 0<=i<len(b): fail()
            return b[i]
        if k=="slice":
            b=ev(e.base,fr); i=ev(e.frm,fr)
            if not(0<=i and i+e.n<=len(b)): fail()
            return b[i:i+e.n]
        if k=="unary":
            v=ev(e.e,fr)
            if e.op=="!": return 1-v
            if e.op=="-": return wrap(-v)
            return 1-v if e.ty==BIT else [1-x for x in v]
        if k=="cond": return ev(e.a if ev(e.c,fr) else e.b,fr)
        if k=="binary":
            o=e.op; l=ev(e.l,fr)
            if o=="&&": return ev(e.r,fr) if l else 0
            if o=="||": return 1 if l else ev(e.r,fr)
            r=ev(e.r,fr); bits=e.ty[0]=="arr"
            if o in("<<",">>"):
                n=len(l)
                if r<0: fail()
                if r>=n: return [0]*n
                return [0]*r+l[:n-r] if o=="<<" else l[r:]+[0]*r
            if o=="+" and bits:
                n=len(l); v=(sum(b<<i for i,b in enumerate(l))+sum(b<<i for i,b in enumerate(r)))%2**n
                return [(v>>i)&1 for i in range(n)]
            if o in BW:
                g={"&":lambda a,b:a&b,"|":lambda a,b:a|b,"^":lambda a,b:a^b}[o]
                return [g(a,b) for a,b in zip(l,r)] if bits else g(l,r)
            if o=="==": return int(l==r)
            if o=="!=": return int(l!=r)
            if o=="<": return int(l<r)
            if o=="<=": return int(l<=r)
            if o==">": return int(l>r)
            if o==">=": return int(l>=r)
            if o=="+": return wrap(l+r)
            if o=="-": return wrap(l-r)
            if o=="*": return wrap(l*r)
            if r==0: fail()
            q=abs(l)//abs(r)
            if (l<0)!=(r<0): q=-q
            return wrap(q) if o=="/" else wrap(l-q*r)
        raise Exception(k)
    def call(f,args,e,fr):
        if active.count(f)>=B["inline"] or len(active)>=128: fail()
        fn=funs[f]; active.append(f); save=cur[0]
        fr2={i:v for i,v in enumerate(args)}
        res=None if fn.res is None else zero(fn.res)
        try: ex(fn.body,fr2)
        except Ret as r:
            if fn.res is not None: res=r.args[0]
        active.pop(); cur[0]=save
        refs=[]
        for i,(w,t,r) in enumerate(fn.params):
            if r:
                refs.append(fr2[i])
                if e is not None: fr[e.args[i].slot]=copied(fr2[i])
        if e is None: return res,refs
        return res
    def assign(t,val,fr):
        # parts outside in
        path=[]; x=t
        chain=[]
        while x.k in("member","index"):
            chain.append(x); x=x.base
        chain.reverse()
        # find last member
        last=max([i for i,c in enumerate(chain) if c.k=="member"],default=-1)
        ref=None
        if last>=0:
            ref=ev(chain[last].base,fr)   # reads with its own checks, evaluates its own indexes
        idx=[ev(c.i,fr) for c in chain[last+1:]]
        v=ev(val,fr)
        if last>=0:
            if ref is None: fail()
            box=heap[ref[1]]; key=chain[last].name
        else: box=fr; key=x.slot
        for i in idx:
            arr=box[key]
            if not 0<=i<len(arr): fail()
            box=arr; key=i
        box[key]=copied(v)
    def ex(ss,fr):
        for s in ss: st(s,fr)
    def st(s,fr):
        k=s.k
        if k=="block": ex(s.body,fr); return
        save=cur[0]; cur[0]=s.span
        if k=="declare": fr[s.slot]=zero(s.ty) if s.value is None else ev(s.value,fr)
        elif k=="assign": assign(s.target,s.value,fr)
        elif k=="callst": ev(s.e,fr)
        elif k=="if":
            c=ev(s.cond,fr)
            if c: st(s.then,fr)
            elif s.other is not None: st(s.other,fr)
        elif k=="while":
            n=0
            while True:
                cur[0]=s.span
                if not ev(s.cond,fr): break
                if n>=B["unroll"]: fail()
                st(s.body,fr); n+=1
        elif k=="return": raise Ret(None if s.value is None else ev(s.value,fr))
        elif k=="assert":
            if not ev(s.e,fr): fail()
        elif k=="assume":
            if not ev(s.e,fr): raise Skip(s.span)
        elif k=="minimize":
            v=ev(s.e,fr)
            if v<0: fail()
            cost[0]=min(cost[0]+v,2**64-1)
        else: raise Exception(k)
        cur[0]=save
    try: r,refs=call(fname,args,None,None)
    except Fail as f: return ("failed",f.args[0])
    except Skip as f: return ("skipped",f.args[0])
    return ("done",r,refs,cost[0])
# ---- layout
def ty_text(t):
    if t in(INT,BIT): return t[0]
    if t[0]=="ref": return t[1]
    ls=[]; b=t
    while b[0]=="arr": ls.append(b[2]); b=b[1]
    return ty_text(b)+"".join("[%d]"%l for l in reversed(ls))
def ex_text(e):
    k=e.k; X=ex_text
    if k=="num": return str(e.v)
    if k in("true","false","null"): return k
    if k in("var","const"): return e.name
    if k=="hole": return "??" if e.bits is None else "??(%d)"%e.bits
    if k=="pattern": return "{| "+" | ".join(map(X,e.es))+" |}"
    if k=="paren": return "("+X(e.e)+")"
    if k in("toint","pad"): return X(e.e)
    if k=="call": return e.f+"("+", ".join(map(X,e.args))+")"
    if k=="new": return "new "+e.s+"("+", ".join(f+" = "+X(v) for f,v in e.fields)+")"
    if k=="braces": return "{"+", ".join(map(X,e.es))+"}"
    if k=="member": return X(e.base)+"."+e.name
    if k=="index": return X(e.base)+"["+X(e.i)+"]"
    if k=="slice": return X(e.base)+"["+X(e.frm)+"::%d]"%e.n
    if k=="unary":
        o=X(e.e); return e.op+(" " if e.op=="-" and o.startswith("-") else "")+o
    if k=="binary": return X(e.l)+" "+e.op+" "+X(e.r)
    if k=="cond": return X(e.c)+" ? "+X(e.a)+" : "+X(e.b)
    raise Exception(k)
def layout(p):
    out=[]; X=ex_text
    def L(d,t): out.append("    "*d+t+"\n")
    def S(s,d):
        k=s.k
        if k=="block":
            L(d,"{"); [S(x,d+1) for x in s.body]; L(d,"}")
        elif k=="declare": L(d,ty_text(s.ty)+" "+s.name+("" if s.value is None else " = "+X(s.value))+";")
        elif k=="assign": L(d,X(s.target)+" = "+X(s.value)+";")
        elif k=="callst": L(d,X(s.e)+";")
        elif k=="if":
            L(d,"if ("+X(s.cond)+") {"); [S(x,d+1) for x in s.then.body]
            if s.other is not None: L(d,"} else {"); [S(x,d+1) for x in s.other.body]
            L(d,"}")
        elif k=="while": L(d,"while ("+X(s.cond)+") {"); [S(x,d+1) for x in s.body.body]; L(d,"}")
        elif k=="return": L(d,"return;" if s.value is None else "return "+X(s.value)+";")
        elif k in("assert","assume"): L(d,k+" "+X(s.e)+";")
        elif k=="minimize": L(d,"minimize("+X(s.e)+");")
        elif k=="repeat": L(d,"repeat ("+X(s.count)+") {"); [S(x,d+1) for c in s.copies for x in c.body]; L(d,"}")
        elif k=="minrepeat": L(d,"minrepeat {"); [S(x,d+1) for c in s.copies for x in c.body]; L(d,"}")
        elif k=="reorder": L(d,"reorder {"); [S(x,d+1) for x in s.body]; L(d,"}")
        else: raise Exception(k)
    for n,fs in p.structs:
        L(0,"struct "+n+" {"); [L(1,ty_text(t)+" "+f+";") for f,t in fs]; L(0,"}")
    for n,v,_ in p.consts: L(0,"int "+n+" = "+X(v)+";")
    for f in p.funs:
        h={"plain":"","harness":"harness ","generator":"generator "}[f.kind]+("void" if f.res is None else ty_text(f.res))+" "+f.name+"("+", ".join(("ref " if r else "")+ty_text(t)+" "+w for w,t,r in f.params)+")"
        if f.imp: h+=" implements "+f.imp
        L(0,h+" {"); [S(x,1) for x in f.body]; L(0,"}")
    return "".join(out)
# ---- sizes
def steps(p,B,what):
    funs={f.name:f for f in p.funs}
    memo={}
    def fn(f,act):
        key=(f,act)
        if key not in memo:
            memo[key]=(1 if what=="steps" else 0)+sum(go(s,act) for s in funs[f].body)
        return memo[key]
    def go(x,act):
        if isinstance(x,(list,tuple)): return sum(go(y,act) for y in x)
        if not isinstance(x,N): return 0
        if x.k in("toint","pad"): return go(x.e,act)
        one=1 if what=="steps" else int(x.k=="new")
        if x.k=="while": return one+(B["unroll"]+1)*go(x.cond,act)+B["unroll"]*go(x.body,act)
        if x.k=="reorder": return one+len(x.body)*go(x.body,act)
        n=one+sum(go(getattr(x,key),act) for key in ORDER.get(x.k,()))
        if x.k=="call":
            a=dict(act)
            if a.get(x.f,0)<B["inline"] and sum(a.values())<128:
                a[x.f]=a.get(x.f,0)+1; n+=fn(x.f,tuple(sorted(a.items())))
        return n
    out=[]
    for o in obligations(p):
        out.append(sum(fn(f,((f,1),)) for f in o[1:]))
    return out
def obligations(p):
    out=[]
    for f in p.funs:
        if f.kind=="harness": out.append(("harness",f.name))
        if f.imp: out.append(("implements",f.name,f.imp))
    return out
def nodes(p):
    def go(x):
        if isinstance(x,(list,tuple)): return sum(go(y) for y in x)
        if not isinstance(x,N): return 0
        n=0 if x.k in("toint","pad") else 1
        if x.k=="repeat": n+=go(x.count)
        return n+sum(go(getattr(x,key)) for key in ORDER.get(x.k,()))
    return sum(go(v) for _,v,_ in p.consts)+sum(go(f.body) for f in p.funs)
# ---- front
DEF=dict(W=16,cbits=5,inbits=5,unroll=8,inline=5)
def bounds_of(items,opts):
    B=dict(DEF)
    names={"--bnd-cbits":("cbits",1,16),"--bnd-inbits":("inbits",1,16),"--bnd-unroll-amnt":("unroll",0,64),"--bnd-inline-amnt":("inline",1,16)}
    for i in items:
        if i.k=="pragma" and i.word=="options":
            ws=i.text.split()
            for a,b in zip(ws,ws[1:]):
                if a in names and re.fullmatch(r"[0-9]{1,10}",b):
                    k,lo,hi=names[a]
                    if lo<=int(b)<=hi: B[k]=int(b)
    B.update(opts)
    B["cbits"]=min(B["cbits"],B["W"]-1); B["inbits"]=min(B["inbits"],B["W"]-1)
    return B
def load(text,**opts):
    p=P(tokens(text)); items=p.program(); B=bounds_of(items,opts)
    prog=Typer(items,B).run(); return prog,B
def inputs(t,B):
    if t==INT: return range(2**B["inbits"])
    if t==BIT: return range(2)
    return [list(x) for x in itertools.product(inputs(t[1],B),repeat=t[2])]
def breaks(P,B,o,args):
    if o[0]=="harness": return run(P,o[1],copied(args),B)[0]=="failed"
    g=run(P,o[2],copied(args),B)
    if g[0]=="failed": return True
    if g[0]=="skipped": return False
    f=run(P,o[1],copied(args),B)
    return f[0]!="done" or f[1:3]!=g[1:3]
def synth(text,most=1<<18,**opts):
    prog,B=load(text,**opts); e=expand(prog,B); ss=sites(e,B)
    best=None; hits=[]
    tot=1
    for s in ss: tot*=s
    if tot>most: return "too many choices",tot
    bad=[]
    for a in itertools.product(*[range(s) for s in ss]):
        F=fill(e,list(a)); ok=True; val=0; obs=obligations(F)
        fs={f.name:f for f in F.funs}
        for oi,args in bad:
            if breaks(F,B,obs[oi],args): ok=False; break
        if not ok: continue
        for oi,o in enumerate(obs):
            for args in itertools.product(*[inputs(t,B) for _,t,_ in fs[o[1]].params]):
                args=list(args)
                if breaks(F,B,o,args): ok=False; bad.insert(0,(oi,args)); break
                if o[0]=="harness":
                    r=run(F,o[1],copied(args),B)
                    if r[0]=="done": val=max(val,r[3])
            if not ok: break
        if ok: hits.append((val,a,F))
    if not hits: return "//@ none\n",[]
    v=min(h[0] for h in hits); least=[h for h in hits if h[0]==v]
    h=least[0]
    return layout(h[2])+"//@ completion\n//@ value %d\n//@ holes%s\n"%(v,"".join(" %d"%x for x in h[1])),[x[1] for x in least]
