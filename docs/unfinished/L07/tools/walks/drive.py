# drive.py CRATE: writes CRATE/proofs/drive/Proof.antt, the walk of `drive`, the loop that holds records, PRs and memory.
import sys,os
from walker import *
HERE=os.path.dirname(os.path.abspath(__file__))
# where the modules are: pending's, answering's, Drive.antt, and those of drive's own crate
PENDING='Rattle·pending.proofs'
ANSWERING='Rattle·answering.proofs'
ANSWERING_SPECS='Rattle·answering.specs'
PENDING_SPECS='Rattle·pending.specs'
DRIVE_SPECS='Rattle·driver·specs.specs'
OWN='Rattle·driver·proofs.proofs'
# locals: 1 to 3 what is lent, 4 the delivery, 5 the budget, 6 `from`, 7 `x`, 8 `s`, 9 a test, 15 and 19 what `replace` and `clear` return
n=22
X,SEARCH,TEST=7,8,9
# types that are shut
TYPES={0:'pend',6:'pend',X:'pend',4:'deliv'}
# fields of Pending that are read, and of Search
FIELDS=['word','segment','asks','clears']
S_SEGMENT,S_HIT=1,3
LS=' '.join(ln(i) for i in range(n))
HEADS=['rs','lft0','ps','lft1','ms','lft2']
def heads(hs,ps,m): return ['‵ (recs %s)'%hs,'‵ (flft κ₀ q₀)','‵ (prs %s)'%ps,'‵ (flft κ₁ q₁)','‵ (mems %s)'%m,'‵ (flft κ₂ q₂)']
base={1:'sl',2:'vptr b₁ o₁',3:'sl₂',4:'mach-v del',5:'vint w32 bud'}
def at(hs,ps,m,live): return ctx(heads(hs,ps,m),n,{**base,**live},TYPES)
inv=HEADS+locals_(n)
# a slice that is lent again for a call: the records, whose lifetime is the callee's first, or memory, whose is `answer`'s second
SLICES={'rs':dict(k='κ₀',q='q₀',g='γ₀',b='b₀',o='o₀',N='n₀',x='x₀',sl='sl',R='T.the-row',own=0,its=0,lft='lft0',room='room₀'),
        'ms':dict(k='κ₂',q='q₂',g='γ₂',b='b₂',o='o₂',N='n₂',x='x₂',sl='sl₂',R='u64',own=2,its=1,lft='lft2',room='room₂')}
def lend(w,item,nu,de,y,e):
    d=dict(SLICES[item],nu=nu,de=de,y=y,e=e); w.lent[item]=d
    w.e('lft-new ! tt (λ %s.'%nu); w.open+=1; w.head(0,nu); w.move(item,d['lft'])
    w.e('use2 W (later (some (λ ({de} : GName). ‵ (MutSlice (named {its}) ({nu} ∷ []) {R} .own ({x} {de} {y}) ({sl} ∷ [])) ⊛ ‵ (LentAgain {R} {k} ({nu} ∷ []) {q} {g} {b} {o} {de} {y})))) (lends-at {R} {k} ({nu} ∷ []) {q} {g} {b} {o} 𝓤 H A W (named {own}) (named {its}) {y} {N} {e}) $ await ! tt $ pick ! (λ {de}. split ! $'.format(**d)); w.open+=1
    w.head(2,item+'′','lent'+item)
def back(w,item,dead,fin,zs,l):
    d=dict(w.lent[item],zs=zs,l=l); w.move(dead,'lent'+item,fin)
    w.e('use3 W (later (‵ (MutSlice (named {own}) {k} {R} .own ({x} {g} {zs}) ({sl} ∷ [])) ⊛ ‵ (flft {k} {q}))) (back-at {R} {k} ({nu} ∷ []) {q} {g} {b} {o} 𝓤 H A W (named {own}) (named {its}) {y} {N} {e} {de} {zs} {room} {l}) $ await ! tt $ split ! $'.format(**d)).head(3,item,d['lft'])
# a call: its precondition is made of these entries; left are its result (`own`), its tokens (`tok`), and what it says of the last values (`lasts`), as `e`
def call(w,name,mod,to,goes,parts,ops,K,toks,args,r,T,row,says,last=False):
    d=dict(N=name,m=mod,to=to,goes=goes,K=K,t=toks,a=args,r=r,T=T,R=row,says=says,l='-last' if last else '')
    w.move(*parts); w.e('use%d W (raw (%s 𝓤 H A at-mem run .pre %s)) %s $'%(len(parts),name,to,goes)).head(len(parts),'pre')
    w.e('calls-at{l} ! fm ({N} 𝓤 H A at-mem run) known-{m} {to} {o} (λ v.'.format(o=w.opds(*[w.L(i) if isinstance(i,int) else field(w,*i) for i in ops]),**d)); w.open+=1
    w.e('use1 W (later (some (λ ({r} : {T}). (({t}) ⊛ ‵ ({R} .own {r} (v ∷ []))) ⊛ raw (ensured 𝓤 H A {m}.ended ({m}.clauses 𝓤 H A at-mem run) {K} {a} tt {r})))) (id⊢ 𝓤 _) $ await ! tt $ pick ! (λ {r}.'.format(**d)); w.open+=1
    w.e('split ! $ move ! (1 ∷ []) $ use1 W (some (λ (zs : Lasts {m}.ended {K} {a}). ‵ (lasts {m}.ended {K} {a} zs) ⊛ raw (fact 𝓤 {says}))) (id⊢ 𝓤 _) $ pick ! (λ zs.'.format(**d)); w.open+=1
    w.e('split ! $ move ! (1 ∷ []) $ heard ! %s (λ e.'%says); w.open+=1
    w.head(1,'lasts','tokown')
# the same of the records alone, which stay lent until their token ends; `k`: as many as there were
def call_records(w,name,mod,arg,goes,ops,args,r,T,row,says,last=False):
    w.e('nothing ! $').head(0,'true'); w.move('ν','true'); w.e('join ! $').head(2,'tok')
    call(w,name,mod,'(to-%s (ν ∷ []) δ %s)'%(mod,arg),'(goes-%s (ν ∷ []) δ %s%s)'%(mod,arg,goes),['tok','rs′'],ops,'(ν ∷ [], tt)','‵ (flft (ν ∷ []) fullShare) ⊛ ‵ ftrue',args,r,T,row,says,last)
    w.e('fsplit ! $ fsplit ! $ move ! (1 ∷ []) $ feqL ! (λ k.'); w.open+=1
    w.head(1,'fin','rest'); w.move('tokown').e('split ! $').head(1,'tok','own'); w.move('own')
def ends(w,zs):
    w.move('tok').e('split ! $ lft-end ! tt $').head(1,'dead','true'); back(w,'rs','dead','fin',zs,'k')
def peeks(w,i,T,t,s,r,first=True):      # the result, a struct, lands in a local
    w.e('peeks ! {T}.the-row (Is {T}.the-row) (shows 𝓤 H A {T}.the-row) {r} (v ∷ []) (λ is.'.format(T=T,r=r)); w.open+=1
    w.e('land ! %s $ rewrite ! %d (λ (u : Val). ‵ (fat fullShare %s %s 0 u)) (tells%s %s v is) refl $'%(w.to(i,'(lands%s %s v is)'%(s,r),first=first),w.p('_%d'%i),t,ln(i),s,r))
UNIT='(subst (λ (u : Val). Holds (hasTy tyUnit u) × WT u) (sym (ap only un)) (tt, tt))'
def field(w,f,x): return '(load ! (from ! (fld ! %s-at (stop !))) (%s-read 𝓤 H A W %s %s _ %d refl))'%(f,f,ln(X),x,w.p('_%d'%X))
def walk(items,indent='        '): z=Walk(items,indent); z.lent={}; return z
# ---- the look-up
w=walk(inv)
w.assign(TEST,'(of-opd ! %s)'%field(w,'asks','(t .pending)'),'(tt, tt)')
w.e('first ! $ branches ! %s'%w.L(TEST))
t=walk(w.c)
t.e('(λ asks. skips ! $ exec ! C Λ En (after 2 pieces.turn-1) (anyQ (Once t)) $')
t.reslice(10,11,1,'room₀')
lend(t,'rs','ν','δ','(t .hs)','(t .hs-long)')
call_records(t,'Look','look','(t .pending) (t .hs)',' (t .fits)',[11,('segment','(t .pending)')],'(x₀ δ (t .hs), (t .pending .segment, tt))','s','Search','S.the-row',
    '((s ≡ found (t .pending .segment) (t .hs)) × (zs .0 ≡ touched (found (t .pending .segment) (t .hs)) (t .hs)))')
peeks(t,SEARCH,'S','(ty %d)'%SEARCH,'-s','s'); ends(t,'(zs .0)')
t.forget(TEST,10,11).keep(inv)
t.e('answers t (is-true _ asks) s (zs .0) (told-s s v is) (e .0) (e .1) (k ∙ t .hs-long))')
w.e(t.text())
x=walk(w.c)
x.e('(λ over. jumps ! $ exec ! C Λ En pieces.t-3 (atRet En Post) $')
x.assign(0,'(of-opd ! %s)'%x.L(X),'(typed (t .pending) (t .fits))')
x.e('returns ! (look ! %d refl) $'%x.p('_0')).forget(0,1,2,3,4,5,X,TEST).frees(n).keep(HEADS)
x.e('by ! (exits (t .pending) (t .hs) (t .ps) (t .m) (t .fits) (t .hs-long) (t .m-long) (says-end t (is-false _ over))))')
w.e(x.text())
turnA=w.text()
# ---- the answer
B=walk(inv)
B.assign(12,'(addr ! (from ! (hop ! (look ! %d refl) (stop !))))'%B.p('_2'),'(tt, tt)')
B.reslice(13,14,3,'room₂')
B.e('lft-new ! tt (λ ν.'); B.open+=1; B.head(0,'ν'); B.move('ps','lft1')
B.e('use2 W (later (some (λ (δ : GName). ‵ (MutRef (named 0) (ν ∷ []) (Array u16 24) .own (x₁ δ (t .ps)) (vptr b₁ o₁ ∷ [])) ⊛ ‵ (LentRef (Array u16 24) κ₁ (ν ∷ []) q₁ γ₁ b₁ o₁ δ (t .ps))))) (lends-ref-again 𝓤 H A W (Array u16 24) (named 1) κ₁ (ν ∷ []) q₁ γ₁ b₁ o₁ (named 0) (t .ps)) $ await ! tt $ pick ! (λ δ. split ! $'); B.open+=1
B.head(2,'ps′','lentps')
lend(B,'ms','μ','ε','(t .m)','(t .m-long)')
B.e('nothing ! $').head(0,'true'); B.move('μ','true').e('join ! $').head(2,'tok2'); B.move('ν','tok2').e('join ! $').head(2,'tok')
TO='(ν ∷ []) (μ ∷ []) δ ε (t .pending) s (t .ps) (t .m)'
PS,MS='(zs .1 .1 .1 .1 .0)','(zs .1 .1 .1 .1 .1 .0)'
call(B,'Answer','answer','(to-answer %s)'%TO,'(goes-answer %s (t .fits) gs (needed t s asks es))'%TO,['tok','ps′','ms′'],[X,SEARCH,4,5,12,14],'(ν ∷ [], (μ ∷ [], tt))',
    '‵ (flft (ν ∷ []) fullShare) ⊛ ‵ (flft (μ ∷ []) fullShare) ⊛ ‵ ftrue','(t .pending, (s, (del, (bud, (x₁ δ (t .ps), (x₂ ε (t .m), tt))))))','y','Pending','P.the-row',
    '(Answered del bud (t .pending) s (as-pointers (t .ps)) (t .m) y (as-pointers %s) %s)'%(PS,MS))
for i in range(4): B.e('fsplit ! $').head(1,'r%d'%i,'lasts'); B.move('lasts')
B.e('fsplit ! $').head(1,'res','lasts'); B.move('lasts').e('fsplit ! $').head(1,'mem','lasts')
B.e('fsplit ! $').head(1,'fin','eq'); B.move('eq').e('feqL ! (λ k.').head(1); B.open+=1
B.move('tokown').e('split ! $').head(1,'tok','own'); B.move('own')
peeks(B,X,'P','pend','','y',first=False)
B.move('tok').e('split ! $ lft-end ! tt $').head(1,'dead1','tok2'); B.move('tok2').e('split ! $ lft-end ! tt $').head(1,'dead2','true')
B.move('dead1','lentps','res')
B.e('use3 W (later (‵ (prs {z}) ⊛ ‵ (flft κ₁ q₁))) (comes-ref-back 𝓤 H A W (Array u16 24) (named 1) κ₁ (ν ∷ []) q₁ γ₁ b₁ o₁ δ (t .ps) {z}) $ await ! tt $ split ! $'.format(z=PS)).head(3,'ps','lft1')
back(B,'ms','dead2','fin',MS,'k')
B.forget(12,13,14).keep(inv)
B.e('replaces t asks s hs′ y %s %s gs (told y v is) es eh hs-long e (k ∙ t .m-long)'%(PS,MS))
turnB=B.text()
# ---- a miss
R=walk(inv)
R.assign(TEST,'(un ! %s tt)'%R.L(SEARCH,S_HIT),'(tt, tt)')
R.e('first ! $ branches ! %s'%R.L(TEST))
c=walk(R.c)
c.e('(λ miss.')
c.reslice(16,17,1,'room₀')
c.assign(18,'(agg ! %s)'%c.opds(field(c,'word','y'),c.L(SEARCH,S_SEGMENT)),'(typed-e (entry y s) (entry-fits y s gy gs))')
lend(c,'rs','ν','δ','hs′','hs-long')
call_records(c,'Replace','replace','hs′ (entry y s)',' (entry-fits y s gy gs)',[17,18],'(x₀ δ hs′, (entry y s, tt))','r','Unit {0}','unit','(zs .0 ≡ map (overwritten (entry y s)) hs′)',last=True)
c.e('feqL ! (λ un.').head(1); c.open+=1
ends(c,'(zs .0)')
c.e('land-last ! %s $'%c.to(15,UNIT))
c.forget(SEARCH,TEST,15,16,17,18).keep(inv)
c.e('exec ! C Λ En (after 11 pieces.turn-1) (anyQ (Once t)) $ clears t asks s hs′ (zs .0) y ps′ m′ gy es eh (k ∙ hs-long) ey (replaced-yes _ (entry y s) hs′ (zs .0) miss e) m-long′)')
R.e(c.text())
d=walk(R.c)
d.e('(λ hit. skips ! $').forget(SEARCH,TEST).keep(inv).e('exec ! C Λ En (after 11 pieces.turn-1) (anyQ (Once t)) $ clears t asks s hs′ hs′ y ps′ m′ gy es eh hs-long ey (replaced-no _ (entry y s) hs′ hit) m-long′)')
R.e(d.text())
turnR=R.text()
# ---- the marks
C=walk(inv)
C.assign(TEST,'(of-opd ! %s)'%field(C,'clears','y'),'(tt, tt)')
C.e('branches ! %s'%C.L(TEST))
c=walk(C.c)
c.e('(λ yes.')
c.reslice(20,21,1,'room₀')
lend(c,'rs','ν','δ','hs″','hs-long')
call_records(c,'Clear','clear','hs″','',[21],'(x₀ δ hs″, tt)','r','Unit {0}','unit','(zs .0 ≡ map without-mark hs″)',last=True)
c.e('feqL ! (λ un.').head(1); c.open+=1
ends(c,'(zs .0)')
c.e('land-last ! %s $'%c.to(19,UNIT))
c.forget(TEST,19,20,21).keep(inv)
YES='(zs .0) (k ∙ hs-long) (cleared-yes (y .clears) hs″ (zs .0) yes e)'
c.e('again ! Nearer At t (next %s) (turned (zs .0) (cleared-yes (y .clears) hs″ (zs .0) yes e) .nearer))'%YES)
C.e(c.text())
d=walk(C.c)
d.e('(λ no. skips ! $').forget(TEST).keep(inv).e('again ! Nearer At t (next hs″ hs-long (cleared-no (y .clears) hs″ no)) (turned hs″ (cleared-no (y .clears) hs″ no) .nearer))')
C.e(d.text())
turnC=C.text()
# ---- up to the loop
m=walk(['tok','owns'],'      ')
m.e('qed W ((‵ (flft κ₀ q₀) ⊛ ‵ (flft κ₁ q₁) ⊛ ‵ (flft κ₂ q₂) ⊛ ‵ ftrue) ∷ ‵ (owns (MutSlice (named 0) κ₀ T.the-row ∷ MutRef (named 1) κ₁ (Array u16 24) ∷ MutSlice (named 2) κ₂ u64 ∷ D.the-row ∷ u32 ∷ P.the-row ∷ []) a vals) ∷ []) ∵ enter ! (𝓣 .C) (𝓣 .Λ) code.function (sl ∷ vptr b₁ o₁ ∷ sl₂ ∷ mach-v del ∷ vint w32 bud ∷ mach from′ ∷ []) _ $')
m.allocs(n)
for i,typed in enumerate(['(tt, (tt, (record { fits = room₀ .0 }, tt)))','(tt, tt)','(tt, (tt, (record { fits = room₂ .0 }, tt)))','(typed-v del gdel)','(tt, record { fits = gbud })','(typed from′ gfrom)']): m.e('pass1 ! (init ! %d refl %s) $'%(m.p('_%d'%(i+1)),typed))
m.e('pass0 ! $')
m.assign(X,'(of-opd ! %s)'%m.L(6),'(typed from′ gfrom)').forget(6)
m.move('owns').e('fsplit ! $').head(1,'rs','R'); m.move('R').e('fsplit ! $').head(1,'ps','R'); m.move('R').e('fsplit ! $').head(1,'ms','R')
m.move('tok').e('split ! $').head(1,'lft0','K'); m.move('K').e('split ! $').head(1,'lft1','K'); m.move('K').e('split ! $').head(1,'lft2','K')
m.keep(inv)
KNOWN='𝓣 fm known-look known-answer known-replace known-clear '+LS
m.e('first ! $ blocks ! $ loops ! 𝓣 Nearer Nearer-wf (At %s) (turns %s) started'%(KNOWN,KNOWN))
T=open(HERE+'/drive.tmpl').read()
for a,b in {'ls':LS,'env':env(n,TYPES),'at':at('(t .hs)','(t .ps)','(t .m)',{X:'mach (t .pending)'}),
  'atB':at('hs′','(t .ps)','(t .m)',{X:'mach (t .pending)',SEARCH:'mach-s s'}),
  'atR':at('hs′','ps′','m′',{X:'mach y',SEARCH:'mach-s s'}),
  'atC':at('hs″','ps′','m′',{X:'mach y'}),
  'turnA':turnA,'turnB':turnB,'turnC':turnC,'turnR':turnR,'walk':m.text(),
  'heads':' ∷ '.join(heads('hs','ps','m'))+' ∷ []',
  'pending':PENDING,'answering':ANSWERING,'answering-specs':ANSWERING_SPECS,'pending-specs':PENDING_SPECS,'drive-specs':DRIVE_SPECS,'own':OWN}.items(): T=T.replace('@%s@'%a,b)
assert '@' not in T, T[T.index('@')-40:][:100]
o=sys.argv[1]+'/proofs/drive'; os.makedirs(o,exist_ok=True); open(o+'/Proof.antt','w').write(T)
