# run.py CRATE: writes CRATE/proofs/run/Proof.antt, the walk of kuzhlemor_close's `run`: 63 and 1 to 4, the counts put in order, the driver, and the answer.
import sys,os
from walker import *
HERE=os.path.dirname(os.path.abspath(__file__))
# locals: 1 to 3 what is lent, 4 the core, 5 the delivery, 6 the budget, 7 single, 8 the first no, 9 `from`, 10 `x`, 11 the count, 12 to 14 what is shared, 15 the test, 16 what `order` returns, 17 to 23 what is lent on
n=24
NO,FROM,X,COUNT,TEST=8,9,10,11,15
TYPES=shut(n)
LS=' '.join(ln(i) for i in range(n))
HEADS=['rs','lft0','ps','lft1','ms','lft2']
def heads(hs,ps,m): return ['‵ (recs %s)'%hs,'‵ (flft κ₀ q₀)','‵ (prs %s)'%ps,'‵ (flft κ₁ q₁)','‵ (mems %s)'%m,'‵ (flft κ₂ q₂)']
base={1:'sl',2:'vptr b₁ o₁',3:'sl₂',4:'mach-c c',5:'mach-v del',6:'vint w32 bud',7:'vbool single'}
def at(hs,ps,m,live): return ctx(heads(hs,ps,m),n,{**base,**live},TYPES)
inv=HEADS+locals_(n)
# a lent slice is lent again for a call, and comes back
SLICES={'rs':dict(k='κ₀',q='q₀',g='γ₀',b='b₀',o='o₀',N='n₀',x='x₀',sl='sl',R='T.the-row',own=0,lft='lft0',room='room₀'),
        'ms':dict(k='κ₂',q='q₂',g='γ₂',b='b₂',o='o₂',N='n₂',x='x₂',sl='sl₂',R='u64',own=2,lft='lft2',room='room₂')}
def lend(w,item,nu,de,y,e):
    d=dict(SLICES[item],nu=nu,de=de,y=y,e=e); w.lent[item]=d
    w.e('lft-new ! tt (λ %s.'%nu); w.open+=1; w.head(0,nu); w.move(item,d['lft'])
    w.e('use2 W (later (some (λ ({de} : GName). ‵ (MutSlice (named {own}) ({nu} ∷ []) {R} .own ({x} {de} {y}) ({sl} ∷ [])) ⊛ ‵ (LentAgain {R} {k} ({nu} ∷ []) {q} {g} {b} {o} {de} {y})))) (lends-at {R} {k} ({nu} ∷ []) {q} {g} {b} {o} 𝓤 H A W (named {own}) (named {own}) {y} {N} {e}) $ await ! tt $ pick ! (λ {de}. split ! $'.format(**d)); w.open+=1
    w.head(2,item+'′','lent'+item)
def back(w,item,dead,fin,zs,l):
    d=dict(w.lent[item],zs=zs,l=l); w.move(dead,'lent'+item,fin)
    w.e('use3 W (later (‵ (MutSlice (named {own}) {k} {R} .own ({x} {g} {zs}) ({sl} ∷ [])) ⊛ ‵ (flft {k} {q}))) (back-at {R} {k} ({nu} ∷ []) {q} {g} {b} {o} 𝓤 H A W (named {own}) (named {own}) {y} {N} {e} {de} {zs} {room} {l}) $ await ! tt $ split ! $'.format(**d)).head(3,item,d['lft'])
# a call of a function that leaves nothing at exit: its result, its tokens `t`, and what it says, as `e`
def simple(w,name,mod,arg,goes,parts,ops,K,toks,args,r,T,row,says):
    d=dict(N=name,m=mod,arg=arg,K=K,t=toks,a=args,r=r,T=T,R=row,says=says,k=len(parts),mod={'first':'first-no'}.get(mod,mod))
    w.move(*parts); w.e('use{k} W (raw ({N} 𝓤 H A at-mem run .pre (to-{m}{arg}))) {g} $'.format(g=goes,**d)).head(len(parts),'pre')
    w.e('calls-at ! fm ({N} 𝓤 H A at-mem run) known-{m} (to-{m}{arg}) {o} (λ v.'.format(o=w.opds(*[w.L(i) if isinstance(i,int) else i for i in ops]),**d)); w.open+=1
    w.e('use1 W (later (some (λ ({r} : {T}). (({t}) ⊛ ‵ ({R} .own {r} (v ∷ []))) ⊛ raw (ensured 𝓤 H A {mod}.ended ({mod}.clauses 𝓤 H A at-mem run) {K} {a} tt {r})))) (id⊢ 𝓤 _) $ await ! tt $ pick ! (λ {r}.'.format(**d)); w.open+=1
    w.e('split ! $ move ! (1 ∷ []) $ use1 W (raw (fact 𝓤 {says})) (of-{m}{arg} {r}) $ heard ! {says} (λ e. split ! $'.format(**d)); w.open+=1
    w.head(1,'tok','own'); w.move('own')
def peeks(w,i,T,s,lands,r):      # the result, a struct, lands in a local
    w.e('peeks ! {T}.the-row (Is {T}.the-row) (shows 𝓤 H A {T}.the-row) {r} (v ∷ []) (λ is.'.format(T=T,r=r)); w.open+=1
    w.e('land ! %s $ rewrite ! %d (λ (u : Val). ‵ (fat fullShare %s %s 0 u)) (tells%s %s v is) refl $'%(w.to(i,'(%s %s v is)'%(lands,r)),w.p('_%d'%i),TYPES[i],ln(i),s,r))
def walk(items,indent='          '): z=Walk(items,indent); z.lent={}; return z
# ---- the entry
m=walk(['tok','owns'],'        ')
m.e('qed W ((‵ (flft κ₀ q₀) ⊛ ‵ (flft κ₁ q₁) ⊛ ‵ (flft κ₂ q₂) ⊛ ‵ ftrue) ∷ ‵ (owns (MutSlice (named 0) κ₀ T.the-row ∷ MutRef (named 1) κ₁ (Array u16 24) ∷ MutSlice (named 2) κ₂ u64 ∷ C.the-row ∷ D.the-row ∷ u32 ∷ bool ∷ []) a vals) ∷ []) ∵ enter ! C′ Λ code.function (sl ∷ vptr b₁ o₁ ∷ sl₂ ∷ mach-c c ∷ mach-v del ∷ vint w32 bud ∷ vbool single ∷ []) _ $')
m.allocs(n)
SL='(tt, (tt, (record { fits = %s .0 }, tt)))'
for i,t in enumerate([SL%'room₀','(tt, tt)',SL%'room₂','(typed-c c gc)','(typed-v del gdel)','(tt, record { fits = gbud })','(tt, tt)']): m.e('pass1 ! (init ! %d refl %s) $'%(m.p('_%d'%(i+1)),t))
m.e('pass0 ! $')
m.move('owns').e('fsplit ! $').head(1,'rs','R'); m.move('R').e('fsplit ! $').head(1,'ps','R'); m.move('R').e('fsplit ! $').head(1,'ms','R')
m.move('tok').e('split ! $').head(1,'lft0','K'); m.move('K').e('split ! $').head(1,'lft1','K'); m.move('K').e('split ! $').head(1,'lft2','K')
m.keep(inv).e('starts %s'%LS)
# ---- the first no: array and memory are shared with `first_no`
a=walk(inv)
a.assign(COUNT,'(of-opd ! %s)'%a.L(1,1),'(tt, record { fits = room₀ .0 })')
a.assign(12,'(addr ! (from ! (hop ! (look ! %d refl) (stop !))))'%a.p('_2'),'(tt, tt)')
a.reslice(13,14,3,'room₂')
a.e('lft-new ! tt (λ ν.'); a.open+=1; a.head(0,'ν'); a.move('ps','lft1')
ARR='(Array u16 24) κ₁ (ν ∷ []) q₁ γ₁ b₁ o₁'; MEM='u64 κ₂ (μ ∷ []) q₂ γ₂ b₂ o₂'
a.e('use2 W (later (some (λ (δ : GName). ‵ (ShrRef (named 0) (ν ∷ []) (Array u16 24) .own (x₁ δ ps₀) (vptr b₁ o₁ ∷ [])) ⊛ ‵ (KeptRef {A} ps₀)))) (shares-ref {A} 𝓤 H A W (named 1) (named 0) ps₀) $ await ! tt $ pick ! (λ δ. split ! $'.format(A=ARR)).head(2,'ps′','keptps'); a.open+=1
a.e('lft-new ! tt (λ μ.'); a.open+=1; a.head(0,'μ'); a.move('ms','lft2')
a.e('use2 W (later (some (λ (ε : GName). ‵ (ShrSlice (named 1) (μ ∷ []) u64 .own (x₂ ε m₀) (sl₂ ∷ [])) ⊛ ‵ (KeptSlice {A} m₀)))) (shares-slice {A} 𝓤 H A W (named 2) (named 1) m₀) $ await ! tt $ pick ! (λ ε. split ! $'.format(A=MEM)).head(2,'ms′','keptms'); a.open+=1
a.e('nothing ! $').head(0,'true'); a.move('μ','true').e('join ! $').head(2,'K'); a.move('ν','K').e('join ! $').head(2,'tok')
F='(ν ∷ []) (μ ∷ []) δ ε'
simple(a,'First','first',' '+F,'(goes-first %s)'%F,['tok','ps′','ms′'],[COUNT,5,4,12,14],'(ν ∷ [], (μ ∷ [], tt))','‵ (flft (ν ∷ []) fullShare) ⊛ ‵ (flft (μ ∷ []) fullShare) ⊛ ‵ ftrue','(n₀, (del, (c, (x₁ δ ps₀, (x₂ ε m₀, tt)))))','k','ℕ','u8','(First-no k)')
a.e('peeks ! u8 (Is u8) (shows 𝓤 H A u8) k (v ∷ []) (λ is.'); a.open+=1
a.e('land ! %s $ rewrite ! %d (λ (u : Val). ‵ (fat fullShare %s %s 0 u)) (ap only (is .0)) refl $'%(a.to(NO,'(lands-n k v is)'),a.p('_%d'%NO),TYPES[NO],ln(NO)))
a.move('tok').e('split ! $ lft-end ! tt $').head(1,'dead1','K'); a.move('K').e('split ! $ lft-end ! tt $').head(1,'dead2','K')
a.move('dead1','keptps').e('use2 W (later (‵ (prs ps₀) ⊛ ‵ (flft κ₁ q₁))) (ref-again {A} 𝓤 H A W (named 1) (named 0) ps₀) $ await ! tt $ split ! $'.format(A=ARR)).head(2,'ps','lft1')
a.move('dead2','keptms').e('use2 W (later (‵ (mems m₀) ⊛ ‵ (flft κ₂ q₂))) (slice-again {A} 𝓤 H A W (named 2) (named 1) m₀) $ await ! tt $ split ! $'.format(A=MEM)).head(2,'ms','lft2')
a.forget(COUNT,12,13,14).keep(inv).e('decides k (is .1) e')
# ---- a no, or on
d=walk(inv)
d.assign(TEST,'(bin ! %s (lit ! tt) tt)'%d.L(NO),'(tt, tt)')
d.e('first ! $ branches ! %s'%d.L(TEST))
r=walk(d.c)
r.e('(λ other.')
simple(r,'Refused','refused',' k','(goes-refused k gk)',[],[NO,4],'tt','‵ ftrue','(k, (c, tt))','r','Answered','X.the-row','(Answers-with (Reply.Refused k) c 0 r)')
peeks(r,0,'X','-x','lands-x','r')
r.e('returns-within ! Post refl (look ! %d refl) $'%r.p('_0')).forget(*range(0,9),TEST).frees(n).keep(HEADS)
r.e('by ! (exits r hs₀ ps₀ m₀ (told-x r v is) refl refl (run-refuses del c ps₀ m₀ hs₀ k ek single bud r (is-other k 0 other) e)))')
d.e(r.text())
g=walk(d.c)
g.e('(λ so. skips ! $ exec ! C′ Λ En b-8 (atRet En Post) $').forget(NO,TEST).keep(inv).e('orders k ek (is-so k 0 so))')
d.e(g.text())
# ---- the counts
o=walk(inv)
o.reslice(17,18,1,'room₀')
lend(o,'rs','ν','δ','hs₀','refl')
o.e('nothing ! $').head(0,'true'); o.move('ν','true').e('join ! $').head(2,'tok'); o.move('tok','rs′')
o.e('use2 W (raw (Order 𝓤 H A at-mem run .pre (to-order (ν ∷ []) δ))) (goes-order (ν ∷ []) δ) $').head(2,'pre')
o.e('calls-at ! fm (Order 𝓤 H A at-mem run) known-order (to-order (ν ∷ []) δ) %s (λ v.'%o.opds(o.L(18))); o.open+=1
A0='(x₀ δ hs₀, tt)'
o.e('use1 W (later (some (λ (r : Unit {0}). ((‵ (flft (ν ∷ []) fullShare) ⊛ ‵ ftrue) ⊛ ‵ (unit .own r (v ∷ []))) ⊛ raw (ensured 𝓤 H A order.ended (order.clauses 𝓤 H A at-mem run) (ν ∷ [], tt) %s tt r)))) (id⊢ 𝓤 _) $ await ! tt $ pick ! (λ r.'%A0); o.open+=1
o.e('split ! $ move ! (1 ∷ []) $ use1 W (some (λ (zs : Lasts order.ended (ν ∷ [], tt) %s). ‵ (lasts order.ended (ν ∷ [], tt) %s zs) ⊛ raw (fact 𝓤 (zs .0 ≡ in-order hs₀)))) (id⊢ 𝓤 _) $ pick ! (λ zs.'%(A0,A0)); o.open+=1
o.e('split ! $ move ! (1 ∷ []) $ heard ! (zs .0 ≡ in-order hs₀) (λ e. fsplit ! $ fsplit ! $ move ! (1 ∷ []) $ feqL ! (λ l.'); o.open+=2
o.head(1,'fin','r1','tokown'); o.move('tokown').e('split ! $').head(1,'tok','own'); o.move('own').e('feqL ! (λ un.').head(1); o.open+=1
o.e('land ! %s $'%o.to(16,'(unit-lands v un)'))
o.move('tok').e('split ! $ lft-end ! tt $').head(1,'dead','true'); back(o,'rs','dead','fin','(zs .0)','l')
o.forget(16,17,18).keep(inv).e('begins k ek yes (zs .0) e l')
# ---- the start
b=walk(inv)
simple(b,'Begin','begin','','goes-begin',[],[5,4,'(lit ! tt)','(lit ! tt)',6],'tt','‵ ftrue','(del, (c, (0, (0, (bud, tt)))))','x','Pending','P.the-row','(Begins del c 0 0 bud x)')
peeks(b,FROM,'P','','lands-from','x')
b.keep(inv).e('drives k ek yes hs₁ eh lh x (told x v is) e')
# ---- the driver
t=walk(inv)
t.reslice(19,20,1,'room₀')
t.assign(21,'(addr ! (from ! (hop ! (look ! %d refl) (stop !))))'%t.p('_2'),'(tt, tt)')
t.reslice(22,23,3,'room₂')
lend(t,'rs','ν₀','δ₀','hs₁','lh')
t.e('lft-new ! tt (λ ν₁.'); t.open+=1; t.head(0,'ν₁'); t.move('ps','lft1')
t.e('use2 W (later (some (λ (δ₁ : GName). ‵ (MutRef (named 1) (ν₁ ∷ []) (Array u16 24) .own (x₁ δ₁ ps₀) (vptr b₁ o₁ ∷ [])) ⊛ ‵ (LentRef (Array u16 24) κ₁ (ν₁ ∷ []) q₁ γ₁ b₁ o₁ δ₁ ps₀)))) (lends-ref-again 𝓤 H A W (Array u16 24) (named 1) κ₁ (ν₁ ∷ []) q₁ γ₁ b₁ o₁ (named 1) ps₀) $ await ! tt $ pick ! (λ δ₁. split ! $').head(2,'ps′','lentps'); t.open+=1
lend(t,'ms','ν₂','δ₂','m₀','refl')
t.e('nothing ! $').head(0,'true'); t.move('ν₂','true').e('join ! $').head(2,'k2'); t.move('ν₁','k2').e('join ! $').head(2,'k1'); t.move('ν₀','k1').e('join ! $').head(2,'tok')
t.move('ps′','ms′').e('join ! $').head(2,'two'); t.move('tok','rs′','two')
NU='(ν₀ ∷ [], (ν₁ ∷ [], (ν₂ ∷ [], tt)))'; ARG='(x₀ δ₀ hs₁, (x₁ δ₁ ps₀, (x₂ δ₂ m₀, (del, (bud, (x, tt))))))'
TO='(to-drive hs₁ %s δ₀ δ₁ δ₂ x)'%NU
t.e('use3 W (raw (Drive 𝓤 H A at-mem run .pre %s)) (goes-drive hs₁ %s δ₀ δ₁ δ₂ x g (run-stands del c ps₀ m₀ hs₀ k ek yes hs₁ eh bud x ex)) $'%(TO,NU)).head(3,'pre')
t.e('calls-at ! fm (Drive 𝓤 H A at-mem run) known-drive %s %s (λ v.'%(TO,t.opds(*[t.L(i) for i in (20,21,23,5,6,FROM)]))); t.open+=1
t.e('use1 W (later (some (λ (y : Pending). ((‵ (flft (ν₀ ∷ []) fullShare) ⊛ ‵ (flft (ν₁ ∷ []) fullShare) ⊛ ‵ (flft (ν₂ ∷ []) fullShare) ⊛ ‵ ftrue) ⊛ ‵ (P.the-row .own y (v ∷ []))) ⊛ raw (ensured 𝓤 H A drive.ended (drive.clauses 𝓤 H A at-mem run) %s %s tt y)))) (id⊢ 𝓤 _) $ await ! tt $ pick ! (λ y.'%(NU,ARG)); t.open+=1
SAYS='(Driven hs₁ x y (zs .0) (zs .1 .0) (zs .1 .1 .0))'
t.e('split ! $ move ! (1 ∷ []) $ use1 W (some (λ (zs : Lasts drive.ended {K} {A}). ‵ (lasts drive.ended {K} {A} zs) ⊛ raw (fact 𝓤 {s}))) (id⊢ 𝓤 _) $ pick ! (λ zs.'.format(K=NU,A=ARG,s=SAYS)); t.open+=1
t.e('split ! $ move ! (1 ∷ []) $ heard ! %s (λ e.'%SAYS); t.open+=1
t.head(1,'lasts','tokown')
t.e('fsplit ! $').head(1,'l0','L'); t.move('L').e('fsplit ! $').head(1,'res','L'); t.move('L').e('fsplit ! $').head(1,'l2','L')
t.e('fsplit ! $').head(1,'fin2','eq2'); t.move('eq2').e('feqL ! (λ k₂.').head(1); t.open+=1
t.move('l0').e('fsplit ! $').head(1,'fin0','eq0'); t.move('eq0').e('feqL ! (λ k₀.').head(1); t.open+=1
t.move('tokown').e('split ! $').head(1,'tok','own'); t.move('own'); peeks(t,X,'P','','lands-end','y')
t.move('tok').e('split ! $ lft-end ! tt $').head(1,'dead0','K'); t.move('K').e('split ! $ lft-end ! tt $').head(1,'dead1','K'); t.move('K').e('split ! $ lft-end ! tt $').head(1,'dead2','K')
back(t,'rs','dead0','fin0','(zs .0)','k₀')
t.move('dead1','lentps','res')
t.e('use3 W (later (‵ (prs (zs .1 .0)) ⊛ ‵ (flft κ₁ q₁))) (comes-ref-back 𝓤 H A W (Array u16 24) (named 1) κ₁ (ν₁ ∷ []) q₁ γ₁ b₁ o₁ δ₁ ps₀ (zs .1 .0)) $ await ! tt $ split ! $').head(3,'ps','lft1')
back(t,'ms','dead2','fin2','(zs .1 .1 .0)','k₂')
t.forget(FROM,19,20,21,22,23).keep(inv).e('finishes k ek yes hs₁ eh x ex y (zs .0) (zs .1 .0) (zs .1 .1 .0) (told y v is) (k₀ ∙ lh) k₂ e')
# ---- the answer
z=walk(inv)
R='del c ps₀ m₀ hs₀ k ek yes hs₁ eh bud x ex y hs ps m drives'
simple(z,'Finished','finished',' y','(goes-finished y g (can-finish %s (count-of y g)))'%R,[],[X,7],'tt','‵ ftrue','(y, (single, tt))','r','Answered','X.the-row','(Answers-with (y .reply) (y .core) (cond single (y .total + y .read) (y .total)) r)')
peeks(z,0,'X','-x','lands-x','r')
z.forget(X).keep(inv).e('leaves r hs ps m (told-x r v is) lh lm (run-runs %s single r e)'%R)
# ---- the return
l=walk(inv)
l.e('returns ! (look ! %d refl) $'%l.p('_0')).forget(*range(0,8)).frees(n).keep(HEADS).e('by ! (exits r hs ps m g lh lm e)')
T=open(HERE+'/run.tmpl').read()
for a_,b_ in {'ls':LS,'env':env(n,TYPES),'types':shut_text(n),'unfold-all':unfolds(*range(n)),'unfold-ask':unfolds(1,2,3,COUNT,12,13,14),'unfold-test':unfolds(TEST),'unfold-order':unfolds(1,16,17,18),'unfold-drive':unfolds(1,2,3,19,20,21,22,23),
  'walk':m.text(),'asks':a.text(),'decides':d.text(),'orders':o.text(),'begins':b.text(),'drives':t.text(),'finishes':z.text(),'leaves':l.text(),
  'atA':at('hs₀','ps₀','m₀',{}),'atD':at('hs₀','ps₀','m₀',{NO:'vint w8 k'}),'atB':at('hs₁','ps₀','m₀',{}),'atT':at('hs₁','ps₀','m₀',{FROM:'mach x'}),'atZ':at('hs','ps','m',{X:'mach y'}),'atL':at('hs','ps','m',{0:'mach-x r'}),
  'heads':' ∷ '.join(heads('hs','ps','m'))+' ∷ []'}.items(): T=T.replace('@%s@'%a_,b_)
assert '@' not in T, T[T.index('@')-40:][:100]
o_=sys.argv[1]+'/proofs/run'; os.makedirs(o_,exist_ok=True); open(o_+'/Proof.antt','w').write(T)
