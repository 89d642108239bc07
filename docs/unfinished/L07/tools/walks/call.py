# call.py CRATE: writes CRATE/proofs/call/Proof.antt, the walk of kuzhlemor_close's `call`: the host's record is opened, its array lent in place to `run`, and its other fields are stored.
import sys,os
from walker import *
HERE=os.path.dirname(os.path.abspath(__file__))
# locals: 1 the record, 2 the memory, 3 the records, 4 the budget, 5 single; 6 to 9 the record's fields, 10 the core, 11 the run's answer, 12 the fields; 13 to 17 what is lent
n=18
CORE,RAN,FIELDS=10,11,12
# types that are shut
TYPES=shut(n)
LS=' '.join(ln(i) for i in range(n))
HEADS=['cell','bor','obs','auth','lft1','lft2','mem','recs']
def heads(r,m,rs): return ['‵ (fat fullShare T′.mir b o (spelt-out %s))'%r,'‵ (fobor κ q (Body (mem T.the-row) b o γ))','‵ (fobs γ (T.the-row .coded .code h))','‵ (fauth γ (T.the-row .coded .code h))','‵ (flft κ₁ q₁)','‵ (flft κ₂ q₂)',m,rs]
base={1:'vptr b o',2:'sl₁',3:'sl₂',4:'vint w32 n',5:'vbool single'}
MEM,RECS='‵ (MutSlice (named 1) κ₁ u64 .own y (sl₁ ∷ []))','‵ (MutSlice (named 2) κ₂ R.the-row .own z (sl₂ ∷ []))'
inv=HEADS+locals_(n)
IN='          '
END=['obs','lft','lft1','lft2','mem','recs']+locals_(n)
NAMES=['a','dbr','ipr','prs','delivery']
def spot(w,k): return '(from ! (hop ! (look ! %d refl) (fld ! %s-at (stop !))))'%(w.p('_1'),NAMES[k])
def behind(w,k): return '(load ! %s (look-in ! %d (sub ! %d refl (whole !))))'%(spot(w,k),w.p('cell'),k)
def peeks(w,i,T,s,r):
    w.e('peeks ! {T}.the-row (Is {T}.the-row) (shows 𝓤 H A {T}.the-row) {r} (v ∷ []) (λ is.'.format(T=T,r=r)); w.open+=1
    w.e('land ! %s $ rewrite ! %d (λ (u : Val). ‵ (fat fullShare %s %s 0 u)) (tells%s %s v is) refl $'%(w.to(i,'(lands%s %s v is)'%(s,r)),w.p('_%d'%i),TYPES[i],ln(i),s,r))
# a call by value: its result and what it says, as `e`
def by_value(w,name,mod,arg,goes,ops,args,r,T,row,says):
    d=dict(N=name,m=mod,a=args,r=r,T=T,R=row,says=says,arg=arg)
    w.e('use0 W (raw ({N} 𝓤 H A at-mem run .pre (to-{m}{arg}))) {g} $'.format(g=goes,**d)).head(0,'pre')
    w.e('calls-at ! (fmOf 𝓤 H (W .laws) 𝓣) ({N} 𝓤 H A at-mem run) known-{m} (to-{m}{arg}) {o} (λ v.'.format(o=w.opds(*[w.L(i) for i in ops]),**d)); w.open+=1
    w.e('use1 W (later (some (λ ({r} : {T}). (‵ ftrue ⊛ ‵ ({R} .own {r} (v ∷ []))) ⊛ raw (ensured 𝓤 H A {m}.ended ({m}.clauses 𝓤 H A at-mem run) tt {a} tt {r})))) (id⊢ 𝓤 _) $ await ! tt $ pick ! (λ {r}.'.format(**d)); w.open+=1
    w.e('split ! $ move ! (1 ∷ []) $ use1 W (raw (fact 𝓤 {says})) (of-{m}{arg} {r}) $ heard ! {says} (λ e. split ! $ drop ! $'.format(**d)); w.open+=1
    w.head(1,'own')
# ---- up to the core
w=Walk(['tok','owns'])
w.e('qed W ((‵ (flft κ q) ⊛ ‵ (flft κ₁ q₁) ⊛ ‵ (flft κ₂ q₂) ⊛ ‵ ftrue) ∷ ‵ (owns (MutRef (named 0) κ T.the-row ∷ MutSlice (named 1) κ₁ u64 ∷ MutSlice (named 2) κ₂ R.the-row ∷ u32 ∷ bool ∷ []) (x, (y, (z, (n, (single, tt))))) vals) ∷ []) ∵ enter ! (𝓣 .C) (𝓣 .Λ) code.function _ _ $')
w.allocs(n)
SL='(tt, (tt, (record { fits = %s .0 }, tt)))'
for i,t in enumerate(['(tt, tt)',SL%'room₁',SL%'room₂','(tt, record { fits = fits })','(tt, tt)']): w.e('pass1 ! (init ! %d refl %s) $'%(w.p('_%d'%(i+1)),t))
w.e('pass0 ! $')
w.e('-- the borrow of the record is opened')
w.move('owns').e('fsplit ! $ fsplit3 ! $ drop ! $').head(1,'obs','bor','R'); w.move('tok').e('split ! $').head(1,'lft','K'); w.move('obs','bor','lft')
w.e('opens ! tt T.the-row {h = h} b o (λ vs. spelt ! T.the-row (Is T.the-row) (shows 𝓤 H A T.the-row) (LL.vals T.the-type T′.the-laws) (LL.tells T.the-type T′.the-laws) fullShare h vs b o $'); w.open+=1
w.head(3,'cell','own','bor','obs','auth'); w.move('own').e('peeks ! T.the-row (Is T.the-row) (shows 𝓤 H A T.the-row) h (record-value h ∷ []) (λ g. drop ! $').head(1); w.open+=1
w.e('use1 W (‵ (fat fullShare T′.mir b o (record-value h))) (W .laws .raw-at fullShare T′.mir b o (record-value h)) $')
w.e('rewrite ! 0 (λ (u : Val). ‵ (fat fullShare T′.mir b o u)) (record-is h) refl $')
w.move('K').e('split ! $').head(1,'lft1','K'); w.move('K').e('split ! $').head(1,'lft2','K'); w.move('R').e('fsplit ! $').head(1,'mem','R'); w.move('R').e('fsplit ! $').head(1,'recs','R')
w.keep(inv).e('reads %s g'%LS)
# ---- the fields are read, and made a core
first=w
w=Walk(inv,IN)
for i,k,t in [(6,0,'a'),(7,1,'dbr'),(8,2,'ipr'),(9,4,'delivery')]:
    w.assign(i,'(of-opd ! %s)'%behind(w,k),'(typed-%s (h .%s) (%s-is h g))'%(t,t,t))
by_value(w,'CoreFrom','core','','(goes-core g)',[6,7,8],'(h .a, (h .dbr, (h .ipr, tt)))','c','Core','C.the-row','(Core-from (h .a) (h .dbr) (h .ipr) c)')
peeks(w,CORE,'C','-c','c')
w.forget(6,7,8).keep(inv).e('runs-it g c (told-c c v is) e')
# ---- the run
m=Walk(inv,IN)
m.reslice(13,14,3,'room₂')
m.assign(15,'(addr ! %s)'%spot(m,3),'(tt, tt)')
m.reslice(16,17,2,'room₁')
m.e('-- the array is lent in place, for a lifetime ν of the call')
m.e('lft-new ! tt (λ ν.'); m.open+=1; m.head(0,'ν')
m.e('owned ! (Array u16 24) Prs (array-makes 𝓤 H A W u16 (uint-makes 𝓤 H A W w16) 24) (h .prs) _ (array-alone h g) $').head(0,'arr'); m.move('cell','arr')
m.e('use2 W (later (some (λ (δ : GName). ‵ (MutRef (named 1) (ν ∷ []) (Array u16 24) .own (prs δ) (ptr-vals (prs δ))) ⊛ Rest W u16 24 in-place (ν ∷ []) δ))) (lends-part W u16 24 in-place (ν ∷ []) (named 1) (h .prs)) $ await ! tt $ pick ! (λ δ. split ! $').head(2,'ref','kept'); m.open+=1
m.e('nothing ! $').head(0,'true'); m.move('lft1','true').e('join ! $').head(2,'K'); m.move('ν','K').e('join ! $').head(2,'K'); m.move('lft2','K').e('join ! $').head(2,'tok')
m.move('ref','mem').e('join ! $').head(2,'two'); m.move('tok','recs','two')
m.e('use3 W (raw (Run 𝓤 H A at-mem run .pre (to-run (ν ∷ []) δ c))) (goes-run (ν ∷ []) δ c g gc fits) $').head(3,'pre')
m.e('calls-at ! (fmOf 𝓤 H (W .laws) 𝓣) (Run 𝓤 H A at-mem run) known-run (to-run (ν ∷ []) δ c) %s (λ v.'%m.opds(*[m.L(i) for i in (14,15,17,CORE,9,4,5)])); m.open+=1
K='(κ₂, (ν ∷ [], (κ₁, tt)))'; A='(to-run (ν ∷ []) δ c .0 .3)'
m.e('use1 W (later (some (λ (r : Answered). ((‵ (flft κ₂ q₂) ⊛ ‵ (flft (ν ∷ []) fullShare) ⊛ ‵ (flft κ₁ q₁) ⊛ ‵ ftrue) ⊛ ‵ (S.the-row .own r (v ∷ []))) ⊛ raw (ensured 𝓤 H A ran.ended (ran.clauses 𝓤 H A at-mem run) %s %s tt r)))) (id⊢ 𝓤 _) $ await ! tt $ pick ! (λ r.'%(K,A)); m.open+=1
SAYS='(Ran c r (zs .1 .0) (zs .1 .1 .0) (zs .0))'
m.e('split ! $ move ! (1 ∷ []) $ use1 W (some (λ (zs : Lasts ran.ended {K} {A}). ‵ (lasts ran.ended {K} {A} zs) ⊛ raw (fact 𝓤 {s}))) (id⊢ 𝓤 _) $ pick ! (λ zs.'.format(K=K,A=A,s=SAYS)); m.open+=1
m.e('split ! $ move ! (1 ∷ []) $ heard ! %s (λ e.'%SAYS); m.open+=1
m.head(1,'lasts','tokown')
m.e('fsplit ! $').head(1,'l0','L'); m.e('fsplit ! $').head(1,'recs','eq'); m.move('eq').e('feqL ! (λ k₂.').head(1); m.open+=1
m.move('L').e('fsplit ! $').head(1,'res','L'); m.move('L').e('fsplit ! $').head(1,'l2','L'); m.e('fsplit ! $').head(1,'mem','eq'); m.move('eq').e('feqL ! (λ k₁.').head(1); m.open+=1
m.move('tokown').e('split ! $').head(1,'tok','own'); m.move('own'); peeks(m,RAN,'S','-x','r')
m.e('-- the lifetime is ended, and the array is put back')
m.move('tok').e('split ! $').head(1,'lft2','K'); m.move('K').e('split ! $ lft-end ! tt $').head(1,'dead','K'); m.move('K').e('split ! $').head(1,'lft1','K')
m.move('dead','kept','res')
PS='(zs .1 .0)'
m.e('use3 W (later (‵ (fat fullShare T′.mir b o (spelt-out (h .a) (h .dbr) (h .ipr) {p} (h .delivery))) ⊛ ‵ (Array u16 24 .own {p} (array-value {p} ∷ [])))) (comes-part W u16 24 in-place (ν ∷ []) δ {p} (array-value {p}) (array-tells {p})) $ await ! tt $ split ! $'.format(p=PS)).head(3,'cell','arr')
m.move('arr').e('peeks ! (Array u16 24) Prs (shows 𝓤 H A (Array u16 24)) {p} (array-value {p} ∷ []) (λ gs.'.format(p=PS)); m.open+=1
m.forget(9,CORE,13,14,15,16,17).keep(inv).e('stores g c made r (told-x r v is) %s (zs .1 .1 .0) (zs .0) gs e k₁ k₂'%PS)
# ---- the fields
s=Walk(inv,IN)
by_value(s,'FieldsOf','fields',' r','(goes-fields r gr (can-field (h .a) (h .dbr) (h .ipr) (h .delivery) (h .prs) (y .now) (z .now) c made single n r ps ms rs e₁))',[RAN],'(r, tt)','d','Fields','F.the-row','(Fields-of r d)')
peeks(s,FIELDS,'F','-f','d')
s.forget(RAN).keep(inv).e('ends-a g c made r ps ms rs gs e₁ l₁ₘ l₂ₘ d v is e')
# ---- the stores, a lemma each: the record so far, and the next lemma
stores=s
ARGS='g c made r ps ms rs gs e₁ l₁ₘ l₂ₘ d v is e'
STEPS=[(0,1,'a','(d .a) (h .dbr) (h .ipr)'),(1,2,'dbr','(d .a) (d .dbr) (h .ipr)'),(2,3,'ipr','(d .a) (d .dbr) (d .ipr)')]
ends={}
for k,j,t,_ in STEPS:
    s=Walk(inv,IN)
    s.e('assigns ! (of-opd ! %s) %s (store-in ! %d (sub ! %d refl (whole !)) (typed-%s (d .%s) (field-%s d v is))) $'%(s.L(FIELDS,j),spot(s,k),s.p('cell'),k,t,t,t))
    s.keep(inv).e('%s %s'%({'a':'ends-dbr','dbr':'ends-ipr','ipr':'closing'}[t],ARGS)); ends[t]=s.text()
s=Walk(inv,IN)
s.assign(0,'(of-opd ! %s)'%s.L(FIELDS,0),'(typed-answer (d .answer) (answer-of d v is))')
s.e('-- the borrow is closed at the new record')
LEFT='(left (h .delivery) d ps)'
s.move('cell').e('rewrite ! 0 (λ (u : Val). ‵ (fat fullShare T′.mir b o u)) (sym (record-is {l})) refl $ use1 W (‵ (cellAt fullShare (T.the-row .mir) (record-value {l} ∷ []) b o)) (W .laws .at-raw fullShare T′.mir b o (record-value {l})) $ owned ! T.the-row (Is T.the-row) (LL.makes T.the-type T′.the-plain 𝓤 H A) {l} _ (related d ps v g is gs) $'.format(l=LEFT)).head(0,'ownreg')
s.move('cell','ownreg','bor','obs','auth').e('closes ! tt T.the-row {l} (record-value {l} ∷ []) b o $'.format(l=LEFT)).head(5,'obs','bor','lft')
s.forget(FIELDS).keep(END).e('leaves (d .answer) {l} ms rs (answer-of d v is) (call-says (h .a) (h .dbr) (h .ipr) (h .delivery) (h .prs) (y .now) (z .now) c made single n r ps ms rs e₁ d e) l₁ₘ l₂ₘ'.format(l=LEFT))
# ---- the return
t=Walk(END,IN)
t.e('returns ! (look ! %d refl) $'%t.p('_0')).forget(0,1,2,3,4,5).frees(n)
t.e('by ! (exits r h′ ms rs gr e l₁ₘ l₂ₘ)')
T=open(HERE+'/call.tmpl').read()
def at(r,mm,rs,live): return ctx(heads(r,mm,rs),n,{**base,**live},TYPES)
for a,b in {'types':shut_text(n),'unfold-all':unfolds(*range(n)),'unfold-read':unfolds(1,6,7,8,9),'unfold-lent':unfolds(1,2,3,13,14,15,16,17),'unfold-fields':unfolds(1,FIELDS),'ls':LS,'env':env(n,TYPES),'walk':first.text(),'cores':w.text(),'runs':m.text(),'stores':stores.text(),'closing':s.text(),**{'ends-'+t:x for t,x in ends.items()},'leaves':t.text(),
  'atB':at('(h .a) (h .dbr) (h .ipr) (h .prs) (h .delivery)',MEM,RECS,{}),
  'atR':at('(h .a) (h .dbr) (h .ipr) (h .prs) (h .delivery)',MEM,RECS,{9:'delivery-value (h .delivery)',CORE:'mach-c c'}),
  'atF':at('(h .a) (h .dbr) (h .ipr) ps (h .delivery)','‵ (finally u64 (y .name) ms)','‵ (finally R.the-row (z .name) rs)',{RAN:'mach-x r'}),
  **{'atE-'+t:at(r,'‵ (finally u64 (y .name) ms)','‵ (finally R.the-row (z .name) rs)',{FIELDS:'mach-f d'}) for t,r in [('a','(h .a) (h .dbr) (h .ipr) ps (h .delivery)')]+[(STEPS[i+1][2] if i<2 else 'answer','%s ps (h .delivery)'%STEPS[i][3]) for i in range(3)]},
  'atL':ctx(['‵ (fobs γ (T.the-row .coded .code h′))','‵ (flft κ q)','‵ (flft κ₁ q₁)','‵ (flft κ₂ q₂)','‵ (finally u64 (y .name) ms)','‵ (finally R.the-row (z .name) rs)'],n,{**base,0:'answer-value r'},TYPES)}.items(): T=T.replace('@%s@'%a,b)
assert '@' not in T, T[T.index('@')-40:][:100]
o=sys.argv[1]+'/proofs/call'; os.makedirs(o,exist_ok=True); open(o+'/Proof.antt','w').write(T)
