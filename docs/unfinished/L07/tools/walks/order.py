# order.py CRATE: the proof of `order`: `count_all` on the records lent again, then `number`. Its text is look_up's template with other names
import sys,os,re
from walker import *
n=9
L_=' '.join(ln(i) for i in range(n))
src=open('lookup.py').read(); exec(src[src.index('def relend'):src.index("w=Walk(['tok','owns'])")])
w=Walk(['tok','owns'])
w.e('qed W ((‵ (flft κ q) ⊛ ‵ ftrue) ∷ ‵ (owns (MutSlice (named 0) κ T.the-row ∷ []) a vals) ∷ []) ∵ enter ! C Λ code.function (sl ∷ []) _ $')
w.allocs(n)
w.e('pass1 ! (init ! %d refl (tt, (tt, (record { fits = room .0 }, tt)))) $ pass0 ! $'%w.p('_1'))
w.reslice(3,4,1,'room')
w.e('use0 W (raw (Empty 𝓤 H A at-mem run .pre to-empty)) goes-empty $').head(0,'pre')
w.e('calls-at ! fm (Empty 𝓤 H A at-mem run) known-empty to-empty (no-more !) (λ v.'); w.open+=1
w.e('use1 W (later (some (λ (c : Search). (‵ ftrue ⊛ ‵ (S.the-row .own c (v ∷ []))) ⊛ raw (ensured 𝓤 H A empties.ended (empties.clauses 𝓤 H A at-mem run) tt tt tt c)))) (id⊢ 𝓤 _) $ await ! tt $ pick ! (λ c.'); w.open+=1
w.e('split ! $ move ! (1 ∷ []) $ use1 W (raw (fact 𝓤 (c ≡ no-tally))) (of-empty c) $ heard ! (c ≡ no-tally) (λ e₀. split ! $ drop ! $'); w.open+=1
w.e('peeks ! S.the-row (Is S.the-row) (shows 𝓤 H A S.the-row) c (v ∷ []) (λ is₀.'); w.open+=1; w.head(1,'own')
w.e('land ! %s $ rewrite ! %d (λ (u : Val). ‵ (fat fullShare S′.mir %s 0 u)) (ap only (LL.tells S.the-type S′.the-laws c _ is₀)) refl $ drop ! $'%(w.to(5,'(LL.lawful S.the-type S′.the-laws 𝓤 H A W .typed c _ is₀ .0)'),w.p('_5'),ln(5))).head(1)
w.move('owns').e('fsplit ! $').head(1,'slice','rest'); w.move('tok').e('split ! $').head(1,'lft','true'); w.move('true').e('drop ! $').head(1)
relend(w,'ys','ν','δ')
pre(w,'Find','(to-find (ν ∷ []) fullShare δ c)','(goes-find (ν ∷ []) fullShare δ c (told c v is₀))',tok='ν')
w.e('calls-at ! fm (Find 𝓤 H A at-mem run) known-find (to-find (ν ∷ []) fullShare δ c) %s (λ w₁.'%w.opds(w.L(4),w.L(5))); w.open+=1
A1='(x δ ys, (c, tt))'
w.e('use1 W (later (some (λ (r : Search). ((‵ (flft (ν ∷ []) fullShare) ⊛ ‵ ftrue) ⊛ ‵ (S.the-row .own r (w₁ ∷ []))) ⊛ raw (ensured 𝓤 H A finds.ended (finds.clauses 𝓤 H A at-mem run) (ν ∷ [], tt) %s tt r)))) (id⊢ 𝓤 _) $ await ! tt $ pick ! (λ s.'%A1); w.open+=1
w.e('split ! $ move ! (1 ∷ []) $ use1 W (some (λ (zs : Lasts finds.ended (ν ∷ [], tt) %s). ‵ (lasts finds.ended (ν ∷ [], tt) %s zs) ⊛ raw (fact 𝓤 ((s ≡ tallied-all c ys) × (zs .0 ≡ ys))))) (id⊢ 𝓤 _) $ pick ! (λ zs₁.'%(A1,A1)); w.open+=1
w.e('split ! $ move ! (1 ∷ []) $ heard ! ((s ≡ tallied-all c ys) × (zs₁ .0 ≡ ys)) (λ e₁. fsplit ! $ fsplit ! $ move ! (1 ∷ []) $ feqL ! (λ k₁.'); w.open+=2
w.head(1,'fin','r1','tokown'); w.move('tokown').e('split ! $').head(1,'tok1','own1'); w.move('own1')
w.e('peeks ! S.the-row (Is S.the-row) (shows 𝓤 H A S.the-row) s (w₁ ∷ []) (λ is.'); w.open+=1
w.e('land ! %s $ rewrite ! %d (λ (u : Val). ‵ (fat fullShare S′.mir %s 0 u)) (ap only (LL.tells S.the-type S′.the-laws s _ is)) refl $'%(w.to(2,'(LL.lawful S.the-type S′.the-laws 𝓤 H A W .typed s _ is .0)'),w.p('_2'),ln(2)))
w.move('tok1').e('split ! $ lft-end ! tt $').head(1,'dead','true'); w.move('dead','lent','fin')
w.e('use3 W (later (‵ (MutSlice (named 0) κ T.the-row .own (x γ (zs₁ .0)) (sl ∷ [])) ⊛ ‵ (flft κ q))) (comes-back T.the-row κ (ν ∷ []) q γ b o 𝓤 H A W (named 0) (named 0) ys δ (zs₁ .0) room k₁) $ await ! tt $ split ! $').head(3,'slice','lft')
w.e('rewrite ! 0 (λ (l : List Record). ‵ (MutSlice (named 0) κ T.the-row .own (x γ l) (sl ∷ []))) (e₁ .1) refl $')
w.forget(3,4,5).keep(['slice','lft']+locals_(n))
w.e('tail %s s (told s w₁ is) (e₁ .0 ∙ ap (λ (d : Search). tallied-all d ys) e₀)'%L_)
t=Walk(['slice','lft']+locals_(n))
t.reslice(7,8,1,'room')
relend(t,'ys','ν','δ')
pre(t,'Touch','(to-touches (ν ∷ []) fullShare δ s)','(goes-touches (ν ∷ []) fullShare δ s g)',tok='ν')
t.e('calls-at ! fm (Touch 𝓤 H A at-mem run) known-touch (to-touches (ν ∷ []) fullShare δ s) %s (λ w₂.'%t.opds(t.L(8),t.L(2))); t.open+=1
A2='(x δ ys, (s, tt))'
t.e('use1 W (later (some (λ (r : Unit {0}). ((‵ (flft (ν ∷ []) fullShare) ⊛ ‵ ftrue) ⊛ ‵ (unit .own r (w₂ ∷ []))) ⊛ raw (ensured 𝓤 H A touches.ended (touches.clauses 𝓤 H A at-mem run) (ν ∷ [], tt) %s tt r)))) (id⊢ 𝓤 _) $ await ! tt $ pick ! (λ r.'%A2); t.open+=1
t.e('split ! $ move ! (1 ∷ []) $ use1 W (some (λ (zs : Lasts touches.ended (ν ∷ [], tt) %s). ‵ (lasts touches.ended (ν ∷ [], tt) %s zs) ⊛ raw (fact 𝓤 (zs .0 ≡ numbered-from s 0 ys)))) (id⊢ 𝓤 _) $ pick ! (λ zs.'%(A2,A2)); t.open+=1
t.e('split ! $ move ! (1 ∷ []) $ heard ! (zs .0 ≡ numbered-from s 0 ys) (λ e. fsplit ! $ fsplit ! $ move ! (1 ∷ []) $ feqL ! (λ k.'); t.open+=2
t.head(1,'fin','r2','tokown'); t.move('tokown').e('split ! $').head(1,'tok','own'); t.move('own').e('feqL ! (λ un.').head(1); t.open+=1
t.e('land ! %s $'%t.to(6,'(subst (λ (u : Val). Holds (hasTy tyUnit u) × WT u) (sym (ap only un)) (tt, tt))'))
t.move('tok').e('split ! $ lft-end ! tt $').head(1,'dead','true'); t.move('dead','lent','fin')
t.e('use3 W (later (‵ (MutSlice (named 0) κ T.the-row .own (x γ (zs .0)) (sl ∷ [])) ⊛ ‵ (flft κ q))) (comes-back T.the-row κ (ν ∷ []) q γ b o 𝓤 H A W (named 0) (named 0) ys δ (zs .0) room k) $ await ! tt $ split ! $').head(3,'slice','lft')
t.assign(0,'(of-opd ! (unit-lit !))','(tt, tt)')
t.e('returns ! (look ! %d refl) $'%t.p('_0')).forget(0,1,2,6,7,8).frees(n).keep(['slice','lft'])
t.e('by ! (exits (zs .0) (ordered s ys (zs .0) e₁ e) k)')
T=open('lookup.tmpl').read()
def cut(a,b,new):
    global T
    i=T.index(a); j=T.index(b,i); T=T[:i]+new+T[j:]
def sub(a,b):
    global T
    assert a in T,a
    T=T.replace(a,b)
cut('-- `look_up` meets','\n',"-- `order` meets its contract: a walk of its MIR, by hand. The records are lent again to `count_all`, come back, and are lent again to `number`.")
sub('use1, use2','use0, use1, use2')
T=re.sub(r'use Rattle·lookup·specs.specs.Lookup.\{[^}]*\}','use Rattle·lookup·specs.specs.Lookup.{tallied-all, numbered-from, no-tally, in-order}',T)
sub('use Rattle·lookup·proofs.proofs.Looks.{stale-says, other-says}','use Rattle·lookup·proofs.proofs.Counts.{ordered}')
T=T.replace('proofs.find','proofs.count_all').replace('#lookup·find','#lookup·count-all').replace('proofs.touch','proofs.number').replace('#lookup·touch','#lookup·number').replace('calls-lookup·find','calls-lookup·count-all').replace('calls-lookup·touch','calls-lookup·number').replace('proofs.look_up','proofs.order').replace('lookup·look-up','lookup·order').replace('look-up-spec','order-spec')
sub('use Rattle·lookup·proofs.proofs.count_all as finds\n','''use Rattle·lookup·proofs.proofs.empty_tally as empties
use Rattle·lookup·proofs.proofs.empty_tally.Symbol as empty-symbol
use Rattle·lookup·proofs.proofs.empty_tally.Symbol.{name as #lookup·empty-tally}
use Rattle·lookup·proofs.proofs.empty_tally.Met as empty-met
use Rattle·lookup·proofs.proofs.count_all as finds
''')
sub(', (stay-none (λ _. u16) yes, tt))',', tt)')
sub('  abbrev Find : Contract 𝓤','''  abbrev Empty : Contract 𝓤
  Empty = tripleOf 𝓤 H A empties.signature (empties.spec 𝓤 H A at-mem run)

  abbrev Find : Contract 𝓤''')
sub('(seg : ℕ) (gseg : seg < 2 ^ 16) ','')
sub('a : RefT (List Record) × (ℕ × Unit {0})','a : RefT (List Record) × Unit {0}'); sub('(x γ ys, (seg, tt))','(x γ ys, tt)'); sub('(sl ∷ [], (vint w16 seg ∷ [], tt))','(sl ∷ [], tt)')
cut('  abbrev start : Search','  typed-s :','')
cut('  exits : (s : Search)','  -- the calls','''  exits : (zs : List Record) → zs ≡ in-order ys → length zs ≡ length ys
      → ent 𝓤 (⋆ 𝓤 H A (‵ (MutSlice (named 0) κ T.the-row .own (x γ zs) (sl ∷ [])) ∷ ‵ (flft κ q) ∷ [])) (Post vunit)
  exits zs e l =
      qed W (‵ (MutSlice (named 0) κ T.the-row .own (x γ zs) (sl ∷ [])) ∷ ‵ (flft κ q) ∷ []) ∵
      suffices ! _ (ends-at 𝓤 H A f.ended stayed (f.clauses 𝓤 H A at-mem run) W (((κ, tt), (q, tt), tt, a, vals), tt) vunit tt (zs, tt) (l, tt)) $ says ! e $
      nothing ! $ move ! (2 ∷ 0 ∷ []) $ join ! $ frame ! $ nothing ! $ move ! (1 ∷ 0 ∷ []) $ fjoin ! $ frame ! $ feqI ! (List Val) (vunit ∷ []) (vunit ∷ []) refl $ done !

''')
cut('  abbrev to-find :','  abbrev to-touches','''  abbrev to-empty : Empty 𝓤 H A at-mem run .Ghost
  to-empty = ((tt, tt, tt, tt, tt), tt)

  goes-empty : ent 𝓤 (emp 𝓤) (Empty 𝓤 H A at-mem run .pre to-empty)
  goes-empty = qed W [] ∵ nothing ! $ nothing ! $ join ! $ frame ! $ done !

  of-empty : (c : Search) → ent 𝓤 (ensured 𝓤 H A empties.ended (empties.clauses 𝓤 H A at-mem run) tt tt tt c) (fact 𝓤 (c ≡ no-tally))
  of-empty c = exE 𝓤 _ (λ ws. snd∗ 𝓤 (sem 𝓤 H A (lasts empties.ended tt tt ws)) (fact 𝓤 (c ≡ no-tally)))

  abbrev to-find : Lft → Share → GName → Search → Find 𝓤 H A at-mem run .Ghost
  to-find λ′ p δ c = (((λ′, tt), (p, tt), tt, (x δ ys, (c, tt)), (sl ∷ [], (mach-s c ∷ [], tt))), tt)

  goes-find : (λ′ : Lft) (p : Share) (δ : GName) (c : Search) → Fits c → ent 𝓤 (⋆ 𝓤 H A ((‵ (flft λ′ p) ⊛ ‵ ftrue) ∷ ‵ (MutSlice (named 0) λ′ T.the-row .own (x δ ys) (sl ∷ [])) ∷ [])) (Find 𝓤 H A at-mem run .pre (to-find λ′ p δ c))
  goes-find λ′ p δ c g =
      qed W ((‵ (flft λ′ p) ⊛ ‵ ftrue) ∷ ‵ (MutSlice (named 0) λ′ T.the-row .own (x δ ys) (sl ∷ [])) ∷ []) ∵ nothing ! $
      owned ! S.the-row (Is S.the-row) (LL.makes S.the-type S′.the-plain 𝓤 H A) c _ g $ fjoin ! $ move ! (2 ∷ 0 ∷ []) $ fjoin ! $ move ! (1 ∷ 0 ∷ []) $ join ! $ frame ! $ done !

''')
T=T.replace(' (known-find : Triple 𝓤 (C #',' (known-empty : Triple 𝓤 (C #lookup·empty-tally) (Empty 𝓤 H A at-mem run)) (known-find : Triple 𝓤 (C #').replace(' (known-find : Triple 𝓤 (𝓣 .C #',' (known-empty : Triple 𝓤 (𝓣 .C #lookup·empty-tally) (Empty 𝓤 H A at-mem run)) (known-find : Triple 𝓤 (𝓣 .C #').replace('𝓣) known-find','𝓣) known-empty known-find')
cut('      -- the end\n','      -- after the search','')
cut('      tail : (s : Search)','        @tail@','''      tail : (s : Search) → Fits s → s ≡ tallied-all no-tally ys → Sq W (@at@) (runs C Λ En pieces.t-5 (atRet En Post))
      tail s g e₁ =
''')
sub('(sl ∷ vint w16 seg ∷ [])','(sl ∷ [])'); sub('(λ κs. (slice-vals, (uint-vals w16, tt)))','(λ κs. (slice-vals, tt))'); sub(', (uint-tells w16, tt))',', tt)'); sub('(a .1 .0) (are .1 .0 .1) (are .0 .0 .1)','(are .0 .0 .1)'); sub(', (goes-none 𝓤 H A W 1 (λ _. u16) yes (λ κs x f. refl), tt))',', tt)')
sub('    (cited 𝓤 H (Find','    (cited 𝓤 H (Empty 𝓤 H (𝓖 .A) (𝓜 .mem) (𝓡 .run)) 𝓜 𝓡 code.env #lookup·empty-tally empty-symbol.routine code.calls-lookup·empty-tally (empty-met.met 𝓤 H 𝓜 𝓖 𝓡))\n    (cited 𝓤 H (Find')
T=T.replace('refl, sym, ap, subst}','refl, sym, _∙_, ap, subst}')
T=T.replace('@walk@',w.text()).replace('@tail@',t.text()).replace('@ls@',L_).replace('@env@',env(n)).replace('@at@',ctx(['‵ (MutSlice (named 0) κ T.the-row .own (x γ ys) (sl ∷ []))','‵ (flft κ q)'],n,{1:'sl',2:'mach-s s'}))
T=T.replace('Search','Tally').replace('after the search','after the count')
d=sys.argv[1]+'/proofs/order'; os.makedirs(d,exist_ok=True); open(d+'/Proof.antt','w').write(T)
