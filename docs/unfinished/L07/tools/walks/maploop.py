# maploop.py: the proofs of `fn F(records: &mut [Record], s: Search) { let mut i = 0; while i < records.len() { records[i] = G(s, records[i]); i = i + 1; } }`, or without s
import sys
from walker import *
CRATE='lookup'
def gen(F, G, spec, arg, index=False):
    fdash,gdash=F.replace('_','-'),G.replace('_','-')
    n=11 if arg else 10
    k=1 if arg else 0            # locals after the parameters are one further on
    I,N,Bq,RES,P1,EL,O2,P2=2+k,3+k,4+k,5+k,6+k,7+k,8+k,9+k
    f='(%s s)'%spec if arg else spec
    At_locals={1:'sliceVal (b, o) (length ys)', I:'vint w64 (i .0)'}
    if arg: At_locals[2]='mach-s s'
    def item(i):
        v=At_locals.get(i)
        c='‵ (froom (ty %d) %s 0)'%(i,ln(i)) if v is None else '‵ (fat fullShare (ty %d) %s 0 (%s))'%(i,ln(i),v)
        return c+' ∷ ‵ (fdies (ty %d) %s)'%(i,ln(i))
    at='‵ (row T.the-row fullShare (upto (i .0)) b o) ∷ ‵ (fobor κ q (Held T.the-row (length ys) b o γ)) ∷ ‵ (fobs γ (codedHoleys T.the-row .code (heres T.the-row ys))) ∷ ‵ (fauth γ (codedHoleys T.the-row .code (heres T.the-row ys))) ∷ '+' ∷ '.join(item(i) for i in reversed(range(n)))+' ∷ []'
    inv=['row','obor','obs','auth']+locals_(n)
    ls=' '.join(ln(i) for i in range(n))
    env=' ∷ '.join('(ty %d, %s)'%(i,ln(i)) for i in range(n))+' ∷ []'
    # ---- a turn
    w=Walk(inv,'        ')
    w.assign(N,'(of-opd ! %s)'%w.L(1,1),'(tt, record { fits = room .0 })')
    w.assign(Bq,'(bin ! %s %s tt)'%(w.L(I),w.L(N)),'(tt, tt)')
    w.e('first ! $ branches ! %s'%w.L(Bq))
    t=Walk(w.c)
    t.e('(λ less. skips ! $ exec ! C Λ En (after 3 pieces.turn-1) (anyQ (Turned i)) $')
    t.assign(N,'(bin ! %s (lit ! tt) (record { fits = place-fits less }))'%t.L(I),'(tt, record { fits = place-fits less })',first=False)
    t.offset(P1,1,N,'(i .0)','o')
    t.e('elem-out ! T.the-row (Is T.the-row) (shows 𝓤 H A T.the-row) (LL.vals T.the-type T′.the-laws) (LL.tells T.the-type T′.the-laws) fullShare (upto (i .0)) (i .0) no-record b o (inside less) (λ g.'); t.open+=1
    t.head(1,'cell','own','others')
    t.assign(EL,'(of-opd ! (load ! (from ! (hop ! (look ! %d refl) (stop !))) (look-raw ! 0 refl)))'%t.p('_%d'%P1),'(typed (elem (i .0)) g)')
    t.e('use0 W (raw (Core 𝓤 H A at-mem run .pre (to-core (elem (i .0))))) (goes (elem (i .0)) g) $'); t.head(0,'pre')
    t.e('calls-at ! fm (Core 𝓤 H A at-mem run) known (to-core (elem (i .0))) %s (λ w.'%(t.opds(t.L(2),t.L(I),t.L(EL)) if index else t.opds(t.L(2),t.L(EL)) if arg else t.opds(t.L(EL)))); t.open+=1
    t.e('use1 W (later (some (λ (r : Record). (‵ ftrue ⊛ ‵ (T.the-row .own r (w ∷ []))) ⊛ raw (ensured 𝓤 H A core.ended (core.clauses 𝓤 H A at-mem run) tt %s tt r)))) (id⊢ 𝓤 _) $ await ! tt $ pick ! (λ r.'%('(s, (elem (i .0), tt))' if arg else '(elem (i .0), tt)')); t.open+=1
    t.e('split ! $ move ! (1 ∷ []) $ use1 W (raw (fact 𝓤 (r ≡ %s (elem (i .0))))) (of-core (elem (i .0)) r) $ heard ! (r ≡ %s (elem (i .0))) (λ e. split ! $ drop ! $'%(f,f)); t.open+=1
    t.e('peeks ! T.the-row (Is T.the-row) (shows 𝓤 H A T.the-row) r (w ∷ []) (λ is.'); t.open+=1
    t.head(1,'ownr')
    t.e('land ! %s $ rewrite ! %d (λ (u : Val). ‵ (fat fullShare T′.mir %s 0 u)) (ap only (LL.tells T.the-type T′.the-laws r _ is)) refl $ drop ! $'%(t.to(RES,'(LL.lawful T.the-type T′.the-laws 𝓤 H A W .typed r _ is .0)'),t.p('_%d'%RES),ln(RES)))
    t.head(1)
    t.assign(O2,'(bin ! %s (lit ! tt) (record { fits = place-fits less }))'%t.L(I),'(tt, record { fits = place-fits less })')
    t.offset(P2,1,O2,'(i .0)','o')
    t.e('assigns ! (of-opd ! %s) (from ! (hop ! (look ! %d refl) (stop !))) (store-raw ! 0 refl (typed r (told r w is))) $'%(t.L(RES),t.p('_%d'%P2)))
    t.move('own'); t.e('drop ! $ owned ! T.the-row (Is T.the-row) (LL.makes T.the-type T′.the-plain 𝓤 H A) r _ (told r w is) $'); t.head(1,'own'); t.move('cell','own')
    t.e('elem-put ! T.the-row fullShare (upto (i .0)) (i .0) r (mach r ∷ []) b o (inside less) $'); t.head(3,'row')
    t.assign(I,'(bin ! %s (lit ! tt) (record { fits = next-fits less }))'%t.L(I),'(tt, record { fits = next-fits less })',first=False,last=True)
    t.forget(N,Bq,RES,P1,EL,O2,P2)
    t.e('rewrite ! 0 (λ (l : List Record). ‵ (row T.the-row fullShare l b o)) (one-turn %s (i .0) no-record r ys e) refl $'%f)
    t.keep(inv); t.e('again ! Nearer At i (next less) (add-one-dec (length ys) (i .0) (ltb→lt (i .0) (length ys) less)))')
    w.e(t.text())
    x=Walk(w.c)
    x.e('(λ over. jumps ! $ exec ! C Λ En pieces.t-3 (atRet En Post) $')
    x.e('rewrite ! 0 (λ (l : List Record). ‵ (row T.the-row fullShare l b o)) (all-by %s (i .0) ys (nltb→le (i .0) (length ys) over)) refl $'%f)
    x.e('closes-slice ! tt T.the-row ys zs (length-map ys %s) b o $'%f); x.head(4,'obs','bor','lft')
    x.assign(0,'(of-opd ! (unit-lit !))','(tt, tt)')
    x.e('returns ! (look ! %d refl) $'%x.p('_0'))
    x.forget(*([0,1]+([2] if arg else [])+[I,N,Bq]))
    x.frees(n)
    x.keep(['obs','bor','lft']); x.e('by ! exits)')
    w.e(x.text())
    # ---- up to the loop
    m=Walk(['tok','owns'],'      ')
    args='sliceVal (b, o) (length ys) ∷ '+('mach-s s ∷ ' if arg else '')+'[]'
    rows='MutSlice (named 0) κ T.the-row ∷ '+('S.the-row ∷ ' if arg else '')+'[]'
    m.e('qed W ((‵ (flft κ q) ⊛ ‵ ftrue) ∷ ‵ (owns (%s) x at) ∷ []) ∵ enter ! (𝓣 .C) (𝓣 .Λ) code.function (%s) _ $'%(rows,args))
    m.allocs(n)
    m.e('pass1 ! (init ! %d refl (tt, (tt, (record { fits = room .0 }, tt)))) $'%m.p('_1'))
    if arg: m.e('pass1 ! (init ! %d refl (typed-s s gs)) $'%m.p('_2'))
    m.e('pass0 ! $')
    m.assign(I,'(of-opd ! (lit ! tt))','(tt, record { fits = lit< tt })')
    m.move('owns').e('fsplit ! $ fsplit ! $ move ! (1 ∷ []) $ fsplit ! $').head(1,'obs','bor','fact','rest')
    m.move('tok').e('split ! $').head(1,'lft','true'); m.move('obs','bor','lft')
    m.e('opens-slice ! tt T.the-row ys b o $').head(3,'row','obor','obs','auth')
    m.e('rewrite ! 0 (λ (l : List Record). ‵ (row T.the-row fullShare l b o)) (none-by %s ys) refl $'%f)
    m.keep(inv)
    m.e('first ! $ blocks ! $ loops ! 𝓣 Nearer Nearer-wf (At 𝓣 fm known %s) (turns 𝓣 fm known %s) (0, zero-le)'%(ls,ls))
    D=dict(F=F,G=G,fdash=fdash,gdash=gdash,spec=spec,f=f,at=at,ls=ls,env=env,turn=w.text(),walk=m.text(),args=args,crate=CRATE,
      S='' if not arg else '''use Rattle·lookup·specs.specs.declared.Search.{Search}
use Rattle·lookup·proofs.proofs.Search as S
use Rattle·lookup·proofs.proofs.Search.Laws as S′
''',
      machs='' if not arg else '''
abbrev mach-s : Search → Val
mach-s = LL.val S.the-type S′.the-laws
''',
      par=' (s : Search) (gs : Is S.the-row s (mach-s s ∷ []))' if arg else '',
      stays=', (stay-none (λ _. S.the-row) yes, tt)' if arg else ', tt',
      xt='RefT (List Record) × (Search × Unit {0})' if arg else 'RefT (List Record) × Unit {0}',
      xv='(s, tt)' if arg else 'tt', atv='(mach-s s ∷ [], tt)' if arg else 'tt',
      lasts='(tt, tt)' if arg else 'tt',
      typeds='''
  typed-s : (d : Search) → Is S.the-row d (mach-s d ∷ []) → Holds (hasTy S′.mir (mach-s d)) × WT (mach-s d)
  typed-s d g = LL.lawful S.the-type S′.the-laws 𝓤 H A W .typed d _ g .0
''' if arg else '',
      ends='nothing ! $ owned ! S.the-row (Is S.the-row) (LL.makes S.the-type S′.the-plain 𝓤 H A) s _ gs $ fjoin ! $' if arg else 'nothing ! $',
      tocore='(s, (d, tt)), (mach-s s ∷ [], (mach d ∷ [], tt))' if arg else '(d, tt), (mach d ∷ [], tt)',
      goesS='owned ! S.the-row (Is S.the-row) (LL.makes S.the-type S′.the-plain 𝓤 H A) s _ gs $ fjoin ! $ ' if arg else '',
      coreargs='(s, (d, tt))' if arg else '(d, tt)',
      valsL='(slice-vals, (LL.vals S.the-type S′.the-laws, tt))' if arg else '(slice-vals, tt)',
      tellsL='(mut-slice-tells (named 0) (κs .0) T.the-row, (LL.tells S.the-type S′.the-laws, tt))' if arg else '(mut-slice-tells (named 0) (κs .0) T.the-row, tt)',
      callS=' (a .1 .0) (are .1 .0)' if arg else '',
      goS=', (goes-none 𝓤 H A W 1 (λ _. S.the-row) yes (λ κs x f. refl), tt)' if arg else ', tt')
    T=open('maploop.tmpl').read()
    for a,b in D.items(): T=T.replace('@%s@'%a,b)
    if index:
        F_='(%s s)'%spec
        for a,b in ((' (elem (i .0)) g) $',' (i .0) (elem (i .0)) (ltb-fits less) g) $'),('to-core (elem (i .0))','to-core (i .0) (elem (i .0))'),('(goes (elem','(goes (elem'),
          ('(s, (elem (i .0), tt))','(s, (i .0, (elem (i .0), tt)))'),('r ≡ %s (elem (i .0))'%F_,'r ≡ %s s (i .0) (elem (i .0))'%spec),('of-core (elem (i .0)) r','of-core (i .0) (elem (i .0)) r'),
          ('one-turn %s (i .0)'%F_,'from-turn s (i .0)'),('all-by %s (i .0)'%F_,'all-from s 0 (i .0)'),('length-map ys %s'%F_,'numbered-length s 0 ys'),('none-by %s ys'%F_,'none-from s 0 ys'),
          ('zs = map %s ys'%F_,'zs = numbered-from s 0 ys'),('upto k = first-by %s k ys'%F_,'upto k = first-from s 0 k ys'),('first-length %s (i .0) ys'%F_,'from-length s 0 (i .0) ys'),
          ('to-core : Record → Core','to-core : ℕ → Record → Core'),('to-core d = ((tt, tt, tt, (s, (d, tt)), (mach-s s ∷ [], (mach d ∷ [], tt))), tt)','to-core j d = ((tt, tt, tt, (s, (j, (d, tt))), (mach-s s ∷ [], (vint w64 j ∷ [], (mach d ∷ [], tt)))), tt)'),
          ('goes : (d : Record) → Is','goes : (j : ℕ) (d : Record) → j < 2 ^ 64 → Is'),('.pre (to-core d))','.pre (to-core j d))'),('goes d g =','goes j d gj g ='),('d _ g $ fjoin ! $ owned ! S','d _ g $ fjoin ! $ owned ! usize (Is usize) (uint-makes 𝓤 H A W w64) j _ (refl, gj) $ fjoin ! $ owned ! S'),
          ('of-core : (d r : Record)','of-core : (j : ℕ) (d r : Record)'),('tt (s, (d, tt)) tt r','tt (s, (j, (d, tt))) tt r'),('(r ≡ %s d)'%F_,'(r ≡ %s s j d)'%spec),('of-core d r =','of-core j d r ='),('core.ended tt (s, (d, tt)) ws','core.ended tt (s, (j, (d, tt))) ws'),
          ('proofs.Lists.{first-by, none-by, first-length, one-turn, all-by}','proofs.Counts.{first-from, none-from, from-length, numbered-length, from-turn, all-from}'),('no-record, %s}'%spec,'no-record, %s, numbered-from}'%spec),
          ('use denote.Ref.{RefT, now}','use denote.Plain.{uint-makes}\nuse denote.Builtin.{usize}\nuse denote.Ref.{RefT, now}'),
          ('        place-fits : Holds','        ltb-fits : Holds (ltb (i .0) (length ys)) → i .0 < 2 ^ 64\n        ltb-fits less = lt-of-le-of-lt (i .1) (room .0)\n\n        place-fits : Holds'),
          ('Search','Tally')): T=T.replace(a,b)
    return T
if __name__=='__main__':
    F,G,spec,arg,out=sys.argv[1:6]
    import os; os.makedirs(out+'/proofs/'+F,exist_ok=True)
    open(out+'/proofs/%s/Proof.antt'%F,'w').write(gen(F,G,spec,arg!='0',arg=='index'))
