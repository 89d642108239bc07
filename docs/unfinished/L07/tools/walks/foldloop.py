# foldloop.py F G SPEC CRATE [tally]: the proof of `fn F(records: &mut [Record], from: Search) -> Search { let mut s = from; let mut i = 0; while i < records.len() { s = G(s, records[i]); if s.hit { return s; } i = i + 1; } s }`; with `tally`, of the same over a Tally and without the return
import sys,os
from walker import *
def gen(F,G,spec,early):
    n=9; I,N,Bq,P1,EL=4,5,6,7,8
    vals={1:'sliceVal (b, o) (length ys)', 2:'mach-s s', 3:'mach-s (sofar s (i .0) ys)', I:'vint w64 (i .0)'}
    def item(i):
        v=vals.get(i)
        c='‵ (froom (ty %d) %s 0)'%(i,ln(i)) if v is None else '‵ (fat fullShare (ty %d) %s 0 (%s))'%(i,ln(i),v)
        return c+' ∷ ‵ (fdies (ty %d) %s)'%(i,ln(i))
    at='‵ (row T.the-row fullShare ys b o) ∷ ‵ (fobor κ q (Held T.the-row (length ys) b o γ)) ∷ ‵ (fobs γ (codedHoleys T.the-row .code (heres T.the-row ys))) ∷ ‵ (fauth γ (codedHoleys T.the-row .code (heres T.the-row ys))) ∷ '+' ∷ '.join(item(i) for i in reversed(range(n)))+' ∷ []'
    inv=['row','obor','obs','auth']+locals_(n)
    ls=' '.join(ln(i) for i in range(n)); env=' ∷ '.join('(ty %d, %s)'%(i,ln(i)) for i in range(n))+' ∷ []'
    w=Walk(inv)
    w.assign(N,'(of-opd ! %s)'%w.L(1,1),'(tt, record { fits = room .0 })')
    w.assign(Bq,'(bin ! %s %s tt)'%(w.L(I),w.L(N)),'(tt, tt)')
    w.e('first ! $ branches ! %s'%w.L(Bq))
    t=Walk(w.c)
    t.e('(λ less. skips ! $ exec ! C Λ En (after 3 pieces.turn-1) (anyQ (Turned i)) $')
    t.assign(N,'(bin ! %s (lit ! tt) (record { fits = place-fits less }))'%t.L(I),'(tt, record { fits = place-fits less })',first=False)
    t.offset(P1,1,N,'(i .0)','o')
    t.e('elem-out ! T.the-row (Is T.the-row) (shows 𝓤 H A T.the-row) (LL.vals T.the-type T′.the-laws) (LL.tells T.the-type T′.the-laws) fullShare ys (i .0) no-record b o (inside less) (λ g.'); t.open+=1
    t.head(1,'cell','own','others')
    t.assign(EL,'(of-opd ! (load ! (from ! (hop ! (look ! %d refl) (stop !))) (look-raw ! 0 refl)))'%t.p('_%d'%P1),'(typed (elem (i .0)) g)')
    t.e('elem-back ! T.the-row fullShare ys (i .0) no-record (mach (elem (i .0)) ∷ []) b o (inside less) $').head(3,'row')
    t.e('use0 W (raw (Core 𝓤 H A at-mem run .pre (to-core (sofar s (i .0) ys) (elem (i .0))))) (goes (sofar s (i .0) ys) (elem (i .0)) (i .1 .1) g) $'); t.head(0,'pre')
    t.e('calls-at ! fm (Core 𝓤 H A at-mem run) known (to-core (sofar s (i .0) ys) (elem (i .0))) %s (λ w.'%t.opds(t.L(3),t.L(EL))); t.open+=1
    t.e('use1 W (later (some (λ (r : Search). (‵ ftrue ⊛ ‵ (S.the-row .own r (w ∷ []))) ⊛ raw (ensured 𝓤 H A core.ended (core.clauses 𝓤 H A at-mem run) tt (sofar s (i .0) ys, (elem (i .0), tt)) tt r)))) (id⊢ 𝓤 _) $ await ! tt $ pick ! (λ r.'); t.open+=1
    t.e('split ! $ move ! (1 ∷ []) $ use1 W (raw (fact 𝓤 (r ≡ @spec@ (sofar s (i .0) ys) (elem (i .0))))) (of-core (sofar s (i .0) ys) (elem (i .0)) r) $ heard ! (r ≡ @spec@ (sofar s (i .0) ys) (elem (i .0))) (λ e. split ! $ drop ! $'); t.open+=1
    t.e('peeks ! S.the-row (Is S.the-row) (shows 𝓤 H A S.the-row) r (w ∷ []) (λ is.'); t.open+=1
    t.head(1,'ownr')
    P=t.p('_3')
    t.e('land ! %s $ rewrite ! %d (λ (u : Val). ‵ (fat fullShare S′.mir %s 0 u)) (ap only (LL.tells S.the-type S′.the-laws r _ is)) refl $'%(t.to(3,'(LL.lawful S.the-type S′.the-laws 𝓤 H A W .typed r _ is .0)',first=False),P,ln(3)))
    t.e('rewrite ! %d (λ (u : Search). ‵ (fat fullShare S′.mir %s 0 (mach-s u))) (next-is less r e) refl $ drop ! $'%(P,ln(3)))
    t.head(1)
    if early:
        t.assign(Bq,'(of-opd ! %s)'%t.L(3,3),'(tt, tt)',first=False)
        t.e('first ! $ branches ! %s'%t.L(Bq))
        h=Walk(t.c)
        h.e('(λ hit. closes-slice ! tt T.the-row ys ys refl b o $'); h.head(4,'obs','bor','lft')
        h.assign(0,'(of-opd ! %s)'%h.L(3),'(typed-s (sofar s (i .0 + 1) ys) (next less r e (told r w is) .1 .1))')
        h.e('returns-within ! Post refl (look ! %d refl) $'%h.p('_0')).forget(0,1,2,3,I,N,Bq,P1,EL).frees(n)
        h.keep(['obs','bor','lft']); h.e('by ! (exits (sofar s (i .0 + 1) ys) (fold-hit s (i .0 + 1) ys hit) (next less r e (told r w is) .1 .1)))')
        t.e(h.text())
        g=Walk(t.c)
        g.e('(λ none. skips ! $ exec ! C Λ En (after 9 pieces.turn-1) (anyQ (Turned i)) $')
        g.assign(I,'(bin ! %s (lit ! tt) (record { fits = next-fits less }))'%g.L(I),'(tt, record { fits = next-fits less })',first=False,last=True)
        g.forget(N,Bq,P1,EL).keep(inv)
        g.e('again ! Nearer At i (next less r e (told r w is)) (add-one-dec (length ys) (i .0) (ltb→lt (i .0) (length ys) less)))')
        t.e(g.text()+')')
    else:
        t.assign(I,'(bin ! %s (lit ! tt) (record { fits = next-fits less }))'%t.L(I),'(tt, record { fits = next-fits less })',first=False,last=True)
        t.forget(N,Bq,P1,EL).keep(inv)
        t.e('again ! Nearer At i (next less r e (told r w is)) (add-one-dec (length ys) (i .0) (ltb→lt (i .0) (length ys) less)))')
    w.e(t.text())
    x=Walk(w.c)
    x.e('(λ over. jumps ! $ exec ! C Λ En pieces.t-4 (atRet En Post) $')
    x.e('closes-slice ! tt T.the-row ys ys refl b o $'); x.head(4,'obs','bor','lft')
    x.assign(0,'(of-opd ! %s)'%x.L(3),'(typed-s (sofar s (i .0) ys) (i .1 .1))')
    x.e('returns ! (look ! %d refl) $'%x.p('_0')).forget(0,1,2,3,I,N,Bq).frees(n)
    x.keep(['obs','bor','lft']); x.e('by ! (exits (sofar s (i .0) ys) (fold-all s (i .0) ys (nltb→le (i .0) (length ys) over)) (i .1 .1)))')
    w.e(x.text())
    m=Walk(['tok','owns'],'      ')
    args='sliceVal (b, o) (length ys) ∷ mach-s s ∷ []'
    m.e('qed W ((‵ (flft κ q) ⊛ ‵ ftrue) ∷ ‵ (owns (MutSlice (named 0) κ T.the-row ∷ S.the-row ∷ []) x at) ∷ []) ∵ enter ! (𝓣 .C) (𝓣 .Λ) code.function (%s) _ $'%args)
    m.allocs(n)
    m.e('pass1 ! (init ! %d refl (tt, (tt, (record { fits = room .0 }, tt)))) $ pass1 ! (init ! %d refl (typed-s s gs)) $ pass0 ! $'%(m.p('_1'),m.p('_2')))
    m.assign(3,'(of-opd ! %s)'%m.L(2),'(typed-s s gs)')
    m.assign(I,'(of-opd ! (lit ! tt))','(tt, record { fits = lit< tt })')
    m.e('rewrite ! %d (λ (u : Search). ‵ (fat fullShare S′.mir %s 0 (mach-s u))) (fold-none s ys) refl $'%(m.p('_3'),ln(3)))
    m.move('owns').e('fsplit ! $ fsplit ! $ move ! (1 ∷ []) $ fsplit ! $').head(1,'obs','bor','fact','rest')
    m.move('tok').e('split ! $').head(1,'lft','true'); m.move('obs','bor','lft')
    m.e('opens-slice ! tt T.the-row ys b o $').head(3,'row','obor','obs','auth')
    m.keep(inv)
    m.e('first ! $ blocks ! $ loops ! 𝓣 Nearer Nearer-wf (At 𝓣 fm known %s) (turns 𝓣 fm known %s) (0, (zero-le, subst Fits (fold-none s ys) gs))'%(ls,ls))
    D=dict(turn=w.text(),walk=m.text(),at=at,ls=ls,env=env,args=args,F=F,G=G,fdash=F.replace('_','-'),gdash=G.replace('_','-'),spec=spec)
    T=open('maploop.tmpl').read()
    head=T[:T.index('abbrev stayed')].replace('@S@','''use Rattle·lookup·specs.specs.declared.Search.{Search}
use Rattle·lookup·proofs.proofs.Search as S
use Rattle·lookup·proofs.proofs.Search.Laws as S′
''').replace('a turn takes one record out of the row, calls `@G@` and puts its answer in its place','a turn reads one record and calls `@G@`').replace('{first-by, none-by, first-length, one-turn, all-by}','{sofar, fold-none, fold-turn, fold-all, fold-hit}').replace('branches, returns, enter','branches, returns, returns-within, enter').replace('elem-put','elem-back').replace('no-record, @spec@','no-record, @spec@, searched').replace('use mathlib.Core.Path.{_≡_, refl, sym, ap, subst}','use mathlib.Core.Path.{_≡_, refl, sym, ap, subst}')
    T=head+open('foldloop.tmpl').read()
    for _ in range(2):
        for a,b in D.items(): T=T.replace('@%s@'%a,b)
    return T
def as_tally(T):
    for a,b in (('Search','Tally'),('searched','tallied-all'),('sofar','tally-sofar'),('fold-','tally-'),('proofs.Lists.','proofs.Counts.'),(', tally-hit}','}')): T=T.replace(a,b)
    return T
F,G,spec,out=sys.argv[1:5]; tally=len(sys.argv)>5
os.makedirs(out+'/proofs/'+F,exist_ok=True)
open(out+'/proofs/%s/Proof.antt'%F,'w').write(as_tally(gen(F,G,spec,False)) if tally else gen(F,G,spec,True))
