# entries.py CRATE: writes the proofs of kuzhlemor_close's two entries, which pass all that is lent on to `call`, for good.
import sys,os
from walker import *
HERE=os.path.dirname(os.path.abspath(__file__))
def entry(name,what,n,budget,single,param):
    # locals: 1 the record, 2 the memory, 3 the records, 4 the budget of a run; then what is passed on
    k=5 if param else 4
    REF,MP,MS,RP,RS=k,k+1,k+2,k+3,k+4
    w=Walk(['entry'],'      ')
    w.e('qed W (raw Entry ∷ []) ∵ enter ! (𝓣 .C) (𝓣 .Λ) code.function _ _ $')
    w.allocs(n)
    SL='(tt, (tt, (record { fits = %s .0 }, tt)))'
    for i,t in enumerate(['(tt, tt)',SL%'room',SL%'room₂']+(['(tt, record { fits = fits })'] if param else [])): w.e('pass1 ! (init ! %d refl %s) $'%(w.p('_%d'%(i+1)),t))
    w.e('pass0 ! $')
    w.assign(REF,'(addr ! (from ! (hop ! (look ! %d refl) (stop !))))'%w.p('_1'),'(tt, tt)')
    w.reslice(MP,MS,2,'room'); w.reslice(RP,RS,3,'room₂')
    w.move('entry').e('use1 W (raw (Callee 𝓤 H A at-mem run .pre at-call)) goes $').head(1,'pre')
    w.e('calls-at ! (fmOf 𝓤 H (W .laws) 𝓣) (Callee 𝓤 H A at-mem run) known at-call %s (λ w.'%w.opds(w.L(REF),w.L(MS),w.L(RS),w.L(4) if param else '(lit ! tt)','(%s-lit !)'%single)); w.open+=1
    w.e('use1 W (later (some (λ (r : Answer). (raw (alive 𝓤 H A f.signature κs qs) ⊛ ‵ (E.the-row .own r (w ∷ []))) ⊛ raw (Ran r)))) (id⊢ 𝓤 _) $ await ! tt $ pick ! (λ r. split ! $ split ! $'); w.open+=1
    w.head(1,'alive','own','ran'); w.move('own')
    w.e('peeks ! E.the-row (Is E.the-row) (shows 𝓤 H A E.the-row) r (w ∷ []) (λ is.'); w.open+=1
    w.e('land ! %s $'%w.to(0,'(LL.lawful E.the-type E′.the-laws 𝓤 H A W .typed r _ is .0)'))
    w.e('returns ! (look ! %d refl) $'%w.p('_0')).forget(*reversed(range(n))).frees(n)
    w.move('own','alive','ran')
    w.e('updating ! $ at-once ! $ show ! (λ (r′ : Answer). sep 𝓤 (Back 𝓤 H A f.signature (here .0) w r′) (Stepped r′)) r $').move('alive','own','ran').e('join ! $ frame ! $ by ! (told r)')
    T=open(HERE+'/entries.tmpl').read()
    N='(n : ℕ) ' if param else ''
    for a,b in {'fn':name,'key':name.replace('_','-'),'what':what,'walk':w.text(),
        'imports':'false' if single=='false' else 'true','lits':'false-lit' if single=='false' else 'lit, true-lit','nat':'ℕ, _<_, _^_' if param else 'ℕ',
        'arith':'' if param else 'use native.Mathlib.Omega.{arith}\n',
        'plain':'uint-vals, uint-tells, bool-vals, bool-makes' if param else 'uint-vals, uint-makes, bool-vals, bool-makes',
        'n':' (n : ℕ)' if param else '','budget':budget,'single':single,
        'args':'(x, (y, (z, (n, tt))))' if param else '(x, (y, (z, tt)))',
        'vals':'(ptr-vals x, (slice-vals y, (slice-vals z, (uint-vals w32 n, tt))))' if param else '(ptr-vals x, (slice-vals y, (slice-vals z, tt)))',
        'rows':' ∷ u32' if param else '',
        'last':'fsplit ! $ move ! (1 ∷ []) $ ' if param else '',
        'own-budget':'move ! (1 ∷ 0 ∷ []) $ fjoin ! $' if param else 'owned ! u32 (Is u32) (uint-makes 𝓤 H A W w32) 1 _ (refl, omega arith) $ fjoin ! $',
        'lasts':'(zs .0, (zs .1 .0, (zs .1 .1 .0, (tt, tt))))' if param else '(zs .0, (zs .1 .0, (zs .1 .1 .0, tt)))',
        'ends':'nothing ! $ nothing ! $ fjoin ! $' if param else 'nothing ! $',
        'fits-type':'n < 2 ^ 32 → ' if param else '','fits':'fits ' if param else '',
        'sets':'(ptr-vals, (slice-vals, (slice-vals, (uint-vals w32, tt))))' if param else '(ptr-vals, (slice-vals, (slice-vals, tt)))',
        'tells':', (uint-tells w32, tt)' if param else ', tt',
        'give':'(a .1 .1 .1 .0) (are .1 .1 .1 .0 .1) ' if param else ''}.items(): T=T.replace('@%s@'%a,b)
    assert '@' not in T, T[T.index('@')-40:][:100]
    o=sys.argv[1]+'/proofs/'+name; os.makedirs(o,exist_ok=True); open(o+'/Proof.antt','w').write(T)
entry('kuzhlemor_run_close','with the budget, as a run',10,'n','false',True)
entry('kuzhlemor_step_close','with a budget of 1, as a single step',9,'1','true',False)
