#!/bin/sh
# all.sh [CRATES]: writes the walks over lent records into the proofs of lookup, driver and kuzhlemor_close, in this tree or in
# another folder of crates.
set -eu
cd "$(dirname "$0")"
crates=${1:-../../crates}
lookup=$crates/lookup
python3 foldloop.py find see seen "$lookup"
python3 maploop.py touch use_one used 1 "$lookup"
python3 maploop.py replace overwrite overwritten 1 "$lookup"
sed -i 's/Search/Entry/g' "$lookup/proofs/replace/Proof.antt"
python3 maploop.py clear unmark without-mark 0 "$lookup"
python3 foldloop.py count_all tally_one tallied "$lookup" tally
python3 maploop.py number number_one numbered index "$lookup"
python3 lookup.py "$lookup"
python3 order.py "$lookup"
python3 drive.py "$crates/driver"
python3 run.py "$crates/kuzhlemor_close"
python3 call.py "$crates/kuzhlemor_close"
python3 entries.py "$crates/kuzhlemor_close"
