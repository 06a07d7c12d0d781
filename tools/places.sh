#!/bin/bash
# Counts the places of docs/DESIGN-PASS.md in the sources: tools/places.sh [FOLDER OF A CHECKOUT].
# Comments are left out; a row is a kind of place and how many lines of code show one.
cd "${1:-.}" || exit 1
sources() { find crates -path '*/src/*.rt' -not -path '*/out/*' | sort | xargs grep -hvE '^ *//'; }
row() { printf '%-72s %s\n' "$1" "$(sources | grep -cE -e "$2")"; }
echo 'Point 1'
row 'a refusal as Option<Refusal>' '-> Option<Refusal>'
row 'a refusal handed on by if let Some(refusal)' 'if let Some\(refusal\) ='
row 'an error that is a bare number' 'Result<[^;]*, u(8|16|32|64)>'
row 'a carrier of a theorem that answers a number' '^pub fn .*\(\) -> u8$'
row 'an own enum with a case for nothing or for a refusal' '^ *(Neither|Refused\(u8, i64\)),'
row 'a flag beside a value' 'begun: bool,|over: bool,|let mut (found|outside|all) = (true|false)|-> io::Result<bool>'
row 'a number or a character that stands for nothing' "'.0'|=> \(0, 0\)"
echo 'Point 3'
row 'for over numbers' 'for [a-z_]+ in [0-9a-zA-Z_:.]+\.\.'
row 'while and loop' '^ *(while .*|loop) \{'
echo 'Point 4'
row 'a cast to a wider type by as' ' as (usize|u64|i64)\b'
row 'an arm that copies an Err' 'Err\((refusal|byte|_)\) =>'
row 'an arm that copies a None or hands it a default' 'None => (Ok\(None\)|None|false|0|true),'
row 'a function that compares, copies or converts by hand' 'fn (same|nth|tell_[a-z]+|refused|places_of|count|word)\((a: |i: |answer: |res: |verdict: )|pub fn (number|amount|sample|cost|verdict)\((res|verdict): '
echo 'Point 5'
row 'a call made only for a fact' 'let _ = [a-z.]*(places|sealed)\(\)'
row 'requires Priceable or Matched' 'requires.*(Priceable|Matched)'
row 'requires Sweepable' 'requires.*Sweepable'
row 'requires Sealed' 'requires.*Sealed'
row 'requires that a table or marks are 1,024 or 1,056 long' 'requires.*length [a-z.]+ ≡ (1024|1056)'
row 'requires that arcs are at most 1,024' 'requires.*(length arcs.now|count) ≤ 1024'
row 'problem_of .. (rules ..) spelled out' 'problem_of (self|result)'
row 'a ghost field' '^    (pub )?ghost [a-z]+: \{'
echo 'Point 6'
row 'a count or a length beside an array' '^ *(pub )?(count|filled|len|places): (usize|u8),'
row 'an array that a function answers' '-> \[[a-z0-9]+; [0-9]+\]$'
