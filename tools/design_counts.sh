#!/bin/bash
# Counts, in src/ of every crate, the places that docs/DESIGN-PASS.md speaks of. Run it at the top of a checkout.
# Where `duplicates` (a tool of the workplace that lists pairs of places that share six or more lines) is not there, 2b is left out.
set -u
here=$(cd "$(dirname "$0")" && pwd)
src() { find crates/*/src -name '*.rt' | sort; }
count() { grep -hE "$1" $(src) | wc -l; }
copy=$(mktemp -d)
trap 'rm -rf "$copy"' EXIT
for f in $(src); do
    mkdir -p "$copy/$(dirname "$f")"
    cp "$f" "$copy/${f%.rt}.rs"
done
echo "1a  answers Option<Fault>, where a refusal is meant: $(count 'fn .*Option<Fault>')"
echo "1b  flags, as fields and parameters: $(count '^    (pub |pub\(crate\) )?[a-z_]+: bool,|[(, ][a-z_]+: bool[,)]')"
echo "1c  Result<Option<..>, ..>, Option<()>: $(count 'Result<Option<|Option<\(\)>')"
echo "1d  numbers for refusals or for nothing, places told through a parameter: $(count '\) -> u8|place: i64|at: &mut usize')"
echo "2a  files that are there once for each size: $(src | grep -cE '_(32|64)\.rt')"
if command -v duplicates >/dev/null; then
    echo "2b  pairs of places that share six or more lines: $(duplicates --repo "$copy" --most 200 --seconds 60 | grep -c '^D[0-9]')"
fi
echo "3a  loops over numbers: $(count 'for .* in .*\.\.|while |loop \{')"
echo "3b  loops over enumerate: $(count 'for .*\.enumerate\(\)')"
echo "4a  records of zeros: $(count '^ +rows: 0,$')"
echo "4b  conversions by hand: $(count '256 \*|if self < 0|fn of\(|fn operation\(|fn nibble\(|fn byte\(|largest - start')"
echo "4c  PartialEq, Eq, Ord, Clone, Copy, Default by hand: $(count '^impl.* (PartialEq|Eq|PartialOrd|Ord|Clone|Copy|Default) for')"
echo "5a  clauses whose text stands at three or more functions of a crate: $(python3 "$here/clauses.py" | tail -1)"
echo "5b  functions that do nothing, for proofs: $(count '^    \{\}$|fn [a-z_]+\(&self\) \{\}')"
echo "6   structs with a number of rows beside lists: $(count '^    rows: usize,$')"
echo "7   arms that call one function on each case: $(count '=> call\.(start|rows|row)\(')"
echo "8   lines of proofs: $(find crates/*/proofs -name '*.antt' -exec cat {} + | wc -l), answers: $(find crates/*/proofs -name Answers.antt -exec cat {} + | grep -cE '^pub [^ ]+ : goal\.')"
