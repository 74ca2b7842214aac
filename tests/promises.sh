#!/bin/sh
# docs/PROMISES.md: of each row the claims and definitions stand in the file that it names; each theorem proves the claim beside it; each contract speaks of a definition beside it.
# How many files each program is run on is what is there.
set -eu
cd "$(dirname "$0")/.."
work=$(mktemp -d)
trap 'rm -rf "$work"' EXIT
page=docs/PROMISES.md

names() { printf '%s\n' "$1" | grep -o '`[^`]*`' | tr -d '`'; }
# contract FUNCTION: its ensures, wherever it is public
contract() { awk -v name="$1" '$0 ~ "^pub (extern \"C\" )?fn " name "[(<]" { on = 1 } on && /^ *ensures / { on = 2 } on == 2 { print } /^ *\{$/ { on = 0 }' crates/*/src/*.rt; }

awk -F ' *\\| *' 'NF == 6 && $5 ~ /^crates\// { print $3 "|" $4 "|" $5 }' "$page" >"$work/rows"
while IFS='|' read -r proved claims file; do
    [ -f "$file" ] || { echo "there is no file $file"; continue; }
    names "$claims" >"$work/claims"
    for claim in $(cat "$work/claims"); do
        grep -qE "^(abbrev |unfoldable )?pub (record |data )?$claim " "$file" || echo "$file does not declare $claim"
    done
    names "$proved" >"$work/proved"
    case $proved in
        'contract of '*)
            for name in $(cat "$work/proved"); do
                contract "$name" | grep -qwF -f "$work/claims" || echo "no contract of $name speaks of $claims"
            done
            ;;
        *)
            crate=${file%/specs/*}
            [ "$(wc -l <"$work/proved")" -eq "$(wc -l <"$work/claims")" ] || echo "theorems and claims are not as many: $proved"
            paste -d ' ' "$work/proved" "$work/claims" | while read -r name claim; do
                cat "$crate"/proofs/*.antt | grep -qxE " *pub $name : $claim" || echo "$crate has no proof $name of $claim"
            done
            ;;
    esac
done <"$work/rows" >"$work/bad"

# runs NAME NUMBER: the row of the program NAME has the number
runs() { grep -qE "\`$1\`[^|]*\\|.*\\b$2\\b" "$page" || echo "of $1 the page does not say $2"; }
{
    for name in examples recover_examples scripts envelopes wraps; do runs "$name" "$(($(ls "crates/$name/data" | wc -l)))"; done
    runs replays "$(($(ls crates/replays/data/*.case | wc -l)))"
    runs tally "$(awk 'END { print int(NR / 1000) "," sprintf("%03d", NR % 1000) }' crates/tally/stdin)"
} >>"$work/bad"
[ -s "$work/rows" ] || echo 'the page has no rows' >>"$work/bad"
[ ! -s "$work/bad" ] || { sed 's/^/promises: /' "$work/bad" >&2; exit 1; }
echo "promises: $(wc -l <"$work/rows") rows, each with its claim or contract"
