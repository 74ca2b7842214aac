#!/bin/sh
# The plain reader of docs/src and the proved one answer the same on the bundled examples, captures and damaged captures; and the plain readers that tools/damage compares with print of the
# bundled tokens, damaged captures, envelopes and scripts what the programs have to. Prints one line for each failure, and last how many files there were. Where rustc is missing it says so: the
# plain readers are not a part of the product.
set -u
cd "$(dirname "$0")/../.." || exit 1
list=$PWD/crates/list/out/list
[ -x "$list" ] || { echo "tests/programs/plain.sh: crates/list/out/list is not built" >&2; exit 1; }
command -v rustc >/dev/null 2>&1 || { echo 'plain: rustc is missing, so the plain reader is not compared'; exit 0; }
work=$(mktemp -d) || exit 1
trap 'rm -rf "$work"' EXIT
rustc --edition 2021 -O --crate-type rlib --crate-name plain -o "$work/libplain.rlib" docs/src/plain.rs &&
    rustc --edition 2021 -O --extern plain="$work/libplain.rlib" -o "$work/verdict" docs/src/verdict.rs &&
    rustc --edition 2021 -O -o "$work/told" docs/src/told.rs || { echo 'tests/programs/plain.sh: the plain reader does not build' >&2; exit 1; }
files=0
failures=0
for file in crates/examples/data/* crates/recover_examples/data/* crates/list/data/*; do
    [ -f "$file" ] || continue
    files=$((files + 1))
    got=$("$work/verdict" "$file")
    wanted=$(printf '%s\n' "$file" | "$list" | tail -n 1)
    if [ "$got" != "$wanted" ]; then
        failures=$((failures + 1))
        printf 'tests/programs/plain.sh: %s: the plain reader says "%s", and the listing "%s"\n' "$file" "$got" "$wanted" >&2
    fi
done
for program in examples recover_examples envelopes scripts; do
    files=$((files + $(wc -l <"crates/$program/stdin")))
    (cd "crates/$program/data" && "$work/told" "$program" <../stdin) >"$work/printed"
    if ! cmp -s "$work/printed" "crates/$program/stdout"; then
        failures=$((failures + 1))
        printf 'tests/programs/plain.sh: what the plain readers print is not what %s has to\n' "$program" >&2
    fi
done
echo "plain: $files files, $failures failures"
[ "$files" -gt 0 ] && [ "$failures" -eq 0 ]
