#!/bin/sh
# Every theorem that a page names states a claim that stands in specs/: its type is one name, and that name is declared there. A reader then
# has to believe what is in specs/, and nothing under proofs/. (READING's last section and CONTRIBUTING name laws as examples of their form,
# PORT and DESIGN-PASS name all that were spelt or written anew.)
set -eu
cd "$(dirname "$0")/.."
work=$(mktemp -d)
trap 'rm -rf "$work"' EXIT

find crates/*/proofs -name '*.antt' ! -name Proof.antt ! -name Invariants.antt ! -name Answers.antt | LC_ALL=C sort | xargs cat >"$work/proofs"
cat crates/*/specs/*.antt >"$work/specs"
for page in README.md docs/*.md; do
    case $page in docs/CONTRIBUTING.md | docs/PORT.md | docs/DESIGN-PASS.md) continue ;; esac
    sed -e '/^## A law in the words of the code/,$d' -e 's/"[^"]*"//g' "$page" | grep -o '`[a-z][a-z0-9_-]*`' || true
done | tr -d '`' | LC_ALL=C sort -u >"$work/names"

# A law stands at a line's start, or in a module with a name of several words; a field of a record has one word.
found=$(
    while IFS= read -r name; do
        ! grep -qE "^(abbrev |unfoldable )?pub $name :" "$work/specs" || continue
        case $name in *-*) at='^ *' ;; *) at='^' ;; esac
        grep -E "${at}pub $name : " "$work/proofs" | sed 's/^ *//' | while IFS= read -r law; do
            claim=${law#pub "$name" : }
            if printf '%s\n' "$claim" | grep -qE '^[A-Z][A-Za-z0-9]*$' && grep -qE "^(abbrev |unfoldable )?pub (record )?$claim :" "$work/specs"; then
                echo "good $name"
            else
                echo "bad $name"
            fi
        done
    done <"$work/names"
)
bad=$(printf '%s\n' "$found" | sed -n 's/^bad //p')
[ -z "$bad" ] || { printf '%s\n' "$bad" | sed 's/^/claims: no claim of specs\/ states /' >&2; exit 1; }
echo "claims: $(printf '%s\n' "$found" | grep -c '^good ') theorems of the pages state claims of specs/"
