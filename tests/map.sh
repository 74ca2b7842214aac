#!/bin/sh
# Every name in docs/MAP.md, but for what stands in a quotation, is declared in a file of the crates, or is that of a file that the programs are run on, of
# a must-fail edit or of a crate; every path in it is there; and every must-fail edit is named. In the other pages every name stands in some file.
set -eu
cd "$(dirname "$0")/.."
work=$(mktemp -d)
trap 'rm -rf "$work"' EXIT
bad=0
complain() { echo "map: $1" >&2; bad=1; }

find crates -name out -prune -o \( -name '*.antt' -o -name '*.rt' \) -print | LC_ALL=C sort | xargs cat >"$work/text"
# The name of an edit stands in front of what it changes (tests/edits.sh).
sed -n 's/^# \([a-z0-9_]*\)\(, in [A-Za-z0-9_:]*\)*: .*/\1/p' crates/*/must-fail/*.edit >"$work/all"
LC_ALL=C sort -u "$work/all" >"$work/edits"

# What is declared: a definition, a law or a constructor; a function, a struct, an enum or a constant; a crate, a file that a program is run on, an edit.
{
    LC_ALL=C grep -oE -e 'pub [^ ]+ :' -e '(record|data|struct|enum) [^ (]+ ' -e '(fn|struct) [^ (<]+[(<]' -e 'const [^ :]+:' "$work/text" |
        sed -e 's/^[a-z]* //' -e 's/[(<:]$//' -e 's/ *$//'
    ls crates crates/*/data
    cat "$work/edits"
} | LC_ALL=C sort -u >"$work/declared"
# Those of the names in the sorted file $1 that are neither declared nor a path.
undeclared() { LC_ALL=C comm -23 "$1" "$work/declared" | while IFS= read -r name; do [ -e "$name" ] || printf '%s\n' "$name"; done; }

sed 's/"[^"]*"//g' docs/MAP.md | grep -o '`[^`]*`' | tr -d '`' | LC_ALL=C sort -u >"$work/names"
undeclared "$work/names" >"$work/unknown"
while IFS= read -r name; do complain "docs/MAP.md names '$name', which is declared in no file"; done <"$work/unknown"
LC_ALL=C comm -23 "$work/edits" "$work/names" >"$work/unnamed"
while IFS= read -r edit; do complain "docs/MAP.md does not name the edit '$edit'"; done <"$work/unnamed"

for page in README.md docs/*.md; do
    grep -oE '(crates|docs|tests|tools)/[A-Za-z0-9_./-]*[A-Za-z0-9]' "$page" | LC_ALL=C sort -u | while IFS= read -r path; do
        case $path in crates/*/out/*) continue ;; esac # what rt builds
        [ -e "$path" ] || echo "$page names the path '$path', which is not there"
    done
done >"$work/paths"
for page in README.md docs/READING.md docs/DECISIONS.md docs/RULES.md docs/CONTRIBUTING.md; do
    grep -oE '`[A-Za-z][A-Za-z0-9]*[_-][A-Za-z0-9_-]*`' "$page" | tr -d '`' | LC_ALL=C sort -u >"$work/of-page"
    undeclared "$work/of-page" | while IFS= read -r name; do
        grep -qwF -- "$name" "$work/text" || echo "$page names '$name', which stands in no file"
    done
done >>"$work/paths"
while IFS= read -r line; do complain "$line"; done <"$work/paths"
[ "$bad" -eq 0 ] || exit 1
echo "map: $(wc -l <"$work/names") names declared, $(wc -l <"$work/all") edits named"
