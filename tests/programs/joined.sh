#!/bin/sh
# Captured tokens pasted and cut again: each conversation's tokens, as far as they go on from one another, are joined two and two and all together, and every accepted
# token is cut at each end of a message. The listing of a joined token, its last line aside, is that of the first without its last, then that of the second with `at` of
# its message lines moved. Prints one line for each failure, and last how many cases there were.
set -u
cd "$(dirname "$0")/../.." || exit 1
[ -x crates/list/out/list ] || { echo "tests/programs/joined.sh: crates/list/out/list is not built" >&2; exit 1; }
work=$(mktemp -d) || exit 1
trap 'rm -rf "$work"' EXIT
cases=0
failures=0

# expect WHAT GOT WANTED
expect() {
    cases=$((cases + 1))
    if [ "$2" != "$3" ]; then
        failures=$((failures + 1))
        printf 'tests/programs/joined.sh: %s: got "%.200s", and not "%.200s"\n' "$1" "$2" "$3" >&2
    fi
}

list() { printf '%s\n' "$1" | crates/list/out/list; }
size() { echo $(($(wc -c <"$1"))); }
# the listing of the file $1 without its last line, with `at` of its message lines moved by $2
lines() { list "$1" | sed '$d' | awk -v by="$2" '$1 == "message" { sub(/at=[0-9]+/, "at=" substr($2, 4) + by) } { print }'; }
number() { list "$1" | sed -n 's/^message at=[0-9]* seq=\([0-9]*\) .*/\1/p' | "$2" -n 1; }

# Whether the token $2 goes on where the token $1 ends: its first number is the one after the last, and the conversation is the same.
follows() {
    [ "$(($(number "$1" tail) + 1))" = "$(number "$2" head)" ] && [ "$(od -An -v -tx1 -j24 -N16 "$1")" = "$(od -An -v -tx1 -j24 -N16 "$2")" ]
}

# pasted WHAT FIRST SECOND
pasted() {
    cat "$2" "$3" >"$work/both"
    [ "$(size "$work/both")" -le 65535 ] || return
    expect "$1" "$(list "$work/both" | sed '$d')" "$(lines "$2" 0; lines "$3" "$(size "$2")")"
}

# cut WHAT TOKEN: at each end of a message but the last
cut_all() {
    for at in $(list "$2" | sed -n '2,$s/^message at=\([0-9]*\) .*/\1/p'); do
        head -c "$at" "$2" >"$work/front"
        tail -c "+$((at + 1))" "$2" >"$work/rest"
        expect "$1, cut at $at" "$(lines "$work/front" 0; lines "$work/rest" "$at")" "$(lines "$2" 0)"
        expect "$1, cut at $at, front" "$(list "$work/front" | head -c 7)" message
        expect "$1, cut at $at, rest" "$(list "$work/rest" | head -c 7)" message
    done
}

before=
for token in crates/examples/data/mit-*-[0-9][0-9]-[ia].negoex; do
    name=${token##*/}
    if [ -n "$before" ] && [ "${token%-[0-9][0-9]-[ia].negoex}" = "${before%-[0-9][0-9]-[ia].negoex}" ] && follows "$before" "$token"; then
        pasted "${before##*/} and $name" "$before" "$token"
    fi
    case $name in mit-one-* | mit-p1* | mit-verify-*) cut_all "$name" "$token" ;; esac
    before=$token
done
cut_all joined-mit-one-3hop crates/examples/data/joined-mit-one-3hop
cat crates/examples/data/mit-one-3hop-02-i.negoex crates/examples/data/mit-one-3hop-02-i.negoex >"$work/both"
expect 'a token twice' "$(list "$work/both")" "refused 7 at=$(size crates/examples/data/mit-one-3hop-02-i.negoex)"

printf 'tests/programs/joined.sh: %d cases, %d failed\n' "$cases" "$failures"
[ "$failures" -eq 0 ]
