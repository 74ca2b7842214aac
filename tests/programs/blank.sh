#!/bin/sh
# What `blank` and the front door write. Prints one line for each failure, and last how many cases there were.
set -u
cd "$(dirname "$0")/../.." || exit 1
root=$PWD
blank=$root/crates/blank/out/blank
list=$root/crates/list/out/list
for program in "$blank" "$list"; do
    [ -x "$program" ] || { echo "tests/programs/blank.sh: $program is not built" >&2; exit 1; }
done
work=$(mktemp -d) || exit 1
trap 'rm -rf "$work"' EXIT
data=$root/crates/blank/data
cases=0
failures=0

# expect WHAT GOT WANTED
expect() {
    cases=$((cases + 1))
    if [ "$2" != "$3" ]; then
        failures=$((failures + 1))
        printf 'tests/programs/blank.sh: %s: got "%s", and not "%s"\n' "$1" "$2" "$3" >&2
    fi
}

# Blanks the file $1 into $work/out; what is said beside it goes to $work/said.
of() { printf '%s\n' "$1" | "$blank" >"$work/out" 2>"$work/said"; }

# same WHAT FILE OTHER: the two files have the same octets
same() { expect "$1" "$(cmp "$2" "$3" 2>&1)" ''; }
# written WHAT FILE: the file $work/out has the octets of FILE, and nothing is said
written() {
    same "$1" "$work/out" "$2"
    expect "$1: what is said" "$(cat "$work/said")" ''
}
# refused WHAT LINE: LINE is said, and nothing is written
refused() {
    same "$1: what is written" "$work/out" /dev/null
    expect "$1" "$(cat "$work/said")" "$2"
}

# Before and after: pads, gaps, what stands between an array and its values, overlapping vectors, empty ones that point anywhere, and a token without any gap.
for name in example pads between overlapping empty whole; do
    of "$data/$name"
    written "$name" "$data/$name.blanked"
    expect "$name: the listing stays" "$(printf '%s\n' "$data/$name.blanked" | "$list")" "$(printf '%s\n' "$data/$name" | "$list")"
    of "$data/$name.blanked"
    written "$name, blanked twice" "$data/$name.blanked"
done

# What an independent implementation sent has octets that are not zero in its pads. Of all its tokens, blanked, the checksum was worked out apart.
for file in crates/examples/data/mit-*.negoex; do
    of "$root/$file"
    cat "$work/out" >>"$work/captures"
    cp "$work/out" "$work/blanked"
    expect "$file: the listing stays" "$(printf '%s\n' "$work/blanked" | "$list")" "$(printf '%s\n' "$root/$file" | "$list")"
    of "$work/blanked"
    written "$file, blanked twice" "$work/blanked"
done
expect 'captures' "$(cksum <"$work/captures")" '2619047885 86409'

: >"$work/empty"
mkdir "$work/folder"
head -c 65535 /dev/zero >"$work/zeros-65535"
head -c 65536 /dev/zero >"$work/zeros-65536"
cp "$data/example" "$work/name with  spaces"
of "$data/refused"
refused 'a critical extension in the second message' 'refused 12 at=68'
of "$work/empty"
refused 'an empty file' 'refused 2 at=0'
of "$work/zeros-65535"
refused '65,535 zeros' 'refused 3 at=0'
of "$work/zeros-65536"
refused '65,536 octets' 'refused 1 at=0'
of "$work/missing"
refused 'a missing file' 'no file'
of "$work/folder"
refused 'a folder' 'no file'
of "$work/name with  spaces"
written 'a name with spaces' "$data/example.blanked"
printf '%s' "$data/example" | "$blank" >"$work/out" 2>"$work/said"
written 'no line end behind the name' "$data/example.blanked"
"$blank" </dev/null >"$work/out" 2>"$work/said"
refused 'an empty standard input' 'no file'
for file in "$data/example" "$data/refused"; do
    cp "$file" "$work/kept"
    of "$work/kept"
    same 'the file itself is left as it is' "$work/kept" "$file"
done

# The front door: WORDS, then standard output in $work/out, standard error in $work/said, and the status in $status.
door() {
    ./negoex blank "$@" >"$work/out" 2>"$work/said"
    status=$?
}
door "$data/overlapping" </dev/null
written 'a file' "$data/overlapping.blanked"
expect 'a file: status' "$status" 0
door <"$data/pads"
written 'standard input' "$data/pads.blanked"
door </dev/null
same 'the bundled example' "$work/out" "$data/example.blanked"
(cd "$work" && "$root/negoex" blank 'name with  spaces') >"$work/out" 2>"$work/said"
written 'a file by a relative name' "$data/example.blanked"
door "$data/refused"
expect 'refused: status' "$status" 3
same 'refused: what is written' "$work/out" /dev/null
expect 'refused: what is said first' "$(head -n 1 "$work/said")" 'refused 12 at=68'
expect 'refused: what it means' "$(sed -n 2p "$work/said")" "$(./negoex list --raw "$data/refused" 2>&1 >/dev/null | head -n 1)"
door "$work/zeros-65536"
expect 'too long: status' "$status" 3
expect 'too long: what is said first' "$(head -n 1 "$work/said")" 'refused 1 at=0'
door "$work/missing"
expect 'missing: status' "$status" 1
refused 'missing' "negoex: no such file: $work/missing"
door "$work/folder"
expect 'a folder: status' "$status" 1
refused 'a folder' "negoex: a folder, and no file: $work/folder"
door "$data/example" "$data/pads"
expect 'two files: status' "$status" 2

printf 'tests/programs/blank.sh: %d cases, %d failed\n' "$cases" "$failures"
[ "$failures" -eq 0 ]
