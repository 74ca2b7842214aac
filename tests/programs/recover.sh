#!/bin/sh
# What `recover` and the front door answer to odd input, and that a token which `list` accepts is recovered whole. Prints one line for each failure, and
# last how many cases there were.
set -u
cd "$(dirname "$0")/../.." || exit 1
root=$PWD
recover=$root/crates/recover/out/recover
list=$root/crates/list/out/list
for program in "$recover" "$list"; do
    [ -x "$program" ] || { echo "tests/programs/recover.sh: $program is not built" >&2; exit 1; }
done
work=$(mktemp -d) || exit 1
trap 'rm -rf "$work"' EXIT
example=$root/crates/recover/data/example
expected=$(cat crates/recover/stdout)
cases=0
failures=0

# expect WHAT GOT WANTED
expect() {
    cases=$((cases + 1))
    if [ "$2" != "$3" ]; then
        failures=$((failures + 1))
        printf 'tests/programs/recover.sh: %s: got "%s", and not "%s"\n' "$1" "$2" "$3" >&2
    fi
}

zeros() { dd if=/dev/zero of="$work/$1" bs="$2" count=1 2>/dev/null; }
of() { printf '%s\n' "$1" | "$recover"; }
lines() { printf '%s\n' "$@"; }

: >"$work/empty"
mkdir "$work/folder"
zeros zeros-65535 65535
zeros zeros-65536 65536
zeros zeros-1000000 1000000
cp "$example" "$work/name with  spaces"

expect 'an empty file' "$(of "$work/empty")" 'end messages=0 octets=0'
expect 'a folder' "$(of "$work/folder")" 'no file'
expect 'a missing file' "$(of "$work/missing")" 'no file'
expect '65,535 octets' "$(of "$work/zeros-65535")" "$(lines 'skipped at=0 length=65535' 'end messages=0 octets=65535')"
expect '65,536 octets' "$(of "$work/zeros-65536")" 'refused 1 at=0'
expect '1,000,000 octets' "$(of "$work/zeros-1000000")" 'refused 1 at=0'
expect 'a name with spaces' "$(of "$work/name with  spaces")" "$expected"
expect 'no line end behind the name' "$(printf '%s' "$example" | "$recover")" "$expected"
expect 'only the first line is the name' "$(printf '%s\n%s\n' "$example" "$work/missing" | "$recover")" "$expected"
expect 'an empty first line' "$(printf '\n%s\n' "$example" | "$recover")" 'no file'
expect 'an empty standard input' "$("$recover" </dev/null)" 'no file'

# a token that is accepted has the same lines in both programs
for file in crates/examples/data/*; do
    listed=$(printf '%s\n' "$root/$file" | "$list")
    case $listed in refused*) continue ;; esac
    expect "$file" "$(of "$root/$file")" "$listed"
done

# damage in front of a tail, of any length, changes no line of the tail but for `at`: here each message of the example is cut at, and its tail read alone
from() { sed -n "/^message at=$1 /,\$p" | sed '$d' | sed -e 's/^message at=[0-9]*/message/' -e 's/^skipped at=[0-9]*/skipped/'; }
for at in $(printf '%s\n' "$expected" | sed -n 's/^message at=\([0-9]*\) .*/\1/p'); do
    tail -c "+$((at + 1))" "$example" >"$work/tail"
    alone=$(of "$work/tail" | from 0)
    expect "the tail from $at" "$(printf '%s\n' "$expected" | from "$at")" "$alone"
    for front in 1 7 64 1000; do
        head -c "$front" "$work/zeros-65535" | cat - "$work/tail" >"$work/damaged"
        expect "$front octets before the tail from $at" "$(of "$work/damaged" | from "$front")" "$alone"
    done
done

expect 'the bundled example' "$(./negoex recover </dev/null 2>/dev/null)" "$expected"
expect 'a file by a relative name' "$(cd "$work" && "$root/negoex" recover 'name with  spaces')" "$expected"
expect 'standard input' "$(./negoex recover <"$example")" "$expected"
expect 'too long a file at the front door' "$(./negoex recover "$work/zeros-65536" 2>/dev/null; echo "status $?")" "$(lines 'refused 1 at=0' 'status 3')"
expect 'a missing file at the front door' "$(./negoex recover "$work/missing" 2>&1)" "negoex: no such file: $work/missing"

printf 'tests/programs/recover.sh: %d cases, %d failed\n' "$cases" "$failures"
[ "$failures" -eq 0 ]
