#!/bin/sh
# What README.md shows of the programs is what they print: listings, the damaged capture and the replay whole, and what is said beside a refusal; of the script and its answers, the envelope, the writing of
# one and the tally each line (`..` stands for anything). The piece of a program that it shows stands in that program.
set -u
cd "$(dirname "$0")/../.." || exit 1
work=$(mktemp -d) || exit 1
trap 'rm -rf "$work"' EXIT
failures=0

# shown COMMAND: the lines under `$ COMMAND` in README.md, up to the end of their block
shown() {
    awk -v command="    \$ $1" '
        $0 == command { on = 1; next }
        on && /^    / { print substr($0, 5); next }
        { on = 0 }' README.md
}

fail() {
    failures=$((failures + 1))
    printf 'tests/programs/readme.sh: %s\n' "$1" >&2
}

sed -n 's/^    \$ \(\.\/negoex list.*\)$/\1/p' README.md >"$work/commands"
while IFS= read -r command; do
    shown "$command" >"$work/shown"
    cat "$work/shown" >>"$work/listing"
    sh -c "$command" </dev/null >"$work/printed" 2>>"$work/said"
    cmp -s "$work/shown" "$work/printed" || fail "the listing is another: $command"
done <"$work/commands"
[ -s "$work/listing" ] || fail 'no listing is shown'
sed -n 's/^    \(negoex: .*\)$/\1/p' README.md >"$work/beside"
[ -s "$work/beside" ] || fail 'nothing is shown of what is said beside a refusal'
grep -v 'no FILE is given' "$work/said" | cmp -s "$work/beside" - || fail 'what is said beside a refusal is another'

awk '/^## /{ on = $0 == "## Calling the library" } on && /^    / { print substr($0, 5) }' README.md >"$work/piece"
[ -s "$work/piece" ] || fail 'no piece of a program is shown'
while IFS= read -r line; do
    grep -qF -- "$line" crates/sample/src/main.rt || fail "crates/sample/src/main.rt has no such line: $line"
done <"$work/piece"

shown './negoex recover' >"$work/recovered"
./negoex recover </dev/null >"$work/printed" 2>/dev/null
cmp -s "$work/recovered" "$work/printed" || fail 'the damaged capture is another'

shown './negoex replay' >"$work/replayed"
./negoex replay </dev/null >"$work/printed" 2>/dev/null
cmp -s "$work/replayed" "$work/printed" || fail 'the replay is another'
sed -n 's/^    \(initiator .*\)$/\1/p; s/^    \(acceptor .*\)$/\1/p; s/^    \([ia] [0-9].*\)$/\1/p' README.md >"$work/case"
grep -v '^#' crates/replay/data/example | cmp -s "$work/case" - || fail 'the case is another'

for word in converse unwrap wrap tally; do
    shown "./negoex $word" >"$work/some"
    ./negoex "$word" </dev/null >"$work/printed" 2>/dev/null
    [ -s "$work/some" ] || fail "no answers of $word are shown"
    while IFS= read -r line; do
        pattern=$(printf '%s\n' "$line" | sed 's/[][*^$\\]/\\&/g; s/\.\./.*/g')
        grep -qx -- "$pattern" "$work/printed" || fail "no such answer of $word: $line"
    done <"$work/some"
    cat "$work/some" >>"$work/answers"
done

sed -n 's/^    \(open [ia] .*\)$/\1/p; s/^    \([ia] [a-z][a-z]* .*\)$/\1/p; s/^    \([ia] read\)$/\1/p' README.md | grep -v 'ROOM' >"$work/calls"
[ -s "$work/calls" ] || fail 'no calls are shown'
while IFS= read -r line; do
    grep -qxF -- "$line" crates/converse/data/example || fail "no such call in the bundled script: $line"
done <"$work/calls"

printf 'tests/programs/readme.sh: %d lines shown, %d not so\n' "$(cat "$work/listing" "$work/recovered" "$work/replayed" "$work/case" "$work/beside" "$work/piece" "$work/answers" "$work/calls" | wc -l)" "$failures"
[ "$failures" -eq 0 ]
