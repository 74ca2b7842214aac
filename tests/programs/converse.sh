#!/bin/sh
# What `converse` and the front door answer to odd scripts. Prints one line for each failure, and last how many cases there were.
set -u
cd "$(dirname "$0")/../.." || exit 1
root=$PWD
converse=$root/crates/converse/out/converse
[ -x "$converse" ] || { echo "tests/programs/converse.sh: crates/converse/out/converse is not built" >&2; exit 1; }
work=$(mktemp -d) || exit 1
trap 'rm -rf "$work"' EXIT
data=$root/crates/scripts/data
example=$root/crates/converse/data/example
expected=$(cat crates/converse/stdout)
cases=0
failures=0

# expect WHAT GOT WANTED
expect() {
    cases=$((cases + 1))
    if [ "$2" != "$3" ]; then
        failures=$((failures + 1))
        printf 'tests/programs/converse.sh: %s: got "%s", and not "%s"\n' "$1" "$(printf '%s' "$2" | head -c 300)" "$3" >&2
    fi
}

of() { printf '%s\n' "$1" | "$converse"; }

# The files.
: >"$work/empty"
mkdir "$work/folder"
printf '#%0262142d' 0 >"$work/262143"
printf '#%0262143d' 0 >"$work/262144"
printf '#%0999999d' 0 >"$work/1000000"
cp "$example" "$work/name with  spaces"
expect 'an empty script' "$(of "$work/empty")" 'used i=0 a=0'
expect 'a folder' "$(of "$work/folder")" 'no file'
expect 'a missing file' "$(of "$work/missing")" 'no file'
expect '262,143 octets' "$(of "$work/262143")" 'used i=0 a=0'
expect '262,144 octets' "$(of "$work/262144")" 'refused 1 at=0'
expect '1,000,000 octets' "$(of "$work/1000000")" 'refused 1 at=0'
expect 'a name with spaces' "$(of "$work/name with  spaces")" "$expected"

# 18 goes before 1: the initiator has written nothing, and the token is longer than 65,535.
{
    echo 'open i 65535 C0FFEE00-0001-0002-0003-000405060708 00112233-4455-6677-8899-AABBCCDDEEFF'
    printf 'i read %0131072d\n' 0
} >"$work/early"
expect 'a token too long, out of stage' "$(of "$work/early")" 'opened
refused 18 at=0
used i=0 a=0'
expect 'no line end behind the name' "$(printf '%s' "$example" | "$converse")" "$expected"
expect 'only the first line is the name' "$(printf '%s\n%s\n' "$example" "$work/missing" | "$converse")" "$expected"
expect 'an empty standard input' "$("$converse" </dev/null)" 'no file'
expect 'a name of 5,000 octets' "$(printf '%05000d\n' 0 | "$converse")" 'no file'

# ended WHAT FILE: the run ends, with a line for each call and the last line behind them.
ended() {
    calls=$(LC_ALL=C grep -ac '^[^#]' "$2")
    of "$2" >"$work/output"
    expect "$1: lines" "$(wc -l <"$work/output")" "$((calls + 1))"
    expect "$1: last line" "$(tail -n 1 "$work/output" | sed 's/[0-9][0-9]*/N/g')" 'used i=N a=N'
}

# Scripts cut anywhere: every 37th octet, and each octet of one line.
whole=$data/full-conversation
size=$(wc -c <"$whole")
at=0
while [ "$at" -le "$size" ]; do
    head -c "$at" "$whole" >"$work/cut"
    ended "cut at $at" "$work/cut"
    at=$((at + 37))
done
head -n 2 "$data/p11" >"$work/two"
size=$(wc -c <"$work/two")
at=$((size - 80))
while [ "$at" -le "$size" ]; do
    head -c "$at" "$work/two" >"$work/cut"
    ended "an opening cut at $at" "$work/cut"
    at=$((at + 1))
done

# Every digit of a conversation made another, or none.
for change in 's/0/1/g' 's/A/G/g' 's/-/--/g' 's/ /  /g' 's/ /	/g' 's/read/Read/' 's/$/ /' 's/0000/000/' 's/65535/65537/'; do
    sed "$change" "$whole" >"$work/changed"
    ended "$change" "$work/changed"
done
tr '\n' ' ' <"$whole" | sed 's/^#/open/' >"$work/one-line"
expect 'all in one line' "$(of "$work/one-line" | tr '\n' '/')" 'bad line/used i=0 a=0/'

# Very long lines.
{ head -n 2 "$data/room-65535" | sed 's/^/#/'; grep '^open i' "$data/room-65535"; printf 'i exchange %0260000d\n' 0; } >"$work/long"
expect 'an exchange of 130,000 octets before the NEGO' "$(of "$work/long" | tr '\n' '/')" 'opened/refused 18 at=0/used i=0 a=0/'
{ grep '^open i' "$data/room-65535"; grep '^i offer' "$data/room-65535"; printf 'i exchange %0260000d\n' 0; } >"$work/long"
expect 'an exchange of 130,000 octets' "$(of "$work/long" | tail -n 2 | tr '\n' '/')" 'refused 16 at=0/used i=112 a=0/'
{ grep '^open i' "$data/room-65535"; printf 'i exchange %0260001d\n' 0; } >"$work/long"
expect 'an odd number of digits' "$(of "$work/long" | tail -n 2 | tr '\n' '/')" 'bad line/used i=0 a=0/'
awk 'BEGIN { printf "open a 1"; for (k = 0; k < 7000; k++) printf " %08X-0000-0000-0000-000000000000", k; print "" }' >"$work/long"
expect 'a list of 7,000 ids' "$(of "$work/long" | tr '\n' '/')" 'refused 19 at=0/used i=0 a=0/'
awk 'BEGIN { printf "open a 1"; for (k = 0; k < 7000; k++) printf " %08X-0000-0000-0000-000000000000", k; print "0" }' >"$work/long"
expect 'a list of 7,000 ids and a digit too many' "$(of "$work/long" | tr '\n' '/')" 'bad line/used i=0 a=0/'

# offered WHAT WANTED: an offer with the extensions in the file `extensions`
offered() {
    { grep '^open i' "$data/room-65535"; printf 'i offer %064d%s\n' 0 "$(cat "$work/extensions")"; } >"$work/long"
    expect "$1" "$(of "$work/long" | tr '\n' '/')" "opened/$2/used i=0 a=0/"
}
printf ' 00000001:%0260000d' 0 >"$work/extensions"
offered 'an extension of 130,000 octets' 'refused 25 at=0'
printf ' 00000001:%0260001d' 0 >"$work/extensions"
offered 'an extension with an odd number of digits' 'bad line'
awk 'BEGIN { for (k = 0; k < 20000; k++) printf " %08X:-", k }' >"$work/extensions"
offered '20,000 extensions' 'refused 25 at=0'
awk 'BEGIN { for (k = 0; k < 19999; k++) printf " %08X:-", k; printf " 0000001:-" }' >"$work/extensions"
offered '20,000 extensions, the last with seven digits' 'bad line'

# Ten thousand lines.
awk 'BEGIN { for (k = 0; k < 10000; k++) print "a read" }' >"$work/many"
expect '10,000 calls at an end that is not open' "$(of "$work/many" | sort | uniq -c | tr -s ' ' | tr '\n' '/')" ' 10000 bad line/ 1 used i=0 a=0/'
{ grep '^open a' "$data/p11"; cat "$work/many"; } >"$work/more"
expect '10,000 readings' "$(of "$work/more" | sort | uniq -c | tr -s ' ' | tr '\n' '/')" ' 1 opened/ 10000 refused 2 at=0/ 1 used i=0 a=0/'
awk 'BEGIN { for (k = 0; k < 20000; k++) print (k % 2 ? "#" : "") }' >"$work/none"
expect '20,000 lines that are passed over' "$(of "$work/none")" 'used i=0 a=0'

# The bundled scripts.
while read -r name; do
    [ -e "$data/$name" ] || continue
    ended "$name" "$data/$name"
done <crates/scripts/stdin

# In the captured conversations that are accepted to the end, our two ends write what they read of the other implementation, octet for octet but for
# octet 86 of a NEGO: a pad, which is written as zero, and which the other implementation fills.
for name in cksum-etype18 cksum-etype23 meta-odd-sizes one-2hop one-3hop one-meta-3hop one-noopt-2hop opt-accept-fails p11-cb-abc p12-cb-abc-amark \
    p12-cb-abc-imark rounds-9 sixteen spnego-also three-rev-meta three-same-meta verify-early-ini verify-early-notacc xchg-fail-ini-first; do
    grep '^[^#]' "$data/mit-$name" >"$work/calls"
    of "$data/mit-$name" | paste "$work/calls" - | awk -F '\t' '{
        split($1, call, " "); split($2, answer, " ")
        if (call[2] == "read" && answer[1] == "read") {
            if (substr(call[3], 17, 8) ~ /^0[01]000000$/ && substr(call[3], 173, 2) != "00") {
                negos++
                call[3] = substr(call[3], 1, 172) "00" substr(call[3], 175)
            }
            read = read call[3]
        }
        if (answer[1] == "wrote") wrote = wrote answer[3]
    } END { print (read != "" && read == wrote) ? "the same" : "another", negos + 0 }' >"$work/output"
    expect "mit-$name: octets, and NEGOs with octet 86 not zero" "$(cat "$work/output")" 'the same 2'
done

# The front door.
expect 'the bundled script' "$(./negoex converse </dev/null 2>/dev/null)" "$expected"
expect 'a script on standard input' "$(./negoex converse <"$example" 2>/dev/null)" "$expected"
expect 'a script by a relative name' "$(cd "$work" && "$root/negoex" converse 'name with  spaces' 2>/dev/null)" "$expected"
got=$("$root/negoex" converse "$work/missing" 2>"$work/errors")
expect 'a missing script: status' "$?" 1
expect 'a missing script: output' "$got" ''
expect 'a missing script: line' "$(cat "$work/errors")" "negoex: no such file: $work/missing"

printf 'tests/programs/converse.sh: %d cases, %d failed\n' "$cases" "$failures"
[ "$failures" -eq 0 ]
