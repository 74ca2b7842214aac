#!/bin/sh
# What `tally` and the front door count. Prints one line for each failure, and last how many cases there were.
set -u
cd "$(dirname "$0")/../.." || exit 1
root=$PWD
tally=$root/crates/tally/out/tally
[ -x "$tally" ] || { echo "tests/programs/tally.sh: crates/tally/out/tally is not built" >&2; exit 1; }
work=$(mktemp -d) || exit 1
trap 'rm -rf "$work"' EXIT
data=$root/crates/tally/data
captures=$root/crates/examples/data
cases=0
failures=0

# expect WHAT GOT WANTED
expect() {
    cases=$((cases + 1))
    if [ "$2" != "$3" ]; then
        failures=$((failures + 1))
        printf 'tests/programs/tally.sh: %s: got "%s", and not "%s"\n' "$1" "$(printf '%s' "$2" | head -c 600)" "$3" >&2
    fi
}

# The counts of the types from 0 to 7, then headers, vectors and bare; the lines of refusals and schemes; others and unopened.
text() {
    k=0
    for n in $1; do
        echo "type $k count=$n"
        k=$((k + 1))
    done
    echo "headers=$2"
    echo "vectors=$3"
    echo "bare=$4"
    [ -z "$5" ] || printf '%s\n' "$5"
    echo "others count=$6"
    echo "unopened count=$7"
}

none='0 0 0 0 0 0 0 0'
nothing=$(text "$none" 0 0 0 '' 0 0)
missing=$(text "$none" 0 0 0 'refused 27 count=1' 0 0)

expect 'no input' "$("$tally" </dev/null)" "$nothing"
expect 'an empty line' "$(echo | "$tally")" "$missing"
expect 'a missing file' "$(echo "$work/missing" | "$tally")" "$missing"
expect 'a folder' "$(echo "$work" | "$tally")" "$missing"
expect 'a name of 5,000 octets' "$(printf '%05000d\n' 0 | "$tally")" "$missing"
expect 'a name of 70,000 octets, and another' "$(printf '%070000d\n\n' 0 | "$tally")" "$(text "$none" 0 0 0 'refused 27 count=2' 0 0)"
expect 'a name with a zero in it' "$(printf '%s/all-types\0\n' "$data" | "$tally")" "$missing"

types=$(text '1 1 1 1 1 1 1 1' 600 105 0 'scheme 3C1596DE-AD1F-5CEA-6768-F19B064F1C96 count=2' 0 0)
expect 'all types' "$(echo "$data/all-types" | "$tally")" "$types"
expect 'no line end behind the name' "$(printf '%s' "$data/all-types" | "$tally")" "$types"
cp "$data/all-types" "$work/name with  spaces"
expect 'a name with spaces' "$(echo "$work/name with  spaces" | "$tally")" "$types"

head -c 65536 /dev/zero >"$work/65536"
head -c 65535 /dev/zero >"$work/65535"
: >"$work/empty"
expect 'files too long, full of zeros and empty' "$(printf '%s\n' "$work/65536" "$work/65535" "$work/empty" "$work/65536" | "$tally")" \
    "$(text "$none" 0 0 0 'refused 1 count=2
refused 2 count=1
refused 3 count=1' 0 0)"

# Every token that an independent implementation sent in the captures.
expect 'captures' "$(LC_ALL=C ls "$captures"/mit-*.negoex | "$tally")" 'type 0 count=28
type 1 count=26
type 2 count=34
type 3 count=30
type 4 count=27
type 5 count=38
type 6 count=46
type 7 count=1
headers=17192
vectors=69217
bare=0
scheme 00112233-4455-6677-8899-AABBCCDDEEFF count=47
scheme 0D53335C-F9EA-4D0D-B2EC-4AE3786EC308 count=31
scheme 0CD065B1-2E17-4593-8F60-12FE01807FC1 count=17
scheme FFFFFFFF-FFFF-FFFF-FFFF-FFFFFFFFFFFF count=4
scheme 00000000-0000-0000-0000-000000000000 count=4
scheme DDD2C7BC-F3E8-09FE-141F-2A35404B5661 count=2
scheme 02F7ECE1-180D-2E23-3944-4F5A65707B86 count=2
scheme 271C1106-3D32-5348-5E69-747F8A95A0AB count=2
scheme 4C41362B-6257-786D-838E-99A4AFBAC5D0 count=2
scheme 71665B50-877C-9D92-A8B3-BEC9D4DFEAF5 count=2
scheme 968B8075-ACA1-C2B7-CDD8-E3EEF9040F1A count=2
scheme BBB0A59A-D1C6-E7DC-F2FD-08131E29343F count=2
scheme E0D5CABF-F6EB-0C01-1722-2D38434E5964 count=2
scheme 05FAEFE4-1B10-3126-3C47-525D68737E89 count=2
scheme 2A1F1409-4035-564B-616C-77828D98A3AE count=2
scheme 4F44392E-655A-7B70-8691-9CA7B2BDC8D3 count=2
others count=0
unopened count=0'

# 1,000 names, and one beyond them.
yes "$data/schemes-none" | head -n 1000 >"$work/1000"
thousand=$(text '1000 0 0 0 0 0 0 0' 96000 0 0 '' 0 0)
expect '1,000 names' "$("$tally" <"$work/1000")" "$thousand"
{ cat "$work/1000"; echo "$data/all-types"; } >"$work/1001"
expect '1,001 names' "$("$tally" <"$work/1001")" "$(text '1000 0 0 0 0 0 0 0' 96000 0 0 '' 0 1)"
yes "$work/missing" | head -n 5000 | "$tally" >"$work/output"
expect '5,000 names' "$(cat "$work/output")" "$(text "$none" 0 0 0 'refused 27 count=1000' 0 4000)"

# The front door.
expect 'no arguments' "$(echo "$data/all-types" | ./negoex tally)" "$types"
expect 'an argument' "$(./negoex tally "$data/all-types" </dev/null)" "$types"
expect 'names as they are seen by the caller' "$(cd "$data" && "$root/negoex" tally all-types missing 2>/dev/null)" \
    "$(text '1 1 1 1 1 1 1 1' 600 105 0 'refused 27 count=1
scheme 3C1596DE-AD1F-5CEA-6768-F19B064F1C96 count=2' 0 0)"

# said WHAT STATUS LINE WORDS..: the front door ends with the status, and with the line on standard error
said() {
    what=$1 status=$2 line=$3
    shift 3
    (cd "$data" && "$root/negoex" tally "$@") >/dev/null 2>"$work/errors"
    expect "$what: status" "$?" "$status"
    expect "$what: line" "$(cat "$work/errors")" "$line"
}
mkdir "$work/folder"
said 'all there' 0 '' all-types values-apart
said 'refused' 0 '' refused-critical all-types
said 'a missing file' 1 'negoex: 1 of the files cannot be opened, the first of them: missing' all-types missing
said 'a folder and a missing file' 1 "negoex: 2 of the files cannot be opened, the first of them: $work/folder" all-types "$work/folder" missing
said 'an empty name' 1 'negoex: 1 of the files cannot be opened, the first of them: ' ''
printf 'all-types\nmissing' >"$work/names"
said 'a missing file, named on standard input' 1 'negoex: 1 of the files cannot be opened, the first of them: missing' <"$work/names"
expect 'names on standard input, by a dash' "$(echo "$data/all-types" | ./negoex tally -)" "$types"
said 'a name with a line end' 1 'negoex: a name with a line end in it cannot be given on' "$(printf 'two\nlines')"
expect 'the bundled captures' "$(./negoex tally </dev/null 2>"$work/errors")" "$(cd "$captures" && LC_ALL=C ls *.negoex | "$tally")"
expect 'the bundled captures: said' "$(cat "$work/errors")" 'negoex: no FILE is given: these are the bundled captures, crates/examples/data/*.negoex'

printf 'tests/programs/tally.sh: %d cases, %d failed\n' "$cases" "$failures"
[ "$failures" -eq 0 ]
