#!/bin/sh
# What `unwrap` and `wrap` answer together: of each captured envelope the token is the one that was captured beside it, its listing follows, and the envelope
# written again from what was shown is the same octets. Prints one line for each failure, and last how many cases there were.
set -u
cd "$(dirname "$0")/../.." || exit 1
root=$PWD
for program in list unwrap wrap; do
    [ -x "crates/$program/out/$program" ] || { echo "tests/programs/envelope.sh: crates/$program/out/$program is not built" >&2; exit 1; }
done
work=$(mktemp -d) || exit 1
trap 'rm -rf "$work"' EXIT
data=$root/crates/envelopes/data
tokens=$root/crates/examples/data
cases=0
failures=0

# expect WHAT GOT WANTED
expect() {
    cases=$((cases + 1))
    if [ "$2" != "$3" ]; then
        failures=$((failures + 1))
        printf 'tests/programs/envelope.sh: %s: got "%.200s", and not "%.200s"\n' "$1" "$2" "$3" >&2
    fi
}

run() { printf '%s\n' "$2" | "$root/crates/$1/out/$1"; }
hex() { od -An -v -tx1 "$1" | tr -d ' \n' | tr a-f A-F; }

# The text that says what `unwrap` showed of the file $1, with the token's octets from the file.
again() {
    while read -r word rest; do
        case $word in
            envelope) echo "${rest%% *}" ;;
            mechanism) rest=${rest#* }; echo "mechanism ${rest% negoex}" ;;
            flags | state | checksum) echo "$word $rest" ;;
            token) token=$(hex "$work/token"); echo "token ${token:--}" ;;
        esac
    done <"$work/shown"
}

# The envelope $1: its token is cut out, listed and compared with the captured one; it is written again.
whole() {
    run unwrap "$data/$1" >"$work/all"
    sed '/^message \|^refused .* at=\|^end /,$d' "$work/all" >"$work/shown"
    place=$(sed -n 's/^token at=\([0-9]*\) .*/\1/p' "$work/shown")
    size=$(sed -n 's/^token at=.* length=//p' "$work/shown")
    : >"$work/token"
    [ -z "$place" ] || dd if="$data/$1" of="$work/token" bs=1 skip="$place" count="$size" 2>/dev/null
    captured=$tokens/${1%.spnego}.negoex
    if [ -e "$captured" ]; then
        expect "$1, the token" "$(hex "$work/token")" "$(hex "$captured")"
    fi
    case $(hex "$work/token") in
        4E45474F45585453*) expect "$1, the listing" "$(cat "$work/all")" "$(cat "$work/shown"; run list "$work/token")" ;;
        *) expect "$1, nothing behind" "$(cat "$work/all")" "$(cat "$work/shown")" ;;
    esac
    again >"$work/text"
    octets=$(hex "$data/$1")
    expect "$1, written again" "$(run wrap "$work/text")" "wrote $((${#octets} / 2)) $octets"
}

for path in "$data"/mit-* "$data"/init-all-fields "$data"/init-empty-fields "$data"/init-sixteen-mechanisms "$data"/resp-*; do
    name=${path##*/}
    [ "$name" = mit-exact-65535-00-i.spnego ] || whole "$name"
done
expect 'an envelope of 65,583 octets' "$(run unwrap "$data/mit-exact-65535-00-i.spnego")" 'refused 1 at=0'

mkdir "$work/folder"
for program in unwrap wrap; do
    expect "$program: a folder" "$(run "$program" "$work/folder")" 'no file'
    expect "$program: no name" "$("$root/crates/$program/out/$program" </dev/null)" 'no file'
    expect "$program: the front door" "$("$root/negoex" "$program" </dev/null 2>/dev/null)" "$(cat "crates/$program/stdout")"
    "$root/negoex" "$program" "$work/missing" 2>/dev/null && expect "$program: a missing file" 'status 0' 'another status'
done
head -c 262144 /dev/zero | tr '\0' '#' >"$work/long"
expect 'wrap: a text of 262,144 octets' "$(run wrap "$work/long")" 'refused 1 at=0'

# The front door: what is said of a refusal. says STATUS LAST WORD FILE LINE..: of the file
says() {
    status=$1 last=$2 word=$3 file=$4
    shift 4
    ./negoex "$word" "$file" >"$work/output" 2>"$work/errors"
    expect "$word $file: status" "$?" "$status"
    expect "$word $file: last line" "$(tail -n 1 "$work/output")" "$last"
    expect "$word $file: words" "$(cat "$work/errors")" "$(printf 'negoex: %s\n' "$@")"
}
read_there='README.md, "What an envelope looks like", has the numbers of an envelope, docs/RULES.md those of a token'
written_there='README.md, "What an envelope looks like", has the form of a text and the numbers'
says 3 'refused 1 at=0' unwrap "$data/refused-1-65536-octets" 'refused 1: longer than 65,535 octets' 'it has 65536 octets' "$read_there"
says 3 'refused 20 at=0' unwrap "$data/refused-20-state-4" \
    'refused 20: a tag, the identifier of the wrapper or a state is another, a required element or all mechanisms are missing, or a length goes past its holder' "$read_there"
says 3 'refused 21 at=0' unwrap "$data/refused-21-indefinite" 'refused 21: a length is indefinite or not the shortest' "$read_there"
says 3 'refused 22 at=0' unwrap "$data/refused-22-field-a4" 'refused 22: octets are left over, or a tag is unknown or misplaced' "$read_there"
says 3 'refused 23 at=0' unwrap "$data/refused-23-seventeen" 'refused 23: a seventeenth mechanism' "$read_there"

# A refused token in an envelope: the lines that `list` says of it, counted from where it stands.
token=$tokens/refused-11-second-of-three
{ echo init; echo 'mechanism 2B06010401823702021E'; echo "token $(hex "$token")"; } >"$work/text"
./negoex wrap "$work/text" 2>/dev/null | sed 's/.* //' >"$work/hex"
sh tools/decode.sh hex "$work/hex" "$work/envelope" >/dev/null
./negoex list "$token" 2>&1 >/dev/null | sed 's/^negoex: //' >"$work/said"
start=$(($(wc -c <"$work/envelope") - $(wc -c <"$token")))
says 3 'refused 11 at=112' unwrap "$work/envelope" "the token begins at octet $start of the file; octets are counted from there" \
    "$(sed -n 1p "$work/said")" "$(sed -n 2p "$work/said")" "$(sed -n 3p "$work/said")" "$read_there"

echo init >"$work/text"
says 3 'refused 20 at=0' wrap "$work/text" 'refused 20: an Init names no mechanism, or the state is above 3' "$written_there"
{ echo init; yes 'mechanism 06' | head -n 17; } >"$work/text"
says 3 'refused 23 at=0' wrap "$work/text" 'refused 23: more than 16 mechanisms' "$written_there"
says 3 'refused 1 at=0' wrap "$work/long" 'refused 1: the envelope would have more than 65,535 octets, or the text has more than 262,143' "$written_there"
echo resp, >"$work/text"
says 3 'bad line' wrap "$work/text" "$written_there"

[ "$failures" -eq 0 ] || exit 1
echo "envelope: $cases cases"
