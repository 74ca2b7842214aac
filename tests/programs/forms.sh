#!/bin/sh
# In whatever form a token comes, the front door lists that token and says what it decoded. Prints one line for each failure, and last how many cases there were.
set -u
cd "$(dirname "$0")/../.." || exit 1
root=$PWD
[ -x crates/list/out/list ] || { echo "tests/programs/forms.sh: crates/list/out/list is not built" >&2; exit 1; }
work=$(mktemp -d) || exit 1
trap 'rm -rf "$work"' EXIT
cases=0
failures=0

# expect WHAT GOT WANTED
expect() {
    cases=$((cases + 1))
    if [ "$2" != "$3" ]; then
        failures=$((failures + 1))
        printf 'tests/programs/forms.sh: %s: got "%s", and not "%s"\n' "$1" "$(printf '%s' "$2" | head -c 300)" "$3" >&2
    fi
}

# the token under trial, its listing and its length
token=
try() {
    token=$root/crates/examples/data/$1
    listing=$(printf '%s\n' "$token" | crates/list/out/list)
    size=$(($(wc -c <"$token")))
}

# lists WHAT NOTE [WORD..]: $work/in is listed as the token, and standard error has the one line NOTE, or none
lists() {
    what=$1 note=$2
    shift 2
    expect "$what" "$(./negoex list "$@" "$work/in" 2>"$work/errors")" "$listing"
    expect "$what: line" "$(cat "$work/errors")" "${note:+negoex: $note}"
}

hex() { od -An -v -tx1 "$1" | tr -d ' \n'; }
# the octets of a token in hexadecimal, with a line end
dump() { od -An -v -tx1 -w16 "$token" | awk -v style="$1" '
    {
        # The characters are made up: they look like octets, and have each sign that could end a line of them.
        characters = "|00 ff  > 4e45    0|"
        octets = groups = ""
        for (k = 1; k <= NF; k++) {
            octets = octets (k > 1 ? " " : "") (k == 9 && style == "hexdump" ? " " : "") $k
            groups = groups (k > 1 && k % 2 ? " " : "") $k
        }
        if (style == "xxd") printf "%08x: %-39s  %s\n", at, groups, characters
        if (style == "hexdump") printf "%08x  %-48s  |%s|\n", at, octets, characters
        if (style == "tshark") printf "%04X  %-47s   %s\n", at, octets, characters
        if (style == "wireshark") printf "%04x   %s\n", at, octets
        at += NF
    }
    END { if (style == "hexdump") printf "%08x\n", at }'; }

for name in windows-hint.negoex kinds-0-to-7; do
    try "$name"
    cp "$token" "$work/in"
    lists "$name: octets" ''
    lists "$name: octets, asked for" '' --raw
    hex "$token" >"$work/in"
    lists "$name: hexadecimal" "hexadecimal text: $size octets"
    lists "$name: hexadecimal, asked for" "hexadecimal text: $size octets" --hex
    hex "$token" | tr 'a-f' 'A-F' | sed 's/../0x&, /g' | fold -w 72 >"$work/in"
    lists "$name: hexadecimal with 0x" "hexadecimal text: $size octets"
    for style in xxd hexdump tshark wireshark; do
        dump "$style" >"$work/in"
        lists "$name: dump of $style" "hex dump: $size octets"
        lists "$name: dump of $style, asked for" "hex dump: $size octets" --dump
    done
    base64 "$token" >"$work/in"
    lists "$name: base64" "base64: $size octets"
    lists "$name: base64, asked for" "base64: $size octets" --base64
    printf 'HTTP/1.1 401 Unauthorized\r\nWWW-Authenticate: Negotiate\r\nWWW-Authenticate: Negotiate %s\r\n' "$(base64 -w 0 "$token")" >"$work/in"
    lists "$name: a header line" "base64 of the first Negotiate line that has a token: $size octets"
done

try windows-hint.negoex
for words in '-tx1' '-v -tx1' '-Ax -tx1z' '-Ad -tx1' '-x' '-Ax -tx4' '-tx1 -w8'; do
    od $words "$token" >"$work/in"
    lists "od $words" 'hex dump: 264 octets'
done
hex "$token" | sed 's/../&-/g; s/-$//' >"$work/in"
lists 'hexadecimal with dashes' 'hexadecimal text: 264 octets'
hex "$token" | fold -w 32 | sed 's/../\\x&/g; s/.*/"&" \\/; $s/ .$//' >"$work/in"
lists 'hexadecimal with \x' 'hexadecimal text: 264 octets'
{ printf '\357\273\277'; dump xxd | sed 's/$/\r/'; } >"$work/in"
lists 'a dump with a byte order mark and carriage returns' 'hex dump: 264 octets'
printf 'authorization: negotiate %s' "$(base64 -w 0 "$token")" >"$work/in"
lists 'a header line in lower case' 'base64 of the first Negotiate line that has a token: 264 octets'
try length-65535
od "$token" -tx1 >"$work/in"
lists 'a dump with lines left out' 'hex dump: 65535 octets'
try refused-1-65536
od "$token" -tx1 >"$work/in"
expect 'a dump of 65,536 octets' "$(./negoex list "$work/in" 2>/dev/null)" 'refused 1 at=0'

# A length in DER: one octet up to 127, else as many as it needs behind their number.
der_length() {
    if [ "$1" -lt 128 ]; then printf "\\$(printf %o "$1")"
    elif [ "$1" -lt 256 ]; then printf "\\201\\$(printf %o "$1")"
    else printf "\\202\\$(printf %o $(($1 / 256)))\\$(printf %o $(($1 % 256)))"; fi
}
# element TAG: standard input as the contents of a DER element; the tag in octal
element() { cat >"$work/of.$1"; printf "\\$1"; der_length "$(wc -c <"$work/of.$1")"; cat "$work/of.$1"; }
for name in listing-180 windows-hint.negoex nego-no-schemes; do
    try "$name"
    element 004 <"$token" | element 242 >"$work/response"
    printf '0123456789ABCDEF' | element 004 | element 243 >"$work/mic"
    cat "$work/response" "$work/mic" >"$work/both"
    element 060 <"$work/both" | element 241 >"$work/in"
    all=$(($(wc -c <"$work/in")))
    at=$((all - 20 - size))
    lists "$name: SPNEGO with a MIC behind the token" "SPNEGO, $all octets: its token stands from octet $at on, $size octets"
    expect "$name: SPNEGO as it is" "$(./negoex list --raw "$work/in" 2>/dev/null)" 'refused 3 at=0'
    { printf '\006\006\053\006\001\005\005\002'; element 060 <"$work/response" | element 240; } | element 140 >"$work/spnego"
    all=$(($(wc -c <"$work/spnego")))
    base64 "$work/spnego" >"$work/in"
    lists "$name: SPNEGO that no reader takes, in base64" "base64: $all octets
negoex: as an SPNEGO envelope it is refused with 20: './negoex unwrap' and README.md say more
negoex: SPNEGO, $all octets: its token stands from octet $((all - size)) on, $size octets"
done
head -c 100 "$work/spnego" >"$work/in"
expect 'SPNEGO cut short' "$(./negoex list "$work/in" 2>"$work/errors")" 'refused 6 at=0'
expect 'SPNEGO cut short: line' "$(sed -n 3p "$work/errors")" "negoex: of the token's $size octets only $((size - all + 100)) are there"
printf '\241\007\060\005\240\003\012\001\000' >"$work/in"
expect 'SPNEGO without a token' "$(./negoex list "$work/in" 2>"$work/errors")" 'refused 2 at=0'
expect 'SPNEGO without a token: line' "$(head -n 1 "$work/errors")" 'negoex: it begins as SPNEGO does, and no NEGOEX token stands in it'

# What begins with the signature is a token, whatever follows; what has no known form is left as it is.
printf 'NEGOEXTS4e45474f45585453\n' >"$work/in"
expect 'text behind the signature' "$(./negoex list "$work/in" 2>/dev/null)" 'refused 2 at=0'
expect 'text behind the signature is no hexadecimal' "$(./negoex list --hex "$work/in" 2>/dev/null)" ''
for magic in '\324\303\262\241' '\241\262\303\324' '\115\074\262\241' '\012\015\015\012'; do
    { printf "$magic"; head -c 100 /dev/zero; } >"$work/in"
    expect "a capture, $magic" "$(./negoex list "$work/in" 2>"$work/errors")" 'refused 3 at=0'
    expect "a capture, $magic: line" "$(head -n 1 "$work/errors" | cut -c 1-67)" 'negoex: a packet capture; tshark prints the tokens in it, in hexade'
done
for text in 'This is no token, and it is longer than forty octets are.' '4e45474f4558545' '00000000: 4e45 474f zz' 'TkVHT0V='; do
    printf '%s\n' "$text" >"$work/in"
    for word in --hex --dump --base64; do
        case $text$word in TkVHT0V=--base64) continue ;; esac
        expect "'$text' as $word" "$(./negoex list "$word" "$work/in" 2>"$work/errors"; echo $?)" 1
        expect "'$text' as $word: line" "$(tail -n 1 "$work/errors")" 'negoex: nothing is listed'
    done
done
printf 'This is no token, and it is longer than forty octets are.\n' >"$work/in"
expect 'a text' "$(./negoex list "$work/in" 2>"$work/errors")" 'refused 3 at=0'
expect 'a text: line' "$(head -n 1 "$work/errors")" 'negoex: a text that is neither hexadecimal nor a hex dump nor base64'
printf '00000000: 4e45 474f\n00000005: 4558 5453\n' >"$work/in"
expect 'a dump with an offset that is wrong' "$(./negoex list --dump "$work/in" 2>/dev/null; echo $?)" 1
printf '00000000: 4e45 474f\n*\nfffffff0: 4558 5453\n' >"$work/in"
expect 'a dump that stands for 4 GiB' "$(./negoex list --dump "$work/in" 2>/dev/null; echo $?)" 1
head -c 2200000 /dev/zero | tr '\0' '4' >"$work/in"
expect 'a text of more than 2 MiB' "$(./negoex list "$work/in" 2>/dev/null)" 'refused 1 at=0'
expect 'a text of more than 2 MiB, as hexadecimal' "$(./negoex list --hex "$work/in" 2>/dev/null; echo $?)" 1

# Standard input.
try windows-hint.negoex
expect 'standard input' "$(./negoex list <"$token" 2>&1)" "$listing"
expect 'a pipe' "$(cat "$token" | ./negoex list 2>&1)" "$listing"
expect 'a dash' "$(cat "$token" | ./negoex list - 2>&1)" "$listing"
expect '/dev/stdin' "$(cat "$token" | ./negoex list /dev/stdin 2>&1)" "$listing"
expect 'a form, and standard input' "$(hex "$token" | ./negoex list --hex 2>/dev/null)" "$listing"
mkfifo "$work/fifo"
cat "$token" >"$work/fifo" &
expect 'a named pipe' "$(./negoex list "$work/fifo" 2>&1)" "$listing"
: >"$work/in"
expect 'an empty file on standard input' "$(./negoex list <"$work/in" 2>/dev/null)" 'refused 2 at=0'
expect 'a device' "$(./negoex list </dev/zero 2>/dev/null)" 'refused 1 at=0'
expect 'an empty pipe' "$(: | ./negoex list 2>/dev/null)" 'refused 2 at=0'
example=$(cat crates/list/stdout)
expect 'no standard input: the example' "$(./negoex list <&- 2>"$work/errors")" "$example"
expect 'no standard input: line' "$(cat "$work/errors")" 'negoex: no FILE is given: this is the bundled example, crates/list/data/example'
expect 'nothing on standard input: the example' "$(./negoex list </dev/null 2>"$work/errors")" "$example"
expect 'nothing on standard input: line' "$(cat "$work/errors")" 'negoex: no FILE is given: this is the bundled example, crates/list/data/example'

printf 'tests/programs/forms.sh: %d cases, %d failed\n' "$cases" "$failures"
[ "$failures" -eq 0 ]
