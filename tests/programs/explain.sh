#!/bin/sh
# What the front door says behind a refusal. Prints one line for each failure, and last how many cases there were.
set -u
cd "$(dirname "$0")/../.." || exit 1
[ -x crates/list/out/list ] && [ -x crates/converse/out/converse ] || { echo "tests/programs/explain.sh: crates/list/out/list or converse is not built" >&2; exit 1; }
work=$(mktemp -d) || exit 1
trap 'rm -rf "$work"' EXIT
cases=0
failures=0

# expect WHAT GOT WANTED
expect() {
    cases=$((cases + 1))
    if [ "$2" != "$3" ]; then
        failures=$((failures + 1))
        printf 'tests/programs/explain.sh: %s: got "%s", and not "%s"\n' "$1" "$2" "$3" >&2
    fi
}

# Every refused token among the examples: behind the number's meaning stands a place to look at, or a length, and no fault that is another number's.
for file in crates/examples/data/*; do
    answer=$(printf '%s\n' "$PWD/$file" | crates/list/out/list | head -n 1)
    case $answer in refused*) ;; *) continue ;; esac
    number=${answer#refused }
    number=${number% at=*}
    sh tools/explain.sh token "$file" "$number" "${answer#*at=}" >"$work/words"
    expect "$file: number" "$(head -n 1 "$work/words" | cut -d : -f 1)" "refused $number"
    case $number in
        1) fault='^it has [0-9]* octets$' ;;
        2) fault='octets are left, from octet [0-9]* on$\|^the token is empty$' ;;
        5 | 13) fault='^octets .*, and not ' ;;
        6) fault='^octets .* message length: .*\(below\|left$\)' ;;
        11) fault='BREAKS THE RULE' ;;
        12) fault='^octets .* type of extension .* critical$' ;;
        *) fault='^octets [0-9]* to [0-9]*, ' ;;
    esac
    expect "$file: fault" "$(sed 1d "$work/words" | grep -q -- "$fault" && echo said)" said
    [ "$number" -eq 11 ] || expect "$file: vectors" "$(grep -c 'BREAKS' "$work/words")" 0
done

# says FILE LINE..: the front door ends with 3, and standard error has just these lines, and where the rules are
says() {
    file=$1
    shift
    ./negoex list "crates/examples/data/$file" >/dev/null 2>"$work/errors"
    expect "$file: status" "$?" 3
    expect "$file: words" "$(cat "$work/errors")" "$(printf 'negoex: %s\n' "$@" 'docs/RULES.md has the layouts and the rules')"
}
says refused-2-second-39-octets 'refused 2: fewer than 40 octets for a message' '39 octets are left, from octet 112 on' \
    'octets 20 to 23, length of the message before: 112, so that the next begins at 112'
says refused-3-second-message 'refused 3: another signature' 'octets 112 to 119, the signature: 4E 45 47 4F 45 58 54 73, and not 4E 45 47 4F 45 58 54 53' \
    'octets 20 to 23, length of the message before: 112, so that the next begins at 112'
says refused-4-type-8 'refused 4: the type is above 7' 'octets 8 to 11, the type: 8'
says refused-5-verify-76 'refused 5: the header length is not the one of the type' 'message at 0: VERIFY (type 6), sequence number 0, length 92' \
    'octets 16 to 19, the header length: 76, and not 80' 'Samba writes such headers: docs/PEERS.md'
says refused-6-length-113 'refused 6: the message length is below the header length, or above the octets left' \
    'message at 0: INITIATOR_NEGO (type 0), sequence number 0, length 113' 'octets 20 to 23, the message length: 113, and 112 octets are left'
says refused-7-nothing-follows-4294967295 'refused 7: the sequence number is not the one expected' \
    'message at 68: AP_REQUEST (type 5), sequence number 0, length 68' 'octets 80 to 83, the sequence number: 0' \
    'octets 12 to 15, that of the message before: 4294967295, which no number follows'
says refused-8-last-octet 'refused 8: another conversation' 'message at 112: AP_REQUEST (type 5), sequence number 1, length 68' \
    'octets 136 to 151, the conversation: 10 11 12 13 14 15 16 17 18 19 1A 1B 1C 1D 1E FF' \
    'octets 24 to 39, that of the first message: 10 11 12 13 14 15 16 17 18 19 1A 1B 1C 1D 1E 1F'
says refused-10-version-1 'refused 10: the version is not 0' 'message at 0: INITIATOR_NEGO (type 0), sequence number 0, length 112' \
    'octets 72 to 79, the version: 01 00 00 00 00 00 00 00'
says refused-11-scheme-offset-wraps 'refused 11: a vector breaks its rule' 'message at 0: INITIATOR_NEGO (type 0), sequence number 0, length 112' \
    'octets 80 to 85, scheme vector: offset 4294967280, count 2 of 16: BREAKS THE RULE: ends at 4294967312, and the message at 112' \
    'octets 88 to 93, extension vector: offset 0, count 0 of 12: empty, its offset is not looked at'
says refused-11-second-of-three 'refused 11: a vector breaks its rule' 'message at 112: AP_REQUEST (type 5), sequence number 1, length 68' \
    'octets 168 to 175, exchange vector: offset 63, length 4: BREAKS THE RULE: the offset is below the header length, 64'
says refused-11-before-12 'refused 11: a vector breaks its rule' 'message at 0: INITIATOR_NEGO (type 0), sequence number 0, length 136' \
    'octets 80 to 85, scheme vector: offset 96, count 1 of 16: ends at 112 of 136' \
    'octets 88 to 93, extension vector: offset 112, count 2 of 12: ends at 136 of 136' \
    'octets 128 to 135, value of extension 1: offset 1, length 1: BREAKS THE RULE: the offset is below the header length, 96'
says refused-12-80-00-00-00 'refused 12: a critical extension' 'message at 0: INITIATOR_NEGO (type 0), sequence number 0, length 124' \
    'octets 112 to 115, type of extension 0: -2147483648, and negative ones are critical'
says refused-13-scheme-2 'refused 13: the checksum header length is not 20, or the checksum scheme is not 1' \
    'message at 0: VERIFY (type 6), sequence number 0, length 92' 'octets 60 to 63, the checksum scheme: 2, and not 1'

# plays WHAT STATUS LINE..: $work/script is played, ends with the status, and standard error has just these lines
plays() {
    what=$1 status=$2
    shift 2
    ./negoex converse "$work/script" >/dev/null 2>"$work/errors"
    expect "$what: status" "$?" "$status"
    expect "$what: lines" "$(cat "$work/errors")" "$([ $# -eq 0 ] || printf 'negoex: %s\n' "$@")"
}
a='00112233-4455-6677-8899-AABBCCDDEEFF'
printf '# a comment\n\nopen a 100 %s\n' "$a" >"$work/script"
plays 'a good script' 0
printf '# a comment\n\nopen a 100 %s\na read\na read\n' "$a" >"$work/script"
plays 'a script with refused calls' 0 'lines 4, 5: refused 2: fewer than 40 octets for a message'
printf 'open a 100 %s\n\n# a comment\na reads\na read -\n' "$a" >"$work/script"
plays 'a bad line' 3 'line 4 is bad: a reads' 'line 5: refused 2: fewer than 40 octets for a message'
printf 'open a 100 %s\r\na read\r\n' "$a" >"$work/script"
plays 'carriage returns' 3 "line 1 is bad: open a 100 $a" 'line 2 is bad: a read' \
    "of the bad lines, 2 end in a carriage return: tr -d '\\r' takes it out"
printf '\357\273\277open a 100 %s\n' "$a" >"$work/script"
plays 'a byte order mark' 3 'the script begins with a byte order mark, EF BB BF, which belongs to no call' \
    "line 1 is bad: ???open a 100 $a"
printf 'a\000read\n\n' >"$work/script"
plays 'a zero octet' 3 'line 1 is bad: a?read'
awk 'BEGIN { for (k = 0; k < 20; k++) print "a read" }' >"$work/script"
plays 'many bad lines' 3 'line 1 is bad: a read' 'line 2 is bad: a read' 'line 3 is bad: a read' \
    'line 4 is bad: a read' 'line 5 is bad: a read' 'line 6 is bad: a read' 'line 7 is bad: a read' 'line 8 is bad: a read' 'and 12 bad lines more'
awk -v a="$a" 'BEGIN { print "open a 100 " a; for (k = 0; k < 20; k++) print "a choose 0000 exchange 00" }' >"$work/script"
plays 'many refused calls' 0 'lines 2, 3, 4, 5, 6, 7, 8, 9 and 12 more: refused 18: the call is not of this stage (after a refusal 12 none is), or the record is outside its limits'
printf '#%0300000d' 0 >"$work/script"
plays 'a script that is too long' 3 'the script has more than 262,143 octets'

printf 'tests/programs/explain.sh: %d cases, %d failed\n' "$cases" "$failures"
[ "$failures" -eq 0 ]
