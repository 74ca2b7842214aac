#!/bin/sh
# What `replay` and the front door answer to odd cases and damaged files, and that a turn is listed as its token is by `list`. Prints one line for each failure, and last how many cases there were.
set -u
cd "$(dirname "$0")/../.." || exit 1
root=$PWD
replay=$root/crates/replay/out/replay
list=$root/crates/list/out/list
for program in "$replay" "$list"; do
    [ -x "$program" ] || { echo "tests/programs/replay.sh: $program is not built" >&2; exit 1; }
done
work=$(mktemp -d) || exit 1
trap 'rm -rf "$work"' EXIT
data=$root/crates/replays/data
example=$root/crates/replay/data/example
expected=$(cat crates/replay/stdout)
cases=0
failures=0

# expect WHAT GOT WANTED
expect() {
    cases=$((cases + 1))
    if [ "$2" != "$3" ]; then
        failures=$((failures + 1))
        printf 'tests/programs/replay.sh: %s: got "%s", and not "%s"\n' "$1" "$(printf '%s' "$2" | head -c 600)" "$3" >&2
    fi
}

# of CASE: names in it are those of files in $work
of() { (cd "$work" && printf '%s\n' "$1" | "$replay"); }
lists=$(sed -n '/^[ia] /p' "$example")
# a case of two files of these names, with the lists of the example; its own name is `case`
with() { printf 'initiator %s\nacceptor %s\n%s\n' "$1" "$2" "$lists" >"$work/case"; }

# The case.
cp "$data/p11.i" "$work/i"
cp "$data/p11.a" "$work/a"
with i a
mkdir "$work/folder"
: >"$work/empty"
cp "$work/case" "$work/name with  spaces"
expect 'a case' "$(of case)" "$expected"
expect 'a name with spaces' "$(of 'name with  spaces')" "$expected"
expect 'a missing case' "$(of missing)" 'no file'
expect 'a folder' "$(of folder)" 'no file'
expect 'an empty case' "$(of empty)" 'bad case'
expect 'no line end behind the name' "$(cd "$work" && printf case | "$replay")" "$expected"
expect 'only the first line is the name' "$(cd "$work" && printf 'case\nmissing\n' | "$replay")" "$expected"
expect 'an empty first line' "$(cd "$work" && printf '\ncase\n' | "$replay")" 'no file'
expect 'an empty standard input' "$("$replay" </dev/null)" 'no file'
expect 'a name of 5,000 octets' "$(printf '%05000d\n' 0 | "$replay")" 'no file'
size=$(wc -c <"$work/case")
{ printf '#%0*d\n' $((65535 - 2 - size)) 0; cat "$work/case"; } >"$work/65535"
{ printf '#%0*d\n' $((65536 - 2 - size)) 0; cat "$work/case"; } >"$work/65536"
printf '#%0999999d' 0 >"$work/1000000"
expect 'a case of 65,535 octets' "$(of 65535)" "$expected"
expect 'a case of 65,536 octets' "$(of 65536)" 'bad case'
expect 'a case of 1,000,000 octets' "$(of 1000000)" 'bad case'
{ head -n 2 "$work/case"; awk 'BEGIN { printf "i 0000"; for (k = 0; k < 1500; k++) printf " %08X-0000-0000-0000-000000000000", k; print ""; print "a 0000" }'; } >"$work/many"
expect 'a list of 1,500 ids' "$(of many)" 'refused 19 at=0 neither'
sed 's/^a .*/&0/' "$work/many" >"$work/more"
expect 'a list of 1,500 ids, and marks of five digits' "$(of more)" 'bad case'
awk 'BEGIN { for (k = 0; k < 30000; k++) print (k % 2 ? "#" : "") }' >"$work/none"
expect '30,000 lines that are passed over' "$(of none)" 'bad case'
# each cut of the case has its form, or not: the marks of the last line are whole, and so is each id
at=0
while [ "$at" -lt "$size" ]; do
    head -c "$at" "$work/case" >"$work/cut"
    whole=$(tail -n 1 "$work/cut" | awk '/^a [0-9A-F][0-9A-F][0-9A-F][0-9A-F]( .*)?$/ && (length($0) - 6) % 37 == 0' | wc -l)
    case $(of cut) in 'bad case') got=0 ;; *) got=1 ;; esac
    expect "the case cut at $at" "$got" "$whole"
    at=$((at + 1))
done
for change in 's/^i /I /' 's/^a /b /' 's/ /  /2' 's/ /	/2' 's/$/ /' 's/0000/000/' 's/-/_/' 's/0CD065B1/0CD065BG/' 's/^acceptor/initiator/'; do
    sed "$change" "$work/case" >"$work/changed"
    expect "the case changed by $change" "$(of changed)" 'bad case'
done

# The files.
with missing a
expect 'a missing file' "$(of case)" 'no file'
with i folder
expect 'a folder for a file' "$(of case)" 'no file'
with "$(printf '%05000d' 0)" a
expect 'a file with a name of 5,000 octets' "$(of case)" 'no file'
cp "$work/i" "$work/two  words "
with 'two  words ' a
expect 'a name with spaces in it and behind it' "$(of case)" "$expected"
cp "$work/i" "$work/größe"
with größe a
expect 'a name with octets above 127' "$(of case)" "$expected"
{ printf 'initiator i\0\n'; sed 1d "$work/case"; } >"$work/zero"
expect 'a name with a zero in it' "$(of zero)" 'no file'
with empty empty
expect 'two empty files' "$(of case)" ''
for size in 65535 65536 1000000; do dd if=/dev/zero of="$work/zeros-$size" bs="$size" count=1 2>/dev/null; done
with zeros-65535 a
expect 'a file of 65,535 zeros' "$(of case)" 'refused 3 at=0 initiator'
with i zeros-65536
expect 'a file of 65,536 zeros' "$(of case)" 'refused 1 at=0 acceptor'
with zeros-1000000 a
expect 'a file of 1,000,000 zeros' "$(of case)" 'refused 1 at=0 initiator'
with a i
expect 'the one file for the other' "$(of case)" 'refused 18 at=0 initiator'

# As many messages as a file has room for.
awk 'function le(n) { return sprintf("\\%03o\\%03o\\0\\0", n % 256, n / 256) }
    function zeros(n,    s) { while (n--) s = s "\\0"; return s }
    BEGIN { for (k = 0; k < 1023; k++) print "NEGOEXTS" le(2) le(k) le(64) le(64) zeros(40) }' | while IFS= read -r message; do printf "$message"; done >"$work/1023"
expect 'a file of 1,023 messages' "$(wc -c <"$work/1023")" 65472
with 1023 empty
expect '1,023 messages' "$(of case)" 'refused 14 at=0 acceptor'
with 1023 1023
expect '1,023 messages twice' "$(of case)" 'refused 24 at=0 neither'

# ended WHAT: the run of the case ends, with nothing or with one of its last lines.
ended() {
    of case >"$work/output"
    expect "$1: last line" "$(tail -n 1 "$work/output" | sed -n '/^choice none$/d; /^choice [0-9A-F-]*$/d; /^refused [0-9]* at=[0-9]* \(initiator\|acceptor\|neither\)$/d; p')" ''
}

# Files cut anywhere: the lines of the turns before are those of the whole conversation.
conversation=full-conversation
cp "$data/$conversation.i" "$work/whole-i"
cp "$data/$conversation.a" "$work/whole-a"
lists=$(sed -n '/^[ia] /p' "$data/$conversation.case")
with whole-i whole-a
of case >"$work/whole"
for side in i a; do
    case $side in i) with cut whole-a; end=initiator ;; *) with whole-i cut; end=acceptor ;; esac
    ends=$(printf '%s\n' "$data/$conversation.$side" | "$root/crates/recover/out/recover" | sed -n 's/^message at=\([0-9]*\) .*/\1/p')
    size=$(wc -c <"$work/whole-$side")
    at=0
    while [ "$at" -lt "$size" ]; do
        head -c "$at" "$work/whole-$side" >"$work/cut"
        ended "$side cut at $at"
        # where a message is cut, it is 2 or 6 at its own place
        start=0
        for place in $ends; do [ "$place" -gt "$at" ] || start=$place; done
        if [ "$start" -lt "$at" ]; then
            number=6
            [ $((at - start)) -ge 40 ] || number=2
            expect "$side cut at $at" "$(cat "$work/output")" "refused $number at=$start $end"
        else
            expect "$side cut at $at: lines before the refusal" "$(sed '/^refused/d' "$work/output")" "$(head -n "$(sed '/^refused/d' "$work/output" | wc -l)" "$work/whole")"
        fi
        at=$((at + 13))
    done
done

# Each octet changed. The random value of a NEGO, its pads and the offset of its empty extension vector are in no line, and change nothing.
lists=$(sed -n '/^[ia] /p' "$example")
for side in i a; do
    case $side in i) with changed a ;; *) with i changed ;; esac
    size=$(wc -c <"$work/$side")
    at=0
    while [ "$at" -lt "$size" ]; do
        value=$(od -An -tu1 -j "$at" -N 1 "$work/$side" | tr -d ' ')
        { head -c "$at" "$work/$side"; printf "\\$(printf '%03o' $(((value + 129) % 256)))"; tail -c "+$((at + 2))" "$work/$side"; } >"$work/changed"
        ended "$side, octet $at"
        case $at in
            4? | 5? | 6? | 70 | 71 | 86 | 87 | 88 | 89 | 90 | 91 | 94 | 95) expect "$side, octet $at, shown nowhere" "$(cat "$work/output")" "$expected" ;;
            192) ;;
            *) expect "$side, octet $at" "$(tail -n 1 "$work/output" | cut -d ' ' -f 1)" refused ;;
        esac
        at=$((at + 1))
    done
done

# Each turn of a captured conversation is listed as its token is.
for file in "$data"/mit-*.case; do
    name=${file##*/}
    name=${name%.case}
    (cd "$data" && echo "$name.case" | "$replay") >"$work/output"
    ! grep -q '^refused' "$work/output" || continue
    turns=0
    for token in "$root/crates/examples/data/$name"-[0-9][0-9]-[ia].negoex; do
        [ -e "$token" ] || continue
        echo "$token" | "$list" | sed '$d' >"$work/listed"
        awk -v turn="$turns" '/^turn /{ on = $2 == turn; next } /^choice /{ on = 0 } on' "$work/output" >"$work/shown"
        expect "$name, turn $turns" "$(cat "$work/shown")" "$(cat "$work/listed")"
        turns=$((turns + 1))
    done
    [ "$turns" -eq 0 ] || expect "$name: turns" "$(grep -c '^turn ' "$work/output")" "$turns"
done

# The front door.
expect 'the bundled case' "$(./negoex replay </dev/null 2>/dev/null)" "$expected"
expect 'the bundled case: status' "$(./negoex replay </dev/null >/dev/null 2>&1; echo $?)" 0
with i a
expect 'a case by a relative name, its files in its folder' "$(cd "$work/folder" && "$root/negoex" replay ../case 2>/dev/null)" "$expected"
expect 'a case by its name alone' "$(cd "$work" && "$root/negoex" replay 'name with  spaces' 2>/dev/null)" "$expected"
expect 'a case on standard input, its files in the folder of the call' "$(cd "$work" && "$root/negoex" replay - <case 2>/dev/null)" "$expected"
expect 'a case on standard input, its files elsewhere' "$(cd "$work/folder" && "$root/negoex" replay - <../case 2>/dev/null; echo $?)" 'no file
1'
expect 'two cases' "$(./negoex replay "$example" "$example" 2>/dev/null; echo $?)" 2

# says STATUS LINE WORD..: of $work/case, at the front door
says() {
    status=$1
    last=$2
    shift 2
    ./negoex replay "$work/case" >"$work/output" 2>"$work/errors"
    expect "$last: status" "$?" "$status"
    expect "$last: last line" "$(tail -n 1 "$work/output")" "$last"
    expect "$last: words" "$(cat "$work/errors")" "$(printf 'negoex: %s\n' "$@")"
}
with missing a
says 1 'no file' "the initiator's file cannot be read: missing"
with "$data/p11.i" "$data/missing"
says 1 'no file' "the acceptor's file cannot be read: $data/missing"
{ sed 1d "$example" | sed '$d'; echo 'a 000 '; } >"$work/case"
says 3 'bad case' 'line 4 is not `a MARKS ID ID ..`: a 000 ' 'README.md, "What a replay looks like", has the form of a case'
rules='docs/RULES.md has the layouts and the rules'
sed "s,^\([a-z]*tor\) ,&$data/," "$data/refused-2-acceptor.case" >"$work/case"
says 3 'refused 2 at=128 acceptor' "the acceptor's file, $data/refused-2-acceptor.a, cannot be cut into messages; places are counted from its start" \
    'refused 2: fewer than 40 octets for a message' '39 octets are left, from octet 128 on' 'octets 20 to 23, length of the message before: 128, so that the next begins at 128' "$rules"
sed "s,^\([a-z]*tor\) ,&$data/," "$data/refused-24-missing.case" >"$work/case"
says 3 'refused 24 at=0 neither' 'refused 24: a number from 0 to the highest is missing, stands twice, or stands behind a higher one in its file' \
    'number 2 is missing, and the highest is 3' "$rules"
sed "s,^\([a-z]*tor\) ,&$data/," "$data/refused-28-choice.case" >"$work/case"
says 3 'refused 28 at=0 initiator' \
    "turn 2 is the initiator's, and begins at octet 128 of its file, $data/refused-28-choice.i; octets are counted from there" \
    'refused 28: the schemes of a NEGO, or the choice of the initiator, are not what the list and marks of its end give, or these leave none' \
    'message at 0: AP_REQUEST (type 5), sequence number 2, length 65' 'octets 40 to 55, the scheme: 0CD065B1-2E17-4593-8F60-12FE01807FC1' "$rules"
got=$("$root/negoex" replay "$work/missing" 2>"$work/errors")
expect 'a missing case: status' "$?" 1
expect 'a missing case: output' "$got" ''
expect 'a missing case: line' "$(cat "$work/errors")" "negoex: no such file: $work/missing"
expect 'a folder for a case' "$(./negoex replay "$work/folder" 2>&1; echo $?)" "negoex: a folder, and no file: $work/folder
1"

# Every bundled case.
while IFS= read -r name; do
    [ -f "$data/$name" ] || continue
    last=$(awk -v name="case $name" '/^case /{ on = $0 == name; next } on { last = $0 } END { print last }' crates/replays/stdout)
    case $last in refused* | 'bad case') status=3 ;; 'no file') status=1 ;; *) status=0 ;; esac
    ./negoex replay "$data/$name" >"$work/output" 2>"$work/errors"
    expect "$name: status" "$?" "$status"
    expect "$name: something is said where it does not end well" "$([ -s "$work/errors" ] && echo said)" "$([ "$status" -eq 0 ] || echo said)"
done <crates/replays/stdin

printf 'tests/programs/replay.sh: %d cases, %d failed\n' "$cases" "$failures"
[ "$failures" -eq 0 ]
