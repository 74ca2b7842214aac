#!/bin/sh
# What docs/RULES.md says of types, header lengths, fields and P1 to P10 is what `list` answers, and of P11 to P13 what `converse` does.
set -u
cd "$(dirname "$0")/../.." || exit 1
[ -x crates/list/out/list ] && [ -x crates/converse/out/converse ] || { echo "tests/programs/rules.sh: crates/list/out/list or converse is not built" >&2; exit 1; }
work=$(mktemp -d) || exit 1
trap 'rm -rf "$work"' EXIT
page=docs/RULES.md
cases=0
failures=0

# expect WHAT GOT WANTED
expect() {
    cases=$((cases + 1))
    if [ "$2" != "$3" ]; then
        failures=$((failures + 1))
        printf 'tests/programs/rules.sh: %s: got "%s", and not "%s"\n' "$1" "$2" "$3" >&2
    fi
}

# The table of types, and the listing of a token with a message of each.
awk -F ' *\\| *' '$2 ~ /^[0-7]$/ && $5 ~ /^[0-9]+$/ { print "type=" $2, "header=" $5 }' "$page" >"$work/types"
printf '%s\n' "$PWD/crates/examples/data/kinds-0-to-7" | crates/list/out/list | awk '$1 == "message" { print $4, $5 }' >"$work/listed"
expect 'types' "$(cat "$work/types")" "$(cat "$work/listed")"
expect 'type names' "$(awk -F ' *\\| *' '$2 ~ /^[0-7]$/ && $5 ~ /^[0-9]+$/ { printf "%s ", $3 }' "$page")" \
    "$(sed -n 's/.*split("\(INITIATOR_NEGO [A-Z_ ]*\)".*/\1/p' tools/explain.sh) "
expect 'refusal numbers' "$(awk -F ' *\\| *' '/^## /{ on = $0 == "## Refusals" } on && $2 ~ /^[0-9]+$/ { printf "%s ", $2 }' "$page")" "$(seq -s ' ' 19) 24 25 26 28 "

# The fields: one octet of a token with all kinds is set to 1 or 255, whatever is not there yet, and the field's own number is given, or none. The listing
# shows no pad and no random octet, so that it stays the same with another one.
kinds=crates/examples/data/kinds-0-to-7
printf '%s\n' "$kinds" | crates/list/out/list >"$work/whole"
# with OCTET: what `list` answers to the token with this octet changed: the number, `same` for the same listing, or nothing for another one
with() {
    value=$(od -An -tu1 -j "$1" -N 1 "$kinds" | tr -d ' ')
    case $value in 1) value='\377' ;; *) value='\001' ;; esac
    { head -c "$1" "$kinds"; printf "$value"; tail -c "+$(($1 + 2))" "$kinds"; } >"$work/token"
    printf '%s\n' "$work/token" | crates/list/out/list >"$work/listing"
    if cmp -s "$work/listing" "$work/whole"; then echo same; else sed -n '1s/^refused \([0-9]*\) .*/\1/p' "$work/listing"; fi
}
# The tables of the section, each with the place of a message that has its layout, and each row with the number that its field is for.
awk -F ' *\\| *' '
    /^## / { on = $0 == "## Layouts" }
    !on { next }
    $2 == "octets" { at = $3 == "field" ? 112 : $3 ~ /^NEGO/ ? 0 : $3 ~ /^metadata/ ? 240 : $3 ~ /^VERIFY/ ? 512 : 604; next }
    $2 !~ /^[0-9]/ || NF != 4 { next }
    $3 ~ /vector|value/ { next }
    {
        number = $3 ~ /^signature/ ? 3 : $3 == "type" ? 4 : $3 ~ /^sequence/ ? 7 : $3 ~ /^header/ ? 5 : $3 ~ /^message length/ ? 6 : $3 ~ /^conversation/ ? 8 : \
            $3 ~ /^(pad|random)/ ? "same" : $3 ~ /^version/ ? 10 : $3 ~ /^checksum (header|scheme)/ ? 13 : ""
        split($2, end, / to |, /)
        # A type and a message length are wrong for sure where their third octet is not zero.
        if (number == 4 || number == 6) end[1] = end[2] = end[1] + 2
        for (k = end[1]; k <= end[2]; k++) print at + k, number
    }' "$page" >"$work/fields"
while read -r octet number; do expect "octet $octet of $kinds" "$(with "$octet")" "$number"; done <"$work/fields"
expect 'octets of fields' "$(wc -l <"$work/fields")" "$(awk 'BEGIN { print (8 + 1 + 4 + 4 + 1 + 16) + (32 + 8 + 2 + 2) + 16 + (16 + 4 + 4 + 4 + 4) + (16 + 4 + 2 + 4) }')"

# The octets of N and E: the blocks of the last section, in order.
awk '/^## /{ on = $0 == "## P1 to P13" } on && /^    [0-9A-F][0-9A-F] / { if (!was) block++; was = 1; print block, $0; next } { was = 0 }' "$page" >"$work/blocks"
for name in N E; do
    number=1
    [ "$name" = N ] || number=2
    awk -v number="$number" '$1 == number { $1 = ""; print }' "$work/blocks" >"$work/$name"
done

# Each row: the first so many octets of a block, or a block with some octets changed.
awk -F ' *\\| *' '$2 ~ /^P[0-9]+$/ { print $2 "|" $3 "|" $4 }' "$page" >"$work/rows"
while IFS='|' read -r example what answer; do
    from=$(printf '%s' "$what" | sed -n 's/.*from \([0-9]*\) on.*/\1/p')
    new=$(printf '%s' "$what" | sed -n 's/.*`\(.*\)`.*/\1/p')
    first=$(printf '%s' "$what" | sed -n 's/.*first \([0-9]*\) of.*/\1/p')
    case $what in none) block=N first=0 ;; E*) block=E ;; *) block=N ;; esac
    awk -v from="${from:-0}" -v new="$new" -v first="${first:-999}" '
        { for (k = 1; k <= NF; k++) o[n++] = $k }
        END { m = split(new, x, " "); for (k = 0; k < m; k++) o[from + k] = x[k + 1]; for (k = 0; k < n && k < first; k++) print o[k] }' "$work/$block" >"$work/hex"
    sh tools/decode.sh hex "$work/hex" "$work/token" >/dev/null || : >"$work/token"
    expect "$example: octets" "$(($(wc -c <"$work/token")))" "$(($(wc -l <"$work/hex")))"
    got=$(printf '%s\n' "$work/token" | crates/list/out/list | tail -n 1)
    case $got in refused*) got=${got#refused } got=${got% at=*} ;; *) got=read ;; esac
    expect "$example" "$got" "$answer"
done <"$work/rows"
expect 'P1 to P10' "$(wc -l <"$work/rows")" 10
head -n 7 "$work/N" >"$work/text"
expect 'a block, given as it stands' "$(./negoex list --hex - <"$work/text" 2>/dev/null | tail -n 1)" 'end messages=1 octets=112'

chosen() { printf '%s\n' "$PWD/crates/scripts/data/$1" | crates/converse/out/converse | grep -o -e 'choice=.*' -e '^refused.*' | tail -n 1; }
expect 'P11' "$(chosen p11)" 'choice=0D53335C-F9EA-4D0D-B2EC-4AE3786EC308 left=2'
expect 'P12, the acceptor marks' "$(chosen p12-acceptor-marks)" 'choice=0CD065B1-2E17-4593-8F60-12FE01807FC1 left=1'
expect 'P12, the initiator marks' "$(chosen p12-initiator-marks)" 'choice=0CD065B1-2E17-4593-8F60-12FE01807FC1 left=1'
expect 'P13' "$(printf '%s\n' "$PWD/crates/scripts/data/p13" | crates/converse/out/converse | grep -c '^refused 17 at=0$')" 1

printf 'tests/programs/rules.sh: %d cases, %d failed\n' "$cases" "$failures"
[ "$failures" -eq 0 ]
