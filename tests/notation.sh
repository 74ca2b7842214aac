#!/bin/sh
# Every name and sign of the kit that a file of definitions uses is explained in the notation table of docs/READING.md.
set -eu
cd "$(dirname "$0")/.."
export LC_ALL=C.UTF-8
work=$(mktemp -d)
trap 'rm -rf "$work"' EXIT
awk '/^## /{ on = $0 == "## Notation" } on && /^\| `/ { gsub(/\\\|/, "|"); print }' docs/READING.md >"$work/table"
[ -s "$work/table" ] || { echo "notation: docs/READING.md has no table" >&2; exit 1; }
own=$(sed -n 's/^\([a-z0-9_]*\)[ :].*/\1/p' crates.txt | paste -s -d '|')
{
    # what is brought in from the kit: an operator has a circle where each of its arguments goes
    cat crates/*/specs/*.antt | grep '^use ' | grep -vE "^use Rattle\.($own)\." | sed -n 's/^use .*{\(.*\)}$/\1/p' | tr ',' '\n' | sed 's/^ *//; s/ as .*//; s/◌//g'
    # signs that are no letters; the circle is explained with the operators
    cat crates/*/specs/*.antt | grep -v -e '^ *--' -e '^use ' | grep -o '[^ -~a-zA-Z]'
} | LC_ALL=C sort -u | grep . >"$work/names"
missing=$(
    while IFS= read -r name; do
        case $name in
            *[A-Za-z]*) grep -qw -- "$name" "$work/table" || echo "notation: docs/READING.md does not explain '$name'" ;;
            *) grep -qF -- "$name" "$work/table" || echo "notation: docs/READING.md does not explain '$name'" ;;
        esac
    done <"$work/names"
)
[ -z "$missing" ] || { printf '%s\n' "$missing" >&2; exit 1; }
echo "notation: $(wc -l <"$work/names") names and signs explained"
