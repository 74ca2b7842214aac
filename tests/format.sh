#!/bin/sh
# No line of a file of the crates but an import, or an attribute that names what a proof uses (the formatter keeps either on one line), is wider than 160 characters, so that a contract or a statement can be read on a screen. That each file is in the formatter's layout `rt ci` sees.
set -eu
cd "$(dirname "$0")/.."
# in UTF-8 each character has one octet that is not one of 80 to BF
wide=$(
    find crates -name out -prune -o \( -name '*.rt' -o -name '*.antt' \) -exec env LC_ALL=C awk '
        /^ *(pub )?(ghost )?use / { next }
        /^ *#!?\[tactic\(/ { next }
        length($0) > 160 { gsub(/[\200-\277]/, ""); if (length($0) > 160) print FILENAME ":" FNR }' {} +
)
[ -z "$wide" ] || { printf 'format: wider than 160 characters: %s\n' $wide >&2; exit 1; }
echo "format: no line is too wide"
