#!/bin/sh
# The must-fail edits. Each wrong answer stands behind a line `# NAME, in FUNCTION: SENTENCE`, and a file may hold those of several functions; one that changes a definition, which other functions
# rest on too, has a file of its own, `# NAME: SENTENCE`. `rt ci` tries each file as a whole, and says of it what fails first.
# Called with `refused`, behind `rt ci`: each wrong answer of a function is tried by itself, and a fact of that very function fails. That it calls another that is not proved does not count,
# nor that its proof names what is no longer there.
set -eu
cd "$(dirname "$0")/.."
found=$(
    for edit in crates/*/must-fail/*.edit; do
        crate=${edit#crates/}
        crate=${crate%%/*}
        awk -v edit="$edit" -v crate="$crate" '
            function complain(what) { print "edits: " edit ": " what }
            function ends() { if (name && !pairs) complain(name " changes nothing") }
            /^# [a-z0-9_]+(, in [A-Za-z0-9_:]+)?: ./ {
                ends()
                name = $2
                sub(/[,:]$/, "", name)
                place = ""
                if ($2 ~ /,$/) { place = $4; sub(/:$/, "", place) }
                if (place in wrong) complain("two wrong answers of " place)
                wrong[place] = name
                names++
                pairs = 0
                print "name " name " " crate " " edit " " place
                next
            }
            /^#/ { complain("no name in: " $0) }
            /^file: / { in_code = $2 ~ /^src\// }
            /^old: / { if (!name) complain("nothing says what is wrong"); if (in_code != (place != "")) complain(name ": a function is named where src/ is changed, and only there") }
            /^new:/ { pairs++ }
            END { ends(); if ("" in wrong && names > 1) complain("a changed definition beside other wrong answers") }' "$edit"
    done
)
bad=$(printf '%s\n' "$found" | grep '^edits: ' || true)
twice=$(printf '%s\n' "$found" | sed -n 's/^name \([^ ]* [^ ]*\) .*/\1/p' | LC_ALL=C sort | uniq -d | sed 's/\(.*\) \(.*\)/edits: \2 has two wrong answers called \1/')
[ -z "$bad$twice" ] || { printf '%s\n' "$bad" "$twice" >&2; exit 1; }
said="$(printf '%s\n' "$found" | wc -l) wrong answers in $(ls crates/*/must-fail/*.edit | wc -l) checks"
[ "${1-}" = refused ] || { echo "edits: $said"; exit 0; }

work=$(mktemp -d)
trap 'rm -rf "$work"' EXIT
trap 'exit 1' INT TERM

# A tree that a worker changes: what a check of a crate reads, and no more.
tree() {
    mkdir -p "$1/crates"
    cp crates.txt "$1"
    [ ! -e HANDLES ] || cp HANDLES "$1"
    for crate in crates/*/; do
        mkdir "$1/$crate"
        for part in src specs proofs; do
            [ ! -d "$crate$part" ] || cp -R "$crate$part" "$1/$crate"
        done
    done
}

# Makes the pairs of the wrong answer $1 of the file $2 in the crate's folder $3. An old text stands once in its file.
change() {
    awk -v name="$1" -v crate="$3" '
        function text_of(path,    line, all) { all = ""; while ((getline line <path) > 0) all = all line "\n"; close(path); return all }
        /^# / { ours = $2 == name "," }
        /^file: / { path = crate "/" substr($0, 7) }
        !ours { next }
        /^old: / { old = substr($0, 6) }
        /^new:/ {
            new = substr($0, 6)
            all = text_of(path)
            at = index(all, old)
            if (!at || index(substr(all, at + 1), old)) exit 1
            printf "%s%s%s", substr(all, 1, at - 1), new, substr(all, at + length(old)) >path
            close(path)
        }' "$2"
}

# Whether the log $3 says that a fact of the function $2 of the crate $1 fails.
fails_itself() {
    FUNCTION=$1::$2 PROOF=/proofs/$(printf '%s\n' "$2" | sed 's,::,/,g')/ CYCLE=/proofs/+$(printf '%s\n' "${2##*::}")/ awk '
        (index($0, ENVIRON["PROOF"]) || index($0, ENVIRON["CYCLE"])) && / error/ && !/was not admitted|can be named from here|not in scope|has no field/ { own = 1 }
        index($0, "fn " ENVIRON["FUNCTION"] ": no proof: expected answers in ") == 1 && /did not prove/ { own = 1 }
        END { exit !own }' "$3"
}

# Tries one of each $2 wrong answers, from the number $1 on.
worker() {
    tree "$work/$1"
    printf '%s\n' "$found" | awk -v from="$1" -v each="$2" '$5 != "" && !($3 in turn) { turn[$3] = crates++ % each } $5 != "" && turn[$3] == from' |
        while read -r _ name crate edit place; do
            folder=$work/$1/crates/$crate
            log=$work/$crate.$name.log
            change "$name" "$edit" "$folder" || { echo "edits: $edit: $name cannot be made by itself"; continue; }
            if (cd "$folder" && rt check --only "$crate::$place") </dev/null >"$log" 2>&1; then
                echo "edits: $edit: $name: $crate::$place is proved"
            else
                fails_itself "$crate" "$place" "$log" || { echo "edits: $edit: $name: no fact of $crate::$place fails:"; tail -n 25 "$log"; }
            fi
            rm -rf "$folder/src"
            cp -R "crates/$crate/src" "$folder"
        done >"$work/$1.found"
}

each=$(nproc)
number=0
while [ "$number" -lt "$each" ]; do
    worker "$number" "$each" &
    number=$((number + 1))
done
wait
missing=$(cat "$work"/*.found)
[ -z "$missing" ] || { printf '%s\n' "$missing" >&2; exit 1; }
echo "edits: $said, each refused by a fact of the function that is wrong"
