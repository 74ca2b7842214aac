#!/bin/sh
# README.md's picture of the layers has every crate once, each above or to the right of all that it uses; and its table names every crate.
set -eu
cd "$(dirname "$0")/.."
found=$(
    awk '
        FNR == NR {
            if ($0 ~ /^#/ || $0 !~ /:/) next
            name = $1
            sub(/:$/, "", name)
            crate[name] = 1
            uses[name] = $0
            sub(/^[^:]*:/, "", uses[name])
            next
        }
        # A line of the picture: its label in the first 18 columns, then its crates.
        /^Each line stands on those below it/ { on = 1; next }
        on && /^    / { row[++rows] = substr($0, 23); next }
        on && rows && /^$/ { on = 0 }
        /^\| `/ { line = $0; sub(/^\| /, "", line); sub(/ \|.*/, "", line); while (match(line, /`[a-z_]+`/)) { tabled[substr(line, RSTART + 1, RLENGTH - 2)]++; line = substr(line, RSTART + RLENGTH) } }
        END {
            if (!rows) print "README.md has no picture"
            for (k = rows; k >= 1; k--) {
                many = split(row[k], shown, " ")
                for (i = 1; i <= many; i++) {
                    if (!(shown[i] in crate)) { print "the picture names \047" shown[i] "\047, which is no crate"; continue }
                    if (shown[i] in seen) print "the picture names " shown[i] " twice"
                    count = split(uses[shown[i]], used, " ")
                    for (j = 1; j <= count; j++) if (used[j] in crate && !(used[j] in seen)) print "the picture has " shown[i] " below " used[j] ", which it uses"
                    seen[shown[i]] = 1
                }
            }
            for (c in crate) {
                if (!(c in seen)) print "the picture lacks " c
                if (!(c in tabled)) print "the table lacks " c
            }
        }' crates.txt README.md
)
[ -z "$found" ] || { printf 'layers: README.md: %s\n' "$found" >&2; exit 1; }
echo "layers: $(grep -c '^[a-z].*:' crates.txt) crates, each above what it uses"
