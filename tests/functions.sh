#!/bin/sh
# Every public function says in its contract what it answers; only those of crates below the entry points ask something of their callers
# (docs/DECISIONS.md, F6), and none that the door, crates/negoex, hands on; and no function has more than 40 lines.
set -eu
cd "$(dirname "$0")/.."
below=' der der_put octets scan vector message put elements encode schemes calls negotiating sending admitting merging turning replaying windows lines listing coverage offers table entries replies console text_lines '
door=" $(sed -n 's/^pub use \([a-z_]*\)::\(.*::\)*\([a-z_]*\);$/\1:\3/p' crates/negoex/src/lib.rt | tr '\n' ' ')"
found=$(
    find crates/*/src -name '*.rt' | sort | while IFS= read -r file; do
        crate=${file#crates/}
        crate=${crate%%/*}
        case $below in *" $crate "*) asks=1 ;; *) asks=0 ;; esac
        awk -v file="$file" -v asks="$asks" -v crate="$crate" -v door="$door" '
            /^ *(pub(\(crate\))? )?(extern "C" )?fn / && !name {
                public = $0 ~ /^ *pub (extern "C" )?fn /
                name = $0
                sub(/^ *(pub(\(crate\))? )?(extern "C" )?fn /, "", name)
                sub(/[<(].*/, "", name)
                from = NR
                ends = $0
                sub(/[^ ].*/, "}", ends)
                ensures = requires = body = 0
            }
            name && !body && /^ *ensures / { ensures = 1 }
            name && !body && /^ *requires / { requires = 1 }
            name && /^ *\{$/ { body = 1 }
            name && $0 == ends {
                functions++
                if (public && !ensures) print "functions: " file ": " name " has no contract"
                if (public && requires && (!asks || index(door, " " crate ":" name " "))) print "functions: " file ": " name " asks something of its caller"
                if (NR - from + 1 > 40) print "functions: " file ": " name " has " NR - from + 1 " lines"
                name = ""
            }
            END { if (name) print "functions: " file ": where does " name " end?" }' "$file"
    done
)
[ -z "$found" ] || { printf '%s\n' "$found" >&2; exit 1; }
echo "functions: $(grep -rhE '^ *pub (extern "C" )?fn ' crates/*/src | wc -l) public ones with a contract, none above 40 lines"
