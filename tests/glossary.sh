#!/bin/sh
# Every name that a file of definitions makes public stands in the glossary at the file's top.
set -eu
cd "$(dirname "$0")/.."
missing=$(
    for file in crates/*/specs/*.antt; do
        case $file in */Lib.antt) continue ;; esac
        awk -v file="$file" '
            /^--/ && !body { glossary = glossary " " $0; next }
            { body = 1 }
            /^(abbrev |unfoldable )?pub / {
                sub(/^(abbrev |unfoldable )?pub (record |data )?/, "")
                name = $1
                words = " " glossary " "
                gsub(/[,;:.]/, " ", words)
                if (!index(words, " " name " ")) print "glossary: " file " does not explain " name
            }' "$file"
    done
)
[ -z "$missing" ] || { printf '%s\n' "$missing" >&2; exit 1; }
echo "glossary: every public definition is explained"
