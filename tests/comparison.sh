#!/bin/sh
# The id comparison, `same_octets`, reads two lent slices where they stand: no array and no struct among its parameters and locals. It is the one that
# every comparison of ids goes through, `same_id`'s of slices of any length too, and no caller copies an id or a list into an array for it.
set -eu
cd "$(dirname "$0")/.."
bad=0
complain() { echo "comparison: $1" >&2; bad=1; }

# body NAME: the text of that function
body() { awk -v first="pub fn $1(" 'index($0, first) == 1 { on = 1 } on { print } on && /^}$/ { exit }' crates/octets/src/lib.rt; }
for name in same_octets same_id; do
    body "$name" | head -n 1 | grep -qxF "pub fn $name(a: &[u8], b: &[u8]) -> bool" || complain "$name takes something else than two lent slices"
done
locals=$(body same_octets | grep -E '^ *(let|for) ' || true)
printf '%s\n' "$locals" | grep -vxE '    (let mut same = true;|for i in 0\.\.16 \{)' | grep . && complain 'same_octets has a local that is no flag and no index'
[ "$(printf '%s\n' "$locals" | grep -c .)" -eq 2 ] || complain 'same_octets has not its two locals'
body same_id | grep -E '^ *(let|for) ' && complain 'same_id has a local'
body same_id | grep -qxF '    a.len() == 16 && b.len() == 16 && same_octets(a, b)' || complain 'same_id does not end with the one comparison'

# Its callers lend a slice of what the caller was lent, or of a field: an array of their own would be a copy.
calls=$(grep -rnE 'same_(id|octets)\(' crates/*/src --include='*.rt' | grep -v 'pub fn same_' | grep -c .)
[ "$calls" -gt 0 ] || complain 'nobody compares ids'
for file in $(grep -rlE '(same_id|same_octets|find|has_id|distinct_ids|common_set|kept_places|same_at|read_next|read_step)\(' crates/*/src --include='*.rt'); do
    grep -nE 'let (mut )?[a-z_]+ = ([a-z]+\.list|id_of\(|id_at\()' "$file" | while IFS=: read -r line text; do
        name=$(printf '%s\n' "$text" | sed -E 's/^ *let (mut )?([a-z_]+) = .*/\2/')
        grep -nE "(same_id|same_octets|find|has_id|distinct_ids|common_set|kept_places|same_at|read_next|read_step)\\(([^()]*, )?&$name\\b" "$file" || true
    done
done | grep . && complain 'an id or a list is copied in order to be compared'
[ "$bad" -eq 0 ] || exit 1
echo "comparison: same_octets and same_id have no array and no struct, and $calls places call them"
