#!/bin/sh
# What `list` and the front door answer to odd input. Prints one line for each failure, and last how many cases there were.
set -u
cd "$(dirname "$0")/../.." || exit 1
root=$PWD
list=$root/crates/list/out/list
[ -x "$list" ] || { echo "tests/programs/list.sh: crates/list/out/list is not built" >&2; exit 1; }
work=$(mktemp -d) || exit 1
trap 'rm -rf "$work"' EXIT
example=$root/crates/list/data/example
expected=$(cat crates/list/stdout)
cases=0
failures=0

# expect WHAT GOT WANTED
expect() {
    cases=$((cases + 1))
    if [ "$2" != "$3" ]; then
        failures=$((failures + 1))
        printf 'tests/programs/list.sh: %s: got "%s", and not "%s"\n' "$1" "$2" "$3" >&2
    fi
}

zeros() { dd if=/dev/zero of="$work/$1" bs="$2" count=1 2>/dev/null; }
of() { printf '%s\n' "$1" | "$list"; }

: >"$work/empty"
mkdir "$work/folder"
zeros zeros-40 40
zeros zeros-65535 65535
zeros zeros-65536 65536
zeros zeros-1000000 1000000
cp "$example" "$work/name with  spaces"
cp "$example" "$work/$(printf 'name\r')"
cp "$example" "$work/-"

expect 'an empty file' "$(of "$work/empty")" 'refused 2 at=0'
expect 'a folder' "$(of "$work/folder")" 'no file'
expect 'a missing file' "$(of "$work/missing")" 'no file'
expect '40 zeros' "$(of "$work/zeros-40")" 'refused 3 at=0'
expect '65,535 octets' "$(of "$work/zeros-65535")" 'refused 3 at=0'
expect '65,536 octets' "$(of "$work/zeros-65536")" 'refused 1 at=0'
expect '1,000,000 octets' "$(of "$work/zeros-1000000")" 'refused 1 at=0'
expect 'a token of 65,535 octets' "$(of "$root/crates/examples/data/length-65535" | tail -n 1)" 'end messages=1 octets=65535'
expect 'a name with spaces' "$(of "$work/name with  spaces")" "$expected"
expect 'a carriage return belongs to the name' "$(of "$work/$(printf 'name\r')")" "$expected"
expect 'a name that lacks its carriage return' "$(of "$work/name")" 'no file'
expect 'no line end behind the name' "$(printf '%s' "$example" | "$list")" "$expected"
expect 'only the first line is the name' "$(printf '%s\n%s\n' "$example" "$work/missing" | "$list")" "$expected"
expect 'an empty first line' "$(printf '\n%s\n' "$example" | "$list")" 'no file'
expect 'a name with a zero octet' "$(printf '%s\000\n' "$example" | "$list")" 'no file'
expect 'a name of 5,000 octets' "$(printf '%05000d\n' 0 | "$list")" 'no file'
expect 'an empty standard input' "$("$list" </dev/null)" 'no file'
expect 'no standard input' "$("$list" <&-)" 'no file'
if [ "$(id -u)" -ne 0 ]; then
    cp "$example" "$work/unreadable"
    chmod 000 "$work/unreadable"
    expect 'a file that may not be read' "$(of "$work/unreadable")" 'no file'
fi

expect 'the bundled example' "$(./negoex list </dev/null 2>/dev/null)" "$expected"
expect 'a file by a relative name' "$(cd "$work" && "$root/negoex" list 'name with  spaces')" "$expected"
expect 'a file whose name is a dash' "$(cd "$work" && "$root/negoex" list ./-)" "$expected"
cp "$example" "$work/$(printf 'two\nlines')"
expect 'a file whose name has a line end' "$("$root/negoex" list "$work/$(printf 'two\nlines')")" "$expected"

# refused WHAT STATUS LINE WORDS..: the front door answers with one line on standard error, nothing else, and the status
refused() {
    what=$1 status=$2 line=$3
    shift 3
    got=$("$root/negoex" "$@" 2>"$work/errors")
    expect "$what: status" "$?" "$status"
    expect "$what: output" "$got" ''
    expect "$what: line" "$(cat "$work/errors")" "$line"
}
refused 'a missing file' 1 "negoex: no such file: $work/missing" list "$work/missing"
refused 'a folder' 1 "negoex: a folder, and no file: $work/folder" list "$work/folder"
refused 'an empty name' 1 'negoex: the file has no name' list ''
refused 'two files' 2 "negoex: 'list' takes one file" list a b
refused 'an unknown option' 2 "negoex: unknown option '--binary': --raw, --hex, --dump or --base64" list --binary a
refused 'an argument too many' 2 "negoex: 'examples' takes no argument" examples a
refused 'no word' 2 'negoex: say what to do: list, recover, blank, converse, replay, unwrap, wrap, tally, examples, library, wireshark, test or help'
refused 'an unknown word' 2 "negoex: unknown word 'show': list, recover, blank, converse, replay, unwrap, wrap, tally, examples, library, wireshark, test or help" show
mkdir "$work/bin"
ln -s "$(command -v dirname)" "$(command -v readlink)" "$work/bin"
got=$(PATH=$work/bin /bin/sh "$root/negoex" test 2>&1)
expect 'a missing kit: status' "$?" 1
expect 'a missing kit: line' "$got" "negoex: the Rattle kit's command 'rt' is not in PATH"
expect 'help' "$(./negoex help | head -n 1)" 'usage: ./negoex list [FILE]       list the NEGOEX token in FILE, or in the bundled example'

printf 'tests/programs/list.sh: %d cases, %d failed\n' "$cases" "$failures"
[ "$failures" -eq 0 ]
