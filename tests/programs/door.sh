#!/bin/sh
# The front door itself: how it is called, what it says while it builds, and what it ends with. Prints one line for each failure, and last how many cases there were.
set -u
cd "$(dirname "$0")/../.." || exit 1
root=$PWD
[ -x crates/list/out/list ] || { echo "tests/programs/door.sh: crates/list/out/list is not built" >&2; exit 1; }
work=$(mktemp -d) || exit 1
trap 'rm -rf "$work"' EXIT
example=$(cat crates/list/stdout)
cases=0
failures=0

# expect WHAT GOT WANTED
expect() {
    cases=$((cases + 1))
    if [ "$2" != "$3" ]; then
        failures=$((failures + 1))
        printf 'tests/programs/door.sh: %s: got "%s", and not "%s"\n' "$1" "$2" "$3" >&2
    fi
}

# Links.
mkdir "$work/bin"
ln -s "$root/negoex" "$work/bin/nx"
ln -s nx "$work/bin/ny"
for name in nx ny; do
    expect "a link, $name" "$("$work/bin/$name" list </dev/null 2>/dev/null)" "$example"
    expect "a link in PATH, $name" "$(PATH=$work/bin:$PATH; cd "$work" && cp "$root/crates/list/data/example" token && "$name" list token)" "$example"
done
expect 'nothing is made beside a link' "$(ls "$work/bin" | tr '\n' ' ')" 'nx ny '

# Help: a line for each word, and more of each.
files='list recover blank converse replay unwrap wrap'
for word in $files tally examples library wireshark test; do
    expect "help: $word" "$(./negoex help | grep -c "^[ usage:]* \./negoex $word ")" 1
    expect "help $word" "$(./negoex help "$word" | head -n 1 | cut -c 1-$((16 + ${#word})))" "usage: ./negoex $word"
    expect "$word --help" "$(./negoex "$word" --help; echo $?)" "$(./negoex help "$word"; echo 0)"
done
expect 'help' "$(./negoex --help; echo $?)" "$(./negoex help; echo 0)"
expect 'help help' "$(./negoex help help; echo $?)" "$(./negoex help; echo 0)"
expect 'README has the words of help' "$(awk '/^    \.\/negoex list / { on = 1 } on && /^$/ { exit } on { print $2 }' README.md)" "$(./negoex help | sed -n 's/^.*\.\/negoex \([a-z]*\) .*/\1/p')"

# one_line WHAT STATUS LINE WORDS..: the front door answers with one line on standard error, nothing else, and the status
one_line() {
    what=$1 status=$2 line=$3
    shift 3
    got=$(./negoex "$@" </dev/null 2>"$work/errors"; echo "status $?")
    expect "$what" "$got" "status $status"
    expect "$what: line" "$(cat "$work/errors")" "negoex: $line"
}
words='list, recover, blank, converse, replay, unwrap, wrap, tally, examples, library, wireshark, test or help'
one_line 'no word' 2 "say what to do: $words"
one_line 'an unknown word' 2 "unknown word 'show': $words" show
one_line 'help of an unknown word' 2 "unknown word 'show': $words" help show
one_line 'help of two words' 2 "'help' takes one word" help list blank
mkdir "$work/folder"
touch "$work/unreadable"
chmod 000 "$work/unreadable"
for word in $files; do
    one_line "$word, a missing file" 1 "no such file: $work/missing" "$word" "$work/missing"
    one_line "$word, a folder" 1 "a folder, and no file: $work/folder" "$word" "$work/folder"
    one_line "$word, an empty name" 1 'the file has no name' "$word" ''
    one_line "$word, two files" 2 "'$word' takes one file" "$word" a b
    [ "$(id -u)" -eq 0 ] || one_line "$word, a file that may not be read" 1 "the file cannot be read: $work/unreadable" "$word" "$work/unreadable"
    [ "$word" = list ] || one_line "$word, an option" 2 "'$word' has no option '--raw'; a file of that name is './--raw'" "$word" --raw
done
one_line 'list, an unknown option' 2 "unknown option '--all': --raw, --hex, --dump or --base64" list --all
one_line 'tally, an option' 2 "'tally' has no option '--all'; a file of that name is './--all'" tally --all
for word in examples wireshark test; do one_line "$word, a file" 2 "'$word' takes no argument" "$word" a; done
for word in $files tally; do
    expect "$word, standard input that is closed" "$(./negoex "$word" - 2>&1 <&-; echo $?)" 'negoex: standard input cannot be read
1'
done
one_line 'library, two folders' 2 "'library' takes one folder" library a b
one_line 'library, no name' 1 'the folder has no name' library ''

# Without a file the bundled one, which standard error names; the answer is the one that is kept beside the program. An empty file has an answer too.
: >"$work/empty"
for word in $files; do
    ./negoex "$word" </dev/null >"$work/out" 2>"$work/errors"
    expect "$word, bundled: status" "$?" 0
    expect "$word, bundled: said" "$(head -n 1 "$work/errors")" "negoex: no FILE is given: this is the bundled example, crates/$word/data/example"
    case $word in blank) kept=crates/blank/data/example.blanked ;; *) kept=crates/$word/stdout ;; esac
    cmp -s "$work/out" "$kept" || expect "$word, bundled" another "that of $kept"
    case $word in recover | converse) status=0 ;; *) status=3 ;; esac
    ./negoex "$word" "$work/empty" >"$work/out" 2>"$work/errors"
    expect "$word, an empty file: status" "$?" "$status"
    expect "$word, an empty file: an answer" "$(cat "$work/out" "$work/errors" | head -n 1 | cut -d ' ' -f 1)" "$(case $word in recover) echo end ;; converse) echo used ;; replay | wrap) echo bad ;; *) echo refused ;; esac)"
done

# Status.
expect 'accepted' "$(./negoex list crates/list/data/example >/dev/null 2>&1; echo $?)" 0
expect 'refused' "$(./negoex list crates/examples/data/refused-2-empty >/dev/null 2>&1; echo $?)" 3
expect 'missing' "$(./negoex list "$work/missing" >/dev/null 2>&1; echo $?)" 1

# Standard output that cannot be written.
for word in list blank converse replay; do
    expect "$word, closed" "$(./negoex "$word" "crates/$word/data/example" 2>&1 >&-; echo $?)" "negoex: standard output cannot be written
1"
    [ -c /dev/full ] || continue
    expect "$word, full" "$(./negoex "$word" "crates/$word/data/example" 2>&1 >/dev/full; echo $?)" "negoex: standard output cannot be written
1"
done
expect 'temporary files' "$(TMPDIR=$work/missing ./negoex list crates/list/data/example 2>&1 | tail -n 1)" 'negoex: no folder for temporary files; TMPDIR says where to make one'
mkdir "$work/temporary"
TMPDIR=$work/temporary ./negoex list crates/examples/data/refused-2-empty >/dev/null 2>&1
expect 'no temporary files are left' "$(ls "$work/temporary")" ''

# Building, in a copy of the front door and with another `rt`, which proves nothing.
mkdir "$work/copy" "$work/kit"
cp -r negoex tools "$work/copy"
mkdir -p "$work/copy/crates/list/data"
cp crates/list/data/example "$work/copy/crates/list/data"
printf '# NAME: DEP\none:\ntwo: one\nother staticlib: one\nlist: one two\n' >"$work/copy/crates.txt"
cat >"$work/kit/rt" <<'END'
#!/bin/sh
proved() { printf 'fn %s::main: proved\ncrate %s: modules loaded=5 checked=%s\nlogic=proved functions=1\n' "$1" "$1" "$2"; }
[ "$*" = run ] || exit 2
proved one 0
proved two 7
[ ! -e ../../fails ] || { printf 'fn list::main: not proved\nlogic=not-proved\n'; exit 1; }
proved list 12
mkdir -p out
printf '#!/bin/sh\necho built\n' >out/list
chmod +x out/list
END
chmod +x "$work/kit/rt"
plainly() { PATH=$work/kit:$PATH "$work/copy/negoex" "$@" </dev/null 2>&1; }
# what it takes is not compared
door() { plainly "$@" | sed 's/ proved ([0-9]* s)$/ proved (N s)/'; }
token=$work/copy/crates/list/data/example
touch "$work/copy/fails"
expect 'a build that fails' "$(door list "$token")" "negoex: building 'list': crates that are not proved yet are proved now, all of them in some 2 minutes on two cores
negoex: 2 of 3: two proved (N s)
negoex: the build of 'list' failed; $work/copy/target/build.log says why"
expect 'a build that fails: status' "$(plainly list "$token" >/dev/null; echo $?)" 1
rm "$work/copy/fails"
expect 'a build' "$(door list "$token")" "negoex: building 'list': crates that are not proved yet are proved now, all of them in some 2 minutes on two cores
negoex: 2 of 3: two proved (N s)
negoex: 3 of 3: list proved (N s)
built"
expect 'no second build' "$(door list "$token")" built
touch "$work/copy/crates/list/data/example"
expect 'a build behind a change' "$(door list "$token" | tail -n 2)" "negoex: 3 of 3: list proved (N s)
built"
rm -r "$work/copy/target"
touch "$work/copy/target"
expect 'a folder that cannot be written' "$(door list "$token")" "negoex: 'list' has to be built first, and $work/copy/target cannot be written"
if [ "$(id -u)" -ne 0 ]; then
    rm "$work/copy/target"
    chmod 555 "$work/copy"
    expect 'a repository that cannot be written' "$(door list "$token")" "negoex: 'list' has to be built first, and $work/copy/target cannot be written"
    chmod 755 "$work/copy"
fi

printf 'tests/programs/door.sh: %d cases, %d failed\n' "$cases" "$failures"
[ "$failures" -eq 0 ]
