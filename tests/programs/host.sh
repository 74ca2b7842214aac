#!/bin/sh
# The library for C hosts: tests/host/host.c calls every function over the examples and over damaged copies of them, and compares the answers with the listings. It is built
# by the machine's C compiler, or by the kit's where there is none. Prints one line for each failure, and last how many cases there were.
set -u
cd "$(dirname "$0")/../.." || exit 1
root=$PWD
[ -x crates/examples/out/examples ] || { echo 'tests/programs/host.sh: crates/examples/out/examples is not built' >&2; exit 1; }
work=$(mktemp -d) || exit 1
trap 'rm -rf "$work"' EXIT
cases=0
failures=0

say() { printf 'tests/programs/host.sh: %s\n' "$1" >&2; }

# expect WHAT GOT WANTED
expect() {
    cases=$((cases + 1))
    [ "$2" = "$3" ] && return
    failures=$((failures + 1))
    say "$1: got \"$2\", and not \"$3\""
}

expect 'the library' "$(./negoex library "$work/library" 2>"$work/said")" "$work/library/libnegoex.a
$work/library/negoex.h"
expect 'its header' "$(cmp crates/host/negoex.h "$work/library/negoex.h" && echo same)" same
[ "$failures" -eq 0 ] || { cat "$work/said" >&2; exit 1; }
expect 'a folder that cannot be made' "$(./negoex library /dev/null/folder 2>/dev/null; echo $?)" 1
expect 'two folders' "$(./negoex library "$work" "$work" 2>/dev/null; echo $?)" 2

# A compiler that has C's headers. Else the kit's, which has none: those in tests/host/kit say what the test needs.
printf '#include <stdio.h>\nint main(void) { return fflush(stdout); }\n' >"$work/try.c"
compiler=
for name in cc gcc clang; do
    if "$name" -std=c99 "$work/try.c" -o "$work/try" 2>/dev/null && "$work/try"; then
        compiler=$name
        break
    fi
done
kit=$(readlink -f "$(command -v rt)")
kit=${kit%/bin/rt}
warnings='-std=c99 -pedantic -Wall -Wextra -Werror'

# compile SOURCE PROGRAM [WORD..]: with the machine's compiler
compile() {
    source=$1 program=$2
    shift 2
    "$compiler" $warnings "$@" -g -O1 -I"$work/library" "$source" "$work/library/libnegoex.a" -o "$program"
}

# with_kit SOURCE PROGRAM: with the kit's
with_kit() {
    "$kit/toolchain/bin/clang" $warnings -O1 -nostdinc -isystem tests/host/kit -I"$work/library" -c "$1" -o "$2.o" &&
        "$kit/bin/rattle-link" --target x86_64-unknown-linux-gnu --toolchain "$kit/toolchain" -o "$2" "$2.o" "$work/library/libnegoex.a" >"$work/linked" 2>&1 || cat "$work/linked"
}

expect 'compiled by the kit' "$(with_kit tests/host/host.c "$work/host-kit" 2>&1)" ''
if [ -n "$compiler" ]; then
    expect "compiled by $compiler" "$(compile tests/host/host.c "$work/host" 2>&1)" ''
else
    say "no C compiler with C's headers on this machine: the kit's is used"
    cp "$work/host-kit" "$work/host"
fi
[ "$failures" -eq 0 ] || exit 1

# Damaged copies, and their listings by the listing program.
mkdir "$work/damaged"
sed '$d' crates/examples/stdin | while IFS= read -r name; do "$work/host" damage crates/examples/data "$name" "$work/damaged"; done >"$work/names"
(cd "$work/damaged" && split -l 400 "$work/names" "$work/names." && for part in "$work"/names.*; do "$root/crates/examples/out/examples" <"$part"; done) >"$work/listings"
expect 'damaged copies' "$(grep -c '^file ' "$work/listings")" "$(wc -l <"$work/names" | tr -d ' ')"

# all PROGRAM [WORD]: the answers over the examples and the damaged copies
all() {
    "$1" check crates/examples/stdout crates/examples/data ${2-} && "$1" check "$work/listings" "$work/damaged" ${2-} && "$1" envelopes crates/envelopes/stdout crates/envelopes/data
}

# no_wrong WHAT PROGRAM [WORD]: none of them is wrong
no_wrong() {
    what=$1
    shift
    all "$@" >"$work/answers" 2>"$work/said"
    status=$?
    expect "$what" "$status$(cat "$work/said")" 0
    grep -c ' 0 wrong$' "$work/answers" >"$work/count"
    expect "$what: all three runs" "$(cat "$work/count")" 3
}

[ -z "$compiler" ] || no_wrong "answers, compiled by the kit" "$work/host-kit" few
no_wrong 'answers' "$work/host"
answers=$(awk '{ n += $3 } END { print n }' "$work/answers")
expect 'every number of the structural reading' "$(cat crates/examples/stdout "$work/listings" | sed -n 's/^refused \([0-9]*\) .*/\1/p' | sort -nu | tr '\n' ' ')" '1 2 3 4 5 6 7 8 10 11 12 13 '

# The octets that the front door points at, in words, are those at fault.
sed -n 's/^file //p; /^refused /p' crates/examples/stdout | while read -r word number place; do
    case $word in
        refused)
            [ "$number" -gt 2 ] || continue
            sh tools/explain.sh token "crates/examples/data/$name" "$number" "${place#at=}" >"$work/words"
            case $number in 11) grep 'BREAKS' "$work/words" ;; *) grep '^octets* [0-9]' "$work/words" ;; esac | sed -n '1s/^octets* \([0-9]*\)\( to \([0-9]*\)\)*,.*/\1 \3/p' | {
                read -r first last
                echo "$name $first $((${last:-$first} - first + 1))"
            } >>"$work/pointed"
            echo "$name $("$work/host" fault "crates/examples/data/$name")" >>"$work/faults"
            ;;
        *) name=$word ;;
    esac
done
expect 'refused examples with a field at fault' "$(grep -c . "$work/faults")" "$(grep -cE '^refused ([3-9]|1[0-9]) ' crates/examples/stdout)"
expect 'the octets of the front door' "$(cat "$work/pointed")" "$(cat "$work/faults")"

# The comparison notices a wrong answer: a listing of another token.
sed 's/ length=68$/ length=69/' crates/examples/stdout >"$work/other"
expect 'a wrong listing is noticed' "$("$work/host" check "$work/other" crates/examples/data few >/dev/null 2>&1; echo $?)" 1

# Watched by valgrind, which sees the library's accesses too, and by the compiler's sanitizers.
if command -v valgrind >/dev/null 2>&1; then
    printf '#!/bin/sh\nexec valgrind -q --error-exitcode=9 "%s/host" "$@"\n' "$work" >"$work/watched"
    chmod +x "$work/watched"
    no_wrong 'watched by valgrind' "$work/watched" few
else
    say 'no valgrind on this machine: not run under it'
fi
if [ -n "$compiler" ] && compile "$work/try.c" "$work/try" -fsanitize=address,undefined -fno-sanitize-recover=all 2>/dev/null && "$work/try" 2>/dev/null; then
    compile tests/host/host.c "$work/sanitized" -fsanitize=address,undefined -fno-sanitize-recover=all
    no_wrong 'with sanitizers' "$work/sanitized" few
else
    say 'no sanitizers on this machine: not run with them'
fi

# The header in C++.
for name in c++ g++ clang++; do
    command -v "$name" >/dev/null 2>&1 || continue
    printf '#include "negoex.h"\nint main() { return negoex_messages(reinterpret_cast<const uint8_t *>(""), 0) != -2; }\n' >"$work/try.cc"
    expect "in C++, by $name" "$("$name" -std=c++11 -pedantic -Wall -Wextra -Werror -I"$work/library" "$work/try.cc" "$work/library/libnegoex.a" -o "$work/try" 2>&1 && "$work/try" && echo good)" good
    break
done

# The program that docs/HOST.md shows prints what it shows. It needs C's headers.
if [ -n "$compiler" ]; then
    awk '/^```c$/ { on = 1; next } /^```/ { on = 0 } on' docs/HOST.md >"$work/shown.c"
    awk '/^```$/ { on = !on; next } /^```c$/ { on = -1; next } on == 1' docs/HOST.md >"$work/shown"
    expect 'the program of docs/HOST.md' "$(compile "$work/shown.c" "$work/program" 2>&1 && "$work/program" crates/list/data/example)" "$(cat "$work/shown")"
    expect 'and a refused token' "$("$work/program" crates/examples/data/refused-2-empty)" 'refused 2 at=0'
fi

printf 'tests/programs/host.sh: %d cases, %d failed, with %s answers of the library\n' "$cases" "$failures" "$answers"
[ "$failures" -eq 0 ]
