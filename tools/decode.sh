#!/bin/sh
# The octets of the token in a file, whatever the file's form.
#   decode.sh FORM FILE TOKEN               FORM is auto, raw, hex, dump or base64; what is decoded goes to TOKEN
#   decode.sh envelope FILE TOKEN UNWRAP    the token in the SPNEGO envelope in FILE, as the program UNWRAP shows it, goes to TOKEN
# Prints a line for each thing that it decodes. Ends with 1, and a line that says why, where FILE is not of the form asked for. With auto, a file that begins with
# the signature is a token, and one whose form is not known, or that has 2 MiB or more, is left as it is: the reader refuses it. Ends with 4 where what was decoded
# begins as an envelope does.
set -u
LC_ALL=C
export LC_ALL
form=$1 file=$2 token=$3

octets() { od -An -v -tx1 "$@" | tr -d ' \n'; }
size() { echo $(($(wc -c <"$1"))); }
# the text without a byte order mark and carriage returns
text() { sed '1s/^\xEF\xBB\xBF//' "$file" | tr -d '\r'; }
# hexadecimal digits on standard input, as octets
from_hex() { tr 'a-f' 'A-F' | tr -d '\n' | basenc -d --base16 2>/dev/null; }

is_text() { [ "$(tr -d '\t\r\n -~' <"$file" | sed '1s/^\xEF\xBB\xBF//' | wc -c)" -eq 0 ] && [ -n "$(text | tr -d ' \t\n' | head -c 1)" ]; }

# The digits, in pairs or not, with blanks, colons, commas, dashes and quotes between them, and 0x or \x before them.
hex() {
    text | sed 's/0[xX]//g; s/\\[xX]//g' | tr -d ' \t\n:,"\\-' >"$token.digits"
    [ -s "$token.digits" ] && [ "$(tr -d '0-9A-Fa-f' <"$token.digits" | wc -c)" -eq 0 ] || return 1
    from_hex <"$token.digits" >"$token" || return 1
    echo "hexadecimal text: $(size "$token") octets"
}

# A dump: an offset, octets and perhaps their characters in each line, as xxd, hexdump, od and tshark write them. Every offset has to be the one before and that
# line's octets, in base 16, 8 or 10; `*` stands for the line before it again, up to the next offset. An offset alone is the end.
dump() {
    text | awk '
        function value(s, base,    v, i) {
            v = 0
            for (i = 1; i <= length(s); i++) v = v * base + index("0123456789abcdef", substr(s, i, 1)) - 1
            return v
        }
        # the pairs of a group, in the order of the octets: words without a colon before them have the lowest octet last
        function pairs(group, colon,    s, i) {
            if (colon || length(group) == 2) return group
            for (i = length(group) - 1; i > 0; i -= 2) s = s substr(group, i, 2)
            return s
        }
        function upto(s, mark) { return index(s, mark) ? substr(s, 1, index(s, mark) - 1) : s }
        # how many octets line i stands for: up to the next offset; the last line has those that it shows
        function span(i, base) { return offset[i + 1] == "" ? length(data[i]) / 2 : value(offset[i + 1], base) - value(offset[i], base) }
        # Whether the offsets agree in a base, and are no more than twice those of the longest token. The last word may be filled up with one octet more than there is.
        function agrees(base,    i, have, gap, all) {
            for (i = 1; i <= n; i++) {
                have = length(data[i]) / 2
                gap = span(i, base)
                all += gap
                if (all > 131072) return 0
                if (again[i] ? gap < have || gap % have : gap != have && !(i == n && gap == have - 1)) return 0
            }
            return 1
        }
        function print_octets(base,    i, gap) {
            for (i = 1; i <= n; i++)
                for (gap = 2 * span(i, base); gap > 0; gap -= length(data[i])) print substr(data[i], 1, gap)
        }
        { $0 = tolower($0) }
        /^[ \t]*$/ { next }
        /^\*$/ && n && !ended { again[n] = 1; next }
        {
            sub(/^[ \t]+/, "")
            if (ended || !match($0, /^[0-9a-f][0-9a-f][0-9a-f][0-9a-f]+/)) exit failed = 1
            place = substr($0, 1, RLENGTH)
            rest = substr($0, RLENGTH + 1)
            colon = sub(/^:/, "", rest)
            if (rest != "" && rest !~ /^[ \t]/) exit failed = 1
            sub(/^[ \t]+/, "", rest)
            rest = upto(upto(upto(rest, "|"), "  >"), colon ? "  " : "   ")
            offset[n + 1] = place
            if (rest == "") { ended = 1; next }
            count = split(rest, group, /[ \t]+/)
            line = ""
            for (i = 1; i <= count; i++) {
                if (group[i] ~ /[^0-9a-f]/ || length(group[i]) % 2) exit failed = 1
                line = line pairs(group[i], colon)
            }
            data[++n] = line
            sure = sure || colon || place ~ /^0+$/
        }
        END {
            if (failed || !n || !(sure || n > 1)) exit 1
            base = agrees(16) ? 16 : agrees(8) ? 8 : agrees(10) ? 10 : 0
            if (!base) exit 1
            print_octets(base)
        }' >"$token.digits" || return 1
    from_hex <"$token.digits" >"$token" || return 1
    echo "hex dump: $(size "$token") octets"
}

# The base64 of the first `Negotiate` line that has one, or of the whole text.
base64_text() {
    what=base64
    digits=$(text | sed -n 's/.*negotiate[ \t]\{1,\}\([A-Za-z0-9+\/]\{4,\}=*\).*/\1/Ip' | head -n 1)
    if [ -n "$digits" ]; then
        what="base64 of the first Negotiate line that has a token"
    else
        digits=$(text | tr -d ' \t\n')
    fi
    case $digits in '' | *[!A-Za-z0-9+/=]*) return 1 ;; esac
    printf '%s' "$digits" | base64 -d >"$token" 2>/dev/null || return 1
    echo "$what: $(size "$token") octets"
}

# Where an OCTET STRING that begins with the signature stands in the file, and its length: for an envelope that is refused, as one that was cut off.
search() {
    head -c 262144 "$file" | od -An -v -tu1 | awk '
        { for (i = 1; i <= NF; i++) o[n++] = $i }
        # the length that stands before the place p, of an OCTET STRING
        function before(p) {
            if (o[p - 5] == 4 && o[p - 4] == 131) return (o[p - 3] * 256 + o[p - 2]) * 256 + o[p - 1]
            if (o[p - 4] == 4 && o[p - 3] == 130) return o[p - 2] * 256 + o[p - 1]
            if (o[p - 3] == 4 && o[p - 2] == 129) return o[p - 1]
            if (o[p - 2] == 4 && o[p - 1] < 128) return o[p - 1]
            return 0
        }
        END {
            split("78 69 71 79 69 88 84 83", mark, " ")
            for (p = 2; p + 8 <= n; p++) {
                for (k = 1; k <= 8 && o[p + k - 1] == mark[k]; k++);
                if (k > 8 && before(p)) { print p, before(p); exit }
            }
        }'
}

# The token in an envelope: where the proved reader says that it stands, or else where it may stand.
envelope() {
    printf '%s\n' "$file" | "$1" >"$token.shown"
    found=$(sed -n 's/^token at=\([0-9]*\) length=\([0-9]*\)$/\1 \2/p' "$token.shown")
    read -r word number place <"$token.shown"
    if [ "$word" = refused ]; then
        echo "as an SPNEGO envelope it is refused with $number: './negoex unwrap' and README.md say more"
        found=$(search)
    fi
    if [ -z "$found" ]; then
        cp "$file" "$token"
        echo 'it begins as SPNEGO does, and no NEGOEX token stands in it'
        return
    fi
    at=${found% *} length=${found#* } all=$(size "$file")
    tail -c "+$((at + 1))" "$file" | head -c "$length" >"$token"
    echo "SPNEGO, $all octets: its token stands from octet $at on, $length octets"
    [ $((at + length)) -le "$all" ] || echo "of the token's $length octets only $((all - at)) are there"
}

# A text in one of its forms.
any_text() { dump || hex || base64_text; }

large=$([ "$(size "$file")" -lt 2097152 ] || echo large)
case $form$large in
    envelope*) envelope "$4"; exit ;;
    auto*)
        cp "$file" "$token" || exit 1
        case $(octets -N8 "$file") in
            4e45474f45585453) exit 0 ;;
            d4c3b2a1* | a1b2c3d4* | 4d3cb2a1* | a1b23c4d* | 0a0d0d0a*)
                echo 'a packet capture; tshark prints the tokens in it, in hexadecimal: tshark -r FILE -Y negoex -T fields -e spnego.mechToken -e spnego.responseToken'
                exit 0
                ;;
        esac
        [ -z "$large" ] || exit 0
        if is_text; then any_text || { cp "$file" "$token"; echo 'a text that is neither hexadecimal nor a hex dump nor base64'; }; fi
        ;;
    raw*) cp "$file" "$token"; exit ;;
    *large) echo 'a text of 2 MiB or more is not decoded'; exit 1 ;;
    hex) hex || { echo 'this is no hexadecimal text: pairs of digits, with blanks, colons, commas or dashes between them'; exit 1; } ;;
    dump) dump || { echo 'this is no hex dump: each line has an offset and its octets'; exit 1; } ;;
    base64) base64_text || { echo 'this is no base64, and no Negotiate line'; exit 1; } ;;
    *) exit 2 ;;
esac
case $(octets -N1 "$token") in 60 | a0 | a1) exit 4 ;; esac
