#!/bin/sh
# What stands behind a refusal, in words; nothing here decides one.
#   explain.sh token FILE NUMBER PLACE   `refused NUMBER at=PLACE` was answered to the token in FILE: which octets to look at
#   explain.sh script FILE ANSWERS       the lines of the script in FILE that were bad or refused, by ANSWERS, what was printed
#   explain.sh envelope FILE ANSWERS     why the envelope in FILE, or the token in it, was refused, by ANSWERS, what was printed
#   explain.sh text NUMBER               `refused NUMBER at=0` was answered to a text that says an envelope
#   explain.sh replay CASE ANSWERS       what ended the replay of CASE, by ANSWERS, what was printed; the case names files from the current folder
# Places are counted from the token's first octet, from 0. docs/RULES.md has the rules.
set -u

# A line a number; awk takes them from the environment.
meanings='longer than 65,535 octets
fewer than 40 octets for a message
another signature
the type is above 7
the header length is not the one of the type
the message length is below the header length, or above the octets left
the sequence number is not the one expected
another conversation
(never given: pads are passed over)
the version is not 0
a vector breaks its rule
a critical extension
the checksum header length is not 20, or the checksum scheme is not 1
the type may not stand at this place of the turn, or it is the second VERIFY of its end
the scheme is not allowed here
no room in the transcript
no common scheme is left after the marks of this end
the call is not of this stage (after a refusal 12 none is), or the record is outside its limits
an own list that is empty, above 16 or repeats a scheme; marks beyond the list; or empty metadata
a tag, the identifier of the wrapper or a state is another, a required element or all mechanisms are missing, or a length goes past its holder
a length is indefinite or not the shortest
octets are left over, or a tag is unknown or misplaced
a seventeenth mechanism
a number from 0 to the highest is missing, stands twice, or stands behind a higher one in its file
more than 8 extensions or alerts, or a value of more than 4,096 octets
a critical extension outside a test call
the file cannot be opened
the schemes of a NEGO, or the choice of the initiator, are not what the list and marks of its end give, or these leave none'
export meanings
meaning='BEGIN { split(ENVIRON["meanings"], meaning, "\n"); CONVFMT = OFMT = "%.0f" }
'

# One line for what the number means, one for the message, and one for each place to look at.
of_token() {
    if [ "$2" -eq 1 ]; then
        awk -v size="$(wc -c <"$1")" "$meaning"'BEGIN { print "refused 1: " meaning[1]; print "it has " (size < 2097152 ? size " octets" : "2 MiB or more") }'
        return
    fi
    od -An -v -tu1 "$1" | LC_ALL=C awk -v number="$2" -v place="$3" "$meaning"'
        { for (i = 1; i <= NF; i++) octet[size++] = $i }

        # the number in k octets, least significant first
        function le(at, k,    v) { v = 0; while (k--) v = v * 256 + octet[at + k]; return v }
        function signed(v) { return v < 2147483648 ? v : v - 4294967296 }
        function hex(at, k,    s, i) {
            for (i = at; i < at + k && i < size; i++) s = s (s == "" ? "" : " ") sprintf("%02X", octet[i])
            return s
        }
        function signature(at) { return hex(at, 8) == "4E 45 47 4F 45 58 54 53" }
        # the first signature from a place on, or the size where there is none
        function find(at) { while (at < size && !(octet[at] == 78 && signature(at))) at++; return at }
        function octets(at, k) { return k == 1 ? "octet " at : "octets " at " to " at + k - 1 }
        function look(at, k, what) { print octets(at, k) ", " what }

        function header_of(kind) { return kind <= 1 ? 96 : kind <= 5 ? 64 : kind == 6 ? 80 : 72 }
        function name_of(kind) {
            split("INITIATOR_NEGO ACCEPTOR_NEGO INITIATOR_META_DATA ACCEPTOR_META_DATA CHALLENGE AP_REQUEST VERIFY ALERT", name, " ")
            return kind <= 7 ? name[kind + 1] : "unknown"
        }

        # Whether a vector keeps its rule; where `all` is set, or it does not, a line says why.
        function keeps(at, what, unit, count, all,    offset, bad, how) {
            offset = le(at, 4)
            if (count == 0) how = "empty, its offset is not looked at"
            else if (offset < header) { bad = 1; how = "BREAKS THE RULE: the offset is below the header length, " header }
            else if (offset + count * unit > len) { bad = 1; how = "BREAKS THE RULE: ends at " offset + count * unit ", and the message at " len }
            else how = "ends at " offset + count * unit " of " len
            if (all || bad && ++shown <= 8)
                look(at, unit == 1 ? 8 : 6, what ": offset " offset ", " (unit == 1 ? "length " count : "count " count " of " unit) ": " how)
            return !bad
        }
        # a vector of elements with types and values, at a place
        function array(at, what,    k, from) {
            if (!keeps(at, what " vector", 12, le(at + 4, 2), 1)) return
            for (k = 0; k < le(at + 4, 2); k++) {
                from = place + le(at, 4) + 12 * k
                keeps(from + 4, "value of " what " " k, 1, le(from + 8, 4), 0)
            }
        }
        function vectors() {
            if (kind <= 1) { keeps(place + 80, "scheme vector", 16, le(place + 84, 2), 1); array(place + 88, "extension") }
            else if (kind <= 5) keeps(place + 56, "exchange vector", 1, le(place + 60, 4), 1)
            else if (kind == 6) keeps(place + 68, "checksum value", 1, le(place + 72, 4), 1)
            else array(place + 60, "alert")
            if (shown > 8) print "and " shown - 8 " more"
        }
        # an id in its usual text
        function id(at,    s) {
            s = hex(at + 3, 1) hex(at + 2, 1) hex(at + 1, 1) hex(at, 1) "-" hex(at + 5, 1) hex(at + 4, 1) "-" hex(at + 7, 1) hex(at + 6, 1) "-" hex(at + 8, 2) "-" hex(at + 10, 6)
            gsub(/ /, "", s)
            return s
        }
        # the schemes that a message names
        function schemes(    k, from) {
            if (kind > 1) { look(place + 40, 16, "the scheme: " id(place + 40)); return }
            if (!le(place + 84, 2)) look(place + 84, 2, "the count of schemes: 0")
            for (k = 0; k < le(place + 84, 2) && k < 17; k++) look(place + le(place + 80, 4) + 16 * k, 16, "scheme " k ": " id(place + le(place + 80, 4) + 16 * k))
            if (k < le(place + 84, 2)) print "and " le(place + 84, 2) - k " more"
        }
        function critical(    k, from) {
            for (k = 0; k < le(place + 92, 2); k++) {
                from = place + le(place + 88, 4) + 12 * k
                if (octet[from + 3] >= 128 && ++shown <= 8) look(from, 4, "type of extension " k ": " signed(le(from, 4)) ", and negative ones are critical")
            }
            if (shown > 8) print "and " shown - 8 " more"
        }
        function length_before() { look(before + 20, 4, "length of the message before: " le(before + 20, 4) ", so that the next begins at " place) }

        END {
            for (at = 0; at < place && le(at + 20, 4); at += le(at + 20, 4)) before = at
            left = size - place
            kind = le(place + 8, 4)
            header = header_of(kind)
            len = le(place + 20, 4)
            print "refused " number ": " meaning[number]
            if (number > 4 && number != 16 && number != 18) print "message at " place ": " name_of(kind) " (type " kind "), sequence number " le(place + 12, 4) ", length " len

            if (number == 2) {
                print size ? left " octets are left, from octet " place " on" : "the token is empty"
                if (place) length_before()
            }
            if (number == 3) {
                look(place, 8, "the signature: " hex(place, 8) ", and not 4E 45 47 4F 45 58 54 53")
                if (place) length_before()
                at = find(place ? before + 8 : 0)
                if (at < size) print "the next signature stands at octet " at
            }
            if (number == 4) look(place + 8, 4, "the type: " kind)
            if (number == 5) {
                look(place + 16, 4, "the header length: " le(place + 16, 4) ", and not " header)
                if (le(place + 16, 4) == header - 4 && kind >= 6) print "Samba writes such headers: docs/PEERS.md"
            }
            if (number == 6) look(place + 20, 4, "the message length: " len (len < header ? ", below the header length, " header : ", and " left " octets are left"))
            if (number == 7) {
                look(place + 12, 4, "the sequence number: " le(place + 12, 4))
                look(before + 12, 4, "that of the message before: " le(before + 12, 4) (le(before + 12, 4) == 4294967295 ? ", which no number follows" : ""))
            }
            if (number == 8) {
                look(place + 24, 16, "the conversation: " hex(place + 24, 16))
                if (place) look(24, 16, "that of the first message: " hex(24, 16))
            }
            if (number == 10) look(place + 72, 8, "the version: " hex(place + 72, 8))
            if (number == 15 || number == 28) schemes()
            if (number == 11) vectors()
            if (number == 12) critical()
            if (number == 13) {
                if (le(place + 56, 4) != 20) look(place + 56, 4, "the checksum header length: " le(place + 56, 4) ", and not 20")
                if (le(place + 60, 4) != 1) look(place + 60, 4, "the checksum scheme: " le(place + 60, 4) ", and not 1")
            }
        }'
}

# Each call has one line of ANSWERS: comments and empty lines have none. Lines are counted from 1.
of_script() {
    [ "$(head -c 3 "$1" | od -An -tx1)" != ' ef bb bf' ] || echo 'the script begins with a byte order mark, EF BB BF, which belongs to no call'
    LC_ALL=C grep -an '^[^#]' "$1" | LC_ALL=C tr -c '\n\r -~' '?' | LC_ALL=C awk -v answers="$2" "$meaning"'
        { if ((getline answer <answers) <= 0) exit; line = $0; sub(/:.*/, "", line) }
        answer == "bad line" {
            sub(/^[0-9]*:/, "")
            ends += sub(/\r$/, "")
            if (++bad <= 8) print "line " line " is bad: " substr($0, 1, 60)
        }
        answer ~ /^refused / {
            split(answer, word, " ")
            n = word[2]
            if (++times[n] <= 8) lines[n] = lines[n] (times[n] > 1 ? ", " : "") line
        }
        END {
            if (bad > 8) print "and " bad - 8 " bad lines more"
            if (ends) print "of the bad lines, " ends " end in a carriage return: tr -d \047\\r\047 takes it out"
            for (n = 1; n <= 26; n++) if (times[n])
                print (times[n] > 1 ? "lines " : "line ") lines[n] (times[n] > 8 ? " and " times[n] - 8 " more" : "") ": refused " n ": " meaning[n]
        }'
}

# The name of the file of the side $2, in the case $1.
named() { LC_ALL=C sed -n "s/^$2 //p" "$1" | head -n 1; }

# Which lines of a case are not of its form. Lines are counted from 1.
of_form() {
    if [ "$(wc -c <"$1")" -gt 65535 ]; then
        echo 'the case has more than 65,535 octets'
        return
    fi
    [ "$(head -c 3 "$1" | od -An -tx1)" != ' ef bb bf' ] || echo 'the case begins with a byte order mark, EF BB BF, which belongs to no line'
    LC_ALL=C tr -c '\n\r -~' '?' <"$1" | LC_ALL=C awk '
        BEGIN {
            h = "[0-9A-Fa-f]"
            h = h h h h
            ids = "( " h h "-" h "-" h "-" h "-" h h h ")*$"
            form[1] = "^initiator ."; form[2] = "^acceptor ."; form[3] = "^i " h ids; form[4] = "^a " h ids
            split("initiator FILE/acceptor FILE/i MARKS ID ID ../a MARKS ID ID ..", shown, "/")
        }
        /^#/ || /^$/ { next }
        ++k > 4 { if (k == 5) print "line " NR " is one too many: " substr($0, 1, 60); next }
        $0 !~ form[k] {
            print "line " NR " is not `" shown[k] "`: " substr($0, 1, 60)
            if (/\r$/) print "it ends in a carriage return: tr -d \047\\r\047 takes it out"
            said = 1
            exit
        }
        END { if (!said && k < 4) print "the line `" shown[k + 1] "` is missing" }'
}

# 19: what is wrong with a list or its marks. Bit k of the marks is for place k.
of_lists() {
    LC_ALL=C awk "$meaning"'
        BEGIN { print "refused 19: " meaning[19] }
        # the number in hexadecimal digits
        function hexadecimal(digits,    k, v) { for (k = 1; k <= length(digits); k++) v = v * 16 + index("123456789ABCDEF", substr(digits, k, 1)); return v }
        /^[ia] / {
            side = $1 == "i" ? "the initiator\047s" : "the acceptor\047s"
            if (NF == 2) print side " list is empty"
            if (NF > 18) print side " list has " NF - 2 " schemes"
            split("", seen)
            for (k = 3; k <= NF; k++) if (seen[toupper($k)]++ == 1) print side " list repeats " toupper($k)
            if (NF <= 18 && hexadecimal(toupper($2)) >= 2 ^ (NF - 2)) print side " marks, " $2 ", have a bit beyond its list of " NF - 2
        }' "$1"
}

# The number and the place of each message in a file.
messages() {
    od -An -v -tu1 "$1" | LC_ALL=C awk '
        BEGIN { CONVFMT = OFMT = "%.0f" }
        { for (i = 1; i <= NF; i++) octet[size++] = $i }
        function le(at, k,    v) { v = 0; while (k--) v = v * 256 + octet[at + k]; return v }
        END { for (at = 0; at < size && le(at + 20, 4); at += le(at + 20, 4)) print le(at + 12, 4), at }'
}

# 24: the first number that is missing, stands twice or stands behind a higher one in its file.
of_numbers() {
    { messages "$1" | sed 's/^/i /'; messages "$2" | sed 's/^/a /'; } | LC_ALL=C awk "$meaning"'
        BEGIN { print "refused 24: " meaning[24] }
        $1 in last && $2 < last[$1] { print "in the " ($1 == "i" ? "initiator" : "acceptor") "\047s file, number " $2 " at " $3 " stands behind number " last[$1]; said = 1; exit }
        has[$2]++ { print "number " $2 " stands twice"; said = 1; exit }
        { last[$1] = $2; if ($2 > highest) highest = $2 }
        END { for (k = 0; !said && k <= highest; k++) if (!(k in has)) { print "number " k " is missing, and the highest is " highest; said = 1 } }'
}

# What ended a replay. That of a turn is behind the messages that are printed, so that its first has their number.
of_replay() {
    number=$(tail -n 1 "$2" | sed -n 's/^refused \([0-9]*\) .*/\1/p')
    place=$(tail -n 1 "$2" | sed -n 's/.* at=\([0-9]*\) .*/\1/p')
    end=$(tail -n 1 "$2" | sed 's/.* //')
    initiator=$(named "$1" initiator)
    acceptor=$(named "$1" acceptor)
    case $(tail -n 1 "$2") in
        'bad case') of_form "$1"; return ;;
        'no file')
            for side in initiator acceptor; do
                eval "file=\$$side"
                [ -r "$file" ] && [ ! -d "$file" ] || { echo "the $side's file cannot be read: $file"; return; }
            done
            ;;
        refused*) ;;
        *) return ;;
    esac
    case $number in
        19) of_lists "$1" ;;
        24) of_numbers "$initiator" "$acceptor" ;;
        1 | 2 | 3 | 4 | 5 | 6)
            eval "file=\$$end"
            echo "the $end's file, $file, cannot be cut into messages; places are counted from its start"
            of_token "$file" "$number" "$place"
            ;;
        *)
            case $number.$end in 28.*) side=$end ;; *.initiator) side=acceptor ;; *) side=initiator ;; esac
            eval "file=\$$side"
            start=$(messages "$file" | sed -n "s/^$(grep -c '^message ' "$2") //p")
            echo "turn $(grep -c '^turn ' "$2") is the $side's, and begins at octet $start of its file, $file; octets are counted from there"
            tail -c "+$((start + 1))" "$file" | of_token /dev/stdin "$number" "$place"
            ;;
    esac
}

# A refused envelope has one line; else the last one is that of the token in it, which is cut out of the file by the line that says where it stands.
of_envelope() {
    number=$(tail -n 1 "$2" | sed -n 's/^refused \([0-9]*\) .*/\1/p')
    place=$(tail -n 1 "$2" | sed -n 's/.* at=//p')
    start=$(sed -n 's/^token at=\([0-9]*\) .*/\1/p' "$2")
    length=$(sed -n 's/^token at=.* length=//p' "$2")
    case $number in
        '') ;;
        1) of_token "$1" 1 0 ;;
        2?) awk -v number="$number" "$meaning"'BEGIN { print "refused " number ": " meaning[number] }' ;;
        *)
            echo "the token begins at octet $start of the file; octets are counted from there"
            tail -c "+$((start + 1))" "$1" | head -c "$length" | of_token /dev/stdin "$number" "$place"
            ;;
    esac
}

# What a writing is refused with is about the text, and not about elements that were read.
of_text() {
    case $1 in
        1) echo 'refused 1: the envelope would have more than 65,535 octets, or the text has more than 262,143' ;;
        20) echo 'refused 20: an Init names no mechanism, or the state is above 3' ;;
        23) echo 'refused 23: more than 16 mechanisms' ;;
    esac
}

case ${1-} in
    envelope) of_envelope "$2" "$3" ;;
    text) of_text "$2" ;;
    replay) of_replay "$2" "$3" ;;
    token) of_token "$2" "$3" "$4" ;;
    script) of_script "$2" "$3" ;;
    *) exit 2 ;;
esac
