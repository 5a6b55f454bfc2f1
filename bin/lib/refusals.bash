# What a refusal says, in words. The numbers are those of docs/SPECIFICATION.md, "Numbers of what is turned away".

# The field of a line that is at fault, its value (at most 40 characters, all printable) and what was expected there. KIND is `log`,
# `timed`, `terms` (sqv4-make's first line) or `sample`.
field_at_fault() { # KIND LINE
    KIND=$1 LINE=$2 LC_ALL=C awk 'BEGIN {
        line = ENVIRON["LINE"]; kind = ENVIRON["KIND"]
        n = split(line, f, ",")
        if (line == "") tell("it is empty")
        if (kind == "sample") { number(1, -32768, 32767, "a sample"); last(1) }
        if (kind == "terms") {
            number(1, 0, 2, "a variant"); number(2, 0, "4294967295", "a sample rate")
            number(3, 0, 255, "a volume"); number(4, 0, 255, "a step index"); last(4)
        }
        at = 1
        if (kind == "timed") {
            number(1, 0, "4294967295", "a frame"); at = 2
            if (n < 2) tell("it ends before field 2, W, M, R, P or V")
            if (f[2] !~ /^[WMRPV]$/) wrong(2, "W, M, R, P or V (the stamps say when frames sound)")
        }
        if (f[at] !~ /^[WMRPCV]$/) wrong(at, "W, M, R, P, C or V")
        if (f[at] == "W" || f[at] == "M") { number(at + 1, 0, "4294967295", "an address"); number(at + 2, 0, 255, "a byte"); last(at + 2) }
        if (f[at] == "R" || f[at] == "P") { number(at + 1, 0, "4294967295", "an address"); last(at + 1) }
        if (f[at] == "C") { number(at + 1, 1, 1000, "a number of frames"); last(at + 1) }
        number(at + 1, 0, 4, "a version"); last(at + 1)
    }
    function tell(words) { print words; exit }
    function wrong(k, wanted) {
        if (f[k] ~ /\r$/) tell("field " k " ends in a carriage return (byte 13), and lines are ended by byte 10 alone")
        gsub(/[^ -~]/, "?", f[k])
        if (length(f[k]) > 40) f[k] = substr(f[k], 1, 40) ".."
        tell("field " k " is \"" f[k] "\", expected " wanted)
    }
    function number(k, low, high, what,    size) {
        what = what " from " low " to " high
        if (k > n) tell("it ends before field " k ", " what)
        size = f[k]; if (low < 0) sub(/^-/, "", size)
        if (size !~ /^(0|[1-9][0-9]*)$/ || f[k] == "-0") wrong(k, what " in plain decimal")
        if (length(size) > 10 || f[k] + 0 < low + 0 || f[k] + 0 > high + 0) wrong(k, what)
    }
    function last(k) {
        if (n > k) wrong(k + 1, "the end of the line")
        exit
    }'
}

# Line NUMBER of the input and whether it is ended, where the input can be read again.
line_of_input() { # NUMBER
    local text
    [ ${#shown[@]} -gt 0 ] || return 1
    text=$(cat -- "${shown[@]}" 2>/dev/null | LC_ALL=C sed -n -e "$1p" -e "$(($1 + 1))q" | LC_ALL=C tr '\000' '?'; echo .)
    text=${text%.}
    [ -n "$text" ] || return 1
    printf '%s' "$text"
}

# Where and why a line is malformed.
malformed_line() { # KIND NUMBER WHAT
    local text fault
    text=$(line_of_input "$2"; echo .)
    text=${text%.}
    [ -n "$text" ] || { echo "line $2 is $3"; return; }
    fault=$(field_at_fault "$1" "${text%$'\n'}")
    if [ -z "$fault" ] && [ "$text" = "${text%$'\n'}" ]; then fault='it is not ended by byte 10'; fi
    echo "line $2 is $3${fault:+: $fault}"
}

# A register above the last one, in the field behind the letter's.
unmapped_line() { # NUMBER FIELD
    local text
    text=$(line_of_input "$1") || { echo "line $1 names a register above 2303, the last one"; return; }
    echo "line $1 names register $(cut -d , -f "$2" <<< "$text") in its field $2, expected 0 to 2303"
}

# A line of a timed log whose stamp is below that of the line before it.
late_line() { # NUMBER
    local text before
    text=$(line_of_input "$1") && before=$(line_of_input $(($1 - 1))) ||
        { echo "line $1 is too late (18): its frame is below that of the line before it"; return; }
    echo "line $1 is too late (18): field 1 is \"${text%%,*}\", expected the frame of the line before it, ${before%%,*}, or a later one"
}

# Of a state that can be read again, the first line, from 0, whose field number FIELD is at fault, and that field: the lines before the one
# that was refused are good.
state_line_at_fault() { # FIELD
    [ ${#shown[@]} -gt 0 ] || return
    cat -- "${shown[@]}" 2>/dev/null | LC_ALL=C tr '\000' '?' | FIELD=$1 LC_ALL=C awk -F, '
        BEGIN {
            at = ENVIRON["FIELD"] + 0
            split("15 65535 5 255 255 6 7 1 65535 65535 16777215 16777215 16777215 255 7 1 18446744073709551615 34359738367 4294967295" \
                " s 65280 s 65535 3 255", most, " ")
        }
        line == 0 && /^[FRP]/ { next }
        line > 16 || fault() { exit }
        { if (line++ == 0) version = $2 }
        END { if (found) { value = $at; gsub(/[^ -~]/, "?", value); printf "%d\n%s\n%s\n", line, NF < at ? "short" : "there", substr(value, 1, 40) } }
        function above(size, top) { return length(size) > length(top) || (length(size) == length(top) && (size "") > (top "")) }
        function wrong(value, top,    size) {
            size = value
            if (top == "s") { top = sub(/^-/, "", size) ? 32768 : 32767; if (value == "-0") return 1 }
            return size !~ /^(0|[1-9][0-9]*)$/ || above(size, top)
        }
        function isLength(value,    n) { for (n = 256; n <= 16777216; n *= 2) if (value == n "") return 1; return 0 }
        function fault(    top) {
            if (line > 0 && at == 1) found = $1 != line - 1 ""
            else if (line == 0) found = at == 1 ? $1 != "S3W2" : at == 2 ? wrong($2, 4) : at == 3 ? NF >= 3 && !isLength($3) : NF >= 4
            else {
                top = at > 282 ? "s" : at == 282 ? 2048 : at > 25 ? 255 : at == 3 && version < 2 ? 4 : most[at]
                found = NF < at ? at <= 282 + $282 : at > 282 + $282 || wrong($at, top)
            }
            return found
        }'
}

# What was expected of a field of a state's line. The head has three fields, a voice line 282 and the queued samples.
state_field() { # FIELD
    local names=('a channel from 0 to 15' 'a frequency from 0 to 65535' 'a waveform from 0 to 5 (to 4 under V1 and V2)' 'a volume from 0 to 255'
        'a panpot from 0 to 255' 'a modulation type from 0 to 6' 'a modulation target from 0 to 7' 'a targeting mode, 0 or 1'
        'modulation parameter 1 from 0 to 65535' 'modulation parameter 2 from 0 to 65535'
        'a start address from 0 to 16777215' 'an end address from 0 to 16777215' 'a loop address from 0 to 16777215'
        'a PCM control byte from 0 to 255' 'a sample control from 0 to 7' 'active, 0 or 1'
        'a phase from 0 to 18446744073709551615' 'an old phase from 0 to 34359738367' 'an LFSR state from 0 to 4294967295'
        'a last sample from -32768 to 32767' 'a slew from 0 to 65280' 'a held sample from -32768 to 32767' 'a hold from 0 to 65535'
        'a sub-tick from 0 to 3' 'a latch byte from 0 to 255')
    local head=('S3W2' 'a version from 0 to 4' 'a RAM length, a power of two from 256 to 16777216' 'the end of the line')
    local field=$1 voice where
    if [ "$field" -le 25 ]; then voice=${names[field - 1]}
    elif [ "$field" -le 281 ]; then voice="wavetable byte $((field - 26)), from 0 to 255"
    elif [ "$field" -eq 282 ]; then voice='a queue count from 0 to 2048'
    else voice="queued sample $((field - 282)) from -32768 to 32767, or the end of the line behind the last one"
    fi
    local fault line
    mapfile -t fault < <(state_line_at_fault "$field")
    line=${state_line:-$((${fault[0]--1} + 1))}
    if [ "$line" = 1 ]; then voice=${head[field - 1]-}; where='the head'; else where='a voice line'; fi
    if [ "$line" -gt 1 ] && [ "$field" = 1 ]; then voice="$((line - 2)), as voice lines run from 0 up"; fi
    where="field $field of its line $line, $where"
    case ${fault[1]-unknown}:$line in
    short:*) echo "$where: it is missing, expected $voice" ;;
    there:*) echo "$where: it is \"${fault[2]}\", expected $voice" ;;
    unknown:0) echo "field $field of its first bad line" ;;
    *) echo "$where: expected $voice" ;;
    esac
}

# A refusal of s3w2-load: of the state, or of a line of the log behind it.
load_refusal() { # NUMBER [VALUE]
    case $1,${2-} in
    1,) echo "the state is refused (1): fewer than 65536 bytes of RAM follow its voice lines" ;;
    22,) echo "the state is refused (22): its head is that of a RAM of another length than 65536" ;;
    23,) echo "the state is refused (23)${state_line:+ at its line $state_line}: a voice line under V1 or V2 has a held sample, hold, sub-tick, latch or queue count that is not 0" ;;
    16,17 | 16,27)
        # field 17 or 27 of the state, where it told the line; else line 16 of the log
        if [ -n "$state_line" ]; then echo "the state is refused (16) at $(state_field "$2")"; else load_refusal '16 ' "$2"; fi
        ;;
    16,1) echo "the state is refused (16) at $(state_field 1)${old_state:+; $old_state}" ;;
    16,*) echo "the state is refused (16) at $(state_field "$2")" ;;
    *,17) echo "line ${1% } of the log behind the state is no line of a log (17)" ;;
    *,27) echo "line ${1% } of the log behind the state names a register above 2303, the last one (27)" ;;
    *) echo "the state is refused with number $1" ;;
    esac
}

# The field of sqv4-make's first line that is out of its range.
term_at_fault() {
    local text rate volume index
    text=$(line_of_input 1)
    IFS=, read -r _ rate volume index <<< "$text"
    if [ "$rate" = 0 ]; then echo 'field 2 is "0", expected a sample rate from 1 to 4294967295'
    elif [ "$volume" = 0 ]; then echo 'field 3 is "0", expected a volume from 1 to 255'
    elif [ -n "$index" ]; then echo "field 4 is \"$index\", expected a step index from 0 to 88"
    else echo "expected a sample rate and a volume above 0, a step index up to 88, and at most 4294967295 samples"
    fi
}

# A refusal of a file.
file_refusal() { # NUMBER [VALUE..]
    case $1 in
    4) echo "the file is refused (4): it is shorter than its header of 16 bytes" ;;
    5) echo "the file is refused (5): it does not begin with SQV4" ;;
    6) echo "the file is refused (6): byte 4, the version, is ${2-}, expected 1, 2 or 3" ;;
    7) echo "the file is refused (7): byte 5, the variant, is ${2-}, expected 0 (H), 1 (L) or 2 (L+)" ;;
    8) echo "the file is refused (8): byte 6, the number of channels, is ${2-}, expected 1 or 2" ;;
    9) echo "the file is refused (9): byte 7, the reserved byte, is ${2-}, expected 0" ;;
    10) echo "the file is refused (10): the sample rate, bytes 8 to 11, is 0" ;;
    11) echo "the file is refused (11): it has ${3-} bytes, and its header says ${2-}" ;;
    12) echo "the file is refused (12): a fragment's step index is ${2-}, expected 0 to 88" ;;
    13) echo "the file is refused (13): bits behind a fragment's last code are not 0" ;;
    20) echo "line 1 is refused (20): $(term_at_fault)" ;;
    21) echo "refused (21): the file would be longer than 1048576 bytes" ;;
    *) echo "refused with number $1" ;;
    esac
}

# The words of a closing line `bad,..`, `refused,..` or `too long`.
refusal() { # LINE
    local word values
    [ "$1" != 'too long' ] || { echo "the file is longer than 16777216 bytes, and it takes no longer one"; return; }
    IFS=, read -r word values <<< "$1"
    IFS=, read -r -a values <<< "$values"
    case $word:$crate:${values[1]-} in
    refused:*) file_refusal "${values[@]}" ;;
    bad:s3w2_load:*) load_refusal "${values[@]}" ;;
    bad:sqv4_make:*)
        if [ "${values[0]}" = 1 ]; then malformed_line terms 1 'no line of terms (17)'
        else malformed_line sample "${values[0]}" 'no sample (17)'
        fi
        ;;
    bad:s3w2_timed:17) malformed_line timed "${values[0]}" 'no line of a log with frame times (17)' ;;
    bad:s3w2_timed:18) late_line "${values[0]}" ;;
    bad:s3w2_timed:19) echo "line ${values[0]} is the 65th of its frame (19), expected at most 64" ;;
    bad:s3w2_timed:27) unmapped_line "${values[0]}" 3 ;;
    bad:*:17) malformed_line log "${values[0]}" 'no line of a log (17)' ;;
    bad:*:27) unmapped_line "${values[0]}" 2 ;;
    bad:*) echo "line ${values[0]} is refused with number ${values[1]-}" ;;
    esac
}
