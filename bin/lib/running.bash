# Running a program, and its status. A program has none of its own, but closes what it prints with a line that tells how it ended.
# What it prints goes on byte by byte through tee, of which one copy is looked at for that line.

# The FILEs can be read.
readable_files() {
    local file
    for file in "${files[@]}"; do
        [ "$file" = - ] && continue
        [ -e "$file" ] || cannot "there is no file $file"
        [ ! -d "$file" ] || cannot "$file is a folder"
        [ -r "$file" ] || cannot "$file cannot be read"
    done
}

# Whether progress is shown: to a terminal that has not the program's output too.
shows_progress() { [ -t 2 ] && [ ! -t 3 ]; }

# Whether it ends with a state.
saves() { [ "$crate" = s3w2_save ] || case " ${options[*]-} " in *' --save '*) ;; *) false ;; esac; }

# Of what a program prints, the line that tells how it ended. States and what sqv4-make prints may hold any bytes, so they are looked at
# from the front: a state has its head within its last 313,757 bytes, and a file begins with its name.
closing_line() {
    local seen=no
    ! saves || seen=state
    ! shows_progress || case $crate in s3w2_log | s3w2_save | s3w2_load) seen=yes ;; esac
    case $seen:$crate in
    yes:*) LC_ALL=C awk -v mode=lines -v shows=1 -v name="$command" -f "$root/bin/lib/progress.awk" ;;
    state:*) tail -c 320000 | LC_ALL=C sed -n -e '/^S3W2,/{s/.*/state/p;q}' -e '$p' ;;
    *:sqv4_make) { head -c 40 | LC_ALL=C sed -n -e '1s/^SQV4.*/file/' -e '1p'; cat > /dev/null; } ;;
    *) tail -c 300 | tail -n 1 ;;
    esac | LC_ALL=C tr -cd ' -~\n'
}

# Hands standard input on to the program's standard output (descriptor 3); answers tee's words, its status and the closing line.
hand_on() {
    {
        {
            LC_ALL=C tee --output-error=exit /dev/fd/6 >&3 2>&5
            echo "tee $?" >&5
        } 6>&1 | closing_line
    } 5>&1
}

# Ends the program where this command is to end.
stop() {
    stopped=$1
    kill -s TERM "$program" 2>/dev/null
}

# What the system says of a descriptor under a name: its place (pos:) or its flags, in octal.
descriptor_says() { # DESCRIPTOR NAME
    local name value
    while read -r name value; do
        [ "$name" != "$2" ] || printf '%s\n' "$value"
    done 2>/dev/null < "/proc/self/fdinfo/$1"
}

# Whether reading or writing there is refused instead of waiting.
would_block() { # DESCRIPTOR
    local flags
    flags=$(descriptor_says "$1" flags:)
    [ -n "$flags" ] && (((8#$flags & 8#4000) != 0))
}

# Opens standard input (0) anew as descriptor 4, or standard output (1) as 3, so that it waits. A pipe with a name waits for its other end
# when it is opened: descriptor 9 is that end meanwhile. A socket cannot be opened.
opened_anew() { # DESCRIPTOR
    [ ! -p "/dev/fd/$1" ] || { exec 9<> "/dev/fd/$1"; } 2>/dev/null || return 1
    case $1 in
    0) { exec 4< /dev/fd/0; } 2>/dev/null ;;
    1) { exec 3> /dev/fd/1; } 2>/dev/null ;;
    esac
    local status=$?
    exec 9>&-
    return $status
}

# Hands on what comes from an input that does not wait and cannot be opened anew, looking again and again.
wait_for_input() { # DESCRIPTOR
    local words
    until words=$(LC_ALL=C cat <&"$1" 2>&1 >&8); do
        case $words in *'Resource temporarily unavailable') sleep 0.02 ;; *) return 1 ;; esac
    done
}

# Descriptor 3 is where the program's output goes.
open_output() {
    { exec 3>&1; } 2>/dev/null || cannot "the output cannot be written: standard output is closed"
    if would_block 3; then opened_anew 1 || exec 3>&1; fi
}

# Descriptor 4 is what the program reads, `shown` what the FILEs or standard input can be read from again to show a line, if they can.
open_input() {
    shown=()
    case $usage in
    *FILE* | *' LOG.. '*) ;;
    *) exec 4< /dev/null; return ;;
    esac
    if [ ${#files[@]} -gt 0 ] && [ "${files[*]}" != - ]; then
        local file
        for file in "${files[@]}"; do [ -f "$file" ] && shown+=("$file"); done
        [ ${#shown[@]} -eq ${#files[@]} ] || shown=()
        [ ${#files[@]} -gt 1 ] || { exec 4< "${files[0]}"; files=(); return; } 2>/dev/null
        [ ${#files[@]} -gt 1 ] || cannot "${files[0]} cannot be read"
    fi
    { exec 4<&0; } 2>/dev/null || cannot "the input cannot be read: standard input is closed"
    [ ! -d /dev/fd/4 ] || cannot "the input cannot be read: standard input is a folder"
    if would_block 4; then opened_anew 0 || exec 4< <(exec 8>&1; wait_for_input 0); fi
    if [ ${#files[@]} -le 1 ]; then
        files=()
        if [ -f /dev/fd/4 ] && [ "$(descriptor_says 4 pos:)" = 0 ]; then shown=(/dev/fd/4); fi
    fi
}

# Descriptor 9 is where the program says what its output does not tell. What it says is kept, in a file without a name, and said at its
# end: s3w2-load tells there which line of a state it refused, which belongs into the words of the refusal, and that the output cannot be
# written is for this command to say, which knows why.
open_words() {
    local file
    exec 9>&2
    file=$(mktemp 2>/dev/null) || return 0
    kept_words=yes
    exec 9<> "$file"
    rm -f -- "$file"
}

# The line of the state that was refused; what is said in the words of `ended` is left to it; any other words go to standard error.
state_line='' old_state='' kept_words=no
take_words() {
    local line
    [ "$kept_words" = yes ] || return 0
    while IFS= read -r line || [ -n "$line" ]; do
        case $line in
        *': the output cannot be written') [ "$passed" != 0 ] || printf '%s\n' "$line" >&2 ;;
        's3w2-load: line '*' of the state') state_line=${line#s3w2-load: line }; state_line=${state_line%% *} ;;
        's3w2-load: a state of nine lines'*) old_state=${line#s3w2-load: } ;;
        *) printf '%s\n' "$line" >&2 ;;
        esac
    done < /dev/fd/9
}

# sqv4-dump reads a long file twice: what cannot be read again is put into a file first.
readable_again() {
    local file
    [ "$crate" = sqv4_dump ] && [ ! -f /dev/fd/4 ] || return 0
    file=$(mktemp) || cannot "there is no room for a file in ${TMPDIR:-/tmp}"
    exec 9<> "$file"
    rm -f -- "$file"
    head -c 16777217 <&4 >&9 2>/dev/null || cannot "the input cannot be read"
    exec 4< /dev/fd/9 9>&-
}

# Starts the program on one input, or on several FILEs one behind the other.
start() {
    if [ ${#files[@]} -eq 0 ]; then
        "$binary" "${options[@]}" <&4 >&7 2>&9 3>&- 4<&- 7>&- 8<&- 9>&- &
    else
        { cat -- "${files[@]}" <&4 || [ $? -gt 128 ] || kill -s USR1 $$; } 3>&- 7>&- 8<&- 9>&- |
            "$binary" "${options[@]}" >&7 2>&9 3>&- 4<&- 7>&- 8<&- 9>&- &
    fi
    program=$!
}

run() {
    local program status stopped='' unread='' line reason='' passed='' closing='' signal
    open_output
    open_input
    readable_again
    open_words
    coproc FILTER { hand_on; } 9>&-
    # the two ends of a coprocess are not handed on to what runs beside it, their copies are
    exec 7>&"${FILTER[1]}" 8<&"${FILTER[0]}" {FILTER[1]}>&- {FILTER[0]}<&-
    for signal in HUP INT TERM; do trap "stop $signal" "$signal"; done
    trap 'unread=yes' USR1
    start
    exec 7>&- 3>&-
    {
        wait "$program"
        status=$?
        [ -z "$stopped$unread" ] || wait "$program"
    } 2>/dev/null
    while IFS= read -r line <&8 || [ -n "$line" ]; do
        case $passed$line in
        tee:*) reason=${line##*: } ;;
        'tee '*) passed=${line#tee } ;;
        *) closing=$line ;;
        esac
    done
    [ -z "$stopped" ] || { trap - "$stopped"; kill -s "$stopped" $$; }
    take_words
    exec 9>&-
    ended
}

# Tells of a program that did not come to its end.
by_status() {
    case $status in
    0) ;;
    139) cannot "it was ended by signal 11 (SEGV), as a program is that runs out of stack: ulimit -s is $(ulimit -s) here," \
        "and README.md says how much it needs" ;;
    126 | 127) cannot "$binary cannot be run here" ;;
    *) [ "$status" -le 128 ] || cannot "it was ended by signal $((status - 128)) ($(kill -l $((status - 128))))"
       cannot "it ended with status $status" ;;
    esac
}

# Tells from what is known of a run how it ended.
ended() {
    [ -z "$unread" ] || cannot "the input cannot be read"
    if [ "$passed" != 0 ]; then
        [ "$reason" = 'Broken pipe' ] || cannot "the output cannot be written${reason:+ ($reason)}"
        exit 2
    fi
    by_status
    case $closing in
    bad,* | refused,* | 'too long')
        say "$(refusal "$closing")"
        exit 1
        ;;
    esac
    case $crate:$closing in
    s3w2_log:peak,* | s3w2_timed:peak,* | s3w2_load:peak,* | s3w2_load:state | s3w2_save:state | sqv4_make:file | sqv4_dump:?* | s3w2_notes:382,*) exit 0 ;;
    s3w2_log:* | s3w2_timed:* | s3w2_load:* | s3w2_save:* | sqv4_make:* | sqv4_dump:* | s3w2_notes:*)
        cannot "it stopped before its end, and what it printed is not whole" ;;
    esac
    exit 0
}
