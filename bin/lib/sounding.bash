# Running a program whose output is a file of sound or a picture: s3w2-wav, s3w2-stems, s3w2-levels. What it has to say of its run stands
# on its standard error: how far it is, and last how it ended. A file is written beside its place under another name, and put there only
# when it is whole; what goes to standard output is the program's own.

# The last word is where the sound goes, the others are LOGs.
sound_words() {
    local count=${#files[@]}
    [ "$count" -ge 2 ] || unknown "it takes a LOG and where the sound goes"
    target=${files[count - 1]}
    unset "files[$((count - 1))]"
}

# Several LOGs that can be read again become one that can, so that its length is known.
one_log() {
    local all=$spool/log
    open_input
    [ ${#files[@]} -gt 0 ] || return 0
    cat -- "${files[@]}" <&4 > "$all" || cannot "the input cannot be read"
    shown=("$all")
    exec 4< "$all"
    files=()
}

# Runs the program with these words behind it, as redirections; keeps what it says.
sound_run() { # WORD..
    local shows=0 report program status signal stopped=''
    [ ! -t 2 ] || shows=1
    for signal in HUP INT TERM; do trap "stop $signal" "$signal"; done
    exec {report}< <(trap - HUP INT TERM; "$@")
    program=$!
    said=$(LC_ALL=C awk -v mode=told -v shows=$shows -v name="$command" -f "$root/bin/lib/progress.awk" <&"$report")
    wait "$program" 2>/dev/null
    status=$?
    exec {report}<&-
    [ -z "$stopped" ] || { wait "$program" 2>/dev/null; clear_away; trap - "$stopped" EXIT; kill -s "$stopped" $$; }
    sound_ended
}

# Tells how it ended; comes back where it played to the end.
sound_ended() {
    closing=${said##*$'\n'}
    case $closing in
    bad,*) say "$(refusal "$closing")"; exit 1 ;;
    's3w2: '*) cannot "${closing#s3w2: }" ;;
    esac
    [ "$status" != 141 ] || exit 2
    by_status
    case $closing in
    played,*) ;;
    *) cannot "it stopped before its end" ;;
    esac
}

# The folder of what is not whole yet, beside the files' place.
spool_beside() { # FOLDER
    [ -d "$1" ] || cannot "there is no folder $1"
    spool=$(mktemp -d -- "$1/.s3w2.XXXXXX" 2>/dev/null) || cannot "the folder $1 cannot be written"
    trap clear_away EXIT
}

clear_away() { rm -rf -- "$spool"; }

# Puts a whole file in its place.
place() { # FILE PLACE
    mv -f -- "$1" "$2" || cannot "$2 cannot be written"
}

# Where a file goes: not - and not something that is no file, as a pipe or a device; a link is followed.
is_file_place() {
    [ "$target" != - ] || return 1
    [ ! -d "$target" ] || cannot "$target is a folder"
    [ ! -e "$target" ] || [ -f "$target" ] || return 1
    [ ! -L "$target" ] || target=$(readlink -f -- "$target")
}

folder_of() { case $1 in */*) printf '%s\n' "${1%/*}/" ;; *) echo . ;; esac; }

# Descriptor 3 is where a file goes that is not put in place: standard output, or something that is no file. The program goes back in a
# file to write its length; one that only grows at its end does not let it.
open_sound() {
    if [ "$target" = - ]; then open_output; else { exec 3> "$target"; } 2>/dev/null || cannot "$target cannot be written"; fi
    if [ -f /dev/fd/3 ] && (((8#$(descriptor_says 3 flags:) & 8#2000) != 0)); then exec 3> >(exec cat >&3); fi
}

# One file: of the mix, or of all stems.
one_file() { # WORD..
    if is_file_place; then
        spool_beside "$(folder_of "$target")"
        one_log
        sound_run to_file "$spool/out" "$@"
        place "$spool/out" "$target"
    else
        spool_beside "${TMPDIR:-/tmp}"
        open_sound
        one_log
        sound_run to_three "$@"
    fi
}

to_file() { local file=$1; shift; exec "$@" <&4 2>&1 > "$file" 3>&-; }
to_three() { exec "$@" <&4 2>&1 >&3 3>&-; }

# A file for each of the sixteen channels, in a folder, which is made where it is missing.
channel_files() {
    local n
    [ ! -e "$target" ] || [ -d "$target" ] || cannot "$target is no folder"
    spool_beside "$(folder_of "${target%/}")"
    one_log
    sound_run to_channels
    mkdir -p -- "$target" || cannot "the folder $target cannot be made"
    for n in {0..15}; do place "$spool/channel-$n.wav" "$target/channel-$n.wav"; done
}

to_channels() {
    cd "$spool" || exit
    exec "$binary" --split <&4 2>&1 > /dev/null 3> channel-0.wav 4> channel-1.wav 5> channel-2.wav 6> channel-3.wav 7> channel-4.wav \
        8> channel-5.wav 9> channel-6.wav 10> channel-7.wav 11> channel-8.wav 12> channel-9.wav 13> channel-10.wav 14> channel-11.wav \
        15> channel-12.wav 16> channel-13.wav 17> channel-14.wav 18> channel-15.wav
}

# The picture of the levels.
picture() {
    local title=${files[*]}
    if is_file_place; then spool_beside "$(folder_of "$target")"; else spool_beside "${TMPDIR:-/tmp}"; open_sound; fi
    one_log
    sound_run to_file "$spool/levels" "$binary"
    LC_ALL=C TITLE=$title awk -f "$root/bin/lib/levels.awk" "$spool/levels" > "$spool/out" || cannot "the picture cannot be drawn"
    if is_file_place; then place "$spool/out" "$target"; else cat "$spool/out" >&3 || cannot "the output cannot be written"; fi
}

# With --live a log that comes from a pipe is not waited for, so that its sound is heard as it comes.
sound() {
    case $crate:$target in
    s3w2_stems:-) one_file "$binary" --live ;;
    s3w2_stems:*) channel_files ;;
    s3w2_wav:*) one_file "$binary" --live ;;
    s3w2_levels:*) picture ;;
    esac
}
