# Whether a program is built of the sources as they stand, and building it. `rt lib` proves a library and builds it for the crates above it,
# `rt run` proves, builds and runs a program, each in its crate's folder, from the bottom up. One run at a time builds: the lock on the folder
# bin/ sees to that, and goes when its holders go.
#
# bin/out/CRATE is a program as it was last built, bin/out/CRATE.of the hash of the sources that a program or a library was last built of,
# bin/out/build-*.log what rt said. What rt itself makes lies in crates/CRATE/out/, from which `rt ci` takes the programs away, so they are
# copied. A source that is only touched has the same hash.

launched=$root/bin/out
binary=$launched/$crate

is_program() { [ -f "$root/crates/$1/src/main.rt" ]; }

# The programs that have a command in bin/.
programs() {
    local file name
    for file in "$root"/bin/*; do
        name=${file##*/}
        name=${name//-/_}
        ! is_program "$name" || printf '%s\n' "$name"
    done
}

# The crates of this repository that the named ones need, and they; each behind all that it needs.
needed() {
    WANTED="$*" awk '
        { sub(/#.*/, ""); at = index($0, ":"); if (!at) next
          split(substr($0, 1, at - 1), words, " "); uses[words[1]] = substr($0, at + 1) }
        function take(name,    list, n, k) {
            if (!(name in uses) || name in taken) return
            taken[name] = 1
            n = split(uses[name], list, " ")
            for (k = 1; k <= n; k++) take(list[k])
            print name
        }
        END { n = split(ENVIRON["WANTED"], wanted, " "); for (k = 1; k <= n; k++) take(wanted[k]) }' "$root/crates.txt"
}

# The hash of each crate's own sources, as far as it was asked for.
declare -A own_hash=()

# Sets `hash` to that of the sources of a crate and of all that it needs.
hash_sources() { # CRATE
    local name names lines=''
    mapfile -t names < <(needed "$1")
    for name in "${names[@]}"; do
        [ -n "${own_hash[$name]-}" ] || own_hash[$name]=$(
            cd "$root" && find "crates/$name" -regex 'crates/[^/]*/\(src\|specs\|proofs\)/.*' -type f -print0 |
                LC_ALL=C sort -z | xargs -0 -r sha256sum | sha256sum
        )
        lines+="$name ${own_hash[$name]}"$'\n'
    done
    hash=$(sha256sum <<< "$lines")
    hash=${hash%% *}
}

# Whether a source of a program, or the list of crates, has changed its place or content since a file was written.
changed_since() { # CRATE FILE
    local folders
    mapfile -t folders < <(needed "$1" | sed 's|^|crates/|')
    [ -n "$(cd "$root" && find crates.txt "${folders[@]}" -regex 'crates/[^/]*/\(out\|must-fail\)' -prune -o -newercm "$2" -print -quit 2>&1)" ]
}

# Whether the binary is there, and is of the sources as they stand.
is_current() {
    local hash
    [ -x "$binary" ] && [ -f "$binary.of" ] || return 1
    changed_since "$crate" "$binary.of" || return 0
    own_hash=()
    hash_sources "$crate"
    [ "$hash" = "$(cat "$binary.of")" ] || return 1
    touch "$binary.of" 2>/dev/null
    return 0
}

# Without the toolchain a binary that is there is run: that of bin/out/, or else that which rt left.
without_toolchain() {
    [ -x "$binary" ] || binary=$root/crates/$crate/out/$crate
    [ -x "$binary" ] || cannot "it is not built, and rt, the command of the Rattle toolchain, which proves and builds it, is not in PATH;" \
        "see 'What you need' in $root/README.md"
    say "the sources in $root are not known to be those of $binary, and rt, which could build it anew, is not in PATH; it is run as it is"
}

# Whether every library was built here at some time.
all_known() {
    local name
    for name in "$@"; do is_program "$name" || [ -f "$launched/$name.of" ] || return 1; done
}

# Whether one of the crates that a crate needs is among those of which `failed` tells.
needs_failed() { # CRATE
    local name
    for name in $(needed "$1"); do case " $failed " in *" $name "*) return 0 ;; esac; done
    return 1
}

# Whether a crate is built of the sources whose hash is given.
is_kept() { # CRATE HASH
    if is_program "$1"; then [ -x "$launched/$1" ]; else [ -d "$root/crates/$1/out/rlib" ]; fi &&
        [ "$2" = "$(cat "$launched/$1.of" 2>/dev/null)" ]
}

# Has rt prove and build one crate; what it says goes to the log. A program has an empty input then, and its status says nothing: rt says
# that it runs it once it is built.
by_rt() { # CRATE
    local part=$log.part status
    if is_program "$1"; then
        (cd "$root/crates/$1" && exec rt run < /dev/null 2>&1 > /dev/null) > "$part"
        status=$?
        if grep -q "^rt: running out/$1;" "$part"; then
            cp -f "$root/crates/$1/out/$1" "$launched/$1.new" && mv -f "$launched/$1.new" "$launched/$1"
            status=$?
        else
            [ $status -ne 0 ] || status=1
        fi
    else
        (cd "$root/crates/$1" && exec rt lib < /dev/null) > "$part" 2>&1
        status=$?
    fi
    proved=no
    ! grep -q '^logic=proved' "$part" || proved=yes
    { printf '== %s\n' "$1"; cat "$part"; } >> "$log"
    rm -f "$part"
    return $status
}

# Proves and builds all programs that have a command. Sources that change while they are proved are not those of the binary, so their hash
# is taken first.
build() {
    local list crates log status name hash proved began at=0 failed=''
    mapfile -t list < <(programs)
    mapfile -t crates < <(needed "${list[@]}")
    log=$launched/build-$(date +%Y%m%d-%H%M%S)-$$.log
    mkdir -p "$launched" 2>/dev/null && : 2>/dev/null > "$log" || cannot "it has to be built first, and $launched cannot be written"
    if [ ! -x "$binary" ] || ! all_known "${crates[@]}"; then
        say "it is proved and built first, with all programs of $root/bin: ${#crates[@]} crates, which takes a while"
    elif [ -f "$binary.of" ]; then
        say "its sources have changed; what has changed is proved and built first"
    fi
    own_hash=()
    for name in "${crates[@]}"; do hash_sources "$name"; done
    for name in "${crates[@]}"; do
        at=$((at + 1)) began=$SECONDS
        ! needs_failed "$name" || { rm -f "$launched/$name.of"; continue; }
        hash_sources "$name"
        ! is_kept "$name" "$hash" || continue
        if by_rt "$name"; then
            printf '%s\n' "$hash" > "$launched/$name.of"
            [ $proved = no ] || say "$at of ${#crates[@]}: $name, $((SECONDS - began)) s"
        else
            status=$?
            rm -f "$launched/$name.of"
            failed+=" $name"
            say "$at of ${#crates[@]}: $name NOT PROVED (rt ended with status $status)"
        fi
    done
    [ -f "$binary.of" ] && [ -x "$binary" ] || cannot "it could not be built; what rt said is in $log"
    [ -z "$failed" ] || say "it is built, but not all programs are; what rt said is in $log"
}

# Builds the program where that is needed, one run at a time.
built() {
    is_current && return
    command -v rt > /dev/null || { without_toolchain; return; }
    exec 9< "$root/bin"
    if command -v flock > /dev/null && ! flock -n 9; then
        say "another run is building; this one waits for it"
        flock 9
    fi
    is_current || build
    exec 9<&-
}
