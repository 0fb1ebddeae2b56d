# Proves and builds the program: first the libraries that it stands on, side by side in lanes, then the program itself.
#
# `rt lib` locks its crate and all below it for as long as it works, so two of them can't work side by side in one
# checkout. Each works in a room: a copy of the sources, with the libraries that were built before. The crate's own
# `out` is moved there and back. The rooms stand in .git, for `rt ci` refuses a second crates.txt anywhere else.

build() {
    find_rt
    # Of two calls at once one builds. This is the lock that `rt ci` and `rt run` ask for first.
    exec 9<"$folder" || exit 1
    flock -n 9 || { say "another command works in this checkout: waiting for its end"; flock 9; }
    if is_current "$program"; then
        exec 9<&-
        return
    fi
    say "proving and building the program: the first time about an hour on two processors, less on more," \
        "and 9 GB of disk"
    mkdir -p "$folder/out" && : >"$folder/out/started" || end_unwritten
    seconds began
    working='' proved='' count=0
    on_signals stop_build
    clear_rooms
    read_crates
    take_lanes
    while [ "$left$working" ]; do
        look_at_lanes
        start_lanes
        tell_build
        sleep 1
    done
    rm -rf "$rooms"
    trap - INT TERM HUP
    end_line
    say "proved and built in $(since "$began")"
}

find_rt() {
    command -v rt >/dev/null || { say "the command rt of the toolchain isn't on the path"; exit 1; }
}

# Gives back what the rooms of a call that was killed hold, and removes them.
clear_rooms() {
    rooms=$top/out/adiar-rooms
    [ ! -d "$top/.git" ] || rooms=$top/.git/adiar-rooms
    for out in "$rooms"/*/crates/*/out; do
        crate=${out%/out}
        crate=$top/crates/${crate##*/}
        [ ! -d "$out" ] || [ -e "$crate/out" ] || mv "$out" "$crate/out"
    done
    rm -rf "$rooms"
    mkdir -p "$rooms" || end_unwritten
}

# Sets crates to the program and the libraries that it stands on, those with the most lines of code in a chain above
# them first, so each before those that stand on it; below_NAME to those that a crate names; proved to those that
# stand, and left to the others.
read_crates() {
    (cd "$top" && find crates/*/src -name '*.rt' -exec wc -l {} +) | awk '
        NR == FNR { if (split($2, at, "/") > 2) lines[at[2]] += $1; next }
        { sub(/#.*/, "") }
        $1 ~ /:$/ { name = substr($1, 1, length($1) - 1); $1 = ""; uses[name] = $0 }
        function need(name,    below, i) {
            if (name in needed) return
            needed[name] = 1
            split(uses[name], below, " ")
            for (i in below) if (below[i] in uses) { users[below[i]] = users[below[i]] " " name; need(below[i]) }
        }
        function chain(name,    above, i, most) {
            if (name in chains) return chains[name]
            split(users[name], above, " ")
            for (i in above) if (chain(above[i]) > most) most = chains[above[i]]
            return chains[name] = most + lines[name] + 1
        }
        END { need("adiar_cli"); for (name in needed) print chain(name), name, uses[name] }
    ' - "$top/crates.txt" | sort -rn >"$rooms/plan" || end_unwritten
    crates='' left=''
    while read -r _ crate uses; do
        below=
        for use in $uses; do
            case "$crates " in *" $use "*) below="$below $use" ;; esac
        done
        eval "below_$crate=\$below"
        crates="$crates $crate"
        count=$((count + 1))
        if stands "$crate"; then proved="$proved $crate"; else left="$left $crate"; fi
    done <"$rooms/plan"
}

# Whether all below a crate is proved.
is_ready() {
    eval "below=\$below_$1"
    for use in $below; do
        case "$proved " in *" $use "*) ;; *) return 1 ;; esac
    done
}

# Whether a crate's library is newer than its sources and the libraries below. `rt run` looks again, by sums.
stands() {
    stamp=$top/crates/$1/out/rlib/stamp
    [ -e "$stamp" ] && is_ready "$1" || return 1
    for use in $below; do
        [ ! "$top/crates/$use/out/rlib/stamp" -nt "$stamp" ] || return 1
    done
    [ -z "$(cd "$top" && find crates.txt "crates/$1/src" "crates/$1/specs" "crates/$1/proofs" -newer "$stamp" -print \
        2>/dev/null | head -n 1)" ]
}

# Sets idle to the number of lanes: one a processor, as many as memory has 1.5 GB for.
take_lanes() {
    idle=$(nproc)
    most=$(awk '$1 == "MemAvailable:" { print int($2 / 1500000) }' /proc/meminfo)
    [ "$most" -ge "$idle" ] || idle=$most
    [ "$idle" -ge 1 ] || idle=1
    idle=${ADIAR_LANES:-$idle}
    half=$((idle / 2))
    free_rooms='' many_rooms=0
}

# Takes what the lanes that ended made. An entry of working is CRATE:ROOM:JOBS:PROCESS.
look_at_lanes() {
    still='' finished=''
    for entry in $working; do
        process=${entry##*:}
        if kill -0 "$process" 2>/dev/null; then
            still="$still $entry"
            continue
        fi
        crate=${entry%%:*}
        wait "$process" || fail_build "$crate"
        proved="$proved $crate" finished="$finished $crate"
        entry=${entry#*:}
        free_rooms="$free_rooms ${entry%%:*}"
        entry=${entry#*:}
        idle=$((idle + ${entry%%:*}))
    done
    working=$still
}

# Starts crates below which all is proved. A lane that none of them needs helps another with its proof. The crate for
# which the longest chain of others waits has half of the lanes' jobs in any case, though others work in those lanes too:
# all wait for that chain at the end.
start_lanes() {
    ready='' others=''
    for crate in $left; do
        if is_ready "$crate"; then ready="$ready $crate"; fi
    done
    set -- $ready
    for crate in $left; do
        longest=$crate
        break
    done
    while [ $# -gt 0 ] && [ "$idle" -gt 0 ]; do
        jobs=$((idle / $#))
        [ "$jobs" -ge 1 ] || jobs=1
        [ "$1" != "$longest" ] || [ "$jobs" -ge "$half" ] || jobs=$half
        [ "$jobs" -le 4 ] || jobs=4
        take_room
        [ "$1" != adiar_cli ] || exec 9<&-
        write_ahead "$rooms/$1.log" || fail_build "$1"
        held=yes
        lane "$1" "$room" "$jobs" 1<>"$rooms/$1.log" 2>&1 </dev/null &
        working="$working $1:$room:$jobs:$!"
        held=
        [ -z "$asked" ] || stop_build
        idle=$((idle - jobs))
        shift
    done
    for crate in $left; do
        case "$working " in *" $crate:"*) ;; *) others="$others $crate" ;; esac
    done
    left=$others
}

# Sets room to one in which nothing works.
take_room() {
    if [ -z "$free_rooms" ]; then
        many_rooms=$((many_rooms + 1))
        free_rooms=" $many_rooms"
    fi
    room=${free_rooms##* }
    free_rooms=${free_rooms% *}
}

# What a lane does: builds a crate in a room by so many jobs.
lane() {
    ended='' child=''
    trap 'ended=yes; kill $child 2>/dev/null' TERM HUP
    if [ "$1" = adiar_cli ]; then
        follow make_program
        # A script at the empty path can't be fetched, so the program that was built ends with status 6, and nothing
        # else does.
        [ $? = 6 ] && [ -x "$program" ] && touch -r "$folder/out/started" "$program"
        exit
    fi
    home=$top/crates/$1 here=$rooms/$2/crates/$1
    exec 8<"$home" && follow flock 8 && furnish "$rooms/$2" || exit 1
    [ ! -e "$home/out" ] || mv "$home/out" "$here/out"
    mkdir -p "$here/out" && follow make_library "$here" "$3"
    status=$?
    rm -rf "$home/out"
    mv "$here/out" "$home/out" || exit 1
    exit "$status"
}

# Runs a command of a lane as a child, which a signal to the lane ends.
follow() {
    [ -z "$ended" ] || return 1
    "$@" &
    child=$!
    [ -z "$ended" ] || kill "$child"
    await "$child"
}

make_library() {
    cd "$1" && exec rt lib --jobs "$2"
}

make_program() {
    cd "$folder" && exec rt run -- run . --script ''
}

# Gives a room the sources, where it is new, and what was proved since it was last used.
furnish() {
    for crate in $crates; do
        [ "$crate" != adiar_cli ] && [ ! -d "$1/crates/$crate" ] || continue
        mkdir -p "$1/crates/$crate" || return 1
        for part in src specs proofs; do
            [ ! -d "$top/crates/$crate/$part" ] || cp -R "$top/crates/$crate/$part" "$1/crates/$crate/" || return 1
        done
    done
    [ -e "$1/crates.txt" ] || awk '$2 != "adiar_cli" { $1 = ""; sub(/^ /, ""); sub(/ |$/, ": "); print }' \
        "$rooms/plan" >"$1/crates.txt" || return 1
    for crate in $proved; do
        [ ! -d "$1/crates/$crate/out" ] || continue
        mkdir "$1/crates/$crate/out" || return 1
        cp -Rl "$top/crates/$crate/out/rlib" "$1/crates/$crate/out/" 2>/dev/null \
            || cp -R "$top/crates/$crate/out/rlib" "$1/crates/$crate/out/" || return 1
    done
}

# Says what is proved and in work: on a terminal in one line, and else in a line for each crate.
tell_build() {
    if [ -t 2 ]; then
        show_line "proved $(build_state)"
    else
        for crate in $finished; do
            say "$crate is proved, $(build_state)"
        done
    fi
}

build_state() {
    in_work=
    for entry in $working; do
        in_work="$in_work, ${entry%%:*}"
    done
    set -- $proved
    echo "$# of $count crates, $(since "$began")${in_work:+; in work: ${in_work#, }}"
}

end_lanes() {
    trap '' INT TERM HUP
    for entry in $working; do
        kill "${entry##*:}" 2>/dev/null
    done
    for entry in $working; do
        wait "${entry##*:}" 2>/dev/null
    done
}

stop_build() {
    end_lanes
    rm -rf "$rooms"
    end_line
    set -- $proved
    say "stopped: $# of $count crates are proved, and the next call goes on there"
    end_by_signal
}

# Ends all because of a crate that failed.
fail_build() {
    end_lanes
    end_line
    trim_log "$rooms/$1.log"
    say_log "$rooms/$1.log"
    ! is_full "$rooms/$1.log" || say_full
    log=$top/crates/$1/out/build.log
    if mkdir -p "${log%/*}" && mv "$rooms/$1.log" "$log"; then
        say "$1 wasn't built; all of its log is in $log"
    else
        say "$1 wasn't built"
    fi
    rm -rf "$rooms"
    exit 1
}

# Ends where a file that the build begins with can't be written.
end_unwritten() {
    if is_full /dev/null; then say_full; else say "$top can't be written"; fi
    exit 1
}

say_full() {
    say "the disk is full: a first build takes 9 GB in $top; once there is room, the same command goes on"
}

# Takes the room of a log before it is written, so that it tells the reason where the disk is full by then.
write_ahead() {
    head -c 262144 /dev/zero >"$1"
}

# Gives back the room that a log didn't need.
trim_log() {
    truncate -s "$(tr -d '\000' <"$1" | wc -c)" "$1"
}

# Says the last lines of a log, also where the last one is cut off.
say_log() {
    tail -n 20 "$1" | awk 1 >&2
}

# Whether a log says that the disk is full, or next to nothing is left.
is_full() {
    grep -q 'No space left' "$1" 2>/dev/null || [ "$(df -Pk "$top" | awk 'NR == 2 { print $4 }')" -lt 50000 ]
}
