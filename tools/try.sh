# Builds the program without its proof.
#
# `rt try` runs a program in a folder of its own and keeps none. So it is given a pipe for a script: the program waits
# for that, and is copied meanwhile. Then it reads a wrong script, and ends with status 3.

build_tried() {
    find_rt
    say "building the program without its proof, in some three minutes"
    log=$folder/out/try.log
    mkdir -p "$folder/out" && : >"$folder/out/started" && write_ahead "$log" || end_unwritten
    work=$(mktemp -d) && mkfifo "$work/script" || exit 1
    on_signals stop_try
    held=yes
    copy_tried 2>/dev/null &
    copying=$!
    make_tried 1<>"$log" 2>&1 </dev/null &
    trying=$!
    held=
    [ -z "$asked" ] || stop_try
    await "$trying"
    status=$?
    kill "$copying" 2>/dev/null
    await "$copying"
    rm -rf "$work"
    trim_log "$log"
    trap - INT TERM HUP
    if [ "$status" != 3 ] || [ ! -x "$program.$$" ]; then
        say_log "$log"
        ! is_full "$log" || say "the disk is full, here or where temporary files lie"
        say "the program wasn't built; all of the log is in $log"
        exit 1
    fi
    touch -r "$folder/out/started" "$program.$$" && mv "$program.$$" "$program" || exit 1
}

make_tried() {
    cd "$folder" && TMPDIR=$work exec rt try --seconds 600 -- run "$work/folder" --script "$work/script"
}

# Copies the program once it has opened its script.
copy_tried() {
    exec 7>"$work/script"
    cp "$(find "$work" -type f -name program)" "$program.$$"
    echo '?' >&7
}

stop_try() {
    trap '' INT TERM HUP
    kill "$trying" "$copying" 2>/dev/null
    await "$trying"
    await "$copying"
    rm -rf "$work" "$program.$$"
    end_by_signal
}
