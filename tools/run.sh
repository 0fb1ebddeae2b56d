# Runs the program, so that it never outlives this script, and says what its status means.

run() {
    # It keeps up to 4,000 files open where it may. With fewer it syncs files to close them.
    descriptors=$(ulimit -n)
    [ "$descriptors" = unlimited ] || [ "$descriptors" -ge 4096 ] || ulimit -S -n 4096 2>/dev/null || :
    # Where the system can't end a child together with its parent, the program takes the place of this process. Then
    # nothing can say what its status means.
    setpriv --pdeathsig KILL true 2>/dev/null || exec "$program" "$@"
    hold_place
    showing=''
    on_signals pass_on
    held=yes
    # The shell gives a process behind it no standard input, unless it is told to.
    if [ -e /proc/self/fd/0 ]; then
        exec 3<&0
        begin "$@" <&3 3<&- &
        exec 3<&-
    else
        begin "$@" &
    fi
    running=$!
    held=
    [ -z "$asked" ] || pass_on
    if wants_progress; then
        show_progress "$running" &
        showing=$!
    fi
    await "$running"
    status=$?
    if [ "$showing" ]; then
        kill "$showing" 2>/dev/null
        await "$showing"
    fi
    if [ "$status" -gt 128 ] && [ "$asked" ]; then end_by_signal; fi
    [ "$status" = 0 ] || [ "$asks_help" ] || explain "$status"
    exit "$status"
}

# Of two calls in one folder the second waits. It waits also for the program of a call that was killed, which may still
# be within a call of the system.
hold_place() {
    [ -d "$place" ] && [ -r "$place" ] && exec 9<"$place" || return 0
    flock -n 9 && return
    say "another call works in $place: waiting for its end"
    setpriv --pdeathsig KILL flock 9
}

# Becomes the program. The system kills it when this script ends, and it doesn't begin where that has ended already.
begin() {
    exec setpriv --pdeathsig KILL sh -c '[ "$PPID" = "$0" ] && exec "$@"' $$ "$program" "$@"
}

# A process behind the shell ignores INT, so each signal is passed on as TERM.
pass_on() {
    kill "$running" 2>/dev/null
}
