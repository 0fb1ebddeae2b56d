# A line on standard error that is written again and again, where that is a terminal.

# Writes the line anew, as much of it as the terminal is wide, with room for the ^C of a caller.
show_line() {
    [ "${width:-}" ] || width=$(stty size <&2 2>/dev/null | cut -d ' ' -f 2)
    [ "${width:-0}" -gt 8 ] || width=80
    printf "\r%.$((width - 4))s\033[K" "adiar: $1" >&2
    is_shown=yes
}

end_line() {
    [ -z "${is_shown:-}" ] || printf '\r\033[K' >&2
    is_shown=
}

# Sets a variable to the seconds since the machine was started.
seconds() {
    read -r up _ </proc/uptime
    eval "$1=\${up%.*}"
}

# The minutes and seconds since a time.
since() {
    seconds now
    printf '%d:%02d' $(((now - $1) / 60)) $(((now - $1) % 60))
}
