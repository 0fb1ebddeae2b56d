# Shows how far a run is, from the lengths of files alone (docs/FORMATS.md, "Which file is which"). It opens no file of
# the folder.

# Whether this call's progress is to be shown.
wants_progress() {
    case $action in run | gen) ;; *) return 1 ;; esac
    case ${ADIAR_PROGRESS:-} in 1) ;; 0) return 1 ;; *) [ -t 2 ] ;; esac && [ "$place" ]
}

# Shows the progress of a process until it has ended, or until this one is ended by a signal. What this starts holds
# neither what the caller reads nor the folder.
show_progress() {
    exec 3<&- 9<&-
    sleeping='' is_open='' pause=2 step=0
    trap 'kill $sleeping 2>/dev/null; close_progress; exit' TERM
    find_terminal
    exec >/dev/null
    seconds began
    total=$(count_steps 2>/dev/null)
    look_at_folder
    while :; do
        sleep "$pause" >/dev/null 2>&1 &
        sleeping=$!
        wait "$sleeping"
        kill -0 "$1" 2>/dev/null || break
        before=$step
        look_at_folder
        [ "$step" = "$before" ] || look_at_folder
        draw_progress
    done
    close_progress
}

# Says how many steps the plan has, where no line asks for signals of the netlist.
count_steps() {
    case $action in
        gen) expr 5 \* "$size" + 4 ;;
        run)
            [ -f "$script" ] && tr '\r' ' ' <"$script" | awk '
                { sub(/#.*/, "") }
                NF == 0 { next }
                !begun++ && ($1 == "vars" || $1 == "inputs") { next }
                $1 == "net" { has_net = 1; exit }
                { steps++ }
                END { if (!has_net) print steps + 0 }'
            ;;
    esac
}

# Sets text to what there is of the step at work, step to its number, and pause to the seconds until the next look,
# more where the folder has many files.
look_at_folder() {
    text=$(ls -lnd -- "$place" "$place/s4294967295p3" "$place/s${step}p"* 2>/dev/null | awk \
        -v step="$step" -v total="$total" -v time="$(since "$began")" '
        function length_of(part, name,    unit, many) {
            if (!bytes[part]) return ""
            many = bytes[part]
            for (unit = 1; many >= 9999.5 && unit < 5; unit++) many /= 1000
            return sprintf(", %s %.0f %s", name, many, units[unit])
        }
        BEGIN { split("B kB MB GB TB", units, " ") }
        !match($0, /\/s[0-9]+p[0-9]+$/) { of_folder = $5; next }
        {
            files++
            split(substr($0, RSTART + 2), at, "p")
            if (at[1] == "4294967295") committed = $5
            else if (at[2] >= 3) bytes[at[2] < 5 ? 3 : 5] += $5
            else if (at[2] < 2) bytes[at[2]] += $5
        }
        END {
            said = time ", " committed + 0 (total == "" ? "" : " of " total) " steps"
            parts = length_of(0, "nodes") length_of(3, "arcs") length_of(5, "runs") length_of(1, "checkpoints")
            if (parts != "" && committed + 0 == step) said = said "; step " step ":" substr(parts, 2)
            print committed + 0, 2 + int(of_folder / 65536 + files / 200), said
        }')
    step=${text%% *}
    text=${text#* }
    pause=${text%% *}
    text=${text#* }
}

# Sets rows where lines of the program come on the same terminal: then the last row is kept for the progress.
find_terminal() {
    rows=
    [ -t 2 ] || return 0
    set -- $(stty size <&2 2>/dev/null)
    width=${2:-}
    if [ -t 1 ] && [ "${1:-0}" -gt 2 ]; then rows=$1; fi
}

draw_progress() {
    if [ "$rows" ]; then
        [ "$is_open" ] || printf '\n\033[A\0337\033[1;%dr\0338' $((rows - 1)) >&2
        printf "\0337\033[%d;1H%.$((width - 4))s\033[K\0338" "$rows" "adiar: $text" >&2
    elif [ -t 2 ]; then
        show_line "$text"
    elif [ "$is_open" != "${text#*,}" ]; then
        say "$text"
    fi
    is_open=${text#*,}
}

close_progress() {
    end_line
    if [ "$rows" ] && [ "$is_open" ]; then printf '\0337\033[r\033[%d;1H\033[K\0338' "$rows" >&2; fi
}
