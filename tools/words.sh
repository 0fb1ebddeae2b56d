# What the words of a call are, for the help, the progress and the line behind a status. The program alone decides
# which words it accepts.

# Sets action, place (the folder), script, netlist, budget and size, each empty where the words don't give it, and
# asks_help where the words ask for nothing else. `names` has a blank and the name of each option that was given.
read_words() {
    action='' place='' script='' netlist='' budget='' size='' asks_help='' names='' is_bare=''
    case $#:${1-} in
        0:* | 1:help | 1:--help) asks_help=yes ;;
    esac
    while [ $# -gt 0 ]; do
        case $is_bare$1 in
            --) is_bare=yes ;;
            --script | --netlist | --budget | --size)
                read_option "${1#--}" "${2-}"
                [ $# = 1 ] || shift
                ;;
            --*=*)
                set -- "${1#--}" "$@"
                read_option "${1%%=*}" "${1#*=}"
                shift
                ;;
            *) if [ -z "$action" ]; then action=$1; else place=$1; fi ;;
        esac
        shift
    done
}

read_option() {
    names="$names $1"
    case $1 in
        script) script=$2 ;;
        netlist) netlist=$2 ;;
        budget) budget=$2 ;;
        size) size=$2 ;;
    esac
}

# Whether an option was given.
has_option() {
    case "$names " in *" $1 "*) ;; *) return 1 ;; esac
}
