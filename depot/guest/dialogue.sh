# What the guest tells the depot, line by line, and asks of it.

say() {
    echo "$*" >&3
}

# mark TEXT: a moment of the timeline.
mark() {
    say "mark $*"
}

# ask ORDER: waits until the depot has done it; a depot that is gone does not leave a guest behind.
ask() {
    say "ask $*"
    read -r -t 60 answer <&3 || poweroff -f
}

# check NAME COMMAND..: the command's last line of output is the detail.
check() {
    name=$1
    shift
    if "$@" >/tmp/output 2>&1; then verdict=ok; else verdict=FAILED; fi
    say "check $name $verdict $(tail -n 1 /tmp/output)"
    [ $verdict = ok ]
}

# same WHAT GOT EXPECTED
same() {
    echo "$1 $2, expected $3"
    [ "$2" = "$3" ] && echo "$1 $2"
}
