# The parts of a test, which run beside one another, for scripts that source this. Of the parts as many run at
# once as there are processors; what each says is kept together, and told in the order in which they began.
# shellcheck shell=bash

# the names of those that failed, and what wasn't tried, with the reason
failed=()
left_out=()

TIMEFORMAT="-- %1R seconds, %1U of a processor and %1S in the system"

# timed WORD..: the same, and then on standard output how long it took
timed() {
    { time "$@" 2>&3 3>&-; } 3>&2 2>&1
}

# try NAME WORD..: a part that runs alone
try() {
    echo "== $1"
    timed "${@:2}" || failed+=("$1")
}

# The parts that run beside one another: their names, how many were told, and a folder with what each says,
# by its number, with a file more once it has ended, and one more if it went well.
names=()
told=0
room=$(mktemp -d) || exit 1
processors=$(nproc 2>/dev/null || echo 1)

# end_all: ends what still runs, each part with all that it has begun
end_all() {
    local process
    for process in $(jobs -pr); do
        kill -- "-$process" 2>/dev/null
    done
    rm -rf -- "$room"
}
trap end_all EXIT

# tell_ended: tells the parts that have ended, up to the first one that hasn't
tell_ended() {
    while [ -e "$room/$told.ended" ]; do
        echo "== ${names[told]}"
        cat -- "$room/$told"
        [ -e "$room/$told.good" ] || failed+=("${names[told]}")
        told=$((told + 1))
    done
}

# part NAME WORD..: begins a part, once fewer run than there are processors; it is a group of processes
part() {
    local number=${#names[@]}
    names+=("$1")
    while [ "$(jobs -pr | wc -l)" -ge "$processors" ]; do
        wait -n
        tell_ended
    done
    set -m
    {
        timed "${@:2}" && : >"$room/$number.good"
        : >"$room/$number.ended"
    } >"$room/$number" 2>&1 </dev/null &
    set +m
}

# finish: waits for all parts; one that was ended from outside counts as ended
finish() {
    local number
    while [ "$(jobs -pr | wc -l)" -gt 0 ]; do
        wait -n
        tell_ended
    done
    for number in "${!names[@]}"; do
        : >"$room/$number.ended"
    done
    tell_ended
}

# there PROGRAM NAME: whether there is this program; if not, the part of this name is left out
there() {
    command -v "$1" >/dev/null || { left_out+=("$2: there is no $1"); return 1; }
}

# part_with PROGRAM NAME WORD..: a part that needs a program
part_with() {
    there "$1" "$2" && part "${@:2}"
}
