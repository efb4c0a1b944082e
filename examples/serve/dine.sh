# shellcheck shell=bash disable=SC2034
# A client of `hygienic serve` for bash scripts, over a coprocess. It is read by `source`.
#
#     source dine.sh
#     dine_open hygienic serve                   # or: dine_open socat - UNIX-CONNECT:/run/dine.socket
#     dine_call join; a=${reply#joined }         # the reply of a call is left in `reply`; a refused call returns 1
#     dine_meal "$a" lp report.ps                # waits for the turn of a, runs the command, and finishes
#     dine_close
#
# At a hub `dine_ask hello` comes first. Then `dine_take "printer scanner" lp report.ps` runs a command while nobody else has these
# resources, and leaves its place in `place`.
#
# A shell asks one thing at a time, so it calls on pass 0, and the next line is the answer.

dine_open() {
    coproc DINE { "$@"; }
    read -r dine_header <&"${DINE[0]}"
}

# What a line that goes out is answered, in `answer`. 3 where the program is gone.
dine_ask() {
    printf '%s\n' "$*" >&"${DINE[1]}" && read -r answer <&"${DINE[0]}" || return 3
}

# Makes a call, and leaves its reply in `reply`. 1 where it was refused, and 2 where the line had a fault.
dine_call() {
    dine_ask 0 "$@" || return
    reply=${answer##* -> }
    reply=${reply% @*}
    case $answer in
        '! '*) return 2 ;;
        *' -> refused '*) return 1 ;;
    esac
}

# Keeps the lease at a hub by an empty line each ten seconds, until it is ended. (Neither this copy of the stream nor that of `sleep`
# may outlive the meal, since the program ends with its last writer.)
dine_renew() {
    local pause=
    eval "exec $1>&-"
    trap 'kill "$pause" 2>/dev/null; exit' TERM
    while sleep "${DINE_RENEW:-10}" >/dev/null & pause=$!; wait "$pause"; do
        echo || exit
    done
}

# Runs a command whose lease is kept. The status is the command's.
dine_run() {
    local status=0 renews out
    exec {out}>&"${DINE[1]}"
    dine_renew "$out" >&"$out" &
    renews=$!
    exec {out}>&-
    "$@" || status=$?
    kill "$renews" 2>/dev/null || true
    wait "$renews" || true
    return "$status"
}

# Runs a command as a meal of a task, when its turn has come. The status is the command's.
dine_meal() {
    local task=$1 status=0
    shift
    dine_call hungry "$task" || return
    dine_call await "$task" || return
    dine_run "$@" || status=$?
    dine_call finish "$task" || return
    return "$status"
}

# Runs a command while this client has all these resources of a hub, which are one word each. The status is the command's.
dine_take() {
    local names=$1 status=0
    shift
    dine_ask 0 take "$names" || return
    case $answer in
        '+ 0 took @'*) place=${answer##*@} ;;
        *) return 1 ;;
    esac
    dine_run "$@" || status=$?
    dine_ask 0 give || return
    return "$status"
}

dine_close() {
    local pid=$DINE_PID to=${DINE[1]}
    exec {to}>&-
    wait "$pid"
}
