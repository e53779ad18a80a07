# shellcheck shell=bash disable=SC2154
# Shows how far a proof is, and leaves nothing running behind. For scripts to source; `proving` needs `top`, the repository's folder, and
# tools/made.sh.
#
# A command is started in a session of its own, so that it can be ended with all that it has started. Where this shell gets INT, TERM
# or HUP it ends the command first. It sees a signal at once, since it waits for nothing else meanwhile.

# Waits a while, by a pipe that nothing comes from: a program for it would not be interrupted by a signal.
rest() { read -rt "$1" <> <(:) || true; } # SECONDS

# Starts a command. Its number is then in `child`.
start_child() { # COMMAND..
    child=''
    trap 'end_child; exit 130' INT
    trap 'end_child; exit 143' TERM
    trap 'end_child; exit 129' HUP
    setsid "$@" &
    child=$!
}

# Waits for the command to end, and answers its status.
wait_for_child() {
    local status=0
    wait "$child" || status=$?
    trap - INT TERM HUP
    return "$status"
}

# Runs a command, and ends it where this shell is ended.
ending_with_this() { # COMMAND..
    start_child "$@"
    wait_for_child
}

# Ends the command, and what it started: what is still there three seconds later is killed.
end_child() {
    local turn
    trap '' INT TERM HUP
    child=${child:-$!}
    kill -TERM -- "-$child" 2>/dev/null || kill -TERM "$child" 2>/dev/null || true
    wait "$child" 2>/dev/null || true
    for ((turn = 0; turn < 30; turn++)); do
        kill -0 -- "-$child" 2>/dev/null || break
        rest 0.1
    done
    kill -KILL -- "-$child" 2>/dev/null || true
    [ ! -t 2 ] || echo >&2
}

# Runs a command of rt's that proves a crate and those it is built on, with what it says in a log, and shows what is proved: on a terminal
# in one line that moves, elsewhere in a line for each crate. Where all is proved already nothing is shown.
#
# How long it will take is told from the size of what is left. At first that is 6,500 bytes a second, as on two idle cores, and then
# more and more what it is here.
proving() { # CRATE LOG COMMAND..
    local crate=$1 log=$2 here crates name status=0 began=$SECONDS all=0 proved_bytes=0 running_bytes=0 proved=0
    local -A size=() since=() ended=()
    shift 2
    here=$(basename "$0")
    mapfile -t crates < <(reached_crates "$crate")
    for name in "${crates[@]}"; do
        size[$name]=$(find "$top/crates/$name" \( -name must-fail -o -name out \) -prune -o -type f -printf '%s\n' |
            awk '{ all += $1 } END { print all + 0 }')
        all=$((all + size[$name]))
    done
    mkdir -p "$(dirname "$log")"
    : >"$log"
    start_child "$@" >"$log" 2>&1 </dev/null
    while kill -0 "$child" 2>/dev/null; do
        look_at_crates
        rest 0.5
    done
    wait_for_child || status=$?
    look_at_crates
    if [ -t 2 ] && [ ${#since[@]} -gt 0 ]; then printf '\r\033[K' >&2; fi
    [ "$status" -ne 0 ] || [ "$proved" -eq 0 ] || echo "$here: crates proved: $proved, in $((SECONDS - began)) s" >&2
    return "$status"
}

# Looks at what rt has said. It proves one crate after the other, in the order of crates.txt, and says `chose --jobs` of each that it begins
# with, and rattle `logic=proved` where that is proved. Of a crate with nothing to do nothing is said.
look_at_crates() {
    local what word name='' running='' seconds
    running_bytes=0
    while read -r what word; do
        if [ "$what" = at ]; then
            name=$word
            begin_crate "$name"
        elif [ -n "$name" ]; then
            end_crate "$name"
        fi
    done < <(sed -nE 's/^rt: chose --jobs [0-9]+ for ([a-z0-9_]+)$/at \1/p; s/^logic=proved .*/proved/p' "$log")
    if [ -n "$name" ] && [ -z "${ended[$name]-}" ]; then
        seconds=$((SECONDS - since[$name]))
        running="$name $seconds s"
        running_bytes=$((seconds * 6500 < size[$name] ? seconds * 6500 : size[$name]))
    fi
    if [ -z "$running" ] || [ ! -t 2 ]; then return; fi
    running="$here: crate $((${#ended[@]} + 1)) of ${#crates[@]}: $running$(left)"
    printf '\r\033[K%s' "${running:0:79}" >&2
}

# A crate is begun with, so those before it that were not have nothing to do.
begin_crate() { # CRATE
    local each
    [ -z "${since[$1]-}" ] || return 0
    for each in "${crates[@]}"; do
        [ "$each" != "$1" ] || break
        if [ -z "${since[$each]-}${ended[$each]-}" ]; then ended[$each]=unchanged all=$((all - size[$each])); fi
    done
    [ ${#since[@]} -gt 0 ] || [ -t 2 ] || echo "$here: proving $crate and what it is built on$(left)" >&2
    since[$1]=$SECONDS
}

end_crate() { # CRATE
    [ -z "${ended[$1]-}" ] || return 0
    ended[$1]=proved proved=$((proved + 1)) proved_bytes=$((proved_bytes + size[$1]))
    [ -t 2 ] || echo "$here: crate ${#ended[@]} of ${#crates[@]}: $1, $((SECONDS - since[$1])) s$(left)" >&2
}

# How long it will take, in words; none where by its size all should be proved.
left() {
    local bytes=$((proved_bytes + running_bytes)) seconds
    seconds=$(((all - bytes) * (SECONDS - began + 60) / (bytes + 60 * 6500)))
    if [ "$seconds" -ge 90 ]; then
        echo "; about $(((seconds + 30) / 60)) minutes left"
    elif [ "$seconds" -gt 0 ]; then
        echo "; about $(((seconds + 9) / 10 * 10)) s left"
    fi
}
