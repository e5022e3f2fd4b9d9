# Functions for scripts that wait for another process: a check waits for a condition with a limit,
# and never for a time. (If readings must be a second apart, a script sleeps for that second.) SLOW
# multiplies the limits, as in tests/program.py.

# listens PORT: whether a process listens at a port, without a connection to it
listens() {
    cat /proc/net/tcp /proc/net/tcp6 2> /dev/null | grep -q "$(printf ':%04X [0-9A-F]*:0000 0A ' "$1")"
}

# wait_for SECONDS WORDS..: runs a command until it succeeds, for so long at most; its status says
# whether it did
wait_for() {
    _until=$(($(date +%s) + $1 * ${SLOW:-1}))
    shift
    until "$@"; do
        [ "$(date +%s)" -lt "$_until" ] || return 1
        command sleep 0.05
    done
}
