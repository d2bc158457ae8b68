# shellcheck shell=bash
# What host/test.sh, host/arm/test.sh and tools/test.sh share: each check is a line that says what was compared, and the last line says how many
# passed. Sourced at the top of the repository.
cases=crates/blockcases/stdin
passed=0 failed=0

# TOOL PACKAGE: it must be there before anything is run.
need() {
    command -v "$1" >/dev/null && return
    echo "$0: $1 is missing; Debian's package: $2" >&2
    exit 2
}

# NAME COMMAND..: what the command printed, in one line; on a failure all of it.
run() {
    local name=$1 said
    shift
    if said=$("$@" 2>&1); then
        passed=$((passed + 1))
        echo "$name: ok${said:+ (${said//$'\n'/; })}"
    else
        failed=$((failed + 1))
        printf '%s\n%s: FAILED\n' "$said" "$name"
    fi
}

# The last line of a command that says much.
last() {
    local said status
    said=$("$@" 2>&1)
    status=$?
    if [ "$status" -eq 0 ]; then printf '%s\n' "$said" | tail -1; else printf '%s\n' "$said"; fi
    return "$status"
}

# All cases are compared, none differs, and no check fails.
compared() {
    local said status
    said=$("$@" "$cases")
    status=$?
    printf '%s\n' "$said"
    [ "$status" -eq 0 ] && printf '%s\n' "$said" | head -4 | cmp - crates/blockcases/stdout
}

# FILE COMMAND..: it prints what the file has.
shown() { "${@:2}" | diff - "$1"; }

silent() { "$@" >/dev/null; }

# NAME: the last line, and whether all passed.
total() {
    echo "$1: $passed passed, $failed failed"
    [ "$failed" -eq 0 ]
}
