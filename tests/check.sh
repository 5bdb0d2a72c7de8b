# Counts the tests of a runner, which sources this file.
#
#   check NAME COMMAND...   runs a test; a line 'ok NAME' or 'FAILED NAME' ends it
#   brief COMMAND...        runs a command; of what it prints the last line is shown, or all if it fails
#   check_result RUNNER     prints 'RUNNER: P passed, F failed'; the status is 0 only if F is 0
# shellcheck shell=bash

checks_passed=0
checks_failed=0

check() {
    local name=$1
    shift
    if "$@"; then
        checks_passed=$((checks_passed + 1))
        echo "ok $name"
    else
        checks_failed=$((checks_failed + 1))
        echo "FAILED $name"
    fi
}

brief() {
    local output
    if output=$("$@" 2>&1); then
        [ -z "$output" ] || echo "$output" | tail -n 1
    else
        echo "$output"
        return 1
    fi
}

check_result() {
    echo "$1: $checks_passed passed, $checks_failed failed"
    [ "$checks_failed" -eq 0 ]
}
