#!/bin/bash
# Judges what the cases have said.
#
# usage: tests/live/judge.sh RESULT CASE...
#
# Prints 'ok CASE: ..' or 'FAILED CASE: what is wrong; ..' for each case that was to run, and ends with
# 'live: P passed, F failed'. The exit status is 0 only if F is 0.
set -u
if [ $# -lt 2 ] || [ ! -f "$1" ]; then
    echo "usage: tests/live/judge.sh RESULT CASE..." >&2
    exit 2
fi
result=$1
shift

awk -v wanted="$*" -f "$(dirname "$0")/judge.awk" "$result"
