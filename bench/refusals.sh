#!/usr/bin/env bash
# Runs the command `threads` again and again, each time with one more of its requests for memory refused alone, from the first
# until none is left to refuse; and then so with its threads. A run may print what the row says (a worker tries again), or end in
# `out of memory` or `threads: failed` with its status; in each all threads that began have to have ended. It prints how many
# runs came to each end. Words: the program, and a row of rows/threads. It wants `cc`.
set -euo pipefail
here=$(cd "$(dirname "$0")/.." && pwd)
program=$(realpath "${1:-$here/crates/pciefab/out/pciefab}")
row=$here/rows/threads/${2:-a_read_gets_what_was_written}
work=$(mktemp -d)
trap 'rm -rf "$work"' EXIT
cc -O2 -shared -fPIC -o "$work/refuse.so" "$here/bench/refusals/refuse.c" -ldl
cp "$row/layout" "$row/script" "$work"
cd "$work"

# outcome NAME NUMBER: runs the program with this refused, and says what it came to. Then `counted` has what was asked for.
outcome() {
    local status=0
    rm -f counted
    timeout 60 env "$1=$2" COUNTED=counted LD_PRELOAD="$work/refuse.so" "$program" threads layout script 2000 > out 2> err || status=$?
    if [ ! -e counted ]; then
        echo "ended with status $status, and counted nothing"
    elif [ "$(cut -d' ' -f3 counted)" != "$(cut -d' ' -f4 counted)" ]; then
        echo "left threads behind: $(cat counted)"
    elif [ "$status" -eq 0 ] && cmp -s out "$row/stdout"; then
        echo "printed what the row says"
    elif [ "$status" -eq 2 ] && [ "$(cat err)" = 'out of memory' ]; then
        echo 'out of memory'
    elif [ "$status" -eq 1 ] && [ "$(cat err)" = 'threads: failed' ]; then
        echo 'threads: failed'
    else
        echo "ended with status $status: $(head -c 200 err)"
    fi
}

# refused NAME FIELD: with each refused in turn, until so many weren't asked for.
refused() {
    local number=1
    while :; do
        outcome "$1" "$number" >> "$1.ends"
        if [ ! -e counted ] || [ "$(cut -d' ' -f"$2" counted)" -lt "$number" ]; then
            break
        fi
        number=$((number + 1))
    done
    echo "$1: $number runs"
    sort "$1.ends" | uniq -c
}
refused REFUSED_MEMORY 1
refused REFUSED_THREAD 2
! grep -vqE '^(printed what the row says|out of memory|threads: failed)$' REFUSED_MEMORY.ends REFUSED_THREAD.ends -h
