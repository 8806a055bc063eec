#!/usr/bin/env bash
# Runs `draw`, `run`, `alone`, `journal` and `replay` over rows, and rows without a script as their words have it (`import` and `explain`),
# again and again, each time with one more of the program's requests for memory refused alone, from the first until none is left to
# refuse. A run has to end in `out of memory` with its status, and to have printed nothing but lines of refused begins; or to print the
# whole, with the row's status, where the refused request was one that it can do without. In each all memory has to be given back that
# the unrefused run gives back. It prints how many runs came to each end.
# Words: the program, and rows of rows/ in place of those of `rows_of_all` below. It wants `cc`.
set -euo pipefail
here=$(cd "$(dirname "$0")/.." && pwd)
program=$(realpath "${1:-$here/crates/pciefab/out/pciefab}")
shift || true
rows_of_all=(packets/a_read_gets_what_was_written isolation/a_write_in_a_foreign_name_is_stopped
    isolation/a_read_in_a_foreign_name_is_aborted packets/a_write_to_a_peer_changes_its_register_page
    packets/a_peer_is_reached_by_way_of_the_host_and_answers_directly_where_order_is_relaxed
    packets/an_answer_for_another_bus_of_the_port_leaves_the_tag_open programs/a_program_that_the_host_starts_writes_memory
    import/a_list_says_who_owns_what import/a_laptop_has_root_ports_without_acs_and_one_with_wide_registers
    explain/all_controls_are_set explain/without_source_validation_a_foreign_name_is_used)
work=$(mktemp -d)
trap 'rm -rf "$work"' EXIT
cc -O2 -shared -fPIC -o "$work/refuse.so" "$here/bench/refusals/refuse.c" -ldl
cd "$work"

# refusing NUMBER WORD..: runs the program with the request of this number refused, 0 for none, and has its status in `status`.
refusing() {
    local number=$1
    shift
    status=0
    rm -f counted
    env "REFUSED_MEMORY=$number" COUNTED=counted LD_PRELOAD="$work/refuse.so" "$program" "$@" > out 2> err || status=$?
}

# end: what such a run came to.
end() {
    if [ ! -e counted ]; then
        echo "ended with status $status, and counted nothing"
    elif [ "$(cut -d' ' -f5 counted)" -gt "$held" ]; then
        echo "kept memory: $(cat counted)"
    elif [ "$status" -eq "$wanted" ] && cmp -s out whole; then
        echo 'printed the whole'
    elif [ "$status" -eq 2 ] && [ "$(cat err)" = 'out of memory' ] && ! grep -qv '^refused ' out; then
        echo 'out of memory'
    else
        echo "ended with status $status: $(head -c 200 err)"
    fi
}

# each_refused WORD..: with each of the requests refused in turn.
each_refused() {
    local number=1
    refusing 0 "$@"
    [ "$status" -eq "$wanted" ] || { echo "$*: status $status" >&2; exit 1; }
    cp out whole
    held=$(cut -d' ' -f5 counted)
    : > ends
    while refusing "$number" "$@" && [ -e counted ] && [ "$(cut -d' ' -f1 counted)" -ge "$number" ]; do
        end >> ends
        number=$((number + 1))
    done
    echo "$*: $((number - 1)) requests, $held pieces held at the end"
    sort ends | uniq -c
    ! grep -vqE '^(printed the whole|out of memory)$' ends
}

for row in "${@:-${rows_of_all[@]}}"; do
    echo "$row"
    rm -f args status script
    cp "$here/rows/$row"/* .
    wanted=$(cat status 2> /dev/null || echo 0)
    if [ ! -e script ]; then
        mapfile -t words < args
        each_refused "${words[@]}"
        continue
    fi
    each_refused draw layout
    each_refused run layout script
    each_refused alone layout script 1
    each_refused journal layout script 1
    "$program" journal layout script 1 > journal
    each_refused replay layout journal 1
done
