#!/usr/bin/env bash
# How fast the fabric in threads is. Three programs, each of which prints the shortest of five runs:
#
# rings   Two workers, each in a thread of its own, pass the descriptors of packets to each other: one puts them into a ring of
#         as many places as a link's has, the other puts each back into a second one. How many go through the first a second?
# turns   Packets come to a port by the ring of its link, and go on by the ring to the upstream port, in the port's turns. How
#         many a second, all in one thread?
# floods  06:00.0 of one domain makes 5,000 writes in the name of 03:00.0 of another, and then reads; 03:00.0 writes and makes
#         three reads, twice. By threads all begins wait in the rings when a gate opens, and the time ends when both functions
#         have the completion of their last read: no packet is under way by then. By one thread it is the time of all begins,
#         and of sweeps until nothing moves.
#
# It builds the programs in a temporary folder, from the sources of this repository and from the texts in bench/threads, and
# proves what has not been proved on this machine before.
set -euo pipefail
here=$(cd "$(dirname "$0")/.." && pwd)
work=$(mktemp -d)
trap 'rm -rf "$work"' EXIT
. "$here/bench/crates.sh"

rings='fab_types frame_log thread_crew thread_rings'
turns='fab_types frame_log credit layout bridge switch_output port domain thread_domains monitor thread_rings thread_workers thread_plan'
floods='fab_types layout injector fabric_core sweeps port_threads'

copy_crates $rings $turns $floods
for name in rings turns floods; do
    add_program "$name" "$here/bench/threads/$name" ${!name}
done
build

# shortest PROGRAM WORD..: the line of the shortest of five runs.
shortest() {
    local program=$work/crates/$1/out/$1
    shift
    for _ in 1 2 3 4 5; do
        "$program" "$@"
    done | sort -n | head -1
}

shortest rings 256 20000000 |
    awk '{ printf "%.1f million packets a second through one ring between two workers\n", $2 * 1000 / $1 }'
shortest turns 5000000 | awk '{ printf "%.1f million packets a second through a turn of a port\n", $2 * 1000 / $1 }'
shortest floods threads | awk '{ printf "%.1f ms for the flood by threads\n", $1 / 1000000 }'
shortest floods one | awk '{ printf "%.1f ms for the flood by one thread\n", $1 / 1000000 }'
