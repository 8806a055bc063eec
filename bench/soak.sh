#!/usr/bin/env bash
# Floods fabrics in threads for MINUTES, and looks at what each leaves: bench/soak.sh MINUTES [SEED].
#
# Each run is of a random layout, guarded or not, of one switch or of up to eight with eight ports each. A thread for each
# injector asks for random begins, as fast as its ring takes them, mostly more than the domain's budget has. A gate holds
# workers back: it keeps all together, or the monitor of violations makes no turn, or each worker is lazy, late or asleep in its
# own way, or some make no turn at all. Half of the runs are stopped in the midst of it, half after some thousand turns. Then it
# has to be so:
#
#   totals    what is counted of each domain is what its journal has, and what stands anywhere, looked for once more; each begin
#             that was taken is in the journal, refused or held; in a guarded layout emitted = consumed + found
#   journals  each ends a number at most once, and none that was never given out; what it doesn't end is in flight, in a guarded
#             layout at one place; replayed alone it gives the domain
#   rings     both ends of each came back, with as many places as it has and nothing between them but what was taken out; requests
#             of one maker and class stand in one in their order
#   records   each injector got records of its own in the journal's domain, in their order, and no other; in a guarded layout all
#             of them, else those of alien completions may be missing
#   list      it has of each port reports from 0 on, none missing and none twice
#   guarded   no journal has an Alien entry, and no worker a packet without a case
#   threads   none is left, after two minutes at most
#
# What falls short is printed with the seed of its run, and `bench/soak.sh 0 SEED` makes that run alone: with the same texts,
# gate and stop, though threads never go the same way twice. Without a SEED it takes one from the clock, and prints it. It counts
# runs, turns, frames and violations, at the end or where it is interrupted. Each run is a process with a log of its own, of at
# most 12 GB of addresses.
#
# It builds the program in a temporary folder, from the sources of this repository and from the texts in bench/soak, and proves
# what has not been proved on this machine before.
set -euo pipefail
here=$(cd "$(dirname "$0")/.." && pwd)
minutes=$1
first=${2:-$(date +%s)000}
work=$(mktemp -d)
trap 'rm -rf "$work"' EXIT
. "$here/bench/crates.sh"

libraries='fab_types frame_log platform layout domain script thread_workers outboxes injector thread_rings port_threads'
copy_crates $libraries
add_program soak "$here/bench/soak" $libraries
build
mv "$work/crates/soak/out/soak" "$work"
rm -rf "$work/crates"

mkdir "$work/texts"
ulimit -v 12000000
runs=0 turns=0 frames=0 found=0 begins=0 refused=0 violations=0 guarded=0 short=0

summary() {
    echo "$runs runs from seed $first on, $guarded of them guarded: $turns turns, $frames frames ($found in flight at the stop)," \
        "$begins begins and $refused refused, $violations violations; $short fell short"
}
trap 'summary; exit 1' INT TERM

# deal SEED: the texts of this run and of the next ones, if they aren't there.
deal() {
    [ -e "$work/texts/$1.layout" ] && return
    rm -f "$work/texts/"*
    PYTHONDONTWRITEBYTECODE=1 python3 "$here/bench/floods.py" "$work/texts" "$1" 20
}

# count WORD NUMBER..: adds what a run printed.
count() {
    turns=$((turns + $2)) frames=$((frames + $4)) found=$((found + $6)) begins=$((begins + $8))
    refused=$((refused + ${10})) violations=$((violations + ${12})) guarded=$((guarded + ${14}))
}

# run SEED
run() {
    local status=0 line
    deal "$1"
    (cd "$work/texts" && timeout 120 "$work/soak" "$1.layout" "$1.script" "$1") > "$work/out" 2>&1 || status=$?
    runs=$((runs + 1))
    [ "$status" -eq 0 ] || echo "short: it ended with status $status" >> "$work/out"
    grep -qE '^(turns|short)' "$work/out" || echo 'short: it printed no counts' >> "$work/out"
    read -r line < "$work/out"
    case $line in turns*) count $line ;; esac
    if grep -qv '^turns' "$work/out"; then
        short=$((short + 1))
        sed "/^turns/d; s/^/seed $1: /" "$work/out"
    fi
}

seed=$first
end=$(($(date +%s) + minutes * 60))
run "$seed"
while [ "$(date +%s)" -lt "$end" ]; do
    seed=$((seed + 1))
    run "$seed"
done
summary
[ "$short" -eq 0 ]
