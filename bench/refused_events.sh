#!/usr/bin/env bash
# Runs tests of what is refused memory again and again, each time with another of the process's requests for memory refused alone,
# as many runs side by side as there are processors. What was refused, an event or a call, has to say so, to leave all as it was,
# and to do its work when it is made again; else a test fails. And each run has to give back as much memory as one that was refused
# nothing. It prints how many runs passed, and each that didn't. A word: every how manieth request is refused (each, if there is
# none). It wants `cc`.
#
# It builds the tests in a temporary folder, from the sources of this repository and from the texts in bench/refused_events, and
# proves what has not been proved on this machine before.
set -euo pipefail
here=$(cd "$(dirname "$0")/.." && pwd)
step=${1:-1}
work=$(mktemp -d)
trap 'rm -rf "$work"' EXIT
. "$here/bench/crates.sh"

libraries='fab_types frame_log layout domain script fabric_core sweeps layout_tests'
copy_crates $libraries
add_program refused "$here/bench/refused_events" $libraries
cp "$here/crates/fabric_tests/src/moves.rt" "$work/crates/refused/src"
build
program=$work/crates/refused/out/refused_tests
cc -O2 -shared -fPIC -o "$work/refuse.so" "$here/bench/refusals/refuse.c" -ldl
cd "$work"

cat > one <<'ONE'
#!/usr/bin/env bash
# one PROGRAM TEST NUMBER: the test with the request of this number refused.
counted=$PWD/counted.$2.$3
said=$(env "REFUSED_MEMORY=$3" "COUNTED=$counted" "LD_PRELOAD=$PWD/refuse.so" "$1" "$2" 2>&1) || true
held=$(cut -d' ' -f5 "$counted")
if [[ $said != *'test result: ok'* ]]; then
    echo "$2, number $3: $(tr '\n' ' ' <<< "$said" | head -c 300)"
elif [ "$3" -ne 0 ] && [ "$held" -gt "$(cut -d' ' -f5 "$PWD/counted.$2.0")" ]; then
    echo "$2, number $3: $held pieces of memory were kept"
else
    echo passed
fi
[ "$3" -eq 0 ] || rm -f "$counted"
ONE
chmod +x one
for test in $("$program" --list | sed -n 's/^\(\(refusals\|refused_calls\)::.*\): test$/\1/p'); do
    [ "$(./one "$program" "$test" 0)" = passed ]
    requests=$(cut -d' ' -f1 "counted.$test.0")
    seq 1 "$step" "$requests" | xargs -P "$(nproc)" -n 1 ./one "$program" "$test" > ends
    echo "$test: $requests requests, every ${step}th refused: $(grep -c '^passed$' ends) of $(wc -l < ends) runs passed"
    ! grep -v '^passed$' ends
done
