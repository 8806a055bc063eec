#!/usr/bin/env bash
# Deals random layouts and scripts, 300 or as many as the argument says, and gives each to `pciefab` and to the simulator
# in plain Rust (bench/plain). Of `run`, and of `journal` for each domain that owns a port, both have to print the same
# and to end with the same status; and `pciefab replay` has to print of each journal what `pciefab alone` prints of that
# domain. It stops at the first that differs and shows it. It proves what no check has proved before, and wants rustc.
set -euo pipefail
here=$(cd "$(dirname "$0")/.." && pwd)
count=${1:-300}
work=$(mktemp -d)
trap 'rm -rf "$work"' EXIT

"$here/pciefab" --help > "$work/build.log" 2>&1 || { tail -20 "$work/build.log"; exit 1; }
rustc --edition 2021 -O -o "$work/plain" "$here/bench/plain/main.rs"
cp "$here/crates/pciefab/out/pciefab" "$work"
PYTHONDONTWRITEBYTECODE=1 python3 "$here/bench/deal.py" "$work" "$count"

cd "$work"
# printed PROGRAM WORD..: both outputs of a program, and its status.
printed() {
    local status=0
    "./$1" "${@:2}" 2>&1 || status=$?
    echo "status $status"
}

# replayed LAYOUT SCRIPT DOMAIN: the same of the replay of a journal, as that is printed.
replayed() {
    local status=0
    ./pciefab journal "$@" | ./pciefab replay "$1" /dev/stdin "$3" 2>&1 || status=$?
    echo "status $status"
}

# agree WHAT: goes on where the files `one` and `other` are the same, and else shows them with the texts, and ends.
agree() {
    if ! cmp -s one other; then
        head -200 "$layout" "$script"
        echo "$1 differs:"
        diff one other
        exit 1
    fi
}

journals=0
for number in $(seq "$count"); do
    layout=$number.layout
    script=$number.script
    printed pciefab run "$layout" "$script" > one
    printed plain run "$layout" "$script" > other
    agree "run of $number"
    ended=$(tail -n 1 one)
    for domain in $(awk '$1 == "port" { print $NF }' "$layout" | sort -u); do
        printed pciefab journal "$layout" "$script" "$domain" > one
        printed plain journal "$layout" "$script" "$domain" > other
        agree "journal $domain of $number"
        # Where a text is faulty nothing is replayed.
        if [ "$ended" = 'status 0' ]; then
            replayed "$layout" "$script" "$domain" > one
            printed pciefab alone "$layout" "$script" "$domain" > other
            agree "replay of journal $domain of $number"
            journals=$((journals + 1))
        fi
    done
done
echo "$count random layouts and scripts: pciefab and the plain simulator print the same, and $journals journals are replayed"
