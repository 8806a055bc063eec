#!/bin/sh
# A part of a payload can't outlive the buffer that holds it: the borrow check refuses each patch here,
# as rustc does under E0515. It works on a copy. (`must-fail` is for edits that
# compile and that the prover refuses.)
set -eu
here=$(cd "$(dirname "$0")" && pwd)
crate=$(dirname "$here")
copy=$(mktemp -d)
trap 'rm -rf "$copy"' EXIT
mkdir "$copy/crates"
cp "$crate/../../crates.txt" "$copy/crates.txt.all"
grep -E '^(fab_types|tlp_view):' "$copy/crates.txt.all" > "$copy/crates.txt"
rm "$copy/crates.txt.all"
for patch in "$here"/*.patch; do
    for name in fab_types tlp_view; do
        rm -rf "$copy/crates/$name"
        mkdir "$copy/crates/$name"
        (cd "$crate/../$name" && tar cf - --exclude=./out .) | (cd "$copy/crates/$name" && tar xf -)
    done
    (cd "$copy/crates/tlp_view" && patch -s -p1 < "$patch")
    if (cd "$copy/crates/tlp_view" && rt check) > "$copy/said" 2>&1 || ! grep -q 'error\[borrow-e0515\]' "$copy/said"; then
        echo "tlp_view must-not-compile $(basename "$patch"): NOT refused by the borrow check" >&2
        tail -5 "$copy/said" >&2
        exit 1
    fi
    echo "tlp_view must-not-compile $(basename "$patch"): refused: $(grep -m1 'error\[borrow-e0515\]' "$copy/said")"
done
