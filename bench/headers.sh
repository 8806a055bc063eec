#!/bin/sh
# Reads 20,000,000 packet headers of mixed kinds, and prints how many a second: by
# TlpView::read, and by a plain loop over u32::from_be_bytes. It builds both programs in a
# temporary folder, from the sources of this repository.
set -eu
here=$(cd "$(dirname "$0")/.." && pwd)
work=$(mktemp -d)
trap 'rm -rf "$work"' EXIT
mkdir -p "$work/crates/plain/src" "$work/crates/views/src"
for crate in fab_types tlp_view; do
    cp -r "$here/crates/$crate" "$work/crates/$crate"
    rm -rf "$work/crates/$crate/must-fail"
done
{
    grep -E '^(fab_types|tlp_view):' "$here/crates.txt"
    echo 'plain:'
    echo 'views: fab_types tlp_view'
} > "$work/crates.txt"

# program NAME IMPORTS EXPRESSION: sums EXPRESSION over the packets
program() {
    cat > "$work/crates/$1/src/main.rt" <<PROGRAM
#![tactic(auto)]

use std::io::Write;
use std::process::ExitCode;
$2

fn value(packet: &[u8]) -> u64 {
$3
}

// The packets come in no order that a compiler or a processor could know.
fn sum_of(packets: &[&[u8]; 8], count: u32) -> u64 {
    let mut sum = 0u64;
    let mut state = 1u64;
    for _ in 0..count {
        state = state
            .wrapping_mul(6_364_136_223_846_793_005)
            .wrapping_add(1_442_695_040_888_963_407);
        let packet = packets[(state >> 61) as usize];
        sum = sum.wrapping_add(value(packet));
    }
    sum
}

fn main(rt: HostRuntime) -> ExitCode {
    let packets: [&[u8]; 8] = [
        &[0x40, 0, 0, 1, 3, 0, 0, 0x0f, 0, 0, 0x10, 0, 1, 2, 3, 4],
        &[0x00, 0, 0, 1, 3, 0, 0x20, 0x0f, 0, 0, 0x10, 0],
        &[0x20, 0, 0, 0x40, 3, 0, 0x21, 0xff, 0, 0, 0, 1, 0, 0, 0x10, 0],
        &[0x0a, 0, 0, 0, 2, 0, 0x20, 4, 3, 0, 0x22, 0],
        &[0x4a, 0, 0, 1, 2, 0, 0, 4, 3, 0, 0x23, 0, 1, 2, 3, 4],
        &[0x04, 0, 0, 1, 0, 0, 7, 1, 2, 1, 0, 0x34],
        &[0x02, 0, 0, 1, 3, 0, 0x40, 0x0f, 0, 0, 0x10, 0],
        &[0x60, 0, 0, 1, 3, 0, 0, 0x0f, 0, 0, 0, 1, 0, 0, 0x10, 0, 1, 2, 3, 4],
    ];
    let sum = sum_of(&packets, 20_000_000);
    let mut out = rt.stdout();
    match writeln!(out, "{sum}") {
        Ok(()) => ExitCode::SUCCESS,
        Err(_) => ExitCode::FAILURE,
    }
}
PROGRAM
    ( cd "$work/crates/$1" && rt run > "$work/$1.log" 2>&1 ) || { tail -20 "$work/$1.log"; exit 1; }
}

# timed NAME: what a second run of the program takes, as reads a second
timed() {
    from=$(date +%s%N)
    "$work/crates/$1/out/$1" > "$work/$1.out"
    to=$(date +%s%N)
    echo "$1: $(( 20000000 * 1000 / ((to - from) / 1000000) )) reads a second (sum $(cat "$work/$1.out"))"
}

program views 'use tlp_view::TlpView;' '    match TlpView::read(packet) {
        Ok(view) => u64::from(view.tag()) + u64::from(view.requester().bits()),
        Err(cause) => u64::from(cause.number()),
    }'
program plain '' '    let mut sum = 0u32;
    for dword in packet.chunks_exact(4) {
        if let [a, b, c, d] = dword {
            sum = sum.wrapping_add(u32::from_be_bytes([*a, *b, *c, *d]));
        }
    }
    u64::from(sum)'
timed views
timed plain
