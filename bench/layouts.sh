#!/usr/bin/env bash
# Reads layout texts by Layout::read, each ten times, and prints the least and the greatest processor time of a
# reading, and the most memory that the program had. Each text comes in three sizes, of which the last is the
# largest: 64 map lines of each of 57 functions, 100,000 comments, a line of 1,000,000 bytes. A map line is compared
# with all before it, so these grow with their square; all other texts with their bytes. It builds the program in a
# temporary folder, from the sources of this repository, and proves what no check has proved there before. With a
# folder as its argument it writes the texts there and does nothing else.
set -euo pipefail
here=$(cd "$(dirname "$0")/.." && pwd)

# texts FOLDER
texts() {
    mkdir -p "$1"
    PYTHONPATH="$here/bench" PYTHONDONTWRITEBYTECODE=1 python3 - "$1" <<'GENERATOR'
import sys

from switches import ROOT, switch_lines, text


# A platform with so many map lines of each function. The owners are those of the root switch's ports, and
# `frame` says to which frame a domain's map line of this number goes.
def platform(name, owners, count, frame):
    lines, functions, maps = ['pciefab 1', 'frames 1024'], [], dict.fromkeys(owners, 0)
    switch_lines(ROOT, 'root', 1, 0x90000000, owners, lines, functions)
    for function, owner, _ in functions:
        for page in range(1, count + 1):
            lines.append(f'map {text(function)} {page:x} frame {frame(owner, maps[owner])} rw')
            maps[owner] += 1
    lines += [f'budget {owner} 16384' for owner in sorted(set(owners))]
    ends = [line.split()[1] for line in lines if line.startswith(('switch', 'function'))]
    write(f'{name} {count}', lines + [f'credit {end} 127 2047 127 2047 127 2047' for end in ends])


def write(name, lines):
    with open(f'{sys.argv[1]}/{name}', 'w') as text:
        text.write('\n'.join(lines) + '\n')


for count in 16, 32, 64:
    platform('one domain, frames in turn, map lines:', [1] * 8, count, lambda owner, number: number % 1024)
    platform('one domain, frame 0 alone, map lines:', [1] * 8, count, lambda owner, number: 0)
    # A subtree has one owner, so there is a domain for each port of the root switch.
    platform('8 domains, 128 frames each, map lines:', list(range(24, 32)), count,
             lambda owner, number: (owner - 24) * 128 + number % 128)
for count in 25_000, 50_000, 100_000:
    write(f'comments: {count}', ['pciefab 1'] + ['# a comment'] * count + ['switch 01:00.0 root'])
for count in 250_000, 500_000, 1_000_000:
    write(f'a comment, bytes: {count}', ['pciefab 1', '#' * count, 'switch 01:00.0 root'])
    write(f'a bad line, bytes: {count}', ['pciefab 1', 'map ' + 'a' * (count - 4), 'switch 01:00.0 root'])
GENERATOR
}

. "$here/bench/work.sh"
mkdir -p "$work/crates/layouts/src" "$work/texts"
for crate in fab_types text layout_line platform layout; do
    cp -r "$here/crates/$crate" "$work/crates/$crate"
    rm -rf "$work/crates/$crate/must-fail"
done
{
    grep -E '^(fab_types|text|layout_line|platform|layout):' "$here/crates.txt"
    echo 'layouts: fab_types layout'
} > "$work/crates.txt"

cat > "$work/crates/layouts/src/main.rt" <<'PROGRAM'
#![tactic(auto)]

use layout::Layout;
use std::alloc::Global;
use std::io::Write;
use std::time::{CpuClock, Duration};
use std::{env, fs, io};

/// The line that is refused, or 0.
fn refused_line(alloc: Global, text: &str) -> u32 {
    match Layout::read(alloc, text) {
        Ok(_) => 0,
        Err(fault) => fault.line,
    }
}

/// The processor time of a reading.
fn time_of<C: CpuClock>(clock: &C, alloc: Global, text: &str) -> io::Result<(Duration, u32)> {
    let before = clock.process_cpu_time()?;
    let line = refused_line(alloc, text);
    let after = clock.process_cpu_time()?;
    Ok((after.saturating_sub(before), line))
}

/// The line of the system's on the most memory that the process had.
fn most_memory(status: &str) -> &str {
    match status.lines().find(|line| line.starts_with("VmHWM:")) {
        Some(line) => line,
        None => "VmHWM: 0",
    }
}

/// Reads the text that the first word names. It prints the nanoseconds of each reading and the line that is
/// refused, and then the memory.
fn main(rt: HostRuntime) -> io::Result<()> {
    let Some(path) = env::args(&rt)?.nth(1) else {
        return Ok(());
    };
    let text = fs::read_to_string(&rt, path.as_str())?;
    let mut out = rt.stdout();
    for _ in 0..10 {
        let (time, line) = time_of(&rt, rt.alloc(), text.as_str())?;
        writeln!(out, "{} {line}", time.as_nanos())?;
    }
    let status = fs::read_to_string(&rt, "/proc/self/status")?;
    writeln!(out, "{}", most_memory(status.as_str()))
}
PROGRAM
# Not by rt try, whose build tests each access and is far slower.
( cd "$work/crates/layouts" && rt run > "$work/layouts.log" 2>&1 ) || { tail -20 "$work/layouts.log"; exit 1; }

texts "$work/texts"
cd "$work/texts"
printf '%s\n' * | sort -V | while read -r name; do
    "$work/crates/layouts/out/layouts" "$name" > "$work/times"
    sort -n "$work/times" | awk -v name="$name" -v lines="$(wc -l < "$name")" '
        /^VmHWM/ { memory = $2; next }
        { if (!least) least = $1; most = $1; refused = $2 }
        END {
            printf "%s (%d lines%s): %.2f to %.2f ms, %.1f MB\n", name, lines,
                refused ? ", refused at " refused : "", least / 1e6, most / 1e6, memory / 1000
        }'
done
