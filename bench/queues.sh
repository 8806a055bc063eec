#!/usr/bin/env bash
# Moves 50,000,000 items through a PortQueue that holds 1, 16 and 127 items of a class, and through a ring over
# a Vec in plain Rust, and prints how many a second of processor time: of each item the head is read, one is
# taken and one is put. It builds both programs in a temporary folder, from the sources of this repository, and
# proves what no check has proved there before. Without rustc it leaves the plain ring out.
set -euo pipefail
here=$(cd "$(dirname "$0")/.." && pwd)
work=$(mktemp -d)
trap 'rm -rf "$work"' EXIT
mkdir -p "$work/crates/queue/src"
for crate in fab_types ordering port_queue; do
    cp -r "$here/crates/$crate" "$work/crates/$crate"
    rm -rf "$work/crates/$crate/must-fail"
done
{
    grep -E '^(fab_types|ordering|port_queue):' "$here/crates.txt"
    echo 'queue: fab_types port_queue'
} > "$work/crates.txt"

# No function has a clause: that there is room is tested, so that each is proved at once.
cat > "$work/crates/queue/src/main.rt" <<'PROGRAM'
#![tactic(auto)]

use fab_types::Class;
use port_queue::PortQueue;
use std::env;
use std::io;
use std::io::Write;

const TURNS: u64 = 50_000_000;

fn put<const CAP: usize>(queue: &mut PortQueue<u64, CAP>, item: u64) {
    if !queue.is_full(Class::Posted) {
        queue.put(Class::Posted, item);
    }
}

fn fill<const CAP: usize>(queue: &mut PortQueue<u64, CAP>, held: u64) {
    for item in 0..held {
        put(queue, item);
    }
}

fn head<const CAP: usize>(queue: &PortQueue<u64, CAP>) -> u64 {
    match queue.head(Class::Posted) {
        Some(item) => *item,
        None => 0,
    }
}

fn take<const CAP: usize>(queue: &mut PortQueue<u64, CAP>) -> u64 {
    match queue.take(Class::Posted) {
        Some(item) => item,
        None => 0,
    }
}

fn turns<const CAP: usize>(queue: &mut PortQueue<u64, CAP>) -> u64 {
    let mut sum = 0u64;
    for item in 0..TURNS {
        sum = sum.wrapping_add(head(queue));
        sum = sum.wrapping_add(take(queue));
        put(queue, item);
    }
    sum
}

fn main(rt: HostRuntime) -> io::Result<()> {
    let held = match env::args(&rt)?.nth(1) {
        Some(word) => word.parse::<u64>().unwrap_or(1),
        None => 1,
    };
    let Ok(mut queue) = PortQueue::<u64, 127>::new(rt.alloc()) else {
        return Ok(());
    };
    fill(&mut queue, held);
    let sum = turns(&mut queue);
    let mut out = rt.stdout();
    writeln!(out, "{sum}")
}
PROGRAM
( cd "$work/crates/queue" && rt run > "$work/queue.log" 2>&1 ) || { tail -20 "$work/queue.log"; exit 1; }

cat > "$work/plain.rs" <<'PROGRAM'
const TURNS: u64 = 50_000_000;

struct Ring {
    places: Vec<u64>,
    first: usize,
    len: usize,
}

impl Ring {
    fn put(&mut self, item: u64) {
        if self.len < self.places.len() {
            let end = self.first + self.len;
            let at = if end < self.places.len() { end } else { end - self.places.len() };
            self.places[at] = item;
            self.len += 1;
        }
    }

    fn head(&self) -> Option<u64> {
        if self.len == 0 { None } else { Some(self.places[self.first]) }
    }

    fn take(&mut self) -> Option<u64> {
        let item = self.head()?;
        let next = self.first + 1;
        self.first = if next == self.places.len() { 0 } else { next };
        self.len -= 1;
        Some(item)
    }
}

fn main() {
    let held = std::env::args().nth(1).and_then(|word| word.parse().ok()).unwrap_or(1);
    let mut ring = Ring { places: vec![0; 127], first: 0, len: 0 };
    for item in 0..held {
        ring.put(item);
    }
    let mut sum = 0u64;
    for item in 0..TURNS {
        sum = sum.wrapping_add(ring.head().unwrap_or(0));
        sum = sum.wrapping_add(ring.take().unwrap_or(0));
        ring.put(item);
    }
    println!("{sum}");
}
PROGRAM

# timed NAME PROGRAM: what the program takes with each number of items held, as items a second
timed() {
    local held seconds TIMEFORMAT=%U
    for held in 1 16 127; do
        seconds=$( { time "$2" "$held" > "$work/$1.$held"; } 2>&1 )
        awk -v name="$1" -v held="$held" -v seconds="$seconds" -v sum="$(cat "$work/$1.$held")" 'BEGIN {
            if (seconds == 0) seconds = 0.001
            printf "%s holding %d: %d million items a second (sum %s)\n", name, held, 50 / seconds, sum
        }'
    done
}

timed PortQueue "$work/crates/queue/out/queue"
if command -v rustc > /dev/null; then
    rustc -O -o "$work/plain" "$work/plain.rs"
    timed 'plain ring' "$work/plain"
else
    echo 'plain ring: not measured, for there is no rustc'
fi
