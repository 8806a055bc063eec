#!/usr/bin/env bash
# The log of packets among threads. First two threads emit 100,000 packets each while two others read what the tokens
# name, and check that each entry is what was emitted. Then so many packets of 20, 84 and 272 bytes are emitted, each lent
# at once, by one thread and by four: how many a second, beside a plain `Vec<Vec<u8>>` behind a Mutex in plain Rust. It
# builds the programs in a temporary folder, from the sources of this repository, and proves what no check has proved
# there before; it wants rustc.
set -euo pipefail
here=$(cd "$(dirname "$0")/.." && pwd)
work=$(mktemp -d)
trap 'rm -rf "$work"' EXIT
mkdir -p "$work/crates/logs/src"
cp "$here/HANDLES" "$work"
for crate in fab_types frame_log; do
    cp -r "$here/crates/$crate" "$work/crates/$crate"
    rm -rf "$work/crates/$crate/must-fail"
done
{
    grep -E '^(fab_types|frame_log):' "$here/crates.txt"
    echo 'logs: fab_types frame_log crossbeam_queue'
} > "$work/crates.txt"

cat > "$work/crates/logs/src/main.rt" <<'PROGRAM'
#![tactic(auto)]

mod exchange;
mod head;
mod speed;

use std::io::Write;
use std::time::Clock;
use std::{env, io};

/// Without words it makes the exchange; with a size in bytes, a number of threads, a number of packets and a number of
/// rounds it emits and lends those, each round into a log of its own, and tells the shortest round in nanoseconds.
fn main(rt: HostRuntime) -> io::Result<()> {
    let alloc = rt.alloc();
    let mut out = rt.stdout();
    let Some(size) = env::args(&rt)?.nth(1) else {
        return match exchange::exchange(&rt, alloc) {
            Some(read) => writeln!(out, "{read} entries were read, each as it was emitted"),
            None => writeln!(out, "AN ENTRY IS NOT WHAT WAS EMITTED"),
        };
    };
    let threads = env::args(&rt)?.nth(2).and_then(|word| word.parse::<usize>().ok()).unwrap_or(1);
    let count = env::args(&rt)?.nth(3).and_then(|word| word.parse::<u64>().ok()).unwrap_or(1);
    let rounds = env::args(&rt)?.nth(4).and_then(|word| word.parse::<u32>().ok()).unwrap_or(1);
    let size = size.parse::<usize>().unwrap_or(20);
    let mut least = u128::MAX;
    let mut all = 0u64;
    for _ in 0..rounds {
        let before = rt.monotonic()?;
        let sum = speed::sum(&rt, alloc, size.min(272), threads, count);
        let time = rt.monotonic()?.saturating_sub(before);
        let Some((sum, _log)) = sum else {
            return writeln!(out, "no memory");
        };
        least = least.min(time.as_nanos());
        all = all.wrapping_add(sum);
    }
    writeln!(out, "{least} {all}")
}
PROGRAM
cat > "$work/crates/logs/src/head.rt" <<'PROGRAM'
//! What ports would read of each packet here.

use fab_types::{Bdf, Class, Cost, Head, Header, Parties};

pub fn head() -> Head {
    Head {
        parties: Parties::Upward(Bdf::from_bits(0x0300)),
        cost: Cost::without_data(Class::Posted),
        header: Header::Malformed,
    }
}
PROGRAM
cat > "$work/crates/logs/src/exchange.rt" <<'PROGRAM'
//! Two threads emit, and two others read what the tokens name.

ghost use Rattle.std.specs.Prelude.{◌≤◌, length};
ghost use Rattle.frame_log.specs.Words.{Shown};
ghost use Rattle.std.specs.Arc.{arc_value};

use crate::head::head;
use crossbeam_queue::SegQueue;
use fab_types::DomainId;
use frame_log::{Log, Token};
use std::alloc::Global;
use std::sync::{Arc, Wait};
use std::thread;
use std::thread::{Threads, join};

const ENTRIES: u64 = 100_000;

/// A token, with the log that it is of.
#[derive(Drop)]
struct Emitted {
    log: Arc<Log>,
    token: Token,
    ghost shown: { Shown (arc_value log) token },
}

/// A packet of its own length and bytes for each number of a domain.
#[derive(Drop)]
struct Pattern {
    bytes: [u8; 272],
    length: usize,
}

impl Pattern {
    fn new(domain: DomainId, number: u64) -> Pattern {
        let mut bytes = [0; 272];
        let mut value = ((number % 256) as u8).wrapping_add(domain.get());
        for byte in bytes.iter_mut() {
            *byte = value;
            value = value.wrapping_mul(5).wrapping_add(3);
        }
        let length = 12 + (number % 66) as usize * 4;
        Pattern { bytes, length }
    }

    fn as_slice(&self) -> &[u8]
        ensures { length result.now ≤ 272 }
    {
        &self.bytes[..self.length.min(272)]
    }
}

/// A packet of this number, emitted into a log, which the token is kept with.
fn emit_one(log: &Arc<Log>, domain: DomainId, number: u64) -> Option<Emitted> {
    let packet = Pattern::new(domain, number);
    let (_, token) = log.emit(domain, number, head(), packet.as_slice()).ok()?;
    let log = log.clone().ok()?;
    Some(Emitted { log, token })
}

fn emit_all<R: Wait>(rt: &R, log: &Arc<Log>, domain: DomainId, line: &SegQueue<Emitted>) -> Option<()> {
    for number in 0..ENTRIES {
        line.push(rt, emit_one(log, domain, number)?).ok()?;
    }
    Some(())
}

/// Is the next entry of this domain what was emitted?
fn is_next(emitted: &Emitted, domain: DomainId, number: u64) -> bool {
    let entry = emitted.log.lend(&emitted.token);
    let packet = Pattern::new(domain, number);
    entry.domain == domain && entry.number == number && entry.bytes.as_slice() == packet.as_slice()
}

fn read_all<R: Wait>(rt: &R, domain: DomainId, line: &SegQueue<Emitted>) -> bool {
    let mut next = 0u64;
    for _ in rt.forever() {
        match line.pop(rt) {
            Some(emitted) => {
                if !is_next(&emitted, domain, next) {
                    return false;
                }
                next = next.wrapping_add(1);
                if next >= ENTRIES {
                    return true;
                }
            }
            None => thread::yield_now(),
        }
    }
    unreachable!()
}

/// How many entries were read, if each was what was emitted.
pub fn exchange<R: Threads + Wait + Sync>(rt: &R, alloc: Global) -> Option<u64> {
    let log = Arc::new(alloc, Log::new(alloc).ok()?).ok()?;
    let (first, second) = (DomainId::new(1)?, DomainId::new(2)?);
    let of_first = SegQueue::new(alloc).ok()?;
    let of_second = SegQueue::new(alloc).ok()?;
    let (emitted, read) = join(
        rt,
        || join(rt, || emit_all(rt, &log, first, &of_first), || emit_all(rt, &log, second, &of_second)),
        || join(rt, || read_all(rt, first, &of_first), || read_all(rt, second, &of_second)),
    );
    emitted.0?;
    emitted.1?;
    if read.0 && read.1 { Some(2 * ENTRIES) } else { None }
}
PROGRAM
cat > "$work/crates/logs/src/speed.rt" <<'PROGRAM'
//! Packets that are emitted, and lent at once.

use crate::head::head;
use fab_types::DomainId;
use frame_log::Log;
use std::alloc::Global;
use std::thread::{Threads, map_indices};

fn emit_all(log: &Log, domain: Option<DomainId>, size: usize, count: u64) -> Option<u64> {
    let domain = domain?;
    let bytes = [0x40; 272];
    let mut sum = 0u64;
    for number in 0..count {
        let (_, token) = log.emit(domain, number, head(), &bytes[..size.min(272)]).ok()?;
        let first = log.lend(&token).bytes.as_slice().first().copied();
        sum = sum.wrapping_add(u64::from(first.unwrap_or(0)));
    }
    Some(sum)
}

/// Each thread emits for a domain of its own.
fn domain_of(place: usize) -> Option<DomainId> {
    DomainId::new((place % 31) as u8 + 1)
}

/// The sum of the first bytes of all packets, as so many threads emit so many of this size in all, with their log.
pub fn sum<R: Threads + Sync>(rt: &R, alloc: Global, size: usize, threads: usize, count: u64) -> Option<(u64, Log)> {
    let log = Log::new(alloc).ok()?;
    let each = count / (threads.max(1) as u64);
    let sums = map_indices(rt, alloc, threads, &|place| emit_all(&log, domain_of(place), size, each)).ok()?;
    let mut sum = 0u64;
    for of_one in sums {
        sum = sum.wrapping_add(of_one?);
    }
    Some((sum, log))
}
PROGRAM
( cd "$work/crates/logs" && rt run > "$work/logs.log" 2>&1 ) || { tail -20 "$work/logs.log"; exit 1; }

cat > "$work/plain.rs" <<'PROGRAM'
use std::env::args;
use std::sync::Mutex;
use std::thread::scope;
use std::time::Instant;

fn emit_all(log: &Mutex<Vec<Vec<u8>>>, size: usize, count: u64) -> u64 {
    let bytes = [0x40; 272];
    let mut sum = 0u64;
    for _ in 0..count {
        let entry = bytes[..size].to_vec();
        let place = {
            let mut log = log.lock().unwrap();
            log.push(entry);
            log.len() - 1
        };
        sum = sum.wrapping_add(u64::from(log.lock().unwrap()[place][0]));
    }
    sum
}

fn main() {
    let number = |n: usize| args().nth(n).and_then(|word| word.parse::<u64>().ok()).unwrap_or(1);
    let (size, threads, count, rounds) = (number(1) as usize, number(2), number(3), number(4));
    let (mut least, mut all) = (u128::MAX, 0u64);
    for _ in 0..rounds {
        let before = Instant::now();
        let log = Mutex::new(Vec::new());
        let sum = scope(|scope| {
            let each: Vec<_> = (0..threads).map(|_| scope.spawn(|| emit_all(&log, size, count / threads))).collect();
            each.into_iter().map(|one| one.join().unwrap()).fold(0u64, u64::wrapping_add)
        });
        least = least.min(before.elapsed().as_nanos());
        all = all.wrapping_add(sum);
    }
    println!("{least} {all}");
}
PROGRAM
rustc --edition 2021 -O -o "$work/plain" "$work/plain.rs"

"$work/crates/logs/out/logs" | tee "$work/exchange"
grep -q 'each as it was emitted' "$work/exchange"

packets=200000 rounds=20
# timed PROGRAM SIZE THREADS: the shortest of the rounds, in millions a second, and the sum
timed() {
    "$@" "$packets" "$rounds" | awk -v packets="$packets" '{ printf "%.2f %s\n", packets * 1000 / $1, $2 }'
}
for size in 20 84 272; do
    for threads in 1 4; do
        read -r log first < <(timed "$work/crates/logs/out/logs" "$size" "$threads")
        read -r plain second < <(timed "$work/plain" "$size" "$threads")
        [ "$first" = "$second" ] || { echo "$size bytes, $threads threads: the sums differ: $first $second"; exit 1; }
        echo "$size bytes, $threads threads: $log million emitted and lent a second; plain Rust $plain"
    done
done
