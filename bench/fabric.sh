#!/usr/bin/env bash
# Runs scripts over the fabric of the largest layout, and prints for each how long it takes by processor time, how
# many events it makes, how many of them move something a second, and the most memory. The scripts: 65,000 lines of
# mixed packets, ticks and accesses of hosts with a sweep after every 2,000 of them, the same with a sweep behind
# each, and with a sweep after every 2,000 where each of 57 functions has 64 map lines; 15,000 reads of 64 DW by one
# function; and 5,000 writes in the name of another domain, each with a sweep. Last comes an idle fabric, which is swept
# 2,000 times: how many events a second that move nothing. Beside each stands the time of a simulator in plain Rust
# (bench/plain), of which nothing is proved, and which must count the same events, and how many times its time the fabric
# takes. Both run five times in turns, and the shortest counts. It builds both programs in a temporary
# folder, from the sources of this repository, and proves what no check has proved there before; it wants rustc. With a
# folder as its argument it writes the texts there and does nothing else.
set -euo pipefail
here=$(cd "$(dirname "$0")/.." && pwd)

# texts FOLDER
texts() {
    mkdir -p "$1"
    PYTHONPATH="$here/bench" PYTHONDONTWRITEBYTECODE=1 python3 - "$1" <<'GENERATOR'
import random, sys

from switches import ROOT, switch_lines, text

dice = random.Random(1)
folder = sys.argv[1]


def write(name, lines):
    with open(f'{folder}/{name}', 'w') as file:
        file.write('\n'.join(lines) + '\n')


class Layout:
    """The largest tree with so many of its functions, each of which has these pages in frames of its domain."""

    def __init__(self, name, functions, pages):
        self.name, self.pages, self.functions = name, pages, []
        lines = ['pciefab 1', 'frames 1024']
        switch_lines(ROOT, 'root', 1, 0x90000000, range(1, 9), lines, self.functions, functions)
        for number, (bdf, owner, base) in enumerate(self.functions):
            for place, page in enumerate(pages):
                frame = (owner - 1) * 128 + (number * len(pages) + place + 1) % 128
                lines.append(f'map {text(bdf)} {page:x} frame {frame} rw')
        lines += [f'budget {owner} 16384' for owner in range(1, 9)]
        write(name, lines)


# The last seven functions of the tree have no line in the one, so that 50 are left.
usual = Layout('layout', 50, range(1, 9))
full = Layout('full layout', 57, range(1, 64 * 40, 40))
scripts = []


def dword(*numbers):
    return ''.join(f'{number:08x}' for number in numbers)


# A write, a read or a FetchAdd of a mapped page, of a page that isn't mapped, of another's register page, or with the name of
# another; with tags in turn.
def packet(layout, tag):
    functions = layout.functions
    bdf, owner, base = dice.choice(functions)
    requester = dice.choice(functions)[0] if dice.random() < 0.1 else bdf
    count = dice.choice([1, 1, 4, 16, 64])
    page = dice.choice([*layout.pages, layout.pages[-1] + 1])
    address = dice.choice([0x1000 * page, dice.choice(functions)[2] + 0x400])
    enables = 0x0f if count == 1 else 0xff
    if dice.random() < 0.6:
        head = dword(0x40000000 | count, requester << 16 | enables, address)
        return bdf, head + f'{dice.getrandbits(32):08x}' * count
    if dice.random() < 0.1:
        operands = dice.choice([1, 2])
        return bdf, dword(0x4c000000 | operands, requester << 16 | tag % 256 << 8, address) + '01000000' * operands
    return bdf, dword(count, requester << 16 | tag % 256 << 8 | enables, address)


def command(layout, tag):
    if dice.random() < 0.9:
        bdf, word = packet(layout, tag)
        return f'submit {text(bdf)} {word}'
    bdf, owner, base = dice.choice(layout.functions)
    if dice.random() < 0.5:
        return f'tick {text(bdf)}'
    return f'mmio {owner} write {text(bdf)} 400 {dice.getrandbits(32):08x}'


def spoofed(layout, number):
    return f'submit {text(layout.functions[-1][0])} {dword(0x40000001, layout.functions[0][0] << 16 | 0x0f, 0x1000, number)}'


def read(layout, number):
    bdf = layout.functions[-1][0]
    return f'submit {text(bdf)} {dword(0x40, bdf << 16 | number % 256 << 8 | 0xff, 0x1000)}'


def script(layout, name, count, command, between):
    lines = []
    for number in range(count):
        lines.append(command(layout, number))
        if number % between == between - 1:
            lines.append('sweep 1000')
    write(name, lines)
    scripts.append(f'{layout.name}:{name}')


script(usual, '65,000 lines, a sweep after 2,000', 64_967, command, 2_000)
script(usual, '65,000 lines, a sweep after each', 32_500, command, 1)
script(full, '65,000 lines, 3,648 map lines', 64_967, command, 2_000)
script(usual, '15,000 reads of 64 DW', 15_000, read, 200)
script(usual, '5,000 spoofed writes', 5_000, spoofed, 1)
write('idle', ['sweep 1'] * 2_000)
scripts.append('layout:idle')
write('scripts', scripts)
GENERATOR
}

. "$here/bench/work.sh"
mkdir -p "$work/crates/fabrics/src" "$work/texts"
# All but the program itself.
grep '^[a-z]' "$here/crates.txt" | grep -v '^pciefab:' > "$work/crates.txt"
cut -d: -f1 "$work/crates.txt" | while read -r crate; do
    cp -r "$here/crates/$crate" "$work/crates/$crate"
    rm -rf "$work/crates/$crate/must-fail"
done
cp "$here/HANDLES" "$work"
echo 'fabrics: fab_types layout script domain fabric_core sweeps' >> "$work/crates.txt"

cat > "$work/crates/fabrics/src/main.rt" <<'PROGRAM'
#![tactic(auto)]

use fab_types::NoMemory;
use fabric_core::{Event, Station};
use layout::Layout;
use script::{Command, Line, Script};
use std::alloc::Global;
use std::io::Write;
use std::time::{CpuClock, Duration};
use std::{env, fs, io};
use sweeps::{Sweeper, stations};

/// How many events a sweep has: five of each direction of a link, three of each other station.
fn events_of(stations: &[Station]) -> u64 {
    let mut events: u64 = 0;
    for station in stations {
        let more = if matches!(station, Station::Link(_)) {
            5
        } else {
            3
        };
        events = events.wrapping_add(more);
    }
    events
}

/// A fabric that is swept, with how many events a sweep has and how many were made.
#[derive(Drop)]
struct Counter {
    sweeper: Sweeper,
    events: u64,
    all: u64,
}

impl Counter {
    fn begin(&mut self, event: &Event) {
        let _outcome = self.sweeper.step(event);
        self.all = self.all.wrapping_add(1);
    }

    fn sweep_up_to(&mut self, most: u32) -> Result<(), NoMemory> {
        for _ in 0..most {
            self.all = self.all.wrapping_add(self.events);
            if !self.sweeper.sweep()? {
                return Ok(());
            }
        }
        Ok(())
    }

    fn make(&mut self, command: Command) -> Result<(), NoMemory> {
        match command {
            Command::Submit(function, bytes) => self.begin(&Event::Submit(function, bytes)),
            Command::Tick(function) => self.begin(&Event::Tick(function)),
            Command::Mmio(domain, access) => self.begin(&Event::Mmio(domain, access)),
            Command::Sweep(most) => self.sweep_up_to(most)?,
        }
        Ok(())
    }

    fn run(&mut self, lines: Vec<Line>) -> Result<(), NoMemory> {
        for line in lines {
            self.make(line.command)?;
        }
        Ok(())
    }
}

/// The line of the system's on the most memory that the process had.
fn most_memory(status: &str) -> &str {
    match status.lines().find(|line| line.starts_with("VmHWM:")) {
        Some(line) => line,
        None => "VmHWM: 0",
    }
}

/// A fabric of this layout, in which nothing was begun.
fn counter_of(alloc: Global, layout: &str) -> Option<Counter> {
    let layout = Layout::read(alloc, layout).ok()?;
    let sweeper = Sweeper::new(alloc, &layout).ok()?;
    let stations = stations(alloc, &layout, sweeper.fabric().domains()).ok()?;
    let events = events_of(&stations);
    Some(Counter {
        sweeper,
        events,
        all: 0,
    })
}

/// How long the lines take, unless memory is refused.
fn time<R: CpuClock>(rt: &R, counter: &mut Counter, lines: Vec<Line>) -> Option<Duration> {
    let before = rt.process_cpu_time().ok()?;
    counter.run(lines).ok()?;
    let after = rt.process_cpu_time().ok()?;
    Some(after.saturating_sub(before))
}

/// The nanoseconds that the script takes over the layout, and how many events it makes.
fn counted<R: CpuClock>(
    rt: &R,
    alloc: Global,
    layout: &str,
    script: &str,
) -> Option<(u128, u64)> {
    let mut counter = counter_of(alloc, layout)?;
    let script = Script::read(alloc, script).ok()?;
    let taken = time(rt, &mut counter, script.into_lines())?;
    Some((taken.as_nanos(), counter.all))
}

/// Runs the script that the second word names over the layout that the first one names. It prints the nanoseconds,
/// all events, and the memory.
fn main(rt: HostRuntime) -> io::Result<()> {
    let alloc = rt.alloc();
    let mut words = env::args(&rt)?;
    let (Some(path), Some(name)) = (words.nth(1), words.next()) else {
        return Ok(());
    };
    let layout = fs::read_to_string(&rt, path.as_str())?;
    let script = fs::read_to_string(&rt, name.as_str())?;
    let counted = counted(&rt, alloc, layout.as_str(), script.as_str());
    let status = fs::read_to_string(&rt, "/proc/self/status")?;
    let memory = most_memory(status.as_str());
    let mut out = rt.stdout();
    match counted {
        Some((nanoseconds, events)) => writeln!(out, "{nanoseconds} {events} {memory}"),
        None => writeln!(out, "a text is refused, or memory"),
    }
}
PROGRAM
# Not by rt try, whose build tests each access and is far slower.
( cd "$work/crates/fabrics" && rt run > "$work/fabrics.log" 2>&1 ) || { tail -20 "$work/fabrics.log"; exit 1; }

rustc --edition 2021 -O -o "$work/plain" "$here/bench/plain/main.rs"

texts "$work/texts"
cd "$work/texts"
while IFS=: read -r layout name; do
    for _ in 1 2 3 4 5; do
        echo "$("$work/crates/fabrics/out/fabrics" "$layout" "$name") $("$work/plain" time "$layout" "$name")"
    done | awk -v name="$name" '
        $2 != $8 {
            print name ": the plain simulator counts " $8 " events, and not " $2
            exit failed = 1
        }
        NR == 1 || $1 < mine { mine = $1 }
        NR == 1 || $6 < plain { plain = $6 }
        END {
            if (failed) exit 1
            seconds = mine / 1e9
            printf "%s: %.2f s, %d events, %.2f million a second; %d moved something, %.2f million a second; %.1f MB; plain Rust %.2f s, so %.2f times its time\n",
                name, seconds, $2, $2 / seconds / 1e6, $7, $7 / seconds / 1e6, $4 / 1000, plain / 1e9, mine / plain
        }'
done < scripts
