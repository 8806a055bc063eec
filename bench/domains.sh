#!/usr/bin/env bash
# Lets a domain spend the largest budget, 16,384 begins, and then replays its journal: how many begins a second, each
# with what follows from it, and how many entries of the journal a second are replayed, by processor time. The begins are
# submits, ticks of a running program, or requests of the host for registers. The domain has one function and one map line,
# or it is the largest: 57 functions with 64 map lines each, of which the last function acts, by its last map line. Beside
# each stands the time of the simulator in plain Rust (bench/plain), which does the same, must make as many begins and
# entries, and has its state built before its time is taken; and how many times its time the domain takes. Both run five
# times in turns, of 20 rounds each, and the fastest round counts. Each is measured twice: as it is, and with the memory of
# earlier rounds kept, which leaves out what the system takes for fresh pages. It builds both programs in a temporary
# folder, from the sources of this repository, and proves what no check has proved there before; it wants rustc.
set -euo pipefail
here=$(cd "$(dirname "$0")/.." && pwd)
work=$(mktemp -d)
trap 'rm -rf "$work"' EXIT
mkdir -p "$work/crates/begins/src" "$work/texts"
for crate in fab_types tlp_view function frame_log text layout_line platform layout host_memory host_table request_handling domain_state domain; do
    cp -r "$here/crates/$crate" "$work/crates/$crate"
    rm -rf "$work/crates/$crate/must-fail"
done
cp "$here/HANDLES" "$work"
{
    grep -E '^(fab_types|tlp_view|function|frame_log|text|layout_line|platform|layout|host_memory|host_table|request_handling|domain_state|domain):' "$here/crates.txt"
    echo 'begins: fab_types frame_log layout domain'
} > "$work/crates.txt"

# No function has a clause, so that each is proved at once.
cat > "$work/crates/begins/src/main.rt" <<'PROGRAM'
#![tactic(auto)]

use domain::Domain;
use fab_types::{Bdf, DomainId, HostAccess, NoMemory, Operation, PacketBytes, PortId};
use frame_log::{Frame, Log};
use layout::{Layout, Start};
use std::alloc::{AllocError, Global};
use std::io::Write;
use std::sync::Arc;
use std::time::{CpuClock, Duration};
use std::{env, fs, io};

/// What a domain does until its budget is spent.
#[derive(Clone, Copy)]
enum Scene {
    /// The function submits the packet, which goes to the host; what answers it is delivered.
    Submit,
    /// The function submits the packet, which its first port stops.
    Stopped,
    /// The host makes the access, which goes to the function; what answers it is delivered.
    Access,
    /// The program has a tick, and what it sends goes to the host. After 16 ticks the access starts it anew.
    Tick,
    /// The program has a tick, but what it sends doesn't arrive. The access starts it once.
    WaitingTick,
}

/// The function, and what it and its host do.
#[derive(Drop)]
struct Actor {
    scene: Scene,
    function: Bdf,
    packet: Vec<u8>,
    access: HostAccess,
    program: Option<HostAccess>,
}

fn carry(domain: &mut Domain, frame: Frame) -> bool {
    match domain.carry(frame) {
        Ok(Some(answer)) => domain.deliver(answer).is_ok(),
        Ok(None) => true,
        Err(_) => false,
    }
}

fn submit(domain: &mut Domain, actor: &Actor) -> bool {
    match domain.submit(actor.function, &actor.packet) {
        Ok(frame) => carry(domain, frame),
        Err(_) => false,
    }
}

fn submit_stopped(domain: &mut Domain, actor: &Actor) -> bool {
    match domain.submit(actor.function, &actor.packet) {
        // The domain itself knows the port.
        Ok(frame) => domain
            .refuse(frame, PortId::new(actor.function))
            .is_ok(),
        Err(_) => false,
    }
}

fn access(domain: &mut Domain, access: &HostAccess) -> bool {
    match domain.mmio(access) {
        Ok(frame) => carry(domain, frame),
        Err(_) => false,
    }
}

fn tick(domain: &mut Domain, function: Bdf) -> bool {
    match domain.tick(function) {
        Ok(Some(frame)) => carry(domain, frame),
        Ok(None) => true,
        Err(_) => false,
    }
}

/// The begin of this number, and what follows from it.
fn begin(domain: &mut Domain, actor: &Actor, number: u32) -> bool {
    match actor.scene {
        Scene::Submit => submit(domain, actor),
        Scene::Stopped => submit_stopped(domain, actor),
        Scene::Access => access(domain, &actor.access),
        Scene::Tick if number % 17 == 0 => access(domain, &actor.access),
        Scene::Tick => tick(domain, actor.function),
        Scene::WaitingTick if number == 0 => access(domain, &actor.access),
        Scene::WaitingTick => domain.tick(actor.function).is_ok(),
    }
}

/// How many begins are made.
fn play(domain: &mut Domain, actor: &Actor) -> u32 {
    for number in 0..16_384 {
        if !begin(domain, actor, number) {
            return number;
        }
    }
    16_384
}

/// Domain 1 of the platform.
fn start_of(alloc: Global, text: &str) -> Option<Start> {
    let layout = Layout::read(alloc, text).ok()?;
    let domain = DomainId::new(1)?;
    layout.start(alloc, domain).ok()?
}

fn domain_of(alloc: Global, start: &Start) -> Option<Domain> {
    let log = Log::new(alloc).ok()?;
    let log = Arc::new(alloc, log).ok()?;
    Domain::new(alloc, start, log).ok()
}

fn data(alloc: Global, count: u8) -> Result<Vec<u8>, AllocError> {
    let mut bytes = Vec::new(alloc);
    for number in 0..count {
        bytes.extend_from_slice(&[number, 1, 2, 3])?;
    }
    Ok(bytes)
}

/// A memory request for so many DW at this address: a write where `kind` is 40h, a read where it is 0.
fn packet_of(
    alloc: Global,
    kind: u8,
    requester: Bdf,
    count: u8,
    address: u32,
) -> Result<Vec<u8>, AllocError> {
    let [bus, device] = requester.bits().to_be_bytes();
    let enables = if count == 1 { 0x0f } else { 0xff };
    let mut bytes = Vec::new(alloc);
    bytes.extend_from_slice(&[kind, 0, 0, count, bus, device, 0, enables])?;
    bytes.extend_from_slice(&address.to_be_bytes())?;
    if kind == 0x40 {
        bytes.extend_from_slice(data(alloc, count)?.as_slice())?;
    }
    Ok(bytes)
}

/// A program: the first of its 16 lines has this operation, each later one that.
fn program_of(
    alloc: Global,
    first: u8,
    later: u8,
    count: u8,
    address: u32,
) -> Result<Vec<u8>, AllocError> {
    let mut bytes = Vec::new(alloc);
    for number in 0..16u8 {
        let operation = if number == 0 { first } else { later };
        bytes.extend_from_slice(&[operation, count, 0, 0, 0, 0, 0, 0])?;
        bytes.extend_from_slice(&u64::from(address).to_le_bytes())?;
    }
    Ok(bytes)
}

fn writing(function: Bdf, offset: u16, bytes: Vec<u8>) -> Result<HostAccess, NoMemory> {
    Ok(HostAccess {
        function,
        offset,
        operation: Operation::Write(PacketBytes::from_vec(bytes)?),
    })
}

fn reading(function: Bdf, count: u8) -> HostAccess {
    HostAccess {
        function,
        offset: 0x400,
        operation: Operation::Read(u32::from(count)),
    }
}

fn scene_of(word: &str) -> Scene {
    match word {
        "write" | "read" => Scene::Submit,
        "stopped" => Scene::Stopped,
        "set" | "get" => Scene::Access,
        "tick" => Scene::Tick,
        _ => Scene::WaitingTick,
    }
}

/// What the host reads or writes, or by which write it starts the program.
fn access_of(alloc: Global, word: &str, function: Bdf, count: u8) -> Result<HostAccess, NoMemory> {
    match word {
        "get" => Ok(reading(function, count)),
        "set" => writing(function, 0x400, data(alloc, count)?),
        _ => {
            let start = Vec::from_slice(alloc, &[1, 0, 0, 0])?;
            writing(function, 0x004, start)
        }
    }
}

/// How the program is written: 16 writes, or a read and fences behind it.
fn programming(
    alloc: Global,
    word: &str,
    function: Bdf,
    count: u8,
    address: u32,
) -> Result<Option<HostAccess>, NoMemory> {
    let program = match word {
        "tick" => program_of(alloc, 1, 1, count, address)?,
        "wait" => program_of(alloc, 2, 3, count, address)?,
        _ => return Ok(None),
    };
    Ok(Some(writing(function, 0x100, program)?))
}

/// What the function submits. The first port stops a requester of bus 0.
fn submitted(
    alloc: Global,
    word: &str,
    function: Bdf,
    count: u8,
    address: u32,
) -> Result<Vec<u8>, AllocError> {
    match word {
        "read" => packet_of(alloc, 0, function, count, address),
        "stopped" => packet_of(alloc, 0x40, Bdf::from_bits(0), count, address),
        _ => packet_of(alloc, 0x40, function, count, address),
    }
}

/// The function of the domain's last map line, which reaches the page of that line.
fn actor_of(
    alloc: Global,
    start: &Start,
    word: &str,
    count: u8,
) -> Result<Option<Actor>, NoMemory> {
    let Some(line) = start.maps().last() else {
        return Ok(None);
    };
    let function = line.requester;
    let address = (line.page % 0x10_0000 * 4096) as u32;
    Ok(Some(Actor {
        scene: scene_of(word),
        function,
        packet: submitted(alloc, word, function, count, address)?,
        access: access_of(alloc, word, function, count)?,
        program: programming(alloc, word, function, count, address)?,
    }))
}

fn time_play<R: CpuClock>(
    rt: &R,
    domain: &mut Domain,
    actor: &Actor,
) -> io::Result<(u32, Duration)> {
    let before = rt.process_cpu_time()?;
    let begins = play(domain, actor);
    let after = rt.process_cpu_time()?;
    Ok((begins, after.saturating_sub(before)))
}

fn time_replay<R: CpuClock>(
    rt: &R,
    alloc: Global,
    domain: &Domain,
) -> io::Result<(usize, Duration)> {
    let before = rt.process_cpu_time()?;
    let again = Domain::replay(alloc, domain.start(), domain.journal());
    let after = rt.process_cpu_time()?;
    let entries = match again {
        Ok(again) => again.journal().len(),
        Err(_) => 0,
    };
    Ok((entries, after.saturating_sub(before)))
}

/// Prints the begins and their nanoseconds, and the replayed entries and theirs.
fn round<R: CpuClock, O: Write>(
    rt: &R,
    alloc: Global,
    start: &Start,
    actor: &Actor,
    out: &mut O,
) -> io::Result<()> {
    let Some(mut domain) = domain_of(alloc, start) else {
        return Ok(());
    };
    if let Some(program) = &actor.program {
        let _ = access(&mut domain, program);
    }
    let (begins, play) = time_play(rt, &mut domain, actor)?;
    let (entries, replay) = time_replay(rt, alloc, &domain)?;
    writeln!(
        out,
        "{begins} {} {entries} {}",
        play.as_nanos(),
        replay.as_nanos()
    )
}

fn rounds<R: CpuClock, O: Write>(
    rt: &R,
    alloc: Global,
    start: &Start,
    actor: &Actor,
    out: &mut O,
) -> io::Result<()> {
    for _ in 0..20 {
        round(rt, alloc, start, actor, out)?;
    }
    Ok(())
}

/// The words: a file with a layout, what is done, and how many DW it moves.
fn main(rt: HostRuntime) -> io::Result<()> {
    let alloc = rt.alloc();
    let mut words = env::args(&rt)?;
    let (Some(path), Some(word), Some(count)) = (words.nth(1), words.next(), words.next()) else {
        return Ok(());
    };
    let text = fs::read_to_string(&rt, path.as_str())?;
    let Some(start) = start_of(alloc, text.as_str()) else {
        return Ok(());
    };
    let count = count.parse::<u8>().unwrap_or(1);
    let mut out = rt.stdout();
    match actor_of(alloc, &start, word.as_str(), count) {
        Ok(Some(actor)) => rounds(&rt, alloc, &start, &actor, &mut out),
        Ok(None) | Err(NoMemory) => Ok(()),
    }
}
PROGRAM
# Not by rt try, whose build tests each access and is far slower.
( cd "$work/crates/begins" && rt run > "$work/domains.log" 2>&1 ) || { tail -20 "$work/domains.log"; exit 1; }

rustc --edition 2021 -O -o "$work/plain" "$here/bench/plain/main.rs"

cat > "$work/texts/one function" <<'TEXT'
pciefab 1
frames 1
switch 01:00.0 root
port 02:00.0 03 03 90000000 900fffff 1f 1
function 03:00.0 90000000
map 03:00.0 1 frame 0 rw
budget 1 16384
TEXT
mkdir "$work/largest"
"$here/bench/layouts.sh" "$work/largest"
mv "$work/largest/one domain, frames in turn, map lines: 64" "$work/texts/57 functions"

# The allocator gives no memory back to the system.
keeping=glibc.malloc.mmap_threshold=1073741824:glibc.malloc.trim_threshold=2000000000

# rounds TEXT WORD DWS: a line for each round, of the domain's program and of the plain one
rounds() {
    for _ in 1 2 3 4 5; do
        "$work/crates/begins/out/begins" "$work/texts/$1" "$2" "$3" > "$work/rounds"
        "$work/plain" begins "$work/texts/$1" "$2" "$3" > "$work/plain_rounds"
        paste -d ' ' "$work/rounds" "$work/plain_rounds"
    done
}

# rate TEXT WORD DWS NAME: the fastest of the rounds with this layout
rate() {
    rounds "$1" "$2" "$3" | awk -v name="$1, $4" '
        $1 != $5 || $3 != $7 {
            print name ": the plain simulator makes " $5 " begins and " $7 " entries, and not " $1 " and " $3
            exit failed = 1
        }
        NR == 1 || $2 < begun { begun = $2 }
        NR == 1 || $4 < replayed { replayed = $4 }
        NR == 1 || $6 < plain_begun { plain_begun = $6 }
        NR == 1 || $8 < plain_replayed { plain_replayed = $8 }
        END {
            if (failed) exit 1
            printf "%s: %.2f million a second (%d), plain Rust %.2f, so %.2f times its time; ",
                name, $1 / begun * 1e3, $1, $1 / plain_begun * 1e3, begun / plain_begun
            printf "replay %.2f million entries a second (%d), plain Rust %.2f, so %.2f times its time\n",
                $3 / replayed * 1e3, $3, $3 / plain_replayed * 1e3, replayed / plain_replayed
        }'
}

# rates WORD DWS NAME: with each layout, as it is and with memory kept
rates() {
    local text
    for text in 'one function' '57 functions'; do
        rate "$text" "$1" "$2" "$3"
        GLIBC_TUNABLES=$keeping rate "$text" "$1" "$2" "$3, memory kept"
    done
}

rates write 1 'submits of 4-byte writes, carried'
rates write 64 'submits of 256-byte writes, carried'
rates read 1 'submits of 4-byte reads, answered, delivered'
rates read 64 'submits of 256-byte reads, answered, delivered'
rates stopped 1 'submits of 4-byte writes, stopped by the port'
rates tick 1 'ticks that write 4 bytes, carried'
rates tick 64 'ticks that write 256 bytes, carried'
rates wait 1 'ticks that wait at a fence'
rates set 1 '4-byte writes of registers, carried'
rates set 64 '256-byte writes of registers, carried'
rates get 1 '4-byte reads of registers, answered, delivered'
rates get 64 '256-byte reads of registers, answered, delivered'
