//! What a function and its host do until the budget of their domain is spent, and how long that takes and the replay of
//! its journal, by processor time: the scenes of bench/domains.sh.

use crate::alone::{Alone, Illegal};
use crate::build;
use crate::clock::processor_time;
use crate::id::Id;
use crate::layout::{Layout, Map};
use crate::script::Access;
use std::fmt::Write;

const BEGINS: u32 = 16_384;

const ROUNDS: u32 = 20;

#[derive(Clone, Copy)]
enum Scene {
    /// The function submits the packet, which goes to the host; what answers it is delivered.
    Submit,
    /// The function submits the packet, which its first port stops.
    Stopped,
    /// The host makes the access, which goes to the function; what answers it is delivered.
    Access,
    /// The program has a tick, and what it sends goes to the host. After 16 ticks the access starts it anew.
    Tick,
    /// The program has a tick, but what it sends doesn't arrive. The access starts it once.
    WaitingTick,
}

/// The function, and what it and its host do.
struct Actor {
    scene: Scene,
    function: Id,
    packet: Vec<u8>,
    offset: u32,
    access: Access,
    program: Option<Vec<u8>>,
}

/// So many DW.
fn data(count: u8) -> Vec<u8> {
    (0..count).flat_map(|number| [number, 1, 2, 3]).collect()
}

fn packet(kind: u8, requester: Id, count: u8, address: u32) -> Vec<u8> {
    let enables = if count == 1 { 0x0f } else { 0xff };
    let mut bytes = vec![kind, 0, 0, count];
    bytes.extend(requester.0.to_be_bytes());
    bytes.extend([0, enables]);
    bytes.extend(address.to_be_bytes());
    if kind == 0x40 {
        bytes.extend(data(count));
    }
    bytes
}

/// 16 lines: the first has this operation, each later one that.
fn program(first: u8, later: u8, count: u8, address: u32) -> Vec<u8> {
    let line = |number| {
        let operation = if number == 0 { first } else { later };
        let mut line = vec![operation, count, 0, 0, 0, 0, 0, 0];
        line.extend(u64::from(address).to_le_bytes());
        line
    };
    (0..16).flat_map(line).collect()
}

impl Actor {
    /// The function of a map line, which reaches the page of that line.
    fn new(map: &Map, word: &str, count: u8) -> Option<Actor> {
        let function = map.id;
        let address = (map.page % 0x10_0000 * 4096) as u32;
        let start = Access::Write(vec![1, 0, 0, 0]);
        let usual = |scene, packet| Actor { scene, function, packet, offset: 0x004, access: start.clone(), program: None };
        let accessing = |access| Actor { offset: 0x400, access, ..usual(Scene::Access, vec![]) };
        let ticking = |scene, program| Actor { program: Some(program), ..usual(scene, vec![]) };
        Some(match word {
            "write" => usual(Scene::Submit, packet(0x40, function, count, address)),
            "read" => usual(Scene::Submit, packet(0, function, count, address)),
            "stopped" => usual(Scene::Stopped, packet(0x40, Id(0), count, address)),
            "set" => accessing(Access::Write(data(count))),
            "get" => accessing(Access::Read(u32::from(count))),
            "tick" => ticking(Scene::Tick, program(1, 1, count, address)),
            "wait" => ticking(Scene::WaitingTick, program(2, 3, count, address)),
            _ => return None,
        })
    }

    fn access(&self, domain: &mut Alone, offset: u32, access: &Access) -> Result<(), Illegal> {
        let number = domain.mmio(self.function, offset, access).map_err(|_| Illegal)?;
        carry(domain, number)
    }

    fn tick(&self, domain: &mut Alone) -> Result<Option<u64>, Illegal> {
        domain.tick(self.function).map_err(|_| Illegal)
    }

    fn begin(&self, domain: &mut Alone, number: u32) -> Result<(), Illegal> {
        match self.scene {
            Scene::Submit | Scene::Stopped => {
                let number = domain.submit(self.function, &self.packet).map_err(|_| Illegal)?;
                match self.scene {
                    Scene::Stopped => domain.refuse(number).map(drop),
                    _ => carry(domain, number),
                }
            }
            Scene::Tick if number % 17 != 0 => match self.tick(domain)? {
                Some(number) => carry(domain, number),
                None => Ok(()),
            },
            Scene::WaitingTick if number != 0 => self.tick(domain).map(drop),
            Scene::Access | Scene::Tick | Scene::WaitingTick => self.access(domain, self.offset, &self.access),
        }
    }

    /// How many begins are made.
    fn play(&self, domain: &mut Alone) -> u32 {
        (0..BEGINS).find(|number| self.begin(domain, *number).is_err()).unwrap_or(BEGINS)
    }
}

/// The packet reaches its completer; what answers it is delivered.
fn carry(domain: &mut Alone, number: u64) -> Result<(), Illegal> {
    match domain.carry(number)? {
        Some(answer) => domain.deliver(answer).map(drop),
        None => Ok(()),
    }
}

/// The begins and their nanoseconds, and the replayed entries and theirs. The fabrics are built before the time is taken.
fn round(layout: &Layout, actor: &Actor) -> Option<(u32, i64, usize, i64)> {
    let mut domain = Alone::new(build::fabric(layout), 0);
    if let Some(program) = &actor.program {
        actor.access(&mut domain, 0x100, &Access::Write(program.clone())).ok()?;
    }
    let start = processor_time();
    let begins = actor.play(&mut domain);
    let played = processor_time() - start;
    let again = Alone::new(build::fabric(layout), 0);
    let start = processor_time();
    let again = again.replay(domain.entries());
    let replayed = processor_time() - start;
    let again = again.ok().filter(|again| again.records() == domain.records())?;
    let entries = again.entries().len();
    Some((begins, played, entries, replayed))
}

/// A line for each round. The function is that of the last map line.
pub fn rounds(layout: &Layout, word: &str, count: u8) -> Option<String> {
    let actor = Actor::new(layout.maps.last()?, word, count)?;
    let mut out = String::new();
    for _ in 0..ROUNDS {
        let (begins, played, entries, replayed) = round(layout, &actor)?;
        writeln!(out, "{begins} {played} {entries} {replayed}").ok()?;
    }
    Some(out)
}
