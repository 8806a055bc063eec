//! Ports of switches: access control and routes.

use crate::header::{Class, Kind, Status};
use crate::link::{Frame, Party};

const VALIDATES_SOURCE: u8 = 1;
const BLOCKS_TRANSLATED: u8 = 2;
const REDIRECTS_REQUESTS: u8 = 4;
const REDIRECTS_COMPLETIONS: u8 = 8;
const FORWARDS_UPSTREAM: u8 = 16;
const CONTROLS_EGRESS: u8 = 32;

/// No way out of the switch.
const NOWHERE: u8 = 0xff;

/// A downstream port as a way out of its switch.
pub struct Exit {
    pub buses: std::ops::RangeInclusive<u8>,
    pub controls: u8,
    pub device: u8,
    /// The bits of devices to which requests don't go directly.
    pub vector: u32,
    /// The direction that leads down from it, if anything stands below.
    pub down: Option<usize>,
}

/// Finds by one look which exit has a bus, or a megabyte below 4 GB.
pub struct Switch {
    pub up: usize,
    pub exits: Vec<Exit>,
    by_bus: Box<[u8; 256]>,
    by_megabyte: Vec<u8>,
}

/// The test that a request failed.
#[derive(Clone, Copy, Debug)]
pub enum Test {
    Source,
    Translation,
    Egress,
}

/// What becomes of a packet at a port.
#[derive(Clone, Copy)]
pub enum Course {
    /// It goes on by this direction.
    Forward(usize),
    /// It goes down by this direction, since the vector lets it through.
    Direct(usize),
    /// It ends here; if it is non-posted it is answered so.
    Stop(Status, Option<Test>),
    /// It ends here, and nobody hears of it.
    Misroute,
}

impl Switch {
    pub fn new(up: usize) -> Switch {
        Switch { up, exits: Vec::new(), by_bus: Box::new([NOWHERE; 256]), by_megabyte: vec![NOWHERE; 4096] }
    }

    /// Adds a downstream port with its window, and answers its number in the switch.
    pub fn add(&mut self, exit: Exit, base: u32, limit: u32) -> usize {
        let number = self.exits.len();
        let [low, high] = [*exit.buses.start(), *exit.buses.end()].map(usize::from);
        self.by_bus[low..=high].fill(number as u8);
        self.by_megabyte[(base >> 20) as usize..=(limit >> 20) as usize].fill(number as u8);
        self.exits.push(exit);
        number
    }

    /// The exit that has what the packet is routed by.
    fn holder(&self, frame: &Frame) -> Option<usize> {
        let header = &frame.packet.header;
        let exit = match (header.class, frame.party) {
            (Class::Completion, Party::PortAnswer(bus)) => self.by_bus[usize::from(bus)],
            (Class::Completion, _) => self.by_bus[usize::from(header.requester.bus())],
            _ => match self.by_megabyte.get((header.address >> 20) as usize) {
                Some(exit) => *exit,
                None => NOWHERE,
            },
        };
        (exit != NOWHERE).then_some(usize::from(exit))
    }

    /// Of a packet that came down to the switch.
    pub fn downward(&self, frame: &Frame) -> Course {
        match self.holder(frame) {
            Some(exit) => self.by_exit(exit),
            None => Course::Misroute,
        }
    }

    fn by_exit(&self, exit: usize) -> Course {
        self.exits[exit].down.map_or(Course::Misroute, Course::Forward)
    }

    /// Of a packet that came up to the exit with this number.
    pub fn upward(&self, own: usize, frame: &Frame) -> Course {
        let exit = &self.exits[own];
        let header = &frame.packet.header;
        let has_address = header.kind.has_address();
        if matches!(header.kind, Kind::Malformed(_)) {
            return Course::Stop(Status::Unsupported, None);
        }
        if header.class != Class::Completion {
            if exit.controls & VALIDATES_SOURCE != 0 && !exit.buses.contains(&header.requester.bus()) {
                return Course::Stop(Status::Abort, Some(Test::Source));
            }
            if exit.controls & BLOCKS_TRANSLATED != 0 && has_address && header.address_type != 0 {
                return Course::Stop(Status::Abort, Some(Test::Translation));
            }
            if !has_address {
                return Course::Stop(Status::Unsupported, None);
            }
        }
        self.redirected(own, frame)
    }

    fn redirected(&self, own: usize, frame: &Frame) -> Course {
        let Some(exit) = self.holder(frame) else {
            return Course::Forward(self.up);
        };
        let controls = self.exits[own].controls;
        if exit == own {
            let is_forwarded = controls & FORWARDS_UPSTREAM != 0;
            return if is_forwarded { Course::Forward(self.up) } else { Course::Stop(Status::Unsupported, None) };
        }
        let header = &frame.packet.header;
        if header.class == Class::Completion {
            let redirects = controls & REDIRECTS_COMPLETIONS != 0 && !header.relaxed;
            return if redirects { Course::Forward(self.up) } else { self.by_exit(exit) };
        }
        self.request(own, exit)
    }

    /// Of a request that another exit has below it: the vector, then Request Redirect, then Egress Control.
    fn request(&self, own: usize, exit: usize) -> Course {
        let Exit { controls, vector, .. } = self.exits[own];
        let controls_egress = controls & CONTROLS_EGRESS != 0;
        if controls_egress && vector >> self.exits[exit].device & 1 == 0 {
            return self.exits[exit].down.map_or(Course::Misroute, Course::Direct);
        }
        if controls & REDIRECTS_REQUESTS != 0 {
            return Course::Forward(self.up);
        }
        if controls_egress {
            return Course::Stop(Status::Abort, Some(Test::Egress));
        }
        self.by_exit(exit)
    }
}
