//! Domains, the functions and frames of memory that are theirs, and what they begin.

use crate::function::{Function, Use};
use crate::header::{Class, Status};
use crate::id::Id;
use crate::journal::{Entry, Journal};
use crate::link::{Frame, Party};
use crate::packet::Packet;
use crate::script::Access;

/// A completion that closed a Tag.
pub struct Record {
    pub owner: Id,
    pub tag: u8,
    pub status: Status,
    pub bytes: Vec<u8>,
}

pub struct Domain {
    pub number: u8,
    pub budget: u32,
    pub begins: u32,
    pub blocked: u64,
    pub unexpected: u64,
    /// Which Tags its host has open.
    pub tags: [bool; 32],
    pub records: Vec<Record>,
    pub journal: Journal,
}

/// A frame of memory that a domain maps.
pub struct Page {
    pub domain: usize,
    pub bytes: Box<[u8; 4096]>,
}

/// Number and name of a refusal.
#[derive(Clone, Copy, Debug)]
pub struct Fault(pub u8, pub &'static str);

/// No function or no domain.
pub const NONE: u8 = 0xff;

/// All domains with what they own, functions by ID and domains by number, and tables of who is where.
pub struct Tenants {
    pub functions: Vec<Function>,
    pub domains: Vec<Domain>,
    /// Frames by number; those that nobody maps are of nobody.
    pub memory: Vec<Option<Page>>,
    /// The function whose first port has the bus below it.
    pub function_below: [u8; 256],
    /// The domain whose ports have the bus below them.
    pub domain_on: [u8; 256],
    pub domain_of: [u8; 32],
}

fn known(index: u8) -> Option<usize> {
    (index != NONE).then_some(usize::from(index))
}

impl Domain {
    pub fn new(number: u8, budget: u32) -> Domain {
        Domain {
            number,
            budget,
            begins: 0,
            blocked: 0,
            unexpected: 0,
            tags: [false; 32],
            records: Vec::new(),
            journal: Journal::default(),
        }
    }

    fn begin(&mut self, fault: Fault) -> Result<(), Fault> {
        if self.begins >= self.budget {
            return Err(fault);
        }
        self.begins += 1;
        Ok(())
    }

    /// The host's request to a register page. A read opens the lowest free Tag.
    fn access(&mut self, address: u64, access: &Access) -> Result<Packet, Fault> {
        let spent = Fault(4, "BudgetSpent");
        let host = Id::host_of(self.number);
        match access {
            Access::Write(bytes) => {
                self.begin(spent)?;
                Ok(Packet::write_request(host, address, bytes, false))
            }
            Access::Read(dws) => {
                let tag = self.tags.iter().position(|tag| !tag).ok_or(Fault(3, "NoTag"))?;
                self.begin(spent)?;
                self.tags[tag] = true;
                Ok(Packet::read_request(host, tag as u8, address, *dws as u16, false))
            }
        }
    }

    pub fn record(&mut self, owner: Id, packet: Packet) {
        let (tag, status) = (packet.header.tag, packet.header.status);
        self.records.push(Record { owner, tag, status, bytes: packet.bytes });
    }
}

impl Tenants {
    pub fn function(&self, id: Id) -> Option<usize> {
        self.function_reached(id).filter(|f| self.functions[*f].id == id)
    }

    /// The function to which packets for an ID are routed.
    pub fn function_reached(&self, id: Id) -> Option<usize> {
        known(self.function_below[usize::from(id.bus())])
    }

    /// The domain whose host has this ID.
    pub fn domain_of_host(&self, id: Id) -> Option<usize> {
        if id.bus() == 0 && id.function() == 0 {
            known(self.domain_of[usize::from(id.device())])
        } else {
            None
        }
    }

    pub fn owner(&self, id: Id) -> Option<usize> {
        self.domain_of_host(id).or_else(|| known(self.domain_on[usize::from(id.bus())]))
    }

    /// Adds an entry of a domain, and answers the packet that it makes.
    fn make(&mut self, d: usize, entry: Entry, party: Party, packet: Packet) -> Frame {
        let number = self.domains[d].journal.add_maker(entry, packet.header);
        Frame { home: d as u8, party, number, is_direct: false, packet }
    }

    /// Adds an entry of a domain that makes a packet or none.
    pub fn enter(&mut self, d: usize, entry: Entry, made: Option<(Party, Packet)>) -> Option<Frame> {
        match made {
            Some((party, packet)) => Some(self.make(d, entry, party, packet)),
            None => {
                self.domains[d].journal.add(entry);
                None
            }
        }
    }

    /// The function and its packet.
    pub fn submit(&mut self, id: Id, bytes: Vec<u8>) -> Result<(usize, Frame), Fault> {
        let f = self.function(id).ok_or(Fault(5, "NoFunction"))?;
        if bytes.len() > 272 {
            return Err(Fault(1, "TooLong"));
        }
        let packet = Packet::read(bytes);
        let function = &mut self.functions[f];
        let d = function.domain;
        let tag = &mut function.tags[usize::from(packet.header.tag)];
        match packet.header.class {
            Class::Completion => return Err(Fault(2, "Completion")),
            Class::NonPosted if *tag != Use::Free => return Err(Fault(3, "TagBusy")),
            _ => self.domains[d].begin(Fault(4, "BudgetSpent"))?,
        }
        if packet.header.class == Class::NonPosted {
            *tag = Use::Raw;
        }
        let entry = Entry::Submit(id, packet.bytes.clone());
        Ok((f, self.make(d, entry, Party::Function(f as u8), packet)))
    }

    /// The function and its packet, if its program sends one.
    pub fn tick(&mut self, id: Id) -> Result<Option<(usize, Frame)>, Fault> {
        let f = self.function(id).ok_or(Fault(1, "NoFunction"))?;
        let function = &mut self.functions[f];
        let d = function.domain;
        self.domains[d].begin(Fault(2, "BudgetSpent"))?;
        let made = function.tick().map(|packet| (Party::Function(f as u8), packet));
        Ok(self.enter(d, Entry::Tick(id), made).map(|frame| (f, frame)))
    }

    /// The domain and its host's packet.
    pub fn mmio(&mut self, number: u8, id: Id, offset: u32, access: Access) -> Result<(usize, Frame), Fault> {
        let f = self.function(id).ok_or(Fault(1, "NotYours"))?;
        let function = &self.functions[f];
        let d = function.domain;
        if self.domains[d].number != number {
            return Err(Fault(1, "NotYours"));
        }
        let size = match &access {
            Access::Write(bytes) => bytes.len() as u64,
            Access::Read(dws) => 4 * u64::from(*dws),
        };
        let is_access = size % 4 == 0 && (4..=256).contains(&size);
        if !is_access || offset % 4 != 0 || u64::from(offset) + size > 4096 {
            return Err(Fault(2, "Range"));
        }
        let address = u64::from(function.bar + offset);
        let packet = self.domains[d].access(address, &access)?;
        let entry = Entry::Mmio { function: id, offset, access };
        Ok((d, self.make(d, entry, Party::Host(f as u8), packet)))
    }

    /// How many Tags a domain has open.
    pub fn open_tags(&self, d: usize) -> usize {
        let own = self.functions.iter().filter(|f| f.domain == d);
        let of_functions: usize = own.map(|f| f.tags.iter().filter(|tag| **tag != Use::Free).count()).sum();
        of_functions + self.domains[d].tags.iter().filter(|tag| **tag).count()
    }
}
