//! A domain of a guarded layout by itself, in which no function sends requests directly to another: its packets don't
//! travel, but are in flight by their numbers till an entry ends them.

use crate::domain::Fault;
use crate::fabric::Fabric;
use crate::header::Class;
use crate::id::Id;
use crate::journal::{Entry, Place};
use crate::link::{Frame, Party};
use crate::packet::Packet;
use crate::port::Course;
use crate::script::Access;
use std::collections::VecDeque;

pub struct Alone {
    fabric: Fabric,
    domain: usize,
    /// The first port of each function, by its number in the fabric.
    first_ports: Vec<usize>,
    /// Those of the numbers from `gone` on; of each that ended the place is empty.
    flight: VecDeque<Option<Frame>>,
    gone: u64,
}

/// Why an entry isn't done: the domain has no such packet in flight, or it doesn't end so.
pub struct Illegal;

type Sent = Result<Option<u64>, Illegal>;

impl Alone {
    /// The domain of this place in a fabric in which nothing was begun.
    pub fn new(fabric: Fabric, domain: usize) -> Alone {
        let first_port = |id: Id| fabric.ports.iter().position(|port| port.exit.is_some() && port.place.lower == id);
        let first_ports = fabric.tenants.functions.iter().filter_map(|f| first_port(f.id)).collect();
        Alone { fabric, domain, first_ports, flight: VecDeque::new(), gone: 0 }
    }

    /// The domain that a journal leaves, or the place of its first entry that is illegal.
    pub fn replay<'a>(mut self, entries: impl Iterator<Item = &'a Entry>) -> Result<Alone, usize> {
        for (place, entry) in entries.enumerate() {
            self.apply(entry).map_err(|Illegal| place)?;
        }
        Ok(self)
    }

    fn apply(&mut self, entry: &Entry) -> Sent {
        let begun = match entry {
            Entry::Submit(id, bytes) => self.submit(*id, bytes).map(Some),
            Entry::Tick(id) => self.tick(*id),
            Entry::Mmio { function, offset, access } => self.mmio(*function, *offset, access).map(Some),
            Entry::Refuse(number) => return self.refuse(*number),
            Entry::Carry(number) => return self.carry(*number),
            Entry::Deliver(number) => return self.deliver(*number),
            Entry::Alien { .. } => return Err(Illegal),
        };
        begun.map_err(|_| Illegal)
    }

    pub fn entries(&self) -> impl ExactSizeIterator<Item = &Entry> {
        self.fabric.tenants.domains[self.domain].journal.entries()
    }

    pub fn records(&self) -> usize {
        self.fabric.tenants.domains[self.domain].records.len()
    }

    fn fly(&mut self, frame: Frame) -> u64 {
        let number = frame.number;
        self.flight.push_back(Some(frame));
        number
    }

    fn flying(&self, number: u64) -> Result<&Frame, Illegal> {
        let place = number.checked_sub(self.gone).ok_or(Illegal)?;
        self.flight.get(place as usize).and_then(Option::as_ref).ok_or(Illegal)
    }

    fn land(&mut self, number: u64) -> Result<Frame, Illegal> {
        let place = number.checked_sub(self.gone).ok_or(Illegal)?;
        let frame = self.flight.get_mut(place as usize).and_then(Option::take).ok_or(Illegal)?;
        while let Some(None) = self.flight.front() {
            self.flight.pop_front();
            self.gone += 1;
        }
        Ok(frame)
    }

    pub fn submit(&mut self, id: Id, bytes: &[u8]) -> Result<u64, Fault> {
        let (_, frame) = self.fabric.tenants.submit(id, bytes.to_vec())?;
        Ok(self.fly(frame))
    }

    pub fn tick(&mut self, id: Id) -> Result<Option<u64>, Fault> {
        let made = self.fabric.tenants.tick(id)?;
        Ok(made.map(|(_, frame)| self.fly(frame)))
    }

    pub fn mmio(&mut self, id: Id, offset: u32, access: &Access) -> Result<u64, Fault> {
        let number = self.fabric.tenants.domains[self.domain].number;
        let (_, frame) = self.fabric.tenants.mmio(number, id, offset, access.clone())?;
        Ok(self.fly(frame))
    }

    /// What its first port makes of what this function sent, and where it takes it.
    fn course(&self, function: u8, frame: &Frame) -> Result<(Course, Id, Place), Illegal> {
        let port = &self.fabric.ports[self.first_ports[usize::from(function)]];
        let own = port.exit.ok_or(Illegal)?;
        Ok((self.fabric.switches[port.switch].upward(own, frame), port.id, port.place))
    }

    /// The first port of its sender stops it.
    pub fn refuse(&mut self, number: u64) -> Sent {
        let frame = self.flying(number)?;
        let (Party::Function(f) | Party::FunctionAnswer(f)) = frame.party else {
            return Err(Illegal);
        };
        let (Course::Stop(status, _), port, place) = self.course(f, frame)? else {
            return Err(Illegal);
        };
        let frame = self.land(number)?;
        let is_answered = frame.packet.header.class == Class::NonPosted;
        let answer = is_answered.then(|| frame.packet.refusal(port, status));
        Ok(self.fabric.tenants.stop(place, &frame, answer).map(|frame| self.fly(frame)))
    }

    /// Does the request claim no translation, in the name of a requester of the domain?
    fn is_carried(&self, packet: &Packet) -> bool {
        packet.header.address_type == 0 && self.fabric.tenants.owner(packet.header.requester) == Some(self.domain)
    }

    /// A request reaches its completer.
    pub fn carry(&mut self, number: u64) -> Sent {
        let frame = self.flying(number)?;
        match frame.party {
            Party::Function(f) => match self.course(f, frame)?.0 {
                Course::Forward(_) if self.is_carried(&frame.packet) => self.carry_up(number),
                _ => Err(Illegal),
            },
            Party::Host(f) => {
                let frame = self.land(number)?;
                let sent = self.fabric.tenants.take_at_function(usize::from(f), frame);
                Ok(sent.map(|frame| self.fly(frame)))
            }
            Party::HostAnswer | Party::FunctionAnswer(_) | Party::PortAnswer(_) => Err(Illegal),
        }
    }

    fn carry_up(&mut self, number: u64) -> Sent {
        let frame = self.land(number)?;
        let sent = self.fabric.tenants.take_at_host(frame);
        Ok(sent.map(|(_, frame)| self.fly(frame)))
    }

    /// A completion reaches whom it answers.
    pub fn deliver(&mut self, number: u64) -> Sent {
        let frame = self.flying(number)?;
        let addressee = match frame.party {
            Party::Function(_) | Party::Host(_) => return Err(Illegal),
            Party::PortAnswer(bus) => Id::on_bus(bus),
            Party::HostAnswer | Party::FunctionAnswer(_) => frame.packet.header.requester,
        };
        if self.fabric.tenants.domain_of_host(addressee) == Some(self.domain) {
            let frame = self.land(number)?;
            self.fabric.tenants.deliver_at_host(frame);
            return Ok(None);
        }
        let function = self.fabric.tenants.function_reached(addressee).ok_or(Illegal)?;
        let frame = self.land(number)?;
        self.fabric.tenants.take_at_function(function, frame);
        Ok(None)
    }
}
