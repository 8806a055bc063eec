//! How packets end at ports, at the host and at functions: what that does, the entry that says so, and what answers.

use crate::domain::Tenants;
use crate::function::{Target, Use};
use crate::header::{Class, Header, Kind, Status};
use crate::id::Id;
use crate::journal::{Answerer, Entry, Origin, Parties, Place, Way};
use crate::link::{Frame, Party};
use crate::packet::Packet;

/// What an end makes: who it is for, and the packet.
type Reply = Option<(Party, Packet)>;

/// The host as a completer.
const HOST: Id = Id(0);

/// Where the host takes packets: what the top switch sent up.
const AT_HOST: Place = Place { lower: Id(0x0100), way: Way::Up };

/// By what the host serves a request.
#[derive(Clone, Copy)]
enum Service {
    /// The table of its Requester ID, which is of this domain.
    Table(usize),
    /// The number of this frame, which is of this domain.
    Number(usize, usize),
    Nothing,
}

/// The answer of who serves no such request: a posted one has none.
fn unserved(packet: &Packet, completer: Id) -> Option<Packet> {
    (packet.header.class == Class::NonPosted).then(|| packet.refusal(completer, Status::Unsupported))
}

fn refused_by_host(packet: &Packet) -> Reply {
    unserved(packet, HOST).map(|packet| (Party::HostAnswer, packet))
}

fn is_long_read(packet: &Packet) -> bool {
    packet.header.kind == Kind::MRd && packet.header.dws > 64
}

impl Tenants {
    /// Whom a completion for an ID answers, as the domain that makes it sees it.
    fn reached(&self, d: usize, id: Id) -> Option<Origin> {
        if self.domain_of_host(id) == Some(d) {
            return Some(Origin::Host(self.domains[d].number));
        }
        self.function_reached(id).map(|f| Origin::Function(self.functions[f].id))
    }

    fn parties(&self, frame: &Frame) -> Parties {
        let id = |f: u8| self.functions[usize::from(f)].id;
        let reached = || self.reached(usize::from(frame.home), frame.packet.header.requester);
        match frame.party {
            Party::Function(f) => Parties::From(id(f)),
            Party::Host(f) => Parties::To(id(f)),
            Party::HostAnswer => Parties::By(Answerer::Host, reached()),
            Party::FunctionAnswer(f) => Parties::By(Answerer::Function(id(f)), reached()),
            Party::PortAnswer(bus) => Parties::By(Answerer::Port, Some(Origin::Function(Id::on_bus(bus)))),
        }
    }

    /// The entry of a packet that was taken where its home has none for it.
    fn alien(&self, place: Place, frame: &Frame) -> Entry {
        Entry::Alien { place, parties: self.parties(frame), bytes: frame.packet.bytes.clone() }
    }

    /// The function that sent a packet upward, if one did.
    pub fn sender(&self, frame: &Frame) -> Option<Id> {
        match frame.party {
            Party::Function(f) | Party::FunctionAnswer(f) => Some(self.functions[usize::from(f)].id),
            Party::Host(_) | Party::HostAnswer | Party::PortAnswer(_) => None,
        }
    }

    /// A port that takes packets at this place stops one, and perhaps answers who sent it. Of the sender's first port
    /// the entry has the packet's number.
    pub fn stop(&mut self, place: Place, frame: &Frame, answer: Option<Packet>) -> Option<Frame> {
        let sender = self.sender(frame);
        let is_first = sender == Some(place.lower);
        let entry = if is_first { Entry::Refuse(frame.number) } else { self.alien(place, frame) };
        let reply = sender.zip(answer).map(|(sender, packet)| (Party::PortAnswer(sender.bus()), packet));
        self.enter(usize::from(frame.home), entry, reply)
    }

    /// A port that takes packets at this place has no way for one.
    pub fn misroute(&mut self, place: Place, frame: &Frame) {
        let entry = self.alien(place, frame);
        self.domains[usize::from(frame.home)].journal.add(entry);
    }

    /// By what the host serves a request: AT 10 says that the address was translated, so that its page is the number of
    /// a frame.
    fn service(&self, header: &Header) -> Service {
        let page = usize::try_from(header.address / 4096).unwrap_or(usize::MAX);
        let service = match header.address_type {
            0 => self.owner(header.requester).map(Service::Table),
            2 if header.kind != Kind::FetchAdd => self.memory.get(page).and_then(Option::as_ref).map(|holder| Service::Number(holder.domain, page)),
            _ => None,
        };
        service.unwrap_or(Service::Nothing)
    }

    /// The host takes a function's request. Answered is the domain from whose host a packet leaves, if one does.
    pub fn take_at_host(&mut self, frame: Frame) -> Option<(usize, Frame)> {
        let home = usize::from(frame.home);
        let service = self.service(&frame.packet.header);
        let entry = match service {
            Service::Table(d) if d == home => Entry::Carry(frame.number),
            _ => self.alien(AT_HOST, &frame),
        };
        let (d, reply) = match service {
            Service::Table(d) => (d, self.by_table(d, frame.packet)),
            Service::Number(d, k) => (d, self.at_frame(k, &frame.packet)),
            Service::Nothing => (home, refused_by_host(&frame.packet)),
        };
        self.enter(d, entry, reply).map(|frame| (d, frame))
    }

    /// By the table of the Requester ID, which is of this domain.
    fn by_table(&mut self, d: usize, packet: Packet) -> Reply {
        let header = packet.header;
        if is_long_read(&packet) {
            return refused_by_host(&packet);
        }
        let function = self.function(header.requester).map(|f| &self.functions[f]);
        let look = |is_write| function.and_then(|f| f.lookup(header.address / 4096, is_write));
        let target = match header.kind {
            Kind::FetchAdd => look(false).and(look(true)),
            kind => look(kind == Kind::MWr),
        };
        match target {
            Some(Target::Frame(k)) => self.at_frame(k, &packet),
            Some(Target::Peer(g)) if header.kind != Kind::FetchAdd => {
                let address = self.functions[g].bar + (header.address % 4096) as u32;
                Some((Party::Host(g as u8), packet.moved(address)))
            }
            _ => {
                self.domains[d].blocked += 1;
                refused_by_host(&packet)
            }
        }
    }

    /// A frame of memory is read, written or added to.
    fn at_frame(&mut self, k: usize, packet: &Packet) -> Reply {
        if is_long_read(packet) {
            return refused_by_host(packet);
        }
        let page = self.memory[k].as_mut()?;
        let stored = &mut page.bytes[packet.range()];
        if packet.header.kind == Kind::MWr {
            packet.store(stored);
            return None;
        }
        if packet.header.kind == Kind::FetchAdd {
            let answer = packet.old_value(HOST, stored);
            packet.add(stored);
            return Some((Party::HostAnswer, answer));
        }
        Some((Party::HostAnswer, packet.success(HOST, stored)))
    }

    /// The host takes a completion for bus 00; if that names no domain's host, nothing happens.
    pub fn deliver_at_host(&mut self, frame: Frame) {
        let header = frame.packet.header;
        let home = usize::from(frame.home);
        let named = self.domain_of_host(header.requester);
        let entry = match named {
            Some(d) if d == home => Entry::Deliver(frame.number),
            _ => self.alien(AT_HOST, &frame),
        };
        let domain = &mut self.domains[named.unwrap_or(home)];
        domain.journal.add(entry);
        if named.is_none() {
            return;
        }
        match domain.tags.get_mut(usize::from(header.tag)) {
            Some(tag) if *tag => {
                *tag = false;
                domain.record(header.requester, frame.packet);
            }
            _ => domain.unexpected += 1,
        }
    }

    /// A function takes a packet. Answered is what it sends.
    pub fn take_at_function(&mut self, f: usize, frame: Frame) -> Option<Frame> {
        let function = &self.functions[f];
        let (d, lower) = (function.domain, function.id);
        let (party, number) = (frame.party, frame.number);
        let is_sent = match party {
            // By another function, in the name of an ID of the domain, and claiming no translation.
            Party::Function(_) => {
                let header = &frame.packet.header;
                frame.is_direct && header.address_type == 0 && self.owner(header.requester) == Some(d)
            }
            _ => true,
        };
        let is_own = usize::from(frame.home) == d && is_sent;
        let is_completion = frame.packet.header.class == Class::Completion;
        let entry = match (is_own, is_completion) {
            (true, false) => Entry::Carry(number),
            (true, true) => Entry::Deliver(number),
            (false, _) => self.alien(Place { lower, way: Way::Down }, &frame),
        };
        let reply = if is_completion {
            self.deliver_at_function(f, party, frame.packet);
            None
        } else {
            self.access_at_function(f, &frame.packet)
        };
        self.enter(d, entry, reply)
    }

    /// A request to the register page, if that is what it is.
    fn access_at_function(&mut self, f: usize, packet: &Packet) -> Reply {
        let function = &mut self.functions[f];
        let is_here = packet.header.address / 4096 == u64::from(function.bar / 4096);
        let answer = if is_here && !is_long_read(packet) && packet.header.kind != Kind::FetchAdd {
            function.access(packet, packet.header.kind == Kind::MWr)
        } else {
            unserved(packet, function.id)
        };
        answer.map(|packet| (Party::FunctionAnswer(f as u8), packet))
    }

    /// A completion closes the Tag of its Requester ID; that of a port closes the Tag whatever it bears.
    fn deliver_at_function(&mut self, f: usize, party: Party, packet: Packet) {
        let header = packet.header;
        let function = &mut self.functions[f];
        let domain = &mut self.domains[function.domain];
        let is_for_it = matches!(party, Party::PortAnswer(_)) || header.requester == function.id;
        if !is_for_it || function.tags[usize::from(header.tag)] == Use::Free {
            domain.unexpected += 1;
            return;
        }
        function.close(header.tag, header.status, packet.payload());
        domain.record(function.id, packet);
    }
}
