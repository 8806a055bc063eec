//! Journals of domains: their entries, the numbers of the packets that these make, and their text.

use crate::header::{Class, Header, Kind};
use crate::id::Id;
use crate::script::Access;
use crate::words::Hex;
use std::collections::BTreeSet;
use std::fmt::{self, Display, Formatter};

/// What happens to a domain. What ends a packet of its own has that packet's number alone.
pub enum Entry {
    Submit(Id, Vec<u8>),
    Tick(Id),
    Mmio { function: Id, offset: u32, access: Access },
    /// The first port of its sender stopped it.
    Refuse(u64),
    /// It reached its completer.
    Carry(u64),
    /// The completion reached whom it answers.
    Deliver(u64),
    /// Here a packet of these bytes was taken, and the journal of its home has no entry for that.
    Alien { place: Place, parties: Parties, bytes: Vec<u8> },
}

/// The receiver of a direction: nobody takes packets elsewhere. A link is named by the ID at its lower end.
#[derive(Clone, Copy)]
pub struct Place {
    pub lower: Id,
    pub way: Way,
}

#[derive(Clone, Copy)]
pub enum Way {
    Up,
    Down,
}

/// Who made a packet, and for whom.
pub enum Parties {
    From(Id),
    To(Id),
    /// A completion, and whom it answers, if its Requester ID leads to anybody.
    By(Answerer, Option<Origin>),
}

pub enum Answerer {
    Port,
    Host,
    Function(Id),
}

pub enum Origin {
    Function(Id),
    /// The host of the domain with this number.
    Host(u8),
}

impl Entry {
    /// The number of the packet that it ends.
    fn ended(&self) -> Option<u64> {
        match self {
            Entry::Refuse(number) | Entry::Carry(number) | Entry::Deliver(number) => Some(*number),
            Entry::Submit(..) | Entry::Tick(_) | Entry::Mmio { .. } | Entry::Alien { .. } => None,
        }
    }
}

/// The entries of a domain in turn, each with the header of the packet that it made. Packets are numbered from 0.
#[derive(Default)]
pub struct Journal {
    lines: Vec<(Entry, Option<Header>)>,
    made: u64,
}

impl Journal {
    pub fn add(&mut self, entry: Entry) {
        self.lines.push((entry, None));
    }

    /// Adds an entry that makes a packet, and answers the packet's number.
    pub fn add_maker(&mut self, entry: Entry, packet: Header) -> u64 {
        let number = self.made;
        self.lines.push((entry, Some(packet)));
        self.made += 1;
        number
    }

    pub fn entries(&self) -> impl ExactSizeIterator<Item = &Entry> {
        self.lines.iter().map(|(entry, _)| entry)
    }
}

impl Display for Way {
    fn fmt(&self, f: &mut Formatter) -> fmt::Result {
        f.write_str(match self {
            Way::Up => "up",
            Way::Down => "down",
        })
    }
}

impl Display for Place {
    fn fmt(&self, f: &mut Formatter) -> fmt::Result {
        write!(f, "ingress {} {}", self.lower, self.way)
    }
}

impl Display for Answerer {
    fn fmt(&self, f: &mut Formatter) -> fmt::Result {
        match self {
            Answerer::Port => f.write_str("port"),
            Answerer::Host => f.write_str("host"),
            Answerer::Function(id) => id.fmt(f),
        }
    }
}

impl Display for Origin {
    fn fmt(&self, f: &mut Formatter) -> fmt::Result {
        match self {
            Origin::Function(id) => id.fmt(f),
            Origin::Host(domain) => write!(f, "host{domain}"),
        }
    }
}

impl Display for Parties {
    fn fmt(&self, f: &mut Formatter) -> fmt::Result {
        match self {
            Parties::From(id) => write!(f, "from {id} -"),
            Parties::To(id) => write!(f, "to {id} -"),
            Parties::By(answerer, None) => write!(f, "by {answerer} -"),
            Parties::By(answerer, Some(origin)) => write!(f, "by {answerer} {origin}"),
        }
    }
}

/// An entry in the journal of the domain with this number.
struct Line<'a>(u8, &'a Entry);

impl Display for Line<'_> {
    fn fmt(&self, f: &mut Formatter) -> fmt::Result {
        let Line(domain, entry) = self;
        match entry {
            Entry::Submit(function, bytes) => write!(f, "submit {function} {}", Hex(bytes)),
            Entry::Tick(function) => write!(f, "tick {function}"),
            Entry::Mmio { function, offset, access: Access::Read(dws) } => {
                write!(f, "mmio {domain} read {function} {offset:03x} {dws}")
            }
            Entry::Mmio { function, offset, access: Access::Write(bytes) } => {
                write!(f, "mmio {domain} write {function} {offset:03x} {}", Hex(bytes))
            }
            Entry::Refuse(number) => write!(f, "refuse {number}"),
            Entry::Carry(number) => write!(f, "carry {number}"),
            Entry::Deliver(number) => write!(f, "deliver {number}"),
            Entry::Alien { place, parties, bytes } => write!(f, "alien {place} {parties} {}", Hex(bytes)),
        }
    }
}

/// The comment on a packet: its number, and what its header says.
struct Comment<'a>(u64, &'a Header);

impl Display for Comment<'_> {
    fn fmt(&self, f: &mut Formatter) -> fmt::Result {
        let Comment(number, header) = self;
        let Header { kind, class, status, requester, tag, address, .. } = header;
        write!(f, "# packet {number}: ")?;
        if let Kind::Malformed(cause) = kind {
            return write!(f, "malformed {cause:?}");
        }
        write!(f, "{kind:?} requester {requester} tag {tag:02x}")?;
        match (kind, class) {
            (Kind::MRd | Kind::MWr | Kind::FetchAdd, _) => write!(f, " address {address:x}"),
            (_, Class::Completion) => write!(f, " status {}", status.name()),
            _ => Ok(()),
        }
    }
}

impl Journal {
    /// Its text in the domain of this number: a line for each entry, a comment on each packet that an entry made, and
    /// last the numbers of those in flight.
    pub fn text(&self, domain: u8) -> String {
        let mut lines = Vec::new();
        let mut in_flight = BTreeSet::new();
        let mut number = 0;
        for (entry, made) in &self.lines {
            lines.push(Line(domain, entry).to_string());
            if let Some(ended) = entry.ended() {
                in_flight.remove(&ended);
            }
            if let Some(header) = made {
                lines.push(Comment(number, header).to_string());
                in_flight.insert(number);
                number += 1;
            }
        }
        if !in_flight.is_empty() {
            let numbers: Vec<String> = in_flight.iter().map(u64::to_string).collect();
            lines.push(format!("in flight {}", numbers.join(" ")));
        }
        lines.into_iter().map(|line| line + "\n").collect()
    }
}
