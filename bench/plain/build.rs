//! From the lines of a layout to a fabric in which nothing was begun.

use crate::domain::{Domain, Page, Tenants, NONE};
use crate::fabric::{Count, Fabric, Outbox, Port};
use crate::function::{Function, Mapping, Target};
use crate::id::Id;
use crate::journal::{Place, Way};
use crate::layout::{self, Layout};
use crate::link::{Channel, Queue};
use crate::port::{Exit, Switch};
use std::ops::RangeInclusive;

/// The lower ends of links, rising: link i has the directions 2 i up and 2 i + 1 down.
struct Links(Vec<Id>);

impl Links {
    fn of(layout: &Layout) -> Links {
        let switches = layout.switches.iter().map(|line| line.id);
        let mut lower: Vec<Id> = switches.chain(layout.functions.iter().map(|line| line.id)).collect();
        lower.sort();
        Links(lower)
    }

    fn up(&self, lower: Id) -> Option<usize> {
        self.0.binary_search(&lower).ok().map(|link| 2 * link)
    }

    fn down(&self, lower: Id) -> Option<usize> {
        self.up(lower).map(|up| up + 1)
    }
}

pub fn fabric(layout: &Layout) -> Fabric {
    let links = Links::of(layout);
    let tenants = tenants(layout);
    let root_up = links.up(Id::on_bus(1)).unwrap_or(0);
    let (switches, ports) = switches(layout, &links);
    let outs = tenants.functions.iter().map(|f| links.up(f.id).unwrap_or(0));
    let outs = outs.chain(tenants.domains.iter().map(|_| root_up + 1));
    Fabric {
        outboxes: outs.map(|out| Outbox { queue: Queue::default(), out }).collect(),
        channels: links.0.iter().flat_map(|id| [(); 2].map(|()| Channel::new(&layout.limits_of(*id)))).collect(),
        switches,
        ports,
        root_up,
        root_down: root_up + 1,
        arrivals: tenants.functions.iter().map(|f| links.down(f.id).unwrap_or(0)).collect(),
        violations: Vec::new(),
        count: Count::default(),
        tenants,
    }
}

fn switches(layout: &Layout, links: &Links) -> (Vec<Switch>, Vec<Port>) {
    let mut switches = Vec::new();
    let mut ports = Vec::new();
    for (switch, line) in layout.switches.iter().enumerate() {
        switches.push(Switch::new(links.up(line.id).unwrap_or(0)));
        let place = Place { lower: line.id, way: Way::Down };
        ports.push(Port { id: line.id, switch, exit: None, input: links.down(line.id), place });
    }
    for line in &layout.ports {
        let below = Id::on_bus(line.secondary);
        // A port without anything below may share its first bus with nothing else, so no link is found.
        let down = if line.is_taken { links.down(below) } else { None };
        let buses = line.secondary..=line.subordinate;
        let vector = line.vector.unwrap_or(u32::MAX);
        let exit = Exit { buses, controls: line.controls, device: line.id.device(), vector, down };
        let number = switches[line.switch].add(exit, line.base, line.limit);
        let input = down.map(|down| down - 1);
        let place = Place { lower: below, way: Way::Up };
        ports.push(Port { id: line.id, switch: line.switch, exit: Some(number), input, place });
    }
    ports.sort_by_key(|port| port.id);
    (switches, ports)
}

/// The numbers of the domains, rising, and the tables by which domains and functions are found.
struct Tables {
    owners: Vec<u8>,
    domain_of: [u8; 32],
    domain_on: [u8; 256],
    function_below: [u8; 256],
}

fn buses(port: &layout::Port) -> RangeInclusive<usize> {
    usize::from(port.secondary)..=usize::from(port.subordinate)
}

impl Tables {
    /// With the functions by ID.
    fn of(layout: &Layout, functions: &[&layout::Function]) -> Tables {
        let mut owners: Vec<u8> = layout.ports.iter().map(|line| line.owner).collect();
        owners.sort();
        owners.dedup();
        let mut domain_of = [NONE; 32];
        for (d, owner) in owners.iter().enumerate() {
            domain_of[usize::from(*owner)] = d as u8;
        }
        let mut domain_on = [NONE; 256];
        // The ports of the top switch have all buses below them that any port has.
        for line in layout.ports.iter().filter(|line| line.switch == 0) {
            domain_on[buses(line)].fill(domain_of[usize::from(line.owner)]);
        }
        let mut function_below = [NONE; 256];
        for (f, line) in functions.iter().enumerate() {
            function_below[buses(&layout.ports[line.port])].fill(f as u8);
        }
        Tables { owners, domain_of, domain_on, function_below }
    }

    fn domain(&self, owner: u8) -> usize {
        usize::from(self.domain_of[usize::from(owner)])
    }
}

fn tenants(layout: &Layout) -> Tenants {
    let mut lines: Vec<&layout::Function> = layout.functions.iter().collect();
    lines.sort_by_key(|line| line.id);
    let tables = Tables::of(layout, &lines);
    let functions = lines.iter().map(|line| {
        let table = table(layout, line.id, &tables.function_below);
        Function::new(line.id, tables.domain(layout.ports[line.port].owner), line.bar, table)
    });
    let page = |k| Some(Page { domain: tables.domain(layout.holder_of(k)?), bytes: Box::new([0; 4096]) });
    Tenants {
        functions: functions.collect(),
        domains: tables.owners.iter().map(|owner| Domain::new(*owner, layout.budget_of(*owner))).collect(),
        memory: (0..layout.frames.unwrap_or(0) as usize).map(page).collect(),
        function_below: tables.function_below,
        domain_on: tables.domain_on,
        domain_of: tables.domain_of,
    }
}

fn table(layout: &Layout, id: Id, function_below: &[u8; 256]) -> Vec<Mapping> {
    let own = layout.maps.iter().filter(|line| line.id == id);
    let mapping = |line: &layout::Map| {
        let target = match line.target {
            layout::Target::Frame(k) => Target::Frame(k),
            layout::Target::Peer(peer) => Target::Peer(usize::from(function_below[usize::from(peer.bus())])),
        };
        Mapping { page: line.page, target, reads: line.reads, writes: line.writes }
    };
    let mut table: Vec<Mapping> = own.map(mapping).collect();
    table.sort_by_key(|mapping| mapping.page);
    table
}
