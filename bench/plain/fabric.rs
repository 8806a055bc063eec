//! The fabric: all places of packets, and the events that move them.

use crate::domain::{Fault, Tenants};
use crate::header::{Class, Status, CLASSES};
use crate::id::Id;
use crate::journal::Place;
use crate::link::{Channel, Queue};
use crate::port::{Course, Switch, Test};
use crate::script::Command;

/// A port of a switch, and where packets come into it from.
pub struct Port {
    pub id: Id,
    pub switch: usize,
    /// Which exit of its switch it is; none of an upstream port.
    pub exit: Option<usize>,
    /// None where nothing stands below.
    pub input: Option<usize>,
    /// Where it takes them.
    pub place: Place,
}

/// A request that a port's test refused.
pub struct Violation {
    pub port: Id,
    pub test: Test,
    pub sender: Id,
    pub requester: Id,
    pub is_posted: bool,
}

/// How many events moved something, and how many were made.
#[derive(Clone, Copy, Default)]
pub struct Count {
    pub moved: u64,
    pub all: u64,
}

impl Count {
    fn add(&mut self, moved: bool) {
        self.all += 1;
        self.moved += u64::from(moved);
    }
}

/// An outbox and the direction that its packets leave by.
pub struct Outbox {
    pub queue: Queue,
    pub out: usize,
}

pub struct Fabric {
    pub tenants: Tenants,
    /// Of functions by ID, then of hosts by domain.
    pub outboxes: Vec<Outbox>,
    /// By the IDs at the lower ends of links, each upward first.
    pub channels: Vec<Channel>,
    pub switches: Vec<Switch>,
    /// By ID.
    pub ports: Vec<Port>,
    /// The directions between the host and the top switch.
    pub root_up: usize,
    pub root_down: usize,
    /// The direction that leads down to each function.
    pub arrivals: Vec<usize>,
    pub violations: Vec<Violation>,
    pub count: Count,
}

impl Fabric {
    /// Does what a line of a script asks for.
    pub fn obey(&mut self, command: Command) -> Result<(), Fault> {
        let made = match command {
            Command::Sweep(most) => {
                self.sweep(most);
                return Ok(());
            }
            Command::Submit(id, bytes) => self.tenants.submit(id, bytes).map(Some),
            Command::Tick(id) => self.tenants.tick(id),
            Command::Mmio { domain, function, offset, access } => {
                let made = self.tenants.mmio(domain, function, offset, access);
                made.map(|(d, frame)| Some((self.tenants.functions.len() + d, frame)))
            }
        };
        self.count.add(made.is_ok());
        if let Some((outbox, frame)) = made? {
            self.outboxes[outbox].queue.put(frame);
        }
        Ok(())
    }

    /// So many sweeps, or fewer: the last one is the first in which nothing moves.
    fn sweep(&mut self, most: u32) {
        for _ in 0..most {
            let before = self.count.moved;
            self.sweep_once();
            if self.count.moved == before {
                return;
            }
        }
    }

    /// Tries each event once, in the order that the formats fix.
    fn sweep_once(&mut self) {
        // A copy, since the events borrow the whole fabric.
        let mut count = self.count;
        for outbox in 0..self.outboxes.len() {
            CLASSES.iter().for_each(|class| count.add(self.enter(outbox, *class)));
        }
        for port in 0..self.ports.len() {
            CLASSES.iter().for_each(|class| count.add(self.pass(port, *class)));
        }
        for channel in &mut self.channels {
            CLASSES.iter().for_each(|class| count.add(channel.send(*class)));
            count.add(channel.receive());
            count.add(channel.send_update_fc());
        }
        CLASSES.iter().for_each(|class| count.add(self.root(*class)));
        for function in 0..self.arrivals.len() {
            CLASSES.iter().for_each(|class| count.add(self.arrive(function, *class)));
        }
        self.count = count;
    }

    /// From an outbox onto its link.
    fn enter(&mut self, outbox: usize, class: Class) -> bool {
        let Outbox { queue, out } = &mut self.outboxes[outbox];
        let egress = &mut self.channels[*out].egress;
        if queue.head(class).is_none() || egress.is_full(class) {
            return false;
        }
        queue.take(class).into_iter().for_each(|frame| egress.put(frame));
        true
    }

    /// A port takes a packet, and sends it on or ends it.
    fn pass(&mut self, port: usize, class: Class) -> bool {
        let Port { switch, exit, input: Some(input), place, .. } = self.ports[port] else {
            return false;
        };
        let Some(frame) = self.channels[input].arrived(class) else {
            return false;
        };
        let switch = &self.switches[switch];
        let course = exit.map_or_else(|| switch.downward(frame), |own| switch.upward(own, frame));
        match course {
            Course::Forward(out) | Course::Direct(out) if self.channels[out].egress.is_full(class) => return false,
            Course::Forward(out) | Course::Direct(out) => {
                if let Some(mut frame) = self.channels[input].take(class) {
                    frame.is_direct |= matches!(course, Course::Direct(_));
                    self.channels[out].egress.put(frame);
                }
            }
            Course::Stop(status, test) => {
                let down = exit.and_then(|own| switch.exits[own].down);
                return self.stop(port, down, input, class, status, test);
            }
            Course::Misroute => {
                let frame = self.channels[input].take(class);
                frame.into_iter().for_each(|frame| self.tenants.misroute(place, &frame));
            }
        }
        true
    }

    /// A downstream port stops a packet. The answer to a request leaves by the link on which that came, for the
    /// function that sent it.
    fn stop(
        &mut self,
        port: usize,
        down: Option<usize>,
        input: usize,
        class: Class,
        status: Status,
        test: Option<Test>,
    ) -> bool {
        let Some(down) = down else {
            return false;
        };
        let is_answered = class == Class::NonPosted;
        if is_answered && self.channels[down].egress.is_full(Class::Completion) {
            return false;
        }
        let Some(frame) = self.channels[input].take(class) else {
            return false;
        };
        let Port { id, place, .. } = self.ports[port];
        let answer = is_answered.then(|| frame.packet.refusal(id, status));
        if let Some(answer) = self.tenants.stop(place, &frame, answer) {
            self.channels[down].egress.put(answer);
        }
        if let Some((test, sender)) = test.zip(self.tenants.sender(&frame)) {
            let requester = frame.packet.header.requester;
            self.violations.push(Violation { port: id, test, sender, requester, is_posted: !is_answered });
        }
        true
    }

    /// The host takes a packet. Completions for functions go down again.
    fn root(&mut self, class: Class) -> bool {
        let Some(frame) = self.channels[self.root_up].arrived(class) else {
            return false;
        };
        let is_completion = class == Class::Completion;
        let is_relayed = is_completion && frame.packet.header.requester.bus() != 0;
        if is_relayed && self.channels[self.root_down].egress.is_full(class) {
            return false;
        }
        let Some(frame) = self.channels[self.root_up].take(class) else {
            return false;
        };
        if is_relayed {
            self.channels[self.root_down].egress.put(frame);
        } else if is_completion {
            self.tenants.deliver_at_host(frame);
        } else if let Some((d, frame)) = self.tenants.take_at_host(frame) {
            self.outboxes[self.tenants.functions.len() + d].queue.put(frame);
        }
        true
    }

    /// A function takes a packet.
    fn arrive(&mut self, function: usize, class: Class) -> bool {
        let Some(frame) = self.channels[self.arrivals[function]].take(class) else {
            return false;
        };
        if let Some(frame) = self.tenants.take_at_function(function, frame) {
            self.outboxes[function].queue.put(frame);
        }
        true
    }
}
