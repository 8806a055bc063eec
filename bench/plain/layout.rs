//! Layout texts: the lines of a layout, and the first faulty one.

use crate::id::Id;
use crate::words;

pub struct Switch {
    pub id: Id,
    /// The port above, by number; the top switch has none.
    pub above: Option<usize>,
    pub level: u8,
}

pub struct Port {
    pub id: Id,
    /// The switch that the port is of, by number.
    pub switch: usize,
    pub secondary: u8,
    pub subordinate: u8,
    pub base: u32,
    pub limit: u32,
    pub controls: u8,
    /// Bit i is clear where requests go directly to the port of the switch that is device i; all are set at first.
    pub vector: Option<u32>,
    pub owner: u8,
    /// Does anything stand below?
    pub is_taken: bool,
}

pub struct Function {
    pub id: Id,
    pub port: usize,
    pub bar: u32,
}

#[derive(Clone, Copy)]
pub enum Target {
    Frame(usize),
    Peer(Id),
}

pub struct Map {
    pub id: Id,
    pub page: u64,
    pub target: Target,
    pub reads: bool,
    pub writes: bool,
}

#[derive(Default)]
pub struct Layout {
    /// Does the text begin with `pciefab 2`?
    pub is_second: bool,
    pub frames: Option<u32>,
    pub switches: Vec<Switch>,
    pub ports: Vec<Port>,
    pub functions: Vec<Function>,
    pub maps: Vec<Map>,
    pub budgets: Vec<(u8, u32)>,
    pub credits: Vec<(Id, [u32; 6])>,
}

/// Causes of refusal, by number.
#[derive(Clone, Copy, PartialEq, Eq, PartialOrd, Ord, Debug)]
pub enum Cause {
    Line = 1,
    Limit,
    BusOverlap,
    BusOutside,
    WindowOverlap,
    WindowOutside,
    OwnerMixed,
    BarOutside,
    MapForeign,
    MapTwice,
    AcsUnknown,
    CreditRange,
    EgressForeign = 14,
}

/// The least cause that applies decides, so each rule lists its conditions in the order of their numbers.
fn refuse_if(is_faulty: bool, cause: Cause) -> Result<(), Cause> {
    if is_faulty {
        Err(cause)
    } else {
        Ok(())
    }
}

impl Layout {
    /// The layout of a text, or its first faulty line with the least cause there.
    pub fn read(text: &str) -> Result<Layout, (u32, Cause)> {
        let mut layout = Layout::default();
        let mut last = 0;
        for (number, line, is_ended) in words::lines(text) {
            last = number;
            let added = match (is_ended, number) {
                (false, _) => Err(Cause::Line),
                (true, 1) => {
                    layout.is_second = line == "pciefab 2";
                    refuse_if(line != "pciefab 1" && !layout.is_second, Cause::Line)
                }
                _ if line.starts_with('#') => Ok(()),
                _ => layout.add(line),
            };
            added.map_err(|cause| (number, cause))?;
        }
        refuse_if(layout.switches.is_empty(), Cause::Line).map_err(|cause| (last + 1, cause))?;
        Ok(layout)
    }

    fn add(&mut self, line: &str) -> Result<(), Cause> {
        let fields: Vec<&str> = line.split(' ').collect();
        match fields[..] {
            ["frames", count] => self.add_frames(count),
            ["switch", id, "root"] => self.add_root(id),
            ["switch", id, port] => self.add_switch(id, port),
            ["port", id, secondary, subordinate, base, limit, controls, owner] => {
                let port =
                    self.port_of([id, secondary, subordinate, base, limit, controls, owner]).ok_or(Cause::Line)?;
                self.add_port(port)
            }
            ["function", id, bar] => self.add_function(id, bar),
            ["map", id, page, kind, target, access] => {
                let map = self.map_of([id, page, kind, target, access]).ok_or(Cause::Line)?;
                self.add_map(map)
            }
            ["egress", id, vector] if self.is_second => self.add_egress(id, vector),
            ["budget", domain, count] => self.add_budget(domain, count),
            ["credit", id, ref limits @ ..] => self.add_credits(id, limits),
            _ => Err(Cause::Line),
        }
    }

    fn add_frames(&mut self, count: &str) -> Result<(), Cause> {
        let count = words::decimal(count).ok_or(Cause::Line)?;
        refuse_if(self.frames.is_some() || !self.maps.is_empty(), Cause::Line)?;
        refuse_if(!(1..=1024).contains(&count), Cause::Limit)?;
        self.frames = Some(count);
        Ok(())
    }

    fn add_root(&mut self, id: &str) -> Result<(), Cause> {
        refuse_if(id != "01:00.0" || !self.switches.is_empty(), Cause::Line)?;
        self.switches.push(Switch { id: Id::on_bus(1), above: None, level: 1 });
        Ok(())
    }

    fn add_switch(&mut self, id: &str, port: &str) -> Result<(), Cause> {
        let id = words::id(id).ok_or(Cause::Line)?;
        let port = words::id(port).ok_or(Cause::Line)?;
        let above = self.ports.iter().position(|line| line.id == port).ok_or(Cause::Line)?;
        let line = &mut self.ports[above];
        refuse_if(line.is_taken || id != Id::on_bus(line.secondary), Cause::Line)?;
        let level = self.switches[line.switch].level + 1;
        refuse_if(self.switches.len() >= 8 || level > 3, Cause::Limit)?;
        refuse_if(line.secondary >= line.subordinate, Cause::BusOutside)?;
        line.is_taken = true;
        self.switches.push(Switch { id, above: Some(above), level });
        Ok(())
    }

    /// A port line by itself; nothing where it has not the form or breaks a rule without a number of its own. Domains
    /// out of range are all 0 here.
    fn port_of(&self, fields: [&str; 7]) -> Option<Port> {
        let id = words::id(fields[0])?;
        let [secondary, subordinate] = [words::fixed(fields[1], 2)? as u8, words::fixed(fields[2], 2)? as u8];
        let [base, limit] = [words::fixed(fields[3], 8)?, words::fixed(fields[4], 8)?];
        let controls = words::fixed(fields[5], 2)? as u8;
        let owner = words::decimal(fields[6])?;
        let owner = if owner <= 31 { owner as u8 } else { 0 };
        let switch = self.switches.iter().position(|line| line.id.bus() + 1 == id.bus())?;
        let is_new = self.ports.iter().all(|line| line.id != id);
        let is_window = base & 0xfffff == 0 && limit & 0xfffff == 0xfffff && base < limit;
        // A vector closes its switch.
        let is_open = self.ports.iter().all(|line| line.switch != switch || line.vector.is_none());
        let is_good = is_new && is_open && id.function() == 0 && secondary <= subordinate && is_window;
        let (vector, is_taken) = (None, false);
        is_good.then_some(Port { id, switch, secondary, subordinate, base, limit, controls, vector, owner, is_taken })
    }

    fn add_port(&mut self, port: Port) -> Result<(), Cause> {
        let siblings = || self.ports.iter().filter(|line| line.switch == port.switch);
        let switch = &self.switches[port.switch];
        let above = switch.above.map(|above| &self.ports[above]);
        // Past the switch's own bus, which may be the last there is.
        let first = u16::from(switch.id.bus()) + 2;
        let last = above.map_or(0xff, |line| line.subordinate);
        refuse_if(port.owner == 0 || siblings().count() >= 8, Cause::Limit)?;
        let meets = |line: &Port| line.secondary <= port.subordinate && port.secondary <= line.subordinate;
        refuse_if(siblings().any(meets), Cause::BusOverlap)?;
        refuse_if(u16::from(port.secondary) < first || port.subordinate > last, Cause::BusOutside)?;
        let meets = |line: &Port| line.base <= port.limit && port.base <= line.limit;
        refuse_if(siblings().any(meets), Cause::WindowOverlap)?;
        let is_outside = above.is_some_and(|line| port.base < line.base || port.limit > line.limit);
        refuse_if(is_outside, Cause::WindowOutside)?;
        refuse_if(above.is_some_and(|line| line.owner != port.owner), Cause::OwnerMixed)?;
        refuse_if(port.controls > if self.is_second { 0x3f } else { 0x1f }, Cause::AcsUnknown)?;
        self.ports.push(port);
        Ok(())
    }

    /// The vector of a port that controls egress. Requests go directly to functions of the port's own domain alone.
    fn add_egress(&mut self, id: &str, vector: &str) -> Result<(), Cause> {
        let id = words::id(id).ok_or(Cause::Line)?;
        let vector = words::fixed(vector, 8).ok_or(Cause::Line)?;
        let number = self.ports.iter().position(|line| line.id == id).ok_or(Cause::Line)?;
        let port = &self.ports[number];
        refuse_if(port.controls & 0x20 == 0 || port.vector.is_some(), Cause::Line)?;
        let stands_below = |other: &Port| self.functions.iter().any(|line| line.id == Id::on_bus(other.secondary));
        let is_foreign = |other: &Port| {
            let is_let = other.switch == port.switch && other.id != port.id && vector >> other.id.device() & 1 == 0;
            is_let && (other.owner != port.owner || !stands_below(other))
        };
        refuse_if(self.ports.iter().any(is_foreign), Cause::EgressForeign)?;
        self.ports[number].vector = Some(vector);
        Ok(())
    }

    fn add_function(&mut self, id: &str, bar: &str) -> Result<(), Cause> {
        let id = words::id(id).ok_or(Cause::Line)?;
        let bar = words::fixed(bar, 8).ok_or(Cause::Line)?;
        let is_above = |line: &Port| id == Id::on_bus(line.secondary) && !line.is_taken;
        let port = self.ports.iter().position(is_above).ok_or(Cause::Line)?;
        let line = &mut self.ports[port];
        refuse_if(bar % 4096 != 0 || bar < line.base || bar > line.limit, Cause::BarOutside)?;
        line.is_taken = true;
        self.functions.push(Function { id, port, bar });
        Ok(())
    }

    pub fn owner_of(&self, id: Id) -> Option<u8> {
        let function = self.functions.iter().find(|line| line.id == id)?;
        Some(self.ports[function.port].owner)
    }

    fn map_of(&self, [id, page, kind, target, access]: [&str; 5]) -> Option<Map> {
        let id = words::id(id)?;
        self.owner_of(id)?;
        let page = words::hexadecimal(page, 1, 13)?;
        let target = match kind {
            "frame" => Target::Frame(words::decimal(target)? as usize),
            "peer" => Target::Peer(words::id(target)?),
            _ => return None,
        };
        if let Target::Peer(peer) = target {
            self.owner_of(peer)?;
        }
        let (reads, writes) = match access {
            "r" => (true, false),
            "w" => (false, true),
            "rw" => (true, true),
            _ => return None,
        };
        Some(Map { id, page, target, reads, writes })
    }

    fn add_map(&mut self, map: Map) -> Result<(), Cause> {
        let frames = self.frames.unwrap_or(0) as usize;
        let is_past = matches!(map.target, Target::Frame(k) if k >= frames);
        let own = || self.maps.iter().filter(|line| line.id == map.id);
        refuse_if(is_past || own().count() >= 64, Cause::Limit)?;
        let owner = self.owner_of(map.id);
        let holder = match map.target {
            Target::Frame(k) => self.holder_of(k),
            Target::Peer(peer) => self.owner_of(peer),
        };
        refuse_if(holder.is_some() && holder != owner, Cause::MapForeign)?;
        refuse_if(own().any(|line| line.page == map.page), Cause::MapTwice)?;
        self.maps.push(map);
        Ok(())
    }

    /// A frame belongs to the domain that maps it.
    pub fn holder_of(&self, frame: usize) -> Option<u8> {
        let map = self.maps.iter().find(|line| matches!(line.target, Target::Frame(k) if k == frame))?;
        self.owner_of(map.id)
    }

    fn add_budget(&mut self, domain: &str, count: &str) -> Result<(), Cause> {
        let domain = words::decimal(domain).ok_or(Cause::Line)?;
        let count = words::decimal(count).ok_or(Cause::Line)?;
        let has_port = self.ports.iter().any(|line| u32::from(line.owner) == domain);
        let is_second = self.budgets.iter().any(|line| u32::from(line.0) == domain);
        refuse_if(!has_port || is_second, Cause::Line)?;
        refuse_if(!(1..=16384).contains(&count), Cause::Limit)?;
        self.budgets.push((domain as u8, count));
        Ok(())
    }

    fn add_credits(&mut self, id: &str, limits: &[&str]) -> Result<(), Cause> {
        let id = words::id(id).ok_or(Cause::Line)?;
        let limits: Option<Vec<u32>> = limits.iter().map(|word| words::decimal(word)).collect();
        let limits: [u32; 6] = limits.and_then(|limits| limits.try_into().ok()).ok_or(Cause::Line)?;
        let is_link = self.owner_of(id).is_some() || self.switches.iter().any(|line| line.id == id);
        let is_second = self.credits.iter().any(|line| line.0 == id);
        refuse_if(!is_link || is_second, Cause::Line)?;
        let is_fine = limits.chunks(2).all(|pair| (1..=127).contains(&pair[0]) && (16..=2047).contains(&pair[1]));
        refuse_if(!is_fine, Cause::CreditRange)?;
        self.credits.push((id, limits));
        Ok(())
    }

    /// The limits of the link with this lower end.
    pub fn limits_of(&self, id: Id) -> [u32; 6] {
        self.credits.iter().find(|line| line.0 == id).map_or([16, 64, 16, 16, 16, 64], |line| line.1)
    }

    pub fn budget_of(&self, domain: u8) -> u32 {
        self.budgets.iter().find(|line| line.0 == domain).map_or(256, |line| line.1)
    }
}
