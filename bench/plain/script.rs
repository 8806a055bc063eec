//! Script texts.

use crate::id::Id;
use crate::words;

#[derive(Clone)]
pub enum Access {
    Write(Vec<u8>),
    /// So many DW.
    Read(u32),
}

pub enum Command {
    Submit(Id, Vec<u8>),
    Tick(Id),
    Mmio { domain: u8, function: Id, offset: u32, access: Access },
    Sweep(u32),
}

/// Lines of a script, comments among them.
const MOST: u32 = 65_536;

/// The commands with the numbers of their lines, or the number of the first faulty line.
pub fn read(text: &str) -> Result<Vec<(u32, Command)>, u32> {
    let mut commands = Vec::new();
    for (number, line, is_ended) in words::lines(text) {
        if !is_ended || number > MOST {
            return Err(number);
        }
        if !line.starts_with('#') {
            commands.push((number, command(line).ok_or(number)?));
        }
    }
    Ok(commands)
}

fn command(line: &str) -> Option<Command> {
    let fields: Vec<&str> = line.split(' ').collect();
    match fields[..] {
        ["submit", id, bytes] => Some(Command::Submit(words::id(id)?, words::bytes(bytes)?)),
        ["tick", id] => Some(Command::Tick(words::id(id)?)),
        ["mmio", domain, kind, id, offset, access] => {
            let domain = words::decimal(domain).filter(|d| (1..=31).contains(d))? as u8;
            let access = match kind {
                "write" => Access::Write(words::bytes(access)?),
                "read" => Access::Read(words::decimal(access)?),
                _ => return None,
            };
            Some(Command::Mmio { domain, function: words::id(id)?, offset: words::fixed(offset, 3)?, access })
        }
        ["sweep", count] => Some(Command::Sweep(words::decimal(count).filter(|n| (1..=1_000_000).contains(n))?)),
        _ => None,
    }
}
