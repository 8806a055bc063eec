//! A plain simulator of the fabric, in ordinary Rust: a yardstick of the speed of `pciefab run`, and an independent
//! check of what it prints, written from docs/, where these left a doubt from the definitions, and not from code. Nothing of it is proved.
//!
//!     rustc --edition 2021 -O -o plain bench/plain/main.rs
//!     plain run LAYOUT SCRIPT               prints what `pciefab run` prints
//!     plain journal LAYOUT SCRIPT DOMAIN    prints what `pciefab journal` prints
//!     plain time LAYOUT SCRIPT              prints NANOSECONDS MOVED ALL of the script's events, by processor time
//!     plain begins LAYOUT WORD DWS          prints BEGINS NANOSECONDS ENTRIES NANOSECONDS of each round of a scene of
//!                                           bench/domains.sh: what is begun, and what is replayed

mod alone;
mod begins;
mod build;
mod clock;
mod domain;
mod ends;
mod fabric;
mod function;
mod header;
mod id;
mod journal;
mod layout;
mod link;
mod packet;
mod port;
mod report;
mod script;
mod words;

use fabric::Fabric;
use layout::Layout;
use script::Command;
use std::io::Write;
use std::process::ExitCode;

fn file(name: &str) -> Result<String, String> {
    std::fs::read_to_string(name).map_err(|_| format!("file {name}: unreadable"))
}

fn faulty((line, cause): (u32, layout::Cause)) -> String {
    format!("layout {line}: {} {cause:?}", cause as u8)
}

/// The fabric and the commands of two files, or the line that says what is wrong with them.
fn read(layout: &str, script: &str) -> Result<(Fabric, Vec<(u32, Command)>), String> {
    let layout = Layout::read(&file(layout)?).map_err(faulty)?;
    let commands = script::read(&file(script)?).map_err(|line| format!("script {line}: Line"))?;
    Ok((build::fabric(&layout), commands))
}

fn run(layout: &str, script: &str) -> Result<String, String> {
    let (mut fabric, commands) = read(layout, script)?;
    let mut out = String::new();
    for (line, command) in commands {
        if let Err(fault) = fabric.obey(command) {
            report::refusal(&mut out, line, fault);
        }
    }
    report::end(&mut out, &fabric);
    Ok(out)
}

/// The journal of a domain after a run.
fn journal(layout: &str, script: &str, word: &str) -> Result<String, String> {
    let number = words::decimal(word).ok_or("usage")?;
    let (mut fabric, commands) = read(layout, script)?;
    let domain = fabric.tenants.domains.iter().position(|domain| u32::from(domain.number) == number);
    let domain = domain.ok_or_else(|| format!("domain {number}: none"))?;
    for (_, command) in commands {
        // A refused begin is in no journal.
        let _ = fabric.obey(command);
    }
    let domain = &fabric.tenants.domains[domain];
    Ok(domain.journal.text(domain.number))
}

fn time(layout: &str, script: &str) -> Result<String, String> {
    let (mut fabric, commands) = read(layout, script)?;
    let start = clock::processor_time();
    for (_, command) in commands {
        // A refused begin is an event like any other.
        let _ = fabric.obey(command);
    }
    let time = clock::processor_time() - start;
    Ok(format!("{time} {} {}\n", fabric.count.moved, fabric.count.all))
}

fn begins(layout: &str, word: &str, count: &str) -> Result<String, String> {
    let layout = Layout::read(&file(layout)?).map_err(faulty)?;
    let count = count.parse().map_err(|_| "usage")?;
    Ok(begins::rounds(&layout, word, count).ok_or("usage")?)
}

fn main() -> ExitCode {
    let words: Vec<String> = std::env::args().skip(1).collect();
    let words: Vec<&str> = words.iter().map(String::as_str).collect();
    let answer = match words[..] {
        ["run", layout, script] => run(layout, script),
        ["journal", layout, script, domain] => journal(layout, script, domain),
        ["time", layout, script] => time(layout, script),
        ["begins", layout, word, count] => begins(layout, word, count),
        _ => Err("usage".to_string()),
    };
    match answer {
        Ok(text) => match std::io::stdout().write_all(text.as_bytes()) {
            Ok(()) => ExitCode::SUCCESS,
            Err(_) => ExitCode::FAILURE,
        },
        Err(line) => {
            eprintln!("{line}");
            ExitCode::FAILURE
        }
    }
}
