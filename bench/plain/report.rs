//! The report of a run.

use crate::domain::{Fault, Tenants};
use crate::fabric::{Fabric, Violation};
use crate::port::Test;
use crate::words::Hex;
use std::fmt::{Display, Write};

/// Adds a line. Writing to a String doesn't fail.
fn add(out: &mut String, line: std::fmt::Arguments) {
    let _ = out.write_fmt(line);
    out.push('\n');
}

pub fn refusal(out: &mut String, line: u32, fault: Fault) {
    add(out, format_args!("refused {line} {} {}", fault.0, fault.1));
}

/// The rows of 16 bytes that aren't all 0.
fn rows(out: &mut String, name: &dyn Display, page: &[u8]) {
    for (row, bytes) in page.chunks(16).enumerate() {
        if bytes.iter().any(|byte| *byte != 0) {
            add(out, format_args!("{name} {:03x} {}", 16 * row, Hex(bytes)));
        }
    }
}

fn violation(out: &mut String, v: &Violation) {
    let test = match v.test {
        Test::Source => 'V',
        Test::Translation => 'B',
        Test::Egress => 'E',
    };
    let class = if v.is_posted { "posted" } else { "nonposted" };
    add(out, format_args!("acs {} {test} from {} as {} {class}", v.port, v.sender, v.requester));
}

fn domain(out: &mut String, tenants: &Tenants, d: usize) {
    let domain = &tenants.domains[d];
    let open = tenants.open_tags(d);
    let [begins, blocked, unexpected] = [u64::from(domain.begins), domain.blocked, domain.unexpected];
    let number = domain.number;
    add(out, format_args!("domain {number} begins {begins} blocked {blocked} unexpected {unexpected} open {open}"));
    for (k, page) in tenants.memory.iter().enumerate() {
        if let Some(page) = page.as_ref().filter(|page| page.domain == d) {
            rows(out, &format_args!("frame {k}"), &page.bytes[..]);
        }
    }
    for function in tenants.functions.iter().filter(|f| f.domain == d) {
        rows(out, &format_args!("regs {}", function.id), &function.page[..]);
    }
    for record in &domain.records {
        let status = record.status.name();
        add(out, format_args!("record {} {:02x} {status} {}", record.owner, record.tag, Hex(&record.bytes)));
    }
}

pub fn end(out: &mut String, fabric: &Fabric) {
    fabric.violations.iter().for_each(|v| violation(out, v));
    (0..fabric.tenants.domains.len()).for_each(|d| domain(out, &fabric.tenants, d));
}
