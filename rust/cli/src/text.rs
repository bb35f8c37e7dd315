//! Answers as people read them.

use crate::behaviour;
use crate::check::{Checked, Object, Why};
use crate::numbers::{self, Pcerr, Pcerrs, Row};
use std::net::Ipv6Addr;
use strundevi::{Form, MplsSid, Nai, Segment, Strays};

/// One line: accepted with so many segments, or the rule, the place and the PCErr.
pub fn verdict(checked: &Checked) -> String {
    match checked {
        Checked::Accepted(route) => format!("accepted, {}{}", counted(route.count), strayed(route.stray)),
        Checked::Refused(object, why) => refused(object, why),
    }
}

/// The checking program's line.
pub fn plain(checked: &Checked) -> String {
    match checked {
        Checked::Accepted(route) => format!("0 0 {} {}", route.count, route.stray),
        Checked::Refused(_, why) => format!("{} {} 0 0", why.refusal.number as u64, why.refusal.place),
    }
}

fn counted(count: usize) -> String {
    match count {
        1 => "1 segment".to_string(),
        _ => format!("{count} segments"),
    }
}

/// The segments with something set that ought to be 0, if there are any.
fn strayed(stray: usize) -> String {
    match stray {
        0 => String::new(),
        1 => ", 1 of them stray".to_string(),
        _ => format!(", {stray} of them stray"),
    }
}

fn refused(object: &Object, why: &Why) -> String {
    let number = why.refusal.number as u64;
    let name = numbers::row(number).map_or(why.refusal.number.text(), |row| row.name);
    let whose = if why.form == Some(Form::Mpls) { " (MPLS)" } else { "" };
    let place = match why.refusal.place {
        0 => format!("in the {}, which begins at octet {} of the input", object.name, object.start),
        place => format!("at octet {place} of the {}, octet {} of the input", object.name, object.start + place),
    };
    let pcerr = match why.pcerr {
        Some(pcerr) => format!("PCErr {}", numbers::named(&format!("{}/{}", pcerr.error_type, pcerr.error_value))),
        None => "no PCErr".to_string(),
    };
    format!("refused by {number}, {name}{whose}, {place}; {pcerr}")
}

/// A segment of a route of this form: what it has, and nothing of what it has not.
pub fn segment(segment: &Segment, strays: &Strays, form: Form) -> String {
    let mut parts = Vec::new();
    match form {
        Form::Srv6 => {
            parts.push(segment.sid().map_or("no SID".to_string(), |sid| format!("SID {}", Ipv6Addr::from(*sid))));
            parts.push(format!("behaviour {} ({})", segment.behaviour(), behaviour::name(segment.behaviour())));
        }
        Form::Mpls => parts.push(segment.mpls_sid().map_or("no SID".to_string(), |sid| mpls_sid(&sid))),
    }
    if let Some(nai) = segment.nai() {
        parts.push(self::nai(&nai));
    }
    if let Some([block, node, function, argument]) = segment.structure() {
        parts.push(format!("structure of {block} bits of block, {node} of node, {function} of function, {argument} of argument"));
    }
    if segment.loose() {
        parts.push("loose (L)".to_string());
    }
    if segment.verify() {
        parts.push("to be verified (V)".to_string());
    }
    if strays.flags != 0 {
        parts.push(format!("stray flags {:03X}", strays.flags));
    }
    if strays.structure != 0 {
        parts.push(format!("stray flags {:02X} in the structure", strays.structure));
    }
    if strays.reserved {
        parts.push("reserved octets set".to_string());
    }
    parts.join("; ")
}

/// An index, or a label; with C, what goes with it.
fn mpls_sid(sid: &MplsSid) -> String {
    match sid {
        MplsSid::Index(index) => format!("index {index}"),
        MplsSid::Label(entry) => format!("label {}", entry.label()),
        MplsSid::Entry(entry) => format!("label {} with TC {}, S {}, TTL {} (C)", entry.label(), entry.tc(), entry.s() as u8, entry.ttl()),
    }
}

/// An NAI: a node, an adjacency, or an adjacency with its interfaces.
fn nai(nai: &Nai) -> String {
    match nai {
        Nai::Node4(node) => format!("node {node}"),
        Nai::Node(node) => format!("node {node}"),
        Nai::Adjacency4 { local, remote } => format!("adjacency from {local} to {remote}"),
        Nai::Adjacency { local, remote } => format!("adjacency from {local} to {remote}"),
        Nai::Unnumbered { local, local_interface, remote, remote_interface } => {
            format!("adjacency from {local} on interface {local_interface} to {remote} on interface {remote_interface}")
        }
        Nai::LinkLocal { local, local_interface, remote, remote_interface } => {
            format!("adjacency from {local} on interface {local_interface} to {remote} on interface {remote_interface}")
        }
    }
}

/// A number of docs/NUMBERS.md, in four lines.
pub fn explained(number: u64, row: &Row) -> String {
    let advice = row.advice.replace("**", "");
    format!("{number}: {}\n  means: {}\n  do: {advice}\n  PCErr: {}\n", row.name, row.says, pcerrs(row))
}

fn pcerrs(row: &Row) -> String {
    let (srv6, mpls) = (of_form(row.srv6), of_form(row.mpls));
    match srv6 == mpls {
        true => srv6,
        false => format!("of SRv6 {srv6}; of MPLS {mpls}"),
    }
}

fn of_form(row: Pcerrs) -> String {
    let side = |pcerr: Pcerr, of: &str| match pcerr.with_name() {
        Some(pcerr) => format!("{pcerr} for an {of}"),
        None if pcerr.word() == "-" => format!("none for an {of}"),
        None => format!("{} to an {of}", pcerr.word()),
    };
    match (row.ero.figures(), row.rro.figures()) {
        (None, None) => "none".to_string(),
        (Some(_), None) if row.rro.word().is_empty() => side(row.ero, "OPEN"),
        (ero, rro) if ero == rro => side(row.ero, "ERO or RRO"),
        _ => format!("{}; {}", side(row.ero, "ERO"), side(row.rro, "RRO")),
    }
}
