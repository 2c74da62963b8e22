//! The datagrams that mean nothing in an exercise, and why they do.

use crate::pdu::{self, DATA_QUERY, SIZES};
use crate::recording::{u16_at, u32_at, Recording, What};
use crate::text::Text;
use std::collections::HashMap;
use std::io;

/// Why a datagram means nothing: a name, and the number that goes with it.
type Reason = (&'static str, Option<u64>);

/// Reasons of which a review tells the name alone.
const UNNUMBERED: [&str; 3] = ["length-field", "body-short", "body-long"];

/// Where parts of one size end, or where the first begins that is not wholly there.
fn parts_end(bytes: &[u8], from: usize, count: u32, size: usize) -> Result<usize, usize> {
    let there = (bytes.len() - from) / size;
    if there < count as usize { Err(from + size * there) } else { Ok(from + size * count as usize) }
}

/// The same of variable records.
fn variable_end(bytes: &[u8], from: usize, count: u32) -> Result<usize, usize> {
    let mut at = from;
    for _ in 0..count {
        let size = match bytes.get(at..at + 8) {
            Some(head) => 8 + 8 * (u32_at(head, 4) as usize).div_ceil(64),
            None => return Err(at),
        };
        if bytes.len() - at < size {
            return Err(at);
        }
        at += size;
    }
    Ok(at)
}

/// The same of a whole body.
fn body_end(bytes: &[u8], kind: u8) -> Result<usize, usize> {
    let size = usize::from(SIZES[usize::from(kind) - 11]);
    if bytes.len() < size {
        return Err(12);
    }
    if kind < pdu::ACTION_REQUEST {
        return Ok(size);
    }
    let (fixed, variable) = (u32_at(bytes, size - 8), u32_at(bytes, size - 4));
    if kind == DATA_QUERY {
        parts_end(bytes, parts_end(bytes, size, fixed, 4)?, variable, 4)
    } else {
        variable_end(bytes, parts_end(bytes, size, fixed, 8)?, variable)
    }
}

/// What is wrong with a header, if something is.
fn header_fault(bytes: &[u8]) -> Option<Reason> {
    if bytes.len() < 12 {
        return Some(("truncated", None));
    }
    let length = usize::from(u16_at(bytes, 8));
    let [version, _, kind, family] = [bytes[0], bytes[1], bytes[2], bytes[3]].map(u64::from);
    [
        (!matches!(version, 6 | 7), ("version", Some(version))),
        (family != 5, ("family", Some(family))),
        (!(11..=22).contains(&kind), ("kind", Some(kind))),
        (bytes.len() > 8192, ("long", None)),
        (length != bytes.len(), ("length-field", Some(length as u64))),
    ]
    .into_iter()
    .find_map(|(holds, reason)| holds.then_some(reason))
}

/// Why a datagram means nothing in an exercise, of which that is known.
pub fn why(exercise: u8, bytes: &[u8]) -> Reason {
    if let Some(reason) = header_fault(bytes) {
        return reason;
    }
    match body_end(bytes, bytes[2]) {
        Err(at) => ("body-short", Some(at as u64)),
        Ok(end) if end < bytes.len() => ("body-long", Some(end as u64)),
        Ok(_) if bytes[1] != exercise => ("exercise", Some(u64::from(bytes[1]))),
        Ok(_) => ("flag", Some(u64::from(u16_at(bytes, 24)))),
    }
}

/// A reason behind a word.
pub fn put(word: &str, reason: Reason, out: &mut Text) -> io::Result<()> {
    out.word(word)?.word(reason.0)?;
    if let Some(number) = reason.1 {
        out.pair(":", number)?;
    }
    Ok(())
}

/// The lines of a review that count the datagrams of each reason, by its first entry.
pub fn lines(log: &Recording<'_>, out: &mut Text) -> io::Result<()> {
    let mut counts: Vec<(Reason, u64)> = Vec::new();
    let mut places = HashMap::new();
    for (number, head) in log.heads.iter().enumerate() {
        if head.what() == What::Told || pdu::meaning(log.exercise, log.datagram(number)).is_some() {
            continue;
        }
        let (name, found) = why(log.exercise, log.datagram(number));
        let reason = (name, if UNNUMBERED.contains(&name) { None } else { found });
        let place = *places.entry(reason).or_insert(counts.len());
        if place == counts.len() {
            counts.push((reason, 0));
        }
        counts[place].1 += 1;
    }
    for (reason, count) in counts {
        put("others why=", reason, out)?;
        out.pair(" entries=", count)?.word("\n")?;
    }
    Ok(())
}
