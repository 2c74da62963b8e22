//! Whether the order of a certificate is a run, and what it says then.

use crate::findings::{self, Findings, CAUSES};
use crate::recording::{u32_at, Recording, What, NONE};
use crate::text::Text;
use std::io;

pub const STATES: [&str; 3] = ["absent", "stopped", "running"];

/// Which entries have happened.
pub struct Happened(Vec<u64>);

impl Happened {
    pub fn new(count: usize) -> Happened {
        Happened(vec![0; count.div_ceil(64)])
    }
    #[inline]
    pub fn put(&mut self, number: u32) {
        self.0[number as usize / 64] |= 1 << (number % 64);
    }
    #[inline]
    pub fn has(&self, number: u32) -> bool {
        self.0[number as usize / 64] >> (number % 64) & 1 == 1
    }
}

/// The steps of a certificate's file, if it is one.
pub fn steps_of(file: &[u8]) -> Option<&[u8]> {
    let steps = file.get(12..)?;
    (file.starts_with(b"DSCT0001") && steps.len() == 8 * u32_at(file, 8) as usize).then_some(steps)
}

pub fn check(log: &Recording<'_>, steps: &[u8], out: &mut Text) -> io::Result<u8> {
    let found = findings::findings(log);
    match bad_step(log, &found, steps) {
        None => report(log, &found, out),
        Some((step, cause)) => {
            out.pair("no step=", step as u64)?.pair(" cause=", u64::from(cause))?.word(" ")?;
            out.word(CAUSES[usize::from(cause) - 1])?.word("\n")?;
            Ok(1)
        }
    }
}

/// The first bad step and its cause.
fn bad_step(log: &Recording<'_>, found: &Findings, steps: &[u8]) -> Option<(usize, u8)> {
    if steps.len() != 8 * log.heads.len() {
        return Some((0, findings::COUNT_DIFFERS));
    }
    let (numbers, starts) = log.logs();
    let mut cursors = starts;
    let mut sent = Happened::new(log.heads.len());
    for (step, bytes) in steps.chunks_exact(8).enumerate() {
        let (number, given) = (u32_at(bytes, 0), u32_at(bytes, 4));
        let Some(head) = log.heads.get(number as usize) else {
            return Some((step, findings::NO_SUCH_RECORD));
        };
        // (the entries of the station behind have higher numbers, or it has none left and they are another's)
        let cursor = &mut cursors[head.station()];
        if numbers.get(*cursor) != Some(&number) {
            return Some((step, findings::OUT_OF_ORDER));
        }
        *cursor += 1;
        match found.link(number as usize) {
            Err(cause) => return Some((step, cause)),
            Ok(link) if head.what() == What::Received && link != NONE && !sent.has(link) => {
                return Some((step, findings::NEVER_SENT));
            }
            Ok(link) if link != given => return Some((step, findings::BAD_LINK)),
            Ok(_) if head.what() == What::Sent => sent.put(number),
            Ok(_) => {}
        }
    }
    None
}

fn report(log: &Recording<'_>, found: &Findings, out: &mut Text) -> io::Result<u8> {
    out.pair("yes records=", log.heads.len() as u64)?.pair(" others=", found.others as u64)?.word("\n")?;
    for (number, head) in log.heads.iter().enumerate() {
        match found.link(number) {
            Ok(link) if head.what() == What::Sent && link != NONE => {
                out.pair("answer ", number as u64)?.pair(" request ", u64::from(link))?.word("\n")?;
            }
            _ => {}
        }
    }
    for number in &found.ables {
        if let Ok(source) = found.link(*number as usize) {
            let change = u64::from(found.change(source));
            out.pair("known ", u64::from(*number))?.pair(" change ", change)?.word("\n")?;
        }
    }
    for (station, entities) in log.stations.iter().zip(&found.entities) {
        for (entity, state) in entities.all() {
            out.word("entity ")?.address(station.address)?.pair(":", u64::from(entity))?.word(" ")?;
            out.word(STATES[usize::from(state)])?.word("\n")?;
        }
    }
    Ok(0)
}
