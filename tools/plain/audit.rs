//! The sequence of time that explains a recording, or what bars one.

use crate::check::Happened;
use crate::findings::{self, Findings, CAUSES, NEVER_SENT};
use crate::made::make;
use crate::recording::{u64_at, Head, Recording, What, NONE};
use crate::text::Text;
use std::cmp::Reverse;
use std::collections::BinaryHeap;
use std::io;

/// The next entry of a station, which may happen: its stamp, its number and what it links to. The least comes first.
type Next = Reverse<(u64, u32, u32)>;

struct Search<'l, 'a> {
    log: &'l Recording<'a>,
    found: Findings,
    stamps: Vec<u64>,
    /// The entries of all stations, where the next of each stands, and where they end.
    numbers: Vec<u32>,
    cursors: Vec<usize>,
    ends: Vec<usize>,
    sent: Happened,
    /// Stations that wait, with the entry that they wait for, and whether any waits for an entry.
    waiting: Vec<(u32, usize)>,
    awaited: Happened,
    ready: BinaryHeap<Next>,
    certificate: Vec<u8>,
}

impl Search<'_, '_> {
    /// The next entry of a station, if it may happen; if it receives what was not sent, the station waits.
    fn next(&mut self, station: usize) -> Option<Next> {
        let number = *self.numbers[..self.ends[station]].get(self.cursors[station])?;
        let link = self.found.link(number as usize).ok()?;
        let what = self.log.heads[number as usize].what();
        if what == What::Received && link != NONE && !self.sent.has(link) {
            self.waiting.push((link, station));
            self.awaited.put(link);
            return None;
        }
        Some(Reverse((self.stamps[number as usize], number, link)))
    }

    /// Takes the earliest of all entries that may happen, if there is one.
    fn take_earliest(&mut self) -> bool {
        let Some(Reverse((_, number, link))) = self.ready.peek().copied() else {
            return false;
        };
        self.certificate.extend_from_slice(&(u64::from(number) << 32 | u64::from(link)).to_be_bytes());
        let head = self.log.heads[number as usize];
        self.cursors[head.station()] += 1;
        if head.what() == What::Sent {
            self.sent.put(number);
        }
        match self.next(head.station()) {
            Some(next) => *self.ready.peek_mut().unwrap() = next,
            None => drop(self.ready.pop()),
        }
        if self.awaited.has(number) {
            self.wake(number);
        }
        true
    }

    fn wake(&mut self, number: u32) {
        let mut woken = Vec::new();
        self.waiting.retain(|(awaited, station)| {
            if *awaited == number {
                woken.push(*station);
            }
            *awaited != number
        });
        for station in woken {
            if let Some(next) = self.next(station) {
                self.ready.push(next);
            }
        }
    }
}

/// The stamp of each entry; a state told has that of the entry before it that was sent or received, or 0.
fn stamps(log: &Recording<'_>) -> Vec<u64> {
    let mut last = 0;
    let stamp_of = |(head, place): (&Head, &u32)| {
        if head.what() != What::Told {
            last = u64_at(log.file, *place as usize - 10);
        }
        last
    };
    log.heads.iter().zip(&log.places).map(stamp_of).collect()
}

/// Whether a run explains a recording of which no entry has a cause by the log of its own station, with the sources of
/// its receipts.
pub fn is_explained(log: &Recording<'_>, sources: Vec<u32>) -> bool {
    let search = search(log, Findings::of_sources(sources));
    search.cursors == search.ends
}

fn search<'l, 'a>(log: &'l Recording<'a>, found: Findings) -> Search<'l, 'a> {
    let count = log.heads.len();
    let (numbers, starts) = log.logs();
    let (cursors, ends) = (starts[..log.stations.len()].to_vec(), starts[1..].to_vec());
    let mut certificate = Vec::with_capacity(12 + 8 * count);
    certificate.extend_from_slice(b"DSCT0001");
    certificate.extend_from_slice(&(count as u32).to_be_bytes());
    let (sent, awaited, waiting) = (Happened::new(count), Happened::new(count), Vec::new());
    let (stamps, ready) = (stamps(log), BinaryHeap::with_capacity(log.stations.len()));
    let mut search =
        Search { log, found, stamps, numbers, cursors, ends, sent, waiting, awaited, ready, certificate };
    for station in 0..log.stations.len() {
        if let Some(next) = search.next(station) {
            search.ready.push(next);
        }
    }
    while search.take_earliest() {}
    search
}

pub fn audit(log: &Recording<'_>, name: &str, out: &mut Text) -> io::Result<u8> {
    let search = search(log, findings::findings(log));
    if search.cursors == search.ends {
        make(name, &[&search.certificate])?;
        out.pair("explained steps=", log.heads.len() as u64)?.word("\n")?;
        return Ok(0);
    }
    blocked(&search, out)
}

fn blocked(search: &Search<'_, '_>, out: &mut Text) -> io::Result<u8> {
    let stations = search.log.stations.iter().enumerate();
    let blocked: Vec<_> = stations.filter(|(at, _)| search.cursors[*at] < search.ends[*at]).collect();
    out.pair("blocked stations=", blocked.len() as u64)?.word("\n")?;
    for (at, station) in blocked {
        let number = search.numbers[search.cursors[at]];
        let cause = search.found.link(number as usize).err().unwrap_or(NEVER_SENT);
        out.word("blocked ")?.address(station.address)?.pair(" record=", u64::from(number))?;
        out.pair(" cause=", u64::from(cause))?.word(" ")?.word(CAUSES[usize::from(cause) - 1])?.word("\n")?;
    }
    Ok(1)
}
