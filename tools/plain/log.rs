//! The entries of a recording in names, and what each goes with: where it comes from, how often it was received, which
//! order or request it belongs to, what it changed.

use crate::check::{Happened, STATES};
use crate::facts::Facts;
use crate::others;
use crate::pdu::{self, meaning, Pdu, ABLE, UNABLE};
use crate::recording::{u16_at, u32_at, u64_at, Head, Recording, What, NONE};
use crate::tables::Table;
use crate::text::{two_digits, Text};
use std::io;

/// The kinds, each as it stands in the line of an entry.
const KINDS: [&str; 12] = [
    " create-entity", " remove-entity", " start-resume", " stop-freeze", " acknowledge", " action-request",
    " action-response", " data-query", " set-data", " data", " event-report", " comment",
];
/// Numbers from 0 on, of flags from 1 on, with their names.
const FLAGS: [&str; 4] = ["1(create-entity)", "2(remove-entity)", "3(start-resume)", "4(stop-freeze)"];
const RESPONSES: [&str; 4] = ["0(other)", "1(able)", "2(unable)", "3(pending)"];
const RESULTS: [&str; 6] =
    ["0(other)", "1(pending)", "2(executing)", "3(partially-complete)", "4(complete)", "5(rejected)"];
const REASONS: [&str; 5] = ["0(other)", "1(recess)", "2(termination)", "3(system-failure)", "4(security-violation)"];
/// The state that a Create, Remove, Start or Stop makes of an entity that is there.
const MADE: [&str; 4] = [STATES[1], STATES[0], STATES[2], STATES[1]];

/// What goes with each entry.
struct Ties {
    /// Of a request that was sent the entry at which its station first sent that order, of an answer the request that
    /// it takes up, of what was received the entry that it was sent as; NONE where there is none.
    links: Vec<u32>,
    /// How many entries have this one as their source.
    receipts: Vec<u32>,
    /// Which entries changed something.
    changes: Happened,
}

struct Finder<'l, 'a> {
    log: &'l Recording<'a>,
    facts: Facts<'l, 'a>,
    ties: Ties,
    /// Entries that send an order first, by station and what is ordered.
    heads: Table,
    /// Receipts whose sender stands behind them, if anywhere, with their hashes.
    later: Vec<(u32, u32)>,
}

/// Finds what goes with each entry in one pass.
fn ties(log: &Recording<'_>) -> Ties {
    let count = log.heads.len();
    let ties = Ties { links: Vec::with_capacity(count), receipts: vec![0; count], changes: Happened::new(count) };
    let heads = Table::new(count / 4);
    let mut finder = Finder { log, facts: Facts::new(log), ties, heads, later: Vec::new() };
    for (number, head) in log.heads.iter().enumerate() {
        let link = finder.link(number, *head);
        finder.ties.links.push(link);
    }
    finder.find_later();
    finder.ties
}

impl Finder<'_, '_> {
    /// What an entry goes with.
    #[inline]
    fn link(&mut self, number: usize, head: Head) -> u32 {
        if head.what() == What::Told {
            return NONE;
        }
        let Some(p) = meaning(self.log.exercise, self.log.datagram(number)) else {
            return NONE;
        };
        let body = self.facts.seeds.of_body(&p.bytes[12..]);
        if head.what() == What::Sent {
            self.sent(number as u32, head.station(), &p, body)
        } else {
            self.received(number as u32, head.station(), &p, body)
        }
    }

    #[inline]
    fn sent(&mut self, number: u32, station: usize, p: &Pdu<'_>, body: u64) -> u32 {
        let is_own = p.from() == self.facts.address(station);
        let same = if is_own { self.facts.send(number, p, self.facts.hash(p, body)) } else { None };
        if p.is_answer() {
            return self.answer(number, station, p);
        }
        match same {
            _ if !p.is_request() => NONE,
            Some(first) => self.ties.links[first as usize],
            None => self.head(number, station, p, body),
        }
    }

    /// The entry at which a station first sent this order.
    #[inline]
    fn head(&mut self, number: u32, station: usize, p: &Pdu<'_>, body: u64) -> u32 {
        let log = self.log;
        let body = if pdu::is_bare(p) { body } else { self.facts.seeds.of_body(&pdu::order(p)) };
        let is_it = |it: u32| {
            log.heads[it as usize].station() == station && pdu::is_order_in(log.datagram(it as usize), p)
        };
        let hash = self.facts.seeds.of(body, station as u64);
        self.heads.find_or_put(hash, number, is_it).unwrap_or(number)
    }

    /// The request that an answer takes up.
    #[inline]
    fn answer(&mut self, number: u32, station: usize, p: &Pdu<'_>) -> u32 {
        let asked = self.facts.taken_up(station, p);
        if (p.acknowledges(ABLE) || p.acknowledges(UNABLE)) && self.facts.judge(number, station, p).is_first_able {
            let request = asked.map(|it| pdu::known(self.log.datagram(it as usize)));
            if request.is_some_and(|request| pdu::answers(p, &request)) {
                self.ties.changes.put(number);
            }
        }
        asked.unwrap_or(NONE)
    }

    #[inline]
    fn received(&mut self, number: u32, station: usize, p: &Pdu<'_>, body: u64) -> u32 {
        if p.is_request() && pdu::is_addressed(p, self.facts.address(station)) {
            self.facts.ask(number, station, p);
        }
        if self.facts.station_at(p.from()).is_none() {
            return NONE;
        }
        let hash = self.facts.hash(p, body);
        let source = self.facts.source(p.bytes, hash);
        match source {
            Some(source) => self.ties.receipts[source as usize] += 1,
            None => self.later.push((number, hash)),
        }
        source.unwrap_or(NONE)
    }

    /// Looks again for the senders that were not found in the pass.
    fn find_later(&mut self) {
        for (number, hash) in std::mem::take(&mut self.later) {
            if let Some(source) = self.facts.source(self.log.datagram(number as usize), hash) {
                self.ties.links[number as usize] = source;
                self.ties.receipts[source as usize] += 1;
            }
        }
    }
}

/// What stands in the lines of a station where its address does.
struct Place {
    address: u32,
    told: String,
    sent: String,
    received: String,
    from: String,
    to: String,
    changed: String,
}

impl Place {
    fn new(address: u32) -> Place {
        let at = format!("{}:{}", address >> 16, address & 0xFFFF);
        Place {
            address,
            told: format!(" {at} told entity={at}:"),
            sent: format!(" {at} sent clock="),
            received: format!(" {at} received clock="),
            from: format!(" from={at}:"),
            to: format!(" to={at}:"),
            changed: format!(" entity={at}:"),
        }
    }
}

pub fn log(log: &Recording<'_>, out: &mut Text) -> io::Result<u8> {
    let ties = ties(log);
    let places: Vec<Place> = log.stations.iter().map(|station| Place::new(station.address)).collect();
    for (number, head) in log.heads.iter().enumerate() {
        let place = &places[head.station()];
        out.pair("entry ", number as u64)?;
        match head.what() {
            What::Told => told(log, number, place, out)?,
            What::Sent => datagram(log, &ties, number, place, out.word(&place.sent)?)?,
            What::Received => datagram(log, &ties, number, place, out.word(&place.received)?)?,
        }
    }
    Ok(0)
}

fn told(log: &Recording<'_>, number: usize, place: &Place, out: &mut Text) -> io::Result<()> {
    let at = log.places[number] as usize;
    out.pair(&place.told, u64::from(u16_at(log.file, at)))?.word(" state=")?;
    out.word(STATES[usize::from(log.file[at + 2])])?.word("\n")?;
    Ok(())
}

/// What was sent or received, its records, and what it changed.
fn datagram(log: &Recording<'_>, ties: &Ties, number: usize, place: &Place, out: &mut Text) -> io::Result<()> {
    let head = log.heads[number];
    out.number(u64_at(log.file, log.places[number] as usize - 10))?;
    let Some(p) = meaning(log.exercise, log.datagram(number)) else {
        out.pair(" other bytes=", head.length() as u64)?;
        others::put(" why=", others::why(log.exercise, log.datagram(number)), out)?;
        out.word("\n")?;
        return Ok(());
    };
    header(&p, place, out)?;
    body(&p, out)?;
    if head.what() == What::Sent {
        out.pair(" receipts=", u64::from(ties.receipts[number]))?;
        if p.is_request() {
            out.entry(" order=", ties.links[number])?;
        } else if p.is_answer() {
            out.entry(" answers=", ties.links[number])?;
        }
    } else {
        out.entry(" source=", ties.links[number])?;
    }
    out.word("\n")?;
    if p.kind >= pdu::ACTION_REQUEST {
        records(&p, number as u64, out)?;
    }
    if ties.changes.has(number as u32) {
        let request = pdu::known(log.datagram(ties.links[number] as usize));
        change(&p, &request, number as u64, place, out)?;
    }
    Ok(())
}

fn header(p: &Pdu<'_>, place: &Place, out: &mut Text) -> io::Result<()> {
    let b = p.bytes;
    out.word(KINDS[usize::from(p.kind) - 11])?;
    out.word(if b[0] == 7 { " version=7 time=" } else { " version=6 time=" })?;
    time(u32_at(b, 4), out)?;
    out.number(if b[0] == 7 { u64::from(b[10]) } else { 0 })?;
    identifier(" from=", p.from(), (place.address, &place.from), p.from_entity(), out)?;
    identifier(" to=", p.to(), (place.address, &place.to), p.to_entity(), out)
}

/// Whom a PDU comes from or goes to; the text is there where that is the station of the entry.
#[inline]
fn identifier(word: &str, at: u32, own: (u32, &str), entity: u16, out: &mut Text) -> io::Result<()> {
    if at == own.0 {
        out.pair(own.1, u64::from(entity))?;
    } else {
        out.word(word)?.address(at)?.pair(":", u64::from(entity))?;
    }
    Ok(())
}

/// A timestamp as time past the hour, and the word behind it.
fn time(stamp: u32, out: &mut Text) -> io::Result<()> {
    let past = u64::from(stamp >> 1) * 3_600_000_000 >> 31;
    let (seconds, part) = (past / 1_000_000, past % 1_000_000);
    let mut text = *b"00:00.000000";
    text[..2].copy_from_slice(two_digits(seconds / 60));
    text[3..5].copy_from_slice(two_digits(seconds % 60));
    text[6..8].copy_from_slice(two_digits(part / 10_000));
    text[8..10].copy_from_slice(two_digits(part / 100 % 100));
    text[10..].copy_from_slice(two_digits(part % 100));
    out.part(&text)?.word(if stamp & 1 == 1 { "/absolute status=" } else { "/relative status=" })?;
    Ok(())
}

fn clock(word: &str, p: &Pdu<'_>, at: usize, out: &mut Text) -> io::Result<()> {
    out.pair(word, u64::from(u32_at(p.bytes, at)))?.pair("/", u64::from(u32_at(p.bytes, at + 4)))?;
    Ok(())
}

/// A number with its name, or alone where it has none.
#[inline]
fn named(word: &str, number: u32, names: &[&str], out: &mut Text) -> io::Result<()> {
    match names.get(number as usize) {
        Some(name) => out.word(word)?.word(name)?,
        None => out.pair(word, u64::from(number))?,
    };
    Ok(())
}

fn body(p: &Pdu<'_>, out: &mut Text) -> io::Result<()> {
    let b = p.bytes;
    match p.kind {
        pdu::START => {
            clock(" real=", p, 24, out)?;
            clock(" sim=", p, 32, out)?;
        }
        pdu::STOP => {
            clock(" real=", p, 24, out)?;
            named(" reason=", u32::from(b[32]), &REASONS, out)?;
            out.pair(" behaviour=", u64::from(b[33]))?;
        }
        pdu::ACKNOWLEDGE => {
            out.word(" flag=")?.word(FLAGS[usize::from(p.flag()) - 1])?;
            named(" response=", u32::from(p.response()), &RESPONSES, out)?;
        }
        pdu::EVENT_REPORT => {
            out.pair(" event=", u64::from(u32_at(b, 24)))?;
        }
        _ => {}
    }
    if p.kind < pdu::EVENT_REPORT {
        out.pair(" request=", u64::from(p.request()))?;
    }
    match p.kind {
        pdu::ACTION_REQUEST => out.pair(" action=", u64::from(u32_at(b, 28)))?,
        pdu::ACTION_RESPONSE => return named(" result=", u32_at(b, 28), &RESULTS, out),
        pdu::DATA_QUERY => out.pair(" interval=", u64::from(u32_at(b, 28)))?,
        _ => out,
    };
    Ok(())
}

/// A line for each record of an entry.
fn records(p: &Pdu<'_>, number: u64, out: &mut Text) -> io::Result<()> {
    let mut at = p.records();
    if p.kind == pdu::DATA_QUERY {
        let middle = at + 4 * p.fixed as usize;
        for id in (at..p.bytes.len()).step_by(4) {
            out.pair(if id < middle { "fixed " } else { "variable " }, number)?;
            out.pair(" ", u64::from(u32_at(p.bytes, id)))?.word("\n")?;
        }
        return Ok(());
    }
    for _ in 0..p.fixed {
        out.pair("fixed ", number)?.pair(" ", u64::from(u32_at(p.bytes, at)))?;
        out.pair(" ", u64::from(u32_at(p.bytes, at + 4)))?.word("\n")?;
        at += 8;
    }
    for _ in 0..p.variable {
        at = variable(p.bytes, at, number, out)?;
    }
    Ok(())
}

/// The line of a variable datum, and where it ends.
fn variable(b: &[u8], at: usize, number: u64, out: &mut Text) -> io::Result<usize> {
    let bits = u32_at(b, at + 4) as usize;
    let value = &b[at + 8..at + 8 + bits.div_ceil(8)];
    out.pair("variable ", number)?.pair(" ", u64::from(u32_at(b, at)))?.pair(" ", bits as u64)?.word(" ")?;
    match value.split_last() {
        None => out.word("-")?,
        Some(_) if bits % 8 == 0 => out.hex(value)?,
        Some((last, front)) => out.hex(front)?.hex(&[last & 0xFF << (8 - bits % 8)])?,
    };
    if bits > 0 && bits % 8 == 0 && value.iter().all(|byte| matches!(byte, 32..=126)) {
        out.word(" text=")?.bytes(value)?;
    }
    out.word("\n")?;
    Ok(at + 8 + 8 * bits.div_ceil(64))
}

/// What a station changed when it sent an Able to a request.
fn change(p: &Pdu<'_>, request: &Pdu<'_>, number: u64, place: &Place, out: &mut Text) -> io::Result<()> {
    let scope = pdu::scope(request, p).filter(|entity| *entity > 0).unwrap_or(0xFFFF);
    out.pair("change ", number)?.pair(&place.changed, u64::from(scope))?.word(" to=")?;
    out.word(MADE[usize::from(request.kind) - 11])?.word(" by=")?.address(p.to())?;
    out.pair(" request=", u64::from(p.request()))?.word("\n")?;
    Ok(())
}
