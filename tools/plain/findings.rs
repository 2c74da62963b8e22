//! What the log of each station says of its own entries, whatever the order between stations is: of an answer which
//! request it takes up, of a datagram that was received which entry sent it first, and what is wrong with an entry. It
//! is found in one pass in the order of the file, since the entries of each station stand there in their own.

use crate::entities::Entities;
use crate::pdu::{self, meaning, Pdu, ABLE, CREATE, START, STOP, UNABLE};
use crate::recording::{u16_at, Head, Recording, What, NONE};
use crate::tables::{Seeds, Table};

/// Numbers from here on stand for a fault: its cause is the lowest byte.
const FAULTS: u32 = 0xFFFF_FF00;

pub const CAUSES: [&str; 13] = [
    "count-differs", "no-such-record", "out-of-order", "bad-link", "wrong-sender", "reused-identifier", "no-request",
    "wrong-answer", "changed-answer", "impossible", "stranger", "never-sent", "wrong-state",
];
pub const COUNT_DIFFERS: u8 = 1;
pub const NO_SUCH_RECORD: u8 = 2;
pub const OUT_OF_ORDER: u8 = 3;
pub const BAD_LINK: u8 = 4;
const WRONG_SENDER: u8 = 5;
const REUSED_IDENTIFIER: u8 = 6;
const NO_REQUEST: u8 = 7;
const WRONG_ANSWER: u8 = 8;
const CHANGED_ANSWER: u8 = 9;
const IMPOSSIBLE: u8 = 10;
const STRANGER: u8 = 11;
pub const NEVER_SENT: u8 = 12;
const WRONG_STATE: u8 = 13;

pub struct Findings {
    /// Of each entry the request that it takes up, or the entry that it was sent as; NONE; or a fault.
    links: Vec<u32>,
    pub others: usize,
    /// The receipts of an Able, rising.
    pub ables: Vec<u32>,
    /// The Ables that are not the first under their key, rising, with the first.
    repeats: Vec<(u32, u32)>,
    pub entities: Vec<Entities>,
}

impl Findings {
    /// Of a recording of which no entry has a cause, the sources of its receipts alone.
    pub fn of_sources(links: Vec<u32>) -> Findings {
        Findings { links, others: 0, ables: Vec::new(), repeats: Vec::new(), entities: Vec::new() }
    }

    /// The link of an entry, or its cause.
    #[inline]
    pub fn link(&self, number: usize) -> Result<u32, u8> {
        match self.links[number] {
            NONE => Ok(NONE),
            link if link >= FAULTS => Err(link as u8),
            link => Ok(link),
        }
    }

    /// The first Able under the key of an Able that was sent.
    pub fn change(&self, able: u32) -> u32 {
        self.repeats.binary_search_by_key(&able, |repeat| repeat.0).map_or(able, |at| self.repeats[at].1)
    }
}

struct Finder<'l, 'a> {
    log: &'l Recording<'a>,
    seeds: Seeds,
    found: Findings,
    /// Entries that sent, by the bytes; that sent a request first, by station and identifier; that received a request
    /// first, by station, asker and identifier; and the first verdicts, by the request that they take up and entity.
    sent: Table,
    requests: Table,
    received: Table,
    verdicts: Table,
    /// Receipts whose sender stands behind them, if anywhere.
    later: Vec<(u32, u32)>,
}

/// What a log says of its own entries.
pub fn findings(log: &Recording<'_>) -> Findings {
    let sends = log.heads.iter().filter(|head| head.what() == What::Sent).count();
    let found = Findings {
        links: vec![NONE; log.heads.len()],
        others: 0,
        ables: Vec::new(),
        repeats: Vec::new(),
        entities: log.stations.iter().map(|station| Entities::new(&station.opening)).collect(),
    };
    let (sent, requests, received, verdicts) = (Table::new(sends), Table::new(0), Table::new(0), Table::new(0));
    let later = Vec::new();
    let mut finder = Finder { log, seeds: Seeds::new(), found, sent, requests, received, verdicts, later };
    for (number, head) in log.heads.iter().enumerate() {
        finder.look_at(number, *head);
    }
    finder.find_later();
    finder.found
}

impl<'a> Finder<'_, 'a> {
    #[inline]
    fn look_at(&mut self, number: usize, head: Head) {
        let link = if head.what() == What::Told {
            self.told(number, head.station())
        } else {
            match meaning(self.log.exercise, self.log.datagram(number)) {
                None => {
                    self.found.others += 1;
                    Ok(NONE)
                }
                Some(p) if head.what() == What::Sent => self.send(number as u32, head.station(), &p),
                Some(p) => self.receive(number as u32, head.station(), &p),
            }
        };
        self.found.links[number] = link.unwrap_or_else(|cause| FAULTS | u32::from(cause));
    }

    fn told(&self, number: usize, station: usize) -> Result<u32, u8> {
        let at = self.log.places[number] as usize;
        let state = self.found.entities[station].get(u16_at(self.log.file, at));
        if state == self.log.file[at + 2] { Ok(NONE) } else { Err(WRONG_STATE) }
    }

    /// The PDU of an entry that is known to mean one.
    #[inline]
    fn pdu_at(&self, number: u32) -> Option<Pdu<'a>> {
        pdu::pdu(self.log.datagram(number as usize))
    }

    #[inline]
    fn is_at(&self, number: u32, station: usize) -> bool {
        self.log.heads[number as usize].station() == station
    }

    #[inline]
    fn send(&mut self, number: u32, station: usize, p: &Pdu<'a>) -> Result<u32, u8> {
        if p.from() != self.log.stations[station].address {
            return Err(WRONG_SENDER);
        }
        let mut link = NONE;
        if p.is_request() {
            self.ask(number, station, p)?;
        } else if p.is_answer() {
            link = self.answer(number, station, p)?;
        }
        let hash = self.seeds.of_bytes(p.bytes);
        let log = self.log;
        self.sent.find_or_put(hash, number, |it| log.datagram(it as usize) == p.bytes);
        Ok(link)
    }

    /// A request: another order under its identifier has not been sent before.
    fn ask(&mut self, number: u32, station: usize, p: &Pdu<'a>) -> Result<(), u8> {
        let (log, request) = (self.log, p.request());
        let hash = self.seeds.of(station as u64, u64::from(request));
        let is_it = |it: u32| {
            log.heads[it as usize].station() == station
                && pdu::pdu(log.datagram(it as usize)).is_some_and(|q| q.request() == request)
        };
        match self.requests.find_or_put(hash, number, is_it).and_then(|first| self.pdu_at(first)) {
            Some(first) if !pdu::is_same_order(p, &first) => Err(REUSED_IDENTIFIER),
            _ => Ok(()),
        }
    }

    /// An answer: the request that it takes up.
    fn answer(&mut self, number: u32, station: usize, p: &Pdu<'a>) -> Result<u32, u8> {
        let (to, request) = (p.to(), p.request());
        let hash = self.seeds.of((station as u64) << 32 | u64::from(request), u64::from(to));
        let is_it = |it: u32| {
            let same = |q: Pdu<'_>| q.from() == to && q.request() == request;
            self.is_at(it, station) && self.pdu_at(it).is_some_and(same)
        };
        let link = self.received.find(hash, is_it).ok_or(NO_REQUEST)?;
        let asked = self.pdu_at(link).ok_or(NO_REQUEST)?;
        let scope = pdu::scope(&asked, p).filter(|_| pdu::matches_kind(p, &asked)).ok_or(WRONG_ANSWER)?;
        if p.acknowledges(ABLE) || p.acknowledges(UNABLE) {
            self.judge(number, station, p, link, asked.kind, scope)?;
        }
        Ok(link)
    }

    /// An Able or Unable: the first under its key says which, and an Able changes entities.
    fn judge(&mut self, number: u32, station: usize, p: &Pdu<'a>, link: u32, kind: u8, scope: u16) -> Result<(), u8> {
        let entity = p.from_entity();
        let hash = self.seeds.of(u64::from(link), u64::from(entity));
        let (log, links) = (self.log, &self.found.links);
        let is_it =
            |it: u32| links[it as usize] == link && u16_at(log.datagram(it as usize), 16) == entity;
        if let Some(first) = self.verdicts.find(hash, is_it) {
            if u16_at(log.datagram(first as usize), 26) != p.response() {
                return Err(CHANGED_ANSWER);
            }
            if p.acknowledges(ABLE) {
                self.found.repeats.push((number, first));
            }
            return Ok(());
        }
        if p.acknowledges(ABLE) {
            change(&mut self.found.entities[station], kind, scope)?;
        }
        self.verdicts.find_or_put(hash, number, |_| false);
        Ok(())
    }

    #[inline]
    fn receive(&mut self, number: u32, station: usize, p: &Pdu<'a>) -> Result<u32, u8> {
        let (log, from) = (self.log, p.from());
        let is_known = log.stations.binary_search_by_key(&from, |station| station.address).is_ok();
        if !is_known && !log.is_open() {
            return Err(STRANGER);
        }
        if p.is_request() && pdu::is_addressed(p, log.stations[station].address) {
            let request = p.request();
            let hash = self.seeds.of((station as u64) << 32 | u64::from(request), u64::from(from));
            let is_it = |it: u32| {
                let same = |q: Pdu<'_>| q.from() == from && q.request() == request;
                log.heads[it as usize].station() == station && pdu::pdu(log.datagram(it as usize)).is_some_and(same)
            };
            self.received.find_or_put(hash, number, is_it);
        }
        if !is_known {
            return Ok(NONE);
        }
        if p.acknowledges(ABLE) {
            self.found.ables.push(number);
        }
        let hash = self.seeds.of_bytes(p.bytes);
        let source = self.sent.find(hash, |it| log.datagram(it as usize) == p.bytes);
        if source.is_none() {
            self.later.push((number, hash));
        }
        source.ok_or(NEVER_SENT)
    }

    /// Looks again for the senders that were not found in the pass.
    fn find_later(&mut self) {
        for (number, hash) in std::mem::take(&mut self.later) {
            let (log, bytes) = (self.log, self.log.datagram(number as usize));
            if let Some(source) = self.sent.find(hash, |it| log.datagram(it as usize) == bytes) {
                self.found.links[number as usize] = source;
            }
        }
    }
}

/// Changes the entities in a scope by carrying out a request of a kind.
pub fn change(entities: &mut Entities, kind: u8, scope: u16) -> Result<(), u8> {
    let state = match kind {
        CREATE | STOP => 1,
        START => 2,
        _ => 0,
    };
    if scope == 0 {
        if kind == CREATE {
            return Err(IMPOSSIBLE);
        }
        entities.put_all(state);
    } else {
        if (entities.get(scope) == 0) != (kind == CREATE) || scope > 0xFFFD {
            return Err(IMPOSSIBLE);
        }
        entities.put(scope, state);
    }
    Ok(())
}
