//! What is looked up of the entries of a recording by what they say, each in the log of its own station, whether a run
//! explains the recording or not: what was sent in the same bytes, which request an answer takes up, which Able is the
//! first under its key.

use crate::pdu::{self, Pdu, ABLE};
use crate::recording::{u16_at, Recording, What};
use crate::tables::{Seeds, Table};

pub struct Facts<'l, 'a> {
    log: &'l Recording<'a>,
    pub seeds: Seeds,
    /// The addresses of the stations, which rise.
    addresses: Vec<u32>,
    /// Entries that send first, under the address of their own station, by the bytes.
    sent: Table,
    /// Entries that receive a request for their station first, by station, asker and identifier.
    asked: Table,
    /// Entries that send an Able or Unable first, by station and key; and those of them that send an Able first, where
    /// an Unable was sent before.
    verdicts: Table,
    late_ables: Table,
}

/// What the keys of the Acknowledges of a station say of one: whether it is the first Able under its key, and whether
/// the other of Able and Unable was sent under it before.
pub struct Verdict {
    pub is_first_able: bool,
    pub is_other: bool,
}

impl<'l, 'a> Facts<'l, 'a> {
    pub fn new(log: &'l Recording<'a>) -> Facts<'l, 'a> {
        let sends = log.heads.iter().filter(|head| head.what() == What::Sent).count();
        let addresses = log.stations.iter().map(|station| station.address).collect();
        let (sent, asked) = (Table::new(sends), Table::new(sends / 2));
        let (verdicts, late_ables) = (Table::new(sends / 2), Table::new(0));
        Facts { log, seeds: Seeds::new(), addresses, sent, asked, verdicts, late_ables }
    }

    #[inline]
    pub fn address(&self, station: usize) -> u32 {
        self.addresses[station]
    }

    /// The station at an address, if one was recorded there.
    #[inline]
    pub fn station_at(&self, address: u32) -> Option<usize> {
        self.addresses.binary_search(&address).ok()
    }

    /// The hash of a datagram of which the body is hashed.
    #[inline]
    pub fn hash(&self, p: &Pdu<'_>, body: u64) -> u32 {
        self.seeds.behind_header(p.bytes, body)
    }

    /// Notes what an entry sends under the address of its station, and gives the first entry that sent the same bytes.
    #[inline]
    pub fn send(&mut self, number: u32, p: &Pdu<'_>, hash: u32) -> Option<u32> {
        let log = self.log;
        self.sent.find_or_put(hash, number, |it| log.datagram(it as usize) == p.bytes)
    }

    /// The first entry noted so far that sent these bytes, of the station that they come from.
    #[inline]
    pub fn source(&self, bytes: &[u8], hash: u32) -> Option<u32> {
        self.sent.find(hash, |it| self.log.datagram(it as usize) == bytes)
    }

    #[inline]
    fn hash_of_asked(&self, station: usize, asker: u32, request: u32) -> u32 {
        self.seeds.of((station as u64) << 32 | u64::from(request), u64::from(asker))
    }

    /// Notes a request that is received by a station for which it is, and gives the first such entry under the same
    /// asker and identifier.
    #[inline]
    pub fn ask(&mut self, number: u32, station: usize, p: &Pdu<'_>) -> Option<u32> {
        let (log, asker, request) = (self.log, p.from(), p.request());
        let hash = self.hash_of_asked(station, asker, request);
        self.asked.find_or_put(hash, number, |it| is_asked(log, it, station, asker, request))
    }

    /// The request that an answer takes up which a station sends.
    #[inline]
    pub fn taken_up(&self, station: usize, p: &Pdu<'_>) -> Option<u32> {
        let (asker, request) = (p.to(), p.request());
        let hash = self.hash_of_asked(station, asker, request);
        self.asked.find(hash, |it| is_asked(self.log, it, station, asker, request))
    }

    /// Notes an Able or Unable that a station sends.
    #[inline]
    pub fn judge(&mut self, number: u32, station: usize, p: &Pdu<'_>) -> Verdict {
        let log = self.log;
        let key = u64::from(p.from_entity()) << 48 | u64::from(p.flag()) << 40 | (station as u64) << 32;
        let hash = self.seeds.of(key | u64::from(p.request()), u64::from(p.to()));
        let is_it = |it: u32| log.heads[it as usize].station() == station && has_same_key(log.datagram(it as usize), p);
        let is_able = p.response() == ABLE;
        match self.verdicts.find_or_put(hash, number, is_it) {
            None => Verdict { is_first_able: is_able, is_other: false },
            Some(first) if u16_at(log.datagram(first as usize), 26) == p.response() => {
                Verdict { is_first_able: false, is_other: false }
            }
            Some(_) => {
                let is_first_able = is_able && self.late_ables.find_or_put(hash, number, is_it).is_none();
                Verdict { is_first_able, is_other: true }
            }
        }
    }
}

#[inline]
fn is_asked(log: &Recording<'_>, number: u32, station: usize, asker: u32, request: u32) -> bool {
    let p = pdu::known(log.datagram(number as usize));
    log.heads[number as usize].station() == station && p.from() == asker && p.request() == request
}

/// Whether an Acknowledge has the key of another: flag, identifier, whom it goes to and entity.
#[inline]
fn has_same_key(bytes: &[u8], p: &Pdu<'_>) -> bool {
    bytes[16..22] == p.bytes[16..22] && bytes[24..26] == p.bytes[24..26] && bytes[28..32] == p.bytes[28..32]
}
