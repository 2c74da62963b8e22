//! The orders of a recording, found in one pass over its entries, with whether a run explains them.

use crate::audit;
use crate::entities::Entities;
use crate::facts::Facts;
use crate::findings;
use crate::lives::Change;
use crate::order::{Answers, FromOutside, Order, Orders, Party, Request, NOBODY};
use crate::pdu::{self, meaning, Pdu, ABLE, UNABLE};
use crate::recording::{u16_at, Head, Recording, What, NONE};
use crate::tables::Table;
use std::collections::{HashMap, HashSet};

struct Finder<'l, 'a> {
    log: &'l Recording<'a>,
    facts: Facts<'l, 'a>,
    found: Orders,
    /// Requests by what is ordered; the first orders by their maker and identifier; parties by request and station,
    /// where an asker used the identifier for other requests; what was told from outside, by order and address.
    contents: Table,
    identifiers: Table,
    mixed: Table,
    told: Table,
    /// Of what was sent in some bytes first the order, or the party that replied in them; of a request that was
    /// received the party.
    marks: Vec<u32>,
    /// Of what was received the entry that it was sent as.
    sources: Vec<u32>,
    entities: Vec<Entities>,
    /// Whether an entry may not stand where it does in the log of its station.
    is_barred: bool,
    /// Receipts whose sender stands behind them, if anywhere, with their hashes; answers that were received before it
    /// was known what they reply to; and replies under the address of another station, with their parties.
    later: Vec<(u32, u32)>,
    unclear: Vec<u32>,
    foreign: Vec<(u32, u32)>,
}

/// The orders of a recording, and whether a run explains it.
pub fn orders(log: &Recording<'_>) -> (Orders, bool) {
    let count = log.heads.len();
    let mut finder = Finder {
        log,
        facts: Facts::new(log),
        found: Orders::new(log.stations.len(), count / 4),
        contents: Table::new(count / 4),
        identifiers: Table::new(count / 4),
        mixed: Table::new(0),
        told: Table::new(0),
        marks: vec![NONE; count],
        sources: vec![NONE; count],
        entities: log.stations.iter().map(|station| Entities::new(&station.opening)).collect(),
        is_barred: false,
        later: Vec::new(),
        unclear: Vec::new(),
        foreign: Vec::new(),
    };
    for (number, head) in log.heads.iter().enumerate() {
        finder.look_at(number as u32, *head);
    }
    let is_explained = finder.look_again();
    (finder.found, is_explained)
}

impl<'a> Finder<'_, 'a> {
    #[inline]
    fn look_at(&mut self, number: u32, head: Head) {
        let station = head.station();
        if head.what() == What::Told {
            let at = self.log.places[number as usize] as usize;
            let state = self.entities[station].get(u16_at(self.log.file, at));
            self.is_barred |= state != self.log.file[at + 2];
            return;
        }
        let Some(p) = meaning(self.log.exercise, self.log.datagram(number as usize)) else {
            self.found.others += 1;
            return;
        };
        let body = self.facts.seeds.of_body(&p.bytes[12..]);
        if head.what() == What::Sent {
            self.sent(number, station, &p, body);
        } else {
            self.received(number, station, &p, body);
        }
    }

    /// The PDU of an entry that is known to mean one.
    #[inline]
    fn known(&self, number: u32) -> Pdu<'a> {
        pdu::known(self.log.datagram(number as usize))
    }

    #[inline]
    fn sent(&mut self, number: u32, station: usize, p: &Pdu<'a>, body: u64) {
        let is_own = p.from() == self.facts.address(station);
        self.is_barred |= !is_own;
        let same = if is_own { self.facts.send(number, p, self.facts.hash(p, body)) } else { None };
        if p.is_request() {
            let order = match same {
                Some(first) => self.marks[first as usize],
                None => {
                    let request = self.request_of(number, p, body);
                    self.order_of(number, request, station as u32)
                }
            };
            self.found.orders[order as usize].sends += 1;
            self.marks[number as usize] = order;
        } else if p.is_answer() {
            let party = self.answer(number, station, p);
            match party {
                Some(party) if is_own => self.marks[same.unwrap_or(number) as usize] = party,
                Some(party) => self.foreign.push((number, party)),
                None => self.is_barred = true,
            }
        }
    }

    /// What is ordered by a PDU.
    #[inline]
    fn request_of(&mut self, number: u32, p: &Pdu<'_>, body: u64) -> u32 {
        let body = if pdu::is_bare(p) { body } else { self.facts.seeds.of_body(&pdu::order(p)) };
        let (log, requests) = (self.log, &self.found.requests);
        let new = requests.len() as u32;
        let is_it = |it: u32| pdu::is_order_in(log.datagram(requests[it as usize].entry as usize), p);
        self.contents.find_or_put(self.facts.seeds.of(body, 0), new, is_it).unwrap_or_else(|| {
            self.found.requests.push(Request { entry: number, order: NONE, party: NONE });
            new
        })
    }

    /// The order by which a station, or nobody, asks for this, which first stands at this entry if it is new.
    fn order_of(&mut self, number: u32, request: u32, maker: u32) -> u32 {
        self.found.find(request, maker).unwrap_or_else(|| {
            let order = self.found.add(number, request, maker);
            if maker != NOBODY {
                self.identify(order, maker);
            }
            order
        })
    }

    fn hash_of_identifier(&self, maker: u32, identifier: u32) -> u32 {
        self.facts.seeds.of(u64::from(maker), u64::from(identifier))
    }

    /// Notes a new order under its identifier.
    fn identify(&mut self, order: u32, maker: u32) {
        let identifier = self.known(self.found.orders[order as usize].head).request();
        let hash = self.hash_of_identifier(maker, identifier);
        let (log, orders) = (self.log, &self.found.orders);
        let is_it = |it: u32| is_identified(log, &orders[it as usize], maker, identifier);
        self.is_barred |= self.identifiers.find_or_put(hash, order, is_it).is_some();
    }

    /// The party that replies with an answer, if it answers what it takes up.
    #[inline]
    fn answer(&mut self, number: u32, station: usize, p: &Pdu<'a>) -> Option<u32> {
        let asked = self.facts.taken_up(station, p);
        let mut is_change = false;
        if p.acknowledges(ABLE) || p.acknowledges(UNABLE) {
            let verdict = self.facts.judge(number, station, p);
            is_change = verdict.is_first_able;
            self.is_barred |= verdict.is_other;
        }
        let asked = asked?;
        let request = self.known(asked);
        if !pdu::answers(p, &request) {
            return None;
        }
        let party = self.marks[asked as usize];
        let replied = &mut self.found.parties[party as usize];
        replied.replies.note(number, settles(p));
        if is_change {
            replied.change = replied.change.min(number);
            self.change(number, station, p, &request);
        }
        Some(party)
    }

    fn change(&mut self, number: u32, station: usize, p: &Pdu<'_>, request: &Pdu<'_>) {
        let scope = pdu::scope(request, p).unwrap_or(0);
        self.is_barred |= findings::change(&mut self.entities[station], request.kind, scope).is_err();
        self.found.changes[station].push(Change { entry: number, kind: request.kind, scope });
    }

    #[inline]
    fn received(&mut self, number: u32, station: usize, p: &Pdu<'a>, body: u64) {
        let is_known = self.facts.station_at(p.from()).is_some();
        let is_outside = !is_known && self.log.is_open();
        self.is_barred |= !is_known && !is_outside;
        let mut source = None;
        if is_known {
            let hash = self.facts.hash(p, body);
            source = self.facts.source(p.bytes, hash);
            match source {
                Some(source) => self.sources[number as usize] = source,
                None => self.later.push((number, hash)),
            }
        }
        if p.is_request() {
            self.brought(number, station, p, body, source, is_outside);
        } else if p.is_answer() {
            match source {
                Some(source) if self.heard(number, station, p, source) => {}
                Some(_) => self.unclear.push(number),
                None if is_outside => self.told_from_outside(number, station, p),
                None => {}
            }
        }
    }

    /// A station received a request.
    #[inline]
    fn brought(&mut self, number: u32, station: usize, p: &Pdu<'a>, body: u64, source: Option<u32>, is_outside: bool) {
        let is_copy = pdu::is_addressed(p, self.facts.address(station));
        let is_order = is_outside && self.log.stations.iter().any(|it| pdu::is_addressed(p, it.address));
        if !is_copy && !is_order {
            return;
        }
        let request = match source {
            Some(source) => self.found.orders[self.marks[source as usize] as usize].request,
            None => self.request_of(number, p, body),
        };
        if is_order {
            self.order_of(number, request, NOBODY);
        }
        if is_copy {
            let party = self.party_of(number, station, p, request);
            self.found.parties[party as usize].copies += 1;
            self.marks[number as usize] = party;
        }
    }

    /// A station as a party of what is ordered.
    #[inline]
    fn party_of(&mut self, number: u32, station: usize, p: &Pdu<'_>, request: u32) -> u32 {
        let (new, station) = (self.found.parties.len() as u32, station as u32);
        if let Some(first) = self.facts.ask(number, station as usize, p) {
            let party = self.marks[first as usize];
            if self.found.parties[party as usize].request == request {
                return party;
            }
            let hash = self.facts.seeds.of(u64::from(request), u64::from(station));
            let parties = &self.found.parties;
            let is_it = |it: u32| parties[it as usize].request == request && parties[it as usize].station == station;
            if let Some(party) = self.mixed.find_or_put(hash, new, is_it) {
                return party;
            }
        }
        self.found.parties.push(Party::new(request, station, number));
        new
    }

    /// A station received what was sent at an entry: notes it where that is a reply to an order of this station, or
    /// gives false where it is none that is known yet.
    #[inline]
    fn heard(&mut self, number: u32, station: usize, p: &Pdu<'_>, source: u32) -> bool {
        let party = self.marks[source as usize];
        if party == NONE {
            return false;
        }
        let order = self.found.find(self.found.parties[party as usize].request, station as u32);
        if let Some(order) = order {
            self.found.news_of(order, party).note(number, settles(p));
        }
        order.is_some()
    }

    /// The maker of an order, which is its first under the identifier, is told of it from outside.
    fn told_from_outside(&mut self, number: u32, station: usize, p: &Pdu<'_>) {
        let (maker, identifier) = (station as u32, p.request());
        let hash = self.hash_of_identifier(maker, identifier);
        let is_it = |it: u32| is_identified(self.log, &self.found.orders[it as usize], maker, identifier);
        let Some(order) = self.identifiers.find(hash, is_it) else {
            return;
        };
        let request = self.known(self.found.orders[order as usize].head);
        if p.to() != request.from() || !pdu::answers(p, &request) {
            return;
        }
        let (address, new, told) = (p.from(), self.found.from_outside.len() as u32, &self.found.from_outside);
        let hash = self.facts.seeds.of(u64::from(order), u64::from(address));
        let is_it = |it: u32| told[it as usize].order == order && told[it as usize].address == address;
        let told = self.told.find_or_put(hash, new, is_it).unwrap_or_else(|| {
            let next = std::mem::replace(&mut self.found.orders[order as usize].told, new);
            self.found.from_outside.push(FromOutside { order, address, answers: Answers::NONE, next });
            new
        });
        self.found.from_outside[told as usize].answers.note(number, settles(p));
    }

    /// What could not be known in the pass: the senders behind their receipts, and what answers reply to. Gives whether
    /// a run explains the recording.
    fn look_again(&mut self) -> bool {
        let later = std::mem::take(&mut self.later);
        for (number, hash) in &later {
            let p = self.known(*number);
            match self.facts.source(p.bytes, *hash) {
                Some(source) => self.sources[*number as usize] = source,
                None => self.is_barred = true,
            }
            if p.is_answer() {
                self.unclear.push(*number);
            }
        }
        for number in std::mem::take(&mut self.unclear) {
            let (p, source) = (self.known(number), self.sources[number as usize]);
            if source != NONE {
                self.heard(number, self.log.heads[number as usize].station(), &p, source);
            }
        }
        if !self.foreign.is_empty() {
            self.hear_foreign();
        }
        self.found.chain_parties();
        let sources = std::mem::take(&mut self.sources);
        // (where each sender stands before its receipts the order of the file is a run)
        !self.is_barred && (later.is_empty() || audit::is_explained(self.log, sources))
    }

    /// Notes what makers received of replies that stations sent under the address of another: such bytes have no entry
    /// as their source, so they are looked for among all that was received.
    fn hear_foreign(&mut self) {
        let mut receipts: HashMap<&[u8], Vec<(u32, u32)>> = HashMap::new();
        for (number, head) in (0..).zip(&self.log.heads).filter(|(_, head)| head.what() == What::Received) {
            let bytes = self.log.datagram(number as usize);
            if meaning(self.log.exercise, bytes).is_some_and(|p| p.is_answer()) {
                receipts.entry(bytes).or_default().push((head.station() as u32, number));
            }
        }
        receipts.values_mut().for_each(|at| at.sort_unstable());
        let mut done = HashSet::new();
        for (number, party) in std::mem::take(&mut self.foreign) {
            let p = self.known(number);
            if let Some(at) = receipts.get(p.bytes).filter(|_| done.insert((party, p.bytes))) {
                self.hear_reply(party, &p, at);
            }
        }
    }

    /// Notes what each maker of an order received of a reply, which stations received at these entries.
    fn hear_reply(&mut self, party: u32, p: &Pdu<'_>, receipts: &[(u32, u32)]) {
        let mut order = self.found.requests[self.found.parties[party as usize].request as usize].order;
        while order != NONE {
            let maker = self.found.orders[order as usize].maker;
            let own = &receipts[receipts.partition_point(|it| it.0 < maker)..];
            let own = &own[..own.partition_point(|it| it.0 == maker)];
            for (_, number) in own.first().into_iter().chain(own.last()) {
                self.found.news_of(order, party).note(*number, settles(p));
            }
            order = self.found.orders[order as usize].next;
        }
    }
}

fn is_identified(log: &Recording<'_>, order: &Order, maker: u32, identifier: u32) -> bool {
    order.maker == maker && pdu::known(log.datagram(order.head as usize)).request() == identifier
}

/// Whether an answer settles its order.
#[inline]
fn settles(p: &Pdu<'_>) -> bool {
    match p.kind {
        pdu::ACKNOWLEDGE => matches!(p.response(), ABLE | UNABLE),
        pdu::ACTION_RESPONSE => !matches!(pdu::result(p), 1..=3),
        _ => true,
    }
}
