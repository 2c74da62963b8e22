//! Orders, who took part in each, and which of their answers count.

use crate::lives::Change;
use crate::recording::NONE;
use std::collections::HashMap;

/// The maker of an order that came from outside.
pub const NOBODY: u32 = NONE;

/// What is ordered, whoever sends it.
pub struct Request {
    /// An entry that holds it.
    pub entry: u32,
    /// Its first order, from which the others go on, and its first party.
    pub order: u32,
    pub party: u32,
}

/// A request as one station sends it, or as it came from outside.
pub struct Order {
    /// The entry at which it first stands.
    pub head: u32,
    /// The station that made it, or NOBODY.
    pub maker: u32,
    pub request: u32,
    pub sends: u32,
    /// The next order of the same request.
    pub next: u32,
    /// One of the addresses outside from which its maker was told of it, from which the others go on.
    pub told: u32,
}

/// Which of several answers counts: the first that settles an order, or the last.
#[derive(Clone, Copy)]
pub struct Answers {
    /// The entry of the first that settles it, and that of the last.
    pub settled: u32,
    last: u32,
}

/// A station that received what is ordered.
pub struct Party {
    pub request: u32,
    pub station: u32,
    /// How often the station received it, and where first.
    pub copies: u32,
    pub got: u32,
    /// What the station replied, and the first of its replies that changed something.
    pub replies: Answers,
    pub change: u32,
    /// What the maker of the first order of the request received of the replies.
    news: Answers,
    /// The next party of the same request, a station further on.
    pub next: u32,
}

impl Party {
    pub fn new(request: u32, station: u32, got: u32) -> Party {
        let (replies, news) = (Answers::NONE, Answers::NONE);
        Party { request, station, copies: 0, got, replies, change: NONE, news, next: NONE }
    }
}

/// What the maker of an order was told of it from an address outside.
pub struct FromOutside {
    pub order: u32,
    pub address: u32,
    pub answers: Answers,
    /// The next address of the same order.
    pub next: u32,
}

impl Answers {
    /// No answer.
    pub const NONE: Answers = Answers { settled: NONE, last: NONE };

    /// Notes the answer at an entry; which comes first does not matter.
    #[inline]
    pub fn note(&mut self, number: u32, settles: bool) {
        if settles && number < self.settled {
            self.settled = number;
        }
        if self.last == NONE || number > self.last {
            self.last = number;
        }
    }

    /// The entry of the answer that counts.
    #[inline]
    pub fn counting(&self) -> u32 {
        if self.settled == NONE { self.last } else { self.settled }
    }
}

/// What is told of the orders of a recording.
pub struct Orders {
    pub requests: Vec<Request>,
    pub orders: Vec<Order>,
    pub parties: Vec<Party>,
    pub from_outside: Vec<FromOutside>,
    /// What makers received of replies to orders that are not the first of their request, by order and party.
    further_news: HashMap<(u32, u32), Answers>,
    /// What each station changed.
    pub changes: Vec<Vec<Change>>,
    /// Datagrams that mean nothing in the exercise.
    pub others: usize,
}

impl Orders {
    /// None yet, with room for some.
    pub fn new(stations: usize, room: usize) -> Orders {
        Orders {
            requests: Vec::with_capacity(room),
            orders: Vec::with_capacity(room),
            parties: Vec::with_capacity(room),
            from_outside: Vec::new(),
            further_news: HashMap::new(),
            changes: (0..stations).map(|_| Vec::new()).collect(),
            others: 0,
        }
    }

    /// The order by which a station, or nobody, asks for this.
    #[inline]
    pub fn find(&self, request: u32, maker: u32) -> Option<u32> {
        let mut order = self.requests[request as usize].order;
        while order != NONE && self.orders[order as usize].maker != maker {
            order = self.orders[order as usize].next;
        }
        (order != NONE).then_some(order)
    }

    /// A new order, which first stands at an entry.
    #[inline]
    pub fn add(&mut self, head: u32, request: u32, maker: u32) -> u32 {
        let order = self.orders.len() as u32;
        let first = self.requests[request as usize].order;
        let last = match self.orders.get_mut(first as usize) {
            Some(first) => &mut first.next,
            None => &mut self.requests[request as usize].order,
        };
        let next = std::mem::replace(last, order);
        self.orders.push(Order { head, maker, request, sends: 0, next, told: NONE });
        order
    }

    /// What was heard of the replies of a party to an order, to note more.
    #[inline]
    pub fn news_of(&mut self, order: u32, party: u32) -> &mut Answers {
        let heard = &mut self.parties[party as usize];
        if self.requests[heard.request as usize].order == order {
            &mut heard.news
        } else {
            self.further_news.entry((order, party)).or_insert(Answers::NONE)
        }
    }

    /// What was heard of the replies of a party to an order.
    #[inline]
    pub fn news(&self, order: u32, party: u32) -> Answers {
        let heard = &self.parties[party as usize];
        if self.requests[heard.request as usize].order == order {
            heard.news
        } else {
            self.further_news.get(&(order, party)).copied().unwrap_or(Answers::NONE)
        }
    }

    /// Chains the parties of each request by rising stations: those of the last station go first, each before the
    /// others.
    pub fn chain_parties(&mut self) {
        let mut by_station: Vec<Vec<u32>> = self.changes.iter().map(|_| Vec::new()).collect();
        for (index, party) in (0..).zip(&self.parties) {
            by_station[party.station as usize].push(index);
        }
        for index in by_station.into_iter().rev().flatten() {
            let party = &mut self.parties[index as usize];
            party.next = std::mem::replace(&mut self.requests[party.request as usize].party, index);
        }
    }
}
