//! What became of each order at each station that it was for, and how each entity lived.

use crate::check::STATES;
use crate::lives::{Lives, Stretch};
use crate::order::{Answers, Order, Orders, NOBODY};
use crate::orders;
use crate::others;
use crate::pdu::{self, Pdu};
use crate::recording::{u64_at, Recording, NONE};
use crate::text::Text;
use std::io;

const MOST_LINES: usize = 4_194_304;
const RESPONSES: [&str; 4] = ["other", "able", "unable", "pending"];
const RESULTS: [&str; 6] = ["other", "pending", "executing", "partially-complete", "complete", "rejected"];

#[derive(Clone, Copy)]
enum Fate {
    Done,
    Answered,
    Refused,
    Pending,
    Unheard,
    Unanswered,
    Lost,
    Unknown,
    Nobody,
}

const FATES: [&str; 9] =
    ["done", "answered", "refused", "pending", "unheard", "unanswered", "lost", "unknown", "nobody"];

/// An order at one of those that it is for: a station, an address outside (a station of NONE), or at nobody.
struct Line {
    address: Option<u32>,
    station: u32,
    /// The party, where the station received the order.
    party: u32,
    /// What the maker heard.
    heard: Answers,
}

struct Review<'l, 'a> {
    log: &'l Recording<'a>,
    found: Orders,
    lives: Lives,
}

/// What is counted of a station.
#[derive(Clone, Default)]
struct Counts {
    made: u64,
    fates: [u64; 9],
    entities: u64,
    running: u64,
}

/// What is counted of a recording.
struct Totals {
    stations: Vec<Counts>,
    fates: [u64; 9],
    lines: usize,
}

pub fn review(log: &Recording<'_>, out: &mut Text) -> io::Result<u8> {
    let (found, is_explained) = orders::orders(log);
    let mut review = Review { log, found, lives: Lives::new() };
    let totals = review.totals();
    if totals.lines > MOST_LINES {
        return Err(io::Error::other("view: over-limit"));
    }
    review.heading(is_explained, &totals, out)?;
    if review.found.others > 0 {
        others::lines(log, out)?;
    }
    for (station, counts) in log.stations.iter().zip(&totals.stations) {
        out.word("station ")?.address(station.address)?.pair(" records=", u64::from(station.count))?;
        out.pair(" made=", counts.made)?;
        fates(&counts.fates, out)?;
        out.pair(" entities=", counts.entities)?.pair(" running=", counts.running)?.word("\n")?;
    }
    review.orders(out)?;
    review.states(out)?;
    Ok(0)
}

fn fates(counts: &[u64; 9], out: &mut Text) -> io::Result<()> {
    for (name, count) in FATES.iter().zip(counts).take(Fate::Nobody as usize) {
        out.word(" ")?.word(name)?.pair("=", *count)?;
    }
    Ok(())
}

impl Review<'_, '_> {
    /// Counts all that is told, or as much of it as there may be lines.
    fn totals(&mut self) -> Totals {
        let mut stations = vec![Counts::default(); self.log.stations.len()];
        let (mut fates, mut count) = ([0; 9], 1 + stations.len());
        let mut lines = Vec::new();
        for (index, order) in (0..).zip(&self.found.orders) {
            if order.maker != NOBODY {
                stations[order.maker as usize].made += 1;
            }
            self.lines_of(index, order, &mut lines);
            count += lines.len();
            for line in &lines {
                let fate = self.fate(order, line) as usize;
                fates[fate] += 1;
                if line.station != NONE {
                    stations[line.station as usize].fates[fate] += 1;
                }
            }
        }
        for (index, station) in self.log.stations.iter().enumerate() {
            let counts = &mut stations[index];
            self.lives.of(station, &self.found.changes[index], |stretch| {
                count += 1;
                if stretch.to == NONE {
                    counts.entities += 1;
                    counts.running += u64::from(stretch.state == 2);
                }
                count <= MOST_LINES
            });
        }
        Totals { stations, fates, lines: count }
    }

    fn heading(&self, is_explained: bool, totals: &Totals, out: &mut Text) -> io::Result<()> {
        out.pair("review exercise=", u64::from(self.log.exercise))?.pair(" stations=", totals.stations.len() as u64)?;
        out.pair(" records=", self.log.heads.len() as u64)?.pair(" others=", self.found.others as u64)?;
        out.word(if is_explained { " explained=yes orders=" } else { " explained=no orders=" })?;
        out.number(self.found.orders.len() as u64)?;
        fates(&totals.fates, out)?;
        out.pair(" nobody=", totals.fates[Fate::Nobody as usize])?;
        out.word(match self.log.form {
            None => "\n",
            Some(false) => " form=closed\n",
            Some(true) => " form=open\n",
        })?;
        Ok(())
    }

    /// The PDU of an entry that is known to mean one.
    #[inline]
    fn known(&self, number: u32) -> Pdu<'_> {
        pdu::known(self.log.datagram(number as usize))
    }

    /// The lines of an order, by rising addresses.
    #[inline]
    fn lines_of(&self, index: u32, order: &Order, lines: &mut Vec<Line>) {
        lines.clear();
        let request = self.known(order.head);
        let (to, stations) = (request.to(), &self.log.stations);
        let mut party = self.found.requests[order.request as usize].party;
        let among = if to >> 16 != 0xFFFF && to & 0xFFFF != 0xFFFF {
            stations.binary_search_by_key(&to, |station| station.address).map_or(0..0, |at| at..at + 1)
        } else {
            0..stations.len()
        };
        for at in among.filter(|at| pdu::is_addressed(&request, stations[*at].address)) {
            let mut line =
                Line { address: Some(stations[at].address), station: at as u32, party: NONE, heard: Answers::NONE };
            if party != NONE && self.found.parties[party as usize].station == line.station {
                line.party = party;
                line.heard = self.found.news(index, party);
                party = self.found.parties[party as usize].next;
            }
            if line.party != NONE || line.station != order.maker {
                lines.push(line);
            }
        }
        if self.log.is_open() && order.maker != NOBODY {
            self.lines_outside(order, to, lines);
        }
        if lines.is_empty() {
            lines.push(Line { address: None, station: NONE, party: NONE, heard: Answers::NONE });
        }
    }

    /// The lines of an order at addresses that nobody recorded: where it was heard from, and whom it names.
    fn lines_outside(&self, order: &Order, to: u32, lines: &mut Vec<Line>) {
        let count = lines.len();
        let mut told = order.told;
        while told != NONE {
            let from = &self.found.from_outside[told as usize];
            lines.push(Line { address: Some(from.address), station: NONE, party: NONE, heard: from.answers });
            told = from.next;
        }
        let is_real = [to >> 16, to & 0xFFFF].iter().all(|part| (1..0xFFFF).contains(part));
        let is_recorded = || self.log.stations.binary_search_by_key(&to, |station| station.address).is_ok();
        if is_real && lines[count..].iter().all(|line| line.address != Some(to)) && !is_recorded() {
            lines.push(Line { address: Some(to), station: NONE, party: NONE, heard: Answers::NONE });
        }
        if lines.len() > count {
            lines.sort_unstable_by_key(|line| line.address);
        }
    }

    /// The first fate that holds, by the logs of the maker and of the party.
    #[inline]
    fn fate(&self, order: &Order, line: &Line) -> Fate {
        if line.station == NONE {
            return if line.address.is_some() { Fate::Unknown } else { Fate::Nobody };
        }
        let Some(party) = self.found.parties.get(line.party as usize) else {
            return Fate::Lost;
        };
        let is_made = order.maker != NOBODY;
        if is_made && line.heard.settled != NONE {
            heard_fate(&self.known(line.heard.settled))
        } else if party.replies.settled != NONE {
            if is_made { Fate::Unheard } else { Fate::Unknown }
        } else if party.replies.counting() != NONE {
            Fate::Pending
        } else {
            Fate::Unanswered
        }
    }

    /// What the clock of a station had at an entry that sends or receives.
    #[inline]
    fn stamp(&self, number: u32) -> u64 {
        u64_at(self.log.file, self.log.places[number as usize] as usize - 10)
    }

    fn orders(&self, out: &mut Text) -> io::Result<()> {
        let mut lines = Vec::new();
        for (index, order) in (0..).zip(&self.found.orders) {
            self.lines_of(index, order, &mut lines);
            let request = self.known(order.head);
            let from = self.log.stations.get(order.maker as usize).map_or(request.from(), |maker| maker.address);
            for line in &lines {
                out.pair("order ", u64::from(order.head))?.word(" from=")?.address(from)?;
                out.pair(" request=", u64::from(request.request()))?.word(" ")?;
                out.word(pdu::NAMES[usize::from(request.kind) - 11])?.word(" to=")?.address(request.to())?;
                out.pair(":", u64::from(request.to_entity()))?;
                self.order_at(order, line, out)?;
            }
        }
        Ok(())
    }

    /// What is told of an order at one of those that it is for.
    #[inline]
    fn order_at(&self, order: &Order, line: &Line, out: &mut Text) -> io::Result<()> {
        match line.address {
            Some(address) => out.word(" at=")?.address(address)?,
            None => out.word(" at=-")?,
        };
        out.entry(" sends=", if order.maker == NOBODY { NONE } else { order.sends })?;
        let mut change = NONE;
        if let Some(party) = self.found.parties.get(line.party as usize) {
            change = party.change;
            out.pair(" receipts=", u64::from(party.copies))?.pair(" got=", u64::from(party.got))?;
            self.answer(" said=", " answer=", party.replies.counting(), out)?;
        } else {
            out.word(if line.station == NONE { " receipts=-" } else { " receipts=0" })?;
            out.word(" got=- said=- answer=-")?;
        }
        let news = line.heard.counting();
        self.answer(" heard=", " news=", news, out)?;
        out.word(" took=")?;
        match (news != NONE).then(|| self.stamp(news).checked_sub(self.stamp(order.head))).flatten() {
            Some(took) => out.number(took)?,
            None => out.word("-")?,
        };
        out.entry(" change=", change)?.word(" fate=")?.word(FATES[self.fate(order, line) as usize])?.word("\n")?;
        Ok(())
    }

    /// The word of an answer and its entry, if there is one.
    #[inline]
    fn answer(&self, said: &str, at: &str, number: u32, out: &mut Text) -> io::Result<()> {
        out.word(said)?;
        if number == NONE {
            out.word("-")?;
        } else {
            answer_word(&self.known(number), out)?;
        }
        out.entry(at, number)?;
        Ok(())
    }

    fn states(&mut self, out: &mut Text) -> io::Result<()> {
        let mut done = Ok(());
        for (station, changes) in self.log.stations.iter().zip(&self.found.changes) {
            self.lives.of(station, changes, |stretch| {
                done = state(self.log, station.address, stretch, out);
                done.is_ok()
            });
        }
        done
    }
}

/// The fate of an order whose maker heard this answer, which settles it.
#[inline]
fn heard_fate(answer: &Pdu<'_>) -> Fate {
    let number = match answer.kind {
        pdu::ACKNOWLEDGE => return if answer.response() == pdu::ABLE { Fate::Done } else { Fate::Refused },
        pdu::ACTION_RESPONSE => pdu::result(answer),
        _ => return Fate::Done,
    };
    match number {
        4 => Fate::Done,
        5 => Fate::Refused,
        _ => Fate::Answered,
    }
}

/// What an answer says in one word; a number without a name is its own.
#[inline]
fn answer_word(answer: &Pdu<'_>, out: &mut Text) -> io::Result<()> {
    let (number, names) = match answer.kind {
        pdu::ACKNOWLEDGE => (u32::from(answer.response()), &RESPONSES[..]),
        pdu::ACTION_RESPONSE => (pdu::result(answer), &RESULTS[..]),
        _ => (0, &["data"][..]),
    };
    match names.get(number as usize) {
        Some(name) => out.word(name)?,
        None => out.number(u64::from(number))?,
    };
    Ok(())
}

/// A stretch of an entity's life.
fn state(log: &Recording<'_>, address: u32, stretch: &Stretch, out: &mut Text) -> io::Result<()> {
    let stamp = |word: &str, number: u32, out: &mut Text| -> io::Result<()> {
        match log.places.get(number as usize) {
            Some(at) => out.pair(word, u64_at(log.file, *at as usize - 10))?,
            None => out.word(word)?.word("-")?,
        };
        Ok(())
    };
    out.word("state ")?.address(address)?.pair(":", u64::from(stretch.entity))?.word(" ")?;
    out.word(STATES[usize::from(stretch.state)])?.entry(" from=", stretch.from)?.entry(" to=", stretch.to)?;
    stamp(" since=", stretch.from, out)?;
    stamp(" until=", stretch.to, out)?;
    if stretch.from == NONE {
        out.word(" by=- request=-\n")?;
    } else {
        let answer = pdu::known(log.datagram(stretch.from as usize));
        out.word(" by=")?.address(answer.to())?.pair(" request=", u64::from(answer.request()))?.word("\n")?;
    }
    Ok(())
}
