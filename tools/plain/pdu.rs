//! PDUs of the Simulation Management family, read where they lie.

use crate::recording::{u16_at, u32_at, u64_at};

pub const NAMES: [&str; 12] = [
    "create-entity", "remove-entity", "start-resume", "stop-freeze", "acknowledge", "action-request", "action-response",
    "data-query", "set-data", "data", "event-report", "comment",
];
/// The size of the fixed part of each kind, and where its request identifier stands.
pub const SIZES: [u8; 12] = [28, 28, 44, 40, 32, 40, 40, 40, 40, 40, 40, 32];
const REQUESTS: [u8; 12] = [24, 24, 40, 36, 28, 24, 24, 24, 24, 24, 0, 0];
pub const CREATE: u8 = 11;
pub const START: u8 = 13;
pub const STOP: u8 = 14;
pub const ACKNOWLEDGE: u8 = 15;
pub const ACTION_REQUEST: u8 = 16;
pub const ACTION_RESPONSE: u8 = 17;
pub const DATA_QUERY: u8 = 18;
const SET_DATA: u8 = 19;
const DATA: u8 = 20;
pub const EVENT_REPORT: u8 = 21;
pub const ABLE: u16 = 1;
pub const UNABLE: u16 = 2;

#[derive(Clone, Copy)]
pub struct Pdu<'a> {
    pub bytes: &'a [u8],
    pub kind: u8,
    pub fixed: u32,
    pub variable: u32,
}

impl Pdu<'_> {
    #[inline]
    pub fn from(&self) -> u32 {
        u32_at(self.bytes, 12)
    }
    #[inline]
    pub fn from_entity(&self) -> u16 {
        u16_at(self.bytes, 16)
    }
    #[inline]
    pub fn to(&self) -> u32 {
        u32_at(self.bytes, 18)
    }
    #[inline]
    pub fn to_entity(&self) -> u16 {
        u16_at(self.bytes, 22)
    }
    #[inline]
    pub fn request(&self) -> u32 {
        u32_at(self.bytes, usize::from(REQUESTS[usize::from(self.kind) - 11]))
    }
    #[inline]
    pub fn flag(&self) -> u16 {
        u16_at(self.bytes, 24)
    }
    #[inline]
    pub fn response(&self) -> u16 {
        u16_at(self.bytes, 26)
    }
    #[inline]
    pub fn is_answer(&self) -> bool {
        matches!(self.kind, ACKNOWLEDGE | ACTION_RESPONSE | DATA)
    }
    #[inline]
    pub fn is_request(&self) -> bool {
        !self.is_answer() && self.kind < EVENT_REPORT
    }
    /// Where its records stand.
    #[inline]
    pub fn records(&self) -> usize {
        usize::from(SIZES[usize::from(self.kind) - 11])
    }
    /// Whether it acknowledges with this word.
    #[inline]
    pub fn acknowledges(&self, response: u16) -> bool {
        self.kind == ACKNOWLEDGE && self.response() == response
    }
}

/// The end of variable records, where they are there.
fn variable_end(bytes: &[u8], from: usize, count: u32) -> Option<usize> {
    let mut at = from;
    for _ in 0..count {
        bytes.get(at..at + 8)?;
        at += 8 + 8 * (u32_at(bytes, at + 4) as usize).div_ceil(64);
    }
    Some(at)
}

/// The PDU that a datagram spells, if it spells one.
#[inline]
pub fn pdu(bytes: &[u8]) -> Option<Pdu<'_>> {
    let length = bytes.len();
    if !(28..=8192).contains(&length) || !matches!(bytes[0], 6 | 7) || bytes[3] != 5 {
        return None;
    }
    if usize::from(u16_at(bytes, 8)) != length {
        return None;
    }
    let kind = bytes[2];
    let size = usize::from(*SIZES.get(usize::from(kind).checked_sub(11)?)?);
    if kind < ACTION_REQUEST {
        return (size == length).then_some(Pdu { bytes, kind, fixed: 0, variable: 0 });
    }
    if length < size {
        return None;
    }
    let (fixed, variable) = (u32_at(bytes, size - 8), u32_at(bytes, size - 4));
    let end = match kind {
        DATA_QUERY => size + 4 * (fixed as usize + variable as usize),
        _ => variable_end(bytes, size + 8 * fixed as usize, variable)?,
    };
    (end == length).then_some(Pdu { bytes, kind, fixed, variable })
}

/// The PDU of a datagram that is known to spell one. How many records it has is not read.
#[inline]
pub fn known(bytes: &[u8]) -> Pdu<'_> {
    Pdu { bytes, kind: bytes[2], fixed: 0, variable: 0 }
}

/// What a datagram means in an exercise, if it means something.
#[inline]
pub fn meaning(exercise: u8, bytes: &[u8]) -> Option<Pdu<'_>> {
    let p = pdu(bytes)?;
    let outside = p.kind == ACKNOWLEDGE && !(1..=4).contains(&p.flag());
    (bytes[1] == exercise && !outside).then_some(p)
}

/// The bytes behind the header, with all that is padding as zero.
pub fn order(p: &Pdu<'_>) -> Vec<u8> {
    let mut bytes = p.bytes.to_vec();
    match p.kind {
        STOP => bytes[34..36].fill(0),
        SET_DATA | DATA | EVENT_REPORT => bytes[28..32].fill(0),
        _ => {}
    }
    if p.kind >= ACTION_REQUEST && p.kind != DATA_QUERY {
        let mut at = usize::from(SIZES[usize::from(p.kind) - 11]) + 8 * p.fixed as usize;
        for _ in 0..p.variable {
            let bits = u32_at(&bytes, at + 4) as usize;
            let end = at + 8 + 8 * bits.div_ceil(64);
            let used = at + 8 + bits / 8;
            if bits % 8 > 0 {
                bytes[used] &= 0xFF << (8 - bits % 8);
            }
            bytes[at + 8 + bits.div_ceil(8)..end].fill(0);
            at = end;
        }
    }
    bytes.drain(..12);
    bytes
}

/// Whether all that is padding is zero, so that the bytes behind the header are all that is compared of an order.
#[inline]
pub fn is_bare(p: &Pdu<'_>) -> bool {
    let b = p.bytes;
    let is_zero = match p.kind {
        STOP => u16_at(b, 34) == 0,
        SET_DATA | DATA | EVENT_REPORT => u32_at(b, 28) == 0,
        _ => true,
    };
    let mut at = p.records() + 8 * p.fixed as usize;
    is_zero && (p.kind == DATA_QUERY || (0..p.variable).all(|_| is_bare_value(b, &mut at)))
}

/// Whether no bit is set behind the value of the variable datum there; the next one stands where it ends.
fn is_bare_value(b: &[u8], at: &mut usize) -> bool {
    let bits = u32_at(b, *at + 4) as usize;
    *at += 8 + 8 * bits.div_ceil(64);
    bits % 64 == 0 || u64_at(b, *at - 8) << (bits % 64) == 0
}

pub fn is_same_order(p: &Pdu<'_>, q: &Pdu<'_>) -> bool {
    p.bytes[..4] == q.bytes[..4]
        && p.bytes.len() == q.bytes.len()
        && (p.bytes[12..] == q.bytes[12..] || order(p) == order(q))
}

/// Whether a datagram that is known to spell a PDU spells the same order as another.
#[inline]
pub fn is_order_in(bytes: &[u8], p: &Pdu<'_>) -> bool {
    bytes.len() == p.bytes.len()
        && bytes[..4] == p.bytes[..4]
        && (bytes[12..] == p.bytes[12..] || pdu(bytes).is_some_and(|q| order(p) == order(&q)))
}

pub fn is_addressed(p: &Pdu<'_>, address: u32) -> bool {
    let fits = |n: u32, own: u32| n == own || n == 0xFFFF;
    fits(p.to() >> 16, address >> 16) && fits(p.to() & 0xFFFF, address & 0xFFFF)
}

/// The entity that a request and its answer are about, or 0 for all; None where their numbers do not fit.
pub fn scope(request: &Pdu<'_>, answer: &Pdu<'_>) -> Option<u16> {
    let is_open = |n: u16| n == 0 || n == 0xFFFF || (n == 0xFFFE && request.kind == CREATE);
    let (n, m) = (request.to_entity(), answer.from_entity());
    match (is_open(n), is_open(m)) {
        (true, true) => Some(0),
        (true, false) => Some(m),
        (false, true) => Some(n),
        (false, false) => (n == m).then_some(n),
    }
}

/// The request status of an Action Response.
#[inline]
pub fn result(p: &Pdu<'_>) -> u32 {
    u32_at(p.bytes, 28)
}

/// Whether an answer, with the request identifier of a request and to whom that came from, answers it.
pub fn answers(answer: &Pdu<'_>, request: &Pdu<'_>) -> bool {
    matches_kind(answer, request) && is_addressed(request, answer.from()) && scope(request, answer).is_some()
}

pub fn matches_kind(answer: &Pdu<'_>, request: &Pdu<'_>) -> bool {
    match answer.kind {
        ACKNOWLEDGE => u16::from(request.kind) == answer.flag() + 10,
        ACTION_RESPONSE => request.kind == ACTION_REQUEST,
        _ => request.kind == DATA_QUERY || request.kind == SET_DATA,
    }
}
