//! A recording as lines of text.

use crate::check::STATES;
use crate::pdu::{self, Pdu};
use crate::recording::{u16_at, u32_at, u64_at, Recording, What};
use crate::text::Text;
use std::io;

fn clock(out: &mut Text, word: &str, p: &Pdu<'_>, at: usize) -> io::Result<()> {
    out.pair(word, u64::from(u32_at(p.bytes, at)))?.pair("/", u64::from(u32_at(p.bytes, at + 4)))?;
    Ok(())
}

fn head(p: &Pdu<'_>, out: &mut Text) -> io::Result<()> {
    let b = p.bytes;
    let status = if b[0] == 7 { b[10] } else { 0 };
    out.word(pdu::NAMES[usize::from(p.kind) - 11])?.pair(" version=", u64::from(b[0]))?;
    out.pair(" exercise=", u64::from(b[1]))?.pair(" stamp=", u64::from(u32_at(b, 4)))?;
    out.pair(" status=", u64::from(status))?.word(" from=")?.address(p.from())?;
    out.pair(":", u64::from(p.from_entity()))?.word(" to=")?.address(p.to())?.pair(":", u64::from(p.to_entity()))?;
    body(p, out)?;
    if p.kind >= pdu::ACTION_REQUEST {
        out.pair(" fixed=", u64::from(p.fixed))?.pair(" variable=", u64::from(p.variable))?;
    }
    out.word("\n")?;
    Ok(())
}

fn body(p: &Pdu<'_>, out: &mut Text) -> io::Result<()> {
    let b = p.bytes;
    match p.kind {
        pdu::START => {
            clock(out, " real=", p, 24)?;
            clock(out, " sim=", p, 32)?;
        }
        pdu::STOP => {
            clock(out, " real=", p, 24)?;
            out.pair(" reason=", u64::from(b[32]))?.pair(" behaviour=", u64::from(b[33]))?;
        }
        pdu::ACKNOWLEDGE => {
            out.pair(" flag=", u64::from(p.flag()))?.pair(" response=", u64::from(p.response()))?;
        }
        pdu::EVENT_REPORT => {
            out.pair(" event=", u64::from(u32_at(b, 24)))?;
        }
        _ => {}
    }
    if p.kind < pdu::EVENT_REPORT {
        out.pair(" request=", u64::from(p.request()))?;
    }
    let further = match p.kind {
        pdu::ACTION_REQUEST => " action=",
        pdu::ACTION_RESPONSE => " result=",
        pdu::DATA_QUERY => " interval=",
        _ => return Ok(()),
    };
    out.pair(further, u64::from(u32_at(b, 28)))?;
    Ok(())
}

fn stations(log: &Recording<'_>, out: &mut Text) -> io::Result<()> {
    out.pair("exercise=", u64::from(log.exercise))?.pair(" stations=", log.stations.len() as u64)?;
    out.pair(" records=", log.heads.len() as u64)?;
    out.word(match log.form {
        None => "\n",
        Some(false) => " form=closed\n",
        Some(true) => " form=open\n",
    })?;
    for (index, station) in (0..).zip(&log.stations) {
        out.pair("station ", index)?.word(" ")?.address(station.address)?.word("\n")?;
        for (entity, state) in &station.opening {
            out.pair("opening ", index)?.pair(" ", u64::from(*entity))?.word(" ")?;
            out.word(STATES[usize::from(*state)])?.word("\n")?;
        }
    }
    Ok(())
}

pub fn show(log: &Recording<'_>, out: &mut Text) -> io::Result<u8> {
    stations(log, out)?;
    for (number, entry) in log.heads.iter().enumerate() {
        let (at, station) = (log.places[number] as usize, entry.station() as u64);
        out.number(number as u64)?;
        if entry.what() == What::Told {
            out.pair(" told ", station)?.pair(" ", u64::from(u16_at(log.file, at)))?.word(" ")?;
            out.word(STATES[usize::from(log.file[at + 2])])?.word("\n")?;
            continue;
        }
        out.pair(if entry.what() == What::Sent { " sent " } else { " received " }, station)?;
        out.pair(" stamp=", u64_at(log.file, at - 10))?.word(" ")?;
        match pdu::meaning(log.exercise, log.datagram(number)) {
            Some(p) => head(&p, out)?,
            None => {
                out.pair("other bytes=", entry.length() as u64)?.word("\n")?;
            }
        }
    }
    Ok(0)
}
