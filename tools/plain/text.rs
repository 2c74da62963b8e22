//! Text on its way to standard output, in one buffer that is written out whenever it is nearly full.

use crate::recording::NONE;
use std::io::{self, Stdout, Write};

const ROOM: usize = 1 << 16;
/// No word is longer, nor are the digits of a number.
const LEFT: usize = 256;
const PAIRS: &[u8; 200] = b"0001020304050607080910111213141516171819202122232425262728293031323334353637383940414243444546474849\
5051525354555657585960616263646566676869707172737475767778798081828384858687888990919293949596979899";

pub struct Text {
    out: Stdout,
    room: Vec<u8>,
}

/// The two digits of a number below 100.
#[inline]
pub fn two_digits(number: u64) -> &'static [u8] {
    let at = 2 * number as usize;
    &PAIRS[at..at + 2]
}

#[inline]
fn hex_digit(number: u8) -> u8 {
    if number < 10 { b'0' + number } else { b'a' - 10 + number }
}

impl Text {
    pub fn new() -> Text {
        Text { out: io::stdout(), room: Vec::with_capacity(ROOM) }
    }

    pub fn flush(&mut self) -> io::Result<()> {
        self.out.write_all(&self.room)?;
        self.room.clear();
        self.out.flush()
    }

    #[inline]
    fn make_room(&mut self) -> io::Result<()> {
        if self.room.len() > ROOM - LEFT {
            self.out.write_all(&self.room)?;
            self.room.clear();
        }
        Ok(())
    }

    #[inline]
    pub fn word(&mut self, word: &str) -> io::Result<&mut Text> {
        self.part(word.as_bytes())
    }

    /// Bytes that are no more than those of a word.
    #[inline]
    pub fn part(&mut self, bytes: &[u8]) -> io::Result<&mut Text> {
        self.make_room()?;
        self.room.extend_from_slice(bytes);
        Ok(self)
    }

    /// A number in decimal digits.
    #[inline]
    pub fn number(&mut self, number: u64) -> io::Result<&mut Text> {
        self.make_room()?;
        if number < 10 {
            self.room.push(b'0' + number as u8);
            return Ok(self);
        }
        let mut digits = [0; 20];
        let (mut at, mut left) = (20, number);
        while left >= 10 {
            let pair = 2 * (left % 100) as usize;
            left /= 100;
            at -= 2;
            digits[at..at + 2].copy_from_slice(&PAIRS[pair..pair + 2]);
        }
        if left > 0 {
            at -= 1;
            digits[at] = b'0' + left as u8;
        }
        self.room.extend_from_slice(&digits[at..]);
        Ok(self)
    }

    /// A word and a number behind it.
    #[inline]
    pub fn pair(&mut self, word: &str, number: u64) -> io::Result<&mut Text> {
        self.word(word)?.number(number)
    }

    /// A word and the number of an entry behind it, or a dash for none.
    #[inline]
    pub fn entry(&mut self, word: &str, number: u32) -> io::Result<&mut Text> {
        if number == NONE {
            return self.word(word)?.word("-");
        }
        self.pair(word, u64::from(number))
    }

    /// As many bytes as there are.
    pub fn bytes(&mut self, bytes: &[u8]) -> io::Result<&mut Text> {
        for part in bytes.chunks(LEFT) {
            self.part(part)?;
        }
        Ok(self)
    }

    /// As many bytes as there are, two hex digits each.
    pub fn hex(&mut self, bytes: &[u8]) -> io::Result<&mut Text> {
        let mut digits = [0; LEFT];
        for part in bytes.chunks(LEFT / 2) {
            for (pair, byte) in digits.chunks_exact_mut(2).zip(part) {
                pair[0] = hex_digit(byte >> 4);
                pair[1] = hex_digit(byte & 15);
            }
            self.part(&digits[..2 * part.len()])?;
        }
        Ok(self)
    }

    /// A simulation address: site and application.
    pub fn address(&mut self, address: u32) -> io::Result<&mut Text> {
        self.number(u64::from(address >> 16))?.pair(":", u64::from(address & 0xFFFF))
    }
}
