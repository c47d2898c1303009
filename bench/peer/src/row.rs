//! A row under way.

use crate::item::Symbol;
use crate::side::Best;

/// No row is longer.
pub const LONGEST: usize = 256;
const EIGHT_DIGITS: u64 = 100_000_000;
const ZEROS: u64 = u64::from_le_bytes([b'0'; 8]);

/// What rows begin with: its first bytes, and how many they are.
#[derive(Clone, Copy)]
pub struct Prefix {
    bytes: [u8; 16],
    length: usize,
}

impl Prefix {
    pub const NONE: Prefix = Prefix { bytes: [0; 16], length: 0 };

    /// Keeps a text of at most 16 bytes.
    pub fn new(text: &str) -> Prefix {
        let mut bytes = [0; 16];
        bytes[..text.len()].copy_from_slice(text.as_bytes());
        Prefix { bytes, length: text.len() }
    }
}

/// A row in a buffer that has room for the longest one.
pub struct Row<'a> {
    bytes: &'a mut [u8; LONGEST],
    length: usize,
}

impl<'a> Row<'a> {
    /// Begins a row.
    #[inline(always)]
    pub fn new(bytes: &'a mut [u8; LONGEST], prefix: &Prefix) -> Row<'a> {
        bytes[..16].copy_from_slice(&prefix.bytes);
        Row { bytes, length: prefix.length }
    }

    #[inline(always)]
    pub fn text<const N: usize>(&mut self, text: &[u8; N]) -> &mut Self {
        self.bytes[self.length..][..N].copy_from_slice(text);
        self.length += N;
        self
    }

    #[inline(always)]
    pub fn number(&mut self, number: u64) -> &mut Self {
        if number < 10 {
            return self.text(&[b'0' + number as u8]);
        }
        if number >= EIGHT_DIGITS {
            return self.long_number(number);
        }
        let digits = digits_of(number);
        let zeros = digits.trailing_zeros() / 8;
        self.text(&((digits | ZEROS) >> (8 * zeros)).to_le_bytes());
        self.length -= zeros as usize;
        self
    }

    #[cold]
    fn long_number(&mut self, number: u64) -> &mut Self {
        self.number(number / EIGHT_DIGITS);
        self.text(&(digits_of(number % EIGHT_DIGITS) | ZEROS).to_le_bytes())
    }

    /// Adds a symbol, which has eight bytes, without its filling spaces.
    #[inline(always)]
    pub fn symbol(&mut self, symbol: Symbol) -> &mut Self {
        let spaces = (symbol ^ u64::from_be_bytes([b' '; 8])).trailing_zeros() as usize / 8;
        self.text(&symbol.to_be_bytes());
        self.length -= spaces;
        self
    }

    /// Adds a price, which is in ten-thousandths, as whole units and four places.
    #[inline(always)]
    fn price(&mut self, price: u32) -> &mut Self {
        if u64::from(price) >= EIGHT_DIGITS {
            return self.long_price(price);
        }
        let digits = digits_of(u64::from(price));
        let zeros = (digits | 1 << 24).trailing_zeros() / 8;
        let text = digits | ZEROS;
        self.text(&((text as u32) >> (8 * zeros)).to_le_bytes());
        self.length -= zeros as usize;
        self.text(b".").text(&((text >> 32) as u32).to_le_bytes())
    }

    #[cold]
    fn long_price(&mut self, price: u32) -> &mut Self {
        let places = (digits_of(u64::from(price % 10_000)) | ZEROS) >> 32;
        self.number(u64::from(price / 10_000)).text(b".").text(&(places as u32).to_le_bytes())
    }

    #[inline(always)]
    pub fn side(&mut self, best: &Option<Best>) -> &mut Self {
        match best {
            Some(best) => {
                let row = self.number(best.venue as u64).text(b":").price(best.price);
                row.text(b"x").number(best.size)
            }
            None => self.text(b"none"),
        }
    }

    /// Ends the row, and returns its length.
    #[inline(always)]
    pub fn end(&mut self) -> usize {
        self.text(b"\n");
        self.length
    }
}

/// Returns the eight digits of a number that has no more, the first in the lowest byte.
#[inline(always)]
fn digits_of(number: u64) -> u64 {
    let fours = number / 10_000 | number % 10_000 << 32;
    let hundreds = (fours * 5_243 >> 19) & 0x7f_0000_007f;
    let pairs = hundreds | (fours - 100 * hundreds) << 16;
    let tens = (pairs * 103 >> 10) & 0x000f_000f_000f_000f;
    tens | (pairs - 10 * tens) << 8
}

#[cfg(test)]
mod tests {
    use super::*;

    /// Returns what is added to a row.
    fn added(add: impl Fn(&mut Row<'_>)) -> String {
        let mut bytes = [0; LONGEST];
        let mut row = Row::new(&mut bytes, &Prefix::NONE);
        add(&mut row);
        let length = row.length;
        String::from_utf8(bytes[..length].to_vec()).unwrap()
    }

    #[test]
    fn numbers() {
        let powers = (0..20).map(|it| 10_u64.pow(it));
        let beside = powers.flat_map(|it| [it - 1, it, it + 1, it.saturating_mul(3) / 2]);
        for number in beside.chain(0..30_000).chain([u64::MAX]) {
            let text = added(|row| {
                row.number(number);
            });
            assert_eq!(text, number.to_string());
        }
    }

    #[test]
    fn prices() {
        let beside = (4..10).map(|it| 10_u32.pow(it)).flat_map(|it| [it - 1, it, it + 1]);
        for price in beside.chain(0..30_000).chain([u32::MAX, u32::MAX - 7]) {
            let text = added(|row| {
                row.price(price);
            });
            assert_eq!(text, format!("{}.{:04}", price / 10_000, price % 10_000));
        }
    }
}
