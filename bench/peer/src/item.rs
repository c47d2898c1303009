//! What a message says: three forms, each with a first byte and a length of its own; all else is
//! Other.

/// The eight bytes of a symbol's field, the first of them highest.
pub type Symbol = u64;

const SPACES: u64 = u64::from_be_bytes([b' '; 8]);
const HIGH_BITS: u64 = u64::from_be_bytes([0x80; 8]);
const TO_REACH_21: u64 = u64::from_be_bytes([0x80 - 0x21; 8]);
const TO_REACH_7F: u64 = u64::from_be_bytes([0x80 - 0x7f; 8]);

/// What one side of a quotation shows.
#[derive(Clone, Copy, Debug, PartialEq, Eq)]
pub struct Shown {
    pub price: u32,
    pub size: u64,
    pub automated: bool,
}

#[derive(Clone, Copy, Debug, PartialEq, Eq)]
pub struct Quote {
    pub symbol: Symbol,
    pub bid: Shown,
    pub offer: Shown,
}

/// What comes out of a venue's lines; Skipped and End are no messages.
#[derive(Clone, Copy, Debug, PartialEq, Eq)]
pub enum Item {
    Quote(Quote),
    Halt(Symbol),
    Trading(Symbol),
    Other,
    Skipped,
    End,
}

impl Item {
    /// Returns what a message says.
    #[inline]
    pub fn read(message: &[u8]) -> Item {
        match message {
            [0x51, rest @ ..] if rest.len() == 25 => {
                quote_of(rest, u64::from(number_at(rest, 12)), u64::from(number_at(rest, 20)), 16)
            }
            [0x71, rest @ ..] if rest.len() == 33 => {
                quote_of(rest, wide_number_at(rest, 12), wide_number_at(rest, 24), 20)
            }
            [0x48, symbol @ .., state @ (0 | 1)] if symbol.len() == 8 => {
                match (read_symbol(symbol), state) {
                    (Some(symbol), 0) => Item::Trading(symbol),
                    (Some(symbol), _) => Item::Halt(symbol),
                    (None, _) => Item::Other,
                }
            }
            _ => Item::Other,
        }
    }
}

/// Returns the quotation with these sizes, whose offer's price is at a place.
#[inline(always)]
fn quote_of(rest: &[u8], bid_size: u64, offer_size: u64, offer: usize) -> Item {
    let Some(symbol) = read_symbol(&rest[..8]) else {
        return Item::Other;
    };
    let flags = rest[rest.len() - 1];
    let bid = Shown { price: number_at(rest, 8), size: bid_size, automated: flags & 1 != 0 };
    let price = number_at(rest, offer);
    Item::Quote(Quote {
        symbol,
        bid,
        offer: Shown { price, size: offer_size, automated: flags & 2 != 0 },
    })
}

#[inline]
fn number_at(bytes: &[u8], place: usize) -> u32 {
    u32::from_be_bytes(bytes[place..place + 4].try_into().unwrap())
}

#[inline]
fn wide_number_at(bytes: &[u8], place: usize) -> u64 {
    u64::from_be_bytes(bytes[place..place + 8].try_into().unwrap())
}

/// Reads a field of eight bytes: one to eight of 21 to 7e, then spaces to the end.
#[inline(always)]
fn read_symbol(field: &[u8]) -> Option<Symbol> {
    let symbol = u64::from_be_bytes(field.try_into().ok()?);
    let spaces = (symbol ^ SPACES).trailing_zeros() / 8;
    // A byte below 80 reaches 80 by the first sum from 21 on, by the second from 7f on.
    let in_name = symbol.wrapping_add(TO_REACH_21) & !symbol.wrapping_add(TO_REACH_7F);
    let wanted = HIGH_BITS.checked_shl(8 * spaces).filter(|_| symbol & HIGH_BITS == 0)?;
    (in_name & wanted == wanted).then_some(symbol)
}

/// Returns the field of a word of a command line, if it is a symbol.
pub fn symbol_of(word: &[u8]) -> Option<Symbol> {
    let mut field = [b' '; 8];
    field.get_mut(..word.len())?.copy_from_slice(word);
    read_symbol(&field).filter(|_| !word.ends_with(b" "))
}

#[cfg(test)]
pub mod tests {
    use super::*;

    /// Returns the message of a quotation whose sides are both automated.
    pub fn quote(symbol: &[u8; 8], bid: (u32, u32), offer: (u32, u32)) -> Vec<u8> {
        let mut message = [&b"\x51"[..], symbol].concat();
        for number in [bid.0, bid.1, offer.0, offer.1] {
            message.extend(number.to_be_bytes());
        }
        message.push(3);
        message
    }

    fn shown(price: u32, size: u64) -> Shown {
        Shown { price, size, automated: true }
    }

    #[test]
    fn both_forms_of_a_quotation_say_the_same() {
        let narrow = quote(b"ACME    ", (11, 12), (13, 14));
        let mut wide = b"\x71ACME    ".to_vec();
        for (price, size) in [(11_u32, 12_u64), (13, 14)] {
            wide.extend(price.to_be_bytes());
            wide.extend(size.to_be_bytes());
        }
        wide.push(255);
        let symbol = symbol_of(b"ACME").unwrap();
        let said = Quote { symbol, bid: shown(11, 12), offer: shown(13, 14) };
        assert_eq!(Item::read(&narrow), Item::Quote(said));
        assert_eq!(Item::read(&wide), Item::Quote(said));
        assert_eq!(Item::read(&wide[..33]), Item::Other);
    }

    #[test]
    fn halts() {
        let symbol = symbol_of(b"A").unwrap();
        assert_eq!(Item::read(b"\x48A       \x01"), Item::Halt(symbol));
        assert_eq!(Item::read(b"\x48A       \x00"), Item::Trading(symbol));
        assert_eq!(Item::read(b"\x48A       \x02"), Item::Other);
        assert_eq!(Item::read(b""), Item::Other);
    }

    #[test]
    fn fields_of_symbols() {
        for field in [*b"A       ", *b"ABCDEFGH", *b"!~      "] {
            assert_eq!(read_symbol(&field), Some(u64::from_be_bytes(field)));
        }
        let wrong =
            [b"        ", b" A      ", b"A B     ", b"A\x7f      ", b"A\x1f      ", b"\xa0B      "];
        for field in wrong {
            assert_eq!(read_symbol(field), None);
        }
        for word in [&b""[..], b"A ", b"ABCDEFGHI", b"\x00"] {
            assert_eq!(symbol_of(word), None);
        }
    }
}
