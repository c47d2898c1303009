//! The rows that are printed, through a buffer.

use std::io::{self, Write};

use crate::arbiter::{Outcome, LINES};
use crate::book::National;
use crate::item::{Item, Symbol};
use crate::order::VENUES;
use crate::refusal::Refusal;
use crate::row::{Prefix, Row, LONGEST};

const SIZE: usize = 1 << 16;
pub struct Rows<W> {
    output: W,
    bytes: Box<[u8]>,
    length: usize,
    /// What the rows of packets begin with, of a venue's lines, and those of items.
    packets: [[Prefix; LINES]; VENUES],
    items: [Prefix; VENUES],
    best: Prefix,
    /// Where the best rows alone are printed, the others are left out.
    is_best_only: bool,
}

impl<W: Write> Rows<W> {
    pub fn new(output: W, is_best_only: bool) -> Rows<W> {
        let line_of =
            |venue| ["A", "B", "R"].map(|line| Prefix::new(&format!("packet {venue} {line}")));
        Rows {
            output,
            bytes: vec![0; SIZE + LONGEST].into(),
            length: 0,
            packets: std::array::from_fn(line_of),
            items: std::array::from_fn(|venue| Prefix::new(&format!("item {venue} "))),
            best: Prefix::new("best "),
            is_best_only,
        }
    }

    /// Begins a row of another kind for a venue.
    #[inline(always)]
    fn row<const N: usize>(&mut self, word: &[u8; N], venue: usize) -> Row<'_> {
        let mut row = Row::new(room(&mut self.bytes, self.length), &Prefix::NONE);
        row.text(word).number(venue as u64);
        row
    }

    /// Ends a row of a length; the buffer is written where a next one may not fit.
    #[inline(always)]
    fn end(&mut self, length: usize) -> io::Result<()> {
        self.length += length;
        if self.length < SIZE {
            Ok(())
        } else {
            self.flush()
        }
    }

    /// Writes what the buffer holds.
    pub fn flush(&mut self) -> io::Result<()> {
        let length = std::mem::take(&mut self.length);
        self.output.write_all(&self.bytes[..length])?;
        self.output.flush()
    }

    #[inline(always)]
    pub fn packet(
        &mut self,
        venue: usize,
        line: usize,
        answer: &Result<Outcome, Refusal>,
    ) -> io::Result<()> {
        if self.is_best_only {
            return Ok(());
        }
        let mut row = Row::new(room(&mut self.bytes, self.length), &self.packets[venue][line]);
        match answer {
            Ok(Outcome::Taken { new, repeated }) => {
                row.text(b" taken ").number(*new).text(b" ").number(*repeated)
            }
            Ok(Outcome::Heartbeat) => row.text(b" heartbeat"),
            Ok(Outcome::Ended) => row.text(b" ended"),
            Ok(Outcome::Ahead) => row.text(b" ahead"),
            Err(refusal) => row.text(b" refused ").number(*refusal as u64),
        };
        let length = row.end();
        self.end(length)
    }

    #[inline(always)]
    pub fn item(&mut self, venue: usize, number: u64, item: &Item) -> io::Result<()> {
        if self.is_best_only {
            return Ok(());
        }
        let mut row = Row::new(room(&mut self.bytes, self.length), &self.items[venue]);
        row.number(number);
        match item {
            Item::Quote(_) => row.text(b" quote"),
            Item::Halt(_) => row.text(b" halt"),
            Item::Trading(_) => row.text(b" trading"),
            Item::Other => row.text(b" other"),
            Item::Skipped => row.text(b" skipped"),
            Item::End => row.text(b" end"),
        };
        let length = row.end();
        self.end(length)
    }

    #[inline]
    pub fn best(
        &mut self,
        notice: u64,
        position: u32,
        symbol: Symbol,
        national: &National,
    ) -> io::Result<()> {
        let mut row = Row::new(room(&mut self.bytes, self.length), &self.best);
        row.number(notice).text(b" ").number(u64::from(position)).text(b" ");
        row.symbol(symbol).text(b" ").side(&national.bid).text(b" ").side(&national.offer);
        match (&national.bid, &national.offer) {
            (None, None) => row.text(b" empty"),
            (Some(bid), Some(offer)) if bid.price < offer.price => row.text(b" normal"),
            (Some(bid), Some(offer)) if bid.price == offer.price => row.text(b" locked"),
            (Some(_), Some(_)) => row.text(b" crossed"),
            _ => row.text(b" one-sided"),
        };
        let length = row.end();
        self.end(length)
    }

    pub fn gap(&mut self, venue: usize, number: u64, count: u64) -> io::Result<()> {
        if self.is_best_only {
            return Ok(());
        }
        let mut row = self.row(b"gap ", venue);
        row.text(b" ").number(number).text(b" ").number(count);
        let length = row.end();
        self.end(length)
    }

    /// Prints a declaration with its position in the journal, or that it was so already.
    pub fn declare(&mut self, venue: usize, is_on: bool, position: Option<u32>) -> io::Result<()> {
        if self.is_best_only {
            return Ok(());
        }
        let mut row = self.row(b"declare ", venue);
        if is_on {
            row.text(b" on ")
        } else {
            row.text(b" off ")
        };
        match position {
            Some(position) => row.number(u64::from(position)),
            None => row.text(b"already"),
        };
        let length = row.end();
        self.end(length)
    }

    /// Prints a renewal or a skip: its ordinal or number, or why it was refused.
    pub fn wish<const N: usize>(
        &mut self,
        word: &[u8; N],
        venue: usize,
        answer: &Result<u64, Refusal>,
    ) -> io::Result<()> {
        if self.is_best_only {
            return Ok(());
        }
        let mut row = self.row(word, venue);
        match answer {
            Ok(number) => row.text(b" ").number(*number),
            Err(refusal) => row.text(b" refused ").number(*refusal as u64),
        };
        let length = row.end();
        self.end(length)
    }

    pub fn venue(&mut self, venue: usize, sent: u64, wins: &[u64; 3]) -> io::Result<()> {
        if self.is_best_only {
            return Ok(());
        }
        let mut row = self.row(b"venue ", venue);
        row.text(b" sent ").number(sent).text(b" wins");
        for count in wins {
            row.text(b" ").number(*count);
        }
        let length = row.end();
        self.end(length)
    }
}

/// Returns the room for a row after those that the buffer holds.
#[inline(always)]
fn room(bytes: &mut [u8], length: usize) -> &mut [u8; LONGEST] {
    bytes[length..].first_chunk_mut().expect("a row has room")
}

#[cfg(test)]
mod tests {
    use super::*;
    use crate::item::symbol_of;
    use crate::side::Best;

    /// Returns what is printed.
    fn printed(print: impl Fn(&mut Rows<&mut Vec<u8>>)) -> String {
        let mut output = Vec::new();
        let mut rows = Rows::new(&mut output, false);
        print(&mut rows);
        rows.flush().unwrap();
        drop(rows);
        String::from_utf8(output).unwrap()
    }

    #[test]
    fn best_rows() {
        let best = |venue, price, size| Some(Best { venue, price, size });
        let row = |bid, offer| {
            let symbol = symbol_of(b"ACME").unwrap();
            printed(|rows| rows.best(3, 5, symbol, &National { bid, offer }).unwrap())
        };
        let normal = row(best(0, 101_500, 300), best(15, 1_016_001, u64::MAX));
        assert_eq!(normal, "best 3 5 ACME 0:10.1500x300 15:101.6001x18446744073709551615 normal\n");
        assert_eq!(row(None, best(1, 7, 2)), "best 3 5 ACME none 1:0.0007x2 one-sided\n");
        assert_eq!(row(None, None), "best 3 5 ACME none none empty\n");
        assert!(row(best(0, 2, 1), best(1, 2, 1)).ends_with(" locked\n"));
        assert!(row(best(0, 3, 1), best(1, 2, 1)).ends_with(" crossed\n"));
    }

    #[test]
    fn other_rows() {
        let text = printed(|rows| {
            rows.packet(0, 0, &Ok(Outcome::Taken { new: 1, repeated: 20 })).unwrap();
            rows.packet(15, 2, &Err(Refusal::Conflict)).unwrap();
            rows.item(1, 100, &Item::Other).unwrap();
            rows.gap(0, 2, 1).unwrap();
            rows.declare(0, true, Some(4)).unwrap();
            rows.declare(0, false, None).unwrap();
            rows.wish(b"renew ", 0, &Ok(2)).unwrap();
            rows.wish(b"skip ", 0, &Err(Refusal::HeldBelow)).unwrap();
            rows.venue(2, 5, &[4, 1, 0]).unwrap();
        });
        let rows = [
            "packet 0 A taken 1 20",
            "packet 15 R refused 11",
            "item 1 100 other",
            "gap 0 2 1",
            "declare 0 on 4",
            "declare 0 off already",
            "renew 0 2",
            "skip 0 refused 63",
            "venue 2 sent 5 wins 4 1 0",
            "",
        ];
        assert_eq!(text, rows.join("\n"));
    }
}
