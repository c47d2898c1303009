//! The entries, of which the number alone is kept, and the rows of the national bests that they
//! change.

use std::io::Write;

use crate::book::{Book, National};
use crate::fault::Fault;
use crate::item::{Item, Symbol};
use crate::order::Order;
use crate::rows::Rows;

pub struct Journal<O, W> {
    book: Book<O>,
    pub rows: Rows<W>,
    symbols: Vec<Symbol>,
    entries: u32,
    most: u32,
    notices: u64,
}

impl<O: Order, W: Write> Journal<O, W> {
    /// Keeps these symbols, or returns the first one that comes twice.
    pub fn new(symbols: &[Symbol], most: u32, rows: Rows<W>) -> Result<Journal<O, W>, Symbol> {
        let book = Book::new(symbols)?;
        Ok(Journal { book, rows, symbols: symbols.to_vec(), entries: 0, most, notices: 0 })
    }

    fn add(&mut self) -> Result<(), Fault> {
        if self.entries == self.most {
            return Err(Fault::JournalFull);
        }
        self.entries += 1;
        Ok(())
    }

    fn notice(&mut self, place: usize, national: &National) -> Result<(), Fault> {
        self.notices += 1;
        self.rows.best(self.notices, self.entries, self.symbols[place], national)?;
        Ok(())
    }

    /// Records a venue's item, and prints it and what it changes.
    #[inline]
    pub fn record(&mut self, venue: usize, number: u64, item: &Item) -> Result<(), Fault> {
        self.add()?;
        self.rows.item(venue, number, item)?;
        let change = match item {
            Item::Quote(quote) => self.book.quote(venue, self.entries, quote),
            Item::Halt(symbol) => self.book.halt(venue, *symbol, true),
            Item::Trading(symbol) => self.book.halt(venue, *symbol, false),
            Item::Other => None,
            Item::Skipped | Item::End => return self.leave(venue),
        };
        match change {
            Some((place, national)) => self.notice(place, &national),
            None => Ok(()),
        }
    }

    /// Forgets what a venue shows.
    fn leave(&mut self, venue: usize) -> Result<(), Fault> {
        for place in 0..self.book.symbols() {
            if let Some(national) = self.book.leave(place, venue) {
                self.notice(place, &national)?;
            }
        }
        Ok(())
    }

    /// Declares self-help on a venue, or withdraws it, and prints what that changes.
    pub fn declare(&mut self, venue: usize, is_on: bool) -> Result<(), Fault> {
        if self.book.is_helped(venue) == is_on {
            self.rows.declare(venue, is_on, None)?;
            return Ok(());
        }
        self.add()?;
        self.rows.declare(venue, is_on, Some(self.entries))?;
        self.book.declare(venue, is_on);
        for place in 0..self.book.symbols() {
            if let Some(national) = self.book.help(place, venue) {
                self.notice(place, &national)?;
            }
        }
        Ok(())
    }
}
