//! The national best bid and offer of each symbol, by price, then size, then time.

use crate::item::{Quote, Symbol};
use crate::order::{Order, VENUES};
use crate::side::{Best, Side};
use crate::symbols::SymbolTable;

/// The price of a bid or an offer, as sides have it, where there is none.
const NO_BID: u32 = 0;
const NO_OFFER: u32 = !0;

#[derive(Clone, Copy, Debug, Default, PartialEq, Eq)]
pub struct National {
    pub bid: Option<Best>,
    pub offer: Option<Best>,
}

/// A symbol's sides, and the venues that have halted it.
#[derive(Clone, Default)]
struct Market<O> {
    bid: Side<O>,
    offer: Side<O>,
    halted: [bool; VENUES],
}

impl<O: Order> Market<O> {
    #[inline]
    fn national(&self) -> National {
        let offer = self.offer.first().map(|it| Best { price: !it.price, ..it });
        National { bid: self.bid.first(), offer }
    }

    fn open(&mut self, venue: usize, is_open: bool) {
        self.bid.open(venue, is_open, NO_BID);
        self.offer.open(venue, is_open, NO_OFFER);
    }
}

pub struct Book<O> {
    table: SymbolTable,
    markets: Vec<Market<O>>,
    is_helped: [bool; VENUES],
}

impl<O: Order> Book<O> {
    /// Keeps these symbols, or returns the first one that comes twice.
    pub fn new(symbols: &[Symbol]) -> Result<Book<O>, Symbol> {
        let table = SymbolTable::new(symbols)?;
        let markets = vec![Market::default(); symbols.len()];
        Ok(Book { table, markets, is_helped: [false; VENUES] })
    }

    pub fn symbols(&self) -> usize {
        self.markets.len()
    }

    /// Reports whether self-help stands on a venue.
    pub fn is_helped(&self, venue: usize) -> bool {
        self.is_helped[venue]
    }

    /// Takes a quotation, and returns the place of its symbol and the national best where that has
    /// changed.
    #[inline]
    pub fn quote(
        &mut self,
        venue: usize,
        position: u32,
        quote: &Quote,
    ) -> Option<(usize, National)> {
        let place = self.table.place_of(quote.symbol)?;
        let market = &mut self.markets[place];
        let is_open = !market.halted[venue] && !self.is_helped[venue];
        let before = market.national();
        market.bid.show(venue, quote.bid.price, &quote.bid, position, is_open);
        market.offer.show(venue, !quote.offer.price, &quote.offer, position, is_open);
        let national = market.national();
        (national != before).then_some((place, national))
    }

    /// Halts a symbol on a venue, or resumes its trading, and returns as `quote` does.
    pub fn halt(
        &mut self,
        venue: usize,
        symbol: Symbol,
        is_halt: bool,
    ) -> Option<(usize, National)> {
        let place = self.table.place_of(symbol)?;
        let market = &mut self.markets[place];
        let before = market.national();
        market.halted[venue] = is_halt;
        market.open(venue, !is_halt && !self.is_helped[venue]);
        let national = market.national();
        (national != before).then_some((place, national))
    }

    /// Declares self-help on a venue, or withdraws it; each symbol is then to be helped.
    pub fn declare(&mut self, venue: usize, is_on: bool) {
        self.is_helped[venue] = is_on;
    }

    /// Counts a venue's quotations in a symbol, or not, by a declaration, and returns the national
    /// best where it has changed.
    pub fn help(&mut self, place: usize, venue: usize) -> Option<National> {
        let market = &mut self.markets[place];
        let before = market.national();
        market.open(venue, !market.halted[venue] && !self.is_helped[venue]);
        let national = market.national();
        (national != before).then_some(national)
    }

    /// Forgets what a venue shows in a symbol, and returns the national best where that has
    /// changed.
    pub fn leave(&mut self, place: usize, venue: usize) -> Option<National> {
        let market = &mut self.markets[place];
        let before = market.national();
        market.halted[venue] = false;
        market.bid.hide(venue);
        market.offer.hide(venue);
        let national = market.national();
        (national != before).then_some(national)
    }
}

#[cfg(test)]
mod tests {
    use super::*;
    use crate::item::Shown;
    use crate::order::{Best as First, Ranks};

    fn quote(bid: (u32, u64), offer: (u32, u64)) -> Quote {
        let shown = |(price, size)| Shown { price, size, automated: true };
        Quote { symbol: 7, bid: shown(bid), offer: shown(offer) }
    }

    /// Returns the venue, price and size of the best bid after quotations of venues in turn.
    fn best_bid<O: Order>(quotes: &[(usize, u32, u64)]) -> Option<Best> {
        let mut book = Book::<O>::new(&[7]).unwrap();
        for (position, (venue, price, size)) in (1..).zip(quotes) {
            book.quote(*venue, position, &quote((*price, *size), (0, 0)));
        }
        book.markets[0].national().bid
    }

    fn compare<O: Order>() {
        let best = |venue, price, size| Some(Best { venue, price, size });
        assert_eq!(best_bid::<O>(&[(0, 10, 5), (1, 11, 1)]), best(1, 11, 1));
        assert_eq!(best_bid::<O>(&[(0, 10, 5), (1, 10, 6)]), best(1, 10, 6));
        assert_eq!(best_bid::<O>(&[(1, 10, 5), (0, 10, 5), (1, 10, 5)]), best(1, 10, 5));
        assert_eq!(best_bid::<O>(&[(1, 10, 5), (0, 10, 5), (1, 9, 5), (1, 10, 5)]), best(0, 10, 5));
        assert_eq!(best_bid::<O>(&[(0, 10, 0), (1, 0, 5)]), None);
    }

    #[test]
    fn price_then_size_then_time() {
        compare::<Ranks>();
        compare::<First>();
    }

    fn halts_and_self_help_of<O: Order>() {
        let mut book = Book::<O>::new(&[7]).unwrap();
        let whole = book.quote(0, 1, &quote((10, 1), (12, 1))).unwrap().1;
        assert_eq!(whole.offer, Some(Best { venue: 0, price: 12, size: 1 }));
        assert_eq!(book.quote(0, 2, &quote((10, 1), (12, 1))), None);
        assert_eq!(book.halt(0, 7, true), Some((0, National::default())));
        book.declare(0, true);
        assert_eq!((book.help(0, 0), book.halt(0, 7, false)), (None, None));
        book.declare(0, false);
        assert_eq!(book.help(0, 0), Some(whole));
        assert_eq!(book.leave(0, 0), Some(National::default()));
        assert_eq!(book.halt(0, 7, false), None);
        assert_eq!(book.halt(0, 8, true), None);
    }

    #[test]
    fn halts_and_self_help() {
        halts_and_self_help_of::<Ranks>();
        halts_and_self_help_of::<First>();
    }
}
