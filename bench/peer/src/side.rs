//! One side of a symbol: what each venue shows, and which of those that count comes first.

use crate::item::Shown;
use crate::order::{Keys, Order, Venues, VENUES};

/// A venue, its price and its size.
#[derive(Clone, Copy, Debug, PartialEq, Eq)]
pub struct Best {
    pub venue: usize,
    pub price: u32,
    pub size: u64,
}

/// What the venues show. A key has the price highest, then the size, then the age, so that the
/// greatest one ranks first: offers have the complement of their price, and of ages the lowest
/// counts most.
#[derive(Clone)]
pub struct Side<O> {
    keys: Keys,
    shown: Venues,
    automated: Venues,
    order: O,
}

impl<O: Default> Default for Side<O> {
    fn default() -> Side<O> {
        Side { keys: Keys::default(), shown: 0, automated: 0, order: O::default() }
    }
}

fn bit(venue: usize) -> Venues {
    1 << (venue % VENUES)
}

/// Returns the set with a venue in it or not.
#[inline]
fn with(venues: Venues, venue: usize, is_in: bool) -> Venues {
    venues & !bit(venue) | Venues::from(is_in) << (venue % VENUES)
}

impl<O: Order> Side<O> {
    /// Takes what a venue shows from a position on; `price` is complemented for an offer. What
    /// stays the same keeps its age.
    #[inline]
    pub fn show(&mut self, venue: usize, price: u32, shown: &Shown, position: u32, is_open: bool) {
        let key = u128::from(price) << 96 | u128::from(shown.size) << 32 | u128::from(!position);
        let was_shown = self.shown & bit(venue) != 0;
        let was_automated = self.automated & bit(venue) != 0;
        let old = self.keys.all[venue % VENUES];
        if was_shown && old >> 32 == key >> 32 && was_automated == shown.automated {
            return;
        }
        let was = self.keys.of(venue);
        self.keys.all[venue % VENUES] = key;
        self.shown |= bit(venue);
        self.automated = with(self.automated, venue, shown.automated);
        let has_both = shown.price != 0 && shown.size != 0;
        self.keys.counting =
            with(self.keys.counting, venue, shown.automated && has_both && is_open);
        self.put(venue, was);
    }

    /// Takes what a venue shows away.
    pub fn hide(&mut self, venue: usize) {
        let was = self.keys.of(venue);
        self.shown = with(self.shown, venue, false);
        self.keys.counting = with(self.keys.counting, venue, false);
        self.put(venue, was);
    }

    /// Counts a venue's side, or not, by whether the venue is open in the symbol.
    pub fn open(&mut self, venue: usize, is_open: bool, none: u32) {
        let was = self.keys.of(venue);
        let key = self.keys.all[venue % VENUES];
        let is_whole = (key >> 96) as u32 != none && (key >> 32) as u64 != 0;
        let may_count = self.shown & self.automated & bit(venue) != 0 && is_whole;
        self.keys.counting = with(self.keys.counting, venue, is_open && may_count);
        self.put(venue, was);
    }

    #[inline]
    fn put(&mut self, venue: usize, was: u128) {
        self.order.put(venue, was, &self.keys);
    }

    /// Returns the first venue of those that count; an offer's price is complemented.
    #[inline]
    pub fn first(&self) -> Option<Best> {
        let venue = self.order.first();
        let key = self.keys.all[venue];
        let best = Best { venue, price: (key >> 96) as u32, size: (key >> 32) as u64 };
        (self.keys.counting & bit(venue) != 0).then_some(best)
    }
}
