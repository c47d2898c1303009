//! Which venue's side comes first in a symbol: by its key, of which a greater one is better, and 0
//! is none.

pub const VENUES: usize = 16;

/// A set of venues.
pub type Venues = u16;

/// The keys of the venues; those that don't count have none.
#[derive(Clone, Default)]
pub struct Keys {
    pub all: [u128; VENUES],
    pub counting: Venues,
}

impl Keys {
    #[inline(always)]
    pub fn of(&self, venue: usize) -> u128 {
        if self.counting >> (venue % VENUES) & 1 != 0 {
            self.all[venue % VENUES]
        } else {
            0
        }
    }
}

/// How the first venue is found.
pub trait Order: Clone + Default {
    /// Puts a venue in its place after its key, which was this one, has changed. All venues with a
    /// key have been put so.
    fn put(&mut self, venue: usize, was: u128, keys: &Keys);

    /// Returns the first venue, which may have the key 0 where all have.
    fn first(&self) -> usize;
}

/// All venues in order: each change keeps the ranks of all.
#[derive(Clone, Copy)]
pub struct Ranks {
    venues: [u8; VENUES],
    rank_of: [u8; VENUES],
}

impl Default for Ranks {
    fn default() -> Ranks {
        let venues = std::array::from_fn(|it| it as u8);
        Ranks { venues, rank_of: venues }
    }
}

impl Order for Ranks {
    #[inline]
    fn put(&mut self, venue: usize, _: u128, keys: &Keys) {
        let key = keys.of(venue);
        let begun = usize::from(self.rank_of[venue]) % VENUES;
        let mut rank = begun;
        while rank > 0 && keys.of(usize::from(self.venues[rank - 1])) < key {
            self.set(rank, self.venues[rank - 1]);
            rank -= 1;
        }
        while rank + 1 < VENUES
            && rank >= begun
            && keys.of(usize::from(self.venues[rank + 1])) > key
        {
            self.set(rank, self.venues[rank + 1]);
            rank += 1;
        }
        self.set(rank, venue as u8);
    }

    #[inline]
    fn first(&self) -> usize {
        usize::from(self.venues[0]) % VENUES
    }
}

impl Ranks {
    #[inline]
    fn set(&mut self, rank: usize, venue: u8) {
        self.venues[rank] = venue;
        self.rank_of[usize::from(venue) % VENUES] = rank as u8;
    }
}

/// The first venue alone; where it gets worse all are looked at.
#[derive(Clone, Copy, Default)]
pub struct Best {
    first: u8,
}

impl Order for Best {
    #[inline]
    fn put(&mut self, venue: usize, was: u128, keys: &Keys) {
        let first = self.first();
        let key = keys.of(venue);
        if venue == first && key < was {
            let mut left = keys.counting;
            while left != 0 {
                let other = left.trailing_zeros();
                left &= left - 1;
                if keys.all[other as usize] > keys.of(self.first()) {
                    self.first = other as u8;
                }
            }
        } else if venue != first && key > keys.of(first) {
            self.first = venue as u8;
        }
    }

    #[inline]
    fn first(&self) -> usize {
        usize::from(self.first) % VENUES
    }
}

#[cfg(test)]
mod tests {
    use super::*;

    /// Changes keys one after another, and compares what comes first with the greatest key.
    fn compare<O: Order>(see: impl Fn(&O, &Keys)) {
        let (mut keys, mut order, mut state) = (Keys::default(), O::default(), 1_u64);
        for _ in 0..20_000 {
            state = state.wrapping_mul(6_364_136_223_846_793_005).wrapping_add(1);
            let venue = (state >> 60) as usize;
            let new = (state >> 40) & 0x3f;
            // No two keys are the same but 0.
            let was = keys.of(venue);
            keys.all[venue] = u128::from(new) << 8 | venue as u128;
            keys.counting = keys.counting & !(1 << venue) | Venues::from(new >= 16) << venue;
            order.put(venue, was, &keys);
            assert_eq!(keys.of(order.first()), (0..VENUES).map(|it| keys.of(it)).max().unwrap());
            see(&order, &keys);
        }
    }

    #[test]
    fn the_first_alone() {
        compare::<Best>(|_, _| ());
    }

    #[test]
    fn all_ranks() {
        compare::<Ranks>(|order, keys| {
            let ranked: Vec<u128> =
                order.venues.iter().map(|it| keys.of(usize::from(*it))).collect();
            assert!(ranked.is_sorted_by(|one, other| one >= other));
            for (rank, venue) in order.venues.iter().enumerate() {
                assert_eq!(usize::from(order.rank_of[usize::from(*venue)]), rank);
            }
        });
    }
}
