//! The messages that a venue holds past the last one in sequence.

use crate::item::Item;

const BITS: u64 = 64;

/// A ring of items by their numbers, with a bit for each that is held. Its length is a power of
/// two, and all numbers that are held lie within it.
pub struct Window {
    items: Vec<Item>,
    bits: Vec<u64>,
    count: usize,
}

impl Window {
    /// Makes room for so many numbers in a row.
    pub fn new(length: u32) -> Window {
        let length = u64::from(length).next_power_of_two().max(BITS);
        Window {
            items: vec![Item::Other; length as usize],
            bits: vec![0; (length / BITS) as usize],
            count: 0,
        }
    }

    pub fn is_empty(&self) -> bool {
        self.count == 0
    }

    #[inline]
    fn place(&self, number: u64) -> usize {
        number as usize & (self.items.len() - 1)
    }

    /// Returns the item that is held at a number.
    #[inline]
    pub fn at(&self, number: u64) -> Option<&Item> {
        let place = self.place(number);
        let is_held = self.bits[place / 64] >> (place % 64) & 1 != 0;
        is_held.then(|| &self.items[place])
    }

    /// Holds an item at a number at which none is held.
    #[inline]
    pub fn put(&mut self, number: u64, item: Item) {
        let place = self.place(number);
        self.items[place] = item;
        self.bits[place / 64] |= 1 << (place % 64);
        self.count += 1;
    }

    /// Lets the item at a number go, and returns it.
    #[inline]
    pub fn take(&mut self, number: u64) -> Option<Item> {
        let item = *self.at(number)?;
        let place = self.place(number);
        self.bits[place / 64] &= !(1 << (place % 64));
        self.count -= 1;
        Some(item)
    }

    /// Returns the lowest number that is held; all lie past this one.
    pub fn lowest(&self, past: u64) -> Option<u64> {
        if self.is_empty() {
            return None;
        }
        let mut number = past + 1;
        loop {
            let place = self.place(number);
            let rest = self.bits[place / 64] >> (place % 64);
            if rest != 0 {
                return Some(number + u64::from(rest.trailing_zeros()));
            }
            number += BITS - (place % 64) as u64;
        }
    }
}

#[cfg(test)]
mod tests {
    use super::*;

    #[test]
    fn items_by_their_numbers() {
        let mut window = Window::new(100);
        window.put(130, Item::Halt(1));
        window.put(131, Item::Trading(2));
        assert_eq!(window.at(129), None);
        assert_eq!(window.at(130), Some(&Item::Halt(1)));
        assert_eq!((window.take(131), window.take(131)), (Some(Item::Trading(2)), None));
        assert!(!window.is_empty());
        assert_eq!(window.take(130), Some(Item::Halt(1)));
        assert!(window.is_empty());
    }

    #[test]
    fn the_lowest_of_all() {
        for number in 1000..1300 {
            for more in [0, 1, 63, 64, 127] {
                let mut window = Window::new(128);
                assert_eq!(window.lowest(number - 1), None);
                window.put(number + more, Item::Other);
                assert_eq!(window.lowest(number - 1), Some(number + more));
                if more > 0 {
                    window.put(number, Item::Other);
                    assert_eq!(window.lowest(number - 1), Some(number));
                }
            }
        }
    }
}
