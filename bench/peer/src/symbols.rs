//! The places of the symbols of the command line.

use crate::item::Symbol;

/// A table that is at most half full. A symbol lies at its hash or in a slot after it; no symbol is
/// 0.
pub struct SymbolTable {
    slots: Vec<(Symbol, u32)>,
    shift: u32,
}

const MULTIPLIER: u64 = 0x9e37_79b9_7f4a_7c15;

impl SymbolTable {
    /// Keeps the symbols, or returns the first one that comes twice.
    pub fn new(symbols: &[Symbol]) -> Result<SymbolTable, Symbol> {
        let length = (2 * symbols.len()).next_power_of_two().max(2);
        let mut table =
            SymbolTable { slots: vec![(0, 0); length], shift: 64 - length.trailing_zeros() };
        for (place, symbol) in (0..).zip(symbols) {
            let slot = table.slot_of(*symbol);
            if table.slots[slot].0 == *symbol {
                return Err(*symbol);
            }
            table.slots[slot] = (*symbol, place);
        }
        Ok(table)
    }

    /// Returns the slot that has the symbol, or the first free one after its hash.
    #[inline]
    fn slot_of(&self, symbol: Symbol) -> usize {
        let mut slot = (symbol.wrapping_mul(MULTIPLIER) >> self.shift) as usize;
        while self.slots[slot].0 != symbol && self.slots[slot].0 != 0 {
            slot = (slot + 1) & (self.slots.len() - 1);
        }
        slot
    }

    /// Returns a symbol's place on the command line.
    #[inline]
    pub fn place_of(&self, symbol: Symbol) -> Option<usize> {
        let (found, place) = self.slots[self.slot_of(symbol)];
        (found == symbol).then_some(place as usize)
    }
}

#[cfg(test)]
mod tests {
    use super::*;

    #[test]
    fn each_symbol_has_its_place() {
        for count in [0, 1, 2, 3, 1000, 4096] {
            let symbols: Vec<Symbol> = (1..=count).map(|it| it << 32).collect();
            let table = SymbolTable::new(&symbols).unwrap();
            for (place, symbol) in symbols.iter().enumerate() {
                assert_eq!(table.place_of(*symbol), Some(place));
                assert_eq!(table.place_of(symbol + 1), None);
            }
        }
    }

    #[test]
    fn a_symbol_that_comes_twice() {
        assert_eq!(SymbolTable::new(&[3, 5, 3]).err(), Some(3));
    }
}
