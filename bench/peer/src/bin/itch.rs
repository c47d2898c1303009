//! A venue's order book from ITCH messages, in plain Rust, to be measured beside the crates `itch_messages` and
//! `itch_book`, and the flow on which both are measured.
//!
//!     itch flow MESSAGES SYMBOLS LIVE SEED > FLOW    messages, each after its length in two bytes
//!     itch book SYMBOLS ORDERS MODE < FLOW           walks over them, reads them, or keeps the book of S0, S1, ..
//!
//! MODE is `walk`, `read` or `book`. It prints the numbers of messages and quotations, a sum over the latter, and the
//! time of the pass in tenths of a nanosecond a message. bench/itch runs it.

use std::collections::HashMap;
use std::hash::{BuildHasherDefault, Hasher};
use std::io::{self, Read, Write};
use std::time::Instant;

/// Draws numbers, the same for the same seed.
struct Draws {
    state: u64,
}

impl Draws {
    fn next(&mut self) -> u64 {
        self.state ^= self.state << 13;
        self.state ^= self.state >> 7;
        self.state ^= self.state << 17;
        self.state.wrapping_mul(2_685_821_657_736_338_717) >> 11
    }

    fn below(&mut self, end: u64) -> u64 {
        self.next() % end
    }

    /// A number from 0 to 1.
    fn part(&mut self) -> f64 {
        (self.next() & ((1 << 40) - 1)) as f64 / (1u64 << 40) as f64
    }

    /// A number of which small ones are frequent, `mean` on average.
    fn near(&mut self, mean: f64) -> u64 {
        (-(1.0 - self.part()).ln() * mean) as u64
    }
}

#[derive(Clone, Copy)]
struct FlowOrder {
    reference: u64,
    symbol: usize,
    is_bid: bool,
    price: u32,
    shares: u32,
}

/// A flow of adds, deletes, executions, cancels and replaces, at prices near ones that walk. It keeps some `wanted`
/// orders live, of which a third are odd lots, and most of what happens to orders happens to young ones.
struct Flow {
    draws: Draws,
    middles: Vec<u32>,
    live: Vec<FlowOrder>,
    wanted: usize,
    next: u64,
}

fn message(kind: u8, symbol: usize, fields: &[&[u8]]) -> Vec<u8> {
    let mut bytes = vec![0, 0, kind];
    bytes.extend_from_slice(&(symbol as u16).to_be_bytes());
    bytes.extend_from_slice(&[0; 8]);
    for field in fields {
        bytes.extend_from_slice(field);
    }
    let len = (bytes.len() - 2) as u16;
    bytes[..2].copy_from_slice(&len.to_be_bytes());
    bytes
}

fn name_of(symbol: usize) -> [u8; 8] {
    let mut name = [b' '; 8];
    let text = format!("S{symbol}");
    name[..text.len()].copy_from_slice(text.as_bytes());
    name
}

impl Flow {
    fn new(symbols: usize, wanted: usize, seed: u64) -> Flow {
        let mut draws = Draws { state: seed.wrapping_mul(7_919) + 88_172_645_463_325_252 };
        let middles = (0..symbols).map(|_| 100_000 + draws.below(4_000) as u32 * 100).collect();
        Flow { draws, middles, live: Vec::new(), wanted, next: 1 }
    }

    /// A price of a side near the symbol's middle, few of them far.
    fn price(&mut self, symbol: usize, is_bid: bool) -> u32 {
        let far = if self.draws.below(12) == 0 { self.draws.near(80.0) } else { 0 };
        let away = 100 * (1 + self.draws.near(3.0) + far) as u32;
        let middle = self.middles[symbol];
        if is_bid { middle.saturating_sub(away).max(100) } else { middle + away }
    }

    fn shares(&mut self) -> u32 {
        if self.draws.below(3) > 0 { 100 * (1 + self.draws.below(5) as u32) } else { 1 + self.draws.below(99) as u32 }
    }

    fn take_reference(&mut self) -> u64 {
        let reference = self.next;
        self.next += 1 + self.draws.below(3);
        reference
    }

    fn add(&mut self) -> Vec<u8> {
        let part = self.draws.part();
        let symbol = ((self.middles.len() as f64 * part * part * part) as usize).min(self.middles.len() - 1);
        if self.draws.below(50) == 0 {
            let up = self.draws.below(2) == 0;
            let middle = &mut self.middles[symbol];
            *middle = if up { *middle + 100 } else { (*middle - 100).max(5_000) };
        }
        let is_bid = self.draws.below(2) == 0;
        let price = self.price(symbol, is_bid);
        let shares = self.shares();
        let reference = self.take_reference();
        self.live.push(FlowOrder { reference, symbol, is_bid, price, shares });
        let side = [if is_bid { b'B' } else { b'S' }];
        let (reference, shares, price) = (reference.to_be_bytes(), shares.to_be_bytes(), price.to_be_bytes());
        let name = name_of(symbol);
        if self.draws.below(10) == 0 {
            message(b'F', symbol, &[&reference, &side, &shares, &name, &price, b"MPID"])
        } else {
            message(b'A', symbol, &[&reference, &side, &shares, &name, &price])
        }
    }

    /// The place of an order, mostly of a young one.
    fn pick(&mut self) -> usize {
        let count = self.live.len();
        if self.draws.below(10) > 0 {
            let back = self.draws.near(400.0) as usize;
            if back < count {
                return count - 1 - back;
            }
        }
        self.draws.below(count as u64) as usize
    }

    fn change(&mut self) -> Vec<u8> {
        let place = self.pick();
        let order = self.live[place];
        let reference = order.reference.to_be_bytes();
        let kind = self.draws.below(100);
        if kind < 68 {
            self.live.swap_remove(place);
            return message(b'D', order.symbol, &[&reference]);
        }
        if kind < 87 {
            let whole = kind < 84 && self.draws.below(2) == 0;
            let less = if whole { order.shares } else { 1 + self.draws.below(order.shares.into()) as u32 };
            self.live[place].shares -= less;
            if less == order.shares {
                self.live.swap_remove(place);
            }
            let less = less.to_be_bytes();
            return match self.draws.below(20) {
                _ if kind >= 84 => message(b'X', order.symbol, &[&reference, &less]),
                0 => message(b'C', order.symbol, &[&reference, &less, &[0; 8], b"Y", &order.price.to_be_bytes()]),
                _ => message(b'E', order.symbol, &[&reference, &less, &[0; 8]]),
            };
        }
        let price = self.price(order.symbol, order.is_bid);
        let shares = 100 * (1 + self.draws.below(5) as u32);
        let new_reference = self.take_reference();
        self.live.swap_remove(place);
        self.live.push(FlowOrder { reference: new_reference, price, shares, ..order });
        let fields: [&[u8]; 4] =
            [&reference, &new_reference.to_be_bytes(), &shares.to_be_bytes(), &price.to_be_bytes()];
        message(b'U', order.symbol, &fields)
    }

    fn next(&mut self) -> Vec<u8> {
        let adds = if self.live.len() < self.wanted { 0.62 } else { 0.44 };
        if self.live.is_empty() || self.draws.part() < adds { self.add() } else { self.change() }
    }
}

fn write_flow(words: &[u64]) -> io::Result<()> {
    let mut flow = Flow::new(words[1] as usize, words[2] as usize, words[3]);
    let mut output = io::BufWriter::new(io::stdout().lock());
    for symbol in 0..flow.middles.len() {
        let fields: [&[u8]; 4] = [&name_of(symbol), b"  ", &100u32.to_be_bytes(), &[b' '; 14]];
        output.write_all(&message(b'R', symbol, &fields))?;
    }
    for _ in 0..words[0] {
        output.write_all(&flow.next())?;
    }
    output.flush()
}

/// Multiplies a key by an odd number, and takes the upper bits.
#[derive(Default)]
struct KeyHasher {
    hash: u64,
}

impl Hasher for KeyHasher {
    fn finish(&self) -> u64 {
        self.hash
    }

    fn write(&mut self, bytes: &[u8]) {
        for byte in bytes {
            self.write_u64((*byte).into());
        }
    }

    fn write_u64(&mut self, key: u64) {
        let product = u128::from(self.hash ^ key) * 0x9e37_79b9_7f4a_7c15_u128;
        self.hash = (product >> 64) as u64 ^ product as u64;
    }
}

type Keyed<V> = HashMap<u64, V, BuildHasherDefault<KeyHasher>>;

#[derive(Clone, Copy)]
struct Order {
    symbol: u32,
    is_bid: bool,
    price: u32,
    shares: u32,
}

#[derive(Clone, Copy, PartialEq)]
struct Best {
    price: u32,
    size: u64,
}

/// The levels of a side, the best last.
#[derive(Default)]
struct Levels {
    levels: Vec<(u32, u64)>,
}

impl Levels {
    /// The place of a price, or where it would be.
    fn place(&self, price: u32, is_bid: bool) -> usize {
        let worse = |other: u32| if is_bid { other < price } else { other > price };
        let mut place = self.levels.len();
        while place > 0 && !worse(self.levels[place - 1].0) {
            place -= 1;
        }
        place
    }

    fn add(&mut self, price: u32, shares: u32, is_bid: bool) {
        let place = self.place(price, is_bid);
        match self.levels.get_mut(place) {
            Some(level) if level.0 == price => level.1 += u64::from(shares),
            _ => self.levels.insert(place, (price, shares.into())),
        }
    }

    fn take(&mut self, price: u32, shares: u32, is_bid: bool) {
        let place = self.place(price, is_bid);
        self.levels[place].1 -= u64::from(shares);
        if self.levels[place].1 == 0 {
            self.levels.remove(place);
        }
    }

    fn best(&self, lot: u32) -> Best {
        let lot = u64::from(lot);
        let mut depth = 0;
        for (price, shares) in self.levels.iter().rev() {
            depth += shares;
            if depth >= lot {
                return Best { price: *price, size: depth - depth % lot };
            }
        }
        Best { price: 0, size: 0 }
    }
}

#[derive(Default)]
struct Symbol {
    bids: Levels,
    offers: Levels,
    lot: u32,
}

struct Book {
    places: Keyed<u32>,
    orders: Keyed<Order>,
    symbols: Vec<Symbol>,
    shown: Vec<[Best; 2]>,
}

enum Event {
    Add { reference: u64, name: u64, order: Order },
    Reduce { reference: u64, shares: u32 },
    Delete { reference: u64 },
    Replace { reference: u64, new_reference: u64, shares: u32, price: u32 },
    Lot { name: u64, lot: u32 },
    Other,
}

fn u32_at(message: &[u8], offset: usize) -> u32 {
    u32::from_be_bytes(message[offset..offset + 4].try_into().unwrap())
}

fn u64_at(message: &[u8], offset: usize) -> u64 {
    u64::from_be_bytes(message[offset..offset + 8].try_into().unwrap())
}

fn read(message: &[u8]) -> Event {
    match (message.first(), message.len()) {
        (Some(b'A'), 36) | (Some(b'F'), 40) => {
            let is_bid = message[19] == b'B';
            let order = Order { symbol: 0, is_bid, price: u32_at(message, 32), shares: u32_at(message, 20) };
            Event::Add { reference: u64_at(message, 11), name: u64_at(message, 24), order }
        }
        (Some(b'E'), 31) | (Some(b'C'), 36) | (Some(b'X'), 23) => {
            Event::Reduce { reference: u64_at(message, 11), shares: u32_at(message, 19) }
        }
        (Some(b'D'), 19) => Event::Delete { reference: u64_at(message, 11) },
        (Some(b'U'), 35) => Event::Replace {
            reference: u64_at(message, 11),
            new_reference: u64_at(message, 19),
            shares: u32_at(message, 27),
            price: u32_at(message, 31),
        },
        (Some(b'R'), 39) => Event::Lot { name: u64_at(message, 11), lot: u32_at(message, 21) },
        _ => Event::Other,
    }
}

impl Book {
    fn new(symbols: usize, orders: usize) -> Book {
        let places = (0..symbols).map(|place| (u64::from_be_bytes(name_of(place)), place as u32)).collect();
        let none = Best { price: 0, size: 0 };
        Book {
            places,
            orders: Keyed::with_capacity_and_hasher(orders, BuildHasherDefault::default()),
            symbols: (0..symbols).map(|_| Symbol { lot: 100, ..Symbol::default() }).collect(),
            shown: vec![[none; 2]; symbols],
        }
    }

    fn levels(&mut self, order: &Order) -> &mut Levels {
        let symbol = &mut self.symbols[order.symbol as usize];
        if order.is_bid { &mut symbol.bids } else { &mut symbol.offers }
    }

    fn add(&mut self, reference: u64, order: Order) {
        if order.shares == 0 || self.orders.contains_key(&reference) {
            return;
        }
        self.orders.insert(reference, order);
        self.levels(&order).add(order.price, order.shares, order.is_bid);
    }

    fn remove(&mut self, reference: u64) -> Option<Order> {
        let order = self.orders.remove(&reference)?;
        self.levels(&order).take(order.price, order.shares, order.is_bid);
        Some(order)
    }

    fn reduce(&mut self, reference: u64, shares: u32) -> Option<Order> {
        let order = self.orders.get_mut(&reference)?;
        if order.shares <= shares {
            return self.remove(reference);
        }
        order.shares -= shares;
        let order = *order;
        self.levels(&order).take(order.price, shares, order.is_bid);
        Some(order)
    }

    /// Shows a side of a symbol anew. Returns whether it differs.
    fn show(&mut self, place: usize, is_bid: bool) -> bool {
        let symbol = &self.symbols[place];
        let best = if is_bid { symbol.bids.best(symbol.lot) } else { symbol.offers.best(symbol.lot) };
        let shown = &mut self.shown[place][usize::from(!is_bid)];
        let differs = *shown != best;
        *shown = best;
        differs
    }

    /// Applies a message. Returns the place of the symbol whose quotation differs.
    fn apply(&mut self, event: &Event) -> Option<usize> {
        let order = match *event {
            Event::Add { reference, name, order } => {
                let order = Order { symbol: *self.places.get(&name)?, ..order };
                self.add(reference, order);
                order
            }
            Event::Reduce { reference, shares } => self.reduce(reference, shares)?,
            Event::Delete { reference } => self.remove(reference)?,
            Event::Replace { reference, new_reference, shares, price } => {
                let order = self.remove(reference)?;
                self.add(new_reference, Order { price, shares, ..order });
                order
            }
            Event::Lot { name, lot } => {
                let place = *self.places.get(&name)? as usize;
                self.symbols[place].lot = if lot > 0 { lot } else { self.symbols[place].lot };
                let (bid, offer) = (self.show(place, true), self.show(place, false));
                return (bid || offer).then_some(place);
            }
            Event::Other => return None,
        };
        let place = order.symbol as usize;
        self.show(place, order.is_bid).then_some(place)
    }
}

#[derive(Default)]
struct Sum {
    messages: u64,
    quotations: u64,
    sum: u64,
}

fn key_of(event: &Event) -> u64 {
    match *event {
        Event::Add { reference, .. } | Event::Reduce { reference, .. } | Event::Delete { reference } => reference,
        Event::Replace { reference, new_reference, .. } => reference ^ new_reference,
        _ => 0,
    }
}

fn pass(bytes: &[u8], book: &mut Book, mode: &str) -> Sum {
    let (walks, reads) = (mode == "walk", mode == "read");
    let (mut sum, mut rest) = (Sum::default(), bytes);
    while rest.len() > 2 {
        let len = usize::from(u16::from_be_bytes([rest[0], rest[1]]));
        let (message, after) = rest[2..].split_at(len);
        rest = after;
        sum.messages += 1;
        if walks {
            sum.sum = sum.sum.wrapping_add(len as u64);
            continue;
        }
        let event = read(message);
        if reads {
            sum.sum = sum.sum.wrapping_add(key_of(&event));
        } else if let Some(place) = book.apply(&event) {
            let [bid, offer] = book.shown[place];
            sum.quotations += 1;
            for value in [place as u64, bid.price.into(), bid.size, offer.price.into(), offer.size] {
                sum.sum = sum.sum.wrapping_mul(31).wrapping_add(value);
            }
        }
    }
    sum
}

fn keep_book(symbols: u64, orders: u64, mode: &str) -> io::Result<()> {
    let mut bytes = Vec::new();
    io::stdin().lock().read_to_end(&mut bytes)?;
    let mut book = Book::new(symbols as usize, orders as usize);
    let begun = Instant::now();
    let Sum { messages, quotations, sum } = pass(&bytes, &mut book, mode);
    let tenths = begun.elapsed().as_nanos() as u64 * 10 / messages.max(1);
    println!("{messages} messages, {quotations} quotations, sum {sum}, {tenths} tenths of a ns");
    Ok(())
}

fn main() -> io::Result<()> {
    let words: Vec<String> = std::env::args().skip(1).collect();
    let numbers: Vec<u64> = words.iter().skip(1).filter_map(|word| word.parse().ok()).collect();
    match (words.first().map(String::as_str), numbers.len(), words.get(3)) {
        (Some("flow"), 4, _) => write_flow(&numbers),
        (Some("book"), 2, Some(mode)) => keep_book(numbers[0], numbers[1], mode),
        _ => {
            eprintln!("usage: itch flow MESSAGES SYMBOLS LIVE SEED | itch book SYMBOLS ORDERS MODE");
            std::process::exit(2);
        }
    }
}
