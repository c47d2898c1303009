//! One sequence of two lines and recovery: which of a venue's packets bring what is new, and which
//! items are ready.

use crate::item::Item;
use crate::packet::{Kind, Packet, SessionName};
use crate::refusal::Refusal;
use crate::window::Window;

pub const LINES: usize = 3;
const MOST_SESSIONS: usize = 64;

#[derive(Clone, Copy, Debug, PartialEq, Eq)]
pub enum Outcome {
    Taken { new: u64, repeated: u64 },
    Heartbeat,
    Ended,
    Ahead,
}

/// The state of a venue's present session, and what is counted over all of them.
pub struct Arbiter {
    session: SessionName,
    /// All names that the venue's sessions have had.
    names: Vec<SessionName>,
    window: u64,
    /// All numbers up to this one have come out or were given up.
    front: u64,
    /// The packets show the session up to this number.
    known: u64,
    /// The greatest number that was taken or given up.
    greatest: u64,
    end: Option<u64>,
    is_over: bool,
    held: Window,
    /// Where something is held, no number below this one is, past the front.
    lowest: u64,
    pub sent: u64,
    pub wins: [u64; LINES],
}

impl Arbiter {
    pub fn new(session: SessionName, window: u32) -> Arbiter {
        Arbiter {
            session,
            names: vec![session],
            window: u64::from(window),
            front: 0,
            known: 0,
            greatest: 0,
            end: None,
            is_over: false,
            held: Window::new(window),
            lowest: 0,
            sent: 0,
            wins: [0; LINES],
        }
    }

    /// Answers a packet that came on a line. What is new of one that was taken is then to be
    /// delivered.
    #[inline(always)]
    pub fn answer(&mut self, line: usize, packet: &Packet<'_>) -> Result<Outcome, Refusal> {
        if self.session != *packet.session {
            return Err(Refusal::OtherSession);
        }
        match packet.kind {
            Kind::Messages => self.answer_messages(line, packet),
            Kind::Heartbeat => self.answer_heartbeat(packet.number),
            Kind::End => self.answer_end(packet.number),
        }
    }

    #[inline(always)]
    fn answer_messages(&mut self, line: usize, packet: &Packet<'_>) -> Result<Outcome, Refusal> {
        let last = packet.last();
        if self.end.is_some_and(|end| last >= end) {
            return Err(Refusal::PastEnd);
        }
        if last > self.front && last - self.front > self.window {
            self.known = self.known.max(last);
            return Ok(Outcome::Ahead);
        }
        let count = u64::from(packet.count);
        let repeated = if self.held.is_empty() {
            self.front.saturating_sub(packet.number - 1).min(count)
        } else {
            self.repeats(packet)?
        };
        self.known = self.known.max(last);
        self.greatest = self.greatest.max(last);
        self.wins[line] += count - repeated;
        Ok(Outcome::Taken { new: count - repeated, repeated })
    }

    /// Counts the messages that came before, or reports that one differs from that which is held at
    /// its number.
    fn repeats(&self, packet: &Packet<'_>) -> Result<u64, Refusal> {
        let mut repeated = 0;
        for (number, message) in (packet.number..=packet.last()).zip(packet.messages()) {
            if number <= self.front {
                repeated += 1;
            } else if let Some(item) = self.held.at(number) {
                if *item != Item::read(message) {
                    return Err(Refusal::Conflict);
                }
                repeated += 1;
            }
        }
        Ok(repeated)
    }

    fn answer_heartbeat(&mut self, number: u64) -> Result<Outcome, Refusal> {
        if self.end.is_some_and(|end| number > end) {
            return Err(Refusal::PastEnd);
        }
        self.known = self.known.max(number - 1);
        Ok(Outcome::Heartbeat)
    }

    fn answer_end(&mut self, number: u64) -> Result<Outcome, Refusal> {
        match self.end {
            Some(end) if end != number => Err(Refusal::EndMoved),
            None if self.greatest >= number => Err(Refusal::EndTooEarly),
            _ => {
                self.end = Some(number);
                self.known = number - 1;
                Ok(Outcome::Ended)
            }
        }
    }

    /// Delivers, in sequence, what is ready by a packet that was taken.
    #[inline(always)]
    pub fn deliver<E>(
        &mut self,
        packet: &Packet<'_>,
        mut take: impl FnMut(u64, &Item) -> Result<(), E>,
    ) -> Result<(), E> {
        if packet.number - 1 > self.front || !self.held.is_empty() {
            self.hold(packet);
        } else {
            let passed = self.front - (packet.number - 1);
            for message in packet.messages().skip(passed as usize) {
                take(self.front + 1, &Item::read(message))?;
                self.front += 1;
                self.sent += 1;
            }
        }
        self.deliver_held(take)
    }

    /// Holds those messages of a packet that are new.
    fn hold(&mut self, packet: &Packet<'_>) {
        let was_empty = self.held.is_empty();
        for (number, message) in (packet.number..=packet.last()).zip(packet.messages()) {
            if number > self.front && self.held.at(number).is_none() {
                self.held.put(number, Item::read(message));
            }
        }
        self.lowest = if was_empty { packet.number } else { self.lowest.min(packet.number) };
    }

    /// Delivers the items that are held next to the front, and the end where it comes next.
    #[inline(always)]
    pub fn deliver_held<E>(
        &mut self,
        mut take: impl FnMut(u64, &Item) -> Result<(), E>,
    ) -> Result<(), E> {
        while !self.held.is_empty() {
            let Some(item) = self.held.take(self.front + 1) else {
                break;
            };
            take(self.front + 1, &item)?;
            self.front += 1;
            self.sent += 1;
        }
        match self.end {
            Some(end) if end - 1 == self.front && !self.is_over => {
                take(end, &Item::End)?;
                self.is_over = true;
                self.sent += 1;
                Ok(())
            }
            _ => Ok(()),
        }
    }

    /// Returns the first run of numbers to ask for, as its first one and how many they are.
    pub fn gap(&mut self) -> Option<(u64, u64)> {
        if self.known <= self.front {
            return None;
        }
        let mut last = self.known.min(self.front.saturating_add(self.window));
        if !self.held.is_empty() {
            if self.held.at(self.lowest).is_none() || self.lowest <= self.front {
                self.lowest = self.held.lowest(self.front)?;
            }
            last = last.min(self.lowest - 1);
        }
        Some((self.front + 1, last - self.front))
    }

    /// Gives up the numbers below this one that are missing, of which none may be held past the
    /// front.
    pub fn skip(&mut self, number: u64) -> Result<(), Refusal> {
        if self.end.is_some_and(|end| end < number) {
            return Err(Refusal::SkipPastEnd);
        }
        if number == 0 || number - 1 <= self.front {
            return Err(Refusal::NothingMissing);
        }
        if self.held.lowest(self.front).is_some_and(|held| held < number) {
            return Err(Refusal::HeldBelow);
        }
        self.front = number - 1;
        self.known = self.known.max(self.front);
        self.greatest = self.greatest.max(self.front);
        self.sent += 1;
        Ok(())
    }

    /// Begins the venue's next session once the present one is over, and returns which one it is,
    /// from 2.
    pub fn renew(&mut self, name: SessionName) -> Result<usize, Refusal> {
        if !self.is_over {
            return Err(Refusal::NotEnded);
        }
        if self.names.contains(&name) {
            return Err(Refusal::SessionUsed);
        }
        if self.names.len() == MOST_SESSIONS {
            return Err(Refusal::TooManySessions);
        }
        self.session = name;
        self.names.push(name);
        (self.front, self.known, self.greatest) = (0, 0, 0);
        (self.end, self.is_over) = (None, false);
        Ok(self.names.len())
    }
}

#[cfg(test)]
mod tests {
    use super::*;
    use crate::packet::tests::{head, packet, SESSION};

    fn arbiter() -> Arbiter {
        Arbiter::new(SESSION, 4)
    }

    /// Gives a packet on line A, and returns its answer and the numbers that come out.
    fn give(arbiter: &mut Arbiter, bytes: &[u8]) -> (Result<Outcome, Refusal>, Vec<u64>) {
        let read = Packet::read(bytes).unwrap();
        let answer = arbiter.answer(0, &read);
        let mut out = Vec::new();
        let mut take = |number, _: &Item| {
            out.push(number);
            Ok::<(), ()>(())
        };
        match answer {
            Ok(Outcome::Taken { .. }) => arbiter.deliver(&read, &mut take).unwrap(),
            _ => arbiter.deliver_held(&mut take).unwrap(),
        }
        (answer, out)
    }

    #[test]
    fn messages_come_out_in_sequence_and_once() {
        let mut one = arbiter();
        let taken = |new, repeated| Ok(Outcome::Taken { new, repeated });
        assert_eq!(give(&mut one, &packet(2, &[b"b", b"c"])), (taken(2, 0), vec![]));
        assert_eq!(one.gap(), Some((1, 1)));
        assert_eq!(give(&mut one, &packet(1, &[b"a", b"b"])), (taken(1, 1), vec![1, 2, 3]));
        assert_eq!(give(&mut one, &packet(3, &[b"c", b"d"])), (taken(1, 1), vec![4]));
        assert_eq!((one.gap(), one.sent, one.wins), (None, 4, [4, 0, 0]));
    }

    #[test]
    fn a_packet_past_the_window_is_known_of() {
        let mut one = arbiter();
        assert_eq!(give(&mut one, &packet(5, &[b"e"])), (Ok(Outcome::Ahead), vec![]));
        assert_eq!(one.gap(), Some((1, 4)));
        assert_eq!(give(&mut one, &head(3, 0)), (Ok(Outcome::Heartbeat), vec![]));
    }

    #[test]
    fn an_end_comes_after_the_last_message() {
        let mut one = arbiter();
        assert_eq!(give(&mut one, &head(2, u16::MAX)), (Ok(Outcome::Ended), vec![]));
        assert_eq!(give(&mut one, &head(3, u16::MAX)).0, Err(Refusal::EndMoved));
        assert_eq!(give(&mut one, &packet(2, &[b"b"])).0, Err(Refusal::PastEnd));
        assert_eq!(one.renew(*b"0000000002"), Err(Refusal::NotEnded));
        assert_eq!(give(&mut one, &packet(1, &[b"a"])).1, [1, 2]);
        assert_eq!(one.renew(SESSION), Err(Refusal::SessionUsed));
        assert_eq!(one.renew(*b"0000000002"), Ok(2));
        assert_eq!(give(&mut one, &packet(1, &[b"a"])).0, Err(Refusal::OtherSession));
    }

    #[test]
    fn an_end_before_what_came() {
        let mut one = arbiter();
        assert!(give(&mut one, &packet(3, &[b"c"])).0.is_ok());
        assert_eq!(give(&mut one, &head(3, u16::MAX)).0, Err(Refusal::EndTooEarly));
    }

    #[test]
    fn a_message_that_differs_from_the_one_held() {
        let mut one = arbiter();
        assert!(give(&mut one, &packet(2, &[b"\x48A       \x01"])).0.is_ok());
        assert_eq!(give(&mut one, &packet(2, &[b"b"])).0, Err(Refusal::Conflict));
    }

    #[test]
    fn gaps_that_are_given_up() {
        let mut one = arbiter();
        assert!(give(&mut one, &packet(3, &[b"c"])).0.is_ok());
        assert_eq!(one.skip(1), Err(Refusal::NothingMissing));
        assert_eq!(one.skip(4), Err(Refusal::HeldBelow));
        assert_eq!(one.skip(3), Ok(()));
        assert_eq!(give(&mut one, &head(4, 0)).1, [3]);
        assert_eq!(one.gap(), None);
        assert!(give(&mut one, &head(6, u16::MAX)).0.is_ok());
        assert_eq!(one.skip(7), Err(Refusal::SkipPastEnd));
    }
}
