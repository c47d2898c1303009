//! A replay: each record goes to its venue's arbiter, and what is ready to the journal.

use std::io::{Read, Write};

use crate::arbiter::{Arbiter, Outcome};
use crate::fault::Fault;
use crate::item::Item;
use crate::journal::Journal;
use crate::order::Order;
use crate::packet::{Packet, SessionName};
use crate::records::{Record, Records, What};

pub struct Replay<O, W> {
    venues: Vec<Arbiter>,
    journal: Journal<O, W>,
    has_gaps: bool,
}

impl<O: Order, W: Write> Replay<O, W> {
    /// Begins with a session for each venue; with `has_gaps` what is to be asked for is printed,
    /// too.
    pub fn new(
        sessions: &[SessionName],
        window: u32,
        journal: Journal<O, W>,
        has_gaps: bool,
    ) -> Replay<O, W> {
        let venues = sessions.iter().map(|it| Arbiter::new(*it, window)).collect();
        Replay { venues, journal, has_gaps }
    }

    /// Replays a capture to its end, or up to a fault, and prints all rows up to there.
    pub fn run(&mut self, input: impl Read) -> Result<(), Fault> {
        let ended = self.run_all(Records::new(input, self.venues.len()));
        self.journal.rows.flush()?;
        ended
    }

    fn run_all<R: Read>(&mut self, mut records: Records<R>) -> Result<(), Fault> {
        while let Some(record) = records.next()? {
            self.take(&record)?;
        }
        for (place, venue) in self.venues.iter().enumerate() {
            self.journal.rows.venue(place, venue.sent, &venue.wins)?;
        }
        Ok(())
    }

    #[inline]
    fn take(&mut self, record: &Record<'_>) -> Result<(), Fault> {
        match record.what {
            What::Datagram(line) => self.datagram(record.venue, line, record.held),
            What::SelfHelp(is_on) => self.journal.declare(record.venue, is_on),
            What::Renewal => self.renew(record.venue, record.held),
            What::Skip => self.skip(record.venue, record.held),
        }
    }

    #[inline]
    fn datagram(&mut self, venue: usize, line: usize, bytes: &[u8]) -> Result<(), Fault> {
        let (journal, arbiter) = (&mut self.journal, &mut self.venues[venue]);
        match Packet::read(bytes) {
            Err(refusal) => journal.rows.packet(venue, line, &Err(refusal))?,
            Ok(packet) => {
                let answer = arbiter.answer(line, &packet);
                journal.rows.packet(venue, line, &answer)?;
                let take = |number, item: &Item| journal.record(venue, number, item);
                match answer {
                    Ok(Outcome::Taken { new: 1.., .. }) => arbiter.deliver(&packet, take)?,
                    Ok(Outcome::Ended) => arbiter.deliver_held(take)?,
                    _ => (),
                }
            }
        }
        if self.has_gaps {
            if let Some((number, count)) = arbiter.gap() {
                journal.rows.gap(venue, number, count)?;
            }
        }
        Ok(())
    }

    fn renew(&mut self, venue: usize, held: &[u8]) -> Result<(), Fault> {
        let name = held.try_into().map_err(|_| Fault::BadRecord)?;
        let answer = self.venues[venue].renew(name).map(|ordinal| ordinal as u64);
        self.journal.rows.wish(b"renew ", venue, &answer)?;
        Ok(())
    }

    fn skip(&mut self, venue: usize, held: &[u8]) -> Result<(), Fault> {
        let number = u64::from_be_bytes(held.try_into().map_err(|_| Fault::BadRecord)?);
        let (journal, arbiter) = (&mut self.journal, &mut self.venues[venue]);
        let answer = arbiter.skip(number);
        journal.rows.wish(b"skip ", venue, &answer.map(|()| number))?;
        if answer.is_ok() {
            journal.record(venue, number - 1, &Item::Skipped)?;
            arbiter.deliver_held(|number, item| journal.record(venue, number, item))?;
        }
        Ok(())
    }
}

#[cfg(test)]
mod tests {
    use super::*;
    use crate::item::symbol_of;
    use crate::item::tests::quote;
    use crate::order::{Best, Ranks};
    use crate::packet::tests::{head, packet, SESSION};
    use crate::rows::Rows;

    fn record(kind: u8, held: &[u8]) -> Vec<u8> {
        [&[0, kind][..], &(held.len() as u16).to_be_bytes(), held].concat()
    }

    /// Replays records, and returns what is printed and how it ended.
    fn replayed<O: Order>(
        records: &[Vec<u8>],
        most: u32,
        is_best_only: bool,
    ) -> (String, Result<(), Fault>) {
        let mut output = Vec::new();
        let rows = Rows::new(&mut output, is_best_only);
        let journal = Journal::<O, _>::new(&[symbol_of(b"ACME").unwrap()], most, rows).unwrap();
        let mut replay = Replay::new(&[SESSION], 4, journal, true);
        let ended = replay.run(&records.concat()[..]);
        drop(replay);
        (String::from_utf8(output).unwrap(), ended)
    }

    fn records() -> [Vec<u8>; 6] {
        let first = quote(b"ACME    ", (101_500, 300), (101_700, 200));
        [
            record(b'A', &packet(2, &[b""])),
            record(b'B', &packet(1, &[&first])),
            record(b'H', b""),
            record(b'K', &9_u64.to_be_bytes()),
            record(b'A', &head(9, u16::MAX)),
            record(b'N', b"0000000002"),
        ]
    }

    const ROWS: &str = "\
packet 0 A taken 1 0
gap 0 1 1
packet 0 B taken 1 0
item 0 1 quote
best 1 1 ACME 0:10.1500x300 0:10.1700x200 normal
item 0 2 other
declare 0 on 3
best 2 3 ACME none none empty
skip 0 9
item 0 8 skipped
packet 0 A ended
item 0 9 end
renew 0 2
venue 0 sent 4 wins 1 1 0
";

    #[test]
    fn all_rows() {
        assert_eq!(replayed::<Ranks>(&records(), 9, false), (ROWS.to_string(), Ok(())));
        assert_eq!(replayed::<Best>(&records(), 9, false), (ROWS.to_string(), Ok(())));
    }

    #[test]
    fn the_best_rows_alone() {
        let bests = ROWS
            .lines()
            .filter(|it| it.starts_with("best "))
            .fold(String::new(), |all, it| all + it + "\n");
        assert_eq!(replayed::<Ranks>(&records(), 9, true), (bests, Ok(())));
    }

    #[test]
    fn a_journal_that_is_full() {
        let (text, ended) = replayed::<Ranks>(&records(), 1, false);
        assert_eq!(ended, Err(Fault::JournalFull));
        assert!(ROWS.starts_with(&text) && text.ends_with(" normal\n"));
    }
}
