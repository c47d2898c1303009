//! Packets of MoldUDP64: a header of 20 bytes, then a block for each message.

use crate::refusal::Refusal;

pub type SessionName = [u8; 10];

const HEADER: usize = 20;
const END_COUNT: u16 = u16::MAX;

#[derive(Clone, Copy, Debug, PartialEq, Eq)]
pub enum Kind {
    Messages,
    Heartbeat,
    End,
}

/// A packet whose blocks are whole.
#[derive(Clone, Copy, Debug, PartialEq, Eq)]
pub struct Packet<'a> {
    pub session: &'a SessionName,
    pub number: u64,
    pub kind: Kind,
    pub count: u16,
    blocks: &'a [u8],
}

impl<'a> Packet<'a> {
    /// Reads the packet that the bytes spell, or returns the first fault that fits.
    #[inline(always)]
    pub fn read(bytes: &'a [u8]) -> Result<Packet<'a>, Refusal> {
        let Some((header, blocks)) = bytes.split_first_chunk::<HEADER>() else {
            return Err(Refusal::ShortHeader);
        };
        let number = u64::from_be_bytes(header[10..18].try_into().unwrap());
        let (kind, count) = match u16::from_be_bytes([header[18], header[19]]) {
            0 => (Kind::Heartbeat, 0),
            END_COUNT => (Kind::End, 0),
            count => (Kind::Messages, count),
        };
        if !are_whole(blocks, count) {
            return Err(Refusal::TruncatedBlock);
        }
        if number == 0 {
            return Err(Refusal::ZeroSequence);
        }
        if count > 0 && number.checked_add(u64::from(count) - 1).is_none() {
            return Err(Refusal::SequenceOverflow);
        }
        let session = header.first_chunk().unwrap();
        Ok(Packet { session, number, kind, count, blocks })
    }

    /// Returns the number of the last message; there is one.
    pub fn last(&self) -> u64 {
        self.number + (u64::from(self.count) - 1)
    }

    /// Returns the messages in order.
    pub fn messages(&self) -> Messages<'a> {
        Messages { rest: self.blocks, left: self.count }
    }
}

/// Reports whether the bytes begin with so many blocks.
#[inline(always)]
fn are_whole(bytes: &[u8], count: u16) -> bool {
    let mut place = 0;
    for _ in 0..count {
        if bytes.len() < place + 2 {
            return false;
        }
        place += 2 + usize::from(u16::from_be_bytes([bytes[place], bytes[place + 1]]));
    }
    place <= bytes.len()
}

/// The messages of a packet that are left to read.
pub struct Messages<'a> {
    rest: &'a [u8],
    left: u16,
}

impl<'a> Iterator for Messages<'a> {
    type Item = &'a [u8];

    #[inline]
    fn next(&mut self) -> Option<&'a [u8]> {
        self.left = self.left.checked_sub(1)?;
        let (length, rest) = self.rest.split_first_chunk::<2>()?;
        let (message, rest) = rest.split_at(usize::from(u16::from_be_bytes(*length)));
        self.rest = rest;
        Some(message)
    }
}

#[cfg(test)]
pub mod tests {
    use super::*;

    pub const SESSION: SessionName = *b"0000000001";

    /// Returns the bytes of a packet of the first session.
    pub fn packet(number: u64, messages: &[&[u8]]) -> Vec<u8> {
        let mut bytes = head(number, messages.len() as u16);
        for message in messages {
            bytes.extend((message.len() as u16).to_be_bytes());
            bytes.extend(*message);
        }
        bytes
    }

    /// Returns a header of the first session.
    pub fn head(number: u64, count: u16) -> Vec<u8> {
        [&SESSION[..], &number.to_be_bytes(), &count.to_be_bytes()].concat()
    }

    #[test]
    fn messages_are_read_as_they_were_given() {
        let bytes = packet(7, &[b"ab", b"", b"c"]);
        let read = Packet::read(&bytes).unwrap();
        assert_eq!((read.number, read.last(), read.kind), (7, 9, Kind::Messages));
        assert_eq!(read.messages().collect::<Vec<_>>(), [&b"ab"[..], b"", b"c"]);
    }

    #[test]
    fn a_heartbeat_and_an_end() {
        assert_eq!(Packet::read(&head(3, 0)).unwrap().kind, Kind::Heartbeat);
        assert_eq!(Packet::read(&head(3, u16::MAX)).unwrap().kind, Kind::End);
    }

    #[test]
    fn faults_in_their_order() {
        let whole = packet(1, &[b"ab"]);
        assert_eq!(Packet::read(&whole[..19]), Err(Refusal::ShortHeader));
        for length in 20..whole.len() {
            assert_eq!(Packet::read(&whole[..length]), Err(Refusal::TruncatedBlock));
        }
        assert_eq!(Packet::read(&packet(0, &[b"a"])), Err(Refusal::ZeroSequence));
        let past = packet(u64::MAX, &[b"a", b"b"]);
        assert_eq!(Packet::read(&past), Err(Refusal::SequenceOverflow));
        assert!(Packet::read(&packet(u64::MAX, &[b"a"])).is_ok());
    }
}
