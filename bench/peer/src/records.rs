//! The records of a capture in the project's own format: venue, kind, length (2 bytes), and that
//! many bytes.

use std::io::Read;

use crate::fault::Fault;

const HEAD: usize = 4;
const SIZE: usize = 1 << 17;

#[derive(Clone, Copy, Debug, PartialEq, Eq)]
pub enum What {
    /// A datagram of line A, B or recovery, as 0, 1 or 2.
    Datagram(usize),
    SelfHelp(bool),
    Renewal,
    Skip,
}

#[derive(Clone, Copy, Debug, PartialEq, Eq)]
pub struct Record<'a> {
    pub venue: usize,
    pub what: What,
    pub held: &'a [u8],
}

/// Returns what a record with such a kind and length is, if it is one.
fn what_of(kind: u8, length: usize) -> Option<What> {
    match (kind, length) {
        (b'A', _) => Some(What::Datagram(0)),
        (b'B', _) => Some(What::Datagram(1)),
        (b'R', _) => Some(What::Datagram(2)),
        (b'H', 0) => Some(What::SelfHelp(true)),
        (b'W', 0) => Some(What::SelfHelp(false)),
        (b'N', 10) => Some(What::Renewal),
        (b'K', 8) => Some(What::Skip),
        _ => None,
    }
}

/// A capture, of which each record is read in place.
pub struct Records<R> {
    input: R,
    venues: usize,
    bytes: Box<[u8]>,
    begin: usize,
    end: usize,
}

impl<R: Read> Records<R> {
    pub fn new(input: R, venues: usize) -> Records<R> {
        Records { input, venues, bytes: vec![0; SIZE].into(), begin: 0, end: 0 }
    }

    /// Returns the next record, or None where the capture ends before it.
    #[inline(always)]
    pub fn next(&mut self) -> Result<Option<Record<'_>>, Fault> {
        if self.end - self.begin < HEAD {
            self.fill(HEAD)?;
            match self.end - self.begin {
                0 => return Ok(None),
                1..HEAD => return Err(Fault::ShortRecord),
                _ => (),
            }
        }
        let head = &self.bytes[self.begin..self.begin + HEAD];
        let (venue, length) =
            (usize::from(head[0]), usize::from(u16::from_be_bytes([head[2], head[3]])));
        let what =
            what_of(head[1], length).filter(|_| venue < self.venues).ok_or(Fault::BadRecord)?;
        if self.end - self.begin < HEAD + length {
            self.fill(HEAD + length)?;
            if self.end - self.begin < HEAD + length {
                return Err(Fault::ShortRecord);
            }
        }
        let begin = self.begin + HEAD;
        self.begin = begin + length;
        Ok(Some(Record { venue, what, held: &self.bytes[begin..begin + length] }))
    }

    /// Reads until so many bytes are there, or the input ends.
    #[cold]
    fn fill(&mut self, wanted: usize) -> Result<(), Fault> {
        self.bytes.copy_within(self.begin..self.end, 0);
        (self.begin, self.end) = (0, self.end - self.begin);
        while self.end < wanted {
            match self.input.read(&mut self.bytes[self.end..]) {
                Ok(0) => break,
                Ok(count) => self.end += count,
                Err(fault) if fault.kind() == std::io::ErrorKind::Interrupted => (),
                Err(_) => return Err(Fault::ReadFailed),
            }
        }
        Ok(())
    }
}

#[cfg(test)]
mod tests {
    use super::*;

    #[test]
    fn records_in_their_order() {
        let mut records = Records::new(&b"\0A\0\x03abc\x01H\0\0\0K\0\x0812345678"[..], 2);
        let first = Record { venue: 0, what: What::Datagram(0), held: b"abc" };
        assert_eq!(records.next(), Ok(Some(first)));
        assert_eq!(records.next().unwrap().unwrap().what, What::SelfHelp(true));
        assert_eq!(records.next().unwrap().unwrap().held, b"12345678");
        assert_eq!(records.next(), Ok(None));
    }

    #[test]
    fn faults() {
        let fault = |bytes| Records::new(bytes, 1).next().map(|_| ());
        for bad in [&b"\x01A\0\0"[..], b"\0C\0\0", b"\0H\0\x01x", b"\0N\0\x09", b"\0K\0\0"] {
            assert_eq!(fault(bad), Err(Fault::BadRecord));
        }
        for short in [&b"\0"[..], b"\0A\0", b"\0A\0\x01", b"\0N\0\x0a123"] {
            assert_eq!(fault(short), Err(Fault::ShortRecord));
        }
        assert_eq!(fault(b""), Ok(()));
    }

    #[test]
    fn a_capture_longer_than_the_buffer() {
        let one = [&b"\0B\xff\xff"[..], &[7; 65_535]].concat();
        let bytes = one.repeat(5);
        let mut records = Records::new(&bytes[..], 1);
        for _ in 0..5 {
            assert_eq!(records.next().unwrap().unwrap().held, [7; 65_535]);
        }
        assert_eq!(records.next(), Ok(None));
    }
}
