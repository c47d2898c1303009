//! The command line.

use crate::item::{symbol_of, Symbol};
use crate::order::VENUES;
use crate::packet::SessionName;

pub const USAGE: &str = "\
usage: peer replay --sessions LIST [--window N] [--journal N] [--gaps] [--best-only] [--plain]
           [SYMBOL]... < CAPTURE
";
pub const MOST_SYMBOLS: usize = 4096;

/// What a replay is asked to do.
#[derive(Debug, PartialEq, Eq)]
pub struct Words {
    pub sessions: Vec<SessionName>,
    pub window: u32,
    pub journal: u32,
    pub has_gaps: bool,
    pub is_best_only: bool,
    /// No ranks are kept but the first.
    pub is_plain: bool,
    pub symbols: Vec<Symbol>,
}

impl Words {
    /// Reads the words after the program's name, or returns why they are refused.
    pub fn read(words: impl Iterator<Item = String>) -> Result<Words, &'static str> {
        let mut words = words.peekable();
        words.next_if_eq("replay").ok_or("the first word is 'replay'")?;
        let mut read = Words {
            sessions: Vec::new(),
            window: 4096,
            journal: 1_000_000,
            has_gaps: false,
            is_best_only: false,
            is_plain: false,
            symbols: Vec::new(),
        };
        while let Some(word) = words.next() {
            let (name, value) = match word.split_once('=') {
                Some((name, value)) if name.starts_with("--") => (name, Some(value.to_string())),
                _ => (word.as_str(), None),
            };
            let mut value = || value.clone().or_else(|| words.next()).ok_or("a value is missing");
            match name {
                "--sessions" => read.sessions = sessions_of(&value()?)?,
                "--window" => read.window = number_of(&value()?, 1, 65_535)?,
                "--journal" => read.journal = number_of(&value()?, 0, u32::MAX)?,
                "--gaps" => read.has_gaps = true,
                "--best-only" => read.is_best_only = true,
                "--plain" => read.is_plain = true,
                "--" => {
                    for word in words.by_ref() {
                        read.add_symbol(&word)?;
                    }
                }
                _ if name.starts_with('-') => return Err("unknown option"),
                _ => read.add_symbol(&word)?,
            }
        }
        if read.sessions.is_empty() {
            Err("--sessions is missing")
        } else {
            Ok(read)
        }
    }

    fn add_symbol(&mut self, word: &str) -> Result<(), &'static str> {
        if self.symbols.len() == MOST_SYMBOLS {
            return Err("too many symbols");
        }
        self.symbols.push(symbol_of(word.as_bytes()).ok_or("bad symbol")?);
        Ok(())
    }
}

fn number_of(text: &str, least: u32, most: u32) -> Result<u32, &'static str> {
    text.parse().ok().filter(|it| (least..=most).contains(it)).ok_or("bad number")
}

fn sessions_of(text: &str) -> Result<Vec<SessionName>, &'static str> {
    let names: Option<Vec<SessionName>> = text.split(',').map(session_of).collect();
    names.ok_or("bad session").and_then(|it| {
        if it.len() > VENUES {
            Err("too many sessions")
        } else {
            Ok(it)
        }
    })
}

fn session_of(name: &str) -> Option<SessionName> {
    let mut filled = [b' '; 10];
    filled.get_mut(..name.len())?.copy_from_slice(name.as_bytes());
    let is_right = !name.is_empty() && name.bytes().all(|it| (b' '..=b'~').contains(&it));
    is_right.then_some(filled)
}

#[cfg(test)]
mod tests {
    use super::*;

    fn read(words: &str) -> Result<Words, &'static str> {
        Words::read(words.split(' ').map(str::to_string))
    }

    #[test]
    fn all_options() {
        let words =
            read("replay --sessions A,B --window=7 --journal 0 --gaps --plain X -- -Y").unwrap();
        assert_eq!(words.sessions, [*b"A         ", *b"B         "]);
        assert_eq!(
            (words.window, words.journal, words.has_gaps, words.is_plain),
            (7, 0, true, true)
        );
        assert_eq!(words.symbols, [symbol_of(b"X").unwrap(), symbol_of(b"-Y").unwrap()]);
    }

    #[test]
    fn what_is_refused() {
        for (words, why) in [
            ("play", "the first word is 'replay'"),
            ("replay", "--sessions is missing"),
            ("replay --sessions", "a value is missing"),
            ("replay --sessions A,", "bad session"),
            ("replay --sessions 12345678901", "bad session"),
            ("replay --sessions a,b,c,d,e,f,g,h,i,j,k,l,m,n,o,p,q", "too many sessions"),
            ("replay --window 0", "bad number"),
            ("replay --window 65536", "bad number"),
            ("replay --format csv", "unknown option"),
            ("replay --sessions A 123456789", "bad symbol"),
        ] {
            assert_eq!(read(words), Err(why), "{words}");
        }
    }
}
