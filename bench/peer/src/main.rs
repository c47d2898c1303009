//! A replay of a capture, as `nbbo replay` does it: plain Rust, unproved and written for speed, to
//! be measured beside it.
//!
//! `main` reads the words (`words`), and hands the capture (`records`) to a `replay`: a venue's
//! packets (`packet`) go to its `arbiter`, which holds what is ahead of the sequence in a `window`;
//! each `item` that is ready goes to the `journal`, which gives it to the `book` and prints `rows`.

mod arbiter;
mod book;
mod fault;
mod item;
mod journal;
mod order;
mod packet;
mod records;
mod refusal;
mod replay;
mod row;
mod rows;
mod side;
mod symbols;
mod window;
mod words;

use std::process::ExitCode;

use crate::journal::Journal;
use crate::order::{Best, Order, Ranks};
use crate::replay::Replay;
use crate::rows::Rows;
use crate::words::{Words, USAGE};

fn main() -> ExitCode {
    let said = match Words::read(std::env::args().skip(1)) {
        Ok(words) if words.is_plain => run::<Best>(&words),
        Ok(words) => run::<Ranks>(&words),
        Err(why) => {
            eprint!("peer: {why}\n{USAGE}");
            return ExitCode::from(2);
        }
    };
    match said {
        Ok(()) => ExitCode::SUCCESS,
        Err(said) => {
            eprintln!("peer: {}", said.text);
            ExitCode::from(said.status)
        }
    }
}

/// What is said of a run that failed, and its status.
struct Said {
    text: String,
    status: u8,
}

/// Replays standard input.
fn run<O: Order>(words: &Words) -> Result<(), Said> {
    let rows = Rows::new(std::io::stdout().lock(), words.is_best_only);
    let journal = Journal::<O, _>::new(&words.symbols, words.journal, rows)
        .map_err(|_| Said { text: "duplicate symbol".to_string(), status: 2 })?;
    let mut replay = Replay::new(&words.sessions, words.window, journal, words.has_gaps);
    replay.run(std::io::stdin().lock()).map_err(|fault| Said { text: fault.to_string(), status: 1 })
}
