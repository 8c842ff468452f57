//! A second program for sheet files: it works by the definitions in `docs/` alone, tries every order, and is compared with the
//! programs of the crates. `docs/SECOND-PROGRAM.md` tells how.

mod answer;
mod compare;
mod damage;
mod facts;
mod generate;
#[cfg(test)]
mod known;
mod load;
mod orders;
mod random;
mod refusal;
mod rows;
mod saved;
mod sheet;
mod text;
mod worth;

use std::env;
use std::fmt;
use std::io::{self, Read, Write};
use std::process::ExitCode;

use answer::{Planned, planned};
use compare::Comparison;

const USAGE: &str = "usage: oracle order|facts <SHEETFILE
       oracle file SEED [facts]
       oracle compare order|facts PROGRAM FIRST COUNT";

/// What is printed, and which files the generator makes for it.
#[derive(Clone, Copy, Debug, PartialEq, Eq)]
pub enum Mode {
    Order,
    Facts,
}

impl Mode {
    fn named(word: &str) -> Option<Mode> {
        match word {
            "order" => Some(Mode::Order),
            "facts" => Some(Mode::Facts),
            _ => None,
        }
    }

    /// What the program of this mode must print for a file of which this is planned.
    pub fn text(self, file: &[u8], planned: &Planned) -> String {
        match self {
            Mode::Order => answer::line(planned),
            Mode::Facts => facts::text(file),
        }
    }
}

impl fmt::Display for Mode {
    fn fmt(&self, f: &mut fmt::Formatter) -> fmt::Result {
        f.write_str(match self {
            Mode::Order => "order",
            Mode::Facts => "facts",
        })
    }
}

/// Why the program ends with status 1, or 2 for a wrong usage.
enum Trouble {
    Usage,
    Stream(io::Error),
    Compare(compare::Trouble),
}

impl From<io::Error> for Trouble {
    fn from(error: io::Error) -> Self {
        Trouble::Stream(error)
    }
}

impl fmt::Display for Trouble {
    fn fmt(&self, f: &mut fmt::Formatter) -> fmt::Result {
        match self {
            Trouble::Usage => f.write_str(USAGE),
            Trouble::Stream(error) => write!(f, "oracle: {error}"),
            Trouble::Compare(trouble) => write!(f, "oracle: {trouble}"),
        }
    }
}

fn number(word: &str) -> Result<u64, Trouble> {
    word.parse().map_err(|_| Trouble::Usage)
}

fn print(bytes: &[u8]) -> Result<(), Trouble> {
    Ok(io::stdout().write_all(bytes)?)
}

fn run(words: &[&str]) -> Result<(), Trouble> {
    let mode = |word| Mode::named(word).ok_or(Trouble::Usage);
    match words {
        ["file", seed] => print(&generate::file(number(seed)?, Mode::Order)),
        ["file", seed, "facts"] => print(&generate::file(number(seed)?, Mode::Facts)),
        ["compare", word, program, first, count] => {
            let comparison = Comparison { mode: mode(word)?, program, first: number(first)?, count: number(count)? };
            let mix = comparison.run().map_err(Trouble::Compare)?;
            print(format!("{word}: {mix}\n").as_bytes())
        }
        [word] => {
            let mode = mode(word)?;
            let mut file = Vec::new();
            io::stdin().read_to_end(&mut file)?;
            print(mode.text(&file, &planned(&file)).as_bytes())
        }
        _ => Err(Trouble::Usage),
    }
}

fn main() -> ExitCode {
    let words: Vec<String> = env::args().skip(1).collect();
    let words: Vec<&str> = words.iter().map(String::as_str).collect();
    let Err(trouble) = run(&words) else { return ExitCode::SUCCESS };
    eprintln!("{trouble}");
    ExitCode::from(if matches!(trouble, Trouble::Usage) { 2 } else { 1 })
}
