//! Comparing a program with this one, on the files of the generator.

use std::collections::BTreeMap;
use std::fmt;
use std::io::{self, Write};
use std::process::{Command, Stdio};

use crate::Mode;
use crate::answer::{Planned, planned};
use crate::generate;
use crate::refusal::{Layer, Refusal};

/// From so many files on, each outcome must be among them.
const MANY: u64 = 1_000;

/// What a file leads to: an order, or a fault of this layer and cause.
type Outcome = Option<(Layer, Refusal)>;

const OUTCOMES: [Outcome; 15] = [
    None,
    Some((Layer::Text, Refusal::NotALine)),
    Some((Layer::Frame, Refusal::BadSum)),
    Some((Layer::Frame, Refusal::BadFrame)),
    Some((Layer::Sheet, Refusal::UnknownTask)),
    Some((Layer::Sheet, Refusal::SheetFull)),
    Some((Layer::Sheet, Refusal::Durations)),
    Some((Layer::Sheet, Refusal::Circle)),
    Some((Layer::Sheet, Refusal::DeadlineRange)),
    Some((Layer::Sheet, Refusal::OtherKind)),
    Some((Layer::Book, Refusal::UnknownTask)),
    Some((Layer::Book, Refusal::BookRule)),
    Some((Layer::Book, Refusal::StepsFull)),
    Some((Layer::Plan, Refusal::NoOrder)),
    Some((Layer::Plan, Refusal::Memory)),
];

/// How many of the files that were compared had each outcome.
#[derive(Default)]
pub struct Mix {
    counts: BTreeMap<Outcome, u64>,
}

impl Mix {
    fn add(&mut self, planned: Planned) {
        let outcome = planned.err().map(|fault| (fault.layer, fault.cause));
        *self.counts.entry(outcome).or_default() += 1;
    }

    /// How many files had an outcome of this kind.
    fn count(&self, is_such: impl Fn(Outcome) -> bool) -> u64 {
        self.counts.iter().filter(|(outcome, _)| is_such(**outcome)).map(|(_, count)| count).sum()
    }

    fn in_layer(&self, layer: Layer) -> u64 {
        self.count(|outcome| outcome.is_some_and(|(other, _)| other == layer))
    }

    fn missing(&self) -> Option<Outcome> {
        OUTCOMES.into_iter().find(|outcome| !self.counts.contains_key(outcome))
    }
}

impl fmt::Display for Mix {
    fn fmt(&self, f: &mut fmt::Formatter) -> fmt::Result {
        let of = |outcome: Outcome| self.count(|other| other == outcome);
        write!(f, "{} files alike: {} with an order, ", self.count(|_| true), of(None))?;
        write!(f, "{} without, ", of(Some((Layer::Plan, Refusal::NoOrder))))?;
        write!(f, "{} of 15 or 16 tasks, ", of(Some((Layer::Plan, Refusal::Memory))))?;
        write!(f, "faults in text {}, frame {}, ", self.in_layer(Layer::Text), self.in_layer(Layer::Frame))?;
        write!(f, "sheet {}, book {}", self.in_layer(Layer::Sheet), self.in_layer(Layer::Book))
    }
}

/// Why a comparison fails.
pub enum Trouble {
    Run { program: String, error: io::Error },
    Status { seed: u64, mode: Mode, status: String },
    Differs(Box<Difference>),
    Missing(Outcome),
}

/// Two answers to one file.
pub struct Difference {
    seed: u64,
    mode: Mode,
    file: Vec<u8>,
    here: String,
    there: String,
}

impl fmt::Display for Difference {
    fn fmt(&self, f: &mut fmt::Formatter) -> fmt::Result {
        let lines = self.here.lines().count().max(self.there.lines().count());
        let line_of = |text: &str, at| text.lines().nth(at).unwrap_or("(no line)").to_string();
        let first = (0..lines).find(|&at| line_of(&self.here, at) != line_of(&self.there, at)).unwrap_or(lines);
        writeln!(f, "{} differs on file {}, in line {}:", self.mode, self.seed, first + 1)?;
        writeln!(f, "here:  {}", line_of(&self.here, first))?;
        writeln!(f, "there: {}", line_of(&self.there, first))?;
        write!(f, "the file:\n{}", self.file.escape_ascii().to_string().replace("\\n", "\\n\n"))
    }
}

impl fmt::Display for Trouble {
    fn fmt(&self, f: &mut fmt::Formatter) -> fmt::Result {
        match self {
            Trouble::Run { program, error } => write!(f, "{program}: {error}"),
            Trouble::Status { seed, mode, status } => write!(f, "{mode} ends with {status} on file {seed}"),
            Trouble::Differs(difference) => write!(f, "{difference}"),
            Trouble::Missing(None) => f.write_str("no file has an order"),
            Trouble::Missing(Some((layer, cause))) => write!(f, "no file has a fault of layer {layer:?} and cause {cause:?}"),
        }
    }
}

/// Which program is compared, and on which files.
pub struct Comparison<'a> {
    pub mode: Mode,
    pub program: &'a str,
    pub first: u64,
    pub count: u64,
}

impl Comparison<'_> {
    /// What the program prints for a file.
    fn printed(&self, seed: u64, file: &[u8]) -> Result<String, Trouble> {
        let failed = |error| Trouble::Run { program: self.program.to_string(), error };
        let mut child = Command::new(self.program).stdin(Stdio::piped()).stdout(Stdio::piped()).spawn().map_err(failed)?;
        if let Some(mut input) = child.stdin.take() {
            input.write_all(file).map_err(failed)?;
        }
        let output = child.wait_with_output().map_err(failed)?;
        if !output.status.success() {
            return Err(Trouble::Status { seed, mode: self.mode, status: output.status.to_string() });
        }
        Ok(String::from_utf8_lossy(&output.stdout).into_owned())
    }

    /// Compares file by file, up to the first that differs.
    pub fn run(&self) -> Result<Mix, Trouble> {
        let mut mix = Mix::default();
        for seed in (self.first..).take(self.count as usize) {
            let file = generate::file(seed, self.mode);
            let planned = planned(&file);
            let (here, there) = (self.mode.text(&file, &planned), self.printed(seed, &file)?);
            if here != there {
                let mode = self.mode;
                return Err(Trouble::Differs(Box::new(Difference { seed, mode, file, here, there })));
            }
            mix.add(planned);
        }
        match mix.missing() {
            Some(outcome) if self.count >= MANY => Err(Trouble::Missing(outcome)),
            _ => Ok(mix),
        }
    }
}
