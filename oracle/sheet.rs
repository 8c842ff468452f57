//! Sheets: tasks, links, kinds, and what follows from their paths.

use std::collections::BTreeSet;

use crate::refusal::Refusal;

pub const MOST_TASKS: usize = 16;
const LONGEST_DURATION: u32 = 65_535;
pub const LATEST: u32 = 1_048_575;

/// A set of tasks: bit t is set where t is a member.
pub type Set = u32;

pub fn has(set: Set, t: usize) -> bool {
    set >> t & 1 == 1
}

#[derive(Clone, Copy, Debug, PartialEq, Eq)]
pub enum Kind {
    Plain,
    Soft,
    Hard { deadline: u32 },
}

#[derive(Clone, Debug)]
pub struct Task {
    pub min: u32,
    pub max: u32,
    pub kind: Kind,
}

impl Task {
    pub fn expected(&self) -> u64 {
        (u64::from(self.min) + u64::from(self.max)) / 2
    }

    pub fn maximum(&self) -> u64 {
        u64::from(self.max)
    }

    pub fn deadline(&self) -> Option<u64> {
        match self.kind {
            Kind::Hard { deadline } => Some(u64::from(deadline)),
            Kind::Plain | Kind::Soft => None,
        }
    }
}

#[derive(Clone, Debug, Default)]
pub struct Sheet {
    pub tasks: Vec<Task>,
    pub links: BTreeSet<(usize, usize)>,
}

impl Sheet {
    pub fn count(&self) -> usize {
        self.tasks.len()
    }

    /// The set of all tasks.
    pub fn all(&self) -> Set {
        (1 << self.count()) - 1
    }

    /// The number of a task that is there.
    fn known(&self, t: u32) -> Result<usize, Refusal> {
        let t = t as usize;
        if t < self.count() { Ok(t) } else { Err(Refusal::UnknownTask) }
    }

    pub fn task(&mut self, min: u32, max: u32) -> Result<(), Refusal> {
        if self.count() == MOST_TASKS {
            return Err(Refusal::SheetFull);
        }
        if !(1 <= min && min <= max && max <= LONGEST_DURATION) {
            return Err(Refusal::Durations);
        }
        self.tasks.push(Task { min, max, kind: Kind::Plain });
        Ok(())
    }

    pub fn link(&mut self, a: u32, b: u32) -> Result<(), Refusal> {
        let (a, b) = (self.known(a)?, self.known(b)?);
        if a == b || self.path(b, a) {
            return Err(Refusal::Circle);
        }
        self.links.insert((a, b));
        Ok(())
    }

    pub fn hard(&mut self, t: u32, deadline: u32) -> Result<(), Refusal> {
        let t = self.known(t)?;
        if !(1..=LATEST).contains(&deadline) {
            return Err(Refusal::DeadlineRange);
        }
        if self.tasks[t].kind == Kind::Soft {
            return Err(Refusal::OtherKind);
        }
        self.tasks[t].kind = Kind::Hard { deadline };
        Ok(())
    }

    pub fn soft(&mut self, t: u32) -> Result<(), Refusal> {
        let t = self.known(t)?;
        if matches!(self.tasks[t].kind, Kind::Hard { .. }) {
            return Err(Refusal::OtherKind);
        }
        self.tasks[t].kind = Kind::Soft;
        Ok(())
    }

    /// Whether a path of one or more links leads from one task to another.
    pub fn path(&self, from: usize, to: usize) -> bool {
        let mut seen = BTreeSet::new();
        let mut waiting = vec![from];
        while let Some(at) = waiting.pop() {
            let next = self.links.iter().filter(|link| link.0 == at).map(|link| link.1);
            waiting.extend(next.filter(|&b| seen.insert(b)));
        }
        seen.contains(&to)
    }

    /// The direct predecessors of t.
    pub fn before(&self, t: usize) -> Set {
        self.links.iter().filter(|link| link.1 == t).map(|link| 1 << link.0).sum()
    }

    pub fn up_set(&self, t: usize) -> Set {
        (0..self.count()).filter(|&u| u == t || self.path(u, t)).map(|u| 1 << u).sum()
    }

    /// The tasks of a set, by number.
    pub fn members(&self, set: Set) -> impl Iterator<Item = &Task> {
        self.tasks.iter().enumerate().filter(move |&(t, _)| has(set, t)).map(|(_, task)| task)
    }

    /// What remains of the deadline of a hard task; `None` where t is not hard.
    pub fn margin(&self, t: usize) -> Option<i64> {
        let deadline = self.tasks[t].deadline()?;
        let due = |u: &usize| self.tasks[*u].deadline().is_some_and(|other| other <= deadline);
        let before = (0..self.count()).filter(due).fold(0, |set, u| set | self.up_set(u));
        let demand: u64 = self.members(before).map(Task::maximum).sum();
        Some(deadline as i64 - demand as i64)
    }

    pub fn fits(&self) -> bool {
        (0..self.count()).filter_map(|t| self.margin(t)).all(|margin| margin >= 0)
    }

    /// The hard task than which none has less margin, and no lower-numbered one as little.
    pub fn tightest(&self) -> Option<usize> {
        let margins: Vec<(usize, i64)> = (0..self.count()).filter_map(|t| Some((t, self.margin(t)?))).collect();
        let beats = |(t, margin): (usize, i64), (u, other): (usize, i64)| margin < other || margin == other && t <= u;
        let tightest = margins.iter().find(|&&one| margins.iter().all(|&other| beats(one, other)));
        tightest.map(|&(t, _)| t)
    }
}
