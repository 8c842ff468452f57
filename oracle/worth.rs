//! Worth books: ramps, steps and weights, and the keenest task.

use crate::refusal::Refusal;
use crate::sheet::{Kind, LATEST, MOST_TASKS, Sheet, Task};

pub const TOP: u32 = 1_000_000;
pub const MOST_STEPS: usize = 6;
pub const GREATEST_WEIGHT: u32 = 16;

#[derive(Clone, Copy, Debug)]
pub struct Ramp {
    pub peak: u32,
    pub knee: u32,
    pub foot: u32,
}

impl Ramp {
    fn worth(&self, at: u64) -> u64 {
        let (peak, knee, foot) = (u64::from(self.peak), u64::from(self.knee), u64::from(self.foot));
        if at <= knee {
            peak
        } else if at < foot {
            peak * (foot - at) / (foot - knee)
        } else {
            0
        }
    }
}

#[derive(Clone, Copy, Debug)]
pub struct Step {
    pub until: u32,
    pub worth: u32,
}

/// What a book has for one task number.
#[derive(Clone, Debug)]
pub struct Curves {
    pub ramp: Option<Ramp>,
    pub steps: Vec<Step>,
    pub weight: u32,
}

impl Curves {
    fn worth(&self, at: u64) -> u64 {
        let top = u64::from(TOP);
        let ramp = self.ramp.map_or(0, |ramp| ramp.worth(at));
        let step = self.steps.iter().find(|step| at <= u64::from(step.until)).map_or(0, |step| u64::from(step.worth));
        let sum = top.min(ramp + step);
        top.min(sum * u64::from(self.weight))
    }
}

/// The standard book: curves for the numbers 0 to 15.
#[derive(Clone, Debug)]
pub struct Book {
    pub curves: Vec<Curves>,
}

impl Default for Book {
    fn default() -> Self {
        let blank = Curves { ramp: None, steps: Vec::new(), weight: 1 };
        Book { curves: vec![blank; MOST_TASKS] }
    }
}

impl Book {
    pub fn worth(&self, t: usize, at: u64) -> u64 {
        self.curves.get(t).map_or(0, |curves| curves.worth(at))
    }

    fn known(&mut self, t: u32) -> Result<&mut Curves, Refusal> {
        self.curves.get_mut(t as usize).ok_or(Refusal::UnknownTask)
    }

    pub fn ramp(&mut self, t: u32, ramp: Ramp) -> Result<(), Refusal> {
        let curves = self.known(t)?;
        if ramp.peak > TOP || ramp.knee >= ramp.foot || ramp.foot > LATEST {
            return Err(Refusal::BookRule);
        }
        curves.ramp = Some(ramp);
        Ok(())
    }

    pub fn step(&mut self, t: u32, step: Step) -> Result<(), Refusal> {
        let steps = &mut self.known(t)?.steps;
        let follows = steps.iter().all(|before| before.until < step.until && step.worth <= before.worth);
        if step.until > LATEST || step.worth > TOP || !follows {
            return Err(Refusal::BookRule);
        }
        if steps.len() == MOST_STEPS {
            return Err(Refusal::StepsFull);
        }
        steps.push(step);
        Ok(())
    }

    pub fn weight(&mut self, t: u32, weight: u32) -> Result<(), Refusal> {
        let curves = self.known(t)?;
        if !(1..=GREATEST_WEIGHT).contains(&weight) {
            return Err(Refusal::BookRule);
        }
        curves.weight = weight;
        Ok(())
    }

    /// The soft task than which none has more worth at time 0 for its effort, and no lower-numbered one as much.
    pub fn keenest(&self, sheet: &Sheet) -> Option<usize> {
        let effort = |t| sheet.members(sheet.up_set(t)).map(Task::expected).sum::<u64>();
        let soft: Vec<(usize, u128, u128)> = (0..sheet.count())
            .filter(|&t| sheet.tasks[t].kind == Kind::Soft)
            .map(|t| (t, u128::from(self.worth(t, 0)), u128::from(effort(t))))
            .collect();
        let beats = |(t, worth, effort): (usize, u128, u128), (u, other_worth, other_effort): (usize, u128, u128)| {
            let (own, other) = (worth * other_effort, other_worth * effort);
            own > other || own == other && t <= u
        };
        let keenest = soft.iter().find(|&&one| soft.iter().all(|&other| beats(one, other)));
        keenest.map(|&(t, ..)| t)
    }
}
