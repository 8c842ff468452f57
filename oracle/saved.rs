//! The text that `save` writes of a sheet and a book.

use crate::sheet::{Kind, Sheet, Task};
use crate::text::{Frame, digits};
use crate::worth::{Book, Curves, Ramp};

/// The frames, kind by kind, and of each kind by task.
fn frames(sheet: &Sheet, book: &Book) -> Vec<Frame> {
    let tasks = || (0..).zip(&sheet.tasks);
    let curves = || (0..).zip(&book.curves);
    let hard = |(t, task): (u32, &Task)| match task.kind {
        Kind::Hard { deadline } => Some(Frame::Hard { t, deadline }),
        Kind::Plain | Kind::Soft => None,
    };
    let ramp = |(t, curves): (u32, &Curves)| {
        let Ramp { peak, knee, foot } = curves.ramp?;
        Some(Frame::Ramp { t, peak, knee, foot })
    };
    let soft = |(t, task): (u32, &Task)| (task.kind == Kind::Soft).then_some(Frame::Soft { t });
    let weight = |(t, curves): (u32, &Curves)| (curves.weight > 1).then_some(Frame::Weight { t, weight: curves.weight });
    let mut all: Vec<Frame> = sheet.tasks.iter().map(|task| Frame::Task { min: task.min, max: task.max }).collect();
    all.extend(sheet.links.iter().map(|&(a, b)| Frame::Link { a: a as u32, b: b as u32 }));
    all.extend(tasks().filter_map(hard));
    all.extend(curves().filter_map(ramp));
    all.extend(tasks().filter_map(soft));
    for (t, curves) in curves() {
        all.extend(curves.steps.iter().map(|step| Frame::Step { t, until: step.until, worth: step.worth }));
    }
    all.extend(curves().filter_map(weight));
    all
}

/// The lines, without their 0A.
pub fn lines(sheet: &Sheet, book: &Book) -> Vec<String> {
    frames(sheet, book).iter().map(|frame| digits(&frame.bytes())).collect()
}
