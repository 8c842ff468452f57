//! The generator: each seed gives one sheet file, valid or damaged.

use std::collections::VecDeque;

use crate::Mode;
use crate::damage;
use crate::orders::few;
use crate::random::Random;
use crate::sheet::{LATEST, MOST_TASKS, Set, Sheet, Task};
use crate::text::Frame;
use crate::worth::{GREATEST_WEIGHT, MOST_STEPS};

/// A sheet of more than eight tasks gets so many links that no more orders keep them.
const MOST_ORDERS: usize = 3_000;

/// Frames that stay in this order.
type Stream = VecDeque<Frame>;

/// The sheet file of a seed.
pub fn file(seed: u64, mode: Mode) -> Vec<u8> {
    let mut random = Random::new(seed);
    let frames = valid(&mut random, mode);
    damage::file(&mut random, frames)
}

/// The frames of a file without a fault.
fn valid(random: &mut Random, mode: Mode) -> Vec<Frame> {
    let mut sheet = Sheet::default();
    let mut streams = vec![tasks(random, &mut sheet, mode)];
    let mut hidden: Vec<usize> = (0..sheet.count()).collect();
    random.shuffle(&mut hidden);
    streams.extend(links(random, &mut sheet, &hidden));
    streams.extend(marks(random, &sheet, &hidden));
    streams.extend(curves(random, &sheet));
    merged(random, streams)
}

/// How many tasks the sheet has, more often many than few.
fn count(random: &mut Random, mode: Mode) -> u32 {
    let (first, last) = match (random.below(100), mode) {
        (0..3, _) => (15, 16),
        (3..15, Mode::Order) => (9, 14),
        (_, Mode::Order) => (0, 8),
        (_, Mode::Facts) => (0, 6),
    };
    random.within(first, last).max(random.within(first, last))
}

fn tasks(random: &mut Random, sheet: &mut Sheet, mode: Mode) -> Stream {
    let durations: &[u32] =
        random.one_of(&[&[1, 2, 3, 4, 5, 6], &[1, 2, 3], &[1], &[1, 2, 5, 10, 20, 30, 50, 100], &[1, 2, 65_534, 65_535]]);
    let mut frames = Stream::new();
    for _ in 0..count(random, mode) {
        let (one, other) = (random.one_of(durations), random.one_of(durations));
        let (min, max) = (one.min(other), one.max(other));
        sheet.task(min, max).expect("at most sixteen tasks, of durations in range");
        frames.push_back(Frame::Task { min, max });
    }
    frames
}

/// Links that lead forward in the hidden order, some of them given twice.
fn links(random: &mut Random, sheet: &mut Sheet, hidden: &[usize]) -> Vec<Stream> {
    let forward = |(at, &b): (usize, &usize)| hidden[..at].iter().map(|&a| (a as u32, b as u32)).collect::<Vec<_>>();
    let mut pairs: Vec<(u32, u32)> = hidden.iter().enumerate().flat_map(forward).collect();
    random.shuffle(&mut pairs);
    let density = random.one_of(&[0, 0, 10, 25, 50, 100]);
    let mut crowded = sheet.count() > 8;
    let mut streams = Vec::new();
    for (at, (a, b)) in pairs.into_iter().enumerate() {
        crowded = crowded && !(at % 8 == 0 && few(sheet, MOST_ORDERS));
        if crowded || random.percent(density) {
            sheet.link(a, b).expect("a link that leads forward in an order of all tasks");
            let times = if random.percent(8) { 2 } else { 1 };
            streams.extend(vec![Stream::from([Frame::Link { a, b }]); times]);
        }
    }
    streams
}

/// A deadline about as early as the hidden order, or one that runs first what must be early, can meet.
fn deadline(random: &mut Random, demand: u64, end: u64, others: &[u64]) -> u32 {
    let other = random.perhaps(others).unwrap_or(end);
    let base = random.one_of(&[demand, demand, demand, end, end, end, other]);
    let deadline = match random.below(100) {
        0..50 => base,
        50..75 => base + u64::from(random.within(1, 3)),
        75..88 => base + u64::from(random.below(20)),
        88..97 => base.saturating_sub(u64::from(random.within(1, 3))),
        97 => 1,
        _ => u64::from(LATEST),
    };
    deadline.clamp(1, u64::from(LATEST)) as u32
}

/// Hard and soft marks, some of them put on twice; of two deadlines of a task the second counts.
fn marks(random: &mut Random, sheet: &Sheet, hidden: &[usize]) -> Vec<Stream> {
    let load = |set: Set| sheet.members(set).map(Task::maximum).sum();
    let (hard, soft) = random.one_of(&[(25, 60), (30, 70), (40, 55), (0, 100), (10, 85), (50, 50), (85, 10), (0, 0)]);
    let (mut due, mut ran, mut deadlines) = (0, 0, Vec::new());
    let mut streams = Vec::new();
    for &task in hidden {
        let t = task as u32;
        let kind = random.below(100);
        let again = random.percent(8);
        ran |= 1 << task;
        if kind < hard {
            due |= sheet.up_set(task);
            let deadline = deadline(random, load(due), load(ran), &deadlines);
            deadlines.push(u64::from(deadline));
            let first = again.then(|| Frame::Hard { t, deadline: random.within(1, LATEST) });
            streams.push(first.into_iter().chain([Frame::Hard { t, deadline }]).collect());
        } else if kind < hard + soft {
            streams.push(vec![Frame::Soft { t }; if again { 2 } else { 1 }].into());
        }
    }
    streams
}

/// Where worths change, and which worths there are: few of them, so that totals are often equal.
struct Taste {
    horizon: u32,
    worths: &'static [u32],
}

impl Taste {
    fn time(&self, random: &mut Random) -> u32 {
        if random.percent(3) { LATEST - random.within(1, 2) } else { random.below(self.horizon + 2) }
    }

    fn ramp(&self, random: &mut Random, t: u32) -> Frame {
        let knee = self.time(random);
        let foot = LATEST.min(knee + 1 + random.below(self.horizon + 2));
        Frame::Ramp { t, peak: random.one_of(self.worths), knee, foot }
    }

    /// Up to six steps, by time.
    fn steps(&self, random: &mut Random, t: u32) -> Stream {
        let count = if random.percent(20) { MOST_STEPS } else { random.within(1, 3) as usize };
        let mut worths: Vec<u32> = (0..count).map(|_| random.one_of(self.worths)).collect();
        worths.sort_by(|one, other| other.cmp(one));
        let mut until = random.below(self.horizon + 1);
        let mut steps = Stream::new();
        for worth in worths {
            steps.push_back(Frame::Step { t, until: until.min(LATEST), worth });
            until += random.within(1, self.horizon / 3 + 1);
        }
        steps
    }
}

/// Curves and weights of most tasks, whatever their kinds, and of some numbers without a task.
fn curves(random: &mut Random, sheet: &Sheet) -> Vec<Stream> {
    let expected: u64 = sheet.tasks.iter().map(Task::expected).sum();
    let worths: &[&[u32]] =
        &[&[1], &[0, 1, 2], &[1, 2, 3, 4, 6, 8], &[6, 12, 18, 30, 100], &[1_000_000, 999_999, 500_000, 62_501, 62_500]];
    let taste = Taste { horizon: expected as u32, worths: random.one_of(worths) };
    let mut streams = Vec::new();
    for t in 0..MOST_TASKS as u32 {
        if !random.percent(if (t as usize) < sheet.count() { 85 } else { 4 }) {
            continue;
        }
        if random.percent(75) {
            let times = if random.percent(8) { 2 } else { 1 };
            streams.push((0..times).map(|_| taste.ramp(random, t)).collect());
        }
        if random.percent(55) {
            streams.push(taste.steps(random, t));
        }
        if random.percent(40) {
            let times = if random.percent(8) { 2 } else { 1 };
            streams.push((0..times).map(|_| Frame::Weight { t, weight: random.within(1, GREATEST_WEIGHT) }).collect());
        }
    }
    streams
}

/// How many tasks must be there before the frame.
fn needs(frame: &Frame) -> u32 {
    match *frame {
        Frame::Link { a, b } => a.max(b) + 1,
        Frame::Hard { t, .. } | Frame::Soft { t } => t + 1,
        Frame::Task { .. } | Frame::Ramp { .. } | Frame::Step { .. } | Frame::Weight { .. } => 0,
    }
}

/// The streams one behind the other, or merged in any way in which no frame names a task that is not there yet.
fn merged(random: &mut Random, mut streams: Vec<Stream>) -> Vec<Frame> {
    let in_turn = random.one_of(&[0, 30, 100]);
    let mut frames = Vec::new();
    let mut tasks = 0;
    loop {
        let is_ready = |stream: &Stream| stream.front().is_some_and(|frame| needs(frame) <= tasks);
        let ready: Vec<usize> = (0..streams.len()).filter(|&at| is_ready(&streams[at])).collect();
        let Some(any) = random.perhaps(&ready) else { return frames };
        let next = if random.percent(in_turn) { ready[0] } else { any };
        let frame = streams[next].pop_front();
        tasks += u32::from(matches!(frame, Some(Frame::Task { .. })));
        frames.extend(frame);
    }
}
