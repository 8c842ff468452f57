//! From the frames of a valid file to a file: notes, and in some files one or two damages.

use crate::random::Random;
use crate::sheet::{LATEST, MOST_TASKS};
use crate::text::{Frame, closed, digits};
use crate::worth::{GREATEST_WEIGHT, MOST_STEPS, TOP};

/// Which layer a damage aims at. What it hits may be told by another layer, or be no fault at all.
#[derive(Clone, Copy, PartialEq, Eq)]
enum Damage {
    Sheet,
    Book,
    Frame,
    Text,
}

const DAMAGES: [Damage; 4] = [Damage::Sheet, Damage::Book, Damage::Frame, Damage::Text];

/// The file of these frames.
pub fn file(random: &mut Random, mut frames: Vec<Frame>) -> Vec<u8> {
    let count = match random.below(100) {
        0..62 => 0,
        62..88 => 1,
        _ => 2,
    };
    let mut damages: Vec<Damage> = (0..count).map(|_| random.one_of(&DAMAGES)).collect();
    for damage in &damages {
        let refused = match damage {
            Damage::Sheet => refused_by_sheet(random, &frames),
            Damage::Book => refused_by_book(random),
            Damage::Frame | Damage::Text => continue,
        };
        let at = if random.percent(50) { frames.len() } else { random.index(frames.len() + 1) };
        frames.splice(at..at, refused);
    }
    let mut bytes: Vec<Vec<u8>> = frames.iter().map(Frame::bytes).collect();
    for _ in damages.extract_if(.., |damage| *damage == Damage::Frame) {
        damage_frame(random, &mut bytes);
    }
    let mut lines = with_notes(random, &bytes);
    for _ in damages.iter().filter(|damage| **damage == Damage::Text) {
        damage_text(random, &mut lines);
    }
    lines.concat()
}

/// A circle: a link from where a path of links leads back to its start.
fn circle(random: &mut Random, frames: &[Frame]) -> Option<Frame> {
    let links: Vec<(u32, u32)> =
        frames.iter().filter_map(|frame| if let Frame::Link { a, b } = *frame { Some((a, b)) } else { None }).collect();
    let (start, mut end) = random.perhaps(&links)?;
    while random.percent(60) {
        let onward: Vec<u32> = links.iter().filter(|link| link.0 == end).map(|link| link.1).collect();
        end = random.perhaps(&onward)?;
    }
    Some(Frame::Link { a: end, b: start })
}

/// The other mark on a task that has one.
fn other_mark(random: &mut Random, frames: &[Frame]) -> Option<Frame> {
    let other = |frame: &Frame| match *frame {
        Frame::Hard { t, .. } => Some(Frame::Soft { t }),
        Frame::Soft { t } => Some(Frame::Hard { t, deadline: 50 }),
        _ => None,
    };
    let marks: Vec<Frame> = frames.iter().filter_map(other).collect();
    random.perhaps(&marks)
}

/// Frames of which the sheet refuses one.
fn refused_by_sheet(random: &mut Random, frames: &[Frame]) -> Vec<Frame> {
    let count = frames.iter().filter(|frame| matches!(frame, Frame::Task { .. })).count();
    let t = random.below(count as u32);
    let unknown = random.one_of(&[count as u32, count as u32 + 1, 16, 255]);
    let max = random.within(1, 9);
    let wrong_task = random.one_of(&[
        Frame::Task { min: 0, max },
        Frame::Task { min: 0, max: 0 },
        Frame::Task { min: max + 1, max },
        Frame::Task { min: 65_535, max },
    ]);
    let deadline = random.one_of(&[0, LATEST + 1, LATEST + 2, 2 * LATEST, 16_777_215]);
    match random.below(10) {
        0 => vec![wrong_task],
        1 => vec![random.one_of(&[Frame::Link { a: unknown, b: t }, Frame::Link { a: t, b: unknown }])],
        2 => vec![Frame::Link { a: unknown, b: unknown }],
        3 => vec![Frame::Link { a: t, b: t }],
        4 | 5 => vec![circle(random, frames).unwrap_or(Frame::Link { a: t, b: t })],
        6 => vec![Frame::Hard { t, deadline }],
        7 => vec![random.one_of(&[Frame::Hard { t: unknown, deadline }, Frame::Soft { t: unknown }])],
        8 => vec![other_mark(random, frames).unwrap_or(Frame::Soft { t: unknown })],
        _ => {
            let last = random.one_of(&[wrong_task, Frame::Task { min: 1, max }]);
            let mut tasks = vec![Frame::Task { min: 1, max }; MOST_TASKS - count.min(MOST_TASKS)];
            tasks.push(last);
            tasks
        }
    }
}

/// Frames of which the book refuses one.
fn refused_by_book(random: &mut Random) -> Vec<Frame> {
    let (t, unknown) = (random.below(MOST_TASKS as u32), random.one_of(&[16, 17, 255]));
    let (knee, worth) = (random.below(20), random.within(1, 12));
    let foot = knee + random.within(1, 9);
    let beyond = random.one_of(&[LATEST + 1, 16_777_215]);
    let above = random.one_of(&[TOP + 1, 16_777_215]);
    let step = |until, worth| Frame::Step { t, until, worth };
    match random.below(9) {
        0 => vec![random.one_of(&[
            Frame::Ramp { t: unknown, peak: worth, knee, foot },
            Frame::Step { t: unknown, until: knee, worth: above },
            Frame::Weight { t: unknown, weight: 0 },
            Frame::Weight { t: unknown, weight: 2 },
        ])],
        1 => vec![Frame::Ramp { t, peak: above, knee, foot }],
        2 => vec![Frame::Ramp { t, peak: worth, knee: random.one_of(&[foot, foot + 1, LATEST]), foot }],
        3 => vec![Frame::Ramp { t, peak: worth, knee, foot: beyond }],
        4 => vec![random.one_of(&[step(knee, above), step(beyond, worth)])],
        5 => vec![step(foot, worth), step(random.one_of(&[foot, foot - 1]), worth)],
        6 => vec![step(knee, worth), step(foot, worth + 1)],
        7 => vec![Frame::Weight { t, weight: random.one_of(&[0, GREATEST_WEIGHT + 1, 255]) }],
        _ => {
            // Behind the steps that are there these are accepted until there are six: a seventh by its rule, or against it.
            let untils = LATEST - 1 - MOST_STEPS as u32..LATEST - 1;
            let last = random.one_of(&[step(LATEST, 0), step(0, 0), step(LATEST, above)]);
            untils.map(|until| step(until, 0)).chain([last]).collect()
        }
    }
}

/// Damages the bytes of one frame; all but the first damage leave them adding up to 0.
fn damage_frame(random: &mut Random, frames: &mut [Vec<u8>]) {
    let at = random.index(frames.len());
    let Some(bytes) = frames.get_mut(at) else { return };
    let closing = bytes.pop().unwrap_or(0);
    match random.below(8) {
        0..3 => {
            bytes.push(closing.wrapping_add(random.within(1, 255) as u8));
            return;
        }
        3 => bytes[0] = random.one_of(&[0, 8, 9, 0x10, 0x20, 0x2F, 0x81, 0xFF]),
        4 => bytes[0] = random.within(1, 7) as u8,
        5 => bytes.truncate(random.index(bytes.len())),
        6 => bytes.extend(vec![random.one_of(&[0, 1, 255]); random.within(1, 3) as usize]),
        _ => bytes.insert(random.index(bytes.len()), random.one_of(&[0, 1, 16])),
    }
    *bytes = closed(bytes);
}

/// The lines of frames, many of them with a note.
fn with_notes(random: &mut Random, frames: &[Vec<u8>]) -> Vec<Vec<u8>> {
    let share = random.one_of(&[0, 30, 100]);
    frames.iter().map(|bytes| format!("{}{}\n", digits(bytes), note(random, share)).into_bytes()).collect()
}

/// A note with the blank in front of it, or nothing.
fn note(random: &mut Random, share: u32) -> String {
    if !random.percent(share) {
        return String::new();
    }
    match random.below(5) {
        0 => " ".to_string(),
        1 => " ".repeat(random.within(2, 5) as usize),
        2 => " load the level".to_string(),
        3 => "  0502F9 ~".to_string(),
        _ => (0..random.below(20)).fold(" ".to_string(), |note, _| note + &String::from(random.within(0x20, 0x7E) as u8 as char)),
    }
}

/// Damages one line; a line keeps its 0A, but for one that is flipped and the last.
fn damage_text(random: &mut Random, lines: &mut Vec<Vec<u8>>) {
    let at = random.index(lines.len());
    let Some(line) = lines.get_mut(at) else {
        lines.push(random.one_of(&["\n", " \n", "0\n", "x"]).into());
        return;
    };
    let end = line.len() - 1;
    let digits = line.iter().take_while(|byte| byte.is_ascii_hexdigit()).count();
    let digit = random.index(digits);
    match random.below(11) {
        0 | 1 => line[random.index(end + 1)] ^= random.within(1, 255) as u8,
        2 => drop(line.remove(digit)),
        3 => line.insert(digit, line[digit]),
        4 => line[..digits].make_ascii_lowercase(),
        5 => line.insert(end, b'\r'),
        6 => drop(lines.last_mut().and_then(Vec::pop)),
        7 => lines.insert(at, b"\n".to_vec()),
        8 => line.splice(end..end, [b' ', random.one_of(&[0x00, 0x09, 0x1F, 0x7F, 0x80, 0xFF])]).for_each(drop),
        9 => line.insert(0, b' '),
        _ => line.insert(digits, random.one_of(b"G:x-,\t")),
    }
}
