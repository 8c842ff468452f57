// The sheet files that are measured, from fixed seeds.

// The first byte of a line's frame is one of these.
pub mod kind {
    pub const TASK: u8 = 1;
    pub const LINK: u8 = 2;
    pub const HARD: u8 = 3;
    pub const RAMP: u8 = 4;
    pub const SOFT: u8 = 5;
    pub const STEP: u8 = 6;
    pub const WEIGHT: u8 = 7;
}

// A small generator of numbers, the same on every run.
struct Numbers(u64);

impl Numbers {
    // From `low` to `high`, both included.
    fn between(&mut self, low: u32, high: u32) -> u32 {
        self.0 = self
            .0
            .wrapping_mul(6364136223846793005)
            .wrapping_add(1442695040888963407);
        low + ((self.0 >> 33) % u64::from(high - low + 1)) as u32
    }
}

// Writes a line: the kind of its frame, the fields, each with the count of its bytes, and the byte that makes the sum of all 0
// modulo 256.
pub fn line(file: &mut String, kind: u8, fields: &[(u32, usize)]) {
    let mut frame = vec![kind];
    for (field, count) in fields {
        frame.extend(&field.to_be_bytes()[4 - count..]);
    }
    let sum = frame.iter().fold(0_u8, |sum, byte| sum.wrapping_add(*byte));
    frame.push(sum.wrapping_neg());
    file.extend(frame.iter().map(|byte| format!("{byte:02X}")));
    file.push('\n');
}

// The file of a sheet of so many tasks and its book: of the pairs of tasks one in six is linked, every fourth task is hard with a
// deadline that the order by number meets, every eighth is plain, and the others are soft, each with a ramp and a weight, most
// with steps.
pub fn sample(count: u32, seed: u64) -> String {
    let mut numbers = Numbers(seed);
    let mut file = String::new();
    let mut line = |kind, fields: &[(u32, usize)]| line(&mut file, kind, fields);
    let mut end = 0;
    let mut ends = Vec::new();
    for _ in 0..count {
        let min = numbers.between(20, 400);
        let max = min + numbers.between(0, 200);
        end += max;
        ends.push(end);
        line(kind::TASK, &[(min, 2), (max, 2)]);
    }
    for b in 0..count {
        for a in 0..b {
            if numbers.between(1, 6) == 1 {
                line(kind::LINK, &[(a, 1), (b, 1)]);
            }
        }
    }
    for t in 0..count {
        match t % 8 {
            3 | 7 => {
                let slack = numbers.between(0, end / 2);
                line(kind::HARD, &[(t, 1), (ends[t as usize] + slack, 3)]);
            }
            5 => {}
            _ => {
                line(kind::SOFT, &[(t, 1)]);
                let knee = numbers.between(0, end / 2);
                let foot = knee + numbers.between(1, end);
                let peak = numbers.between(1000, 60000);
                line(kind::RAMP, &[(t, 1), (peak, 3), (knee, 3), (foot, 3)]);
                let mut until = 0;
                let mut worth = numbers.between(1000, 30000);
                for _ in 0..numbers.between(0, 3) {
                    until += numbers.between(1, end / 2);
                    line(kind::STEP, &[(t, 1), (until, 3), (worth, 3)]);
                    worth -= numbers.between(0, worth / 2);
                }
                line(kind::WEIGHT, &[(t, 1), (numbers.between(1, 16), 1)]);
            }
        }
    }
    file
}

// How many sheets of a size are measured.
pub const SHEETS: u32 = 8;

pub fn samples(count: u32) -> Vec<String> {
    (0..SHEETS)
        .map(|seed| sample(count, u64::from(seed)))
        .collect()
}
