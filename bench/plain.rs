// The planner in plain Rust, with types of its own.
use crate::sheets::kind;

const TOP: u32 = 1_000_000;
const REFUSED: u32 = 0xFFFF_FF00;

const CELLS: usize = 16_384;

#[derive(Clone, Copy, PartialEq, Eq)]
enum Kind {
    Plain,
    Soft,
    Hard(u32),
}

struct Task {
    min: u16,
    max: u16,
    kind: Kind,
    before: u16,
}

struct Ramp {
    peak: u32,
    knee: u32,
    foot: u32,
}

struct Step {
    until: u32,
    worth: u32,
}

struct Curve {
    ramp: Option<Ramp>,
    steps: Vec<Step>,
    weight: u32,
}

pub struct Sheet {
    tasks: Vec<Task>,
}

pub struct Book {
    curves: Vec<Curve>,
}

#[derive(Clone, Copy)]
struct Loads {
    expected: u32,
    maximum: u32,
}

pub enum Refusal {
    NoOrder = 10,
    Memory = 14,
}

impl Task {
    fn expected(&self) -> u32 {
        (u32::from(self.min) + u32::from(self.max)) / 2
    }
}

impl Ramp {
    fn at(&self, at: u32) -> u32 {
        if at <= self.knee {
            self.peak
        } else if at >= self.foot {
            0
        } else {
            let left = u64::from(self.foot - at);
            let fall = u64::from(self.foot - self.knee);
            (u64::from(self.peak) * left / fall) as u32
        }
    }
}

impl Curve {
    fn at(&self, at: u32) -> u32 {
        let ramp = self.ramp.as_ref().map_or(0, |ramp| ramp.at(at));
        let step = self.steps.iter().find(|step| at <= step.until);
        let sum = (ramp + step.map_or(0, |step| step.worth)).min(TOP);
        (self.weight * sum).min(TOP)
    }
}

impl Book {
    fn worth(&self, task: usize, at: u32) -> u32 {
        self.curves[task].at(at)
    }
}

impl Sheet {
    fn loads(&self, set: usize) -> Loads {
        let mut loads = Loads {
            expected: 0,
            maximum: 0,
        };
        let mut left = set;
        while left != 0 {
            let task = &self.tasks[left.trailing_zeros() as usize];
            loads.expected += task.expected();
            loads.maximum += u32::from(task.max);
            left &= left - 1;
        }
        loads
    }

    // One more than the most that is left to earn where the task comes next; 0 where it can't.
    fn next(&self, book: &Book, cells: &[u32], set: usize, loads: Loads, t: usize) -> u32 {
        let task = &self.tasks[t];
        let before = usize::from(task.before);
        if set >> t & 1 == 1 || before & set != before {
            return 0;
        }
        if let Kind::Hard(deadline) = task.kind
            && loads.maximum + u32::from(task.max) > deadline
        {
            return 0;
        }
        let rest = cells[set | 1 << t];
        if rest == 0 {
            return 0;
        }
        if task.kind == Kind::Soft {
            rest + book.worth(t, loads.expected + task.expected())
        } else {
            rest
        }
    }

    fn plan(&self, book: &Book, cells: &mut [u32], order: &mut [u8]) -> Result<u32, Refusal> {
        let count = self.tasks.len();
        let full = (1 << count) - 1;
        if cells.len() <= full || order.len() < count {
            return Err(Refusal::Memory);
        }
        cells[full] = 1;
        for set in (0..full).rev() {
            let loads = self.loads(set);
            let mut best = 0;
            for t in 0..count {
                best = best.max(self.next(book, cells, set, loads, t));
            }
            cells[set] = best;
        }
        if cells[0] == 0 {
            return Err(Refusal::NoOrder);
        }
        let mut set = 0;
        for place in &mut order[..count] {
            let loads = self.loads(set);
            let goal = cells[set];
            let first = (0..count).find(|&t| self.next(book, cells, set, loads, t) == goal);
            let t = first.expect("a cell above 0 is reached by some task");
            *place = t as u8;
            set |= 1 << t;
        }
        Ok(cells[0] - 1)
    }
}

// The bytes of a line, which has no note.
fn bytes(line: &str) -> Vec<u8> {
    let byte = |i| u8::from_str_radix(&line[i..i + 2], 16).expect("a line is pairs of digits");
    (0..line.len()).step_by(2).map(byte).collect()
}

fn three(a: u8, b: u8, c: u8) -> u32 {
    u32::from_be_bytes([0, a, b, c])
}

// The files of the bench have no fault: only the library tests them.
#[inline(never)]
pub fn make(file: &str) -> (Sheet, Book) {
    let mut sheet = Sheet { tasks: Vec::new() };
    let mut book = Book { curves: Vec::new() };
    for line in file.lines() {
        match bytes(line)[..] {
            [kind::TASK, a, b, c, d, _] => {
                sheet.tasks.push(Task {
                    min: u16::from_be_bytes([a, b]),
                    max: u16::from_be_bytes([c, d]),
                    kind: Kind::Plain,
                    before: 0,
                });
                book.curves.push(Curve {
                    ramp: None,
                    steps: Vec::new(),
                    weight: 1,
                });
            }
            [kind::LINK, a, b, _] => sheet.tasks[usize::from(b)].before |= 1 << a,
            [kind::HARD, t, a, b, c, _] => {
                sheet.tasks[usize::from(t)].kind = Kind::Hard(three(a, b, c));
            }
            [kind::SOFT, t, _] => sheet.tasks[usize::from(t)].kind = Kind::Soft,
            [kind::RAMP, t, a, b, c, d, e, f, g, h, i, _] => {
                book.curves[usize::from(t)].ramp = Some(Ramp {
                    peak: three(a, b, c),
                    knee: three(d, e, f),
                    foot: three(g, h, i),
                });
            }
            [kind::STEP, t, a, b, c, d, e, f, _] => {
                book.curves[usize::from(t)].steps.push(Step {
                    until: three(a, b, c),
                    worth: three(d, e, f),
                });
            }
            [kind::WEIGHT, t, weight, _] => {
                book.curves[usize::from(t)].weight = u32::from(weight);
            }
            _ => {}
        }
    }
    (sheet, book)
}

#[inline(never)]
pub fn plan(file: &str, cells: &mut [u32], order: &mut [u8]) -> u32 {
    let (sheet, book) = make(file);
    match sheet.plan(&book, cells, order) {
        Ok(total) => total,
        Err(refusal) => REFUSED + refusal as u32,
    }
}

// What the program `order` answers: the best order and its total, or the number of a refusal.
pub fn answer(file: &str) -> Result<(Vec<u8>, u32), u32> {
    let (sheet, book) = make(file);
    let mut cells = vec![0; CELLS];
    let mut order = vec![0; sheet.tasks.len()];
    match sheet.plan(&book, &mut cells, &mut order) {
        Ok(total) => Ok((order, total)),
        Err(refusal) => Err(refusal as u32),
    }
}
