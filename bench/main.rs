// The planner of the static library, and the program `order`, beside the same in plain Rust: equal answers, instructions and times.
mod plain;
mod sheets;

use sheets::{SHEETS, kind, line, sample, samples};
use std::hint::black_box;
use std::io::{self, Read, Write};
use std::process::{Command, ExitCode, Stdio};
use std::time::Instant;

#[link(name = "planlib", kind = "static")]
unsafe extern "C" {
    fn step_make(file: *const u8, file_len: usize) -> u32;
    fn step_plan(
        file: *const u8,
        file_len: usize,
        cells: *mut u32,
        cells_len: usize,
        order: *mut u8,
        order_len: usize,
    ) -> u32;
}

// The line that the program `order` prints for a file without a fault.
fn order_line(file: &str) -> String {
    let mut text = String::new();
    match plain::answer(file) {
        Ok((order, total)) => {
            let mut fields = vec![(order.len() as u32, 1)];
            fields.extend(order.iter().map(|t| (u32::from(*t), 1)));
            fields.push((total, 3));
            line(&mut text, 0x20, &fields);
        }
        Err(cause) => line(&mut text, 0x2F, &[(5, 1), (cause, 1), (0, 2)]),
    }
    text
}

struct Memory {
    cells: Vec<u32>,
    order: Vec<u8>,
}

impl Memory {
    fn of(count: u32) -> Memory {
        Memory {
            cells: vec![7; 1 << count],
            order: vec![7; count as usize],
        }
    }
}

#[inline(never)]
fn make_ours(file: &str, _: &mut Memory) -> u32 {
    // The library reads the file and keeps nothing of it.
    unsafe { step_make(file.as_ptr(), file.len()) }
}

#[inline(never)]
fn plan_ours(file: &str, memory: &mut Memory) -> u32 {
    let Memory { cells, order } = memory;
    // The library reads the file, writes within both buffers, and keeps nothing of them.
    unsafe {
        step_plan(
            file.as_ptr(),
            file.len(),
            cells.as_mut_ptr(),
            cells.len(),
            order.as_mut_ptr(),
            order.len(),
        )
    }
}

#[inline(never)]
fn make_rust(file: &str, _: &mut Memory) -> u32 {
    black_box(plain::make(file));
    0
}

#[inline(never)]
fn plan_rust(file: &str, memory: &mut Memory) -> u32 {
    plain::plan(file, &mut memory.cells, &mut memory.order)
}

type Run = fn(&str, &mut Memory) -> u32;

// Runs over each of the sheets so many times.
fn repeat(run: Run, files: &[String], memory: &mut Memory, rounds: u32) {
    for _ in 0..rounds {
        for file in files {
            black_box(run(black_box(file), memory));
        }
    }
}

// Whether both answer the same total, order and cells.
fn agree(file: &str, count: u32) -> bool {
    let (mut ours, mut rust) = (Memory::of(count), Memory::of(count));
    let (total, other) = (plan_ours(file, &mut ours), plan_rust(file, &mut rust));
    total == other && ours.cells == rust.cells && ours.order == rust.order
}

// The microseconds of a plan of ours and of Rust's, without those of making the sheet and the book: by turns, and the shortest
// of each.
fn times(files: &[String], memory: &mut Memory, rounds: u32) -> [f64; 2] {
    let mut took = |run: Run| {
        let start = Instant::now();
        repeat(run, files, memory, rounds);
        start.elapsed().as_secs_f64() * 1e6 / f64::from(rounds * SHEETS)
    };
    let mut least = [f64::INFINITY; 2];
    for _ in 0..20 {
        let pairs: [(Run, Run); 2] = [(make_ours, plan_ours), (make_rust, plan_rust)];
        for (least, (make, plan)) in least.iter_mut().zip(pairs) {
            let all = took(plan);
            *least = least.min(all - took(make));
        }
    }
    least
}

// Whether both answer the same on each of the sheets, and where a deadline leaves no order.
fn check(count: u32) -> bool {
    samples(count).into_iter().all(|mut file| {
        let same = agree(&file, count);
        line(&mut file, kind::HARD, &[(3, 1), (1, 3)]);
        same && (count <= 3 || agree(&file, count))
    })
}

// What the program prints for the file, and how many microseconds it ran.
fn run(program: &str, words: &[&str], file: &str) -> io::Result<(Vec<u8>, f64)> {
    let start = Instant::now();
    let mut child = Command::new(program)
        .args(words)
        .stdin(Stdio::piped())
        .stdout(Stdio::piped())
        .spawn()?;
    if let Some(mut input) = child.stdin.take() {
        input.write_all(file.as_bytes())?;
    }
    let output = child.wait_with_output()?;
    Ok((output.stdout, start.elapsed().as_secs_f64() * 1e6))
}

// The microseconds of a run of `order`, which is the program of this name, and of the same in Rust, by turns, and the shortest of
// each for each file. None where they print different lines.
fn order_times(order: &str, files: &[String], tries: u32) -> io::Result<Option<[f64; 2]>> {
    let this = std::env::current_exe()?;
    let this = this.to_string_lossy();
    let mut sums = [0.0; 2];
    for file in files {
        let mut least = [f64::INFINITY; 2];
        for _ in 0..tries {
            let (ours, took) = run(order, &[], file)?;
            let (rust, other) = run(&this, &["order"], file)?;
            if ours != rust {
                return Ok(None);
            }
            least = [least[0].min(took), least[1].min(other)];
        }
        sums = [sums[0] + least[0], sums[1] + least[1]];
    }
    Ok(Some(sums.map(|sum| sum / f64::from(SHEETS))))
}

fn read_input() -> io::Result<String> {
    let mut file = String::new();
    io::stdin().read_to_string(&mut file)?;
    Ok(file)
}

fn main() -> io::Result<ExitCode> {
    let words: Vec<String> = std::env::args().skip(1).collect();
    let number = |k: usize| {
        words
            .get(k)
            .and_then(|word| word.parse::<u32>().ok())
            .unwrap_or(0)
    };
    // How many tasks; how many rounds or tries, or a seed.
    let (count, rounds) = (number(1), number(2));
    let files = samples(count);
    let mut memory = Memory::of(count);
    match words.first().map(String::as_str) {
        Some("check") => {
            if !(1..=16).all(check) {
                println!("the answers differ");
                return Ok(ExitCode::FAILURE);
            }
            println!("all answers are equal");
        }
        Some("sheets") => println!("{SHEETS}"),
        Some("make-ours") => repeat(make_ours, &files, &mut memory, rounds),
        Some("make-rust") => repeat(make_rust, &files, &mut memory, rounds),
        Some("ours") => repeat(plan_ours, &files, &mut memory, rounds),
        Some("rust") => repeat(plan_rust, &files, &mut memory, rounds),
        Some("time") => {
            let [ours, rust] = times(&files, &mut memory, rounds);
            println!("{ours:.1} {rust:.1} {:.2}", ours / rust);
        }
        Some("order") => print!("{}", order_line(&read_input()?)),
        Some("file") => print!("{}", sample(count, u64::from(rounds))),
        Some("time-order") => {
            let order = words.get(3).map_or("", String::as_str);
            let Some([ours, rust]) = order_times(order, &files, rounds)? else {
                println!("the lines differ");
                return Ok(ExitCode::FAILURE);
            };
            println!("{ours:.0} {rust:.0} {:.2}", ours / rust);
        }
        _ => {
            println!("check | sheets | ours, rust, make-ours, make-rust or time TASKS ROUNDS");
            println!("order | file TASKS SEED | time-order TASKS TRIES PROGRAM");
            return Ok(ExitCode::FAILURE);
        }
    }
    Ok(ExitCode::SUCCESS)
}
