//! The facts of a sheet file, line by line. `docs/SECOND-PROGRAM.md` has their format.

use std::fmt::Display;

use crate::load::load;
use crate::orders::{Figures, cell, has_room, plan};
use crate::refusal::number;
use crate::rows::{Rows, longer};
use crate::saved;
use crate::sheet::Sheet;
use crate::worth::Book;

/// The times at which worths are told.
const TIMES: [u64; 13] = [0, 1, 2, 5, 10, 20, 50, 100, 1000, 65_535, 1_048_574, 1_048_575, 4_294_967_295];

/// The greatest number of tasks of which the rows are told.
const ROW_TASKS: usize = 5;

/// Numbers as words, or `-` where there is none.
fn joined<T: Display>(numbers: impl IntoIterator<Item = T>, by: &str) -> String {
    let words: Vec<String> = numbers.into_iter().map(|number| number.to_string()).collect();
    if words.is_empty() { "-".to_string() } else { words.join(by) }
}

fn perhaps<T: Display>(value: Option<T>) -> String {
    joined(value, "")
}

fn list(order: &[usize]) -> String {
    joined(order, ",")
}

fn sheet_lines(sheet: &Sheet, book: &Book) -> Vec<String> {
    let task_line = |t: usize| {
        let (task, up_set, margin) = (&sheet.tasks[t], sheet.up_set(t), perhaps(sheet.margin(t)));
        format!("task {t} {} {} {up_set} {margin}", task.expected(), task.maximum())
    };
    let mut lines: Vec<String> = (0..sheet.count()).map(task_line).collect();
    lines.push(format!("fits {}", if sheet.fits() { "yes" } else { "no" }));
    lines.push(format!("tightest {}", perhaps(sheet.tightest())));
    lines.push(format!("keenest {}", perhaps(book.keenest(sheet))));
    lines.extend((0..=16).map(|t| format!("worth {t} {}", joined(TIMES.map(|time| book.worth(t, time)), " "))));
    lines
}

fn plan_lines(sheet: &Sheet, book: &Book) -> Vec<String> {
    let mut lines = vec![match plan(sheet, book) {
        Ok((order, total)) => format!("plan {} {total}", list(&order)),
        Err(refusal) => format!("plan refused {}", refusal.number()),
    }];
    if has_room(sheet) {
        lines.extend((0..=sheet.all()).map(|set| format!("cell {set} {}", cell(sheet, book, set))));
    }
    lines
}

fn tally(figures: &Figures) -> String {
    format!("{} {} {} {}", figures.set, figures.expected, figures.maximum, figures.total)
}

/// What is told of one row that can be laid.
fn row_lines(rows: &Rows, row: &[usize]) -> Vec<String> {
    let numbers = || 0..=rows.sheet.count();
    let name = list(row);
    let trial_line = |t| {
        let answer = rows.place(row, t);
        let shown = if answer.is_ok() { rows.tally(&longer(row, t)) } else { rows.tally(row) };
        format!("trial {name} {t} {} {}", number(answer), tally(&shown))
    };
    let answers = numbers().map(|t| number(rows.place(row, t)));
    let mut lines = vec![format!("tally {name} {}", tally(&rows.tally(row))), format!("place {name} {}", joined(answers, " "))];
    lines.extend(numbers().map(trial_line));
    lines.extend(rows.finish(row).map(|(order, weight)| format!("finish {name} {} {weight}", list(&order))));
    lines
}

fn rows_lines(sheet: &Sheet, book: &Book) -> Vec<String> {
    match Rows::begin(sheet, book) {
        Err(refusal) => vec![format!("begin {}", refusal.number())],
        Ok(_) if sheet.count() > ROW_TASKS => vec!["begin 0".to_string()],
        Ok(rows) => {
            let mut lines = vec!["begin 0".to_string()];
            lines.extend(rows.laid(Vec::new()).iter().flat_map(|row| row_lines(&rows, row)));
            lines
        }
    }
}

/// All facts of a file, each line with its end.
pub fn text(file: &[u8]) -> String {
    let lines = match load(file) {
        Err(fault) => vec![format!("fault {} {} {}", fault.layer as u8, fault.cause.number(), fault.line)],
        Ok((sheet, book)) => {
            let saved = saved::lines(&sheet, &book).iter().map(|line| format!("save {line}")).collect();
            [sheet_lines(&sheet, &book), plan_lines(&sheet, &book), rows_lines(&sheet, &book), saved].concat()
        }
    };
    lines.iter().map(|line| format!("{line}\n")).collect()
}
