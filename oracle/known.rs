//! The worked examples of `docs/`.

use crate::answer::{line, planned};
use crate::facts;
use crate::load::load;
use crate::orders::{cell, figures};
use crate::refusal::{Layer, Refusal, number};
use crate::rows::Rows;
use crate::saved;
use crate::sheet::Sheet;
use crate::text::{Frame, digits, pieces, read};
use crate::worth::{Book, Ramp, Step};

const THREE: &str = "0100010001FD
0100050005F5
0100020002FB
0301000006F6
040200000C00000700000ADD
0502F9
";

const FIVE: &str = "0100010007F7
010002000AF3
010002000AF3
0100040008F3
0100010003FB
020001FD
020002FC
020003FB
020104F9
020204F8
020304F7
030300001EDC
040100001200000900001BC5
040200000C000015000018C1
0501FA
0502F9
";

fn loaded(file: &str) -> (Sheet, Book) {
    load(file.as_bytes()).expect("a file without a fault")
}

fn answer(file: &str) -> String {
    line(&planned(file.as_bytes())).trim_end().to_string()
}

fn cells(file: &str, sets: &[u32]) -> Vec<u64> {
    let (sheet, book) = loaded(file);
    sets.iter().map(|&set| cell(&sheet, &book, set)).collect()
}

/// The answers to placing each number on a row, as numbers.
fn places(file: &str, row: &[usize]) -> Vec<u8> {
    let (sheet, book) = loaded(file);
    let rows = Rows::begin(&sheet, &book).ok().expect("a sheet with a lawful order");
    (0..=sheet.count()).map(|t| number(rows.place(row, t))).collect()
}

fn finished(file: &str, row: &[usize]) -> Option<(Vec<usize>, u64)> {
    let (sheet, book) = loaded(file);
    Rows::begin(&sheet, &book).ok()?.finish(row)
}

/// A sheet of these durations, and its hard tasks with their deadlines.
fn sheet(tasks: &[(u32, u32)], hard: &[(u32, u32)]) -> Sheet {
    let mut sheet = Sheet::default();
    for &(min, max) in tasks {
        assert_eq!(sheet.task(min, max), Ok(()));
    }
    for &(t, deadline) in hard {
        assert_eq!(sheet.hard(t, deadline), Ok(()));
    }
    sheet
}

fn worths(book: &Book, t: usize, times: &[u64]) -> Vec<u64> {
    times.iter().map(|&at| book.worth(t, at)).collect()
}

#[test]
fn files_are_answered() {
    assert_eq!(answer(THREE), "200301020000000CCE");
    assert_eq!(answer(&THREE.replace("0301000006F6", "0301000004F8")), "2F050A0000C2");
    assert_eq!(answer("0100010001FD\n0100050005F5 level  \n050000\n0100020002FB\n"), "2F020C0003C0");
    assert_eq!(answer(&"0100010001FD\n".repeat(15)), "2F050E0000BE");
    assert_eq!(answer(""), "2000000000E0");
}

#[test]
fn a_file_may_have_65_535_bytes() {
    let file = |notes: usize| format!("0100010001FD {}\n", "~".repeat(notes));
    assert_eq!(answer(&file(65_521)), "200100000000DF");
    assert_eq!(answer(&file(65_522)), "2F010E0000C2");
}

#[test]
fn lines_are_read() {
    let read_of = |line: &str| read(line.as_bytes());
    assert_eq!(read_of("03000FFFFFF0\n"), Ok(Frame::Hard { t: 0, deadline: 1_048_575 }));
    assert_eq!(read_of("0600010203040506E5 \n"), Ok(Frame::Step { t: 0, until: 66_051, worth: 263_430 }));
    for line in
        ["\n", " note\n", "0502f9\n", "0502F90\n", "0502F9note\n", "0502F9\r\n", "0502F9", "0502F9 \x1F\n", "0502F8 \x7F\n"]
    {
        assert_eq!(read_of(line), Err(Refusal::NotALine), "{line:?}");
    }
    for line in ["0502F8\n", "05 02F9\n", "08F7\n", "02000100FE\n"] {
        assert_eq!(read_of(line), Err(Refusal::BadSum), "{line:?}");
    }
    for line in ["00\n", "08F8\n", "0200FE\n", "02000100FD\n", "040200000C00000700000A00000000DD\n"] {
        assert_eq!(read_of(line), Err(Refusal::BadFrame), "{line:?}");
    }
    assert_eq!(pieces(b"a\n\nb").collect::<Vec<_>>(), [&b"a\n"[..], b"\n", b"b"]);
}

#[test]
fn margins_count_equal_deadlines_together() {
    let equal = sheet(&[(2, 2), (1, 3)], &[(0, 5), (1, 5)]);
    assert_eq!((equal.margin(0), equal.margin(1), equal.tightest()), (Some(0), Some(0), Some(0)));
    let late = sheet(&[(1, 1), (5, 5), (2, 2)], &[(1, 4)]);
    assert_eq!((late.margin(0), late.margin(1), late.fits(), late.tightest()), (None, Some(-1), false, Some(1)));
    let (five, _) = loaded(FIVE);
    assert_eq!((five.margin(3), five.up_set(3), five.tasks[3].expected()), (Some(15), 0b1001, 6));
}

#[test]
fn calls_on_sheets_are_refused() {
    let mut sheet = sheet(&[(1, 2); 3], &[]);
    assert_eq!((sheet.link(0, 1), sheet.link(1, 2)), (Ok(()), Ok(())));
    assert_eq!((sheet.link(2, 0), sheet.link(1, 1)), (Err(Refusal::Circle), Err(Refusal::Circle)));
    assert_eq!((sheet.link(3, 3), sheet.link(0, 1)), (Err(Refusal::UnknownTask), Ok(())));
    assert_eq!((sheet.hard(0, 1_048_576), sheet.hard(3, 0)), (Err(Refusal::DeadlineRange), Err(Refusal::UnknownTask)));
    assert_eq!((sheet.hard(0, 9), sheet.soft(0)), (Ok(()), Err(Refusal::OtherKind)));
    for (min, max) in [(0, 5), (6, 5), (1, 65_536)] {
        assert_eq!(sheet.task(min, max), Err(Refusal::Durations));
    }
}

#[test]
fn ramps_steps_and_weights_are_worth() {
    let mut book = Book::default();
    assert_eq!(book.ramp(0, Ramp { peak: 12, knee: 7, foot: 10 }), Ok(()));
    assert_eq!(worths(&book, 0, &[0, 7, 8, 9, 10]), [12, 12, 8, 4, 0]);
    assert_eq!(book.ramp(0, Ramp { peak: 12, knee: 10, foot: 10 }), Err(Refusal::BookRule));
    assert_eq!(book.ramp(16, Ramp { peak: 12, knee: 10, foot: 10 }), Err(Refusal::UnknownTask));
    for (until, worth) in [(5, 9), (8, 4)] {
        assert_eq!(book.step(1, Step { until, worth }), Ok(()));
    }
    assert_eq!(worths(&book, 1, &[5, 6, 8, 9]), [9, 4, 4, 0]);
    assert_eq!(book.step(1, Step { until: 8, worth: 2 }), Err(Refusal::BookRule));
    assert_eq!(book.ramp(2, Ramp { peak: 10, knee: 0, foot: 3 }), Ok(()));
    assert_eq!((book.weight(2, 3), book.weight(2, 17)), (Ok(()), Err(Refusal::BookRule)));
    assert_eq!(worths(&book, 2, &[1]), [18]);
    assert_eq!((book.step(2, Step { until: 1, worth: 62_494 }), book.weight(2, 16)), (Ok(()), Ok(())));
    assert_eq!(worths(&book, 2, &[1]), [1_000_000]);
}

#[test]
fn a_seventh_step_is_refused() {
    let mut book = Book::default();
    for (until, worth) in [(0, 1_000_000), (1, 6), (2, 5), (3, 4), (4, 3), (5, 2)] {
        assert_eq!(book.step(0, Step { until, worth }), Ok(()));
    }
    assert_eq!(book.step(0, Step { until: 6, worth: 1 }), Err(Refusal::StepsFull));
    assert_eq!(book.step(0, Step { until: 6, worth: 3 }), Err(Refusal::BookRule));
}

#[test]
fn the_keenest_is_chosen_by_worth_for_its_effort() {
    let (sheet, mut book) = loaded("01000A000AEB\n0100020002FB\n040000001E000005000014C5\n0500FB\n0501FA\n0601000000000007F2\n");
    assert_eq!(book.keenest(&sheet), Some(1));
    assert_eq!((book.weight(0, 2), book.keenest(&sheet)), (Ok(()), Some(0)));
    let (five, _) = loaded(FIVE);
    assert_eq!(Book::default().keenest(&five), Some(1));
}

#[test]
fn cells_are_filled() {
    assert_eq!(cells(THREE, &[0b000, 0b001, 0b100]), [13, 9, 0]);
    assert_eq!(cells(&THREE.replace("0301000006F6", "0301000004F8"), &[0b000, 0b010, 0b111]), [0, 13, 1]);
    assert_eq!(cells(FIVE, &[0b00001, 0b00111, 0b01110, 0b11111, 0b00010]), [26, 0, 1, 1, 9]);
    assert_eq!(answer(FIVE), line(&Ok((vec![0, 1, 3, 2, 4], 25))).trim_end());
}

#[test]
fn of_equal_orders_the_first_is_the_best() {
    let tasks = "0100030003F9\n0100020002FB\n0100020002FB\n0501FA\n0502F9\n";
    let ramps = [1, 2].map(|t| digits(&Frame::Ramp { t, peak: 12, knee: 2, foot: 8 }.bytes()) + "\n");
    let file = tasks.to_string() + &ramps.concat();
    assert_eq!(planned(file.as_bytes()), Ok((vec![1, 2, 0], 20)));
}

#[test]
fn rows_are_laid() {
    assert_eq!(places(THREE, &[]), [0, 0, 17, 1]);
    assert_eq!(places(THREE, &[0]), [15, 0, 17, 1]);
    assert_eq!(places(FIVE, &[0, 1]), [15, 15, 17, 0, 16, 1]);
    assert_eq!(finished(THREE, &[]), Some((vec![0, 1, 2], 8)));
    assert_eq!(finished(FIVE, &[0, 2]), Some((vec![0, 2, 3, 1, 4], 17)));
    let (five, book) = loaded(FIVE);
    let tally = figures(&five, &book, 0, &[0, 3, 1]);
    assert_eq!((tally.set, tally.expected, tally.maximum, tally.total), (0b1011, 16, 25, 11));
}

#[test]
fn what_is_saved_is_the_file_again() {
    for file in [THREE, FIVE] {
        let (sheet, book) = loaded(file);
        assert_eq!(saved::lines(&sheet, &book), file.lines().collect::<Vec<_>>());
    }
}

#[test]
fn facts_are_told() {
    assert_eq!(facts::text(b"0502F9\n"), format!("fault {} 1 1\n", Layer::Sheet as u8));
    let text = facts::text(THREE.as_bytes());
    for line in ["task 1 5 5 2 1", "plan 1,2,0 12", "cell 0 13", "place - 0 0 17 1", "trial 0 1 0 3 6 6 0", "finish 0 0,1,2 8"] {
        assert!(text.lines().any(|other| other == line), "{line}");
    }
}
