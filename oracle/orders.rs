//! Orders, found by listing them all.

use crate::refusal::Refusal;
use crate::sheet::{Kind, Set, Sheet, has};
use crate::worth::Book;

pub type Order = Vec<usize>;

/// `plan` is lent so many cells.
const CELLS: usize = 16_384;

/// Every order of the tasks outside the set in which each direct predecessor of a task is in the set or stands earlier.
pub fn keeping_links(sheet: &Sheet, set: Set) -> Vec<Order> {
    Listing::of(sheet, set, usize::MAX).found
}

/// Whether there are at most so many orders that keep the links.
pub fn few(sheet: &Sheet, most: usize) -> bool {
    Listing::of(sheet, 0, most + 1).found.len() <= most
}

/// A list of orders that is being made.
struct Listing {
    all: Set,
    /// The direct predecessors of each task.
    before: Vec<Set>,
    order: Order,
    found: Vec<Order>,
    most: usize,
}

impl Listing {
    /// The orders that go on from a set, or the first of them where there are more than `most`.
    fn of(sheet: &Sheet, set: Set, most: usize) -> Listing {
        let before = (0..sheet.count()).map(|t| sheet.before(t)).collect();
        let mut listing = Listing { all: sheet.all(), before, order: Vec::new(), found: Vec::new(), most };
        listing.go_on(set);
        listing
    }

    fn go_on(&mut self, ran: Set) {
        if ran == self.all {
            self.found.push(self.order.clone());
            return;
        }
        for t in 0..self.before.len() {
            if !has(ran, t) && self.before[t] & !ran == 0 && self.found.len() < self.most {
                self.order.push(t);
                self.go_on(ran | 1 << t);
                self.order.pop();
            }
        }
    }
}

/// What a row's tasks take and earn.
#[derive(Clone, Copy, Debug, PartialEq, Eq)]
pub struct Figures {
    pub set: Set,
    pub expected: u64,
    pub maximum: u64,
    pub total: u64,
    pub in_time: bool,
}

/// The figures where the tasks of a set have run and then those of the row run in turn. What those of the set earned, and
/// whether they were in time, is not counted.
pub fn figures(sheet: &Sheet, book: &Book, set: Set, row: &[usize]) -> Figures {
    let expected = sheet.members(set).map(|task| task.expected()).sum();
    let maximum = sheet.members(set).map(|task| task.maximum()).sum();
    let mut all = Figures { set, expected, maximum, total: 0, in_time: true };
    for &t in row {
        let task = &sheet.tasks[t];
        all.set |= 1 << t;
        all.expected += task.expected();
        all.maximum += task.maximum();
        match task.kind {
            Kind::Plain => (),
            Kind::Soft => all.total += book.worth(t, all.expected),
            Kind::Hard { deadline } => all.in_time &= all.maximum <= u64::from(deadline),
        }
    }
    all
}

/// The totals of all continuations of a set, with the order of each.
pub fn continuations(sheet: &Sheet, book: &Book, set: Set) -> Vec<(u64, Order)> {
    let with_figures = |order: Order| (figures(sheet, book, set, &order), order);
    let orders = keeping_links(sheet, set).into_iter().map(with_figures);
    orders.filter(|(figures, _)| figures.in_time).map(|(figures, order)| (figures.total, order)).collect()
}

/// The cell of a set: 1 and the greatest total of its continuations, or 0 where it has none.
pub fn cell(sheet: &Sheet, book: &Book, set: Set) -> u64 {
    continuations(sheet, book, set).iter().map(|(total, _)| total + 1).max().unwrap_or(0)
}

/// Whether the memory has room for the cells of a sheet.
pub fn has_room(sheet: &Sheet) -> bool {
    1 << sheet.count() <= CELLS
}

/// The lawful order of greatest total, and of equals the first place by place, with its total.
pub fn plan(sheet: &Sheet, book: &Book) -> Result<(Order, u64), Refusal> {
    if !has_room(sheet) {
        return Err(Refusal::Memory);
    }
    let lawful = continuations(sheet, book, 0).into_iter();
    let best = lawful.max_by(|(total, order), (other, after)| total.cmp(other).then_with(|| after.cmp(order)));
    best.map(|(total, order)| (order, total)).ok_or(Refusal::NoOrder)
}
