//! Rows laid by hand, judged by the list of all lawful orders.

use crate::orders::{Figures, Order, continuations, figures};
use crate::refusal::Refusal;
use crate::sheet::{Sheet, has};
use crate::worth::Book;

pub struct Rows<'a> {
    pub sheet: &'a Sheet,
    pub book: &'a Book,
    lawful: Vec<Order>,
}

impl<'a> Rows<'a> {
    /// The rows of a sheet, or refusal 10.
    pub fn begin(sheet: &'a Sheet, book: &'a Book) -> Result<Self, Refusal> {
        let lawful: Vec<Order> = continuations(sheet, book, 0).into_iter().map(|(_, order)| order).collect();
        if lawful.is_empty() { Err(Refusal::NoOrder) } else { Ok(Rows { sheet, book, lawful }) }
    }

    /// The lawful orders that begin with a row.
    fn beginning<'r>(&'r self, row: &'r [usize]) -> impl Iterator<Item = &'r Order> {
        self.lawful.iter().filter(move |order| order.starts_with(row))
    }

    pub fn tally(&self, row: &[usize]) -> Figures {
        figures(self.sheet, self.book, 0, row)
    }

    pub fn place(&self, row: &[usize], t: usize) -> Result<(), Refusal> {
        let placed = self.tally(row).set;
        if t >= self.sheet.count() {
            Err(Refusal::UnknownTask)
        } else if has(placed, t) {
            Err(Refusal::Placed)
        } else if self.sheet.before(t) & !placed != 0 {
            Err(Refusal::NotReady)
        } else if self.beginning(&longer(row, t)).next().is_none() {
            Err(Refusal::NoOrderSo)
        } else {
            Ok(())
        }
    }

    /// The first, place by place, of the lawful orders that begin with a row, and its total.
    pub fn finish(&self, row: &[usize]) -> Option<(Order, u64)> {
        let order = self.beginning(row).min()?.clone();
        let weight = self.tally(&order).total;
        Some((order, weight))
    }

    /// Every row that can be laid on from this one: itself, then behind it each longer one, the lower task first.
    pub fn laid(&self, row: Order) -> Vec<Order> {
        let next: Vec<usize> = (0..self.sheet.count()).filter(|&t| self.place(&row, t).is_ok()).collect();
        let behind: Vec<Order> = next.iter().flat_map(|&t| self.laid(longer(&row, t))).collect();
        [vec![row], behind].concat()
    }
}

/// The row with one task more at its end.
pub fn longer(row: &[usize], t: usize) -> Order {
    [row, &[t]].concat()
}
