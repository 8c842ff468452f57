//! The line that answers a file.

use crate::load::load;
use crate::orders::{Order, plan};
use crate::refusal::{Fault, Layer};
use crate::text::{closed, digits};

/// The best order of a file's sheet and its total, or the fault.
pub type Planned = Result<(Order, u64), Fault>;

pub fn planned(file: &[u8]) -> Planned {
    let (sheet, book) = load(file)?;
    plan(&sheet, &book).map_err(|cause| Fault { layer: Layer::Plan, cause, line: 0 })
}

fn order_bytes(order: &[usize], total: u64) -> Vec<u8> {
    let mut bytes = vec![0x20, order.len() as u8];
    bytes.extend(order.iter().map(|&t| t as u8));
    bytes.extend_from_slice(&total.to_be_bytes()[5..]);
    bytes
}

fn fault_bytes(fault: &Fault) -> Vec<u8> {
    let mut bytes = vec![0x2F, fault.layer as u8, fault.cause.number()];
    bytes.extend_from_slice(&fault.line.to_be_bytes()[6..]);
    bytes
}

/// The line that tells it, with its 0A.
pub fn line(planned: &Planned) -> String {
    let bytes = match planned {
        Ok((order, total)) => order_bytes(order, *total),
        Err(fault) => fault_bytes(fault),
    };
    digits(&closed(&bytes)) + "\n"
}
