//! Loading a sheet file: the calls of its lines, one after another, on a new sheet and a new book.

use crate::refusal::{Fault, Layer, Refusal};
use crate::sheet::Sheet;
use crate::text::{Frame, pieces, read};
use crate::worth::{Book, Ramp, Step};

const LONGEST: usize = 65_535;

/// Makes the call of a frame.
fn call(frame: Frame, sheet: &mut Sheet, book: &mut Book) -> Result<(), (Layer, Refusal)> {
    match frame {
        Frame::Task { min, max } => sheet.task(min, max),
        Frame::Link { a, b } => sheet.link(a, b),
        Frame::Hard { t, deadline } => sheet.hard(t, deadline),
        Frame::Soft { t } => sheet.soft(t),
        Frame::Ramp { .. } | Frame::Step { .. } | Frame::Weight { .. } => {
            return book_call(frame, book).map_err(|cause| (Layer::Book, cause));
        }
    }
    .map_err(|cause| (Layer::Sheet, cause))
}

fn book_call(frame: Frame, book: &mut Book) -> Result<(), Refusal> {
    match frame {
        Frame::Ramp { t, peak, knee, foot } => book.ramp(t, Ramp { peak, knee, foot }),
        Frame::Step { t, until, worth } => book.step(t, Step { until, worth }),
        Frame::Weight { t, weight } => book.weight(t, weight),
        _ => Ok(()),
    }
}

/// The layer of a refusal of `read`.
fn layer_of(cause: Refusal) -> Layer {
    if cause == Refusal::NotALine { Layer::Text } else { Layer::Frame }
}

pub fn load(file: &[u8]) -> Result<(Sheet, Book), Fault> {
    if file.len() > LONGEST {
        return Err(Fault { layer: Layer::Text, cause: Refusal::Memory, line: 0 });
    }
    let mut sheet = Sheet::default();
    let mut book = Book::default();
    for (piece, line) in pieces(file).zip(1..) {
        read(piece)
            .map_err(|cause| (layer_of(cause), cause))
            .and_then(|frame| call(frame, &mut sheet, &mut book))
            .map_err(|(layer, cause)| Fault { layer, cause, line })?;
    }
    Ok((sheet, book))
}
