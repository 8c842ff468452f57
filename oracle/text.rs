//! Sheet files as text: pieces, lines and frames.

use crate::refusal::Refusal;

/// What a line says. Whether a sheet or a book accepts it is not asked here.
#[derive(Clone, Copy, Debug, PartialEq, Eq)]
pub enum Frame {
    Task { min: u32, max: u32 },
    Link { a: u32, b: u32 },
    Hard { t: u32, deadline: u32 },
    Ramp { t: u32, peak: u32, knee: u32, foot: u32 },
    Soft { t: u32 },
    Step { t: u32, until: u32, worth: u32 },
    Weight { t: u32, weight: u32 },
}

/// How many bytes each field of a frame of this kind has.
fn widths(kind: u8) -> Option<&'static [usize]> {
    match kind {
        1 => Some(&[2, 2]),
        2 => Some(&[1, 1]),
        3 => Some(&[1, 3]),
        4 => Some(&[1, 3, 3, 3]),
        5 => Some(&[1]),
        6 => Some(&[1, 3, 3]),
        7 => Some(&[1, 1]),
        _ => None,
    }
}

impl Frame {
    fn kind(&self) -> u8 {
        match self {
            Frame::Task { .. } => 1,
            Frame::Link { .. } => 2,
            Frame::Hard { .. } => 3,
            Frame::Ramp { .. } => 4,
            Frame::Soft { .. } => 5,
            Frame::Step { .. } => 6,
            Frame::Weight { .. } => 7,
        }
    }

    fn fields(&self) -> Vec<u32> {
        match *self {
            Frame::Task { min, max } => vec![min, max],
            Frame::Link { a, b } => vec![a, b],
            Frame::Hard { t, deadline } => vec![t, deadline],
            Frame::Ramp { t, peak, knee, foot } => vec![t, peak, knee, foot],
            Frame::Soft { t } => vec![t],
            Frame::Step { t, until, worth } => vec![t, until, worth],
            Frame::Weight { t, weight } => vec![t, weight],
        }
    }

    /// The bytes of the frame, the closing byte too.
    pub fn bytes(&self) -> Vec<u8> {
        let kind = self.kind();
        let mut bytes = vec![kind];
        for (field, &width) in self.fields().iter().zip(widths(kind).unwrap_or(&[])) {
            bytes.extend_from_slice(&field.to_be_bytes()[4 - width..]);
        }
        closed(&bytes)
    }

    /// The frame that has these bytes, which add up to 0 modulo 256.
    fn decoded(bytes: &[u8]) -> Option<Frame> {
        let (kind, mut rest) = bytes.split_first()?;
        let mut fields = Vec::new();
        for &width in widths(*kind)? {
            let (field, behind) = rest.split_at_checked(width)?;
            fields.push(field.iter().fold(0, |number, &byte| number * 256 + u32::from(byte)));
            rest = behind;
        }
        if rest.len() != 1 {
            return None;
        }
        match (*kind, fields[..].as_ref()) {
            (1, &[min, max]) => Some(Frame::Task { min, max }),
            (2, &[a, b]) => Some(Frame::Link { a, b }),
            (3, &[t, deadline]) => Some(Frame::Hard { t, deadline }),
            (4, &[t, peak, knee, foot]) => Some(Frame::Ramp { t, peak, knee, foot }),
            (5, &[t]) => Some(Frame::Soft { t }),
            (6, &[t, until, worth]) => Some(Frame::Step { t, until, worth }),
            (7, &[t, weight]) => Some(Frame::Weight { t, weight }),
            _ => None,
        }
    }
}

/// What all bytes add up to, modulo 256.
pub fn sum(bytes: &[u8]) -> u8 {
    bytes.iter().fold(0, |sum, &byte| sum.wrapping_add(byte))
}

/// These bytes and their closing byte.
pub fn closed(bytes: &[u8]) -> Vec<u8> {
    [bytes, &[sum(bytes).wrapping_neg()]].concat()
}

/// Bytes as pairs of digits.
pub fn digits(bytes: &[u8]) -> String {
    bytes.iter().map(|byte| format!("{byte:02X}")).collect()
}

/// The parts of a file, cut after each 0A.
pub fn pieces(file: &[u8]) -> impl Iterator<Item = &[u8]> {
    file.split_inclusive(|&byte| byte == b'\n')
}

/// The bytes of the frame of a piece, where the piece is a line.
fn frame_of(piece: &[u8]) -> Option<Vec<u8>> {
    let body = piece.strip_suffix(b"\n")?;
    let is_digit = |byte: &u8| matches!(byte, b'0'..=b'9' | b'A'..=b'F');
    let (pairs, behind) = body.split_at(body.iter().take_while(|byte| is_digit(byte)).count());
    let behind_stands = match behind {
        [] => true,
        [b' ', note @ ..] => note.iter().all(|byte| matches!(byte, 0x20..=0x7E)),
        _ => false,
    };
    if pairs.is_empty() || pairs.len() % 2 == 1 || !behind_stands {
        return None;
    }
    let text = std::str::from_utf8(pairs).ok()?;
    (0..text.len()).step_by(2).map(|at| u8::from_str_radix(&text[at..at + 2], 16).ok()).collect()
}

/// What a piece says as a line, or refusal 11, 12 or 13.
pub fn read(piece: &[u8]) -> Result<Frame, Refusal> {
    let bytes = frame_of(piece).ok_or(Refusal::NotALine)?;
    if sum(&bytes) != 0 {
        return Err(Refusal::BadSum);
    }
    Frame::decoded(&bytes).ok_or(Refusal::BadFrame)
}
