//! The tape of document 01: its records as bytes, and as the readable text of tools/tape.py.

use std::fmt::Write;

/// A longer tape is answered by the one line L.
pub const LONGEST: usize = 65_536;

/// What stands for no band in a question's `after`.
pub const NONE: u16 = 65_535;

/// A part of a body. `At` is the u16 of a question, a code is one byte.
#[derive(Debug, Clone, Copy, PartialEq)]
pub enum Field {
    Side,
    Clear,
    Direction,
    Mode,
    /// 0 to 65,536
    Length,
    /// -65,536 to 65,536
    Offset,
    At,
}

impl Field {
    pub const fn size(self) -> usize {
        match self {
            Field::Length | Field::Offset => 4,
            Field::At => 2,
            _ => 1,
        }
    }

    pub fn is_number(self) -> bool {
        self.size() == 4
    }
}

use Field::*;

/// The bodies by kind, in the order of the table in document 01.
pub const BODIES: [&[Field]; 8] = [
    &[],
    &[Length],
    &[Side, Clear, Length, Length, Offset, Length, Length],
    &[Offset, Length, Length, Clear, At],
    &[Offset, Length, Length, Offset, Offset, Direction, Clear, At],
    &[Mode, Length],
    &[Length, Side, Clear],
    &[],
];

/// One record. Codes stand as they are on the tape, known or not.
#[derive(Debug, Clone, Copy)]
pub enum Record {
    New,
    Width(f32),
    Place { side: u8, clear: u8, width: f32, height: f32, min_y: f32, insets: [f32; 2] },
    Content { min_y: f32, insets: [f32; 2], clear: u8, after: u16 },
    Bfc { min_y: f32, insets: [f32; 2], margins: [f32; 2], direction: u8, clear: u8, after: u16 },
    Calc { mode: u8, number: f32 },
    Add { width: f32, side: u8, clear: u8 },
    Result,
}

const LENGTHS: [usize; 8] = {
    let mut lengths = [0; 8];
    let mut kind = 0;
    while kind < 8 {
        let mut field = 0;
        while field < BODIES[kind].len() {
            lengths[kind] += BODIES[kind][field].size();
            field += 1;
        }
        kind += 1;
    }
    lengths
};

/// The length of the body that a kind byte announces.
pub fn body_length(kind: u8) -> Option<usize> {
    LENGTHS.get(usize::from(kind)).copied()
}

/// The record at an offset and the offset after it; none for an unknown kind, a cut body and the tape's end.
pub fn record_at(tape: &[u8], at: usize) -> Option<(Record, usize)> {
    let kind = *tape.get(at)?;
    let end = at + 1 + body_length(kind)?;
    let body = tape.get(at + 1..end)?;
    let number = |at: usize| f32::from_le_bytes(body[at..at + 4].try_into().unwrap());
    let pair = |at: usize| [number(at), number(at + 4)];
    let after = |at: usize| u16::from_le_bytes([body[at], body[at + 1]]);
    let record = match kind {
        0 => Record::New,
        1 => Record::Width(number(0)),
        2 => Record::Place {
            side: body[0],
            clear: body[1],
            width: number(2),
            height: number(6),
            min_y: number(10),
            insets: pair(14),
        },
        3 => Record::Content { min_y: number(0), insets: pair(4), clear: body[12], after: after(13) },
        4 => Record::Bfc {
            min_y: number(0),
            insets: pair(4),
            margins: pair(12),
            direction: body[20],
            clear: body[21],
            after: after(22),
        },
        5 => Record::Calc { mode: body[0], number: number(1) },
        6 => Record::Add { width: number(0), side: body[4], clear: body[5] },
        _ => Record::Result,
    };
    Some((record, end))
}

/// A part of a tape, from a New or the tape's begin to the next New. What begins no record belongs to the last one.
pub struct Page<'a> {
    pub bytes: &'a [u8],
    /// the placements and slot questions on it
    pub calls: usize,
    /// whether any of them clears
    pub clears: bool,
}

/// The pages of a tape. One that is too long is one page without a call.
pub fn pages(tape: &[u8]) -> Vec<Page<'_>> {
    let mut pages = Vec::new();
    let mut page = Page { bytes: tape, calls: 0, clears: false };
    let (mut first, mut at) = (0, 0);
    while let Some((record, next)) = record_at(tape, at).filter(|_| tape.len() <= LONGEST) {
        if matches!(record, Record::New) && at > first {
            pages.push(Page { bytes: &tape[first..at], ..page });
            page = Page { bytes: &tape[at..], calls: 0, clears: false };
            first = at;
        }
        page.calls += usize::from(record.clear().is_some());
        page.clears |= record.clears();
        at = next;
    }
    pages.push(page);
    pages
}

/// The records of a tape, and the bytes from the first that begins none.
pub fn records(tape: &[u8]) -> (Vec<Record>, &[u8]) {
    let mut all = Vec::new();
    let mut at = 0;
    while let Some((record, next)) = record_at(tape, at) {
        all.push(record);
        at = next;
    }
    (all, &tape[at..])
}

/// The tape of some records.
pub fn bytes(records: &[Record]) -> Vec<u8> {
    let mut tape = Vec::new();
    for record in records {
        record.write(&mut tape);
    }
    tape
}

impl Record {
    /// The clear code of a placement or a slot question.
    fn clear(&self) -> Option<u8> {
        match *self {
            Record::Place { clear, .. } | Record::Content { clear, .. } | Record::Bfc { clear, .. } => Some(clear),
            _ => None,
        }
    }

    /// Whether it is a placement or a slot question that clears, refused or not; an unknown code clears nothing.
    pub fn clears(&self) -> bool {
        matches!(self.clear(), Some(1..=3))
    }

    pub fn write(&self, to: &mut Vec<u8>) {
        fn numbers(to: &mut Vec<u8>, of: &[f32]) {
            for number in of {
                to.extend(number.to_le_bytes());
            }
        }
        match *self {
            Record::New => to.push(0),
            Record::Width(width) => {
                to.push(1);
                numbers(to, &[width]);
            }
            Record::Place { side, clear, width, height, min_y, insets: [left, right] } => {
                to.extend([2, side, clear]);
                numbers(to, &[width, height, min_y, left, right]);
            }
            Record::Content { min_y, insets: [left, right], clear, after } => {
                to.push(3);
                numbers(to, &[min_y, left, right]);
                to.push(clear);
                to.extend(after.to_le_bytes());
            }
            Record::Bfc { min_y, insets: [left, right], margins: [m_left, m_right], direction, clear, after } => {
                to.push(4);
                numbers(to, &[min_y, left, right, m_left, m_right]);
                to.extend([direction, clear]);
                to.extend(after.to_le_bytes());
            }
            Record::Calc { mode, number } => {
                to.extend([5, mode]);
                numbers(to, &[number]);
            }
            Record::Add { width, side, clear } => {
                to.push(6);
                numbers(to, &[width]);
                to.extend([side, clear]);
            }
            Record::Result => to.push(7),
        }
    }

    /// The line of tools/tape.py.
    fn text(&self) -> String {
        match *self {
            Record::New => "new".into(),
            Record::Width(width) => format!("width {}", number(width)),
            Record::Place { side, clear, width, height, min_y, insets } => {
                let size = format!("{}x{}", number(width), number(height));
                code(&["left", "right"], "side", side)
                    + " "
                    + &size
                    + &at(min_y)
                    + &pair(" insets", insets)
                    + &cleared(clear)
            }
            Record::Content { min_y, insets, clear, after } => {
                String::from("content") + &at(min_y) + &pair(" insets", insets) + &cleared(clear) + &behind(after)
            }
            Record::Bfc { min_y, insets, margins, direction, clear, after } => {
                let mut text = String::from("bfc") + &at(min_y) + &pair(" insets", insets) + &pair(" margins", margins);
                if direction != 0 {
                    text = text + " " + &code(&["ltr", "rtl"], "direction", direction);
                }
                text + &cleared(clear) + &behind(after)
            }
            Record::Calc { mode, number: of } => {
                let word = code(&["definite", "min", "max"], "mode", mode);
                if mode != 0 && of.to_bits() == 0 {
                    format!("calc {word}")
                } else {
                    format!("calc {word} {}", number(of))
                }
            }
            Record::Add { width, side, clear } => {
                format!("add {} {}{}", code(&["left", "right"], "side", side), number(width), cleared(clear))
            }
            Record::Result => "result".into(),
        }
    }
}

/// A short decimal that gives the same bits, or the bits.
pub fn number(x: f32) -> String {
    let decimal = format!("{x}");
    if x.is_finite() && decimal.len() <= 12 && decimal.parse() == Ok(x) {
        decimal
    } else {
        format!("0x{:08X}", x.to_bits())
    }
}

fn code(words: &[&str], name: &str, code: u8) -> String {
    words.get(usize::from(code)).map_or(format!("{name}={code}"), |word| word.to_string())
}

fn at(min_y: f32) -> String {
    if min_y.to_bits() == 0 {
        String::new()
    } else {
        format!(" at {}", number(min_y))
    }
}

fn pair(word: &str, [left, right]: [f32; 2]) -> String {
    if left.to_bits() | right.to_bits() == 0 {
        String::new()
    } else {
        format!("{word} {} {}", number(left), number(right))
    }
}

fn cleared(clear: u8) -> String {
    match clear {
        0 => String::new(),
        1..=3 => format!(" clear {}", ["left", "right", "both"][usize::from(clear) - 1]),
        _ => format!(" clear={clear}"),
    }
}

fn behind(after: u16) -> String {
    if after == NONE {
        String::new()
    } else {
        format!(" after {after}")
    }
}

/// A tape as text of tools/tape.py, one record a line.
pub fn text(tape: &[u8]) -> String {
    let (all, rest) = records(tape);
    let mut text: String = all.iter().map(|record| record.text() + "\n").collect();
    if !rest.is_empty() {
        text += "bytes";
        for byte in rest {
            write!(text, " {byte:02X}").unwrap();
        }
        text += "\n";
    }
    text
}
