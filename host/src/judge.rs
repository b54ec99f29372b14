//! What the crate answers behind document 01's limits and refusals: every line of a tape, from the counted copy of float.rs; and which
//! box stands innermost in a band and how deep the page is, by the account kept beside it. Calls that clear are asked as `raised` says.

use crate::account::Account;
use crate::call::{Call, Placement, BANDS, BOXES, REACH};
use crate::float_counted::{take_changes, take_steps, FloatContext, FloatIntrinsicWidthCalculator};
use crate::raised::Asking;
use crate::tape::{record_at, Record, LONGEST};
use crate::{Clear, FloatDirection};

/// The answer to one record.
#[derive(Debug, Clone, Copy, PartialEq)]
pub enum Answer {
    Fresh,
    Width,
    Placed { x: f32, y: f32, steps: u32 },
    Content { band: Option<usize>, x: f32, y: f32, width: f32 },
    Bfc { band: Option<usize>, x: f32, y: f32, border: f32, stretch: f32 },
    Started,
    Added,
    Intrinsic(f32),
    Refused(u8),
}

/// What was answered, by kind.
#[derive(Debug, Clone, Copy, Default)]
pub struct Counts {
    pub placements: u64,
    pub questions: u64,
    /// placements and slot questions with clear for which the crate was asked
    pub clearing: u64,
    pub refusals: [u64; 14],
}

/// A page and a calculator as a tape sees them.
#[derive(Default)]
pub struct Judge {
    pub page: FloatContext,
    pub account: Account,
    calculator: Option<FloatIntrinsicWidthCalculator>,
    asking: Asking,
    pub counts: Counts,
}

impl Judge {
    pub fn asking(asking: Asking) -> Self {
        Judge { asking, ..Judge::default() }
    }

    pub fn answer(&mut self, record: &Record) -> Answer {
        let answer = self.decide(record).unwrap_or_else(Answer::Refused);
        match answer {
            Answer::Placed { .. } => self.counts.placements += 1,
            Answer::Content { .. } | Answer::Bfc { .. } => self.counts.questions += 1,
            Answer::Refused(number) => self.counts.refusals[usize::from(number)] += 1,
            _ => {}
        }
        answer
    }

    /// The accepted boxes of the page, those of no height counted.
    pub fn boxes(&self) -> usize {
        self.page.left_floats().len() + self.page.right_floats().len()
    }

    /// The answer, or the lowest refusal that holds; page and calculator change only with an answer.
    fn decide(&mut self, record: &Record) -> Result<Answer, u8> {
        match Call::of(record)? {
            Call::New => {
                *self = Judge { counts: self.counts, ..Judge::asking(self.asking) };
                Ok(Answer::Fresh)
            }
            Call::Width(width) => {
                if self.boxes() > 0 {
                    return Err(4);
                }
                self.page.set_width(width);
                Ok(Answer::Width)
            }
            Call::Place(placement) => self.place(placement),
            Call::Content { min_y, insets, clear, after } => {
                let (min_y, clear) = self.given(min_y, clear, self.page.raised_for_slot(min_y, clear));
                let slot = self.page.find_content_slot(min_y, insets, clear, after);
                Ok(Answer::Content { band: slot.segment_id, x: slot.x, y: slot.y, width: slot.width })
            }
            Call::Bfc { min_y, insets, margins, direction, clear, after } => {
                let (min_y, clear) = self.given(min_y, clear, self.page.raised_for_slot(min_y, clear));
                let slot = self.page.find_bfc_slot(min_y, insets, margins, direction, clear, after);
                let (border, stretch) = (slot.border_width, slot.stretch_width);
                Ok(Answer::Bfc { band: slot.segment_id, x: slot.x, y: slot.y, border, stretch })
            }
            Call::Calc(space) => {
                self.calculator = Some(FloatIntrinsicWidthCalculator::new(space));
                Ok(Answer::Started)
            }
            Call::Add { width, side, clear } => {
                let mut trial = self.calculator.as_ref().ok_or(8)?.again();
                trial.add_float(width, side, clear);
                let [left, right] = trial.sums();
                if left > REACH || right > REACH || left + right > REACH {
                    return Err(6);
                }
                self.calculator = Some(trial);
                Ok(Answer::Added)
            }
            Call::Result => Ok(Answer::Intrinsic(self.calculator.as_ref().ok_or(8)?.result())),
        }
    }

    /// min_y and clear as the crate is given them.
    fn given(&mut self, min_y: f32, clear: Clear, raised: f32) -> (f32, Clear) {
        self.counts.clearing += u64::from(clear != Clear::None);
        match self.asking {
            Asking::Raised => (raised, Clear::None),
            Asking::AsItIs => (min_y, clear),
        }
    }

    /// A placement is tried on a copy of the page, where the crate knows no limit; the copy is kept if 6 and 7 do not hold.
    fn place(&mut self, Placement { size, min_y, insets, side, clear }: Placement) -> Result<Answer, u8> {
        if self.boxes() == BOXES {
            return Err(5);
        }
        let (min_y, clear) = self.given(min_y, clear, self.page.raised(min_y, clear));
        let mut trial = self.page.clone();
        take_steps();
        trial.place_floated_box(size, min_y, insets, side, clear);
        let (steps, changes) = (take_steps(), take_changes());
        let placed = match side {
            FloatDirection::Left => trial.left_floats().last(),
            FloatDirection::Right => trial.right_floats().last(),
        };
        let (y, inset) = placed.map(|placed| (placed.y, placed.x_inset)).unwrap();
        let bottom = y + size.height;
        if bottom > REACH || inset + size.width > REACH {
            return Err(6);
        }
        if trial.band_count() > BANDS {
            return Err(7);
        }
        let x = match side {
            FloatDirection::Left => inset,
            FloatDirection::Right => trial.width() - inset - size.width,
        };
        self.account.follow(&changes, bottom);
        self.page = trial;
        Ok(Answer::Placed { x, y, steps })
    }

    /// All lines of a tape that starts here.
    pub fn lines(&mut self, tape: &[u8]) -> Vec<u8> {
        if tape.len() > LONGEST {
            return b"L\n".to_vec();
        }
        let mut lines = Vec::new();
        let mut at = 0;
        while let Some((record, next)) = record_at(tape, at) {
            self.answer(&record).write(&mut lines);
            at = next;
        }
        if at < tape.len() {
            lines.extend(format!("T {at}\n").bytes());
        }
        lines
    }

    /// The account of the page after a tape, as far as it runs.
    pub fn account_after(mut self, tape: &[u8]) -> Account {
        self.lines(tape);
        self.account
    }
}

/// The lines of a tape on a fresh page.
pub fn lines(tape: &[u8]) -> Vec<u8> {
    Judge::default().lines(tape)
}

/// The account after a tape on a fresh page.
pub fn account(tape: &[u8]) -> Account {
    Judge::default().account_after(tape)
}

/// As `bulameki_innermost` has to answer.
pub fn innermost(tape: &[u8], band: usize, side: u8) -> i64 {
    account(tape).told(band, side)
}

/// As `bulameki_depth` has to answer.
pub fn depth(tape: &[u8]) -> i64 {
    account(tape).told_depth()
}

impl Answer {
    /// The line of document 01.
    pub fn write(&self, to: &mut Vec<u8>) {
        match *self {
            Answer::Fresh => to.push(b'N'),
            Answer::Width => to.push(b'W'),
            Answer::Placed { x, y, steps } => {
                to.push(b'P');
                hex(to, [x, y]);
                decimal(to, steps as usize);
            }
            Answer::Content { band, x, y, width } => {
                to.push(b'C');
                number_or_dash(to, band);
                hex(to, [x, y, width]);
            }
            Answer::Bfc { band, x, y, border, stretch } => {
                to.push(b'B');
                number_or_dash(to, band);
                hex(to, [x, y, border, stretch]);
            }
            Answer::Started => to.push(b'S'),
            Answer::Added => to.push(b'A'),
            Answer::Intrinsic(width) => {
                to.push(b'I');
                hex(to, [width]);
            }
            Answer::Refused(number) => {
                to.push(b'R');
                decimal(to, usize::from(number));
            }
        }
        to.push(b'\n');
    }
}

fn hex<const N: usize>(to: &mut Vec<u8>, numbers: [f32; N]) {
    for number in numbers {
        let digit = |place: u32| b"0123456789ABCDEF"[(number.to_bits() >> (4 * place)) as usize & 15];
        to.extend([b' ', digit(7), digit(6), digit(5), digit(4), digit(3), digit(2), digit(1), digit(0)]);
    }
}

/// A blank and the number.
fn decimal(to: &mut Vec<u8>, number: usize) {
    let mut digits = [b' '; 21];
    let mut first = digits.len();
    let mut rest = number;
    loop {
        first -= 1;
        digits[first] = b'0' + (rest % 10) as u8;
        rest /= 10;
        if rest == 0 {
            break;
        }
    }
    to.extend_from_slice(&digits[first - 1..]);
}

fn number_or_dash(to: &mut Vec<u8>, band: Option<usize>) {
    match band {
        Some(band) => decimal(to, band),
        None => to.extend(b" -"),
    }
}
