//! A record whose codes are known and whose numbers lie in document 01's limits: refusals 1 to 3, once for the judge and the job.

use crate::tape::{Record, NONE};
use crate::{AvailableSpace, Clear, Direction, FloatDirection, Size};

/// The least that is allowed of a length and of an offset, and the most of both.
pub const LENGTH: f32 = 0.0;
pub const OFFSET: f32 = -65_536.0;
pub const MOST: f32 = 65_536.0;
pub const REACH: f32 = 131_072.0;
pub const BOXES: usize = 64;
pub const BANDS: usize = 96;
pub const WORDS: usize = 512;

#[derive(Debug, Clone, Copy)]
pub struct Placement {
    pub size: Size<f32>,
    pub min_y: f32,
    pub insets: [f32; 2],
    pub side: FloatDirection,
    pub clear: Clear,
}

/// What a record asks for, in the crate's own types.
#[derive(Debug, Clone, Copy)]
pub enum Call {
    New,
    Width(f32),
    Place(Placement),
    Content { min_y: f32, insets: [f32; 2], clear: Clear, after: Option<usize> },
    Bfc { min_y: f32, insets: [f32; 2], margins: [f32; 2], direction: Direction, clear: Clear, after: Option<usize> },
    Calc(AvailableSpace),
    Add { width: f32, side: FloatDirection, clear: Clear },
    Result,
}

fn side(code: u8) -> Result<FloatDirection, u8> {
    [FloatDirection::Left, FloatDirection::Right].get(usize::from(code)).copied().ok_or(1)
}

fn clear(code: u8) -> Result<Clear, u8> {
    [Clear::None, Clear::Left, Clear::Right, Clear::Both].get(usize::from(code)).copied().ok_or(1)
}

fn direction(code: u8) -> Result<Direction, u8> {
    [Direction::Ltr, Direction::Rtl].get(usize::from(code)).copied().ok_or(1)
}

/// Each number with the least allowed. Refusal 2 over all numbers, then 3 over all; a minus zero is read as plus zero.
#[inline]
fn numbers<const N: usize>(given: [(f32, f32); N]) -> Result<[f32; N], u8> {
    if given.iter().all(|(x, least)| (*least..=MOST).contains(x)) {
        return Ok(given.map(|(x, _)| x + 0.0));
    }
    Err(if given.iter().all(|(x, _)| x.is_finite()) { 3 } else { 2 })
}

fn band_number(after: u16) -> Option<usize> {
    (after != NONE).then_some(usize::from(after))
}

impl Call {
    /// The call of a record, or the lowest of the refusals 1 to 3 that holds. It stands in line, so that neither job of the bench pays for
    /// what the other needs of it.
    #[inline(always)]
    pub fn of(record: &Record) -> Result<Call, u8> {
        Ok(match *record {
            Record::New => Call::New,
            Record::Width(width) => Call::Width(numbers([(width, LENGTH)])?[0]),
            Record::Place { side: s, clear: c, width, height, min_y, insets } => {
                let (side, clear) = (side(s)?, clear(c)?);
                let [width, height, min_y, left, right] = numbers([
                    (width, LENGTH),
                    (height, LENGTH),
                    (min_y, OFFSET),
                    (insets[0], LENGTH),
                    (insets[1], LENGTH),
                ])?;
                Call::Place(Placement { size: Size { width, height }, min_y, insets: [left, right], side, clear })
            }
            Record::Content { min_y, insets, clear: c, after } => {
                let clear = clear(c)?;
                let [min_y, left, right] = numbers([(min_y, OFFSET), (insets[0], LENGTH), (insets[1], LENGTH)])?;
                Call::Content { min_y, insets: [left, right], clear, after: band_number(after) }
            }
            Record::Bfc { min_y, insets, margins, direction: d, clear: c, after } => {
                let (direction, clear) = (direction(d)?, clear(c)?);
                let [min_y, left, right, m_left, m_right] = numbers([
                    (min_y, OFFSET),
                    (insets[0], LENGTH),
                    (insets[1], LENGTH),
                    (margins[0], OFFSET),
                    (margins[1], OFFSET),
                ])?;
                let (insets, margins) = ([left, right], [m_left, m_right]);
                Call::Bfc { min_y, insets, margins, direction, clear, after: band_number(after) }
            }
            Record::Calc { mode, number } => Call::Calc(match mode {
                0 => AvailableSpace::Definite(numbers([(number, LENGTH)])?[0]),
                1 => AvailableSpace::MinContent,
                2 => AvailableSpace::MaxContent,
                _ => return Err(1),
            }),
            Record::Add { width, side: s, clear: c } => {
                let (side, clear) = (side(s)?, clear(c)?);
                Call::Add { width: numbers([(width, LENGTH)])?[0], side, clear }
            }
            Record::Result => Call::Result,
        })
    }
}
