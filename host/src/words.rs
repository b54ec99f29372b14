//! How words are set around the boxes of a page, as document 02's 4/14 says it and no faster: for each line every band is looked at. The
//! page is the crate's after the tape, with calls that clear asked as `raised` says.

use crate::call::{REACH, WORDS};
use crate::float_counted::{Band, PlacedFloatedBox};
use crate::judge::Judge;
use crate::tape::{self, LONGEST};
use crate::text::Text;

/// The limits of a box's width and of min_y.
const LENGTH: std::ops::RangeInclusive<f32> = 0.0..=65_536.0;
const OFFSET: std::ops::RangeInclusive<f32> = -65_536.0..=65_536.0;

#[derive(Debug, Clone, Copy, PartialEq)]
pub struct Line {
    pub x: f32,
    pub y: f32,
    pub first: usize,
    pub count: usize,
}

/// What words are set on; the boxes, those of each side, are not looked at for it.
pub struct Page {
    pub width: f32,
    pub bands: Vec<Band>,
    pub boxes: [Vec<PlacedFloatedBox>; 2],
}

impl Page {
    /// The page after a tape, or the line with which the tape stops.
    pub fn after(tape: &[u8]) -> Result<Page, String> {
        if tape.len() > LONGEST {
            return Err("L\n".into());
        }
        let (records, rest) = tape::records(tape);
        if !rest.is_empty() {
            return Err(format!("T {}\n", tape.len() - rest.len()));
        }
        let mut judge = Judge::default();
        records.iter().for_each(|record| _ = judge.answer(record));
        let boxes = [judge.page.left_floats().to_vec(), judge.page.right_floats().to_vec()];
        Ok(Page { width: judge.page.width(), bands: judge.page.bands(), boxes })
    }

    /// The lines of a text, or the first refusal that holds: it leaves no line.
    pub fn set(&self, text: &Text) -> Result<Vec<Line>, u8> {
        let Text { words, gap, height, min_y, insets } = text;
        let lengths = || words.iter().chain([gap, height]).chain(insets);
        if !lengths().chain([min_y]).all(|number| number.is_finite()) {
            return Err(2);
        }
        if !lengths().all(|length| LENGTH.contains(length)) || !OFFSET.contains(min_y) {
            return Err(3);
        }
        if words.len() > WORDS {
            return Err(9);
        }
        if *height == 0.0 {
            return Err(10);
        }
        let mut lines = Vec::new();
        let mut first = 0;
        let mut top = plus_zero(*min_y);
        while first < words.len() {
            let (line, bottom) = self.line(text, first, top)?;
            lines.push(line);
            first += line.count;
            top = bottom;
        }
        Ok(lines)
    }

    /// The bands that a line from top to bottom touches.
    pub fn touched(&self, top: f32, bottom: f32) -> Vec<Band> {
        self.bands.iter().filter(|band| band.end > top && band.start < bottom).copied().collect()
    }

    /// The line that begins with this word, at this top or further down, and its bottom.
    fn line(&self, text: &Text, first: usize, mut top: f32) -> Result<(Line, f32), u8> {
        loop {
            let bottom = top + text.height;
            if bottom > REACH {
                return Err(6);
            }
            let touched = self.touched(top, bottom);
            let [left, right] = edges(&touched, text.insets);
            let room = self.width - left - right;
            let count = taken(&text.words[first..], plus_zero(text.gap), room, touched.is_empty());
            if count > 0 {
                return Ok((Line { x: left, y: top, first, count }, bottom));
            }
            let below = self.bands.iter().find(|band| band.start > top);
            top = below.map_or(self.bands[self.bands.len() - 1].end, |band| band.start);
        }
    }
}

/// The larger of the containing inset and those of all these bands, on each side.
pub fn edges(touched: &[Band], containing: [f32; 2]) -> [f32; 2] {
    [0, 1].map(|side| touched.iter().map(|band| band.insets[side]).fold(plus_zero(containing[side]), f32::max))
}

/// How many words a line of this room takes; the first surely, if the line is free of bands.
fn taken(words: &[f32], gap: f32, room: f32, free: bool) -> usize {
    let mut sum = words[0];
    if sum > room && !free {
        return 0;
    }
    let mut count = 1;
    for word in &words[1..] {
        sum = sum + gap + word;
        if sum > room {
            break;
        }
        count += 1;
    }
    count
}

/// A minus zero is read as plus zero.
fn plus_zero(x: f32) -> f32 {
    x + 0.0
}

/// All that is printed of a text, on a page or after a tape that stops.
pub fn printed(page: &Result<Page, String>, text: &[u8]) -> Vec<u8> {
    let page = match page {
        Ok(page) => page,
        Err(stop) => return stop.clone().into(),
    };
    let Some(text) = Text::read(text) else {
        return b"T 0\n".to_vec();
    };
    let print =
        |line: &Line| format!("L {:08X} {:08X} {} {}\n", line.x.to_bits(), line.y.to_bits(), line.first, line.count);
    match page.set(&text) {
        Ok(lines) => lines.iter().map(print).collect::<String>().into(),
        Err(number) => format!("R {number}\n").into(),
    }
}

/// As `bulameki_set_words` has to answer.
pub fn set_words(tape: &[u8], text: &[u8], room: &mut [u8]) -> i64 {
    let lines = printed(&Page::after(tape), text);
    match room.get_mut(..lines.len()) {
        Some(room) => {
            room.copy_from_slice(&lines);
            lines.len() as i64
        }
        None => -13,
    }
}
