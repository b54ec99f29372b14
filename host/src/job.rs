//! The jobs of `bulameki_run_tape`, `bulameki_depth` and `bulameki_set_words` in plain Rust over the crate, as lean as one would write
//! them: what the bench measures the archive against.
//! The crate gives no step count: its lines have 0 there. Calls that clear are asked as `raised` says.

use crate::account::returned;
use crate::call::{Call, Placement, BANDS, BOXES, LENGTH, MOST, OFFSET, REACH, WORDS};
use crate::float_read::{BfcSlot, ContentSlot, FloatContext, FloatIntrinsicWidthCalculator};
use crate::tape::{record_at, Record, LONGEST};
use crate::{AvailableSpace, Clear, FloatDirection, Point};

/// The crate's calculator hides its sums, which refusal 6 needs: they are kept beside it.
struct Calculator {
    inner: FloatIntrinsicWidthCalculator,
    sums: Option<[f32; 2]>,
}

#[derive(Default)]
struct Job {
    page: FloatContext,
    calculator: Option<Calculator>,
}

impl Job {
    /// The crate knows no limit and has no way back. So a page near a limit is copied before the placement, and put back if the box is
    /// refused with 6 or 7; no other page is, and nothing is kept beside it. It stands in line in both jobs.
    #[inline(always)]
    fn place(&mut self, of: Placement) -> Result<Point<f32>, u8> {
        if self.page.left_floats().len() + self.page.right_floats().len() == BOXES {
            return Err(5);
        }
        let before = self.near_a_limit(&of).then(|| self.page.clone());
        let min_y = self.page.raised(of.min_y, of.clear);
        let spot = self.page.place_floated_box(of.size, min_y, of.insets, of.side, Clear::None);
        let Some(before) = before else { return Ok(spot) };
        let refusal = if spot.y + of.size.height > REACH {
            6
        } else if self.page.band_count() > BANDS {
            7
        } else {
            return Ok(spot);
        };
        self.page = before;
        Err(refusal)
    }

    /// A box adds two bands at most, and begins no lower than its own least and the lowest bottom allow. To its side it can't pass the
    /// reach: beside a box it ends within the page, and elsewhere at its container's inset plus its width, each half the reach at most.
    fn near_a_limit(&self, of: &Placement) -> bool {
        let lowest = self.page.cleared_threshold(Clear::Both).map_or(of.min_y, |bottom| bottom.max(of.min_y));
        self.page.band_count() + 2 > BANDS || lowest + of.size.height > REACH
    }

    /// Answers a record by its line, or refuses it and writes nothing.
    fn answer(&mut self, record: &Record, lines: &mut Lines) -> Result<(), u8> {
        match Call::of(record)? {
            Call::New => {
                *self = Job::default();
                lines.letter(b'N');
            }
            Call::Width(_) if self.page.has_floats() => return Err(4),
            Call::Width(width) => {
                self.page.set_width(width);
                lines.letter(b'W');
            }
            Call::Place(placement) => {
                let Point { x, y } = self.place(placement)?;
                lines.letter(b'P');
                lines.numbers([x, y]);
                lines.decimal(0);
            }
            Call::Content { min_y, insets, clear, after } => {
                let min_y = self.page.raised_for_slot(min_y, clear);
                let ContentSlot { segment_id, x, y, width, .. } =
                    self.page.find_content_slot(min_y, insets, Clear::None, after);
                lines.letter(b'C');
                lines.band(segment_id);
                lines.numbers([x, y, width]);
            }
            Call::Bfc { min_y, insets, margins, direction, clear, after } => {
                let min_y = self.page.raised_for_slot(min_y, clear);
                let BfcSlot { segment_id, x, y, border_width, stretch_width } =
                    self.page.find_bfc_slot(min_y, insets, margins, direction, Clear::None, after);
                lines.letter(b'B');
                lines.band(segment_id);
                lines.numbers([x, y, border_width, stretch_width]);
            }
            Call::Calc(space) => {
                let sums = (space != AvailableSpace::MinContent).then_some([0.0, 0.0]);
                self.calculator = Some(Calculator { inner: FloatIntrinsicWidthCalculator::new(space), sums });
                lines.letter(b'S');
            }
            Call::Add { width, side, clear } => {
                let calculator = self.calculator.as_mut().ok_or(8)?;
                if let Some(sums) = &mut calculator.sums {
                    *sums = added(*sums, width, side, clear).ok_or(6)?;
                }
                calculator.inner.add_float(width, side, clear);
                lines.letter(b'A');
            }
            Call::Result => {
                let width = self.calculator.as_ref().ok_or(8)?.inner.result();
                lines.letter(b'I');
                lines.numbers([width]);
            }
        }
        Ok(())
    }
}

/// The two sums with a box added, none if they pass the reach together; no sum is below 0, so each then stays within it too.
fn added([left, right]: [f32; 2], width: f32, side: FloatDirection, clear: Clear) -> Option<[f32; 2]> {
    let mut sums = match clear {
        Clear::None => [left, right],
        Clear::Left => [0.0, right],
        Clear::Right => [left, 0.0],
        Clear::Both => [0.0, 0.0],
    };
    sums[side as usize] += width;
    (sums[0] + sums[1] <= REACH).then_some(sums)
}

/// The room lent, and how far the lines reach in it. Where they pass its end nothing more is written, and they are counted on.
struct Lines<'a> {
    room: &'a mut [u8],
    length: usize,
}

impl Lines<'_> {
    /// The next bytes of the room, if it has so many.
    #[inline]
    fn next(&mut self, count: usize) -> Option<&mut [u8]> {
        let from = self.length;
        self.length += count;
        self.room.get_mut(from..self.length)
    }

    /// What a call returns: how many bytes the lines have, or -13 where the room has fewer.
    fn written(&self) -> i64 {
        if self.length <= self.room.len() {
            self.length as i64
        } else {
            -13
        }
    }

    #[inline]
    fn letter(&mut self, letter: u8) {
        if let Some(to) = self.next(1) {
            to[0] = letter;
        }
    }

    /// A blank and eight digits for each number.
    #[inline]
    fn numbers<const N: usize>(&mut self, numbers: [f32; N]) {
        let Some(to) = self.next(9 * N) else { return };
        for (to, number) in to.chunks_exact_mut(9).zip(numbers) {
            let digit = |place: u32| b"0123456789ABCDEF"[(number.to_bits() >> (4 * place)) as usize & 15];
            to.copy_from_slice(&[b' ', digit(7), digit(6), digit(5), digit(4), digit(3), digit(2), digit(1), digit(0)]);
        }
    }

    /// A blank and the number.
    #[inline]
    fn decimal(&mut self, number: u32) {
        let digits = number.checked_ilog10().unwrap_or(0) as usize + 1;
        let Some(to) = self.next(1 + digits) else { return };
        let mut rest = number;
        for place in to[1..].iter_mut().rev() {
            *place = b'0' + (rest % 10) as u8;
            rest /= 10;
        }
        to[0] = b' ';
    }

    #[inline]
    fn band(&mut self, band: Option<usize>) {
        match band {
            Some(band) => self.decimal(band as u32),
            None => {
                if let Some(to) = self.next(2) {
                    to.copy_from_slice(b" -");
                }
            }
        }
    }
}

/// Runs a tape into the room lent: how many bytes were written, or -13, and then part of the lines may stand in it. An `archive::Runner`.
pub fn run(tape: &[u8], room: &mut [u8]) -> i64 {
    let mut lines = Lines { room, length: 0 };
    if tape.len() > LONGEST {
        lines.letter(b'L');
        lines.letter(b'\n');
    } else {
        let mut job = Job::default();
        let mut at = 0;
        while let Some((record, next)) = record_at(tape, at) {
            if let Err(refusal) = job.answer(&record, &mut lines) {
                lines.letter(b'R');
                lines.decimal(refusal.into());
            }
            lines.letter(b'\n');
            at = next;
        }
        if at < tape.len() {
            lines.letter(b'T');
            lines.decimal(at as u32);
            lines.letter(b'\n');
        }
    }
    lines.written()
}

/// The page after a tape, run without a line, and where the tape stops.
#[inline(always)]
fn page_after(tape: &[u8]) -> (FloatContext, usize) {
    let mut job = Job::default();
    let mut at = 0;
    while let Some((record, next)) = record_at(tape, at) {
        match Call::of(&record) {
            Ok(Call::New) => job = Job::default(),
            Ok(Call::Width(width)) if !job.page.has_floats() => job.page.set_width(width),
            Ok(Call::Place(placement)) => _ = job.place(placement),
            _ => {}
        }
        at = next;
    }
    (job.page, at)
}

/// The job of `bulameki_depth`, an `archive::Runner` that writes nothing: the depth is the larger of the bottoms that the crate keeps.
pub fn depth(tape: &[u8], _: &mut [u8]) -> i64 {
    let tape = if tape.len() > LONGEST { &[] } else { tape };
    let (page, _) = page_after(tape);
    returned(page.cleared_threshold(Clear::Both))
}

/// The job of `bulameki_set_words`, an `archive::Setter`. Each line is written when it is set: where a later one passes the reach, or the
/// room is too short, part of them stays in the room behind what counts.
pub fn set_words(tape: &[u8], text: &[u8], room: &mut [u8]) -> i64 {
    let mut lines = Lines { room, length: 0 };
    if tape.len() > LONGEST {
        lines.letter(b'L');
        lines.letter(b'\n');
        return lines.written();
    }
    let (page, at) = page_after(tape);
    let set = match read_text(text) {
        _ if at < tape.len() => Err((b'T', at as u32)),
        None => Err((b'T', 0)),
        Some((words, figures)) => set(&page, words, figures, &mut lines).map_err(|number| (b'R', number)),
    };
    if let Err((letter, number)) = set {
        lines.length = 0;
        lines.letter(letter);
        lines.decimal(number);
        lines.letter(b'\n');
    }
    lines.written()
}

fn number(four: &[u8]) -> f32 {
    f32::from_le_bytes(four.try_into().unwrap())
}

/// The widths, four bytes each, and gap, height, min_y and insets; none if there are more or fewer than the count says.
fn read_text(text: &[u8]) -> Option<(&[u8], [f32; 5])> {
    let (count, rest) = text.split_first_chunk()?;
    let (words, figures) = rest.split_at_checked(4 * usize::from(u16::from_le_bytes(*count)))?;
    (figures.len() == 20).then(|| (words, [0, 4, 8, 12, 16].map(|at| number(&figures[at..at + 4]))))
}

/// Writes the lines, or gives the first refusal. Lines go down, so bands above one are not looked at again.
fn set(page: &FloatContext, words: &[u8], figures: [f32; 5], lines: &mut Lines) -> Result<(), u32> {
    let [gap, height, min_y, left, right] = figures.map(|figure| figure + 0.0);
    let widths = words.chunks_exact(4).map(number);
    let length = |x: &f32| (LENGTH..=MOST).contains(x);
    if !(widths.clone().all(|width| length(&width))
        && [gap, height, left, right].iter().all(length)
        && (OFFSET..=MOST).contains(&min_y))
    {
        return Err(if widths.chain(figures).all(f32::is_finite) { 3 } else { 2 });
    }
    let count = words.len() / 4;
    if count > WORDS {
        return Err(9);
    }
    if height == 0.0 {
        return Err(10);
    }
    let width = |at: usize| number(&words[4 * at..4 * at + 4]);
    let larger = |a: f32, b: f32| if a > b { a } else { b };
    let (mut first, mut top, mut above) = (0, min_y, 0);
    while first < count {
        let bottom = top + height;
        if bottom > REACH {
            return Err(6);
        }
        while page.band(above).is_some_and(|(y, _)| y.end <= top) {
            above += 1;
        }
        let mut edges = [left, right];
        let mut below = above;
        while let Some((_, insets)) = page.band(below).filter(|(y, _)| y.start < bottom) {
            edges = [larger(edges[0], insets[0]), larger(edges[1], insets[1])];
            below += 1;
        }
        let room = page.width() - edges[0] - edges[1];
        let mut sum = width(first);
        if sum > room && below > above {
            top = next_top(page, above, top);
            continue;
        }
        let mut next = first + 1;
        while next < count {
            sum = sum + gap + width(next);
            if sum > room {
                break;
            }
            next += 1;
        }
        lines.letter(b'L');
        lines.numbers([edges[0], top]);
        lines.decimal(first as u32);
        lines.decimal((next - first) as u32);
        lines.letter(b'\n');
        (first, top) = (next, bottom);
    }
    Ok(())
}

/// The next band start below a top, from this band on, or the last end.
fn next_top(page: &FloatContext, from: usize, top: f32) -> f32 {
    let mut last = top;
    for band in from.. {
        match page.band(band) {
            Some((y, _)) if y.start > top => return y.start,
            Some((y, _)) => last = y.end,
            None => break,
        }
    }
    last
}

/// Lines without what the crate does not give: the step count at the end of each P.
pub fn without_steps(lines: &[u8]) -> Vec<String> {
    let lines = String::from_utf8_lossy(lines);
    lines.lines().map(|line| if line.starts_with('P') { &line[..19] } else { line }.to_string()).collect()
}
