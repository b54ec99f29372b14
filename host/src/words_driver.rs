//! Sets texts by an archive and by the reading, compares every byte, holds the archive's lines to what is promised of them, keeps count of
//! what was met, and shrinks a text and a tape on which they differ.

use crate::archive::{difference_in, set_room};
use crate::call::{REACH, WORDS};
use crate::driver::shrunk;
use crate::tape;
use crate::text::{self, Text};
use crate::words::{self, edges, Line, Page};
use std::collections::BTreeMap;
use std::fmt::Write;

/// A tape and a text on which archive and reading differ, as small as they were made, and how they differ there.
#[derive(Debug)]
pub struct Found {
    pub tape: Vec<u8>,
    pub text: Vec<u8>,
    pub report: String,
}

impl Found {
    /// Tape and text as tools/tape.py has them.
    pub fn shown(&self) -> String {
        tape::text(&self.tape[..self.tape.len().min(2_000)]) + &text::shown(&self.text)
    }
}

/// How often each thing was met.
#[derive(Debug, Default)]
pub struct Met(BTreeMap<String, u64>);

impl Met {
    pub fn saw(&mut self, what: &str) {
        self.saw_if(what, true);
    }

    fn saw_if(&mut self, what: &str, met: bool) {
        match self.0.get_mut(what) {
            Some(count) => *count += u64::from(met),
            None => _ = self.0.insert(what.into(), u64::from(met)),
        }
    }

    pub fn count(&self, what: &str) -> u64 {
        self.0.get(what).copied().unwrap_or(0)
    }

    /// All of them, a comma between each two.
    pub fn summary(&self) -> String {
        let mut line = String::new();
        for (what, count) in &self.0 {
            write!(line, "{}{what}: {count}", if line.is_empty() { "" } else { ", " }).unwrap();
        }
        line
    }
}

/// As an `archive::Setter`, or one with something wrong in it.
pub type Set<'a> = &'a dyn Fn(&[u8], &[u8], &mut [u8]) -> i64;

pub struct WordsDriver<'a> {
    set: Set<'a>,
    pub met: Met,
    compared: u64,
}

impl<'a> WordsDriver<'a> {
    pub fn new(set: Set<'a>) -> Self {
        WordsDriver { set, met: Met::default(), compared: 0 }
    }

    /// One text on the page after a tape, or after one that stops: in a room to spare, from none to 8 bytes, or, each fourth time, in one
    /// that is surely enough; and, each fourth time, in one that is a byte too short. The lines given are held to what is promised of them.
    pub fn text(
        &mut self,
        tape: &[u8],
        page: &Result<Page, String>,
        text: &[u8],
        whole_64ths: bool,
    ) -> Result<(), Found> {
        let lines = words::printed(page, text);
        self.compared += 1;
        let room = match self.compared % 4 {
            0 => set_room(text),
            _ => lines.len() + (self.compared / 4 % 9) as usize,
        };
        self.compare(tape, text, &lines, room)?;
        if self.compared % 4 == 1 && !lines.is_empty() {
            self.compare(tape, text, &lines, lines.len() - 1)?;
        }
        let mut lent = vec![0; set_room(text)];
        let length = (self.set)(tape, text, &mut lent);
        let given = &lent[..length as usize];
        self.met.saw("texts");
        let (Ok(page), Some(of)) = (page, Text::read(text)) else {
            self.met.saw(match (page, given) {
                (_, b"L\n") => "tape too long",
                (Err(_), _) => "tape that stops",
                (Ok(_), _) => "text not whole",
            });
            return Ok(());
        };
        if let [b'R', b' ', number @ .., b'\n'] = given {
            self.met.saw(&format!("refusal {}", String::from_utf8_lossy(number)));
            self.met.saw_if("no word, refused", of.words.is_empty());
            return Ok(());
        }
        let lines = read(given);
        self.look(page, &of, &lines, whole_64ths);
        let found = |report: String| Found { tape: tape.to_vec(), text: text.to_vec(), report };
        broken(page, &of, &lines, whole_64ths).map_or(Ok(()), |what| Err(found(what)))
    }

    /// A text for which these refusals hold: it is refused with the first of them.
    pub fn refused(
        &mut self,
        tape: &[u8],
        page: &Result<Page, String>,
        text: &[u8],
        numbers: &[u8],
    ) -> Result<(), Found> {
        let told = format!("R {}\n", numbers[0]).into_bytes();
        assert!(page.is_err() || words::printed(page, text) == told, "{numbers:?} hold, of\n{}", text::shown(text));
        for (at, first) in numbers.iter().enumerate() {
            numbers[at + 1..].iter().for_each(|second| self.met.saw(&format!("both {first} and {second}")));
        }
        self.text(tape, page, text, false)
    }

    /// A text in every room from none to one byte past the need.
    pub fn every_room(&mut self, tape: &[u8], page: &Result<Page, String>, text: &[u8]) -> Result<(), Found> {
        let lines = words::printed(page, text);
        (0..=lines.len() + 1).try_for_each(|room| self.compare(tape, text, &lines, room))
    }

    fn compare(&mut self, tape: &[u8], text: &[u8], lines: &[u8], room: usize) -> Result<(), Found> {
        let what = match room.checked_sub(lines.len()) {
            None => "room too short",
            Some(0) => "room just enough",
            Some(_) => "room to spare",
        };
        self.met.saw(what);
        let set = self.set;
        if difference_in(|lent| set(tape, text, lent), lines, room).is_none() {
            return Ok(());
        }
        let short = lines.len().checked_sub(room);
        let differs = |tape: &[u8], text: &[u8]| {
            let lines = words::printed(&Page::after(tape), text);
            let rooms = [lines.len() + 8, lines.len(), lines.len().saturating_sub(short.unwrap_or(0))];
            rooms.into_iter().find_map(|room| difference_in(|lent| set(tape, text, lent), &lines, room))
        };
        let (tape, text) = both_shrunk(tape, text, |tape, text| differs(tape, text).is_some());
        let report = differs(&tape, &text).unwrap_or("only in the room that was lent, and not when run again".into());
        Err(Found { tape, text, report })
    }

    /// Counts what the lines of a text met on its page.
    fn look(&mut self, page: &Page, text: &Text, lines: &[Line], whole_64ths: bool) {
        let met = &mut self.met;
        met.saw_if("no word, no line", text.words.is_empty());
        met.saw_if("512 words set", text.words.len() == WORDS);
        met.saw_if(
            "minus zero read",
            [text.gap, text.min_y].iter().chain(&text.insets).any(|x| x.to_bits() == 1 << 31),
        );
        met.saw_if("containing insets past the page", text.insets[0] + text.insets[1] > page.width);
        let last_end = page.bands.last().map(|band| band.end);
        let mut least = text.min_y;
        for (number, line) in lines.iter().enumerate() {
            let bottom = line.y + text.height;
            let touched = page.touched(line.y, bottom);
            let [left, right] = edges(&touched, text.insets);
            let room = page.width - left - right;
            let words = &text.words[line.first..line.first + line.count];
            let wider = |insets: [f32; 2]| insets[0] > left || insets[1] > right;
            let [above, below] = [
                page.bands.iter().any(|band| band.end == line.y && wider(band.insets)),
                page.bands.iter().any(|band| band.start == bottom && wider(band.insets)),
            ];
            let moved = line.y > least;
            for (what, met_it) in [
                ("line", true),
                ("line in whole 64ths", whole_64ths),
                ("line beside a band", !touched.is_empty()),
                ("line beside three bands or more", touched.len() > 2),
                ("line that touches no band", touched.is_empty()),
                ("line moved", moved),
                ("line moved below all bands", moved && Some(line.y) == last_end),
                ("line that begins where a box ends", above),
                ("line that ends where a box begins", below),
                ("line of negative room", room < 0.0),
                ("word wider than its line", words[0] > room),
                ("word wider than the page moved", moved && words[0] > page.width),
                ("words that fill their line exactly", sum(words, text.gap) == room),
                ("gap of 0 between words", text.gap == 0.0 && words.len() > 1),
                ("word of width 0", words.contains(&0.0)),
                ("height that is swallowed", bottom == line.y),
                ("line swallowed and followed by one at its top", number > 0 && lines[number - 1].y == line.y),
                ("line that ends at the reach", bottom == REACH),
            ] {
                met.saw_if(what, met_it);
            }
            least = bottom;
        }
    }
}

/// Widths and the gaps between them, from the left.
fn sum(words: &[f32], gap: f32) -> f32 {
    words[1..].iter().fold(words[0], |sum, word| sum + gap + word)
}

/// The promise that these lines break, if they do: in order and without a gap, each further down than the last, with no word more and none
/// less than fit; and, in whole 64ths, over no box.
pub fn broken(page: &Page, text: &Text, lines: &[Line], whole_64ths: bool) -> Option<String> {
    let mut next = 0;
    let mut least = text.min_y;
    for line in lines {
        let Line { x, y, first, count } = *line;
        if first != next || count == 0 || first + count > text.words.len() {
            return Some(format!("{line:?} does not go on with word {next}"));
        }
        if y < least {
            return Some(format!("{line:?} is higher than {least}"));
        }
        let bottom = y + text.height;
        let touched = page.touched(y, bottom);
        let [left, right] = edges(&touched, text.insets);
        let room = page.width - left - right;
        let wide = sum(&text.words[first..first + count], text.gap);
        if wide > room && (!touched.is_empty() || count > 1) {
            return Some(format!("{line:?}: {wide} do not fit {room}"));
        }
        next = first + count;
        if text.words.get(next).is_some_and(|word| wide + text.gap + word <= room) {
            return Some(format!("{line:?}: word {next} would have fitted"));
        }
        if let (true, Some(of)) = (whole_64ths, overlapped(page, [x, y, x + wide, bottom])) {
            return Some(format!("{line:?} lies over a box at {of:?}"));
        }
        least = bottom;
    }
    (next != text.words.len()).then(|| format!("word {next} is on no line"))
}

/// The box, by its edges, that shares a place with these; in whole 64ths no sum is rounded.
fn overlapped(page: &Page, [x, y, right, bottom]: [f32; 4]) -> Option<[f32; 4]> {
    let [left_boxes, right_boxes] = &page.boxes;
    let lefts = left_boxes.iter().map(|of| (of.x_inset, of));
    let rights = right_boxes.iter().map(|of| (page.width - of.x_inset - of.width, of));
    let mut edges = lefts.chain(rights).map(|(x, of)| [x, of.y, x + of.width, of.y + of.height]);
    edges.find(|of| x.max(of[0]) < right.min(of[2]) && y.max(of[1]) < bottom.min(of[3]))
}

/// Lines as they were printed.
fn read(lines: &[u8]) -> Vec<Line> {
    let line = |line: &str| {
        let parts: Vec<&str> = line.split(' ').collect();
        let [letter, x, y, first, count] = parts[..] else { panic!("{line} is no line of words") };
        assert_eq!(letter, "L", "{line}");
        let [x, y] = [x, y].map(|bits| f32::from_bits(u32::from_str_radix(bits, 16).unwrap()));
        Line { x, y, first: first.parse().unwrap(), count: count.parse().unwrap() }
    };
    std::str::from_utf8(lines).unwrap().lines().map(line).collect()
}

/// Both made as small as still differs.
fn both_shrunk(tape: &[u8], text: &[u8], differs: impl Fn(&[u8], &[u8]) -> bool) -> (Vec<u8>, Vec<u8>) {
    let (mut tape, mut text) = (tape.to_vec(), text.to_vec());
    loop {
        let before = (tape.clone(), text.clone());
        text = shrunk_text(&text, |text| differs(&tape, text));
        tape = shrunk(&tape, |tape| differs(tape, &text));
        if (&tape, &text) == (&before.0, &before.1) {
            return (tape, text);
        }
    }
}

/// The smallest text found that still differs: words taken out, most at a time first, then numbers made simple.
fn shrunk_text(text: &[u8], differs: impl Fn(&[u8]) -> bool) -> Vec<u8> {
    let Some(mut best) = Text::read(text) else { return text.to_vec() };
    let differs = |text: &Text| differs(&text.bytes());
    if !differs(&best) {
        return text.to_vec();
    }
    let mut size = best.words.len();
    while size > 0 {
        let mut at = 0;
        while at < best.words.len() {
            let mut fewer = best.clone();
            fewer.words.drain(at..(at + size).min(best.words.len()));
            if differs(&fewer) {
                best = fewer;
            } else {
                at += size;
            }
        }
        size /= 2;
    }
    for at in 0..best.words.len() + 5 {
        let old = *best.number(at);
        for simple in [0.0, 1.0, 10.0, 100.0, old.trunc()] {
            if simple.to_bits() == old.to_bits() {
                break;
            }
            *best.number(at) = simple;
            if differs(&best) {
                break;
            }
            *best.number(at) = old;
        }
    }
    best.bytes()
}
