//! The texts that are set beside the reading, by what each kind of text is after.

use crate::call::{MOST, WORDS};
use crate::random::Random;
use crate::text::Text;
use crate::words::Page;

/// The figures that a text for some page is made of.
struct Figures<'a> {
    page: &'a Page,
    /// all figures are whole multiples of this; 0 for any float within the limits
    grid: f32,
    /// where bands begin and end, and how wide a line is that touches one of them alone
    heights: Vec<f32>,
    rooms: Vec<f32>,
}

impl<'a> Figures<'a> {
    fn new(page: &'a Page, grid: f32) -> Self {
        let heights = page.bands.iter().flat_map(|band| [band.start, band.end]);
        let rooms = page.bands.iter().map(|band| page.width - band.insets[0] - band.insets[1]);
        Figures {
            page,
            grid,
            heights: heights.filter(|y| y.is_finite()).chain([0.0]).collect(),
            rooms: rooms.filter(|room| *room >= 0.0).chain([page.width]).collect(),
        }
    }

    /// A length up to about this; among any floats also tiny ones, those at the limits, and a minus zero.
    fn length(&self, random: &mut Random, most: f32) -> f32 {
        if self.grid > 0.0 {
            return (random.below((most / self.grid) as usize + 1) as f32 * self.grid).min(MOST);
        }
        let length = match random.below(24) {
            0 => random.pick(&[0.0, -0.0, 1.0e-45, 1.0e-40, f32::MIN_POSITIVE, 1.0e-30, 0.001]),
            1 if random.once_in(8) => random.pick(&[MOST, MOST.next_down(), 40_000.3]),
            2 => f32::from_bits(((random.below(143) as u32) << 23) | (random.next() as u32 >> 9)),
            3 | 4 => most,
            _ => most * (random.below(1 << 24) as f32 / (1 << 24) as f32),
        };
        length.min(MOST)
    }

    /// One of these, or, among any floats, the one beside it at times.
    fn near(&self, random: &mut Random, from: &[f32]) -> f32 {
        let one = random.pick(from);
        match random.below(6) {
            0 if self.grid == 0.0 => one.next_up(),
            1 if self.grid == 0.0 => one.next_down(),
            _ => one,
        }
    }

    /// Above zero: what is between two heights of the page, a small part of its depth, a line's usual height, a tall one, one of the least.
    fn height(&self, random: &mut Random) -> f32 {
        let least = if self.grid > 0.0 { 1.0 / 64.0 } else { f32::from_bits(1) };
        let deepest = self.heights.iter().copied().fold(0.0, f32::max);
        let height = match random.below(12) {
            0..=2 => (self.near(random, &self.heights) - self.near(random, &self.heights)).abs(),
            3..=7 => self.length(random, deepest * 0.04),
            8 | 9 => self.length(random, 24.0),
            10 => self.length(random, 400.0),
            _ if self.grid > 0.0 => least,
            _ => random.pick(&[1.0e-45, 1.0e-7, 0.001, 0.003_906, 0.007_813, MOST, MOST.next_down()]),
        };
        height.clamp(least, MOST)
    }

    /// On a height of the page or with the line's bottom there, at 0, anywhere, at the limits.
    fn min_y(&self, random: &mut Random, height: f32) -> f32 {
        let min_y = match random.below(16) {
            0..=3 => 0.0,
            4..=7 => self.near(random, &self.heights),
            8..=10 => self.near(random, &self.heights) - height,
            11..=13 => self.length(random, 500.0) - self.length(random, 200.0),
            14 => random.pick(&[-MOST, MOST]),
            _ => MOST - height,
        };
        min_y.clamp(-MOST, MOST)
    }

    /// None for the most part; at times past the page's width.
    fn insets(&self, random: &mut Random) -> [f32; 2] {
        let mut insets = [0.0, 0.0];
        if random.once_in(3) {
            let most = self.page.width * random.pick(&[0.2, 0.4, 0.7, 1.0, 2.0]);
            insets[random.below(2)] = self.length(random, most);
        }
        if random.once_in(6) {
            insets = insets.map(|_| self.length(random, self.page.width * 0.4));
        }
        insets
    }

    /// Widths up to some part of the page's; some are zero, some as wide as a line or what is left of it.
    fn words(&self, random: &mut Random, gap: f32, insets: [f32; 2]) -> Vec<f32> {
        let most = self.page.width * random.pick(&[0.05, 0.1, 0.2, 0.5, 1.0, 1.2]);
        let [empty, whole, rest] = [(); 3].map(|()| random.pick(&[4, 20, 600]));
        let up_to = random.pick(&[2, 4, 10, 30, 80]);
        let count = match random.below(24) {
            0 => random.pick(&[WORDS - 1, WORDS, WORDS, WORDS + 1]),
            1 => random.below(601),
            _ => random.below(up_to + 1),
        };
        // one line after the other, as if its room were this
        let (mut room, mut sum) = (self.page.width - insets[0] - insets[1], 0.0);
        let word = |_| {
            let word = match () {
                () if random.once_in(empty) => 0.0,
                () if random.once_in(whole) => self.near(random, &self.rooms),
                () if random.once_in(rest) => self.near(random, &[room - sum - gap]),
                () => self.length(random, most),
            };
            let word = word.clamp(0.0, MOST);
            sum = sum + gap + word;
            if sum >= room {
                (room, sum) = (random.pick(&self.rooms), word);
            }
            word
        };
        (0..count).map(word).collect()
    }

    fn text(&self, random: &mut Random) -> Text {
        let height = self.height(random);
        let gap = if random.once_in(3) { 0.0 } else { self.length(random, 12.0) };
        let (min_y, insets) = (self.min_y(random, height), self.insets(random));
        Text { words: self.words(random, gap, insets), gap, height, min_y, insets }
    }
}

/// In whole 64ths, if the page is.
pub fn on_a_grid(random: &mut Random, page: &Page) -> Text {
    let grid = random.pick(&[1.0 / 64.0, 0.5, 5.0, 10.0]);
    Figures::new(page, grid).text(random)
}

/// Of any floats within the limits.
pub fn wild(random: &mut Random, page: &Page) -> Text {
    Figures::new(page, 0.0).text(random)
}

/// A text for which all of these hold, the last three if the numbers at fault were mended. A line of height zero can't pass the reach: 10
/// and 6 do not go together.
pub fn refused(random: &mut Random, page: &Page, numbers: &[u8]) -> Text {
    let mut text = if random.once_in(2) { on_a_grid(random, page) } else { wild(random, page) };
    let holds = |number: u8| numbers.contains(&number);
    // places of numbers that are left as they are
    let mut kept = Vec::new();
    text.words.truncate(WORDS);
    if holds(6) {
        // two lines at least, of which one ends below the reach
        text.words.resize(text.words.len().max(3), MOST);
        text.words[..2].fill(MOST);
        (text.height, text.min_y) = (MOST, random.pick(&[MOST, MOST, 1.0]));
        kept.extend([0, 1]);
    }
    if holds(9) {
        let count = if random.once_in(400) { usize::from(u16::MAX) } else { WORDS + random.pick(&[1, 1, 2, 40, 88]) };
        text.words.resize(count, text.words.last().copied().unwrap_or(1.0));
    }
    if holds(10) {
        text.height = random.pick(&[0.0, -0.0]);
    }
    let count = text.words.len();
    if holds(10) || holds(6) {
        kept.extend([count + 1, count + 2]);
    }
    for number in [2, 3].into_iter().filter(|number| holds(*number)) {
        let at = loop {
            // figures as often as words; of the words the last, and the first past the limit, too
            let at = match random.below(8) {
                0..=3 => count + random.below(5),
                4 => count.saturating_sub(1),
                5 if count > WORDS => WORDS,
                _ => random.below(count.max(1)),
            };
            if !kept.contains(&at) {
                break at;
            }
        };
        kept.push(at);
        let least = if at == count + 2 { -MOST } else { 0.0 };
        *text.number(at) = match number {
            2 => random.pick(&[f32::NAN, f32::from_bits(0xFF80_0001), f32::INFINITY, f32::NEG_INFINITY]),
            _ => random.pick(&[MOST.next_up(), least.next_down(), f32::MAX, f32::MIN, -MOST * 2.0]),
        };
    }
    text
}

/// All sets of refusals that can hold together, each in the order of document 02.
pub fn together() -> Vec<Vec<u8>> {
    let chosen = |set: u8| [2, 3, 9, 10, 6].into_iter().enumerate().filter(move |(at, _)| set >> at & 1 == 1);
    let sets = (1..32).map(|set| chosen(set).map(|(_, number)| number).collect());
    sets.filter(|set: &Vec<u8>| !(set.contains(&10) && set.contains(&6))).collect()
}

/// A text's bytes cut short, and with bytes behind them: by every length near the right one and near none.
pub fn cut_or_long(text: &[u8]) -> impl Iterator<Item = Vec<u8>> + '_ {
    let right = text.len();
    let lengths = (0..26.min(right)).chain(right.saturating_sub(9).max(26)..right).chain(right + 1..right + 10);
    lengths.map(move |length| {
        let mut other = text.to_vec();
        other.resize(length, 0);
        other
    })
}
