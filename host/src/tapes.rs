//! The tapes that are run beside the crate, by what each kind of tape is after.

use crate::random::Random;
use crate::tape::{bytes, Field, Record, BODIES, LONGEST, NONE};

/// A box at min_y 0 with insets 0 that clears nothing.
pub fn plain(side: u8, width: f32, height: f32) -> Record {
    at(side, width, height, 0.0)
}

/// The same at this min_y.
pub fn at(side: u8, width: f32, height: f32, min_y: f32) -> Record {
    Record::Place { side, clear: 0, width, height, min_y, insets: [0.0, 0.0] }
}

/// Every box over some clears, insets, sizes (width and height) and min_ys, of both sides.
fn boxes(clears: &[u8], insets: &[[f32; 2]], sizes: &[[f32; 2]], min_ys: &[f32]) -> Vec<Record> {
    let mut all = Vec::new();
    for side in 0..2 {
        for clear in clears {
            for insets in insets {
                for [width, height] in sizes {
                    for min_y in min_ys {
                        let (clear, width, height, min_y, insets) = (*clear, *width, *height, *min_y, *insets);
                        all.push(Record::Place { side, clear, width, height, min_y, insets });
                    }
                }
            }
        }
    }
    all
}

/// A page for each last box behind the same first ones, each asked twice, all on one tape; the second question has this clear.
fn pages(first: &[Record], last: &[Record], clear: u8) -> Vec<u8> {
    let content = Record::Content { min_y: 4.0, insets: [5.0, 0.0], clear: 0, after: NONE };
    let margins = [-3.0, 8.0];
    let bfc = Record::Bfc { min_y: 0.0, insets: [0.0, 5.0], margins, direction: 0, clear, after: NONE };
    let page = |last: &Record| [&[Record::New, Record::Width(100.0)], first, &[*last, content, bfc]].concat();
    bytes(&last.iter().flat_map(page).collect::<Vec<Record>>())
}

/// Every page of two of these boxes, and of three of those.
fn pages_of(two: Vec<Record>, three: Vec<Record>, clear: u8) -> impl Iterator<Item = Vec<u8>> {
    let pairs = three.clone().into_iter().flat_map({
        let three = three.clone();
        move |first| three.clone().into_iter().map(move |second| [first, second])
    });
    let two = two.clone().into_iter().map(move |first| pages(&[first], &two, clear));
    two.chain(pairs.map(move |pair| pages(&pair, &three, clear)))
}

/// Every page of two boxes over a small grid, and every page of three over a smaller one, asked by a question that clears; then those of
/// them on which no box clears, asked by none that does.
pub fn short_pages() -> impl Iterator<Item = Vec<u8>> {
    let mut sizes = Vec::new();
    for width in [0.0, 10.0, 60.0, 100.0] {
        sizes.extend([0.0, 10.0, 30.0].map(|height| [width, height]));
    }
    let many = |clears| boxes(clears, &[[0.0, 0.0], [0.0, 60.0], [30.0, 0.0]], &sizes, &[0.0, 5.0]);
    let few = |clears| boxes(clears, &[[0.0, 0.0], [0.0, 60.0]], &[[10.0, 30.0], [60.0, 10.0], [50.0, 0.0]], &[0.0]);
    pages_of(many(&[0, 1, 2, 3]), few(&[0, 1, 3]), 1).chain(pages_of(many(&[0]), few(&[0]), 0))
}

/// The numbers that a random page is made of.
struct Numbers {
    width: f32,
    /// all numbers are whole multiples of this; 0 for any float at all
    grid: f32,
}

impl Numbers {
    /// Whole 64ths, or a coarser grid where edges meet often.
    fn on_a_grid(random: &mut Random) -> Self {
        let grid = random.pick(&[1.0 / 64.0, 0.5, 5.0, 10.0]);
        let most = random.pick(&[100.0, 100.0, 320.0, 1000.0]);
        let width = if random.once_in(3) { (random.below((most / grid) as usize + 1)) as f32 * grid } else { most };
        Numbers { width, grid }
    }

    /// Any floats: the page's width itself is one near a limit at times.
    fn wild(random: &mut Random) -> Self {
        let mut numbers = Numbers { width: 100.0, grid: 0.0 };
        if random.once_in(2) {
            numbers.width = numbers.length(random, 1000.0).clamp(0.0, 65_536.0);
        }
        numbers
    }

    /// A number up to about `most`; among any floats also tiny ones, and ones at and beyond the limits.
    fn length(&self, random: &mut Random, most: f32) -> f32 {
        if self.grid > 0.0 {
            return random.below((most / self.grid) as usize + 1) as f32 * self.grid;
        }
        match random.below(40) {
            0 => random.bits(),
            1 => random.pick(&[f32::NAN, f32::INFINITY, -1.0e-45, 65_536.01, -5.0]),
            2..=4 => random.pick(&[65_536.0, 65_535.996, 65_535.0, 32_768.0, 40_000.3]),
            5..=9 => random.pick(&[0.0, -0.0, 1.0e-45, 1.0e-40, f32::MIN_POSITIVE, 1.0e-30, 0.001, 0.000_999, 1.0e-5]),
            10..=12 => f32::from_bits(((random.below(143) as u32) << 23) | (random.next() as u32 >> 9)),
            13..=15 => most,
            _ => most * (random.below(1 << 24) as f32 / (1 << 24) as f32),
        }
    }

    /// A min_y or a margin.
    fn offset(&self, random: &mut Random, most: f32) -> f32 {
        let length = self.length(random, most);
        if random.once_in(5) {
            -length
        } else {
            length
        }
    }

    fn insets(&self, random: &mut Random) -> [f32; 2] {
        let mut insets = [0.0, 0.0];
        if random.once_in(3) {
            insets[random.below(2)] = self.length(random, self.width * 0.7);
        }
        insets
    }

    fn min_y(&self, random: &mut Random, depth: f32) -> f32 {
        if random.once_in(3) {
            self.offset(random, depth)
        } else {
            0.0
        }
    }

    fn a_box(&self, random: &mut Random, depth: f32) -> Record {
        let most = self.width * random.pick(&[0.2, 0.2, 0.5, 0.5, 1.0, 1.2]);
        let nothing = random.below(24);
        Record::Place {
            side: random.below(2) as u8,
            clear: if random.once_in(6) { random.below(4) as u8 } else { 0 },
            width: if nothing == 0 { 0.0 } else { self.length(random, most) },
            height: if nothing == 1 { 0.0 } else { self.length(random, depth * 0.4) },
            min_y: self.min_y(random, depth),
            insets: self.insets(random),
        }
    }

    fn a_question(&self, random: &mut Random, depth: f32) -> Record {
        let min_y = self.offset(random, depth);
        let insets = self.insets(random);
        let clear = if random.once_in(3) { random.below(4) as u8 } else { 0 };
        let after = if random.once_in(3) { random.below(12) as u16 } else { NONE };
        if random.once_in(2) {
            return Record::Content { min_y, insets, clear, after };
        }
        let margins = [self.offset(random, self.width * 0.4), self.offset(random, self.width * 0.4)];
        Record::Bfc { min_y, insets, margins, direction: random.below(2) as u8, clear, after }
    }

    fn page(&self, random: &mut Random, boxes: usize, depth: f32) -> Vec<Record> {
        let mut page = vec![Record::Width(self.width)];
        for _ in 0..boxes {
            page.push(self.a_box(random, depth));
            for _ in 0..random.below(3) {
                page.push(self.a_question(random, depth));
            }
        }
        page
    }
}

fn some_boxes(random: &mut Random) -> usize {
    let most = random.pick(&[3, 6, 12, 30, 70]);
    1 + random.below(most)
}

/// A page in whole 64ths.
pub fn on_a_grid(random: &mut Random) -> Vec<Record> {
    let boxes = some_boxes(random);
    let depth = random.pick(&[50.0, 100.0, 400.0]);
    Numbers::on_a_grid(random).page(random, boxes, depth)
}

/// A page of any floats: tiny and subnormal heights, sums that round, numbers at and beyond every limit.
pub fn wild(random: &mut Random) -> Vec<Record> {
    let boxes = some_boxes(random);
    let depth = random.pick(&[1.0e-3, 50.0, 400.0, 400.0, 65_536.0]);
    Numbers::wild(random).page(random, boxes, depth)
}

/// Boxes deep enough that bottoms pass 131,072: refusal 6.
pub fn deep(random: &mut Random) -> Vec<Record> {
    let numbers = if random.once_in(2) { Numbers::wild(random) } else { Numbers { width: 65_536.0, grid: 4_096.0 } };
    let boxes = 2 + random.below(12);
    let mut page = numbers.page(random, boxes, 65_536.0);
    for record in &mut page {
        if let Record::Place { height, .. } = record {
            if random.once_in(2) {
                *height = random.pick(&[65_536.0, 65_535.996, 60_000.0, 40_000.0]);
            }
        }
    }
    page
}

/// Many thin boxes over the height of one tall box, each of which splits it anew: refusals 5 and 7.
pub fn many_bands(random: &mut Random) -> Vec<Record> {
    let mut page = vec![Record::Width(1000.0), plain(random.below(2) as u8, 1.0, 60_000.0)];
    let some_empty = random.pick(&[3, 8, 50]);
    let mut min_y = 0.0;
    for _ in 0..66 + random.below(8) {
        min_y += random.below(40_000) as f32 / 64.0;
        let height = if random.once_in(some_empty) { 0.0 } else { random.below(30_000) as f32 / 64.0 };
        let width = random.below(640) as f32 / 64.0;
        let side = random.below(2) as u8;
        page.push(Record::Place { side, clear: 0, width, height, min_y, insets: [0.0, 0.0] });
        if random.once_in(3) {
            page.push(Record::Content { min_y, insets: [0.0, 0.0], clear: 0, after: random.below(100) as u16 });
        }
    }
    page
}

/// Calculators, started or not, with sums on both sides of 131,072.
pub fn calculators(random: &mut Random) -> Vec<Record> {
    let numbers = if random.once_in(2) { Numbers::wild(random) } else { Numbers::on_a_grid(random) };
    let most = random.pick(&[100.0, 65_536.0]);
    let mut tape = Vec::new();
    for _ in 0..1 + random.below(30) {
        tape.push(match random.below(12) {
            0 => Record::New,
            1 | 2 => Record::Calc { mode: random.below(4) as u8, number: numbers.length(random, most) },
            3 | 4 => Record::Result,
            5 => Record::Add {
                width: numbers.length(random, most),
                side: random.below(3) as u8,
                clear: random.below(5) as u8,
            },
            _ => {
                let clear = if random.once_in(4) { random.below(4) as u8 } else { 0 };
                Record::Add { width: numbers.length(random, most), side: random.below(2) as u8, clear }
            }
        });
    }
    tape
}

/// Records of every kind in any order, with a wrong code now and then.
pub fn mixed(random: &mut Random) -> Vec<Record> {
    let numbers = if random.once_in(2) { Numbers::wild(random) } else { Numbers::on_a_grid(random) };
    let mut tape = Vec::new();
    for _ in 0..1 + random.below(40) {
        match random.below(12) {
            0 => tape.push(Record::Width(numbers.length(random, 1000.0))),
            1 => tape.extend(calculators(random).first()),
            2 if random.once_in(4) => tape.push(Record::New),
            2..=7 => tape.push(numbers.a_box(random, 100.0)),
            _ => tape.push(numbers.a_question(random, 100.0)),
        }
        if random.once_in(20) {
            wrong_code(random, tape.last_mut().unwrap());
        }
    }
    tape
}

fn wrong_code(random: &mut Random, record: &mut Record) {
    let wrong = random.pick(&[2, 3, 4, 9, 255]);
    match record {
        Record::Place { side: code, .. } | Record::Add { clear: code, .. } | Record::Calc { mode: code, .. } => {
            *code = wrong
        }
        Record::Content { clear: code, .. } | Record::Bfc { direction: code, .. } => *code = wrong,
        _ => {}
    }
}

/// Any bytes, most of them beginning as records do.
pub fn any_bytes(random: &mut Random) -> Vec<u8> {
    let mut tape = Vec::new();
    for _ in 0..random.below(8) {
        let kind = random.below(9);
        tape.push(kind as u8);
        for field in BODIES.get(kind).copied().unwrap_or(&[]) {
            for _ in 0..field.size() {
                let byte = random.next() as u8;
                tape.push(if field.is_number() { byte } else { random.pick(&[0, 0, 1, 2, 3, byte]) });
            }
        }
    }
    tape.truncate(tape.len().saturating_sub(random.below(4)));
    tape
}

/// A short tape of every kind, to be damaged.
pub fn of_every_kind() -> Vec<u8> {
    bytes(&[
        Record::Width(100.0),
        Record::Place { side: 0, clear: 0, width: 60.0, height: 30.0, min_y: 5.0, insets: [0.0, 20.0] },
        Record::Place { side: 1, clear: 1, width: 50.5, height: 10.0, min_y: 0.0, insets: [4.0, 0.0] },
        Record::Content { min_y: 2.0, insets: [3.0, 0.0], clear: 0, after: NONE },
        Record::Bfc { min_y: 6.0, insets: [0.0, 3.0], margins: [-2.0, 7.0], direction: 1, clear: 0, after: 0 },
        Record::Calc { mode: 0, number: 80.0 },
        Record::Add { width: 70.0, side: 0, clear: 0 },
        Record::Add { width: 30.0, side: 1, clear: 0 },
        Record::Result,
        Record::New,
        Record::Result,
    ])
}

/// Each cut of a tape, and each of its bytes changed to each other value.
pub fn damaged(tape: Vec<u8>) -> impl Iterator<Item = Vec<u8>> {
    let cuts: Vec<Vec<u8>> = (0..tape.len()).map(|length| tape[..length].to_vec()).collect();
    let changes = (0..tape.len()).flat_map(move |at| {
        let tape = tape.clone();
        (1..=255).map(move |change| {
            let mut copy = tape.clone();
            copy[at] ^= change;
            copy
        })
    });
    cuts.into_iter().chain(changes)
}

/// Tapes at the longest length and beyond it, one with the longest answer that a tape can have, two with a box.
pub fn longest() -> Vec<Vec<u8>> {
    let results = |first: Record, length: usize| {
        let mut tape = bytes(&[first]);
        tape.resize(length, 7);
        tape
    };
    let (started, placed) = (Record::Calc { mode: 1, number: 0.0 }, plain(0, 1.0, 1.0));
    let both = [LONGEST, LONGEST + 1].into_iter();
    let tapes = both.flat_map(|length| [results(started, length), results(placed, length), vec![0; length]]);
    tapes.chain([vec![9; 3 * LONGEST]]).collect()
}

/// Pages on which refusals 4 to 8 hold, alone and together; all but 8 on the last.
pub fn troubled_pages() -> Vec<Vec<Record>> {
    let wide = Record::Width(100.0);
    let tall = Record::Place { side: 0, clear: 0, width: 1.0, height: 65_536.0, min_y: 100.0, insets: [0.0, 0.0] };
    let thin = |n: usize| Record::Place {
        side: 1,
        clear: 0,
        width: 1.0,
        height: 5.0,
        min_y: 110.0 + 20.0 * n as f32,
        insets: [0.0, 0.0],
    };
    let started = Record::Calc { mode: 2, number: 0.0 };
    let full = [Record::Add { width: 65_536.0, side: 0, clear: 0 }, Record::Add { width: 65_536.0, side: 1, clear: 0 }];
    let banded: Vec<Record> = [wide, tall].into_iter().chain((0..47).map(thin)).collect();
    let empty = Record::Place { side: 0, clear: 0, width: 1.0, height: 0.0, min_y: 65_536.0, insets: [0.0, 0.0] };
    let crowded: Vec<Record> = banded.iter().copied().chain([empty; 16]).collect();
    let calculating = |page: &[Record]| [page, &[started], &full].concat();
    vec![
        vec![],
        vec![wide, started],
        vec![wide, tall],
        banded.clone(),
        calculating(&banded),
        crowded.clone(),
        calculating(&crowded),
    ]
}

/// A record's body as its fields, each with the values that it takes in a test of the refusals: the first is in order, for a clear this one.
fn values(field: Field, clear: u8) -> Vec<Vec<u8>> {
    let codes = |known: u8| vec![vec![0], vec![known], vec![255]];
    let numbers = |of: &[f32]| of.iter().map(|x| x.to_le_bytes().to_vec()).collect();
    match field {
        Field::Side | Field::Direction => codes(2),
        Field::Clear => vec![vec![clear], vec![4], vec![255]],
        Field::Mode => codes(3),
        Field::Length => {
            numbers(&[65_536.0, f32::NAN, f32::INFINITY, f32::NEG_INFINITY, 65_536.01, -1.0e-45, f32::MAX])
        }
        Field::Offset => numbers(&[0.0, f32::NAN, f32::INFINITY, f32::NEG_INFINITY, 65_536.01, -65_536.01]),
        Field::At => vec![NONE.to_le_bytes().to_vec(), vec![0, 0]],
    }
}

/// On a page, every record with every one and every two of its fields at fault, and with this clear elsewhere: the order of the refusals.
pub fn faults(page: &[Record], clear: u8) -> Vec<Vec<u8>> {
    let mut tapes = Vec::new();
    for (kind, body) in BODIES.iter().enumerate().skip(1) {
        let mut tape = bytes(page);
        let values: Vec<Vec<Vec<u8>>> = body.iter().map(|field| values(*field, clear)).collect();
        let mut write = |chosen: &[(usize, usize)]| {
            tape.push(kind as u8);
            for (place, choices) in values.iter().enumerate() {
                let choice = chosen.iter().find(|(at, _)| *at == place).map_or(0, |(_, choice)| *choice);
                tape.extend(&choices[choice]);
            }
        };
        for first in 0..values.len() {
            for a in 1..values[first].len() {
                write(&[(first, a)]);
                for second in first + 1..values.len() {
                    for b in 1..values[second].len() {
                        write(&[(first, a), (second, b)]);
                    }
                }
            }
        }
        write(&[]);
        tapes.push(tape);
    }
    tapes
}
