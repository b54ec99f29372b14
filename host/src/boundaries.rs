//! Each constant of document 01 where it is tested: tapes at it, one step below and one above, with the end of each answer.

use crate::tape::{body_length, bytes, Field, Record, BODIES, LONGEST, NONE};
use crate::tapes::{at, plain};
use Record::{New, Result as Total, Width};

const LEFT: u8 = 0;
const RIGHT: u8 = 1;
const MOST: f32 = 65_536.0;

/// A tape, the last lines of its answer (of a line that ends in * only the start is told), and rooms to try beside the usual ones.
pub struct Case {
    pub tape: Vec<u8>,
    pub told: Vec<String>,
    pub rooms: Vec<usize>,
}

/// The cases of one constant.
#[derive(Default)]
struct Cases(Vec<Case>);

impl Cases {
    fn ends(&mut self, records: &[Record], told: &[&str]) {
        self.ends_so(&bytes(records), told)
    }

    fn ends_so(&mut self, tape: &[u8], told: &[&str]) {
        self.ends_in(tape, told, &[])
    }

    fn ends_in(&mut self, tape: &[u8], told: &[&str], rooms: &[usize]) {
        let told = told.iter().map(|line| line.to_string()).collect();
        self.0.push(Case { tape: tape.to_vec(), told, rooms: rooms.to_vec() });
    }
}

/// The next f32 above, and the one below, by value.
fn above(x: f32) -> f32 {
    x.next_up()
}

fn below(x: f32) -> f32 {
    x.next_down()
}

fn within(side: u8, width: f32, height: f32, insets: [f32; 2]) -> Record {
    Record::Place { side, clear: 0, width, height, min_y: 0.0, insets }
}

fn clearing(side: u8, width: f32, height: f32, clear: u8) -> Record {
    Record::Place { side, clear, width, height, min_y: 0.0, insets: [0.0, 0.0] }
}

fn content(min_y: f32, after: u16) -> Record {
    Record::Content { min_y, insets: [0.0, 0.0], clear: 0, after }
}

fn bfc(min_y: f32, after: u16) -> Record {
    let none = [0.0, 0.0];
    Record::Bfc { min_y, insets: none, margins: none, direction: 0, clear: 0, after }
}

fn add(width: f32, side: u8) -> Record {
    Record::Add { width, side, clear: 0 }
}

fn calc(mode: u8) -> Record {
    Record::Calc { mode, number: 0.0 }
}

/// A line with its numbers as bits.
fn line(letter: &str, numbers: &[f32], rest: &str) -> String {
    let bits: String = numbers.iter().map(|number| format!(" {:08X}", number.to_bits())).collect();
    format!("{letter}{bits}{rest}")
}

fn placed(x: f32, y: f32, steps: usize) -> String {
    line("P", &[x, y], &format!(" {steps}"))
}

/// A record of a kind with one number in its place, behind others.
fn with_number(before: &[Record], kind: usize, place: usize, number: f32) -> Vec<u8> {
    let mut tape = bytes(before);
    tape.push(kind as u8);
    for (here, field) in BODIES[kind].iter().enumerate() {
        match field {
            _ if here == place => tape.extend(number.to_le_bytes()),
            Field::Length | Field::Offset => tape.extend(8.0f32.to_le_bytes()),
            Field::At => tape.extend(NONE.to_le_bytes()),
            _ => tape.push(0),
        }
    }
    tape
}

/// Limits of every number of every record: 0 or -65,536 below, 65,536 above, and what is no number. First where the record is
/// answered, then where another refusal holds too: with a box and no calculator, and with 64 boxes.
fn limits_of_numbers(cases: &mut Cases) {
    let ready = [Width(MOST), calc(2)];
    let full = [plain(LEFT, 0.0, 0.0); 64];
    for (before, kind, letter) in [
        (&ready[..], 1, "W"),
        (&ready, 2, "P*"),
        (&ready, 3, "C*"),
        (&ready, 4, "B*"),
        (&ready, 5, "S"),
        (&ready, 6, "A"),
        (&full[..1], 1, "R 4"),
        (&full[..1], 6, "R 8"),
        (&full, 2, "R 5"),
    ] {
        for (place, field) in BODIES[kind].iter().enumerate().filter(|(_, field)| field.is_number()) {
            let least = if *field == Field::Offset { -MOST } else { 0.0 };
            let mut ends = |number: f32, told: &str| cases.ends_so(&with_number(before, kind, place, number), &[told]);
            for number in [least, above(least), below(0.0).max(least), -0.0, 0.0, above(0.0), below(MOST), MOST] {
                ends(number, letter);
            }
            let outside = [below(least), -1.0, above(MOST), f32::MAX, f32::MIN];
            for number in outside.into_iter().filter(|number| !(least..=MOST).contains(number)) {
                ends(number, "R 3");
            }
            for number in [f32::INFINITY, f32::NEG_INFINITY, f32::NAN, -f32::NAN, f32::from_bits(0x7F80_0001)] {
                ends(number, "R 2");
            }
        }
    }
    // what is not read cannot be wrong
    for mode in [1, 2] {
        cases.ends(&[Record::Calc { mode, number: f32::NAN }], &["S"]);
    }
}

/// A record of a kind with one code in its place.
fn with_code(kind: usize, place: usize, code: u8) -> Vec<u8> {
    let mut tape = bytes(&[Width(MOST), calc(2)]);
    tape.push(kind as u8);
    for (here, field) in BODIES[kind].iter().enumerate() {
        match field {
            _ if here == place => tape.push(code),
            Field::At => tape.extend(NONE.to_le_bytes()),
            _ => tape.extend(vec![0; field.size()]),
        }
    }
    tape
}

/// Every code of every record, known or not.
fn codes(cases: &mut Cases) {
    for (kind, letter) in [(2, "P*"), (3, "C*"), (4, "B*"), (5, "S"), (6, "A")] {
        for (place, field) in BODIES[kind].iter().enumerate() {
            let known = match field {
                Field::Side | Field::Direction => 2,
                Field::Mode => 3,
                Field::Clear => 4,
                _ => continue,
            };
            for code in 0..=255 {
                cases.ends_so(&with_code(kind, place, code), &[if code < known { letter } else { "R 1" }]);
            }
        }
    }
}

/// Every kind whole and one byte short, and every byte that is no kind.
fn kinds_and_bodies(cases: &mut Cases) {
    let letters = ["N", "W", "P*", "C*", "B*", "S", "R 8", "R 8"];
    for kind in 0..=255u8 {
        let Some(length) = body_length(kind) else {
            cases.ends_so(&[0, kind], &["N", "T 1"]);
            continue;
        };
        let mut tape = vec![0, kind];
        tape.resize(2 + length, 0);
        cases.ends_so(&tape, &["N", letters[usize::from(kind)]]);
        if length > 0 {
            cases.ends_so(&tape[..1 + length], &["N", "T 1"]);
            cases.ends_so(&tape[..2], &["N", "T 1"]);
        }
        tape.push(0);
        cases.ends_so(&tape, &[letters[usize::from(kind)], "N"]);
    }
    // offsets of one digit to five
    for before in [0, 9, 10, 99, 100, 999, 1_000, 9_999, 10_000, LONGEST - 1] {
        for stop in [&[8][..], &[1, 0, 0, 0]] {
            let tape = [&vec![7; before.min(LONGEST - stop.len())], stop].concat();
            cases.ends_so(&tape, &[&format!("T {}", tape.len() - stop.len())]);
        }
    }
}

/// The longest tape, and one byte more; the longest lines that a tape can have.
fn length(cases: &mut Cases) {
    for length in [LONGEST - 1, LONGEST] {
        cases.ends_so(&vec![7; length], &["R 8"]);
    }
    cases.ends_in(&[7; LONGEST + 1], &["L"], &[0, 1, 2, 3]);
    let mut results = bytes(&[calc(1)]);
    results.resize(LONGEST, 7);
    cases.ends_so(&results, &["I 00000000"]);
}

/// A room of 11 bytes a byte of tape is known to be enough; one byte less must be reckoned.
fn rooms(cases: &mut Cases) {
    for results in [0, 1, 5, 6, 7, 60] {
        let mut tape = bytes(&[calc(1)]);
        tape.resize(6 + results, 7);
        let enough = 11 * tape.len();
        let last = if results == 0 { "S" } else { "I 00000000" };
        cases.ends_in(&tape, &[last], &[enough - 1, enough, enough + 1]);
    }
    cases.ends_so(&[], &[]);
}

/// `after` 65,535 is none; every other number is a band's.
fn after(cases: &mut Cases) {
    let page = [Width(100.0), plain(LEFT, 10.0, 10.0), plain(LEFT, 10.0, 20.0)];
    let slot = |after: u16| [&page[..], &[content(-5.0, after), bfc(-5.0, after)]].concat();
    cases.ends(&slot(NONE), &["C 0*", "B 0*"]);
    cases.ends(&slot(0), &["C 1*", "B 1*"]);
    cases.ends(&slot(1), &["C 2*", "B 2*"]);
    for beyond in [2, 3, 95, 96, 255, 256, 32_767, 32_768, 65_533, 65_534] {
        cases.ends(
            &slot(beyond),
            &[&line("C -", &[0.0, -5.0, 100.0], ""), &line("B -", &[0.0, 20.0, 100.0, 100.0], "")],
        );
    }
}

/// The 64th box stands, the 65th does not, of either side, flat or not; faults of its record come first.
fn boxes(cases: &mut Cases) {
    let fault = [plain(2, 0.0, 0.0), plain(LEFT, f32::NAN, 0.0), plain(LEFT, -1.0, 0.0)];
    for (side, height) in [(LEFT, 0.0), (RIGHT, 0.0), (LEFT, 1.0), (RIGHT, 1.0)] {
        let page: Vec<Record> = (0..63).map(|n| plain(n % 2, 0.0, height)).collect();
        let last = [plain(side, 0.0, height), plain(side, 0.0, height), Width(1.0), New, plain(side, 0.0, height)];
        cases.ends(&[&page[..], &last, &fault].concat(), &["P*", "R 5", "R 4", "N", "P*", "R 1", "R 2", "R 3"]);
        cases.ends(&[&page[..], &last[..2], &fault].concat(), &["P*", "R 5", "R 1", "R 2", "R 3"]);
    }
    // the width is fixed by the first box
    cases.ends(&[Width(5.0), Width(6.0), plain(LEFT, 0.0, 0.0), Width(6.0)], &["W", "W", "P*", "R 4"]);
}

/// A page of this many bands, 65,536 high from 100 on; further boxes come at 2,000 and below.
fn banded(bands: usize) -> Vec<Record> {
    let mut page = vec![Width(100.0), at(LEFT, 1.0, MOST, 100.0)];
    if bands % 2 == 1 {
        page.push(at(RIGHT, 1.0, 5.0, 100.0));
    }
    page.extend((0..(bands - 2) / 2).map(|n| at(RIGHT, 1.0, 5.0, 120.0 + 20.0 * n as f32)));
    page
}

/// The 96th band is made and the 97th is not, wherever a box makes none, one or two.
fn bands(cases: &mut Cases) {
    let end = 100.0 + MOST;
    let boxes = |bands: usize| {
        let last_bottom = 125.0 + 20.0 * ((bands - 2) / 2 - 1) as f32;
        let flat_below = clearing(LEFT, 1.0, 0.0, 1);
        let none = [
            vec![at(RIGHT, 1.0, 0.0, 2_000.0)],
            vec![flat_below],
            vec![at(RIGHT, 1.0, end - last_bottom, last_bottom)],
        ];
        // split at the top, split at the bottom, added below
        let one = [
            vec![at(RIGHT, 1.0, end - 2_000.0, 2_000.0)],
            vec![at(RIGHT, 1.0, 5.0, last_bottom)],
            vec![flat_below, plain(LEFT, 1.0, 1.0)],
        ];
        // split at both, split and added below
        let two = [vec![at(RIGHT, 1.0, 5.0, 2_000.0)], vec![at(RIGHT, 1.0, MOST, 2_000.0)]];
        [none.to_vec(), one.to_vec(), two.to_vec()]
    };
    for bands in 93..=96 {
        for (more, pages) in boxes(bands).iter().enumerate() {
            for last in pages {
                let page = [&banded(bands)[..], last].concat();
                cases.ends(&page, &[if bands + more > 96 { "R 7" } else { "P*" }]);
            }
        }
    }
    // 6 comes before 7, 5 before both
    cases.ends(&[&banded(96)[..], &[clearing(LEFT, 1.0, MOST, 1)]].concat(), &["R 6"]);
    let crowded = [&banded(96)[..], &[at(LEFT, 1.0, 0.0, MOST); 16]].concat();
    cases.ends(
        &[&crowded[..], &[clearing(LEFT, 1.0, MOST, 1), at(RIGHT, 1.0, 5.0, MOST)]].concat(),
        &["P*", "R 5", "R 5"],
    );
}

/// Band numbers of one digit and two, up to the last of 96, and heights in it.
fn numbers_of_bands(cases: &mut Cases) {
    let end = 100.0 + MOST;
    for bands in [10, 11, 95, 96] {
        let last = bands as u16 - 1;
        let asked = |after: u16| [&banded(bands)[..], &[content(-5.0, after), bfc(-5.0, after)]].concat();
        cases.ends(&asked(last - 1), &[&format!("C {last} *"), &format!("B {last} *")]);
        cases.ends(&asked(last), &["C - *", "B - *"]);
        let at_the_end = |min_y: f32| [&banded(bands)[..], &[content(min_y, NONE), bfc(min_y, NONE)]].concat();
        cases.ends(&at_the_end(below(end).min(MOST)), &[&format!("C {last} *"), &format!("B {last} *")]);
    }
}

/// A page of this many bands below 0, each a box's height; from the one of number `wide` + 1 on a container ends 50 before the edge.
fn stairs(bands: usize, wide: usize) -> Vec<Record> {
    let inset = |number: usize| if number > wide { 50.0 } else { 0.0 };
    let stair = |number: usize| within(LEFT, 1.0 / 64.0, number as f32, [0.0, inset(number)]);
    [Width(100.0)].into_iter().chain((1..=bands).map(stair)).collect()
}

/// Step counts of one digit, two and three: a box that fits nowhere gives up each start, one that fits alone also ends.
fn steps(cases: &mut Cases) {
    for bands in [9, 10, 11, 62] {
        let page = [&stairs(bands, bands)[..], &[plain(LEFT, 100.0, 1.0)]].concat();
        cases.ends(&page, &[&placed(0.0, bands as f32, bands)]);
    }
    for ends in [36, 37, 38, 39] {
        let page = [&stairs(62, ends + 1)[..], &[plain(LEFT, 60.0, 100.0)]].concat();
        cases.ends(&page, &[&placed(0.0, 62.0, 62 + ends + 1)]);
    }
}

/// A bottom of 131,072 stands, and no lower one; the sum is rounded, so the tie goes to the even one.
fn bottoms(cases: &mut Cases) {
    let little = 1.0 / 64.0;
    for side in [LEFT, RIGHT] {
        let under = |y: f32, height: f32| [Width(1.0), at(side, 1.0, y - MOST, MOST), plain(side, 1.0, height)];
        cases.ends(&under(MOST + little, MOST), &["R 6"]);
        cases.ends(&under(MOST + little, below(MOST)), &["R 6"]);
        cases.ends(&under(MOST + little, MOST - little / 2.0), &["P*"]);
        cases.ends(&under(MOST + little, MOST - little), &["P*"]);
        cases.ends(&under(MOST + little, MOST - 2.0 * little), &["P*"]);
        cases.ends(&[at(side, 0.0, MOST, MOST)], &["P*"]);
        cases.ends(&[at(side, 0.0, below(MOST), MOST)], &["P*"]);
        // a flat box at the lowest bottom, and one that goes no higher after its ceiling
        let deepest = [Width(1.0), at(side, 1.0, MOST, MOST), clearing(side, 1.0, 0.0, 3), plain(side, 1.0, little)];
        cases.ends(&deepest, &[&placed(0.0, 131_072.0, 0), "R 6"]);
        cases.ends(&[&deepest[..3], &[plain(side, 1.0, little / 4.0)]].concat(), &["P*"]);
    }
    // from above the page: -65,536 + 65,536
    cases.ends(&[at(LEFT, 0.0, MOST, -MOST)], &[&placed(0.0, -MOST, 0)]);
    // the placed inset plus width can be 131,072 and no more
    cases.ends(&[within(LEFT, MOST, 1.0, [MOST, 0.0])], &[&placed(MOST, 0.0, 0)]);
    cases.ends(&[within(RIGHT, MOST, 1.0, [0.0, MOST])], &[&placed(-2.0 * MOST, 0.0, 0)]);
}

/// A side's sum of 131,072 is kept, and none above it; so are the two together.
fn sums(cases: &mut Cases) {
    let little = 1.0 / 64.0;
    for mode in [0, 2] {
        for [a, b, c] in [[LEFT; 3], [RIGHT; 3], [LEFT, LEFT, RIGHT], [LEFT, RIGHT, RIGHT], [RIGHT, LEFT, LEFT]] {
            let sum = |last: f32| [calc(mode), add(MOST, a), add(MOST - 1.0, b), add(last, c), Total];
            let total = |x: f32| line("I", &[if mode == 0 { MOST } else { x }], "");
            cases.ends(&sum(1.0 + little), &["R 6", &total(131_071.0)]);
            cases.ends(&sum(1.0), &["A", &total(131_072.0)]);
            cases.ends(&sum(1.0 - little / 2.0), &["A", &total(131_071.992_187_5)]);
            cases.ends(&sum(1.0 + little / 2.0), &["A", &total(131_072.0)]);
            // a side's own sum is rounded first: 65,536.0078126 to 65,536.0078125, and the two together then tie
            let rounded_first = a != b && b == c;
            cases.ends(&sum(above(1.0 + little / 2.0)), &[if rounded_first { "A" } else { "R 6" }, "I*"]);
            // what was refused is not kept
            cases.ends(&[&sum(1.0 + little)[..4], &[add(1.0, c), add(little, c)]].concat(), &["R 6", "A", "R 6"]);
        }
    }
    // min-content keeps no sums
    cases.ends(
        &[calc(1), add(MOST, LEFT), add(MOST, LEFT), add(MOST, RIGHT), Total],
        &["A", "A", "A", &line("I", &[MOST], "")],
    );
}

/// A definite width from the widest box to the sum; the widest is never cut.
fn definite(cases: &mut Cases) {
    for (available, answer) in [
        (69.0, 70.0),
        (below(70.0), 70.0),
        (70.0, 70.0),
        (above(70.0), above(70.0)),
        (100.0, 100.0),
        (above(100.0), 100.0),
    ] {
        let start = Record::Calc { mode: 0, number: available };
        cases.ends(&[start, add(70.0, LEFT), add(30.0, RIGHT), Total], &[&line("I", &[answer], "")]);
    }
}

/// The fit test's 0.001, in both its halves, on both sides: the room is 0, so the sum shows every bit of it.
fn tolerance(cases: &mut Cases) {
    for (lead, trail) in [(LEFT, RIGHT), (RIGHT, LEFT)] {
        let x = |inset: f32, width: f32| if lead == LEFT { inset } else { 100.0 - inset - width };
        // beside a box of the other side that takes the whole width
        let beside = |width: f32| [Width(100.0), plain(trail, 100.0, 10.0), plain(lead, width, 5.0)];
        for (width, y, steps) in [(below(0.001), 0.0, 0), (0.001, 0.0, 0), (above(0.001), 10.0, 1)] {
            cases.ends(&beside(width), &[&placed(x(0.0, width), y, steps)]);
        }
        // beside one of its own side, in a container of no width
        let mut insets = [0.0, 0.0];
        insets[usize::from(trail)] = 100.0;
        let behind = |width: f32| [Width(100.0), plain(lead, 0.0005, 10.0), within(lead, width, 5.0, insets)];
        for (width, fits) in
            [(below(0.0005), true), (0.0005, true), (above(0.0005), false), (above(above(0.0005)), false)]
        {
            let (inset, y, steps) = if fits { (0.0005, 0.0, 0) } else { (0.0, 10.0, 1) };
            cases.ends(&behind(width), &[&placed(x(inset, width), y, steps)]);
        }
        // an inset of 0 is no inset, the least above it is one
        for (width, fits) in [(0.0, true), (above(0.0), false)] {
            let page = [Width(100.0), plain(lead, width, 10.0), within(lead, 150.0, 5.0, [0.0, 0.0])];
            cases.ends(&page, &[&placed(x(0.0, 150.0), if fits { 0.0 } else { 10.0 }, usize::from(!fits))]);
        }
    }
}

/// Where a band begins and ends: a height handed in at it, one step above and one below.
fn edges_of_bands(cases: &mut Cases) {
    let page = [Width(100.0), plain(LEFT, 10.0, 30.0), within(LEFT, 10.0, 60.0, [0.0, 60.0])];
    let asked = |min_y: f32| [&page[..], &[content(min_y, NONE), bfc(min_y, NONE)]].concat();
    for (edge, upper, lower) in [(0.0, "0", "1"), (30.0, "1", "2"), (60.0, "2", "-")] {
        for (min_y, band) in [(below(edge), upper), (edge, lower), (above(edge), lower)] {
            cases.ends(&asked(min_y), &[&format!("C {band} *"), &format!("B {band} *")]);
        }
    }
    // a counted height that is just enough, and one that lacks a step
    let beside = |height: f32| [&page[..], &[plain(RIGHT, 50.0, height)]].concat();
    for (height, y) in [(below(30.0), 0.0), (30.0, 0.0), (above(30.0), 60.0)] {
        cases.ends(&beside(height), &[&format!("{} *", line("P", &[50.0, y], ""))]);
    }
    // a bottom at an edge splits nothing, one beside it splits the band
    for (bottom, bands) in
        [(below(30.0), 4), (30.0, 3), (above(30.0), 4), (below(60.0), 4), (60.0, 3), (above(60.0), 4)]
    {
        let asked = [&page[..], &[plain(LEFT, 1.0, bottom), content(0.0, bands - 2), content(0.0, bands - 1)]].concat();
        cases.ends(&asked, &["P*", &format!("C {} *", bands - 1), "C - *"]);
    }
    // a top at an edge splits nothing, one beside it does
    for (top, bands) in [(below(30.0), 4), (30.0, 3), (above(30.0), 4)] {
        let asked =
            [&page[..], &[at(LEFT, 1.0, 60.0 - top, top), content(0.0, bands - 2), content(0.0, bands - 1)]].concat();
        cases.ends(&asked, &["P*", &format!("C {} *", bands - 1), "C - *"]);
    }
}

/// Every case, by what it is about.
pub fn all() -> Vec<(&'static str, Vec<Case>)> {
    let groups: [(&str, fn(&mut Cases)); 15] = [
        ("limits of numbers", limits_of_numbers),
        ("codes", codes),
        ("kinds and bodies", kinds_and_bodies),
        ("length", length),
        ("rooms", rooms),
        ("after", after),
        ("boxes", boxes),
        ("bands", bands),
        ("numbers of bands", numbers_of_bands),
        ("steps", steps),
        ("bottoms", bottoms),
        ("sums", sums),
        ("definite", definite),
        ("tolerance", tolerance),
        ("edges of bands", edges_of_bands),
    ];
    let made = |(name, group): (&'static str, fn(&mut Cases))| {
        let mut cases = Cases::default();
        group(&mut cases);
        (name, cases.0)
    };
    groups.into_iter().map(made).collect()
}
