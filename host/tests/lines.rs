//! Words around the boxes, in fixed cases: by the archive where it is linked, and by the reading and the bench's Rust program where the
//! crate is at hand.

use host::archive::{self, Setter};
use host::tape::{bytes, Record, LONGEST};
use host::tapes::{at, of_every_kind, plain};
use host::text::{self, Text};
use std::path::{Path, PathBuf};
use Record::{New, Width};

const LEFT: u8 = 0;
const RIGHT: u8 = 1;
const MOST: f32 = 65_536.0;
const REACH: f32 = 131_072.0;

/// Who answers.
fn sources() -> Vec<(&'static str, Setter)> {
    let archive = archive::set_words().map(|set| ("archive", set));
    #[cfg(has_taffy)]
    let beside: [(&str, Setter); 2] = [("reading", host::words::set_words), ("crate", host::job::set_words)];
    #[cfg(not(has_taffy))]
    let beside = [];
    archive.into_iter().chain(beside).collect()
}

fn prints(tape: &[u8], text: &[u8], told: &str) {
    for (who, set) in sources() {
        let mut room = vec![0; archive::set_room(text)];
        let length = set(tape, text, &mut room);
        let lines = String::from_utf8_lossy(&room[..length as usize]);
        let tape = host::tape::text(&tape[..tape.len().min(999)]);
        assert_eq!(lines, told, "{who}, of\n{tape}{}", text::shown(&text[..text.len().min(9_999)]));
    }
}

/// Words of these widths with the gap 4 and the height 10, at 0, with no insets.
fn words(widths: &[f32]) -> Text {
    Text { words: widths.to_vec(), gap: 4.0, height: 10.0, min_y: 0.0, insets: [0.0, 0.0] }
}

/// A line's x, y, first word and count.
type Told = (f32, f32, usize, usize);

fn sets(page: &[Record], text: &Text, lines: &[Told]) {
    let print = |(x, y, first, count): &Told| format!("L {:08X} {:08X} {first} {count}\n", x.to_bits(), y.to_bits());
    prints(&bytes(page), &text.bytes(), &lines.iter().map(print).collect::<String>());
}

fn refuses(page: &[Record], text: &Text, number: u8) {
    prints(&bytes(page), &text.bytes(), &format!("R {number}\n"));
}

/// Width 100 and these boxes.
fn page(boxes: &[Record]) -> Vec<Record> {
    [&[Width(100.0)], boxes].concat()
}

/// Left 10x30, right 20x10: insets 10 and 20 to 10, then 10 and 0 to 30.
fn two_sides() -> Vec<Record> {
    page(&[plain(LEFT, 10.0, 30.0), plain(RIGHT, 20.0, 10.0)])
}

#[test]
fn as_it_is_printed() {
    let tape = bytes(&page(&[plain(LEFT, 10.0, 30.0)]));
    let lines = "L 41200000 00000000 0 2\nL 41200000 41200000 2 1\n";
    prints(&tape, &words(&[40.0, 46.0, 12.5]).bytes(), lines);
    let text = words(&[40.0, 12.5]).bytes();
    let first = [2, 0, 0, 0, 0x20, 0x42, 0, 0, 0x48, 0x41, 0, 0, 0x80, 0x40, 0, 0, 0x20, 0x41];
    assert_eq!(text, [&first[..], &[0; 12]].concat());
}

/// While widths and gaps are at most the room; the gap is between words alone.
#[test]
fn as_many_as_fit() {
    let wide = page(&[]);
    sets(&wide, &words(&[30.0, 30.0, 30.0]), &[(0.0, 0.0, 0, 3)]);
    sets(&wide, &words(&[30.0, 30.0, 32.0]), &[(0.0, 0.0, 0, 3)]);
    sets(&wide, &words(&[30.0, 30.0, 32.0f32.next_up()]), &[(0.0, 0.0, 0, 3)]);
    sets(&wide, &words(&[30.0, 30.0, 32.000_01]), &[(0.0, 0.0, 0, 2), (0.0, 10.0, 2, 1)]);
    sets(&wide, &words(&[100.0, 0.0, 100.0]), &[(0.0, 0.0, 0, 1), (0.0, 10.0, 1, 1), (0.0, 20.0, 2, 1)]);
    let close = Text { gap: 0.0, ..words(&[100.0, 0.0, 0.0, 1.0]) };
    sets(&wide, &close, &[(0.0, 0.0, 0, 3), (0.0, 10.0, 3, 1)]);
    let apart = Text { gap: 101.0, ..words(&[0.0, 100.0]) };
    sets(&wide, &apart, &[(0.0, 0.0, 0, 1), (0.0, 10.0, 1, 1)]);
    // each sum rounded, from the left
    let widest = [Width(MOST)];
    sets(&widest, &Text { gap: 0.0, ..words(&[MOST, 0.003, 0.003]) }, &[(0.0, 0.0, 0, 3)]);
    sets(&widest, &Text { gap: 0.003, ..words(&[MOST, 0.003, 0.003]) }, &[(0.0, 0.0, 0, 3)]);
    sets(&widest, &Text { gap: 0.0, ..words(&[0.003, 0.003, MOST]) }, &[(0.0, 0.0, 0, 2), (0.0, 10.0, 2, 1)]);
}

/// With no band a line takes its first word, however wide, and no other beside one that does not fit.
#[test]
fn with_no_band() {
    sets(&[], &words(&[5.0, 0.0]), &[(0.0, 0.0, 0, 1), (0.0, 10.0, 1, 1)]);
    sets(
        &[],
        &Text { gap: 0.0, ..words(&[0.0, 0.0, 1.0, 0.0]) },
        &[(0.0, 0.0, 0, 2), (0.0, 10.0, 2, 1), (0.0, 20.0, 3, 1)],
    );
    let wide = Text { gap: 0.0, ..words(&[101.0, 0.0, 100.0]) };
    sets(&page(&[]), &wide, &[(0.0, 0.0, 0, 1), (0.0, 10.0, 1, 2)]);
    // a box of no height makes none
    let flat = page(&[plain(LEFT, 50.0, 0.0), at(RIGHT, 50.0, 0.0, 5.0)]);
    sets(&flat, &words(&[48.0, 48.0]), &[(0.0, 0.0, 0, 2)]);
    // one whose top is the last end or below it
    let boxed = page(&[plain(LEFT, 10.0, 30.0)]);
    sets(&boxed, &Text { min_y: 30.0, ..words(&[200.0]) }, &[(0.0, 30.0, 0, 1)]);
    sets(&boxed, &Text { min_y: 50.0, ..words(&[200.0]) }, &[(0.0, 50.0, 0, 1)]);
}

#[test]
fn beside_boxes() {
    sets(&two_sides(), &words(&[70.0, 90.0, 91.0]), &[(10.0, 0.0, 0, 1), (10.0, 10.0, 1, 1), (0.0, 30.0, 2, 1)]);
    // the largest insets of all bands that a line touches
    let tall = Text { height: 20.0, ..words(&[35.0, 35.0, 35.0]) };
    sets(&two_sides(), &tall, &[(10.0, 0.0, 0, 1), (10.0, 20.0, 1, 2)]);
    let across = page(&[plain(LEFT, 10.0, 10.0), plain(RIGHT, 20.0, 20.0), at(LEFT, 30.0, 10.0, 20.0)]);
    sets(&across, &Text { height: 30.0, ..words(&[50.0]) }, &[(30.0, 0.0, 0, 1)]);
    sets(&across, &Text { height: 30.0, ..words(&[51.0]) }, &[(30.0, 20.0, 0, 1)]);
}

/// A band that ends at the top or begins at the bottom is not touched.
#[test]
fn at_one_point() {
    let boxed = page(&[plain(LEFT, 10.0, 30.0)]);
    let line = |min_y| Text { min_y, ..words(&[100.0]) };
    sets(&boxed, &line(30.0), &[(0.0, 30.0, 0, 1)]);
    sets(&boxed, &line(-10.0), &[(0.0, -10.0, 0, 1)]);
    sets(&boxed, &line(30.0f32.next_down()), &[(0.0, 30.0, 0, 1)]);
    sets(&boxed, &line((-10.0f32).next_up()), &[(0.0, 30.0, 0, 1)]);
    let narrow = |min_y| Text { min_y, ..words(&[90.0]) };
    sets(&boxed, &narrow(29.5), &[(10.0, 29.5, 0, 1)]);
    sets(&boxed, &narrow(-9.5), &[(10.0, -9.5, 0, 1)]);
    // the bottom is rounded: up to the band's start, and past it
    let apart = page(&[at(LEFT, 10.0, 30.0, 1_000.0)]);
    let line = |height, min_y| Text { height, min_y, ..words(&[90.0]) };
    sets(&apart, &line(1.0, 999.0), &[(0.0, 999.0, 0, 1)]);
    sets(&apart, &line(1.000_03, 999.0), &[(0.0, 999.0, 0, 1)]);
    sets(&apart, &line(1.000_04, 999.0), &[(10.0, 999.0, 0, 1)]);
}

/// To the next start below the top, band by band, and at last below all.
#[test]
fn moved() {
    sets(&two_sides(), &words(&[71.0, 70.0]), &[(10.0, 10.0, 0, 1), (10.0, 20.0, 1, 1)]);
    sets(&two_sides(), &words(&[91.0, 70.0]), &[(0.0, 30.0, 0, 1), (0.0, 40.0, 1, 1)]);
    // from above all boxes it is the first box's top, not the end of what is touched
    let apart = page(&[at(LEFT, 10.0, 10.0, 20.0), at(RIGHT, 60.0, 10.0, 50.0)]);
    let line = |width, min_y| Text { min_y, ..words(&[width]) };
    sets(&apart, &line(95.0, 15.0), &[(0.0, 30.0, 0, 1)]);
    sets(&apart, &line(90.0, 15.0), &[(10.0, 15.0, 0, 1)]);
    sets(&apart, &line(41.0, 45.0), &[(0.0, 60.0, 0, 1)]);
    sets(&apart, &Text { height: 40.0, ..line(41.0, 20.0) }, &[(0.0, 60.0, 0, 1)]);
    sets(&apart, &Text { height: 20.0, ..line(95.0, 20.0) }, &[(0.0, 30.0, 0, 1)]);
    // wider than the page: below all, even from far above, where a band without a box is touched
    sets(&apart, &line(101.0, -300.0), &[(0.0, 60.0, 0, 1)]);
    sets(&apart, &line(100.0, -300.0), &[(0.0, -300.0, 0, 1)]);
    // a word of no width where there is no room at all, and where there is less than none
    let full = page(&[plain(LEFT, 100.0, 10.0), plain(RIGHT, 120.0, 10.0)]);
    sets(&full, &words(&[0.0, 0.0, 0.0]), &[(100.0, 0.0, 0, 1), (0.0, 20.0, 1, 2)]);
}

#[test]
fn containing_insets() {
    let within = |insets, widths: &[f32]| Text { insets, ..words(widths) };
    sets(&two_sides(), &within([20.0, 30.0], &[50.0, 51.0]), &[(20.0, 0.0, 0, 1), (20.0, 30.0, 1, 1)]);
    sets(
        &two_sides(),
        &within([5.0, 5.0], &[70.0, 85.0, 86.0]),
        &[(10.0, 0.0, 0, 1), (10.0, 10.0, 1, 1), (5.0, 30.0, 2, 1)],
    );
    // past the page: no line has room, and none beside a band is set
    let past = Text { gap: 0.0, ..within([60.0, 60.0], &[0.0, 0.0]) };
    sets(&page(&[]), &past, &[(60.0, 0.0, 0, 1), (60.0, 10.0, 1, 1)]);
    sets(&two_sides(), &past, &[(60.0, 30.0, 0, 1), (60.0, 40.0, 1, 1)]);
    sets(&[], &Text { insets: [MOST, MOST], ..words(&[1.0]) }, &[(MOST, 0.0, 0, 1)]);
}

/// The first of those that hold: 2, 3, 9, 10, 6; 2 and 3 over all numbers, those of the words past the 512th too.
#[test]
fn refusals() {
    let page = two_sides();
    let good = words(&[1.0; 4]);
    let places = good.words.len() + 5;
    for at in 0..places {
        let with = |number: f32| {
            let mut text = good.clone();
            *text.number(at) = number;
            text
        };
        for number in [f32::NAN, f32::INFINITY, f32::NEG_INFINITY] {
            refuses(&page, &with(number), 2);
        }
        let least = if at == places - 3 { -MOST } else { 0.0 };
        refuses(&page, &with(least.next_down()), 3);
        refuses(&page, &with(MOST.next_up()), 3);
        for other in (0..places).filter(|other| *other != at) {
            let mut text = with(-1.0e9);
            *text.number(other) = f32::NAN;
            refuses(&page, &text, 2);
        }
    }
    for count in [513, 514, 600, 65_535] {
        let many = words(&vec![1.0; count]);
        refuses(&page, &many, 9);
        for (last, number) in [(f32::NAN, 2), (-1.0, 3)] {
            for at in [512, count - 1] {
                let mut text = many.clone();
                text.words[at] = last;
                refuses(&page, &text, number);
            }
        }
        refuses(&page, &Text { height: 0.0, ..many.clone() }, 9);
        refuses(&page, &Text { height: MOST, min_y: MOST, words: vec![MOST; count], ..many }, 9);
    }
    for height in [0.0, -0.0] {
        refuses(&page, &Text { height, ..good.clone() }, 10);
        refuses(&page, &Text { height, ..words(&[]) }, 10);
        refuses(&page, &Text { height, gap: -1.0, ..words(&[]) }, 3);
    }
    refuses(&page, &Text { min_y: f32::NAN, height: -1.0, ..words(&[]) }, 2);
}

/// 6 where a bottom passes the reach, and then no line at all; at the reach itself it stands.
#[test]
fn the_reach() {
    let wide = page(&[]);
    let deep = |count, height, min_y| Text { height, min_y, ..words(&vec![MOST; count]) };
    sets(&wide, &deep(1, MOST, MOST), &[(0.0, MOST, 0, 1)]);
    refuses(&wide, &deep(2, MOST, MOST), 6);
    sets(&wide, &deep(2, MOST, 0.0), &[(0.0, 0.0, 0, 1), (0.0, MOST, 1, 1)]);
    refuses(&wide, &deep(3, MOST, 0.0), 6);
    refuses(&wide, &deep(2, MOST, 1.0), 6);
    refuses(&wide, &deep(500, MOST, -MOST), 6);
    // a line moved to it: the bottom is rounded
    let tall = page(&[at(LEFT, 1.0, MOST, MOST)]);
    let below = |height| Text { height, min_y: MOST, ..words(&[101.0]) };
    for height in [0.004, 0.007_812_5] {
        sets(&tall, &below(height), &[(0.0, REACH, 0, 1)]);
    }
    refuses(&tall, &below(0.007_812_5f32.next_up()), 6);
    refuses(&tall, &below(1.0), 6);
}

/// 512 words, each on a line of its own; no word, no line.
#[test]
fn most_and_none() {
    let lines: Vec<Told> = (0..512).map(|number| (0.0, 10.0 * number as f32, number, 1)).collect();
    sets(&page(&[]), &words(&[100.0; 512]), &lines);
    sets(&page(&[]), &Text { gap: 0.0, ..words(&[0.0; 512]) }, &[(0.0, 0.0, 0, 512)]);
    sets(&two_sides(), &words(&[]), &[]);
    sets(&[], &Text { height: MOST, min_y: MOST, gap: MOST, insets: [MOST, MOST], ..words(&[]) }, &[]);
}

/// A minus zero is read as plus zero.
#[test]
fn minus_zero() {
    let zeros = Text { words: vec![-0.0, -0.0], gap: -0.0, height: 10.0, min_y: -0.0, insets: [-0.0, -0.0] };
    sets(&[], &zeros, &[(0.0, 0.0, 0, 2)]);
    sets(&two_sides(), &zeros, &[(10.0, 0.0, 0, 2)]);
}

/// A height that the sum swallows: the next line has the same top, and a band that begins there is not touched.
#[test]
fn swallowed() {
    let small = |height, min_y| Text { height, min_y, ..words(&[60.0, 60.0]) };
    sets(&page(&[]), &small(0.003, MOST), &[(0.0, MOST, 0, 1), (0.0, MOST, 1, 1)]);
    sets(&page(&[]), &small(1.0e-45, -7.0), &[(0.0, -7.0, 0, 1), (0.0, -7.0, 1, 1)]);
    let boxed = |top| page(&[at(LEFT, 10.0, 40.0, top)]);
    sets(&boxed(65_520.0), &small(0.003, MOST), &[(10.0, MOST, 0, 1), (10.0, MOST, 1, 1)]);
    sets(&boxed(MOST), &small(0.003, MOST), &[(0.0, MOST, 0, 1), (0.0, MOST, 1, 1)]);
    let wide = |top| page(&[at(LEFT, 50.0, 40.0, top)]);
    sets(&wide(65_520.0), &small(0.003, MOST), &[(0.0, 65_560.0, 0, 1), (0.0, 65_560.0, 1, 1)]);
}

/// The page is the one after the tape, whatever else was asked, refused or begun anew on it.
#[test]
fn after_the_tape() {
    let text = words(&[90.0]);
    let others = [plain(2, 9.0, 9.0), Width(5.0), plain(LEFT, f32::NAN, 9.0), Record::Result];
    sets(&[&page(&[plain(LEFT, 10.0, 30.0)])[..], &others].concat(), &text, &[(10.0, 0.0, 0, 1)]);
    sets(&[&two_sides()[..], &[New, Width(95.0)], &[plain(LEFT, 5.0, 30.0)]].concat(), &text, &[(5.0, 0.0, 0, 1)]);
    sets(&[&two_sides()[..], &[New]].concat(), &text, &[(0.0, 0.0, 0, 1)]);
    let clearing = Record::Place { side: RIGHT, clear: 1, width: 10.0, height: 5.0, min_y: 0.0, insets: [0.0, 0.0] };
    sets(&page(&[plain(LEFT, 20.0, 30.0), clearing]), &text, &[(0.0, 30.0, 0, 1)]);
    sets(&page(&[plain(LEFT, 20.0, 30.0), clearing]), &words(&[91.0]), &[(0.0, 35.0, 0, 1)]);
}

/// A tape that stops says so and no more, before a text that is not whole; that too comes before every refusal.
#[test]
fn stops() {
    let page = bytes(&two_sides());
    let [good, bad] = [words(&[1.0, 2.0]), words(&[f32::NAN])].map(|text| text.bytes());
    let whole: [&[u8]; 2] = [&good, &bad];
    let not_whole = whole.iter().flat_map(|text| {
        let cuts = (0..text.len()).map(|length| text[..length].to_vec());
        cuts.chain((1..10).map(|more| [*text, &vec![0; more]].concat()))
    });
    let not_whole: Vec<Vec<u8>> = not_whole.collect();
    not_whole.iter().for_each(|text| prints(&page, text, "T 0\n"));
    for text in whole.into_iter().chain(not_whole.iter().map(|text| &text[..])) {
        prints(&[&page[..], &[8]].concat(), text, &format!("T {}\n", page.len()));
        prints(&page[..page.len() - 1], text, "T 28\n");
        prints(&[255], text, "T 0\n");
        prints(&[7; LONGEST + 1], text, "L\n");
    }
    let mut long = bytes(&two_sides());
    long.resize(LONGEST, 7);
    prints(&long, &words(&[70.0]).bytes(), "L 41200000 00000000 0 1\n");
    long[LONGEST - 1] = 8;
    prints(&long, &words(&[70.0]).bytes(), "T 65535\n");
    prints(&of_every_kind(), &words(&[]).bytes(), "");
}

/// A count that says more or fewer words than there are, by any amount.
#[test]
fn counts() {
    let text = words(&[1.0; 300]).bytes();
    for count in (0..=65_535).filter(|count| *count != 300) {
        let other = [&u16::to_le_bytes(count)[..], &text[2..]].concat();
        for (who, set) in sources() {
            let mut room = [0; 9];
            assert_eq!((set(&[], &other, &mut room), &room[..4]), (4, &b"T 0\n"[..]), "{who}, count {count}");
        }
    }
}

/// Each sample text, set on the page of the tape beside it, gives the lines beside it.
#[test]
fn sample_texts() {
    let examples = Path::new(env!("CARGO_MANIFEST_DIR")).join("../examples");
    let paths = std::fs::read_dir(examples).unwrap().map(|entry| entry.unwrap().path());
    let texts: Vec<PathBuf> = paths.filter(|path| path.extension().is_some_and(|ending| ending == "words")).collect();
    assert!(!texts.is_empty(), "examples/ has no text");
    for text in texts {
        let [tape, text, lines] = [text.with_extension("tape"), text.clone(), text.with_extension("words.lines")]
            .map(|path| std::fs::read(path).unwrap());
        prints(&tape, &text, &String::from_utf8(lines).unwrap());
    }
}

#[cfg(has_panel)]
#[test]
fn nothing_at_null() {
    assert_eq!(archive::set_on_nothing(&[]), -13);
    assert_eq!(archive::set_on_nothing(&words(&[]).bytes()), 0);
    assert_eq!(archive::set_on_nothing(&words(&[1.0]).bytes()), -13);
}
