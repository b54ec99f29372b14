//! How deep the page is, in fixed cases: by the archive where it is linked, and by the account and the bench's Rust program where the crate
//! is at hand.

use host::archive::{self, Depth, NO_BOX};
use host::tape::{bytes, Record, LONGEST, NONE};
use host::tapes::{self, at, plain};
use Record::{New, Width};

const LEFT: u8 = 0;
const RIGHT: u8 = 1;

/// Who answers.
fn sources() -> Vec<(&'static str, Depth)> {
    let archive = archive::depth().map(|ask| ("archive", ask));
    #[cfg(has_taffy)]
    let beside: [(&str, Depth); 2] =
        [("account", host::judge::depth), ("crate", |tape| host::job::depth(tape, &mut []))];
    #[cfg(not(has_taffy))]
    let beside = [];
    archive.into_iter().chain(beside).collect()
}

fn answers(tape: &[u8], told: i64) {
    for (who, ask) in sources() {
        let answered = ask(tape);
        assert_eq!(answered, told, "{who}, of\n{}", host::tape::text(&tape[..tape.len().min(999)]));
    }
}

/// After these records the page is so deep.
fn deep(records: &[Record], depth: f32) {
    answers(&bytes(records), depth.to_bits().into());
}

/// After these records no box was accepted.
fn none(records: &[Record]) {
    answers(&bytes(records), NO_BOX);
}

/// The pages of document 01's examples 1 to 9, box by box.
#[test]
fn marked_examples() {
    let page = |boxes: &[Record], depths: &[f32]| {
        for (count, depth) in depths.iter().enumerate() {
            deep(&[&[Width(100.0)], &boxes[..=count]].concat(), *depth);
        }
        assert_eq!(boxes.len(), depths.len());
    };
    let clearing = Record::Place { side: LEFT, clear: 1, width: 10.0, height: 5.0, min_y: 0.0, insets: [0.0, 0.0] };
    page(&[plain(LEFT, 10.0, 10.0), plain(RIGHT, 10.0, 30.0), clearing], &[10.0, 30.0, 30.0]);
    page(&[plain(LEFT, 100.0, 10.0), plain(LEFT, 50.0, 0.0)], &[10.0, 10.0]);
    let within = Record::Place { side: LEFT, clear: 0, width: 10.0, height: 60.0, min_y: 0.0, insets: [0.0, 60.0] };
    let five =
        [plain(LEFT, 10.0, 30.0), within, plain(LEFT, 10.0, 10.0), plain(RIGHT, 5.0, 20.0), plain(LEFT, 20.0, 45.0)];
    page(&five, &[30.0, 60.0, 60.0, 60.0, 60.0]);
    page(&[at(LEFT, 50.0, 0.0, 20.0)], &[20.0]);
}

/// No box at all, and none that was accepted.
#[test]
fn no_box() {
    none(&[]);
    none(&[New, Width(100.0), New]);
    none(&[Width(100.0), Record::Content { min_y: 50.0, insets: [0.0, 0.0], clear: 0, after: NONE }]);
    none(&[plain(2, 1.0, 1.0), plain(LEFT, f32::NAN, 1.0), plain(LEFT, 1.0, -1.0), at(LEFT, 1.0, 1.0, 65_537.0)]);
    none(&[Width(100.0), plain(LEFT, 10.0, 10.0), New]);
    none(&[plain(LEFT, 10.0, 10.0), New, plain(2, 10.0, 10.0)]);
}

/// A box of no height counts, wherever it stands; so does one of no width.
#[test]
fn boxes_of_no_height() {
    deep(&[plain(LEFT, 0.0, 0.0)], 0.0);
    deep(&[Width(100.0), plain(LEFT, 10.0, 20.0), at(RIGHT, 10.0, 0.0, 50.0)], 50.0);
    deep(&[Width(100.0), at(RIGHT, 10.0, 0.0, 50.0), at(RIGHT, 0.0, 5.0, 10.0)], 55.0);
    deep(&[Width(100.0), plain(LEFT, 10.0, 20.0), at(RIGHT, 10.0, 0.0, 15.0)], 20.0);
}

/// The largest, and neither the last nor the first, nor that of one side.
#[test]
fn the_largest() {
    let tall = plain(LEFT, 10.0, 80.0);
    deep(&[Width(100.0), plain(RIGHT, 10.0, 20.0), tall, plain(RIGHT, 10.0, 40.0)], 80.0);
    deep(&[Width(100.0), tall, plain(LEFT, 10.0, 20.0)], 80.0);
    deep(&[Width(100.0), tall, at(LEFT, 10.0, 20.0, 70.0)], 90.0);
    deep(&[Width(100.0), tall, plain(LEFT, 95.0, 1.0)], 81.0);
}

/// A page above 0: the bits have the sign. A box that ends at 0 gives the plus zero.
#[test]
fn above_zero() {
    deep(&[at(LEFT, 10.0, 20.0, -50.0)], -30.0);
    deep(&[at(LEFT, 10.0, 20.0, -50.0), at(RIGHT, 10.0, 0.0, -40.0)], -30.0);
    deep(&[at(LEFT, 10.0, 20.0, -50.0), at(RIGHT, 10.0, 5.0, -30.0)], -25.0);
    deep(&[at(LEFT, 10.0, 0.0, -65_536.0)], -65_536.0);
    deep(&[at(LEFT, 10.0, 1.0e-45, -65_536.0)], -65_536.0);
    deep(&[at(LEFT, 10.0, 50.0, -50.0)], 0.0);
    deep(&[at(LEFT, 10.0, 0.0, -0.0)], 0.0);
    answers(&bytes(&[at(LEFT, 1.0, 1.0, -2.0)]), 0xBF80_0000);
}

/// What a refused call leaves as it was: a box that is refused with any number, a width that comes too late.
#[test]
fn refused() {
    let page = [Width(100.0), plain(LEFT, 10.0, 20.0)];
    let also = |more: &[Record], depth: f32| deep(&[&page, more].concat(), depth);
    also(&[Width(50.0)], 20.0);
    also(&[plain(2, 10.0, 90.0), plain(LEFT, 10.0, f32::INFINITY), plain(LEFT, 10.0, 65_536.01)], 20.0);
    // 5: the 65th box
    let full: Vec<Record> = (0..63).map(|_| plain(RIGHT, 0.0, 0.0)).collect();
    also(&[&full[..], &[plain(LEFT, 1.0, 90.0), at(LEFT, 1.0, 0.0, 90.0)]].concat(), 20.0);
    // 6: the reach itself is accepted, and nothing below it
    let below = |height| Record::Place { side: LEFT, clear: 1, width: 1.0, height, min_y: 0.0, insets: [0.0, 0.0] };
    let tall = at(LEFT, 1.0, 65_000.0, 65_536.0);
    also(&[tall, below(536.5), Width(50.0)], 130_536.0);
    also(&[tall, below(536.0), below(1.0)], 131_072.0);
    // 7: a 97th band
    let thin = (0..47).map(|number| at(RIGHT, 1.0, 5.0, 110.0 + 20.0 * number as f32));
    let banded: Vec<Record> = [Width(100.0), at(LEFT, 1.0, 5_000.0, 100.0)].into_iter().chain(thin).collect();
    deep(&banded, 5_100.0);
    deep(&[&banded[..], &[at(RIGHT, 1.0, 5.0, 5_200.0)]].concat(), 5_100.0);
    deep(&[&banded[..], &[at(RIGHT, 1.0, 0.0, 5_200.0)]].concat(), 5_200.0);
}

/// A fresh page forgets the old one's depth.
#[test]
fn a_fresh_page() {
    let old = [Width(100.0), plain(LEFT, 10.0, 80.0)];
    deep(&[&old[..], &[New, plain(RIGHT, 5.0, 7.0)]].concat(), 7.0);
    deep(&[&old[..], &[New, at(RIGHT, 5.0, 7.0, -90.0)]].concat(), -83.0);
    none(&[&old[..], &[New]].concat());
}

/// Questions, calculators and refused records leave it.
#[test]
fn other_records() {
    let (all, _) = host::tape::records(&tapes::of_every_kind());
    let others = all.into_iter().filter(|record| !matches!(record, New | Record::Place { .. }));
    let others: Vec<Record> = others.collect();
    none(&others);
    deep(&[&[plain(LEFT, 10.0, 20.0)], &others[..]].concat(), 20.0);
}

/// Sums that round: to nearest, to even, and not at all where the height is lost.
#[test]
fn rounded() {
    deep(&[at(LEFT, 1.0, 0.1, 0.2)], 0.2 + 0.1);
    answers(&bytes(&[at(LEFT, 1.0, 0.1, 0.2)]), 0x3E99_999A);
    deep(&[at(LEFT, 1.0, 0.001, 65_536.0)], 65_536.0);
    deep(&[at(LEFT, 1.0, 0.003_906_25, 65_536.0)], 65_536.0);
    deep(&[at(LEFT, 1.0, 0.003_907, 65_536.0)], 65_536.007_812_5);
    deep(&[at(LEFT, 1.0, 0.011_718_75, 65_536.0)], 65_536.015_625);
    deep(&[at(LEFT, 1.0, 1.0e-45, 0.0)], 1.0e-45);
    deep(&[at(LEFT, 1.0, 1.0e-45, -1.0)], -1.0);
    // of two that round to one bottom it is that one
    deep(&[at(LEFT, 1.0, 0.001, 65_536.0), at(RIGHT, 1.0, 0.003, 65_536.0)], 65_536.0);
}

/// Off whole 64ths a bottom may round past the end of the crate's last band, which the counted height has reached.
#[cfg(has_taffy)]
#[test]
fn below_the_last_band() {
    let page = [Width(100.0), at(LEFT, 10.0, 4.0, -3.0), at(LEFT, 10.0, 2.4, -1.4)];
    deep(&page, 1.0f32.next_up());
    let mut judge = host::judge::Judge::default();
    page.iter().for_each(|record| _ = judge.answer(record));
    assert_eq!(judge.page.bands().last().map(|band| band.end), Some(1.0));
}

/// A tape as far as it runs: to a body that is cut, to an unknown kind, to its last byte; not at all where it is too long.
#[test]
fn as_far_as_it_runs() {
    let page = [Width(100.0), plain(LEFT, 10.0, 20.0), plain(RIGHT, 10.0, 30.0)];
    let [width, first, tape] = [1, 2, 3].map(|count| bytes(&page[..count]));
    let bits = |depth: f32| i64::from(depth.to_bits());
    for length in 0..=tape.len() {
        let told = match length {
            length if length < first.len() => NO_BOX,
            length if length < tape.len() => bits(20.0),
            _ => bits(30.0),
        };
        answers(&tape[..length], told);
    }
    answers(&[&width[..], &[8], &tape[width.len()..]].concat(), NO_BOX);
    answers(&[&first[..], &[255], &tape[first.len()..]].concat(), bits(20.0));
    let mut long = tape.clone();
    long.resize(LONGEST, 7);
    answers(&long, bits(30.0));
    long.push(7);
    answers(&long, NO_BOX);
    answers(&bytes(&page).repeat(2_000), NO_BOX);
}

#[cfg(has_panel)]
#[test]
fn nothing_at_null() {
    assert_eq!(archive::depth_of_nothing(), NO_BOX);
}
