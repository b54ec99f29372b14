//! Which box stands innermost, in fixed cases: by the archive where it is linked, and by the account where the crate is at hand.

use host::archive::{self, Innermost, NO_BOX, UNKNOWN_SIDE};
use host::tape::{bytes, Record, LONGEST};
use host::tapes::{self, at, plain};
use Record::{New, Width};

const LEFT: u8 = 0;
const RIGHT: u8 = 1;
/// No box, in the tables.
const NONE: i64 = NO_BOX;

/// Who answers.
fn sources() -> Vec<(&'static str, Innermost)> {
    let archive = archive::innermost().map(|ask| ("archive", ask));
    #[cfg(has_taffy)]
    let account = Some(("account", host::judge::innermost as Innermost));
    #[cfg(not(has_taffy))]
    let account = None;
    archive.into_iter().chain(account).collect()
}

fn answers(tape: &[u8], band: usize, side: u8, told: i64) {
    for (who, ask) in sources() {
        let answered = ask(tape, band, side);
        assert_eq!(
            answered,
            told,
            "{who}, band {band}, side {side}, of\n{}",
            host::tape::text(&tape[..tape.len().min(999)])
        );
    }
}

/// The left and the right number of each band of a page, and none in the bands after the last.
fn numbers(tape: &[u8], told: &[[i64; 2]]) {
    let after = [NONE; 2];
    for (band, numbers) in told.iter().chain([&after]).enumerate() {
        answers(tape, band, LEFT, numbers[0]);
        answers(tape, band, RIGHT, numbers[1]);
    }
    for band in [95, 96, 97, 255, 256, 65_535, 65_536, 65_537, 1 << 32, (1 << 32) + 1, usize::MAX - 1, usize::MAX] {
        answers(tape, band, LEFT, NONE);
        answers(tape, band, RIGHT, NONE);
    }
}

fn within(side: u8, width: f32, height: f32, insets: [f32; 2]) -> Record {
    Record::Place { side, clear: 0, width, height, min_y: 0.0, insets }
}

/// The pages of document 01's examples 1 to 9, box by box.
#[test]
fn marked_examples() {
    let page = |boxes: &[Record], told: &[[i64; 2]]| numbers(&bytes(&[&[Width(100.0)], boxes].concat()), told);
    let clearing = Record::Place { side: LEFT, clear: 1, width: 10.0, height: 5.0, min_y: 0.0, insets: [0.0, 0.0] };
    let three = [plain(LEFT, 10.0, 10.0), plain(RIGHT, 10.0, 30.0), clearing];
    page(&three[..1], &[[NONE, NONE], [0, NONE]]);
    page(&three[..2], &[[NONE, NONE], [0, 1], [NONE, 1]]);
    page(&three, &[[NONE, NONE], [0, 1], [2, 1], [NONE, 1]]);
    page(&[plain(LEFT, 100.0, 10.0), plain(LEFT, 50.0, 0.0)], &[[NONE, NONE], [0, NONE]]);
    let five = [
        plain(LEFT, 10.0, 30.0),
        within(LEFT, 10.0, 60.0, [0.0, 60.0]),
        plain(LEFT, 10.0, 10.0),
        plain(RIGHT, 5.0, 20.0),
        plain(LEFT, 20.0, 45.0),
    ];
    page(&five[..2], &[[NONE, NONE], [1, NONE], [1, NONE]]);
    page(&five[..3], &[[NONE, NONE], [2, NONE], [1, NONE], [1, NONE]]);
    page(&five[..4], &[[NONE, NONE], [2, 3], [1, 3], [1, NONE], [1, NONE]]);
    page(&five, &[[NONE, NONE], [2, 3], [4, 3], [4, NONE], [4, NONE]]);
    page(&[at(LEFT, 50.0, 0.0, 20.0)], &[]);
}

/// Boxes of no height and of no width, and refused ones; a gap; a fresh page; what else a tape may hold.
#[test]
fn what_counts() {
    let refused = [plain(2, 1.0, 1.0), plain(LEFT, -1.0, 1.0), plain(LEFT, f32::NAN, 1.0)];
    let page = [
        Width(100.0),
        plain(RIGHT, 10.0, 0.0),
        refused[0],
        plain(LEFT, 10.0, 20.0),
        refused[1],
        plain(LEFT, 0.0, 10.0),
        refused[2],
        at(RIGHT, 10.0, 5.0, 50.0),
    ];
    let told = [[NONE, NONE], [2, NONE], [1, NONE], [NONE, NONE], [NONE, 3]];
    numbers(&bytes(&page), &told);
    let fresh = [&page[..], &[New], &page[5..]].concat();
    numbers(&bytes(&fresh), &[[NONE, NONE], [0, NONE], [NONE, NONE], [NONE, 1]]);
    numbers(&bytes(&[&page[..], &[New]].concat()), &[]);
    // questions, a width that comes too late, a calculator
    let others = tape_without_page();
    numbers(&[bytes(&page), others.clone()].concat(), &told);
    numbers(&others, &[]);
    // the 64th box, and the 65th
    let full: Vec<Record> = (0..65).map(|number| plain(number % 2, 0.0, 1.0)).collect();
    numbers(&bytes(&full), &[[NONE, NONE], [62, 63]]);
}

/// Records of every other kind.
fn tape_without_page() -> Vec<u8> {
    let tape = tapes::of_every_kind();
    let (records, _) = host::tape::records(&tape);
    let others = records.into_iter().filter(|record| !matches!(record, New | Width(_) | Record::Place { .. }));
    bytes(&others.collect::<Vec<Record>>())
}

/// Every byte that is no side, on any tape; and it is looked at first.
#[test]
fn unknown_sides() {
    let page = bytes(&[Width(100.0), plain(LEFT, 10.0, 10.0)]);
    let cut = &page[..page.len() - 1];
    for side in 2..=255 {
        for tape in [&[][..], &page, cut, &[8], &[7; LONGEST + 1]] {
            for band in [0, 1, 2, usize::MAX] {
                answers(tape, band, side, UNKNOWN_SIDE);
            }
        }
    }
}

/// A tape as far as it runs: to a body that is cut, to an unknown kind, to its last byte; not at all where it is too long.
#[test]
fn as_far_as_it_runs() {
    let page = [Width(100.0), plain(LEFT, 10.0, 20.0), plain(RIGHT, 10.0, 10.0)];
    let [first, tape] = [2, 3].map(|count| bytes(&page[..count]));
    let told = [[NONE, NONE], [0, 1], [0, NONE]];
    numbers(&tape, &told);
    for length in first.len()..tape.len() {
        numbers(&tape[..length], &[[NONE, NONE], [0, NONE]]);
    }
    for length in 0..first.len() {
        numbers(&tape[..length], &[]);
    }
    numbers(&[&first[..], &[8], &tape[first.len()..]].concat(), &[[NONE, NONE], [0, NONE]]);
    let mut long = tape.clone();
    long.resize(LONGEST, 7);
    numbers(&long, &told);
    long.push(7);
    numbers(&long, &[]);
    numbers(&[], &[]);
}

#[cfg(has_panel)]
#[test]
fn nothing_at_null() {
    for (band, side) in [(0, LEFT), (0, RIGHT), (usize::MAX, LEFT)] {
        assert_eq!(archive::innermost_of_nothing(band, side), NO_BOX);
    }
    assert_eq!(archive::innermost_of_nothing(0, 2), UNKNOWN_SIDE);
}
