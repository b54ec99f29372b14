//! The sample of tapes whose answers by the crate are stored: the paper's examples, the corners, and some of every random kind.

use crate::judge;
use crate::random::Random;
use crate::stored::Pair;
use crate::tape::{bytes, Record, NONE};
use crate::tapes::{self, plain};

/// Document 01's examples, then the places where the crate and CSS part.
fn known() -> Vec<Vec<Record>> {
    let wide = Record::Width(100.0);
    let at = |side, width, height, min_y| Record::Place { side, clear: 0, width, height, min_y, insets: [0.0, 0.0] };
    let within = |width, height, insets| Record::Place { side: 0, clear: 0, width, height, min_y: 0.0, insets };
    let content = |min_y, clear| Record::Content { min_y, insets: [0.0, 0.0], clear, after: NONE };
    let cleared = Record::Place { side: 0, clear: 1, width: 10.0, height: 5.0, min_y: 0.0, insets: [0.0, 0.0] };
    let beyond = f32::from_bits(65_536f32.to_bits() + 1);
    let odd =
        Record::Place { side: 1, clear: 0, width: 13.90625, height: 5.0, min_y: 7.796875, insets: [0.0, 18.609375] };
    vec![
        vec![wide, plain(0, 10.0, 30.0), content(0.0, 0)],
        vec![wide, plain(0, 10.0, 10.0), plain(1, 10.0, 30.0), cleared],
        vec![wide, plain(0, 100.0, 10.0), plain(0, 50.0, 0.0)],
        vec![
            wide,
            plain(0, 10.0, 30.0),
            within(10.0, 60.0, [0.0, 60.0]),
            plain(0, 10.0, 10.0),
            plain(1, 5.0, 20.0),
            plain(0, 20.0, 45.0),
            content(56.0, 0),
        ],
        vec![wide, at(0, 50.0, 0.0, 20.0), content(0.0, 1)],
        vec![wide, plain(0, 60.0, 10.0), plain(0, 40.0005, 10.0)],
        vec![wide, plain(0, 60.0, 10.0), plain(0, 40.01, 10.0)],
        vec![Record::Width(65_536.0), Record::Width(beyond), plain(0, f32::NAN, -1.0)],
        vec![],
        vec![wide, plain(0, 48.0, 15.0), plain(1, 65.0, 0.0)],
        vec![wide, within(41.0, 22.0, [0.0, 24.0]), odd],
        vec![wide, plain(0, 0.0, 20.0), content(0.0, 0), plain(1, 100.0, 5.0)],
        vec![wide, at(0, 10.0, 1.0e-40, 100.0), at(1, 10.0, 5.0, 100.0), content(100.0, 0)],
    ]
}

/// The tapes with their lines, the same in every run.
pub fn sample() -> Vec<Pair> {
    let mut random = Random(6);
    let mut all: Vec<Vec<u8>> = known().iter().map(|records| bytes(records)).collect();
    for _ in 0..8 {
        all.push(bytes(&tapes::many_bands(&mut random)));
    }
    for kind in [tapes::on_a_grid, tapes::on_a_grid, tapes::wild, tapes::deep, tapes::calculators, tapes::mixed] {
        for _ in 0..160 {
            let mut records = kind(&mut random);
            records.truncate(4 + random.below(10));
            all.push(bytes(&records));
        }
    }
    for _ in 0..120 {
        let mut damaged = tapes::of_every_kind();
        let at = random.below(damaged.len());
        damaged[at] = random.next() as u8;
        all.push(damaged);
        all.push(tapes::any_bytes(&mut random));
    }
    // the page on which the refusals 4 to 7 hold together
    all.extend(tapes::faults(tapes::troubled_pages().last().unwrap(), 1));
    let answered = |tape: Vec<u8>| {
        let lines = judge::lines(&tape);
        (tape, lines)
    };
    all.into_iter().map(answered).collect()
}
