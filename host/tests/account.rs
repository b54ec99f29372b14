//! The account of the boxes' numbers and of the depth, judged by itself: by what document 02's requests 1/14 and 3/14 say of it, over the
//! crate's own page before and after every placement.
#![cfg(has_taffy)]

use host::float_counted::{Band, FloatContext, PlacedFloatedBox};
use host::judge::{Answer, Judge};
use host::random::Random;
use host::tape::Record;
use host::tapes;
use host::Clear;

/// A band with the numbers of its boxes.
#[derive(Debug, Clone, Copy)]
struct Numbered {
    band: Band,
    numbers: [Option<usize>; 2],
}

fn numbered(judge: &Judge) -> Vec<Numbered> {
    let bands = judge.page.bands();
    assert_eq!(bands.len(), judge.account.bands().len(), "the account has other bands than the page");
    bands.into_iter().zip(judge.account.bands()).map(|(band, numbers)| Numbered { band, numbers: *numbers }).collect()
}

/// An accepted box of the page: its side, and how the crate keeps it.
type Placed = (usize, PlacedFloatedBox);

fn last_of(page: &FloatContext, side: usize) -> PlacedFloatedBox {
    [page.left_floats(), page.right_floats()][side].last().unwrap().clone()
}

/// A number stands exactly beside a mark; its box is of that side, has a height, and made the inset.
fn check_numbers(bands: &[Numbered], boxes: &[Placed]) {
    for Numbered { band, numbers } in bands {
        for side in 0..2 {
            assert_eq!(numbers[side].is_some(), band.marks[side], "{bands:?}");
            if let Some(number) = numbers[side] {
                let (of, placed) = &boxes[number];
                assert_eq!((*of, placed.x_inset + placed.width), (side, band.insets[side]), "box {number}: {bands:?}");
                assert!(placed.height > 0.0 && placed.y <= band.start, "box {number}: {bands:?}");
            }
        }
    }
}

/// What a placement may change, by heights alone: a band within an old one has the old numbers, but for the new box on its side; a band
/// below all old ones has no number but that one.
fn check_change(old: &[Numbered], new: &[Numbered], number: usize, side: usize) {
    let filled = |one: &&Numbered| one.band.start < one.band.end;
    for one in new.iter().filter(filled) {
        let within = |of: &&Numbered| of.band.start <= one.band.start && one.band.end <= of.band.end;
        let before = old.iter().filter(filled).find(within);
        let numbers = before.map_or([None; 2], |of| of.numbers);
        assert_eq!(one.numbers[1 - side], numbers[1 - side], "the other side: {old:?}, {new:?}");
        if one.numbers[side] != Some(number) {
            assert_eq!(one.numbers[side], numbers[side], "neither as before nor the new box: {old:?}, {new:?}");
            assert!(before.is_none_or(|of| of.band.insets[side] == one.band.insets[side]), "{old:?}, {new:?}");
        }
    }
    assert!(new.last().is_none_or(|last| old.len() == new.len() || last.numbers != [None; 2]), "{old:?}, {new:?}");
}

/// On whole 64ths the new box is innermost in every band over which it stands.
fn check_stands(bands: &[Numbered], number: usize, (side, placed): &Placed) {
    let bottom = placed.y + placed.height;
    for Numbered { band, numbers } in bands.iter().filter(|one| placed.y <= one.band.start && one.band.end <= bottom) {
        assert_eq!(numbers[*side], Some(number), "box {number} stands over {band:?}: {bands:?}");
    }
    let top = placed.height == 0.0 || bands.iter().any(|one| one.band.start == placed.y);
    assert!(top, "no band begins at the top of box {number}: {bands:?}");
}

/// The depth is the largest bottom, read from the crate's boxes, and the larger of the two bottoms that the crate keeps. No band ends below
/// it; on whole 64ths the last one ends where the lowest box of positive height does.
fn check_depth(judge: &Judge, boxes: &[Placed], whole_64ths: bool) {
    let lowest = |above: f32| {
        let boxes = boxes.iter().map(|(_, placed)| placed).filter(|placed| placed.height > above);
        boxes.map(|placed| placed.y + placed.height).max_by(f32::total_cmp)
    };
    let depth = judge.account.depth();
    assert_eq!(depth, lowest(-1.0), "{boxes:?}");
    assert_eq!(depth, judge.page.cleared_threshold(Clear::Both), "{boxes:?}");
    let last = judge.page.bands().last().map(|band| band.end);
    assert!(last <= depth, "{last:?} below {depth:?}: {boxes:?}");
    if whole_64ths {
        assert_eq!(last, lowest(0.0), "{boxes:?}");
    }
}

/// All of it after each record; gives the number of placements.
fn check(records: &[Record], whole_64ths: bool) -> usize {
    let mut judge = Judge::default();
    let mut boxes: Vec<Placed> = Vec::new();
    let mut placements = 0;
    for record in records {
        let old = numbered(&judge);
        let answer = judge.answer(record);
        let new = numbered(&judge);
        match (answer, record) {
            (Answer::Fresh, _) => boxes.clear(),
            (Answer::Placed { .. }, Record::Place { side, .. }) => {
                let (number, side) = (boxes.len(), usize::from(*side));
                boxes.push((side, last_of(&judge.page, side)));
                placements += 1;
                check_change(&old, &new, number, side);
                if whole_64ths {
                    check_stands(&new, number, &boxes[number]);
                }
            }
            _ => assert!(old.iter().zip(&new).all(|(old, new)| old.numbers == new.numbers), "{old:?}, {new:?}"),
        }
        assert_eq!(boxes.len(), judge.boxes());
        check_numbers(&new, &boxes);
        check_depth(&judge, &boxes, whole_64ths);
    }
    placements
}

#[test]
fn keeps_what_is_promised() {
    let kinds: [(fn(&mut Random) -> Vec<Record>, bool); 5] = [
        (tapes::on_a_grid, true),
        (tapes::wild, false),
        (tapes::deep, false),
        (tapes::many_bands, true),
        (tapes::mixed, false),
    ];
    let mut random = Random(14);
    let mut placements = 0;
    for (kind, whole_64ths) in kinds {
        for _ in 0..600 {
            placements += check(&kind(&mut random), whole_64ths);
        }
    }
    for page in tapes::troubled_pages() {
        placements += check(&page, true);
    }
    host::say(&format!("the account after {placements} placements"));
    assert!(placements > 50_000, "{placements}");
}
