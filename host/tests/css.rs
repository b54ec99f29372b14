//! The crate, asked as the judge asks it, beside the text of CSS 2.2, 9.5.1 and 9.5.2: every small page on which docs/DIFFERENCES.md says that
//! they agree, and each input on which it says that they part, or that crate and module do.
#![cfg(has_taffy)]

use host::archive;
use host::float_counted::FloatContext;
use host::judge::{self, Answer, Judge};
use host::raised::Asking;
use host::tape::{bytes, Record, NONE};
use host::tapes::{at, plain as put};
use host::{Clear, FloatDirection, Size};

/// A box to be placed; lead is the inset of its container on its own side, the other one is 0.
#[derive(Clone, Copy, Debug)]
struct Box {
    side: usize,
    clear: usize,
    width: f32,
    height: f32,
    min_y: f32,
    lead: f32,
}

/// A placed box: how far its near and its far edge are from each side of the page.
#[derive(Clone, Copy, Debug)]
struct Placed {
    side: usize,
    edges: [[f32; 2]; 2],
    top: f32,
    bottom: f32,
}

const PAGE: f32 = 4.0;

/// The inset and the top that rules 1, 2, 3, 5, 7, 8 and 9 ask for, by their letter; and clear, that of 9.5.2.
fn by_the_rules(earlier: &[Placed], new: &Box) -> (f32, f32) {
    // left is 1, right is 2, both is 3
    let cleared = |one: &Placed| new.clear & (1 << one.side) != 0;
    let least = |one: &Placed| if cleared(one) { one.bottom } else { one.top };
    let first = earlier.iter().fold(new.min_y, |top, one| top.max(least(one)));
    let mut tops: Vec<f32> = earlier.iter().map(|one| one.bottom).filter(|bottom| *bottom > first).collect();
    tops.push(first);
    tops.sort_by(f32::total_cmp);
    let fits = |top: f32| {
        let of_its_side = || earlier.iter().filter(|one| one.side == new.side && one.bottom > top);
        let inset = of_its_side().fold(new.lead, |inset, one| inset.max(one.edges[new.side][1]));
        let far = inset + new.width;
        let sticks_out = of_its_side().next().is_some() && far > PAGE;
        let beside = |one: &&Placed| one.side != new.side && one.top < top + new.height && top < one.bottom;
        let blocked = earlier.iter().filter(beside).any(|one| far > one.edges[new.side][0]);
        (!sticks_out && !blocked).then_some((inset, top))
    };
    tops.into_iter().find_map(fits).expect("below all boxes there is room")
}

/// Every page that goes on from this one with up to `more` boxes.
fn pages(boxes: &[Box], page: &FloatContext, earlier: &mut Vec<Placed>, given: &mut Vec<Box>, more: usize) -> u64 {
    let mut count = 0;
    for new in boxes {
        if given.is_empty() && new.side == 1 {
            continue;
        }
        let mut after = page.clone();
        let side = [FloatDirection::Left, FloatDirection::Right][new.side];
        let mut insets = [0.0, 0.0];
        insets[new.side] = new.lead;
        let size = Size { width: new.width, height: new.height };
        let min_y = page.raised(new.min_y, [Clear::None, Clear::Left, Clear::Right, Clear::Both][new.clear]);
        let at = after.place_floated_box(size, min_y, insets, side, Clear::None);
        let inset = if new.side == 0 { at.x } else { PAGE - at.x - new.width };
        given.push(*new);
        assert_eq!((inset, at.y), by_the_rules(earlier, new), "{given:?}");
        count += 1;
        if more > 1 {
            let mut edges = [[inset, inset + new.width], [PAGE - inset - new.width, PAGE - inset]];
            if new.side == 1 {
                edges.swap(0, 1);
            }
            earlier.push(Placed { side: new.side, edges, top: at.y, bottom: at.y + new.height });
            count += pages(boxes, &after, earlier, given, more - 1);
            earlier.pop();
        }
        given.pop();
    }
    count
}

fn all_pages(clears: usize, widths: &[f32], leads: &[f32], boxes: usize) -> u64 {
    let mut all = Vec::new();
    for side in 0..2 {
        for clear in 0..clears {
            for width in widths {
                for height in [1.0, 2.0, 3.0] {
                    for min_y in [0.0, 1.0] {
                        let with = |lead: &f32| Box { side, clear, width: *width, height, min_y, lead: *lead };
                        all.extend(leads.iter().map(with));
                    }
                }
            }
        }
    }
    let mut page = FloatContext::new();
    page.set_width(PAGE);
    pages(&all, &page, &mut Vec::new(), &mut Vec::new(), boxes)
}

#[test]
fn small_pages_agree() {
    assert_eq!(all_pages(1, &[1.0, 2.0, 3.0, 4.0, 5.0], &[0.0, 1.0, 2.0, 3.0], 3), 6_940_920);
    assert_eq!(all_pages(1, &[1.0, 2.0, 3.0, 5.0], &[0.0], 4), 2_710_680);
    assert_eq!(all_pages(4, &[1.0, 2.0, 3.0, 5.0], &[0.0], 3), 3_557_472);
}

fn within(side: u8, width: f32, height: f32, left: f32, right: f32) -> Record {
    Record::Place { side, clear: 0, width, height, min_y: 0.0, insets: [left, right] }
}

fn content(min_y: f32, clear: u8, after: u16) -> Record {
    Record::Content { min_y, insets: [0.0, 0.0], clear, after }
}

fn bfc(left_margin: f32, clear: u8) -> Record {
    let margins = [left_margin, 0.0];
    Record::Bfc { min_y: 0.0, insets: [0.0, 0.0], margins, direction: 0, clear, after: NONE }
}

/// The last answer on a page of this width, by the crate asked so; asked as the judge does, it is the archive's.
fn last_answer(asking: Asking, width: f32, records: &[Record]) -> Answer {
    let records = [&[Record::Width(width)], records].concat();
    if let (Some(run), Asking::Raised) = (archive::panel(), asking) {
        let tape = bytes(&records);
        assert_eq!(archive::answered(run, &tape), judge::lines(&tape), "{records:?}");
    }
    let mut judge = Judge::asking(asking);
    records.iter().map(|record| judge.answer(record)).last().unwrap()
}

/// x, y, and the width of a slot: the same by the crate as it is.
fn last(width: f32, records: &[Record]) -> (f32, f32, Option<f32>) {
    let [answer, as_it_is] = [Asking::Raised, Asking::AsItIs].map(|asking| last_answer(asking, width, records));
    assert_eq!(answer, as_it_is, "{records:?}");
    match answer {
        Answer::Placed { x, y, .. } => (x, y, None),
        Answer::Content { x, y, width, .. } => (x, y, Some(width)),
        Answer::Bfc { x, y, border, .. } => (x, y, Some(border)),
        other => panic!("{other:?}"),
    }
}

#[test]
fn listed_inputs() {
    let (l, r) = (0, 1);
    let left_50 = within(l, 10.0, 10.0, 0.0, 50.0);
    let seven = [
        put(l, 10.0, 30.0),
        within(l, 10.0, 60.0, 0.0, 60.0),
        put(l, 10.0, 10.0),
        put(r, 5.0, 20.0),
        put(l, 20.0, 45.0),
    ];
    let nine = [
        put(l, 1.0, 4.0),
        within(l, 1.0, 6.0, 0.0, 2.0),
        within(l, 1.0, 7.0, 0.0, 3.0),
        put(l, 1.0, 1.0),
        put(r, 1.0, 2.0),
        put(l, 1.0, 5.0),
    ];
    let after = |page: &[Record], record| [page, &[record]].concat();
    let none = NONE;
    let listed: Vec<(u32, f32, Vec<Record>, (f32, f32, Option<f32>))> = vec![
        (4, 100.0, vec![left_50, put(r, 10.0, 5.0)], (40.0, 0.0, None)),
        (5, 100.0, vec![left_50, put(l, 45.0, 5.0)], (0.0, 10.0, None)),
        (6, 100.0, vec![within(r, 10.0, 10.0, 20.0, 0.0), within(l, 55.0, 5.0, 30.0, 20.0)], (30.0, 10.0, None)),
        (7, 100.0, vec![left_50, content(0.0, 0, none)], (10.0, 0.0, Some(40.0))),
        (7, 100.0, vec![left_50, bfc(0.0, 0)], (10.0, 0.0, Some(90.0))),
        (7, 100.0, vec![put(l, 10.0, 20.0), left_50, put(r, 10.0, 5.0)], (90.0, 0.0, None)),
        (8, 100.0, after(&seven, content(56.0, 0, none)), (40.0, 56.0, Some(0.0))),
        (9, 6.0, nine.to_vec(), (0.0, 7.0, None)),
        (10, 100.0, vec![put(l, 60.0, 10.0), put(l, 40.0005, 10.0)], (60.0, 0.0, None)),
        (10, 65_536.0, vec![put(l, 32_768.0, 10.0), put(l, 32_768.004, 10.0)], (32_768.0, 0.0, None)),
        (11, 100.0, vec![put(l, 60.0, 10.0), put(r, 40.0005, 10.0)], (59.9995, 0.0, None)),
        (
            12,
            100.0,
            vec![put(l, 10.0, 100.0), at(r, 10.0, 1.0e-6, 50.0), content(60.0, 0, none)],
            (10.0, 60.0, Some(80.0)),
        ),
        (13, 100.0, vec![put(l, 10.0, 10.0), content(0.0, 0, 1)], (0.0, 0.0, Some(100.0))),
        (14, 100.0, vec![put(l, 100.0, 10.0), put(l, 50.0, 0.0)], (0.0, 0.0, None)),
        (15, 100.0, vec![put(l, 48.0, 15.0), put(r, 65.0, 0.0)], (35.0, 0.0, None)),
        (16, 100.0, vec![put(l, 60.0, 10.0), put(l, 50.0, 0.0), put(l, 10.0, 5.0)], (60.0, 0.0, None)),
        (17, 100.0, vec![at(l, 50.0, 0.0, 20.0), content(0.0, 1, none)], (0.0, 0.0, Some(100.0))),
        (18, 100.0, vec![put(l, 0.0, 10.0), put(l, 150.0, 5.0)], (0.0, 0.0, None)),
        (19, 100.0, vec![put(l, 0.0, 10.0), put(r, 110.0, 5.0)], (-10.0, 0.0, None)),
        (20, 100.0, vec![within(l, 0.0, 10.0, 20.0, 0.0), put(r, 90.0, 5.0)], (10.0, 10.0, None)),
        (20, 100.0, vec![put(l, 0.0, 10.0), bfc(-5.0, 0)], (0.0, 0.0, Some(100.0))),
    ];
    for (number, width, records, expected) in listed {
        assert_eq!(last(width, &records), expected, "input {number} of docs/DIFFERENCES.md");
    }
}

/// On these crate and module part: given clear, the crate goes by band numbers too, and no band is left here.
#[test]
fn inputs_that_clear() {
    let cleared = Record::Place { side: 0, clear: 1, width: 10.0, height: 5.0, min_y: 0.0, insets: [0.0, 0.0] };
    for (record, as_it_is, here) in [
        (cleared, Answer::Placed { x: 0.0, y: 30.0, steps: 0 }, Answer::Placed { x: 0.0, y: 10.0, steps: 0 }),
        (
            content(0.0, 1, NONE),
            Answer::Content { band: None, x: 0.0, y: 10.0, width: 100.0 },
            Answer::Content { band: Some(2), x: 0.0, y: 10.0, width: 90.0 },
        ),
        (
            bfc(0.0, 1),
            Answer::Bfc { band: None, x: 0.0, y: 30.0, border: 100.0, stretch: 100.0 },
            Answer::Bfc { band: Some(2), x: 0.0, y: 10.0, border: 90.0, stretch: 90.0 },
        ),
    ] {
        let page = [put(0, 10.0, 10.0), put(1, 10.0, 30.0), record];
        assert_eq!(last_answer(Asking::AsItIs, 100.0, &page), as_it_is);
        assert_eq!(last_answer(Asking::Raised, 100.0, &page), here);
    }
}
