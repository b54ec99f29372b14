//! The judge on document 01's own words: its tape, its twelve examples, each refusal at its edge. And the driver on archives with a fault.
#![cfg(has_taffy)]

use host::account::{returned, Account};
use host::archive::{Depth, Functions, Innermost, Runner, NO_BOX};
use host::driver::Driver;
use host::judge::{self, Answer, Judge};
use host::raised::Asking;
use host::random::Random;
use host::tape::{self, bytes, Record, LONGEST, NONE};
use host::tapes::{self, at, plain};
use Record::{New, Result as Total, Width};

const LEFT: u8 = 0;
const RIGHT: u8 = 1;

fn clearing(side: u8, width: f32, height: f32, clear: u8) -> Record {
    Record::Place { side, clear, width, height, min_y: 0.0, insets: [0.0, 0.0] }
}

fn within(side: u8, width: f32, height: f32, insets: [f32; 2]) -> Record {
    Record::Place { side, clear: 0, width, height, min_y: 0.0, insets }
}

fn content(min_y: f32, clear: u8) -> Record {
    Record::Content { min_y, insets: [0.0, 0.0], clear, after: NONE }
}

fn lines(records: &[Record]) -> Vec<String> {
    let text = String::from_utf8(judge::lines(&bytes(records))).unwrap();
    text.lines().map(String::from).collect()
}

fn last(records: &[Record]) -> String {
    lines(records).pop().unwrap()
}

/// A line with its numbers as bits.
fn line(letter: &str, numbers: &[f32], rest: &str) -> String {
    let bits: String = numbers.iter().map(|number| format!(" {:08X}", number.to_bits())).collect();
    format!("{letter}{bits}{rest}")
}

#[test]
fn tape_of_document_01() {
    let mut tape = bytes(&[Width(100.0), plain(LEFT, 10.0, 30.0), content(0.0, 0)]);
    tape.push(9);
    let expected = "W\nP 00000000 00000000 0\nC 1 41200000 00000000 42B40000\nT 44\n";
    assert_eq!(String::from_utf8(judge::lines(&tape)).unwrap(), expected);
    assert_eq!(tape::text(&tape), "width 100\nleft 10x30\ncontent\nbytes 09\n");
}

#[test]
fn twelve_examples() {
    let placed = |x: f32, y: f32, steps: u32| line("P", &[x, y], &format!(" {steps}"));
    let mut tape = vec![Width(100.0), plain(LEFT, 10.0, 10.0)];
    assert_eq!(last(&tape), placed(0.0, 0.0, 0), "example 1");
    tape.push(plain(RIGHT, 10.0, 30.0));
    assert_eq!(last(&tape), placed(90.0, 0.0, 1), "example 2");
    tape.push(clearing(LEFT, 10.0, 5.0, 1));
    assert_eq!(last(&tape), placed(0.0, 10.0, 0), "example 3");

    tape = vec![Width(100.0), plain(LEFT, 100.0, 10.0), plain(LEFT, 50.0, 0.0)];
    assert_eq!(last(&tape), placed(0.0, 0.0, 1), "example 4");

    tape = vec![Width(100.0), plain(LEFT, 10.0, 30.0), within(LEFT, 10.0, 60.0, [0.0, 60.0])];
    assert_eq!(last(&tape), placed(10.0, 0.0, 1), "example 5");
    tape.push(plain(LEFT, 10.0, 10.0));
    assert_eq!(last(&tape), placed(20.0, 0.0, 0), "example 6");
    tape.push(plain(RIGHT, 5.0, 20.0));
    assert_eq!(last(&tape), placed(95.0, 0.0, 1), "example 6");
    tape.push(plain(LEFT, 20.0, 45.0));
    assert_eq!(last(&tape), placed(20.0, 10.0, 5), "example 7");
    tape.push(content(56.0, 0));
    assert_eq!(last(&tape), line("C 4", &[40.0, 56.0, 0.0], ""), "example 8");

    tape = vec![Width(100.0), at(LEFT, 50.0, 0.0, 20.0), content(0.0, 1)];
    assert_eq!(last(&tape), line("C -", &[0.0, 0.0, 100.0], ""), "example 9");

    tape = vec![Width(100.0), plain(LEFT, 60.0, 10.0), plain(LEFT, 40.0005, 10.0)];
    assert!(last(&tape).starts_with(&line("P", &[60.0, 0.0], "")), "example 10");
    tape[2] = plain(LEFT, 40.01, 10.0);
    assert!(last(&tape).starts_with(&line("P", &[0.0, 10.0], "")), "example 10");

    assert_eq!(lines(&[Width(65_536.0), Width(f32::from_bits(65_536f32.to_bits() + 1))]), ["W", "R 3"], "example 11");
    assert_eq!(lines(&[plain(LEFT, f32::NAN, -1.0)]), ["R 2"], "example 11");
    assert_eq!(judge::lines(&[]), b"", "example 12");
}

/// Each refusal where it begins, beside what is still allowed.
#[test]
fn refusals_at_their_edge() {
    // 4: even a box of no height, even the same width
    assert_eq!(
        lines(&[Width(9.0), Width(9.0), plain(LEFT, 0.0, 0.0), Width(9.0), New, Width(9.0)])[3..],
        ["R 4", "N", "W"]
    );
    // 5: the 65th box, of either side
    let mut page: Vec<Record> = (0..65).map(|n| plain(n % 2, 0.0, 0.0)).collect();
    assert_eq!(lines(&page)[63..], [line("P", &[0.0, 0.0], " 0"), "R 5".into()]);
    // and not before 1 to 3
    page.extend([plain(2, 0.0, 0.0), plain(0, f32::NAN, 0.0), plain(0, -1.0, 0.0)]);
    assert_eq!(lines(&page)[65..], ["R 1", "R 2", "R 3"]);
    // 6: a bottom at 131,072 stands, above it none; the sum is rounded
    let deep = [
        plain(LEFT, 0.0, 65_536.0),
        at(LEFT, 0.0, 65_536.0, 65_536.0),
        clearing(LEFT, 0.0, 0.003, 1),
        clearing(LEFT, 0.0, 0.01, 1),
    ];
    assert_eq!(
        lines(&deep)[1..],
        [line("P", &[0.0, 65_536.0], " 0"), line("P", &[0.0, 131_072.0], " 0"), "R 6".into()]
    );
    assert_eq!(last(&[Width(9.0), within(LEFT, 65_536.0, 0.0, [65_536.0, 0.0])]), line("P", &[65_536.0, 0.0], " 0"));
    // 6 of the calculator: each sum, and the two together; min-content makes no sums
    let add = |width, side, clear| Record::Add { width, side, clear };
    let calc = |mode| Record::Calc { mode, number: 5.0 };
    let full = [
        calc(2),
        add(65_536.0, 0, 0),
        add(65_536.0, 0, 0),
        add(0.01, 1, 0),
        add(0.01, 0, 0),
        add(65_536.0, 0, 1),
        Total,
    ];
    assert_eq!(lines(&full)[2..], ["A", "R 6", "R 6", "A", &line("I", &[131_072.0], "")]);
    let least = [calc(1), add(65_536.0, 0, 0), add(65_536.0, 0, 0), add(65_536.0, 0, 0), Total];
    assert_eq!(lines(&least)[3..], ["A", &line("I", &[65_536.0], "")]);
    assert_eq!(
        lines(&[calc(0), add(3.0, 0, 0), add(4.0, 1, 0), Total, add(6.0, 0, 3), Total])[3..],
        [line("I", &[5.0], ""), "A".into(), line("I", &[6.0], "")]
    );
    // 8, and before it 1 to 3; a refused start leaves the calculator
    assert_eq!(
        lines(&[add(1.0, 0, 0), add(1.0, 2, 0), add(-1.0, 0, 0), Total, calc(3), Total]),
        ["R 8", "R 1", "R 3", "R 8", "R 1", "R 8"]
    );
    assert_eq!(lines(&[calc(1), New, Total]), ["S", "N", "R 8"]);
    // a number that is not read
    assert_eq!(
        lines(&[Record::Calc { mode: 1, number: f32::NAN }, Record::Calc { mode: 0, number: f32::NAN }]),
        ["S", "R 2"]
    );
    // a minus zero
    assert_eq!(lines(&[Width(-0.0), within(LEFT, -0.0, -0.0, [-0.0, -0.0])]), ["W", "P 00000000 00000000 0"]);
}

/// 7 comes when a 97th band would be needed, after 6, and a box of no height still goes.
#[test]
fn refusal_7() {
    let mut page = vec![Width(100.0), at(LEFT, 1.0, 65_536.0, 100.0)];
    page.extend((0..47).map(|n| at(RIGHT, 1.0, 5.0, 110.0 + 20.0 * n as f32)));
    assert!(last(&page).starts_with('P'));
    page.extend([at(RIGHT, 1.0, 5.0, 5_000.0), at(RIGHT, 1.0, 0.0, 5_000.0)]);
    page.extend([clearing(LEFT, 1.0, 60_000.0, 1), clearing(LEFT, 1.0, 65_536.0, 1)]);
    let end = &lines(&page)[49..];
    assert_eq!([&end[0], &end[2], &end[3]], ["R 7", "R 7", "R 6"]);
    assert!(end[1].starts_with('P'));
}

#[test]
fn unknown_kinds_cuts_and_length() {
    assert_eq!(judge::lines(&[0, 8, 0]), b"N\nT 1\n");
    assert_eq!(judge::lines(&[0, 1, 0, 0, 0]), b"N\nT 1\n");
    assert_eq!(judge::lines(&vec![0; 65_536]).len(), 131_072);
    assert_eq!(judge::lines(&vec![0; 65_537]), b"L\n");
}

#[test]
fn text_of_a_tape() {
    let bfc = Record::Bfc { min_y: 0.0, insets: [0.0, 0.0], margins: [-5.0, 3.0], direction: 1, clear: 3, after: 2 };
    let odd = Record::Bfc { min_y: 0.0, insets: [0.0, 0.0], margins: [0.0, 0.0], direction: 5, clear: 9, after: NONE };
    let tape = [
        New,
        Record::Place { side: 1, clear: 1, width: 5.0, height: 20.0, min_y: 12.5, insets: [0.0, 60.0] },
        at(7, f32::NAN, 1.0e-40, -0.0),
        Record::Content { min_y: 56.0, insets: [0.0, 0.0], clear: 2, after: 3 },
        bfc,
        odd,
        Record::Calc { mode: 0, number: 100.0 },
        Record::Calc { mode: 2, number: 0.0 },
        Record::Calc { mode: 4, number: 1.0 },
        Record::Add { width: 10.0, side: 0, clear: 2 },
        Total,
    ];
    let expected = "new
right 5x20 at 12.5 insets 0 60 clear left
side=7 0x7FC00000x0x000116C2 at -0
content at 56 clear right after 3
bfc margins -5 3 rtl clear both after 2
bfc direction=5 clear=9
calc definite 100
calc max
calc mode=4 1
add left 10 clear right
result
";
    assert_eq!(tape::text(&bytes(&tape)), expected);
}

/// Where a tape is cut, and which of its pages clear: a refused call does, an unknown code and a calculator don't.
#[test]
fn pages_of_a_tape() {
    let question =
        |clear| Record::Bfc { min_y: 0.0, insets: [0.0; 2], margins: [0.0; 2], direction: 9, clear, after: 0 };
    let add = Record::Add { width: 1.0, side: 0, clear: 3 };
    let pages: [(&[Record], usize, bool); 7] = [
        (&[Width(9.0), plain(LEFT, 1.0, 1.0), clearing(LEFT, 1.0, -1.0, 3)], 2, true),
        (&[New], 0, false),
        (&[New, content(0.0, 2), content(0.0, 0)], 2, true),
        (&[New, add, Total], 0, false),
        (&[New, clearing(RIGHT, 1.0, 1.0, 4), content(0.0, 255), question(0)], 3, false),
        (&[New, plain(LEFT, 1.0, 1.0), question(1)], 2, true),
        (&[New, content(0.0, 0)], 1, false),
    ];
    let mut tape = pages.map(|(records, _, _)| bytes(records)).concat();
    tape.extend([9, 0, 2, 0, 1]);
    let cut = tape::pages(&tape);
    assert_eq!(cut.iter().map(|page| page.bytes).collect::<Vec<_>>().concat(), tape);
    assert_eq!(cut.len(), pages.len());
    for (page, (records, calls, clears)) in cut.iter().zip(pages) {
        assert!(page.bytes.starts_with(&bytes(records)));
        assert_eq!((page.calls, page.clears), (calls, clears), "{records:?}");
    }
    // nothing at all is a page, and so is a tape that is not read
    let too_long = bytes(&[New, content(0.0, 1)]).repeat(4_000);
    for tape in [&[][..], &too_long, &too_long[..5]] {
        let pages = tape::pages(tape);
        assert!(pages.len() == 1 && pages[0].bytes == tape && pages[0].calls == 0 && !pages[0].clears);
    }
}

/// Writes lines as an archive does.
fn written(lines: &[u8], room: &mut [u8]) -> i64 {
    if lines.len() > room.len() {
        return -13;
    }
    room[..lines.len()].copy_from_slice(lines);
    lines.len() as i64
}

/// The judge as an archive, with its lines changed by `wrong`.
fn answer(tape: &[u8], room: &mut [u8], wrong: fn(String) -> String) -> i64 {
    written(wrong(String::from_utf8(judge::lines(tape)).unwrap()).as_bytes(), room)
}

/// The smallest tape on which the driver finds the archive wrong, as text: the same on pages of either run.
fn found(archive: Functions) -> Option<String> {
    let [as_it_is, raised] = [Asking::AsItIs, Asking::Raised].map(|asking| found_by(Driver::new(archive, asking)));
    let count = |text: &Option<String>| text.as_ref().map(|text| text.lines().count());
    assert_eq!(count(&as_it_is), count(&raised), "{as_it_is:?}, {raised:?}");
    raised
}

/// An archive of one function alone.
fn run(run: Runner) -> Functions {
    Functions { run: Some(run), ..Functions::default() }
}

fn innermost(innermost: Innermost) -> Functions {
    Functions { innermost: Some(innermost), ..Functions::default() }
}

fn depth(depth: Depth) -> Functions {
    Functions { depth: Some(depth), ..Functions::default() }
}

fn found_by(mut driver: Driver) -> Option<String> {
    let mut random = Random(5);
    for _ in 0..400 {
        let records = tapes::mixed(&mut random);
        let deep = bytes(&tapes::deep(&mut random));
        if let Err(found) = driver.asked(&records).and_then(|()| driver.tape(&deep)) {
            return Some(tape::text(&found.tape));
        }
    }
    None
}

#[test]
fn a_fault_is_found_and_shrunk() {
    let found = |of: Runner| found(run(of));
    assert_eq!(found(|tape, room| answer(tape, room, |lines| lines)), None);
    // another step count; another order of refusals; a width lost
    let text = found(|tape, room| answer(tape, room, |lines| lines.replace(" 1\n", " 2\n"))).unwrap();
    assert!(text.lines().count() <= 3, "{text}");
    let text = found(|tape, room| answer(tape, room, |lines| lines.replace("R 6", "R 7"))).unwrap();
    assert!(text.lines().count() <= 4 && text.contains("65536"), "{text}");
    let text = found(|tape, room| answer(tape, room, |lines| lines.replace("R 1\n", "R 2\n"))).unwrap();
    assert!(text.lines().count() == 1 && text.contains('='), "{text}");
    // a byte past the end; a byte before a refusal 13; a length that is one too many
    let past = |tape: &[u8], room: &mut [u8]| {
        let length = answer(tape, room, |lines| lines);
        if let Some(byte) = room.get_mut(length.max(0) as usize) {
            *byte = 0;
        }
        length
    };
    assert_eq!(found(past).unwrap(), "");
    let early = |tape: &[u8], room: &mut [u8]| {
        let length = answer(tape, room, |lines| lines);
        if length < 0 && !room.is_empty() {
            room[0] = b'N';
        }
        length
    };
    assert_eq!(found(early).unwrap().lines().count(), 1);
    assert_eq!(found(|tape, room| answer(tape, room, |lines| lines) + 1).unwrap(), "");
}

#[test]
fn another_box_is_found_and_shrunk() {
    assert_eq!(found(innermost(judge::innermost)), None);
    let records = |of: Innermost| found(innermost(of)).unwrap().lines().count();
    // the other side's box; the one in the band below; no box for the second; a box below all bands
    assert_eq!(records(|tape, band, side| judge::innermost(tape, band, 1 - side)), 1);
    assert_eq!(records(|tape, band, side| judge::innermost(tape, band + 1, side)), 1);
    let no_second = |tape: &[u8], band, side| match judge::innermost(tape, band, side) {
        1 => NO_BOX,
        number => number,
    };
    assert_eq!(records(no_second), 2);
    let below = |tape: &[u8], band, side| match judge::innermost(tape, band, side) {
        NO_BOX if band == judge::account(tape).bands().len() => 0,
        number => number,
    };
    assert_eq!(records(below), 0);
}

/// The depth after a tape, as it becomes with each record and its answer; at first there is none.
fn kept(tape: &[u8], after: fn(Option<f32>, &Record, Answer) -> Option<f32>) -> i64 {
    let mut judge = Judge::default();
    let records = if tape.len() > LONGEST { vec![] } else { tape::records(tape).0 };
    returned(records.iter().fold(None, |depth, record| after(depth, record, judge.answer(record))))
}

/// A depth raised to a bottom.
fn lower(depth: Option<f32>, bottom: f32) -> Option<f32> {
    Some(depth.map_or(bottom, |depth| depth.max(bottom)))
}

/// The depth kept as it has to be.
fn kept_right(depth: Option<f32>, record: &Record, answer: Answer) -> Option<f32> {
    match (*record, answer) {
        (_, Answer::Fresh) => None,
        (Record::Place { height, .. }, Answer::Placed { y, .. }) => lower(depth, y + height),
        _ => depth,
    }
}

#[test]
fn another_depth_is_found_and_shrunk() {
    assert_eq!(found(depth(judge::depth)), None);
    assert_eq!(found(depth(|tape| kept(tape, kept_right))), None);
    let text = |of: Depth| found(depth(of)).unwrap();
    let records = |of: Depth| text(of).lines().count();
    // not raised by a box of no height; raised by a box that is refused, for whatever reason, and for being too deep
    let high = |tape: &[u8]| {
        kept(tape, |depth, record, answer| match record {
            Record::Place { height, .. } if *height == 0.0 => depth,
            _ => kept_right(depth, record, answer),
        })
    };
    assert_eq!(records(high), 1);
    let refused = |tape: &[u8]| {
        kept(tape, |depth, record, answer| match (*record, answer) {
            (Record::Place { height, min_y, .. }, Answer::Refused(_)) => lower(depth, min_y + height),
            _ => kept_right(depth, record, answer),
        })
    };
    assert_eq!(records(refused), 1);
    let too_deep = |tape: &[u8]| {
        kept(tape, |depth, record, answer| match (*record, answer) {
            (Record::Place { height, min_y, .. }, Answer::Refused(6)) => lower(depth, min_y + height),
            _ => kept_right(depth, record, answer),
        })
    };
    for asking in [Asking::AsItIs, Asking::Raised] {
        let text = found_by(Driver::new(depth(too_deep), asking)).unwrap();
        assert!((2..=4).contains(&text.lines().count()) && text.contains("6553"), "{text}");
    }
    // the last bottom; the first; the lowest top
    let last = |tape: &[u8]| {
        kept(tape, |depth, record, answer| match answer {
            Answer::Placed { .. } => kept_right(None, record, answer),
            _ => kept_right(depth, record, answer),
        })
    };
    assert_eq!(records(last), 2);
    let first = |tape: &[u8]| {
        kept(tape, |depth, record, answer| match answer {
            Answer::Placed { .. } => depth.or(kept_right(None, record, answer)),
            _ => kept_right(depth, record, answer),
        })
    };
    assert_eq!(records(first), 2);
    let top = |tape: &[u8]| {
        kept(tape, |depth, record, answer| match answer {
            Answer::Placed { y, .. } => lower(depth, y),
            _ => kept_right(depth, record, answer),
        })
    };
    assert_eq!(records(top), 1);
    // none as 0; never above 0; not fresh on a fresh page
    let zero = |tape: &[u8]| match judge::depth(tape) {
        NO_BOX => 0,
        bits => bits,
    };
    assert_eq!(text(zero), "");
    let below_0 = |tape: &[u8]| match judge::depth(tape) {
        NO_BOX => NO_BOX,
        bits => returned(Some(f32::from_bits(bits as u32).max(0.0))),
    };
    assert_eq!(records(below_0), 1);
    let stays = |tape: &[u8]| {
        kept(tape, |depth, record, answer| match answer {
            Answer::Fresh => depth,
            _ => kept_right(depth, record, answer),
        })
    };
    assert_eq!(records(stays), 2);
}

/// An archive that clears by the crate's rule is found on the pages that clear, and answers all others right.
#[test]
fn clearing_by_band_numbers_is_found() {
    fn after(tape: &[u8]) -> Account {
        Judge::asking(Asking::AsItIs).account_after(tape)
    }
    let run = run(|tape, room| written(&Judge::asking(Asking::AsItIs).lines(tape), room));
    let innermost = innermost(|tape, band, side| after(tape).told(band, side));
    let depth = depth(|tape| after(tape).told_depth());
    for archive in [run, innermost, depth] {
        assert_eq!(found_by(Driver::new(archive, Asking::AsItIs)), None);
        let text = found_by(Driver::new(archive, Asking::Raised)).unwrap();
        assert!(text.lines().count() <= 3 && text.contains("clear"), "{text}");
    }
}
