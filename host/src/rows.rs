//! What is measured, row by row: tapes with some records, and the same tapes without them. The difference is what those records cost.

use crate::answers;
use crate::archive::{self, Runner};
use crate::call::{BANDS, REACH, WORDS};
use crate::grouped;
use crate::job;
use crate::judge::{self, Answer, Judge};
#[cfg(has_probe)]
use crate::kept;
use crate::random::Random;
use crate::tape::{bytes, Record, LONGEST, NONE};
use crate::text::Text;
use std::hint::black_box;

/// The numbers of boxes at which pages are measured.
pub const SIZES: [usize; 4] = [4, 16, 32, 64];

/// Short tapes: a run of one is over before the machine turns to something else.
const PAGES: usize = 8;
const RECORDS: usize = 256;

/// A tape, and how much room is lent to its run.
pub struct Run {
    pub tape: Vec<u8>,
    pub room: usize,
}

impl Run {
    /// In a room that is surely enough, so that one pass is.
    fn sure(tape: Vec<u8>) -> Self {
        Run { room: archive::room(&tape), tape }
    }

    /// In a room without a byte to spare: that it is enough shows only when the lines are known.
    fn exact(tape: Vec<u8>) -> Self {
        Run { room: judge::lines(&tape).len(), tape }
    }
}

pub struct Row {
    pub name: String,
    /// How many times more the thing stands on `with`; 1 where whole tapes are measured, and `without` is none.
    pub records: usize,
    /// Archive and crate.
    pub sides: [Runner; 2],
    /// Whether both answer the same; else the crate does its whole job where the archive answers for the page alone.
    pub same: bool,
    pub with: Vec<Run>,
    pub without: Vec<Run>,
}

/// The whole job by the archive, and by the crate.
fn whole_job() -> [Runner; 2] {
    [archive::panel().expect("linked"), job::run]
}

/// A page in the manner of a fault page: pictures on both sides, further down as the text goes on, their edges on a grid of 4.
fn drawn(random: &mut Random, boxes: usize) -> Vec<Record> {
    let mut page = vec![Record::New, Record::Width(320.0)];
    let mut top = 0.0;
    for _ in 0..boxes {
        page.push(Record::Place {
            side: random.below(2) as u8,
            clear: if random.once_in(12) { 1 + random.below(3) as u8 } else { 0 },
            width: 8.0 * (2 + random.below(12)) as f32,
            height: 4.0 * (2 + random.below(10)) as f32,
            min_y: top,
            insets: if random.once_in(8) { [16.0, 8.0] } else { [0.0, 0.0] },
        });
        top += 4.0 * random.below(5) as f32;
    }
    page
}

/// The first boxes of a page on which all of 64 are accepted.
pub fn page(number: usize, boxes: usize) -> Vec<Record> {
    let mut random = Random(number as u64);
    loop {
        let mut page = drawn(&mut random, SIZES[3]);
        let mut judge = Judge::default();
        if page.iter().all(|record| !matches!(judge.answer(record), Answer::Refused(_))) {
            page.truncate(2 + boxes);
            return page;
        }
    }
}

fn depth(page: &[Record]) -> f32 {
    judge::account(&bytes(page)).depth().unwrap_or(0.0)
}

/// A question somewhere on a page of this depth.
fn question(random: &mut Random, depth: f32, bfc: bool) -> Record {
    let min_y = random.below(depth as usize) as f32;
    let insets = if random.once_in(4) { [16.0, 8.0] } else { [0.0, 0.0] };
    let clear = if random.once_in(8) { 1 + random.below(3) as u8 } else { 0 };
    let after = if random.once_in(4) { random.below(16) as u16 } else { NONE };
    if bfc {
        Record::Bfc { min_y, insets, margins: [4.0, 12.0], direction: random.below(2) as u8, clear, after }
    } else {
        Record::Content { min_y, insets, clear, after }
    }
}

/// Some questions on a page, by number content or BFC.
fn questions(page: &[Record], count: usize, bfc: impl Fn(usize) -> bool) -> Vec<Record> {
    let mut random = Random(count as u64);
    let depth = depth(page);
    (0..count).map(|number| question(&mut random, depth, bfc(number))).collect()
}

/// A page of some boxes with two questions a box.
fn asked(number: usize, boxes: usize) -> Vec<u8> {
    let page = page(number, boxes);
    bytes(&[&page[..], &questions(&page, 2 * boxes, |number| number % 2 == 1)].concat())
}

/// The same with the questions between the placements: two after each box, on the page as it is then.
fn asked_between(number: usize, boxes: usize) -> Vec<Record> {
    let page = page(number, boxes);
    let mut records = page[..2].to_vec();
    let mut random = Random(boxes as u64);
    for placed in 3..=page.len() {
        records.push(page[placed - 1]);
        let depth = depth(&page[..placed]);
        records.extend([false, true].map(|bfc| question(&mut random, depth, bfc)));
    }
    records
}

/// The last quarter of the boxes of each page, and what comes with each of them; the smaller the pages, the more of them.
fn last_quarter(name: &str, boxes: usize, page: impl Fn(usize, usize) -> Vec<Record>) -> Row {
    let pages = PAGES * SIZES[3] / boxes;
    let tape = |boxes: usize| bytes(&(0..pages).flat_map(|number| page(number, boxes)).collect::<Vec<Record>>());
    let kept = boxes * 3 / 4;
    Row {
        name: format!("{name}, page of {boxes}"),
        records: pages * (boxes - kept),
        sides: whole_job(),
        same: true,
        with: vec![Run::sure(tape(boxes))],
        without: vec![Run::sure(tape(kept))],
    }
}

/// Some records more on each page.
fn more(
    name: &str,
    boxes: usize,
    page: impl Fn(usize) -> Vec<Record>,
    records: impl Fn(&[Record]) -> Vec<Record>,
) -> Row {
    let (mut with, mut without) = (Vec::new(), Vec::new());
    for number in 0..PAGES {
        let page = page(number);
        without.extend(&page);
        with.extend(page.iter().chain(&records(&page)));
    }
    let records = with.len() - without.len();
    let [with, without] = [with, without].map(|records| vec![Run::sure(bytes(&records))]);
    Row { name: format!("{name}, page of {boxes}"), records, sides: whole_job(), same: true, with, without }
}

fn slots(name: &str, boxes: usize, bfc: bool) -> Row {
    more(name, boxes, |number| page(number, boxes), |page| questions(page, RECORDS / PAGES, |_| bfc))
}

/// What a placement costs that is read, refused with this number, and told.
fn refused(number: u8, boxes: usize, page: impl Fn(usize) -> Vec<Record>, record: Record) -> Row {
    more(&format!("a placement refused with {number}"), boxes, page, |page| {
        let mut judge = Judge::default();
        let answer = page.iter().chain([&record]).map(|record| judge.answer(record)).last();
        assert_eq!(answer, Some(Answer::Refused(number)));
        vec![record; RECORDS / PAGES]
    })
}

/// An unknown side on a full page; a box below one that ends at the reach; a box within a band where all bands are in use.
fn refusals() -> [Row; 3] {
    let at = |side, clear, min_y, height| Record::Place { side, clear, width: 8.0, height, min_y, insets: [0.0, 0.0] };
    let (half, full) = (SIZES[2], SIZES[3]);
    let deep = |number| [page(number, half - 1), vec![at(0, 0, REACH / 2.0, REACH / 2.0)]].concat();
    let apart = (0..BANDS / 2).map(|number| at(0, 0, 8.0 * number as f32, 4.0));
    let crowded: Vec<Record> = [Record::New, Record::Width(320.0)].into_iter().chain(apart).collect();
    [
        refused(1, full, |number| page(number, full), at(2, 0, 0.0, 8.0)),
        refused(6, half, deep, at(0, 3, 0.0, 8.0)),
        refused(7, BANDS / 2, |_| crowded.clone(), at(1, 0, 8.0 * (BANDS / 2 - 1) as f32 + 1.0, 2.0)),
    ]
}

fn repeated(name: &str, first: &[Record], again: &[Record]) -> Row {
    let tape = |times: usize| vec![Run::sure(bytes(&[first, &again.repeat(times)].concat()))];
    let (with, without) = (tape(2 * RECORDS), tape(RECORDS));
    Row { name: name.into(), records: RECORDS, sides: whole_job(), same: true, with, without }
}

fn whole(name: String, runs: Vec<Run>) -> Row {
    Row { name: format!("whole job: {name}"), records: 1, sides: whole_job(), same: true, with: runs, without: vec![] }
}

/// A band in the middle of a page of 64.
const LOOKED: usize = 32;

/// `bulameki_innermost` of it as a Runner: a run of the tape, and a look.
fn look(tape: &[u8], _: &mut [u8]) -> i64 {
    archive::innermost().expect("linked")(tape, LOOKED, 0)
}

/// Which box stands innermost, beside the whole job on the same tape.
fn innermost(boxes: usize) -> Row {
    let tape = bytes(&page(0, boxes));
    assert_eq!(look(&tape, &mut []), judge::innermost(&tape, LOOKED, 0), "the innermost box");
    let name = format!("which box is innermost after a page of {boxes}; crate: the whole job");
    let with = vec![Run::sure(tape)];
    Row { name, records: 1, sides: [look, job::run], same: false, with, without: vec![] }
}

/// `bulameki_depth` as a Runner.
fn read_depth(tape: &[u8], _: &mut [u8]) -> i64 {
    archive::depth().expect("linked")(tape)
}

/// How deep a page is, by a run of its tape on either side.
fn deep(boxes: usize) -> Row {
    let with = vec![Run { tape: bytes(&page(0, boxes)), room: 0 }];
    let name = format!("how deep is a page of {boxes}");
    Row { name, records: 1, sides: [read_depth, job::depth], same: true, with, without: vec![] }
}

/// Words of a panel: 10 to 60 wide, 4 apart, on lines 14 high.
pub fn text(number: usize, count: usize) -> Vec<u8> {
    let mut random = Random(number as u64);
    let words = (0..count).map(|_| (10 + random.below(51)) as f32).collect();
    Text { words, gap: 4.0, height: 14.0, min_y: 0.0, insets: [0.0, 0.0] }.bytes()
}

/// A tape and a text as one tape of a run: how long the tape is, then both.
fn joined(tape: &[u8], text: &[u8]) -> Run {
    let length = (tape.len() as u32).to_le_bytes();
    Run { tape: [&length[..], tape, text].concat(), room: archive::set_room(text) }
}

fn parted(joined: &[u8]) -> (&[u8], &[u8]) {
    let (length, both) = joined.split_first_chunk().expect("joined");
    both.split_at(u32::from_le_bytes(*length) as usize)
}

/// `bulameki_set_words` as a Runner.
fn set_words(joined: &[u8], room: &mut [u8]) -> i64 {
    let (tape, text) = parted(joined);
    archive::set_words().expect("linked")(tape, text, room)
}

/// The same job in Rust.
fn set_by_job(joined: &[u8], room: &mut [u8]) -> i64 {
    let (tape, text) = parted(joined);
    job::set_words(tape, text, room)
}

/// Texts of so many words, each on a page of its own; and the same call with no word.
fn words(boxes: usize, count: usize) -> Row {
    let runs = |count: usize| {
        let run = |number| joined(&bytes(&page(number, boxes)), &text(number, count));
        (0..PAGES).map(run).collect()
    };
    Row {
        name: format!("a word set, {count} on a page of {boxes}"),
        records: PAGES * count,
        sides: [set_words, set_by_job],
        same: true,
        with: runs(count),
        without: runs(0),
    }
}

/// The call that sets them, its tape included.
fn words_at_once(boxes: usize, count: usize) -> Row {
    let with = vec![joined(&bytes(&page(0, boxes)), &text(0, count))];
    let name = format!("{count} words set on a page of {boxes}, whose tape is run");
    Row { name, records: 1, sides: [set_words, set_by_job], same: true, with, without: vec![] }
}

/// Pages of 64 with questions, as many as a tape takes.
fn longest() -> Vec<u8> {
    let mut tape = Vec::new();
    for number in 0.. {
        let page = asked(number, SIZES[3]);
        if tape.len() + page.len() > LONGEST {
            break;
        }
        tape.extend(page);
    }
    tape
}

/// The last quarter of the boxes of a page that is kept with no tape.
#[cfg(has_probe)]
fn kept(by: &str, by_archive: Runner, boxes: usize) -> Row {
    let run = |boxes: usize| vec![Run { tape: vec![boxes as u8], room: 0 }];
    let before = boxes * 3 / 4;
    Row {
        name: format!("a placement on a page kept by {by}, page of {boxes}"),
        records: boxes - before,
        sides: [by_archive, kept::by_crate],
        same: true,
        with: run(boxes),
        without: run(before),
    }
}

pub fn rows() -> Vec<Row> {
    let full = SIZES[3];
    let mut rows: Vec<Row> = SIZES.iter().map(|boxes| last_quarter("a placement", *boxes, page)).collect();
    rows.push(last_quarter("a placement and two questions", full, asked_between));
    #[cfg(has_probe)]
    rows.extend([kept("value", kept::by_value, full), kept("`place_in`", kept::by_place_in, full)]);
    rows.extend(SIZES.iter().map(|boxes| slots("a content question", *boxes, false)));
    rows.extend(SIZES.iter().map(|boxes| slots("a BFC question", *boxes, true)));
    rows.extend(refusals());
    rows.push(repeated("a fresh page and its width", &[], &[Record::New, Record::Width(320.0)]));
    let added = Record::Add { width: 8.0, side: 0, clear: 1 };
    rows.push(repeated("a width added to a calculator", &[Record::Calc { mode: 2, number: 0.0 }], &[added]));
    for boxes in SIZES {
        let name = format!("a page of {boxes}, {} questions", 2 * boxes);
        rows.push(whole(name, vec![Run::sure(asked(0, boxes))]));
    }
    rows.push(whole(format!("a page of {full}, no question"), vec![Run::sure(bytes(&page(0, full)))]));
    rows.extend([innermost(full), deep(full)]);
    rows.extend(SIZES.map(|boxes| words(boxes, WORDS)));
    rows.extend([words_at_once(full, WORDS), words_at_once(full, 0)]);
    let between = format!("a page of {full}, two questions after each box");
    rows.push(whole(between, vec![Run::sure(bytes(&asked_between(0, full)))]));
    let exact = format!("a page of {full}, {} questions, no room to spare", 2 * full);
    rows.push(whole(exact, vec![Run::exact(asked(0, full))]));
    let longest = longest();
    rows.push(whole(format!("pages of {full}, {} bytes of tape", grouped(longest.len())), vec![Run::sure(longest)]));
    let stored: Vec<Run> = answers::sample().into_iter().step_by(16).map(|(tape, _)| Run::sure(tape)).collect();
    rows.push(whole(format!("{} of the stored tapes, a run each", stored.len()), stored));
    rows
}

/// Runs each tape in its room; the room lent is enough for the largest.
pub fn all(run: Runner, runs: &[Run], room: &mut [u8]) {
    for Run { tape, room: lent } in runs {
        black_box(run(black_box(tape), &mut room[..*lent]));
    }
}

/// Room for each of the runs.
pub fn room(runs: &[Run]) -> Vec<u8> {
    vec![0; runs.iter().map(|run| run.room).max().unwrap_or(0)]
}
