//! Runs the pages of tapes through an archive and the judge, compares every byte, the boxes' numbers in the bands and the depth, and shrinks
//! a tape on which they differ.

use crate::account::Account;
use crate::archive::{difference, room, Depth, Functions, Innermost, Runner};
use crate::float_counted::Band;
use crate::judge::{Answer, Counts, Judge};
use crate::raised::Asking;
use crate::tape::{self, body_length, bytes, Field, Page, Record, BODIES, LONGEST, NONE};
use std::fmt::Write;
use std::ops::RangeInclusive;

/// The rooms tried on each tape: to spare, exact, one short, none.
fn rooms(need: usize) -> [usize; 4] {
    [need + 7, need, need.saturating_sub(1), 0]
}

/// A tape on which archive and judge differ, as small as it was made, and how they differ there.
#[derive(Debug)]
pub struct Found {
    pub tape: Vec<u8>,
    pub report: String,
}

fn first_difference(run: Runner, tape: &[u8], more: Option<usize>, asking: Asking) -> Option<String> {
    let lines = Judge::asking(asking).lines(tape);
    let rooms = rooms(lines.len()).into_iter().chain([room(tape)]);
    more.into_iter().chain(rooms).find_map(|room| difference(run, tape, &lines, room))
}

/// How the archive's number of a box differs from the account's, if it does: on both sides of each of these bands.
pub fn other_box(
    innermost: Innermost,
    tape: &[u8],
    account: &Account,
    bands: impl IntoIterator<Item = usize>,
) -> Option<String> {
    let mut sides = bands.into_iter().flat_map(|band| [(band, 0), (band, 1)]);
    sides.find_map(|(band, side)| {
        let (answered, told) = (innermost(tape, band, side), account.told(band, side));
        let differs = answered != told;
        differs.then(|| format!("band {band}, side {side}: the archive answers box {answered}, the account has {told}"))
    })
}

/// How the archive's depth differs from the account's, if it does.
pub fn other_depth(depth: Depth, tape: &[u8], account: &Account) -> Option<String> {
    let (answered, told) = (depth(tape), account.told_depth());
    let differs = answered != told;
    differs.then(|| format!("the archive answers the depth {answered:#X}, the account has {told:#X}"))
}

/// Every band, and the number after the last.
pub fn every_band(account: &Account) -> RangeInclusive<usize> {
    0..=account.bands().len()
}

/// The tape cut into its records; what begins no record is the last piece.
fn pieces(tape: &[u8]) -> Vec<Vec<u8>> {
    let (records, rest) = tape::records(tape);
    let mut pieces: Vec<Vec<u8>> = records.iter().map(|record| bytes(&[*record])).collect();
    if !rest.is_empty() {
        pieces.push(rest.to_vec());
    }
    pieces
}

/// Simpler forms of one record, field by field.
fn simpler(piece: &[u8]) -> Vec<Vec<u8>> {
    let mut all = Vec::new();
    if body_length(piece[0]).map(|length| length + 1) != Some(piece.len()) {
        return (1..piece.len()).map(|length| piece[..length].to_vec()).collect();
    }
    let mut at = 1;
    for field in BODIES[usize::from(piece[0])] {
        let end = at + field.size();
        let old = &piece[at..end];
        let mut choices: Vec<Vec<u8>> = Vec::new();
        match field {
            Field::Length | Field::Offset => {
                let x = f32::from_le_bytes(old.try_into().unwrap());
                choices.extend([0.0, 1.0, 10.0, 100.0, x.trunc()].map(|y: f32| y.to_le_bytes().to_vec()));
            }
            Field::At => choices.push(NONE.to_le_bytes().to_vec()),
            _ => choices.push(vec![0]),
        }
        // the first choices are the simplest: none behind the one that stands is tried
        let standing = choices.iter().position(|choice| choice == old).unwrap_or(choices.len());
        all.extend(choices.into_iter().take(standing).map(|choice| [&piece[..at], &choice, &piece[end..]].concat()));
        at = end;
    }
    all
}

/// The smallest tape found that still differs: records taken out, most at a time first, then numbers made simple.
pub fn shrunk(tape: &[u8], differs: impl Fn(&[u8]) -> bool) -> Vec<u8> {
    let differs = |pieces: &[Vec<u8>]| differs(&pieces.concat());
    let mut best = pieces(tape);
    if tape.len() > LONGEST || !differs(&best) {
        return tape.to_vec();
    }
    loop {
        let before = best.clone();
        let mut size = best.len().div_ceil(2);
        while size > 0 {
            let mut at = 0;
            while at < best.len() {
                let mut fewer = best.clone();
                fewer.drain(at..(at + size).min(best.len()));
                if differs(&fewer) {
                    best = fewer;
                } else {
                    at += size;
                }
            }
            size = if size == 1 { 0 } else { size.div_ceil(2) };
        }
        for at in 0..best.len() {
            for choice in simpler(&best[at]) {
                let old = std::mem::replace(&mut best[at], choice);
                if differs(&best) {
                    break;
                }
                best[at] = old;
            }
        }
        if best == before {
            return best.concat();
        }
    }
}

/// Boxes up to which every band's numbers are compared after each placement. Where more stand, they are compared at the tape's end, and
/// after each placement of one such tape in THOROUGH.
const FEW: usize = 8;
const THOROUGH: u64 = 32;

const NOT_AGAIN: &str = "only on this tape, and not when run again";

/// Compares pages, and keeps count: those on which no call clears with the crate as it is, the others with the crate asked without clear at
/// the raised min_y.
pub struct Driver {
    /// those that are none are counted, and not compared
    archive: Functions,
    asking: Asking,
    pub tapes: u64,
    /// pages with a placement or a slot question, those of the other run counted
    pub met: u64,
    /// those of this run
    pub pages: u64,
    /// those of this run that the crate as it is answers otherwise
    pub otherwise: u64,
    pub counts: Counts,
    /// bands' sides of which the box's number was asked
    pub touched: u64,
    /// pages whose depth was asked
    pub depths: u64,
}

impl Driver {
    pub fn new(archive: Functions, asking: Asking) -> Self {
        let counts = Counts::default();
        Driver { archive, asking, tapes: 0, met: 0, pages: 0, otherwise: 0, counts, touched: 0, depths: 0 }
    }

    /// Whether a page is of this run.
    fn takes(&self, clears: bool) -> bool {
        clears == (self.asking == Asking::Raised)
    }

    /// The tape of those of its pages that are of this run, if there are any.
    fn own(&mut self, tape: &[u8]) -> Option<Vec<u8>> {
        let mut pages = tape::pages(tape);
        let with_calls = |pages: &[Page]| pages.iter().filter(|page| page.calls > 0).count() as u64;
        self.met += with_calls(&pages);
        pages.retain(|page| self.takes(page.clears));
        self.pages += with_calls(&pages);
        (!pages.is_empty()).then(|| pages.iter().flat_map(|page| page.bytes).copied().collect())
    }

    /// The lines of the tape, its answers counted, and the account after it.
    fn judged(&mut self, tape: &[u8]) -> (Vec<u8>, Account) {
        let mut judge = Judge::asking(self.asking);
        judge.counts = self.counts;
        let lines = judge.lines(tape);
        self.counts = judge.counts;
        self.tapes += 1;
        if self.asking == Asking::Raised {
            self.otherwise += pages_otherwise(&lines, &Judge::asking(Asking::AsItIs).lines(tape));
        }
        (lines, judge.account)
    }

    fn run(&mut self, tape: &[u8], lines: &[u8], room: usize) -> Result<(), Found> {
        self.counts.refusals[13] += u64::from(room < lines.len());
        let Some(run) = self.archive.run else { return Ok(()) };
        if difference(run, tape, lines, room).is_none() {
            return Ok(());
        }
        let exact = (room + 8 < lines.len()).then_some(room);
        let differs = |tape: &[u8]| first_difference(run, tape, exact, self.asking);
        let tape = shrunk(tape, |tape| differs(tape).is_some());
        let report = differs(&tape).unwrap_or(NOT_AGAIN.into());
        Err(Found { tape, report })
    }

    /// The tape made small on which the page is told otherwise than by its account.
    fn otherwise_told(&self, tape: &[u8], other: impl Fn(&[u8], &Account) -> Option<String>) -> Result<(), Found> {
        let other = |tape: &[u8]| other(tape, &Judge::asking(self.asking).account_after(tape));
        let tape = shrunk(tape, |tape| other(tape).is_some());
        let report = other(&tape).unwrap_or(NOT_AGAIN.into());
        Err(Found { tape, report })
    }

    /// The numbers of both sides of some bands after a tape, by the archive and by the account.
    fn numbers(&mut self, tape: &[u8], account: &Account, bands: RangeInclusive<usize>) -> Result<(), Found> {
        self.touched += 2 * bands.clone().count() as u64;
        let Some(innermost) = self.archive.innermost else { return Ok(()) };
        if other_box(innermost, tape, account, bands).is_none() {
            return Ok(());
        }
        self.otherwise_told(tape, |tape, account| other_box(innermost, tape, account, every_band(account)))
    }

    /// The depth after a tape, by the archive and by the account.
    fn depth(&mut self, tape: &[u8], account: &Account) -> Result<(), Found> {
        self.depths += 1;
        let Some(depth) = self.archive.depth else { return Ok(()) };
        if other_depth(depth, tape, account).is_none() {
            return Ok(());
        }
        self.otherwise_told(tape, |tape, account| other_depth(depth, tape, account))
    }

    /// The depth after a tape, and after each of its pages that the next one ends.
    fn depths(&mut self, tape: &[u8], account: &Account) -> Result<(), Found> {
        self.depth(tape, account)?;
        let pages = tape::pages(tape);
        let ended = pages[..pages.len() - 1].iter().filter(|page| page.calls > 0);
        for Page { bytes, .. } in ended {
            self.depth(bytes, &Judge::asking(self.asking).account_after(bytes))?;
        }
        Ok(())
    }

    /// The whole of what is told of a page: the numbers in every band, and the depth.
    fn told(&mut self, tape: &[u8], account: &Account) -> Result<(), Found> {
        self.numbers(tape, account, every_band(account))?;
        self.depth(tape, account)
    }

    /// The pages of one tape, in a room to spare by a few bytes or, each fourth time, in one that is surely enough, where a tape is run
    /// once and not counted first; with the depths asked; and, each eighth time, in one that is a byte too short, and with the numbers of one
    /// band asked.
    pub fn tape(&mut self, tape: &[u8]) -> Result<(), Found> {
        let Some(tape) = &self.own(tape) else { return Ok(()) };
        let (lines, account) = self.judged(tape);
        let room = if self.tapes % 4 == 1 { room(tape) } else { lines.len() + (self.tapes % 9) as usize };
        self.run(tape, &lines, room)?;
        self.depths(tape, &account)?;
        if self.tapes % 8 == 0 && !lines.is_empty() {
            self.run(tape, &lines, lines.len() - 1)?;
        }
        if self.tapes % 8 == 0 {
            let band = (self.tapes / 8) as usize % (account.bands().len() + 1);
            self.numbers(tape, &account, band..=band)?;
        }
        Ok(())
    }

    /// The pages of one tape in every room from none to one byte past the need.
    pub fn every_room(&mut self, tape: &[u8]) -> Result<(), Found> {
        let Some(tape) = &self.own(tape) else { return Ok(()) };
        let (lines, account) = self.judged(tape);
        self.depths(tape, &account)?;
        (0..=lines.len() + 1).try_for_each(|room| self.run(tape, &lines, room))
    }

    /// The records with the whole page asked after every accepted placement. Some of the questions clear, so in the run of pages that clear
    /// it is every page; in the other run they are left out, and so is a page that clears. Where a tape grows too long, a new one begins
    /// with the same records, without the questions asked so far. The boxes' numbers in all bands and the depth are asked on tapes of their
    /// own: a question runs its tape.
    pub fn asked(&mut self, records: &[Record]) -> Result<(), Found> {
        let mut judge = Judge::asking(self.asking);
        let thorough = self.tapes % THOROUGH == 0;
        let clearing = self.asking == Asking::Raised;
        let (mut tape, mut unasked) = (Vec::new(), Vec::new());
        let mut own = false;
        for (done, record) in records.iter().enumerate() {
            if done == 0 || matches!(record, Record::New) {
                own = self.takes(first_page(&records[done..]).iter().any(Record::clears));
            }
            record.write(&mut tape);
            if !own && !clearing {
                continue;
            }
            record.write(&mut unasked);
            if !matches!(judge.answer(record), Answer::Placed { .. }) {
                continue;
            }
            let questions = page_questions(&judge, clearing);
            let asked = bytes(&questions);
            if tape.len() + asked.len() > LONGEST {
                self.tape(&tape)?;
                tape = unasked.clone();
            }
            tape.extend(asked);
            let answers: Vec<Answer> = questions.iter().map(|question| judge.answer(question)).collect();
            check_page(&judge.page.bands(), judge.page.width(), &answers);
            if own && (thorough || judge.boxes() <= FEW) {
                self.told(&unasked, &judge.account)?;
            }
        }
        if own && !thorough && judge.boxes() > FEW {
            self.told(&unasked, &judge.account)?;
        }
        assert!(clearing || judge.counts.clearing == 0, "the crate was asked to clear");
        self.tape(&tape)
    }

    /// Pages, tapes, placements, questions, each refusal by its number, the sides of bands whose box was asked, and the depths.
    pub fn summary(&self) -> String {
        let Driver { tapes, met, pages, otherwise, counts, .. } = self;
        let Counts { placements, questions, clearing, refusals } = counts;
        let mut line = format!("{pages} of {met} pages, {tapes} tapes, {placements} placements, {questions} questions");
        if self.asking == Asking::Raised {
            write!(line, ", {clearing} calls that clear, {otherwise} pages otherwise by the crate as it is").unwrap();
        }
        line += ", refusals";
        for number in (1..=8).chain([13]) {
            write!(line, " {number}: {}", refusals[number]).unwrap();
        }
        write!(line, ", boxes asked on {} sides of bands, {} depths asked", self.touched, self.depths).unwrap();
        line + if self.archive.run.is_some() { ", differences 0" } else { ", no archive to compare with" }
    }
}

/// The records before the next New.
fn first_page(records: &[Record]) -> &[Record] {
    records.chunk_by(|_, next| !matches!(next, Record::New)).next().unwrap_or(&[])
}

/// On how many pages two answers to a tape differ. A line N begins a page, but for the first.
fn pages_otherwise(lines: &[u8], others: &[u8]) -> u64 {
    let [lines, others] = [lines, others].map(|lines| lines.split(|byte| *byte == b'\n'));
    let (mut count, mut counted) = (0, false);
    for (line, other) in lines.zip(others) {
        counted &= line != b"N";
        if line != other && !counted {
            (count, counted) = (count + 1, true);
        }
    }
    count
}

/// Far above every page, and a margin that leaves no inset but a mark's.
const FAR: f32 = -65_536.0;

/// For each band number the questions that show its start, its insets and its marks; then one that shows the last end, and, if some may
/// clear, one for each clear that shows the bottoms.
fn page_questions(judge: &Judge, clearing: bool) -> Vec<Record> {
    let width = judge.page.width();
    let mut questions = Vec::new();
    for band in 0..=judge.page.band_count() {
        let after = if band == 0 { NONE } else { band as u16 - 1 };
        for insets in [[0.0, 0.0], [width, 0.0]] {
            questions.push(Record::Content { min_y: FAR, insets, clear: 0, after });
        }
        for direction in 0..2 {
            questions.push(Record::Bfc {
                min_y: FAR,
                insets: [0.0, 0.0],
                margins: [FAR, FAR],
                direction,
                clear: 0,
                after,
            });
        }
    }
    if clearing {
        let bottoms = |clear| Record::Content { min_y: FAR, insets: [0.0, 0.0], clear, after: NONE };
        questions.extend([1, 2, 3].map(bottoms));
    }
    questions
}

/// What was answered on each band number is what the crate's own page holds there. A band that ends at -65,536 can't be asked for.
fn check_page(bands: &[Band], width: f32, answers: &[Answer]) {
    for (number, four) in answers.chunks_exact(4).take(bands.len() + 1).enumerate() {
        let [Answer::Content { band, x, y, .. }, Answer::Content { width: rest, .. }, Answer::Bfc { x: x_ltr, y: below, border: ltr, .. }, Answer::Bfc { x: x_rtl, border: rtl, .. }] =
            *four
        else {
            panic!("a question on the page was refused: {four:?}")
        };
        let Some(here) = bands.get(number) else {
            let last = bands.last().map_or(FAR, |last| last.end);
            assert!(band.is_none() && below == last.max(FAR), "below the last band: {four:?}, {bands:?}");
            continue;
        };
        if here.end <= FAR {
            continue;
        }
        let edge = |side: usize| if here.marks[side] { here.insets[side] } else { FAR };
        assert!(
            band == Some(number) && x == here.insets[0] && y == here.start.max(FAR),
            "band {number}: {four:?}, {bands:?}"
        );
        assert!(here.insets[0] > width || rest == -here.insets[1], "right inset of {number}: {four:?}, {bands:?}");
        assert!(x_ltr == edge(0) && x_rtl == edge(0), "left mark of {number}: {four:?}, {bands:?}");
        assert!(
            [ltr, rtl].iter().all(|border| *border == width - edge(0) - edge(1)),
            "right mark of {number}: {four:?}, {bands:?}"
        );
        assert!(
            number == 0 || bands[number - 1].end == here.start,
            "band {number} begins elsewhere than the one above it ends: {bands:?}"
        );
    }
}
