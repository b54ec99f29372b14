//! Words around the boxes: the archive beside the reading, every byte, on random pages and texts; its lines held to what is promised of
//! them; and the comparison itself held to find readings with a fault. HOST_PAGES=N takes N pages, HOST_SEED=N others.
#![cfg(has_taffy)]

use host::archive;
use host::call::{REACH, WORDS};
use host::random::Random;
use host::rows;
use host::tape::{self, bytes, Record, LONGEST};
use host::tapes;
use host::text::Text;
use host::texts;
use host::words::{self, Line, Page};
use host::words_driver::{broken, Found, Set, WordsDriver};
use std::time::Instant;

/// Pages in the gate's run.
const PAGES: u64 = 4_000;

fn from_environment(name: &str) -> Option<u64> {
    std::env::var(name).ok().map(|value| value.parse().unwrap_or_else(|_| panic!("{name} is no number: {value}")))
}

/// A page as a panel has it.
fn panel_page(random: &mut Random) -> Vec<Record> {
    rows::page(random.below(1 << 20), random.pick(&rows::SIZES))
}

/// Pages by kind, and whether they are in whole 64ths.
const KINDS: [(fn(&mut Random) -> Vec<Record>, bool); 8] = [
    (tapes::on_a_grid, true),
    (tapes::wild, false),
    (tapes::on_a_grid, true),
    (tapes::deep, false),
    (tapes::wild, false),
    (tapes::many_bands, true),
    (tapes::mixed, false),
    (panel_page, true),
];

/// Random pages of each kind in turn, each with texts of both kinds and one that is refused; some with texts that are not whole, in every
/// room, and after tapes that stop.
fn random(driver: &mut WordsDriver, random: &mut Random, count: u64) -> Result<(), Found> {
    let together = texts::together();
    for number in 0..count {
        let (kind, whole_64ths) = KINDS[(number % 8) as usize];
        let tape = bytes(&kind(random));
        let page = Page::after(&tape);
        let Ok(drawn) = &page else { panic!("a tape of whole records stops") };
        for turn in 0..8 {
            let on_a_grid = turn < if whole_64ths { 6 } else { 2 };
            let make = if on_a_grid { texts::on_a_grid } else { texts::wild };
            let text = make(random, drawn).bytes();
            driver.text(&tape, &page, &text, whole_64ths && on_a_grid)?;
        }
        let set = &together[number as usize % together.len()];
        let refused = texts::refused(random, drawn, set).bytes();
        driver.refused(&tape, &page, &refused, set)?;
        let mut none = texts::wild(random, drawn);
        none.words.clear();
        driver.text(&tape, &page, &none.bytes(), false)?;
        let text = texts::wild(random, drawn).bytes();
        if number % 4 == 0 {
            stops(driver, random, &tape, if number % 8 == 0 { &refused } else { &text })?;
        }
        if number % 16 == 0 {
            for other in texts::cut_or_long(&text).chain(texts::cut_or_long(&refused)) {
                driver.text(&tape, &page, &other, false)?;
            }
        }
        if number % 32 == 0 {
            let few = texts::on_a_grid(random, drawn);
            let few = Text { words: few.words.into_iter().take(12).collect(), ..few };
            driver.every_room(&tape, &page, &few.bytes())?;
            driver.every_room(&tape, &page, &refused)?;
        }
    }
    Ok(())
}

/// The text after tapes that stop or are too long, whole and not.
fn stops(driver: &mut WordsDriver, random: &mut Random, tape: &[u8], text: &[u8]) -> Result<(), Found> {
    let unknown = [tape, &[random.pick(&[8, 9, 255])], tape].concat();
    let cut = tape[..random.below(tape.len().max(1))].to_vec();
    let mut long = tape.to_vec();
    long.resize(LONGEST + random.below(3), 7);
    for tape in [unknown, cut, tapes::any_bytes(random), long] {
        let page = Page::after(&tape);
        driver.text(&tape, &page, text, false)?;
        driver.text(&tape, &page, &text[..random.below(text.len())], false)?;
    }
    Ok(())
}

/// What the gate's run has to meet, and how often at least.
const FLOORS: [(&str, u64); 44] = [
    ("texts", 60_000),
    ("line", 300_000),
    ("line in whole 64ths", 100_000),
    ("line beside a band", 30_000),
    ("line beside three bands or more", 2_000),
    ("line that touches no band", 200_000),
    ("line moved", 8_000),
    ("line moved below all bands", 4_000),
    ("line that begins where a box ends", 20_000),
    ("line that ends where a box begins", 10_000),
    ("line of negative room", 10_000),
    ("line that ends at the reach", 10),
    ("word wider than its line", 50_000),
    ("word wider than the page moved", 800),
    ("words that fill their line exactly", 50_000),
    ("gap of 0 between words", 30_000),
    ("word of width 0", 80_000),
    ("height that is swallowed", 20_000),
    ("line swallowed and followed by one at its top", 20_000),
    ("minus zero read", 50),
    ("containing insets past the page", 500),
    ("512 words set", 250),
    ("no word, no line", 4_000),
    ("no word, refused", 60),
    ("refusal 2", 1_000),
    ("refusal 3", 500),
    ("refusal 9", 500),
    ("refusal 10", 80),
    ("refusal 6", 1_000),
    ("both 2 and 3", 500),
    ("both 2 and 9", 500),
    ("both 2 and 10", 300),
    ("both 2 and 6", 300),
    ("both 3 and 9", 500),
    ("both 3 and 10", 300),
    ("both 3 and 6", 300),
    ("both 9 and 10", 300),
    ("both 9 and 6", 300),
    ("text not whole", 10_000),
    ("tape that stops", 3_000),
    ("tape too long", 600),
    ("room too short", 15_000),
    ("room just enough", 3_000),
    ("room to spare", 40_000),
];

#[test]
fn the_archive_beside_the_reading() {
    let seed = from_environment("HOST_SEED").unwrap_or(1);
    let count = from_environment("HOST_PAGES").unwrap_or(PAGES);
    let started = Instant::now();
    let archive = archive::set_words();
    let mut driver = WordsDriver::new(match &archive {
        Some(set) => set,
        None => &words::set_words,
    });
    if let Err(found) = random(&mut driver, &mut Random(seed), count) {
        panic!("seed {seed}: archive and reading differ\n\n{}\n\n{}", found.shown(), found.report);
    }
    let compared = if archive.is_some() { "differences 0" } else { "no archive to compare with" };
    let seconds = started.elapsed().as_secs_f64();
    host::say(&format!("words, seed {seed}, {count} pages: {}, {compared}, {seconds:.1} s", driver.met.summary()));
    if count >= PAGES {
        for (what, least) in FLOORS {
            let met = driver.met.count(what);
            assert!(met >= least, "{what}: met {met} times, and not {least}");
        }
    }
}

macro_rules! slips {
    ($($name:ident)*) => {
        /// What may be read wrong, but for `Nothing`.
        #[derive(Debug, Clone, Copy, PartialEq)]
        enum Slip {
            Nothing,
            $($name,)*
        }

        const SLIPS: &[Slip] = &[$(Slip::$name),*];
    };
}

slips! {
    EndTouches
    StartTouches
    BandAtTopAlone
    BandsWithBoxesAlone
    ExactBottomTouches
    InsetsAdded
    ContainingInsetsLeftOut
    RoomLessBothTogether
    GapBeforeFirst
    GapAndWordTogether
    SumNotRounded
    FitsOnlyBelow
    WideWordBesideBand
    FreeLineTakesAll
    MovesBelowAll
    MovesByItsHeight
    MovesBelowWhatItTouches
    NextLineAtTop
    NextLineBelowBand
    LinesLeftBySix
    SixOfTheTop
    SixAtTheReach
    SwallowedHeightRefused
    ThreeBeforeTwo
    NineBeforeThree
    TenBeforeNine
    SixBeforeNine
    FirstOf512Tested
    NineAt512
    NineAt514
    EmptyNotTested
    NegativeZeroKept
    NegativeZeroRefused
    LongTextRead
    ShortTextRead
    TextBeforeTape
    TapeRunsOn
    WordsFromOne
    LowerCase
}

use Slip::*;

/// The first refusal of a text before its lines are set.
fn refusal(slip: Slip, text: &Text) -> Option<u8> {
    let Text { words, gap, height, min_y, insets } = text;
    let tested = if slip == FirstOf512Tested { &words[..words.len().min(WORDS)] } else { words };
    let lengths: Vec<f32> = tested.iter().copied().chain([*gap, *height]).chain(*insets).collect();
    let numbers = || lengths.iter().chain([min_y]);
    let out = |number: &f32, least: f32| *number < least || *number > REACH / 2.0;
    let most = match slip {
        NineAt512 => WORDS - 1,
        NineAt514 => WORDS + 1,
        _ => WORDS,
    };
    let mut holds = [
        (2, numbers().any(|number| !number.is_finite())),
        (3, lengths.iter().any(|length| out(length, 0.0)) || out(min_y, -REACH / 2.0)),
        (9, words.len() > most),
        (10, *height == 0.0),
    ];
    match slip {
        ThreeBeforeTwo => holds.swap(0, 1),
        NineBeforeThree => holds.swap(1, 2),
        TenBeforeNine => holds.swap(2, 3),
        EmptyNotTested if words.is_empty() => return None,
        NegativeZeroRefused if numbers().any(|number| number.to_bits() == 1 << 31) => return Some(3),
        _ => {}
    }
    holds.into_iter().find_map(|(number, holds)| holds.then_some(number))
}

/// The lines of a text with good figures, as they are printed, and whether 6 ended them.
fn lines(slip: Slip, page: &Page, text: &Text) -> (String, bool) {
    let Text { words, gap, height, min_y, insets } = text;
    let [min_y, left, right] =
        [*min_y, insets[0], insets[1]].map(|x| if slip == NegativeZeroKept { x } else { x + 0.0 });
    let mut printed = String::new();
    let (mut first, mut top) = (0, min_y);
    while first < words.len() {
        let bottom = top + height;
        let far = match slip {
            SixOfTheTop => top > REACH,
            SixAtTheReach => bottom >= REACH,
            SwallowedHeightRefused => bottom > REACH || bottom == top,
            _ => bottom > REACH,
        };
        if far {
            return (printed, true);
        }
        let touched = page.bands.iter().filter(|band| match slip {
            EndTouches => band.end >= top && band.start < bottom,
            StartTouches => band.end > top && band.start <= bottom,
            BandAtTopAlone => band.end > top && band.start <= top && band.start < bottom,
            BandsWithBoxesAlone => band.end > top && band.start < bottom && band.marks != [false; 2],
            ExactBottomTouches => band.end > top && f64::from(band.start) < f64::from(top) + f64::from(*height),
            _ => band.end > top && band.start < bottom,
        });
        let touched: Vec<_> = touched.collect();
        let edge = |side: usize, containing: f32| {
            let of_bands = touched.iter().map(|band| band.insets[side]).fold(0.0, f32::max);
            match slip {
                InsetsAdded => containing + of_bands,
                ContainingInsetsLeftOut if !touched.is_empty() => of_bands,
                _ if of_bands > containing => of_bands,
                _ => containing,
            }
        };
        let (left, right) = (edge(0, left), edge(1, right));
        let room = if slip == RoomLessBothTogether { page.width - (left + right) } else { page.width - left - right };
        let fits = |sum: f32| if slip == FitsOnlyBelow { sum < room } else { sum <= room };
        let mut sum = if slip == GapBeforeFirst { gap + words[first] } else { words[first] };
        let mut exact = f64::from(sum);
        if !fits(sum) && !touched.is_empty() && slip != WideWordBesideBand {
            let last = page.bands[page.bands.len() - 1].end;
            let next = page.bands.iter().map(|band| band.start).find(|start| *start > top).unwrap_or(last);
            let to = match slip {
                MovesBelowAll => last,
                MovesByItsHeight if bottom > top => bottom,
                MovesBelowWhatItTouches => touched[touched.len() - 1].end,
                _ => next,
            };
            // a band that ends at the top leaves nowhere to move to
            if to > top {
                top = to;
                continue;
            }
        }
        let mut count = 1;
        for word in &words[first + 1..] {
            sum = if slip == GapAndWordTogether { sum + (gap + word) } else { sum + gap + word };
            exact += f64::from(*gap) + f64::from(*word);
            let taken = match slip {
                SumNotRounded => exact <= f64::from(room),
                FreeLineTakesAll => fits(sum) || touched.is_empty(),
                _ => fits(sum),
            };
            if !taken {
                break;
            }
            count += 1;
        }
        let told = if slip == WordsFromOne { first + 1 } else { first };
        printed += &format!("L {:08X} {:08X} {told} {count}\n", left.to_bits(), top.to_bits());
        first += count;
        top = match slip {
            NextLineAtTop => top,
            NextLineBelowBand => touched.first().map_or(bottom, |band| band.end.max(bottom)),
            _ => bottom,
        };
    }
    (printed, false)
}

/// The reading once more, with one thing wrong.
fn slipped(slip: Slip, tape: &[u8], text: &[u8]) -> String {
    let whole = match slip {
        LongTextRead => (0..=text.len()).rev().find_map(|length| Text::read(&text[..length])),
        ShortTextRead => Text::read(&[text, &[0; 4][..(6 - text.len() % 4) % 4]].concat()),
        _ => Text::read(text),
    };
    let runs = if slip == TapeRunsOn { tape.len() - tape::records(tape).1.len() } else { tape.len() };
    let page = match (Page::after(&tape[..runs]), &whole) {
        (Err(_), None) if slip == TextBeforeTape => return "T 0\n".into(),
        (Err(stop), _) => return stop,
        (Ok(_), None) => return "T 0\n".into(),
        (Ok(page), Some(_)) => page,
    };
    let text = whole.unwrap();
    let refusal = refusal(slip, &text);
    let beyond = slip == SixBeforeNine && refusal == Some(9) && lines(slip, &page, &text).1;
    if let (Some(number), false) = (refusal, beyond) {
        return format!("R {number}\n");
    }
    let (lines, ended) = lines(slip, &page, &text);
    match (ended, slip) {
        (true, LinesLeftBySix) => lines + "R 6\n",
        (true, _) => "R 6\n".into(),
        (false, LowerCase) => lines.to_lowercase().replace('l', "L"),
        (false, _) => lines,
    }
}

/// Writes lines as an archive does.
fn written(lines: &[u8], room: &mut [u8]) -> i64 {
    if lines.len() > room.len() {
        return -13;
    }
    room[..lines.len()].copy_from_slice(lines);
    lines.len() as i64
}

/// The smallest tape and text on which the driver finds an archive wrong.
fn found(set: Set, pages: u64) -> Option<Found> {
    random(&mut WordsDriver::new(set), &mut Random(5), pages).err()
}

fn found_slip(slip: Slip, pages: u64) -> Option<Found> {
    found(&|tape, text, room| written(slipped(slip, tape, text).as_bytes(), room), pages)
}

#[test]
fn a_wrong_reading_is_found() {
    assert!(found_slip(Nothing, 200).is_none());
    for slip in SLIPS.iter().copied() {
        let found = found_slip(slip, 1_000).unwrap_or_else(|| panic!("{slip:?} is let pass"));
        let records = tape::records(&found.tape).0.len();
        assert!(records <= 10, "{slip:?}: {}", found.shown());
        let words = Text::read(&found.text).map_or(0, |text| text.words.len());
        assert!(words <= 40 || (WORDS..=WORDS + 1).contains(&words), "{slip:?}: {}", found.shown());
    }
}

/// A byte past the lines; one in a room that is too short; a length that is one too many; -13 for a room just enough.
#[test]
fn a_wrong_room_is_found() {
    let right = words::set_words;
    let past = |tape: &[u8], text: &[u8], room: &mut [u8]| {
        let length = right(tape, text, room);
        room.get_mut(length.max(0) as usize).into_iter().filter(|_| length >= 0).for_each(|byte| *byte = 0);
        length
    };
    let early = |tape: &[u8], text: &[u8], room: &mut [u8]| {
        let length = right(tape, text, room);
        room.first_mut().into_iter().filter(|_| length < 0).for_each(|byte| *byte = b'L');
        length
    };
    let more = |tape: &[u8], text: &[u8], room: &mut [u8]| match right(tape, text, room) {
        -13 => -13,
        length => length + 1,
    };
    let careful = |tape: &[u8], text: &[u8], room: &mut [u8]| match room.split_last_mut() {
        Some((_, room)) => right(tape, text, room),
        None => right(tape, text, room),
    };
    assert!(found(&right, 100).is_none());
    for wrong in [&past as Set, &early, &more, &careful] {
        assert_eq!(found(wrong, 100).map(|found| tape::records(&found.tape).0.len()), Some(0));
    }
}

/// Each promise is held to: lines that break it alone are found, whatever the reading says of them.
#[test]
fn a_broken_promise_is_found() {
    let boxes = [Record::Width(100.0), tapes::plain(0, 10.0, 30.0), tapes::plain(1, 20.0, 10.0)];
    let page = Page::after(&bytes(&boxes)).unwrap();
    let text = Text { words: vec![30.0, 30.0, 50.0, 90.0], gap: 4.0, height: 10.0, min_y: 0.0, insets: [0.0, 0.0] };
    let right = page.set(&text).unwrap();
    assert_eq!(right.len(), 3);
    assert_eq!(broken(&page, &text, &right, true), None);
    let with = |at: usize, change: &dyn Fn(&mut Line)| {
        let mut lines = right.clone();
        change(&mut lines[at]);
        broken(&page, &text, &lines, true).expect("a broken promise")
    };
    let cases = [
        (with(0, &|line| line.x = 9.0), "lies over a box"),
        (with(0, &|line| line.y = -1.0), "is higher than"),
        (with(1, &|line| line.y = 9.0), "is higher than"),
        (with(0, &|line| line.count = 1), "would have fitted"),
        (with(1, &|line| line.count = 2), "do not fit"),
        (with(1, &|line| line.first = 1), "does not go on"),
        (with(1, &|line| line.count = 0), "does not go on"),
        (with(2, &|line| line.count = 2), "does not go on"),
        (broken(&page, &text, &right[..2], true).unwrap(), "is on no line"),
    ];
    for (said, told) in cases {
        assert!(said.contains(told), "{said}, and not: {told}");
    }
}
