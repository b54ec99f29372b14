//! The bench's Rust program beside the judge, on tapes of every kind: every line but for the step count, -13 in a room too short, and the
//! depth. So for the words beside the reading.
#![cfg(has_taffy)]

use host::archive;
use host::job;
use host::judge::{Counts, Judge};
use host::random::Random;
use host::tape::{self, bytes, LONGEST};
use host::tapes;
use host::texts;
use host::words::{self, Page};

#[test]
fn job_and_judge_agree() {
    let mut random = Random(7);
    let kinds = [tapes::on_a_grid, tapes::wild, tapes::deep, tapes::many_bands, tapes::calculators, tapes::mixed];
    let random = (0..6_000).flat_map(|number| [bytes(&kinds[number % 6](&mut random)), tapes::any_bytes(&mut random)]);
    let troubled = tapes::troubled_pages().into_iter().flat_map(|page| tapes::faults(&page, 1));
    let mut counts = Counts::default();
    for tape in troubled.chain(tapes::longest()).chain(random) {
        let mut judge = Judge::default();
        judge.counts = counts;
        let wanted = judge.lines(&tape);
        counts = judge.counts;
        let lines = archive::answered(job::run, &tape);
        assert!(job::without_steps(&lines) == job::without_steps(&wanted), "they differ on\n{}", tape::text(&tape));
        let mut room = vec![0; lines.len()];
        assert!(job::run(&tape, &mut room) == lines.len() as i64 && room == lines);
        assert!(lines.is_empty() || job::run(&tape, &mut room[1..]) == -13);
        assert_eq!(job::depth(&tape, &mut []), judge.account.told_depth(), "the depth after\n{}", tape::text(&tape));
    }
    assert!(counts.refusals[1..=8].iter().all(|count| *count > 0), "{counts:?}");
}

#[test]
fn job_and_reading_agree() {
    let mut random = Random(8);
    let kinds = [tapes::on_a_grid, tapes::wild, tapes::deep, tapes::many_bands, tapes::mixed];
    let together = texts::together();
    let long = vec![0; LONGEST + 1];
    let (mut lines_seen, mut refusals) = (0, 0);
    for number in 0..3_000 {
        let tape = bytes(&kinds[number % 5](&mut random));
        let page = Page::after(&tape);
        let Ok(drawn) = &page else { panic!("a tape of whole records stops") };
        let refused = texts::refused(&mut random, drawn, &together[number % together.len()]);
        for text in [texts::on_a_grid(&mut random, drawn), texts::wild(&mut random, drawn), refused] {
            let text = text.bytes();
            let wanted = words::printed(&page, &text);
            let shown = || format!("they differ on\n{}{}", tape::text(&tape), host::text::shown(&text));
            let mut room = vec![0; archive::set_room(&text)];
            assert_eq!(job::set_words(&tape, &text, &mut room), wanted.len() as i64, "{}", shown());
            assert!(room.starts_with(&wanted), "{}", shown());
            room.truncate(wanted.len());
            assert_eq!(job::set_words(&tape, &text, &mut room), wanted.len() as i64, "{}", shown());
            assert!(wanted.is_empty() || job::set_words(&tape, &text, &mut room[1..]) == -13, "{}", shown());
            lines_seen += wanted.iter().filter(|byte| **byte == b'L').count();
            refusals += usize::from(wanted.starts_with(b"R"));
        }
        let other = texts::wild(&mut random, drawn).bytes();
        let stopped = [&tape[..], &[8]].concat();
        for (tape, text) in [(&stopped, &other[..]), (&tape, &other[1..]), (&long, &other)] {
            let mut room = [0; 8];
            let wanted = words::printed(&Page::after(tape), text);
            assert_eq!(job::set_words(tape, text, &mut room), wanted.len() as i64);
            assert!(room.starts_with(&wanted));
        }
    }
    assert!(lines_seen > 50_000 && refusals > 3_000, "{lines_seen} lines, {refusals} refusals");
}
