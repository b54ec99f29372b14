//! The archive at each constant of document 01: the end of each answer is told, and all of it is the crate's, where it is at hand; so are
//! the boxes' numbers in the bands, and the depth.
#![cfg(has_panel)]

use host::archive;
use host::boundaries::{self, Case};
#[cfg(has_taffy)]
use host::driver::{every_band, other_box, other_depth};
use host::tape;

fn check(name: &str, case: &Case) {
    let run = archive::panel().unwrap();
    let lines = archive::answered(run, &case.tape);
    let rooms = [lines.len() + 9, lines.len(), lines.len().saturating_sub(1)];
    for room in rooms.iter().chain(&case.rooms) {
        let difference = archive::difference(run, &case.tape, &lines, *room);
        assert!(difference.is_none(), "{name}: {}{}", tape::text(&case.tape), difference.unwrap());
    }
    let answer = String::from_utf8(lines).unwrap();
    let all: Vec<&str> = answer.lines().collect();
    let last = &all[all.len() - case.told.len()..];
    for (line, told) in last.iter().zip(&case.told) {
        let same = told.strip_suffix('*').map_or(line == told, |start| line.starts_with(start));
        assert!(same, "{name}: {last:?} and not {:?}, of\n{}", case.told, tape::text(&case.tape));
    }
    #[cfg(has_taffy)]
    {
        let tape = &case.tape;
        assert!(
            answer.as_bytes() == host::judge::lines(tape),
            "{name}: the crate answers otherwise than {last:?}, of\n{}",
            tape::text(tape)
        );
        let account = host::judge::account(tape);
        let other_box = other_box(archive::innermost().unwrap(), tape, &account, every_band(&account));
        let other = other_box.or_else(|| other_depth(archive::depth().unwrap(), tape, &account));
        assert!(other.is_none(), "{name}: {}, of\n{}", other.unwrap(), tape::text(tape));
    }
}

#[test]
fn at_each_constant() {
    let mut count = 0;
    for (name, cases) in boundaries::all() {
        assert!(!cases.is_empty(), "{name}");
        cases.iter().for_each(|case| check(name, case));
        count += cases.len();
    }
    host::say(&format!("{count} tapes at the constants of document 01"));
}
