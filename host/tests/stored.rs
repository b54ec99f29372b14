//! What the repository stores of the crate's answers, held to the crate where it is at hand and to the archive where it is linked. A call
//! that clears is asked of the crate without clear, at the raised min_y.

use host::archive;
use host::stored;
use std::path::{Path, PathBuf};

fn root() -> PathBuf {
    Path::new(env!("CARGO_MANIFEST_DIR")).join("..")
}

/// Each sample tape with the lines beside it, by its name, and each stored pair, by its number.
fn pairs() -> Vec<(String, stored::Pair)> {
    let mut all = Vec::new();
    for entry in std::fs::read_dir(root().join("examples")).into_iter().flatten() {
        let path = entry.unwrap().path();
        if path.extension().is_some_and(|ending| ending == "tape") {
            if let Ok(lines) = std::fs::read(path.with_extension("lines")) {
                all.push((path.display().to_string(), (std::fs::read(&path).unwrap(), lines)));
            }
        }
    }
    if let Ok(file) = std::fs::read(root().join("crates/replay/stdin")) {
        let stored = stored::read(&file).expect("crates/replay/stdin breaks off");
        all.extend(stored.into_iter().enumerate().map(|(number, pair)| (format!("stored tape {number}"), pair)));
    }
    all
}

#[cfg(has_taffy)]
#[test]
fn crate_gives_them() {
    for (name, (tape, lines)) in pairs() {
        let judged = host::judge::lines(&tape);
        assert_eq!(String::from_utf8_lossy(&judged), String::from_utf8_lossy(&lines), "{name}");
    }
}

/// So does the program that the bench measures the archive against, but for the step count.
#[cfg(has_taffy)]
#[test]
fn job_gives_them() {
    use host::job::{run, without_steps};
    for (name, (tape, lines)) in pairs() {
        assert_eq!(without_steps(&archive::answered(run, &tape)), without_steps(&lines), "{name}");
    }
}

/// In a room to spare, in one that is just enough, and not in one that is a byte too short.
#[test]
fn archive_gives_them() {
    let Some(run) = archive::panel() else { return };
    for (name, (tape, lines)) in pairs() {
        for room in [lines.len() + 9, lines.len(), lines.len().saturating_sub(1)] {
            let difference = archive::difference(run, &tape, &lines, room);
            assert!(difference.is_none(), "{name}: {}", difference.unwrap());
        }
    }
}

#[cfg(has_panel)]
#[test]
fn nothing_at_null() {
    assert_eq!(archive::panel_of_nothing(), 0);
}

/// The stored file is the one that `answers` writes, and it is a sample of everything.
#[cfg(has_taffy)]
#[test]
fn stored_file_is_the_sample() {
    let sample = host::answers::sample();
    let file = stored::write(&sample);
    assert_eq!(stored::read(&file).as_ref(), Some(&sample));
    assert_eq!(stored::read(&file[..file.len() - 1]), None);
    assert!(sample.len() >= 1_000 && file.len() <= 400_000, "{} tapes, {} bytes", sample.len(), file.len());
    let lines: String = sample.iter().map(|(_, lines)| String::from_utf8_lossy(lines)).collect();
    let starts = |start: &str| lines.lines().filter(|line| line.starts_with(start)).count();
    for start in ["N", "W", "P", "C -", "C 1", "B -", "B 1", "S", "A", "I", "T"] {
        assert!(starts(start) > 20, "{} lines begin with {start}", starts(start));
    }
    for number in 1..=8 {
        assert!(starts(&format!("R {number}")) > 20, "{} refusals {number}", starts(&format!("R {number}")));
    }
    // tapes with a page that clears, and those that the crate as it is answers otherwise
    let clearing = sample.iter().filter(|(tape, _)| host::tape::pages(tape).iter().any(|page| page.clears)).count();
    let as_it_is = |tape: &[u8]| host::judge::Judge::asking(host::raised::Asking::AsItIs).lines(tape);
    let otherwise = sample.iter().filter(|(tape, lines)| as_it_is(tape) != *lines).count();
    assert!(clearing > 20 && otherwise > 20, "{clearing} tapes clear, {otherwise} are answered otherwise");
    if let Ok(there) = std::fs::read(root().join("crates/replay/stdin")) {
        assert!(there == file, "crates/replay/stdin is another file than `answers` writes");
    }
}
