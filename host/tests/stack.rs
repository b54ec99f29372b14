//! The stack that the C header says a call takes at most is the one that it takes: of the words, and of all other functions.
#![cfg(has_panel)]

use host::archive::{depth_stack, innermost_stack, panel_stack, set_words_stack};
use host::stored;
use host::text::Text;
use std::path::Path;

/// As include/bulameki.h has it, on one line.
fn said(name: &str) -> usize {
    let header = include_str!("../../include/bulameki.h");
    let line = header.lines().find_map(|line| line.strip_prefix("#define ")?.strip_prefix(name)?.strip_prefix(' '));
    line.unwrap_or_else(|| panic!("the header does not say {name}")).trim().parse().expect("in one number")
}

#[test]
fn is_as_the_header_says() {
    let file = Path::new(env!("CARGO_MANIFEST_DIR")).join("../crates/replay/stdin");
    let tapes = stored::read(&std::fs::read(file).unwrap()).expect("crates/replay/stdin breaks off");
    let some = || tapes.iter().step_by(10).map(|(tape, _)| tape);
    let run = some().map(|tape| panel_stack(tape)).max().unwrap();
    let innermost = some().map(|tape| innermost_stack(tape, 1, 0)).max().unwrap();
    let depth = some().map(|tape| depth_stack(tape)).max().unwrap();
    assert!(run > 0 && innermost > 0 && depth > 0);
    assert_eq!(
        said("BULAMEKI_STACK"),
        run.max(innermost).max(depth),
        "BULAMEKI_STACK of include/bulameki.h, and what each tenth of the stored tapes takes at most: run {run}, innermost {innermost}, \
         depth {depth}"
    );
    // none, some on a line, each on its own, and a line that is refused
    let text = |words, height| Text { words, gap: 4.0, height, min_y: 0.0, insets: [0.0, 0.0] }.bytes();
    let texts = [vec![], vec![5.0; 512], vec![60_000.0; 512]]
        .into_iter()
        .flat_map(|words| [14.0, 9_000.0].map(|height| text(words.clone(), height)));
    let texts: Vec<Vec<u8>> = texts.collect();
    let words = some().flat_map(|tape| texts.iter().map(|text| set_words_stack(tape, text))).max().unwrap();
    assert_eq!(
        said("BULAMEKI_WORDS_STACK"),
        words,
        "BULAMEKI_WORDS_STACK of it, and what some texts take at most after those tapes"
    );
}
