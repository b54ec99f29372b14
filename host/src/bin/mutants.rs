//! Tries changed archives, for tools/judges.py: each line of the file named is an offset from `bulameki_run_tape` in hex and the bytes
//! to put there; for each it says what the host's tapes find. The change is made in memory, in a process of its own.

#[cfg(not(all(has_taffy, has_panel)))]
fn main() {
    host::say("this needs taffy's float.rs and crates/panel/out/libpanel.a");
}

#[cfg(all(has_taffy, has_panel))]
fn main() {
    let file = std::env::args().nth(1).expect("a file of changes");
    let tapes = tried::tapes();
    assert_eq!(tried::first_difference(&tapes), None, "the archive as it is");
    for line in std::fs::read_to_string(file).unwrap().lines() {
        let (offset, bytes) = line.split_once(' ').unwrap();
        let offset = i64::from_str_radix(offset, 16).unwrap() as isize;
        let bytes: Vec<u8> = bytes.split(' ').map(|byte| u8::from_str_radix(byte, 16).unwrap()).collect();
        println!("{}", tried::outcome(offset, &bytes, &tapes));
    }
}

#[cfg(all(has_taffy, has_panel))]
mod tried {
    use host::account::Account;
    use host::archive::Setter;
    use host::driver::{other_box, other_depth};
    use host::random::Random;
    use host::tape::{bytes, Record};
    use host::words::{self, Page};
    use host::{answers, archive, boundaries, judge, rows, tapes, texts};

    /// A tape, its lines by the crate, the rooms to run it in, a band whose boxes are asked, and texts with their lines by the reading.
    pub struct Tried {
        name: &'static str,
        tape: Vec<u8>,
        lines: Vec<u8>,
        rooms: Vec<usize>,
        account: Account,
        band: usize,
        texts: Vec<[Vec<u8>; 2]>,
    }

    /// Seconds of processor time after which a changed archive is taken to run for ever; whole, all tapes take some two, emulated.
    const PATIENCE: u64 = 30;

    /// Status of a child that could not be changed, and of one that ended by a fault.
    const UNCHANGED: i32 = 101;
    const FAULT: i32 = 102;

    /// Longer tapes come last.
    const SHORT: usize = 2_000;

    fn tried(name: &'static str, tape: Vec<u8>, rooms: &[usize]) -> Tried {
        let lines = judge::lines(&tape);
        let rooms = [&[archive::room(&tape), lines.len() + 9, lines.len().saturating_sub(1)], rooms].concat();
        let account = judge::account(&tape);
        let band = tape.len() % (account.bands().len() + 1);
        let texts = texts_after(&tape);
        Tried { name, tape, lines, rooms, account, band, texts }
    }

    /// A text of each kind, one that is refused and one that is cut; after a tape that stops one as good as any.
    fn texts_after(tape: &[u8]) -> Vec<[Vec<u8>; 2]> {
        let mut random = Random(tape.len() as u64);
        let page = Page::after(tape);
        let mut some = vec![rows::text(tape.len(), 3)];
        if let Ok(page) = &page {
            let together = texts::together();
            let refused = &together[random.below(together.len())];
            let kinds = [texts::on_a_grid(&mut random, page), texts::wild(&mut random, page)];
            some.extend(kinds.into_iter().chain([texts::refused(&mut random, page, refused)]).map(|text| text.bytes()));
            some.push(some[1][1..].to_vec());
        }
        let with_lines = |text: Vec<u8>| {
            let lines = words::printed(&page, &text);
            [text, lines]
        };
        some.into_iter().map(with_lines).collect()
    }

    /// Whether a text is set otherwise than it has to be: with some room to spare, and with a byte too little.
    fn other_lines(set: Setter, tape: &[u8], text: &[u8], lines: &[u8]) -> bool {
        let differs = |room: usize| archive::difference_in(|lent| set(tape, text, lent), lines, room).is_some();
        differs(lines.len() + 9) || differs(lines.len().saturating_sub(1))
    }

    /// The stored tapes, those at the constants, faults, and some random ones of every kind.
    pub fn tapes() -> Vec<Tried> {
        let mut all: Vec<Tried> = answers::sample().into_iter().map(|(tape, _)| tried("stored", tape, &[])).collect();
        for (name, cases) in boundaries::all() {
            // of 256 codes those beside the known ones do
            let step = if name == "codes" { 5 } else { 1 };
            all.extend(cases.into_iter().step_by(step).map(|case| tried(name, case.tape, &case.rooms)));
        }
        for page in tapes::troubled_pages() {
            all.extend(tapes::faults(&page, 1).into_iter().map(|tape| tried("faults", tape, &[])));
        }
        let mut random = Random(11);
        let kinds: [fn(&mut Random) -> Vec<Record>; 6] =
            [tapes::on_a_grid, tapes::wild, tapes::deep, tapes::many_bands, tapes::calculators, tapes::mixed];
        for kind in kinds {
            all.extend((0..120).map(|_| tried("random", bytes(&kind(&mut random)), &[])));
        }
        all.extend(tapes::short_pages().step_by(211).map(|tape| tried("short pages", tape, &[])));
        all.extend(tapes::longest().into_iter().map(|tape| tried("longest", tape, &[])));
        all.sort_by_key(|tried| tried.tape.len() > SHORT);
        all
    }

    /// What a tape is that the archive answers otherwise.
    pub fn first_difference(tapes: &[Tried]) -> Option<usize> {
        let (run, innermost, depth) =
            (archive::panel().unwrap(), archive::innermost().unwrap(), archive::depth().unwrap());
        let set = archive::set_words().unwrap();
        tapes.iter().position(|tried| {
            let differs = |room: &usize| archive::difference(run, &tried.tape, &tried.lines, *room).is_some();
            let other_box = || other_box(innermost, &tried.tape, &tried.account, [tried.band]);
            let other_depth = || other_depth(depth, &tried.tape, &tried.account);
            let other_lines = |[text, lines]: &[Vec<u8>; 2]| other_lines(set, &tried.tape, text, lines);
            tried.rooms.iter().any(differs)
                || other_box().is_some()
                || other_depth().is_some()
                || tried.texts.iter().any(other_lines)
        })
    }

    extern "C" {
        fn bulameki_run_tape(tape: *const u8, tape_len: usize, answers: *mut u8, room: usize) -> i64;
        fn fork() -> i32;
        fn waitpid(child: i32, status: *mut i32, options: i32) -> i32;
        fn setrlimit(resource: i32, soft_and_hard: *const [u64; 2]) -> i32;
        fn mprotect(at: *mut u8, length: usize, protection: i32) -> i32;
        fn signal(number: i32, handler: usize) -> usize;
        fn _exit(status: i32) -> !;
    }

    /// A fault ends the child at once.
    extern "C" fn ended(_: i32) {
        // SAFETY: it may be called from a handler.
        unsafe { _exit(FAULT) }
    }

    /// Runs the changed archive in a child, which ends with 0 if it gives all lines, else with 1 to 99 by how far it came.
    pub fn outcome(offset: isize, change: &[u8], tapes: &[Tried]) -> String {
        // SAFETY: this process has one thread; the child changes its own copy of the archive and ends.
        unsafe {
            let child = fork();
            if child == 0 {
                for fault in [4, 6, 7, 8, 11] {
                    signal(fault, ended as *const () as usize);
                }
                const PROCESSOR_TIME: i32 = 0;
                setrlimit(PROCESSOR_TIME, &[PATIENCE, PATIENCE]);
                let at = (bulameki_run_tape as *const () as *mut u8).offset(offset);
                let page = (at as usize & !4_095) as *mut u8;
                const ALL: i32 = 7;
                if mprotect(page, 8_192, ALL) != 0 && mprotect(page, 4_096, ALL) != 0 {
                    _exit(UNCHANGED);
                }
                at.copy_from_nonoverlapping(change.as_ptr(), change.len());
                let found = std::panic::catch_unwind(|| first_difference(tapes));
                _exit(match found {
                    Ok(None) => 0,
                    Ok(Some(at)) => 1 + (at * 99 / tapes.len()) as i32,
                    Err(_) => FAULT,
                });
            }
            let mut status = 0;
            assert_eq!(waitpid(child, &mut status, 0), child);
            match (status & 127, status >> 8) {
                (0, 0) => "let pass".into(),
                (0, UNCHANGED) => panic!("the archive can't be changed"),
                (0, FAULT) => "caught: ends by a fault".into(),
                (0, part) => format!("caught: other lines, {}", tapes[(part as usize - 1) * tapes.len() / 99].name),
                (9 | 24, _) => "caught: runs for ever".into(),
                _ => "caught: ends by a fault".into(),
            }
        }
    }
}
