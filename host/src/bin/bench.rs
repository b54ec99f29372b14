//! Times the archive beside the same job over the crate, row by row: host/x86-host.sh run --release --offline --locked --bin bench
//! With --markdown it prints what stands in docs/SPEED.md: the times, the instructions and the bytes stored, as far as they can be known
//! here; then the stack and the code. `--counted` is how it runs itself to be counted.

#[cfg(all(has_taffy, has_panel))]
mod run {
    use host::archive::{self, Runner};
    use host::call::WORDS;
    use host::count::{self, Counts};
    use host::rows::{self, Row, Run, SIZES};
    use host::tape::bytes;
    use host::{answers, grouped, job};
    use std::process::Command;
    use std::time::{Duration, Instant};

    /// How long one side runs before the other has its turn: a load on the machine lasts longer, and so hits both alike.
    const TURN: Duration = Duration::from_micros(50);
    /// How long the turns on one row go on before the next row has its own, and how often each row comes: so that a load which lasts
    /// hits all rows alike.
    const SPELL: Duration = Duration::from_millis(60);
    const SPELLS: usize = 20;

    /// Both sides do the same job on all tapes of the row, each in a room to spare, in one that is just enough, and in one a byte too
    /// short; with no room they give the same number. Rows whose sides differ in what they do are left out.
    fn agree(row: &Row) {
        if !row.same {
            return;
        }
        for Run { tape, room } in row.with.iter().chain(&row.without) {
            if *room == 0 {
                let [by_archive, by_crate] = row.sides.map(|run| run(tape, &mut []));
                assert!(by_archive == by_crate, "archive and crate differ: {by_archive:X}, {by_crate:X}");
                continue;
            }
            let [by_archive, by_crate] = row.sides.map(|run| {
                let lines = archive::answered(run, tape);
                let mut room = vec![0; lines.len()];
                assert!(run(tape, &mut room) == lines.len() as i64 && room == lines, "in a room just enough");
                assert!(lines.is_empty() || run(tape, &mut room[1..]) == -13, "in a room a byte too short");
                job::without_steps(&lines)
            });
            assert!(by_archive == by_crate, "{}: archive and crate differ on\n{}", row.name, host::tape::text(tape));
        }
    }

    /// Nanoseconds of one run of the tapes, over so many runs.
    fn timed(run: Runner, runs: &[Run], room: &mut [u8], times: u32) -> f64 {
        let started = Instant::now();
        for _ in 0..times {
            rows::all(run, runs, room);
        }
        started.elapsed().as_nanos() as f64 / f64::from(times)
    }

    /// Some tapes on one side: how often they are run in a turn, and the times seen.
    struct Seen {
        times: u32,
        figures: Vec<f64>,
    }

    impl Seen {
        /// The lowest tenth's edge, since another load only ever adds; and the median.
        fn figures(mut self) -> [f64; 2] {
            self.figures.sort_by(f64::total_cmp);
            [10, 2].map(|part| self.figures[self.figures.len() / part])
        }
    }

    /// The sides take turns, with the records and without, until the spell is over.
    fn spell(row: &Row, seen: &mut [[Seen; 2]; 2], room: &mut [u8]) {
        let started = Instant::now();
        while started.elapsed() < SPELL {
            for (tapes, on) in [&row.with, &row.without].into_iter().enumerate() {
                for (side, run) in row.sides.into_iter().enumerate() {
                    let Seen { times, figures } = &mut seen[side][tapes];
                    figures.push(timed(run, on, room, *times));
                    *times = (TURN.as_nanos() as f64 / figures[0]).clamp(1.0, 1.0e4) as u32;
                }
            }
        }
    }

    /// For each row and side the nanoseconds of one record, and their median.
    fn measure(rows: &[Row]) -> Vec<[[f64; 2]; 2]> {
        let fresh = || [(); 2].map(|()| [(); 2].map(|()| Seen { times: 1, figures: Vec::new() }));
        let mut seen: Vec<_> = rows.iter().map(|_| fresh()).collect();
        let mut rooms: Vec<_> = rows.iter().map(|row| rows::room(&row.with)).collect();
        for _ in 0..SPELLS {
            for ((row, seen), room) in rows.iter().zip(&mut seen).zip(&mut rooms) {
                spell(row, seen, room);
            }
        }
        let each = |(row, seen): (&Row, [[Seen; 2]; 2])| {
            seen.map(|side| {
                let [with, without] = side.map(Seen::figures);
                [0, 1].map(|at| (with[at] - without[at]) / row.records as f64)
            })
        };
        rows.iter().zip(seen).map(each).collect()
    }

    fn figure(x: f64) -> String {
        if x < 99.95 {
            format!("{x:.1}")
        } else {
            grouped(x.round() as usize)
        }
    }

    /// What each side takes, where it is known.
    fn both(sides: Option<[f64; 2]>) -> String {
        sides.map_or("- | -".into(), |sides| sides.map(figure).join(" | "))
    }

    /// And how many times the crate's the archive's is.
    fn compared(sides: Option<[f64; 2]>) -> String {
        let times = sides.map_or("-".into(), |[archive, of_crate]| format!("{:.1}", archive / of_crate));
        both(sides) + " | " + &times
    }

    fn speed(rows: &[Row]) {
        let Counts { instructions, stored } = count::counts(rows);
        let times = (!count::emulated()).then(|| measure(rows));
        print!("| | archive, ns | crate, ns | times | archive, instructions | crate, instructions | times ");
        println!("| archive, bytes stored | crate, bytes stored |");
        println!("|---|--:|--:|--:|--:|--:|--:|--:|--:|");
        for (at, row) in rows.iter().enumerate() {
            let times = compared(times.as_ref().map(|times| times[at].map(|side| side[0])));
            let [instructions, stored] = [&instructions, &stored].map(|all| all.as_ref().map(|all| all[at]));
            println!("| {} | {times} | {} | {} |", row.name, compared(instructions), both(stored));
        }
    }

    /// The bytes of code and constants that `size` finds in the archive.
    fn code() -> Option<usize> {
        let archive = concat!(env!("CARGO_MANIFEST_DIR"), "/../crates/panel/out/libpanel.a");
        let output = Command::new("size").arg(archive).output().ok()?;
        let text = String::from_utf8(output.stdout).ok()?;
        text.lines().nth(1)?.split_whitespace().next()?.parse().ok()
    }

    fn memory() {
        println!("| | bytes |");
        println!("|---|--:|");
        println!("| the archive's code and constants | {} |", code().map_or("-".into(), grouped));
        for boxes in [0].into_iter().chain(SIZES) {
            let tape = bytes(&rows::page(0, boxes));
            println!("| deepest stack, page of {boxes} | {} |", grouped(archive::panel_stack(&tape)));
        }
        let deepest = answers::sample().iter().map(|(tape, _)| archive::panel_stack(tape)).max();
        println!("| deepest stack over the stored tapes | {} |", grouped(deepest.unwrap_or(0)));
        let asked = answers::sample().iter().map(|(tape, _)| archive::innermost_stack(tape, 1, 0)).max();
        println!("| deepest stack of `bulameki_innermost` over them | {} |", grouped(asked.unwrap_or(0)));
        let asked = answers::sample().iter().map(|(tape, _)| archive::depth_stack(tape)).max();
        println!("| deepest stack of `bulameki_depth` over them | {} |", grouped(asked.unwrap_or(0)));
        for boxes in [0, SIZES[3]] {
            let deepest = archive::set_words_stack(&bytes(&rows::page(0, boxes)), &rows::text(0, WORDS));
            println!(
                "| deepest stack of `bulameki_set_words`, {WORDS} words on a page of {boxes} | {} |",
                grouped(deepest)
            );
        }
    }

    fn text(rows: &[Row]) {
        for (row, times) in rows.iter().zip(measure(rows)) {
            let [archive, of_crate] =
                times.map(|[lowest, median]| format!("{} ns (median {})", figure(lowest), figure(median)));
            let ratios = [0, 1].map(|at| times[0][at] / times[1][at]);
            println!("{}: archive {archive}, crate {of_crate}, {:.1} times ({:.1})", row.name, ratios[0], ratios[1]);
        }
    }

    pub fn bench(markdown: bool) {
        let rows = rows::rows();
        rows.iter().for_each(agree);
        if markdown {
            speed(&rows);
            println!();
            memory();
        } else if count::emulated() {
            host::say("under an emulator times say nothing: bench --markdown counts instructions");
        } else {
            text(&rows);
        }
    }
}

#[cfg(all(has_taffy, has_panel))]
fn main() -> std::process::ExitCode {
    match std::env::args().nth(1).as_deref() {
        None => run::bench(false),
        Some("--markdown") => run::bench(true),
        Some("--counted") => host::count::counted(),
        Some(other) => {
            host::say(&format!("{other} is not known: bench [--markdown]"));
            return std::process::ExitCode::FAILURE;
        }
    }
    std::process::ExitCode::SUCCESS
}

#[cfg(not(all(has_taffy, has_panel)))]
fn main() -> std::process::ExitCode {
    host::say("the bench needs taffy's float.rs and crates/panel/out/libpanel.a");
    std::process::ExitCode::FAILURE
}
