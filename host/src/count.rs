//! Counts what the rows' runs do on both sides: the instructions, by valgrind's callgrind or by count.c, a plugin of qemu-user; and the
//! bytes stored, by the plugin alone. Either way the bench starts itself anew, as `bench --counted`.

use crate::archive::Runner;
use crate::rows::{self, Row, Run};
use std::arch::asm;
use std::path::Path;
use std::process::{Command, Stdio};

/// Whether x86-host.sh runs this on a processor that is none, so that times say nothing.
pub fn emulated() -> bool {
    std::env::var_os("HOST_EMULATED").is_some()
}

/// What is counted. callgrind knows it by its name, the plugin by the marks within, which do nothing.
#[no_mangle]
#[inline(never)]
extern "C" fn bench_counted(run: &Runner, runs: &Vec<Run>, room: &mut Vec<u8>) {
    // SAFETY: a no-operation touches nothing, whatever its operand.
    unsafe { asm!("nop dword ptr [rax + 0x42554C00]") };
    rows::all(*run, runs, room);
    unsafe { asm!("nop dword ptr [rax + 0x42554C01]") };
}

/// Runs every row once on each side, with and without its records, after a first time that is not counted.
pub fn counted() {
    for row in rows::rows() {
        for run in row.sides {
            for runs in [&row.with, &row.without] {
                let mut room = rows::room(runs);
                rows::all(run, runs, &mut room);
                bench_counted(&run, runs, &mut room);
            }
        }
    }
}

/// For each row what one record takes on each side.
type Each = Vec<[f64; 2]>;

#[derive(Default)]
pub struct Counts {
    pub instructions: Option<Each>,
    pub stored: Option<Each>,
}

/// What can be counted here.
pub fn counts(rows: &[Row]) -> Counts {
    let folder = std::env::temp_dir().join(format!("bulameki-bench-{}", std::process::id()));
    if std::fs::create_dir_all(&folder).is_err() {
        return Counts::default();
    }
    let by_plugin = plugin(&folder.join("plugin"));
    let by_valgrind = if emulated() { None } else { callgrind(&folder, 4 * rows.len()) };
    let _ = std::fs::remove_dir_all(&folder);
    let part = |at: usize| by_plugin.as_ref().map(|lines| lines.iter().map(|line| line[at]).collect());
    let each = |counts: Vec<f64>| {
        let records = rows.iter().map(|row| row.records as f64);
        counts.chunks_exact(4).zip(records).map(|(c, n)| [(c[0] - c[1]) / n, (c[2] - c[3]) / n]).collect()
    };
    let instructions = if emulated() { part(0) } else { by_valgrind };
    if instructions.is_none() {
        crate::say("neither valgrind nor the plugin is at hand: instructions are not counted");
    }
    Counts { instructions: instructions.map(each), stored: part(1).map(each) }
}

fn succeeds(command: &mut Command) -> bool {
    let Ok(myself) = std::env::current_exe() else { return false };
    let status = command.arg(myself).arg("--counted").stdout(Stdio::null()).stderr(Stdio::null()).status();
    status.is_ok_and(|status| status.success())
}

/// Instructions and bytes stored, for each time that `bench_counted` ran; x86-host.sh says where the plugin is.
fn plugin(out: &Path) -> Option<Vec<[f64; 2]>> {
    let plugin = std::env::var("HOST_COUNTER").ok()?;
    if !succeeds(Command::new("qemu-x86_64").arg("-plugin").arg(format!("{plugin},out={}", out.display()))) {
        return None;
    }
    let text = std::fs::read_to_string(out).ok()?;
    let line = |line: &str| {
        let (instructions, stored) = line.split_once(' ')?;
        Some([instructions.parse().ok()?, stored.parse().ok()?])
    };
    text.lines().map(line).collect()
}

/// The instructions, for each time that `bench_counted` returned.
fn callgrind(folder: &Path, expected: usize) -> Option<Vec<f64>> {
    let out = format!("--callgrind-out-file={}", folder.join("out").display());
    let arguments = ["--tool=callgrind", "--toggle-collect=bench_counted", "--dump-after=bench_counted", &out];
    if !succeeds(Command::new("valgrind").args(arguments)) {
        return None;
    }
    let total = |number: usize| {
        let text = std::fs::read_to_string(folder.join(format!("out.{number}"))).ok()?;
        text.lines().find_map(|line| line.strip_prefix("totals: ")?.trim().parse().ok())
    };
    (1..=expected).map(total).collect()
}
