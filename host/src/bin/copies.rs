//! Counts what the archive copies in each call, by a memcpy that counts, and what a page takes on both sides, as it stands in
//! docs/SPEED.md: host/x86-host.sh run --release --offline --locked --bin copies
//! It is a binary of its own so that the bench runs with libc's memcpy.

#[cfg(all(has_taffy, has_panel))]
mod run {
    use host::archive::Runner;
    use host::call::Call;
    use host::float_read::FloatContext;
    use host::grouped;
    use host::rows::{self, Run, SIZES};
    use host::tape::Record;
    use host::Clear;
    use std::alloc::{GlobalAlloc, Layout, System};
    use std::arch::asm;
    use std::mem::size_of;
    use std::sync::atomic::{AtomicU64, AtomicUsize, Ordering::Relaxed};

    const SIZED: usize = 4_096;
    /// By size the number of copies; the last counts every longer one too.
    static COPIES: [AtomicU64; SIZED] = [const { AtomicU64::new(0) }; SIZED];

    /// Stands before libc's for the archive, which takes it by this name.
    #[no_mangle]
    unsafe extern "C" fn memcpy(to: *mut u8, from: *const u8, length: usize) -> *mut u8 {
        COPIES[length.min(SIZED - 1)].fetch_add(1, Relaxed);
        // SAFETY: the caller's pointers are good for the length. A loop in Rust might become a call of memcpy itself.
        unsafe { asm!("rep movsb", inout("rdi") to => _, inout("rsi") from => _, inout("rcx") length => _) };
        to
    }

    /// The bytes that are allocated and not given back.
    static ALLOCATED: AtomicUsize = AtomicUsize::new(0);

    struct Counting;

    // SAFETY: every call is handed on to the system's allocator.
    unsafe impl GlobalAlloc for Counting {
        unsafe fn alloc(&self, layout: Layout) -> *mut u8 {
            ALLOCATED.fetch_add(layout.size(), Relaxed);
            unsafe { System.alloc(layout) }
        }
        unsafe fn dealloc(&self, at: *mut u8, layout: Layout) {
            ALLOCATED.fetch_sub(layout.size(), Relaxed);
            unsafe { System.dealloc(at, layout) }
        }
    }

    #[global_allocator]
    static ALLOCATOR: Counting = Counting;

    /// By size the copies that the archive makes in some runs.
    fn counted(run: Runner, runs: &[Run]) -> Vec<u64> {
        let mut room = rows::room(runs);
        COPIES.iter().for_each(|count| count.store(0, Relaxed));
        rows::all(run, runs, &mut room);
        COPIES.iter().map(|count| count.load(Relaxed)).collect()
    }

    fn copies() {
        println!("| | copies, length × number | bytes |");
        println!("|---|---|--:|");
        for row in rows::rows().iter().filter(|row| !row.without.is_empty()) {
            let (with, without) = (counted(row.sides[0], &row.with), counted(row.sides[0], &row.without));
            let number = |length: usize| (with[length] as f64 - without[length] as f64) / row.records as f64;
            // what is shorter is the line that the record prints
            let seen: Vec<usize> = (64..SIZED).rev().filter(|length| number(*length) != 0.0).collect();
            let each: Vec<String> =
                seen.iter().map(|length| format!("{} × {:.1}", grouped(*length), number(*length))).collect();
            let bytes: f64 = seen.iter().map(|length| *length as f64 * number(*length)).sum();
            println!("| {} | {} | {} |", row.name, each.join(", "), grouped(bytes as usize));
        }
    }

    /// What the crate's page takes: itself, and what it holds elsewhere.
    fn of_the_crate(records: &[Record]) -> usize {
        let before = ALLOCATED.load(Relaxed);
        let mut page = FloatContext::new();
        for record in records {
            match Call::of(record).expect("accepted") {
                Call::Width(width) => page.set_width(width),
                Call::Place(of) => {
                    let min_y = page.raised(of.min_y, of.clear);
                    page.place_floated_box(of.size, min_y, of.insets, of.side, Clear::None);
                }
                _ => {}
            }
        }
        size_of::<FloatContext>() + ALLOCATED.load(Relaxed) - before
    }

    /// The archive's page: bands, boxes, and the fields beside them.
    const PAGE: usize = 96 * 24 + 64 * 20 + 72;

    fn pages() {
        println!("| a page of | archive, bytes | crate, bytes |");
        println!("|--:|--:|--:|");
        for boxes in [0].into_iter().chain(SIZES) {
            println!("| {boxes} | {} | {} |", grouped(PAGE), grouped(of_the_crate(&rows::page(0, boxes))));
        }
    }

    pub fn main() {
        copies();
        println!();
        pages();
    }
}

#[cfg(all(has_taffy, has_panel))]
fn main() {
    run::main()
}

#[cfg(not(all(has_taffy, has_panel)))]
fn main() -> std::process::ExitCode {
    host::say("the copies need taffy's float.rs and crates/panel/out/libpanel.a");
    std::process::ExitCode::FAILURE
}
