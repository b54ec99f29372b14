//! The proved archives, as the host calls them, and which of them are linked.

/// Runs a tape into the room lent: how many bytes were written, or -13.
pub type Runner = fn(&[u8], &mut [u8]) -> i64;

/// Which box stands innermost in a band on a side, after a tape: its number, or one of the two below.
pub type Innermost = fn(&[u8], usize, u8) -> i64;

/// How deep the page after a tape is: the 32 bits of an f32, or NO_BOX.
pub type Depth = fn(&[u8]) -> i64;

/// Sets a text on the page after a tape, into the room lent: how many bytes were written, or -13.
pub type Setter = fn(&[u8], &[u8], &mut [u8]) -> i64;

/// Given where the band has no float on that side, where there is no such band, and where no box was accepted.
pub const NO_BOX: i64 = -100;

/// Given for a side that is neither 0 nor 1: minus refusal 1.
pub const UNKNOWN_SIDE: i64 = -1;

#[cfg(has_panel)]
extern "C" {
    fn bulameki_run_tape(tape: *const u8, tape_len: usize, answers: *mut u8, room: usize) -> i64;
    fn bulameki_innermost(tape: *const u8, tape_len: usize, band: usize, side: u8) -> i64;
    fn bulameki_depth(tape: *const u8, tape_len: usize) -> i64;
    fn bulameki_set_words(
        tape: *const u8,
        tape_len: usize,
        text: *const u8,
        text_len: usize,
        answers: *mut u8,
        room: usize,
    ) -> i64;
}

/// `bulameki_run_tape` of the archive that ships, where it is linked.
pub fn panel() -> Option<Runner> {
    // SAFETY: both pointers are those of slices of the lengths given.
    #[cfg(has_panel)]
    return Some(|tape, room| unsafe { bulameki_run_tape(tape.as_ptr(), tape.len(), room.as_mut_ptr(), room.len()) });
    #[cfg(not(has_panel))]
    None
}

/// `bulameki_innermost` of the same archive.
pub fn innermost() -> Option<Innermost> {
    // SAFETY: the pointer is that of a slice of the length given.
    #[cfg(has_panel)]
    return Some(|tape, band, side| unsafe { bulameki_innermost(tape.as_ptr(), tape.len(), band, side) });
    #[cfg(not(has_panel))]
    None
}

/// `bulameki_depth` of the same archive.
pub fn depth() -> Option<Depth> {
    // SAFETY: as above.
    #[cfg(has_panel)]
    return Some(|tape| unsafe { bulameki_depth(tape.as_ptr(), tape.len()) });
    #[cfg(not(has_panel))]
    None
}

/// `bulameki_set_words` of the same archive.
pub fn set_words() -> Option<Setter> {
    // SAFETY: all pointers are those of slices of the lengths given.
    #[cfg(has_panel)]
    return Some(|tape, text, room| unsafe {
        bulameki_set_words(tape.as_ptr(), tape.len(), text.as_ptr(), text.len(), room.as_mut_ptr(), room.len())
    });
    #[cfg(not(has_panel))]
    None
}

/// The functions of an archive that answer of a tape alone; those that are none are not compared.
#[derive(Clone, Copy, Default)]
pub struct Functions {
    pub run: Option<Runner>,
    pub innermost: Option<Innermost>,
    pub depth: Option<Depth>,
}

/// Those of the archive that ships.
pub fn functions() -> Functions {
    Functions { run: panel(), innermost: innermost(), depth: depth() }
}

/// Room that is surely enough for the lines of a tape, as the C header reckons it.
pub fn room(tape: &[u8]) -> usize {
    (11 * tape.len()).max(2)
}

/// Room that is surely enough for what is answered of a text: 28 bytes for each word, of which there are 512 at most; else 8 at most.
pub fn set_room(text: &[u8]) -> usize {
    (7 * text.len().saturating_sub(22)).clamp(8, 28 * 512)
}

/// The lines of a tape, by a run in such a room.
pub fn answered(run: Runner, tape: &[u8]) -> Vec<u8> {
    let mut lent = vec![0; room(tape)];
    let length = run(tape, &mut lent);
    lent.truncate(usize::try_from(length).expect("the room is surely enough"));
    lent
}

/// How a run of a tape differs from the judge, if it does.
pub fn difference(run: Runner, tape: &[u8], lines: &[u8], room: usize) -> Option<String> {
    difference_in(|lent| run(tape, lent), lines, room)
}

/// Stands in the room before a call, and around it; no line has this byte.
const GUARD: u8 = 0xEE;
const MARGIN: usize = 64;

/// How what a call leaves in its room differs, if it does: its result, the lines, and every byte around them.
pub fn difference_in(call: impl Fn(&mut [u8]) -> i64, lines: &[u8], room: usize) -> Option<String> {
    let mut lent = vec![GUARD; MARGIN + room + MARGIN];
    let result = call(&mut lent[MARGIN..MARGIN + room]);
    let fits = lines.len() <= room;
    let written = if fits { lines } else { &[] };
    let expected = if fits { lines.len() as i64 } else { -13 };
    let (before, rest) = lent.split_at(MARGIN);
    let (answered, after) = rest.split_at(written.len());
    if result == expected && answered == written && before.iter().chain(after).all(|byte| *byte == GUARD) {
        return None;
    }
    let mut shown: Vec<u8> = lent[MARGIN..MARGIN + room].to_vec();
    shown.truncate(shown.iter().rposition(|byte| *byte != GUARD).map_or(0, |last| last + 1));
    Some(format!(
        "room {room}: result {result}, expected {expected}\nthe archive's lines:\n{}the lines expected:\n{}",
        String::from_utf8_lossy(&shown),
        String::from_utf8_lossy(written)
    ))
}

/// `bulameki_run_tape` with null for both, of length 0: a tape of no bytes gives no line.
#[cfg(has_panel)]
pub fn panel_of_nothing() -> i64 {
    // SAFETY: the header allows null where the length is 0.
    unsafe { bulameki_run_tape(std::ptr::null(), 0, std::ptr::null_mut(), 0) }
}

/// `bulameki_innermost` with null for the tape, of length 0.
#[cfg(has_panel)]
pub fn innermost_of_nothing(band: usize, side: u8) -> i64 {
    // SAFETY: as above.
    unsafe { bulameki_innermost(std::ptr::null(), 0, band, side) }
}

/// `bulameki_depth` with the same.
#[cfg(has_panel)]
pub fn depth_of_nothing() -> i64 {
    // SAFETY: as above.
    unsafe { bulameki_depth(std::ptr::null(), 0) }
}

/// `bulameki_set_words` with null for the tape and for the room, both of length 0; for the text too, where it has no byte.
#[cfg(has_panel)]
pub fn set_on_nothing(text: &[u8]) -> i64 {
    let at = if text.is_empty() { std::ptr::null() } else { text.as_ptr() };
    // SAFETY: as above.
    unsafe { bulameki_set_words(std::ptr::null(), 0, at, text.len(), std::ptr::null_mut(), 0) }
}

/// `bulameki_run_tape` on a tape that others may change meanwhile, into room that nothing else refers to.
///
/// # Safety
/// The pointers are those of so many bytes, which stay where they are.
#[cfg(has_panel)]
pub unsafe fn panel_raw(tape: *const u8, tape_len: usize, answers: *mut u8, room: usize) -> i64 {
    bulameki_run_tape(tape, tape_len, answers, room)
}

/// `bulameki_set_words` on a tape and a text that others may change meanwhile, likewise.
///
/// # Safety
/// As above.
#[cfg(has_panel)]
pub unsafe fn set_words_raw(
    tape: *const u8,
    tape_len: usize,
    text: *const u8,
    text_len: usize,
    answers: *mut u8,
    room: usize,
) -> i64 {
    bulameki_set_words(tape, tape_len, text, text_len, answers, room)
}

/// How deep the stack of `bulameki_run_tape` is on a tape, its return address counted.
#[cfg(has_panel)]
pub fn panel_stack(tape: &[u8]) -> usize {
    let mut room = vec![0; room(tape)];
    // SAFETY: it takes the tape and the room, each as pointer and length.
    unsafe { stack(bulameki_run_tape as *const (), tape, &[room.as_mut_ptr() as usize, room.len()]) }
}

/// That of `bulameki_innermost`.
#[cfg(has_panel)]
pub fn innermost_stack(tape: &[u8], band: usize, side: u8) -> usize {
    // SAFETY: it takes the tape and two plain numbers.
    unsafe { stack(bulameki_innermost as *const (), tape, &[band, usize::from(side)]) }
}

/// That of `bulameki_depth`.
#[cfg(has_panel)]
pub fn depth_stack(tape: &[u8]) -> usize {
    // SAFETY: it takes the tape alone.
    unsafe { stack(bulameki_depth as *const (), tape, &[]) }
}

/// That of `bulameki_set_words`.
#[cfg(has_panel)]
pub fn set_words_stack(tape: &[u8], text: &[u8]) -> usize {
    let mut room = vec![0; set_room(text)];
    let more = [text.as_ptr() as usize, text.len(), room.as_mut_ptr() as usize, room.len()];
    // SAFETY: it takes the tape, the text and the room, each as pointer and length.
    unsafe { stack(bulameki_set_words as *const (), tape, &more) }
}

/// How deep the stack of a call with a tape and up to four further arguments is: it runs on a painted one.
///
/// # Safety
/// It is a C function that takes the tape as pointer and length, then these.
#[cfg(has_panel)]
unsafe fn stack(call: *const (), tape: &[u8], more: &[usize]) -> usize {
    const PAINT: u8 = 0xA5;
    let mut stack = vec![PAINT; 1 << 20];
    let top = stack.as_mut_ptr_range().end as usize & !15;
    let argument = |at: usize| more.get(at).copied().unwrap_or(0);
    // SAFETY: the call finds an aligned stack and leaves it as it was.
    unsafe {
        std::arch::asm!(
            "mov r12, rsp",
            "mov rsp, {top}",
            "call {call}",
            "mov rsp, r12",
            top = in(reg) top,
            call = in(reg) call,
            in("rdi") tape.as_ptr(),
            in("rsi") tape.len(),
            in("rdx") argument(0),
            in("rcx") argument(1),
            in("r8") argument(2),
            in("r9") argument(3),
            out("r12") _,
            clobber_abi("C"),
        );
    }
    let untouched = stack.iter().take_while(|byte| **byte == PAINT).count();
    top - stack.as_ptr() as usize - untouched
}

/// The leaves on numbers, exported for tests alone.
#[cfg(has_probe)]
pub mod probe {
    mod raw {
        extern "C" {
            pub fn probe_larger(a: f32, b: f32) -> f32;
            pub fn probe_smaller(a: f32, b: f32) -> f32;
            pub fn probe_plus_zero(x: f32) -> f32;
            pub fn probe_finite(x: f32) -> u8;
            pub fn probe_length_allowed(x: f32) -> u8;
            pub fn probe_offset_allowed(x: f32) -> u8;
            pub fn probe_reach_allowed(x: f32) -> u8;
            pub fn probe_fits(
                side: u8,
                width: f32,
                page: f32,
                band_left: f32,
                band_right: f32,
                inset_left: f32,
                inset_right: f32,
            ) -> u8;
            pub fn probe_kept(
                count: usize,
                which: usize,
                wide: f32,
                side: u8,
                width: f32,
                height: f32,
                step: f32,
            ) -> f32;
            pub fn probe_kept_in(
                count: usize,
                which: usize,
                wide: f32,
                side: u8,
                width: f32,
                height: f32,
                step: f32,
            ) -> f32;
        }
    }

    // SAFETY, of all: the functions take and give plain numbers.
    pub fn larger(a: f32, b: f32) -> f32 {
        unsafe { raw::probe_larger(a, b) }
    }
    pub fn smaller(a: f32, b: f32) -> f32 {
        unsafe { raw::probe_smaller(a, b) }
    }
    pub fn plus_zero(x: f32) -> f32 {
        unsafe { raw::probe_plus_zero(x) }
    }
    pub fn finite(x: f32) -> u8 {
        unsafe { raw::probe_finite(x) }
    }
    pub fn length_allowed(x: f32) -> u8 {
        unsafe { raw::probe_length_allowed(x) }
    }
    pub fn offset_allowed(x: f32) -> u8 {
        unsafe { raw::probe_offset_allowed(x) }
    }
    pub fn reach_allowed(x: f32) -> u8 {
        unsafe { raw::probe_reach_allowed(x) }
    }
    pub fn fits(side: u8, width: f32, page: f32, band: [f32; 2], containing: [f32; 2]) -> u8 {
        unsafe { raw::probe_fits(side, width, page, band[0], band[1], containing[0], containing[1]) }
    }
    pub fn kept(count: usize, which: usize, wide: f32, side: u8, size: [f32; 2], step: f32) -> f32 {
        unsafe { raw::probe_kept(count, which, wide, side, size[0], size[1], step) }
    }
    pub fn kept_in(count: usize, which: usize, wide: f32, side: u8, size: [f32; 2], step: f32) -> f32 {
        unsafe { raw::probe_kept_in(count, which, wide, side, size[0], size[1], step) }
    }
}
