//! A tape or a text that changes during the call: whatever it is answered, nothing is written past the room, nor before it.
#![cfg(has_panel)]

use host::archive::{panel_raw, set_words_raw};
use host::tape::{bytes, Record};
use host::text::Text;
use std::sync::atomic::{AtomicBool, AtomicU8, Ordering::Relaxed};

const PAGE: usize = 4_096;
const ROOM_PAGES: usize = 4;
/// Stands beside the room inside its pages; no line has this byte.
const GUARD: u8 = 0xEE;

extern "C" {
    fn mmap(at: *mut u8, length: usize, protection: i32, flags: i32, file: i32, offset: i64) -> *mut u8;
    fn mprotect(at: *mut u8, length: usize, protection: i32) -> i32;
    fn signal(number: i32, handler: usize) -> usize;
    fn write(file: i32, bytes: *const u8, length: usize) -> isize;
    fn _exit(status: i32) -> !;
}

/// A write to a guard page ends the test, and says why.
extern "C" fn touched(_: i32) {
    let said = b"\nhost: FAILED: the archive wrote past its room, into a guard page\n";
    // SAFETY: both calls may be made from a handler.
    unsafe {
        write(2, said.as_ptr(), said.len());
        _exit(1)
    }
}

/// Some pages of GUARD between two pages that may not be touched.
fn guarded() -> *mut u8 {
    const NONE: i32 = 0;
    const READ_WRITE: i32 = 3;
    const PRIVATE_ANONYMOUS: i32 = 0x22;
    // SAFETY: the pages are new, and nothing else refers to them.
    unsafe {
        let all = mmap(std::ptr::null_mut(), (ROOM_PAGES + 2) * PAGE, NONE, PRIVATE_ANONYMOUS, -1, 0);
        assert_ne!(all as isize, -1, "no pages");
        let inner = all.add(PAGE);
        assert_eq!(mprotect(inner, ROOM_PAGES * PAGE, READ_WRITE), 0);
        inner.write_bytes(GUARD, ROOM_PAGES * PAGE);
        const SEGMENT_FAULT: i32 = 11;
        signal(SEGMENT_FAULT, touched as *const () as usize);
        inner
    }
}

/// A calculator's start, then so many questions for its result: 11 bytes a question if the mode is known, 4 if it is not.
fn tape(questions: usize) -> Vec<u8> {
    let mut tape = bytes(&[Record::Calc { mode: 3, number: 0.0 }]);
    tape.resize(tape.len() + questions, 7);
    tape
}

/// Words that fit one line of a page of 100, but none beside another if its width or the gap is changed by this bit of its last byte.
fn text() -> Vec<u8> {
    let gap = f32::from_bits(65_536f32.to_bits() ^ u32::from(FAR) << 24);
    Text { words: vec![4.0; 16], gap, height: 8.0, min_y: 0.0, insets: [0.0, 0.0] }.bytes()
}

const FAR: u8 = 0x40;

/// Calls while another thread changes a byte to and fro; the room is just enough for the shorter lines, and lies at the upper or the lower
/// end of its pages.
///
/// # Safety
/// The byte lives, and is read and written by the calls and by this alone; a call writes to the room alone.
unsafe fn calls(
    inner: *mut u8,
    (byte, change): (*mut u8, u8),
    room: usize,
    count: usize,
    answer: impl Fn(*mut u8) -> i64,
) -> [usize; 3] {
    let stop = AtomicBool::new(false);
    // SAFETY: as above.
    let byte = unsafe { AtomicU8::from_ptr(byte) };
    let mut answered = [0; 3];
    std::thread::scope(|threads| {
        threads.spawn(|| {
            while !stop.load(Relaxed) {
                byte.fetch_xor(change, Relaxed);
                std::hint::spin_loop();
            }
        });
        for call in 0..count {
            let offset = if call % 2 == 0 { ROOM_PAGES * PAGE - room } else { 0 };
            // SAFETY: the room lies within its pages.
            let (result, pages) = unsafe {
                let result = answer(inner.add(offset));
                (result, std::slice::from_raw_parts_mut(inner, ROOM_PAGES * PAGE))
            };
            assert!(result == -13 || (0..=room as i64).contains(&result), "{result} for a room of {room}");
            answered[if result == -13 { 0 } else { usize::from(result as usize == room) + 1 }] += 1;
            // beside the room every byte is as it was, inside it is made so again
            let beside = pages[..offset].iter().chain(&pages[offset + room..]);
            let near = beside.clone().rev().take(256).chain(beside.take(256));
            assert!(near.into_iter().all(|byte| *byte == GUARD), "a byte beside the room was written");
            pages[offset..offset + room].fill(GUARD);
        }
        stop.store(true, Relaxed);
    });
    answered
}

fn check(changing: &str, all: [usize; 3]) {
    let [short, other, whole] = all;
    let count: usize = all.iter().sum();
    host::say(&format!(
        "{count} calls on a changing {changing}: {short} of -13, {whole} fill the room, {other} do not"
    ));
    assert!(short > 0 && whole > 0, "the {changing} did not change during the calls");
}

#[test]
fn nothing_is_written_past_the_room() {
    let inner = guarded();
    let mut all = [0; 3];
    for (questions, count) in [(1_000, 1_000), (40, 49_000), (3, 50_000)] {
        let mut tape = tape(questions);
        let (at, length, room) = (tape.as_mut_ptr(), tape.len(), 4 + 4 * questions);
        // SAFETY: the tape and the room have these lengths; the byte is the tape's mode.
        let answered = unsafe { calls(inner, (at.add(1), 2), room, count, |lent| panel_raw(at, length, lent, room)) };
        all.iter_mut().zip(answered).for_each(|(sum, more)| *sum += more);
    }
    check("tape", all);

    let tape = bytes(&[Record::Width(100.0)]);
    let of_text = tape.len();
    let mut both = [tape, text()].concat();
    // one line, of 25 bytes, or sixteen; T 0, or one line
    let changing = [("page width", of_text - 1, FAR, 25), ("gap", both.len() - 17, FAR, 25), ("count", of_text, 1, 4)];
    for (name, byte, change, room) in changing {
        let before = both[byte];
        let (at, length) = (both.as_mut_ptr(), both.len() - of_text);
        // SAFETY: tape, text and room have these lengths; the byte is one of theirs.
        let answered = unsafe {
            let answer = |lent| set_words_raw(at, of_text, at.add(of_text), length, lent, room);
            calls(inner, (at.add(byte), change), room, 50_000, answer)
        };
        check(name, answered);
        both[byte] = before;
    }
}
