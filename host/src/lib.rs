//! The Rust host: taffy's float.rs and the proved archives in one binary, and the driver that compares them.

#[cfg(has_taffy)]
mod shims;
#[cfg(has_taffy)]
pub use shims::*;

// taffy's float.rs unchanged as `float`, with a reader of its band count as `float_read`, and with counters as `float_counted`
include!(concat!(env!("OUT_DIR"), "/oracle.rs"));

#[cfg(has_taffy)]
pub mod account;
#[cfg(has_taffy)]
pub mod answers;
pub mod archive;
pub mod boundaries;
#[cfg(has_taffy)]
pub mod call;
#[cfg(all(has_taffy, has_panel))]
pub mod count;
#[cfg(has_taffy)]
pub mod driver;
#[cfg(has_taffy)]
pub mod job;
#[cfg(has_taffy)]
pub mod judge;
#[cfg(all(has_taffy, has_probe))]
pub mod kept;
#[cfg(has_taffy)]
pub mod raised;
pub mod random;
#[cfg(has_taffy)]
pub mod rows;
pub mod stored;
pub mod tape;
pub mod tapes;
pub mod text;
#[cfg(has_taffy)]
pub mod texts;
#[cfg(has_taffy)]
pub mod words;
#[cfg(has_taffy)]
pub mod words_driver;

use std::io::Write;

/// Says a line that the test harness does not hold back.
pub fn say(line: &str) {
    let _ = writeln!(std::io::stderr(), "host: {line}");
}

/// A number in groups of three digits, for a table.
pub fn grouped(number: usize) -> String {
    let digits = number.to_string();
    let mut grouped = String::new();
    for (at, digit) in digits.chars().enumerate() {
        if at > 0 && (digits.len() - at) % 3 == 0 {
            grouped.push(',');
        }
        grouped.push(digit);
    }
    grouped
}
