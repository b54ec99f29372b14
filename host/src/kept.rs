//! A page kept over some placements, with no tape: by value and by `place_in` in the proved library, and by the crate. Each is an
//! `archive::Runner`, whose tape is one byte, the number of boxes; it gives the bits of the height at which the last one stands.

use crate::archive::probe;
use crate::float::FloatContext;
use crate::{Clear, FloatDirection, Size};

const WIDE: f32 = 320.0;
const SIZE: [f32; 2] = [56.0, 24.0];
const STEP: f32 = 8.0;

pub fn by_value(tape: &[u8], _: &mut [u8]) -> i64 {
    let count = usize::from(tape[0]);
    probe::kept(count, count - 1, WIDE, 0, SIZE, STEP).to_bits().into()
}

pub fn by_place_in(tape: &[u8], _: &mut [u8]) -> i64 {
    let count = usize::from(tape[0]);
    probe::kept_in(count, count - 1, WIDE, 0, SIZE, STEP).to_bits().into()
}

pub fn by_crate(tape: &[u8], _: &mut [u8]) -> i64 {
    let mut page = FloatContext::new();
    page.set_width(WIDE);
    let mut top = 0.0;
    for _ in 0..tape[0] {
        let size = Size { width: SIZE[0], height: SIZE[1] };
        page.place_floated_box(size, top, [0.0, 0.0], FloatDirection::Left, Clear::None);
        top += STEP;
    }
    page.left_floats()[usize::from(tape[0]) - 1].y.to_bits().into()
}
