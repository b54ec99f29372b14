//! The exported leaves beside Rust's own arithmetic: all special numbers against each other, then random bit patterns.
#![cfg(has_probe)]

use host::archive::probe;
use host::random::Random;

/// Both zeros, NaNs, infinities, and each limit of document 01 with its neighbours.
fn special() -> Vec<f32> {
    let mut all = vec![
        0.0,
        f32::NAN,
        f32::INFINITY,
        f32::MAX,
        f32::MIN_POSITIVE,
        f32::from_bits(1),
        0.001,
        1.0,
        40.0005,
        1.0 / 64.0,
    ];
    all.extend([f32::from_bits(0x7F80_0001), f32::from_bits(0x7FFF_FFFF)]);
    for limit in [65_536.0f32, 131_072.0] {
        all.extend([f32::from_bits(limit.to_bits() - 1), limit, f32::from_bits(limit.to_bits() + 1)]);
    }
    all.iter().flat_map(|x| [*x, -*x]).collect()
}

/// A special number, any bit pattern, or a number of a page's size.
fn number(random: &mut Random, special: &[f32]) -> f32 {
    match random.below(4) {
        0 => random.pick(special),
        1 => random.bits(),
        2 => random.below(6401) as f32 / 64.0,
        _ => 200.0 * (random.below(1 << 24) as f32 / (1 << 24) as f32),
    }
}

#[track_caller]
fn same(got: f32, want: f32, of: &[f32]) {
    assert!(got.to_bits() == want.to_bits() || got.is_nan() && want.is_nan(), "{got:?} for {want:?}, of {of:?}");
}

fn one(x: f32) {
    same(probe::plus_zero(x), if x == 0.0 { 0.0 } else { x }, &[x]);
    assert_eq!(probe::finite(x), u8::from(x.is_finite()), "finite of {x:?}");
    assert_eq!(probe::length_allowed(x), u8::from((0.0..=65_536.0).contains(&x)), "length {x:?}");
    assert_eq!(probe::offset_allowed(x), u8::from((-65_536.0..=65_536.0).contains(&x)), "offset {x:?}");
    assert_eq!(probe::reach_allowed(x), u8::from(x <= 131_072.0), "reach {x:?}");
}

fn larger(a: f32, b: f32) -> f32 {
    if a < b {
        b
    } else {
        a
    }
}

fn two(a: f32, b: f32) {
    same(probe::larger(a, b), larger(a, b), &[a, b]);
    same(probe::smaller(a, b), if b < a { b } else { a }, &[a, b]);
}

/// Document 01's fit test, each sum and difference rounded, from left to right.
fn fits(side: u8, width: f32, page: f32, band: [f32; 2], containing: [f32; 2]) -> u8 {
    let (lead, trail) = match side {
        0 => (0, 1),
        1 => (1, 0),
        _ => return 2,
    };
    let x = larger(band[lead], containing[lead]);
    let far_side = band[trail] == 0.0 || x + width <= page - band[trail] + 0.001;
    let container = band[lead] == 0.0 || x + width <= page - containing[trail] + 0.001;
    u8::from(far_side && container)
}

fn seven(side: u8, n: [f32; 6]) {
    let (width, page, band, containing) = (n[0], n[1], [n[2], n[3]], [n[4], n[5]]);
    assert_eq!(
        probe::fits(side, width, page, band, containing),
        fits(side, width, page, band, containing),
        "fits of {side} {n:?}"
    );
}

#[test]
fn special_numbers() {
    let special = special();
    for a in &special {
        one(*a);
        for b in &special {
            two(*a, *b);
        }
    }
    for code in 0..=255 {
        seven(code, [10.0, 100.0, 50.0, 40.0, 0.0, 0.0]);
    }
}

#[test]
fn random_numbers() {
    let special = special();
    let mut random = Random(1);
    for _ in 0..1_000_000 {
        let (a, b) = (number(&mut random, &special), number(&mut random, &special));
        one(a);
        two(a, b);
        let n = [(); 6].map(|()| number(&mut random, &special));
        seven(random.below(2) as u8, n);
    }
}

/// Boxes within a few thousandths of their room, where the tolerance decides.
#[test]
fn at_the_tolerance() {
    let mut random = Random(2);
    let mut yes = 0;
    for _ in 0..300_000 {
        let band = [(); 2].map(|()| random.below(4) as f32 * 12.5);
        let containing = [(); 2].map(|()| random.below(4) as f32 * 10.0);
        let side = random.below(2) as u8;
        let lead = side as usize;
        let room = 100.0 - larger(band[lead], containing[lead]) - random.pick(&[band[1 - lead], containing[1 - lead]]);
        let width = room + random.below(4001) as f32 / 1e6;
        seven(side, [width, 100.0, band[0], band[1], containing[0], containing[1]]);
        yes += usize::from(fits(side, width, 100.0, band, containing) == 1);
    }
    assert!((30_000..270_000).contains(&yes), "{yes} of 300000 fit");
}
