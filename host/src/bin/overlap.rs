//! Looks for the two accepted boxes of a page that overlap most, off whole 64ths: random pages of a few boxes, each made worse step by
//! step. `overlap ROUNDS [SEED]` prints the worst page of each kind, for docs/DIFFERENCES.md.

#[cfg(not(has_taffy))]
fn main() {
    host::say("this needs taffy's float.rs");
}

#[cfg(has_taffy)]
fn main() {
    let mut given = std::env::args().skip(1).map(|word| word.parse().expect("a number"));
    let (rounds, seed) = (given.next().expect("how many rounds"), given.next().unwrap_or(1));
    for (name, most) in [("lengths up to 1,000", 1_000.0), ("lengths up to 65,536", 65_536.0)] {
        let (overlap, page) = search::worst(most, rounds, seed);
        println!("{name}: {overlap} of a pixel\n{}", host::tape::text(&host::tape::bytes(&page)));
    }
}

#[cfg(has_taffy)]
mod search {
    use host::judge::{Answer, Judge};
    use host::random::Random;
    use host::tape::Record;

    /// Left, top, right and bottom, without rounding.
    type Rectangle = [f64; 4];

    /// How far two rectangles lie over each other, across or down, whichever is less.
    fn shared(a: &Rectangle, b: &Rectangle) -> f64 {
        (a[2].min(b[2]) - a[0].max(b[0])).min(a[3].min(b[3]) - a[1].max(b[1]))
    }

    /// The most that two accepted boxes of positive size overlap.
    pub fn overlap(page: &[Record]) -> f64 {
        let mut judge = Judge::default();
        let mut placed: Vec<Rectangle> = Vec::new();
        let mut most = 0.0f64;
        for record in page {
            let answer = judge.answer(record);
            if let (Answer::Placed { x, y, .. }, Record::Place { width, height, .. }) = (answer, *record) {
                if width > 0.0 && height > 0.0 {
                    let (x, y) = (f64::from(x), f64::from(y));
                    let new = [x, y, x + f64::from(width), y + f64::from(height)];
                    most = placed.iter().fold(most, |most, old| most.max(shared(old, &new)));
                    placed.push(new);
                }
            }
        }
        most
    }

    /// A length of any size: near a power of two, tiny, a tolerance's, or any.
    fn length(random: &mut Random, most: f32) -> f32 {
        let power = most / (1u32 << random.below(18)) as f32;
        let near =
            |x: f32, random: &mut Random| f32::from_bits(x.to_bits().saturating_add_signed(random.below(9) as i32 - 4));
        match random.below(6) {
            0 => near(power, random).min(most),
            1 => near(0.001, random),
            2 => random.below(100) as f32 / 10_000.0,
            3 => 0.0,
            _ => power * (random.below(1 << 24) as f32 / (1 << 24) as f32),
        }
    }

    fn random_box(random: &mut Random, most: f32) -> Record {
        let insets = [(); 2].map(|()| if random.once_in(3) { length(random, most) } else { 0.0 });
        let min_y = if random.once_in(2) { length(random, most) } else { 0.0 };
        let (width, height) = (length(random, most), length(random, most));
        Record::Place { side: random.below(2) as u8, clear: 0, width, height, min_y, insets }
    }

    /// The page with one of its numbers or one of its boxes changed.
    fn changed(random: &mut Random, page: &[Record], most: f32) -> Vec<Record> {
        let mut page = page.to_vec();
        let step = random.pick(&[1, 1, 2, 5, 50, 1_000, 100_000]) * random.pick(&[1, -1]);
        let change = |x: &mut f32, random: &mut Random| {
            let near = f32::from_bits(x.to_bits().saturating_add_signed(step));
            *x = if random.once_in(6) { length(random, most) } else { near }.clamp(0.0, most);
        };
        let at = random.below(page.len());
        match &mut page[at] {
            Record::Width(width) => change(width, random),
            Record::Place { side, width, height, min_y, insets: [left, right], .. } => match random.below(8) {
                0 => *side = 1 - *side,
                1 | 2 => change(width, random),
                3 | 4 => change(height, random),
                5 => change(min_y, random),
                6 => change(left, random),
                _ => change(right, random),
            },
            _ => unreachable!(),
        }
        if random.once_in(20) && at > 0 {
            page[at] = random_box(random, most);
        }
        page
    }

    /// The worst page of so many climbs.
    pub fn worst(most: f32, rounds: u64, seed: u64) -> (f64, Vec<Record>) {
        let mut random = Random(seed);
        let mut worst = (0.0, Vec::new());
        for _ in 0..rounds {
            let mut page = vec![Record::Width(if random.once_in(2) { most } else { length(&mut random, most) })];
            for _ in 0..2 + random.below(4) {
                page.push(random_box(&mut random, most));
            }
            let mut here = overlap(&page);
            let mut idle = 0;
            while idle < 2_000 {
                let other = changed(&mut random, &page, most);
                let there = overlap(&other);
                idle = if there > here { 0 } else { idle + 1 };
                if there >= here {
                    (here, page) = (there, other);
                }
            }
            if here > worst.0 {
                worst = (here, page);
            }
        }
        worst
    }
}
