
// Appended by the host: the step count of document 01's rule 4, what rules 6 to 8 did to the bands, and the private parts of page and
// calculator.

/// What a placement does to the bands.
#[derive(Debug, Clone, PartialEq)]
pub enum Change {
    /// the band of this number is split in two
    Split(usize),
    /// a band is added below the last, with no float
    Added,
    /// the box is recorded on this side, in the bands of these numbers
    Recorded(usize, Range<usize>),
}

thread_local! {
    static GIVEN_UP: core::cell::Cell<u32> = const { core::cell::Cell::new(0) };
    static CHANGES: core::cell::RefCell<Vec<Change>> = const { core::cell::RefCell::new(Vec::new()) };
}

fn begun() {
    CHANGES.with_borrow_mut(Vec::clear);
}

fn note(change: Change) {
    CHANGES.with_borrow_mut(|changes| changes.push(change));
}

/// What the last placement did, in order.
pub fn take_changes() -> Vec<Change> {
    CHANGES.with_borrow_mut(core::mem::take)
}

fn given_up() {
    GIVEN_UP.with(|count| count.set(count.get() + 1));
}

/// The starts and ends given up since the last call of this.
pub fn take_steps() -> u32 {
    GIVEN_UP.with(|count| count.take())
}

/// A band as document 01 names its parts.
#[derive(Debug, Clone, Copy, PartialEq)]
pub struct Band {
    pub start: f32,
    pub end: f32,
    pub insets: [f32; 2],
    pub marks: [bool; 2],
}

impl FloatContext {
    pub fn bands(&self) -> Vec<Band> {
        self.segments
            .iter()
            .map(|s| Band { start: s.y.start, end: s.y.end, insets: s.insets, marks: s.has_float })
            .collect()
    }
}

impl FloatIntrinsicWidthCalculator {
    /// The same calculator again.
    pub fn again(&self) -> Self {
        Self { ..*self }
    }

    pub fn sums(&self) -> [f32; 2] {
        self.side_sums
    }
}
