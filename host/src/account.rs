//! Which box was recorded last in each band, on each side (document 02, 1/14), and how deep the page is (3/14): an account kept beside the
//! crate's page, which has no such numbers and no depth.

use crate::archive::{NO_BOX, UNKNOWN_SIDE};
use crate::float_counted::Change;

#[derive(Debug, Clone, Default)]
pub struct Account {
    /// for each band the number of the box on each side, counted from 0 over the accepted boxes of both sides
    bands: Vec<[Option<usize>; 2]>,
    /// the bottom of each accepted box, by its number
    bottoms: Vec<f32>,
}

impl Account {
    /// What the placement of the next box did, and where the box ends: a split copies both numbers, an added band has none.
    pub fn follow(&mut self, changes: &[Change], bottom: f32) {
        let number = self.bottoms.len();
        self.bottoms.push(bottom);
        for change in changes {
            match change {
                Change::Split(band) => self.bands.insert(band + 1, self.bands[*band]),
                Change::Added => self.bands.push([None; 2]),
                Change::Recorded(side, bands) => {
                    self.bands[bands.clone()].iter_mut().for_each(|numbers| numbers[*side] = Some(number))
                }
            }
        }
    }

    pub fn bands(&self) -> &[[Option<usize>; 2]] {
        &self.bands
    }

    /// The larger of the bottoms of all accepted boxes, none where there is none.
    pub fn depth(&self) -> Option<f32> {
        self.bottoms.iter().copied().reduce(f32::max)
    }

    /// What `bulameki_innermost` has to return of this page.
    pub fn told(&self, band: usize, side: u8) -> i64 {
        if side > 1 {
            return UNKNOWN_SIDE;
        }
        let number = self.bands.get(band).and_then(|numbers| numbers[usize::from(side)]);
        number.map_or(NO_BOX, |number| number as i64)
    }

    /// What `bulameki_depth` has to return of it.
    pub fn told_depth(&self) -> i64 {
        returned(self.depth())
    }
}

/// A depth as it is returned: the bits of a float, from 0 up.
pub fn returned(depth: Option<f32>) -> i64 {
    depth.map_or(NO_BOX, |depth| depth.to_bits().into())
}
