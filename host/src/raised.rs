//! How a call that clears is asked of the crate (document 02, 2/14): without clear, at min_y raised to the cleared bottom. Given clear, the
//! crate goes by band numbers too.

use crate::Clear;

/// How the crate is asked.
#[derive(Debug, Clone, Copy, Default, PartialEq)]
pub enum Asking {
    /// without clear, at the raised min_y
    #[default]
    Raised,
    /// with clear: the crate as it is
    AsItIs,
}

macro_rules! raised {
    ($($copy:ident),*) => {$(
        impl crate::$copy::FloatContext {
            /// min_y of a placement; no bottom leaves it.
            #[inline]
            pub fn raised(&self, min_y: f32, clear: Clear) -> f32 {
                self.cleared_threshold(clear).map_or(min_y, |bottom| bottom.max(min_y))
            }

            /// min_y of a slot question. Where no float is active, the early answer does not look at clear.
            #[inline]
            pub fn raised_for_slot(&self, min_y: f32, clear: Clear) -> f32 {
                let looks = clear != Clear::None && self.has_active_floats(min_y);
                if looks { self.raised(min_y, clear) } else { min_y }
            }
        }
    )*};
}

raised!(float_counted, float_read);
