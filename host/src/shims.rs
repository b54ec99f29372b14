//! What taffy's float.rs takes from its own crate, in as few words as it needs.

pub mod debug {
    macro_rules! debug_log {
        ($($t:tt)*) => {};
    }
    pub(crate) use debug_log;
}

pub mod sys {
    pub use std::vec::Vec;
}

#[derive(Debug, Clone, Copy, PartialEq)]
pub enum AvailableSpace {
    Definite(f32),
    MinContent,
    MaxContent,
}

#[derive(Debug, Clone, Copy, PartialEq)]
pub enum Clear {
    Left,
    Right,
    Both,
    None,
}

#[derive(Debug, Clone, Copy, PartialEq)]
pub enum Direction {
    Ltr,
    Rtl,
}

/// float.rs uses it as a number: left is 0, right is 1.
#[derive(Debug, Clone, Copy, PartialEq)]
pub enum FloatDirection {
    Left = 0,
    Right = 1,
}

#[derive(Debug, Clone, Copy, PartialEq)]
pub struct Point<T> {
    pub x: T,
    pub y: T,
}

#[derive(Debug, Clone, Copy, PartialEq)]
pub struct Size<T> {
    pub width: T,
    pub height: T,
}
