//! What several files speak of: the axes, a loop, a part of a file.

/// An axis that a loop runs over: time, focus, points.
#[derive(Clone, Copy, Debug, Default, PartialEq, Eq)]
pub enum Axis {
    #[default]
    T,
    Z,
    P,
}

#[derive(Clone, Copy, Debug, Default, PartialEq, Eq)]
pub struct Loop {
    pub axis: Axis,
    pub count: u64,
}

/// A part of a file: its first byte's position and its length.
#[derive(Clone, Copy, Debug, Default, PartialEq, Eq)]
pub struct Range {
    pub start: u64,
    pub len: u64,
}
