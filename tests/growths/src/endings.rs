// How a call ended.

/// What a call answered.
#[derive(Clone, Copy)]
pub enum Ending {
    /// The ordinary answer.
    Ordinary,
    /// The numbered want of memory, and nothing else.
    NoMemory,
    /// What the call is made on was itself refused its growth, by a call that stands in another row.
    NotReached,
    /// Any other answer.
    Other,
}

/// The ordinary answer, where it is right.
pub fn judged(is_right: bool) -> Ending {
    if is_right {
        Ending::Ordinary
    } else {
        Ending::Other
    }
}
