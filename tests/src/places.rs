//! Places of refusals, by where they are among all places.

/// 0 for the first place, 1 for the last, 2 for one between them.
pub fn class(place: usize, length: usize) -> usize {
    match place {
        0 => 0,
        _ if place + 1 == length => 1,
        _ => 2,
    }
}
