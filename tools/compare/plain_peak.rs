//! The peak, plainly: the largest magnitude of all, and then the first place that has it. For the speed also the search as one would write it
//! by hand.

pub fn first(samples: &[i8]) -> Option<(u8, u64)> {
    let magnitude = samples.iter().map(|s| s.unsigned_abs()).max()?;
    let place = samples.iter().position(|s| s.unsigned_abs() == magnitude)?;
    Some((magnitude, place as u64))
}

/// In one pass, with the loudest so far and its place in hand.
pub fn by_hand(samples: &[i8]) -> Option<(u8, u64)> {
    let (mut magnitude, mut place) = (samples.first()?.unsigned_abs(), 0);
    for (i, s) in samples.iter().enumerate() {
        if s.unsigned_abs() > magnitude { (magnitude, place) = (s.unsigned_abs(), i); }
    }
    Some((magnitude, place as u64))
}
