//! Big-endian numbers in the body of a record. A kind fixes its body's length, so what would lie past a body's end,
//! which reads as 0, is never asked for.

/// The bytes from a place on.
fn bytes_at<const N: usize>(body: &[u8], at: usize) -> [u8; N] {
    body.get(at..)
        .and_then(|b| b.first_chunk::<N>())
        .copied()
        .unwrap_or([0; N])
}

pub fn u32_at(body: &[u8], at: usize) -> u32 {
    u32::from_be_bytes(bytes_at(body, at))
}

pub fn i32_at(body: &[u8], at: usize) -> i32 {
    i32::from_be_bytes(bytes_at(body, at))
}

pub fn u16_at(body: &[u8], at: usize) -> u16 {
    u16::from_be_bytes(bytes_at(body, at))
}

pub fn u8_at(body: &[u8], at: usize) -> u8 {
    u8::from_be_bytes(bytes_at(body, at))
}
