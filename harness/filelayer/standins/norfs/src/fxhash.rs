//! Stands for norfs's hash: only that equal paths have equal hashes matters here.

pub fn hash32(bytes: &[u8]) -> u32 {
    bytes.iter().fold(0u32, |hash, &b| (hash.rotate_left(5) ^ b as u32).wrapping_mul(0x9E37_79B9))
}
