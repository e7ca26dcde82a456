//! The 32-bit FNV-1a.

const START: u32 = 2_166_136_261;
const PRIME: u32 = 16_777_619;

/// Of any byte string, so that published vectors of every length can be run.
pub fn fnv1a(bytes: &[u8]) -> u32 {
    bytes.iter().fold(START, |hash, &byte| (hash ^ u32::from(byte)).wrapping_mul(PRIME))
}

/// Of a block number: its four bytes, low byte first.
pub fn of_block(block: u32) -> u32 {
    fnv1a(&block.to_le_bytes())
}
