//! Stands for the crate `memchr`, of which the original crate calls two functions, where there is no C library: as
//! short as it can be.
#![no_std]

/// Where this byte first stands.
pub fn memchr(byte: u8, bytes: &[u8]) -> Option<usize> {
    bytes.iter().position(|it| *it == byte)
}

/// Where this byte last stands.
pub fn memrchr(byte: u8, bytes: &[u8]) -> Option<usize> {
    bytes.iter().rposition(|it| *it == byte)
}
