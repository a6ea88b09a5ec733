//! The parts of a frame, to be put together rightly and wrongly.

use std::iter;

use crate::df1::{DLE, ETX, STX};

/// The bytes with every DLE sent twice.
pub fn doubled(data: &[u8]) -> Vec<u8> {
    data.iter()
        .flat_map(|&byte| iter::repeat_n(byte, if byte == DLE { 2 } else { 1 }))
        .collect()
}

/// The byte that makes the sum of the data 0.
pub fn check_of(data: &[u8]) -> u8 {
    data.iter()
        .fold(0, |check: u8, byte| check.wrapping_sub(*byte))
}

/// Bytes as they are between start and end, and a check byte.
pub fn between_ends(body: &[u8], check: u8) -> Vec<u8> {
    [&[DLE, STX][..], body, &[DLE, ETX, check]].concat()
}

/// The frame of data of any length.
pub fn frame_of(data: &[u8]) -> Vec<u8> {
    between_ends(&doubled(data), check_of(data))
}
