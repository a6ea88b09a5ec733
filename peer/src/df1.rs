//! Frames of the serial link, DF1 full duplex: written from data, and read
//! back.

use crate::module::Refusal;

/// Most data bytes of a frame.
pub const MOST_DATA: usize = 244;
/// Bytes around the data: DLE STX, DLE ETX and the check byte.
pub const ENDS: usize = 5;
/// Bytes of the longest frame, whose data are all DLE.
pub const LONGEST_FRAME: usize = 2 * MOST_DATA + ENDS;

pub const DLE: u8 = 0x10;
pub const STX: u8 = 0x02;
pub const ETX: u8 = 0x03;

/// Writes the frame of the data at the start of the buffer and gives its
/// length. The rest of the buffer is left, all of it on a refusal.
pub fn write_frame(data: &[u8], buffer: &mut [u8]) -> Result<usize, Refusal> {
    if data.is_empty() || data.len() > MOST_DATA {
        return Err(Refusal::FrameData);
    }
    let doubled = data.iter().filter(|&&byte| byte == DLE).count();
    let length = data.len() + doubled + ENDS;
    let Some(frame) = buffer.get_mut(..length) else {
        return Err(Refusal::FrameBuffer);
    };
    frame[..2].copy_from_slice(&[DLE, STX]);
    let mut at = 2;
    for &byte in data {
        frame[at] = byte;
        at += 1;
        if byte == DLE {
            frame[at] = DLE;
            at += 1;
        }
    }
    let sum = data.iter().fold(0, |sum: u8, &byte| sum.wrapping_add(byte));
    frame[at..].copy_from_slice(&[DLE, ETX, check_byte(sum)]);
    Ok(length)
}

/// Reads the data of the frame that the input is into the start of the
/// buffer and gives their number. The rest of the buffer is left, all of it
/// on a refusal.
pub fn read_frame(input: &[u8], buffer: &mut [u8]) -> Result<usize, Refusal> {
    let [DLE, STX, body @ .., DLE, ETX, check] = input else {
        return Err(Refusal::FrameForm);
    };
    let length = match measure(body) {
        Some((length @ 1..=MOST_DATA, sum)) if *check == check_byte(sum) => length,
        _ => return Err(Refusal::FrameForm),
    };
    let Some(data) = buffer.get_mut(..length) else {
        return Err(Refusal::FrameBuffer);
    };
    let mut at = 0;
    let mut second = false;
    for &byte in body {
        if second {
            second = false;
        } else {
            data[at] = byte;
            at += 1;
            second = byte == DLE;
        }
    }
    Ok(length)
}

/// The number of the data bytes and their sum; None where a DLE is not
/// followed by another.
fn measure(body: &[u8]) -> Option<(usize, u8)> {
    let mut length = 0;
    let mut sum: u8 = 0;
    let mut bytes = body.iter();
    while let Some(&byte) = bytes.next() {
        if byte == DLE && bytes.next() != Some(&DLE) {
            return None;
        }
        length += 1;
        sum = sum.wrapping_add(byte);
    }
    Some((length, sum))
}

/// The two's complement of the sum of the data bytes.
fn check_byte(sum: u8) -> u8 {
    0u8.wrapping_sub(sum)
}
