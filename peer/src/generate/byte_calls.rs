//! Byte accesses as a host on the rack bus makes them.

use crate::generate::call_list::CallList;
use crate::generate::numbers::Numbers;

/// Offsets of the interrupt request and of its mask, the last one.
const REQUEST: u16 = 16;
const MASK: u16 = 17;

/// All eighteen bytes.
pub fn read_table(list: &mut CallList) {
    (0..=MASK).for_each(|offset| list.read_byte(offset));
}

/// The table, or a few single accesses.
pub fn byte_accesses(numbers: &mut Numbers, list: &mut CallList) {
    if numbers.one_in(4) {
        return read_table(list);
    }
    for _ in 0..numbers.between(1, 4) {
        byte_access(numbers, list);
    }
}

/// A read of any offset, or a write, mostly one that is not refused.
pub fn byte_access(numbers: &mut Numbers, list: &mut CallList) {
    let any = draw_offset(numbers);
    if numbers.one_in(2) {
        list.read_byte(any);
    } else {
        let offset = numbers.pick(&[REQUEST, REQUEST, MASK, MASK, any]);
        list.write_byte(offset, draw_value(numbers));
    }
}

/// Mostly within the table; some over 17 are so only by their high byte.
fn draw_offset(numbers: &mut Numbers) -> u16 {
    if !numbers.one_in(6) {
        return numbers.between(0, MASK);
    }
    let any = numbers.between(MASK + 1, 0xffff);
    numbers.pick(&[18, 19, 31, 32, 255, 256, 272, 273, 0x8011, 0xffff, any])
}

/// Bit 0 set or clear, with and without others; the high byte does not
/// count.
fn draw_value(numbers: &mut Numbers) -> u16 {
    let any = numbers.word();
    numbers.pick(&[0, 1, 0, 1, 0x02, 0xfe, 0xff, 0x100, 0x101, 0xfffe, any])
}
