// The shadow byte and the range rule.

use crate::faults::{Fault, Faults};

/// "fa: redzone or room not held."
pub const NOT_HELD: u8 = 0xfa;
/// "fd: released and quarantined."
pub const RELEASED: u8 = 0xfd;
/// The kind "where that byte is outside the arena".
pub const OUTSIDE: u8 = 0xff;

/// A touched byte that is not addressable, and its kind.
pub struct Bad {
    pub kind: u8,
    pub byte: u32,
}

/// "00: all 8 bytes addressable. 01 to 07: the first k only. Any other value: none."
fn addressable(byte: u8, faults: Faults) -> u64 {
    if faults.has(Fault::UnsignedShadow) && byte >= 8 {
        return 8;
    }
    if faults.has(Fault::MiddleAddressable) && (0x08..0x80).contains(&byte) {
        return 8;
    }
    match byte as i8 {
        0 => 8,
        some @ 1..=7 => some as u64,
        _ => 0,
    }
}

/// "An access of n bytes at address a touches a to a + n - 1, as whole numbers that don't wrap."
fn touched(address: u32, length: u32, faults: Faults) -> std::ops::Range<u64> {
    let first = u64::from(address);
    if faults.has(Fault::WrappingSum) {
        return first..u64::from(address.wrapping_add(length));
    }
    if faults.has(Fault::FirstGranule) {
        return first..first + u64::from(length).min(8 - first % 8);
    }
    if faults.has(Fault::ZeroLengthJudged) {
        return first..first + u64::from(length.max(1));
    }
    first..first + u64::from(length)
}

/// The first touched byte that is outside the arena or not among its granule's addressable bytes.
pub fn first_bad(shadow: &[u8], address: u32, length: u32, faults: Faults) -> Option<Bad> {
    for byte in touched(address, length, faults) {
        let kind = match shadow.get((byte / 8) as usize) {
            Some(&value) if byte % 8 < addressable(value, faults) => continue,
            Some(&value) => value,
            None => OUTSIDE,
        };
        // The first bad byte is the access's own first or one up to the arena's end, so it has 32 bits.
        return Some(Bad {
            kind,
            byte: byte as u32,
        });
    }
    None
}
