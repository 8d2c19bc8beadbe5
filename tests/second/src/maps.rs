// The two published address maps.

use crate::faults::{Fault, Faults};

/// A map's offset, and the last address of each region in order: LowMem, LowShadow, ShadowGap, HighShadow, HighMem.
pub struct Map {
    offset: u64,
    pub lasts: [u64; 5],
}

pub const BITS_32: Map = Map {
    offset: 0x2000_0000,
    lasts: [
        0x1fff_ffff,
        0x23ff_ffff,
        0x27ff_ffff,
        0x3fff_ffff,
        0xffff_ffff,
    ],
};

pub const BITS_64: Map = Map {
    offset: 0x7fff_8000,
    lasts: [
        0x7fff_7fff,
        0x8fff_6fff,
        0x0200_8fff_6fff,
        0x1000_7fff_7fff,
        0x7fff_ffff_ffff,
    ],
};

/// No region is 0; the others count from 1 in the paper's order.
pub const NOWHERE: u8 = 0;
pub const SHADOW_GAP: u8 = 3;

pub struct Mapped {
    pub status: u8,
    pub region: u8,
    pub shadow: u64,
}

impl Map {
    /// "The region and the shadow address"; 31 and 32 "both give shadow address 0, 31 no region, 32 the gap".
    pub fn of(&self, address: u64, faults: Faults) -> Mapped {
        let mut lasts = self.lasts;
        lasts[2] -= u64::from(faults.has(Fault::GapOffByOne));
        let (status, region) = match lasts.iter().position(|&last| address <= last) {
            None => (31, NOWHERE),
            Some(place) if place as u8 + 1 == SHADOW_GAP => (32, SHADOW_GAP),
            Some(place) => (0, place as u8 + 1),
        };
        let shadow = if status == 0 {
            address / 8 + self.offset
        } else {
            0
        };
        Mapped {
            status,
            region,
            shadow,
        }
    }
}
