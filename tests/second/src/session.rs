// The session: its limits, opening it, and the direct calls.

use crate::faults::{Fault, Faults};
use crate::pool::{Pool, Reply};
use crate::shadow::NOT_HELD;

/// The places for the first bytes of the unfinished line.
pub const PLACES: usize = 18;
/// "19 stands for 19 or more."
pub const TOO_LONG: u64 = 19;

#[derive(Clone, Copy, PartialEq, Eq)]
pub struct Session {
    pub granules: u64,
    pub rows: u64,
    pub redzone: u64,
    pub quarantine: u32,
    pub unfinished: u64,
    pub line: [u8; PLACES],
}

fn granules_hold(granules: u64) -> bool {
    (8..=65_536).contains(&granules)
}

fn redzone_holds(redzone: u64) -> bool {
    (2..=256).contains(&redzone)
}

impl Session {
    /// "A closed session is all zeros."
    pub const CLOSED: Session = Session {
        granules: 0,
        rows: 0,
        redzone: 0,
        quarantine: 0,
        unfinished: 0,
        line: [0; PLACES],
    };

    /// 21, 22 or 23 and the closed session, or 0 and the opened one.
    pub fn open(pool: &mut Pool, redzone: u64, quarantine: u32, faults: Faults) -> (u8, Session) {
        let (granules, numbers) = (pool.shadow.len() as u64, pool.table.len() as u64);
        if faults.has(Fault::RedzoneBeforeShadow) && !redzone_holds(redzone) {
            return (22, Session::CLOSED);
        }
        if !granules_hold(granules) {
            return (21, Session::CLOSED);
        }
        if !redzone_holds(redzone) {
            return (22, Session::CLOSED);
        }
        if !(4..=4_096).contains(&numbers) || numbers % 4 != 0 {
            return (23, Session::CLOSED);
        }
        pool.shadow.fill(NOT_HELD);
        pool.table.fill(0);
        let opened = Session {
            granules,
            rows: numbers / 4,
            redzone,
            quarantine,
            ..Session::CLOSED
        };
        (0, opened)
    }

    /// Whether every field is inside its limits; a closed session's are not.
    fn fields_hold(&self, faults: Faults) -> bool {
        let unused = self
            .line
            .iter()
            .skip(self.unfinished.min(TOO_LONG) as usize);
        granules_hold(self.granules)
            && (1..=1_024).contains(&self.rows)
            && redzone_holds(self.redzone)
            && self.unfinished <= TOO_LONG
            && (unused.copied().all(|place| place == 0) || faults.has(Fault::UnusedPlacesUnchecked))
    }

    /// Whether a later call with these lent buffers is not refused by 24.
    pub fn holds(&self, pool: &Pool, faults: Faults) -> bool {
        let shadow_fits = pool.shadow.len() as u64 == self.granules;
        let table_fits = self.rows.checked_mul(4) == Some(pool.table.len() as u64);
        let lengths_fit = shadow_fits && table_fits;
        self.fields_hold(faults) && (lengths_fit || faults.has(Fault::LengthsUnchecked))
    }

    pub fn grant(&self, pool: &mut Pool, size: u32, faults: Faults) -> Reply {
        if !self.holds(pool, faults) {
            return Reply::refused(24);
        }
        pool.grant(self.redzone, size, faults)
    }

    pub fn release(&self, pool: &mut Pool, address: u32, faults: Faults) -> Reply {
        if !self.holds(pool, faults) {
            return Reply::refused(24);
        }
        pool.release(self.quarantine, address, faults)
    }

    pub fn access(&self, pool: &Pool, address: u32, length: u32, faults: Faults) -> Reply {
        if !self.holds(pool, faults) {
            return Reply::refused(24);
        }
        pool.access(address, length, faults)
    }

    /// Nothing is lent here, so only the session's own fields are checked.
    pub fn unfinished(&self, faults: Faults) -> Reply {
        if !self.fields_hold(faults) {
            return Reply::refused(24);
        }
        Reply::done(self.unfinished as u32)
    }

    /// One more byte of the unfinished line.
    pub fn keep(&mut self, byte: u8, faults: Faults) {
        if let Some(place) = self.line.get_mut(self.unfinished as usize) {
            *place = byte;
        }
        if self.unfinished < TOO_LONG || faults.has(Fault::NineteenGrows) {
            self.unfinished += 1;
        }
    }

    /// "A line answered, refused or not, empties the unfinished line."
    pub fn empty_line(&mut self) {
        self.unfinished = 0;
        self.line = [0; PLACES];
    }
}
