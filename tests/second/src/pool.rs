// The lent buffers, and the rules of grant, release, quarantine and access over whatever is found in them.

use crate::faults::{Fault, Faults};
use crate::shadow::{self, NOT_HELD, RELEASED};

pub const EMPTY: u32 = 0;
pub const LIVE: u32 = 1;
pub const QUARANTINED: u32 = 2;

/// The shadow, one byte a granule, and the table, four numbers a row.
#[derive(Clone, PartialEq, Eq, Default)]
pub struct Pool {
    pub shadow: Vec<u8>,
    pub table: Vec<u32>,
}

#[derive(Clone, Copy)]
pub struct Row {
    pub start: u32,
    pub size: u32,
    pub state: u32,
    pub turn: u32,
}

/// An answer in the numbers of the paper's table.
#[derive(Clone, Copy)]
pub struct Reply {
    pub status: u8,
    pub kind: u8,
    pub value: u32,
}

impl Reply {
    pub fn done(value: u32) -> Reply {
        Reply {
            status: 0,
            kind: 0,
            value,
        }
    }

    pub fn refused(status: u8) -> Reply {
        Reply {
            status,
            kind: 0,
            value: 0,
        }
    }
}

impl Row {
    /// "8 x start = a", in whole numbers: a scribbled start must not wrap onto an address.
    fn starts_at(&self, address: u32, faults: Faults) -> bool {
        if faults.has(Fault::StartWraps) {
            return self.start.wrapping_mul(8) == address;
        }
        8 * u64::from(self.start) == u64::from(address)
    }
}

/// u, "s / 8 rounded up".
pub fn granules(size: u32) -> u64 {
    (u64::from(size) + 7) / 8
}

impl Pool {
    pub fn rows(&self) -> usize {
        self.table.len() / 4
    }

    pub fn row(&self, row: usize) -> Row {
        Row {
            start: self.table[4 * row],
            size: self.table[4 * row + 1],
            state: self.table[4 * row + 2],
            turn: self.table[4 * row + 3],
        }
    }

    fn set_row(&mut self, row: usize, to: Row) {
        self.table[4 * row..4 * row + 4].copy_from_slice(&[to.start, to.size, to.state, to.turn]);
    }

    /// The row numbers of a state, lowest first.
    fn rows_in(&self, state: u32) -> impl DoubleEndedIterator<Item = usize> + '_ {
        (0..self.rows()).filter(move |&row| self.row(row).state == state)
    }

    /// "A row reaching past the shadow paints only granules that exist."
    fn paint(&mut self, row: Row, byte: u8, faults: Faults) {
        let first = u64::from(row.start);
        let past = first + granules(row.size);
        let existing = self.shadow.len() as u64;
        if faults.has(Fault::ReachingRowUnpainted) && past > existing {
            return;
        }
        for granule in first..past.min(existing) {
            self.shadow[granule as usize] = byte;
        }
    }

    fn empty_row(&self, faults: Faults) -> Option<usize> {
        if faults.has(Fault::HighestEmptyRow) {
            return self.rows_in(EMPTY).next_back();
        }
        if faults.has(Fault::HighStateEmpty) {
            return (0..self.rows())
                .find(|&row| ![LIVE, QUARANTINED].contains(&self.row(row).state));
        }
        self.rows_in(EMPTY).next()
    }

    /// The lowest start: it is a redzone into the lowest run of fa bytes that is u + 2R long.
    fn place(&self, redzone: u64, size: u32, faults: Faults) -> Option<u32> {
        let redzone = redzone - u64::from(faults.has(Fault::RedzoneShort));
        let window = granules(size) + 2 * redzone;
        let mut run = 0;
        for (granule, &byte) in self.shadow.iter().enumerate() {
            run = if byte == NOT_HELD { run + 1 } else { 0 };
            if run == window {
                return Some((granule as u64 + 1 - window + redzone) as u32);
            }
        }
        None
    }

    /// "Grant of s bytes."
    pub fn grant(&mut self, redzone: u64, asked: u32, faults: Faults) -> Reply {
        let size = asked.max(1);
        let row = self.empty_row(faults);
        let place = self.place(redzone, size, faults);
        let (row, start) = match (row, place) {
            (None, None) if faults.has(Fault::PlaceBeforeRow) => return Reply::refused(6),
            (None, _) => return Reply::refused(5),
            (_, None) => return Reply::refused(6),
            (Some(row), Some(start)) => (row, start),
        };
        let mut granted = Row {
            start,
            size,
            state: LIVE,
            turn: 0,
        };
        self.paint(granted, 0, faults);
        if size % 8 != 0 && !faults.has(Fault::RemainderForgotten) {
            let last = u64::from(start) + granules(size) - 1;
            self.shadow[last as usize] = (size % 8) as u8;
        }
        if faults.has(Fault::ZeroSizeKept) {
            granted.size = asked;
        }
        self.set_row(row, granted);
        Reply::done(8 * start)
    }

    /// "Release of address a."
    pub fn release(&mut self, quarantine: u32, address: u32, faults: Faults) -> Reply {
        if address == 0 && !faults.has(Fault::ReleaseOfZeroRefused) {
            return Reply::done(0);
        }
        let starts_there = |row: &usize| self.row(*row).starts_at(address, faults);
        let live = self.rows_in(LIVE).find(starts_there);
        let quarantined = self.rows_in(QUARANTINED).find(starts_there);
        match (live, quarantined) {
            (Some(_), Some(_)) if faults.has(Fault::QuarantinedBeforeLive) => Reply::refused(8),
            (Some(row), _) => {
                self.quarantine(row, faults);
                Reply::done(self.evict_down_to(quarantine, faults))
            }
            (None, Some(_)) => Reply::refused(8),
            (None, None) => Reply::refused(7),
        }
    }

    /// "Its turn is the number of quarantined rows, itself counted."
    fn quarantine(&mut self, row: usize, faults: Faults) {
        let released = self.row(row);
        self.paint(released, RELEASED, faults);
        if faults.has(Fault::FreedAtRelease) {
            self.table[4 * row..4 * row + 4].fill(0);
            return;
        }
        let turn = self.rows_in(QUARANTINED).count() as u32 + 1;
        self.set_row(
            row,
            Row {
                state: QUARANTINED,
                turn,
                ..released
            },
        );
    }

    fn quarantined_size(&self, faults: Faults) -> u64 {
        let sizes = self.rows_in(QUARANTINED).map(|row| self.row(row).size);
        if faults.has(Fault::SizesWrap) {
            return u64::from(sizes.fold(0, u32::wrapping_add));
        }
        sizes.map(u64::from).sum()
    }

    /// "While the sizes of quarantined rows sum to more than Q, the one with the lowest turn is evicted."
    fn evict_down_to(&mut self, quarantine: u32, faults: Faults) -> u32 {
        let limit = u64::from(quarantine) + u64::from(!faults.has(Fault::EvictAtLimit));
        let mut evicted = 0;
        while self.quarantined_size(faults) >= limit {
            match self.first_to_leave(faults) {
                Some(row) => self.evict(row, faults),
                None => break,
            }
            evicted += 1;
        }
        evicted
    }

    /// "On equal turns the lower row leaves first."
    fn first_to_leave(&self, faults: Faults) -> Option<usize> {
        if faults.has(Fault::EqualTurnsHighest) {
            return self
                .rows_in(QUARANTINED)
                .rev()
                .min_by_key(|&row| self.row(row).turn);
        }
        self.rows_in(QUARANTINED)
            .min_by_key(|&row| self.row(row).turn)
    }

    /// "Granules fa, row emptied, every other row's turn above 0 lessened by one", whatever the other row's state.
    fn evict(&mut self, row: usize, faults: Faults) {
        if !faults.has(Fault::EvictedStaysReleased) {
            self.paint(self.row(row), NOT_HELD, faults);
        }
        self.table[4 * row..4 * row + 4].fill(0);
        for other in 0..self.rows() {
            let kept = self.row(other).state == LIVE && faults.has(Fault::AllLiveTurnsKept);
            if kept || faults.has(Fault::TurnNotLessened) {
                continue;
            }
            let turn = &mut self.table[4 * other + 3];
            *turn = turn.saturating_sub(1);
        }
    }

    /// "Reads and writes are judged alike."
    pub fn access(&self, address: u32, length: u32, faults: Faults) -> Reply {
        match shadow::first_bad(&self.shadow, address, length, faults) {
            None => Reply::done(0),
            Some(bad) => Reply {
                status: 9,
                kind: bad.kind,
                value: bad.byte,
            },
        }
    }
}
