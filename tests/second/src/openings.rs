// Openings to compare: on both sides of every limit, over buffers with old contents.

use crate::call::{Call, Outcome, What};
use crate::compare::{Comparison, Failure};
use crate::pool::Pool;
use crate::session::Session;

/// What an opening is asked for.
#[derive(Clone, Copy)]
pub struct Asked {
    pub granules: u64,
    /// The table's length, four numbers a row.
    pub numbers: u64,
    pub redzone: u64,
    pub quarantine: u32,
}

impl Comparison {
    pub fn open(&mut self, asked: Asked) -> Result<Outcome, Failure> {
        let pool = Pool {
            shadow: self.random.bytes(asked.granules as usize),
            table: (0..asked.numbers)
                .map(|_| self.random.next() as u32)
                .collect(),
        };
        let mut call = Call::new(What::Open, Session::CLOSED, pool);
        call.numbers = [asked.redzone, u64::from(asked.quarantine)];
        self.check(&call)
    }

    /// Limits 21, 22 and 23 in all their combinations.
    pub fn opening_limits(&mut self) -> Result<(), Failure> {
        for granules in [0, 7, 8, 65_536, 65_537] {
            for redzone in [0, 1, 2, 256, 257, u64::MAX] {
                for numbers in (0..=9).chain([4_092, 4_095, 4_096, 4_097, 4_100]) {
                    self.open(Asked {
                        granules,
                        numbers,
                        redzone,
                        quarantine: 0,
                    })?;
                }
            }
        }
        Ok(())
    }

    /// An opening near some limit.
    pub fn opening(&mut self) -> Result<(), Failure> {
        let random = &mut self.random;
        let granules = random.below(40);
        let numbers = random.below(40);
        let redzone = random.below(300);
        let asked = Asked {
            granules: random.pick(&[7, 8, 9, granules, granules, granules]),
            numbers: random.pick(&[4, 8, numbers, 4 * numbers, 4_096, 4_097, 4_100]),
            redzone: random.pick(&[2, 3, 256, 257, redzone, redzone, 1 << 32 | 2, 1 << 63 | 2]),
            quarantine: random.next() as u32,
        };
        self.open(asked)?;
        Ok(())
    }

    /// What a trace's session is opened with: small numbers mostly, the limits too.
    pub fn tracing(&mut self) -> Asked {
        let random = &mut self.random;
        let granules = match random.below(100) {
            0 => 65_536,
            1 => random.within(600, 3_000),
            2..=4 => 8,
            _ => random.within(8, 100),
        };
        let rows = match random.below(30) {
            0 => 1_024,
            1..=3 => 1,
            4 => random.within(1, 1_024),
            _ => random.within(2, 10),
        };
        let redzone = match random.below(20) {
            0 => random.within(2, 256),
            1 if granules > 512 => 256,
            2..=4 => random.within(3, 6),
            _ => 2,
        };
        let few = random.below(100) as u32;
        let quarantine = match random.below(8) {
            0 => 0,
            1 => u32::MAX,
            2 => random.next() as u32 >> random.below(32),
            _ => few,
        };
        Asked {
            granules,
            numbers: 4 * rows,
            redzone,
            quarantine,
        }
    }
}
