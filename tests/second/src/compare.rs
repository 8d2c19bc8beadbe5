// The comparison with the proved library: every call is made here and there, and all that comes back must agree.

use crate::bridge::Bridge;
use crate::call::{Call, Outcome, What};
use crate::faults::Faults;
use crate::frames::ANSWER;
use crate::maps;
use crate::openings::Asked;
use crate::random::Random;
use crate::scribbles;
use crate::show;
use crate::tally::Tally;
use crate::traces::Told;

/// The paper's "One night's trace, whole", for S = 16, R = 2, Q = 16 and 4 rows.
const NIGHT: &[u8] = b"010000000d00000000\n03000000100000000d\n030000001c00000002\n\
010000000100000000\n020000001000000000\n030000001000000001\n020000001000000000\n\
020000003000000000\n010000000800000000\n020000004800000000\n010000001800000000\n\
010000001000000000\n040000001c00000008\n030000008000000001\n03ffffffff00000000\n\
020000001100000000\n";
const NIGHT_REPORT: &[u8] =
    b"000000000010\n000000000000\n09050000001d\n000000000030\n000000000000\n\
09fd00000010\n080000000000\n000000000000\n000000000048\n000000000001\n060000000000\n\
000000000010\n09fa00000020\n09ff00000080\n000000000000\n070000000000\n";

pub struct Settings {
    pub seed: u64,
    pub lines: u64,
    pub calls: u64,
    pub faults: Faults,
}

pub enum Failure {
    /// The two programs, or one of them and the paper, do not agree, or too little was compared.
    Difference(String),
    Bridge(String),
}

pub struct Comparison {
    bridge: Bridge,
    settings: Settings,
    pub random: Random,
    pub tally: Tally,
}

/// Compares until the settings' numbers are reached, and tells what was compared.
pub fn run(bridge: Bridge, settings: Settings) -> Result<String, Failure> {
    let mut comparison = Comparison {
        bridge,
        random: Random::new(settings.seed),
        settings,
        tally: Tally::default(),
    };
    comparison.night()?;
    comparison.map_ends()?;
    comparison.opening_limits()?;
    while comparison.unfinished() {
        comparison.round()?;
    }
    let Comparison { bridge, tally, .. } = comparison;
    bridge.finish().map_err(Failure::Bridge)?;
    if !tally.unseen().is_empty() {
        let unseen = tally.unseen().join(", ");
        return Err(Failure::Difference(format!(
            "{}answers never seen: {}\n",
            tally.shown(),
            unseen
        )));
    }
    Ok(tally.shown())
}

/// Room for every answer to a text.
pub fn plenty(text: &[u8]) -> usize {
    ANSWER * text.iter().filter(|&&byte| byte == b'\n').count()
}

impl Comparison {
    fn unfinished(&self) -> bool {
        self.tally.lines < self.settings.lines || self.tally.scribbled < self.settings.calls
    }

    /// Makes a call on both sides, and a feed or a replay in place too.
    pub fn check(&mut self, call: &Call) -> Result<Outcome, Failure> {
        let own = self.check_once(call)?;
        if let Some(in_place) = call.in_place() {
            self.check_once(&in_place)?;
        }
        Ok(own)
    }

    /// Makes a call on both sides; this side works while the other does.
    pub fn check_once(&mut self, call: &Call) -> Result<Outcome, Failure> {
        let sent = self.bridge.send(call);
        let own = call.outcome(self.settings.faults);
        let received = sent.and_then(|()| self.bridge.receive(call));
        let other = received.map_err(|why| {
            Failure::Bridge(format!(
                "{}, seed {}, in\n{}",
                why,
                self.settings.seed,
                show::call(call)
            ))
        })?;
        if let Some(first) = show::difference(&own, &other) {
            return Err(Failure::Difference(format!(
                "seed {}\n{}here:\n{}there:\n{}first difference: {}\n",
                self.settings.seed,
                show::call(call),
                show::outcome(&own),
                show::outcome(&other),
                first
            )));
        }
        self.tally.count(call, &own);
        Ok(own)
    }

    /// A session's trace, then scribbled calls in proportion, some openings and some addresses.
    fn round(&mut self) -> Result<(), Failure> {
        if self.tally.lines < self.settings.lines {
            self.trace()?;
        }
        let lines = self.tally.lines.min(self.settings.lines);
        let share = u128::from(self.settings.calls) * u128::from(lines);
        let due = share / u128::from(self.settings.lines.max(1));
        let due = if self.settings.lines == 0 {
            self.settings.calls
        } else {
            due as u64
        };
        while self.tally.scribbled < due {
            let call = scribbles::call(&mut self.random);
            self.check(&call)?;
            self.tally.count_scribbled(call.what);
        }
        self.opening()?;
        for _ in 0..4 {
            let shift = self.random.below(64);
            let address = self.random.next() >> shift;
            self.address(address)?;
        }
        Ok(())
    }

    /// The paper's own trace, against the paper's report as well.
    fn night(&mut self) -> Result<(), Failure> {
        let opened = self.open(Asked {
            granules: 16,
            numbers: 16,
            redzone: 2,
            quarantine: 16,
        })?;
        let whole = self.feed(opened.session, &opened.pool, NIGHT)?;
        let report = &whole.room[..whole.wrote as usize];
        if report != NIGHT_REPORT {
            let report = String::from_utf8_lossy(report);
            let why = format!("the paper's trace was answered\n{}", report);
            return Err(Failure::Difference(why));
        }
        let told = Told {
            session: opened.session,
            pool: &opened.pool,
            text: NIGHT,
            whole: &whole,
        };
        self.each_cut(&told)?;
        self.each_room(&told)
    }

    /// Both programs agree on a replay, but it did not end as the whole text did.
    pub fn cut_otherwise(&self, call: &Call) -> Failure {
        Failure::Difference(format!(
            "seed {}\n{}both ended otherwise than with the text fed whole\n",
            self.settings.seed,
            show::call(call)
        ))
    }

    fn address(&mut self, address: u64) -> Result<(), Failure> {
        self.check(&Call::map(What::Map32, address))?;
        self.check(&Call::map(What::Map64, address))?;
        Ok(())
    }

    /// Both maps at each region's ends, one before and one past.
    fn map_ends(&mut self) -> Result<(), Failure> {
        for last in [maps::BITS_32.lasts, maps::BITS_64.lasts].concat() {
            for address in [last - 1, last, last + 1, last + 2, last * 8, last | 1 << 63] {
                self.address(address)?;
            }
        }
        for address in [0, 1, 7, 8, u64::MAX - 1, u64::MAX] {
            self.address(address)?;
        }
        Ok(())
    }
}
