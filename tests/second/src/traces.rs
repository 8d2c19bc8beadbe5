// Traces to compare: a session's lines fed whole and cut, with direct calls in between.

use crate::call::{Call, Outcome, Step, What};
use crate::compare::{plenty, Comparison, Failure};
use crate::frames::ANSWER;
use crate::generator::Generator;
use crate::pool::Pool;
use crate::random::Random;
use crate::session::Session;
use crate::tally::Cutting;

/// A piece as long as what is left.
const REST: u32 = u32::MAX;

/// A text, where it begins, and what came of it when it was fed whole.
pub struct Told<'a> {
    pub session: Session,
    pub pool: &'a Pool,
    pub text: &'a [u8],
    pub whole: &'a Outcome,
}

/// The report of a replay: what each step wrote at the start of its room.
fn joined(steps: &[Step], outcome: &Outcome) -> Vec<u8> {
    let mut report = Vec::new();
    let mut from = 0;
    for (step, stepped) in steps.iter().zip(&outcome.steps) {
        report.extend_from_slice(&outcome.room[from..from + stepped.wrote as usize]);
        from += step.room as usize;
    }
    report
}

impl Comparison {
    /// One session from its opening, over some texts and direct calls.
    pub fn trace(&mut self) -> Result<(), Failure> {
        let asked = self.tracing();
        let opened = self.open(asked)?;
        self.tally.sessions += 1;
        let (mut session, mut pool) = (opened.session, opened.pool);
        let mut generator = Generator::new(Random::new(self.random.next()), false);
        let large = asked.granules > 600 || asked.numbers > 400;
        for _ in 0..self.random.within(1, 12) {
            let lines = self.random.within(1, if large { 400 } else { 40 });
            let mut text = generator.text(&session, &pool, lines);
            if self.random.one_in(4) {
                let cut_off = self.random.below(text.len().min(22) as u64);
                text.truncate(text.len() - cut_off as usize);
            }
            let whole = self.feed(session, &pool, &text)?;
            self.tally.lines += (plenty(&text) / ANSWER) as u64;
            self.cut(&Told {
                session,
                pool: &pool,
                text: &text,
                whole: &whole,
            })?;
            session = whole.session;
            pool = whole.pool;
            for _ in 0..self.random.below(4) {
                pool = self.direct(&mut generator, session, pool)?;
            }
        }
        Ok(())
    }

    /// Feeds a text whole, with room for its report and at times for more.
    pub fn feed(&mut self, session: Session, pool: &Pool, text: &[u8]) -> Result<Outcome, Failure> {
        let mut call = Call::new(What::Feed, session, pool.clone());
        call.piece = text.to_vec();
        let room = plenty(text) as u64 + self.random.pick(&[0, 0, 1, 12, 13, 20]);
        call.room = self.random.bytes(room as usize);
        self.tally.count_cutting(Cutting::Whole);
        self.check(&call)
    }

    /// A direct call; the buffers go on from it.
    fn direct(
        &mut self,
        generator: &mut Generator,
        session: Session,
        pool: Pool,
    ) -> Result<Pool, Failure> {
        let whats = [What::Grant, What::Release, What::Access, What::Unfinished];
        let what = self.random.pick(&whats);
        if what == What::Unfinished {
            self.check(&Call::new(what, session, Pool::default()))?;
            return Ok(pool);
        }
        let mut call = Call::new(what, session, pool);
        call.numbers = match what {
            What::Grant => [u64::from(generator.size(&session, &call.pool)), 0],
            What::Release => [u64::from(generator.released(&call.pool)), 0],
            _ => {
                let (address, length) = generator.access(&call.pool);
                [u64::from(address), u64::from(length)]
            }
        };
        Ok(self.check(&call)?.pool)
    }

    /// The same text again, cut in some way.
    fn cut(&mut self, told: &Told) -> Result<(), Failure> {
        let short = told.text.len() <= 160 && told.pool.shadow.len() < 600;
        match self.random.below(8) {
            0 if short => self.each_cut(told),
            1 if short => self.each_room(told),
            2 => self.bytewise(told),
            _ => self.at_random(told),
        }
    }

    /// A replay by these steps and a last one that takes the rest; it must end as the whole did. To save time, only
    /// a random half of them are made in place too.
    fn replay(&mut self, told: &Told, mut steps: Vec<Step>) -> Result<(), Failure> {
        let last = plenty(told.text) as u64 + self.random.below(20);
        steps.push(Step {
            piece: REST,
            room: last as u32,
        });
        let mut call = Call::new(What::Replay, told.session, told.pool.clone());
        let room: u64 = steps.iter().map(|step| u64::from(step.room)).sum();
        call.piece = told.text.to_vec();
        call.room = self.random.bytes(room as usize);
        call.steps = steps;
        let outcome = if self.random.one_in(2) {
            self.check(&call)?
        } else {
            self.check_once(&call)?
        };
        let whole = told.whole;
        let report = &whole.room[..whole.wrote as usize];
        let same_end = outcome.session == whole.session && outcome.pool == whole.pool;
        if same_end && joined(&call.steps, &outcome) == report {
            return Ok(());
        }
        Err(self.cut_otherwise(&call))
    }

    pub fn each_cut(&mut self, told: &Told) -> Result<(), Failure> {
        for piece in 0..=told.text.len() as u32 {
            let room = plenty(told.text) as u32;
            self.replay(told, vec![Step { piece, room }])?;
            self.tally.count_cutting(Cutting::EachCut);
        }
        Ok(())
    }

    /// Two calls with each small room before the rest.
    pub fn each_room(&mut self, told: &Told) -> Result<(), Failure> {
        for room in 0..=40 {
            let step = Step { piece: REST, room };
            self.replay(told, vec![step, step])?;
            self.tally.count_cutting(Cutting::EachRoom);
        }
        Ok(())
    }

    fn bytewise(&mut self, told: &Told) -> Result<(), Failure> {
        let room = self.random.within(13, 14) as u32;
        let steps = vec![Step { piece: 1, room }; told.text.len()];
        self.tally.count_cutting(Cutting::Bytes);
        self.replay(told, steps)
    }

    fn at_random(&mut self, told: &Told) -> Result<(), Failure> {
        let longest = self.random.pick(&[3, 20, 60, 400]);
        let mut steps = Vec::new();
        for _ in 0..self
            .random
            .within(1, 2 + 2 * told.text.len() as u64 / longest)
        {
            let piece = self.random.below(longest + 1);
            let small = self.random.below(41);
            let room = self.random.pick(&[small, 13, 26, 13 * 40]);
            steps.push(Step {
                piece: self.random.pick(&[piece, piece, piece, 0, 1]) as u32,
                room: room as u32,
            });
        }
        self.tally.count_cutting(Cutting::Random);
        self.replay(told, steps)
    }
}
