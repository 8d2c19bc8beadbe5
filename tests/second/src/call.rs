// A call of the compared interface, with all that is lent, and its outcome by this program's rules.

use crate::faults::Faults;
use crate::frames;
use crate::maps;
use crate::pool::{Pool, Reply};
use crate::session::Session;

#[derive(Clone, Copy, PartialEq, Eq)]
pub enum What {
    Open = 1,
    Grant,
    Release,
    Access,
    Feed,
    Unfinished,
    Map32,
    Map64,
    Replay,
    FeedInPlace,
    ReplayInPlace,
}

pub const NAMES: [&str; 12] = [
    "",
    "open",
    "grant",
    "release",
    "access",
    "feed",
    "unfinished",
    "map32",
    "map64",
    "replay",
    "feed in place",
    "replay in place",
];

/// The calls whose session is lent.
pub const IN_PLACE: [What; 2] = [What::FeedInPlace, What::ReplayInPlace];

impl What {
    pub fn name(self) -> &'static str {
        NAMES[self as usize]
    }

    pub fn is_in_place(self) -> bool {
        IN_PLACE.contains(&self)
    }
}

/// At most so many bytes of what was not taken, and so many bytes of room.
#[derive(Clone, Copy)]
pub struct Step {
    pub piece: u32,
    pub room: u32,
}

/// What one step of a replay answered.
#[derive(Clone, Copy, PartialEq, Eq)]
pub struct Stepped {
    pub status: u8,
    pub taken: u64,
    pub wrote: u64,
}

/// A replay feeds its piece by steps, its room being theirs one after the other; the other calls have no steps.
#[derive(Clone)]
pub struct Call {
    pub what: What,
    pub session: Session,
    /// Redzone and quarantine, size, address, or address and length.
    pub numbers: [u64; 2],
    pub pool: Pool,
    pub piece: Vec<u8>,
    pub room: Vec<u8>,
    pub steps: Vec<Step>,
}

pub struct Outcome {
    /// A bit for each buffer that was written to before its lent part: shadow, table, piece, room, session.
    pub touched: u8,
    pub status: u8,
    pub kind: u8,
    pub value: u64,
    pub session: Session,
    pub taken: u64,
    pub wrote: u64,
    pub pool: Pool,
    pub piece: Vec<u8>,
    pub room: Vec<u8>,
    pub steps: Vec<Stepped>,
}

impl Call {
    pub fn new(what: What, session: Session, pool: Pool) -> Call {
        Call {
            what,
            session,
            numbers: [0, 0],
            pool,
            piece: Vec::new(),
            room: Vec::new(),
            steps: Vec::new(),
        }
    }

    pub fn map(what: What, address: u64) -> Call {
        let mut call = Call::new(what, Session::CLOSED, Pool::default());
        call.numbers[0] = address;
        call
    }

    /// The same feed or replay with the session lent; the other calls have no such form.
    pub fn in_place(&self) -> Option<Call> {
        let what = match self.what {
            What::Feed => What::FeedInPlace,
            What::Replay => What::ReplayInPlace,
            _ => return None,
        };
        Some(Call {
            what,
            ..self.clone()
        })
    }

    /// The outcome by the paper's rules, as this program has them.
    pub fn outcome(&self, faults: Faults) -> Outcome {
        let mut outcome = self.untouched();
        let [first, second] = [self.numbers[0] as u32, self.numbers[1] as u32];
        let session = self.session;
        let pool = &mut outcome.pool;
        match self.what {
            What::Open => {
                let (status, opened) = Session::open(pool, self.numbers[0], second, faults);
                outcome.status = status;
                outcome.session = opened;
            }
            What::Grant => {
                let reply = session.grant(pool, first, faults);
                outcome.set_reply(reply);
            }
            What::Release => {
                let reply = session.release(pool, first, faults);
                outcome.set_reply(reply);
            }
            What::Access => {
                let reply = session.access(pool, first, second, faults);
                outcome.set_reply(reply);
            }
            What::Unfinished => outcome.set_reply(session.unfinished(faults)),
            What::Map32 => outcome.set_mapped(maps::BITS_32.of(self.numbers[0], faults)),
            What::Map64 => outcome.set_mapped(maps::BITS_64.of(self.numbers[0], faults)),
            What::Feed | What::FeedInPlace => {
                outcome.feed(self.what, self.piece.len(), 0..self.room.len(), faults);
            }
            What::Replay | What::ReplayInPlace => outcome.replay(self.what, &self.steps, faults),
        }
        outcome
    }

    fn untouched(&self) -> Outcome {
        Outcome {
            touched: 0,
            status: 0,
            kind: 0,
            value: 0,
            session: self.session,
            taken: 0,
            wrote: 0,
            pool: self.pool.clone(),
            piece: self.piece.clone(),
            room: self.room.clone(),
            steps: Vec::new(),
        }
    }
}

impl Outcome {
    fn set_reply(&mut self, reply: Reply) {
        self.status = reply.status;
        self.kind = reply.kind;
        self.value = u64::from(reply.value);
    }

    fn set_mapped(&mut self, mapped: maps::Mapped) {
        self.status = mapped.status;
        self.kind = mapped.region;
        self.value = mapped.shadow;
    }

    /// One feed of at most so many bytes of what was not taken, with a part of the room.
    fn feed(
        &mut self,
        what: What,
        piece: usize,
        room: std::ops::Range<usize>,
        faults: Faults,
    ) -> Stepped {
        let feed = if what.is_in_place() {
            frames::feed_in_place
        } else {
            frames::feed
        };
        let at = self.taken as usize;
        let offered = &self.piece[at..self.piece.len().min(at + piece)];
        let room = &mut self.room[room];
        let fed = feed(&mut self.session, &mut self.pool, offered, room, faults);
        self.status = fed.status;
        self.taken += fed.taken as u64;
        self.wrote += fed.wrote as u64;
        Stepped {
            status: fed.status,
            taken: fed.taken as u64,
            wrote: fed.wrote as u64,
        }
    }

    fn replay(&mut self, what: What, steps: &[Step], faults: Faults) {
        let mut from = 0;
        for step in steps {
            let past = from + step.room as usize;
            let stepped = self.feed(what, step.piece as usize, from..past, faults);
            self.steps.push(stepped);
            from = past;
        }
    }
}
