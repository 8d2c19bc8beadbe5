// Calls over scribbled shadows and tables, with scribbled, forged and closed sessions.

use crate::call::{Call, Step, What};
use crate::frames::ANSWER;
use crate::generator::Generator;
use crate::pool::Pool;
use crate::random::Random;
use crate::session::{Session, PLACES};
use crate::shadow::{NOT_HELD, RELEASED};

/// One call that a caller who keeps the buffers and the session as handed out would not make.
pub fn call(random: &mut Random) -> Call {
    let rows = if random.one_in(50) {
        random.within(1, 1_024)
    } else {
        random.within(1, 10)
    };
    let granules = if random.one_in(50) {
        random.within(8, 2_000)
    } else {
        random.within(8, 72)
    };
    let pool = Pool {
        shadow: shadow(random, granules),
        table: table(random, rows, granules),
    };
    let session = Session {
        granules,
        rows,
        redzone: if random.one_in(20) {
            random.within(2, 256)
        } else {
            random.within(2, 4)
        },
        quarantine: quarantine(random, &pool),
        ..Session::CLOSED
    };
    let whats = [
        What::Grant,
        What::Release,
        What::Release,
        What::Access,
        What::Feed,
        What::Replay,
    ];
    let mut call = Call::new(random.pick(&whats), session, pool);
    fill_arguments(random, &mut call);
    if random.one_in(3) {
        forge(random, &mut call);
    }
    if random.one_in(10) {
        call = Call::new(What::Unfinished, call.session, Pool::default());
    }
    call
}

/// Arguments aimed at what the buffers hold.
fn fill_arguments(random: &mut Random, call: &mut Call) {
    let mut generator = Generator::new(Random::new(random.next()), false);
    match call.what {
        What::Grant => call.numbers[0] = u64::from(generator.size(&call.session, &call.pool)),
        What::Release => call.numbers[0] = u64::from(generator.released(&call.pool)),
        What::Access => {
            let (address, length) = generator.access(&call.pool);
            call.numbers = [u64::from(address), u64::from(length)];
        }
        _ => {
            let lines = random.within(1, 6);
            call.piece = generator.text(&call.session, &call.pool, lines);
            fill_room(random, call, ANSWER as u64 * lines);
        }
    }
}

/// A feed's room, or a replay's steps and theirs; enough is room for all answers.
fn fill_room(random: &mut Random, call: &mut Call, enough: u64) {
    let steps = if call.what == What::Replay {
        random.within(1, 6)
    } else {
        1
    };
    let mut whole = 0;
    for _ in 0..steps {
        let small = random.below(41);
        let room = random.pick(&[small, enough, enough]);
        whole += room;
        if call.what == What::Replay {
            call.steps.push(Step {
                piece: random.below(60) as u32,
                room: room as u32,
            });
        }
    }
    call.room = random.bytes(whole as usize);
}

fn shadow(random: &mut Random, granules: u64) -> Vec<u8> {
    let style = random.below(5);
    let mut byte = |_| match style {
        0 => random.byte(),
        1 => random.pick(&[0x00, 0x00, NOT_HELD, RELEASED, 0x01, 0x07]),
        2 => random.within(0x00, 0x7f) as u8,
        3 if random.one_in(4) => random.pick(&[
            0x00, 0x04, 0x08, 0x09, 0x7f, 0x80, 0xf9, 0xfb, RELEASED, 0xff,
        ]),
        _ if random.one_in(20) => random.byte(),
        _ => NOT_HELD,
    };
    (0..granules).map(&mut byte).collect()
}

/// Rows of every kind, several with the same start or turn.
fn table(random: &mut Random, rows: u64, granules: u64) -> Vec<u32> {
    let mut table = Vec::new();
    let common_start = start(random, granules);
    let tame = random.one_in(2);
    for _ in 0..rows {
        let start = if random.one_in(3) {
            common_start
        } else {
            start(random, granules)
        };
        let size = if tame {
            random.within(1, 40) as u32
        } else {
            size(random)
        };
        let state = match random.below(10) {
            0..=1 => 0,
            2..=4 => 1,
            5..=8 => 2,
            _ => random.pick(&[3, 4, 0x100, 0x101, 0x102, 0x8000_0001, u32::MAX]),
        };
        let turn = match random.below(10) {
            0 => random.pick(&[u32::MAX, u32::MAX - 1, 0x8000_0000, 0x7fff_ffff]),
            1 => random.next() as u32,
            2..=3 => 0,
            _ => random.within(1, rows.min(5)) as u32,
        };
        if random.one_in(8) {
            table.extend_from_slice(&[0, 0, 0, 0]);
        } else {
            table.extend_from_slice(&[start, size, state, turn]);
        }
    }
    table
}

/// Starts in the shadow, about its end, and such that 8 x start passes 2^32 onto a small address.
fn start(random: &mut Random, granules: u64) -> u32 {
    match random.below(10) {
        0 => (granules + random.below(4)) as u32 - 2,
        1 => u32::MAX - random.below(4) as u32,
        2 => random.pick(&[0x2000_0000, 0x4000_0000, 0xe000_0000]) + random.below(granules) as u32,
        3 => random.next() as u32,
        _ => random.below(granules) as u32,
    }
}

fn size(random: &mut Random) -> u32 {
    match random.below(8) {
        0 => u32::MAX - random.below(10) as u32,
        1 => random.next() as u32,
        2 => 0x8000_0000 + random.below(2) as u32,
        3 => 0,
        4 => random.below(1_000) as u32,
        _ => random.within(1, 40) as u32,
    }
}

/// Limits about sums that the rows can come to.
fn quarantine(random: &mut Random, pool: &Pool) -> u32 {
    match random.below(6) {
        0 => 0,
        1 => u32::MAX,
        2 => random.below(200) as u32,
        3 => random.next() as u32,
        _ => {
            let kept = (0..pool.rows()).filter(|_| random.one_in(2));
            let sizes: Vec<u32> = kept.map(|row| pool.row(row).size).collect();
            let sum = sizes
                .iter()
                .fold(0_u32, |sum, &size| sum.wrapping_add(size));
            sum.wrapping_add(random.below(3) as u32).wrapping_sub(1)
        }
    }
}

/// Makes the session, or the lent lengths, other than they should be; at times within the limits.
fn forge(random: &mut Random, call: &mut Call) {
    match random.below(10) {
        0 => call.session = Session::CLOSED,
        1 => forge_granules(random, call),
        2 => forge_rows(random, call),
        3 => call.session.redzone = random.pick(&[0, 1, 2, 256, 257, 1 << 32 | 2, u64::MAX]),
        4..=5 => lend_other_lengths(random, call),
        _ => forge_line(random, &mut call.session),
    }
}

fn lend_other_lengths(random: &mut Random, call: &mut Call) {
    let (granules, rows) = (call.session.granules, call.session.rows);
    if random.one_in(2) {
        let lengths = [0, granules - 1, granules + 1, 2 * granules];
        call.pool
            .shadow
            .resize(random.pick(&lengths) as usize, NOT_HELD);
    } else {
        let numbers = 4 * rows;
        let lengths = [0, rows, numbers - 1, numbers + 1, numbers + 4, numbers - 4];
        call.pool.table.resize(random.pick(&lengths) as usize, 0);
    }
}

/// An unfinished line of any length, with its unused places zero, or one of them not, or all places as may be.
fn forge_line(random: &mut Random, session: &mut Session) {
    let length = random.below(20);
    session.unfinished = length;
    session.line = line(random, length);
    match random.below(4) {
        0 if length < 18 => {
            let place = random.within(length, 17) as usize;
            session.line[place] = random.byte();
        }
        1 => {
            session.unfinished = random.pick(&[length, 18, 19, 20, 256, 1 << 32, u64::MAX]);
            session.line = if random.one_in(2) {
                line(random, 18)
            } else {
                [0; PLACES]
            };
        }
        _ => {}
    }
}

/// So many bytes of an unfinished line, of any values or hex digits, then zeros.
fn line(random: &mut Random, length: u64) -> [u8; PLACES] {
    let digits = random.one_in(2);
    let mut line = [0; PLACES];
    for place in line.iter_mut().take(length as usize) {
        *place = if digits {
            random.pick(b"0000001234aF")
        } else {
            random.byte()
        };
    }
    line
}

fn forge_granules(random: &mut Random, call: &mut Call) {
    let now = call.session.granules;
    let values = [
        0,
        7,
        8,
        9,
        now - 1,
        now + 1,
        1 << 32 | now,
        1 << 16 | now,
        u64::MAX,
        65_536,
        65_537,
    ];
    call.session.granules = random.pick(&values);
    if random.one_in(2) && call.session.granules <= 65_537 {
        call.pool
            .shadow
            .resize(call.session.granules as usize, NOT_HELD);
    }
}

/// Among others such that four times the rows wraps to the table's length.
fn forge_rows(random: &mut Random, call: &mut Call) {
    let now = call.session.rows;
    let values = [
        0,
        1,
        now - 1,
        now + 1,
        4 * now,
        1 << 62 | now,
        1 << 32 | now,
        u64::MAX,
        1_024,
        1_025,
    ];
    call.session.rows = random.pick(&values);
    if random.one_in(2) && call.session.rows <= 1_025 {
        call.pool.table.resize(4 * call.session.rows as usize, 0);
    }
}
