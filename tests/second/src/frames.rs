// Frames in, frames out: reading a line, answering it, and feeding a piece.

use crate::faults::{Fault, Faults};
use crate::pool::{Pool, Reply};
use crate::session::{Session, PLACES};

/// The bytes of one answer: status (2), kind (2), value (8) and the line feed.
pub const ANSWER: usize = 13;

/// What a feed hands back besides the session.
pub struct Fed {
    pub status: u8,
    pub taken: usize,
    pub wrote: usize,
}

struct Frame {
    kind: u32,
    a: u32,
    b: u32,
}

fn digit(byte: u8, faults: Faults) -> Option<u32> {
    match byte {
        b'0'..=b'9' => Some(u32::from(byte - b'0')),
        b'a'..=b'f' => Some(u32::from(byte - b'a') + 10),
        b'A'..=b'F' if !faults.has(Fault::UpperCaseRefused) => Some(u32::from(byte - b'A') + 10),
        _ => None,
    }
}

fn number(digits: &[u8], faults: Faults) -> Option<u32> {
    let mut value = 0;
    for &byte in digits {
        value = value * 16 + digit(byte, faults)?;
    }
    Some(value)
}

/// "18 hex digits of either case": kind (2), A (8), B (8).
fn frame(session: &Session, faults: Faults) -> Option<Frame> {
    if session.unfinished != PLACES as u64 {
        return None;
    }
    Some(Frame {
        kind: number(&session.line[0..2], faults)?,
        a: number(&session.line[2..10], faults)?,
        b: number(&session.line[10..18], faults)?,
    })
}

/// The answer to the line that a line feed has just ended, "checked in number order".
fn answer(session: &Session, pool: &mut Pool, faults: Faults) -> Reply {
    let frame = match frame(session, faults) {
        Some(frame) => frame,
        None => return Reply::refused(1),
    };
    match frame.kind {
        1 | 2 if frame.b != 0 => Reply::refused(3),
        1 => pool.grant(session.redzone, frame.a, faults),
        2 => pool.release(session.quarantine, frame.a, faults),
        3 | 4 => pool.access(frame.a, frame.b, faults),
        _ => Reply::refused(2),
    }
}

/// "Status (2), kind (2), value (8), lower case, line feed"; the status in decimal.
fn written(reply: Reply) -> String {
    format!("{:02}{:02x}{:08x}\n", reply.status, reply.kind, reply.value)
}

/// "A feed call takes bytes in order until the piece ends, or the next byte is a line feed and fewer than 13 bytes of
/// report room are left."
pub fn feed(
    session: &mut Session,
    pool: &mut Pool,
    piece: &[u8],
    room: &mut [u8],
    faults: Faults,
) -> Fed {
    let mut fed = Fed {
        status: 0,
        taken: 0,
        wrote: 0,
    };
    if !session.holds(pool, faults) {
        fed.status = 24;
        return fed;
    }
    let needed = ANSWER + usize::from(faults.has(Fault::RoomFourteen));
    for &byte in piece {
        if byte != b'\n' {
            session.keep(byte, faults);
        } else if room.len() - fed.wrote < needed {
            break;
        } else {
            let reply = answer(session, pool, faults);
            room[fed.wrote..fed.wrote + ANSWER].copy_from_slice(written(reply).as_bytes());
            fed.wrote += ANSWER;
            if reply.status == 0 || !faults.has(Fault::RefusedLineKept) {
                session.empty_line();
            }
        }
        fed.taken += 1;
    }
    fed
}

/// "Takes the session record lent and changes it in place; it answers as the by-value call does."
pub fn feed_in_place(
    session: &mut Session,
    pool: &mut Pool,
    piece: &[u8],
    room: &mut [u8],
    faults: Faults,
) -> Fed {
    let lent = *session;
    let mut fed = feed(session, pool, piece, room, faults);
    if faults.has(Fault::UnfinishedNotStored) {
        session.unfinished = lent.unfinished;
    }
    if faults.has(Fault::LineNotStored) {
        session.line = lent.line;
    }
    if faults.has(Fault::InPlaceCountsSwapped) {
        std::mem::swap(&mut fed.taken, &mut fed.wrote);
    }
    if faults.has(Fault::ClosedInPlace) && fed.status == 24 {
        *session = Session::CLOSED;
    }
    fed
}
