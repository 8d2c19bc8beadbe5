// Calls and outcomes in words and hex, and the first difference of two outcomes.

use crate::call::{Call, Outcome};
use crate::frames::ANSWER;
use crate::pool::Pool;
use crate::session::Session;
use std::fmt::Write;

pub fn hex(bytes: &[u8]) -> String {
    bytes.iter().fold(String::new(), |mut text, byte| {
        // Writing to a string cannot fail.
        let _ = write!(text, "{:02x}", byte);
        text
    })
}

fn numbers(table: &[u32]) -> String {
    let rows = table.chunks(4).map(|row| {
        let numbers: Vec<String> = row.iter().map(|number| format!("{:x}", number)).collect();
        format!("({})", numbers.join(","))
    });
    rows.collect::<Vec<String>>().join(" ")
}

fn session(session: &Session) -> String {
    format!(
        "granules {:x} rows {:x} redzone {:x} quarantine {:x} unfinished {:x} line {}",
        session.granules,
        session.rows,
        session.redzone,
        session.quarantine,
        session.unfinished,
        hex(&session.line)
    )
}

fn buffers(pool: &Pool, piece: &[u8], room: &[u8]) -> String {
    let named = [
        ("shadow", pool.shadow.len(), hex(&pool.shadow)),
        ("table", pool.table.len(), numbers(&pool.table)),
        ("piece", piece.len(), hex(piece)),
        ("room", room.len(), hex(room)),
    ];
    let lent = named.iter().filter(|(_, length, _)| *length > 0);
    lent.map(|(name, length, text)| format!("  {} [{}]: {}\n", name, length, text))
        .collect()
}

/// The call with everything it was given; all numbers but lengths and statuses in hex.
pub fn call(call: &Call) -> String {
    let mut text = format!(
        "call {} with numbers {:x} {:x}\n  session: {}\n{}",
        call.what.name(),
        call.numbers[0],
        call.numbers[1],
        session(&call.session),
        buffers(&call.pool, &call.piece, &call.room)
    );
    if !call.steps.is_empty() {
        let steps = call
            .steps
            .iter()
            .map(|step| format!("{}/{}", step.piece, step.room));
        let listed = steps.collect::<Vec<String>>().join(" ");
        text += &format!("  steps [piece/room lengths]: {}\n", listed);
    }
    text
}

pub fn outcome(outcome: &Outcome) -> String {
    let mut text = format!(
        "  status {:02} kind {:02x} value {:x} taken {} wrote {}\n  session: {}\n{}",
        outcome.status,
        outcome.kind,
        outcome.value,
        outcome.taken,
        outcome.wrote,
        session(&outcome.session),
        buffers(&outcome.pool, &[], &outcome.room)
    );
    if !outcome.steps.is_empty() {
        let steps = outcome.steps.iter();
        let each = steps.map(|step| format!("{:02}/{}/{}", step.status, step.taken, step.wrote));
        let listed = each.collect::<Vec<String>>().join(" ");
        text += &format!("  steps [status/taken/wrote]: {}\n", listed);
    }
    text
}

/// The first place where two lists differ, if they do.
fn place<T: PartialEq>(own: &[T], other: &[T]) -> Option<usize> {
    if own == other {
        return None;
    }
    let pairs = own.iter().zip(other);
    let same = pairs.take_while(|(one, two)| one == two);
    Some(same.count())
}

fn differing_number(own: &Outcome, other: &Outcome) -> Option<String> {
    let (ours, theirs) = (&own.session, &other.session);
    let fields = [
        ("status", u64::from(own.status), u64::from(other.status)),
        ("kind", u64::from(own.kind), u64::from(other.kind)),
        ("value", own.value, other.value),
        ("taken", own.taken, other.taken),
        ("wrote", own.wrote, other.wrote),
        ("session granules", ours.granules, theirs.granules),
        ("session rows", ours.rows, theirs.rows),
        ("session redzone", ours.redzone, theirs.redzone),
        (
            "session quarantine",
            u64::from(ours.quarantine),
            u64::from(theirs.quarantine),
        ),
        ("session unfinished", ours.unfinished, theirs.unfinished),
    ];
    let differing = fields.iter().find(|(_, one, two)| one != two);
    differing.map(|(name, one, two)| format!("{}: {} here, {} there", name, one, two))
}

fn differing_bytes(own: &Outcome, other: &Outcome) -> Option<String> {
    let buffers: [(&str, &[u8], &[u8]); 4] = [
        ("room", &own.room, &other.room),
        ("session line", &own.session.line, &other.session.line),
        ("shadow", &own.pool.shadow, &other.pool.shadow),
        ("piece", &own.piece, &other.piece),
    ];
    for (name, ours, theirs) in buffers {
        if let Some(at) = place(ours, theirs) {
            let shown = |bytes: &[u8]| bytes.get(at).map_or("none".into(), |byte| hex(&[*byte]));
            return Some(format!(
                "{}[{}]: {} here, {} there",
                name,
                at,
                shown(ours),
                shown(theirs)
            ));
        }
    }
    None
}

/// The first answer of a feed's report that differs, with its number from 1.
fn differing_answer(own: &Outcome, other: &Outcome) -> Option<String> {
    let at = place(&own.room, &other.room)?;
    let wrote = own.wrote.min(other.wrote) as usize;
    if !own.steps.is_empty() || at >= wrote {
        return None;
    }
    let answer = at / ANSWER;
    let shown = |room: &[u8]| {
        let written = &room[answer * ANSWER..room.len().min(answer * ANSWER + ANSWER - 1)];
        String::from_utf8_lossy(written).into_owned()
    };
    let (ours, theirs) = (shown(&own.room), shown(&other.room));
    Some(format!(
        "answer {}: {} here, {} there",
        answer + 1,
        ours,
        theirs
    ))
}

fn differing_row(own: &Outcome, other: &Outcome) -> Option<String> {
    let at = place(&own.pool.table, &other.pool.table)?;
    let shown = |table: &[u32]| {
        table
            .get(at)
            .map_or("none".into(), |one| format!("{:x}", one))
    };
    let (ours, theirs) = (shown(&own.pool.table), shown(&other.pool.table));
    let (row, number) = (at / 4, at % 4);
    Some(format!(
        "row {}, number {}: {} here, {} there",
        row, number, ours, theirs
    ))
}

/// The first difference between this program's outcome and the library's, in words.
pub fn difference(own: &Outcome, other: &Outcome) -> Option<String> {
    if other.touched != 0 {
        let buffers = format!("{:05b}", other.touched);
        return Some(format!(
            "bytes before lent parts changed (session room piece table shadow: {})",
            buffers
        ));
    }
    if let Some(step) = place(&own.steps, &other.steps) {
        return Some(format!("step {} of the replay, counted from 0", step));
    }
    differing_answer(own, other)
        .or_else(|| differing_number(own, other))
        .or_else(|| differing_bytes(own, other))
        .or_else(|| differing_row(own, other))
}
