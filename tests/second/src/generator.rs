// A generator of trace lines that follows the state of a replay, so that it can aim at what is there.

use crate::faults::Faults;
use crate::frames::{self, ANSWER};
use crate::pool::{granules, Pool, EMPTY, LIVE, QUARANTINED};
use crate::random::Random;
use crate::session::Session;
use crate::shadow::NOT_HELD;

pub struct Generator {
    random: Random,
    /// Only well-formed lines, 18 hex digits.
    frames_only: bool,
    /// Addresses that were aimed at lately: with time, those of evicted blocks.
    past: [u32; 8],
}

impl Generator {
    pub fn new(random: Random, frames_only: bool) -> Generator {
        Generator {
            random,
            frames_only,
            past: [0; 8],
        }
    }

    /// The next line, without its line feed.
    pub fn line(&mut self, session: &Session, pool: &Pool) -> Vec<u8> {
        let line = self.frame(session, pool);
        if self.frames_only || !self.random.one_in(8) {
            return line;
        }
        self.malformed(line)
    }

    /// So many lines, following their effect on copies of the session and the buffers.
    pub fn text(&mut self, session: &Session, pool: &Pool, lines: u64) -> Vec<u8> {
        let (mut session, mut pool) = (*session, pool.clone());
        let mut text = Vec::new();
        for _ in 0..lines {
            let mut line = self.line(&session, &pool);
            line.push(b'\n');
            let mut room = [0; ANSWER];
            frames::feed(&mut session, &mut pool, &line, &mut room, Faults::NONE);
            text.extend_from_slice(&line);
        }
        text
    }

    fn frame(&mut self, session: &Session, pool: &Pool) -> Vec<u8> {
        let (kind, a, b) = match self.random.below(100) {
            0..=29 => self.grant(session, pool),
            30..=54 => self.release(session, pool),
            55..=91 => self.read_or_write(pool),
            92..=95 => (self.odd_kind(), self.address(pool), self.length(pool, 0)),
            _ => {
                let b = self.random.pick(&[1, 0x10, 0x8000_0000, u32::MAX]);
                (self.random.pick(&[1, 2]), self.address(pool), b)
            }
        };
        let text = format!("{:02x}{:08x}{:08x}", kind, a, b);
        self.cased(text.into_bytes())
    }

    /// A grant that does not wear the pool out, or else an access.
    fn grant(&mut self, session: &Session, pool: &Pool) -> (u8, u32, u32) {
        let asked = self.size(session, pool);
        let empty = (0..pool.rows()).filter(|&row| pool.row(row).state == EMPTY);
        let left = u64::from(session.quarantine).saturating_sub(quarantined(pool));
        if empty.count() != 1 || u64::from(asked) > left || overflows(pool, left, None) {
            return (1, asked, 0);
        }
        if left < u64::from(largest(session, pool)) {
            return (1, left as u32 + 1, 0);
        }
        self.read_or_write(pool)
    }

    /// A release that does not wear the pool out, or else an access.
    fn release(&mut self, session: &Session, pool: &Pool) -> (u8, u32, u32) {
        let address = self.released(pool);
        let rows = || (0..pool.rows()).map(|row| (row, pool.row(row)));
        let released = rows().find(|(_, row)| row.state == LIVE && row.start == address / 8);
        if let Some((released, row)) = released {
            let left = u64::from(session.quarantine).saturating_sub(quarantined(pool));
            let size = u64::from(row.size);
            let any_empty = rows().any(|(_, row)| row.state == EMPTY);
            if !any_empty && size <= left && !overflows(pool, left - size, Some(released)) {
                return self.read_or_write(pool);
            }
        }
        (2, address, 0)
    }

    fn read_or_write(&mut self, pool: &Pool) -> (u8, u32, u32) {
        let (address, length) = self.access(pool);
        (self.random.pick(&[3, 4]), address, length)
    }

    fn odd_kind(&mut self) -> u8 {
        let random = self.random.byte();
        self.random
            .pick(&[0x00, 0x05, 0x06, 0x10, 0x11, 0x20, 0x30, 0x81, 0xff, random])
    }

    /// Mostly lower case; at times upper, at times mixed.
    fn cased(&mut self, mut line: Vec<u8>) -> Vec<u8> {
        match self.random.below(10) {
            0 => line.make_ascii_uppercase(),
            1 => {
                for byte in &mut line {
                    if self.random.one_in(2) {
                        byte.make_ascii_uppercase();
                    }
                }
            }
            _ => {}
        }
        line
    }

    /// A line that is mostly not 18 hex digits, made from one that is; it never holds a line feed.
    fn malformed(&mut self, mut line: Vec<u8>) -> Vec<u8> {
        let length = self.random.below(26) as usize;
        match self.random.below(7) {
            0 => line.resize(length, b'0'),
            1 => line.push(b'\r'),
            2 => line = self.random.bytes(length),
            3 => {
                let place = self.random.below(18) as usize;
                line[place] = self.random.pick(b"/:@G`g \r\t-+xX\0\x7f\x80\xff");
            }
            4 => {
                let place = self.random.below(18) as usize;
                line[place] = self.random.byte();
            }
            5 => line.insert(self.random.below(19) as usize, b'0'),
            _ => {
                let long = self.random.within(19, 300);
                let length = self.random.pick(&[17, 18, 19, 20, long]);
                line = self.random.bytes(length as usize);
            }
        }
        line.iter()
            .map(|&byte| if byte == b'\n' { b'\r' } else { byte })
            .collect()
    }

    /// A size to grant.
    pub fn size(&mut self, session: &Session, pool: &Pool) -> u32 {
        match self.random.below(20) {
            0..=2 => self.random.pick(&[0, 1, 7, 8, 9]),
            3 => largest(session, pool),
            4 => largest(session, pool).saturating_add(1),
            5 => u32::MAX - self.random.below(20) as u32,
            6 => self.random.next() as u32,
            7..=8 => self.random.below(8 * pool.shadow.len() as u64 + 9) as u32,
            _ => self.random.within(0, 40) as u32,
        }
    }

    /// An address to release: mostly that of a live row.
    pub fn released(&mut self, pool: &Pool) -> u32 {
        match self.random.below(20) {
            0 => 0,
            1..=11 => self.start(pool, LIVE),
            12..=14 => self.start(pool, QUARANTINED),
            15..=16 => self.random.pick(&self.past.clone()),
            _ => self.address(pool),
        }
    }

    /// The address of some row of a state, its 32 lowest bits where a scribbled start has more.
    fn start(&mut self, pool: &Pool, state: u32) -> u32 {
        let rows = (0..pool.rows()).map(|row| pool.row(row));
        let starts: Vec<u32> = rows
            .filter(|row| row.state == state)
            .map(|row| row.start)
            .collect();
        if starts.is_empty() {
            return self.address(pool);
        }
        let address = self.random.pick(&starts).wrapping_mul(8);
        let place = self.random.below(8) as usize;
        self.past[place] = address;
        address
    }

    /// Any address: at and around a row's edges, the arena's end, the last addresses.
    pub fn address(&mut self, pool: &Pool) -> u32 {
        let arena = 8 * pool.shadow.len() as u32;
        match self.random.below(16) {
            0 => self.random.next() as u32,
            1 => u32::MAX - self.random.below(20) as u32,
            2 => arena
                .wrapping_add(self.random.below(4) as u32)
                .wrapping_sub(2),
            3 => self.random.pick(&self.past.clone()),
            4..=6 => self.random.below(u64::from(arena) + 9) as u32,
            _ if pool.rows() > 0 => self.around_row(pool),
            _ => self.random.below(64) as u32,
        }
    }

    fn around_row(&mut self, pool: &Pool) -> u32 {
        let mut row = pool.row(self.random.below(pool.rows() as u64) as usize);
        for _ in 0..4 {
            if row.state == 0 {
                row = pool.row(self.random.below(pool.rows() as u64) as usize);
            }
        }
        let first = row.start.wrapping_mul(8);
        let past = first.wrapping_add(row.size);
        let inside = first.wrapping_add(self.random.below(u64::from(row.size) + 1) as u32);
        let granule_past = first.wrapping_add(granules(row.size).wrapping_mul(8) as u32);
        let edge = self
            .random
            .pick(&[first, first, past, inside, granule_past]);
        edge.wrapping_add(self.random.pick(&[0, 0, 1, 2, 8]))
            .wrapping_sub(self.random.pick(&[0, 0, 1, 2, 8]))
    }

    /// An access: its address and its length; one in three lies in a block if there is one.
    pub fn access(&mut self, pool: &Pool) -> (u32, u32) {
        if self.random.one_in(3) {
            let first = self.start(pool, LIVE);
            let rows = (0..pool.rows()).map(|row| pool.row(row));
            let mut there = rows.filter(|row| row.state == LIVE && row.start == first / 8);
            let size = there.next().map_or(1, |row| u64::from(row.size));
            let offset = self.random.below(size + 1);
            let length = self.random.below(size - offset + 1);
            return (first.wrapping_add(offset as u32), length as u32);
        }
        let address = self.address(pool);
        (address, self.length(pool, address))
    }

    /// A length for an access: to a row's end and about it, to the arena's end, to 2^32 and beyond.
    fn length(&mut self, pool: &Pool, address: u32) -> u32 {
        let arena = 8 * pool.shadow.len() as u32;
        let about = self.random.below(4) as u32;
        match self.random.below(16) {
            0..=1 => 0,
            2..=4 => self.random.pick(&[1, 2, 4, 7, 8, 9, 16]),
            5 => u32::MAX - about,
            6 => arena
                .wrapping_sub(address)
                .wrapping_add(about)
                .wrapping_sub(2),
            7 => address.wrapping_neg().wrapping_add(about).wrapping_sub(2),
            8 => address
                .wrapping_neg()
                .wrapping_add(self.random.below(64) as u32),
            9 => self.random.next() as u32,
            10..=12 if pool.rows() > 0 => self.around_row(pool).wrapping_sub(address),
            _ => self.random.below(24) as u32,
        }
    }
}

/// "A grant never evicts": once all rows are quarantined within the limit, no line changes anything any more. A long
/// trace would soon come to that, so the last row that is not quarantined is kept empty, or live with a size whose
/// release evicts. This tells whether some live row, but one, has such a size, where so much is left of the limit.
fn overflows(pool: &Pool, left: u64, but: Option<usize>) -> bool {
    let rows = (0..pool.rows()).filter(|&row| Some(row) != but);
    let mut live = rows
        .map(|row| pool.row(row))
        .filter(|row| row.state == LIVE);
    live.any(|row| u64::from(row.size) > left)
}

/// The sum of the quarantined rows' sizes.
fn quarantined(pool: &Pool) -> u64 {
    let rows = (0..pool.rows()).map(|row| pool.row(row));
    let held = rows.filter(|row| row.state == QUARANTINED);
    held.map(|row| u64::from(row.size)).sum()
}

/// The largest size that fits now, or 0.
fn largest(session: &Session, pool: &Pool) -> u32 {
    let (mut run, mut longest) = (0_u64, 0_u64);
    for &byte in &pool.shadow {
        run = if byte == NOT_HELD { run + 1 } else { 0 };
        longest = longest.max(run);
    }
    longest
        .saturating_sub(session.redzone.saturating_mul(2))
        .saturating_mul(8) as u32
}
