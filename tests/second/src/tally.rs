// What a comparison has compared, and whether that was enough.

use crate::call::{Call, Outcome, What, IN_PLACE, NAMES};
use crate::frames::ANSWER;
use std::collections::BTreeMap;
use std::fmt::Write;

/// The answer numbers of the paper's table.
const ANSWERS: [u8; 15] = [0, 1, 2, 3, 5, 6, 7, 8, 9, 21, 22, 23, 24, 31, 32];

/// What an in-place call answers.
const IN_PLACE_ANSWERS: [u8; 2] = [0, 24];

/// The ways a text is fed.
#[derive(Clone, Copy)]
pub enum Cutting {
    Whole,
    Random,
    Bytes,
    EachCut,
    EachRoom,
}

const CUTTINGS: [&str; 5] = [
    "whole",
    "at random",
    "all bytes",
    "each single cut",
    "each small room",
];

#[derive(Default)]
pub struct Tally {
    pub lines: u64,
    pub scribbled: u64,
    pub sessions: u64,
    steps: u64,
    calls: [u64; NAMES.len()],
    scribbled_calls: [u64; NAMES.len()],
    answers: BTreeMap<u8, u64>,
    /// By the call's name and the answer, a replay's being its last step's.
    in_place: BTreeMap<(&'static str, u8), u64>,
    cuttings: [u64; 5],
}

impl Tally {
    /// Counts a compared call; the answers of a replay are those of a text counted already, and those of an in-place
    /// call are those of the same call by value.
    pub fn count(&mut self, call: &Call, outcome: &Outcome) {
        self.calls[call.what as usize] += 1;
        self.steps += call.steps.len() as u64;
        if call.what.is_in_place() {
            let answered = (call.what.name(), outcome.status);
            *self.in_place.entry(answered).or_insert(0) += 1;
            return;
        }
        if call.what == What::Replay {
            return;
        }
        self.count_answer(outcome.status);
        let report = &outcome.room[..outcome.wrote.min(outcome.room.len() as u64) as usize];
        for answer in report.chunks_exact(ANSWER) {
            let tens = answer[0].wrapping_sub(b'0').wrapping_mul(10);
            self.count_answer(tens.wrapping_add(answer[1].wrapping_sub(b'0')));
        }
    }

    fn count_answer(&mut self, status: u8) {
        *self.answers.entry(status).or_insert(0) += 1;
    }

    /// The answers that have to be seen, and how often each was.
    fn wanted(&self) -> Vec<(String, u64)> {
        let times = |seen: Option<&u64>| seen.copied().unwrap_or(0);
        let of_table = ANSWERS.iter().map(|number| {
            let seen = self.answers.get(number);
            (format!("{:02}", number), times(seen))
        });
        let mut wanted: Vec<(String, u64)> = of_table.collect();
        for what in IN_PLACE {
            for number in IN_PLACE_ANSWERS {
                let seen = self.in_place.get(&(what.name(), number));
                wanted.push((format!("{} {:02}", what.name(), number), times(seen)));
            }
        }
        wanted
    }

    pub fn count_cutting(&mut self, cutting: Cutting) {
        self.cuttings[cutting as usize] += 1;
    }

    pub fn count_scribbled(&mut self, what: What) {
        self.scribbled += 1;
        self.scribbled_calls[what as usize] += 1;
    }

    /// The paper's answers, and those of the in-place calls, that were never seen.
    pub fn unseen(&self) -> Vec<String> {
        let wanted = self.wanted().into_iter();
        let unseen = wanted.filter(|&(_, times)| times == 0);
        unseen.map(|(answer, _)| answer).collect()
    }

    pub fn shown(&self) -> String {
        let mut text = format!(
            "compared {} trace lines in {} sessions\n",
            self.lines, self.sessions
        );
        let _ = writeln!(text, "calls: {}", by_name(&NAMES, &self.calls));
        let wanted = self.wanted().into_iter();
        let answers = wanted.map(|(answer, times)| format!("{} {}", answer, times));
        let _ = writeln!(
            text,
            "answers: {}",
            answers.collect::<Vec<String>>().join(", ")
        );
        let cuttings = by_name(&CUTTINGS, &self.cuttings);
        let _ = writeln!(text, "cuttings: {}; {} steps", cuttings, self.steps);
        let scribbled = by_name(&NAMES, &self.scribbled_calls);
        let _ = writeln!(text, "scribbled calls: {} ({})", self.scribbled, scribbled);
        text
    }
}

fn by_name(names: &[&str], counts: &[u64]) -> String {
    let counted = names.iter().zip(counts).filter(|(_, &count)| count > 0);
    let listed = counted.map(|(name, count)| format!("{} {}", name, count));
    listed.collect::<Vec<String>>().join(", ")
}
