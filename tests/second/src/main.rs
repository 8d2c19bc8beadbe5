// The independent second program: the paper's rules replayed in plain Rust, and compared with the proved library.
//
// It is written from the paper alone and shares no code and no definitions with the proved program. Only the bridge
// links the library; it is C and a program of its own, so that it can be built for and run on another machine.
//
//     rustc --edition 2021 -O src/main.rs -o second
//     gcc -std=c11 -O2 -Wall -Wextra -Werror -I INCLUDE bridge.c libkinkhost.a -o bridge
//
//     second replay GRANULES REDZONE QUARANTINE ROWS             a trace on stdin, its report on stdout
//     second generate SEED LINES GRANULES REDZONE QUARANTINE ROWS          a trace on stdout
//     second generate-frames SEED LINES GRANULES REDZONE QUARANTINE ROWS   the same, well-formed lines only
//     second compare [--seed N] [--lines N] [--calls N] [--fault NAME] --bridge PROGRAM [ARG...]
//     second faults                                              the names that --fault knows, one a line
//
// A comparison prints its seed first, then what it compared. Statuses: 0 all agreed; 1 a difference (told on standard
// error), or an answer of the paper's table, or of an in-place call, that was never seen; 2 wrong usage, a bridge that
// failed, lost output.

mod bridge;
mod call;
mod compare;
mod faults;
mod frames;
mod generator;
mod maps;
mod openings;
mod pool;
mod random;
mod scribbles;
mod session;
mod shadow;
mod show;
mod tally;
mod traces;

use compare::{Failure, Settings};
use faults::Faults;
use frames::ANSWER;
use generator::Generator;
use pool::Pool;
use random::Random;
use session::Session;
use std::io::{self, BufWriter, Read, Write};
use std::process::ExitCode;
use std::time::{SystemTime, UNIX_EPOCH};

const USAGE: &str = "usage: second replay GRANULES REDZONE QUARANTINE ROWS | \
generate[-frames] SEED LINES GRANULES REDZONE QUARANTINE ROWS | \
compare [--seed N] [--lines N] [--calls N] [--fault NAME] --bridge PROGRAM [ARG...] | faults";

const DEFAULT_LINES: u64 = 400_000;
const DEFAULT_CALLS: u64 = 100_000;

/// Why the program ends with another status than 0.
struct Ending {
    status: u8,
    why: String,
}

fn trouble(why: impl Into<String>) -> Ending {
    Ending {
        status: 2,
        why: why.into(),
    }
}

fn lost_output(error: io::Error) -> Ending {
    trouble(format!("standard output cannot be written: {}", error))
}

fn main() -> ExitCode {
    let arguments: Option<Vec<String>> = std::env::args_os()
        .skip(1)
        .map(|word| word.into_string().ok())
        .collect();
    let ended = match arguments {
        Some(words) => run(&words),
        None => Err(trouble(USAGE)),
    };
    match ended {
        Ok(()) => ExitCode::SUCCESS,
        Err(ending) => {
            // Nothing is left to tell where standard error is lost too.
            let _ = writeln!(io::stderr(), "second: {}", ending.why.trim_end());
            ExitCode::from(ending.status)
        }
    }
}

fn run(words: &[String]) -> Result<(), Ending> {
    let (command, rest) = words.split_first().ok_or_else(|| trouble(USAGE))?;
    match command.as_str() {
        "replay" => replay(&numbers(rest, 4)?),
        "generate" => generate(&numbers(rest, 6)?, false),
        "generate-frames" => generate(&numbers(rest, 6)?, true),
        "compare" => compare(rest),
        "faults" if rest.is_empty() => {
            let names: String = Faults::names().map(|name| format!("{}\n", name)).collect();
            print(&names)
        }
        _ => Err(trouble(USAGE)),
    }
}

fn print(text: &str) -> Result<(), Ending> {
    let mut output = io::stdout();
    output
        .write_all(text.as_bytes())
        .and_then(|()| output.flush())
        .map_err(lost_output)
}

fn number(word: &str) -> Result<u64, Ending> {
    word.parse()
        .map_err(|_| trouble(format!("not a number: {}", word)))
}

fn numbers(words: &[String], count: usize) -> Result<Vec<u64>, Ending> {
    if words.len() != count {
        return Err(trouble(USAGE));
    }
    words.iter().map(|word| number(word)).collect()
}

/// Opens a session from GRANULES REDZONE QUARANTINE ROWS, refusing what the paper refuses.
fn open(asked: &[u64]) -> Result<(Session, Pool), Ending> {
    if asked[2] > u64::from(u32::MAX) {
        return Err(trouble("the quarantine limit is not a 32-bit number"));
    }
    // One past the limits is refused as anything beyond them, and needs no more memory.
    let mut pool = Pool {
        shadow: vec![0; asked[0].min(65_537) as usize],
        table: vec![0; 4 * asked[3].min(1_025) as usize],
    };
    match Session::open(&mut pool, asked[1], asked[2] as u32, Faults::NONE) {
        (0, session) => Ok((session, pool)),
        (status, _) => Err(trouble(format!("the opening is refused: {}", status))),
    }
}

/// Streams a trace through: a piece's answers always find room, since each takes a line feed of the piece.
fn replay(asked: &[u64]) -> Result<(), Ending> {
    let (mut session, mut pool) = open(asked)?;
    let mut input = io::stdin();
    let mut output = io::stdout();
    let mut piece = vec![0; 1 << 14];
    let mut room = vec![0; ANSWER * piece.len()];
    loop {
        let length = match input.read(&mut piece) {
            Ok(0) => break,
            Ok(length) => length,
            Err(error) if error.kind() == io::ErrorKind::Interrupted => continue,
            Err(error) => return Err(trouble(format!("standard input cannot be read: {}", error))),
        };
        let fed = frames::feed(
            &mut session,
            &mut pool,
            &piece[..length],
            &mut room,
            Faults::NONE,
        );
        output.write_all(&room[..fed.wrote]).map_err(lost_output)?;
    }
    output.flush().map_err(lost_output)
}

/// SEED LINES, then as an opening.
fn generate(asked: &[u64], frames_only: bool) -> Result<(), Ending> {
    let (mut session, mut pool) = open(&asked[2..])?;
    let mut generator = Generator::new(Random::new(asked[0]), frames_only);
    let mut output = BufWriter::new(io::stdout());
    let mut room = [0; ANSWER];
    for _ in 0..asked[1] {
        let mut line = generator.line(&session, &pool);
        line.push(b'\n');
        frames::feed(&mut session, &mut pool, &line, &mut room, Faults::NONE);
        output.write_all(&line).map_err(lost_output)?;
    }
    output.flush().map_err(lost_output)
}

/// A seed from the clock and the process id.
fn any_seed() -> u64 {
    let clock = SystemTime::now().duration_since(UNIX_EPOCH);
    let moment = clock.map_or(0, |since| since.as_nanos() as u64);
    Random::new(moment ^ u64::from(std::process::id()) << 40).next()
}

fn settings(words: &[String]) -> Result<(Settings, &[String]), Ending> {
    let mut settings = Settings {
        seed: any_seed(),
        lines: DEFAULT_LINES,
        calls: DEFAULT_CALLS,
        faults: Faults::NONE,
    };
    let mut rest = words;
    while let [option, value, after @ ..] = rest {
        match option.as_str() {
            "--bridge" => return Ok((settings, &rest[1..])),
            "--seed" => settings.seed = number(value)?,
            "--lines" => settings.lines = number(value)?,
            "--calls" => settings.calls = number(value)?,
            "--fault" => {
                let faults = Faults::named(value);
                settings.faults =
                    faults.ok_or_else(|| trouble(format!("no such fault: {}", value)))?;
            }
            _ => break,
        }
        rest = after;
    }
    Err(trouble(USAGE))
}

fn compare(words: &[String]) -> Result<(), Ending> {
    let (settings, command) = settings(words)?;
    let bridge = bridge::Bridge::start(command).map_err(trouble)?;
    print(&format!("seed {}\n", settings.seed))?;
    match compare::run(bridge, settings) {
        Ok(compared) => print(&compared),
        Err(Failure::Difference(why)) => Err(Ending { status: 1, why }),
        Err(Failure::Bridge(why)) => Err(trouble(why)),
    }
}
