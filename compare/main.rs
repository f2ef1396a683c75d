//! Holds Temuvald's program to rav1e's own functions by running both, and times both.
//!
//! usage: compare scripts PROGRAM FOLDER COUNT CALLS SEED
//!        compare answers PROGRAM FOLDER COUNT CALLS SEED
//!        compare outside
//!        compare bench MIX ROUNDS
//!
//! `scripts` makes random scripts, runs them through the program and its accepted calls through rav1e, and compares;
//! `answers` prints such scripts, of accepted calls alone, with rav1e's answers behind them; `outside` prints what rav1e
//! does with inputs that the program refuses; `bench` times rav1e's side, with the calls of the script MIX.

#![allow(unexpected_cfgs, dead_code, non_camel_case_types, non_upper_case_globals)]

mod bench;
mod calls;
mod outside;
mod program;
mod random;
mod tile;

use crate::calls::{Call, KINDS, Script};
use crate::context::{ContextWriter, FrameBlocks};
use crate::program::{Output, Program, packed};
use crate::tile::{State, Tile, start_words, tables};
use std::env;
use std::process::exit;

include!(env!("RAV1E"));

/// Symbol `s` of `n`, with the values of its table before and behind it.
#[derive(Copy, Clone, Debug, PartialEq, Eq)]
pub struct Entry {
    pub s: u8,
    pub n: u8,
    pub fl: u16,
    pub fh: u16,
}

/// The bytes that the state's digest goes over.
fn state_bytes(state: &State) -> Vec<u8> {
    let mut out = Vec::new();
    for word in state.words {
        out.extend(word.to_le_bytes());
    }
    out.extend(state.above);
    out.extend(state.left);
    for cell in &state.cells {
        out.extend([u8::from(cell.skip), cell.segmentation_idx]);
    }
    out
}

/// Runs `f` on a new tile on rav1e's side.
fn with_tile<T>(script: &Script, f: impl FnOnce(&mut Tile) -> T) -> T {
    let mut frame = FrameBlocks::new(script.columns, script.rows);
    let mut blocks = frame.as_tile_blocks_mut();
    let mut tables = tables(start_words());
    f(&mut Tile::new(ContextWriter::over(&mut tables, &mut blocks), script.last))
}

/// What rav1e answers to an accepted call, as the program prints it.
fn answer(tile: &mut Tile, call: Call, open: &mut usize) -> String {
    let before = tile.entries().len();
    let segment = tile.call(call);
    match (call, segment) {
        (Call::Segment { .. }, Some(id)) => format!("ok {} {id}", tile.entries().len() - before),
        (Call::Open, _) => {
            *open += 1;
            format!("ok {open}")
        }
        (Call::Keep(_), _) => {
            *open -= 1;
            "ok".into()
        }
        (Call::Back(_) | Call::Context { .. } | Call::Row, _) => "ok".into(),
        _ => format!("ok {}", tile.entries().len() - before),
    }
}

/// What state bytes say at a place, to tell a difference by.
fn spot(at: usize, columns: usize) -> String {
    match at {
        0..860 => format!("word {}", at / 2),
        860..1372 => format!("above byte {}", at - 860),
        1372..1380 => format!("left byte {}", at - 1372),
        _ => {
            let cell = (at - 1380) / 2;
            format!("the cell at {}, {}", cell % columns, cell / columns)
        }
    }
}

/// What was compared.
#[derive(Default)]
struct Tally {
    /// Accepted calls of each kind.
    calls: [usize; KINDS.len()],
    refused: usize,
    entries: usize,
    /// The most trials that were open at once.
    deepest: usize,
}

impl Tally {
    fn add(&mut self, other: &Tally) {
        for (sum, count) in self.calls.iter_mut().zip(other.calls) {
            *sum += count;
        }
        self.refused += other.refused;
        self.entries += other.entries;
        self.deepest = self.deepest.max(other.deepest);
    }
}

/// Compares the program's output with what rav1e makes of the accepted calls: what was compared, or the first
/// difference.
fn compare(script: &Script, output: &Output) -> Result<Tally, String> {
    with_tile(script, |tile| {
        let mut tally = Tally::default();
        let mut open = 0;
        for (i, (&call, came)) in script.calls.iter().zip(&output.answers).enumerate() {
            if came.starts_with("refused") {
                tally.refused += 1;
                continue;
            }
            let wanted = answer(tile, call, &mut open);
            if *came != wanted {
                return Err(format!("line {}: rav1e answers {wanted:?}, came {came:?}", script.first_line() + i));
            }
            tally.calls[call.kind()] += 1;
            tally.deepest = tally.deepest.max(open);
        }
        let entries = tile.entries();
        if let Some(at) = entries.iter().zip(&output.entries).position(|(wanted, came)| wanted != came) {
            return Err(format!("entry {at}: rav1e writes {:?}, came {:?}", entries[at], output.entries[at]));
        }
        if entries.len() != output.entries.len() {
            return Err(format!("rav1e writes {} entries, came {}", entries.len(), output.entries.len()));
        }
        let state = state_bytes(&tile.state());
        if state.len() != output.state.len() {
            return Err(format!("a state of {} bytes, came {}", state.len(), output.state.len()));
        }
        match state.iter().zip(&output.state).position(|(wanted, came)| wanted != came) {
            Some(at) => Err(format!("the state differs at {}", spot(at, script.columns))),
            None => {
                tally.entries = entries.len();
                Ok(tally)
            }
        }
    })
}

fn run_scripts(program: &Program, count: u64, calls: usize, seed: u64) -> bool {
    let (mut all, mut different) = (Tally::default(), 0);
    for i in 0..count {
        let script = Script::random(seed + i, calls);
        match program.run(&script).and_then(|output| compare(&script, &output)) {
            Ok(tally) => all.add(&tally),
            Err(e) => {
                different += 1;
                println!("seed {}: {e}", seed + i);
            }
        }
    }
    for (name, count) in KINDS.iter().zip(all.calls) {
        println!("{name:<10}{count:>9}");
    }
    println!("at most {} trials open; {} entries at the ends; {} calls refused", all.deepest, all.entries, all.refused);
    let accepted: usize = all.calls.iter().sum();
    println!("{count} scripts of {calls} calls, {accepted} of them accepted: {different} scripts differ");
    different == 0
}

/// The digest of a state: FNV-1a in 64 bits.
fn digest(bytes: &[u8]) -> u64 {
    bytes.iter().fold(0xcbf2_9ce4_8422_2325, |h, &byte| (h ^ u64::from(byte)).wrapping_mul(0x100_0000_01b3))
}

/// How many calls stand at the end: trials, what was taken back and the calls that open and end trials count for nothing.
fn standing(calls: &[Call]) -> usize {
    let mut count = 0;
    let mut marks = Vec::new();
    for call in calls {
        match call {
            Call::Open => marks.push(count),
            Call::Back(_) => count = *marks.last().unwrap(),
            Call::Keep(_) => {
                marks.pop();
            }
            _ => count += 1,
        }
    }
    count
}

/// Prints scripts of accepted calls, with rav1e's answers as comments: first those of the calls, then what has to be
/// printed at the end, and all entries.
fn print_answers(program: &Program, count: u64, calls: usize, seed: u64) -> Result<(), String> {
    println!("# Random scripts, parted by lines `---`, and what rav1e's own functions make of them: the answer of a call behind");
    println!("# the call, and then the printed lines and the entries. Printed by `compare/run SOURCES answers {count} {calls} {seed}`.");
    for i in 0..count {
        let mut script = Script::random(seed + i, calls);
        script.head.clear();
        let output = program.run(&script)?;
        let mut accepted = output.answers.iter().map(|answer| !answer.starts_with("refused"));
        script.calls.retain(|_| accepted.next().unwrap());
        if i > 0 {
            println!("---");
        }
        with_tile(&script, |tile| {
            println!("tile {} {} {}", script.columns, script.rows, script.last);
            let mut open = 0;
            for &call in &script.calls {
                let text = call.to_string();
                println!("{text:<30} #> {}", answer(tile, call, &mut open));
            }
            let bytes: usize = tile.entries().iter().map(|entry| packed(entry).len()).sum();
            let stand = standing(&script.calls);
            println!("#>\n#> record {} entries, {bytes} bytes packed", tile.entries().len());
            println!("#> state {:016x}", digest(&state_bytes(&tile.state())));
            println!("#> read back {stand} of {stand} standing calls equal");
            println!("#> entries");
            for entry in tile.entries() {
                println!("#> {} {} {} {}", entry.s, entry.n, entry.fl, entry.fh);
            }
        });
    }
    Ok(())
}

fn usage() -> ! {
    eprintln!(
        "usage: compare scripts|answers PROGRAM FOLDER COUNT CALLS SEED, compare outside, or compare bench MIX ROUNDS"
    );
    exit(2)
}

fn main() {
    let args: Vec<String> = env::args().skip(1).collect();
    let number = |text: &String| text.parse::<u64>().unwrap_or_else(|_| usage());
    match &args[..] {
        [what, program, folder, count, calls, seed] => {
            let program = Program::new(program, folder);
            let (count, calls, seed) = (number(count), number(calls) as usize, number(seed));
            let fine = match what.as_str() {
                "scripts" => run_scripts(&program, count, calls, seed),
                "answers" => match print_answers(&program, count, calls, seed) {
                    Ok(()) => true,
                    Err(e) => {
                        eprintln!("{e}");
                        false
                    }
                },
                _ => usage(),
            };
            exit(i32::from(!fine))
        }
        [what] if what == "outside" => outside::run(),
        [what, mix, rounds] if what == "bench" => bench::run(mix, number(rounds) as usize),
        _ => usage(),
    }
}
