//! Times rav1e's side: the same work as the repository's program `bench`.

use crate::calls::{Call, Script};
use crate::context::{CDFContextLog, ContextWriter, FrameBlocks};
use crate::ec::rust::update_cdf;
use crate::tile::{Tile, start_words, tables, words};
use crate::{digest, state_bytes};
use std::fs;
use std::process::exit;
use std::time::Instant;

/// The best time of `rounds` rounds behind one that is not timed, in nanoseconds for each of `count` pieces of work.
fn best(rounds: usize, count: usize, mut work: impl FnMut()) -> f64 {
    work();
    let times = (0..rounds).map(|_| {
        let start = Instant::now();
        work();
        start.elapsed().as_nanos()
    });
    times.min().unwrap_or(0) as f64 / count as f64
}

const TRIALS: usize = 1000;
const DECISIONS: usize = 64;

/// Whether decision `i` of a trial is 1.
fn flag(trial: usize, i: usize) -> bool {
    (7 * i + trial).is_multiple_of(3)
}

fn trials(rounds: usize) {
    let mut frame = FrameBlocks::new(16, 16);
    let mut blocks = frame.as_tile_blocks_mut();
    let mut start = tables(start_words());
    let mut tile = Tile::new(ContextWriter::over(&mut start, &mut blocks), 7);
    let time = best(rounds, TRIALS * DECISIONS, || {
        for trial in 0..TRIALS {
            tile.call(Call::Open);
            for i in 0..DECISIONS {
                tile.call(Call::Skip { x: 2 * (i % 8), y: 2 * (i / 8), size: 3, skip: flag(trial, i) });
            }
            tile.call(Call::Back(None));
            tile.call(Call::Keep(None));
        }
    });
    println!("trials {time:.2} ns a decision");
    println!("state {:016x}", digest(&state_bytes(&tile.state())));
}

fn mix(script: &Script, rounds: usize) {
    let mut frame = FrameBlocks::new(script.columns, script.rows);
    let mut blocks = frame.as_tile_blocks_mut();
    let mut start = tables(start_words());
    let mut tile = Tile::new(ContextWriter::over(&mut start, &mut blocks), script.last);
    let time = best(rounds, script.calls.len(), || {
        tile.restart();
        for &call in &script.calls {
            tile.call(call);
        }
    });
    println!("mix {time:.2} ns a call");
    println!("state {:016x}", digest(&state_bytes(&tile.state())));
}

/// What the log costs alone: 64 symbols by the three skip tables in turn, rolled back.
fn log(rounds: usize) {
    let mut fc = tables(start_words());
    let mut fc_log = CDFContextLog::default();
    let time = best(rounds, TRIALS * DECISIONS, || {
        for trial in 0..TRIALS {
            let mark = fc_log.mark();
            for i in 0..DECISIONS {
                let table = fc.offset(&fc.skip_cdfs[i % 3]);
                let words = fc_log.push(&mut fc, table);
                update_cdf(words, u32::from(flag(trial, i)));
            }
            fc_log.rollback(&mut fc, &mark);
        }
    });
    println!("log {time:.2} ns a symbol");
    println!("words {:016x}", digest(&words(&fc).map(u16::to_le_bytes).concat()));
}

fn read(path: &str) -> Option<Script> {
    let text = fs::read_to_string(path).ok()?;
    let mut lines = text.lines().filter(|line| !line.is_empty());
    let words: Vec<usize> = lines.next()?.strip_prefix("tile ")?.split(' ').map_while(|word| word.parse().ok()).collect();
    let [columns, rows, last] = words[..] else { return None };
    let calls = lines.map(Call::parse).collect::<Option<Vec<Call>>>()?;
    Some(Script { columns, rows, last, head: String::new(), calls })
}

/// Times all three, the mix by the calls of a script.
pub fn run(path: &str, rounds: usize) {
    let Some(script) = read(path) else {
        eprintln!("{path} is no script of calls");
        exit(2)
    };
    trials(rounds);
    mix(&script, rounds);
    log(rounds);
}
